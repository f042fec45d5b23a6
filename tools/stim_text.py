"""Texts in Stim's format: how a line is cut, and what each instruction takes.

`Refused` says why a line can't be converted. SECTIONS are the sections of docs/FROM_STIM.md that say what to do about it.
"""
import re

# Indent, name and targets are as long as they can be: trying shorter ones would take a time that grows with the square of a line.
LINE = re.compile(
    r"(?P<indent>[ \t\r]*)(?![ \t\r])(?P<name>[^ \t\r\[({}#]*)(?![^ \t\r\[({}#])"
    r"(?P<tag>[ \t\r]*\[[^\]]*\])?([ \t\r]*\((?P<arguments>[^)#]*)\))?"
    r"(?P<targets>[^#{}]*)(?![^#{}])(?P<brace>[{}]?)[ \t\r]*(#.*)?", re.DOTALL)
NAME = re.compile(r"[ \t\r]*([^ \t\r\[({}#]*)")
WORD = re.compile(r"[^ \t\r]+")
STAR = re.compile(r"[ \t\r]*\*[ \t\r]*")
QUBIT_NUMBER = re.compile(r"(?<![-\d\[])\d+")  # not the number of rec[-1] or of sweep[0]

SECTIONS = {
    "channels": "Channels that no independent faults make",
    "exclusive": "Errors that exclude one another",
    "heralds": "Heralded errors",
    "observables": "Observables of Pauli products",
    "coordinates": "Coordinates",
    "qubits": "Qubits",
    "sweep": "Sweep bits",
    "approximate": "Approximate channels",
    "slips": "Other lines that are refused",
}

# Arguments: how few, how many, and of which kind. Targets: the form of each.
NONE, FLIP, ANY, COORDINATES = (0, 0, ""), (0, 1, "probability"), (0, 16, "probability"), (0, 16, "coordinate")
ONE, THREE, FOUR, FIFTEEN = ((count, count, "probability") for count in (1, 3, 4, 15))
QUBIT, INVERTIBLE, RECORD, LETTER = r"\d+", r"!?\d+", r"rec\[-0*[1-9]\d*\]", r"!?[XYZxyz]\d+"
PRODUCT, FEEDBACK, INCLUDED = rf"{LETTER}(?:\*{LETTER})*", rf"{QUBIT}|{RECORD}", rf"{RECORD}|{LETTER}"

# What each instruction takes: its arguments, its targets, and how many of these belong together.
INSTRUCTIONS = {
    **dict.fromkeys("I X Y Z H H_XZ H_XY H_YZ S S_DAG SQRT_Z SQRT_Z_DAG SQRT_X SQRT_X_DAG SQRT_Y SQRT_Y_DAG C_XYZ C_ZYX R RZ "
                    "RX RY H_NXY H_NXZ H_NYZ C_NXYZ C_XNYZ C_XYNZ C_NZYX C_ZNYX C_ZYNX".split(), (NONE, QUBIT, 1)),
    **dict.fromkeys("CX CNOT ZCX CY ZCY CZ ZCZ XCZ YCZ".split(), (NONE, FEEDBACK, 2)),
    **dict.fromkeys("XCX XCY YCX YCY SWAP ISWAP ISWAP_DAG SQRT_XX SQRT_XX_DAG SQRT_YY SQRT_YY_DAG SQRT_ZZ SQRT_ZZ_DAG "
                    "CXSWAP SWAPCX CZSWAP SWAPCZ II".split(), (NONE, QUBIT, 2)),
    **dict.fromkeys("M MZ MX MY MR MRZ MRX MRY".split(), (FLIP, INVERTIBLE, 1)),
    **dict.fromkeys("MXX MYY MZZ".split(), (FLIP, INVERTIBLE, 2)),
    **dict.fromkeys("SPP SPP_DAG".split(), (NONE, PRODUCT, 1)), "MPP": (FLIP, PRODUCT, 1), "MPAD": (FLIP, "[01]", 1),
    **dict.fromkeys("X_ERROR Y_ERROR Z_ERROR DEPOLARIZE1 HERALDED_ERASE".split(), (ONE, QUBIT, 1)),
    **dict.fromkeys("CORRELATED_ERROR E ELSE_CORRELATED_ERROR".split(), (ONE, LETTER, 1)),
    "PAULI_CHANNEL_1": (THREE, QUBIT, 1), "HERALDED_PAULI_CHANNEL_1": (FOUR, QUBIT, 1),
    "DEPOLARIZE2": (ONE, QUBIT, 2), "PAULI_CHANNEL_2": (FIFTEEN, QUBIT, 2),
    "I_ERROR": (ANY, QUBIT, 1), "II_ERROR": (ANY, QUBIT, 2),
    "DETECTOR": (COORDINATES, RECORD, 1), "OBSERVABLE_INCLUDE": ((1, 1, "observable"), INCLUDED, 1), "TICK": (NONE, "", 1),
    "SHIFT_COORDS": (COORDINATES, "", 1), "QUBIT_COORDS": ((0, 16, "decimal"), QUBIT, 1),
}
MODEL_LINES = {
    "ERROR": (ONE, r"[DL]\d+|\^", 1), "DETECTOR": (COORDINATES, r"D\d+", 1), "LOGICAL_OBSERVABLE": (NONE, r"L\d+", 1),
    "SHIFT_DETECTORS": (COORDINATES, r"\d+", 1),
}
TARGETS = {form: re.compile(rf"(?:{form})(?: (?:{form}))*") for table in (INSTRUCTIONS, MODEL_LINES)
           for _, form, _ in table.values() if form}

# Instructions that measure or reset, and those that are neither these nor gates.
COLLAPSES = {*"M MZ MX MY MR MRZ MRX MRY MXX MYY MZZ MPP MPAD R RZ RX RY HERALDED_ERASE HERALDED_PAULI_CHANNEL_1".split()}
NO_GATES = {*"X_ERROR Y_ERROR Z_ERROR DEPOLARIZE1 DEPOLARIZE2 PAULI_CHANNEL_1 PAULI_CHANNEL_2 CORRELATED_ERROR E I_ERROR "
            "II_ERROR ELSE_CORRELATED_ERROR I II DETECTOR OBSERVABLE_INCLUDE TICK SHIFT_COORDS QUBIT_COORDS".split()}


class Refused(Exception):
    """Why a line can't be converted, and the section that says what to do instead."""

    def __init__(self, reason, section=None):
        super().__init__(reason + (f' (docs/FROM_STIM.md, "{SECTIONS[section]}")' if section else ""))


def shown(text):
    """A piece of a text in quotes, for a message."""
    return repr(text if len(text) <= 40 else text[:37] + "...")


def name_of(text):
    """The name at the beginning of a line, in capitals."""
    return NAME.match(text)[1].upper()


def split(text):
    return WORD.findall(text)


def cut_into(targets, size):
    return [targets[at:at + size] for at in range(0, len(targets), size)]


def number_of(digits):
    """A number of any length, exact up to 10^40: zeros in front may be many, and none has so many digits that counts."""
    return int(digits) if len(digits) <= 40 else int(digits.lstrip("0")[:41] or 0)


def name_qubits(target):
    """The qubits that targets name, and none where one is a record."""
    return list(map(number_of, QUBIT_NUMBER.findall(target)))


def read_arguments(parts):
    arguments = [argument.strip(" \t\r") for argument in (parts["arguments"] or "").split(",")]
    return [] if arguments == [""] else arguments


def is_instruction(parts):
    """Whether there is more on a line than blanks, a comment and a closing brace."""
    return bool(parts["name"] or parts["tag"] or split(parts["targets"]) or parts["arguments"] is not None)


class Line:
    """An instruction, cut. `change` is made of the text of its targets before that is cut."""

    def __init__(self, parts, change):
        self.name, self.indent, self.tag = parts["name"].upper(), parts["indent"], parts["tag"] or ""
        self.parts, self.arguments = parts, read_arguments(parts)
        self.changed = change(self.name, parts["targets"])
        self.targets = split(STAR.sub("*", self.changed) if "*" in self.changed else self.changed)

    def write(self, name, arguments, targets):
        """Another instruction in its place."""
        return f"{self.indent}{name}{self.tag}{f'({arguments})' * bool(arguments)} {' '.join(targets)}".rstrip(" ")

    def write_comment(self, mark=""):
        """The line as it stood, as a comment."""
        return f"{self.indent}# {mark}{self.parts.string[len(self.indent):]}"

    def write_with(self, arguments):
        """The line with these arguments, and with its targets as they were changed; all else stays."""
        text, parts = self.parts.string, self.parts
        rest = self.changed + text[parts.end("targets"):]
        if arguments == self.arguments:
            return text if self.changed == parts["targets"] else text[:parts.start("targets")] + rest
        return text[:parts.start("arguments")] + ", ".join(arguments) + text[parts.end("arguments"):parts.start("targets")] + rest


def check_targets(line, table):
    """That the targets have the form that the instruction takes; the limit on qubits is another question."""
    _, form, size = table[line.name]
    joined = " ".join(line.targets)
    if line.targets and not (form and TARGETS[form].fullmatch(joined)):
        name_wrong_target(line, form)
    if len(line.targets) % size or (line.name == "SHIFT_DETECTORS" and len(line.targets) != 1):
        raise Refused(f"{line.name} doesn't take {len(line.targets)} targets")
    if size == 2:
        numbers = [None if "rec" in target else number_of(target.lstrip("!")) for target in line.targets]
        if any(first == second is not None for first, second in zip(numbers[::2], numbers[1::2])):
            raise Refused(f"{line.name} names a qubit twice in a pair")


def name_wrong_target(line, form):
    for target in line.targets:
        if "sweep" in target:
            raise Refused(f"{shown(target)}: sweep bits come from outside the circuit, and stabsim has none", "sweep")
        if not form or not re.fullmatch(form, target):
            raise Refused(f"{shown(target)} is no target that {line.name} takes here", "slips")
