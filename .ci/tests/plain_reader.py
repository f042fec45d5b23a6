"""Whether a circuit's text is taken, or why it is refused, by docs/FORMATS.md. Nothing of the program is used.

The totals, causes 23 to 25, are not counted: the texts that are read here are far below their limits.
"""
import re

BLANKS = b" \t\r"

MOST_QUBIT = 4_095

# The greatest of the numbers that have no limit of their own, and the greatest magnitude of a coordinate.
MOST = 10**18 - 1
MOST_COORDINATE = 10**9

# Names, with blanks between them, by what their instruction takes.
NAMES = {
    "gate": "I X Y Z H H_XZ H_XY H_YZ S SQRT_Z S_DAG SQRT_Z_DAG SQRT_X SQRT_X_DAG SQRT_Y SQRT_Y_DAG C_XYZ C_ZYX",
    "pairs": "XCX XCY XCZ YCX YCY YCZ SWAP ISWAP ISWAP_DAG SQRT_XX SQRT_XX_DAG SQRT_YY SQRT_YY_DAG SQRT_ZZ SQRT_ZZ_DAG",
    # Pairs whose first may be a record, and pairs of which one may be.
    "fed": "CX CNOT ZCX CY ZCY",
    "fed either way": "CZ ZCZ",
    "measured": "M MZ MX MY MR MRZ MRX MRY",
    "reset": "R RZ RX RY",
    "products": "MPP",
    "error": "X_ERROR Y_ERROR Z_ERROR",
    "correlated": "E CORRELATED_ERROR",
    "detector": "DETECTOR",
    "observable": "OBSERVABLE_INCLUDE",
    "tick": "TICK",
    "qubit coordinates": "QUBIT_COORDS",
    "shift": "SHIFT_COORDS",
    "repeat": "REPEAT",
    "left out": "DEPOLARIZE1 DEPOLARIZE2 PAULI_CHANNEL_1 PAULI_CHANNEL_2 HERALDED_ERASE HERALDED_PAULI_CHANNEL_1"
    " ELSE_CORRELATED_ERROR I_ERROR II II_ERROR MXX MYY MZZ MPAD SPP SPP_DAG CXSWAP SWAPCX CZSWAP SWAPCZ H_NXY H_NXZ"
    " H_NYZ C_NXYZ C_XNYZ C_XYNZ C_NZYX C_ZNYX C_ZYNX",
}

KINDS = {name.encode(): kind for kind, names in NAMES.items() for name in names.split()}

# How many arguments a line takes, at least and at most; of the others none.
COUNTS = {
    "measured": (0, 1), "products": (0, 1), "error": (1, 1), "correlated": (1, 1), "observable": (1, 1),
    "detector": (0, 16), "shift": (0, 16), "qubit coordinates": (0, 16),
}

PAIRS = "pairs", "fed", "fed either way"


class Refused(Exception):
    """A line is refused for this cause."""


class Parts:
    """A line without its comment, cut. A tag or parentheses that aren't closed take what follows them."""

    def __init__(self, line):
        self.name, rest = re.match(rb"([^ \t\r[({}#]*)(.*)", line, re.DOTALL).groups()
        rest = rest.strip(BLANKS)
        self.code = self.arguments = self.targets = b""
        self.is_closed = True
        if rest.startswith(b"["):
            _, closed, rest = rest.partition(b"]")
            self.is_closed = bool(closed)
        if self.is_closed:
            self.cut(rest.partition(b"#")[0].strip(BLANKS))

    def cut(self, code):
        """Cuts what follows the name and the tag."""
        self.code = self.targets = code
        if code.startswith(b"("):
            arguments, closed, targets = code[1:].partition(b")")
            self.is_closed = bool(closed)
            self.arguments, self.targets = (arguments.strip(BLANKS), targets.strip(BLANKS)) if closed else (b"", b"")

    def has_strange_byte(self):
        return any(byte not in BLANKS and not 32 <= byte <= 126 for byte in self.name + self.code)

    def braces(self):
        return self.code.count(b"{") + self.code.count(b"}")

    def closes(self):
        return not self.name and self.code == b"}"

    def opens(self):
        """Its one brace is its last byte."""
        return self.braces() == 1 and self.code.endswith(b"{")


def parts_of(line):
    """The parts of a line, where it says something."""
    line = line.strip(BLANKS)
    return None if not line or line.startswith(b"#") else Parts(line)


def number(text):
    return int(text) if re.fullmatch(rb"[0-9]+", text) else None


def whole(text):
    """The magnitude of a whole number."""
    return number(text.removeprefix(b"-"))


def number_text(text):
    """The digits before and behind the point, and the exponent."""
    found = re.fullmatch(rb"([0-9]*)(?:\.([0-9]*))?(?:[eE]([+-]?[0-9]{1,3}))?", text)
    if not found or not found[1] and not found[2]:
        return None
    return found[1], found[2] or b"", int(found[3] or 0)


def is_probability(text):
    """At most 1, and 0 or of at most 18 digits from the first to the last that isn't 0, the last at most 38 behind the point."""
    found = number_text(text)
    if not found:
        return False
    whole_digits, fraction, exponent = found
    digits = whole_digits + fraction
    places = [place for place, digit in enumerate(digits, 1) if digit != ord("0")]
    if not places:
        return True
    first, last = places[0], places[-1]
    point = len(whole_digits) + exponent
    if first == last == point and digits[first - 1] == ord("1"):
        return True
    return first > point and last - first < 18 and last - point <= 38


def argument(kind, text):
    """Whether an argument is malformed, and whether it is beyond its limit."""
    if kind == "qubit coordinates":
        return number_text(text.removeprefix(b"-")) is None, False
    if kind in ("detector", "shift", "observable"):
        value, most = (number(text), MOST) if kind == "observable" else (whole(text), MOST_COORDINATE)
        return value is None, value is not None and value > most
    return not is_probability(text), False


def read_arguments(kind, text):
    """Whether an argument is beyond its limit."""
    arguments = [part.strip(BLANKS) for part in text.split(b",")] if text else []
    least, most = COUNTS.get(kind, (0, 0))
    if not least <= len(arguments) <= most or b"" in arguments:
        raise Refused(13)
    found = [argument(kind, part) for part in arguments]
    if any(malformed for malformed, _ in found):
        raise Refused(14 if kind in ("measured", "products", "error", "correlated") else 13)
    return any(beyond for _, beyond in found)


def record(text):
    """How far back a record target reaches."""
    found = re.fullmatch(rb"rec\[-([0-9]+)\]", text)
    return number(found[1]) or None if found else None


def letter(text):
    """The qubit of a letter at a qubit."""
    return number(text[1:]) if re.match(rb"[XYZxyz]", text) else None


class Targets:
    """What is wrong with targets, how many there are, a product being one, and how far back their records reach."""

    def __init__(self):
        self.malformed = self.beyond = self.same_qubit = False
        self.count = self.reach = 0

    def take(self, value, most):
        """Takes a target in: the number of its form, if it has that form."""
        if value is None:
            self.malformed = True
        else:
            self.beyond |= value > most


def pieces_of(text):
    """What stands between blanks."""
    return [piece for piece in re.split(rb"[ \t\r]", text) if piece]


def singles(kind, text):
    """Targets that are taken one by one."""
    targets = Targets()
    for piece in pieces_of(text):
        value, most = single(kind, piece)
        targets.take(value, most)
        targets.reach = max(targets.reach, value or 0)
        targets.count += 1
    return targets


def single(kind, text):
    """The number of a target, and its limit."""
    if kind == "measured":
        return number(text.removeprefix(b"!")), MOST_QUBIT
    if kind == "correlated":
        return letter(text), MOST_QUBIT
    if kind in ("detector", "observable"):
        return record(text), MOST
    return number(text), MOST if kind == "repeat" else MOST_QUBIT


def pairs(kind, text):
    targets = Targets()
    members = [(number(piece), record(piece)) for piece in pieces_of(text)]
    for place, (qubit, back) in enumerate(members):
        first = members[place - 1] if place % 2 else None
        if qubit is not None:
            targets.take(qubit, MOST_QUBIT)
            targets.same_qubit |= first is not None and first[0] == qubit
        else:
            fits = kind != "pairs" if first is None else kind == "fed either way" and first[1] is None
            targets.take(back if fits else None, MOST)
            targets.reach = max(targets.reach, back or 0)
    targets.count = len(members)
    return targets


def products(text):
    """Products, which may have blanks round a `*`."""
    targets = Targets()
    found = re.sub(rb"[ \t\r]*\*[ \t\r]*", b"*", text)
    for product in pieces_of(found):
        qubits = [letter(factor.removeprefix(b"!")) for factor in product.split(b"*")]
        for qubit in qubits:
            targets.take(qubit, MOST_QUBIT)
        named = [qubit for qubit in qubits if qubit is not None]
        targets.same_qubit |= len(set(named)) < len(named)
        targets.count += 1
    return targets


def read_targets(kind, text):
    if kind in PAIRS:
        return pairs(kind, text)
    if kind == "products":
        return products(text)
    if kind in ("tick", "shift"):
        # The targets of these aren't read.
        targets = Targets()
        targets.count = len(text.strip(BLANKS))
        return targets
    return singles(kind, text)


def is_miscounted(kind, count):
    if kind in PAIRS:
        return count % 2 == 1
    if kind in ("tick", "shift"):
        return count > 0
    return kind == "repeat" and count != 1


def line_of(parts, depth):
    """The kind of a line that isn't the end of a block, and its targets, where so many blocks are open."""
    kind = KINDS.get(parts.name.upper(), "unknown")
    opens = kind == "repeat" and parts.opens()
    causes = [
        (10, parts.has_strange_byte()),
        (18, (kind == "repeat") != opens or (parts.braces() > 0) != opens),
        (11, kind == "unknown"),
        (12, kind == "left out"),
        (13, not parts.is_closed),
    ]
    raise_first(causes)
    beyond = read_arguments(kind, parts.arguments)
    targets = read_targets(kind, parts.targets.removesuffix(b"{") if kind == "repeat" else parts.targets)
    causes = [
        (15, targets.malformed),
        (20, beyond or targets.beyond),
        (16, is_miscounted(kind, targets.count)),
        (17, targets.same_qubit),
        (19, kind == "repeat" and targets.reach == 0),
        (21, kind == "repeat" and depth >= 32),
    ]
    raise_first(causes)
    return kind, targets


def raise_first(causes):
    for cause, holds in causes:
        if holds:
            raise Refused(cause)


class Reader:
    """What is known of a text up to a line: the open blocks, and how many records its turns have so far.

    A block is its line, its turns, and how many records there were before it.
    """

    def __init__(self):
        self.blocks = []
        self.records = 0
        self.too_far = None

    def read(self, parts, line):
        """Takes a line in."""
        if not parts.closes():
            self.take(*line_of(parts, len(self.blocks)), line)
        elif not self.blocks:
            raise Refused(18)
        else:
            _, turns, before = self.blocks.pop()
            self.records = before + (self.records - before) * turns

    def take(self, kind, targets, line):
        if kind == "repeat":
            self.blocks.append((line, targets.reach, self.records))
        elif kind in ("measured", "products"):
            self.records += targets.count
        elif kind in ("detector", "observable", "fed", "fed either way") and targets.reach > self.records:
            self.too_far = self.too_far or line


def refusal_of(text):
    """The cause by which a text is refused, and the line; None where it is taken."""
    reader = Reader()
    for line, content in enumerate(text.split(b"\n"), 1):
        parts = parts_of(content)
        if parts:
            try:
                reader.read(parts, line)
            except Refused as refused:
                return refused.args[0], line
    if reader.blocks:
        return 18, reader.blocks[-1][0]
    return (22, reader.too_far) if reader.too_far else None
