"""Gates and measurements that stabsim leaves out, as those that it has."""
import re

from stim_text import FEEDBACK, INSTRUCTIONS, Refused, cut_into, name_qubits, number_of, shown

# Two gates, one after the other, that make one which stabsim leaves out.
TWO_GATES = {
    "H_NXY": ("H_XY", "Z"), "H_NXZ": ("H", "Y"), "H_NYZ": ("H_YZ", "X"), "C_NXYZ": ("C_XYZ", "Z"), "C_XNYZ": ("C_XYZ", "X"),
    "C_XYNZ": ("C_XYZ", "Y"), "C_NZYX": ("C_ZYX", "X"), "C_ZNYX": ("C_ZYX", "Z"), "C_ZYNX": ("C_ZYX", "Y"),
    "CXSWAP": ("CX", "SWAP"), "SWAPCX": ("SWAP", "CX"), "CZSWAP": ("CZ", "SWAP"), "SWAPCZ": ("CZ", "SWAP"),
}
# The product of two letters: a power of i, and a letter.
TIMES = {"XY": (1, "Z"), "YZ": (1, "X"), "ZX": (1, "Y"), "YX": (3, "Z"), "ZY": (3, "X"), "XZ": (3, "Y")}
CONTROLLED = {"CNOT": "CX", "ZCX": "CX", "ZCY": "CY", "ZCZ": "CZ"}


def replace_by_two(name, targets):
    """Two gates in place of each: on many targets at once up to where a qubit comes again, since there the order matters."""
    runs, seen = [[]], set()
    for group in cut_into(targets, INSTRUCTIONS[name][2]):
        qubits = {number_of(qubit) for qubit in group}
        if seen & qubits:
            runs.append([])
            seen = set()
        runs[-1] += group
        seen |= qubits
    return [(gate, "", run) for run in runs for gate in TWO_GATES[name]]


def multiply_factors(factors):
    """The power of i, from 0 to 3, and the letter of each qubit on which it isn't I, of a product of letters at qubits."""
    letters, power = {}, 0
    for factor in factors:
        power += 2 * factor.startswith("!")
        letter, qubit = factor.lstrip("!")[0].upper(), number_of(factor.lstrip("!")[1:])
        before = letters.pop(qubit, "I")
        turn, after = TIMES.get(before + letter, (0, "I" if before == letter else letter))
        power += turn
        if after != "I":
            letters[qubit] = after
    return power % 4, letters


def multiply(text):
    """Whether a product has the sign minus, and its letters."""
    power, letters = multiply_factors(text.split("*"))
    if power % 2:
        raise Refused(f"the product {shown(text)} is anti-Hermitian", "slips")
    return power == 2, letters


def replace_generalized_s(name, text):
    """SPP of one product: turn each letter into Z, bring their parity to the last qubit, apply S there, and go back."""
    minus, letters = multiply(text)
    dagger = "_DAG" if minus != (name == "SPP_DAG") else ""
    qubits, kinds = [str(qubit) for qubit in letters], list(letters.values())
    if not qubits:
        return []
    if len(qubits) < 3 and len(set(kinds)) == 1:
        kind = kinds[0] * len(qubits)
        return [(("S" if kind == "Z" else f"SQRT_{kind}") + dagger, "", qubits)]
    turns = [(gate, "", [qubit for qubit, letter in zip(qubits, kinds) if letter == kind])
             for gate, kind in (("H", "X"), ("H_YZ", "Y")) if kind in kinds]
    turns.append(("CX", "", [target for qubit in qubits[:-1] for target in (qubit, qubits[-1])]))
    return turns + [("S" + dagger, "", qubits[-1:])] + turns[::-1]


def write_letters(letters):
    return "*".join(letter + str(qubit) for qubit, letter in letters.items())


def write_product(text, find_spare):
    """A product of MPP multiplied out. Where nothing but a sign is left, it is Z of a spare qubit, which is 0."""
    minus, letters = multiply(text)
    return "!" * minus + (write_letters(letters) or f"Z{find_spare()}")


def has_qubit_twice(text):
    qubits = name_qubits(text)
    return len(set(qubits)) < len(qubits)


def replace_feedback(name, targets):
    """A controlled gate with records among its targets: CX, CY or CZ with the record first of its pair."""
    kind, pairs = CONTROLLED.get(name, name), cut_into(targets, 2)
    if kind in ("XCZ", "YCZ"):
        kind, pairs = "C" + kind[0], [pair[::-1] for pair in pairs]
    if kind == "CZ":
        pairs = [pair for pair in pairs if any(map(name_qubits, pair))]
    elif not all(name_qubits(second) for _, second in pairs):
        raise Refused("a record can control a gate, but no gate changes it", "slips")
    return [(kind, "", [target for pair in pairs for target in pair])] if pairs else []


def replace_gate(line, arguments, find_spare):
    """The instructions in place of one that stabsim leaves out, as (name, arguments, targets), or None where it stays."""
    name, targets, joined = line.name, line.targets, ", ".join(arguments)
    if name in TWO_GATES:
        return replace_by_two(name, targets)
    if name in ("SPP", "SPP_DAG"):
        return [step for text in targets for step in replace_generalized_s(name, text)]
    if name in ("MXX", "MYY", "MZZ"):
        letters = [re.sub(r"(\d+)", rf"{name[1]}\1", target) for target in targets]
        return [("MPP", joined, ["*".join(pair) for pair in cut_into(letters, 2)])]
    if name == "MPAD":
        return [("M", joined, ["!" * int(target) + str(find_spare()) for target in targets])]
    if name in ("I_ERROR", "II", "II_ERROR"):
        return [("I", "", targets)]
    if name == "MPP" and any(map(has_qubit_twice, targets)):
        return [("MPP", joined, [write_product(text, find_spare) for text in targets])]
    if name in ("E", "CORRELATED_ERROR") and any("!" in target for target in targets):
        return [("E", joined, [target.lstrip("!") for target in targets])]
    if INSTRUCTIONS[name][1] == FEEDBACK and any("rec" in target for target in targets):
        steps = replace_feedback(name, targets)
        return None if [target for _, _, kept in steps for target in kept] == targets else steps
    return None
