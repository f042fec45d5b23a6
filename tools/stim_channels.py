"""Noise channels of Stim as independent faults: Pauli products, each with a probability of its own.

docs/FROM_STIM.md has the formulas.
"""
from decimal import ROUND_HALF_EVEN, Decimal
from fractions import Fraction
from functools import lru_cache
from itertools import product

from stim_gates import multiply_factors
from stim_numbers import read_number, read_probability, write_probability, write_quotient
from stim_text import Refused, cut_into

# A longer chain of errors that exclude one another isn't asked whether it is a channel on one qubit or two.
MOST_CASES = 64


class NotIndependent(Refused):
    """No independent faults make the channel."""


def anticommute(first, second):
    """Whether two words do, each of which has a letter a qubit."""
    return sum(a != b and "I" not in (a, b) for a, b in zip(first, second)) % 2 == 1


@lru_cache(None)
def list_words(qubits):
    """All words but I, in alphabetic order."""
    return ["".join(letters) for letters in product("IXYZ", repeat=qubits)][1:]


def find_faults(chances):
    """The independent faults, as (word, probability text) pairs, that together make a Pauli channel on one or two qubits.

    `chances` are the channel's probabilities of all words but I, in alphabetic order. The channel's eigenvalue of a word is the
    product of 1 - 2q over the faults that anticommute with the word. Solved for the fault of one word, (1 - 2q) to the
    power 4^n / 2 is the product of the eigenvalues of the words that anticommute with it, divided by all others.
    """
    qubits = 1 if len(chances) == 3 else 2
    words = list_words(qubits)
    if sum(chances) > 1:
        raise Refused("the probabilities come to more than 1")
    if sum(chance > 0 for chance in chances) < 2:
        return list_cases(words, chances)
    eigenvalues = [1 - 2 * sum(c for other, c in zip(words, chances) if anticommute(word, other)) for word in words]
    if not any(eigenvalues):
        return [(word, "0.5") for word in words]
    if min(eigenvalues) <= 0:
        raise NotIndependent("the channel mixes too much to be made of independent faults: an eigenvalue isn't positive",
                             "channels")
    faults = []
    for word in words:
        power = Fraction(1)
        for other, eigenvalue in zip(words, eigenvalues):
            power *= eigenvalue if anticommute(word, other) else 1 / eigenvalue
        if power > 1:
            raise NotIndependent(f"no independent faults make this channel: that of {word} would need a negative probability",
                                 "channels")
        root = Decimal(power.numerator) / power.denominator
        for _ in range(2 * qubits - 1):
            root = root.sqrt()
        chance = ((1 - root) / 2).quantize(Decimal("1e-150"), ROUND_HALF_EVEN)
        if chance:
            faults.append((word, write_probability(chance)))
    return faults


def list_cases(words, chances):
    """Each case of a channel as a fault of its own."""
    return [(word, write_quotient(chance)) for word, chance in zip(words, chances) if chance]


@lru_cache(1 << 12)
def find_channel(name, arguments, may_approximate):
    """The faults of an instruction, and whether they are approximate."""
    qubits = 2 if name.endswith("2") else 1
    chances = [Fraction(read_number(text)) for text in arguments]
    if name.startswith("DEPOLARIZE"):
        return find_faults([chances[0] / (4**qubits - 1)] * (4**qubits - 1)), False
    try:
        return find_faults(chances), False
    except NotIndependent:
        if not may_approximate:
            raise
        return list_cases(list_words(qubits), chances), True


def replace_channel(line, may_approximate):
    """The lines of a channel's faults, and whether they are approximate."""
    faults, is_approximate = find_channel(line.name, tuple(line.arguments), may_approximate)
    if line.name.endswith("1"):
        return [line.write(f"{word}_ERROR", chance, line.targets) for word, chance in faults], is_approximate
    begin = line.write("E", "", []).replace("%", "%%")
    form = "\n".join(f"{begin}({chance}) " + " ".join(f"{letter}%({side})s" for letter, side in zip(word, "ab") if letter != "I")
                     for word, chance in faults)
    return [form % {"a": first, "b": second} for first, second in cut_into(line.targets, 2) if form], is_approximate


def replace_herald(line, may_approximate, find_spare):
    """Of each target, a fault for each case, which flips a spare qubit too, and the record of that qubit, which is reset.

    This is the same where there is one case.
    """
    chances = [Fraction(read_number(text)) for text in line.arguments]
    cases = [chances[0] / 4] * 4 if line.name == "HERALDED_ERASE" else chances
    if sum(cases) > 1:
        raise Refused("the probabilities come to more than 1")
    faults = list_cases("IXYZ", cases)
    if len(faults) > 1 and not may_approximate:
        raise NotIndependent(f"{line.name} can't be converted: errors that come only with their herald aren't independent",
                             "heralds")
    spare = str(find_spare())
    lines = []
    for qubit in line.targets:
        lines += [line.write("E", chance, ["X" + spare] + [letter + qubit] * (letter != "I")) for letter, chance in faults]
        lines.append(line.write("MR", "", [spare]))
    return lines, len(faults) > 1


# Errors that exclude one another

def find_chain(lines):
    """The faults of CORRELATED_ERROR and what follows it, as (letters, probability text) pairs; None where none are the same.

    Its cases are (letters, probability) pairs: each happens only where none before it did.
    """
    cases, rest = {}, Fraction(1)
    for line in lines:
        chance = Fraction(read_probability(line.arguments[0]))
        _, letters = multiply_factors(line.targets)
        key = tuple(sorted(letters.items()))
        cases[key] = cases.get(key, 0) + chance * rest
        rest *= 1 - chance
    cases = {key: chance for key, chance in cases.items() if key and chance}
    qubits = sorted({qubit for key in cases for qubit, _ in key})
    if len(cases) < 2:
        return [(dict(key), write_quotient(chance)) for key, chance in cases.items()]
    if len(qubits) > 2:
        return None
    chances = dict.fromkeys(list_words(len(qubits)), Fraction(0))
    for key, chance in cases.items():
        chances["".join(dict(key).get(qubit, "I") for qubit in qubits)] = chance
    try:
        faults = find_faults(list(chances.values()))
    except NotIndependent:
        return None
    return [({qubit: letter for qubit, letter in zip(qubits, word) if letter != "I"}, chance) for word, chance in faults]


def approximate_chain(lines):
    """The probability of each case of a chain, as texts: that it happens, and none before it did."""
    rest, chances = Decimal(1), []
    for line in lines:
        chance = read_probability(line.arguments[0])
        chances.append(write_probability(chance * rest))
        rest *= 1 - chance
    return chances


def replace_chain(lines, may_approximate):
    """For each line of a chain the lines in its place, or None where it stays; and whether those are approximate."""
    faults = find_chain(lines) if len(lines) <= MOST_CASES else None
    if faults is not None:
        first = [lines[0].write("E", chance, [letter + str(qubit) for qubit, letter in letters.items()])
                 for letters, chance in faults]
        return [first] + [[]] * (len(lines) - 1), False
    if not may_approximate:
        raise NotIndependent("ELSE_CORRELATED_ERROR can't be converted: errors that exclude one another aren't independent",
                             "exclusive")
    return [None] + [[line.write("E", chance, [target.lstrip("!") for target in line.targets])]
                     for line, chance in list(zip(lines, approximate_chain(lines)))[1:]], True
