"""Numbers of the qubits of a circuit: new ones in the order of first use, and one that no line names."""
from functools import cached_property

from stim_gates import has_qubit_twice, multiply_factors
from stim_text import LINE, QUBIT_NUMBER, STAR, Refused, name_of, name_qubits, number_of, split

MOST_QUBITS, MOST_OF_STIM = 4096, 2**24
# Lines whose numbers are no qubits.
WITHOUT_QUBITS = ("", "MPAD", "REPEAT", "DETECTOR", "SHIFT_COORDS", "TICK")
# Instructions with records that need a spare qubit.
WITH_SPARE = ("MPAD", "HERALDED_ERASE", "HERALDED_PAULI_CHANNEL_1")


class Qubits:
    """The qubits that something is done to, in the order of their first use, and those that have coordinates alone."""

    def __init__(self, lines, is_renumbered):
        self.used, placed, needs_spare = {}, {}, False
        for text in dict.fromkeys(lines):
            name, parts = name_of(text), LINE.fullmatch(text)
            if parts and name not in WITHOUT_QUBITS:
                (placed if name == "QUBIT_COORDS" else self.used).update(dict.fromkeys(name_qubits(parts["targets"])))
            needs_spare |= name in WITH_SPARE or (name == "MPP" and bool(parts) and has_empty_product(parts["targets"]))
        self.placed = [qubit for qubit in placed if qubit not in self.used]
        self.numbers = self.number(needs_spare) if is_renumbered else None

    def number(self, needs_spare):
        """The new number of each: first of the used ones; then, behind a spare one where that is needed, of the others.

        None where these are the old numbers.
        """
        numbers = {qubit: at for at, qubit in enumerate(self.used)}
        numbers.update((qubit, at) for at, qubit in enumerate(self.placed, len(self.used) + needs_spare))
        return numbers if any(qubit != at for qubit, at in numbers.items()) else None

    @cached_property
    def spare(self):
        """A qubit that no line names: the one behind all, or, where there is none, the first one between them."""
        if self.numbers is not None:
            spare = len(self.used)
        else:
            named = {*self.used, *self.placed}
            spare = max(named, default=-1) + 1
            if spare >= MOST_QUBITS:
                spare = next(qubit for qubit in range(len(named) + 1) if qubit not in named)
        if spare >= MOST_QUBITS:
            raise Refused("a record of a known bit needs a qubit that is never used, and none is free", "qubits")
        return spare

    def rename(self, targets):
        """Targets with the new numbers of their qubits."""
        if any(qubit >= MOST_OF_STIM for qubit in name_qubits(targets)):
            raise Refused(f"the greatest qubit of Stim is {MOST_OF_STIM - 1}")
        if self.numbers is None:
            return targets
        return QUBIT_NUMBER.sub(lambda found: str(self.numbers[number_of(found[0])]), targets)

    def describe(self):
        """The old numbers, for a comment."""
        old = sorted((at, qubit) for qubit, at in self.numbers.items() if at < MOST_QUBITS)
        return f"# The qubits {' '.join(str(at) for at, _ in old)} were {' '.join(str(qubit) for _, qubit in old)}."


def has_empty_product(targets):
    """Whether nothing is left of some product, once it is multiplied out."""
    return any(has_qubit_twice(text) and not multiply_factors(text.split("*"))[1] for text in split(STAR.sub("*", targets))
               if all(factor.lstrip("!")[:1].isalpha() and factor.lstrip("!")[1:].isdecimal() for factor in text.split("*")))
