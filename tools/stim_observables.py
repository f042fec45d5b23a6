"""Observables of Pauli products, as products that are measured: where that is the same.

Stim's OBSERVABLE_INCLUDE(0) X1 Z2 says that a fault flips the observable where it anticommutes with X1*Z2 there. MPP X1*Z2 makes
a record that the same faults flip. It also makes random what is measured later and anticommutes with the product. Where nothing
is measured or reset later but such products, with no gate between them, and all of these commute, nothing is: so this is where
they are measured. Their records come behind all others, and record targets behind them reach back further by as many.
"""
import re

from stim_gates import multiply_factors, write_letters
from stim_text import COLLAPSES, LETTER, LINE, NO_GATES, Refused, name_of, split


class Products:
    """The lines of a circuit that include products, by their numbers; where one can't be measured, the reason."""

    def __init__(self, lines):
        self.reasons, self.found = {}, {}
        last = self.find_products(lines)
        for at in self.found:
            if at < last:
                self.reasons[at] = f"line {last} measures or resets behind it, and that might become random"
        self.find_anticommuting()

    def find_products(self, lines):
        """Finds the lines with products, and answers the last line that measures or resets."""
        depth, last, first, gate = 0, 0, None, None
        for at, text in enumerate(lines, 1):
            name = name_of(text)
            if name == "REPEAT":
                depth += 1
            elif not name:
                depth -= "}" in text.partition("#")[0]
            elif name in COLLAPSES:
                last, first, gate = at, None, None
            elif name == "OBSERVABLE_INCLUDE" and find_letters(split_targets(text)):
                self.found[at] = multiply_factors(find_letters(split_targets(text)))[1]
                first = first or at
                if depth > 0:
                    self.reasons[at] = "it stands in a block, so it would be measured in each turn"
                elif gate:
                    self.reasons[at] = f"line {gate} is a gate between it and that of line {first}"
            elif first and name not in NO_GATES:
                gate = gate or at
        return last

    def find_anticommuting(self):
        """Finds the products that anticommute with one before them."""
        seen = {}
        for at, letters in self.found.items():
            if at in self.reasons:
                continue
            for other, before in seen.values():
                if sum(before.get(qubit, letter) != letter for qubit, letter in letters.items()) % 2:
                    self.reasons[at] = f"it and that of line {other} anticommute, so measuring one makes the other random"
                    break
            seen.setdefault(frozenset(letters.items()), (at, letters))

    def check(self, at):
        if at in self.reasons:
            raise Refused("the product can't be measured: " + self.reasons[at], "observables")


def split_targets(text):
    parts = LINE.fullmatch(text)
    return split(parts["targets"]) if parts else []


def find_letters(targets):
    """The letters at qubits among the targets of an observable."""
    return [target for target in targets if re.fullmatch(LETTER, target)]


def replace_product(line, arguments):
    """The lines in place of one that includes a product; its records are told to reach back behind that of the product."""
    product = write_letters(multiply_factors(find_letters(line.targets))[1])
    records = [target for target in line.targets if target.startswith("rec")]
    if not product:
        return [line.write("OBSERVABLE_INCLUDE", arguments, records)]
    return [line.write("MPP", "", [product]), line.write("OBSERVABLE_INCLUDE", arguments, ["rec[-1]"] + records)]
