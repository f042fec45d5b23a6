#!/usr/bin/env python3
"""Writes a circuit of the rotated surface code that keeps a logical 0, as Stim's generator does with its four kinds of noise.

    tools/rotated_code.py --distance 5 --probability 0.004 | tools/from_stim.py > code.stim

Each kind has the same probability: depolarizing noise behind each gate, and on the data qubits before each round; a flip behind
each reset, and before each measurement. tools/from_stim.py writes the circuit in the form that stabsim reads; at distance 45, where
Stim's numbers pass the greatest qubit, with --renumber.

This program is tested and NOT proved. Exit statuses: 0 done, 1 the circuit can't be written, 2 the options are wrong, 130
interrupted.
"""
import argparse
import re
import sys

import script_streams as streams

# The places of the four data qubits round a check, in the order in which it meets them. The orders of the two kinds differ: so
# an error on a check's qubit, in the midst of a round, spreads across the logical operator that it could shorten, not along it.
ORDERS = {"Z": ((1, 1), (1, -1), (-1, 1), (-1, -1)), "X": ((1, 1), (-1, 1), (1, -1), (-1, -1))}

MOST_DISTANCE = 45  # with 4,049 qubits, of 4,096 that a circuit may have


class RotatedCode:
    """Where the qubits are: data at odd coordinates, checks at even ones. Their numbers are Stim's, along rows and with gaps."""

    def __init__(self, distance):
        self.distance = distance
        odd = range(1, 2 * distance, 2)
        data = {(x, y): None for x in odd for y in odd}
        self.kinds = {**data, **self.find_checks()}
        self.number = {(x, y): x + y // 2 * (2 * distance + 1) for x, y in self.kinds}
        self.places = sorted(self.kinds, key=self.number.get)
        self.data = [place for place in self.places if self.kinds[place] is None]
        self.checks = [place for place in self.places if self.kinds[place]]

    def find_checks(self):
        """The kind of each check. They alternate as the squares of a board; X is left out at two sides, and Z at the others."""
        last = 2 * self.distance
        checks = {(x, y): "Z" if (x + y) % 4 == 0 else "X" for x in range(0, last + 1, 2) for y in range(0, last + 1, 2)}
        return {(x, y): kind for (x, y), kind in checks.items() if (x if kind == "X" else y) not in (0, last)}

    def of_kind(self, kind):
        """Those checks by their places, by x first, as Stim goes over them."""
        return sorted(place for place in self.checks if self.kinds[place] == kind)

    def around(self, check):
        """The data qubits round a check, in its order; None where there is none."""
        x, y = check
        places = [(x + right, y + down) for right, down in ORDERS[self.kinds[check]]]
        return [place if place in self.number else None for place in places]

    def pairs(self, step):
        """The controlled gates of a step: each check of X controls its data qubit, each of Z is controlled by it."""
        found = []
        for check in self.of_kind("X") + self.of_kind("Z"):
            data = self.around(check)[step]
            if data:
                found += [check, data] if self.kinds[check] == "X" else [data, check]
        return found


class Circuit:
    """The lines of the circuit, with the probability behind each kind of noise."""

    def __init__(self, code, rounds, probability):
        self.code, self.rounds, self.probability = code, rounds, probability
        self.lines = []

    def write(self, name, places=()):
        self.lines.append(" ".join([name, *(str(self.code.number[place]) for place in places)]))

    def noise(self, name, places):
        self.write(f"{name}({self.probability})", places)

    def gate(self, name, places):
        self.write(name, places)
        self.noise("DEPOLARIZE2" if name == "CX" else "DEPOLARIZE1", places)

    def reset(self, places):
        self.write("R", places)
        self.noise("X_ERROR", places)

    def detector(self, place, time, back):
        self.lines.append(" ".join([f"DETECTOR({place[0]}, {place[1]}, {time})", *(f"rec[-{k}]" for k in back)]))

    def one_round(self):
        code = self.code
        x_checks = sorted(code.of_kind("X"), key=code.number.get)
        self.write("TICK")
        self.noise("DEPOLARIZE1", code.data)
        self.gate("H", x_checks)
        self.write("TICK")
        for step in range(4):
            self.gate("CX", code.pairs(step))
            self.write("TICK")
        self.gate("H", x_checks)
        self.write("TICK")
        self.noise("X_ERROR", code.checks)
        self.write("MR", code.checks)
        self.noise("X_ERROR", code.checks)

    def begin(self):
        """Resets all, and measures each check once: those of Z are known from the first round on."""
        for x, y in self.code.places:
            self.write(f"QUBIT_COORDS({x}, {y})", [(x, y)])
        self.reset(self.code.data)
        self.reset(self.code.checks)
        self.one_round()
        for check in self.code.of_kind("Z"):
            self.detector(check, 0, [len(self.code.checks) - self.code.checks.index(check)])

    def repeat(self):
        """The other rounds, in each of which a check is compared with the one before. A single one needs no block."""
        first, count = len(self.lines), len(self.code.checks)
        self.one_round()
        self.write("SHIFT_COORDS(0, 0, 1)")
        for k, check in enumerate(self.code.checks):
            self.detector(check, 0, [count - k, 2 * count - k])
        if self.rounds > 2:
            body = [f"    {line}" for line in self.lines[first:]]
            self.lines[first:] = [f"REPEAT {self.rounds - 1} {{", *body, "}"]

    def end(self):
        """Measures the data qubits: the checks of Z once more, and the upper row, which is the observable."""
        code, count, checks = self.code, len(self.code.data), len(self.code.checks)
        self.noise("X_ERROR", code.data)
        self.write("M", code.data)
        back = {place: count - k for k, place in enumerate(code.data)}
        for check in code.of_kind("Z"):
            around = sorted(back[place] for place in code.around(check) if place)
            self.detector(check, 1, [*around, count + checks - code.checks.index(check)])
        row = sorted(back[place] for place in code.data if place[1] == 1)
        self.lines.append(" ".join(["OBSERVABLE_INCLUDE(0)", *(f"rec[-{k}]" for k in row)]))


def write_circuit(distance, rounds, probability):
    """The text of the circuit. The probability is a text, which stands in it as it is."""
    circuit = Circuit(RotatedCode(distance), rounds, probability)
    circuit.begin()
    if rounds > 1:
        circuit.repeat()
    circuit.end()
    return "\n".join(circuit.lines) + "\n"


def probability(text):
    """An option's text, where it is a probability that Stim allows of each kind of noise."""
    if not re.fullmatch(r"(\d+(\.\d*)?|\.\d+)([eE][-+]?\d{1,3})?", text) or float(text) > 0.75:
        raise argparse.ArgumentTypeError(f"{text!r} is no probability from 0 to 0.75")
    return text


def distance(text):
    if not re.fullmatch(r"\d{1,2}", text) or not 2 <= int(text) <= MOST_DISTANCE:
        raise argparse.ArgumentTypeError(f"{text!r} is no distance from 2 to {MOST_DISTANCE}")
    return int(text)


def rounds(text):
    if not re.fullmatch(r"\d{1,9}", text) or int(text) == 0:
        raise argparse.ArgumentTypeError(f"{text!r} is no number of rounds from 1 to 999999999")
    return int(text)


def main():
    parser = argparse.ArgumentParser(description="Write a circuit of the rotated surface code, with noise, in Stim's form.")
    parser.add_argument("--distance", type=distance, required=True, help=f"from 2 to {MOST_DISTANCE}")
    parser.add_argument("--probability", type=probability, required=True, help="of each kind of noise")
    parser.add_argument("--rounds", type=rounds, help="default: as many as the distance")
    try:
        streams.need_output()
        try:
            options = parser.parse_args()
            print(write_circuit(options.distance, options.rounds or options.distance, options.probability), end="")
        finally:
            sys.stdout.flush()  # here, where it may fail
    except OSError as reason:
        streams.tell(f"rotated_code.py: {'standard output: ' + reason.strerror if reason.strerror else reason}")
        if sys.stdout:
            streams.discard(sys.stdout)
        return 1
    except KeyboardInterrupt:
        return 130
    return 0


if __name__ == "__main__":
    sys.exit(main())
