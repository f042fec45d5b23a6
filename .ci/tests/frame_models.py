"""The error model of a circuit of this project's profile, by following every fault forward through the circuit.

All faults are followed at once: what has flipped is a whole number with one bit a fault. Signs don't matter to flips. This
tells nothing about random detectors. Observables may have letters at qubits, as Stim's may.
"""
from exact_states import read_instructions
from pauli_words import ALIASES, IMAGES, image_words


class Frames:
    """Where each fault has put an X or a Z, and which records it has flipped."""

    def __init__(self):
        self.x, self.z = {}, {}
        self.records = []
        self.chances = []

    def put(self, letter, qubit, faults):
        """These faults put a letter there."""
        if letter in "XY":
            self.x[qubit] = self.x.get(qubit, 0) ^ faults
        if letter in "ZY":
            self.z[qubit] = self.z.get(qubit, 0) ^ faults

    def add_fault(self, chance, letters):
        """A fault that happens here: `letters` are (letter, qubit) pairs."""
        bit = 1 << len(self.chances)
        self.chances.append(chance)
        for letter, qubit in letters:
            self.put(letter, qubit, bit)
        return bit

    def flips_of(self, letter, qubit):
        """Which faults flip the outcome of a letter: those whose letter here anticommutes with it."""
        x, z = self.x.get(qubit, 0), self.z.get(qubit, 0)
        return {"Z": x, "X": z, "Y": x ^ z}[letter]

    def flips_of_target(self, target):
        """Which faults flip a record; or, as Stim has it of an observable, a letter at a qubit."""
        if target.startswith("rec"):
            return self.records[int(target[4:-1])]
        return self.flips_of(target.lstrip("!")[0], int(target.lstrip("!")[1:]))

    def apply_gate(self, name, qubits):
        before = [(self.x.get(qubit, 0), self.z.get(qubit, 0)) for qubit in qubits]
        for qubit in qubits:
            self.x[qubit] = self.z[qubit] = 0
        for had, images in zip(before, image_words(name, qubits)):
            for flips, (_, x, z) in zip(had, images):
                for qubit in qubits:
                    self.x[qubit] ^= flips if x >> qubit & 1 else 0
                    self.z[qubit] ^= flips if z >> qubit & 1 else 0

    def measure(self, factors, arguments):
        flips = 0
        for letter, qubit in factors:
            flips ^= self.flips_of(letter, qubit)
        if arguments:
            flips ^= self.add_fault(arguments[0], [])
        self.records.append(flips)

    def reset(self, qubit):
        self.x[qubit] = self.z[qubit] = 0


def step(frames, name, arguments, targets):
    if name in ("E", "CORRELATED_ERROR"):
        frames.add_fault(arguments[0], [(target[0], int(target[1:])) for target in targets])
    elif name.endswith("_ERROR"):
        for target in targets:
            frames.add_fault(arguments[0], [(name[0], int(target))])
    elif name == "MPP":
        for target in targets:
            frames.measure([(factor.lstrip("!")[0], int(factor.lstrip("!")[1:])) for factor in target.split("*")], arguments)
    elif name[0] in "MR":
        letter = name[-1] if name[-1] in "XY" else "Z"
        for target in targets:
            if name[0] == "M":
                frames.measure([(letter, int(target.lstrip("!")))], arguments)
            if "R" in name:
                frames.reset(int(target.lstrip("!")))
    else:
        size = len(IMAGES[ALIASES.get(name, name)].split()) // 2
        for at in range(0, len(targets), size):
            apply(frames, name, targets[at:at + size])


def apply(frames, name, targets):
    """A gate; or its second letter, of CX, CY and CZ, where a record is 1: a fault that flips the record puts it there."""
    records = [target for target in targets if target.startswith("rec")]
    qubits = [int(target) for target in targets if target not in records]
    if records:
        frames.put(ALIASES.get(name, name)[1], qubits[0], frames.records[int(records[0][4:-1])])
    else:
        frames.apply_gate(name, qubits)


def follow_faults(text):
    """Each fault as its probability with the names of the targets that it flips; and the lines that declare the targets."""
    frames, detectors, places, observables, offset = Frames(), [], [], {}, []
    for name, arguments, targets in read_instructions(text):
        flips = 0
        if name in ("DETECTOR", "OBSERVABLE_INCLUDE"):
            for target in targets:
                flips ^= frames.flips_of_target(target)
        if name == "DETECTOR":
            detectors.append(flips)
            shifts = offset + [0] * len(arguments)
            places.append([int(place) + shift for place, shift in zip(arguments, shifts)])
        elif name == "OBSERVABLE_INCLUDE":
            observables[int(arguments[0])] = observables.get(int(arguments[0]), 0) ^ flips
        elif name == "SHIFT_COORDS":
            offset += [0] * (len(arguments) - len(offset))
            offset = [old + int(new) for old, new in zip(offset, arguments + ["0"] * len(offset))]
        elif name not in ("TICK", "QUBIT_COORDS"):
            step(frames, name, arguments, targets)
    flips_of = [(f"D{k}", flips) for k, flips in enumerate(detectors)]
    flips_of += [(f"L{k}", observables.get(k, 0)) for k in range(max(observables, default=-1) + 1)]
    faults = [(chance, [name for name, flips in flips_of if flips >> k & 1]) for k, chance in enumerate(frames.chances)]
    lines = [f"detector{'(' + ', '.join(map(str, place)) + ')' if place else ''} D{k}" for k, place in enumerate(places)]
    return faults, lines + [f"logical_observable {name}" for name, _ in flips_of[len(detectors):]]


def write_model(text):
    """The model as `analyze` writes it."""
    faults, declarations = follow_faults(text)
    lines = [f"error({chance}) {' '.join(names)}" for chance, names in faults if names]
    return "\n".join(lines + declarations) + "\n"
