"""The faults of the two codes in examples/, worked by hand: the probability of each, and what it flips."""
from program import bits, named

ROUNDS = 3


class Code:
    """Faults in order, each with its probability, its detectors and whether it flips the observable.

    The places are the coordinates of the detectors. Each measurement and reset has a coin.
    """

    def __init__(self, faults, places, collapses):
        self.faults = faults
        self.places = places
        self.collapses = collapses

    def model(self):
        """What `analyze` writes."""
        lines = ""
        for probability, detectors, is_logical in self.faults:
            if detectors or is_logical:
                lines += f"error({probability}){named('D', detectors)}{' L0' * is_logical}\n"
        lines += "".join(f"detector({place}) D{number}\n" for number, place in enumerate(self.places))
        return lines + "logical_observable L0\n"

    def detections(self, happened):
        """The line of detections where these faults happen, a truth value a fault."""
        flips = [False] * (len(self.places) + 1)
        for happens, (_, detectors, is_logical) in zip(happened, self.faults):
            for target in [*detectors, *[len(self.places)] * is_logical]:
                flips[target] ^= happens
        return bits(flips) + "\n"


def repetition_code():
    """In each round X on the left, the middle and the right qubit, and both measurements; then the three qubits."""
    faults = []
    for turn in range(ROUNDS + 1):
        left, right = 2 * turn, 2 * turn + 1
        probability = "0.01" if turn < ROUNDS else "0.03"
        faults += [(probability, [left], False), (probability, [left, right], False), (probability, [right], True)]
        if turn < ROUNDS:
            faults += [("0.02", [left, left + 2], False), ("0.02", [right, right + 2], False)]
    places = [f"{place}, {turn}" for turn in range(ROUNDS + 1) for place in (1, 3)]
    return Code(faults, places, 5 + 2 * ROUNDS + 3)


def repetition_records(happened):
    """The records of the repetition code where these faults happen: of each round, and then of the three qubits."""
    state = [False] * 3
    records = []
    for first in range(0, 5 * ROUNDS, 5):
        state = [one != turned for one, turned in zip(state, happened[first:first + 3])]
        left, middle, right = state
        parities = [left != middle, middle != right]
        records += [parity != flip for parity, flip in zip(parities, happened[first + 3:first + 5])]
    return bits(records + [one != flip for one, flip in zip(state, happened[5 * ROUNDS:])]) + "\n"


# Of the surface code: the stabilizers of letters Z (13 to 16, here 0 to 3) that see X on each data qubit, and those of
# letters X (9 to 12, here 0 to 3) that see Z on it.
SEES_X = [[0], [0], [1], [0, 2], [0, 3], [1, 3], [2], [3], [3]]
SEES_Z = [[0], [0, 1], [1], [2], [1, 2], [1], [2], [2, 3], [3]]

X_PLACES = ["2, 0", "4, 2", "2, 4", "4, 6"]
Z_PLACES = ["2, 2", "6, 2", "0, 4", "4, 4"]


def x_detectors(stabilizers, turn):
    """The detectors of stabilizers of letters X in a round. The first has none, and nor has the final measurement."""
    return [8 * turn - 4 + stabilizer for stabilizer in stabilizers] if 0 < turn < ROUNDS else []


def z_detectors(stabilizers, turn):
    """The detectors of those of letters Z. The final measurement has these alone."""
    first = 8 * turn if turn < ROUNDS else 8 * ROUNDS - 4
    return [first + stabilizer for stabilizer in stabilizers]


def surface_code():
    """In each round X of each data qubit, then Z of each, then each measurement. The upper row is the logical Z."""
    faults = []
    for turn in range(ROUNDS):
        faults += [("0.003", z_detectors(SEES_X[qubit], turn), qubit < 3) for qubit in range(9)]
        faults += [("0.002", x_detectors(SEES_Z[qubit], turn), False) for qubit in range(9)]
        faults += [("0.001", x_detectors([s], turn) + x_detectors([s], turn + 1), False) for s in range(4)]
        faults += [("0.001", z_detectors([s], turn) + z_detectors([s], turn + 1), False) for s in range(4)]
    places = [f"{place}, 0" for place in Z_PLACES]
    places += [f"{place}, {turn}" for turn in range(1, ROUNDS) for place in X_PLACES + Z_PLACES]
    places += [f"{place}, {ROUNDS}" for place in Z_PLACES]
    return Code(faults, places, 17 + 8 * ROUNDS + 9)
