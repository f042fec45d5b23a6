"""Circuits of quantum codes in the form that Stim's generators write, with noise of the four kinds that these offer.

    python3 .ci/tests/stim_circuits.py surface_code rotated_memory_z 25 25 > code.stim     # code, task, distance, rounds
    python3 .ci/tests/stim_circuits.py --examples examples/stim                            # the files of this folder

Exit statuses: 0 done, 1 the circuit or a file couldn't be written, 2 a wrong command line.

The circuits are made from the codes' descriptions, and weren't compared with Stim. This much is claimed: qubits have the numbers
and coordinates that Stim's generators give them; of repetition codes and surface codes, instructions and their targets come in
Stim's order. Of color codes the pairs of a layer and the last detectors may come in another order than Stim's.
Comments are of this project.
"""
import argparse
import signal
import sys
from pathlib import Path

NOISE = {
    "after_clifford_depolarization": "0.001",
    "before_round_data_depolarization": "0.002",
    "before_measure_flip_probability": "0.003",
    "after_reset_flip_probability": "0.004",
}
FLIPS = {"Z": "X_ERROR", "X": "Z_ERROR", "Y": "X_ERROR"}
GATES = {"Z": "", "X": "X", "Y": "Y"}


def joined(*items):
    return " ".join(map(str, items))


class Text:
    """The lines of a circuit, and how many records there are so far."""

    def __init__(self):
        self.lines = []
        self.indent = ""

    def add(self, line):
        self.lines.append(self.indent + line)

    def gate(self, name, targets):
        self.add(joined(name, *targets))
        self.add(joined(f"DEPOLARIZE{2 if name == 'CX' else 1}({NOISE['after_clifford_depolarization']})", *targets))

    def reset(self, basis, targets):
        self.add(joined("R" + GATES[basis], *targets))
        self.add(joined(f"{FLIPS[basis]}({NOISE['after_reset_flip_probability']})", *targets))

    def measure(self, basis, targets):
        self.add(joined(f"{FLIPS[basis]}({NOISE['before_measure_flip_probability']})", *targets))
        self.add(joined("M" + GATES[basis], *targets))

    def begin_round(self, data):
        self.add("TICK")
        self.add(joined(f"DEPOLARIZE1({NOISE['before_round_data_depolarization']})", *data))

    def measure_and_reset(self, targets):
        self.add(joined(f"X_ERROR({NOISE['before_measure_flip_probability']})", *targets))
        self.add(joined("MR", *targets))
        self.add(joined(f"X_ERROR({NOISE['after_reset_flip_probability']})", *targets))

    def detector(self, coordinates, back):
        places = ", ".join(f"{place:g}" for place in coordinates)
        self.add(joined(f"DETECTOR({places})", *(f"rec[-{k}]" for k in back)))

    def repeat(self, turns, body):
        """No turn is nothing, and one turn needs no block."""
        if turns > 1:
            self.add(f"REPEAT {turns} {{")
            self.indent = "    "
        if turns > 0:
            body()
        if turns > 1:
            self.indent = ""
            self.add("}")

    def finish(self, code, task, distance, rounds):
        """The text, with a head that says what it is and how to convert the file of this name in examples/stim."""
        head = [
            "# A circuit in the form that Stim's generators write.",
            "#",
            f"#     tools/from_stim.py < examples/stim/{code}_{task}.stim > converted.stim",
            "#     ./stabsim analyze < converted.stim",
            "#",
            *(f"# {name}: {value}" for name, value in
              {"code": code, "task": task, "distance": distance, "rounds": rounds, **NOISE}.items()),
        ]
        return "\n".join(head + self.lines) + "\n"


def repetition_code(distance, rounds):
    checks, text = distance - 1, Text()
    data, measured = range(0, 2 * distance, 2), range(1, 2 * checks, 2)

    def one_round():
        text.begin_round(data)
        text.gate("CX", [q for check in measured for q in (check - 1, check)])
        text.add("TICK")
        text.gate("CX", [q for check in measured for q in (check + 1, check)])
        text.add("TICK")
        text.measure_and_reset(measured)

    def later_round():
        one_round()
        text.add("SHIFT_COORDS(0, 1)")
        for k in range(checks):
            text.detector((2 * k + 1, 0), (checks - k, 2 * checks - k))

    text.reset("Z", range(2 * distance - 1))
    one_round()
    for k in range(checks):
        text.detector((2 * k + 1, 0), [checks - k])
    text.repeat(rounds - 1, later_round)
    text.measure("Z", data)
    for k in range(checks):
        text.detector((2 * k + 1, 1), (distance - k - 1, distance - k, distance + checks - k))
    text.add("OBSERVABLE_INCLUDE(0) rec[-1]")
    return text.finish("repetition_code", "memory", distance, rounds)


class Layout:
    """Where the data qubits and the checks of a surface code are, and in which order a check meets its data qubits.

    Stim numbers qubits along rows, of the rotated code with gaps. It goes over qubits by their numbers, and over the checks of a
    kind by their places, by x first.
    """

    def __init__(self, data, checks, orders, observables, number):
        self.number = dict(sorted(((place, number(*place)) for place in [*data, *checks]), key=lambda pair: pair[1]))
        self.data = [place for place in self.number if place not in checks]
        self.checks = [place for place in self.number if place in checks]
        self.kinds, self.orders, self.observables = checks, orders, observables

    def of_kind(self, kind):
        return sorted(check for check in self.checks if self.kinds[check] == kind)

    def neighbours(self, check):
        return [self.number.get((check[0] + dx, check[1] + dy)) for dx, dy in self.orders[self.kinds[check]]]


def rotated_layout(distance):
    """Data qubits at odd coordinates, and checks between them at even ones. A check's row is that of the data below it."""
    data = [(2 * x + 1, 2 * y + 1) for x in range(distance) for y in range(distance)]
    checks = {}
    for x in range(distance + 1):
        for y in range(distance + 1):
            kind = "X" if x % 2 != y % 2 else "Z"
            if not (kind == "X" and x in (0, distance)) and not (kind == "Z" and y in (0, distance)):
                checks[2 * x, 2 * y] = kind
    orders = {"Z": ((1, 1), (1, -1), (-1, 1), (-1, -1)), "X": ((1, 1), (-1, 1), (1, -1), (-1, -1))}
    observables = {"X": [place for place in data if place[0] == 1], "Z": [place for place in data if place[1] == 1]}
    return Layout(data, checks, orders, observables, lambda x, y: x + y // 2 * (2 * distance + 1))


def unrotated_layout(distance):
    """Data qubits and checks by turns, on a square with a qubit at each place."""
    size = range(2 * distance - 1)
    data = [(x, y) for x in size for y in size if x % 2 == y % 2]
    checks = {(x, y): "Z" if x % 2 == 0 else "X" for x in size for y in size if x % 2 != y % 2}
    orders = dict.fromkeys("XZ", ((1, 0), (0, 1), (0, -1), (-1, 0)))
    observables = {"X": [place for place in data if place[0] == 0], "Z": [place for place in data if place[1] == 0]}
    return Layout(data, checks, orders, observables, lambda x, y: x + y * len(size))


def surface_round(text, layout):
    number = layout.number
    x_checks = sorted(number[check] for check in layout.of_kind("X"))
    text.begin_round([number[place] for place in layout.data])
    text.gate("H", x_checks)
    text.add("TICK")
    for k in range(4):
        pairs = []
        for check in layout.of_kind("X") + layout.of_kind("Z"):
            data = layout.neighbours(check)[k]
            if data is not None:
                pairs += (number[check], data) if layout.kinds[check] == "X" else (data, number[check])
        text.gate("CX", pairs)
        text.add("TICK")
    text.gate("H", x_checks)
    text.add("TICK")
    text.measure_and_reset([number[check] for check in layout.checks])


def surface_code(name, layout, basis, distance, rounds):
    text, count, number = Text(), len(layout.checks), layout.number
    data = [number[place] for place in layout.data]
    own = [layout.checks.index(check) for check in layout.of_kind(basis)]

    def later_round():
        surface_round(text, layout)
        text.add("SHIFT_COORDS(0, 0, 1)")
        for k, place in enumerate(layout.checks):
            text.detector((*place, 0), (count - k, 2 * count - k))

    for place, qubit in number.items():
        text.add(f"QUBIT_COORDS({place[0]}, {place[1]}) {qubit}")
    text.reset(basis, data)
    text.reset("Z", [number[check] for check in layout.checks])
    surface_round(text, layout)
    for k in own:
        text.detector((*layout.checks[k], 0), [count - k])
    text.repeat(rounds - 1, later_round)
    text.measure(basis, data)
    back = {qubit: len(data) - k for k, qubit in enumerate(data)}
    for k in own:
        around = [back[qubit] for qubit in layout.neighbours(layout.checks[k]) if qubit is not None]
        text.detector((*layout.checks[k], 1), sorted(around) + [len(data) + count - k])
    observable = sorted(back[number[place]] for place in layout.observables[basis])
    text.add(joined("OBSERVABLE_INCLUDE(0)", *(f"rec[-{k}]" for k in observable)))
    return text.finish("surface_code", f"{name}_memory_{basis.lower()}", distance, rounds)


def color_code(distance, rounds):
    """The triangular code with hexagons. Each round turns X into Y, Y into Z and Z into X, and measures Z of each face."""
    height = distance + (distance - 1) // 2
    places = [(x + y / 2, y, (x + 2 * y) % 3 == 2) for y in range(height) for x in range(height - y)]
    number = {(x, y): k for k, (x, y, _) in enumerate(places)}
    data = {number[x, y]: y for x, y, is_face in places if not is_face}
    faces = [(x, y) for x, y, is_face in places if is_face]
    around = ((1, 0), (0.5, 1), (-0.5, 1), (-1, 0), (-0.5, -1), (0.5, -1))
    neighbours = {(x, y): [number.get((x + dx, y + dy)) for dx, dy in around] for x, y in faces}
    text, count = Text(), len(faces)

    def one_round():
        text.begin_round(data)
        text.gate("C_XYZ", data)
        text.add("TICK")
        for k in range(len(around)):
            met = [(neighbours[face][k], number[face]) for face in sorted(faces) if neighbours[face][k] is not None]
            text.gate("CX", [q for pair in met for q in pair])
            text.add("TICK")
        text.measure_and_reset([number[face] for face in faces])

    def later_round():
        one_round()
        text.add("SHIFT_COORDS(0, 0, 1)")
        for k, face in enumerate(faces):
            text.detector((*face, 0), (count - k, 2 * count - k, 3 * count - k))

    for place, qubit in number.items():
        text.add(f"QUBIT_COORDS({place[0]:g}, {place[1]}) {qubit}")
    text.reset("Z", range(len(places)))
    text.repeat(2, one_round)
    for k, face in enumerate(faces):
        text.detector((*face, 0), (count - k, 2 * count - k))
    text.repeat(rounds - 2, later_round)
    finish_color_code(text, rounds, data, neighbours)
    return text.finish("color_code", "memory_xyz", distance, rounds)


def finish_color_code(text, rounds, data, neighbours):
    """The last round measured Z of each face, and the one before it X; Y of a face is their product.

    `data` has the row of each data qubit. The observable is the lowest row, a side of the triangle.
    """
    basis, count = "ZXY"[rounds % 3], len(neighbours)
    rounds_back = {"Z": (1,), "X": (2,), "Y": (1, 2)}[basis]
    text.measure(basis, data)
    back = {qubit: len(data) - k for k, qubit in enumerate(data)}
    for k, (face, qubits) in enumerate(neighbours.items()):
        seen = sorted(back[qubit] for qubit in qubits if qubit is not None)
        text.detector((*face, 1), seen + [len(data) + turn * count - k for turn in rounds_back])
    side = sorted(back[qubit] for qubit, row in data.items() if row == 0)
    text.add(joined("OBSERVABLE_INCLUDE(0)", *(f"rec[-{k}]" for k in side)))


# The generators, by code and task: each makes a circuit of a distance with a number of rounds.
GENERATORS = {
    ("repetition_code", "memory"): repetition_code,
    ("surface_code", "rotated_memory_x"): lambda d, rounds: surface_code("rotated", rotated_layout(d), "X", d, rounds),
    ("surface_code", "rotated_memory_z"): lambda d, rounds: surface_code("rotated", rotated_layout(d), "Z", d, rounds),
    ("surface_code", "unrotated_memory_x"): lambda d, rounds: surface_code("unrotated", unrotated_layout(d), "X", d, rounds),
    ("surface_code", "unrotated_memory_z"): lambda d, rounds: surface_code("unrotated", unrotated_layout(d), "Z", d, rounds),
    ("color_code", "memory_xyz"): color_code,
}
# The files of examples/stim, without their ending: all of distance 3.
CIRCUITS = {f"{code}_{task}": make(3, 4 if code == "color_code" else 3) for (code, task), make in GENERATORS.items()}


def check_size(code, distance, rounds):
    """Why Stim's generators make no such circuit, or nothing."""
    if code == "color_code" and (distance < 3 or distance % 2 == 0 or rounds < 2):
        return "a color code has an odd distance of at least 3, and at least 2 rounds"
    if distance < 2 or rounds < 1:
        return "a code has a distance of at least 2, and at least 1 round"
    return None


def main():
    parser = argparse.ArgumentParser(description="Write a circuit in the form that Stim's generators write.")
    parser.add_argument("code", nargs="?", help="; ".join(f"{code} {task}" for code, task in GENERATORS))
    parser.add_argument("task", nargs="?")
    parser.add_argument("distance", nargs="?", type=int)
    parser.add_argument("rounds", nargs="?", type=int)
    parser.add_argument("--examples", metavar="FOLDER", help="write the files of examples/stim into this folder")
    options = parser.parse_args()
    if options.examples is not None:
        if options.code is not None:
            parser.error("--examples takes a folder and nothing else")
        for name, text in CIRCUITS.items():
            Path(options.examples, name + ".stim").write_text(text)
        return
    if options.rounds is None:
        parser.error("needs a code, a task, a distance and a number of rounds, or --examples")
    make = GENERATORS.get((options.code, options.task))
    reason = check_size(options.code, options.distance, options.rounds) if make else "there is no such code with this task"
    if reason:
        parser.error(reason)
    sys.stdout.write(make(options.distance, options.rounds))
    sys.stdout.flush()


if __name__ == "__main__":
    signal.signal(signal.SIGPIPE, signal.SIG_DFL)
    signal.signal(signal.SIGINT, signal.SIG_DFL)
    try:
        main()
    except (OSError, OverflowError, MemoryError) as reason:
        sys.exit(f"stim_circuits.py: {reason or 'out of memory'}")
