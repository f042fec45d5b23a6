"""Circuits in the form that Stim's generators write, examples/stim among them: converted, and analysed by the program."""
import functools
import os
import re
import sys
import tempfile
import unittest
from fractions import Fraction
from pathlib import Path

import stim_circuits
from exact_states import read_instructions
from frame_models import write_model
from programs import FROM_STIM, TOP, find_program, run

LARGER = {
    "repetition_code 5 4": stim_circuits.repetition_code(5, 4),
    "unrotated Z 4 2": stim_circuits.surface_code("unrotated", stim_circuits.unrotated_layout(4), "Z", 4, 2),
    "color_code 5 3": stim_circuits.color_code(5, 3),
    "color_code 3 5": stim_circuits.color_code(3, 5),
}
# A round of distance 3 and more has this many checks, each with a detector a round, and the data measured at the end.
CHECKS = {
    "repetition_code": lambda d: d - 1,
    "surface_code_rotated": lambda d: d * d - 1,
    "surface_code_unrotated": lambda d: 2 * d * (d - 1),
    "color_code": lambda d: 3 * (d * d - 1) // 8,
}
ROUNDS = {"color_code_memory_xyz": 4}


@functools.lru_cache(None)
def convert(text):
    done = run([FROM_STIM, "--scale", "2"], text.encode())
    if done.returncode:
        raise AssertionError(done.stderr.decode())
    return done.stdout.decode()


def count_faults(text):
    """Once it is converted: three for each qubit of DEPOLARIZE1, and fifteen for each pair of DEPOLARIZE2."""
    faults = {"DEPOLARIZE1": 3, "DEPOLARIZE2": Fraction(15, 2), "X_ERROR": 1, "Z_ERROR": 1}
    return int(sum(faults.get(name, 0) * len(targets) for name, _, targets in read_instructions(text)))


def expected_detectors(name):
    kind = next(kind for kind in CHECKS if name.startswith(kind))
    checks, rounds = CHECKS[kind](3), ROUNDS.get(name, 3)
    return checks * (rounds + 1) if kind == "repetition_code" else checks * rounds


# Lines of the circuits of distance 3, in order, worked by hand from pictures of the codes with Stim's numbers at the qubits.
LINES = {
    "repetition_code_memory": ["R 0 1 2 3 4", "CX 0 1 2 3", "CX 2 1 4 3", "MR 1 3", "M 0 2 4"],
    "surface_code_rotated_memory_z": [
        "R 1 3 5 8 10 12 15 17 19", "R 2 9 11 13 14 16 18 25", "H 2 11 16 25",
        "CX 2 3 16 17 11 12 15 14 10 9 19 18", "CX 2 1 16 15 11 10 8 14 3 9 12 18",
        "CX 16 10 11 5 25 19 8 9 17 18 12 13", "CX 16 8 11 3 25 17 1 9 10 18 5 13", "MR 2 9 11 13 14 16 18 25",
        "DETECTOR(0, 4, 0) rec[-4]", "DETECTOR(2, 2, 1) rec[-5] rec[-6] rec[-8] rec[-9] rec[-16]",
        "OBSERVABLE_INCLUDE(0) rec[-7] rec[-8] rec[-9]"],
    "surface_code_rotated_memory_x": [
        "RX 1 3 5 8 10 12 15 17 19", "DETECTOR(2, 4, 0) rec[-3]", "MX 1 3 5 8 10 12 15 17 19",
        "DETECTOR(4, 2, 1) rec[-4] rec[-5] rec[-7] rec[-8] rec[-15]", "OBSERVABLE_INCLUDE(0) rec[-3] rec[-6] rec[-9]"],
    "surface_code_unrotated_memory_z": [
        "H 1 3 11 13 21 23", "CX 1 2 11 12 21 22 3 4 13 14 23 24 6 5 16 15 8 7 18 17",
        "CX 1 6 11 16 3 8 13 18 10 5 20 15 12 7 22 17 14 9 24 19", "CX 11 6 21 16 13 8 23 18 0 5 10 15 2 7 12 17 4 9 14 19",
        "CX 1 0 11 10 21 20 3 2 13 12 23 22 6 7 16 17 8 9 18 19", "OBSERVABLE_INCLUDE(0) rec[-11] rec[-12] rec[-13]"],
    "surface_code_unrotated_memory_x": ["RX 0 2 4 6 8 10 12 14 16 18 20 22 24", "OBSERVABLE_INCLUDE(0) rec[-3] rec[-8] rec[-13]"],
    "color_code_memory_xyz": [
        "C_XYZ 0 1 3 5 6 7 9", "CX 5 4 3 2", "CX 7 4 6 2", "CX 5 2 9 8", "CX 1 2 7 8", "CX 0 4 5 8", "CX 1 4 6 8", "MR 2 4 8",
        "OBSERVABLE_INCLUDE(0) rec[-5] rec[-6] rec[-7]"],
}
# The qubits of the rotated code, at (x, y): row by row, with the gaps that Stim leaves.
ROTATED = {(1, 1): 1, (2, 0): 2, (3, 1): 3, (5, 1): 5, (1, 3): 8, (2, 2): 9, (3, 3): 10, (4, 2): 11, (5, 3): 12, (6, 2): 13,
           (0, 4): 14, (1, 5): 15, (2, 4): 16, (3, 5): 17, (4, 4): 18, (5, 5): 19, (4, 6): 25}
COLOR = {(0, 0): 0, (1, 0): 1, (2, 0): 2, (3, 0): 3, (0.5, 1): 4, (1.5, 1): 5, (2.5, 1): 6, (1, 2): 7, (2, 2): 8, (1.5, 3): 9}


def qubits_of(text):
    """The qubits in the order of their lines, by their coordinates."""
    return [(tuple(map(float, arguments)), int(targets[0])) for name, arguments, targets in read_instructions(text)
            if name == "QUBIT_COORDS"]


class Form(unittest.TestCase):
    """Numbers and order of qubits as in the circuits of Stim's generators."""

    def test_lines_worked_by_hand(self):
        for name, lines in LINES.items():
            written = iter([line.strip() for line in stim_circuits.CIRCUITS[name].split("\n")])
            self.assertEqual([line for line in lines if line not in written], [], f"{name} has not these lines in this order")

    def test_qubits_have_the_numbers_of_stim(self):
        expected = {"color_code_memory_xyz": COLOR, "repetition_code_memory": {}}
        for basis in "xz":
            expected[f"surface_code_rotated_memory_{basis}"] = ROTATED
            expected[f"surface_code_unrotated_memory_{basis}"] = {(k % 5, k // 5): k for k in range(25)}
        for name, text in stim_circuits.CIRCUITS.items():
            self.assertEqual(qubits_of(text), list(expected[name].items()), name)

    def test_one_round_and_two_have_no_block(self):
        """Of the color code none beside the block of the first two rounds."""
        for (code, _), make in stim_circuits.GENERATORS.items():
            is_color = code == "color_code"
            self.assertEqual([make(3, rounds).count("REPEAT") for rounds in (2, 3, 4)], [1, 1, 2] if is_color else [0, 1, 1])
            self.assertEqual([make(3, rounds).count(" MR ") for rounds in (2, 3, 4)], [1, 1, 2] if is_color else [0, 1, 1])
            if not is_color:
                self.assertEqual([make(3, rounds).count("\nMR ") for rounds in (1, 2, 3)], [1, 2, 1])


class CommandLine(unittest.TestCase):
    SCRIPT = TOP / ".ci" / "tests" / "stim_circuits.py"

    def test_one_circuit(self):
        done = run([sys.executable, self.SCRIPT, "surface_code", "rotated_memory_x", "3", "3"])
        self.assertEqual((done.returncode, done.stderr), (0, b""))
        self.assertEqual(done.stdout.decode(), stim_circuits.CIRCUITS["surface_code_rotated_memory_x"])

    def test_files_of_the_examples(self):
        with tempfile.TemporaryDirectory() as folder:
            done = run([sys.executable, self.SCRIPT, "--examples", folder])
            self.assertEqual((done.returncode, done.stdout, done.stderr), (0, b"", b""))
            self.assertEqual({path.stem: path.read_text() for path in Path(folder).glob("*")}, stim_circuits.CIRCUITS)

    def test_what_is_wrong_is_told(self):
        code = ["surface_code", "rotated_memory_z"]
        rows = [
            ([], 2, "needs a code"),
            ([*code, "3"], 2, "needs a code"),
            (["surface_code", "memory", "3", "3"], 2, "no such code"),
            ([*code, "1", "3"], 2, "at least 2"),
            ([*code, "3", "0"], 2, "at least 1 round"),
            ([*code, "3", "x"], 2, "invalid int"),
            (["color_code", "memory_xyz", "4", "3"], 2, "odd"),
            (["--examples", "/", *code], 2, "nothing else"),
            (["--examples", "/dev/null"], 1, "Not a directory"),
        ]
        for words, status, said in rows:
            done = run([sys.executable, self.SCRIPT, *words])
            self.assertEqual((done.returncode, done.stdout), (status, b""), words)
            self.assertIn(said, done.stderr.decode())
            self.assertNotIn("Traceback", done.stderr.decode())


class Copy(tempfile.TemporaryDirectory):
    """A folder with what pages use, in which their commands are run."""

    def __enter__(self):
        program = find_program()
        self.folder = Path(super().__enter__())
        for part in (".ci", "examples", "tools"):
            os.symlink(TOP / part, self.folder / part)
        (self.folder / "crates" / "stabsim" / "out").mkdir(parents=True)
        os.symlink(program, self.folder / "stabsim")
        os.symlink(program, self.folder / "crates" / "stabsim" / "out" / "stabsim")
        return self

    def run(self, commands):
        return run(["bash", "-c", f"cd {self.folder} && {commands}"])


class Benchmarks(unittest.TestCase):
    """The section of docs/BENCH.md on these circuits."""

    def setUp(self):
        page = (TOP / "docs" / "BENCH.md").read_text()
        self.section = page.partition("\n## Circuits of Stim's generators\n")[2].partition("\n## ")[0]

    def test_commands_of_the_section(self):
        """With ten shots, as those of other pages."""
        commands = re.search(r"^```sh\n(.*?)^```", self.section, re.MULTILINE | re.DOTALL)[1]
        self.assertIn("--shots 1000", commands)
        with Copy() as copy:
            done = copy.run(commands.replace("--shots 1000", "--shots 10"))
            self.assertEqual((done.returncode, done.stdout), (0, b""), done.stderr)
            self.assertEqual(done.stderr.count(b"real"), 6)
            for distance in (11, 25):
                self.assertGreater((copy.folder / f"converted{distance}.stim").stat().st_size, 500_000)

    def test_faults_of_the_section(self):
        rows = re.findall(r"^\| (\d+), (\d+) \| ([\d,]+) \|", self.section, re.MULTILINE)
        self.assertEqual([(distance, rounds) for distance, rounds, _ in rows], [("11", "11"), ("25", "25")])
        for distance, rounds, faults in rows:
            text = stim_circuits.GENERATORS["surface_code", "rotated_memory_z"](int(distance), int(rounds))
            self.assertEqual(f"{count_faults(text):,}", faults)


class Examples(unittest.TestCase):
    def test_files_are_those_that_the_generator_writes(self):
        files = {path.stem: path.read_text() for path in (TOP / "examples" / "stim").glob("*")}
        self.assertEqual(files, stim_circuits.CIRCUITS)

    def test_commands_of_their_heads(self):
        for name, text in stim_circuits.CIRCUITS.items():
            commands = re.findall(r"^#     (.*)$", text, re.MULTILINE)
            self.assertEqual(len(commands), 2)
            with Copy() as copy:
                done = copy.run(" && ".join(commands))
            self.assertEqual(done.returncode, 0, (name, done.stderr))
            self.assertEqual(done.stdout.count(b"\ndetector("), expected_detectors(name), name)

    def test_each_has_all_four_kinds_of_noise(self):
        self.assertEqual(len(stim_circuits.CIRCUITS), 6)
        for name, text in stim_circuits.CIRCUITS.items():
            for line in (r"DEPOLARIZE2\(0.001\)", r"DEPOLARIZE1\(0.002\)", r"[XZ]_ERROR\(0.003\)", r"[XZ]_ERROR\(0.004\)"):
                self.assertRegex(text, re.compile(r"^ *" + line, re.MULTILINE), name)

    def test_conversion_keeps_all_but_noise(self):
        """Without faults and comments the converted circuit is the first one, line by line, at twice its coordinates."""
        def plain(text):
            return [step for step in read_instructions(text) if not re.fullmatch(r"E|.*_ERROR|DEPOLARIZE.", step[0])]
        for name, text in stim_circuits.CIRCUITS.items():
            before = [(kind, [f"{2 * float(a):g}" for a in arguments] if kind in ("QUBIT_COORDS", "DETECTOR", "SHIFT_COORDS")
                       else arguments, targets) for kind, arguments, targets in plain(text)]
            self.assertEqual(plain(convert(text)), before, name)

    def test_depolarizing_channels_become_three_and_fifteen_faults(self):
        for name, text in stim_circuits.CIRCUITS.items():
            counts = {1: 0, 2: 0}
            for kind, arguments, targets in read_instructions(text):
                if kind.startswith("DEPOLARIZE"):
                    counts[int(kind[-1])] += len(targets)
            found = {1: 0, 2: 0}
            for kind, arguments, targets in read_instructions(convert(text)):
                if re.fullmatch("E|.*_ERROR", kind) and Fraction(arguments[0]) < Fraction("0.001"):
                    found[2 if kind == "E" else 1] += 1 if kind == "E" else len(targets)
            self.assertEqual(found, {1: 3 * counts[1], 2: 15 * counts[2] // 2}, name)

    def test_the_program_writes_the_model_that_following_each_fault_gives(self):
        program = find_program()
        for name, text in {**stim_circuits.CIRCUITS, **LARGER}.items():
            converted = convert(text)
            done = run([program, "analyze"], converted.encode())
            self.assertEqual((done.returncode, done.stderr), (0, b""), (name, done.stdout[:200]))
            self.assertEqual(done.stdout.decode(), write_model(converted), name)

    def test_the_program_finds_the_detectors_of_each_round(self):
        program = find_program()
        for name, text in stim_circuits.CIRCUITS.items():
            done = run([program, "analyze"], convert(text).encode())
            self.assertEqual(done.stdout.count(b"\ndetector("), expected_detectors(name), name)
            self.assertEqual(done.stdout.count(b"\nlogical_observable L0\n"), 1, name)

    def test_one_error_is_never_hidden(self):
        """Distance 3: no fault of the model flips the observable and no detector, nor do two that flip the same detectors."""
        for name, text in stim_circuits.CIRCUITS.items():
            flips = {}
            for line in write_model(convert(text)).split("\n"):
                if line.startswith("error"):
                    targets = line.split()[1:]
                    detectors = tuple(target for target in targets if target[0] == "D")
                    flips.setdefault(detectors, set()).add("L0" in targets)
            self.assertNotIn((), flips, name)
            if "color" not in name:
                self.assertTrue(all(len(kinds) == 1 for kinds in flips.values()), name)


if __name__ == "__main__":
    unittest.main()
