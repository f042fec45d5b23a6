"""examples/decode.py, and the recipes of docs/DECODING.md and docs/FROM_STIM.md as they are written there."""
import os
import re
import shutil
import stat
import tempfile
import unittest
from math import sqrt
from pathlib import Path

import stim_circuits
from frame_models import write_model
from programs import DECODE, FROM_STIM, TOP, convert, find_numpy_python, find_program, run

CIRCUIT = TOP / "examples" / "repetition_code.stim"


def repetition_model():
    """What the faults of examples/repetition_code.stim flip, from its description: (probability, detectors, observable).

    Two detectors a round, for the parities of the qubits 0 and 2, and of 2 and 4. Qubit 4 carries the observable. A flipped
    qubit is seen from its round on, so by one round's detectors; a flipped measurement by its round's and the next one's.
    """
    errors = []
    for at in (0, 2, 4):
        errors += [(0.01, {at}, 0), (0.01, {at, at + 1}, 0), (0.01, {at + 1}, 1)]
        errors += [(0.02, {at, at + 2}, 0), (0.02, {at + 1, at + 3}, 0)]
    return errors + [(0.03, {6}, 0), (0.03, {6, 7}, 0), (0.03, {7}, 1)]


def least_error_rate(errors):
    """How often the likeliest observable is wrong, by summing over all sets of errors, one error after the other."""
    chances = {(frozenset(), 0): 1.0}
    for chance, detectors, observable in errors:
        after = {}
        for (events, value), weight in chances.items():
            for key, part in (((events, value), 1 - chance), ((events ^ frozenset(detectors), value ^ observable), chance)):
                after[key] = after.get(key, 0) + weight * part
        chances = after
    return sum(min(chances.get((events, 0), 0), chances.get((events, 1), 0)) for events in {events for events, _ in chances})


def read_errors(model):
    """The errors of a model's text, in the same form."""
    errors = []
    for chance, targets in re.findall(r"^error\(([^)]*)\) (.*)", model, re.MULTILINE):
        detectors = {int(target[1:]) for target in targets.split() if target[0] == "D"}
        errors.append((float(chance), detectors, int("L0" in targets.split())))
    return errors


class StandIn:
    """A program that writes what it is told: by its first word, a text and a status. It keeps the words it was called with."""

    def __init__(self, folder, **answers):
        self.path = Path(folder) / "stand-in"
        cases = "".join(f"{word}) printf '{text}'; exit {status};;\n" for word, (text, status) in answers.items())
        self.path.write_text(f"#!/bin/sh\ncat > /dev/null\necho \"$*\" >> {folder}/words\ncase $1 in\n{cases}esac\nexit 9\n")
        self.path.chmod(self.path.stat().st_mode | stat.S_IXUSR)


def printed_rates(output):
    """The number of shots, of wrong ones, and the two rates that the script printed."""
    lines = output.decode().splitlines()
    shots, wrong, rate = re.fullmatch(r"shots (\d+), decoded wrongly (\d+): logical error rate ([\d.]+)", lines[1]).groups()
    return int(shots), int(wrong), float(rate), float(re.fullmatch(r"by the error model ([\d.]+)", lines[2])[1])


class Decoding(unittest.TestCase):
    def assert_rates(self, words, expected, shots):
        done = run(words)
        self.assertEqual((done.returncode, done.stderr), (0, b""))
        drawn, wrong, rate, by_model = printed_rates(done.stdout)
        self.assertEqual(drawn, shots)
        self.assertAlmostEqual(rate, wrong / shots, delta=6e-7)
        self.assertAlmostEqual(by_model, expected, delta=6e-7)
        self.assertLess(abs(rate - expected), 6 * sqrt(expected * (1 - expected) / shots))

    def test_the_rate_of_the_repetition_code_is_the_computed_one(self):
        python, program = find_numpy_python(), find_program()
        expected = least_error_rate(repetition_model())
        self.assertTrue(0.004 < expected < 0.01)
        for seed in ("0", "7"):
            words = [python, DECODE, "--program", program, "--shots", "200000", "--seed", seed, CIRCUIT]
            self.assert_rates(words, expected, 200000)

    def test_the_page_shows_what_the_script_prints(self):
        python, program = find_numpy_python(), find_program()
        page = (TOP / "docs" / "DECODING.md").read_text()
        shown = re.search(r"examples/decode.py (--shots \d+) examples/repetition_code.stim\n\nprints\n\n((?:    .*\n)+)", page)
        done = run([python, DECODE, "--program", program, *shown[1].split(), CIRCUIT])
        self.assertEqual(done.stdout.decode(), re.sub("^    ", "", shown[2], flags=re.MULTILINE))

    def test_the_rate_of_a_converted_code_is_the_computed_one(self):
        python, program = find_numpy_python(), find_program()
        converted = run([FROM_STIM], stim_circuits.repetition_code(3, 4).replace("0.00", "0.01").encode()).stdout
        expected = least_error_rate(read_errors(write_model(converted.decode())))
        with tempfile.TemporaryDirectory() as folder:
            path = Path(folder) / "code.stim"
            path.write_bytes(converted)
            self.assert_rates([python, DECODE, "--program", program, path], expected, 100000)

    def test_a_circuit_may_be_a_pipe(self):
        command = f"{find_numpy_python()} {DECODE} --program {find_program()} --shots 1000"
        piped, plain = (run(["bash", "-c", f"{command} {circuit}"]) for circuit in (f"<(cat {CIRCUIT})", CIRCUIT))
        self.assertRegex(plain.stdout, rb"decoded wrongly [1-9]")
        self.assertEqual((piped.returncode, piped.stdout), (0, plain.stdout))

    def test_shots_are_counted_by_hand(self):
        """Two detectors; the observable goes with the first one, as the greater chance has it. Shots 3 and 4 are wrong."""
        python = find_numpy_python()
        model = "error(0.1) D0 L0\\nerror(0.01) D0\\nerror(0.2) D1\\ndetector D0\\ndetector D1\\nlogical_observable L0\\n"
        with tempfile.TemporaryDirectory() as folder:
            program = StandIn(folder, analyze=(model, 0), detect=("000\\n101\\n100\\n011\\n111\\n", 0)).path
            done = run([python, DECODE, "--program", program, "--shots", "5", "--seed", "9", CIRCUIT])
            self.assertEqual((Path(folder) / "words").read_text(), "analyze\ndetect --shots 5 --seed 9\n")
        self.assertEqual((done.returncode, done.stderr), (0, b""))
        # 0.1 * 0.01 with both errors on D0, where "no error" is likelier; 0.9 * 0.01 with the second alone.
        self.assertEqual(done.stdout.decode(), "detectors 2, observables 1, error lines 3\nshots 5, decoded wrongly 2: "
                         "logical error rate 0.400000\nby the error model 0.010000\n")

    def test_what_fails_is_told_and_ends_with_status_1(self):
        python = find_numpy_python()
        model = "error(0.1) D0 L0\\ndetector D0\\nlogical_observable L0\\n"
        large = "".join(f"detector D{k}\\n" for k in range(21))
        rows = [
            ({"analyze": ("refused 12 line 7\\n", 2)}, "analyze ended with status 2: refused 12 line 7"),
            ({"analyze": ("random D3\\n0\\n1\\n", 3)}, "analyze ended with status 3: random D3"),
            ({"analyze": (model, 1)}, "analyze ended with status 1"),
            ({"analyze": (model, 0), "detect": ("refused 52 line 0\\n", 2)}, "detect ended with status 2: refused 52 line 0"),
            ({"analyze": (large, 0)}, "too many for a table; use tools/match.py"),
            ({"analyze": ("detector D0\\nerror(2) D0\\n", 0)}, "line 2: '2' is no probability"),
            ({"analyze": (model, 0), "detect": ("00\\n1\\n", 0)}, "decode.py: detect didn't write 100000 shots of 2 characters"),
            ({"analyze": (model, 0), "detect": ("", 0)}, "decode.py: detect didn't write 100000 shots of 2 characters"),
        ]
        for answers, said in rows:
            with tempfile.TemporaryDirectory() as folder:
                done = run([python, DECODE, "--program", StandIn(folder, **answers).path, CIRCUIT])
            self.assertEqual(done.returncode, 1, said)
            self.assertIn(said, done.stderr.decode())
            self.assertNotIn(b"rate", done.stdout)
            self.assertNotIn(b"Traceback", done.stderr)

    def test_what_is_missing_or_wrong_is_told(self):
        python = find_numpy_python()
        rows = [
            (["--program", "/nowhere/stabsim", CIRCUIT], 1, b"'/nowhere/stabsim'"),
            (["--program", "/nowhere/stabsim", "nofile.stim"], 1, b"'nofile.stim'"),
            ([], 2, b"usage: "),
            (["--shots", "0", CIRCUIT], 2, b"--shots takes a whole number from 1 on"),
            (["--seed", "-1", CIRCUIT], 2, b"--seed one from 0 on"),
        ]
        for words, status, said in rows:
            done = run([python, DECODE, *words])
            self.assertEqual((done.returncode, done.stdout), (status, b""), words)
            self.assertIn(said, done.stderr)
            self.assertNotIn(b"Traceback", done.stderr)

    def test_an_output_that_is_closed_or_full(self):
        python = find_numpy_python()
        with tempfile.TemporaryDirectory() as folder:
            program = StandIn(folder, analyze=("error(0.1) D0\\n", 0), detect=("1\\n", 0)).path
            command = f"{python} {DECODE} --program {program} --shots 1 {CIRCUIT}"
            for redirected, said in (("| true; exit ${PIPESTATUS[0]}", b"Broken pipe"), ("> /dev/full", b"No space left")):
                done = run(["env", "-u", "PYTHONUNBUFFERED", "bash", "-c", f"{command} {redirected}"])
                self.assertEqual(done.returncode, 1, redirected)
                self.assertIn(said, done.stderr)
                self.assertEqual(done.stderr.count(b"\n"), 1)

    def test_a_model_with_blocks_is_decoded_as_without(self):
        """The code of three bits that is seen twice: D0 to D3 by the first block, and the observable by the shift behind it."""
        python = find_numpy_python()
        blocks = ("repeat 2 {\\nerror(0.1) D0\\nerror(0.1) D0 ^ D1\\nshift_detectors 2\\n}\\n"
                  "shift_detectors 1\\nerror[x](0.2) D0 L0\\n")
        plain = "error(0.1) D0\\nerror(0.1) D0 D1\\nerror(0.1) D2\\nerror(0.1) D2 D3\\nerror(0.2) D5 L0\\ndetector D4\\n"
        outputs = []
        for model in (blocks, plain):
            with tempfile.TemporaryDirectory() as folder:
                program = StandIn(folder, analyze=(model, 0), detect=("0000000\\n0000011\\n1000010\\n", 0)).path
                done = run([python, DECODE, "--program", program, "--shots", "3", CIRCUIT])
            self.assertEqual((done.returncode, done.stderr), (0, b""))
            outputs.append(done.stdout.decode())
        self.assertEqual(outputs[0], outputs[1])
        self.assertEqual(outputs[0], "detectors 6, observables 1, error lines 5\nshots 3, decoded wrongly 1: "
                         "logical error rate 0.333333\nby the error model 0.000000\n")

    def test_without_numpy_it_says_what_to_install(self):
        with tempfile.TemporaryDirectory() as folder:
            (Path(folder) / "numpy.py").write_text("raise ImportError('none')\n")
            done = run(["env", f"PYTHONPATH={folder}", shutil.which("python3"), DECODE, CIRCUIT])
        self.assertEqual((done.returncode, done.stdout), (1, b""))
        self.assertIn(b"python3-numpy", done.stderr)


class Recipes(unittest.TestCase):
    def run_recipes(self, page, check):
        """Runs the page's shell recipes one after the other in a folder with the examples and the program, and then `check`."""
        program = find_program()
        recipes = re.findall(r"^```sh\n(.*?)^```", (TOP / "docs" / page).read_text(), re.MULTILINE | re.DOTALL)
        with tempfile.TemporaryDirectory() as folder:
            for name in ("examples", "tools"):
                os.symlink(TOP / name, Path(folder) / name)
            os.symlink(program, Path(folder) / "stabsim")
            (Path(folder) / "crates" / "stabsim" / "out").mkdir(parents=True)
            os.symlink(program, Path(folder) / "crates" / "stabsim" / "out" / "stabsim")
            for recipe in recipes:
                self.assertTrue(recipe.startswith("set -euo pipefail\n"))
                done = run(["bash", "-c", f"cd {folder} && {recipe}"])
                self.assertEqual((done.returncode, done.stderr), (0, b""), recipe)
            check(Path(folder))
            self.assertEqual(list(Path(folder).glob("*.new")), [])
        return len(recipes)

    def test_recipes_of_the_page_on_decoding(self):
        def check(folder):
            self.assertEqual((folder / "code.dem").read_text(), write_model((TOP / "examples" / "surface_code.stim").read_text()))
            shots = (folder / "shots.01").read_bytes()
            self.assertEqual(shots, run([folder / "stabsim", "detect", "--shots", "1000", "--seed", "1"],
                                        (TOP / "examples" / "surface_code.stim").read_bytes()).stdout)
            self.assertEqual((folder / "many.01").read_bytes()[:len(shots)], shots)
            self.assertEqual((folder / "many.01").read_bytes().count(b"\n"), 4000)
            errors = read_errors((folder / "z.dem").read_text())
            self.assertEqual(max(len(detectors) for _, detectors, _ in errors), 2)
            self.assertEqual((folder / "z.dem").read_text().count("\ndetector"), 4 * 4)
            self.check_matrices(folder)
        self.assertEqual(self.run_recipes("DECODING.md", check), 3)

    def check_matrices(self, folder):
        """The page's Python, and then whether its arrays are the files' digits."""
        page = (TOP / "docs" / "DECODING.md").read_text()
        code = re.search(r"^```python\n(import sys\n.*?)^```", page, re.MULTILINE | re.DOTALL)[1]
        code += "print(*checks.shape, *flips.shape, chances.sum(), events.shape, observables.shape)\n"
        code += "for row in checks.T: print(*row, sep='')\nfor row in shots: print(*row, sep='')\n"
        done = run(["env", "-C", folder, find_numpy_python(), "-c", code])
        self.assertEqual(done.stderr, b"")
        lines = done.stdout.decode().splitlines()
        errors = read_errors((folder / "code.dem").read_text())
        total = sum(chance for chance, _, _ in errors)
        self.assertEqual(lines[0].split()[:4], ["24", str(len(errors)), "1", str(len(errors))])
        self.assertAlmostEqual(float(lines[0].split()[4]), total)
        columns = ["".join("1" if k in detectors else "0" for k in range(24)) for _, detectors, _ in errors]
        self.assertEqual(lines[1:1 + len(errors)], columns)
        self.assertEqual("\n".join(lines[1 + len(errors):]) + "\n", (folder / "shots.01").read_text())

    def test_recipes_of_the_page_on_stim(self):
        def check(folder):
            self.assertEqual((folder / "code.dem").read_text(), write_model((folder / "code.stim").read_text()))
            self.assertEqual((folder / "model.dem").read_text(), (TOP / "examples" / "repetition_code.dem").read_text())
        self.assertEqual(self.run_recipes("FROM_STIM.md", check), 2)

    def test_one_kind_of_detectors_is_enough_for_matching(self):
        """In the surface codes a fault flips at most two detectors of the kind that the observable needs, of all up to four."""
        layouts = {"rotated": stim_circuits.rotated_layout, "unrotated": stim_circuits.unrotated_layout}
        for name, layout in layouts.items():
            for basis in "XZ":
                text = stim_circuits.surface_code(name, layout(3), basis, 3, 3)
                lines = []
                for line in text.split("\n"):
                    place = re.match(r" *DETECTOR\((\d+), (\d+),", line)
                    if not place or layout(3).kinds[int(place[1]), int(place[2])] == basis:
                        lines.append(line)
                models = [read_errors(write_model(convert(part))) for part in (text, "\n".join(lines))]
                self.assertEqual([max(len(detectors) for _, detectors, _ in model) for model in models], [4, 2])


if __name__ == "__main__":
    unittest.main()
