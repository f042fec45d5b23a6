"""tools/match.py as a process, with the built program and with stand-ins for it and for libraries."""
import json
import os
import re
import signal
import subprocess
import sys
import tempfile
import time
import unittest
from contextlib import redirect_stderr, suppress
from io import StringIO
from math import sqrt
from pathlib import Path
from unittest import mock

from programs import DECODE, FROM_STIM, MATCH, TOP, find_program, find_python, heed_interrupts, load, run
from test_decode import CIRCUIT, StandIn, least_error_rate, repetition_model

ROTATED_CODE = TOP / "tools" / "rotated_code.py"

# In front of a command: what Python writes is kept until it is flushed, as where users run it.
BUFFERED = ("env", "-u", "PYTHONUNBUFFERED")
sys.path.insert(0, str(MATCH.parent))
script = load(MATCH)

MODEL = "error(0.1) D0 L0\nerror(0.01) D0\nerror(0.2) D1\ndetector D0\ndetector D1\nlogical_observable L0\n"

# A model of two kinds, D0 D2 and D1 D3, of which the first tells of the observable. The fourth coordinate says the kind.
KINDS = """\
error(0.1) D0 L0
error(0.1) D0 D2
error(0.1) D2
error(0.1) D1
error(0.1) D1 D3
error(0.1) D0 D1 D2 D3
detector(0, 0, 0, 0) D0
detector(2, 0, 0, 1) D1
detector(0, 2, 1, 0) D2
detector(2, 2, 1, 1) D3
logical_observable L0
"""
KINDS_SHOTS = "10101\n10100\n11001\n01010\n"

# Stand-ins for libraries, by the calls of their documentation. What is asked of them is kept in a file `asked`.
PYMATCHING = """
import json, os
import numpy

class Matching:
    def __init__(self):
        self.asked, self.num_detectors = [], 2

    def add_edge(self, node1, node2, fault_ids=None, weight=1.0, error_probability=None, *, merge_strategy="disallow"):
        self.asked.append([node1, node2, sorted(fault_ids), weight, error_probability])

    def add_boundary_edge(self, node, fault_ids=None, weight=1.0, error_probability=None, *, merge_strategy="disallow"):
        self.asked.append([node, None, sorted(fault_ids), weight, error_probability])

    def decode_batch(self, shots, *, return_weights=False, bit_packed_shots=False, bit_packed_predictions=False):
        assert shots.dtype == numpy.uint8 and shots.flags.c_contiguous
        with open(os.environ["ASKED"], "w") as file:
            json.dump([self.asked, shots.tolist()], file)
        return shots[:, :1]
"""
PYPLOT = """
import json, os

class Recorder:
    def __getattr__(self, name):
        return lambda *words, **named: calls.append([name, words, named])

calls, recorder = [], Recorder()
recorder.xaxis = recorder
Recorder.savefig = lambda self, path: json.dump(calls, open(path, "w"))

def NullLocator():
    return "none"

def subplots(**named):
    return recorder, recorder
"""


def write_program(folder, answers):
    """A stand-in for the program, and circuits for it: of each name what it writes for each order, and the status behind it."""
    program, circuits = Path(folder) / "program", {}
    program.write_text(f"#!/bin/sh\ncd {folder} && read -r name\necho \"$*\" >> words\n"
                       "cat $name.$1\nexit $(cat $name.$1.status)\n")
    program.chmod(0o755)
    for number, (name, orders) in enumerate(answers.items()):
        circuits[name] = Path(folder) / f"{number}.stim"
        circuits[name].write_text(f"{number}\n")
        for order, (text, status) in orders.items():
            Path(folder, f"{number}.{order}").write_text(text)
            Path(folder, f"{number}.{order}.status").write_text(str(status))
    return program, circuits


def match(*words, **variables):
    """What the script answers, in a Python with its libraries and in the folder of the repository."""
    python = find_python("numpy", "networkx")
    return run(["env", "-C", TOP, *(f"{name}={value}" for name, value in variables.items()), python, MATCH, *words])


def rows_of(output):
    """The lines of the table, by circuit: detectors, error lines, seed, shots, wrong, and the three rates."""
    lines = output.decode().splitlines()
    rows = {}
    for line in lines[2:]:
        name, cells = re.fullmatch(r"(.*?)((?:  +[^ ]+){8})", line).groups()
        rows[name] = cells.split()
    return rows


def ends_with(module, words):
    """How a script's `main` ends that refuses these options: the status, and what is told behind its name."""
    errors = StringIO()
    with mock.patch.object(sys, "argv", ["script", *words]), redirect_stderr(errors):
        try:
            return module.main(), errors.getvalue()
        except SystemExit as end:
            return end.code, errors.getvalue().partition("script: error: ")[2].strip()


class MatchTest(unittest.TestCase):
    @classmethod
    def setUpClass(cls):
        find_program()  # so that .ci/test, which runs all tests without the program first, starts these processes once

    def rows(self, *words, **variables):
        done = match(*words, **variables)
        self.assertEqual((done.returncode, done.stderr), (0, b""))
        return rows_of(done.stdout)

    def answers(self, model, shots, *words, **variables):
        """The row for a stand-in that writes this model and these shots, and the orders that it got."""
        with tempfile.TemporaryDirectory() as folder:
            program, circuits = write_program(folder, {"code": {"analyze": (model, 0), "detect": (shots, 0)}})
            rows = self.rows("--stabsim", program, *words, circuits["code"], **variables)
            return rows[str(circuits["code"])], (Path(folder) / "words").read_text().splitlines()

    def assert_told(self, done, status, said):
        self.assertEqual(done.returncode, status, done.stderr)
        self.assertIn(said, done.stderr.decode())
        self.assertNotIn(b"Traceback", done.stderr)


class Counting(MatchTest):
    def test_shots_are_counted_by_hand(self):
        """The observable goes with D0, whose likelier error flips it. Shots 3 and 4 are wrong, so 2 of 5."""
        row, orders = self.answers(MODEL, "000\n101\n100\n011\n111\n", "--shots", "5", "--seed", "9")
        self.assertEqual(orders, ["analyze", "detect --shots 5 --seed 9"])
        self.assertEqual(row[:6], ["2/2", "3", "9", "5", "2", "4.00e-01"])

    def test_the_interval_is_wilsons(self):
        """At its ends the rate that was found lies 1.96 standard deviations away."""
        with tempfile.TemporaryDirectory() as folder:
            shots = {0: "000\n101\n111\n", 1: "001\n101\n010\n", 3: "100\n001\n110\n"}
            program, circuits = write_program(folder, {wrong: {"analyze": (MODEL, 0), "detect": (text, 0)}
                                                       for wrong, text in shots.items()})
            rows = self.rows("--stabsim", program, "--shots", "3", *circuits.values())
        for wrong, row in zip(shots, rows.values()):
            self.assertEqual(row[4], str(wrong))
            low, high = map(float, row[6:])
            self.assertEqual((low == 0, high == 1), (wrong == 0, wrong == 3))
            for end in {low, high} - {0, 1}:
                self.assertAlmostEqual(abs(end - wrong / 3) / sqrt(end * (1 - end) / 3), 1.959964, delta=0.02)

    def test_more_shots_than_a_run_draws_take_more_seeds(self):
        """Each second circuit's seeds follow the first one's."""
        with tempfile.TemporaryDirectory() as folder:
            program = StandIn(folder, analyze=("error(0.1) D0 L0\\n", 0)).path
            program.write_text(program.read_text().replace("exit 9", "yes 01 | head -n $3"))
            rows = self.rows("--stabsim", program, "--shots", "2000001", "--seed", "5", CIRCUIT, TOP / "examples" / "first.stim")
            orders = (Path(folder) / "words").read_text().splitlines()
        drawn = ["detect --shots 1000000 --seed ", "detect --shots 1000000 --seed ", "detect --shots 1 --seed "]
        self.assertEqual(orders, ["analyze", *(f"{words}{seed}" for words, seed in zip(drawn, (5, 6, 7))),
                                  "analyze", *(f"{words}{seed}" for words, seed in zip(drawn, (8, 9, 10)))])
        self.assertEqual([row[2:6] for row in rows.values()], [["5", "2000001", "2000001", "1.00e+00"],
                                                               ["8", "2000001", "2000001", "1.00e+00"]])

    def test_detectors_are_chosen_or_named(self):
        """By D0 and D2: the error of both, likelier than the two of one; in the third shot the one that flips the observable. By
        D0: in all three shots the error of both, of 0.18, and not the one of 0.1, which flips the observable."""
        for words, kept, wrong in (([], "2/4", "1"), (["--keep", "*,*,*,0"], "2/4", "1"), (["--keep", "0,0"], "1/4", "2")):
            row, _ = self.answers(KINDS, KINDS_SHOTS, "--shots", "4", *words)
            with self.subTest(words=words):
                self.assertEqual((row[0], row[1], row[4]), (kept, "6", wrong))

    def test_by_pymatching_where_it_is_there(self):
        """The stand-in takes the first detector for the observable. Edges have the weight log((1 - p) / p)."""
        with tempfile.TemporaryDirectory() as folder:
            asked = Path(folder) / "asked"
            (Path(folder) / "pymatching.py").write_text(PYMATCHING)
            row, _ = self.answers(KINDS, KINDS_SHOTS, "--shots", "4", PYTHONPATH=folder, ASKED=asked)
            edges, shots = json.loads(asked.read_text())
            asked.unlink()
            self.answers(KINDS, KINDS_SHOTS, "--shots", "4", "--library", "networkx", PYTHONPATH=folder, ASKED=asked)
            self.assertFalse(asked.exists())
        self.assertEqual(row[4], "1")
        self.assertEqual(shots, [[1, 1], [1, 1], [1, 0], [0, 0]])
        # An edge for each of the errors that the kept detectors see; two of these are D0 D2, each with 0.1.
        chances = {(0, None): 0.1, (0, 1): 0.18, (1, None): 0.1}
        self.assertEqual([(first, second, flipped) for first, second, flipped, _, _ in edges],
                         [(0, None, [0]), (0, 1, []), (1, None, [])])
        for first, second, _, weight, chance in edges:
            self.assertAlmostEqual(chance, chances[first, second])
            self.assertAlmostEqual(weight, 1.5163474893680884 if chance > 0.15 else 2.1972245773362196)


class WithTheProgram(MatchTest):
    def test_the_rate_of_the_repetition_code(self):
        """It is decoded nearly as well as can be, which test_matching computes; shots have the rest."""
        expected = least_error_rate(repetition_model())
        row = self.rows("--stabsim", find_program(), "--shots", "200000", "--seed", "3", CIRCUIT)[str(CIRCUIT)]
        self.assertEqual(row[:4], ["8/8", "18", "3", "200000"])
        self.assertLess(abs(int(row[4]) / 200000 - expected), 5 * sqrt(expected / 200000))

    def test_rotated_codes_are_the_converted_circuits(self):
        """A row for each distance and probability, as of a file with the circuit, by the seeds from the first on."""
        rows = self.rows("--stabsim", find_program(), "--rotated", "2,3", "--probabilities", "0.01,.02", "--rounds", "2",
                         "--shots", "300", "--seed", "7")
        self.assertEqual([(name, row[0], row[2]) for name, row in rows.items()], [
            ("rotated distance 2, 0.01", "3/5", "7"), ("rotated distance 2, .02", "3/5", "8"),
            ("rotated distance 3, 0.01", "12/16", "9"), ("rotated distance 3, .02", "12/16", "10")])
        with tempfile.TemporaryDirectory() as folder:
            path = Path(folder) / "code.stim"
            text = run([ROTATED_CODE, "--distance", "3", "--probability", ".02", "--rounds", "2"]).stdout
            path.write_bytes(run([FROM_STIM], text).stdout)
            row = self.rows("--stabsim", find_program(), "--shots", "300", "--seed", "10", path)[str(path)]
        self.assertEqual(row, rows["rotated distance 3, .02"])
        self.assertGreater(int(row[4]), 10)

    def test_what_a_plot_shows(self):
        """The stand-in for the plotting library keeps its calls: the points are those of the table."""
        with tempfile.TemporaryDirectory() as folder:
            (Path(folder) / "matplotlib").mkdir()
            (Path(folder) / "matplotlib" / "__init__.py").write_text("def use(name): pass\n")
            (Path(folder) / "matplotlib" / "pyplot.py").write_text(PYPLOT)
            path = Path(folder) / "rates.png"
            rows = self.rows("--stabsim", find_program(), "--rotated", "2,3", "--probabilities", "0.03,0.01", "--rounds", "1",
                             "--shots", "400", "--plot", path, PYTHONPATH=folder)
            calls = json.loads(path.read_text())
        bars = {named["label"]: (*words, named["yerr"]) for name, words, named in calls if name == "errorbar"}
        self.assertEqual(set(bars), {"distance 2", "distance 3"})
        for label, (chances, rates, (below, above)) in bars.items():
            self.assertEqual(chances, [0.01, 0.03])
            for k, chance in enumerate(("0.01", "0.03")):
                row = [float(cell) for cell in rows[f"rotated {label}, {chance}"][3:]]
                self.assertAlmostEqual(rates[k], row[1] / row[0])
                self.assertAlmostEqual(rates[k] - below[k], row[3], delta=row[3] / 100)
                self.assertAlmostEqual(rates[k] + above[k], row[4], delta=row[4] / 100)
        self.assertEqual([named for name, _, named in calls if name == "set"][0]["yscale"], "log")


class Page(MatchTest):
    """docs/DECODING.md: its commands as they are written, but for the one of the picture, which takes minutes."""

    page = (TOP / "docs" / "DECODING.md").read_text()

    def test_commands(self):
        commands = re.findall(r"^    /usr/bin/python3 tools/match.py (.*)", self.page, re.MULTILINE)
        self.assertEqual(len(commands), 3)
        for command in commands:
            if "--plot" not in command:
                rows = self.rows("--stabsim", find_program(), *command.split())
                self.assertTrue(rows)
                self.check_shown(command, rows)

    def check_shown(self, command, rows):
        """Where the page shows what a command prints, it is that, but for some shots: of equal weights a library takes any."""
        shown = re.search(re.escape(command) + r"\n\nprints\n\n((?:    .*\n)+)", self.page)
        for name, cells in (rows_of(shown[1].replace("    ", "", 1).replace("\n    ", "\n").encode()) if shown else {}).items():
            self.assertEqual(rows[name][:4], cells[:4])
            self.assertLess(abs(int(rows[name][4]) - int(cells[4])), 0.05 * int(cells[4]))

    def test_the_picture(self):
        name = re.search(r"!\[[^\]]+\]\((.*)\)", self.page)[1]
        content = (TOP / "docs" / name).read_bytes()
        self.assertEqual(content[:8], b"\x89PNG\r\n\x1a\n")
        self.assertLess(len(content), 60000)


class Failing(MatchTest):
    def test_what_is_refused_is_told_and_the_others_are_decoded(self):
        right = {"analyze": (MODEL, 0), "detect": ("000\n101\n", 0)}
        answers = {
            "analyze ended with status 2: refused 12 line 7": {"analyze": ("refused 12 line 7\n", 2)},
            "analyze ended with status 3: random D3": {"analyze": ("random D3\n0\n1\n", 3)},
            "line 1: 'D' is no target": {"analyze": ("error(0.1) D0 D\n", 0)},
            "the circuit has no observable": {"analyze": ("detector D0\n", 0)},
            "D0 D1 D2, and none of these detectors is kept": {"analyze": ("error(0.1) D0 D1 D2 L0\n", 0)},
            "detect ended with status 2: refused 52 line 0": {**right, "detect": ("refused 52 line 0\n", 2)},
            "detect ended with status 1": {**right, "detect": ("000\n000\n", 1)},
            "detect didn't write 2 shots of 3 characters": {**right, "detect": ("000\n00", 0)},
            "detect didn't write 2 shots of 3": {**right, "detect": ("0000\n000", 0)},
            "can't give the detection events of a shot": {"analyze": ("error(0.1) D0 D1\nerror(0) D1 L0\n", 0),
                                                          "detect": ("100\n010\n", 0)},
            "": right,
        }
        with tempfile.TemporaryDirectory() as folder:
            program, circuits = write_program(folder, answers)
            done = match("--stabsim", program, "--shots", "2", *circuits.values(), "/nowhere/code.stim", folder, circuits[""])
            self.assertEqual(list(rows_of(done.stdout)), [str(circuits[""])])
            self.assertEqual(done.stdout.count(b"\n"), 4)
            told = done.stderr.decode().splitlines()
            self.assertEqual(len(told), len(answers) - 1 + 2)
            for said, line in zip(list(answers)[:-1], told):
                self.assertIn(f"match.py: {circuits[said]}: ", line)
                self.assertIn(said, line)
            self.assert_told(done, 1, "match.py: /nowhere/code.stim: can't use /nowhere/code.stim: No such file")
            self.assert_told(done, 1, "Is a directory")

    def test_options_that_are_wrong(self):
        for words, said in (
            ([], "give circuits, or --rotated"),
            (["--rotated", "3", "--probabilities", "0.1", "code.stim"], "give circuits, or --rotated"),
            (["--rotated", "3"], "--rotated and --probabilities go together"),
            (["--rotated", "3,x", "--probabilities", "0.1"], "'x' is no distance from 2 to 45"),
            (["--rotated", "3", "--probabilities", "0.76"], "'0.76' is no probability from 0 to 0.75"),
            (["--plot", "rates.png", "code.stim"], "--plot and --rounds go with --rotated"),
            (["--plot", "/nowhere/rates.png", "--rotated", "3", "--probabilities", "0.1"], "in a folder that is there"),
            (["--shots", "0", "code.stim"], "'0' is no whole number from 1"),
            (["--seed", str(2**64), "code.stim"], "is no whole number from 0"),
            (["--seed", str(2**64 - 1), "--shots", "1000001", "code.stim"], "the seeds go beyond"),
            (["--keep", "2,a", "code.stim"], "'2,a' is no list"),
            (["--keep", " ", "code.stim"], "no coordinates are given"),
        ):
            with self.subTest(words=words):
                status, told = ends_with(script, words)
                self.assertEqual(status, 2)
                self.assertIn(said, told)
        self.assert_told(match("--shots", "x", CIRCUIT), 2, "'x' is no whole number")

    def test_what_is_missing_is_told(self):
        for module, words, said in (
            ("numpy", [CIRCUIT], "python3-numpy and python3-networkx"),
            ("networkx", ["--library", "networkx", CIRCUIT], "needs numpy and networkx: on Debian install python3-numpy"),
            ("pymatching", ["--library", "pymatching", CIRCUIT], "needs numpy and pymatching"),
            ("matplotlib", ["--rotated", "3", "--probabilities", "0.1", "--plot", "rates.png"], "install python3-matplotlib"),
        ):
            with self.subTest(module=module), tempfile.TemporaryDirectory() as folder:
                (Path(folder) / f"{module}.py").write_text("raise ImportError('none')\n")
                done = match(*words, PYTHONPATH=folder)
                self.assert_told(done, 1, said)
                self.assertEqual(done.stdout, b"")
        self.assert_told(match("--stabsim", "/nowhere/stabsim", CIRCUIT), 1, "can't use /nowhere/stabsim: No such file")

    def test_an_output_that_is_closed_or_full(self):
        python = find_python("numpy", "networkx")
        with tempfile.TemporaryDirectory() as folder:
            program, circuits = write_program(folder, {"code": {"analyze": (MODEL, 0), "detect": ("000\n101\n", 0)}})
            whole = f"{python} {MATCH} --stabsim {program} --shots 2 {circuits['code']}"
            for command, said in (
                (f"{whole} | true; exit ${{PIPESTATUS[0]}}", "Broken pipe"), (f"{whole} > /dev/full", "No space left"),
                (f"{ROTATED_CODE} --distance 2 --probability 0 > /dev/full", "No space left"),
                (f"{whole} >&-", "standard output is closed"),
                (f"{ROTATED_CODE} --distance 2 --probability 0 >&-", "standard output is closed"),
                (f"{python} {DECODE} --program {program} {circuits['code']} >&-", "standard output is closed"),
            ):
                with self.subTest(command=command):
                    done = run([*BUFFERED, "bash", "-c", command])
                    self.assert_told(done, 1, said)
                    self.assertEqual(done.stderr.count(b"\n"), 1)
            for closed in ("2>&-", "2>/dev/full"):  # nobody can be told of the circuit that isn't there, and the other is decoded
                done = run([*BUFFERED, "bash", "-c", whole.replace("--shots 2", "--shots 2 /nowhere") + " " + closed])
                self.assertEqual((done.returncode, done.stdout.count(b".stim ")), (1, 1), done.stdout)
                self.assertNotIn(b"nowhere:", done.stdout)
            for path in (MATCH, ROTATED_CODE):  # some versions of argparse pass over a failure of help
                done = run([*BUFFERED, "bash", "-c", f"{python} {path} --help > /dev/full"])
                self.assertNotRegex(done.stderr, b"Traceback|Exception")

    def test_an_interrupt(self):
        with tempfile.TemporaryDirectory() as folder:
            program, circuits = write_program(folder, {"code": {"analyze": (MODEL, 0)}})
            program.write_text(program.read_text().replace("cat ", "[ $1 = analyze ] || { touch draws; sleep 60; }\ncat ", 1))
            words = [find_python("numpy", "networkx"), str(MATCH), "--stabsim", str(program), str(circuits["code"])]
            with open(Path(folder) / "told", "wb") as told:
                process = subprocess.Popen(words, stdout=told, stderr=told, start_new_session=True, preexec_fn=heed_interrupts)
            try:
                while not (Path(folder) / "draws").exists():
                    self.assertIsNone(process.poll())
                    time.sleep(0.02)
                os.killpg(process.pid, signal.SIGINT)
                self.assertEqual(process.wait(timeout=60), 130)
            finally:
                with suppress(ProcessLookupError):
                    os.killpg(process.pid, signal.SIGKILL)  # the shell may have begun to sleep
                process.wait()
            self.assertEqual(len((Path(folder) / "told").read_text().splitlines()), 2)


if __name__ == "__main__":
    unittest.main()
