"""The files of examples/: what each of them gives, and the commands that pages show."""
import pathlib
import re
import shlex
import unittest

from example_models import repetition_code, repetition_records, surface_code
from pcg64 import draw_shots
from program import ProgramTest, run_program

TOP = pathlib.Path(__file__).resolve().parents[2]

EXAMPLES = TOP / "examples"

FILES = sorted(path.name for pattern in ("*.stim", "*.dem") for path in EXAMPLES.glob(pattern))


def of_shots(code, shots, seed, line_of=None):
    """What `detect` writes for a code, or the lines that another function gives for the faults of each shot."""
    probabilities = [probability for probability, _, _ in code.faults]
    line_of = line_of or code.detections
    return "".join(line_of(faults) for faults, _ in draw_shots(seed, shots, probabilities, code.collapses))


TELEPORTATION_MODEL = "error(0.01) D0\nerror(0.03) D0\nerror(0.03) D0\ndetector(2, 0) D0\n"

BELL_MODEL = "error(0.01) D1 D2\nerror(0.02) D1\nerror(0.001) D1\ndetector D0\ndetector D1\ndetector D2\n"

REPETITION_FAULTS = """\
0 0.01 X0
1 0.01 X2
2 0.01 X4
3 0.02 rec[0]
4 0.02 rec[1]
5 0.01 X0
6 0.01 X2
7 0.01 X4
8 0.02 rec[2]
9 0.02 rec[3]
10 0.01 X0
11 0.01 X2
12 0.01 X4
13 0.02 rec[4]
14 0.02 rec[5]
15 0.03 rec[6]
16 0.03 rec[7]
17 0.03 rec[8]
coins 14
"""

# X on the qubit in the middle in the second round: 13 and 16 read 1 from then on, and so does that qubit.
SURFACE_RUN = "0" * 12 + "1001" + "0000" + "1001" + "0000" + "1" + "0000\n" + "0" * 8 + "1001" + "0" * 13 + "\n"

# Commands with their file, and what they write, worked by hand. The number of shots is cut to ten.
COMMANDS = {
    "run --faults 0 < first.stim": "11\n\n",
    "run < first.stim": "00\n\n",
    "analyze < first.stim": "",
    "faults < first.stim": "0 0.1 X0\ncoins 2\n",
    "run < reset.stim": "010\n\n",
    # XX is its coin, ZZ is 0 and YY is -XX ZZ; then Z of one qubit is its coin, and that of the other is the same.
    "run < bell_pair.stim": "00100\n000\n",
    "run --coins 10010 < bell_pair.stim": "10011\n000\n",
    "run --coins 11100 < bell_pair.stim": "10000\n000\n",
    # X changes YY and makes the two Z differ, Z changes YY, and the flip one record.
    "run --faults 0 < bell_pair.stim": "00001\n011\n",
    "run --faults 1 < bell_pair.stim": "00000\n010\n",
    "run --faults 0,2 < bell_pair.stim": "00101\n001\n",
    "analyze < bell_pair.stim": BELL_MODEL,
    # Both measurements are their coins, and the last one is 0.
    "run --coins 110 < teleportation.stim": "110\n0\n",
    "run --coins 100 < teleportation.stim": "100\n0\n",
    "run --coins 111 < teleportation.stim": "110\n0\n",
    "run --coins 010 --faults 0 < teleportation.stim": "011\n1\n",
    "run --coins 010 --faults 0,1 < teleportation.stim": "011\n1\n",
    "run --coins 010 --faults 2,3 < teleportation.stim": "100\n0\n",
    "analyze < teleportation.stim": TELEPORTATION_MODEL,
    "analyze < repetition_code.stim": repetition_code().model(),
    "run --faults 6,16 < repetition_code.stim": "001111000\n001100110\n",
    "faults < repetition_code.stim": REPETITION_FAULTS,
    "sample --shots 10 --seed 7 < repetition_code.stim": of_shots(repetition_code(), 10, 7, repetition_records),
    "detect --shots 10 < repetition_code.stim": of_shots(repetition_code(), 10, 0),
    "detect --shots 10 --seed 7 < repetition_code.stim": of_shots(repetition_code(), 10, 7),
    "detect --shots 10 --seed 1 < repetition_code.stim": of_shots(repetition_code(), 10, 1),
    "predict < repetition_code.dem": "000000000\n",
    "predict --lines 6,16 < repetition_code.dem": "001100110\n",
    # The left qubit in each round, and its final record; the same of the right qubit, whose observable cancels.
    "predict --lines 0,5,10,15 < repetition_code.dem": "101010100\n",
    "predict --lines 2,7,12,17 < repetition_code.dem": "010101010\n",
    # A measurement that is wrong shows in two rounds.
    "predict --lines 13 < repetition_code.dem": "000010100\n",
    "analyze < surface_code.stim": surface_code().model(),
    "run < surface_code.stim": f"{'0' * 33}\n{'0' * 25}\n",
    "run --faults 30 < surface_code.stim": SURFACE_RUN,
    "detect --shots 10 --seed 1 < surface_code.stim": of_shots(surface_code(), 10, 1),
}

COMMAND = re.compile(r"stabsim ([^<>|`\n]*)< *examples/([\w.]+)")

# A command with its input in the lines below it, and its output, which is the next indented lines.
WITH_INPUT = re.compile(
    r"^    \./stabsim ([^<>|\n]*)<<'END'\n((?:    .*\n)*?)    END\n(?:[^ \n].*\n|\n)+((?:    .*\n)+)", re.MULTILINE
)


def commands_in(text):
    """The commands on an example that a text shows, with their shots cut to ten."""
    for words, file in COMMAND.findall(text):
        yield f"{re.sub(r'--shots [0-9]+', '--shots 10', words)}< {file}"


class CommandsOnExamples(ProgramTest):
    def written(self, command):
        words, file = command.split("< ")
        return shlex.split(words), (EXAMPLES / file).read_bytes()

    def test_what_they_write(self):
        for command, output in COMMANDS.items():
            with self.subTest(command=command):
                words, content = self.written(command)
                self.check(words, content, output)

    def test_the_model_of_the_code_predicts_as_the_model_with_blocks(self):
        """Lines 6 and 16 of the model that `analyze` writes: the faults 6 and 16, as each fault has its line."""
        self.check(["predict", "--lines", "6,16"], repetition_code().model(), "001100110\n")

    def test_shots_of_seven_seeds(self):
        """200 shots, which are three batches of 64 and more."""
        code = repetition_code()
        for seed in range(7):
            for command, line_of in ("detect", code.detections), ("sample", repetition_records):
                with self.subTest(command=command, seed=seed):
                    words, content = self.written(f"{command} --shots 200 --seed {seed} < repetition_code.stim")
                    self.check(words, content, of_shots(code, 200, seed, line_of))

    def test_commands_that_help_shows(self):
        """A command on an example that help shows is one of those above."""
        for words in [], ["run"], ["sample"], ["detect"], ["analyze"], ["faults"], ["predict"]:
            with self.subTest(words=words):
                shown = set(commands_in(run_program([*words, "--help"], "")[0].decode()))
                self.assertNotEqual(shown, set())
                self.assertEqual(shown - set(COMMANDS), set())

    def test_inputs_that_readme_shows(self):
        shown = WITH_INPUT.findall((TOP / "README.md").read_text())
        if not shown:
            self.skipTest("README shows no input beside the examples")
        for words, content, output in shown:
            with self.subTest(words=words):
                self.check(shlex.split(words), re.sub("(?m)^    ", "", content), re.sub("(?m)^    ", "", output))


class CommandsOfPages(unittest.TestCase):
    """Each example has its commands. One that a comment of an example, or README, shows is one of those above."""

    def test_each_file_has_commands(self):
        self.assertEqual({command.split("< ")[1] for command in COMMANDS}, set(FILES))

    def test_comments_of_examples(self):
        shown = {command for file in FILES for command in commands_in((EXAMPLES / file).read_text())}
        self.assertGreaterEqual(len(shown), 10)
        self.assertEqual(shown - set(COMMANDS), set())

    def test_readme(self):
        shown = set(commands_in((TOP / "README.md").read_text()))
        self.assertGreaterEqual(len(shown), 2)
        self.assertEqual(shown - set(COMMANDS), set())
