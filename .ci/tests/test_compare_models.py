"""What tools/compare_models.py says of two models, and what it writes of one; its statuses, and the commands that pages show."""
import io
import os
import re
import resource
import signal
import subprocess
import sys
import tempfile
import unittest
from decimal import Decimal, localcontext
from fractions import Fraction
from pathlib import Path
from types import SimpleNamespace

import stim_circuits
from frame_models import follow_faults, write_model
from programs import TOP, convert, find_program, load, run

COMPARE = TOP / "tools" / "compare_models.py"
SCRIPT = [sys.executable, COMPARE]
script = load(COMPARE)

CIRCUITS = {path.stem: path.read_text() for path in sorted((TOP / "examples").glob("*.stim"))}
CIRCUITS.update((name, convert(text, scale=2)) for name, text in stim_circuits.CIRCUITS.items())

# No test comes near: a script that hangs fails.
SECONDS = 120

# The first and the fourth line are one of probability 0.001 + 0.004 - 2 * 0.001 * 0.004 = 0.004992.
MODEL = """\
error(0.001) D0 D1
error(0.002) D1 D2 L0
error(0.003) D2
error(0.004) D0 D1
error(0.005) D2 L0
detector(0, 0) D0
detector(1, 0) D1
detector(2, 0.5) D2
logical_observable L0
"""


def follow(text):
    """Each symptom of a circuit with its exact probability, by following each fault: 1 less twice it is a product."""
    products = {}
    for chance, names in follow_faults(text)[0]:
        products[" ".join(names)] = products.get(" ".join(names), 1) * (1 - 2 * Fraction(chance))
    return {names: (1 - product) / 2 for names, product in products.items() if names and product != 1}


def write_as_stim(text):
    """The model of a circuit with floating-point numbers, each symptom once, backwards, and in parts of which one cancels."""
    lines = [f"error({float(chance):.19g}) {' ^ D0 '.join(names.rsplit(' ', 1))}{' D0' if ' ' in names else ''}"
             for names, chance in reversed(list(follow(text).items()))]
    return "\n".join(lines + follow_faults(text)[1])


def order_of(line):
    """The numbers of a line's detectors, and then those of its observables."""
    return [[int(digits) for digits in re.findall(f"{letter}(\\d+)", line)] for letter in "DL"]


def round_digits(chance):
    """A probability with 18 significant digits, as a decimal without an exponent. Those of these tests need no 38 places."""
    places = 17
    while chance * 10**places < 10**17:
        places += 1
    digits = f"{round(chance * 10**places):0{places + 1}}"
    return f"{digits[:-places]}.{digits[-places:]}".rstrip("0").rstrip(".")


def merge(text):
    """The lines of the merged model of a text, with coordinates."""
    with localcontext(script.CONTEXT):
        return list(script.write_merged(script.read_merged(io.BytesIO(text.encode()), True)))


class Script(unittest.TestCase):
    """A test that runs the script, in a folder of its own."""

    def setUp(self):
        folder = tempfile.TemporaryDirectory()
        self.addCleanup(folder.cleanup)
        self.folder = Path(folder.name)

    def call(self, *words, data=b"", **texts):
        """The script, where files of these names have these texts."""
        for name, text in texts.items():
            (self.folder / name).write_text(text)
        done = run(["env", "-C", self.folder, *SCRIPT, *words], data)
        self.assertNotIn(b"Traceback", done.stderr)
        return done


class Circuits(Script):
    """Models of circuits, beside those that following each fault gives."""

    def test_each_merged_model_is_that_of_following_each_fault(self):
        for name, text in CIRCUITS.items():
            declared = follow_faults(text)[1]
            detectors = [line for line in declared if line.startswith("detector")]
            placed = [line for line in detectors if "(" in line]
            expected = sorted((f"error({round_digits(chance)}) {names}" for names, chance in follow(text).items()),
                              key=lambda line: order_of(line.split(" ", 1)[1]))
            expected += placed + [line for line in detectors[-1:] if line not in placed] + declared[len(detectors):][-1:]
            self.assertEqual(merge(write_model(text)), expected, name)

    def test_models_in_other_forms_agree(self):
        text = CIRCUITS["surface_code_rotated_memory_z"]
        ours, theirs = write_model(text), write_as_stim(text)
        faults, symptoms = ours.count("error("), len(follow(text))
        self.assertGreater(faults, 3 * symptoms)
        self.assertGreater(theirs.count("^"), 100)
        done = self.call("--coordinates", "a.dem", "-", data=theirs.encode(), **{"a.dem": ours})
        said = done.stdout.decode().splitlines()
        self.assertEqual(said[:2], [
            f"a.dem: detectors 24, observables 1, error lines {faults}, symptoms {symptoms}",
            f"standard input: detectors 24, observables 1, error lines {symptoms}, symptoms {symptoms}"])
        self.assertRegex(said[2], r"^greatest relative difference of two probabilities: \d(\.\d)?e-1[6-9]$")
        self.assertEqual((said[3:], done.returncode, done.stderr), (["the models agree"], 0, b""))

    def test_the_program_reads_what_is_merged(self):
        """Each line of the merged model flips what it names, and there are as many targets."""
        program = find_program()
        text = write_as_stim(CIRCUITS["repetition_code_memory"])
        merged = self.call("--merge", "-", data=text.encode()).stdout
        expected = [line for line in merge(text) if line.startswith("error")] + ["detector D7", "logical_observable L0"]
        self.assertEqual(merged.decode().splitlines(), expected)
        for at, line in enumerate(re.findall(r"^error.*", merged.decode(), re.MULTILINE)):
            flips = run([program, "predict", "--lines", str(at)], merged).stdout.decode().strip()
            names = [f"D{k}" for k in range(len(flips) - 1)] + ["L0"]
            self.assertEqual(line.split(maxsplit=1)[1].split(), [name for name, flip in zip(names, flips) if flip == "1"])


class Differences(unittest.TestCase):
    def assert_differ(self, ours, theirs, told, tolerance="1e-9", coordinates=False):
        options = SimpleNamespace(models=["ours", "theirs"], tolerance=Decimal(tolerance), coordinates=coordinates)
        with localcontext(script.CONTEXT):
            models = [script.read_merged(io.BytesIO(text.encode()), coordinates) for text in (ours, theirs)]
            self.assertEqual(script.find_differences(*models, options)[0], told)

    def assert_agree(self, ours, theirs, **options):
        self.assert_differ(ours, theirs, [], **options)

    def test_a_line_that_is_left_out(self):
        lines = MODEL.splitlines(keepends=True)
        rows = [(0, ["probabilities that differ: 1", "    D0 D1: 0.004992 and 0.004, apart by 0.20"]),
                (1, ["symptoms in ours alone: 1", "    D1 D2 L0: 0.002"]),
                (4, ["symptoms in ours alone: 1", "    D2 L0: 0.005"])]
        for at, told in rows:
            self.assert_differ(MODEL, "".join(lines[:at] + lines[at + 1:]), told)
        self.assert_differ("".join(lines[:1] + lines[2:]), MODEL, ["symptoms in theirs alone: 1", "    D1 D2 L0: 0.002"])

    def test_a_line_of_a_code_that_is_left_out(self):
        text = CIRCUITS["surface_code_rotated_memory_x"]
        lines, merged = write_model(text).splitlines(), follow(text)
        names_of = [line.split(" ", 1)[1] for line in lines if line.startswith("error")]
        at = next(k for k, names in enumerate(names_of) if names_of.count(names) == 7)
        names, chance = names_of[at], Fraction(re.match(r"error\((.*)\)", lines[at])[1])
        rest = (merged[names] - chance) / (1 - 2 * chance)
        apart = 1 - rest / merged[names]
        told = f"    {names}: {round_digits(merged[names])} and {round_digits(rest)}, apart by {float(apart):.2g}"
        self.assert_differ("\n".join(lines), "\n".join(lines[:at] + lines[at + 1:]), ["probabilities that differ: 1", told])

    def test_a_probability_that_differs_in_its_tenth_digit(self):
        """By 2e-9, a little less than 1e-9, and 5e-10 of the greater one; and in the last digit that is told."""
        for theirs, apart, tolerance in (
                ("0.003000000006", "2.0e-9", "1e-9"), ("0.003000000003", None, "1e-9"), ("0.0030000000015", None, "1e-9"),
                ("0.0030000000015", "5.0e-10", "1e-10"), ("0.003000000006", None, ".3e-8"),
                ("0.00300000000000000003", "1.0e-17", "0"), ("3.00e-3", None, "0")):
            told = ["probabilities that differ: 1", f"    D2: 0.003 and {theirs}, apart by {apart}"] if apart else []
            self.assert_differ(MODEL, MODEL.replace("0.003", theirs), told, tolerance=tolerance)

    def test_the_tolerance_is_of_the_greater_one(self):
        for ours, theirs in ((0.4, 0.5), (0.5, 0.4)):
            models = f"error({ours}) D0", f"error({theirs}) D0"
            self.assert_agree(*models, tolerance="0.2")
            told = ["probabilities that differ: 1", f"    D0: {ours} and {theirs}, apart by 0.2"]
            self.assert_differ(*models, told, tolerance="0.1999")

    def test_symptoms_that_are_exchanged(self):
        exchanged = MODEL.replace("0.003", "x").replace("0.005", "0.003").replace("x", "0.005")
        self.assert_differ(MODEL, exchanged, ["probabilities that differ: 2", "    D2: 0.003 and 0.005, apart by 0.4",
                                              "    D2 L0: 0.005 and 0.003, apart by 0.4"])
        self.assert_agree(MODEL, "\n".join(reversed(MODEL.splitlines())))

    def test_symptoms_of_probability_0_are_no_difference(self):
        self.assert_agree(MODEL, MODEL + "error(0) D0\nerror(1) D1 L0\nerror(1) L0 D1\nerror(0.1) D2 D2\n", tolerance="0")

    def test_a_target_more(self):
        self.assert_differ(MODEL, MODEL + "detector D3\n", ["numbers of detectors differ: 3 and 4"])
        self.assert_differ(MODEL + "error(0.1) L1 L1\n", MODEL, ["numbers of observables differ: 2 and 1"])
        self.assert_differ("error(0.1) D0", "", [
            "numbers of detectors differ: 1 and 0", "symptoms in ours alone: 1", "    D0: 0.1"])

    def test_coordinates_on_request(self):
        """Another one, one more, none; and one that differs by less than the tolerance."""
        for place, told in (("(1, 1e-3)", "(1, 0.001)"), ("(1)", "(1)"), ("(1, 0, 7)", "(1, 0, 7)"), ("", "none"),
                            ("(1.00000001, 0)", "(1.00000001, 0)")):
            theirs = MODEL.replace("detector(1, 0) D1", f"detector{place} D1")
            self.assert_agree(MODEL, theirs)
            self.assert_differ(MODEL, theirs, ["coordinates that differ: 1", f"    D1: (1, 0) and {told}"], coordinates=True)
        for place in ("1.0000000001, 1e-10", "1.0, 0.000", "10e-1, -0"):
            self.assert_agree(MODEL, MODEL.replace("detector(1, 0) D1", f"detector({place}) D1"), coordinates=True)

    def test_the_worst_five_are_told(self):
        """The relative differences are 1/2, 1/3 and so on, so the worst are the first that are written; so with the others."""
        ours = "".join(f"error(0.0{k}) D{k}\nerror(0.1{k}) D{k} L0\ndetector({k}) D{k}\n" for k in range(1, 8))
        theirs = "".join(f"error(0.0{k + 1}) D{k}\nerror(0.2{k}) D{k} L1\ndetector({3 * k}) D{k}\n" for k in range(1, 8))
        self.assert_differ(ours + "logical_observable L1", theirs, [
            "symptoms in ours alone: 7", *(f"    D{k} L0: 0.1{k}" for k in (7, 6, 5, 4, 3)),
            "symptoms in theirs alone: 7", *(f"    D{k} L1: 0.2{k}" for k in (7, 6, 5, 4, 3)),
            "probabilities that differ: 7", *(f"    D{k}: 0.0{k} and 0.0{k + 1}, apart by {part}"
                                              for k, part in ((1, "0.5"), (2, "0.33"), (3, "0.25"), (4, "0.2"), (5, "0.17"))),
            "coordinates that differ: 7", *(f"    D{k}: ({k}) and ({3 * k})" for k in (7, 6, 5, 4, 3))], coordinates=True)

    def test_blocks_beside_what_they_unroll_to(self):
        ours = (TOP / "examples" / "repetition_code.dem").read_text()
        self.assert_agree(ours, write_model(CIRCUITS["repetition_code"]), coordinates=True, tolerance="0")
        self.assert_differ(ours.replace("repeat 3", "repeat 2"), ours, [
            "numbers of detectors differ: 6 and 8",
            "symptoms in theirs alone: 5", *(f"    {names}: 0.03" for names in ("D6", "D6 D7", "D7 L0")),
            "    D4 D6: 0.02", "    D5 D7: 0.02", "probabilities that differ: 3",
            *(f"    {names}: 0.03 and 0.01, apart by 0.67" for names in ("D4", "D4 D5", "D5 L0"))])


class Statuses(Script):
    def test_0_where_models_agree_and_1_where_they_differ(self):
        theirs = MODEL.replace("0.003", "0.0031").replace("(1, 0)", "(1, 1)")
        for words, status in (((), 1), (("--tolerance", "0.1"), 0), (("--tolerance=1e-1", "--coordinates"), 1),
                              (("--tolerance", "1", "--coordinates"), 0)):
            done = self.call(*words, "ours", "theirs", ours=MODEL, theirs=theirs)
            last = "the models agree" if status == 0 else "the models differ"
            self.assertEqual((done.returncode, done.stdout.decode().splitlines()[-1], done.stderr), (status, last, b""), words)

    def test_2_where_a_file_cannot_be_read(self):
        rows = [(["ours", "none"], b"none: No such file or directory"), ([".", "ours"], b".: Is a directory"),
                (["ours", "broken"], b"broken: line 2: 'foo' isn't the name of a line"),
                (["broken", "ours"], b"broken: line 2: 'foo' isn't the name of a line"),
                (["ours", "-"], b"standard input: line 3: 'X1' is no target of at most 18 digits"),
                (["--merge", "broken"], b"broken: line 2: 'foo' isn't the name of a line")]
        for words, said in rows:
            done = self.call(*words, data=b"\n\nerror(0.1) D0 X1\n", ours=MODEL, broken=MODEL[:19] + "foo\n")
            self.assertEqual((done.returncode, done.stdout, done.stderr), (2, b"", b"compare_models.py: " + said + b"\n"))

    def test_2_where_nobody_can_be_told(self):
        for closed in ("2>/dev/full", "2>&-"):
            done = run(["bash", "-c", f"{sys.executable} {COMPARE} {self.folder}/none {self.folder}/none {closed}"])
            self.assertEqual((done.returncode, done.stdout, done.stderr), (2, b"", b""), closed)

    def test_2_where_the_command_line_is_wrong(self):
        for words in (["ours"], ["ours", "ours", "ours"], ["-", "-"], ["--merge", "ours", "ours"],
                      ["--merge", "ours", "--tolerance", "1"], ["ours", "ours", "--tolerance", "x"],
                      ["ours", "ours", "--tolerance=-1"], ["ours", "ours", "--tolerance", ""]):
            done = self.call(*words, ours=MODEL)
            self.assertEqual((done.returncode, done.stdout), (2, b""), words)
            self.assertIn(b"usage: compare_models.py", done.stderr)

    def test_help(self):
        done = self.call("--help")
        self.assertEqual((done.returncode, done.stderr), (0, b""))
        self.assertIn(b"--tolerance", done.stdout)

    def test_2_where_the_answer_cannot_be_written(self):
        for redirection in ("> /dev/full", ">&-"):
            for words in ("ours ours", "--merge ours"):
                (self.folder / "ours").write_text(MODEL)
                done = run(["bash", "-c", f"cd {self.folder} && {sys.executable} {COMPARE} {words} {redirection}"])
                self.assertEqual((done.returncode, done.stderr.startswith(b"compare_models.py: standard output: ")), (2, True))
                self.assertEqual(done.stderr.count(b"\n"), 1, done.stderr)

    def test_a_closed_pipe_and_an_interrupt_end_it_without_a_word(self):
        (self.folder / "ours").write_text("".join(f"error(0.1) D{k}\n" for k in range(9999)))
        done = run(["bash", "-c", f"{sys.executable} {COMPARE} --merge {self.folder}/ours | head -n 1; echo ${{PIPESTATUS[0]}}"])
        self.assertEqual((done.stdout, done.stderr), (b"error(0.1) D0\n141\n", b""))
        pipes = dict.fromkeys(("stdin", "stdout", "stderr"), subprocess.PIPE)
        with subprocess.Popen([*SCRIPT, "--merge", "-"], **pipes) as process:
            process.stdin.write(b"error(0.1) D0\n" * 20_000)  # more than a pipe holds, so the script reads
            process.send_signal(signal.SIGINT)
            self.assertEqual(process.communicate(timeout=SECONDS), (b"", b""))
        self.assertEqual(process.returncode, -signal.SIGINT)


class Memory(Script):
    def test_memory_goes_by_symptoms_and_not_by_lines(self):
        """30,000 lines of 1,500 bytes, which are one symptom, are 45 MB, and the limit on data is 40 MB."""
        path = self.folder / "model"
        path.write_bytes((b"error(0.001) D0 # " + b"x" * 1481 + b"\n") * 30_000)
        limit = 40 * 2**20
        done = subprocess.run([*SCRIPT, "--merge", path], capture_output=True, timeout=SECONDS,
                              preexec_fn=lambda: resource.setrlimit(resource.RLIMIT_DATA, (limit, limit)))
        self.assertEqual((done.returncode, done.stderr), (0, b""))
        self.assertEqual(done.stdout, b"error(0.5) D0\ndetector D0\n")


class Pages(Script):
    """The commands on models that pages show, with a stand-in for Stim, which isn't there: it hands out a model made here."""

    STIM = '''#!/bin/sh
[ "$*" = "analyze_errors --in code.stim --out stim.dem" ] && cmp code.stim expected.stim && cp made.dem stim.dem
'''

    def commands_of(self, page, title):
        """The indented commands of a section."""
        section = (TOP / "docs" / page).read_text().split(f"\n## {title}\n")[1].split("\n## ")[0]
        return re.findall(r"(?:^    .*\n)+", section, re.MULTILINE)

    def run_command(self, command):
        environment = f"PATH={self.folder}:{os.environ['PATH']}"
        return run(["env", "-C", self.folder, environment, "bash", "-c", re.sub("(?m)^    ", "", command)])

    def setUp(self):
        super().setUp()
        for name in ("examples", "tools"):
            os.symlink(TOP / name, self.folder / name)
        os.symlink(find_program(), self.folder / "stabsim")

    def test_checking_the_model_of_stim(self):
        text = stim_circuits.CIRCUITS["surface_code_rotated_memory_z"]
        converted = convert(text)
        files = {"yours.stim": text, "expected.stim": converted, "made.dem": write_as_stim(converted), "stim": self.STIM}
        for name, content in files.items():
            (self.folder / name).write_text(content)
        (self.folder / "stim").chmod(0o755)
        commands = self.commands_of("FROM_STIM.md", "Checking Stim's model")
        self.assertEqual(len(commands), 1)
        done = self.run_command(commands[0])
        self.assertEqual((done.returncode, done.stderr), (0, b""))
        self.assertRegex(done.stdout.decode(), r"^code.dem: .*\nstim.dem: .*\ngreatest .*\nthe models agree\n$")
        (self.folder / "made.dem").write_text(files["made.dem"].replace("error(0.00", "error(0.01", 1))
        self.assertEqual(self.run_command(commands[0]).returncode, 1)
        for made in ("code.dem", "stim.dem"):
            (self.folder / made).unlink()
        (self.folder / "yours.stim").write_text("H 0\nM 0\nDETECTOR rec[-1]\n")
        done = self.run_command(commands[0])
        self.assertEqual((done.returncode, done.stdout, done.stderr), (1, b"", b"random D0\n"))
        self.assertFalse((self.folder / "code.dem").exists())

    def test_comparing_what_two_tools_wrote(self):
        commands = self.commands_of("COMPARED.md", "Checking another tool's model")
        self.assertEqual(len(commands), 2)
        done = self.run_command(commands[0])
        self.assertEqual((done.returncode, done.stderr), (0, b""))
        self.assertEqual(done.stdout.decode(), re.sub("(?m)^    ", "", commands[1]))


if __name__ == "__main__":
    unittest.main()
