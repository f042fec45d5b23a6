"""What stands on several pages agrees: figures, and lists of crates and of files, with one another and with the tree.

A figure is a row of FIGURES, with each place where it stands: a page, and a regular expression that is found there once,
whose first group is the figure. A blank of it stands for any, and for the end of a line too. Who changes a sentence changes
its row here.
"""
import re
import unittest
from pathlib import Path

TOP = Path(__file__).resolve().parents[2]

README, BUILD = "README.md", ".ci/build"
FORMATS, COMPARED, BENCH, DECISIONS = "docs/FORMATS.md", "docs/COMPARED.md", "docs/BENCH.md", "docs/DECISIONS.md"
STATEMENT, GATE, PROVED, ARCHITECTURE = "docs/STATEMENT.md", "docs/GATE.md", "docs/PROVED.md", "docs/ARCHITECTURE.md"
FROM_STIM, HELP = "docs/FROM_STIM.md", "crates/command_line/src/help.rt"
REFUSALS, NUMBERS = "crates/unroll/src/refusals.rt", "crates/stim_parser/src/numbers.rt"

NUMBER, DECIMAL, PLAIN, DATE = r"(\d[\d,_]*)", r"(\d+\.\d+)", r"\d+\.\d+", r"\d{4}-\d\d-\d\d"

FIGURES = {
    "lines of definitions that a reader has to believe": [
        (README, rf"{NUMBER} lines of definitions"),
        (STATEMENT, rf"reach, name by name, have {NUMBER} lines"),
        (GATE, rf"Of the definitions a reader has to believe {NUMBER} lines"),
    ],
    "gigahertz of the cores that gate and first build were measured on": [
        (README, rf"minutes on four cores of {DECIMAL} GHz"),
        (BUILD, rf"minutes on four cores of {DECIMAL} GHz"),
        (GATE, rf"^On four Intel Xeons of {DECIMAL} GHz"),
    ],
    "minutes of the gate": [
        (README, rf"on the same machine in {NUMBER} minutes, \d+ of a processor"),
        (GATE, rf"^\| {DATE} \| 4 \| {NUMBER} \|"),
    ],
    "minutes of a processor of the gate": [
        (README, rf"on the same machine in \d+ minutes, {NUMBER} of a processor"),
        (GATE, rf"^\| {DATE} \| 4 \| \d+ \| {NUMBER} \|"),
    ],
    "minutes of the first build": [
        (README, rf"it took {NUMBER} minutes on four cores"),
        (BUILD, rf"building the program, once: {NUMBER} minutes on four cores"),
        (GATE, rf"it took \*\*{NUMBER} minutes, \d+ of a processor\*\*"),
    ],
    "minutes of a processor of the first build": [
        (README, rf"\(Intel Cascade Lake\), {NUMBER} of a processor"),
        (GATE, rf"it took \*\*\d+ minutes, {NUMBER} of a processor\*\*"),
    ],
    "logic of the toolchain": [
        (README, r"`logic ([0-9a-f]{16})`"),
        ("stabsim", r"^logic=([0-9a-f]{16})$"),
        (PROVED, r"^ logic ([0-9a-f]{16})$"),
    ],
    "greatest qubit": [
        (FORMATS, rf"number of a qubit \| {NUMBER} \|"),
        (FROM_STIM, rf"greatest qubit is {NUMBER}\."),
        (NUMBERS, rf"GREATEST_QUBIT: u64 = {NUMBER};"),
    ],
    "qubits": [
        (README, rf"A circuit has at most {NUMBER} qubits"),
        (COMPARED, rf"\| greatest circuit \| {NUMBER} qubits"),
    ],
    "records": [
        (README, rf"qubits, {NUMBER} records"),
        (COMPARED, rf"qubits, {NUMBER} records"),
        (FORMATS, rf"records; collapses \| {NUMBER} each"),
        (HELP, rf"Keep to {NUMBER} records"),
        (REFUSALS, rf"MOST_RECORDS: u64 = {NUMBER};"),
        (REFUSALS, rf"MOST_COLLAPSES: u64 = {NUMBER};"),
    ],
    "detectors": [
        (README, rf"records, {NUMBER} detectors"),
        (COMPARED, rf"records, {NUMBER} detectors"),
        (FORMATS, rf"^\| detectors \| {NUMBER} \|"),
        (REFUSALS, rf"MOST_DETECTORS: u64 = {NUMBER};"),
    ],
    "observables": [
        (README, rf"detectors, {NUMBER} observables"),
        (FORMATS, rf"^\| observables \| {NUMBER} \|"),
        ("crates/unroll/src/observables.rt", rf"MOST_OBSERVABLES: u64 = {NUMBER};"),
    ],
    "steps": [
        (README, rf"observables and {NUMBER} steps"),
        (FORMATS, rf"^\| steps \| {NUMBER} \|"),
        (FORMATS, rf"Time isn't bounded so: {NUMBER} steps"),
        (DECISIONS, rf"times the steps, of which there are at most {NUMBER}\."),
        (REFUSALS, rf"MOST_STEPS: u64 = {NUMBER};"),
    ],
    "shots of a command": [
        (README, rf"is required and at most {NUMBER};"),
        (README, rf"One command draws at most {NUMBER} shots"),
        (FORMATS, rf"\| more than {NUMBER} shots \|"),
        (DECISIONS, rf"At most {NUMBER} shots a command"),
        ("crates/engine/src/drawing.rt", rf"MOST_SHOTS: u64 = {NUMBER};"),
    ],
    "lines that the blocks of a model unroll to": [
        (FORMATS, rf"lines that blocks unroll to \| {NUMBER} \|"),
        ("crates/dem_text/src/counting.rt", rf"MOST_LINES: u64 = {NUMBER};"),
    ],
}


def page(name):
    return (TOP / name).read_text()


def crates():
    """The crates of crates.txt, in its order."""
    return re.findall(r"^(\w+):", page("crates.txt"), re.MULTILINE)


def in_code(text):
    """The words between backticks."""
    return re.findall(r"`([^`]+)`", text)


def section(title):
    """The text of docs/ARCHITECTURE.md under a title, up to the next one of its depth."""
    return re.split(r"^## ", page(ARCHITECTURE).split(f"\n## {title}\n", 1)[1], maxsplit=1, flags=re.MULTILINE)[0]


class PagesTest(unittest.TestCase):
    def figure_in(self, name, expression):
        """The figure that stands in a page, in plain digits."""
        found = re.findall(expression.replace(" ", r"\s+"), page(name), re.MULTILINE)
        self.assertEqual(len(found), 1, f"{name} has '{expression}' {len(found)} times")
        return re.sub("[,_]", "", found[0])


class Figures(PagesTest):
    def test_figures_are_the_same_in_each_place(self):
        for figure, places in FIGURES.items():
            with self.subTest(figure=figure):
                values = {f"{name}: {expression}": self.figure_in(name, expression) for name, expression in places}
                self.assertEqual(len(set(values.values())), 1, values)

    def test_qubits_are_one_more_than_the_greatest(self):
        name, expression = FIGURES["greatest qubit"][0]
        self.assertEqual(self.figure_in(*FIGURES["qubits"][0]), str(int(self.figure_in(name, expression)) + 1))

    def test_the_parts_of_the_statement_have_its_lines(self):
        parts = re.findall(r"^## \d\. .* \((\d+) lines\)$", page(STATEMENT), re.MULTILINE)
        total = self.figure_in(*FIGURES["lines of definitions that a reader has to believe"][1])
        self.assertEqual(sum(map(int, parts)), int(total), parts)


class OfTheGate(PagesTest):
    """What docs/GATE.md counts of the tree, and the times of crates, by which .ci/progress guesses."""

    def count(self, *folders):
        return str(sum(1 for folder in folders for _ in TOP.glob(f"crates/*/{folder}/*.edit")))

    def test_crates_and_wrong_bodies_are_those_of_the_tree(self):
        crates_then, tried = re.findall(rf"^\| {DATE} \|.*\| (\d+) \| (\d+) \|$", page(GATE), re.MULTILINE)[-1]
        self.assertEqual(crates_then, str(len(crates())))
        self.assertEqual(tried, self.count("must-fail", "wrong-bodies"))
        more = self.figure_in(GATE, rf"`.ci/wrong-bodies --all` tries {NUMBER} more wrong bodies")
        self.assertEqual(more, self.count("more-wrong-bodies"))
        of_scripts = self.figure_in(GATE, rf"of a processor for the {NUMBER} of the gate")
        self.assertEqual(of_scripts, self.count("wrong-bodies"))

    def test_times_of_crates_are_those_of_the_gate(self):
        """But for those that are told to be of another machine, as 'some 680'. The first build has no tests."""
        guessed_by = dict(re.findall(r"^(\w+) (\d+)$", page(".ci/build-times"), re.MULTILINE))
        self.assertEqual(sorted(guessed_by), sorted(set(crates()) - {"test_support", "proved_tests"}))
        told = dict(re.findall(r"(\w+) \| (\d+|some \d+) \|", page(GATE).partition("## What a crate's proof takes")[2]))
        for crate, seconds in guessed_by.items():
            with self.subTest(crate=crate):
                self.assertTrue(told[crate] == seconds or told[crate].startswith("some "), told[crate])


class OfTheTree(PagesTest):
    """The lists of docs/ARCHITECTURE.md, and the files of the crates."""

    def test_each_crate_has_a_paragraph(self):
        """In docs/ARCHITECTURE.md one, and in docs/PROVED.md a section, in the order of crates.txt."""
        told = re.findall(r"^\*\*(\w+)\*\*", section("The crates"), re.MULTILINE)
        self.assertEqual(sorted(told), sorted(crates()))
        proved = [name for title in re.findall(r"^### (.*)$", page(PROVED), re.MULTILINE) for name in title.split(", ")]
        self.assertEqual(proved, crates())

    def test_each_file_of_specs_is_told(self):
        """Those that crates above use in a table, and those of specs/private in a line under it."""
        parts = re.split(r"^\*\*(\w+)\*\*$", section("Where each definition stands"), flags=re.MULTILINE)
        told = dict(zip(parts[1::2], parts[2::2]))
        self.assertEqual(sorted(told), sorted(path.parent.name for path in TOP.glob("crates/*/specs")))
        for crate, text in told.items():
            specs = TOP / "crates" / crate / "specs"
            table, _, private = text.partition("Private:")
            with self.subTest(crate=crate):
                public = re.findall(r"^\| `(\w+)` \|", table, re.MULTILINE)
                self.assertEqual(public, sorted(path.stem for path in specs.glob("*.antt") if path.stem not in ("Lib", "private")))
                self.assertEqual(in_code(private), sorted(path.stem for path in specs.glob("private/*.antt")))

    def test_each_file_to_look_at_is_there(self):
        for row in re.findall(r"^\| [^|]* \| ([^|]*) \|$", section("Where to look"), re.MULTILINE):
            for part in row.split("; "):
                if ":" in part:
                    crate, *files = in_code(part)
                    for file in files:
                        with self.subTest(crate=crate, file=file):
                            self.assertTrue((TOP / "crates" / crate / "src" / f"{file}.rt").is_file())

    def test_private_definitions_are_used_in_their_own_crate_alone(self):
        paths = [path for part in ("src", "specs", "proofs") for path in TOP.glob(f"crates/*/{part}/**/*.*t")]
        self.assertGreater(len(paths), 1000)
        for path in paths:
            others = set(re.findall(r"Rattle\.(\w+)\.specs\.private", path.read_text()))
            self.assertLessEqual(others, {path.relative_to(TOP).parts[1]}, path)


class OfTheBenchmarks(PagesTest):
    """Times that other pages quote from a table of docs/BENCH.md: that of the row, rounded."""

    QUOTED = [
        (README, rf"the four kinds of noise of Stim's generators took {DECIMAL} s,", rf"25, 25 \| [\d,]+ \| {PLAIN}"),
        (README, rf"and 1,000 shots {DECIMAL} s, on a Xeon of", rf"25, 25 \| [\d,]+ \| {PLAIN} \| {PLAIN}"),
    ]

    def test_times_are_those_of_the_benchmarks(self):
        for name, expression, row in self.QUOTED:
            with self.subTest(row=row):
                quoted = self.figure_in(name, expression)
                measured = float(self.figure_in(BENCH, rf"^\| {row} \| {DECIMAL} \|"))
                self.assertEqual(f"{measured:.{len(quoted.partition('.')[2])}f}", quoted)
