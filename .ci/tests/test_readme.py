"""The recipes of README.md and docs/FORMATS.md, run as they are written, with fewer shots and jobs."""
import os
import re
import subprocess
import tempfile
import textwrap
import unittest
from pathlib import Path

from frame_models import write_model
from programs import TOP, find_program, run

README = (TOP / "README.md").read_text()

# The recipes of README.md: blocks of indented lines that begin with one of these lines.
BEGINS = "set -euo pipefail", "#!/bin/bash"

CODE = TOP / "examples" / "surface_code.stim"


def recipes_of_readme():
    """Each recipe with fewer shots and jobs: a model, one job, a hundred, counts, and an array job."""
    blocks = re.findall(r"(?:^    .*\n|^\n(?=    ))+", README, re.MULTILINE)
    recipes = [textwrap.dedent(block).lstrip("\n") for block in blocks]
    fewer = (("--shots 1000000", "--shots 100"), ("seq 1 100", "seq 1 4"), ("{1..100}", "{1..4}"))
    for recipe in recipes:
        if recipe.startswith(BEGINS):
            for many, few in fewer:
                recipe = recipe.replace(many, few)
            yield recipe


class Recipes(unittest.TestCase):
    def setUp(self):
        """A folder with the examples, the tools, a circuit and the program. In the launcher's place is one that has help."""
        self.program = find_program()
        room = tempfile.TemporaryDirectory()
        self.addCleanup(room.cleanup)
        self.folder = Path(room.name)
        for name in "examples", "tools":
            os.symlink(TOP / name, self.folder / name)
        built = self.folder / "crates" / "stabsim" / "out" / "stabsim"
        built.parent.mkdir(parents=True)
        os.symlink(self.program, built)
        launcher = self.folder / "stabsim"
        launcher.write_text(f'#!/bin/sh\n[ "$1" = --help ] || exec {built} "$@"\n')
        launcher.chmod(0o755)
        self.write("code.stim", CODE.read_bytes())
        self.model, self.one, self.hundred, self.counts, self.array = recipes_of_readme()

    def write(self, name, content):
        (self.folder / name).write_bytes(content)

    def read(self, name):
        return (self.folder / name).read_bytes()

    def run_recipe(self, recipe, **more):
        how = {"cwd": self.folder, "env": {**os.environ, **more}, "capture_output": True, "timeout": 120}
        return subprocess.run(["bash", "-c", recipe], **how)

    def run_well(self, recipe, **more):
        """What a recipe prints. It leaves no file under a name that isn't its last one."""
        done = self.run_recipe(recipe, **more)
        self.assertEqual((done.returncode, done.stderr), (0, b""), recipe)
        self.assertEqual(list(self.folder.glob("*.new")), [])
        return done.stdout.decode()

    def shots(self, seed):
        return run([self.program, "detect", "--shots", "100", "--seed", str(seed)], CODE.read_bytes()).stdout

    def test_a_model(self):
        self.run_well(self.model)
        self.assertEqual(self.read("code.dem").decode(), write_model((TOP / "examples" / "repetition_code.stim").read_text()))

    def test_one_job(self):
        self.run_well(self.one)
        self.assertEqual(self.read("shots.txt"), self.shots(1))

    def test_many_jobs(self):
        self.run_well(self.hundred)
        self.assertEqual([self.read(f"shots-{seed}.txt") for seed in range(1, 5)], [self.shots(seed) for seed in range(1, 5)])
        self.assertEqual(self.read("shots.txt"), b"".join(self.shots(seed) for seed in range(1, 5)))

    def test_an_array_job(self):
        self.run_well(self.array, SLURM_ARRAY_TASK_ID="7")
        self.assertEqual(self.read("shots-7.txt"), self.shots(7))

    def sums(self, lines):
        """The number of shots, and of digits 1 in each column."""
        return [len(lines), *(sum(line[column] == "1" for line in lines) for column in range(len(lines[0])))]

    def test_counts(self):
        by_seed = [self.shots(seed).decode().splitlines() for seed in range(1, 5)]
        printed = self.run_well(self.counts)
        self.assertEqual(list(map(int, printed.split())), self.sums([line for lines in by_seed for line in lines]))
        counts = self.read("counts.txt").decode().splitlines()
        self.assertEqual(sorted(counts), sorted(" ".join(map(str, self.sums(lines))) for lines in by_seed))

    def test_counts_of_many_errors_and_of_none(self):
        rows = [
            ("X_ERROR(1) 0\nM 0 1\nDETECTOR rec[-1]\nDETECTOR rec[-2]\nDETECTOR rec[-2]\n", [400, 0, 400, 400]),
            ("X_ERROR(1) 0\nM 0\nDETECTOR rec[-1]\nDETECTOR rec[-1]\nDETECTOR\n", [400, 400, 400, 0]),
            ("M 0\n", [400]),
        ]
        for text, expected in rows:
            with self.subTest(text=text):
                self.write("code.stim", text.encode())
                self.assertEqual(list(map(int, self.run_well(self.counts).split())), expected)

    def test_a_refusal_gives_no_data(self):
        self.write("code.stim", b"M 0\nFOO\n")
        for recipe in self.one, self.hundred, self.counts:
            with self.subTest(recipe):
                self.assertNotEqual(self.run_recipe(recipe).returncode, 0)
                self.assertEqual([name for name in os.listdir(self.folder) if name.endswith(".txt")], [])
        done = self.run_recipe(self.array, SLURM_ARRAY_TASK_ID="7")
        self.assertEqual((done.returncode, self.read("shots-7.new")), (2, b"refused 11 line 2\n"))

    def test_sizes_are_those_of_the_files(self):
        """100 shots take as many hundreds of bytes as 1,000,000 take MB."""
        bytes_of_a_shot = len(self.shots(1)) // 100
        told = re.search(r"take D \+ O \+ 1 MB: (\d+) MB for\s`examples/surface_code.stim`. Its 100 jobs write ([\d.]+) GB, and "
                         r"with `shots.txt`, which has the same shots once more, that is ([\d.]+) GB", README)
        sizes = [bytes_of_a_shot, bytes_of_a_shot * 100 / 1000, 2 * bytes_of_a_shot * 100 / 1000]
        self.assertEqual([float(told[it]) for it in (1, 2, 3)], sizes)

    def test_the_explanation_of_a_random_target(self):
        page = (TOP / "docs" / "FORMATS.md").read_text().partition("\n### Why a target is random\n")[2]
        recipe, told = re.search(r"^```sh\n((?:[^`].*\n)+)```\n\nit writes\n\n((?:    .*\n)+)", page, re.MULTILINE).groups()
        self.assertEqual(self.run_well(recipe), textwrap.dedent(told))
        # With the detector that the page then names, and from the second turn on, nothing is random.
        text = "R 0 1\nMPP Z0*Z1 X0*X1\nREPEAT 2 {\nMPP Z0*Z1 X0*X1\nDETECTOR(0) rec[-1] rec[-3]\n}\n"
        self.assertEqual(run([self.program, "analyze"], text.encode()).returncode, 0)


if __name__ == "__main__":
    unittest.main()
