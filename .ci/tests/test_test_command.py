"""Tests of the command that runs all tests, with stand-ins for `rt` and for what tries wrong bodies, and tests of two lines in the
place of this folder's."""

import os
import re
import shutil
import sys

from stand_in import Case

# Says what `rt ci` says, and builds as it does. A file beside it asks for something else: `says` for another last line, `ends` for
# another status, `builds-nothing` for no program, and `edits` for code that changes after it was read.
RT = """#!/bin/sh
here=${0%/*}
echo "$* jobs ${RT_JOBS-unset}" >>"$here/calls"
[ "$1" = ci ] || exit 1
rm -rf crates/stabsim/out
mkdir crates/stabsim/out
echo 'rt: low proved'
echo 'rt: a note' >&2
code=$(cat crates/stabsim/src/main.rt)
[ -e "$here/edits" ] && { echo 'edited meanwhile' >crates/stabsim/src/main.rt; sleep 0.1; }
if [ ! -e "$here/builds-nothing" ]; then
    sed "s|CODE|$code|" "$here/program" >crates/stabsim/out/stabsim
    chmod +x crates/stabsim/out/stabsim
fi
if [ -e "$here/says" ]; then cat "$here/says"; else echo '7 passed, 0 failed'; fi
[ -e "$here/ends" ] && exit "$(cat "$here/ends")"
exit 0
"""

# Two of four wrong bodies are refused where a file `proves` asks for it.
BODIES = """#!/bin/sh
echo bodies >>"$HERE/calls"
[ -e "$HERE/proves" ] && { echo '2 passed, 2 failed'; exit 1; }
echo '4 passed, 0 failed'
"""

TESTS = """import os, subprocess, unittest


class Tests(unittest.TestCase):
    def test_alone(self):
        self.assertFalse(os.path.exists(os.environ["HERE"] + "/fails-alone"))

    @unittest.skipUnless(os.environ.get("STABSIM"), "needs the program")
    def test_program(self):
        said = subprocess.run([os.environ["STABSIM"], "word"], stdin=subprocess.DEVNULL, capture_output=True).stdout
        self.assertIn(b"|1|word|", said)
        self.assertFalse(os.path.exists(os.environ["HERE"] + "/fails-with-program"))

    @unittest.skipIf(os.path.exists(os.environ["HERE"] + "/skips"), "asked to")
    def test_more(self):
        pass
"""


class RunsAllTests(Case):
    def setUp(self):
        super().setUp()
        for name in ("test", "run", "tests/__main__.py"):
            self.copy(f".ci/{name}")
        self.write(f"{self.rt}/rt", RT, mode=0o755)
        self.write(f"{self.top}/.ci/wrong-bodies", BODIES, mode=0o755)
        self.write(f"{self.top}/.ci/tests/test_few.py", TESTS)
        for name in ("numpy", "networkx"):
            self.write(f"{self.room}/modules/{name}.py", "")
        os.symlink(sys.executable, f"{self.tools}/python3")
        self.write(f"{self.tools}/parallel", "#!/bin/sh\necho GNU parallel 1\n", mode=0o755)
        self.write(f"{self.tools}/valgrind", "#!/bin/sh\n", mode=0o755)
        for name in ("grep", "tail", "tee"):
            os.symlink(shutil.which(name), f"{self.tools}/{name}")

    def ask(self, *names, text=""):
        for name in names:
            self.write(f"{self.rt}/{name}", text)

    def run_all(self, command=".ci/test", **how):
        more = {"HERE": self.rt, "PYTHONPATH": f"{self.room}/modules", "STABSIM": "/nowhere"}
        return self.call(launcher=["bash", f"{self.top}/{command}"], cwd=self.tools, **more, **how)

    def assert_ends(self, line, **how):
        """Asserts that this is the last line, and that the status says whether something failed."""
        ended = self.run_all(**how)
        self.assertEqual(ended.stdout.decode().splitlines()[-1], line)
        self.assertEqual(ended.returncode, 0 if line.endswith(" 0 failed") else 1)
        return ended

    def test_all_pass(self):
        for command in (".ci/test", ".ci/run"):
            with self.subTest(command):
                ended = self.assert_ends("14 passed, 0 failed", command=command)
                self.assertIn(b"rt: low proved\n7 passed, 0 failed\n", ended.stdout)
                self.assertIn(b"rt: a note\n", ended.stderr)
                called, bodies = self.calls()
                self.assertRegex(called, r"^ci jobs [1-9][0-9]*$")
                self.assertEqual(bodies, "bodies")

    def test_what_is_missing_is_installed_by_root(self):
        """The package of what isn't there, and no other; the tests begin where it then is there."""
        apt = '#!/bin/sh\necho "$*" >>"$HERE/calls"\n[ -e "$HERE/offline" ] || [ "$1" = update ] || touch "$HERE/installed"\n'
        self.write(f"{self.tools}/apt-get", apt, mode=0o755)
        for module in ("numpy", "networkx"):
            with self.subTest(module):
                there = f"import os\nif not os.path.exists({self.rt + '/installed'!r}):\n    raise ImportError\n"
                self.write(f"{self.room}/modules/{module}.py", there)
                asked = ["update", f"install -y --no-install-recommends python3-{module}"] if os.geteuid() == 0 else []
                self.ask("offline")
                ended = self.assert_ends("0 passed, 1 failed")
                self.assertIn(f"not found: python3-{module}\n".encode(), ended.stdout)
                self.assertEqual(self.calls(), asked)
                os.remove(f"{self.rt}/offline")
                if asked and module == "networkx":
                    self.assert_ends("14 passed, 0 failed")
                    self.assertEqual(self.calls()[:2], asked)
                self.write(f"{self.room}/modules/{module}.py", "")

    def test_a_missing_command_is_told(self):
        for name in ("parallel", "valgrind"):
            with self.subTest(name):
                os.rename(f"{self.tools}/{name}", f"{self.rt}/aside")
                ended = self.assert_ends("0 passed, 1 failed")
                self.assertIn(f"not found: {name}\n".encode(), ended.stdout)
                os.rename(f"{self.rt}/aside", f"{self.tools}/{name}")

    def test_a_failure_without_the_program_ends_it(self):
        self.ask("fails-alone")
        self.assert_ends("1 passed, 1 failed")
        self.assertEqual(self.calls(), [])

    def test_a_failure_of_the_gate_ends_it(self):
        self.ask("says", text="rt: FAILED: low\n5 passed, 2 failed\n")
        self.ask("ends", text="1")
        for command in (".ci/test", ".ci/run"):
            with self.subTest(command):
                ended = self.assert_ends("5 passed, 2 failed", command=command)
                self.assertEqual(len(re.findall(rb"Ran 3 tests", ended.stderr)), 1)

    def test_a_gate_that_says_nothing_failed(self):
        for text in ("", "rt: the disk is full\n", "7 passed, 0 failed\nrt: killed\n", "of low 7 passed, 0 failed\n"):
            with self.subTest(text):
                self.ask("says", text=text)
                self.assert_ends("0 passed, 1 failed")

    def test_a_gate_of_some_crates_failed(self):
        self.ask("says", text="7 passed, 0 failed (low and the crates below alone: not the gate)\n")
        self.assert_ends("0 passed, 1 failed")

    def test_a_gate_with_a_bad_status_failed(self):
        self.ask("ends", text="137")
        self.assert_ends("7 passed, 1 failed")

    def test_a_gate_that_leaves_no_program_failed(self):
        self.ask("builds-nothing")
        self.assert_ends("7 passed, 1 failed")

    def test_a_wrong_body_that_is_proved_ends_it(self):
        self.ask("proves")
        ended = self.assert_ends("9 passed, 2 failed")
        self.assertEqual(len(re.findall(rb"Ran 3 tests", ended.stderr)), 1)

    def test_a_failure_with_the_program(self):
        self.ask("fails-with-program")
        self.assert_ends("13 passed, 1 failed")

    def test_a_test_that_is_skipped_with_the_program_failed(self):
        self.ask("skips")
        self.assert_ends("13 passed, 1 failed")

    def test_no_tests_failed(self):
        os.remove(f"{self.top}/.ci/tests/test_few.py")
        self.assert_ends("0 passed, 1 failed")

    def test_no_toolchain_failed(self):
        ended = self.assert_ends("0 passed, 1 failed", with_rt=False)
        self.assertIn(b"rt of the Rattle toolchain", ended.stdout)
        self.assertNotIn(b"Ran", ended.stderr)

    def test_the_launcher_runs_what_the_gate_built(self):
        self.write(f"{self.top}/crates/stabsim/src/main.rt", "code of the gate")
        self.run_all()
        self.calls()
        self.assert_is_quick(code="code of the gate")
        # As in a copy without its times.
        self.set_age(f"{self.top}/crates.txt", 0)
        self.assert_runs("word", code="code of the gate")

    def test_the_launcher_sees_an_edit_during_the_gate(self):
        self.ask("edits")
        self.run_all()
        self.assertIn(b"proving and building", self.call().stderr)
