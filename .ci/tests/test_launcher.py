"""Tests of the launcher, with stand-ins for the toolchain's command `rt` and for the program that it builds."""

import glob
import os
import shutil
import signal
import subprocess
import time
import unittest

from stand_in import ENDS, FILES, REPOSITORY, Case

WORDS = ["", "two words", " ", "'", '"', "*", "?", "$HOME", "`id`", "\\", "a\\nb", "--", "-n", "é", "=", "a\nb", ";", ""]


class PassesOn(Case):
    """What goes in and comes out, by a call that runs the program and by one that builds it first."""

    def test_all_words(self):
        self.assert_runs(*WORDS)

    def test_no_words(self):
        self.assert_runs()

    def test_all_words_behind_a_build(self):
        self.make_missing()
        self.assertEqual(self.call(*WORDS).stdout, self.expected(*WORDS))

    def test_statuses(self):
        for status in (0, 1, 2, 3):
            with self.subTest(status):
                self.assertEqual(self.call(STAND_IN_STATUS=str(status)).returncode, status)

    def test_statuses_behind_a_build(self):
        for status in (0, 1, 2, 3):
            with self.subTest(status):
                self.make_missing()
                self.assertEqual(self.call(STAND_IN_STATUS=str(status)).returncode, status)

    def test_standard_input(self):
        self.assert_runs("run", stdin=b"M 0\n\x00\xff" * 30_000)

    def test_standard_input_behind_a_build(self):
        self.make_missing()
        ended = self.call("run", stdin=b"M 0\n")
        self.assertEqual(ended.stdout, self.expected("run", stdin=b"M 0\n"))
        self.assertEqual(self.read(f"{self.rt}/stdin"), "")

    def test_tunables_of_the_caller_behind_ours(self):
        for build in (False, True):
            with self.subTest(build=build):
                if build:
                    self.make_missing()
                ended = self.call(GLIBC_TUNABLES="glibc.malloc.hugetlb=0")
                self.assertEqual(ended.stdout, self.expected(tunables="glibc.malloc.hugetlb=1:glibc.malloc.hugetlb=0"))

    def test_tunables_without_the_caller_s(self):
        self.make_missing()
        self.assertEqual(self.call().stdout, self.expected())

    def test_the_build_has_the_caller_s_tunables(self):
        self.make_missing()
        self.call(GLIBC_TUNABLES="glibc.malloc.hugetlb=0")
        self.assertEqual(self.read(f"{self.rt}/tunables"), "glibc.malloc.hugetlb=0\n")


class Builds(Case):
    """When the program is built, and when not."""

    def test_where_the_program_is_missing(self):
        self.make_missing()
        self.assert_builds()

    def test_where_nothing_was_ever_built(self):
        shutil.rmtree(f"{self.top}/crates/stabsim/out")
        self.assert_builds()

    def test_behind_a_change(self):
        for name in ("crates.txt", "crates/low/src/lib.rt", "crates/low/src/deep/inner.rt"):
            with self.subTest(name):
                self.write(f"{self.top}/{name}", self.read(f"{self.top}/{name}") + f"# changed {name}\n")
                self.assert_builds()

    def test_behind_a_change_of_the_program_s_own_code(self):
        self.write(f"{self.top}/crates/stabsim/src/main.rt", "second code")
        self.assert_builds(code="second code")

    def test_behind_a_file_that_came(self):
        self.write(f"{self.top}/crates/low/src/more.rt", "more\n")
        self.assert_builds()

    def test_behind_a_file_that_went(self):
        for name in ("part.rt", "deep/inner.rt"):
            with self.subTest(name):
                os.remove(f"{self.top}/crates/low/src/{name}")
                self.assert_builds()

    def test_behind_a_file_of_another_name(self):
        os.rename(f"{self.top}/crates/low/src/part.rt", f"{self.top}/crates/low/src/other.rt")
        self.assert_builds()

    def test_behind_an_edit_during_the_build(self):
        self.make_missing()
        self.write(f"{self.rt}/edits", "")
        self.assertEqual(self.call().stdout, self.expected())
        self.calls()
        self.assert_builds(code="edited meanwhile")

    def test_in_a_copy_of_the_program_and_its_libraries_alone(self):
        self.make_missing()
        self.assert_builds()
        copied = self.read(f"{self.rt}/copied").splitlines()
        wanted = [it for it in FILES if it.startswith(("crates/base/src", "crates/low/", "crates/stabsim/")) or it == "HANDLES"]
        self.assertEqual(copied[:-3], sorted(f"./{it}" for it in [*wanted, "crates.txt"]))
        self.assertEqual(copied[-3:], ["base:", "low: base arrayvec", "stabsim: clap low"])
        self.assertEqual([it for it in glob.glob(f"{self.top}/crates/*/out") if "stabsim" not in it], [])

    def test_over_what_a_developer_s_checks_left(self):
        self.keep()
        self.make_missing()
        self.assertEqual(self.call("word").stdout, self.expected("word"))
        check, run = self.calls()
        self.assertRegex(check, r"^all check --jobs [1-9][0-9]*$")
        self.assertEqual(run, "run -- --help")
        self.assertEqual(os.listdir(f"{self.top}/crates/low/out/incremental"), ["kept"])
        self.assert_is_quick()

    def test_not_behind_proofs_specs_and_pages(self):
        for name in ("crates/low/specs/Lib.antt", "crates/low/proofs/call/Answers.antt", "HANDLES", "README.md", "stabsim", ".ci/build"):
            self.set_age(f"{self.top}/{name}", 0)
        self.write(f"{self.top}/crates/low/proofs/other/Answers.antt", "new\n")
        self.assert_is_quick()

    def test_not_where_nothing_is_newer(self):
        self.assert_is_quick()

    def test_not_where_only_times_are_newer(self):
        for name in ("crates.txt", "crates/low/src/lib.rt", "crates/low/src/deep/inner.rt"):
            with self.subTest(name):
                self.set_age(f"{self.top}/{name}", 0)
                self.assert_runs("word")
                self.assertEqual(self.calls(), [])
                self.assert_is_quick()

    def test_all_code_is_looked_at(self):
        """Asserts that in this repository only tests lie deeper than the launcher looks."""
        deep = glob.glob(f"{REPOSITORY}/crates/*/src/*/*/**/*.rt", recursive=True)
        crates = {os.path.relpath(it, f"{REPOSITORY}/crates").split("/")[0] for it in deep}
        self.assertEqual([it for it in crates if not it.endswith("_tests")], [])

    def test_not_where_a_time_is_to_come(self):
        self.set_age(f"{self.top}/crates.txt", -3600)
        for _ in range(2):
            self.assert_runs("word")
        self.assertEqual(self.calls(), [])

    def test_not_behind_what_is_no_code(self):
        self.write(f"{self.top}/crates/low/src/lib.rt~", "an editor's copy\n")
        self.assert_runs("word")
        self.assertEqual(self.calls(), [])
        self.assert_is_quick()


class Copied(Case):
    """A repository that was copied without its times."""

    def setUp(self):
        super().setUp()
        copy = f"{self.room}/copy"
        shutil.copytree(self.top, copy, copy_function=shutil.copy)
        self.top = copy
        self.age_all()
        # The program was copied before its code.
        self.set_age(self.program, 7200)

    def test_not_built_where_the_contents_are_the_same(self):
        before = time.time() - 60
        self.assert_runs("word")
        self.assertEqual(self.calls(), [])
        self.assertGreater(os.stat(self.program).st_mtime, before)
        self.assert_is_quick()

    def test_not_built_where_there_is_no_toolchain(self):
        self.assert_runs("word", with_rt=False)

    def test_built_where_the_contents_differ(self):
        self.write(f"{self.top}/crates/stabsim/src/main.rt", "other code")
        self.age_all()
        self.set_age(self.program, 7200)
        self.assert_builds(code="other code")

    def test_built_where_crates_txt_differs(self):
        self.write(f"{self.top}/crates.txt", "stabsim:\n")
        self.assert_builds()

    def test_built_where_a_file_has_another_name(self):
        os.rename(f"{self.top}/crates/low/src/part.rt", f"{self.top}/crates/low/src/other.rt")
        self.assert_builds()

    def test_built_where_a_file_is_missing(self):
        os.remove(f"{self.top}/crates/low/src/deep/inner.rt")
        self.assert_builds()

    def test_built_where_the_program_is_another(self):
        self.write(self.program, "#!/bin/sh\necho another program\n", mode=0o755)
        self.set_age(self.program, 7200)
        self.assert_builds()

    def test_built_where_no_sums_were_kept(self):
        os.remove(f"{self.top}/crates/stabsim/out/launcher.sums")
        self.assert_builds()


class Fails(Case):
    """A program that could not be built."""

    def setUp(self):
        super().setUp()
        self.write(f"{self.top}/crates/stabsim/src/main.rt", "second code")

    def test_a_failed_build_is_125_with_the_log(self):
        self.write(f"{self.rt}/fails", "")
        ended = self.call("word", STAND_IN_STATUS="3")
        self.assertEqual(ended.returncode, 125)
        self.assertEqual(ended.stdout, b"")
        self.assertIn(b"goal 7 is open\nnot proved\n", ended.stderr)
        log = self.read(f"{self.top}/crates/stabsim/out/launcher.log")
        self.assertTrue(log.endswith("rt: stabsim proved\ngoal 7 is open\nnot proved\n"), log)
        self.assert_no_copy()

    def test_a_failed_check_is_125_and_builds_nothing(self):
        self.keep()
        self.write(f"{self.rt}/fails-to-check", "")
        self.assertEqual(self.call("word").returncode, 125)
        self.assertEqual(len(self.calls()), 1)

    def test_the_next_call_builds_again(self):
        self.write(f"{self.rt}/fails", "")
        self.call()
        self.calls()
        self.assertEqual(self.call().returncode, 125)
        os.remove(f"{self.rt}/fails")
        self.calls()
        self.assert_builds(code="second code")

    def test_a_program_of_a_failed_build_never_runs(self):
        self.write(f"{self.rt}/fails-behind", "")
        self.assertEqual(self.call().returncode, 125)
        ended = self.call()
        self.assertEqual(ended.returncode, 125)
        self.assertEqual(ended.stdout, b"")

    def test_the_code_before_needs_no_build(self):
        self.write(f"{self.rt}/fails", "")
        self.call()
        self.calls()
        self.write(f"{self.top}/crates/stabsim/src/main.rt", "first code")
        self.assert_runs("word")
        self.assertEqual(self.calls(), [])
        self.assert_is_quick()

    def test_the_code_before_is_built_where_the_program_is_no_longer_its(self):
        self.keep()
        self.write(f"{self.rt}/fails-behind", "")
        self.call()
        self.calls()
        os.remove(f"{self.rt}/fails-behind")
        self.write(f"{self.top}/crates/stabsim/src/main.rt", "first code")
        self.assertEqual(self.call("word").stdout, self.expected("word"))
        self.assertEqual(len(self.calls()), 2)

    def test_a_build_that_leaves_no_program_is_125(self):
        self.make_missing()
        self.write(f"{self.rt}/builds-nothing", "")
        ended = self.call()
        self.assertEqual(ended.returncode, 125)
        self.assertIn(b"could not be built", ended.stderr)

    def test_no_toolchain_is_125_and_said_first(self):
        ended = self.call("word", with_rt=False)
        self.assertEqual(ended.returncode, 125)
        self.assertEqual(ended.stdout, b"")
        self.assertIn(b"Rattle toolchain", ended.stderr)
        self.assertIn(b"rt has to be in PATH", ended.stderr)
        self.assertNotIn(b"proving", ended.stderr)
        self.assert_builds(code="second code")

    def test_no_toolchain_in_a_fresh_clone(self):
        shutil.rmtree(f"{self.top}/crates/stabsim/out")
        ended = self.call("word", with_rt=False)
        self.assertEqual(ended.returncode, 125)
        self.assertIn(b"Rattle toolchain", ended.stderr)


class Interrupted(Case):
    """Builds that are interrupted, or met by another call."""

    def start(self, *words):
        """Starts a call whose build doesn't end, in a process group of its own, and returns it once it builds."""
        self.make_missing()
        self.write(f"{self.rt}/sleeps", "")
        started = self.start_call(*words)
        self.wait_for(lambda: os.path.exists(f"{self.rt}/sleeping"))
        os.remove(f"{self.rt}/sleeping")
        return started

    def test_an_interrupt_is_130_and_ends_the_build(self):
        for number in ENDS:
            with self.subTest(number):
                started = self.start("word")
                builder = self.builder()
                self.assertNotEqual(builder, started.pid)
                os.killpg(started.pid, number)
                said, told = started.communicate(timeout=20)
                self.assertEqual(started.returncode, 130)
                self.assertEqual(said, b"")
                self.assertIn(b"interrupted", told)
                self.wait_for(lambda: builder not in [group for _, group, _ in self.processes()])
                self.assert_no_copy()

    def test_the_call_behind_an_interrupt_builds(self):
        started = self.start()
        os.killpg(started.pid, signal.SIGINT)
        started.wait(timeout=20)
        os.remove(f"{self.rt}/sleeps")
        self.calls()
        self.assert_builds()

    def test_the_call_behind_a_kill_builds(self):
        started = self.start()
        os.kill(started.pid, signal.SIGKILL)
        os.killpg(self.builder(), signal.SIGKILL)
        started.wait(timeout=20)
        os.remove(f"{self.rt}/sleeps")
        self.calls()
        self.assert_builds()

    def test_a_program_of_an_unfinished_build_never_runs(self):
        started = self.start()
        self.write(self.program, "#!/bin/sh\necho half a program\n", mode=0o755)
        os.killpg(started.pid, signal.SIGINT)
        started.wait(timeout=20)
        os.remove(f"{self.rt}/sleeps")
        self.calls()
        self.assert_builds()

    def test_two_at_once_build_once(self):
        self.make_missing()
        self.write(f"{self.rt}/slow", "")
        started = [self.start_call(str(it)) for it in range(4)]
        for number, it in enumerate(started):
            said, _ = it.communicate(timeout=60)
            self.assertEqual(said, self.expected(str(number)))
            self.assertEqual(it.returncode, 0)
        self.assertEqual(self.calls(), ["ci"])

    def test_a_call_that_waits_can_be_interrupted(self):
        self.start()
        # By Ctrl-C, and by one signal to the launcher.
        for end in (os.killpg, os.kill):
            with self.subTest(end):
                second = self.start_call()
                self.assertIn(b"waiting", second.stderr.readline())
                end(second.pid, signal.SIGINT)
                self.assertEqual(second.wait(timeout=20), 130)
        self.assertTrue(self.builder())


if __name__ == "__main__":
    unittest.main()
