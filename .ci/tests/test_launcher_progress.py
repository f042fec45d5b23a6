"""Tests of the launcher: what is told of a build as it goes, and what an interrupted one leaves to the next call."""

import contextlib
import os
import pty
import re
import select
import signal
import subprocess
import unittest

from stand_in import ENDS, REPOSITORY, Case

# The stand-in's table has 600 seconds for base, 1,200 for low, which waits for base, and 60 for the program, which waits for both.
FIRST = "proved 0 of 3 crates in 0 min, roughly 31 min to go"
LAST = "3 of 3 crates in 0 min"


def until_to_go(text):
    """What is told up to how long it still takes, which a build of no time guesses as the least."""
    return text.replace(", roughly 1 min to go", "")


class Told(Case):
    def setUp(self):
        super().setUp()
        self.make_missing()

    def told(self):
        """Builds, and returns what is told of it on a file, line by line."""
        ended = self.call("word")
        self.assertEqual(ended.stdout, self.expected("word", code=self.read(f"{self.top}/crates/stabsim/src/main.rt")))
        first, *lines = ended.stderr.decode().splitlines()
        self.assertIn("proving and building the program", first)
        return lines

    def told_on_a_terminal(self):
        """Builds, and returns what is told of it on a terminal."""
        ours, theirs = pty.openpty()
        with os.fdopen(theirs, "wb") as terminal:
            launcher = [f"{self.top}/stabsim", "word"]
            ended = subprocess.run(launcher, stdin=subprocess.DEVNULL, stdout=subprocess.PIPE, stderr=terminal, env=self.environment(), timeout=60)
        told = b""
        # Behind the last byte comes an error, since nobody has the terminal any more.
        with os.fdopen(ours, "rb", buffering=0) as terminal, contextlib.suppress(OSError):
            while piece := terminal.read(4096):
                told += piece
        self.assertEqual(ended.returncode, 0)
        return told.decode()

    def test_a_line_a_crate_on_a_file(self):
        lines = [until_to_go(it) for it in self.told()]
        wanted = ["base proved: 1 of 3 crates in 0 min", "low proved: 2 of 3 crates in 0 min", f"stabsim proved: {LAST}"]
        self.assertEqual(lines, [f"stabsim: {it}" for it in wanted])

    def test_one_line_on_a_terminal(self):
        first, line, rest = self.told_on_a_terminal().split("\r\n")
        self.assertIn("proving and building the program", first)
        self.assertEqual(rest, "")
        told = [until_to_go(it) for it in line.split("\r\x1b[K")]
        wanted = [FIRST, "proved 1 of 3 crates in 0 min", "proved 2 of 3 crates in 0 min", f"proved {LAST}"]
        self.assertEqual(told, ["", *(f"stabsim: {it}" for it in wanted)])

    def test_what_is_left_where_a_crate_was_proved_before(self):
        self.told()
        self.write(f"{self.top}/crates/low/src/lib.rt", "changed\n")
        first, *others = self.told()
        # 1,260 seconds for low and the program.
        self.assertEqual(first, "stabsim: base was proved by an earlier run: 1 of 3 crates in 0 min, roughly 21 min to go")
        self.assertEqual([until_to_go(it) for it in others], ["stabsim: low proved: 2 of 3 crates in 0 min", f"stabsim: stabsim proved: {LAST}"])

    def test_over_what_checks_left(self):
        self.keep()
        first, *others = self.told()
        self.assertEqual(first, "stabsim: base was proved by an earlier run: 1 of 3 crates in 0 min, roughly 21 min to go")
        self.assertEqual([until_to_go(it) for it in others], ["stabsim: low proved: 2 of 3 crates in 0 min", f"stabsim: stabsim proved: {LAST}"])

    def test_a_build_goes_on_where_nobody_reads_what_is_told(self):
        self.write(f"{self.rt}/slow", "")
        started = self.start_call("word")
        self.assertIn(b"proving", started.stderr.readline())
        started.stderr.close()
        self.assertEqual(started.stdout.read(), self.expected("word"))
        self.assertEqual(started.wait(timeout=20), 0)

    def test_the_log_has_what_rt_said(self):
        self.told()
        log = self.read(f"{self.top}/crates/stabsim/out/launcher.log")
        self.assertEqual(log, "".join(f"== {it}\nlogic=proved functions=1\nrt: {it} proved\n" for it in ("base", "low", "stabsim")))

    def test_the_table_has_the_crates_of_the_program(self):
        lines = self.read(f"{REPOSITORY}/.ci/build-times").splitlines()
        times = [it.split() for it in lines if not it.startswith("#")]
        self.assertEqual([it for it in times if len(it) != 2 or not re.fullmatch("[1-9][0-9]*", it[1])], [])
        known = [re.split("[: ]+", it) for it in self.read(f"{REPOSITORY}/crates.txt").splitlines() if it and it[0] != "#"]
        used = {"stabsim"}
        for name, *libraries in reversed(known):
            used |= {*libraries} if name in used else set()
        self.assertEqual(sorted(it for it, _ in times), sorted(it for it, *_ in known if it in used))


class Interrupted(Case):
    """Builds that are interrupted once two of the three crates are proved."""

    def read_until(self, stream, end):
        told = b""
        while end not in told:
            self.assertTrue(select.select([stream], [], [], 20)[0], told)
            told += os.read(stream.fileno(), 4096)
        return told

    def interrupted(self, number):
        """Interrupts a build, and returns what was told."""
        self.make_missing()
        self.forget_proofs()
        self.write(f"{self.rt}/sleeps", "")
        started = self.start_call("word")
        self.wait_for(lambda: os.path.exists(f"{self.rt}/sleeping"))
        os.remove(f"{self.rt}/sleeping")
        told = self.read_until(started.stderr, b"low proved")
        os.killpg(started.pid, number)
        self.assertEqual(started.wait(timeout=20), 130)
        os.remove(f"{self.rt}/sleeps")
        return told + started.stderr.read()

    def test_what_was_proved_is_told_and_that_it_need_not_be_proved_again(self):
        for number in ENDS:
            with self.subTest(number):
                told = self.interrupted(number)
                self.assertIn(b"low proved: 2 of 3 crates", told)
                self.assertIn(b"stabsim: interrupted\nstabsim: the next call proves again what rt has not kept", told)

    def test_an_interrupt_on_a_terminal_is_told_on_a_line_of_its_own(self):
        self.make_missing()
        self.write(f"{self.rt}/sleeps", "")
        ours, theirs = pty.openpty()
        started = self.start_call("word", stderr=theirs)
        os.close(theirs)
        with os.fdopen(ours, "rb", buffering=0) as terminal:
            self.read_until(terminal, b"proved 2 of 3")
            os.killpg(started.pid, signal.SIGINT)
            told = self.read_until(terminal, b"proves again what rt has not kept")
        self.assertRegex(told, rb"\r\nstabsim: interrupted\r\n")

    def test_the_next_call_proves_what_is_left(self):
        self.interrupted(signal.SIGINT)
        lines = self.call().stderr.decode().splitlines()[1:]
        self.assertEqual([it.partition(":")[2].partition(":")[0].strip() for it in lines],
                         ["base was proved by an earlier run", "low was proved by an earlier run", "stabsim proved"])

    def test_a_call_that_waits_promises_nothing_of_proofs(self):
        self.make_missing()
        self.write(f"{self.rt}/sleeps", "")
        self.start_call()
        self.wait_for(lambda: os.path.exists(f"{self.rt}/sleeping"))
        second = self.start_call()
        self.assertIn(b"waiting", second.stderr.readline())
        self.wait_for(lambda: self.is_waiting(second))
        os.killpg(second.pid, signal.SIGINT)
        self.assertEqual(second.wait(timeout=20), 130)
        self.assertEqual(second.stderr.read(), b"stabsim: interrupted\n")


if __name__ == "__main__":
    unittest.main()
