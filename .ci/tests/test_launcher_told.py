"""Tests of the launcher: what it tells beside what the program writes, and that the program's bytes, statuses and ends pass
unchanged."""

import contextlib
import fcntl
import os
import pty
import re
import shutil
import signal
import subprocess
import termios
import unittest

from stand_in import REPOSITORY, Case

READERS = ("run", "sample", "detect", "analyze", "faults", "predict")

# What is told of a status, by the words of the call.
TOLD = [
    (["analyze"], 1, "stabsim: failed: memory ran out, or standard input or output failed; what was written is at most a "
                     "beginning of the answer\n"),
    *(([name], 2, "stabsim: refused: standard output says why: 'refused N line L' (./stabsim --help explains each N) or 'usage' "
                  f"(see ./stabsim {name} --help)\n") for name in READERS),
    (["walk"], 2, "stabsim: refused: walk is no command; ./stabsim --help lists them\n"),
    (["two words"], 2, "stabsim: refused: 'two words' is no command; ./stabsim --help lists them\n"),
    (["two\nlines"], 2, "stabsim: refused: ... is no command; ./stabsim --help lists them\n"),
    ([""], 2, "stabsim: refused: '' is no command; ./stabsim --help lists them\n"),
    ([], 2, "stabsim: refused: a command is needed; ./stabsim --help lists them\n"),
    (["analyze"], 3, "stabsim: random: what standard output names has no fixed value even without faults; "
                     "tools/explain_random.py says where it stands and why\n"),
    (["run"], 0, ""), (["run"], 77, ""), (["--help"], 0, ""), ([], 0, ""),
]

# The signals that end a program, and which a caller sends.
ENDS = [signal.SIGHUP, signal.SIGINT, signal.SIGQUIT, signal.SIGABRT, signal.SIGALRM, signal.SIGTERM, signal.SIGUSR1,
        signal.SIGUSR2, signal.SIGXCPU]

# A program that notes its number and doesn't end.
SLEEPER = '#!/bin/sh\necho $$\nexec sleep 100\n'


class Told(Case):
    """Lines on standard error."""

    def test_statuses(self):
        for words, status, told in TOLD:
            with self.subTest(words=words, status=status):
                ended = self.call(*words, stdin=b"M 0\n\x00\xff", STAND_IN_STATUS=str(status))
                self.assertEqual((ended.stderr.decode(), ended.returncode), (told, status))
                self.assertEqual(ended.stdout, self.expected(*words, stdin=b"M 0\n\x00\xff"))

    def test_statuses_behind_a_build(self):
        for words, status, told in TOLD[:2] + TOLD[-6:]:
            with self.subTest(words=words, status=status):
                self.make_missing()
                ended = self.call(*words, stdin=b"M 0\n", STAND_IN_STATUS=str(status))
                _, *lines = ended.stderr.decode().splitlines(keepends=True)
                self.assertEqual("".join(it for it in lines if "of 3 crates" not in it), told)
                self.assertEqual((ended.stdout, ended.returncode), (self.expected(*words, stdin=b"M 0\n"), status))

    def test_the_mark_of_a_build_is_its_own_process_s_alone(self):
        """Where it is set in the environment, a call builds all the same, and the program doesn't have it."""
        self.make_missing()
        self.assertEqual(self.call("word", STABSIM_BUILT_BY="1").stdout, self.expected("word"))
        self.assertEqual(self.calls(), ["ci"])
        self.write(self.program, "#!/bin/sh\necho ${STABSIM_BUILT_BY-unset}\n", mode=0o755)
        self.assertEqual(self.call(STABSIM_BUILT_BY="1").stdout, b"unset\n")

    def test_streams_that_are_closed_or_read_by_nobody(self):
        """Of the program nothing is lost, and its status stays."""
        for redirection in ("2>/dev/null", "2>&-", "2>/dev/full"):
            with self.subTest(redirection):
                call = ["sh", "-c", f'exec "$@" {redirection}', "sh", f"{self.top}/stabsim"]
                ended = self.call("run", launcher=call, stdin=b"M 0\n", STAND_IN_STATUS="3")
                self.assertEqual((ended.stdout, ended.stderr, ended.returncode), (self.expected("run", stdin=b"M 0\n"), b"", 3))
        reading, writing = os.pipe()
        os.close(reading)
        with os.fdopen(writing, "wb") as nobody:
            how = {"stdin": subprocess.DEVNULL, "stdout": subprocess.PIPE, "stderr": nobody, "timeout": 60}
            ended = subprocess.run([f"{self.top}/stabsim", "run"], env=self.environment(STAND_IN_STATUS="2"), **how)
        self.assertEqual((ended.stdout, ended.returncode), (self.expected("run"), 2))

    def test_a_closed_input_or_output_is_closed_for_the_program(self):
        self.write(self.program, "#!/bin/sh\nfor it in 0 1 3; do [ -e /dev/fd/$it ] && echo $it >&2; done\nexit 0\n", mode=0o755)
        for redirection, is_open in (("<&-", b"1\n"), (">&-", b"0\n"), ("<&- >&-", b""), ("", b"0\n1\n")):
            with self.subTest(redirection):
                ended = self.call("run", launcher=["sh", "-c", f'exec "$@" {redirection}', "sh", f"{self.top}/stabsim"])
                self.assertEqual((ended.stderr, ended.returncode), (is_open, 0))


class Words(Case):
    """Which call was meant by one that names a file. The stand-in ends with 2, as the program does where a word is too many."""

    FILES = ("code.stim", "0101", "a file.stim", "it's.stim", "run", "two\nlines", "l" * 90)
    ROWS = [
        (["analyze", "code.stim"], "./stabsim analyze < code.stim"),
        (["detect", "--shots", "10", "code.stim", "--seed=3"], "./stabsim detect --shots 10 --seed=3 < code.stim"),
        (["run", "--coins", "0101", "code.stim"], "./stabsim run --coins 0101 < code.stim"),
        (["run", "0101"], "./stabsim run < 0101"),
        (["run", "0101", "--coins", "0101"], "./stabsim run --coins 0101 < 0101"),
        (["run", "--coins=1", "0101"], "./stabsim run --coins=1 < 0101"),
        (["run", "run"], None),
        (["code.stim"], "./stabsim COMMAND < code.stim"),
        (["--shots", "0101", "code.stim"], "./stabsim COMMAND --shots 0101 < code.stim"),
        (["analyze", "a file.stim"], "./stabsim analyze < 'a file.stim'"),
        (["analyze", "it's.stim"], "./stabsim analyze < ..."),
        (["analyze", "two\nlines"], "./stabsim analyze < ..."),
        (["analyze", "l" * 90], "./stabsim analyze < ..."),
        (["analyze", "$HOME", "code.stim"], "./stabsim analyze '$HOME' < code.stim"),
        (["analyze", "folder/code.stim"], "./stabsim analyze < folder/code.stim"),
    ]
    NONE = [["run", "--coins", "0101"], ["predict", "--lines", "0101"], ["analyze", "folder"], ["analyze", "none.stim"], ["run"],
            ["detect", "--shots", "0101", "--seed", "0101"], ["run", "--faults", "0101"], ["run", "--coins=0101"]]

    def setUp(self):
        super().setUp()
        self.folder = f"{self.room}/folder"
        for name in (*self.FILES, "folder/code.stim"):
            self.write(f"{self.folder}/{name}", "M 0\n")

    def told(self, *words):
        ended = self.call(*words, cwd=self.folder, STAND_IN_STATUS="2")
        self.assertEqual((ended.stdout, ended.returncode), (self.expected(*words, cwd=self.folder), 2))
        return ended.stderr.decode()

    def test_a_file_s_name(self):
        for words, call in self.ROWS:
            with self.subTest(words=words):
                told = self.told(*words)
                if call:
                    self.assertEqual(told, f"stabsim reads standard input: {call}\n")
                else:
                    self.assertNotIn("reads standard input", told)

    def test_what_is_no_file_s_name(self):
        for words in self.NONE:
            with self.subTest(words=words):
                self.assertNotIn("reads standard input", self.told(*words))

    def test_it_is_told_before_a_build_and_once(self):
        self.make_missing()
        first, second, *others = self.told("analyze", "code.stim").splitlines()
        self.assertEqual(first, "stabsim reads standard input: ./stabsim analyze < code.stim")
        self.assertIn("proving and building", second)
        self.assertEqual([it for it in others if "of 3 crates" not in it], [])


class Terminal(Case):
    """What is told where standard input is a terminal."""

    LINE = "stabsim: reading from the terminal; Ctrl-D at the beginning of a line ends it\n"

    def told(self, *words):
        ours, theirs = pty.openpty()
        with os.fdopen(ours, "wb", buffering=0) as writer, os.fdopen(theirs, "rb") as terminal:
            writer.write(b"M 0\n\x04")
            how = {"stdin": terminal, "capture_output": True, "timeout": 60, "cwd": self.room}
            ended = subprocess.run([f"{self.top}/stabsim", *words], env=self.environment(), **how)
        self.assertEqual((ended.stdout, ended.returncode), (self.expected(*words, stdin=b"M 0\n", cwd=self.room), 0))
        return ended.stderr.decode()

    def test_subcommands_that_read(self):
        for name in READERS:
            with self.subTest(name):
                self.assertEqual(self.told(name), self.LINE)
        self.assertEqual(self.told("detect", "--shots", "10"), self.LINE)

    def test_words_by_which_nothing_is_read(self):
        for words in ([], ["--help"], ["run", "--help"], ["detect", "--shots", "3", "-h"], ["walk"]):
            with self.subTest(words=words):
                self.assertEqual(self.told(*words), "")

    def test_other_inputs(self):
        self.assertEqual(self.call("run", stdin=b"M 0\n").stderr, b"")

    def test_it_is_told_behind_a_build(self):
        self.make_missing()
        self.assertTrue(self.told("run").endswith(f"3 of 3 crates in 0 min\n{self.LINE}"))


class Signals(Case):
    """A signal ends the program and the launcher, as if it were the program."""

    def start(self, text=SLEEPER):
        self.write(self.program, text, mode=0o755)
        how = {"stdin": subprocess.DEVNULL, "stdout": subprocess.PIPE, "stderr": subprocess.PIPE, "start_new_session": True}
        heed = lambda: [signal.signal(it, signal.SIG_DFL) for it in (*ENDS, signal.SIGPIPE)]
        started = subprocess.Popen([f"{self.top}/stabsim", "run"], env=self.environment(), preexec_fn=heed, **how)
        self.addCleanup(self.end, started)
        return started

    def is_there(self, number):
        with contextlib.suppress(OSError):
            return self.read(f"/proc/{number}/stat").rpartition(")")[2].split()[0] != "Z"
        return False

    def test_a_signal_to_the_launcher_or_to_all(self):
        for number in ENDS:
            for send in (os.kill, os.killpg):
                with self.subTest(number, send=send):
                    started = self.start()
                    program = int(started.stdout.readline())
                    self.assertTrue(self.is_there(program))
                    send(started.pid, number)
                    self.assertEqual(started.communicate(timeout=20), (b"", b""))
                    self.assertEqual(started.returncode, -number)
                    self.assertFalse(self.is_there(program))

    def test_ctrl_c_and_input_at_a_terminal(self):
        """The program is of the terminal's foreground, so that it may read, and Ctrl-C ends both."""
        self.write(self.program, "#!/bin/sh\necho $$\nread -r line\necho $line\nexec sleep 100\n", mode=0o755)
        ours, theirs = pty.openpty()
        take = lambda: [fcntl.ioctl(theirs, termios.TIOCSCTTY, 0), signal.signal(signal.SIGINT, signal.SIG_DFL)]
        how = {"stdin": theirs, "stdout": subprocess.PIPE, "stderr": subprocess.DEVNULL, "start_new_session": True}
        started = subprocess.Popen([f"{self.top}/stabsim", "run"], env=self.environment(), preexec_fn=take, **how)
        self.addCleanup(self.end, started)
        os.close(theirs)
        program = int(started.stdout.readline())
        with os.fdopen(ours, "wb", buffering=0) as terminal:
            terminal.write(b"M 0\n")
            self.assertEqual(started.stdout.readline(), b"M 0\n")
            terminal.write(b"\x03")
            self.assertEqual(started.wait(timeout=20), -signal.SIGINT)
            self.assertFalse(self.is_there(program))

    def test_a_signal_that_ends_the_program(self):
        for number in (signal.SIGKILL, signal.SIGSEGV, signal.SIGPIPE, signal.SIGTERM, signal.SIGXCPU, signal.SIGABRT):
            with self.subTest(number):
                started = self.start(f"#!/bin/sh\nulimit -c 0\necho said\nkill -s {int(number)} $$\n")
                self.assertEqual(started.communicate(timeout=20), (b"said\n", b""))
                self.assertEqual(started.returncode, -number)

    def test_a_signal_behind_a_build(self):
        self.make_missing()
        self.write(f"{self.rt}/program", SLEEPER)
        started = self.start_call("run")
        program = int(started.stdout.readline())
        os.kill(started.pid, signal.SIGTERM)
        self.assertEqual(started.wait(timeout=20), -signal.SIGTERM)
        self.assertFalse(self.is_there(program))

    def test_signals_that_the_caller_ignores(self):
        """As under nohup, and as a shell's jobs in the background ignore Ctrl-C."""
        sent = "".join(f"kill -s {name} {to}\n" for name in ("HUP", "INT") for to in ("$$", "$PPID"))
        self.write(self.program, f"#!/bin/sh\n{sent}exit 3\n", mode=0o755)
        ignoring = ["sh", "-c", 'trap "" HUP INT; exec "$@"', "sh", f"{self.top}/stabsim"]
        self.assertEqual(self.call(launcher=ignoring).returncode, 3)


class Version(Case):
    """The answer to --version, which needs no program."""

    ENVIRONMENT = {"GIT_CONFIG_GLOBAL": "/dev/null", "GIT_CONFIG_SYSTEM": "/dev/null"}

    def setUp(self):
        super().setUp()
        shutil.rmtree(f"{self.top}/crates/stabsim/out")

    def with_git(self):
        if not shutil.which("git"):
            self.skipTest("git isn't there")
        os.symlink(shutil.which("git"), f"{self.tools}/git")

    def git(self, folder, *words):
        who = [it for name in ("user.name", "user.email") for it in ("-c", f"{name}=x")]
        ended = subprocess.run(["git", "-C", folder, *who, *words], env=self.environment(**self.ENVIRONMENT), capture_output=True)
        self.assertEqual(ended.returncode, 0, ended.stderr)
        return ended.stdout.decode().strip()

    def commit(self, folder):
        self.git(folder, "init", "-q")
        self.git(folder, "add", f"{self.top}/stabsim")
        self.git(folder, "commit", "-qm", "first")
        return self.git(folder, "rev-parse", "HEAD")

    def told(self, **how):
        """The lines of the answer. Nothing is built or told beside it."""
        ended = self.call("--version", **{**self.ENVIRONMENT, **how})
        self.assertEqual((ended.stderr, ended.returncode), (b"", 0))
        self.assertEqual(self.calls(), [])
        return ended.stdout.decode().splitlines()

    def test_without_git_and_toolchain(self):
        first, *others = self.told(with_rt=False)
        self.assertRegex(first, r"^stabsim \d+\.\d+\.\d+$")
        logic = re.search(r"`(logic [0-9a-f]{16})`", self.read(f"{REPOSITORY}/README.md"))[1]
        self.assertEqual(others, ["commit unknown: git finds none here", f"proved by the {logic} of Rattle's toolchain",
                                  "rt in PATH: none"])

    def test_the_toolchain(self):
        self.assertEqual(self.told()[3], "rt in PATH: stand-in logic 0123456789abcdef")

    def test_the_commit_with_edits(self):
        self.with_git()
        self.assertEqual(self.told()[1], "commit unknown: git finds none here")
        commit = self.commit(self.top)
        self.git(self.top, "tag", "v9")
        for edited in ("", ", edited since"):
            if edited:
                self.write(f"{self.top}/stabsim", self.read(f"{self.top}/stabsim") + "# edited\n", mode=0o755)
            self.assertEqual(self.told()[1], f"commit {commit[:12]}{edited}")
            self.assertEqual(self.told(GIT_DIR="/nowhere", GIT_WORK_TREE="/nowhere")[1], f"commit {commit[:12]}{edited}")

    def test_not_the_commit_of_a_repository_around_it(self):
        self.with_git()
        self.commit(self.room)
        self.assertEqual(self.told()[1], "commit unknown: git finds none here")

    def test_behind_another_word_it_is_the_program_s(self):
        self.assertEqual(self.call("run", "--version").stdout, self.expected("run", "--version"))


if __name__ == "__main__":
    unittest.main()
