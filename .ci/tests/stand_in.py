"""A repository with stand-ins for the toolchain's command `rt` and for the program that it builds, for tests of the launcher."""

import contextlib
import glob
import os
import shutil
import signal
import subprocess
import tempfile
import time
import unittest

REPOSITORY = os.path.dirname(os.path.dirname(os.path.dirname(os.path.abspath(__file__))))

# All that the launcher and its scripts call. The tests' PATH has these, and no real rt.
TOOLS = """awk basename bash cat chmod cksum cp dirname env find flock mkdir mktemp mv nproc readlink rm sed sh sha256sum sleep sort
tac touch xargs""".split()

# Notes its words and the copy's lines, and builds by a copy of the stand-in program that names the code in which it was built. A file
# beside it asks for something else: `sleeps` for a build that doesn't end, `slow` for one of a second, `fails` for one that fails,
# `fails-to-check` for a check that fails, `fails-behind` for a build that fails when the program is written, `builds-nothing` for one
# that writes none, and `edits` for code that changes after it was read. A check leaves what the real one keeps. As the real one it says
# which crates it proved, and keeps these by their files and those of the crates before them, for later calls in other folders. Asked for
# its version, it notes nothing.
RT = """#!/bin/sh
here=${0%/*}
prove() {
    sum=$sum$(cd "crates/$1" && find . -type f | sort | xargs sha256sum)
    kept=$here/kept-$1-$(echo "$sum" | cksum | sed 's/ .*//')
    [ -e "$kept" ] && { echo "rt: $1 is kept: an earlier run on this machine proved the same files"; return; }
    echo "== $1"
    echo "logic=proved functions=1"
    echo "rt: $1 proved"
    touch "$kept"
}
pause() { [ -e "$here/sleeps" ] && { touch "$here/sleeping"; sleep 100; }; }
[ "$1" = version ] && { echo 'stand-in logic 0123456789abcdef'; exit; }
echo "$*" >>"$here/calls"
echo "${GLIBC_TUNABLES-unset}" >>"$here/tunables"
cat >>"$here/stdin"
if [ "$1" = ci ]; then
    pwd >"$here/copy"
    find . -type f | sort >"$here/copied"
    cat crates.txt >>"$here/copied"
    for name in $(sed 's/:.*//' crates.txt); do
        [ "$name" = stabsim ] && pause
        prove "$name"
    done
    cd crates/stabsim && mkdir out || exit 1
else
    mkdir -p ../low/out/incremental ../low/out/rlib
    printf '%s\\n' '== base' '== low' 'logic=proved functions=2' '== stabsim' 'logic=proved functions=3' '== summary'
    [ "$1" = run ] || { [ ! -e "$here/fails-to-check" ]; exit; }
    pause
fi
[ -e "$here/slow" ] && sleep 1
[ -e "$here/fails" ] && { echo 'goal 7 is open'; echo 'not proved' >&2; exit 1; }
[ -e "$here/builds-nothing" ] && exit 0
code=$(cat src/main.rt)
[ -e "$here/edits" ] && { rm "$here/edits"; echo 'edited meanwhile' >"$here/../repository/crates/stabsim/src/main.rt"; sleep 0.1; }
sed "s|CODE|$code|" "$here/program" >out/stabsim
chmod +x out/stabsim
[ -e "$here/fails-behind" ] && exit 1
exit 0
"""

# Writes the code that it was built from, GLIBC_TUNABLES, the folder where it runs, its words and its input.
PROGRAM = """#!/bin/sh
printf '%s|' 'CODE' "${GLIBC_TUNABLES-unset}" "$(pwd -P)" "$#" "$@"
cat
exit "${STAND_IN_STATUS-0}"
"""

FILES = {
    "crates.txt": "# Ground.\nbase:\nlow: base arrayvec\n\n# The program.\nstabsim: clap low\n\n# Tests.\nlow_tests: low\n",
    ".ci/build-times": "# Seconds.\nbase 600\nlow 1200\nstabsim 60\n",
    "HANDLES": "Handles allowed: none.\n",
    "README.md": "Read me.\n",
    "crates/base/src/lib.rt": "base\n",
    "crates/base/must-fail/wrong.edit": "file: src/lib.rt\n",
    "crates/base/wrong-bodies/wrong.edit": "file: src/lib.rt\n",
    "crates/base/more-wrong-bodies/wrong.edit": "file: src/lib.rt\n",
    "crates/low_tests/src/lib.rt": "tests\n",
    "crates/low/src/lib.rt": "low\n",
    "crates/low/src/part.rt": "part\n",
    "crates/low/src/deep/inner.rt": "inner\n",
    "crates/low/specs/Lib.antt": "spec\n",
    "crates/low/proofs/call/Answers.antt": "proof\n",
    "crates/stabsim/src/main.rt": "first code",
}

# The signals that interrupt a build.
ENDS = (signal.SIGINT, signal.SIGTERM, signal.SIGHUP)


class Case(unittest.TestCase):
    """A temporary repository whose program is built and newer than all of its files."""

    @classmethod
    def setUpClass(cls):
        made = tempfile.TemporaryDirectory(prefix="launcher-")
        cls.addClassCleanup(made.cleanup)
        cls.made = cls()
        cls.made.stand_in(made.name)
        cls.made.make()

    def setUp(self):
        room = tempfile.TemporaryDirectory(prefix="launcher-")
        self.addCleanup(room.cleanup)
        self.stand_in(room.name)
        shutil.copytree(self.made.room, self.room, symlinks=True, dirs_exist_ok=True)

    def stand_in(self, room):
        self.room = os.path.realpath(room)
        self.tools, self.rt, self.top = (f"{self.room}/{it}" for it in ("tools", "rt", "repository"))

    def make(self):
        os.mkdir(self.tools)
        for name in TOOLS:
            os.symlink(shutil.which(name), f"{self.tools}/{name}")
        self.write(f"{self.rt}/rt", RT, mode=0o755)
        self.write(f"{self.rt}/program", PROGRAM)
        for name in ("stabsim", ".ci/build", ".ci/lanes", ".ci/progress", ".ci/sums"):
            self.copy(name)
        for name, text in FILES.items():
            self.write(f"{self.top}/{name}", text)
        self.call()
        self.age_all()
        for name in ("calls", "tunables", "stdin"):
            os.remove(f"{self.rt}/{name}")
        self.forget_proofs()

    def write(self, path, text, mode=0o644):
        os.makedirs(os.path.dirname(path), exist_ok=True)
        with open(path, "w") as file:
            file.write(text)
        os.chmod(path, mode)

    def read(self, path):
        with open(path) as file:
            return file.read()

    def copy(self, name):
        os.makedirs(os.path.dirname(f"{self.top}/{name}"), exist_ok=True)
        shutil.copy(f"{REPOSITORY}/{name}", f"{self.top}/{name}")

    @property
    def program(self):
        return f"{self.top}/crates/stabsim/out/stabsim"

    def set_age(self, path, seconds):
        then = time.time() - seconds
        os.utime(path, (then, then))

    def age_all(self):
        """Makes each file and folder an hour old, and the program half an hour."""
        for at, _, names in os.walk(self.top, topdown=False):
            for name in names:
                self.set_age(f"{at}/{name}", 3600)
            self.set_age(at, 3600)
        self.set_age(self.program, 1800)

    def environment(self, with_rt=True, **more):
        found = {name: text for name, text in os.environ.items() if name != "GLIBC_TUNABLES"}
        found["PATH"] = f"{self.rt}:{self.tools}" if with_rt else self.tools
        return {**found, **more}

    def call(self, *words, launcher=None, stdin=b"", cwd=None, with_rt=True, **more):
        command = launcher if isinstance(launcher, list) else [launcher or f"{self.top}/stabsim"]
        environment = self.environment(with_rt, **more)
        return subprocess.run([*command, *words], input=stdin, cwd=cwd, env=environment, capture_output=True, timeout=60)

    def start_call(self, *words, stderr=subprocess.PIPE):
        """Starts a call in a process group of its own, which heeds signals that the tests' own process may ignore."""
        how = {"stdin": subprocess.DEVNULL, "stdout": subprocess.PIPE, "stderr": stderr, "start_new_session": True}
        heed = lambda: [signal.signal(it, signal.SIG_DFL) for it in ENDS]
        started = subprocess.Popen([f"{self.top}/stabsim", *words], env=self.environment(), preexec_fn=heed, **how)
        self.addCleanup(self.end, started)
        return started

    def end(self, started):
        """Ends a call and what it builds, whatever the launcher makes of it."""
        started.kill()
        builder = self.builder()
        if builder:
            with contextlib.suppress(ProcessLookupError):
                os.killpg(builder, signal.SIGKILL)
        started.wait()
        started.stdout.close()
        if started.stderr:
            started.stderr.close()

    def processes(self):
        """Yields the parent, the group and the command of each process that hasn't ended."""
        for name in filter(str.isdigit, os.listdir("/proc")):
            with contextlib.suppress(OSError, ValueError):
                state, parent, group = self.read(f"/proc/{name}/stat").rpartition(")")[2].split()[:3]
                if state != "Z":
                    yield int(parent), int(group), self.read(f"/proc/{name}/cmdline")

    def builder(self):
        """Returns the process group of the build, if there is one."""
        return next((group for _, group, command in self.processes() if f"{self.rt}/rt" in command), None)

    def is_waiting(self, call):
        """Whether a call waits for another by a process of its own group."""
        return any(parent == call.pid != group and command.startswith("flock") for parent, group, command in self.processes())

    def wait_for(self, condition):
        until = time.monotonic() + 20
        while not condition():
            self.assertLess(time.monotonic(), until, "waited too long")
            time.sleep(0.01)

    def expected(self, *words, code="first code", tunables="glibc.malloc.hugetlb=1", cwd=None, stdin=b""):
        fields = [code, tunables, os.path.realpath(cwd or os.getcwd()), str(len(words)), *words]
        return "".join(f"{it}|" for it in fields).encode() + stdin

    def assert_runs(self, *words, told=b"", stdin=b"", code="first code", cwd=None, **how):
        """Calls the launcher, and asserts that the program had exactly these words and this input, and that nothing else was said."""
        ended = self.call(*words, stdin=stdin, cwd=cwd, **how)
        self.assertEqual(ended.stderr, told)
        self.assertEqual(ended.stdout, self.expected(*words, code=code, cwd=cwd, stdin=stdin))
        self.assertEqual(ended.returncode, 0)

    def calls(self):
        """Returns what rt was asked for, and forgets it."""
        path = f"{self.rt}/calls"
        if not os.path.exists(path):
            return []
        found = self.read(path).splitlines()
        os.remove(path)
        return found

    def assert_builds(self, code="first code"):
        """Asserts that a call builds the program from this code and runs it, and that the next call builds nothing."""
        ended = self.call("word")
        self.assertEqual(ended.stdout, self.expected("word", code=code))
        self.assertEqual(ended.returncode, 0)
        self.assertIn(b"proving and building the program", ended.stderr)
        self.assertEqual(self.calls(), ["ci"])
        self.assert_no_copy()
        self.assert_is_quick(code=code)

    def assert_no_copy(self):
        """Asserts that the copy in which the last build was made is gone."""
        self.wait_for(lambda: not os.path.exists(self.read(f"{self.rt}/copy").strip()))

    def assert_is_quick(self, code="first code"):
        """Asserts that a call looks at times alone and runs the program."""
        shutil.move(f"{self.top}/.ci", f"{self.room}/away")
        self.assert_runs("word", code=code)
        shutil.move(f"{self.room}/away", f"{self.top}/.ci")
        self.assertEqual(self.calls(), [])

    def forget_proofs(self):
        for path in glob.glob(f"{glob.escape(self.rt)}/kept-*"):
            os.remove(path)

    def keep(self):
        """Leaves what a check keeps."""
        os.makedirs(f"{self.top}/crates/low/out/incremental/kept")

    def make_missing(self):
        if os.path.exists(self.program):
            os.remove(self.program)
