"""What the tests run: the scripts, the built program, and a Python that has numpy, or networkx too."""
import functools
import importlib.util
import os
import re
import shutil
import signal
import subprocess
import sys
import unittest
from pathlib import Path

TOP = Path(__file__).resolve().parents[2]
FROM_STIM = TOP / "tools" / "from_stim.py"
DECODE = TOP / "examples" / "decode.py"
MATCH = TOP / "tools" / "match.py"

sys.dont_write_bytecode = True  # so that its modules leave nothing among the tools
sys.path.append(str(FROM_STIM.parent))
from stim_converter import Choices, Converter  # noqa: E402, found by the line above


def run(words, data=b""):
    """A command's status, output and messages, by bytes."""
    return subprocess.run([str(word) for word in words], input=data, capture_output=True, timeout=300)


def heed_interrupts():
    """For what is started by a process that may ignore them, as one in the background of a script does."""
    signal.signal(signal.SIGINT, signal.SIG_DFL)


def load(path):
    """A script as a module."""
    spec = importlib.util.spec_from_file_location(path.stem, path)
    module = importlib.util.module_from_spec(spec)
    spec.loader.exec_module(module)
    return module


def converter_of(text, is_model=False, scale=None, **choices):
    return Converter(text.split("\n"), is_model, Choices(scale=scale, **choices))


def convert(text, is_model=False, scale=None, **choices):
    """The text that from_stim.py makes of this one; an error where it refuses a line."""
    converted, refused = converter_of(text, is_model, scale, **choices).convert()
    if refused:
        raise AssertionError(refused)
    return "\n".join(converted)


def refusals(text, is_model=False, scale=None, **choices):
    """The lines that from_stim.py refuses, each with its reason."""
    return converter_of(text, is_model, scale, **choices).convert()[1]


def read_rows(title):
    """The rows of a section of docs/FROM_STIM.md whose first two cells are code: what is converted, and the lines it becomes."""
    page = (TOP / "docs" / "FROM_STIM.md").read_text()
    section = re.split(r"^##", page.partition(f"# {title}\n")[2], maxsplit=1, flags=re.MULTILINE)[0]
    for stim, here in re.findall(r"^\| (`[^|]*`) \| (`[^|]*`) \|", section, re.MULTILINE):
        yield "\n".join(re.findall(r"`([^`]*)`", stim)), re.findall(r"`([^`]*)`", here)


def without_comments(text):
    return [line.strip() for line in text.split("\n") if line.strip() and not line.strip().startswith("#")]


@functools.cache
def find_program():
    """The built program that STABSIM names; a test that needs it is skipped where STABSIM isn't set."""
    name = os.environ.get("STABSIM")
    if not name:
        raise unittest.SkipTest("STABSIM names no program")
    if not os.access(name, os.X_OK):
        raise AssertionError(f"STABSIM names {name}, which can't be run")
    return Path(name).resolve()


@functools.cache
def find_python(*modules):
    """A Python with these modules; a test that needs it is skipped where there is none, unless REQUIRE_NUMPY is set."""
    for python in (sys.executable, shutil.which("python3"), "/usr/bin/python3"):
        if python and os.access(python, os.X_OK) and run([python, "-c", f"import {', '.join(modules)}"]).returncode == 0:
            return python
    if os.environ.get("REQUIRE_NUMPY"):
        raise AssertionError(f"no Python with {' and '.join(modules)}, and REQUIRE_NUMPY is set")
    raise unittest.SkipTest(f"no Python has {' and '.join(modules)}")


def find_numpy_python():
    return find_python("numpy")
