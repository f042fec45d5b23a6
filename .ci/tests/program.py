"""The built program, run as a process: words and input go in, the bytes that it writes and its exit status come out.

The environment variable STABSIM names the program. Where it isn't set, tests that need the program are skipped.
"""
import os
import subprocess
import tempfile
import unittest

PROGRAM = os.environ.get("STABSIM")

# No test comes near: a program that hangs fails.
SECONDS = 120

# Each subcommand that a circuit is given to with nothing beside it.
CIRCUIT_ORDERS = (["run"], ["analyze"], ["faults"])


def as_bytes(text):
    return text.encode() if isinstance(text, str) else text


def file_of(content):
    """An open file with this content, at its beginning."""
    file = tempfile.TemporaryFile()
    file.write(as_bytes(content))
    file.seek(0)
    return file


def run_program(words, content):
    """What the program writes, on standard error too, and its exit status. The input is a file."""
    with file_of(content) as source:
        ended = subprocess.run(
            [PROGRAM, *words], stdin=source, stdout=subprocess.PIPE, stderr=subprocess.STDOUT, timeout=SECONDS
        )
    return ended.stdout, ended.returncode


def bits(values):
    """A character 0 or 1 for each value."""
    return "".join("1" if value else "0" for value in values)


def listed(numbers):
    """The numbers joined by commas, as --faults and --lines take them."""
    return ",".join(str(number) for number in numbers)


def named(letter, numbers):
    """The targets of an error line, each after a blank: ` D0 D2`."""
    return "".join(f" {letter}{number}" for number in numbers)


def first_difference(written, expected):
    """Where two byte strings part, in a line that fits a terminal."""
    place = next((i for i, (a, b) in enumerate(zip(written, expected)) if a != b), min(len(written), len(expected)))
    begin = max(place - 20, 0)
    return (
        f"{len(written)} bytes written, {len(expected)} expected; from byte {begin}, which differ at {place}: "
        f"{written[begin:place + 40]!r}, expected {expected[begin:place + 40]!r}"
    )


@unittest.skipUnless(PROGRAM, "STABSIM names no program")
class ProgramTest(unittest.TestCase):
    """A test of the built program."""

    def check(self, words, content, output, status=0):
        """The program writes exactly this output for this content, and ends with this status."""
        self.compare(run_program(words, content), output, status)

    def check_rows(self, rows):
        """Each row has words, the input, the output and the status."""
        for words, content, output, status in rows:
            with self.subTest(words=words, content=content):
                self.check(words, content, output, status)

    def check_runs(self, rows, status):
        """Each row has coins, or None for all 0, faults, a text, and what `run` writes."""
        for coins, faults, text, output in rows:
            words = ["run", *([] if coins is None else ["--coins", coins]), "--faults", faults]
            with self.subTest(words=words, text=text):
                self.check(words, text, output, status)

    def check_refused(self, rows):
        """Each row has a text, and the line by which every subcommand on a circuit refuses it."""
        self.check_rows((words, text, line, 2) for text, line in rows for words in CIRCUIT_ORDERS)

    def check_taken(self, texts):
        """Texts on which every subcommand on a circuit is done, whatever it writes."""
        for text in texts:
            for words in CIRCUIT_ORDERS:
                with self.subTest(words=words, text=text):
                    self.assertEqual(run_program(words, text)[1], 0)

    def compare(self, ended, output, status):
        written, ended_with = ended
        expected = as_bytes(output)
        if written != expected:
            self.fail(f"status {ended_with}; {first_difference(written, expected)}")
        self.assertEqual(ended_with, status)
