"""tools/from_stim.py as a command: what it writes and tells where it refuses, its streams, its speed, and its page."""
import os
import re
import resource
import shutil
import signal
import subprocess
import sys
import tempfile
import unittest
from pathlib import Path

import stim_circuits
from programs import FROM_STIM, TOP, Converter, convert, find_program, heed_interrupts, refusals, run
from stim_text import SECTIONS

PAGE = (TOP / "docs" / "FROM_STIM.md").read_text()

# A line of each kind that the page says what to do about, the section, and what was asked.
REMEDIES = [
    ("PAULI_CHANNEL_1(0.1, 0, 0.1) 0", "Channels that no independent faults make", {}),
    ("PAULI_CHANNEL_2(0.1, 0.1, 0, 0, 0, 0, 0, 0, 0, 0, 0, 0, 0, 0, 0) 0 1", "Channels that no independent faults make", {}),
    ("DEPOLARIZE1(0.76) 0", "Channels that no independent faults make", {}),
    ("DEPOLARIZE2(0.94) 0 1", "Channels that no independent faults make", {}),
    ("ELSE_CORRELATED_ERROR(0.1) X0", "Errors that exclude one another", {}),
    ("E(0.1) X0\nELSE_CORRELATED_ERROR(0.1) Z0", "Errors that exclude one another", {}),
    ("HERALDED_ERASE(0.1) 0", "Heralded errors", {}),
    ("HERALDED_PAULI_CHANNEL_1(0.1, 0.1, 0, 0) 0", "Heralded errors", {}),
    ("CX sweep[0] 1", "Sweep bits", {}),
    ("H 4096", "Qubits", {}),
    (f"H {' '.join(map(str, range(4097)))}", "Qubits", {"is_renumbered": True}),
    ("OBSERVABLE_INCLUDE(0) X1", "Observables of Pauli products", {}),
    ("OBSERVABLE_INCLUDE(0) X1\nM 0", "Observables of Pauli products", {"may_measure": True}),
    ("DETECTOR(0.5) rec[-1]", "Coordinates", {"scale": 3}),
    ("R !0", "Other lines that are refused", {}),
    ("MPP X0*Y0", "Other lines that are refused", {}),
    ("M 0\nCX 1 rec[-1]", "Other lines that are refused", {}),
]


class Refusals(unittest.TestCase):
    def assert_refused_as_text(self, done, order):
        """One line, which the program refuses by its name."""
        self.assertEqual(done.stdout.count(b"\n"), 1, done)
        answer = run([find_program(), order], done.stdout)
        cause = 40 if order == "predict" else 11
        self.assertEqual((answer.returncode, answer.stdout), (2, f"refused {cause} line 1\n".encode()))

    def test_what_is_written_is_no_circuit_and_no_model(self):
        done = run([sys.executable, FROM_STIM], b"H 0\nHERALDED_ERASE[\xff](0.1) 0\nM 0\nM \xe9\nR 0")
        self.assertEqual(done.returncode, 1)
        self.assertTrue(done.stdout.startswith(b"NOT_CONVERTED # by from_stim.py: line 2: HERALDED_ERASE"), done.stdout)
        for order in ("run", "analyze", "faults"):
            self.assert_refused_as_text(done, order)
        done = run([sys.executable, FROM_STIM, "--dem"], b"error(0.1) D0\nerror(2) D0")
        self.assertEqual(done.returncode, 1)
        self.assert_refused_as_text(done, "predict")

    def test_wrong_options_write_none_either(self):
        for words in (["--scale", "0"], ["--scale", "1.5"], ["--what"], ["file.stim"], ["--scale", "2", "--coordinates", "drop"],
                      ["--coordinates", "none"], ["--dem", "--renumber"], ["--dem", "--observables"], ["--a\nM 0\n"],
                      ["--dem", "--approximate-disjoint"]):
            done = run([sys.executable, FROM_STIM, *words], b"H 0")
            self.assertEqual(done.returncode, 2, words)
            self.assertIn(b"usage: ", done.stderr)
            self.assert_refused_as_text(done, "analyze")

    def test_the_first_three_lines_and_the_number_of_others_are_told(self):
        done = run([sys.executable, FROM_STIM], b"H 0\n" + b"HERALDED_ERASE(0.1) 0\nTICK\n" * 3 + b"FOO\n" * 1234)
        lines = done.stderr.decode().splitlines()
        self.assertEqual([line.split(":")[0] for line in lines[:3]], ["line 2", "line 4", "line 6"])
        self.assertEqual(lines[3:], ["1,234 more lines can't be converted"])
        for count, end in ((3, "line 3: "), (4, "1 more line can't be converted")):
            lines = run([sys.executable, FROM_STIM], b"FOO\n" * count).stderr.decode().splitlines()
            self.assertEqual(len(lines), count)
            self.assertTrue(lines[-1].startswith(end), lines)

    def test_each_message_names_its_section_of_the_page(self):
        titles = re.findall(r"^##+ (.*)$", PAGE, re.MULTILINE)
        self.assertLessEqual(set(SECTIONS.values()), set(titles))
        for text, section, choices in REMEDIES:
            found = refusals(text, **choices)
            self.assertNotEqual(found, [], text)
            for _, reason in found:
                self.assertTrue(reason.endswith(f'(docs/FROM_STIM.md, "{section}")'), reason)

    def test_messages_are_short_whatever_the_text(self):
        lines = ("H {}", "{} 0", "X_ERROR({}) 0", "CX 0 {0} 1 {0}", "DETECTOR(0.{})", "E(0.1) X{}", "REPEAT {} {{",
                 "MPP X{0}*Z{0}")
        text = "\n".join(line.format(digit * 10**6) for line, digit in zip(lines, "xY989871"))
        done = run([sys.executable, FROM_STIM], text.encode())
        self.assertEqual(done.returncode, 1)
        self.assertTrue(done.stdout.startswith(b"NOT_CONVERTED "), done.stderr[:500])
        self.assertLess(len(done.stderr) + len(done.stdout), 3000)


    def test_it_says_what_it_needs_beside_it(self):
        with tempfile.TemporaryDirectory() as folder:
            shutil.copy(FROM_STIM, folder)
            done = run([sys.executable, Path(folder) / FROM_STIM.name], b"H 0")
        self.assertEqual(done.returncode, 1)
        self.assertRegex(done.stderr.decode(), r"\Afrom_stim.py needs .*the files stim_\*\.py and script_streams\.py beside it[^\n]*\n\Z")
        self.assert_refused_as_text(done, "analyze")


class Streams(unittest.TestCase):
    def start(self, **streams):
        return subprocess.Popen([sys.executable, FROM_STIM], stderr=subprocess.PIPE, preexec_fn=heed_interrupts, **streams)

    def assert_told(self, process, said, status=1):
        written, told = process.communicate(timeout=60)
        self.assertEqual(process.returncode, status, told)
        self.assertIn(said, told)
        self.assertNotIn(b"Traceback", told)
        self.assertEqual(told.count(b"\n"), 1 if said else 0, told)
        return written

    def test_an_input_that_fails(self):
        with open("/proc/self/mem", "rb") as memory:  # whose first page can't be read
            written = self.assert_told(self.start(stdin=memory, stdout=subprocess.PIPE), b"the input can't be read: ")
        self.assertTrue(written.startswith(b"NOT_CONVERTED "))
        done = run(["bash", "-c", f"{sys.executable} {FROM_STIM} <&-"])
        self.assertEqual((done.returncode, done.stderr.count(b"\n")), (1, 1))
        self.assertTrue(done.stdout.startswith(b"NOT_CONVERTED "))

    def test_an_output_that_fails(self):
        with open("/dev/full", "wb") as full:
            with tempfile.TemporaryFile() as source:
                source.write(b"H 0\n" * 100000)
                source.seek(0)
                self.assert_told(self.start(stdin=source, stdout=full), b"the output can't be written: ")
        done = run(["bash", "-c", f"{sys.executable} {FROM_STIM} >&-"], b"H 0")
        self.assertEqual((done.returncode, done.stderr.count(b"\n")), (1, 1))

    def test_nobody_can_be_told(self):
        """What it tells doesn't come among the lines of the circuit."""
        for closed in ("2>&-", "2>/dev/full"):
            done = run(["bash", "-c", f"{sys.executable} {FROM_STIM} {closed}"], b"M 0\nDETECTOR(0.5) rec[-1]\n")
            self.assertEqual((done.returncode, done.stdout, done.stderr), (0, b"M 0\nDETECTOR(1) rec[-1]\n", b""), closed)

    def test_a_pipe_that_is_closed_and_an_interrupt_end_it_by_their_signals(self):
        reader, writer = os.pipe()
        os.close(reader)
        process = self.start(stdin=subprocess.PIPE, stdout=writer)
        os.close(writer)
        self.assertEqual(process.communicate(b"H 0", timeout=60)[1], b"")
        self.assertEqual(process.returncode, -signal.SIGPIPE)
        process = self.start(stdin=subprocess.PIPE, stdout=subprocess.PIPE)
        process.stdin.write(b"H 0\n" * 100000)  # more than a pipe holds, so it reads
        process.send_signal(signal.SIGINT)
        self.assertEqual(process.communicate(timeout=60), (b"", b""))
        self.assertEqual(process.returncode, -signal.SIGINT)


class Options(unittest.TestCase):
    ROWS = [
        ([], "H 1\nDETECTOR(0.5)", {}),
        (["--coordinates", "scale"], "DETECTOR(0.5)", {"coordinates": "scale"}),
        (["--coordinates", "drop"], "DETECTOR(0.5)", {"coordinates": "drop"}),
        (["--scale", "6"], "DETECTOR(0.5)", {"scale": 6}),
        (["--renumber"], "H 7 5", {"is_renumbered": True}),
        (["--observables"], "OBSERVABLE_INCLUDE(0) X1", {"may_measure": True}),
        (["--approximate-disjoint"], "PAULI_CHANNEL_1(0.1, 0, 0.1) 0", {"may_approximate": True}),
        (["--dem"], "detector(0.5) D0", {"is_model": True}),
        (["--dem", "--scale", "4"], "detector(0.5) D0", {"is_model": True, "scale": 4}),
        (["--dem", "--coordinates", "drop"], "detector(0.5) D0", {"is_model": True, "coordinates": "drop"}),
    ]

    def test_each_is_passed_on(self):
        written = set()
        for words, text, choices in self.ROWS:
            done = run([sys.executable, FROM_STIM, *words], text.encode())
            self.assertEqual((done.returncode, done.stdout.decode()), (0, convert(text, **choices)), words)
            written.add((text, done.stdout))
        self.assertEqual(len(written), len(self.ROWS))


class Speed(unittest.TestCase):
    def test_equal_lines_are_converted_once(self):
        class Counting(Converter):
            count = 0

            def convert_instruction(self, parts):
                self.count += 1
                return super().convert_instruction(parts)

        converter = Counting(["H 0", "DEPOLARIZE1(0.75) 0", "REPEAT 2 {", "H 0", "}"] * 100)
        self.assertEqual(len(converter.convert()[0]), 500)
        self.assertEqual(converter.count, 2)

    def test_a_surface_code_of_distance_25_without_blocks_takes_three_seconds_at_most(self):
        """25 rounds, each written out, with 975,000 faults and more."""
        text = stim_circuits.surface_code("rotated", stim_circuits.rotated_layout(25), "Z", 25, 25)
        head, _, rest = text.partition("REPEAT 24 {\n")
        body, _, tail = rest.partition("\n}\n")
        before = resource.getrusage(resource.RUSAGE_CHILDREN).ru_utime
        done = run([sys.executable, FROM_STIM], (head + (body + "\n") * 24 + tail).encode())
        seconds = resource.getrusage(resource.RUSAGE_CHILDREN).ru_utime - before
        self.assertEqual(done.returncode, 0)
        self.assertGreater(done.stdout.count(b"\n"), 900000)
        self.assertLess(seconds, 3)


class Page(unittest.TestCase):
    def test_commands_that_it_shows(self):
        """Each line of an indented block that calls the script; those of its recipes have their own test."""
        shown = re.findall(r"^    (tools/from_stim\.py .*)$", PAGE, re.MULTILINE)
        self.assertGreaterEqual(len(shown), 4)
        with tempfile.TemporaryDirectory() as folder:
            for name in ("examples", "tools"):
                os.symlink(TOP / name, Path(folder) / name)
            os.symlink(find_program(), Path(folder) / "stabsim")
            (Path(folder) / "yours.stim").write_bytes((TOP / "examples" / "stim" / "color_code_memory_xyz.stim").read_bytes())
            for command in shown:
                done = run(["bash", "-c", f"set -euo pipefail; cd {folder}; {command} > answer"])
                self.assertEqual(done.returncode, 0, (command, done.stderr))
                self.assertNotEqual((Path(folder) / "answer").read_bytes(), b"", command)

    def test_options_are_those_of_the_command(self):
        in_help = set(re.findall(r"--[a-z-]+", run([sys.executable, FROM_STIM, "--help"]).stdout.decode())) - {"--help"}
        self.assertEqual(set(re.findall(r"^\| `(--[a-z-]+)", PAGE, re.MULTILINE)), in_help)


if __name__ == "__main__":
    unittest.main()
