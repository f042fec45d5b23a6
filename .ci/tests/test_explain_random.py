"""tools/explain_random.py: on circuits worked by hand, and on drawn ones beside a walk that unrolls them."""
import os
import random
import re
import subprocess
import tempfile
import unittest
from pathlib import Path

from drawn_texts import KINDS, draw_both
from plain_reader import KINDS as KINDS_OF_NAMES
from plain_reader import parts_of
from programs import TOP, find_program, load, run

SCRIPT = TOP / "tools" / "explain_random.py"

explain_random = load(SCRIPT)

# Eleven coins: two of line 1, and three in each turn, of lines 3, 5 and 5.
TURNS = """\
R 0 1
REPEAT 3 {
    MX 0   # a comment
    H 1
    M[a tag] !1 0
    DETECTOR(1, -7) rec[-1]  rec[-2]
    SHIFT_COORDS(0, 10, 5)
}
SHIFT_COORDS(-1)
OBSERVABLE_INCLUDE(2) rec[-1]
DETECTOR(1)
DETECTOR
"""

NESTED = """\
SHIFT_COORDS(100)
REPEAT 2 {
    REPEAT 3 {
        MPP X0 * X1 !Z2
        OBSERVABLE_INCLUDE(0) rec[-1]
        SHIFT_COORDS(1)
    }
    SHIFT_COORDS(10)
    MRY 5
    RX 6
    DETECTOR(1000) rec[-1]
}
OBSERVABLE_INCLUDE(0) rec[-1]
"""

ROWS = [
    (TURNS, "random D1\n00000000000\n00000001011\n", """\
D1 is random: coins decide its value, also where no fault happens.
It is of line 6, in turn 2 of 3 of the block of line 2:
    DETECTOR(1, -7) rec[-1]  rec[-2]
Its coordinates: 1, 3
Coins: 11. Differing in the two lists: 3
The first is coin 7, the measurement of target 2 (0) of line 5, in turn 2 of 3 of the block of line 2:
    M[a tag] !1 0
Differing coins by line:
    line 5: 3
"""),
    # The third turn's shift counts too, and so does that of line 9.
    (TURNS, "random D3\n11000000000\n00000001000\n", """\
D3 is random: coins decide its value, also where no fault happens.
It is of line 11:
    DETECTOR(1)
Its coordinates: 0
Coins: 11. Differing in the two lists: 3
The first is coin 0, the reset of target 1 (0) of line 1:
    R 0 1
Differing coins by line:
    line 1: 2
    line 5: 1
"""),
    (TURNS, "random D4\n00000000000\n00000100000\nstabsim: random: of the launcher\n", """\
D4 is random: coins decide its value, also where no fault happens.
It is of line 12:
    DETECTOR
It has no coordinates.
Coins: 11. Differing in the two lists: 1
The first is coin 5, the measurement of target 1 (0) of line 3, in turn 2 of 3 of the block of line 2:
    MX 0
Differing coins by line:
    line 3: 1
"""),
    # A turn of the outer block has 3 * 2 + 2 coins. Coin 11 is the second turn's fourth: turn 2, the second product.
    (NESTED, "random L0\n0000000000000000\n0000000000010011\n", """\
L0 is random: coins decide its value, also where no fault happens.
Lines that add to it: 2
Line 5, in each of 3 turns of the block of line 3, in each of 2 turns of the block of line 2:
    OBSERVABLE_INCLUDE(0) rec[-1]
Line 13:
    OBSERVABLE_INCLUDE(0) rec[-1]
Coins: 16. Differing in the two lists: 3
The first is coin 11, the measurement of target 2 (!Z2) of line 4, in turn 2 of 3 of the block of line 3, in turn 2 of 2 of the \
block of line 2:
    MPP X0 * X1 !Z2
Differing coins by line:
    line 4: 1
    line 9: 1
    line 10: 1
"""),
    # The shifts of six inner turns and two outer ones, and the first line's.
    (NESTED, "random D1\n0000000000000000\n0000001000000000\n", """\
D1 is random: coins decide its value, also where no fault happens.
It is of line 11, in turn 2 of 2 of the block of line 2:
    DETECTOR(1000) rec[-1]
Its coordinates: 1126
Coins: 16. Differing in the two lists: 1
The first is coin 6, the measurement and reset of target 1 (5) of line 9, in turn 1 of 2 of the block of line 2:
    MRY 5
Differing coins by line:
    line 9: 1
"""),
    # Case, blanks, an alias, zeros in front, and a carriage return.
    ("repeat 002 { # two\r\n\tmz[}](0.1)0 !01\r\n} # end\r\nobservable_include( 00 ) rec[-1]\nDETECTOR ( 0001 ,\t-0 )rec[-1]\n",
     "random D0\r\n0000\r\n0001\r\n", """\
D0 is random: coins decide its value, also where no fault happens.
It is of line 5:
    DETECTOR ( 0001 ,\\x09-0 )rec[-1]
Its coordinates: 1, 0
Coins: 4. Differing in the two lists: 1
The first is coin 3, the measurement of target 2 (!01) of line 2, in turn 2 of 2 of the block of line 1:
    mz[}](0.1)0 !01
Differing coins by line:
    line 2: 1
"""),
]

APART = [
    ("M 0\nDETECTOR rec[-1]\n", "random D1\n0\n1\n", "the answer names D1, and the circuit has 1 detectors"),
    ("M 0\nDETECTOR rec[-1]\n", "random D0\n00\n10\n", "a list of 2 coins, and the circuit has 1"),
    ("M 0\nDETECTOR rec[-1]\n", "random D0\n0\n10\n", "a list of 2 coins, and the circuit has 1"),
    ("M 0\nDETECTOR rec[-1]\n", "random D0\n0\n", "a list of 0 coins, and the circuit has 1"),
    ("M 0\nDETECTOR rec[-1]\n", "random D0\n1\n1\n", "no coin differs"),
    ("DETECTOR\n", "random D0\n\n\n", "no coin differs"),
    ("M 0\nOBSERVABLE_INCLUDE(1) rec[-1]\n", "random L0\n0\n1\n", "no OBSERVABLE_INCLUDE(0)"),
    ("REPEAT 999999999999999999 {\nM 0\n}\nDETECTOR\n", "random D0\n0\n1\n", "the circuit has 999999999999999999"),
]

UNREADABLE = [
    ("M 0\n", "", "the answer is empty"),
    ("M 0\n", "refused 12 line 36\n", "begins with 'refused 12 line 36'"),
    ("M 0\n", "error(0.1) D0\ndetector D0\n", "begins with 'error(0.1) D0'"),
    ("M 0\n", "stabsim: failed\n", "begins with ''"),
    ("M 0\n", "\nrandom D0\n", "begins with ''"),
    ("M 0\n", "random D0\n0\n2\n", "aren't two lists of coins"),
    ("M 0\n", "random D0\n0\n1\n1\n", "aren't two lists of coins"),
    ("M 0\n", "random D" + "9" * 5000 + "\n0\n1\n", "begins with"),
    ("M 0\nDEPOLARIZE1(0.1) 0\nDETECTOR rec[-1]\n", "random D0\n0\n1\n", "line 2: 'DEPOLARIZE1' is no instruction"),
    ("M 0\n(0.1) 0\n", "random D0\n0\n1\n", "line 2: '' is no instruction"),
    ("M 0\n}\nDETECTOR\n", "random D0\n0\n1\n", "line 2: a brace that closes no block"),
    ("REPEAT 2 {\nM 0 }\n", "random D0\n0\n1\n", "line 2: a brace that closes no block"),
    ("REPEAT 2 {\nREPEAT 3 {\nM 0\n}\n", "random D0\n0\n1\n", "line 1: the block isn't closed"),
    ("REPEAT 2\nM 0\n", "random D0\n0\n1\n", "line 1: 'REPEAT' is no instruction"),
    ("H 2 {\nM 0\n}\n", "random D0\n0\n1\n", "line 1: a block begins with REPEAT"),
    ("REPEAT 1 {\n" * 33, "random D0\n0\n1\n", "line 33: a block begins with REPEAT"),
    ("REPEAT 0 {\nM 0\n}\n", "random D0\n0\n1\n", "line 1: a block is repeated at least once"),
    ("REPEAT 2 3 {\nM 0\n}\n", "random D0\n0\n1\n", "line 1: the number of turns 2 3 isn't a whole number"),
    ("REPEAT 1000000000000000000 {\n}\n", "random D0\n0\n1\n", "line 1: the number of turns"),
    ("DETECTOR(1.5)\n", "random D0\n0\n1\n", "line 1: the coordinate 1.5 isn't a whole number"),
    ("DETECTOR(1,,2)\n", "random D0\n0\n1\n", "line 1: the coordinate  isn't a whole number"),
    ("SHIFT_COORDS(1_0)\n", "random D0\n0\n1\n", "line 1: the coordinate 1_0 isn't a whole number"),
    ("OBSERVABLE_INCLUDE rec[-1]\n", "random L0\n0\n1\n", "line 1: the number of the observable"),
    ("M 0 } #\n\x1b[31m\xff\n", "random D0\n0\n1\n", "line 1"),
    ("\x1b[31m\xff\n", "random D0\n0\n1\n", "line 1: '\\x1b' is no instruction"),
]


def unrolled(text):
    """What a text reaches, a turn after the other: each collapse, as its line, target and turns, each detector, as its line,
    turns and coordinates, and the lines of each observable."""
    collapses, detectors, observables, offsets = [], [], {}, [0] * 16

    def walk(lines, turns):
        while lines:
            at, parts = lines.pop(0)
            kind = KINDS_OF_NAMES.get(parts.name.upper())
            if kind == "repeat":
                depth, end = 1, 0
                while depth:
                    depth += (KINDS_OF_NAMES.get(lines[end][1].name.upper()) == "repeat") - lines[end][1].closes()
                    end += 1
                body, lines = lines[:end - 1], lines[end:]
                count = int(parts.targets.rstrip(b"{"))
                for turn in range(count):
                    walk(list(body), [(turn + 1, count, at), *turns])
                continue
            has_numbers = kind in ("detector", "shift") and parts.arguments
            numbers = [int(part) for part in parts.arguments.split(b",")] if has_numbers else []
            if kind in ("measured", "reset", "products"):
                targets = re.sub(rb"\s*\*\s*", b"*", parts.targets).split()
                collapses.extend((at, place, target.decode(), turns) for place, target in enumerate(targets, 1))
            elif kind == "detector":
                detectors.append((at, turns, [number + offset for number, offset in zip(numbers, offsets)]))
            elif kind == "shift":
                offsets[:len(numbers)] = [number + offset for number, offset in zip(numbers, offsets)]
            elif kind == "observable":
                observables.setdefault(int(parts.arguments), {})[at] = [(count, block) for _, count, block in turns]

    numbered = [(at, parts_of(line)) for at, line in enumerate(text.encode().split(b"\n"), 1)]
    walk([(at, parts) for at, parts in numbered if parts], [])
    return collapses, detectors, observables


def turns_in(line):
    """The turns that a line of an explanation names: (turn, of how many, of the block of which line)."""
    return [tuple(map(int, found)) for found in re.findall(r"in turn (\d+) of (\d+) of the block of line (\d+)", line)]


class Explanations(unittest.TestCase):
    def ask(self, text, answer, *words):
        """What the script writes of these two, with its status, the answer on standard input."""
        with tempfile.TemporaryDirectory() as folder:
            path = Path(folder) / "code.stim"
            path.write_bytes(text.encode("latin-1"))
            return run([SCRIPT, path, *words], answer.encode("latin-1"))

    def test_rows_by_hand(self):
        for text, answer, told in ROWS:
            with self.subTest(answer=answer):
                done = self.ask(text, answer)
                self.assertEqual((done.stdout.decode(), done.stderr, done.returncode), (told, b"", 0))

    def test_what_does_not_belong_together(self):
        for text, answer, reason in APART:
            with self.subTest(text=text, answer=answer):
                done = self.ask(text, answer)
                self.assertEqual((done.stdout, done.returncode), (b"", 1))
                said = rf"^explain_random.py: .*{re.escape(reason)}.*: they don't belong together\n$"
                self.assertRegex(done.stderr.decode(), said)

    def test_what_can_not_be_read(self):
        for text, answer, reason in UNREADABLE:
            with self.subTest(text=text, answer=answer):
                with self.assertRaises(explain_random.Unreadable) as raised:
                    explain_random.explain(text, answer)
                self.assertIn(reason, str(raised.exception))
                self.assertTrue(str(raised.exception).isascii())

    def test_how_it_is_called(self):
        """Either of the two from standard input; what can't be read or written is told in a line, and is status 2."""
        text, answer, told = ROWS[0]
        with tempfile.TemporaryDirectory() as folder:
            for name, content in (("code.stim", text), ("answer.txt", answer), ("wrong.txt", "usage\n")):
                (Path(folder) / name).write_text(content)
            rows = [
                ("code.stim answer.txt", "", told, "", 0),
                ("code.stim", answer, told, "", 0),
                ("code.stim -", answer, told, "", 0),
                ("- answer.txt", text, told, "", 0),
                ("code.stim wrong.txt", "", "", "explain_random.py: the answer begins with 'usage': ", 2),
                ("none.stim answer.txt", "", "", "explain_random.py: none.stim can't be read: ", 2),
                (". answer.txt", "", "", "explain_random.py: . can't be read: ", 2),
                ("code.stim <&-", "", "", "explain_random.py: standard input can't be read: ", 2),
                ("code.stim answer.txt >&-", "", "", "explain_random.py: standard output can't be written\n", 2),
                ("code.stim answer.txt >/dev/full", "", "", "explain_random.py: standard output can't be written\n", 2),
                ("- -", "", "", "usage: ", 2), ("", "", "", "usage: ", 2),
            ]
            for words, given, output, said, status in rows:
                with self.subTest(words):
                    done = run(["env", "-C", folder, "sh", "-c", f"{SCRIPT} {words}"], given.encode())
                    self.assertEqual((done.stdout.decode(), done.returncode), (output, status))
                    self.assertTrue(done.stderr.decode().startswith(said) and bool(said) == bool(done.stderr), done.stderr)
                    self.assertNotIn(b"Traceback", done.stderr)

    def test_a_reader_that_is_gone(self):
        reading, writing = os.pipe()
        os.close(reading)
        with os.fdopen(writing, "wb") as nobody, tempfile.TemporaryDirectory() as folder:
            path = Path(folder) / "code.stim"
            path.write_text(ROWS[0][0])
            done = subprocess.run([SCRIPT, path], input=ROWS[0][1].encode(), stdout=nobody, stderr=subprocess.PIPE, timeout=60)
        self.assertEqual(done.stderr, b"")

    def test_long_lists_are_cut(self):
        text = "M 0\n" * 25 + "OBSERVABLE_INCLUDE(3) rec[-1]\n" * 22 + f"OBSERVABLE_INCLUDE(3){' rec[-1]' * 50}\n"
        told = explain_random.explain(text, f"random L3\n{'0' * 25}\n{'1' * 25}\n")
        self.assertEqual(told[1:4], ["Lines that add to it: 23", "Line 26:", "    OBSERVABLE_INCLUDE(3) rec[-1]"])
        self.assertEqual(told[42], "and 3 more")
        self.assertEqual(told[-21:], [*(f"    line {at}: 1" for at in range(1, 21)), "    and 5 more lines"])
        self.assertTrue(all(len(line) < 130 for line in told))

    def test_large_blocks_are_not_unrolled(self):
        """In each turn of the outer block 1 + 7 coins; 31 blocks of 10^18 - 1 turns, and a million zeros in front of a number."""
        text = "REPEAT 100000 {\nR 0\nREPEAT 7 {\nM 0\nDETECTOR(5) rec[-1]\nSHIFT_COORDS(1)\n}\n}\n"
        told = explain_random.explain(text, f"random D699998\n{'0' * 800000}\n{'0' * 799990}{'1' * 10}\n")
        self.assertEqual(turns_in(told[1]), [(6, 7, 3), (100000, 100000, 1)])
        self.assertEqual(told[3:5], ["Its coordinates: 700003", "Coins: 800000. Differing in the two lists: 10"])
        self.assertIn("coin 799990, the measurement of target 1 (0) of line 4", told[5])
        self.assertEqual(turns_in(told[5]), [(6, 7, 3), (99999, 100000, 1)])
        self.assertEqual(told[-2:], ["    line 2: 1", "    line 4: 9"])
        deep = "REPEAT 999999999999999999 {\n" * 31 + f"SHIFT_COORDS(2)\nDETECTOR({'0' * 1000000}1)\n" + "}\n" * 31 + "M 0\n"
        told = explain_random.explain(deep, "random D999999999999999998\n0\n1\n")
        most = 10**18 - 1
        self.assertEqual(turns_in(told[1])[:2], [(most, most, 31), (1, most, 30)])
        self.assertEqual(told[3], "Its coordinates: 1999999999999999999")

    def check(self, text, walked, target, source):
        """An explanation of a target by coins that are drawn, beside what the walk that unrolls found."""
        (kind, number), (collapses, detectors, observables) = target, walked
        first, second = ("".join(source.choice("0001") for _ in collapses) for _ in range(2))
        differing = [place for place, (a, b) in enumerate(zip(first, second)) if a != b]
        answer = f"random {kind}{number}\n{first}\n{second}\n"
        if not differing:
            with self.assertRaises(explain_random.Apart):
                explain_random.explain(text, answer)
            return 0
        told = explain_random.explain(text, answer)
        rest = told.index(f"Coins: {len(collapses)}. Differing in the two lists: {len(differing)}") + 1
        if kind == "D":
            at, turns, places = detectors[number]
            self.assertRegex(told[1], rf"^It is of line {at}[,:]")
            self.assertEqual(turns_in(told[1]), turns)
            self.assertEqual(told[3], f"Its coordinates: {', '.join(map(str, places))}" if places else "It has no coordinates.")
        else:
            self.assertEqual(told[1], f"Lines that add to it: {len(observables[number])}")
            found = {int(re.match(r"Line (\d+)", line)[1]): re.findall(r"each of (\d+) turns of the block of line (\d+)", line)
                     for line in told[2:rest - 1:2]}
            includes = observables[number].items()
            self.assertEqual(found, {at: [(str(turns), str(block)) for turns, block in around] for at, around in includes})
        at, target, name, turns = collapses[differing[0]]
        begin = f"The first is coin {differing[0]}, the {{}} of target {target} ({name}) of line {at}"
        kinds = "measurement", "reset", "measurement and reset"
        self.assertTrue(told[rest].startswith(tuple(begin.format(its) for its in kinds)), told[rest])
        self.assertEqual(turns_in(told[rest]), turns)
        lines = [collapses[place][0] for place in differing]
        counts = [f"    line {line}: {lines.count(line)}" for line in sorted(set(lines))]
        self.assertEqual(told[rest + 3:rest + 23], counts[:20])
        return 1

    def test_drawn_circuits(self):
        explained = 0
        for seed in range(1, 26):
            for kind in KINDS:
                text, source = draw_both(seed, kind)[0], random.Random(seed)
                walked = unrolled(text)
                targets = [("D", number) for number in range(len(walked[1]))] + [("L", number) for number in walked[2]]
                with self.subTest(text=text):
                    explained += sum(self.check(text, walked, target, source) for target in targets)
        self.assertGreater(explained, 300)

    def test_names_are_those_of_the_format(self):
        script = explain_random
        known = {*script.MEASURED, *script.RESET, *script.OTHERS, "DETECTOR", "OBSERVABLE_INCLUDE", "SHIFT_COORDS", "REPEAT"}
        self.assertEqual(known, {name.decode() for name, kind in KINDS_OF_NAMES.items() if kind != "left out"})
        for names, kinds in (script.MEASURED, ("measured", "products")), (script.RESET, ("reset",)):
            self.assertEqual(names, {name.decode() for name, kind in KINDS_OF_NAMES.items() if kind in kinds})

    def test_what_the_program_answers_is_explained(self):
        """Drawn circuits that have a random target."""
        program, explained = find_program(), 0
        for seed in range(1, 21):
            text = draw_both(seed, "open")[0]
            done = run([program, "analyze"], text.encode())
            if done.returncode == 3:
                told = explain_random.explain(text, done.stdout.decode())
                self.assertEqual(told[0].split(" ")[0], done.stdout.decode().split()[1])
                explained += 1
        self.assertGreater(explained, 5)


if __name__ == "__main__":
    unittest.main()
