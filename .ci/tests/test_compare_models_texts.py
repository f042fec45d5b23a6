"""How tools/compare_models.py reads models, by tools/error_model.py: each form of a line, blocks, what is merged, and refused."""
import io
import random
import re
import time
import unittest
from decimal import localcontext
from fractions import Fraction

from program import run_program
from programs import TOP, find_program, load

script = load(TOP / "tools" / "compare_models.py")

# Texts with the numbers of their detectors and observables, and the probability of each symptom, worked by hand.
FORMS = [
    ("", 0, 0, {}),
    ("\n \t\r\n# only a comment\n", 0, 0, {}),
    ("error(0.1) D0 D1 L0", 2, 1, {"D0 D1 L0": "0.1"}),
    ("error(0.1) L2 D3 L0 D0\n", 4, 3, {"D0 D3 L0 L2": "0.1"}),
    ("error(0.1) D10 D9 D100 L10 L9\n", 101, 11, {"D9 D10 D100 L9 L10": "0.1"}),
    ("ERROR(0.1) D0\nError(0.2) D1\nDETECTOR D4\nLogical_Observable L1\nSHIFT_detectors 5\neRROR(0.3) D0\n", 6, 2,
     {"D0": "0.1", "D1": "0.2", "D5": "0.3"}),
    ("  error\t( 0.1 )  D0\t\tD1   # D2 {\r\n", 2, 0, {"D0 D1": "0.1"}),
    ("error[a # b { } (0.3) ^](0.1)D0 D1#D2\nerror [](0.2)L0", 2, 1, {"D0 D1": "0.1", "L0": "0.2"}),
    (" error [t] (0.1)D0\nrepeat [t] () 2 { # turns\n } # end", 1, 0, {"D0": "0.1"}),
    ("error(1e-3) D0\nerror(1.5E-05) D1\nerror(.5) D2\nerror(1.) D3\nerror(+25e-2) D4\nerror(1e+0) D5\nerror(01) D6", 7, 0,
     {"D0": "0.001", "D1": "0.000015", "D2": "0.5", "D3": "1", "D4": "0.25", "D5": "1", "D6": "1"}),
    ("error(0.1000000000000000056) D0\nerror(1e-300) D1", 2, 0, {"D0": "0.1000000000000000056", "D1": "1e-300"}),
    ("error(0.1) D007 D0000000000000000000000000000012", 13, 0, {"D7 D12": "0.1"}),
    ("error(0.1) D999999999999999999", 10**18, 0, {"D999999999999999999": "0.1"}),
    # Separators change nothing, and what is named twice cancels, in one part or in two.
    ("error(0.1) D0 ^ D1 L0", 2, 1, {"D0 D1 L0": "0.1"}),
    ("error(0.1) ^ D0 ^ ^ L0 ^", 1, 1, {"D0 L0": "0.1"}),
    ("error(0.1) D0 D1 ^ D1 D2", 3, 0, {"D0 D2": "0.1"}),
    ("error(0.1) D0 L0 ^ D1 L0", 2, 1, {"D0 D1": "0.1"}),
    ("error(0.1) D3 D3 D3", 4, 0, {"D3": "0.1"}),
    # What flips nothing, or never happens, still names its targets.
    ("error(0.1) D3 D3 L2 L2", 4, 3, {}),
    ("error(0.1)\nerror(0.2) ^", 0, 0, {}),
    ("error(0) D5\nerror(0.0e5) L1", 6, 2, {}),
    ("error(0) D5\nerror(0.1) D5", 6, 0, {"D5": "0.1"}),
    ("detector D3 D7\nlogical_observable L1 L0\ndetector\nlogical_observable", 8, 2, {}),
    # p + q - 2pq.
    ("error(0.1) D0 D1\nerror(0.2) D1 D0", 2, 0, {"D0 D1": "0.26"}),
    ("error(0.1) D0\nerror(0.2) D1\nerror(0.3) D0 D2 D2\nerror(0.4) D0", 3, 0, {"D0": "0.468", "D1": "0.2"}),
    ("error(0.1) D0\nerror(0.2) D0 L0", 1, 1, {"D0": "0.1", "D0 L0": "0.2"}),
    ("error(0.7) D0\nerror(0.8) D0", 1, 0, {"D0": "0.38"}),
    ("error(0.9) D0\nerror(0.9) D0\nerror(0.9) D0", 1, 0, {"D0": "0.756"}),
    ("error(1) D0\nerror(0.3) D0", 1, 0, {"D0": "0.7"}),
    ("error(1) D0\nerror(1) D0", 1, 0, {}),
    ("error(0.5) D0\nerror(0.123) D0", 1, 0, {"D0": "0.5"}),
    ("error(0.999999999999999999) D0\nerror(1) D0", 1, 0, {"D0": "1e-18"}),
    ("error(1e-38) D0\nerror(1e-38) D0", 1, 0, {"D0": "1.99999999999999999999999999999999999998e-38"}),
    # A shift moves what comes behind it, in the blocks that follow too; each turn goes on where the one before ended.
    ("error(0.1) D1\nshift_detectors 10\nerror(0.2) D1 L1\nshift_detectors(1) 0\nerror(0.3) D2", 13, 2,
     {"D1": "0.1", "D11 L1": "0.2", "D12": "0.3"}),
    ("shift_detectors 9", 0, 0, {}),
    ("repeat 3 {\nerror(0.1) D0 D1\nshift_detectors 1\n}\nerror(0.2) D0", 4, 0,
     {"D0 D1": "0.1", "D1 D2": "0.1", "D2 D3": "0.1", "D3": "0.2"}),
    ("repeat 2 {\nrepeat 2 {\nerror(0.1) D0\nshift_detectors 1\n}\nshift_detectors 2\n}\ndetector D0", 9, 0,
     {"D0": "0.1", "D1": "0.1", "D4": "0.1", "D5": "0.1"}),
    ("REPEAT 003 {\nerror(0.1) D0\n}\n", 1, 0, {"D0": "0.244"}),
    ("repeat 1 {\n" * 32 + "error(0.1) D0\n" + "}\n" * 32, 1, 0, {"D0": "0.1"}),
]

# Texts that can't be read, each with the line and a part of the reason.
BROKEN = [
    ("foo", 1, "'foo' isn't the name of a line"),
    ("error(0.1) D0\nM 0", 2, "'M' isn't the name"),
    ("(0.1) D0", 1, "'' isn't the name"),
    ("[x] D0", 1, "'' isn't the name"),
    ("D0", 1, "'D0' isn't the name"),
    ("refused 12 line 36", 1, "no model"),
    ("random D3\n0\n1", 1, "no model"),
    ("\xef\xbb\xbferror(0.1) D0", 1, "'???error' isn't the name"),
    ("error(0.1) D0\n\n# x\nerror D0", 4, "error takes 1 arguments, not 0"),
    ("error() D0", 1, "not 0"),
    ("error(0.1, 0.2) D0", 1, "not 2"),
    ("error(,) D0", 1, "not 2"),
    ("logical_observable(1) L0", 1, "takes 0 arguments"),
    ("detector(1,,2) D0", 1, "'' is no number"),
    ("detector(x) D0", 1, "'x' is no number"),
    ("error(nan) D0", 1, "'nan' is no number"),
    ("error(inf) D0", 1, "'inf' is no number"),
    ("error(0.1e) D0", 1, "'0.1e' is no number"),
    ("error(.) D0", 1, "'.' is no number"),
    ("error(0_1) D0", 1, "'0_1' is no number"),
    ("error(1e-999999999) D0", 1, "is no number"),
    ("error(1.1) D0", 1, "'1.1' is no probability"),
    ("error(-0.1) D0", 1, "'-0.1' is no probability"),
    ("error(1e30) D0", 1, "'1e30' is no probability"),
    ("error(0.1 D0", 1, "takes 1 arguments, not 0"),
    ("error(0.1 # ) D0", 1, "takes 1 arguments, not 0"),
    ("error[x D0", 1, "takes 1 arguments, not 0"),
    ("detector[a][b] D0", 1, "'[b]' is no target"),
    ("error(0.1)[a] D0", 1, "'[a]' is no target"),
    ("error(0.1) X0", 1, "'X0' is no target"),
    ("error(0.1) d0", 1, "'d0' is no target"),
    ("error(0.1) D", 1, "'D' is no target"),
    ("error(0.1) D-1", 1, "'D-1' is no target"),
    ("error(0.1) D0^D1", 1, "'D0^D1' is no target"),
    ("error(0.1) D0\xa0D1", 1, "'D0?D1' is no target"),
    ("error(0.1) D0\x0bD1", 1, "'D0?D1' is no target"),
    ("error(0.1) D0\x1cD1", 1, "'D0?D1' is no target"),
    ("error(0.1) D\xb2", 1, "'D?' is no target"),
    ("error(0.1) D1000000000000000000", 1, "no target of at most 18 digits"),
    ("error(0.1) D" + "7" * 100, 1, "'D" + "7" * 39 + "...' is no target"),
    ("detector D0 L0", 1, "detector takes no observables"),
    ("detector ^ D0", 1, "'^' is no target"),
    ("logical_observable D0", 1, "takes no detectors"),
    ("logical_observable L0 D0", 1, "takes no detectors"),
    ("shift_detectors", 1, "takes 1 number, not 0"),
    ("shift_detectors 1 2", 1, "takes 1 number, not 2"),
    ("shift_detectors D1", 1, "'D1' is no number"),
    ("shift_detectors -1", 1, "'-1' is no number"),
    ("shift_detectors 1000000000000000000", 1, "is no number of at most 18 digits"),
    ("repeat 2", 1, "a block begins with"),
    ("repeat(1) 2 {\n}", 1, "a block begins with"),
    ("repeat 2 { error(0.1) D0", 1, "a block begins with"),
    ("error(0.1) D0 {", 1, "a block begins with"),
    ("error(0.1) D0 }", 1, "a block begins with"),
    ("foo {", 1, "a block begins with"),
    ("{", 1, "a block begins with"),
    ("repeat 2 {\n} }", 2, "a block begins with"),
    ("repeat 2 {\n[x] }", 2, "a block begins with"),
    ("repeat {\n}", 1, "'' is no number"),
    ("repeat 2 3 {\n}", 1, "'2 3' is no number"),
    ("repeat 2.5 {\n}", 1, "'2.5' is no number"),
    ("repeat 1000000000000000000 {\n}", 1, "is no number of at most 18 digits"),
    ("repeat 0 {\n}", 1, "at least once"),
    ("error(0.1) D0\n}", 2, "no block is open"),
    ("repeat 2 {\nrepeat 3 {\n}\n\n", 1, "isn't closed"),
    ("repeat 2 {\nrepeat 3 {\n", 2, "isn't closed"),
    ("repeat 1 {\n" * 33 + "}\n" * 33, 33, "more than 32 blocks"),
    # A turn counts 1, and an error of one target 3.
    ("\nrepeat 5000001 {\n error(0.1) D0\n}", 2, "more than 20,000,000"),
    ("repeat 999999999999999999 {\n" * 10 + "}\n" * 10, 10, "more than 20,000,000"),
    ("repeat 999999999999999999 {\n}", 1, "more than 20,000,000"),
    ("repeat 9999 {\n}\nrepeat 10000 {\nrepeat 1999 {\n}\n}", 3, "more than 20,000,000"),
    ("repeat 2 {\nrepeat 10000 {\n" + "detector(1, 2, 3) D0\n" * 200 + "}\n}", 1, "more than 20,000,000"),
]

LINES = ["error(0.1) D0 ^ D1 L0", "error[t](1e-3) D2", "detector(1, -2) D0 D3", "shift_detectors(0, 1) 2", "repeat 2 {", "}",
         "logical_observable L1", "ERROR( .25 ) L0 L0 # end", ""]


def read(text, keep_coordinates=False):
    """The model of a text, and the exact probability of each symptom by its targets' names."""
    with localcontext(script.CONTEXT):
        model = script.read_merged(io.BytesIO(text.encode("latin-1")), keep_coordinates)
    return model, {script.name_targets(symptom): Fraction(chance) for symptom, chance in model.symptoms.items()}


def refusal(text, keep_coordinates=False):
    """The line that isn't read, and why; or None."""
    try:
        read(text, keep_coordinates)
    except script.ModelError as refused:
        at, reason = re.fullmatch(r"line (\d+): (.*)", str(refused)).groups()
        return int(at), reason
    return None


def merge_exactly(chances):
    """The probability that an odd number of these errors happen: 1 less twice it is the product of 1 less twice each."""
    product = power = 1
    for chance in map(Fraction, chances):
        product *= chance.denominator - 2 * chance.numerator
        power *= chance.denominator
    return Fraction(power - product, 2 * power)


def draw_slip(source):
    """A few lines with up to two bytes changed, added or taken away."""
    text = list("\n".join(source.choices(LINES, k=source.randrange(1, 5))))
    for _ in range(source.randrange(3)):
        at = source.randrange(len(text) + 1)
        text[at:at + source.randrange(2)] = source.choice(["", *"0123456789 .,()[]{}!*#-+eErcXYZDL^\t\r\n_\xe9"])
    return "".join(text)


class Forms(unittest.TestCase):
    def test_each_form_is_read_as_worked_by_hand(self):
        for text, detectors, observables, symptoms in FORMS:
            with self.subTest(text=text[:80]):
                model, found = read(text)
                self.assertEqual((model.detectors, model.observables), (detectors, observables))
                self.assertEqual(found, {names: Fraction(chance) for names, chance in symptoms.items()})

    def test_the_least_exponents_are_kept(self):
        text = "error(1e-99999999) D0\nerror(9e-0000000099999999) D1\nerror(9e-99999999) D1"
        with localcontext(script.CONTEXT):
            first, second = script.read_merged(io.BytesIO(text.encode()), False).symptoms.values()
            self.assertEqual(str(first), "1E-99999999")
            self.assertAlmostEqual(second / first, 18)

    def test_coordinates(self):
        text = ("detector(1, 2.5) D0 D2\nshift_detectors(0, 1e-1) 1\ndetector D3\ndetector(-1, 2.5, 3) D0\n"
                "repeat 2 {\ndetector(0.5) D5\nshift_detectors(0.25, 0, 7) 1\n}\ndetector(1e1, 0, 0, +4.) D9\ndetector D0\n"
                "detector(8) D4\ndetector() D4")
        places = {detector: tuple(map(Fraction, place)) for detector, place in read(text, True)[0].coordinates.items()}
        self.assertEqual(places, {
            0: (1, Fraction("2.5")), 2: (1, Fraction("2.5")), 1: (-1, Fraction("2.6"), 3), 6: (Fraction("0.5"),),
            7: (Fraction("8.5"),), 12: (Fraction("10.5"), Fraction("0.1"), 14, 4)})

    def test_merging_is_exact_for_as_many_lines_as_the_script_says(self):
        source = random.Random(5)
        for count, places, digits in ((26, 38, 18), (26, 38, 38), (300, 3, 3), (55, 18, 18)):
            chances = [f"{source.randrange(1, 10**digits)}e-{places}" for _ in range(count)]
            found = read("".join(f"error({chance}) D0\n" for chance in chances))[1]
            self.assertEqual(found, {"D0": merge_exactly(chances)}, (count, places))

    def test_merging_thousands_of_lines_keeps_nearly_all_digits(self):
        """Also where few errors are left of many, as in the second row, whose probabilities are all near 1."""
        rows = [["0.001"] * 1000, ["0.999999999999999999"] * 200, ["1e-30", "0.5"] + ["0.123456789012345678"] * 99,
                ["0.999"] * 999]
        for chances in rows:
            found = read("".join(f"error({chance}) D0\n" for chance in chances))[1]["D0"]
            exact = merge_exactly(chances)
            self.assertLess(abs(found - exact), exact / 10**990)

    def test_a_block_is_as_its_copies_written_out(self):
        source = random.Random(9)
        for _ in range(60):
            with_blocks, flat = draw_blocks(source, 0, [0, [Fraction(0)] * 2])
            first, second = read("\n".join(with_blocks), True), read("\n".join(flat), True)
            self.assertEqual(first[1], second[1], with_blocks)
            self.assertEqual(first[0][:3] + first[0][4:], second[0][:3] + second[0][4:], with_blocks)


def draw_blocks(source, depth, at):
    """Lines with blocks, and the same without blocks and shifts. `at` is the shift, and the coordinates' offset, of the place."""
    lines, flat = [], []
    for _ in range(source.randrange(1, 5)):
        kind = source.choice(["error", "error", "detector", "shift_detectors", "repeat"])
        numbers, chance = [source.randrange(4) for _ in range(source.randrange(4))], source.randrange(1, 10)
        place = [Fraction(source.randrange(-20, 20), 4) for _ in range(source.randrange(1, 3))]
        if kind == "error":
            lines.append(f"error(0.{chance}) L{chance} " + " ".join(f"D{number}" for number in numbers))
            flat.append(f"error(0.{chance}) L{chance} " + " ".join(f"D{number + at[0]}" for number in numbers))
        elif kind == "detector":
            lines.append(f"detector({joined(place)}) D{chance}")
            flat.append(f"detector({joined(map(sum, zip(place, at[1])))}) D{chance + at[0]}")
        elif kind == "shift_detectors":
            lines.append(f"shift_detectors({joined(place)}) {chance}")
            at[0] += chance
            at[1] = [old + new for old, new in zip(at[1], place + [0])]
        elif depth < 3:
            turns = source.randrange(1, 4)
            state = source.getstate()
            for _ in range(turns):
                source.setstate(state)
                body, copy = draw_blocks(source, depth + 1, at)
                flat += copy
            lines += [f"repeat {turns} {{", *body, "}"]
    return lines, flat


def joined(place):
    return ", ".join(str(float(number)) for number in place)


class Broken(unittest.TestCase):
    def test_each_is_refused_with_its_line_and_reason(self):
        for text, line, reason in BROKEN:
            with self.subTest(text=text[:80]):
                at, said = refusal(text) or (None, "")
                self.assertEqual(at, line)
                self.assertIn(reason, said)

    def test_the_limits_themselves_are_read(self):
        """20,000 turns, each of which counts 1,000: 1, 1 for its line and 998 for coordinates."""
        text = "repeat 20000 {\ndetector(" + ",1" * 997
        self.assertIsNone(refusal(text.replace("(,", "(1,") + ")\n}"))
        self.assertEqual(refusal(text.replace("(,", "(1,1,") + ")\n}")[0], 1)

    def test_bytes_of_every_kind_and_long_texts_are_read_or_refused_soon(self):
        long = 50_000
        rows = [(bytes(range(256)), True), (b"\x00" * 99, True),
                (b"# \xff\xfe\x00 {\n", False), (b"error[\xe9\x00](1) D0", False),
                (b"error(0.1) D0" + b" " * long + b"{ x", True), (b"error" + b" " * long + b"(0.1) D0 x", True),
                (b"error(0." + b"1" * long + b") D0", False), (b"error(" + b"1" * long + b"x) D0", True),
                (b"error(0.1) D" + b"0" * long + b"x", True), (b"error(0.1)" + b" D7" * long, False),
                (b"detector(" + b"1," * long + b"1) D0\n" + b"detector(1) D0\n" * 9999, False), (b"error" + b"[" * long, True),
                (b"shift_detectors(" + b"1," * long + b"1) 1\n" + b"detector(1) D0\n" * 9999, False)]
        for data, refused in rows:
            began = time.process_time()
            self.assertEqual(refusal(data.decode("latin-1"), keep_coordinates=True) is not None, refused, data[:50])
            self.assertLess(time.process_time() - began, 1, data[:50])

    def test_slips_are_read_or_refused_as_by_the_program(self):
        """It reads what the program reads, and names as many targets. What the program refuses it refuses, but for decimals
        (41) and numbers (44), of which it takes more."""
        find_program()
        source, answers = random.Random(11), {"read": 0, "refused": 0}
        for _ in range(300):
            text = draw_slip(source)
            written, status = run_program(["predict"], text.encode("latin-1"))
            if status == 0:
                model, _ = read(text)
                self.assertEqual(model.detectors + model.observables, len(written) - 1, text)
                answers["read"] += 1
            elif written.split()[1] not in (b"41", b"44"):
                self.assertEqual((refusal(text) or ["read"])[0], int(written.split()[3]), (text, written))
                answers["refused"] += 1
        self.assertGreater(min(answers.values()), 50, answers)


if __name__ == "__main__":
    unittest.main()
