"""How tools/from_stim.py treats texts: numbers, what it keeps, and which lines it refuses."""
import random
import time
import unittest

from programs import FROM_STIM, TOP, convert, find_program, refusals, run, without_comments
from stim_gates import TWO_GATES

# Stim's texts, or slips, that are refused: text, line, and a part of the reason.
REFUSED = [
    ("ELSE_CORRELATED_ERROR(0.1) X0", 1, "right behind CORRELATED_ERROR"),
    ("E(0.1) X0\nTICK\nELSE_CORRELATED_ERROR(0.1) X0", 3, "right behind CORRELATED_ERROR"),
    ("REPEAT 2 {\nE(0.1) X0\n}\nELSE_CORRELATED_ERROR(0.1) X0", 4, "right behind CORRELATED_ERROR"),
    ("E(0.1) X0\nELSE_CORRELATED_ERROR(0.1) Z0", 2, "exclude one another"),
    ("E(0.1) X0\nELSE_CORRELATED_ERROR(0.1) X1\nELSE_CORRELATED_ERROR(0.1) X2", 2, "exclude one another"),
    ("E(0.1) X0\nELSE_CORRELATED_ERROR(2) X0", 2, "no probability"),
    ("E(0.1) X0\nELSE_CORRELATED_ERROR(0.1) 0", 2, "no target"),
    ("HERALDED_ERASE(0.01) 0", 1, "herald"),
    ("M 0\nheralded_pauli_channel_1(0.01, 0.02, 0.03, 0.04) 0", 2, "herald"),
    ("HERALDED_PAULI_CHANNEL_1(0.5, 0.4, 0.2, 0) 0", 1, "more than 1"),
    ("CX sweep[0] 1", 1, "sweep bits"),
    ("CZ 0 sweep[3]", 1, "sweep bits"),
    ("XCZ 0 sweep[3]", 1, "sweep bits"),
    ("OBSERVABLE_INCLUDE(0) X1", 1, "sums of records"),
    ("OBSERVABLE_INCLUDE(0) rec[-1] Z1", 1, "sums of records"),
    ("OBSERVABLE_INCLUDE(0) 1", 1, "no target"),
    ("OBSERVABLE_INCLUDE(1024)", 1, "beyond 1023"), ("OBSERVABLE_INCLUDE(-1)", 1, "below 0"),
    ("OBSERVABLE_INCLUDE(0.5)", 1, "no whole number"),
    ("OBSERVABLE_INCLUDE", 1, "takes 1 arguments, not 0"),
    ("H 0\nMPP X0*Y0", 2, "anti-Hermitian"),
    ("SPP X0*Y0*Z1", 1, "anti-Hermitian"),
    ("R !0", 1, "no target that R takes"),
    ("M 0\nCX 1 rec[-1]", 2, "no gate changes it"),
    ("M 0\nXCZ rec[-1] 1", 2, "no gate changes it"),
    ("XCX rec[-1] 1", 1, "no target"),
    ("DETECTOR(x) rec[-1]", 1, "no number"),
    ("DETECTOR(0.5, x) rec[-1]", 1, "no number"),
    ("SHIFT_COORDS(0,,1)", 1, "no number"),
    ("QUBIT_COORDS(x) 1", 1, "no number"),
    ("H 4096", 1, "qubit 4096: the greatest qubit is 4095; --renumber"),
    ("MXX 0 9999", 1, "qubit 9999: the greatest qubit is 4095"),
    ("QUBIT_COORDS(1) 4096", 1, "qubit 4096: the greatest qubit is 4095"),
    (f"H {' '.join(map(str, range(4096)))}\nMPAD 0", 2, "none is free"),
    ("H 0.5", 1, "no target"),
    ("H 0,1", 1, "no target"),
    ("MPAD 2", 1, "no target"),
    ("M X0", 1, "no target"),
    ("TICK 0", 1, "no target"),
    ("DETECTOR rec[-0]", 1, "no target"),
    ("CX 0 1 2", 1, "doesn't take 3 targets"),
    ("MXX 0 0", 1, "names a qubit twice"),
    ("DEPOLARIZE2(0.1) 1 01", 1, "names a qubit twice"),
    ("X_ERROR(1.1) 0", 1, "no probability"),
    ("X_ERROR(-0.1) 0", 1, "no probability"),
    ("X_ERROR(x) 0", 1, "no number"),
    ("X_ERROR(nan) 0", 1, "no number"),
    ("X_ERROR(1e9999999999999999999) 0", 1, "no number"),
    ("DEPOLARIZE1(0.1) 0\x0b1", 1, "no target"),
    ("DEPOLARIZE1(0.1) 0\xa01", 1, "no target"),
    ("X_ERROR(0.1,) 0", 1, "takes 1 arguments, not 2"),
    ("X_ERROR 0", 1, "takes 1 arguments, not 0"),
    ("M(0.1, 0.1) 0", 1, "takes 0 to 1 arguments, not 2"),
    ("H(0.1) 0", 1, "takes 0 arguments, not 1"),
    ("PAULI_CHANNEL_1(0.1) 0", 1, "takes 3 arguments, not 1"),
    ("FOO 0", 1, "'FOO' isn't the name"),
    ("(0.1) 0", 1, "isn't the name"),
    ("H[tag 0", 1, "no target"),
    ("H 0 }", 1, "closing brace"),
    ("REPEAT 2 {\nH 0\n} H 1", 3, "behind a brace"),
    ("REPEAT 2 { H 0\n}", 1, "behind a brace"),
    ("REPEAT 2", 1, "a block begins"),
    ("H 0 {", 1, "a block begins"),
    ("REPEAT 0 {\n}", 1, "1 to 999999999999999999 times"),
    ("REPEAT 1000000000000000000 {\n}", 1, "1 to 999999999999999999 times"),
    ("}", 1, "no block is open"),
    ("REPEAT 2 {\nREPEAT 3 {\n}", 1, "isn't closed"),
    ("REPEAT 1 {\n" * 33 + "}\n" * 33, 33, "more than 32 blocks"),
]
MODELS_REFUSED = [
    ("error(2) D0", 1, "no probability"),
    ("error(0.1) D0\nerror(0.1) X0", 2, "no target"),
    ("shift_detectors 1 2", 1, "doesn't take 2 targets"),
    ("shift_detectors", 1, "doesn't take 0 targets"),
    ("M 0", 1, "'M' isn't the name"),
    ("repeat 3 {\nerror(0.1) D0", 1, "isn't closed"),
    ("detector(x) D0", 1, "no number"),
]

# Lines that stabsim reads, of which texts with slips are made.
LINES = """H 0 1|S_DAG[a #] 2|CX 0 1 rec[-1] 2|CZ 0 rec[-1]|XCZ 0 1|ISWAP_DAG 0 1 2 3|M(1e-3) !0 1|MRY 2|RX 1|MPP(0.1) X0*!Y1 Z2|
    E(0.1) X0 Y1 X0|X_ERROR(.25) 0 3|DETECTOR(1,-2) rec[-1]|OBSERVABLE_INCLUDE(3) rec[-1]|SHIFT_COORDS(1, 2)|TICK|
    QUBIT_COORDS(1.5e0,-2) 3|REPEAT 3 {|}|# comment|""".replace("\n    ", "").split("|")
MODEL_LINES = ["error(0.1) D0 ^ D1 L0", "error[t](1e-3) D2", "detector(1, -2) D0", "shift_detectors(0, 1) 2", "repeat 2 {", "}",
               "logical_observable L1"]


def draw_slip(source, lines):
    """A few of the lines with up to two bytes changed, added or taken away."""
    text = list("\n".join(source.choices(lines, k=source.randrange(1, 5))))
    for _ in range(source.randrange(3)):
        at = source.randrange(len(text) + 1)
        text[at:at + source.randrange(2)] = source.choice(["", *"0123456789 .,()[]{}!*#-+eErcXYZDL^\t\r\n_"])
    return "".join(text)


class Numbers(unittest.TestCase):
    def test_probabilities_are_cut_down_to_what_is_accepted(self):
        rows = {
            "0.1": "0.1", "1e-3": "1e-3", ".5": ".5", "1.": "1.", "10e-1": "10e-1", "0e999": "0e999", "1": "1", "0": "0",
            "0.123456789012345678": "0.123456789012345678",
            "0.1234567890123456789": "0.123456789012345678",
            "0.1000000000000000056": "0.100000000000000005",
            "0.0001234567890123456789": "0.000123456789012345678",
            "0.99999999999999999999": "0.999999999999999999",
            "0.10000000000000000000000": "0.10000000000000000000000",
            "1e-38": "1e-38", "1e-39": "0", "19e-39": "0." + "0" * 37 + "1", "1e-0002": "0.01", "1e-99999999999": "0",
            "+0.5": "0.5", "-0": "0",
        }
        for before, after in rows.items():
            self.assertEqual(convert(f"X_ERROR({before}) 0"), f"X_ERROR({after}) 0")
            self.assertEqual(convert(f"error({before}) D0", is_model=True), f"error({after}) D0")

    def test_long_numbers_are_read_or_refused_soon(self):
        """A number that isn't one at its end; and a probability and a coordinate that stabsim doesn't read as they are."""
        digits = "0" * 10_000
        rows = [(f"X_ERROR({digits}x) 0", None), (f"X_ERROR({digits}e0000) 0", "X_ERROR(0) 0"),
                (f"QUBIT_COORDS({digits}e0000) 0", "QUBIT_COORDS(0) 0")]
        for text, expected in rows:
            began = time.process_time()
            if expected is None:
                self.assertIn("no number", refusals(text)[0][1])
            else:
                self.assertEqual(convert(text), expected)
            self.assertLess(time.process_time() - began, 1, text[:20])

    def test_the_rest_of_a_line_with_a_shorter_number_stays(self):
        self.assertEqual(convert("\tm[a #]( 0.12345678901234567899 )  !0  1 # flip"),
                         "\tm[a #](0.123456789012345678)  !0  1 # flip")


class Kept(unittest.TestCase):
    def test_circuits_and_models_of_this_profile_come_out_unchanged(self):
        circuits = sorted((TOP / "examples").glob("*.stim"))
        self.assertGreater(len(circuits), 4)
        for path in circuits:
            self.assertEqual(run([FROM_STIM], path.read_bytes()).stdout, path.read_bytes(), path)
        model = (TOP / "examples" / "repetition_code.dem").read_bytes()
        self.assertEqual(run([FROM_STIM, "--dem"], model).stdout, model)

    def test_texts_of_every_form_stay(self):
        for text in ("", "\n", "H 0", "H 0\n\n", "  \t\r\n# only a comment\r\n", "REPEAT[t] 005 { # turns\n  }  # end\n",
                     "h[a # b] 0 1 # c {}", "H " + "0" * 9999 + "5",
                     "mpp X0 * X1\t!z2*y3", "CX rec[-1] 1 0 2", "CZ 0 rec[-1]", "M() 0", "TICK[]"):
            self.assertEqual(convert(text), text)
        for text in ("error[t](0.1) D0 ^ D1 L0 # c", "repeat 3 {\n error(0.1) D0\n shift_detectors 1\n}",
                     "logical_observable L1"):
            self.assertEqual(convert(text, is_model=True), text)

    def test_bytes_of_comments_and_tags_stay(self):
        data = b"# \xc3\xa9\xff\nH[\xe2\x82\xac#{] 0\nDEPOLARIZE1[\xff](0.75) 0 # \xfe"
        done = run([FROM_STIM], data)
        self.assertEqual(done.stdout, b"# \xc3\xa9\xff\nH[\xe2\x82\xac#{] 0\n# DEPOLARIZE1[\xff](0.75) 0 # \xfe\n"
                         b"X_ERROR[\xff](0.5) 0\nY_ERROR[\xff](0.5) 0\nZ_ERROR[\xff](0.5) 0")

    def test_what_is_replaced_stays_as_a_comment_in_its_place(self):
        text = "REPEAT 2 {\n    MXX[t](0.1) 0 !1  # both\n}\nCXSWAP 1 2\n"
        self.assertEqual(convert(text), "REPEAT 2 {\n    # MXX[t](0.1) 0 !1  # both\n    MPP[t](0.1) X0*!X1\n}\n"
                         "# CXSWAP 1 2\nCX 1 2\nSWAP 1 2\n")

    def test_a_converted_text_is_converted_no_further(self):
        text = "DEPOLARIZE2(0.01) 0 1\nSPP X0*Y1*Z2\nMPAD 1 0\nPAULI_CHANNEL_1(0.01, 0.01, 0.01) 3\nMPP X0*X0\nM 0\nXCZ 1 rec[-1]"
        self.assertEqual(convert(convert(text)), convert(text))

    def test_records_of_known_bits_are_of_a_qubit_that_no_line_names(self):
        text = "H 7\nE(0.1) X11\nMPAD 0 1\nMPP Z12*Z3 X3*X3\nM 0\nDETECTOR rec[-2]\nQUBIT_COORDS(99) 2"
        self.assertEqual(without_comments(convert(text))[2:4], ["M 13 !13", "MPP Z12*Z3 Z13"])
        self.assertEqual(without_comments(convert("H 4095 0\nQUBIT_COORDS(1) 1\nMPAD 1"))[2], "M !2")


class Refused(unittest.TestCase):
    def test_long_lines_are_refused_soon(self):
        blanks, letters = " " * 10_000, "H" * 10_000
        for text in (f"H{blanks}{{ x", f"{blanks}H 0 }} x", f"{letters} 0 }} x", f"M 0{blanks}}} x", f"H[a]{blanks}(0.1) }} x"):
            began = time.process_time()
            self.assertIn("no line", refusals(text)[0][1])
            self.assertLess(time.process_time() - began, 1, text.strip()[:20])

    def test_each_is_named_with_its_line_and_reason(self):
        for rows, is_model in ((REFUSED, False), (MODELS_REFUSED, True)):
            for text, line, reason in rows:
                found = refusals(text, is_model)
                self.assertEqual(found[0][0], line, (text, found))
                self.assertIn(reason, found[0][1], text)

    def test_the_error_of_a_herald_is_no_product_of_independent_faults(self):
        """Half of an erasure: on a herald's qubit X, and on the other I, X, Y or Z with a quarter each."""
        letters = ["0.01" if word[0] == "X" else "0" for word in
                   (a + b for a in "IXYZ" for b in "IXYZ" if a + b != "II")]
        ((_, reason),) = refusals(f"PAULI_CHANNEL_2({', '.join(letters)}) 0 1")
        self.assertIn("IX would need a negative probability", reason)


class Program(unittest.TestCase):
    def test_what_is_converted_is_accepted(self):
        """Each name that is replaced, each form of a number, and a helper qubit, in one circuit that the program runs."""
        program = find_program()
        lines = ["DEPOLARIZE1(0.1000000000000000056) 0", "DEPOLARIZE2(0.01) 0 1", "PAULI_CHANNEL_1(1e-20, 1e-20, 0.9e-20) 0",
                 f"PAULI_CHANNEL_2({', '.join(['0.0101'] * 15)}) 0 1", "I_ERROR(0.1) 0", "II 0 1", "II_ERROR(0.1) 0 1",
                 "R 0 1 2 3",
                 "SPP X0*Y1*!Z2 X1", "SPP_DAG Z3", "CXSWAP 0 1 1 2", "SWAPCX 0 1", "CZSWAP 0 1", "SWAPCZ 0 1",
                 *(f"{name} 0 0 1" for name in TWO_GATES if name[0] in "HC" and "SWAP" not in name),
                 "MXX(0.1) 0 !1", "MYY 0 1", "MZZ 0 1", "MPAD(0.01) 0 1", "MPP X0*X0*Z1 X2*X2", "XCZ 0 rec[-1]", "YCZ 1 rec[-2]",
                 "CZ rec[-1] rec[-2]", "E(+0.1) !X0", "DETECTOR(2.0, 1e1) rec[-1]", "OBSERVABLE_INCLUDE(1.0) rec[-1]",
                 "M(0.00000000000000000000000000000000000000001) 0"]
        converted = convert("\n".join(lines))
        done = run([program, "run"], converted.encode())
        self.assertEqual(done.returncode, 0, done.stdout)
        records, targets = done.stdout.decode().splitlines()
        self.assertEqual((len(records), len(targets)), (8, 3))
        self.assertEqual(records[3:5] + records[6], "010")
        refused = run([program, "run"], "\n".join(lines).encode())
        self.assertEqual((refused.returncode, refused.stdout), (2, b"refused 12 line 1\n"))

    def test_a_model_is_accepted_once_it_is_converted(self):
        program = find_program()
        text = ("error(0.1000000000000000056) D0 ^ D1 L0\ndetector(0.5, 1) D0\n"
                "repeat 2 {\n  error(0.01) D1\n  shift_detectors(0.5) 1\n}\n")
        self.assertEqual(run([program, "predict"], text.encode()).stdout, b"refused 41 line 1\n")
        for choices in ({}, {"scale": 2}, {"coordinates": "drop"}):
            done = run([program, "predict", "--lines", "0,2"], convert(text, True, **choices).encode())
            self.assertEqual((done.returncode, done.stdout), (0, b"1111\n"))

    def test_texts_with_slips_are_judged_as_by_the_program(self):
        """What the program reads stays as it is; what the script converts is read; what neither takes is refused by both."""
        program, source = find_program(), random.Random(4)
        for order, lines, is_model in (("faults", LINES, False), ("predict", MODEL_LINES, True)):
            counts = {True: 0, False: 0}
            for _ in range(250):
                text = ("" if is_model else "M 0 1 2 3\n") + draw_slip(source, lines)
                is_read = self.is_read(program, order, text)
                if is_read:
                    self.assertEqual(convert(text, is_model), text)
                elif not refusals(text, is_model):
                    self.assertTrue(self.is_read(program, order, convert(text, is_model)), text)
                counts[is_read] += 1
            self.assertGreater(min(counts.values()), 30)

    def is_read(self, program, order, text):
        """Whether each line is read: refusals of a whole text are left out."""
        done = run([program, order], text.encode())
        number = done.stdout.split()[1] if done.returncode == 2 else b""
        return number in (b"", b"22", b"23", b"24", b"25", b"47")


if __name__ == "__main__":
    unittest.main()
