"""The texts of circuits by which docs/FORMATS.md shows what is taken and what is refused.

A row has a text and what is written for it. All by hand.
"""
from program import ProgramTest

# Refusals of a line, in the order in which they are asked.
OF_A_LINE = [
    ("M é", "refused 10 line 1\n"),
    ("M 0 {", "refused 18 line 1\n"),
    ("REPEAT 2", "refused 18 line 1\n"),
    ("REPEAT 2 {\nH 0 }\n}", "refused 18 line 2\n"),
    ("}", "refused 18 line 1\n"),
    ("FOO 0", "refused 11 line 1\n"),
    ("(0.1) 0", "refused 11 line 1\n"),
    ("DEPOLARIZE1(0.1) 0", "refused 12 line 1\n"),
    ("mxx 0 1", "refused 12 line 1\n"),
    ("H[x 0", "refused 13 line 1\n"),
    ("M(0.1 # ) 0", "refused 13 line 1\n"),
    ("H(0.1) 0", "refused 13 line 1\n"),
    ("X_ERROR 0", "refused 13 line 1\n"),
    ("DETECTOR(1,,2)", "refused 13 line 1\n"),
    ("DETECTOR(1.5)", "refused 13 line 1\n"),
    ("M() 0\nM(,) 0", "refused 13 line 2\n"),
    ("X_ERROR(1.1) 0", "refused 14 line 1\n"),
    ("M(-0.1) 0", "refused 14 line 1\n"),
    ("E(x) X0", "refused 14 line 1\n"),
    ("M X0", "refused 15 line 1\n"),
    ("R !0", "refused 15 line 1\n"),
    ("E(0.1) !X0", "refused 15 line 1\n"),
    ("DETECTOR rec[-0]", "refused 15 line 1\n"),
    ("MPP X0*", "refused 15 line 1\n"),
    ("CX 0 rec[-1]", "refused 15 line 1\n"),
    ("H 0,1", "refused 15 line 1\n"),
    ("H 4096", "refused 20 line 1\n"),
    ("DETECTOR(1000000001)", "refused 20 line 1\n"),
    ("REPEAT 1000000000000000000 {", "refused 20 line 1\n"),
    ("CX 0 1 2", "refused 16 line 1\n"),
    ("TICK 0", "refused 16 line 1\n"),
    ("REPEAT 2 3 {", "refused 16 line 1\n"),
    ("REPEAT {", "refused 16 line 1\n"),
    ("CX 0 0", "refused 17 line 1\n"),
    ("MPP X0*Z0", "refused 17 line 1\n"),
    ("REPEAT 0 {", "refused 19 line 1\n"),
]

# What meets on one line: the first is reported.
MEETING = [
    ("M 0 }é", "refused 10 line 1\n"),
    ("FOO {", "refused 18 line 1\n"),
    ("FOO(0.1", "refused 11 line 1\n"),
    ("MPAD(", "refused 12 line 1\n"),
    ("H(0.1) X0", "refused 13 line 1\n"),
    ("X_ERROR(2) X0", "refused 14 line 1\n"),
    ("CX 4096 X0", "refused 15 line 1\n"),
    ("CX 4096", "refused 20 line 1\n"),
    ("CX 0 0 1", "refused 16 line 1\n"),
]

# Blocks that are open at the end.
LEFT_OPEN = [
    ("REPEAT 2 {\nREPEAT 3 {\nH 0\n}", "refused 18 line 1\n"),
    ("REPEAT 2 {\n\nREPEAT 3 {", "refused 18 line 3\n"),
]

# Refusals of a whole text, in the order in which they are asked.
OF_A_TEXT = [
    ("M 0\nDETECTOR rec[-2]", "refused 22 line 2\n"),
    ("CX rec[-1] 0", "refused 22 line 1\n"),
    ("REPEAT 8000001 {\nM 0\n}", "refused 24 line 0\n"),
    ("REPEAT 8000001 {\nR 0\n}", "refused 24 line 0\n"),
    ("OBSERVABLE_INCLUDE(1024)", "refused 25 line 1\n"),
    ("REPEAT 1000001 {\nDETECTOR\n}", "refused 25 line 0\n"),
    ("REPEAT 32000001 {\nTICK\n}", "refused 23 line 0\n"),
]

# What Stim's format has and this one doesn't.
DIFFERENT = [
    ("ELSE_CORRELATED_ERROR(0.1) X0", "refused 12 line 1\n"),
    ("MPAD 0 1", "refused 12 line 1\n"),
    ("CX sweep[0] 1", "refused 15 line 1\n"),
    ("XCZ 0 rec[-1]", "refused 15 line 1\n"),
    ("YCZ 0 rec[-1]", "refused 15 line 1\n"),
    ("CZ rec[-1] rec[-2]", "refused 15 line 1\n"),
    ("OBSERVABLE_INCLUDE(0) X1", "refused 15 line 1\n"),
    ("MPP X0*Y0*Z1", "refused 17 line 1\n"),
    ("DETECTOR(1e1)", "refused 13 line 1\n"),
    ("SHIFT_COORDS(0.5)", "refused 13 line 1\n"),
    ("X_ERROR(0.10000000000000000001) 0", "refused 14 line 1\n"),
    ("H 16777215", "refused 20 line 1\n"),
]

# Texts that show how lines are cut, and what their runs write.
CUT = [
    (
        "H[a # b] 0 1        # a tag with a # in it, and a comment\n"
        "mr ( 0.01 ) !2 3    # M and R in small letters, with blanks in the parentheses\n"
        "REPEAT 005 {        # five turns\n    CX 0 1\n}\n",
        "10\n\n",
    ),
    (" \t\r\n# nothing\n\n\tX 0\r\n \t M 0 1\r", "10\n\n"),
    ("X[}{](\t)005\nM[](0.5)!5 5#!5", "01\n\n"),
    ("REPEAT 2{# two\nX 0\n\t} # both\nX[#(] 1\nM 0 1", "01\n\n"),
    ("REPEAT\t3\t{\nREPEAT 1 {\n}\nX 0\n}\r\nM !0 0", "01\n\n"),
    ("X\r0\nM 0", "1\n\n"),
    ("MPP X0*X1 !Z0*Z1    # two records", "01\n\n"),
    ("X 2\nMPP z0 * !z0001\t*z2 Z2* Z1 !z0", "011\n\n"),
    ("X 0\nM 0\nCX rec[-1] 1\nM 1", "11\n\n"),
]

# Probabilities that are accepted, and are written as they stand.
PROBABILITIES = """
    0 1 1. 0.1 1.000 1e0 10e-1 .5 5.e-1 0.10 00.5 1e-38 0e999 123456789012345678e-18 0.1234567890123456780000
    5E-01 1e-038 0.1e+0 .0e9
""".split()

# Texts that are none.
NO_PROBABILITIES = [
    "1.0000001", "1e-39", "0.1234567890123456789", "-0", "0.1e", "+0.1", "x", "0.1 0.2", ".", "1e0001", "0x1",
    "1e1", "0..1", "e1", "2",
]

# Texts, and what `analyze` writes.
MODELS = [
    (
        "R 0 1\nREPEAT 2 {\n    X_ERROR(0.01) 0\n    CX 0 1\n    MR 1\n    DETECTOR(0, 0) rec[-1]\n    SHIFT_COORDS(0, 1)\n}\n"
        "M 0\nOBSERVABLE_INCLUDE(0) rec[-1]\n",
        "error(0.01) D0 D1 L0\nerror(0.01) D1 L0\ndetector(0, 0) D0\ndetector(0, 1) D1\nlogical_observable L0\n",
    ),
    ("M 0 0\nSHIFT_COORDS(0, 1)\nDETECTOR(5) rec[-1]\nDETECTOR(5, 0) rec[-2]", "detector(5) D0\ndetector(5, 1) D1\n"),
    (
        "SHIFT_COORDS(1000000000)\nSHIFT_COORDS(1000000000, -7)\nDETECTOR(-0, 007, -1000000000)\nDETECTOR()\nDETECTOR( )",
        "detector(2000000000, 0, -1000000000) D0\ndetector D1\ndetector D2\n",
    ),
    ("E(0) x0 Y0\nE(0.5)\nE(0.25) z0 y0\nM 0\nDETECTOR rec[-1]", "error(0.25) D0\ndetector D0\n"),
    ("OBSERVABLE_INCLUDE(01)", "logical_observable L0\nlogical_observable L1\n"),
]


class Circuits(ProgramTest):
    def test_refusals_of_lines(self):
        self.check_refused(OF_A_LINE)
        self.check_refused(MEETING)
        self.check_refused(DIFFERENT)
        self.check_refused([("REPEAT 1 {\n" * 33, "refused 21 line 33\n")])

    def test_refusals_of_texts(self):
        self.check_refused(LEFT_OPEN)
        self.check_refused(OF_A_TEXT)

    def test_refusals_of_orders(self):
        self.check(["run", "--coins", "00"], "M 0", "refused 50 line 0\n", 2)
        self.check(["run", "--faults", "1"], "X_ERROR(0.1) 0", "refused 51 line 0\n", 2)

    def test_lines_are_cut(self):
        self.check_rows((["run"], text, output, 0) for text, output in CUT)

    def test_probabilities_are_taken(self):
        for text in PROBABILITIES:
            with self.subTest(text=text):
                model = f"error({text}) D0\ndetector D0\n"
                self.check(["analyze"], f"X_ERROR( {text}\t) 0\nM 0\nDETECTOR rec[-1]", model)

    def test_probabilities_are_refused(self):
        self.check_refused((f"\nM({text})", "refused 14 line 2\n") for text in NO_PROBABILITIES)

    def test_models(self):
        self.check_rows((["analyze"], text, output, 0) for text, output in MODELS)

    def test_random_targets(self):
        self.check(["analyze"], "H 0\nM 0\nDETECTOR rec[-1]", "random D0\n0\n1\n", 3)
