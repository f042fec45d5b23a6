"""Lines of circuits that are refused or taken, beside those of the other tests. All by hand."""
from program import ProgramTest

# Refusals, each with lines of which one thing alone is wrong.
REFUSED = {
    18: """
M 0 }
REPEAT 2 {}
REPEAT 2 { {
REPEAT 2 { 3
REPEAT({) 2 {
REPEAT[x 2 {
H 0 {
}{
} 0
}[x]
[x]}
""",
    11: """
REPEA
O
[x] 0
(1)
H) 0
HH 0
""",
    13: """
H[x {
X_ERROR(0.1
X_ERROR(0.1 # ) 0
REPEAT(2 {
X_ERROR() 0
X_ERROR(0.1, 0.2) 0
X_ERROR(,) 0
M(0.1, 0.1) 0
M(,) 0
TICK(1)
CX(0.1) 0 1
R(0.1) 0
DETECTOR(1,)
DETECTOR(--1)
DETECTOR(+1)
DETECTOR(1 2)
SHIFT_COORDS(1e1)
QUBIT_COORDS(.) 0
QUBIT_COORDS(-) 0
OBSERVABLE_INCLUDE
OBSERVABLE_INCLUDE(-1)
OBSERVABLE_INCLUDE(0, 1)
REPEAT(1) 2 {
""",
    14: """
X_ERROR(-0.1) 0
X_ERROR(x) 0
X_ERROR(-0) 0
X_ERROR(+0.1) 0
X_ERROR(0.1 0.2) 0
M(x) 0
MRX(2) 0
MPP(2) X0
E(1.1) X0
""",
    15: """
M ! 0
M !!0
M !X0
M -1
H 0*1
H 0x1
H()[x] 0
H !0
X_ERROR(0.1) rec[-1]
E(0.1) 0
E(0.1) X0*X1
DETECTOR 0
DETECTOR rec[-00]
DETECTOR REC[-1]
DETECTOR rec[1]
DETECTOR rec[-1
OBSERVABLE_INCLUDE(0) X0
QUBIT_COORDS(1) X0
CY X0 1
CZ rec[-1] rec[-1]
SWAP rec[-1] 0
MPP 0
MPP *X0
MPP X0**X1
MPP X0*4
MPP ! X0
MPP X0 !*X1
REPEAT x {
REPEAT !2 {
""",
    16: """
CX 0
CX rec[-1]
CX rec[-1] 0 rec[-1]
CZ 0
SWAP 1
TICK rec[-0]
TICK 4096
SHIFT_COORDS(1) 0
REPEAT{
""",
    17: """
CZ 0 1 2 2
SWAP 0 00
XCZ 3 3
MPP X0*X0
MPP X0*Y0
MPP X0*Z1*X0
MPP X0*X1 X2*X3*Y2
MPP X0*!X0
""",
    19: """
REPEAT 00 {
""",
}

# The same of lines just beyond a limit.
BEYOND_LIMITS = {
    20: """
E(0.1) X4096
MPP X0*Z4096
QUBIT_COORDS(1.5) 4096
CX rec[-1000000000000000000] 0
DETECTOR(-1000000001)
SHIFT_COORDS(0, 1000000001)
H 99999999999999999999999999999999999999999
""",
    14: """
X_ERROR(1.0000001) 0
X_ERROR(1e-39) 0
X_ERROR(0e9999) 0
""",
    13: """
DETECTOR(1, 1, 1, 1, 1, 1, 1, 1, 1, 1, 1, 1, 1, 1, 1, 1, 1)
SHIFT_COORDS(1, 1, 1, 1, 1, 1, 1, 1, 1, 1, 1, 1, 1, 1, 1, 1, 1)
QUBIT_COORDS(1, 1, 1, 1, 1, 1, 1, 1, 1, 1, 1, 1, 1, 1, 1, 1, 1) 0
QUBIT_COORDS(1, 1, 1, 1, 1, 1, 1, 1, 1, 1, 1, 1, 1, 1, 1, 1, 1)
""",
}

# The same of lines to which a later refusal applies too.
REFUSED_TWICE = {
    18: """
MPAD {
H( {
H 4096 {
TICK 0 {
""",
    11: """
[x {
""",
    12: """
DEPOLARIZE1(0.1
DEPOLARIZE1(2) X0 4096
""",
    13: """
X_ERROR(2, 3) 0
X_ERROR(2
DETECTOR(1.5, 1000000001)
CX(0.1) 0
CX(0.1) 0 0
REPEAT(2) 0 {
""",
    15: """
CX 0 1 X2
CX 0 0 X1 1
MPP X0*X0 1
""",
    20: """
CX 0 4096 1
MPP X4096*X4096
""",
}

# Lines that are taken behind a measurement of one qubit, as well inside as many blocks as may stand inside one another.
TAKEN = """
H
H 4095
h 005 0
H 0000000000000000000000000000000000000005
M() 0
H( ) 0
M( 0.1 ) 0
M !4095 0
MR(0) !0
mx[x#{y] 0 # note
X_ERROR(0e999) 0
X_ERROR(1.000) 0
X_ERROR(1e-38) 0
X_ERROR(1e-038) 0
X_ERROR(10e-1) 0
X_ERROR(0.123456789012345678) 0
X_ERROR(1) 0 0
E(0.1)
E(0.1) X0 X0 z4095
DETECTOR
DETECTOR()
DETECTOR(-0, 007)
DETECTOR(1000000000, -1000000000) rec[-01]
DETECTOR(1, 1, 1, 1, 1, 1, 1, 1, 1, 1, 1, 1, 1, 1, 1, 1)
OBSERVABLE_INCLUDE(01023)
QUBIT_COORDS(1.5, -.5e999) 0
QUBIT_COORDS
SHIFT_COORDS(1, 1, 1, 1, 1, 1, 1, 1, 1, 1, 1, 1, 1, 1, 1, 1)
SHIFT_COORDS
TICK
TICK # x
CX
CX 0 1 1 0
CX rec[-1] 0 1 2
cy rec[-1] 0
CZ rec[-1] 0 0 rec[-1]
MPP
MPP X0
MPP X0*X1
MPP X0 *X1* Z2 Z3
MPP X0 X0
MPP !X0*!z1 x0
MPP(0.1) Z0*Z1
"""

# Lines that open a block, and how often that is repeated.
OPENING = [
    ("REPEAT 2{", 2),
    ("REPEAT 2 {# x", 2),
    ("repeat[x] 007 {", 7),
    ("REPEAT() 1 { ", 1),
]

# Texts, and the first refusal and its line.
TEXTS = [
    ("H 0\nFOO 0\nBAR 0", "refused 11 line 2\n"),
    ("# a\n\nMPAD 0\nFOO", "refused 12 line 3\n"),
    ("H 0 \x7f\n}", "refused 10 line 1\n"),
    ("FOO\nH 0 \x7f", "refused 11 line 1\n"),
    ("H 0\n\n# c\n } # d", "refused 18 line 4\n"),
    ("REPEAT 2 {\n}\n}\n", "refused 18 line 3\n"),
    ("REPEAT 2\n}", "refused 18 line 1\n"),
    ("REPEAT 2 {\nH 0", "refused 18 line 1\n"),
    ("REPEAT 2 {\n REPEAT 3 {\n }\n REPEAT 4 {\n\n", "refused 18 line 4\n"),
    ("REPEAT 2 {\nCX 0\n", "refused 16 line 2\n"),
    ("REPEAT 0 {\n}", "refused 19 line 1\n"),
    ("REPEAT 2 {\n}\nREPEAT 00 {\nFOO", "refused 19 line 3\n"),
    ("H[ 0", "refused 13 line 1\n"),
    ("M(2) 0\nM( 0", "refused 14 line 1\n"),
    ("H 0\nH 4096", "refused 20 line 2\n"),
    ("H X0\r\nCX 1 1", "refused 15 line 1\n"),
]

CUT = "R 0 1\nREPEAT 2 {\nX_ERROR(0.01) 0\nCX 0 1\nMR 1\nDETECTOR(0, 0) rec[-1]\nSHIFT_COORDS(0, 1)\n}\nM 0\nO"

# What that text ends with where it is cut, and the first refusal and its line.
ENDS = [
    ("REPEA", "refused 11 line 2\n"),
    ("REPEAT 2", "refused 18 line 2\n"),
    ("X_ERROR(0.0", "refused 13 line 3\n"),
    ("\nCX", "refused 18 line 2\n"),
    ("\nCX 0", "refused 16 line 4\n"),
    ("\nM", "refused 18 line 2\n"),
    ("re", "refused 15 line 6\n"),
    ("\nS", "refused 18 line 2\n"),
    ("\nO", "refused 11 line 10\n"),
]


def put_inside(depth, line):
    """A line inside so many blocks."""
    return "REPEAT 1 {\n" * depth + line + "\n}" * depth


class Lines(ProgramTest):
    def check_lines(self, table):
        self.check_refused(
            (line, f"refused {number} line 1\n") for number, lines in table.items() for line in lines.split("\n")[1:-1]
        )

    def test_lines_are_refused(self):
        self.check_lines(REFUSED)

    def test_lines_beyond_a_limit_are_refused(self):
        self.check_lines(BEYOND_LIMITS)

    def test_the_first_refusal_is_given(self):
        self.check_lines(REFUSED_TWICE)

    def test_lines_are_taken(self):
        for depth in (0, 32):
            self.check_taken("M 0\n" + put_inside(depth, line) for line in TAKEN.split("\n")[1:-1])

    def test_blocks_open(self):
        for line, turns in OPENING:
            with self.subTest(line=line):
                self.check(["run"], f"{line}\nM !0\n}}", "1" * turns + "\n\n")

    def test_the_last_block_closes(self):
        self.check_taken("REPEAT 1 {\n" * depth + "}\n" * (depth - 1) + " } # end" for depth in (1, 32))

    def test_texts_are_refused(self):
        self.check_refused(TEXTS)

    def test_beginnings_are_refused(self):
        self.check_refused((CUT[:CUT.index(end) + len(end)], line) for end, line in ENDS)
