"""Refusals that meet, of one line and of one text: the first in their order is reported. All by hand."""
from program import ProgramTest

# A line, and the two refusals that apply to it, the first of which is reported.
OF_A_LINE = [
    ("M 0 }é", "10", "18"),
    ("FOO é", "10", "11"),
    ("MPAD é", "10", "12"),
    ("H(1) 0 é", "10", "13"),
    ("X_ERROR(2) é", "10", "14"),
    ("M X0 é", "10", "15"),
    ("M 4096 é", "10", "20"),
    ("CX 0 1 é", "10", "16"),
    ("CX 0 0 1 é", "10", "17"),
    ("REPEAT 0 { é", "10", "19"),
    ("FOO {", "18", "11"),
    ("{", "18", "11"),
    ("}}", "18", "11"),
    ("MPAD 0 }", "18", "12"),
    ("H(1) 0 {", "18", "13"),
    ("H(1 {", "18", "13"),
    ("X_ERROR({) 0", "18", "13"),
    ("X_ERROR(2) 0 {", "18", "14"),
    ("M X0 }", "18", "15"),
    ("M 4096 {", "18", "20"),
    ("CX 0 {", "18", "16"),
    ("CX 0 0 {", "18", "17"),
    ("REPEAT 0", "18", "19"),
    ("REPEAT 2 3", "18", "16"),
    ("REPEAT(1) 2", "18", "13"),
    ("FOO(", "11", "13"),
    ("FOO[x", "11", "13"),
    ("[x", "11", "13"),
    ("FOO(2) 0", "11", "14"),
    ("FOO X", "11", "15"),
    ("FOO 4096", "11", "20"),
    ("MPAD(", "12", "13"),
    ("MPAD(1,) 0", "12", "13"),
    ("DEPOLARIZE1(2) 0", "12", "14"),
    ("MXX X0", "12", "15"),
    ("MXX 0 4096", "12", "20"),
    ("MXX 0", "12", "16"),
    ("MXX 0 0", "12", "17"),
    ("X_ERROR(2, 2) 0", "13", "14"),
    ("X_ERROR(2 # ) 0", "13", "14"),
    ("H(1) X0", "13", "15"),
    ("H[x X0", "13", "15"),
    ("H(1) 4096", "13", "20"),
    ("DETECTOR(1000000001, x)", "13", "20"),
    ("SHIFT_COORDS(1000000001, 1.5)", "13", "20"),
    ("CX(1) 0", "13", "16"),
    ("TICK(1) 0", "13", "16"),
    ("SHIFT_COORDS(x) 0", "13", "16"),
    ("CX(1) 0 0", "13", "17"),
    ("REPEAT(1) 0 {", "13", "19"),
    ("X_ERROR(2) X0", "14", "15"),
    ("X_ERROR(2) 4096", "14", "20"),
    ("MPP(2) X0*X0", "14", "17"),
    ("CX 4096 X0", "15", "20"),
    ("DETECTOR(1000000001) 0", "15", "20"),
    ("OBSERVABLE_INCLUDE(1000000000000000000) 0", "15", "20"),
    ("CX X0", "15", "16"),
    ("CX 0 rec[-1] 1", "15", "16"),
    ("REPEAT x y {", "15", "16"),
    ("CX 0 0 X1 2", "15", "17"),
    ("MPP X0*X0 5", "15", "17"),
    ("REPEAT 0 x {", "15", "19"),
    ("CX 4096", "20", "16"),
    ("SHIFT_COORDS(1000000001) 0", "20", "16"),
    ("REPEAT 1000000000000000000 2 {", "20", "16"),
    ("CX 4096 4096", "20", "17"),
    ("MPP X4096*Z4096", "20", "17"),
    ("REPEAT 0 1000000000000000000 {", "20", "19"),
    ("CX 0 0 1", "16", "17"),
    ("REPEAT 0 3 {", "16", "19"),
    ("REPEAT {", "16", "19"),
]

# A second tag, or one behind the arguments, begins a target: the line has no arguments behind it, and the targets of some lines
# aren't read.
SECOND_TAGS = [
    ("H[a][b] 0", "15"),
    ("REPEAT[a][b] 2 {", "15"),
    ("DETECTOR(1)[b] rec[-1]", "15"),
    ("TICK[a][b]", "16"),
    ("SHIFT_COORDS(1)[b]", "16"),
    ("X_ERROR[a][b](0.1) 0", "13"),
    ("H(0.1)[b] 0", "13"),
    ("H[a][{] 0", "18"),
]

# The same in an error model.
SECOND_TAGS_OF_A_MODEL = [
    ("detector[a][b] D0", "42"),
    ("shift_detectors(1)[b] 1", "42"),
    ("error[a][b](0.1) D0", "41"),
]

# A line inside 32 open blocks, and its refusal. To each but the last that of its depth applies too.
DEEPEST = [
    ("REPEAT 1 { é", "10"),
    ("REPEAT 1", "18"),
    ("REPEAT(1) 1 {", "13"),
    ("REPEAT x {", "15"),
    ("REPEAT 1000000000000000000 {", "20"),
    ("REPEAT 1 1 {", "16"),
    ("REPEAT 0 {", "19"),
    ("REPEAT 1 {", "21"),
]

# Texts to which more than one refusal applies.
OF_A_TEXT = [
    # A line and all of a text.
    ("DETECTOR rec[-1]\nH 4096\n", "refused 20 line 2\n"),
    ("DETECTOR rec[-1]\nREPEAT 2 {\n", "refused 18 line 2\n"),
    ("REPEAT 8000001 {\nM 0\nH X0\n}\n", "refused 15 line 3\n"),
    # 22 and 24.
    ("REPEAT 8000001 {\nM 0\n}\nR 0\nDETECTOR rec[-8000002]\n", "refused 22 line 5\n"),
    ("REPEAT 8000001 {\nM 0\n}\nDETECTOR rec[-8000001]\n", "refused 24 line 0\n"),
    ("DETECTOR rec[-1]\nREPEAT 8000001 {\nR 0\n}\n", "refused 22 line 1\n"),
    # 22 and 25.
    ("OBSERVABLE_INCLUDE(1024)\nDETECTOR rec[-1]\n", "refused 22 line 2\n"),
    ("REPEAT 1000001 {\nDETECTOR\n}\nDETECTOR rec[-1]\n", "refused 22 line 4\n"),
    # 22 and 23.
    ("REPEAT 32000001 {\nTICK\n}\nDETECTOR rec[-1]\n", "refused 22 line 4\n"),
    # 24 and 25.
    ("OBSERVABLE_INCLUDE(1024)\nREPEAT 8000001 {\nM 0\n}\n", "refused 24 line 0\n"),
    ("REPEAT 1000001 {\nDETECTOR\n}\nREPEAT 8000001 {\nR 0\n}\n", "refused 24 line 0\n"),
    # 24 and 23.
    ("REPEAT 32000001 {\nTICK\n}\nREPEAT 8000001 {\nR 0\n}\n", "refused 24 line 0\n"),
    # An observable and the number of detectors.
    ("REPEAT 1000001 {\nDETECTOR\n}\n\nOBSERVABLE_INCLUDE(1024)\nOBSERVABLE_INCLUDE(1024)\n", "refused 25 line 5\n"),
    # 25 and 23.
    ("REPEAT 32000001 {\nTICK\n}\nOBSERVABLE_INCLUDE(1024)\n", "refused 25 line 4\n"),
    ("REPEAT 32000001 {\nTICK\n}\nREPEAT 1000001 {\nDETECTOR\n}\n", "refused 25 line 0\n"),
]


class Meetings(ProgramTest):
    def test_refusals_of_a_line(self):
        self.check_refused((text, f"refused {first} line 1\n") for text, first, _ in OF_A_LINE)

    def test_refusals_in_the_deepest_block(self):
        self.check_refused(("REPEAT 1 {\n" * 32 + last, f"refused {number} line 33\n") for last, number in DEEPEST)

    def test_second_tags(self):
        self.check_refused((text, f"refused {number} line 1\n") for text, number in SECOND_TAGS)
        self.check_rows((["predict"], text, f"refused {number} line 1\n", 2) for text, number in SECOND_TAGS_OF_A_MODEL)

    def test_refusals_of_a_text(self):
        self.check_refused(OF_A_TEXT)
