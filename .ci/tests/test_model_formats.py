"""The texts of error models by which docs/FORMATS.md shows what they say and their refusals, and further ones.

A row has the numbers of error lines, a text, and what `predict` writes. All by hand.
"""
from program import ProgramTest

SHOWN = [
    ("0", "error(0.1) D1 D1", "00\n"),
    ("0,2", "repeat 3 {\n    error(0.1) D0 D1\n    shift_detectors 1\n}\n", "1111\n"),
    ("", "error(0.1)\ndetector\nlogical_observable", "\n"),
]

# Refusals of a line in the order in which they are asked, those of a whole text, and that of an order.
REFUSED = [
    ("", "error(0.1) é", "refused 10 line 1\n"),
    ("", "error(0.1) D0 {", "refused 43 line 1\n"),
    ("", "repeat 2", "refused 43 line 1\n"),
    ("", "}", "refused 43 line 1\n"),
    ("", "foo {", "refused 43 line 1\n"),
    ("", "foo", "refused 40 line 1\n"),
    ("", "(0.1) D0", "refused 40 line 1\n"),
    ("", "M 0", "refused 40 line 1\n"),
    ("", "error[x D0", "refused 41 line 1\n"),
    ("", "error D0", "refused 41 line 1\n"),
    ("", "error(2) D0", "refused 41 line 1\n"),
    ("", "detector(1,,2) D0", "refused 41 line 1\n"),
    ("", "detector(1.5) D0", "refused 41 line 1\n"),
    ("", "error(0.1) X0", "refused 42 line 1\n"),
    ("", "error(0.1) d0", "refused 42 line 1\n"),
    ("", "error(0.1) D0^D1", "refused 42 line 1\n"),
    ("", "detector L0", "refused 42 line 1\n"),
    ("", "shift_detectors", "refused 42 line 1\n"),
    ("", "repeat 1 2 {", "refused 42 line 1\n"),
    ("", "detector D1000000", "refused 44 line 1\n"),
    ("", "logical_observable L1024", "refused 44 line 1\n"),
    ("", "repeat 1000000000000000000 {", "refused 44 line 1\n"),
    ("", "repeat 0 {", "refused 45 line 1\n"),
    ("", "repeat 2 {\nrepeat 3 {", "refused 43 line 2\n"),
    ("", "repeat 2000001 {\nlogical_observable L0\n}", "refused 47 line 0\n"),
    ("", "shift_detectors 999999\nerror(0.1) D1", "refused 44 line 2\n"),
    ("0,0", "error(0.1) D0", "refused 51 line 0\n"),
    # Coordinates are asked where they are reached too.
    ("", "repeat 2 {\ndetector(1) D0\nshift_detectors(999999999999999999) 1\n}", "refused 44 line 2\n"),
    # Both limits of a whole text.
    ("", "shift_detectors 1000000\ndetector D0\nrepeat 4000001 {\n}", "refused 47 line 0\n"),
    ("x", "detector D1000000", "refused 44 line 1\n"),
]

# Further forms of arguments, of targets and of numbers that no line takes, and a block closed inside one that is not.
REFUSED_FORMS = [
    ("", "error(0.1) D0\n\x01", "refused 10 line 2\n"),
    ("", "repeat 2 {\nrepeat 3 {\n}\n", "refused 43 line 1\n"),
    ("", "error(0.1, 0.1) D0", "refused 41 line 1\n"),
    ("", "error(0.1 D0", "refused 41 line 1\n"),
    ("", "detector(1,2,3,4,5,6,7,8,9,10,11,12,13,14,15,16,17) D0", "refused 41 line 1\n"),
    ("", "logical_observable(1) L0", "refused 41 line 1\n"),
    ("", "logical_observable D0", "refused 42 line 1\n"),
    ("", "detector ^", "refused 42 line 1\n"),
    ("", "detector(1000000000000000000) D0", "refused 44 line 1\n"),
    ("", "shift_detectors 1000000000000000000", "refused 44 line 1\n"),
    ("", "shift_detectors(999999999999999999) 0\ndetector(1) D0", "refused 44 line 2\n"),
    # More lines than 128 bits count.
    ("", "repeat 999999999999999999 {\nrepeat 999999999999999999 {\nrepeat 999 {\n}\n}\n}", "refused 47 line 0\n"),
]

# The model of two turns of a repetition code.
TWO_TURNS = (
    "error(0.01) D0 D1 L0\nerror(0.01) D1 L0\ndetector(0, 0) D0\ndetector(0, 1) D1\nlogical_observable L0\n"
)

# Three detectors and two observables.
SEPARATED = "error(0.1) D0 D2\nerror(0.2) L1 ^ D2\n"

# Three turns, each of which shifts by one.
SHIFTED = "repeat 3 {\nerror(0.1) D0 D1\nshift_detectors 1\n}\n"

# A line of each kind, the errors first and last.
MIXED = "error(0.1) D0\ndetector(1) D1\nlogical_observable L0\nshift_detectors 1\nerror(0.2) D0 L0\n"

PREDICTED = [
    ("", "", "\n"),
    ("0,1", TWO_TURNS, "100\n"),
    ("1,0", TWO_TURNS, "100\n"),
    ("0", "error(0.1) D0 ^ D0 D1 L0\n", "011\n"),
    ("0,1", SEPARATED, "10001\n"),
    ("", SEPARATED, "00000\n"),
    ("0", "detector(1, -2) D5\nerror(0) D1\n", "010000\n"),
    ("", "shift_detectors 1\n", "\n"),
    ("0,1", SHIFTED, "1010\n"),
    ("0,2", SHIFTED, "1111\n"),
    ("0", "shift_detectors(0, 5) 2\ndetector(1, 1) D0\nerror(0.1) D0 L0\n", "0011\n"),
    # Only error lines have numbers, and zeros in front change nothing.
    ("0", MIXED, "100\n"),
    ("001", MIXED, "011\n"),
    ("1,0", MIXED, "111\n"),
    # A line that flips nothing, and one whose targets cancel, have numbers too.
    ("0", "error(0.1)\n", "\n"),
    ("0,1,2", "error(0.1)\nerror(1) L0 L0\nerror(0) L0", "1\n"),
    # The greatest of each counts, wherever it stands and whether it cancels.
    ("0", "logical_observable L2\nerror(0.1) D1\n", "01000\n"),
    ("0", "error(0.1) D1 D1 D0\n", "10\n"),
    # Names in any case, tags, comments and blanks.
    ("0", "# a model\n\n  ERROR[x](0.1)\tD0   ^ L1 # none\r\nDetector D1", "1001\n"),
    ("0", "error( 1e-38 ) L0", "1\n"),
    ("1,2", "repeat 2 {\nrepeat 2 {\nerror(0.5) D0\nshift_detectors 1\n}\nshift_detectors 1\n}\n", "01010\n"),
]

# Lists that are none, or that name a line that isn't there or one twice.
NO_LISTS = ["2", "0,0", "0,00", ",", "0,", " 0", "+0", "D0", "18446744073709551616"]

REFUSED_TOO = [
    *((lines, SEPARATED, "refused 51 line 0\n") for lines in NO_LISTS),
    ("0", "", "refused 51 line 0\n"),
    ("3", SHIFTED, "refused 51 line 0\n"),
    ("2", MIXED, "refused 51 line 0\n"),
    # The text comes first.
    ("x", "error(0.1) D0\nfoo\n", "refused 40 line 2\n"),
    ("7", "repeat 4000001 {\n}\n", "refused 47 line 0\n"),
    ("0,0", "error D0\n", "refused 41 line 1\n"),
    ("1", "shift_detectors 1000000\nerror(0.1) D0\n", "refused 44 line 2\n"),
    ("0", "error(2) D0\n", "refused 41 line 1\n"),
    ("0", "error(0.1) X0\n", "refused 42 line 1\n"),
    ("0", "detector D1000000\n", "refused 44 line 1\n"),
    # The causes meet on one line.
    ("", "\x01 error(0.1) X0 {\n", "refused 10 line 1\n"),
    ("", "error(2) X0\n", "refused 41 line 1\n"),
    ("", "error(0.1) D1000000 0\n", "refused 42 line 1\n"),
    ("", "shift_detectors 1 2\n", "refused 42 line 1\n"),
    ("", "repeat 2 {\n", "refused 43 line 1\n"),
    ("", "repeat 0 {\n}\n", "refused 45 line 1\n"),
    # What an analysis writes of a random target is no model.
    ("", "random D0\n0\n1\n", "refused 40 line 1\n"),
]

# Texts at a limit.
WITHIN = [
    ("", "repeat 2000000 {\nlogical_observable L0\n}", "0\n"),
    ("", "repeat 4000000 {\n}", "\n"),
    ("", "shift_detectors(-999999999999999999) 999999999999999999\nlogical_observable L0", "0\n"),
]


class Models(ProgramTest):
    def check_predictions(self, rows, status):
        self.check_rows((["predict", "--lines", lines], text, output, status) for lines, text, output in rows)

    def test_models_are_taken(self):
        self.check_predictions(SHOWN, 0)
        self.check_predictions(PREDICTED, 0)
        self.check_predictions(WITHIN, 0)

    def test_models_are_refused(self):
        self.check_predictions(REFUSED, 2)
        self.check_predictions(REFUSED_FORMS, 2)
        self.check_predictions(REFUSED_TOO, 2)
        self.check(["predict", "--lines=-1"], SEPARATED, "refused 51 line 0\n", 2)

    def test_blocks_stand_inside_32(self):
        for depth, output, status in (32, "1\n", 0), (33, "refused 46 line 33\n", 2):
            text = "repeat 1 {\n" * depth + "error(0.5) L0\n" + "}\n" * depth
            self.check(["predict", "--lines", "0"], text, output, status)

    def test_greatest_targets(self):
        """The greatest detector and observable: a line of a million and 1,024 digits."""
        output = "0" * 999_999 + "1" + "0" * 1_023 + "1\n"
        self.check(["predict", "--lines", "0"], "error(0.1) D999999 L1023\n", output)
