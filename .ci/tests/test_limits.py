"""Each limit at its edge: a text at the limit that is taken, and one beyond it; numbers of ten thousand digits; and long texts.

A row has a text and what is written for it. All by hand.
"""
from program import ProgramTest

# Lines at a limit, and what `run` writes.
TAKEN = [
    ("X 4095\nM 4095 !4095", "10\n\n"),
    ("X 0\nCX 0 4095\nMPP Z0*Z4095 Z4095", "01\n\n"),
    ("E(1) X4095", "\n\n"),
    ("DETECTOR(1000000000, -1000000000)", "\n0\n"),
    ("SHIFT_COORDS(1000000000)\nSHIFT_COORDS(-1000000000)", "\n\n"),
    ("DETECTOR(1, 2, 3, 4, 5, 6, 7, 8, 9, 10, 11, 12, 13, 14, 15, 16)", "\n0\n"),
    ("QUBIT_COORDS(1, 2, 3, 4, 5, 6, 7, 8, 9, 10, 11, 12, 13, 14, 15, 1e999) 0", "\n\n"),
    ("QUBIT_COORDS(-123456789012345678901234567890.5e+1) 0", "\n\n"),
    ("X_ERROR(0.00000000000000000000123456789012345678) 0", "\n\n"),
    ("X_ERROR(0.99999999999999999900) 0", "\n\n"),
]

# Lines beyond a limit.
BEYOND = [
    ("H 4096", "refused 20 line 1\n"),
    ("M !4096", "refused 20 line 1\n"),
    ("R 4096", "refused 20 line 1\n"),
    ("CX 0 4096", "refused 20 line 1\n"),
    ("CX 4096 0", "refused 20 line 1\n"),
    ("CX rec[-1] 4096", "refused 20 line 1\n"),
    ("MPP X0*!X4096", "refused 20 line 1\n"),
    ("E(1) X4096", "refused 20 line 1\n"),
    ("QUBIT_COORDS(0) 4096", "refused 20 line 1\n"),
    ("DETECTOR(1000000001)", "refused 20 line 1\n"),
    ("DETECTOR(0, -1000000001)", "refused 20 line 1\n"),
    ("SHIFT_COORDS(-1000000001)", "refused 20 line 1\n"),
    ("DETECTOR rec[-999999999999999999]", "refused 22 line 1\n"),
    ("DETECTOR rec[-1000000000000000000]", "refused 20 line 1\n"),
    ("OBSERVABLE_INCLUDE(0) rec[-1]", "refused 22 line 1\n"),
    ("CZ 0 rec[-999999999999999999]", "refused 22 line 1\n"),
    ("CZ 0 rec[-1000000000000000000]", "refused 20 line 1\n"),
    ("OBSERVABLE_INCLUDE(1024)", "refused 25 line 1\n"),
    ("OBSERVABLE_INCLUDE(999999999999999999)", "refused 25 line 1\n"),
    ("OBSERVABLE_INCLUDE(1000000000000000000)", "refused 20 line 1\n"),
    ("REPEAT 999999999999999999 {\n}", "refused 23 line 0\n"),
    ("REPEAT 1000000000000000000 {\n}", "refused 20 line 1\n"),
    ("REPEAT 999999999999999999 {\nM 0\nDETECTOR rec[-1]\n}", "refused 24 line 0\n"),
    ("REPEAT 999999999999999999 {\nDETECTOR\n}\nDETECTOR rec[-1]", "refused 22 line 4\n"),
    ("REPEAT 999999999999999999 {\nDETECTOR\n}", "refused 25 line 0\n"),
    ("DETECTOR(1, 2, 3, 4, 5, 6, 7, 8, 9, 10, 11, 12, 13, 14, 15, 16, 17)", "refused 13 line 1\n"),
    ("QUBIT_COORDS(1, 2, 3, 4, 5, 6, 7, 8, 9, 10, 11, 12, 13, 14, 15, 16, 17) 0", "refused 13 line 1\n"),
    ("QUBIT_COORDS(1e1000) 0", "refused 13 line 1\n"),
    ("X_ERROR(0.1234567890123456789) 0", "refused 14 line 1\n"),
    ("X_ERROR(0.000000000000000000000123456789012345678) 0", "refused 14 line 1\n"),
    ("X_ERROR(1.00000000000000001) 0", "refused 14 line 1\n"),
]

# Texts at a total's limit. A run of most would take long, so one is asked for that is refused by its list of faults,
# which is judged where the text is taken.
TOTALS_TAKEN = [
    "REPEAT 8000000 {\nM 0\n}\n",
    "REPEAT 7999999 {\nMPP X0*X1\n}\nMRY 0\n",
    "REPEAT 4000000 {\nMX 0 1\n}\n",
    "REPEAT 8000000 {\nR 0\n}\n",
    "REPEAT 3999999 {\nM 0\nRX 1\n}\nRY 0 1\n",
    "REPEAT 8000000 {\nM 0\n}\nDETECTOR rec[-8000000]\n",
    "REPEAT 1000000 {\nDETECTOR\n}\n",
    "REPEAT 1000 {\nREPEAT 999 {\nDETECTOR\n}\nDETECTOR\n}\n",
    "REPEAT 999999 {\nDETECTOR\n}\nDETECTOR\n",
    "OBSERVABLE_INCLUDE(1023)\n",
    "REPEAT 16000000 {\nCX 0 1\n}\n",
    "REPEAT 21333333 {\nX_ERROR(0.1) 0\n}\nTICK\n",
    "REPEAT 31999999 {\nH\n}\nTICK\nTICK\n",
    "REPEAT 31999999 {\nTICK\n}\nMPP X0*X1*X2\n",
    "REPEAT 31999997 {\nTICK\n}\nM 0\nCX rec[-1] 0\nTICK\n",
    "REPEAT 8000 {\nREPEAT 7999 {\n}\n}\n",
    "REPEAT 16000000 {\nE(0.1) X0 X1\n}\n",
]

# Texts at a limit of which neither order takes long, since a block without steps is passed over.
QUICK = [
    "OBSERVABLE_INCLUDE(1023)\n",
    "REPEAT 1000000 {\nDETECTOR\n}\n",
    "REPEAT 32000000 {\nTICK\n}\n",
    "REPEAT 64000000 {\n}\n",
    "REPEAT 16000000 {\nQUBIT_COORDS 0 1\n}\n",
    "REPEAT 31999999 {\nTICK\n}\nTICK\nTICK\n",
]

# Texts beyond a total's limit.
TOTALS_BEYOND = [
    ("REPEAT 8000001 {\nM 0\n}\n", "refused 24 line 0\n"),
    ("REPEAT 1000000000000 {\nM 0\n}\n", "refused 24 line 0\n"),
    ("REPEAT 8000000 {\nM 0\n}\nM 0\n", "refused 24 line 0\n"),
    ("M 0\nREPEAT 8000000 {\nM 0\n}\n", "refused 24 line 0\n"),
    ("REPEAT 8000001 {\nMPP X0*X1\n}\n", "refused 24 line 0\n"),
    ("REPEAT 4000000 {\nMRX 0 1\n}\nMR 0\n", "refused 24 line 0\n"),
    ("REPEAT 2829 {\nREPEAT 2829 {\nM 0\n}\n}\n", "refused 24 line 0\n"),
    ("REPEAT 8000001 {\nR 0\n}\n", "refused 24 line 0\n"),
    ("REPEAT 7999999 {\nM 0\n}\nRX 0 1\n", "refused 24 line 0\n"),
    ("REPEAT 9000000 {\nM 0\n}\nDETECTOR rec[-8500000]\n", "refused 24 line 0\n"),
    ("REPEAT 1000001 {\nDETECTOR\n}\n", "refused 25 line 0\n"),
    ("REPEAT 1000000 {\nDETECTOR\n}\nDETECTOR\n", "refused 25 line 0\n"),
    ("REPEAT 1000 {\nREPEAT 1000 {\nDETECTOR\n}\nDETECTOR\n}\n", "refused 25 line 0\n"),
    ("TICK\nOBSERVABLE_INCLUDE(1024)\n", "refused 25 line 2\n"),
    ("REPEAT 2 {\n\nOBSERVABLE_INCLUDE(1024)\n}\n", "refused 25 line 3\n"),
    ("REPEAT 32000001 {\nTICK\n}\n", "refused 23 line 0\n"),
    ("REPEAT 64000001 {\n}\n", "refused 23 line 0\n"),
    ("REPEAT 8000 {\nREPEAT 8000 {\n}\n}\n", "refused 23 line 0\n"),
    ("REPEAT 16000001 {\nQUBIT_COORDS 0 1\n}\n", "refused 23 line 0\n"),
    ("REPEAT 16000000 {\nCX 0 1\n}\nI\n", "refused 23 line 0\n"),
    ("REPEAT 31999999 {\nTICK\n}\nTICK\nTICK\nTICK\n", "refused 23 line 0\n"),
    ("REPEAT 31999999 {\nTICK\n}\nMPP X0*X1*X2 Z5\n", "refused 23 line 0\n"),
    ("REPEAT 31999997 {\nTICK\n}\nM 0\nCX rec[-1] 0\nTICK\nTICK\n", "refused 23 line 0\n"),
]

# What stands in so many blocks of two turns, and what is written for a list of faults that is malformed, which is
# judged where the text is taken. The limits are 8,000,000 records, 1,000,000 detectors and 64,000,000 for the steps.
NESTED = [
    (22, "M 0\n", "refused 51 line 0\n"),
    (23, "M 0\n", "refused 24 line 0\n"),
    (19, "DETECTOR\n", "refused 51 line 0\n"),
    (20, "DETECTOR\n", "refused 25 line 0\n"),
    (32, "", "refused 23 line 0\n"),
    (33, "", "refused 21 line 33\n"),
]

# What stands before ten thousand digits 0 and behind them, and what `run` writes with the coin 1.
ZEROS = [
    ("H ", "5\nM 5\n", "1\n\n"),
    ("X ", "5\nM 5\n", "1\n\n"),
    ("X 5\nM !", "5\n", "0\n\n"),
    ("X 0\nM 0\nDETECTOR rec[-", "1]\n", "1\n0\n"),
    ("X 0\nMPP Z", "0\n", "1\n\n"),
    ("REPEAT ", "3 {\nX 0\n}\nM 0", "1\n\n"),
    ("X 0\nM 0\nOBSERVABLE_INCLUDE(", "1)", "1\n00\n"),
    ("X 0\nM(", ".1) 0\n", "1\n\n"),
    ("X 0\nM(0.1", ") 0\n", "1\n\n"),
]

# What stands before ten thousand digits 9 and behind them, and what `run` then writes, or every subcommand on a circuit where it
# is a refusal.
NINES = [
    ("H ", "", "refused 20 line 1\n"),
    ("M !", "", "refused 20 line 1\n"),
    ("MPP X0*Z", "", "refused 20 line 1\n"),
    ("CX 0 ", "", "refused 20 line 1\n"),
    ("DETECTOR rec[-", "]", "refused 20 line 1\n"),
    ("DETECTOR(", ")", "refused 20 line 1\n"),
    ("SHIFT_COORDS(0, -", ")", "refused 20 line 1\n"),
    ("OBSERVABLE_INCLUDE(", ")", "refused 20 line 1\n"),
    ("REPEAT ", " {", "refused 20 line 1\n"),
    ("X_ERROR(", ") 0", "refused 14 line 1\n"),
    ("X_ERROR(0.", ") 0", "refused 14 line 1\n"),
    ("X_ERROR(1e-", ") 0", "refused 14 line 1\n"),
    ("R ", "", "refused 20 line 1\n"),
    ("MPP !X", "*Z1", "refused 20 line 1\n"),
    ("E(0.1) X", "", "refused 20 line 1\n"),
    ("X_ERROR(0.1) ", "", "refused 20 line 1\n"),
    ("QUBIT_COORDS(0) ", "", "refused 20 line 1\n"),
    ("CX rec[-", "] 0", "refused 20 line 1\n"),
    ("CZ 0 rec[-", "]", "refused 20 line 1\n"),
    ("OBSERVABLE_INCLUDE(0) rec[-", "]", "refused 20 line 1\n"),
    ("DETECTOR(-", ")", "refused 20 line 1\n"),
    ("SHIFT_COORDS(", ")", "refused 20 line 1\n"),
    ("M(", ") 0", "refused 14 line 1\n"),
    ("MPP(0.", ") X0", "refused 14 line 1\n"),
    ("E(", ") X0", "refused 14 line 1\n"),
    ("E(1e", ") X0", "refused 14 line 1\n"),
    ("E(-", ") X0", "refused 14 line 1\n"),
    ("QUBIT_COORDS(1e", ") 0", "refused 13 line 1\n"),
    ("H rec[-", "]", "refused 15 line 1\n"),
    ("QUBIT_COORDS(", ") 0", "\n\n"),
    ("QUBIT_COORDS(-0.", "e1) 0", "\n\n"),
    ("X[", "] 0\nM 0", "1\n\n"),
    ("X 0 # ", "\nM 0", "1\n\n"),
    ("", "", "refused 11 line 1\n"),
]


class Limits(ProgramTest):
    def test_lines_at_their_limits(self):
        self.check_rows((["run"], text, output, 0) for text, output in TAKEN)

    def test_lines_beyond_their_limits(self):
        self.check_refused(BEYOND)

    def test_totals_at_their_limits(self):
        self.check_rows((["run", "--faults", "x"], text, "refused 51 line 0\n", 2) for text in TOTALS_TAKEN)

    def test_quick_texts_at_their_limits(self):
        self.check_taken(QUICK)

    def test_totals_beyond_their_limits(self):
        self.check_refused(TOTALS_BEYOND)

    def test_nested_totals(self):
        for depth, line, output in NESTED:
            text = "REPEAT 2 {\n" * depth + line + "}\n" * depth
            with self.subTest(depth=depth, line=line):
                self.check(["run", "--faults", "x"], text, output, 2)

    def test_many_records(self):
        """More than a million records, by blocks inside one another."""
        text = "REPEAT 1001 {\nREPEAT 1000 {\nM 0\n}\n}\n"
        self.check(["run"], text, "0" * 1_001_000 + "\n\n")
        self.check(["analyze"], text, "")

    def test_blocks_inside_one_another(self):
        """32 of one turn, 33, and 32 of many."""
        once, ends = "REPEAT 1 {\n" * 32, "}\n" * 32
        self.check_taken([once + ends])
        self.check_refused([(once + "REPEAT 1 {\n}\n" + ends, "refused 21 line 33\n")])
        self.check_refused([("REPEAT 999999999999999999 {\n" * 32 + ends, "refused 23 line 0\n")])


class LongNumbers(ProgramTest):
    def test_numbers_of_many_digits(self):
        nines = "9" * 10_000
        refused = [row for row in NINES if row[2].startswith("refused")]
        self.check_refused((before + nines + after, line) for before, after, line in refused)
        taken = [row for row in NINES if row not in refused]
        self.check_runs([(None, "", before + nines + after, output) for before, after, output in taken], 0)

    def test_numbers_with_many_zeros(self):
        zeros = "0" * 10_000
        self.check_runs([("1", "", before + zeros + after, output) for before, after, output in ZEROS], 0)

    def test_what_is_written_of_long_numbers(self):
        """A probability is written as it stands, and a qubit by its number."""
        zeros = "0" * 10_000
        self.check(["analyze"], f"M( {zeros}.5 ) 0\nDETECTOR rec[-1]", f"error({zeros}.5) D0\ndetector D0\n")
        self.check(["faults"], f"H {zeros}5\nX_ERROR(0.1) {zeros}5\n", "0 0.1 X5\ncoins 0\n")

    def test_lists_of_many_digits(self):
        """Lists of ten thousand times a digit, for a run with one fault and one coin."""
        text = "X_ERROR(1) 0\nM 0"
        self.check(["run", "--faults", "9" * 10_000], text, "refused 51 line 0\n", 2)
        self.check(["run", "--faults", "0" * 10_000], text, "1\n\n")
        self.check(["run", "--coins", "0" * 10_000], text, "refused 50 line 0\n", 2)


class LongTexts(ProgramTest):
    """None is answered with a want of memory."""

    def test_texts_of_many_lines(self):
        """Of each size about the powers of two that a table or a piece might have."""
        for lines in 100, 511, 512, 513, 1_023, 1_025, 8_191, 8_193, 70_000:
            self.check_taken(["X 0 1\nM 1\n" * lines + "DETECTOR rec[-1]\n"])

    def test_far_lines(self):
        """Empty lines, and then one that is refused by its number, or one that isn't."""
        for lines in 300, 70_000, 1_000_000:
            self.check_refused([("\n" * lines + "DETECTOR rec[-1]\n", f"refused 22 line {lines + 1}\n")])
            self.check_taken(["\n" * lines + "M 0\n"])

    def test_a_line_of_many_pairs(self):
        """One after another on one line: an odd number of them."""
        self.check(["run"], "X 0\nCX" + " 0 1" * 100_001 + "\nM 1\n", "1\n\n")

    def test_an_observable_that_a_thousand_errors_flip(self):
        text = "REPEAT 1000 {\nX_ERROR(0.001) 0\nMR 0\nOBSERVABLE_INCLUDE(0) rec[-1]\n}\n"
        self.check(["analyze"], text, "error(0.001) L0\n" * 1_000 + "logical_observable L0\n")
