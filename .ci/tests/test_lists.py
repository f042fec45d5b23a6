"""Coins and lists of faults that are given to a run. All by hand."""
from program import ProgramTest, bits, listed

# Two qubits, and a fault that flips both.
PAIR = "X_ERROR(0.1) 0\nCX 0 1\nM 0 1\n"

# The coins, or all 0, the faults, a text, and what `run` writes.
TAKEN = [
    (None, "", "", "\n\n"),
    ("", "", "", "\n\n"),
    ("01", "00000000000000000000000000", PAIR, "11\n\n"),
    ("01", "0", PAIR, "11\n\n"),
    # Three collapses and two records.
    ("111", "", "M 0\nR 0\nM 0\n", "00\n\n"),
    (None, "1,00", "X_ERROR(0) 0 1\nM 0 1\n", "11\n\n"),
    # Two turns have two faults and two coins each.
    ("0101", "0,3", "REPEAT 2 {\nX_ERROR(0.1) 0 1\nM 0 1\n}\nDETECTOR rec[-1]\nDETECTOR rec[-2]\n", "1011\n11\n"),
]

# The same, with the line of a refusal.
REFUSED = [
    ("", "", PAIR, "refused 50 line 0\n"),
    ("0", "", PAIR, "refused 50 line 0\n"),
    ("000", "", PAIR, "refused 50 line 0\n"),
    ("02", "", PAIR, "refused 50 line 0\n"),
    ("0x", "x", PAIR, "refused 50 line 0\n"),
    ("11", "", "M 0\nR 0\nM 0\n", "refused 50 line 0\n"),
    ("00", "", "M 0", "refused 50 line 0\n"),
    ("0", "", "MPP X0*X1 Z0*Z1", "refused 50 line 0\n"),
    ("01", "", "H 0\nM 0\nDETECTOR rec[-1]\n", "refused 50 line 0\n"),
    (None, "0", "H 0\nM 0\nDETECTOR rec[-1]\n", "refused 51 line 0\n"),
    (None, "0,0", "X_ERROR(0.1) 0\nM 0\nDETECTOR rec[-1]\n", "refused 51 line 0\n"),
    (None, "0,0", PAIR, "refused 51 line 0\n"),
    (None, "0,00", PAIR, "refused 51 line 0\n"),
    (None, "1", PAIR, "refused 51 line 0\n"),
    (None, "18446744073709551616", PAIR, "refused 51 line 0\n"),
    (None, ",", PAIR, "refused 51 line 0\n"),
    (None, "0,", PAIR, "refused 51 line 0\n"),
    (None, ",0", PAIR, "refused 51 line 0\n"),
    (None, " 0", PAIR, "refused 51 line 0\n"),
    (None, "+0", PAIR, "refused 51 line 0\n"),
    (None, "1", "X_ERROR(0.1) 0", "refused 51 line 0\n"),
    (None, "0", "M 0\n", "refused 51 line 0\n"),
    # The text comes first.
    ("2", "x", "M 0\nFOO 0", "refused 11 line 2\n"),
]


class Lists(ProgramTest):
    def test_lists_are_taken(self):
        self.check_runs(TAKEN, 0)

    def test_lists_are_refused(self):
        self.check_runs(REFUSED, 2)

    def test_each_of_many_faults_happens(self):
        """Each flips the qubit. A longer list doesn't fit a word of a command line."""
        for count in 9, 99, 1_001, 20_000:
            with self.subTest(count=count):
                words = ["run", "--coins", "1", "--faults", listed(range(count))]
                self.check(words, "X_ERROR(0.5) 0\n" * count + "M 0\n", f"{bits([count % 2])}\n\n")

    def test_each_of_many_measurements_has_a_coin(self):
        """None of them is random."""
        for count in 9, 99, 1_001, 30_000, 130_000:
            with self.subTest(count=count):
                self.check(["run", "--coins", "1" * count], "M 0\n" * count, "0" * count + "\n\n")
