"""Shots that are drawn: rows worked by hand, and the shots of a text beside its runs.

A seed's words are worked by hand from the generator's, or drawn by the tests' own generator.
"""
from drawn_texts import draw_text
from pcg64 import draw_shots
from program import ProgramTest, bits, listed, run_program
from shot_texts import TEXTS

# A block with a fault of probability 1 in each turn.
TWO_TURNS = (
    "R 0 1\nREPEAT 2 {\nX_ERROR(1) 0\nCX 0 1\nMR 1\nDETECTOR(0, 0) rec[-1]\nSHIFT_COORDS(0, 1)\n}\n"
    "M 0\nOBSERVABLE_INCLUDE(0) rec[-1]\n"
)

# Texts whose shots all write one line, whatever is drawn: that of `sample`, and that of `detect`.
ALIKE = [
    ("", "\n", "\n"),
    ("X 0\nM 0\nDETECTOR rec[-1]\n", "1\n", "0\n"),
    ("X_ERROR(1) 0\nX_ERROR(0) 1\nM 0 1\n", "10\n", "\n"),
    ("X_ERROR(1) 0\nM 0\nDETECTOR rec[-1]\n", "1\n", "1\n"),
    (TWO_TURNS, "100\n", "100\n"),
    # The letters of an error come together, each at a state that it turns.
    ("RX 2\nE(1) X0 Y1 Z2\nM 0 !1\nMX 2\nDETECTOR rec[-1]\nDETECTOR rec[-2] rec[-3]\n", "101\n", "10\n"),
    # A reset goes by what was measured, and neither by what is inverted nor by a flip.
    ("RY 0\nZ_ERROR(1) 0\nMRY !0\nMY 0\nMRY(1) 0\nMY 0\n", "0010\n", "\n"),
    ("RX 1\nMR(1) !0\nMRX(0) 1\nM 0\nMX 1\nDETECTOR rec[-4]\n", "0000\n", "1\n"),
    # A Bell pair, in which X0*X1 and Z0*Z1 are 0, and Y0*Y1 is 1.
    ("H 0\nCX 0 1\nMPP(1) X0*X1 !Z0*Z1\nMPP Y0*Y1\nDETECTOR rec[-1] rec[-2]\n", "101\n", "1\n"),
    # Records are fed back flipped.
    ("X 0\nM(1) 0\nCX rec[-1] 1 rec[-1] 0\nM 0 1\nDETECTOR rec[-2]\nDETECTOR rec[-1]\n", "010\n", "11\n"),
    # A detector and observables without records.
    ("OBSERVABLE_INCLUDE(2)\nM(1) 0\nDETECTOR\n", "1\n", "0000\n"),
]

# A random record, a fault, and a record that is flipped: each shot takes the words of two faults and of two coins.
MIXED = "H 0\nX_ERROR(0.5) 1\nM 0\nM(0.25) 1\nDETECTOR rec[-1]\nOBSERVABLE_INCLUDE(0) rec[-2]\n"

GREATEST = 2**64 - 1

# The shots, the seed, a text, and what `sample` writes. The first words of the generator of seed 5 are, by their first and
# last two hexadecimal digits, 61..fc, 94..ad, 44..cd, 92..c2, b8..11, 43..59, 2f..e2, 1b..58, 95..5b, b7..c4, 27..bd, 71..59,
# 5f..7b, 5b..d0, bd..e5, 07..3f, 0e..57, aa..8a, bc..1b, f6..cc, 95..e1.
SAMPLES = [
    (2, 0, "", "\n\n"),
    (0, 0, "", ""),
    (1_000_000, 0, "", "\n" * 1_000_000),
    (2, 7, "X_ERROR(1) 0\nX_ERROR(0) 1\nM 0 1\n", "10\n10\n"),
    (8, 5, "H 0\nM 0\n", "0\n1\n1\n0\n1\n1\n0\n0\n"),
    (3, 5, "H 0\nM !0\n", "1\n0\n0\n"),
    (4, 5, "X_ERROR(0.5) 0\nM 0\n", "1\n1\n0\n1\n"),
    (5, 5, MIXED, "11\n00\n10\n11\n11\n"),
    (3, 5, "REPEAT 2 {\nX_ERROR(0.5) 0\nMR 0\n}\n", "10\n01\n00\n"),
    # A reset has a coin and no record, and so has a collapse that isn't random.
    (4, 5, "H 0\nR 0\nH 0\nM 0\n", "1\n0\n1\n0\n"),
    (4, 5, "M 0\nH 0\nM 0\n", "01\n00\n01\n00\n"),
    (4, 5, "H 0\nM 0\nCX rec[-1] 1\nM 1\n", "00\n11\n11\n00\n"),
    (5, 5, "MPP X0*X1\nM 0 1\n", "011\n011\n000\n011\n100\n"),
    # The first word is 0.3802525311366469482.. of 2 to the 64.
    (1, 5, "X_ERROR(0.380252531136646948) 0\nM 0\n", "0\n"),
    (1, 5, "X_ERROR(0.380252531136646949) 0\nM 0\n", "1\n"),
    # The first words of seed 0 end with 53, fb, 31 and da, and those of the greatest with 71, 1a, 21 and 2e.
    (4, 0, "H 0\nM 0\n", "1\n1\n1\n0\n"),
    (4, GREATEST, "H 0\nM 0\n", "1\n0\n1\n0\n"),
]

# The same, and what `detect` writes.
DETECTIONS = [
    (0, 0, "DETECTOR\n", ""),
    (2, 0, "X_ERROR(1) 0\nM 0\nDETECTOR rec[-1]\n", "1\n1\n"),
    (5, 5, MIXED, "11\n00\n01\n11\n11\n"),
    # A random target differs where its coin is 1.
    (3, 5, "H 0\nM !0\nDETECTOR rec[-1]\n", "0\n1\n1\n"),
    (4, 5, "H 0\nM 0\nCX rec[-1] 0\nM 0\nDETECTOR rec[-1]\nDETECTOR rec[-2]\n", "00\n01\n01\n00\n"),
    (
        5,
        5,
        "MPP X0*X1\nM 0 1\nDETECTOR rec[-1] rec[-2]\nOBSERVABLE_INCLUDE(1) rec[-1] rec[-3]\n",
        "001\n001\n000\n001\n001\n",
    ),
]

# The shots, a text, and the line that refuses both orders.
REFUSED = [
    (1_000_001, "", "refused 52 line 0\n"),
    (1_000_001, "M 0\n", "refused 52 line 0\n"),
    (1_000_001, TWO_TURNS, "refused 52 line 0\n"),
    (GREATEST, "H 0\nM 0\n", "refused 52 line 0\n"),
    # The text comes first.
    (1_000_001, "M 0\nFOO 0", "refused 11 line 2\n"),
    (1_000_001, "REPEAT 8000001 {\nM 0\n}\n", "refused 24 line 0\n"),
    (0, "M 0\nDETECTOR rec[-2]\n", "refused 22 line 2\n"),
]


def asked(order, shots, seed):
    return [order, "--shots", str(shots), "--seed", str(seed)]


class WorkedShots(ProgramTest):
    def test_shots_that_are_alike(self):
        """Numbers of shots about those that go side by side."""
        for shots in 0, 1, 2, 63, 64, 65, 127, 128, 130:
            self.check_rows((asked("sample", shots, 0), text, line * shots, 0) for text, line, _ in ALIKE)
            self.check_rows((asked("detect", shots, 0), text, line * shots, 0) for text, _, line in ALIKE)

    def test_samples(self):
        self.check_rows((asked("sample", shots, seed), text, output, 0) for shots, seed, text, output in SAMPLES)

    def test_detections(self):
        self.check_rows((asked("detect", shots, seed), text, output, 0) for shots, seed, text, output in DETECTIONS)

    def test_refused_shots(self):
        for order in "sample", "detect":
            self.check_rows((asked(order, shots, seed), text, line, 2) for shots, text, line in REFUSED for seed in (0, 3))


class ShotsBesideRuns(ProgramTest):
    """The shots of a text are its runs with the faults and coins that the tests' own generator draws."""

    def check_shots(self, text, shots, seed):
        *faults, coins = run_program(["faults"], text)[0].decode().splitlines()
        probabilities = [line.split(" ")[1] for line in faults]
        sample, detect = "", ""
        for happened, tossed in draw_shots(seed, shots, probabilities, int(coins.removeprefix("coins "))):
            words = ["run", "--coins", bits(tossed), "--faults", listed(k for k, happens in enumerate(happened) if happens)]
            written, status = run_program(words, text)
            self.assertEqual(status, 0)
            records, detections, _ = written.decode().split("\n")
            sample += records + "\n"
            detect += detections + "\n"
        with self.subTest(text=text, seed=seed):
            self.check(asked("sample", shots, seed), text, sample)
            self.check(asked("detect", shots, seed), text, detect)

    def test_shots_of_fixed_texts(self):
        """Two batches of shots that go side by side, and a short one."""
        for seed, text in enumerate(TEXTS):
            self.check_shots(text, 130, seed)

    def test_shots_of_drawn_texts(self):
        """A batch, and a short one."""
        for seed in range(1, 21):
            self.check_shots(draw_text(seed), 66, seed)
