"""Command lines with what they write for an input, and how they end: of each subcommand, and help. All by hand."""
from program import ProgramTest, listed, run_program

PAIR = "X_ERROR(0.1) 0\nCX 0 1\nM 0 1\n"

DETECTED = "X_ERROR(0.1) 0\nM 0\nDETECTOR rec[-1]\n"

FLIPPED = "X_ERROR(1) 0\nX_ERROR(0) 1\nM 0 1\nDETECTOR rec[-2]\n"

MODEL = "error(0.1) D0 L0\nerror(0.2) D1 L0\n"

# Its first record is its coin, and its second one is 1 where its fault happens.
CHOSEN = "H 0\nM 0\nX_ERROR(0.5) 1\nM 1\nDETECTOR rec[-2]\nDETECTOR rec[-1]\n"

# A turn has a fault, a record that the fault flips, and a record that is its coin.
TURNS = "REPEAT 120 {\nX_ERROR(0.5) 0\nMR 0\nH 1\nM 1\n}\n"

# The even numbers below 120.
EVENS = listed(range(0, 120, 2))

# The coins of TURNS that are 0 for the reset qubit, and in turn 0 and 1 for the other.
COINS = "0001" * 60

EVEN_FAULTS = "1000" * 60 + "\n\n"

ODD_COINS = "0001" * 60 + "\n\n"

BOTH = "1001" * 60 + "\n\n"

RUNS = [
    (["run"], CHOSEN, "00\n00\n", 0),
    (["run", "--coins", "10"], CHOSEN, "10\n10\n", 0),
    (["run", "--coins=11"], CHOSEN, "10\n10\n", 0),
    (["run", "--coins", "01"], CHOSEN, "00\n00\n", 0),
    (["run", "--faults", "0"], CHOSEN, "01\n01\n", 0),
    (["run", "--coins", "10", "--faults", "0"], CHOSEN, "11\n11\n", 0),
    (["run", "--faults=0", "--coins=10"], CHOSEN, "11\n11\n", 0),
    (["run", "--faults", EVENS], TURNS, EVEN_FAULTS, 0),
    (["run", "--coins", COINS], TURNS, ODD_COINS, 0),
    (["run", "--faults", EVENS, "--coins", COINS], TURNS, BOTH, 0),
    (["run"], PAIR, "00\n\n", 0),
    (["run", "--faults", "0"], PAIR, "11\n\n", 0),
    (["run", "--faults=0"], PAIR, "11\n\n", 0),
    (["run", "--coins", "01"], PAIR, "00\n\n", 0),
    (["run", "--coins", "01", "--faults", "0"], PAIR, "11\n\n", 0),
    (["run", "--faults", "0", "--coins", "10"], PAIR, "11\n\n", 0),
    (["run", "--faults", ""], PAIR, "00\n\n", 0),
    (["run", "--faults", "1"], PAIR, "refused 51 line 0\n", 2),
    (["run", "--faults", "0,0"], PAIR, "refused 51 line 0\n", 2),
    (["run", "--coins", ""], PAIR, "refused 50 line 0\n", 2),
    (["run", "--coins", "0"], PAIR, "refused 50 line 0\n", 2),
    (["run"], "M 0\nDETECTOR rec[-2]\n", "refused 22 line 2\n", 2),
    (["run"], DETECTED, "0\n0\n", 0),
    (["run", "--faults", "0"], DETECTED, "1\n1\n", 0),
]

ANALYSES = [
    (["analyze"], DETECTED, "error(0.1) D0\ndetector D0\n", 0),
    (["analyze"], "", "", 0),
    (["analyze"], "H 0\nM 0\nDETECTOR rec[-1]\n", "random D0\n0\n1\n", 3),
    (["analyze"], "MX 0\nOBSERVABLE_INCLUDE(0) rec[-1]\n", "random L0\n0\n1\n", 3),
    (["analyze"], "M 0\nFOO\n", "refused 11 line 2\n", 2),
]

# Eight faults that each shot has by its own words, of which the first and the last are detected.
SEEDED = "X_ERROR(0.5) 0 1 2 3 4 5 6 7\nM 0 1 2 3 4 5 6 7\nDETECTOR rec[-8]\nDETECTOR rec[-1]\n"

# What the generator of the seeds 0, 5 and 2^64 - 1 gives, worked by another program.
SEEDED_SHOTS = [
    (["sample", "--shots", "2"], SEEDED, "11010110\n10111001\n", 0),
    (["sample", "--shots", "2", "--seed", "0"], SEEDED, "11010110\n10111001\n", 0),
    (["sample", "--shots", "1", "--seed", "0"], SEEDED, "11010110\n", 0),
    (["sample", "--shots", "2", "--seed", "5"], SEEDED, "10100111\n10000011\n", 0),
    (["sample", "--seed=5", "--shots=1"], SEEDED, "10100111\n", 0),
    (["sample", "--shots", "2", "--seed", "18446744073709551615"], SEEDED, "00010111\n11011011\n", 0),
    (["detect", "--shots", "2"], SEEDED, "10\n11\n", 0),
    (["detect", "--shots", "2", "--seed", "0"], SEEDED, "10\n11\n", 0),
    (["detect", "--shots", "1", "--seed", "0"], SEEDED, "10\n", 0),
    (["detect", "--shots", "2", "--seed", "5"], SEEDED, "11\n11\n", 0),
    (["detect", "--seed", "18446744073709551615", "--shots", "2"], SEEDED, "01\n11\n", 0),
]

SHOTS = [
    (["sample", "--shots", "2"], FLIPPED, "10\n10\n", 0),
    (["sample", "--shots", "0"], FLIPPED, "", 0),
    (["sample", "--shots=002", "--seed=007"], FLIPPED, "10\n10\n", 0),
    (["sample", "--seed", "18446744073709551615", "--shots", "1"], FLIPPED, "10\n", 0),
    (["detect", "--shots", "3"], FLIPPED, "1\n1\n1\n", 0),
    (["detect", "--shots", "1", "--seed", "9"], FLIPPED, "1\n", 0),
    (["sample", "--shots", "1000001"], FLIPPED, "refused 52 line 0\n", 2),
    (["detect", "--shots", "18446744073709551615"], FLIPPED, "refused 52 line 0\n", 2),
    (["detect", "--shots", "1"], "M 0\nFOO\n", "refused 11 line 2\n", 2),
]

FAULTS = [
    (["faults"], PAIR, "0 0.1 X0\ncoins 2\n", 0),
    (["faults"], "", "coins 0\n", 0),
    (["faults"], "M 0\nFOO\n", "refused 11 line 2\n", 2),
]

SHIFTED = "repeat 120 {\nerror(0.1) D0\nshift_detectors 1\n}\n"

EVEN_LINES = "10" * 60 + "\n"

PREDICTIONS = [
    (["predict", "--lines", EVENS], SHIFTED, EVEN_LINES, 0),
    (["predict"], MODEL, "000\n", 0),
    (["predict"], "", "\n", 0),
    (["predict", "--lines", ""], MODEL, "000\n", 0),
    (["predict", "--lines", "0"], MODEL, "101\n", 0),
    (["predict", "--lines=1,0"], MODEL, "110\n", 0),
    (["predict", "--lines", "2"], MODEL, "refused 51 line 0\n", 2),
    (["predict", "--lines", "0,0"], MODEL, "refused 51 line 0\n", 2),
    (["predict"], DETECTED, "refused 40 line 1\n", 2),
    (["predict", "--lines", "0"], "error(2) D0\n", "refused 41 line 1\n", 2),
]

USAGE = [
    (["sample"], FLIPPED, "usage\n", 2),
    (["detect", "--seed", "1"], FLIPPED, "usage\n", 2),
    (["sample", "--shots"], FLIPPED, "usage\n", 2),
    (["sample", "--shots", ""], FLIPPED, "usage\n", 2),
    (["sample", "--shots", "+1"], FLIPPED, "usage\n", 2),
    (["sample", "--shots=-1"], FLIPPED, "usage\n", 2),
    (["sample", "--shots", "1e3"], FLIPPED, "usage\n", 2),
    (["sample", "--shots", " 1"], FLIPPED, "usage\n", 2),
    (["sample", "--shots", "18446744073709551616"], FLIPPED, "usage\n", 2),
    (["detect", "--shots", "x"], FLIPPED, "usage\n", 2),
    (["sample", "--shots", "1", "--seed", "18446744073709551616"], FLIPPED, "usage\n", 2),
    (["sample", "--shots", "1", "--seed", "x"], FLIPPED, "usage\n", 2),
    (["detect", "--shots", "1", "--seed", ""], FLIPPED, "usage\n", 2),
    (["detect", "--shots", "1", "--shots", "1"], FLIPPED, "usage\n", 2),
    (["sample", "--shots", "1", "--coins", "0"], FLIPPED, "usage\n", 2),
    (["faults", "--faults", "0"], DETECTED, "usage\n", 2),
    (["predict", "--faults", "0"], MODEL, "usage\n", 2),
    (["predict", "--lines"], MODEL, "usage\n", 2),
    (["predict", "0"], MODEL, "usage\n", 2),
    (["faults", "x"], DETECTED, "usage\n", 2),
    (["predict", "--lines", "0", "--lines", "0"], MODEL, "usage\n", 2),
    (["analyze", "--coins", "0"], DETECTED, "usage\n", 2),
    ([], DETECTED, "usage\n", 2),
    (["walk"], DETECTED, "usage\n", 2),
    (["run", "analyze"], DETECTED, "usage\n", 2),
    (["run", "--coins"], DETECTED, "usage\n", 2),
    (["run", "--shots", "1"], DETECTED, "usage\n", 2),
    (["run", "--coins", "0", "--coins", "0"], DETECTED, "usage\n", 2),
    (["analyze", "x"], DETECTED, "usage\n", 2),
]

# Words, and texts in the help that they ask for.
HELP = {
    "--help": [
        "Simulates stabilizer circuits",
        "  analyze  Writes the detector error model",
        "\nExit status:\n   0  Done.\n   1  Failed: ",
        "\n   2  Refused: ",
        "\n   3  Random: ",
        "stabsim analyze < examples/repetition_code.stim",
    ],
    "run --help": [
        "Runs a circuit once",
        "as --coins 0101 ",
        "as --faults 3,17, ",
        "stabsim run --faults 6,16 < ",
    ],
    "analyze --help": [
        "Writes the detector error model",
        "refused; 3 random.",
        "stabsim analyze < ",
    ],
    "sample --help": [
        "How many shots, at most 1000000",
        "stabsim sample --shots 10 ",
    ],
    "detect --help": [
        "as --seed 7 [default: 0]",
        "stabsim detect --shots 10 ",
    ],
    "faults --help": [
        "Lists the faults of a circuit",
        "stabsim faults < ",
    ],
    "predict --help": [
        "as --lines 6,16 [default: none]",
        "stabsim predict --lines 6,16 < ",
    ],
}

# How the line of each refusal begins in the program's help.
REFUSALS = [
    "10  Byte ",
    "11  Name ",
    "12  LeftOut            docs/FROM_STIM.md ",
    "13  Arguments ",
    "14  Probability ",
    "15  Target ",
    "16  Count ",
    "17  SameQubit ",
    "18  Block ",
    "19  RepeatZero ",
    "20  Number ",
    "21  Depth ",
    "22  RecordBeforeStart ",
    "23  Steps ",
    "24  Records ",
    "25  Detectors ",
    "40  DemName ",
    "41  DemArguments ",
    "42  DemTarget ",
    "43  DemBlock ",
    "44  DemNumber ",
    "45  DemRepeatZero ",
    "46  DemDepth ",
    "47  DemSteps ",
    "50  CoinCount ",
    "51  FaultNumber ",
    "52  Shots ",
]


class CommandLines(ProgramTest):
    def test_runs(self):
        self.check_rows(RUNS)

    def test_analyses(self):
        self.check_rows(ANALYSES)

    def test_shots(self):
        self.check_rows(SHOTS)
        self.check_rows(SEEDED_SHOTS)

    def test_faults(self):
        self.check_rows(FAULTS)

    def test_predictions(self):
        self.check_rows(PREDICTIONS)

    def test_usage(self):
        self.check_rows(USAGE)

    def test_a_long_output_is_written_whole(self):
        """An output of 42,002 bytes."""
        self.check(["run"], "REPEAT 42000 {\n    X 0\n    M 0\n}\n", "10" * 21_000 + "\n\n")


class Help(ProgramTest):
    def check_help(self, words, texts):
        written, status = run_program(words, "")
        self.assertEqual(status, 0)
        for text in texts:
            self.assertIn(text, written.decode())

    def test_help_is_written(self):
        """Help goes to the output, and its status is 0: of the program, and of each subcommand."""
        for words, texts in HELP.items():
            with self.subTest(words=words):
                self.check_help(words.split(), texts)

    def test_help_lists_the_refusals(self):
        """The program's help says what to do about each refusal."""
        self.check_help(["--help"], REFUSALS)
