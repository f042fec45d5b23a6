"""The command line: each option with a value that changes what is written, alone and with others, and each status.

A row has the words, the input, what is written and the exit status; all by hand.
"""
from program import ProgramTest, bits, listed, run_program

REFUSED = "refused {} line 0\n"

USAGE = "usage\n"

# Fault 0 turns record 0, which the detector reads; record 1 is the second coin, which the observable reads.
CIRCUIT = "X_ERROR(0.1) 0\nH 1\nM 0 1\nDETECTOR rec[-2]\nOBSERVABLE_INCLUDE(0) rec[-1]\n"

RUNS = [
    (["run"], CIRCUIT, "00\n00\n", 0),
    (["run", "--coins", "01"], CIRCUIT, "01\n01\n", 0),
    # The coin of a measurement that isn't random is not used.
    (["run", "--coins", "10"], CIRCUIT, "00\n00\n", 0),
    (["run", "--faults", "0"], CIRCUIT, "10\n10\n", 0),
    (["run", "--coins", "01", "--faults", "0"], CIRCUIT, "11\n11\n", 0),
    (["run", "--faults", "0", "--coins", "01"], CIRCUIT, "11\n11\n", 0),
    (["run", "--faults", "0", "--coins", "00"], CIRCUIT, "10\n10\n", 0),
    (["run", "--faults", "", "--coins", "01"], CIRCUIT, "01\n01\n", 0),
    (["run", "--coins=01", "--faults=0"], CIRCUIT, "11\n11\n", 0),
    (["run", "--faults=000"], CIRCUIT, "10\n10\n", 0),
    (["run", "--coins", "0"], CIRCUIT, REFUSED.format(50), 2),
    (["run", "--coins", "012"], CIRCUIT, REFUSED.format(50), 2),
    (["run", "--coins", ""], CIRCUIT, REFUSED.format(50), 2),
    (["run", "--coins", "0x"], CIRCUIT, REFUSED.format(50), 2),
    (["run", "--faults", "1"], CIRCUIT, REFUSED.format(51), 2),
    (["run", "--faults", "0,0"], CIRCUIT, REFUSED.format(51), 2),
    (["run", "--faults", "0,"], CIRCUIT, REFUSED.format(51), 2),
    # The coins are judged first, and the text before both.
    (["run", "--faults", "1", "--coins", "0"], CIRCUIT, REFUSED.format(50), 2),
    (["run", "--faults", "1", "--coins", "0"], "M 0\nCX 0\n", "refused 16 line 2\n", 2),
]

# Faults that always and that never happen.
CERTAIN = "X_ERROR(1) 0\nX_ERROR(0) 1\nM 0 1\nDETECTOR rec[-2]\nDETECTOR rec[-1]\nDETECTOR rec[-2]\n"

SHOTS = [
    (["sample", "--shots", "3"], CERTAIN, "10\n10\n10\n", 0),
    (["detect", "--shots", "2"], CERTAIN, "101\n101\n", 0),
    (["sample", "--shots=1", "--seed=9"], CERTAIN, "10\n", 0),
    (["detect", "--seed", "18446744073709551615", "--shots", "1"], CERTAIN, "101\n", 0),
    (["sample", "--shots", "0"], CERTAIN, "", 0),
    (["detect", "--shots", "0"], CERTAIN, "", 0),
    (["sample", "--shots", "1000001"], CERTAIN, REFUSED.format(52), 2),
    (["detect", "--shots", "1000001"], CERTAIN, REFUSED.format(52), 2),
    (["sample", "--shots", "18446744073709551615"], CERTAIN, REFUSED.format(52), 2),
    (["sample", "--shots", "18446744073709551616"], CERTAIN, USAGE, 2),
    (["sample", "--shots", "1", "--seed", "18446744073709551616"], CERTAIN, USAGE, 2),
    (["sample", "--shots", "1", "--seed", "-1"], CERTAIN, USAGE, 2),
    (["sample", "--shots", "1", "--seed", "x"], CERTAIN, USAGE, 2),
    (["sample", "--shots", "1", "--seed", ""], CERTAIN, USAGE, 2),
    (["sample", "--shots", "-1"], CERTAIN, USAGE, 2),
    (["sample", "--shots", "1e3"], CERTAIN, USAGE, 2),
    (["sample"], CERTAIN, USAGE, 2),
    (["detect", "--seed", "1"], CERTAIN, USAGE, 2),
    (["sample", "--shots", "1"], "M 0\nFOO\n", "refused 11 line 2\n", 2),
]

MODEL = "error(0.1) D0 L0\nerror(0.2) D1 L0\nerror(0.3) D2 L1\n"

PREDICTIONS = [
    (["predict"], MODEL, "00000\n", 0),
    (["predict", "--lines", ""], MODEL, "00000\n", 0),
    (["predict", "--lines", "0"], MODEL, "10010\n", 0),
    (["predict", "--lines", "0,1"], MODEL, "11000\n", 0),
    (["predict", "--lines=2,0,1"], MODEL, "11101\n", 0),
    (["predict", "--lines", "3"], MODEL, REFUSED.format(51), 2),
    (["predict", "--lines", "1,1"], MODEL, REFUSED.format(51), 2),
    (["predict", "--lines", "0;1"], MODEL, REFUSED.format(51), 2),
    (["predict", "--lines", "3"], "error(2) D0\n", "refused 41 line 1\n", 2),
]

OTHERS = [
    (["analyze"], "X_ERROR(0.1) 0\nM 0\nDETECTOR rec[-1]\n", "error(0.1) D0\ndetector D0\n", 0),
    (["analyze"], "", "", 0),
    (["analyze"], "H 0\nM 0\nDETECTOR rec[-1]\n", "random D0\n0\n1\n", 3),
    (["analyze"], "H 0\nM 0\nDETECTOR\nOBSERVABLE_INCLUDE(1) rec[-1]\n", "random L1\n0\n1\n", 3),
    (["analyze"], "H 0\nM 0 1\nM(2) 0\n", "refused 14 line 3\n", 2),
    (["faults"], "E(0.2) X1 Z0 Y1\nE(0.2) X0 X0\nM(0.3) 0\n", "0 0.2 Z0*Z1\n1 0.2 I\n2 0.3 rec[0]\ncoins 1\n", 0),
    (["faults"], "", "coins 0\n", 0),
    (["faults"], "DEPOLARIZE1(0.1) 0\n", "refused 12 line 1\n", 2),
]

# Refused before the input is read.
MISUSES = [
    [], [""], ["walk"], ["run", "now"], ["run", "--faults"], ["run", "--coins"], ["run", "--seed", "1"],
    ["run", "--shots", "1"], ["analyze", "--faults", "0"], ["analyze", "--seed", "1"], ["faults", "--lines", "0"],
    ["predict", "--faults", "0"], ["predict", "--lines"], ["detect", "--shots"], ["--faults", "0", "run"],
]


class Options(ProgramTest):
    def test_coins_and_faults_of_run(self):
        self.check_rows(RUNS)

    def test_shots_and_seeds(self):
        self.check_rows(SHOTS)

    def test_lines_of_predict(self):
        self.check_rows(PREDICTIONS)

    def test_subcommands_without_options(self):
        self.check_rows(OTHERS)

    def test_refused_command_lines(self):
        self.check_rows([(words, CIRCUIT, USAGE, 2) for words in MISUSES])

    def test_bytes_that_are_no_text(self):
        self.check(["run", "--coins", b"\xff"], CIRCUIT, USAGE, 2)

    def test_help(self):
        """Help ends with 0, and names what the command line takes."""
        names = {
            "--help": ["run", "sample", "detect", "analyze", "faults", "predict"],
            "run --help": ["--coins", "--faults"],
            "sample --help": ["--shots", "--seed"],
            "detect --help": ["--shots", "--seed"],
            "analyze --help": ["analyze"],
            "faults --help": ["faults"],
            "predict --help": ["--lines"],
        }
        for words, shown in names.items():
            with self.subTest(words=words):
                written, status = run_program(words.split(), "")
                self.assertEqual(status, 0)
                for name in shown:
                    self.assertIn(name, written.decode())


class LongLists(ProgramTest):
    """Lists of hundreds of bytes, of which each byte counts."""

    def test_coins(self):
        """200 coins, each of which is a record; the last one is 1, and the lists of 199 and of 201 are refused."""
        coins = bits(k % 7 in (1, 2, 6) for k in range(199)) + "1"
        circuit = "REPEAT 200 {\nH 0\nM 0\n}\n"
        self.check(["run", "--coins", coins], circuit, f"{coins}\n\n")
        self.check(["run", f"--coins={coins}"], circuit, f"{coins}\n\n")
        self.check(["run", "--coins", coins[:-1]], circuit, REFUSED.format(50), 2)
        self.check(["run", "--coins", coins + "0"], circuit, REFUSED.format(50), 2)

    def test_faults(self):
        """67 numbers in more than 200 bytes, descending. One that is named twice, or is too large, is refused."""
        numbers = list(range(198, -1, -3))
        circuit = "REPEAT 200 {\nX_ERROR(0.1) 0\nMR 0\nDETECTOR rec[-1]\n}\n"
        flipped = bits(k % 3 == 0 for k in range(200))
        self.assertGreater(len(listed(numbers)), 200)
        self.check(["run", "--faults", listed(numbers)], circuit, f"{flipped}\n{flipped}\n")
        self.check(["run", "--faults", listed([*numbers, 198])], circuit, REFUSED.format(51), 2)
        self.check(["run", "--faults", listed([*numbers, 200])], circuit, REFUSED.format(51), 2)

    def test_coins_and_faults(self):
        """Both lists at once: a record is its coin, turned by its fault; a detection is the same."""
        circuit = "REPEAT 120 {\nH 0\nMR(0.1) 0\nDETECTOR rec[-1]\n}\n"
        coins = [k % 5 in (0, 3) for k in range(120)]
        numbers = [k for k in range(120) if k % 4 in (1, 2)]
        records = bits(coin != (k in numbers) for k, coin in enumerate(coins))
        for words in (
            ["--coins", bits(coins), "--faults", listed(numbers)],
            [f"--faults={listed(numbers)}", f"--coins={bits(coins)}"],
        ):
            self.check(["run", *words], circuit, f"{records}\n{records}\n")

    def test_lines(self):
        """60 numbers in more than 200 bytes."""
        numbers = list(range(0, 180, 3))
        model = "".join(f"error(0.1) D{k} L{k % 2}\n" for k in range(180))
        self.assertGreater(len(listed(numbers)), 200)
        # Thirty of them are even and thirty are odd, so the observables cancel.
        flipped = bits(k % 3 == 0 for k in range(180)) + "00"
        self.check(["predict", "--lines", listed(numbers)], model, flipped + "\n")
        self.check(["predict", "--lines", listed(numbers[:-1])], model, flipped[:177] + "00001\n")
        self.check(["predict", "--lines", listed([*numbers, 177])], model, REFUSED.format(51), 2)
        self.check(["predict", "--lines", listed([*numbers, 180])], model, REFUSED.format(51), 2)
