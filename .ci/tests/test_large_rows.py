"""Large inputs, one and more for each subcommand: what is written and how the program ends.

A program that answers that memory ran out, with status 1, where some size passes a bound fails here. All expected bytes
follow from the formulas beside them. The sizes, and a test that passes each:

    predict     50 lines named                  LargePredictions, lines of 3000, written out and in a block
                500 error lines                 the same
                a text of 20,000 bytes          LargePredictions, written out and with shifts; LargeRuns, a refusal
                300 targets of a line           LargePredictions, an error line of 1000 targets
    analyze     2,000 faults                    LargeAnalyses, a block of 3000 turns, and 3000 detectors written out
                100 qubits and ten faults       LargeAnalyses, 200 qubits with 2400 faults
                100 targets of a line           LargeAnalyses, a fault that flips 500 detectors
                sets of 300 merged              LargeAnalyses, sets that overlap, equal sets, and sets by feedback
                300 coins of a random target    LargeRandomAnalyses
                a text of 20,000 bytes          LargeAnalyses, 3000 detectors written out
                an output of 2 MiB              LargeAnalyses, 2000 faults that flip 1000 detectors each
    sample,     500 records, 300 detectors      LargeShots, on 201 qubits and in a block
    detect      64 qubits                       the same, and 300 qubits at once
                1,000 faults                    LargeShots, all three
    run         500 coins or faults named       LargeRuns, 2000 coins and 667 faults
                100 qubits                      LargeRuns, 1000 qubits in one state
    faults      2,000 faults                    LargeFaultLists
                4,096 letters of a fault        the same, 100,000 letters and 300 turns

`test_limits_answered` has the limits of docs/FORMATS.md and greater powers of two.
"""
from program import ProgramTest, bits, listed, named

MANY = 3000

EVEN = range(0, MANY, 2)


class LargePredictions(ProgramTest):
    """`predict`"""

    def test_even_lines_of_3000_written_out(self):
        """1,500 lines named; 3,000 error lines; a text of 73,000 bytes; 3,007 detectors.

        Line k flips detector k and one of seven more.
        """
        model = "".join(f"error(0.001) D{k} D{MANY + k % 7}\n" for k in range(MANY))
        first = bits(k % 2 == 0 for k in range(MANY))
        last = bits(sum(k % 7 == r for k in EVEN) % 2 for r in range(7))
        self.check(["predict", "--lines", listed(EVEN)], model, first + last + "\n")

    def test_even_lines_of_3000_in_a_block(self):
        """1,500 lines named; 3,000 turns."""
        model = "repeat 3000 {\n    error(0.001) D0\n    shift_detectors 1\n}\nlogical_observable L2\n"
        output = bits(k % 2 == 0 for k in range(MANY)) + "000\n"
        self.check(["predict", "--lines", listed(EVEN)], model, output)

    def test_each_third_of_1500_lines_with_shifts(self):
        """500 lines named; 1,500 error lines with a shift behind each: a text of 55,000 bytes.

        Line k flips the detectors k and k + 1.
        """
        model = "error(0.001) D0 D1\nshift_detectors 1\n" * 1500
        output = bits(k % 3 != 2 for k in range(1500)) + "0\n"
        self.check(["predict", "--lines", listed(range(0, 1500, 3))], model, output)

    def test_a_line_of_100_targets_in_a_block_of_900000_turns(self):
        """90,000,000 targets are reached, a detector further each turn; the first turn and the last are named."""
        model = "repeat 900000 {\n    error(0.1)" + named("D", range(100)) + "\n    shift_detectors 1\n}\n"
        ends = "1" * 100
        self.check(["predict", "--lines", "0,899999"], model, ends + "0" * (899_999 - 100) + ends + "\n")

    def test_a_line_of_100000_targets_in_a_block_of_2000000_turns(self):
        """2 * 10^11 targets are reached, none of an error."""
        model = "repeat 2000000 {\n    detector(1, 2)" + named("D", range(100_000)) + "\n}\nerror(0.1) D7\n"
        self.check(["predict", "--lines", "0"], model, "0" * 7 + "1" + "0" * (100_000 - 8) + "\n")

    def test_a_line_of_2148_targets_in_a_block_of_2000000_turns(self):
        """Three turns are named, which flip each detector three times."""
        model = "repeat 2000000 {\n    error(0.1)" + named("D", range(2148)) + "\n}\n"
        self.check(["predict", "--lines", "0,1,1999999"], model, "1" * 2148 + "\n")

    def test_an_error_line_of_1000_targets(self):
        """Error lines of more than 300 targets, which cancel where both name a detector, and 1,024 observables."""
        model = "error(0.1)" + named("D", range(0, 3000, 3)) + " ^" + named("L", range(1024)) + "\n"
        model += "error(0.2)" + named("D", range(0, 3000, 5)) + "\n"
        detectors = bits((k % 3 == 0) != (k % 5 == 0) for k in range(2998))
        self.check(["predict", "--lines", "1,0"], model, detectors + "1" * 1024 + "\n")


class LargeAnalyses(ProgramTest):
    """`analyze`"""

    def test_more_text_than_is_held(self):
        """2,000 faults that flip 1,000 detectors each: 9.8 million bytes, found in parts."""
        circuit = "REPEAT 2000 {\n    X_ERROR(0.1) 0\n}\nREPEAT 1000 {\n    M 0\n    DETECTOR rec[-1]\n}\n"
        lines = ("error(0.1)" + named("D", range(1000)) + "\n") * 2000
        self.check(["analyze"], circuit, lines + "".join(f"detector D{k}\n" for k in range(1000)))

    def test_block_of_3000_turns(self):
        """3,000 faults, records and detectors; an output of 99,000 bytes."""
        circuit = "REPEAT 3000 {\n    X_ERROR(0.001) 0\n    MR 0\n    DETECTOR rec[-1]\n}\n"
        output = "".join(f"error(0.001) D{k}\n" for k in range(MANY))
        output += "".join(f"detector D{k}\n" for k in range(MANY))
        self.check(["analyze"], circuit, output)

    def test_3000_detectors_written_out(self):
        """12,000 lines: a text of 229,000 bytes; 3,000 faults; 1,024 observables."""
        circuit = "".join(
            f"X_ERROR(0.00{1 + k % 9}) {k % 7}\nMR {k % 7}\nDETECTOR({k}) rec[-1]\n"
            f"OBSERVABLE_INCLUDE({k % 1024}) rec[-1]\n"
            for k in range(MANY)
        )
        output = "".join(f"error(0.00{1 + k % 9}) D{k} L{k % 1024}\n" for k in range(MANY))
        output += "".join(f"detector({k}) D{k}\n" for k in range(MANY))
        output += "".join(f"logical_observable L{k}\n" for k in range(1024))
        self.check(["analyze"], circuit, output)

    def test_200_qubits_with_2400_faults(self):
        """200 qubits with more than ten faults; 2,400 faults. X on an even qubit reaches the qubit after it."""
        qubits = " ".join(str(q) for q in range(200))
        detectors = "".join(f"DETECTOR rec[-{200 - q}]\n" for q in range(200))
        circuit = f"R {qubits}\nREPEAT 12 {{\nX_ERROR(0.01) {qubits}\nCX {qubits}\nMR {qubits}\n{detectors}}}\n"
        output = ""
        for place in range(2400):
            reached = [place, place + 1] if place % 2 == 0 else [place]
            output += f"error(0.01){named('D', reached)}\n"
        output += "".join(f"detector D{place}\n" for place in range(2400))
        self.check(["analyze"], circuit, output)

    def test_a_fault_that_flips_500_detectors(self):
        """An error line of 500 targets: a qubit that is measured 500 times and never reset."""
        circuit = "X_ERROR(0.1) 0\nREPEAT 500 {\n    M 0\n    DETECTOR rec[-1]\n}\n"
        output = f"error(0.1){named('D', range(500))}\n" + "".join(f"detector D{k}\n" for k in range(500))
        self.check(["analyze"], circuit, output)

    def test_sets_of_more_than_300_that_overlap(self):
        """Sets of 650 and of 434 targets, of which 217 are in both, merged by a CX and by a fault on two qubits.

        The record of qubit 0 is in each detector of an even number, that of qubit 1 in each third.
        """
        count = 1300
        circuit = "X_ERROR(0.1) 0\nX_ERROR(0.2) 1\nCX 0 1\nX_ERROR(0.3) 0\nE(0.4) X0 X1\nM 0 1\n"
        for k in range(count):
            circuit += "DETECTOR" + " rec[-2]" * (k % 2 == 0) + " rec[-1]" * (k % 3 == 0) + "\n"
        first, second = range(0, count, 2), range(0, count, 3)
        either = [k for k in range(count) if (k % 2 == 0) != (k % 3 == 0)]
        self.assertEqual((len(first), len(second), len(either)), (650, 434, 650 + 434 - 2 * 217))
        output = f"error(0.1){named('D', either)}\nerror(0.2){named('D', second)}\n"
        output += f"error(0.3){named('D', first)}\nerror(0.4){named('D', either)}\n"
        output += "".join(f"detector D{k}\n" for k in range(count))
        self.check(["analyze"], circuit, output)

    def test_equal_sets_of_400_cancel(self):
        """Sets of 400 merged with themselves, by S and S_DAG: X flips the outcome of MX only between these."""
        circuit = "RX 0\nZ_ERROR(0.1) 0\nX_ERROR(0.2) 0\nS 0\nX_ERROR(0.3) 0\nS_DAG 0\nMX 0\n"
        circuit += "DETECTOR rec[-1]\n" * 400
        flipped = named("D", range(400))
        output = f"error(0.1){flipped}\nerror(0.3){flipped}\n" + "".join(f"detector D{k}\n" for k in range(400))
        self.check(["analyze"], circuit, output)

    def test_sets_of_400_by_feedback(self):
        """Sets of 400 and of 300 targets merged by a record that is fed back."""
        circuit = "X_ERROR(0.1) 0\nM(0.2) 0\nCX rec[-1] 1\nM(0.3) 1\n"
        circuit += "DETECTOR rec[-2]\n" * 100 + "DETECTOR rec[-1] rec[-2]\n" * 300 + "DETECTOR rec[-1]\n" * 100
        both = named("D", [k for k in range(500) if not 100 <= k < 400])
        output = f"error(0.1){both}\nerror(0.2){both}\nerror(0.3){named('D', range(100, 500))}\n"
        output += "".join(f"detector D{k}\n" for k in range(500))
        self.check(["analyze"], circuit, output)


def is_marked(k):
    """A pattern in which a place that is lost, doubled or moved shows."""
    return (k * k + k // 7) % 5 < 2


class LargeRandomAnalyses(ProgramTest):
    """`analyze` of random targets: two coin lists, and status 3."""

    def test_2000_coins_from_the_start(self):
        """2,001 coins. A frame from the start flips qubit 0 and not qubit 1, which are measured in a pattern."""
        targets = [0 if is_marked(k) else 1 for k in range(2000)] + [0]
        circuit = "H 0\n" + "".join(f"M {target}\n" for target in targets) + "DETECTOR rec[-1]\n"
        output = f"random D0\n{'0' * 2001}\n{bits(target == 0 for target in targets)}\n"
        self.check(["analyze"], circuit, output, 3)

    def test_2000_coins_from_a_collapse(self):
        """2,001 coins in blocks. The frame begins after the collapse in the middle."""
        circuit = "REPEAT 250 {\nM 0 1 1 0\n}\nMX 0\nREPEAT 250 {\nM 0 1 1 0\n}\nOBSERVABLE_INCLUDE(7) rec[-1]\n"
        output = f"random L7\n{'0' * 2001}\n{'0' * 1001}{'1001' * 250}\n"
        self.check(["analyze"], circuit, output, 3)

    def test_299_resets_on_300_qubits(self):
        """300 qubits and 1,000 coins. A frame reaches the qubits that a CX joins to qubit 0; resets clear it there."""
        joined = [q for q in range(1, 300) if is_marked(q)]
        circuit = "H 0\n" + "".join(f"CX 0 {q}\n" * is_marked(q) + f"R {q}\n" for q in range(1, 300))
        circuit += "".join(f"M {0 if is_marked(k) else 1}\n" for k in range(700)) + "M 0\nDETECTOR\nDETECTOR rec[-1]\n"
        flips = bits(q in joined for q in range(1, 300)) + bits(map(is_marked, range(700))) + "1"
        self.check(["analyze"], circuit, f"random D1\n{'0' * 1000}\n{flips}\n", 3)


class LargeRuns(ProgramTest):
    """`run`"""

    def test_2000_coins_and_667_faults(self):
        """Options of 2,000 and of 3,000 bytes; 2,000 records, coins, faults, and detectors of two records each."""
        circuit = "M 1\nREPEAT 2000 {\n    H 0\n    MR(0.1) 0\n    DETECTOR rec[-1] rec[-2]\n}\n"
        records = [False] + [is_marked(k) != (k % 3 == 0) for k in range(2000)]
        compared = [records[k] != records[k + 1] for k in range(2000)]
        words = ["run", "--coins", "0" + bits(map(is_marked, range(2000))), "--faults", listed(range(0, 2000, 3))]
        self.check(words, circuit, f"{bits(records)}\n{bits(compared)}\n")

    def test_1000_qubits_in_one_state(self):
        """1,000 qubits whose outcomes are all the first coin."""
        circuit = "H 0\nCX" + "".join(f" {q} {q + 1}" for q in range(999)) + "\nM"
        circuit += "".join(f" {q}" for q in range(1000)) + "\n"
        self.check(["run", "--coins", "1" + "0" * 999], circuit, "1" * 1000 + "\n\n")
        self.check(["run", "--coins", "0" + "1" * 999], circuit, "0" * 1000 + "\n\n")

    def test_a_refusal_in_the_last_of_4000_lines(self):
        """Texts of 20,005 and of 68,014 bytes whose last line is refused."""
        for words in ["run"], ["analyze"], ["faults"], ["sample", "--shots", "1"], ["detect", "--shots", "1"]:
            with self.subTest(words=words):
                self.check(words, "X 0\nM 1 2\n" * 2000 + "CX 0\n", "refused 16 line 4001\n", 2)
        model = "error(0.1) D0 D1\n" * 4000 + "error(1.1) D0\n"
        self.check(["predict"], model, "refused 41 line 4001\n", 2)


class LargeFaultLists(ProgramTest):
    """`faults`"""

    def test_3000_faults(self):
        """3,000 faults of three kinds on 201 qubits, written out: a text of 45,000 bytes and an output of 50,000."""
        circuit = "".join(f"X_ERROR(0.1) {k % 201}\nM(0.02) 200\nE(1e-3) Z{k % 201} Y200\n" for k in range(1000))
        output = ""
        for k in range(1000):
            product = f"Z{k % 201}*Y200" if k % 201 != 200 else "X200"
            output += f"{3 * k} 0.1 X{k % 201}\n{3 * k + 1} 0.02 rec[{k}]\n{3 * k + 2} 1e-3 {product}\n"
        self.check(["faults"], circuit, output + "coins 1000\n")

    def test_5000_flips_of_records(self):
        """The list goes out in several pieces."""
        output = "".join(f"{k} 0.001 rec[{k}]\n" for k in range(5000)) + "coins 5000\n"
        self.check(["faults"], "REPEAT 5000 {\nM(0.001) 0\n}\n", output)

    def test_3000_faults_in_a_block(self):
        """3,000 faults on qubit 200, and one more of 201 letters."""
        circuit = "REPEAT 3000 {\n    Y_ERROR(0.001) 200\n    MR 200\n}\nE(0.2)"
        circuit += "".join(f" X{q}" for q in range(201)) + "\n"
        output = "".join(f"{k} 0.001 Y200\n" for k in range(MANY))
        output += "3000 0.2 " + "*".join(f"X{q}" for q in range(201)) + "\ncoins 3000\n"
        self.check(["faults"], circuit, output)

    def test_100000_letters_of_a_fault(self):
        """4,096 qubits in no order. X, Y and Z come by turns at each, and 24 letters of a qubit cancel."""
        targets = "".join(f" {'XYZ'[k % 3]}{1237 * k % 4096}" for k in range(100_000))
        left = sorted((1237 * k % 4096, "XYZ"[k % 3]) for k in range(24 * 4096, 100_000))
        self.assertEqual(len({qubit for qubit, _ in left}), 1696)
        output = "0 0.1 " + "*".join(f"{letter}{qubit}" for qubit, letter in left) + "\n1 0.2 I\ncoins 0\n"
        self.check(["faults"], f"E(0.1){targets}\nE(0.2){targets}{targets}\n", output)

    def test_300_turns_of_a_fault_of_4096_letters(self):
        """A text of 24,000 bytes and an output of 6.8 million."""
        circuit = "REPEAT 300 {\n    E(0.1)" + "".join(f" X{q}" for q in range(4096)) + "\n}\n"
        word = "*".join(f"X{q}" for q in range(4096))
        self.check(["faults"], circuit, "".join(f"{k} 0.1 {word}\n" for k in range(300)) + "coins 0\n")

    def test_letters_far_apart(self):
        """3 to 60 letters, from the greatest qubit down, at qubits as far apart as there is room."""
        circuit = output = ""
        for number, count in enumerate(range(3, 61)):
            qubits = [4095 - k * (4095 // (count - 1)) for k in range(count)]
            circuit += "E(0.1)" + named("Z", qubits) + "\n"
            output += f"{number} 0.1 " + "*".join(f"Z{q}" for q in reversed(qubits)) + "\n"
        self.check(["faults"], circuit, output + "coins 0\n")


class LargeShots(ProgramTest):
    """`sample` and `detect` with faults that always or never happen: 130 equal shots."""

    def check_equal_shots(self, circuit, records, detections):
        for words, line in (["sample"], records), (["detect"], detections):
            with self.subTest(words=words):
                self.check([*words, "--shots", "130"], circuit, f"{line}\n" * 130)

    def test_3000_records_and_detectors_on_201_qubits(self):
        """3,001 records, 3,000 detectors and faults, 201 qubits; a text of 139,000 bytes, an output of 390,000.

        A detector compares a record with the one before.
        """
        circuit = "M 0\n"
        for k in range(MANY):
            qubit = 200 if k % 2 else k % 200
            circuit += f"X_ERROR({'1' if is_marked(k) else '0'}) {qubit}\nMR {qubit}\nDETECTOR rec[-1] rec[-2]\n"
        records = [False] + [is_marked(k) for k in range(MANY)]
        compared = [records[k] != records[k + 1] for k in range(MANY)]
        self.check_equal_shots(circuit, bits(records), bits(compared))

    def test_3000_records_and_detectors_in_a_block(self):
        """1,000 turns on 201 qubits, with three records and three detectors each, of which the middle one flips."""
        circuit = "REPEAT 1000 {\nX_ERROR(1) 200\nX_ERROR(0) 199\nMR 198 200 199\n"
        circuit += "DETECTOR rec[-1]\nDETECTOR rec[-2]\nDETECTOR rec[-3]\n}\nOBSERVABLE_INCLUDE(1) rec[-2]\n"
        self.check_equal_shots(circuit, "010" * 1000, "010" * 1000 + "01")

    def test_200_qubits_and_1100_faults_at_once(self):
        """1,100 faults on one line, and one of 300 letters; 300 qubits."""
        targets = [k % 300 for k in range(1100)]
        circuit = "X_ERROR(1)" + "".join(f" {q}" for q in targets) + "\nE(1)" + "".join(f" X{q}" for q in range(300))
        circuit += "\nM" + "".join(f" {q}" for q in range(300)) + "\n" + "".join(
            f"DETECTOR rec[-{300 - q}]\n" for q in range(300)
        )
        # Qubits below 200 are named four times and the others three times, and the last fault turns all of them.
        line = bits((targets.count(q) + 1) % 2 for q in range(300))
        self.assertEqual(line, "1" * 200 + "0" * 100)
        self.check_equal_shots(circuit, line, line)
