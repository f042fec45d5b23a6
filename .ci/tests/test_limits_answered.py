"""Each limit of docs/FORMATS.md, and sizes beyond great powers of two: every subcommand that reaches one answers.

No clause refuses an answer that memory ran out, with status 1, where there is memory. All expected bytes follow from the formulas
beside them. The sizes, and the test that passes each:

    in the text     2^25 bytes, 2^20 lines, 2^16 blocks, 2^16 targets   Texts, Models
                    each limit of a circuit, each of a model            CircuitLimits, ModelLimits
    of a block      2^19 turns                                          Turns
    of a record     2^24 detectors or observables that list it          Turns
    of a model      2^16 and 2^19 targets of an error line,
                    a line of 2^20 bytes that is named                  Models
    of an analysis  a set of 2^18 targets, an error line of 2^20        Targets
"""
from program import ProgramTest, named

EACH = (["run"], ["faults"], ["sample", "--shots", "1"], ["detect", "--shots", "1"], ["analyze"])

MILLION = 1_000_000

DETECTORS = "".join(f"detector D{k}\n" for k in range(MILLION))


class Answered(ProgramTest):
    def check_each(self, circuit, records, detections="", model="", faults="coins 1\n"):
        """What each subcommand writes of a circuit whose runs are all alike."""
        outputs = (f"{records}\n{detections}\n", faults, f"{records}\n", f"{detections}\n", model)
        for words, output in zip(EACH, outputs, strict=True):
            with self.subTest(words=words):
                self.check(words, circuit, output)

    def check_model(self, lines, model, output):
        self.check(["predict", "--lines", lines], model, output + "\n")


class Texts(Answered):
    """Long texts of circuits."""

    def test_a_text_of_2_to_the_25_bytes(self):
        self.check_each("# " + "-" * (1 << 25) + "\nM 0\n", "0")

    def test_2_to_the_20_lines(self):
        """Each turns a qubit, an even number of times."""
        self.check_each("X 0\n" * ((1 << 20) + 2) + "M 0\n", "0")

    def test_2_to_the_16_blocks(self):
        self.check_each("REPEAT 1 {\nX 0\n}\n" * ((1 << 16) + 2) + "M 0\n", "0")

    def test_2_to_the_16_targets_of_a_line(self):
        """In gates, faults, measurements, detectors and observables."""
        many = (1 << 16) + 2
        circuit = f"X{' 0' * many}\nM 0\nDETECTOR{' rec[-1]' * many}\nOBSERVABLE_INCLUDE(0){' rec[-1]' * many}\n"
        self.check_each(circuit, "0", "00", "detector D0\nlogical_observable L0\n")
        lines = "".join(f"{k} 0 X0\n" for k in range(many)) + f"{many} 0 I\ncoins {many}\n"
        circuit = f"X_ERROR(0){' 0' * many}\nE(0){' Z0' * many}\nM{' 0' * many}\n"
        self.check_each(circuit, "0" * many, "", "", lines)


class CircuitLimits(Answered):
    """Circuits at their limits."""

    def test_4096_qubits(self):
        """In one state, whose records are all alike."""
        qubits = range(4096)
        circuit = "H 0\nCX" + named("", (q + k for q in qubits[:-1] for k in (0, 1))) + "\nM" + named("", qubits)
        circuit += "\nDETECTOR rec[-1] rec[-4096]\n"
        self.check(["run"], circuit, "0" * 4096 + "\n0\n")
        self.check(["run", "--coins", "1" + "0" * 4095], circuit, "1" * 4096 + "\n0\n")
        self.check(["faults"], circuit, "coins 4096\n")
        self.check(["detect", "--shots", "2"], circuit, "0\n0\n")
        self.check(["analyze"], circuit, "detector D0\n")

    def test_8000000_records(self):
        records = "0" * 8 * MILLION
        self.check_each("REPEAT 8000000 {\nM 0\n}\n", records, "", "", "coins 8000000\n")

    def test_a_record_8000000_back(self):
        """A detector of the first and one of the last."""
        circuit = "X_ERROR(0.1) 0\nM 0\nR 0\nREPEAT 7999998 {\nM 1\n}\nM(0.2) 1\nDETECTOR rec[-8000000]\nDETECTOR rec[-1]\n"
        model = "error(0.1) D0\nerror(0.2) D1\ndetector D0\ndetector D1\n"
        self.check(["analyze"], circuit.replace("R 0\n", ""), model)

    def test_8000000_resets(self):
        circuit = "REPEAT 8000000 {\nR 0\n}\n"
        self.check(["run"], circuit, "\n\n")
        self.check(["faults"], circuit, "coins 8000000\n")
        self.check(["detect", "--shots", "1"], circuit, "\n")
        self.check(["analyze"], circuit, "")

    def test_8000000_random_outcomes(self):
        """Of two coin lists the second has its one 1 at the first measurement of qubit 0."""
        circuit = "H 0\nREPEAT 4000000 {\nM 0 1\n}\nDETECTOR rec[-2]\n"
        self.check(["analyze"], circuit, "random D0\n" + "0" * 8 * MILLION + "\n" + "10" * 4 * MILLION + "\n", 3)

    def test_a_million_detectors(self):
        circuit = "M 0\nREPEAT 1000000 {\nDETECTOR(5) rec[-1]\nSHIFT_COORDS(1)\n}\n"
        model = "".join(f"detector({5 + k}) D{k}\n" for k in range(MILLION))
        self.check_each(circuit, "0", "0" * MILLION, model)

    def test_1024_observables(self):
        circuit = "M 0\n" + "".join(f"OBSERVABLE_INCLUDE({k}) rec[-1]\n" for k in range(1024))
        self.check_each(circuit, "0", "0" * 1024, "".join(f"logical_observable L{k}\n" for k in range(1024)))

    def test_16_coordinates_at_their_limits(self):
        numbers = [(-1) ** k * (1_000_000_000 - k) for k in range(16)]
        stated = "(" + ", ".join(map(str, numbers)) + ")"
        moved = "(" + ", ".join(str(5 * number) for number in numbers) + ")"
        circuit = f"SHIFT_COORDS{stated}\n" * 4 + f"DETECTOR{stated}\n"
        self.check_each(circuit, "", "0", f"detector{moved} D0\n", "coins 0\n")

    def test_64000000_steps(self):
        """Each turn counts 1, its line 1 and each target 1: gates on four qubits two by two, an even number of times."""
        circuit = "REPEAT 10666666 {\nCX 0 1 2 3\n}\nTICK\nTICK\nTICK\nTICK\n"
        self.check(["run"], circuit, "\n\n")
        self.check(["detect", "--shots", "1"], circuit, "\n")
        self.check(["analyze"], circuit, "")

    def test_32_blocks_inside_one_another(self):
        circuit = "REPEAT 1 {\n" * 9 + "REPEAT 2 {\n" * 15 + "REPEAT 1 {\n" * 8 + "X 0\n" + "}\n" * 32 + "M 0\n"
        self.check_each(circuit, "0")

    def test_a_million_shots(self):
        """Each of its two records says whether an error of probability 1 or 0 happened."""
        circuit = "X_ERROR(1) 0\nX_ERROR(0) 1\nM 0 1\nDETECTOR rec[-1]\nDETECTOR rec[-2]\n"
        self.check(["sample", "--shots", "1000000"], circuit, "10\n" * MILLION)
        self.check(["detect", "--shots", "1000000"], circuit, "01\n" * MILLION)


class Turns(Answered):
    """Blocks of many turns."""

    def test_2_to_the_19_turns(self):
        """They repeat, with a fault each."""
        turns = (1 << 19) + 1
        circuit = f"REPEAT {turns} {{\nX_ERROR(0) 0\nMR 0\nDETECTOR rec[-1]\n}}\n"
        zeros = "0" * turns
        model = "".join(f"error(0) D{k}\n" for k in range(turns)) + "".join(f"detector D{k}\n" for k in range(turns))
        self.check_each(circuit, zeros, zeros, model, "".join(f"{k} 0 X0\n" for k in range(turns)) + f"coins {turns}\n")

    def test_2_to_the_19_turns_of_a_record_that_is_fed_back(self):
        """A record that a feedback toggles in each turn, an odd number of times."""
        turns = (1 << 19) + 1
        circuit = f"X_ERROR(0.1) 0\nM 0\nREPEAT {turns} {{\nCX rec[-1] 1\n}}\nM 1\nDETECTOR rec[-1]\n"
        self.check(["analyze"], circuit, "error(0.1) D0\ndetector D0\n")

    def test_an_observable_that_lists_a_record_2_to_the_24_times(self):
        """An even number of times."""
        circuit = "X_ERROR(0.1) 0\nM 0\nREPEAT 16778 {\nOBSERVABLE_INCLUDE(0)" + " rec[-1]" * 1000 + "\n}\n"
        self.check(["run", "--faults", "0"], circuit, "1\n0\n")
        self.check(["detect", "--shots", "1"], circuit, "0\n")
        self.check(["analyze"], circuit, "logical_observable L0\n")

    def test_detectors_that_list_records_2_to_the_24_times(self):
        """An odd number of times each."""
        count = 16_795
        circuit = f"X_ERROR(0.1) 0\nM 0\nREPEAT {count} {{\nDETECTOR" + " rec[-1]" * 999 + "\n}\n"
        self.check(["run", "--faults", "0"], circuit, f"1\n{'1' * count}\n")
        model = f"error(0.1){named('D', range(count))}\n" + "".join(f"detector D{k}\n" for k in range(count))
        self.check(["analyze"], circuit, model)


class Targets(Answered):
    """Sets of many targets that `analyze` takes back: by an error, a flip, a product, and a sum of two."""

    def test_sets_of_more_than_2_to_the_18(self):
        """A detector in three sees qubit 1 alone, one both, and one qubit 0 alone; a CX merges the sets, whose parts cancel."""
        third = (1 << 18) // 2 + 1
        circuit = "X_ERROR(0.1) 0\nX_ERROR(0.2) 1\nCX 0 1\nX_ERROR(0.3) 0\nE(0.4) X0 X1\nM 0 1\n"
        circuit += f"REPEAT {third} {{\nDETECTOR rec[-1]\nDETECTOR rec[-1] rec[-2]\nDETECTOR rec[-2]\n}}\n"
        seen = {1: "110", 0: "011"}
        self.assertGreater(2 * third, 1 << 18)
        both = named("D", (k for k in range(3 * third) if k % 3 != 1))
        first = named("D", (k for k in range(3 * third) if seen[0][k % 3] == "1"))
        second = named("D", (k for k in range(3 * third) if seen[1][k % 3] == "1"))
        model = f"error(0.1){both}\nerror(0.2){second}\nerror(0.3){first}\nerror(0.4){both}\n"
        self.check(["analyze"], circuit, model + "".join(f"detector D{k}\n" for k in range(3 * third)))

    def test_an_error_line_of_a_million_detectors_and_1024_observables(self):
        """Of an error on one qubit, of one on two, of a Y, and of a flip."""
        targets = "REPEAT 1000000 {\nDETECTOR rec[-1]\n}\n"
        targets += "".join(f"OBSERVABLE_INCLUDE({k}) rec[-1]\n" for k in range(1024))
        line = named("D", range(MILLION)) + named("L", range(1024)) + "\n"
        ends = DETECTORS + "".join(f"logical_observable L{k}\n" for k in range(1024))
        faults = ["X_ERROR(0.1) 0\nM 0\n", "E(0.1) X0 Z1\nMPP Z0*Z1\n", "RX 0\nY_ERROR(0.1) 0\nMX 0\n", "M(0.1) 0\n"]
        for fault in faults:
            with self.subTest(fault=fault):
                self.check(["analyze"], fault + targets, f"error(0.1){line}{ends}")


class Models(Answered):
    """Long error models."""

    def test_a_text_of_2_to_the_25_bytes(self):
        """As a comment, as error lines, and as lines behind a shift."""
        comment = "# " + "-" * (1 << 25) + "\n"
        self.check_model("0", f"{comment}error(0.1) D1\n", "01")
        lines = (1 << 20) + 1
        self.check_model("0", "error(0.000000000000001) D0 L0\n" * lines, "11")
        self.check_model("0", "shift_detectors 1\n" + "error(0.000000000000001) D0 L0\n" * lines, "011")

    def test_2_to_the_20_lines(self):
        """Of each kind, after one that is named: also behind a shift, where error lines and declarations are kept too."""
        lines = (1 << 20) + 1
        rows = {"error(0.1) D1\n": "10", "detector D1\n": "10", "detector(3) D1\n": "10", "logical_observable L0\n": "10"}
        for line, output in {**rows, "shift_detectors 0\n": "1"}.items():
            for before in "", "shift_detectors 0\n":
                with self.subTest(line=line, before=before):
                    self.check_model("0", "error(0.1) D0\n" + before + line * lines, output)

    def test_2_to_the_16_blocks(self):
        """Each of three turns: an even number of lines flips D0, and the last of them is named."""
        blocks = (1 << 16) + 1
        self.check_model(f"0,{3 * blocks - 1}", "repeat 3 {\nerror(0.1) D0\n}\n" * blocks + "error(0.1) D1\n", "00")

    def test_2_to_the_16_targets_of_an_error_line(self):
        """One target an odd number of times, and each of as many once, in a line that is named and in one that isn't."""
        many = (1 << 16) + 1
        self.check_model("0", f"error(0.1){' D0' * many}\n", "1")
        self.check_model("0", f"error(0.1){named('D', range(many))}\n", "1" * many)
        self.check_model("1", f"error(0.1){named('D', range(many))}\nerror(0.1) D0\n", "1" + "0" * (many - 1))

    def test_a_million_targets_of_an_error_line(self):
        """Of a text's first line, of one in a block, and behind separators."""
        line = "error(0.1)" + named("D", range(MILLION)) + named("L", range(1024)) + "\n"
        self.check_model("0", line, "1" * (MILLION + 1024))
        self.check_model("1", f"repeat 2 {{\n{line}}}\n", "1" * (MILLION + 1024))
        self.check_model("0", "error(0.1)" + " D0 ^" * (MILLION + 1) + "\n", "1")

    def test_named_lines_of_2_to_the_20_bytes(self):
        """One with a comment, and 50 lines that have as many together."""
        self.check_model("0", f"error(0.1) D0 # {'-' * (1 << 20)}\nerror(0.1) D1\n", "10")
        count = 51
        model = "".join(f"error(0.1) D{k}{' D99' * 6000}\n" for k in range(count))
        self.check_model(",".join(map(str, range(count))), model, "1" * count + "0" * (100 - count))

    def test_2_to_the_20_turns(self):
        turns = (1 << 20) + 1
        model = f"repeat {turns} {{\nerror(0.1) D0 L1\nshift_detectors 0\n}}\n"
        self.check_model(f"0,1,{turns - 1}", model, "101")


class ModelLimits(Answered):
    """Error models at their limits."""

    def test_a_million_detectors_and_1024_observables(self):
        output = "0" * (MILLION - 1) + "1" + "0" * 1023 + "1"
        self.check_model("0", "error(0.1) D999999 L1023\n", output)
        block = "repeat 1000000 {\nerror(0.1) D0\nshift_detectors 1\n}\n"
        self.check_model("999999", f"{block}logical_observable L1023\n", output[:-1] + "0")

    def test_4000000_lines(self):
        """A turn counts 1 and its line 1."""
        self.check_model("0,1999999", "repeat 2000000 {\nerror(0.1) D0\n}\n", "0")
        self.check_model("1999999", "repeat 2000000 {\nerror(0.1) D0\n}\n", "1")

    def test_numbers_at_their_limits(self):
        """A coordinate that is moved to its limit and back, and a shift that no detector follows."""
        most = 999_999_999_999_999_999
        self.check_model("", f"detector({most}, -{most}) D0\nshift_detectors({most}) 0\ndetector(0, {most}) D1\n", "00")
        self.check_model("0", f"error(0.1) D1\nshift_detectors {most}\n", "01")
        arguments = ", ".join([str(most)] * 16)
        self.check_model("", f"detector({arguments}) D3\n", "0000")

    def test_32_blocks_inside_one_another(self):
        """2^20 turns of the innermost, of which each flips D0: as many lines with those of the blocks round it."""
        model = "repeat 1 {\n" * 12 + "repeat 2 {\n" * 20 + "error(0.1) D0\n" + "}\n" * 32
        self.check_model(f"0,7,{(1 << 20) - 1}", model, "1")
