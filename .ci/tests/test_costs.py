"""What texts cost that were dear once, in processor time and memory.

A limit leaves room above what the program takes, and is less than half of what the text took when it was dear.
"""
import os
import resource
import subprocess

from pcg64 import Pcg64
from program import PROGRAM, SECONDS, ProgramTest, bits, file_of, named

MEGABYTE = 1 << 20

# 10,000 detectors of a qubit.
SEEN = "REPEAT 10000 {\n    M 0\n    DETECTOR rec[-1]\n}\n"


class Costs(ProgramTest):
    """Texts of few lines that ask for much, within limits on the processor's time and on memory."""

    def check_within(self, seconds, megabytes, words, content, output):
        """The program writes this output, and takes at most so much of a processor and of memory for data."""

        def set_limit():
            resource.setrlimit(resource.RLIMIT_DATA, (megabytes * MEGABYTE, megabytes * MEGABYTE))

        before = os.times()
        with file_of(content) as source:
            ended = subprocess.run(
                [PROGRAM, *words],
                stdin=source,
                stdout=subprocess.PIPE,
                stderr=subprocess.STDOUT,
                timeout=SECONDS,
                preexec_fn=set_limit,
            )
        after = os.times()
        self.compare((ended.stdout, ended.returncode), output, 0)
        took = after.children_user + after.children_system - before.children_user - before.children_system
        self.assertLess(took, seconds)

    def test_feedback_that_toggles_a_record_for_100000_detectors(self):
        """600 turns, an even number, of a record that all detectors list: it goes away again."""
        circuit = "M 0\nREPEAT 600 {\n    CX rec[-1] 1\n}\nM 1\n" + "DETECTOR rec[-1]\n" * 100_000
        output = "".join(f"detector D{k}\n" for k in range(100_000))
        self.check_within(2, 100, ["analyze"], circuit, output)

    def test_a_word_that_each_turn_adds_to(self):
        """A qubit that no turn resets is seen by all 100,000 detectors. Each is added to a list of those behind it."""
        turn = "    X_ERROR(0.01) 1\n    CX 0 1\n    MR 1\n    DETECTOR rec[-1]\n"
        circuit = "REPEAT 100000 {\n" + turn + "}\n"
        output = "".join(f"{name} D{k}\n" for name in ("error(0.01)", "detector") for k in range(100_000))
        self.check_within(2, 40, ["analyze"], circuit, output)

    def test_many_blocks_of_two_turns(self):
        """16,000 blocks, each of which repeats all before it. A turn is looked at no more often than it pays."""
        turn = "    X_ERROR(0.001) 0 1\n    CX 0 2 1 2\n    MR(0.01) 2\n    DETECTOR rec[-1] rec[-2]\n"
        blocks = ("REPEAT 2 {\n" + turn + "}\n") * 16_000
        lines = [f"error(0.001) D{k}\nerror(0.001) D{k} L0\nerror(0.01) D{k} D{k + 1}\n" for k in range(32_000)]
        lines[-1] = lines[-1].replace(" D32000", "")
        output = "".join(lines) + "".join(f"detector D{k}\n" for k in range(32_000)) + "logical_observable L0\n"
        self.check_within(2, 24, ["analyze"], "MR 2\n" + blocks + "M 1\nOBSERVABLE_INCLUDE(0) rec[-1]\n", output)

    def test_detectors_of_many_blocks_of_two_turns(self):
        """The same without faults: no target is random, which is found on the same way back."""
        turn = "    CX 0 2 1 2\n    MR 2\n    DETECTOR rec[-1] rec[-2]\n"
        circuit = "MR 2\n" + ("REPEAT 2 {\n" + turn + "}\n") * 16_000
        self.check_within(2, 24, ["detect", "--shots", "1"], circuit, "0" * 32_000 + "\n")

    def test_long_words_at_short_blocks(self):
        """400 blocks before words of 10,000 detectors at 100 qubits: these aren't copied at each."""
        blocks = "REPEAT 2 {\n    S 0\n}\n" * 400
        copies = "CX" + "".join(f" {k} 0" for k in range(1, 100)) + "\n"
        output = "".join(f"detector D{k}\n" for k in range(10_000))
        self.check_within(1, 40, ["analyze"], blocks + copies + SEEN, output)

    def test_long_words_at_a_long_text(self):
        """Each of 1,000 faults flips 10,000 detectors. The words at a place take 40 MB, so few are kept, for parts of as much text."""
        faults = "X_ERROR(0.001)" + "".join(f" {k}" for k in range(1000)) + "\n"
        copies = "CX" + "".join(f" {k} 0" for k in range(1, 1000)) + "\n"
        line = "error(0.001)" + named("D", range(10_000)) + "\n"
        output = line * 1000 + "".join(f"detector D{k}\n" for k in range(10_000))
        self.check_within(3, 240, ["analyze"], faults + copies + SEEN, output)

    def test_turns_of_a_fault_of_4096_letters(self):
        """A fault's word is put in order in its length: 300 lines of 23,000 bytes."""
        circuit = "REPEAT 300 {\n    E(0.1)" + named("X", range(4096)) + "\n}\n"
        word = "*".join(f"X{k}" for k in range(4096))
        output = "".join(f"{k} 0.1 {word}\n" for k in range(300)) + "coins 0\n"
        self.check_within(2, 20, ["faults"], circuit, output)

    def test_turns_of_a_fault_that_4096_detectors_see(self):
        """The detectors that its letters flip are added up in halves: 300 faults, each of which took 30 ms letter by letter."""
        letters = "REPEAT 300 {\n    E(0.1)" + named("X", range(4096)) + "\n}\n"
        seen = "".join(f"M {k}\nDETECTOR rec[-1]\n" for k in range(4096))
        line = "error(0.1)" + named("D", range(4096)) + "\n"
        output = line * 300 + "".join(f"detector D{k}\n" for k in range(4096))
        self.check_within(2, 40, ["analyze"], letters + seen, output)

    def test_records_of_an_observable_that_a_block_repeats(self):
        """20,000,000 records, four bytes each."""
        circuit = "M 0\nREPEAT 20000 {\n    OBSERVABLE_INCLUDE(5)" + " rec[-1]" * 1000 + "\n}\n"
        self.check_within(2, 200, ["run"], circuit, "0\n000000\n")

    def test_detectors_of_a_product_of_4096_letters(self):
        """A million detectors that see 4,096 qubits each: whether one is random is found without their words."""
        product = "*".join(f"Z{k}" for k in range(4096))
        circuit = f"MPP {product}\nREPEAT 1000000 {{\n    DETECTOR rec[-1]\n}}\n"
        self.check_within(2, 100, ["detect", "--shots", "1"], circuit, "0" * 1_000_000 + "\n")

    def test_products_whose_outcomes_are_random(self):
        """400,000 products of 15 letters, of which each replaces a word that comes again."""
        pairs = "".join(f"MPP {'*'.join(f'{letter}{k}' for k in range(15))}\n" for letter in "XZ")
        circuit = "REPEAT 200000 {\n" + pairs + "}\n"
        words = Pcg64.of_seed(0)
        output = bits(words.next_word() % 2 for _ in range(400_000)) + "\n"
        self.check_within(4, 24, ["sample", "--shots", "1"], circuit, output)
