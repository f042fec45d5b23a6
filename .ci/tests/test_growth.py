"""How what a text costs grows with it: the processor's time by ratios, memory by limits that the system sets, and instructions and
ways to memory by a simulated processor.

No clause sees a program that does more than it need. So each test compares a text with one that is a part of it, or with
another way to the same answer. The bound on the ratio of their times stands between that of the program and that of one which
forgets a limit, or goes over something anew. Each time is the least of a few runs. A limit on memory is less than what a
program would take that keeps something which this one doesn't.
"""
import os
import re
import resource
import subprocess

from pcg64 import Pcg64
from program import PROGRAM, SECONDS, ProgramTest, file_of, named

MEGABYTE = 1 << 20

RUNS = 4

DETECTORS = "REPEAT 1000 {\n    M 0\n    DETECTOR rec[-1]\n}\n"


def seconds_once(words, content, written_to=os.devnull, status=0):
    """The time of a processor that the program takes for this input, and ends with this status."""
    with file_of(content) as source, open(written_to, "wb") as output:
        process = subprocess.Popen([PROGRAM, *words], stdin=source, stdout=output, stderr=subprocess.DEVNULL)
        _, ended, used = os.wait4(process.pid, 0)
    process.returncode = os.waitstatus_to_exitcode(ended)
    if process.returncode != status:
        raise AssertionError(f"{words} ended with status {process.returncode}, not {status}")
    return used.ru_utime + used.ru_stime


def least_seconds(*asked):
    """The least time for each of these, which come by turns, so that what else the machine does meets all of them."""
    times = [[seconds_once(*each) for each in asked] for _ in range(RUNS)]
    return [min(each) for each in zip(*times)]


def turning_words(turns, qubits, detectors, line):
    """A circuit whose block moves the words of its detectors, so many at each qubit, to the next qubits in each turn."""
    swaps = "SWAP" + named("", (q + k for q in range(qubits - 1) for k in (0, 1)))
    circuit = f"REPEAT {turns} {{\n{line}    {swaps}\n}}\nM{named('', range(qubits))}\n"
    return circuit + "".join(f"REPEAT {detectors} {{\n    DETECTOR rec[-{q + 1}]\n}}\n" for q in range(qubits))


def ends_within(megabytes, words, content):
    """The status with which the program ends where it may have so much memory for data. What it writes isn't kept."""

    def set_limit():
        resource.setrlimit(resource.RLIMIT_DATA, (megabytes * MEGABYTE, megabytes * MEGABYTE))

    with file_of(content) as source:
        ended = subprocess.run(
            [PROGRAM, *words],
            stdin=source,
            stdout=subprocess.DEVNULL,
            stderr=subprocess.DEVNULL,
            timeout=SECONDS,
            preexec_fn=set_limit,
        )
    return ended.returncode


class Time(ProgramTest):
    def check_linear(self, words, text_of, size):
        """Four times as much takes less than eight times as long; where it is gone over anew, sixteen."""
        some, more = least_seconds((words, text_of(size)), (words, text_of(4 * size)))
        self.assertLess(more, 8 * some)

    def test_parts_of_a_text_that_is_not_held(self):
        """A turn has an error line of 600 bytes and moves 64 words on, so that none repeats the one before."""
        self.check_linear(["analyze"], lambda turns: turning_words(turns, 64, 100, "    X_ERROR(0.1) 0\n"), 25_000)

    def test_a_long_line_of_a_model(self):
        """Of detectors that each stand once."""
        self.check_linear(["predict", "--lines", "0"], lambda count: f"error(0.1){named('D', range(count))}\n", 100_000)

    def test_a_block_of_a_model(self):
        """Its end comes some pieces behind its beginning, with braces of others between them or without."""
        for line in "error(0.1) D0 D1\n", "repeat 1 {\nerror(0.1) D0 D1\n}\n":
            with self.subTest(line=line):
                self.check_linear(["predict", "--lines", "0"], lambda count, line=line: f"repeat 1 {{\n{line * count}}}\n", 60_000)

    def test_turns_that_do_not_repeat(self):
        """The length of words that each turn moves on doesn't matter: they aren't copied at each turn to be compared."""
        texts = [turning_words(30_000, 16, detectors, "") for detectors in (10, 1000)]
        short, long = least_seconds(*((["analyze"], text) for text in texts))
        self.assertLess(long, 4 * short)

    def test_whether_something_is_random_is_asked_in_the_time_of_a_run(self):
        """Gates that each merge words of 250,000 detectors: these aren't taken back over all of them before a shot is drawn."""
        circuit = "H 0\nCX 0 1\n" + "CX 1 2\n" * 10_000 + "M 2\nREPEAT 250000 {\n    DETECTOR rec[-1]\n}\n"
        circuit += "X_ERROR(0.1) 3\nM 3\n" + "DETECTOR rec[-1]\n" * 10
        drawn, run = least_seconds((["detect", "--shots", "1"], circuit), (["run", "--faults", "0"], circuit))
        self.assertLess(drawn, 10 * run)

    def test_shots_for_a_device_that_is_full(self):
        """No more are drawn once the first ones couldn't be written."""
        qubits = named("", range(1000))
        circuit = f"X_ERROR(0.1){qubits}\nM{qubits}\n" + "".join(f"DETECTOR rec[-{k}]\n" for k in range(1, 1001))
        for order in "sample", "detect":
            with self.subTest(order=order):
                words = [order, "--shots", "20000"]
                written, refused = least_seconds((words, circuit), (words, circuit, "/dev/full", 1))
                self.assertLess(4 * refused, written)


class Memory(ProgramTest):
    """Each text is answered within a limit above what the program takes, which what it doesn't keep would pass."""

    def check_within(self, megabytes, words, content):
        self.assertEqual(ends_within(megabytes, words, content), 0)

    def test_error_lines_of_a_model(self):
        """20 MB of lines, of which one is named."""
        self.check_within(8, ["predict", "--lines", "7"], "error(0.1) D0 D1\n" * 1_200_000)

    def test_error_lines_of_a_model_behind_a_shift(self):
        self.check_within(8, ["predict", "--lines", "7"], "shift_detectors(1) 1\n" + "error(0.1) D0 D1\n" * 1_200_000)

    def test_blocks_of_a_model(self):
        """20 MB of them, one after another."""
        self.check_within(8, ["predict", "--lines", "7"], "repeat 2 {\n    error(0.1) D0 D1\n}\n" * 600_000)

    def test_lines_of_a_turn(self):
        """A turn of 12,000 error lines with 1,000 targets each: these would take 48 MB."""
        before = "REPEAT 100000 {\n    H 5\n}\n"
        turns = "REPEAT 2 {\n    X_ERROR(0.1)" + " 0" * 12_000 + "\n    TICK\n}\n"
        self.check_within(32, ["analyze"], before + turns + DETECTORS)

    def test_blocks_whose_turns_repeat(self):
        """40 blocks, with a turn of 200 lines of 1,000 targets each: these would take 32 MB."""
        block = "REPEAT 5 {\n    X_ERROR(0.1)" + " 0" * 200 + "\n    I 0\n}\nR 1\n"
        self.check_within(32, ["analyze"], block * 40 + DETECTORS)

    def test_words_that_collapses_replace(self):
        # Two products in turn on all qubits but one of the last two, and after each a measurement that is random: what it replaces is the
        # product, by whose length and first letters words are looked up, so that neither is found again. Three million words of 31
        # letters take some 200 MB.
        products = ["*".join(f"X{q}" for q in range(32) if q != left_out) for left_out in (31, 30)]
        turn = "".join(f"    MPP {product}\n    M 0\n" for product in products)
        self.check_within(260, ["sample", "--shots", "1"], f"REPEAT 1500000 {{\n{turn}}}\n")

    def test_coordinates_of_detectors(self):
        """A million detectors of one block, with sixteen coordinates each: no room is taken but for those of the first turn."""
        numbers = ", ".join(["123456789"] * 16)
        self.check_within(12, ["run", "--coins", "0"], f"M 0\nREPEAT 1000000 {{\n    DETECTOR({numbers}) rec[-1]\n}}\n")


def scrambled(qubits):
    """Gates that spread each qubit's words over all qubits, drawn."""
    words = Pcg64.of_seed(1)

    def shuffled():
        order = list(range(qubits))
        for k in range(qubits - 1, 0, -1):
            other = words.next_word() % (k + 1)
            order[k], order[other] = order[other], order[k]
        return named("", order)

    def some():
        return named("", (q for q in range(qubits) if words.next_word() % 2))

    return "".join(f"H{some()}\nS{some()}\nCX{shuffled()}\nISWAP{shuffled()}\n" for _ in range(8))


def simulated(counted, words, content):
    """How often something happens in a run, where caches have 4 and 32 KiB and lines of 64 bytes. It is simulated, so that nothing else
    that the machine does matters."""
    sizes = ["--I1=32768,8,64", "--D1=4096,4,64", "--LL=32768,8,64"]
    with file_of(content) as source:
        ended = subprocess.run(
            ["valgrind", "--tool=cachegrind", "--cache-sim=yes", *sizes, "--cachegrind-out-file=/dev/null", PROGRAM, *words],
            stdin=source,
            stdout=subprocess.DEVNULL,
            stderr=subprocess.PIPE,
            timeout=SECONDS,
            check=True,
        )
    return int(re.search(rf"{counted}: *([0-9,]+)", ended.stderr.decode())[1].replace(",", ""))


def missed(words, content):
    """How often a run finds what it reads or writes in no cache."""
    return simulated("LLd misses", words, content)


def executed(words, content):
    """How many instructions of the processor a run takes."""
    return simulated("I +refs", words, content)


class Instructions(ProgramTest):
    def test_gates_of_few_qubits_among_many(self):
        """What a gate costs is what its qubits' words have, and not how many qubits there are."""
        gates = "REPEAT 2000 {\n    S 0 1 2 3 4 5 6 7 8 9\n}\n"
        measured = (f"M {qubits - 1}\n" for qubits in (128, 4096))
        few, many = (executed(["run"], gates + last) - executed(["run"], last) for last in measured)
        self.assertLess(many, 3 * few)

    def test_probabilities_that_change_from_line_to_line(self):
        """A text has few of them, so each is read once."""
        chances = (["0.001"] * 4, ["0.001", "0.002", "0.003", "0.004"])
        texts = ("".join(f"X_ERROR({chance}) 0\n" for chance in each) * 1000 for each in chances)
        same, changing = (executed(["run"], text) for text in texts)
        self.assertLess(4 * changing, 5 * same)

    def test_targets_that_are_numbers(self):
        """Of a line of qubits one look shows that nothing is wrong. Where a record is among them one question is asked after
        another."""
        qubits, fed = (executed(["run"], "M 0 1\n" + line * 2000) for line in ("CX 0 1\n", "CX rec[-1] 1\n"))
        self.assertLess(7 * qubits, 6 * fed)

    def test_products_in_order(self):
        """Of a product in the order of its qubits no word is made where the outcome is decided. Where the order is another, and the
        letters are many, it is."""
        first = "RX" + named("", range(20)) + "\n"
        ordered, mixed = (
            executed(["run"], first + "REPEAT 2000 {\n    MPP " + "*".join(f"X{qubit}" for qubit in qubits) + "\n}\n")
            for qubits in (range(20), [*range(0, 20, 2), *range(1, 20, 2)])
        )
        self.assertLess(4 * ordered, 3 * mixed)


class Caches(ProgramTest):
    def test_row_updates_of_measurements_wait_for_others(self):
        """Each of 512 outcomes is random and changes most of the rows of the tableau, 128 KiB. One pass over them makes many changes."""
        qubits = 512
        gates = scrambled(qubits)
        passes = qubits * (qubits * qubits // 2) // 64
        measured = missed(["run"], gates + f"M{named('', range(qubits))}\n") - missed(["run"], gates)
        self.assertLess(4 * measured, passes)
