"""The streams of the process: no byte is lost or doubled on the way in or out, and a failed stream gives status 1."""
import os

import streams
from program import ProgramTest, bits, listed, run_program

PIECE = 4096


def turned_and_measured(turns):
    """A circuit in which each byte counts, and its records: X on one qubit of 90, and then a measurement of another.

    A digit that is lost or doubled names another qubit; any other byte that is lost leaves a line that is refused.
    """
    state = [False] * 100
    text = ""
    records = []
    for turn in range(turns):
        turned = 10 + (7 * turn * turn + 3 * turn) % 90
        measured = 10 + (turn * turn * turn) % 90
        state[turned] = not state[turned]
        text += f"X {turned}\nM {measured}\n"
        records.append(state[measured])
    return text + "M" + "".join(f" {q}" for q in range(100)) + "\n", bits(records + state)


def numbered_lines(count):
    """An error model in which each target counts, and what its even lines flip."""
    text = ""
    flipped = [False] * 90
    for number in range(count):
        target = (11 * number * number + number) % 90
        text += f"error(0.5) D{10 + target}\n"
        flipped[target] ^= number % 2 == 0
    return text + "detector D99\n", bits([False] * 10 + flipped)


def counter(count):
    """The bits of the numbers below this, sixteen each: records in which a lost byte moves all that follow."""
    return "".join(f"{number:016b}" for number in range(count))


def measured_counter(count):
    """A circuit with these records: qubit 1 is 1 and qubit 0 is 0."""
    return "X 1\nM" + "".join(f" {bit}" for bit in counter(count)) + "\n"


class Input(ProgramTest):
    """Texts of 20,000 bytes and more, in which each byte changes the output."""

    def test_each_byte_at_4096_and_8192_counts(self):
        """A comment before the text moves each of its bytes to each place about the ends of pieces of 4,096."""
        text, records = turned_and_measured(2000)
        for pad in range(12):
            content = f"#{'.' * pad}\n{text}"
            with self.subTest(pad=pad):
                self.check(["run"], content, f"{records}\n\n")

    def test_a_number_at_4096_and_8192(self):
        """A number of four digits lies across the place: with one of them lost or doubled, X names another qubit."""
        for place in PIECE, 2 * PIECE, 3 * PIECE:
            for before in range(5):
                content = "#" + "." * (place - before - 4) + "\nX 1234\n"
                self.assertEqual(content.index("1234"), place - before)
                with self.subTest(place=place, before=before):
                    self.check(["run"], content + "M 1234 234 134 124 123\n", "10000\n\n")

    def test_a_letter_at_4096_and_8192(self):
        """X, and not Z, stands as the last byte of a piece, and as the first of the next."""
        for place in PIECE - 1, PIECE, 2 * PIECE - 1, 2 * PIECE:
            content = "#" + "." * (place - 2) + "\nX 0\nZ 0\nM 0\n"
            self.assertEqual(content.index("X"), place)
            with self.subTest(place=place):
                self.check(["run"], content, "1\n\n")

    def test_a_model_read_in_pieces(self):
        model, flipped = numbered_lines(1000)
        for pad in range(17):
            with self.subTest(pad=pad):
                words = ["predict", "--lines", listed(range(0, 1000, 2))]
                self.check(words, f"#{'.' * pad}\n{model}", flipped + "\n")

    def test_a_pipe_in_pieces_of_many_lengths(self):
        """Pieces through a pipe, each written when the one before was taken."""
        text, records = turned_and_measured(2000)
        for lengths in [1, 4095, 4096, 4097], [4096], [4097, 4095], [8192, 1, 8191, 8193], [3, 1000, 5000], [100_000]:
            with self.subTest(lengths=lengths):
                ended = streams.run_with_input_in_pieces(["run"], text, lengths)
                self.compare(ended, f"{records}\n\n", 0)

    def test_a_pipe_byte_by_byte(self):
        text, records = turned_and_measured(40)
        self.compare(streams.run_with_input_in_pieces(["run"], text, [1]), f"{records}\n\n", 0)

    def test_texts_of_each_length_about_a_piece(self):
        """The last line has no line feed, and its end is that of the text: 4,090 to 4,102 bytes, and twice that."""
        for length in [*range(PIECE - 6, PIECE + 7), *range(2 * PIECE - 6, 2 * PIECE + 7)]:
            content = "X 12\n#" + "." * (length - 11) + "\nM 12"
            self.assertEqual(len(content), length)
            with self.subTest(length=length):
                self.check(["run"], content, "1\n\n")


class Output(ProgramTest):
    """Outputs of 20,000 bytes and more, in which a lost byte changes what follows."""

    def test_20000_records_through_a_pipe_and_into_a_file(self):
        circuit, records = measured_counter(1250), counter(1250)
        self.assertEqual(len(records), 20000)
        for run in run_program, streams.run_with_output_in_file:
            with self.subTest(run=run.__name__):
                self.compare(run(["run"], circuit), f"{records}\n\n", 0)
                self.compare(run(["sample", "--shots", "3"], circuit), f"{records}\n" * 3, 0)

    def test_a_slow_reader(self):
        """An output of 200,000 bytes, more than a pipe holds, taken in pieces of 5,000 and of 4,096."""
        circuit, records = measured_counter(1250), counter(1250)
        for length in 4096, 5000:
            with self.subTest(length=length):
                ended = streams.run_with_slow_reader(["sample", "--shots", "10"], circuit, length)
                self.compare(ended, f"{records}\n" * 10, 0)

    def test_lines_of_each_length_about_a_piece(self):
        """Records in lines of 4,090 to 4,100 bytes, and of 8,186 to 8,196."""
        records = counter(600)
        for length in [*range(PIECE - 6, PIECE + 5), *range(2 * PIECE - 6, 2 * PIECE + 5)]:
            line = records[:length - 1]
            circuit = "X 1\nM " + " ".join(line) + "\n"
            with self.subTest(length=length):
                self.check(["run"], circuit, f"{line}\n\n")
                self.check(["sample", "--shots", "2"], circuit, f"{line}\n{line}\n")

    def test_lists_of_faults_about_a_piece(self):
        """Lists of 405 to 419 faults: the end of a piece of 4,096 falls at different places of a line."""
        for count in range(405, 420):
            output = "".join(f"{number} 0.1 X{number % 10}\n" for number in range(count)) + f"coins {count}\n"
            circuit = "".join(f"X_ERROR(0.1) {number % 10}\nM 0\n" for number in range(count))
            with self.subTest(count=count):
                self.check(["faults"], circuit, output)


CIRCUIT = "X_ERROR(0.1) 0\nM 0\nDETECTOR rec[-1]\n"

RANDOM = "H 0\nM 0\nDETECTOR rec[-1]\n"

MODEL = "error(0.1) D0\n"

# Words and the input: each subcommand, and each way to end.
ORDERS = [
    (["run"], CIRCUIT),
    (["sample", "--shots", "2"], CIRCUIT),
    (["detect", "--shots", "2"], CIRCUIT),
    (["analyze"], CIRCUIT),
    (["analyze"], RANDOM),
    (["faults"], CIRCUIT),
    (["predict"], MODEL),
    (["run"], "refused\n"),
    (["run", "--faults", "9"], CIRCUIT),
    (["sample", "--shots", "1000001"], CIRCUIT),
]

WITHOUT_INPUT = [["--help"], ["run", "--help"], ["predict", "--help"], ["walk"], []]


class FailingStreams(ProgramTest):
    """A stream that fails ends the program with status 1, and nothing is written where the input failed."""

    def test_a_folder_as_the_input(self):
        for words, _ in ORDERS:
            with self.subTest(words=words):
                self.compare(streams.run_with_input_named(words, "/"), "", 1)

    def test_the_command_line_is_judged_before_the_input(self):
        for words in [["walk"], ["sample"], ["run", "--seed", "1"]]:
            with self.subTest(words=words):
                self.compare(streams.run_with_input_named(words, "/"), "usage\n", 2)

    def test_an_input_that_fails_after_its_last_byte(self):
        for words, content in ORDERS:
            with self.subTest(words=words, content=content):
                self.compare(streams.run_with_input_that_fails_at_its_end(words, content), "", 1)

    def test_a_closed_input(self):
        for words, _ in ORDERS:
            with self.subTest(words=words):
                self.compare(streams.run_in_shell("<&-", words), "", 1)

    def test_a_closed_output(self):
        for words in [["analyze", "--help"], ["run"], ["run", "--faults", "9"], ["walk"]]:
            with self.subTest(words=words):
                self.compare(streams.run_in_shell(">&-", words), "", 1)

    def check_output(self, output):
        """With this file as the output each order ends with status 1."""
        for words, content in [*ORDERS, *((words, "") for words in WITHOUT_INPUT)]:
            with self.subTest(words=words, content=content):
                self.assertEqual(streams.status_with_output(words, content, output), 1)

    def test_a_full_output(self):
        with open("/dev/full", "wb", buffering=0) as output:
            self.check_output(output)

    def test_a_pipe_that_no_one_reads(self):
        reading, writing = os.pipe()
        os.close(reading)
        with os.fdopen(writing, "wb", buffering=0) as output:
            self.check_output(output)

    def test_a_reader_that_stops(self):
        """The reader takes a part of 1,000,000 bytes and closes the pipe."""
        circuit, records = measured_counter(1250), counter(1250)
        output = f"{records}\n".encode() * 50
        for length in 1, PIECE, 30_000:
            with self.subTest(length=length):
                written, status = streams.run_with_reader_that_stops(["sample", "--shots", "50"], circuit, length)
                self.assertEqual(status, 1)
                self.assertEqual(written, output[:len(written)])
                self.assertGreater(len(written), 0)
