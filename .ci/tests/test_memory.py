"""Want of memory in the process: the status is 1, and nothing is written, or a beginning where shots went out before. And
that the memory of an analysis doesn't grow with its output.

The system refuses memory beyond a limit on the data of the process, which rises until the program has enough.
"""
import resource
import subprocess

from program import SECONDS, ProgramTest, PROGRAM, bits, file_of, listed

PAGE = 4096

# What no run of these tests needs, in bytes.
ENOUGH = 64 << 20


def run_within(limit, words, content):
    """What the program writes to standard output within so many bytes of data, and its exit status."""

    def set_limit():
        resource.setrlimit(resource.RLIMIT_DATA, (limit, limit))

    with file_of(content) as source:
        ended = subprocess.run(
            [PROGRAM, *words],
            stdin=source,
            stdout=subprocess.PIPE,
            stderr=subprocess.DEVNULL,
            timeout=SECONDS,
            preexec_fn=set_limit,
        )
    return ended.stdout, ended.returncode


def least_to_start():
    """The least limit, in pages, at which the system loads the program and it ends by itself."""
    for pages in range(1, 1000):
        _, status = run_within(pages * PAGE, ["run"], "")
        if 0 <= status <= 3:
            return pages * PAGE
    raise AssertionError("the program doesn't start")


FAULTY = "X_ERROR(0) 0\nMR 0\nDETECTOR rec[-1]\n" * 1500

RANDOM = "H 0\nM 0\n" * 3000 + "DETECTOR rec[-1]\n"

MODEL = "".join(f"error(0.1) D{k}\n" for k in range(3000))

BLOCK = "repeat 3000 {\n    error(0.1) D0\n    shift_detectors 1\n}\n"

EVEN = bits(k % 2 == 0 for k in range(3000))

# Words, the input, the whole output and the status with enough memory: each subcommand, and each way to end.
ORDERS = [
    (["run"], FAULTY, "0" * 1500 + "\n" + "0" * 1500 + "\n", 0),
    (["run", "--coins", "1" * 3000], RANDOM, "1" * 3000 + "\n1\n", 0),
    (
        ["analyze"],
        FAULTY,
        "".join(f"error(0) D{k}\n" for k in range(1500)) + "".join(f"detector D{k}\n" for k in range(1500)),
        0,
    ),
    (["analyze"], RANDOM, f"random D0\n{'0' * 3000}\n{'0' * 2999}1\n", 3),
    (["faults"], FAULTY, "".join(f"{k} 0 X0\n" for k in range(1500)) + "coins 1500\n", 0),
    (["sample", "--shots", "70"], FAULTY, ("0" * 1500 + "\n") * 70, 0),
    (["detect", "--shots", "70"], FAULTY, ("0" * 1500 + "\n") * 70, 0),
    (["predict", "--lines", listed(range(0, 3000, 2))], MODEL, EVEN[:-1] + "0\n", 0),
    (["predict", "--lines", listed(range(0, 3000, 2))], BLOCK, EVEN + "\n", 0),
    (["run"], FAULTY + "CX 0\n", "refused 16 line 4501\n", 2),
]


class WantOfMemory(ProgramTest):
    def check_limit(self, limit, words, content, output, status):
        """Within this limit the order is done, or ends with 1 and a beginning of its output. Answers whether it is done."""
        written, ended_with = run_within(limit, words, content)
        if ended_with == status:
            self.compare((written, ended_with), output, status)
            return True
        self.assertEqual(ended_with, 1, f"within {limit} bytes")
        self.assertTrue(output.encode().startswith(written), f"within {limit} bytes")
        if words[0] not in ("sample", "detect"):
            self.assertEqual(written, b"", f"within {limit} bytes")
        return False

    def test_each_order_within_rising_limits(self):
        start = least_to_start()
        for words, content, output, status in ORDERS:
            with self.subTest(words=words[:2], content=content[:30]):
                refused, limit = 0, start
                while not self.check_limit(limit, words, content, output, status):
                    refused += 1
                    limit += 4 * PAGE
                    self.assertLess(limit, ENOUGH)
                # Most of these limits are met on the way, and not only by the first growth.
                self.assertGreater(refused, 3)

    def test_words_that_leave_little_memory(self):
        """Coins of rising length leave less and less for what is done with the words, until there is too little for them."""
        limit = least_to_start() + 25 * PAGE
        refused = 0
        for length in range(1_000, 65_000, 101):
            words = ["run", "--coins", "0" * length, "--faults", "0" * 50_000]
            written, status = run_within(limit, words, "X_ERROR(0.1) 0\nM 0\n")
            self.assertIn((written, status), [(b"refused 50 line 0\n", 2), (b"", 1)], f"{length} bytes")
            refused += status == 1
        self.assertGreater(refused, 10)

    def test_an_analysis_needs_no_memory_for_its_output(self):
        """98 million bytes are written within 32 MiB of data: 20,000 faults, a line each, flip 1,000 detectors each."""
        circuit = "X_ERROR(0.1) 0\n" * 20_000 + "REPEAT 1000 {\n    M 0\n    DETECTOR rec[-1]\n}\n"
        line = "error(0.1)" + "".join(f" D{k}" for k in range(1000)) + "\n"
        written, status = run_within(32 << 20, ["analyze"], circuit)
        self.assertEqual(status, 0)
        self.assertTrue(written == line.encode() * 20_000 + b"".join(b"detector D%d\n" % k for k in range(1000)))
