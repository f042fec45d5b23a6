"""The shots that `sample` and `detect` draw for a seed, computed here by a generator of the tests' own."""
import unittest

from pcg64 import Pcg64, bound_of, draw_shots
from program import ProgramTest, bits

SEEDS = (0, 1, 5, 2**32, 12345678901234567890, 2**64 - 1)


class Generator(unittest.TestCase):
    """The generator itself, by numbers that others published."""

    def test_words_of_the_public_demonstration(self):
        """The first words of state 42 and stream 54, as the PCG library's own check prints them."""
        generator = Pcg64.of_stream(42, 54)
        expected = [
            0x86B1DA1D72062B68, 0x1304AA46C9853D39, 0xA3670E9E0DD50358,
            0xF9090E529A7DAE00, 0xC85B9FD837996F2C, 0x606121F8E3919196,
        ]
        self.assertEqual([generator.next_word() for _ in expected], expected)

    def test_bounds_are_rounded_down(self):
        self.assertEqual(bound_of("0.1"), 1844674407370955161)
        self.assertEqual(bound_of("1"), 2**64)
        self.assertEqual(bound_of("1e-38"), 0)


def lines(shots):
    return "".join(f"{bits(shot)}\n" for shot in shots)


class ShotsBySeed(ProgramTest):
    """130 shots, which are two batches of 64 and two more."""

    def check_shots(self, circuit, probabilities, collapses, records_of, detections_of):
        """Checks both subcommands with each seed, and that the shots of no two seeds are the same."""
        written = set()
        for seed in SEEDS:
            drawn = list(draw_shots(seed, 130, probabilities, collapses))
            for command, line_of in ("sample", records_of), ("detect", detections_of):
                output = lines(line_of(faults, coins) for faults, coins in drawn)
                first = "".join(output.splitlines(True)[:65])
                with self.subTest(seed=seed, command=command):
                    self.check([command, "--shots", "130", "--seed", str(seed)], circuit, output)
                    if seed == 0:
                        self.check([command, "--shots", "130"], circuit, output)
                    self.check([command, f"--seed={seed}", "--shots=65"], circuit, first)
                written.add((command, output))
        self.assertEqual(len(written), 2 * len(SEEDS))

    def test_faults_of_many_probabilities(self):
        """Faults alone: six probabilities in turn, each of which flips its record; 400 faults and detectors."""
        kinds = ["0.5", "0.25", "0.001", "1", "0", "9e-1"]
        probabilities = [kinds[k % 6] for k in range(400)]
        circuit = "".join(
            f"X_ERROR({probability}) {k % 70}\nMR {k % 70}\nDETECTOR rec[-1]\n"
            for k, probability in enumerate(probabilities)
        )

        def flipped(faults, coins):
            return faults

        self.check_shots(circuit, probabilities, 400, flipped, flipped)

    def test_coins_of_random_and_other_collapses(self):
        """Coins in blocks. In each turn two of four show: not that of a qubit that is 0, nor that of a reset."""
        circuit = "REPEAT 50 {\nH 0\nMR(0.3) 0\nM !1\nRX 2\nM 2\nDETECTOR rec[-3] rec[-2]\n}\n"
        circuit += "OBSERVABLE_INCLUDE(1) rec[-1]\n"

        def turns(faults, coins):
            for turn in range(50):
                measured, _, _, last = coins[4 * turn:4 * turn + 4]
                yield [measured != faults[turn], True, last]

        def records(faults, coins):
            return [record for turn in turns(faults, coins) for record in turn]

        def detections(faults, coins):
            compared = list(turns(faults, coins))
            return [turn[0] for turn in compared] + [False, compared[-1][2]]

        self.check_shots(circuit, ["0.3"] * 50, 200, records, detections)

    def test_one_state_of_201_qubits(self):
        """201 qubits whose outcomes are all the first coin. X on the last qubit flips its record alone."""
        qubits = " ".join(str(q) for q in range(201))
        circuit = "H 0\nCX" + "".join(f" {q} {q + 1}" for q in range(200))
        circuit += f"\nX_ERROR(0.125) 200\nM {qubits}\n" + "DETECTOR rec[-1] rec[-2]\nDETECTOR rec[-201]\n" * 30

        def records(faults, coins):
            return [coins[0]] * 200 + [coins[0] != faults[0]]

        def detections(faults, coins):
            return [faults[0], coins[0]] * 30

        self.check_shots(circuit, ["0.125"], 201, records, detections)

    def test_1100_faults_on_80_qubits(self):
        """1,100 faults, 560 records, 560 detectors: each qubit is measured in seven turns, and never reset."""
        qubits = " ".join(str(q) for q in range(80))
        circuit = "X_ERROR(0.02) " + " ".join(str(k % 80) for k in range(540)) + "\n"
        circuit += f"REPEAT 7 {{\nX_ERROR(0.4) {qubits}\nM {qubits}\n"
        circuit += "".join(f"DETECTOR rec[-{80 - q}]\n" for q in range(80)) + "}\n"

        def records(faults, coins):
            state = [sum(faults[q:540:80]) % 2 == 1 for q in range(80)]
            measured = []
            for turn in range(7):
                state = [a != b for a, b in zip(state, faults[540 + 80 * turn:])]
                measured += state
            return measured

        self.check_shots(circuit, ["0.02"] * 540 + ["0.4"] * 560, 560, records, records)
