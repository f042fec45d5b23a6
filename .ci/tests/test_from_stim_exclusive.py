"""Errors that exclude one another: chains, heralded errors, and channels that tools/from_stim.py approximates on request."""
import random
import re
import unittest
from fractions import Fraction

import pauli_words
from exact_states import LETTERS_1, LETTERS_2, read_instructions, run_circuit
from programs import FROM_STIM, convert, converter_of, read_rows, refusals, run, without_comments
from test_from_stim import enumerate_sums

CLOSE = Fraction(1, 10**15)


def word_of(targets, qubits):
    """The letters of targets on the first qubits, multiplied, without their phase."""
    x = z = 0
    for target in targets:
        _, more_x, more_z = pauli_words.letter_at(target.lstrip("!")[0], int(target.lstrip("!")[1:]))
        x, z = x ^ more_x, z ^ more_z
    return "".join("IXZY"[(x >> qubit & 1) + 2 * (z >> qubit & 1)] for qubit in range(qubits))


def chain_of(chances, targets):
    names = ["E"] + ["ELSE_CORRELATED_ERROR"] * (len(chances) - 1)
    return "\n".join(f"{name}({chance}) {target}" for name, chance, target in zip(names, chances, targets))


def chances_of_cases(chances):
    """That each case happens, and none before it."""
    rest, found = Fraction(1), []
    for chance in map(Fraction, chances):
        found.append(rest * chance)
        rest *= 1 - chance
    return found


class Chains(unittest.TestCase):
    def assert_exact(self, chances, targets, qubits):
        """The faults make the channel of the chain: each case with its probability."""
        expected = dict.fromkeys(LETTERS_1 if qubits == 1 else LETTERS_2, Fraction(0))
        for chance, target in zip(chances_of_cases(chances), targets):
            if word_of(target.split(), qubits) != "I" * qubits:
                expected[word_of(target.split(), qubits)] += chance
        text = convert(chain_of(chances, targets))
        faults = [(word_of(kept, qubits), Fraction(chance)) for name, (chance,), kept in read_instructions(text) if name == "E"]
        self.assertEqual(len(faults), len(without_comments(text)))
        sums = enumerate_sums(faults, expected)
        for word, chance in expected.items():
            self.assertLess(abs(sums[word] - chance), CLOSE, (text, word))

    def test_those_that_are_a_channel_of_independent_faults_become_it(self):
        source = random.Random(6)
        self.assert_exact(["0.01", "0.0101", "0.0102"], ["X0", "Y0", "!Z0"], 1)
        self.assert_exact(["0.2", "0.25", "0.3333333333333333333333"], ["X0", "Y0", "Z0"], 1)
        for _ in range(3):
            words = source.sample(LETTERS_2, 15)
            targets = [" ".join(letter + str(qubit) for qubit, letter in enumerate(word) if letter != "I") for word in words]
            self.assert_exact([f"0.01{source.randrange(10)}" for _ in words], targets, 2)

    def test_one_product_in_several_cases_is_one_fault(self):
        """0.1 + 0.9 * 0.2 = 0.28; what is multiplied out to nothing, or comes behind what always happens, is none."""
        self.assertEqual(without_comments(convert(chain_of(["0.1", "0.2"], ["X0 X1", "X1 X0"]))), ["E(0.28) X0 X1"])
        self.assertEqual(without_comments(convert(chain_of(["0.1", "0.2"], ["Z5 Z5", "X5 X6 X7"]))), ["E(0.18) X5 X6 X7"])
        self.assertEqual(without_comments(convert(chain_of(["1", "0.2"], ["X5 X6 X7", "X5"]))), ["E(1) X5 X6 X7"])
        self.assertEqual(without_comments(convert(chain_of(["0", "0"], ["X5", "X6"]))), [])

    def test_each_line_stays_as_a_comment_in_its_place(self):
        text = "  E[t](0.1) X0 # a\n# b\n\n ELSE_CORRELATED_ERROR(0.5) X0\nE(0.1) X0"
        self.assertEqual(convert(text),
                         "  # E[t](0.1) X0 # a\n  E[t](0.55) X0\n# b\n\n # ELSE_CORRELATED_ERROR(0.5) X0\nE(0.1) X0")

    def test_others_are_refused_line_by_line(self):
        text = "\n".join(["E(0.1) X0", "ELSE_CORRELATED_ERROR(0.1) Z0", "M 0", "E(0.1) X0 X1 X2", "ELSE_CORRELATED_ERROR(0.1) X1",
                          "ELSE_CORRELATED_ERROR(0.1) X2"])
        self.assertEqual([line for line, _ in refusals(text)], [2, 5, 6])
        # On two qubits these are nearly depolarizing, and X on a third one with each of them is not.
        words = [" ".join(letter + str(qubit) for qubit, letter in enumerate(word) if letter != "I") for word in LETTERS_2]
        self.assertEqual(refusals(chain_of(["0.01"] * 15, words)), [])
        self.assertEqual(len(refusals(chain_of(["0.01"] * 15, [word + " X2" for word in words]))), 14)

    def test_a_long_chain_takes_no_longer_than_its_length(self):
        text = chain_of(["0.000123456789012345"] * 5000, [f"X{k % 50}" for k in range(5000)])
        lines = without_comments(convert(text, may_approximate=True))
        self.assertEqual(len(lines), 5000)
        last = Fraction("0.000123456789012345") * (1 - Fraction("0.000123456789012345"))**4999
        self.assertLess(abs(Fraction(re.match(r"E\(([^)]*)\)", lines[-1])[1]) / last - 1), Fraction(1, 10**14))


class Heralds(unittest.TestCase):
    def test_one_case_is_the_same(self):
        """X with its herald; the herald of nothing; and neither. Qubit 1 is 0 again behind the record."""
        text = convert("HERALDED_PAULI_CHANNEL_1(0, 0.1, 0, 0) 0\nM 0")
        self.assertEqual(without_comments(text), ["E(0.1) X1 X0", "MR 1", "M 0"])
        states = run_circuit(text + "\nM 1", 2)
        self.assertEqual({records: state[0, 0, 0] for records, state in states.items()},
                         {(0, 0, 0): Fraction(9, 10), (1, 1, 0): Fraction(1, 10)})
        self.assertEqual(without_comments(convert("M 5\nHERALDED_PAULI_CHANNEL_1(0.2, 0, 0, 0) 0 3")),
                         ["M 5", "E(0.2) X6", "MR 6", "E(0.2) X6", "MR 6"])
        self.assertEqual(without_comments(convert("HERALDED_ERASE(0) 0")), ["MR 1"])

    def test_several_are_refused_unless_they_may_be_approximate(self):
        text = "REPEAT 2 {\n    HERALDED_ERASE[t](0.1) 4\n}\nHERALDED_PAULI_CHANNEL_1(0.1, 0, 0.2, 0.3) 0"
        self.assertEqual([line for line, _ in refusals(text)], [2, 4])
        self.assertEqual(convert(text, may_approximate=True).split("\n"), [
            "REPEAT 2 {", "    # approximate: HERALDED_ERASE[t](0.1) 4", "    E[t](0.025) X5", "    E[t](0.025) X5 X4",
            "    E[t](0.025) X5 Y4", "    E[t](0.025) X5 Z4", "    MR[t] 5", "}",
            "# approximate: HERALDED_PAULI_CHANNEL_1(0.1, 0, 0.2, 0.3) 0", "E(0.1) X5", "E(0.2) X5 Y0", "E(0.3) X5 Z0", "MR 5"])


class Approximate(unittest.TestCase):
    WITHOUT = "PAULI_CHANNEL_1(0.1, 0, 0.2) 0 3"
    PAIRS = "PAULI_CHANNEL_2(0, 0, 0, 0, 0.125, 0, 0, 0, 0, 0, 0, 0, 0, 0, 0.25) 0 1 2 3"

    def test_each_case_is_a_fault_of_its_own_probability(self):
        for text, lines in (
            (self.WITHOUT, ["X_ERROR(0.1) 0 3", "Z_ERROR(0.2) 0 3"]),
            (self.PAIRS, ["E(0.125) X0 X1", "E(0.25) Z0 Z1", "E(0.125) X2 X3", "E(0.25) Z2 Z3"]),
            ("PAULI_CHANNEL_1(0.3, 0.3, 0.1) 0", ["X_ERROR(0.3) 0", "Y_ERROR(0.3) 0", "Z_ERROR(0.1) 0"]),
            (chain_of(["0.1", "0.2", "0.3"], ["X0", "Y1", "Z2 !X0"]), ["E(0.1) X0", "E(0.18) Y1", "E(0.216) Z2 X0"]),
        ):
            self.assertNotEqual(refusals(text), [], text)
            self.assertEqual(without_comments(convert(text, may_approximate=True)), lines)

    def test_rows_of_the_page(self):
        rows = list(read_rows("Approximate channels"))
        self.assertEqual(len(rows), 2)
        for text, lines in rows:
            self.assertEqual(without_comments(convert(text, may_approximate=True)), lines)

    def test_what_is_the_same_stays_the_same(self):
        for text in ("DEPOLARIZE1(0.3) 0", "DEPOLARIZE2(0.3) 0 1", "PAULI_CHANNEL_1(0.01, 0.01, 0.01) 0",
                     f"PAULI_CHANNEL_2({', '.join(['0.01'] * 15)}) 0 1", chain_of(["0.01"] * 3, ["X0", "Y0", "Z0"]),
                     "HERALDED_PAULI_CHANNEL_1(0, 0.1, 0, 0) 0"):
            self.assertEqual(convert(text, may_approximate=True), convert(text))
            self.assertNotIn("approximate", convert(text))

    def test_what_is_no_channel_stays_refused(self):
        for text, reason in (("PAULI_CHANNEL_1(0.5, 0.4, 0.2) 0", "more than 1"), ("DEPOLARIZE1(0.76) 0", "mixes too much"),
                             ("DEPOLARIZE2(0.94) 0 1", "mixes too much"), ("ELSE_CORRELATED_ERROR(0.1) X0", "right behind")):
            self.assertIn(reason, refusals(text, may_approximate=True)[0][1])

    def test_each_line_is_marked_and_all_are_counted(self):
        """Four lines, of which two are equal; the first line of a chain stays, and an exact channel isn't counted."""
        text = "\n".join([self.WITHOUT, "DEPOLARIZE1(0.75) 0", chain_of(["0.1", "0.2"], ["X0", "Z0"]), self.WITHOUT,
                          "HERALDED_ERASE(0.1) 0", "M 0"])
        converter = converter_of(text, may_approximate=True)
        after = "\n".join(converter.convert()[0])
        self.assertEqual(after.count("# approximate: "), 4)
        ((note, _),) = converter.notes()
        self.assertTrue(note.startswith("4 lines are approximate"), note)
        for line in (self.WITHOUT, "ELSE_CORRELATED_ERROR(0.2) Z0", "HERALDED_ERASE(0.1) 0"):
            self.assertIn(f"# approximate: {line}\n", after)

    def test_the_command_has_it_by_its_option_alone(self):
        done = run([FROM_STIM, "--approximate-disjoint"], self.WITHOUT.encode())
        self.assertEqual((done.returncode, done.stdout),
                         (0, f"# approximate: {self.WITHOUT}\nX_ERROR(0.1) 0 3\nZ_ERROR(0.2) 0 3".encode()))
        self.assertRegex(done.stderr.decode(), r"\Afrom_stim.py: 1 line is approximate[^\n]*\n\Z")
        self.assertEqual(run([FROM_STIM], self.WITHOUT.encode()).returncode, 1)


if __name__ == "__main__":
    unittest.main()
