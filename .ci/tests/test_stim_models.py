"""Circuits in the form that Stim's generators write, up to distance 9: their error models are those of their exclusive channels.

Each circuit is converted by tools/from_stim.py and analysed by the program, and the lines of the model that flip the same are
merged. That has to be what channel_models.py finds of the circuit as it was, before it was converted.
"""
import re
import unittest
from math import isclose, sqrt

import stim_circuits
from channel_models import merged_faults, merged_model
from programs import FROM_STIM, find_program, run

# Probabilities differ by less than this part of them. Both sides are computed in double precision, to some 1e-15 of them.
PART = 1e-13

# Code, task, distance and rounds. The color code ends in another basis after 3, 5 and 7 rounds each; a code of one or two rounds
# has no block, and one of distance 4 has its checks at other places of its sides.
CIRCUITS = [(*names, distance, distance) for names in stim_circuits.GENERATORS for distance in (3, 5, 7)] + [
    ("repetition_code", "memory", 9, 20), ("surface_code", "rotated_memory_z", 5, 2), ("surface_code", "rotated_memory_x", 4, 1)]

# In place of the depolarizing channels, so that one letter, or one qubit of a pair, taken for another is seen.
UNEQUAL = {
    "DEPOLARIZE1": "PAULI_CHANNEL_1(0.0003, 0.0005, 0.0011)",
    "DEPOLARIZE2": f"PAULI_CHANNEL_2({', '.join(f'0.000{k}' for k in range(10, 25))})",
}


def make(code, task, distance, rounds):
    return stim_circuits.GENERATORS[code, task](distance, rounds)


def with_unequal_cases(text):
    return re.sub(r"(DEPOLARIZE[12])\([^)]*\)", lambda found: UNEQUAL[found[1]], text)


def convert(text):
    done = run([FROM_STIM, "--scale", "2"], text.encode())
    if done.returncode:
        raise AssertionError(done.stderr.decode())
    return done.stdout


class ByHand(unittest.TestCase):
    """What channel_models.py finds of small circuits."""

    def assert_faults(self, text, expected):
        """`expected` has a probability for each set of detectors, a bit each."""
        faults, _ = merged_faults(text)
        self.assertEqual(set(faults), set(expected))
        for symptom, chance in expected.items():
            self.assertAlmostEqual(faults[symptom], chance, delta=1e-15, msg=bin(symptom))

    def test_two_of_three_cases_flip_a_record(self):
        self.assert_faults("DEPOLARIZE1(0.3) 0\nM 0\nDETECTOR rec[-1]\n", {0b1: 0.2})

    def test_two_faults_that_flip_the_same_cancel(self):
        self.assert_faults("X_ERROR(0.1) 0\nE(0.2) Y0 Z1\nM 0\nDETECTOR rec[-1]\n", {0b1: 0.1 * 0.8 + 0.9 * 0.2})

    def test_each_of_the_three_letters(self):
        """A Bell pair shows which letter it was: XX is flipped by Y and Z, ZZ by X and Y, and their parity by X and Z."""
        text = "H 0\nCX 0 1\nPAULI_CHANNEL_1(0.1, 0.02, 0.03) 0\nMPP X0*X1 Z0*Z1\nDETECTOR rec[-2]\nDETECTOR rec[-1]\n"
        xx, zz, parity = 1 - 2 * (0.02 + 0.03), 1 - 2 * (0.1 + 0.02), 1 - 2 * (0.1 + 0.03)
        self.assert_faults(text, {0b10: (1 - sqrt(zz * parity / xx)) / 2, 0b11: (1 - sqrt(xx * zz / parity)) / 2,
                                  0b01: (1 - sqrt(xx * parity / zz)) / 2})

    def test_two_qubits(self):
        """Each record, and their parity, is flipped by eight cases of fifteen."""
        chance = (1 - sqrt(1 - 16 * 0.15 / 15)) / 2
        text = "DEPOLARIZE2(0.15) 0 1\nM 0 1\nDETECTOR rec[-2]\nDETECTOR rec[-1]\n"
        self.assert_faults(text, {0b01: chance, 0b10: chance, 0b11: chance})

    def test_cases_of_two_qubits_in_order(self):
        """Of the first qubit X flips the record, of the second Z: XI is the fourth case, and IZ the third."""
        chances = ["0"] * 15
        chances[3] = "0.1"
        text = f"RX 1\nPAULI_CHANNEL_2({', '.join(chances)}) 0 1\nM 0\nMX 1\nDETECTOR rec[-2]\nDETECTOR rec[-1]\n"
        self.assertAlmostEqual(merged_faults(text)[0][0b01], 0.1)
        chances[2], chances[3] = chances[3], chances[2]
        text = f"RX 1\nPAULI_CHANNEL_2({', '.join(chances)}) 0 1\nM 0\nMX 1\nDETECTOR rec[-2]\nDETECTOR rec[-1]\n"
        self.assertAlmostEqual(merged_faults(text)[0][0b10], 0.1)

    def test_a_model_is_merged_by_what_its_lines_flip(self):
        model = "error(0.1) D0 L0\nerror(0.2) D0\nerror(0.2) D0 L0\ndetector D0\nlogical_observable L0\n"
        self.assertEqual(merged_model(model, 1), {0b11: 0.1 + 0.2 - 2 * 0.1 * 0.2, 0b01: 0.2})


class Models(unittest.TestCase):
    def assert_same_faults(self, faults, expected, name):
        self.assertEqual(set(faults), set(expected), name)
        apart = {symptom: (chance, expected[symptom]) for symptom, chance in faults.items()
                 if not isclose(chance, expected[symptom], rel_tol=PART)}
        self.assertEqual(apart, {}, name)

    def assert_same_model(self, text, name):
        """Returns how many symptoms there are."""
        done = run([find_program(), "analyze"], convert(text))
        self.assertEqual((done.returncode, done.stderr), (0, b""), (name, done.stdout[:200]))
        expected, detectors = merged_faults(text)
        self.assertEqual(done.stdout.count(b"\ndetector("), detectors, name)
        self.assert_same_faults(merged_model(done.stdout.decode(), detectors), expected, name)
        return len(expected)

    def test_circuits_of_each_generator(self):
        self.assertEqual(len(CIRCUITS), 21)
        for name in CIRCUITS:
            with self.subTest(circuit=name):
                self.assertGreater(self.assert_same_model(make(*name), name), 20)

    def test_circuits_with_unequal_cases(self):
        for names in stim_circuits.GENERATORS:
            with self.subTest(circuit=names):
                text = with_unequal_cases(make(*names, 3, 3))
                self.assertNotIn("DEPOLARIZE", text)
                self.assert_same_model(text, names)

    def test_converted_circuits_without_the_program(self):
        """What the converted circuit's faults flip, followed as those of the other."""
        for names in stim_circuits.GENERATORS:
            for text in (make(*names, 3, 2), with_unequal_cases(make(*names, 3, 2))):
                with self.subTest(circuit=names, cases=text.count("PAULI_CHANNEL")):
                    self.assert_same_faults(merged_faults(convert(text).decode())[0], merged_faults(text)[0], names)


if __name__ == "__main__":
    unittest.main()
