"""tools/rotated_code.py: its circuits beside those of a second generator, and its options."""
import re
import time
import unittest

import stim_circuits
from programs import load, run
from test_match import ROTATED_CODE, ends_with

rotated_code = load(ROTATED_CODE)


class RotatedCode(unittest.TestCase):
    def test_circuits_are_those_of_a_second_generator(self):
        noise = dict(stim_circuits.NOISE)
        self.addCleanup(stim_circuits.NOISE.update, noise)
        for distance, rounds, probability in ((2, 2, "0.001"), (3, 4, "0.02"), (4, 3, "1e-3"), (5, 2, "0")):
            stim_circuits.NOISE.update(dict.fromkeys(noise, probability))
            text = stim_circuits.surface_code("rotated", stim_circuits.rotated_layout(distance), "Z", distance, rounds)
            expected = "".join(f"{line}\n" for line in text.splitlines() if not line.startswith("#"))
            with self.subTest(distance=distance, rounds=rounds):
                self.assertEqual(rotated_code.write_circuit(distance, rounds, probability), expected)

    def test_one_round_has_no_block(self):
        text = run([ROTATED_CODE, "--distance", "3", "--rounds", "1", "--probability", "0.01"]).stdout.decode()
        self.assertNotIn("REPEAT", text)
        self.assertEqual(len(re.findall("DETECTOR", text)), 8)
        three = run([ROTATED_CODE, "--distance", "3", "--probability", "0.01"]).stdout.decode()
        self.assertIn("REPEAT 2 {", three)

    def test_options(self):
        began = time.process_time()
        for words in (["--distance", "1"], ["--distance", "46"], ["--probability", "x"], ["--probability", "-0.1"],
                      ["--probability", "1e400"], ["--probability", "0" * 10_000 + "x"], ["--rounds", "0"]):
            status, told = ends_with(rotated_code, ["--distance", "3", "--probability", "0.1", *words])
            self.assertEqual((status, told[:9]), (2, "argument "), words)
        self.assertLess(time.process_time() - began, 1)


if __name__ == "__main__":
    unittest.main()
