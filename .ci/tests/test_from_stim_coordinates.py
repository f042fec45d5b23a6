"""What tools/from_stim.py makes of coordinates, and of the numbers of qubits."""
import unittest

import stim_circuits
from frame_models import write_model
from programs import convert, converter_of, find_program, refusals, run, without_comments

MOST = 10**9


def told(text, is_model=False, **choices):
    """What becomes of a text that is converted, and what is told of it."""
    converter = converter_of(text, is_model, **choices)
    converted, refused = converter.convert()
    if refused:
        raise AssertionError(refused)
    return "\n".join(converted), "".join(note + "\n" for note, _ in converter.notes())


class OneScale(unittest.TestCase):
    def test_whole_numbers_need_none(self):
        for before, after in {"2.0": "2", "1e2": "100", "-3.": "-3", "007": "007", "-0": "-0", "1e9": "1000000000"}.items():
            self.assertEqual(told(f"DETECTOR({before}) rec[-1]"), (f"DETECTOR({after}) rec[-1]", ""))
            self.assertEqual(convert(f"SHIFT_COORDS({before})"), f"SHIFT_COORDS({after})")
            self.assertEqual(told(f"detector({before}) D0", True), (f"detector({after}) D0", ""))
        self.assertEqual(convert("OBSERVABLE_INCLUDE(1.0) rec[-1]"), "OBSERVABLE_INCLUDE(1) rec[-1]")

    def test_coordinates_of_qubits_ask_for_none(self):
        text = "QUBIT_COORDS(0.25, 1e3) 0\nDETECTOR(1, 2) rec[-1]"
        self.assertEqual(told(text), (text, ""))

    def test_one_that_is_given_scales_all_alike(self):
        text = "QUBIT_COORDS(0.5, -1) 0\nDETECTOR(0.5, -1.5, 2)\nSHIFT_COORDS(0, 0.5)\nX_ERROR(0.5) 0\nOBSERVABLE_INCLUDE(1)"
        self.assertEqual(told(text, scale=2), (
            "QUBIT_COORDS(1, -2) 0\nDETECTOR(1, -3, 4)\nSHIFT_COORDS(0, 1)\nX_ERROR(0.5) 0\nOBSERVABLE_INCLUDE(1)", ""))
        self.assertEqual(convert("QUBIT_COORDS(0.25) 0", scale=2), "QUBIT_COORDS(0.5) 0")
        self.assertEqual(convert("detector(0.5) D0\nshift_detectors(0.5, 1) 3", True, 2),
                         "detector(1) D0\nshift_detectors(1, 2) 3")

    def test_the_least_for_the_whole_text_is_found_and_told(self):
        """Halves and fifths need 10; those of qubits go along."""
        text = "QUBIT_COORDS(0.25, 1) 0\nREPEAT 2 {\n    SHIFT_COORDS(0, 0.2)\n    DETECTOR[t](0.5, -3) rec[-1] # c\n}"
        after, said = told(text)
        self.assertEqual(after, "QUBIT_COORDS(2.5, 10) 0\nREPEAT 2 {\n    SHIFT_COORDS(0, 2)\n"
                         "    DETECTOR[t](5, -30) rec[-1] # c\n}")
        self.assertEqual(said.count("\n"), 1)
        self.assertIn("multiplied by 10,", said)
        self.assertEqual(told(text, coordinates="scale"), (after, said))
        after, said = told("detector(0.5) D0\nrepeat 2 {\n  shift_detectors(0.25, 1) 3\n}", True)
        self.assertEqual(after, "detector(2) D0\nrepeat 2 {\n  shift_detectors(1, 4) 3\n}")
        self.assertIn("multiplied by 4,", said)

    def test_a_hexagonal_layout_passes(self):
        """0.866025 is 34641 / 40000, and 1.73205 is 34641 / 20000."""
        self.assertEqual(convert("DETECTOR(0.866025, 0.5) rec[-1]\nDETECTOR(1.73205, 1) rec[-2]"),
                         "DETECTOR(34641, 20000) rec[-1]\nDETECTOR(69282, 40000) rec[-2]")

    def test_where_one_that_is_given_does_not_do_the_message_names_one_that_does(self):
        text = "DETECTOR(0.25) rec[-1]\nDETECTOR(0.2) rec[-1]"
        for scale, line in ((4, 2), (5, 1), (1, 1)):
            found = refusals(text, scale=scale)
            self.assertEqual(found[0][0], line)
            self.assertIn(f"times {scale} is no whole number; --scale 20 is the least that does", found[0][1])
        self.assertEqual(convert(text, scale=20), "DETECTOR(5) rec[-1]\nDETECTOR(4) rec[-1]")
        self.assertIn("--coordinates drop", refusals("DETECTOR(0.5, 1e9) rec[-1]", scale=2)[0][1])
        self.assertIn("beyond 1000000000; --scale 1 is the least", refusals("DETECTOR(7) rec[-1]", scale=10**9)[0][1])


class LeftOut(unittest.TestCase):
    LEFT_OUT = ("QUBIT_COORDS(0.5) 0\nREPEAT 2 {\n    # SHIFT_COORDS(0, 1) # s\n    # DETECTOR[t](0.5, 2)rec[-1] # d\n"
                "    DETECTOR[t] rec[-1]\n}\nDETECTOR() rec[-1]")
    TEXT = ("QUBIT_COORDS(0.5) 0\nREPEAT 2 {\n    SHIFT_COORDS(0, 1) # s\n    DETECTOR[t](0.5, 2)rec[-1] # d\n}\n"
            "DETECTOR() rec[-1]")

    def test_they_are_where_that_is_asked(self):
        self.assertEqual(told(self.TEXT, coordinates="drop"), (self.LEFT_OUT, ""))
        self.assertEqual(told("detector(0.5) D0\nshift_detectors(0, 1) 2\ndetector D1", True, coordinates="drop"), (
            "# detector(0.5) D0\ndetector D0\n# shift_detectors(0, 1) 2\nshift_detectors 2\ndetector D1", ""))

    def test_they_are_and_that_is_told_where_no_scale_does(self):
        after, said = told(self.TEXT.replace("0.5, 2", "0.8660254037844386, 2"))
        self.assertEqual(after, self.LEFT_OUT.replace("0.5, 2", "0.8660254037844386, 2"))
        self.assertIn("left out", said)

    def test_circuits_up_to_the_limit_are_scaled_and_those_beyond_are_not(self):
        for text, scale in (("499999999.5", 2), ("-500000000", 1), ("500000000.5", None), ("-500000000.5", None), ("1e9", 1),
                            ("1000000001", None), ("1e999", None), ("1e-9", MOST), ("1e-10", 10**10)):
            for name in ("DETECTOR", "SHIFT_COORDS"):
                after, said = told(f"M 0\n{name}({text})")
                kept = [line for line in without_comments(after) if "(" in line]
                self.assertEqual(kept, [f"{name}({int(float(text) * scale)})"] if scale else [], text)
                self.assertEqual("left out" in said, scale is None, text)
                done = run([find_program(), "run"], after.encode())
                self.assertEqual(done.returncode, 0, text)

    def test_models_up_to_the_limit_are_scaled_and_those_beyond_are_not(self):
        """With s = 55555555555555555, 2 * (0.5 + 9 * s) is 10^18 - 9, and 18 more are beyond 10^18 - 1."""
        program, s = find_program(), 55555555555555555
        forms = [  # a model, and the greatest number for which it is scaled
            ("repeat 10 {{\n detector(0.5) D0\n shift_detectors({}) 0\n}}", s),
            ("repeat 10 {{\n detector(-0.5) D0\n shift_detectors(-{}) 0\n}}", s),
            ("repeat 2 {{\n repeat 5 {{\n  detector(0.5) D0\n  shift_detectors({}) 0\n }}\n}}", s),
            ("shift_detectors({}) 0\nrepeat 9 {{\n shift_detectors({}) 1\n}}\ndetector(0.5)", 49999999999999999),
            # What goes there and back again goes nowhere.
            ("repeat 1000 {{\n shift_detectors({0}) 0\n detector(0.5) D0\n shift_detectors(-{0}) 0\n}}", 10**18 // 2 - 1),
            # A place that no detector has.
            ("repeat 10 {{\n detector(0.5) D0\n shift_detectors(0, {}) 0\n}}", 10**18 // 2 - 1),
            ("detector(0.5, {}) D0\nshift_detectors(0, 1) 0", 10**18 // 2 - 1),
        ]
        for form, most in forms:
            for number, is_scaled in ((most, True), (most + 1, False)):
                model = form.format(number, number)
                after = convert(model, True)
                self.assertEqual("(1" in after or "(-1" in after, is_scaled, model)
                self.assertEqual(run([program, "predict"], after.encode()).returncode, 0, after)
                doubled = model.replace("0.5", "1").replace(str(number), str(2 * number))
                self.assertEqual(run([program, "predict"], doubled.encode()).returncode, 0 if is_scaled else 2, doubled)


class NewNumbers(unittest.TestCase):
    def test_they_go_by_first_use_and_coordinates_follow(self):
        text = ("QUBIT_COORDS(1) 7 # seven\nQUBIT_COORDS(2) 90 5\nR 0090 3\nREPEAT 2 {\n    CX 90 3 rec[-1] 5\n"
                "    MPP !X90 * Z5\n}\n"
                "M(0.1) !3\nE(0.1) X5 Y90\nMPAD 0 1\nDETECTOR(3, 90) rec[-3]\nDEPOLARIZE2(0.9375) 5 3\n")
        expected = ("# The qubits 0 1 2 4 were 90 3 5 7.\nQUBIT_COORDS(1) 4 # seven\nQUBIT_COORDS(2) 0 2\nR 0 1\nREPEAT 2 {\n"
                    "    CX 0 1 rec[-1] 2\n    MPP !X0 * Z2\n}\nM(0.1) !1\nE(0.1) X2 Y0\n# MPAD 0 1\nM 3 !3\n"
                    "DETECTOR(3, 90) rec[-3]\n"
                    "# DEPOLARIZE2(0.9375) 5 3\n")
        after = convert(text, is_renumbered=True)
        self.assertEqual(after[:len(expected)], expected)
        self.assertEqual(after[len(expected):].split("\n")[3:6], ["E(0.5) X2", "E(0.5) X2 X1", "E(0.5) X2 Y1"])

    def test_numbers_that_are_so_already_stay(self):
        text = "QUBIT_COORDS(0) 3\nH 00 1\n# c\nCX 1 2\nM 0"
        self.assertEqual(told(text, is_renumbered=True), (text, ""))

    def test_a_code_with_other_numbers_has_the_same_model(self):
        layout = stim_circuits.rotated_layout(3)
        plain = stim_circuits.surface_code("rotated", layout, "X", 3, 3)
        layout.number = {place: 5000 + 7 * number for place, number in layout.number.items()}
        spread = stim_circuits.surface_code("rotated", layout, "X", 3, 3)
        self.assertIn("QUBIT_COORDS(1, 1) 5007\n", spread)
        after = convert(spread, is_renumbered=True)
        self.assertEqual(write_model(after), write_model(convert(plain)))
        line = next(line for line in after.split("\n") if line.startswith("# The qubits"))
        new, old = (list(map(int, numbers.split())) for numbers in line[len("# The qubits "):-1].split(" were "))
        self.assertEqual(new, list(range(17)))
        for at, qubit in zip(new, old):
            x, y = next(place for place, number in layout.number.items() if number == qubit)
            self.assertIn(f"QUBIT_COORDS({x}, {y}) {at}\n", after)

    def test_distance_45_fits_by_new_numbers(self):
        """2 * 45^2 - 1 = 4049 qubits; numbered by place, as here, the last is 90 * 91 + 45."""
        layout = stim_circuits.rotated_layout(45)
        layout.number = {(x, y): 91 * y + x for x, y in layout.number}
        text = stim_circuits.surface_code("rotated", layout, "Z", 45, 2)
        (_, reason), *_ = refusals(text)
        self.assertIn("qubit ", reason)
        self.assertIn("--renumber", reason)
        after = convert(text, is_renumbered=True)
        done = run([find_program(), "analyze"], after.encode())
        self.assertEqual((done.returncode, done.stdout.count(b"\ndetector(")), (0, 2024 * 2))

    def test_where_numbers_are_scarce_used_qubits_come_first(self):
        used = " ".join(map(str, range(10, 10 + 4096)))
        text = f"QUBIT_COORDS(1) 5\nQUBIT_COORDS(2) 6 12\nH {used}"
        after = convert(text, is_renumbered=True).split("\n")
        self.assertEqual(after[1:4], ["# QUBIT_COORDS(1) 5", "# QUBIT_COORDS(2) 6 12", "QUBIT_COORDS(2) 2"])
        self.assertEqual(after[4], "H " + " ".join(map(str, range(4096))))
        self.assertEqual(len(after), 5)
        # One less, and the last number is that of the qubit that makes known records.
        after = convert(f"QUBIT_COORDS(1) 5\nH {used[3:]}\nMPAD 1", is_renumbered=True).split("\n")
        self.assertEqual(after[1], "# QUBIT_COORDS(1) 5")
        self.assertEqual(after[-1], "M !4095")
        ((line, reason),) = refusals(f"H 5\nH {used}", is_renumbered=True)
        self.assertEqual(line, 2)
        self.assertIn("uses 4,097 qubits, and 4,096 is the most", reason)


if __name__ == "__main__":
    unittest.main()
