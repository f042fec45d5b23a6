"""Observables of Pauli products, which tools/from_stim.py --observables measures where that is the same."""
import random
import unittest

from exact_states import run_circuit
from frame_models import write_model
from programs import convert, find_program, refusals, run, without_comments

# Circuits, and their models worked by hand: a fault flips an observable where it anticommutes with its letters there.
WORKED = [
    # X at 0 becomes X at both, and anticommutes with Z at each of them; Z commutes.
    ("R 0 1\nX_ERROR(0.1) 0\nCX 0 1\nZ_ERROR(0.2) 1\nX_ERROR(0.3) 1\nOBSERVABLE_INCLUDE(0) Z0 Z1\nOBSERVABLE_INCLUDE(1) Z1",
     "error(0.1) L1\nerror(0.3) L0 L1\nlogical_observable L0\nlogical_observable L1\n"),
    ("H 0\nZ_ERROR(0.1) 0\nOBSERVABLE_INCLUDE(0) X0", "error(0.1) L0\nlogical_observable L0\n"),
    # Qubit 0 is flipped before it is measured, and still is so later; 2 is flipped between the two products.
    ("R 0 1 2\nX_ERROR(0.1) 0\nM 0 1\nOBSERVABLE_INCLUDE(0) rec[-2] Z2\nX_ERROR(0.2) 2\nOBSERVABLE_INCLUDE(1) Z2 Z0\n"
     "REPEAT 2 {\n    DETECTOR(7) rec[-2]\n}\nOBSERVABLE_INCLUDE(0) rec[-1]\nX_ERROR(0.3) 0 1 2",
     "error(0.1) D0 D1 L0 L1\nerror(0.2) L1\ndetector(7) D0\ndetector(7) D1\nlogical_observable L0\nlogical_observable L1\n"),
    # X1 Z1 is Y1 but for a phase, so Y alone doesn't flip it; X0 X0 is nothing; the sign says nothing.
    ("H_YZ 1\nX_ERROR(0.1) 1\nY_ERROR(0.2) 1\nZ_ERROR(0.3) 1\nOBSERVABLE_INCLUDE(1) !X1 Z1\nOBSERVABLE_INCLUDE(0) X0 X0",
     "error(0.1) L1\nerror(0.3) L1\nlogical_observable L0\nlogical_observable L1\n"),
    # One flip, of a record: what is fed forward by it anticommutes with Z1.
    ("M(0.1) 0\nCX rec[-1] 1\nOBSERVABLE_INCLUDE(0) Z1\nOBSERVABLE_INCLUDE(0) rec[-1]\nOBSERVABLE_INCLUDE(1) rec[-1]",
     "error(0.1) L1\nlogical_observable L0\nlogical_observable L1\n"),
    # Z0 of a state of X is random, and so it is in Stim.
    ("H 0\nOBSERVABLE_INCLUDE(0) Z0", "random L0\n0\n1\n"),
]

REFUSED = [
    ("REPEAT 2 {\nOBSERVABLE_INCLUDE(0) Z0\n}", 2, "in a block"),
    ("OBSERVABLE_INCLUDE(0) Z0\nM 1", 1, "line 2 measures or resets behind"),
    ("OBSERVABLE_INCLUDE(0) Z0\nREPEAT 2 {\nR 1\n}\nH 3", 1, "line 3 measures or resets behind"),
    ("M 1\nOBSERVABLE_INCLUDE(0) Z0\nTICK\nMPAD 1", 2, "line 4 measures or resets behind"),
    ("OBSERVABLE_INCLUDE(0) Z0\nX_ERROR(0.1) 0\nH 1\nS 0\nOBSERVABLE_INCLUDE(0) X0", 5, "line 3 is a gate between"),
    ("OBSERVABLE_INCLUDE(0) Z0 X1\nOBSERVABLE_INCLUDE(1) X1\nOBSERVABLE_INCLUDE(2) X0", 3, "that of line 1 anticommute"),
    ("OBSERVABLE_INCLUDE(0) Z0\nOBSERVABLE_INCLUDE(0) Y0", 2, "anticommute"),
    ("OBSERVABLE_INCLUDE(0) Z0*X1", 1, "no target"),
    ("OBSERVABLE_INCLUDE(1024) Z0", 1, "beyond 1023"),
    ("OBSERVABLE_INCLUDE(0) Z5000", 1, "greatest qubit"),
    (f"OBSERVABLE_INCLUDE(0) Z{10**15}", 1, "greatest qubit"),
]


class Products(unittest.TestCase):
    def test_models_worked_by_hand(self):
        for text, model in WORKED:
            if not model.startswith("random"):
                self.assertEqual(write_model(text), model, "by following each fault")
            done = run([find_program(), "analyze"], convert(text, may_measure=True).encode())
            self.assertEqual(done.stdout.decode(), model, text)

    def test_lines_are_these(self):
        text = ("M 0 1\n    OBSERVABLE_INCLUDE[t](2) rec[-2] X3 !Z1 # c\nREPEAT 2 {\n    DETECTOR rec[-1] rec[-2]\n}\n"
                "OBSERVABLE_INCLUDE(0) rec[-1]\nOBSERVABLE_INCLUDE(0) rec[-2] Z1 X1 rec[-1]\nCX rec[-1] 0 2 3\n")
        ((line, reason),) = refusals(text, may_measure=True)
        self.assertEqual((line, "anticommute" in reason), (7, True))
        after = convert(text.replace("Z1 X1", "Z1 X2"), may_measure=True)
        self.assertEqual(after, (
            "M 0 1\n    # OBSERVABLE_INCLUDE[t](2) rec[-2] X3 !Z1 # c\n    MPP[t] X3*Z1\n"
            "    OBSERVABLE_INCLUDE[t](2) rec[-1] rec[-3]\n"
            "REPEAT 2 {\n    DETECTOR rec[-2] rec[-3]\n}\nOBSERVABLE_INCLUDE(0) rec[-2]\n"
            "# OBSERVABLE_INCLUDE(0) rec[-2] Z1 X2 rec[-1]\nMPP Z1*X2\nOBSERVABLE_INCLUDE(0) rec[-1] rec[-4] rec[-3]\n"
            "CX rec[-3] 0 2 3\n"))

    def test_without_the_option_they_are_refused(self):
        ((line, reason),) = refusals("M 0\nOBSERVABLE_INCLUDE(0) X1")
        self.assertEqual(line, 2)
        self.assertIn("--observables", reason)

    def test_where_measuring_is_not_the_same_they_are_refused(self):
        for text, line, reason in REFUSED:
            found = refusals(text, may_measure=True)
            self.assertEqual([at for at, _ in found], [line], text)
            self.assertIn(reason, found[0][1], text)

    def test_what_is_refused_for_anticommuting_would_be_random(self):
        """Measured one after the other, Z0 and X0 are: so the refusal is needed, though Stim has a model."""
        text = "RX 0\nZ_ERROR(0.1) 0\nOBSERVABLE_INCLUDE(0) Z0\nOBSERVABLE_INCLUDE(1) X0\nOBSERVABLE_INCLUDE(0) Z0"
        self.assertEqual(write_model(text), "error(0.1) L1\nlogical_observable L0\nlogical_observable L1\n")
        self.assertEqual(refusals(text, may_measure=True)[0][0], 4)
        measured = "RX 0\nMPP Z0\nMPP X0\nDETECTOR rec[-1]"
        self.assertEqual(run([find_program(), "analyze"], measured.encode()).returncode, 3)

    def test_drawn_circuits_have_the_model_that_following_each_fault_gives(self):
        """Gates that keep products of Z such products, so that all parities are fixed; then Z of each becomes some letter."""
        program, source = find_program(), random.Random(5)
        lengths = set()
        for _ in range(25):
            lines = ["R 0 1 2 3"]
            for _ in range(12):
                a, b, c = source.sample(range(4), 3)
                lines.append(source.choice((
                    f"CX {a} {b}", f"SWAP {a} {b}", f"CZ {b} {c}", f"Y_ERROR(0.1) {a}", f"E(0.2) X{a} Z{b}", f"M(0.3) {a}",
                    f"MR !{c}", f"R {b}", f"X_ERROR(0.4) {a} {b} {c}")))
            lines.append("M 0 1 2\nDETECTOR rec[-1] rec[-3]")
            bases = source.choices("XYZ", k=4)
            lines += [f"{ {'X': 'H', 'Y': 'H_YZ', 'Z': 'I'}[letter] } {qubit}" for qubit, letter in enumerate(bases)]
            for _ in range(5):
                letters = " ".join(f"{bases[qubit]}{qubit}" for qubit in source.choices(range(4), k=3))
                lines.append(source.choice((f"OBSERVABLE_INCLUDE({source.randrange(3)}) rec[-{source.randrange(1, 4)}] {letters}",
                                            "E(0.5) X1 Y2 Z3", "DETECTOR rec[-2]", "OBSERVABLE_INCLUDE(1) rec[-3]")))
            text = "\n".join(lines)
            after = convert(text, may_measure=True)
            model = run([program, "analyze"], after.encode()).stdout.decode()
            self.assertEqual(model, write_model(text), text)
            lengths.add(len(without_comments(after)) - len(text.split("\n")))
        self.assertTrue({1, 2, 3} <= lengths)

    def test_the_records_before_are_as_they_were(self):
        text = "H 0\nCX 0 1\nDEPOLARIZE2(0.1) 0 1\nM 0\nOBSERVABLE_INCLUDE(0) X1 Z2"
        before, after = run_circuit(text[:text.index("OBS")], 3), run_circuit(convert(text, may_measure=True), 3)
        for (record,), state in before.items():
            parts = [after[record, outcome][0, 0, 0] for outcome in (0, 1) if (record, outcome) in after]
            self.assertLess(abs(sum(parts) - state[0, 0, 0]), 1e-15)


if __name__ == "__main__":
    unittest.main()
