"""Broken texts: cut at each byte, and with each byte replaced. Circuits are taken or refused as the plain reader says."""
import re

from plain_reader import refusal_of
from program import ProgramTest, run_program
from programs import TOP

# Every kind of line, of step and of target.
EVERYTHING = b"""\
# every kind of line
QUBIT_COORDS(0.5, -1e2) 0 1
R 0 1
RX\t2
RY 3
TICK
H[tag # 1] 4\r
S 4
C_XYZ 4
SWAP 4 0
SQRT_XX 4 0
SQRT_XX_DAG 4 0
REPEAT 2 { # two
    X_ERROR(0.01) 0
    Z_ERROR(0.5) 0
    Y_ERROR(0.02) 3
    E(1e-3) X0 z1

    CNOT 0 1
    MR(.25) !1
    CX rec[-1] 4
    REPEAT 3{
        MPP(0.125) !Z0 * Z1 Y3
    }
    SHIFT_COORDS(0, -1)
    DETECTOR(5, 0) rec[-1] rec[-3]
}
MX 2
MY(0) 3
MRX 2
MRY 3
M 0 1 4
OBSERVABLE_INCLUDE(1) rec[-3]
"""

# A random outcome, fed back to the qubit of the detector.
RANDOM = b"H 0\nCX 0 1\nM 1\nCX rec[-1] 2\nM 2\nDETECTOR rec[-1]\n"

# A block of which each turn moves the coordinates, and pairs of each kind.
SHIFTED = b"""\
R 0 1
M 2
REPEAT 2 {
    X_ERROR(0.01) 0
    CX 0 1 rec[-1] 2
    MR 1
    DETECTOR(0, 0) rec[-1]
    SHIFT_COORDS(0, 1)
}
M 0
CZ 1 rec[-1]
OBSERVABLE_INCLUDE(0) rec[-1]
"""

# An error model with blocks and shifts, which unrolls to few lines.
MODEL = b"""\
error(0.1) D0 L0
repeat 3 {
    error(0.2) D0 ^ D1
    shift_detectors(1) 1
    detector(5) D0
    repeat 2 {
        error(0.5) L0
    }
}
logical_observable L1
"""

# Every kind of line that a circuit may have, and that an error model may have.
KINDS = b"""\
# every kind
QUBIT_COORDS(0.5, -1e2) 0 1
R 0 1
RX\t2
TICK
H[tag # 1] 0\r
REPEAT 2 { # two
    X_ERROR(0.01) 0
    E(1e-3) X0 z1 Y2

    CNOT 0 1
    MR(.25) !1
    CZ rec[-1] 2
    REPEAT 3{
        MPP(0.1) !X0 * Z1 Y2
    }
    SHIFT_COORDS(0, -1)
    DETECTOR(5, 0) rec[-1] rec[-2]
}
MY 2
M 0 1
OBSERVABLE_INCLUDE(3) rec[-1]"""

MODEL_KINDS = b"""\
# every kind
error[tag # 1](0.01) D0 ^ L1\r
detector\t(1, -2) D1 D3
logical_observable L0
REPEAT 2 { # two
    ERROR(1e-3) D0 D0

    shift_detectors(0, 1) 2
    repeat 3{
        error(.25)
    }
}
detector D0
error(1) L0 D0"""

# What takes the place of a byte.
BYTES = b"\0\n\r#[](){}-0\xff"


def beginnings_of(text):
    return [text[:length] for length in range(len(text) + 1)]


def broken(text):
    """A text cut at each of its bytes, and with each replaced."""
    replaced = [text[:at] + bytes([byte]) + text[at + 1:] for at in range(len(text)) for byte in BYTES]
    return beginnings_of(text) + replaced


class Broken(ProgramTest):
    def refusal(self, words, text):
        """The cause and the line of the refusal; None where the text is taken."""
        written, status = run_program(words, text)
        found = re.fullmatch(rb"refused ([0-9]+) line ([0-9]+)\n", written)
        self.assertEqual(status == 2, found is not None, (words, text))
        self.assertIn(status, (0, 2, 3) if words == ["analyze"] else (0, 2), (words, text))
        return tuple(int(number) for number in found.groups()) if found else None

    def check_circuits(self, texts, orders):
        for text in texts:
            wanted = refusal_of(text)
            for words in orders:
                self.assertEqual(self.refusal(words, text), wanted, (words, text))

    def check_models(self, texts):
        """A model is taken, or refused by a cause that its lines have."""
        for text in texts:
            refused = self.refusal(["predict"], text)
            if refused:
                self.assertIn(refused[0], (10, 40, 41, 42, 43, 44, 45, 46), text)
                self.assertIn(refused[1], range(1, text.count(b"\n") + 2), text)

    def test_every_byte_of_every_kind_of_line(self):
        self.check_circuits(broken(EVERYTHING), (["run"], ["analyze"]))

    def test_every_byte_of_feedback_and_blocks(self):
        self.check_circuits(broken(RANDOM), (["run"], ["analyze"]))
        self.check_circuits(broken(SHIFTED), (["run"], ["analyze"]))

    def test_every_byte_of_a_model(self):
        self.check_models(broken(MODEL))

    def test_beginnings_of_every_kind_of_line(self):
        self.check_circuits(beginnings_of(KINDS), (["run"], ["analyze"], ["faults"]))
        self.check_models(beginnings_of(MODEL_KINDS))

    def test_beginnings_of_the_repetition_code(self):
        circuit = (TOP / "examples/repetition_code.stim").read_bytes()
        self.check_circuits(beginnings_of(circuit), (["run"], ["analyze"], ["faults"]))
        self.check_models(beginnings_of((TOP / "examples/repetition_code.dem").read_bytes()))
