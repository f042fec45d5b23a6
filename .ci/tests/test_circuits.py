"""Circuits worked by hand: what is asked of each, and what is written.

A row has the words of a command, a text and the output, which tells the status: 2 of a refusal, 3 of a random target.
"""
from program import ProgramTest


def numbered(name, count):
    """A line for each number below this one."""
    return "".join(f"{name}{number}\n" for number in range(count))


FLIPPED = "H 0\nS 0 0\nH 0\nM 0\nDETECTOR rec[-1]\n"

# The state holds -Y0*Y1.
PAIR_IN_Y = "H 0\nCX 0 1\nMY 0 1\nDETECTOR rec[-1] rec[-2]\n"

GATES_AND_COLLAPSES = [
    ("run", FLIPPED, "1\n0\n"),
    ("analyze", FLIPPED, "detector D0\n"),
    ("run", PAIR_IN_Y, "01\n0\n"),
    ("run --coins 10", PAIR_IN_Y, "10\n0\n"),
    ("analyze", PAIR_IN_Y, "detector D0\n"),
    ("run", "OBSERVABLE_INCLUDE(2)\n", "\n000\n"),
    ("analyze", "OBSERVABLE_INCLUDE(2)\n", numbered("logical_observable L", 3)),
    ("run --coins 1", "h[x#y] 0 # note\nm 0\n", "1\n\n"),
    ("run", "X 0\nSWAP 0 1\nM 0 1\nR 1\nM 1\n", "010\n\n"),
    ("run", "H 0\n", "\n\n"),
    ("run", "R", "\n\n"),
    ("run", "X 0\nM 0\nDETECTOR rec[-1]\n", "1\n0\n"),
    ("analyze", "X 0\nM 0\nDETECTOR rec[-1]\n", "detector D0\n"),
    ("run --coins 10", "H 0\nCX 0 1\nM 0 1\n", "11\n\n"),
    ("run --coins 01", "H 0\nCX 0 1\nM 0 1\n", "00\n\n"),
    ("run --coins 10", "H 0\nCX 0 1\nR 0\nM 1\n", "1\n\n"),
    ("run --coins 10", "MRX 0\nMX 0\n", "10\n\n"),
    ("run --coins 100", "MY 0\nRY 0\nMY 0\n", "10\n\n"),
    ("run", "X 0\nMR !0\nM 0\n", "00\n\n"),
    ("run", "QUBIT_COORDS(1.5) 0\n", "\n\n"),
    ("analyze", "H 0\nM 0 0\nDETECTOR rec[-1] rec[-2]\n", "detector D0\n"),
    ("analyze", "DETECTOR(-0, -3)\n", "detector(0, -3) D0\n"),
    ("analyze", "H 0\nCX 0 1\nR 0\nM 1\nDETECTOR rec[-1]\n", "random D0\n00\n11\n"),
    ("analyze", "MX 0\nM 0\nDETECTOR rec[-1]\n", "random D0\n00\n01\n"),
    ("analyze", "RX 0\nM 0\nDETECTOR rec[-1]\n", "random D0\n00\n01\n"),
    ("analyze", "H 0 1\nM 0 1\nDETECTOR rec[-1]\nDETECTOR rec[-2]\nOBSERVABLE_INCLUDE(0) rec[-1]\n", "random D0\n00\n01\n"),
    ("analyze", "M 0\nH 0\nM 0\nH 0\nM 0\nDETECTOR rec[-1]\n", "random D0\n000\n001\n"),
    ("analyze", "H 0\nM 0\nOBSERVABLE_INCLUDE(1) rec[-1]\n", "random L1\n0\n1\n"),
]

MEASURED_TWICE = "MPP X0*X1\nMPP X0*X1\nDETECTOR rec[-1] rec[-2]\n"

# A product of the three words is -1.
THREE_WORDS = "MPP X0*X1 Z0*Z1 Y0*Y1\nDETECTOR rec[-1] rec[-2] rec[-3]\n"

PRODUCTS = [
    ("run --coins 10", MEASURED_TWICE, "11\n0\n"),
    ("analyze", MEASURED_TWICE, "detector D0\n"),
    ("run", THREE_WORDS, "001\n0\n"),
    ("run --coins 100", THREE_WORDS, "100\n0\n"),
    ("analyze", THREE_WORDS, "detector D0\n"),
    ("run", "H 0\nCX 0 1\nMPP Y0*Y1 !Y0*Y1\n", "10\n\n"),
    ("run", "MPP !X0*!X1\n", "0\n\n"),
    ("run", "MPP X0*X1\n", "0\n\n"),
    (
        "analyze",
        "X_ERROR(0.2) 0 1\nMPP Z0*Z1 Z0\nDETECTOR rec[-2]\nDETECTOR rec[-1]\n",
        "error(0.2) D0 D1\nerror(0.2) D0\ndetector D0\ndetector D1\n",
    ),
    ("analyze", "MPP(0.1) Z0*Z1\nDETECTOR rec[-1]\n", "error(0.1) D0\ndetector D0\n"),
    ("analyze", "MPP X0*X1\nM 0\nDETECTOR rec[-1]\n", "random D0\n00\n01\n"),
]

# Each turn has a fault, a detector, and coordinates of its own.
TWO_TURNS = (
    "R 0 1\nREPEAT 2 {\nX_ERROR(0.01) 0\nCX 0 1\nMR 1\nDETECTOR(0, 0) rec[-1]\nSHIFT_COORDS(0, 1)\n}\n"
    "M 0\nOBSERVABLE_INCLUDE(0) rec[-1]\n"
)

BLOCKS = [
    ("run --faults 0,1", TWO_TURNS, "100\n100\n"),
    (
        "analyze",
        TWO_TURNS,
        "error(0.01) D0 D1 L0\nerror(0.01) D1 L0\ndetector(0, 0) D0\ndetector(0, 1) D1\nlogical_observable L0\n",
    ),
    ("faults", TWO_TURNS, "0 0.01 X0\n1 0.01 X0\ncoins 5\n"),
    ("run", "REPEAT 2000000 {\nTICK\n}\n", "\n\n"),
    ("run", "REPEAT 2000001 {\nTICK\n}\n", "\n\n"),
    ("run", "REPEAT 32000000 {\nTICK\n}\n", "\n\n"),
    ("analyze", "REPEAT 2000000 {\nTICK\n}\n", ""),
    ("run", "REPEAT 2 {\nREPEAT 2 {\nX 0\nM 0\n}\nX 0\n}\n", "1001\n\n"),
    (
        "analyze",
        "X_ERROR(0.1) 0\nREPEAT 6 {\nM 0\nDETECTOR rec[-1]\n}\n",
        "error(0.1) D0 D1 D2 D3 D4 D5\n" + numbered("detector D", 6),
    ),
    (
        "analyze",
        "REPEAT 2 {\nREPEAT 2 {\nX_ERROR(0.1) 0\nMR 0\nDETECTOR rec[-1]\n}\n}\n",
        numbered("error(0.1) D", 4) + numbered("detector D", 4),
    ),
    (
        "analyze",
        "REPEAT 2 {\nDETECTOR(1, 5)\nREPEAT 3 {\nDETECTOR(0)\nSHIFT_COORDS(10)\n}\nSHIFT_COORDS(0, -1)\nDETECTOR(7, 7, 7)\n}\n"
        "DETECTOR(2)\n",
        "detector(1, 5) D0\ndetector(0) D1\ndetector(10) D2\ndetector(20) D3\ndetector(37, 6, 7) D4\ndetector(31, 4) D5\n"
        "detector(30) D6\ndetector(40) D7\ndetector(50) D8\ndetector(67, 5, 7) D9\ndetector(62) D10\n",
    ),
]

FED_BACK = "H 0\nM(0.1) 0\nCX rec[-1] 0\nM 0\nDETECTOR rec[-1]\n"

FEEDBACK = [
    ("run --coins 10", FED_BACK, "10\n0\n"),
    ("run --faults 0", FED_BACK, "11\n1\n"),
    ("analyze", FED_BACK, "error(0.1) D0\ndetector D0\n"),
    ("run", "M !0\nCX rec[-1] 1\nM 1\n", "11\n\n"),
    ("analyze", "X_ERROR(0.1) 0\nM 0\nCX rec[-1] 1\nM 1\nDETECTOR rec[-1]\n", "error(0.1) D0\ndetector D0\n"),
    (
        "analyze",
        "X_ERROR(0.1) 0\nH 1\nCX 1 2 0 1\nH 0\nM 0 1\nCX rec[-1] 2\nCZ rec[-2] 2\nM 2\nDETECTOR rec[-1]\n",
        "error(0.1) D0\ndetector D0\n",
    ),
    ("analyze", "H 0\nM 0\nCX rec[-1] 1\nM 1\nDETECTOR rec[-1]\n", "random D0\n00\n11\n"),
]

# A record that is always flipped.
ALWAYS = "M(1e0) !0\nDETECTOR rec[-1]\n"

# The faults flip both qubits, and the second one.
CARRIED = (
    "X_ERROR(0.1) 0\nX_ERROR(0.2) 1\nCX 0 1\nM 0 1\nDETECTOR rec[-2]\nDETECTOR rec[-1]\nDETECTOR rec[-1] rec[-2]\n"
)

ONE_FAULT = "error({}) D0\ndetector D0\n"

FAULTS = [
    ("run", ALWAYS, "1\n0\n"),
    ("run --faults 0", ALWAYS, "0\n1\n"),
    ("analyze", ALWAYS, ONE_FAULT.format("1e0")),
    ("faults", ALWAYS, "0 1e0 rec[0]\ncoins 1\n"),
    ("analyze", "M(1e0) !0\nDETECTOR rec[-1] rec[-1]\n", "detector D0\n"),
    ("run", "X_ERROR(1e-38) 0\n", "\n\n"),
    ("run", "X_ERROR(1.000) 0\n", "\n\n"),
    ("run", "X_ERROR(0e999) 0\n", "\n\n"),
    ("run", "X_ERROR(10e-1) 0\n", "\n\n"),
    ("run --faults 0,1", CARRIED, "10\n101\n"),
    ("analyze", CARRIED, "error(0.1) D0 D1\nerror(0.2) D1 D2\n" + numbered("detector D", 3)),
    ("analyze", "X_ERROR(0.1) 0\nR 0\nM 0\nDETECTOR rec[-1]\n", "detector D0\n"),
    ("analyze", "E(0.1) X0 X1\nM 0 1\nDETECTOR rec[-1] rec[-2]\n", "detector D0\n"),
    ("analyze", "E(0.1) X0 X1\nM 0 1\nDETECTOR rec[-1]\n", ONE_FAULT.format(0.1)),
    ("analyze", "H 0\nY_ERROR(0.5) 0\nH 0\nM 0\nDETECTOR rec[-1]\n", ONE_FAULT.format(0.5)),
    ("analyze", "H 0\nX_ERROR(0.5) 0\nH 0\nM 0\nDETECTOR rec[-1]\n", "detector D0\n"),
    ("analyze", "C_XYZ 0\nX_ERROR(0.1) 0\nC_ZYX 0\nM 0\nDETECTOR rec[-1]\n", "detector D0\n"),
    ("analyze", "C_XYZ 0\nZ_ERROR(0.1) 0\nC_ZYX 0\nM 0\nDETECTOR rec[-1]\n", ONE_FAULT.format(0.1)),
    (
        "analyze",
        "X_ERROR(0.25) 0\nM 0\nDETECTOR rec[-1] rec[-1]\nDETECTOR rec[-1]\n",
        "error(0.25) D1\ndetector D0\ndetector D1\n",
    ),
    (
        "analyze",
        "X_ERROR(0.1) 0\nMR(0.2) 0\nM 0\nDETECTOR rec[-2]\nDETECTOR rec[-1]\n",
        "error(0.1) D0\nerror(0.2) D0\ndetector D0\ndetector D1\n",
    ),
    (
        "analyze",
        "X_ERROR(0.1) 0\nISWAP 0 1\nM 0 1\nDETECTOR rec[-2]\nDETECTOR rec[-1]\n",
        "error(0.1) D1\ndetector D0\ndetector D1\n",
    ),
]

FAULT_LISTS = [
    ("faults", "X_ERROR(1e-38) 0\n", "0 1e-38 X0\ncoins 0\n"),
    ("faults", "X_ERROR(1.000) 0\n", "0 1.000 X0\ncoins 0\n"),
    ("faults", "X_ERROR(0e999) 0\n", "0 0e999 X0\ncoins 0\n"),
    # X and Y at one qubit are Z, and X twice is none.
    ("faults", "E(0.2) X1 Z0 Y1\nE(0.2) X0 X0\nM(0.3) 0\n", "0 0.2 Z0*Z1\n1 0.2 I\n2 0.3 rec[0]\ncoins 1\n"),
    # Z of a qubit that is 0 is a fault too, and so is a letter behind the last measurement.
    ("faults", "Z_ERROR(.5) 2 0\nMX 0\nY_ERROR( 1E-3 ) 1", "0 .5 Z2\n1 .5 Z0\n2 1E-3 Y1\ncoins 1\n"),
    # A product has one flip and one record; a reset has a coin and no record.
    ("faults", "MPP(0.1) X0*X1 !Z0*Z1\nMR(0.2) 0\nR 1 2\n", "0 0.1 rec[0]\n1 0.1 rec[1]\n2 0.2 rec[2]\ncoins 5\n"),
    ("faults", "E(0.1)\n", "0 0.1 I\ncoins 0\n"),
    # Qubits ascend as numbers.
    ("faults", "E(0.1) X10 Y9 Z100\n", "0 0.1 Y9*X10*Z100\ncoins 0\n"),
    (
        "faults",
        "REPEAT 2 {\nREPEAT 2 {\nM(0.5) 0\n}\n}\n",
        "0 0.5 rec[0]\n1 0.5 rec[1]\n2 0.5 rec[2]\n3 0.5 rec[3]\ncoins 4\n",
    ),
]

STATUSES = {"refused": 2, "random": 3}


class WorkedCircuits(ProgramTest):
    def check_worked(self, rows):
        self.check_rows((words.split(), text, output, STATUSES.get(output.split(" ")[0], 0)) for words, text, output in rows)

    def test_gates_and_collapses(self):
        self.check_worked(GATES_AND_COLLAPSES)

    def test_products(self):
        self.check_worked(PRODUCTS)

    def test_blocks(self):
        self.check_worked(BLOCKS)

    def test_feedback(self):
        self.check_worked(FEEDBACK)

    def test_faults(self):
        self.check_worked(FAULTS)
        self.check_worked(FAULT_LISTS)
