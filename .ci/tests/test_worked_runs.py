"""Circuits worked by hand: what is found of each, and some of its runs.

A row has the circuit, its answer and its runs; `|` ends a line of a text. The answer is the text of the error model; or the
lowest random target, and the coins under which its parity differs from that under zeros. A run has the faults that happen, the
coins, the records and the detections, which are by the run without faults whose coins are all 0.
"""
from program import ProgramTest

# Gates and collapses of their letters, on states of one, two and three qubits.
GATES = [
    ("H 0 | S 0 0 | H 0 | M 0 | DETECTOR rec[-1]", "detector D0|", ";0;1;0 ;1;1;0"),
    # Two random records of one parity.
    ("H 0 | M 0 0 | DETECTOR rec[-1] rec[-2]", "detector D0|", ";00;00;0 ;10;11;0 ;01;00;0"),
    ("H 0 | CX 0 1 | M 0 1", "", ";10;11; ;01;00;"),
    # The state holds -Y0*Y1.
    ("H 0 | CX 0 1 | MY 0 1 | DETECTOR rec[-1] rec[-2]", "detector D0|", ";00;01;0 ;10;10;0"),
    # The frame Z on qubit 0 becomes X0 and then X0*X1, and flips the reset, which clears it at qubit 0, and the record.
    ("H 0 | CX 0 1 | R 0 | M 1 | DETECTOR rec[-1]", "random D0 11", ";00;0;0 ;10;1;1"),
    # The state holds X0*X1*X2 and Z0*Z1: a Z is seen by the parity of X, and by no parity of two Z.
    (
        "H 0 | CX 0 1 1 2 | Z_ERROR(0.25) 1 | MX 0 1 2 | DETECTOR rec[-1] rec[-2] rec[-3]",
        "error(0.25) D0|detector D0|", ";000;000;0 ;100;101;0 ;111;110;0 0;000;001;1 0;110;111;1",
    ),
    (
        "H 0 | CX 0 1 1 2 | X_ERROR(0.25) 1 | M 0 1 2 | DETECTOR rec[-1] rec[-2] | DETECTOR rec[-2] rec[-3]",
        "error(0.25) D0 D1|detector D0|detector D1|", ";011;000;00 ;100;111;00 0;100;101;11",
    ),
    # The frame begins behind the first collapse, as X.
    ("MX 0 | M 0 | DETECTOR rec[-1]", "random D0 01", ";10;10;0 ;01;01;1"),
    # All three targets are random; the lowest detector is named.
    (
        "H 0 1 | M 0 1 | DETECTOR rec[-1] | DETECTOR rec[-2] | OBSERVABLE_INCLUDE(0) rec[-1]",
        "random D0 01", ";01;01;101 ;10;10;010",
    ),
    ("M 0 | H 0 | M 0 | H 0 | M 0 | DETECTOR rec[-1]", "random D0 001", ";111;011;1 ;010;010;0"),
    # No detector, and an observable without records below the random one.
    ("H 0 | M 0 | OBSERVABLE_INCLUDE(1) rec[-1]", "random L1 1", ";1;1;01"),
    ("OBSERVABLE_INCLUDE(2)", "logical_observable L0|logical_observable L1|logical_observable L2|", ";;;000"),
]

# Resets, of each letter and after random outcomes, and inverted records.
RESETS = [
    ("MRX 0 | MX 0", "", ";10;10; ;01;00;"),
    ("MY 0 | RY 0 | MY 0", "", ";100;10; ;011;00;"),
    ("X 0 | MR !0 | M 0", "", ";00;00;"),
    # The word just behind the reset's collapse isn't cleared yet.
    ("RX 0 | M 0 | DETECTOR rec[-1]", "random D0 01", ";10;0;0 ;01;1;1"),
    # The reset hides the fault before it, and not the one behind it.
    (
        "X_ERROR(0.25) 0 | R 0 | X_ERROR(0.5) 0 | M 0 | DETECTOR rec[-1]",
        "error(0.5) D0|detector D0|", "0;00;0;0 1;00;1;1 0,1;11;1;1",
    ),
    # Equal symptoms stay two lines: the flipped record, and the fault that the reset hides from what follows.
    (
        "X_ERROR(0.25) 0 | MR(0.5) 0 | M 0 | DETECTOR rec[-2] | DETECTOR rec[-1]",
        "error(0.25) D0|error(0.5) D0|detector D0|detector D1|", "0;00;10;10 1;00;10;10 0,1;00;00;00",
    ),
    ("M(1) !0 | DETECTOR rec[-1] rec[-1] | DETECTOR rec[-1]", "error(1) D1|detector D0|detector D1|", ";0;1;00 0;0;0;01"),
    # The parity of two qubits is measured twice by a third, which is reset; the fault changes it in between.
    (
        "H 0 1 | CX 0 2 1 2 | MR 2 | X_ERROR(0.25) 0 | CX 0 2 1 2 | MR 2 | DETECTOR rec[-1] rec[-2]",
        "error(0.25) D0|detector D0|", ";00;00;0 ;10;11;0 0;10;10;1 0;01;01;1",
    ),
]

# Faults between gates.
FAULTS = [
    (
        "X_ERROR(0.25) 0 | M 0 | DETECTOR rec[-1] rec[-1] | DETECTOR rec[-1]",
        "error(0.25) D1|detector D0|detector D1|", ";0;0;00 0;0;1;01",
    ),
    # Two flips cancel.
    (
        "E(0.25) X0 X1 | M 0 1 | DETECTOR rec[-1] rec[-2] | DETECTOR rec[-1]",
        "error(0.25) D1|detector D0|detector D1|", "0;00;11;01",
    ),
    (
        "X_ERROR(0.25) 0 | X_ERROR(0.5) 1 | CX 0 1 | M 0 1 | DETECTOR rec[-2] | DETECTOR rec[-1] | DETECTOR rec[-1] rec[-2]",
        "error(0.25) D0 D1|error(0.5) D1 D2|detector D0|detector D1|detector D2|", "0;00;11;110 1;00;01;011 0,1;00;10;101",
    ),
    (
        "X_ERROR(0.25) 0 | ISWAP 0 1 | M 0 1 | DETECTOR rec[-2] | DETECTOR rec[-1]",
        "error(0.25) D1|detector D0|detector D1|", "0;00;01;01",
    ),
    # Through H an X does nothing to a Z, and a Y flips it.
    ("H 0 | X_ERROR(0.25) 0 | Y_ERROR(0.5) 0 | H 0 | M 0 | DETECTOR rec[-1]", "error(0.5) D0|detector D0|", "0;0;0;0 1;1;1;1"),
    # Backward, Z becomes X through C_ZYX.
    (
        "C_XYZ 0 | X_ERROR(0.25) 0 | Z_ERROR(0.5) 0 | C_ZYX 0 | M 0 | DETECTOR rec[-1]",
        "error(0.5) D0|detector D0|", "0;0;0;0 1;0;1;1",
    ),
]

# Blocks, at each turn of which a fault and a detector have numbers of their own.
BLOCKS = [
    # In the first turn qubit 0 is 1 and so is the record; the second fault turns it back.
    (
        "R 0 1 | REPEAT 2 { | X_ERROR(0.25) 0 | CX 0 1 | MR 1 | DETECTOR(0, 0) rec[-1] | SHIFT_COORDS(0, 1) | } | M 0 | "
        "OBSERVABLE_INCLUDE(0) rec[-1]",
        "error(0.25) D0 D1 L0|error(0.25) D1 L0|detector(0, 0) D0|detector(0, 1) D1|logical_observable L0|",
        ";00000;000;000 0;00000;111;111 0,1;00000;100;100",
    ),
    ("DETECTOR(-0, -3)", "detector(0, -3) D0|", ";;;0"),
    (
        "X_ERROR(0.25) 0 | REPEAT 6 { | M 0 | DETECTOR rec[-1] | }",
        "error(0.25) D0 D1 D2 D3 D4 D5|detector D0|detector D1|detector D2|detector D3|detector D4|detector D5|",
        "0;000000;111111;111111",
    ),
    (
        "REPEAT 2 { | REPEAT 2 { | X_ERROR(0.25) 0 | MR 0 | DETECTOR rec[-1] | } | }",
        "error(0.25) D0|error(0.25) D1|error(0.25) D2|error(0.25) D3|detector D0|detector D1|detector D2|detector D3|",
        "2;0000;0010;0010",
    ),
    ("REPEAT 2 { | REPEAT 2 { | X 0 | M 0 | } | X 0 | }", "", ";0000;1001;"),
]

# Products of letters that are measured.
PRODUCTS = [
    ("MPP X0*X1 | MPP X0*X1 | DETECTOR rec[-1] rec[-2]", "detector D0|", ";10;11;0 ;01;00;0"),
    # The state holds -Y0*Y1.
    ("H 0 | CX 0 1 | MPP Y0*Y1 !Y0*Y1", "", ";00;10; ;11;10;"),
    ("MPP X0*X1 Z0*Z1 Y0*Y1 | DETECTOR rec[-1] rec[-2] rec[-3]", "detector D0|", ";000;001;0 ;100;100;0"),
    (
        "X_ERROR(0.25) 0 | X_ERROR(0.5) 1 | MPP Z0*Z1 Z0 | DETECTOR rec[-2] | DETECTOR rec[-1]",
        "error(0.25) D0 D1|error(0.5) D0|detector D0|detector D1|", "0;00;11;11 1;00;10;10 0,1;00;01;01",
    ),
    ("MPP(0.25) Z0*Z1 | DETECTOR rec[-1]", "error(0.25) D0|detector D0|", ";0;0;0 0;0;1;1"),
    ("MPP X0*X1 | M 0 | DETECTOR rec[-1]", "random D0 01", ";10;10;0 ;01;01;1"),
]

# Letters applied where an earlier record is 1.
FEEDBACK = [
    # The recorded flip is fed back.
    ("H 0 | M(0.25) 0 | CX rec[-1] 0 | M 0 | DETECTOR rec[-1]", "error(0.25) D0|detector D0|", ";10;10;0 0;00;11;1 0;10;01;1"),
    ("X_ERROR(0.25) 0 | M 0 | CX rec[-1] 1 | M 1 | DETECTOR rec[-1]", "error(0.25) D0|detector D0|", ";00;00;0 0;00;11;1"),
    ("H 0 | M 0 | CX rec[-1] 1 | M 1 | DETECTOR rec[-1]", "random D0 11", ";00;00;0 ;10;11;1"),
    # A record is fed back as it is recorded, here inverted.
    ("M !0 | CX rec[-1] 1 | M 1", "", ";00;11;"),
    # Qubit 0 is teleported to qubit 2, with its fault.
    (
        "X_ERROR(0.25) 0 | H 1 | CX 1 2 0 1 | H 0 | M 0 1 | CX rec[-1] 2 | CZ rec[-2] 2 | M 2 | DETECTOR rec[-1]",
        "error(0.25) D0|detector D0|", ";000;000;0 ;111;110;0 0;010;011;1 0;100;101;1",
    ),
    # The same of a qubit in +1 of Y: the fault Z turns it, as X does, and Y doesn't.
    (
        "H 0 | S 0 | Z_ERROR(0.25) 0 | Y_ERROR(0.5) 0 | X_ERROR(1) 0 | H 1 | CX 1 2 0 1 | H 0 | M 0 1 | CX rec[-1] 2 | "
        "CZ rec[-2] 2 | MY 2 | DETECTOR rec[-1]",
        "error(0.25) D0|error(1) D0|detector D0|", ";110;110;0 0;110;111;1 1;010;010;0 2;100;101;1 0,2;100;100;0",
    ),
]


class WorkedRuns(ProgramTest):
    def check_run(self, text, run):
        faults, coins, records, detections = run.split(";")
        words = ["run", "--faults", faults, *(["--coins", coins] if coins else [])]
        with self.subTest(words=words, text=text):
            self.check(words, text, f"{records}\n{detections}\n")

    def check_answer(self, text, answer):
        if answer.startswith("random"):
            named, coins = answer.rsplit(" ", 1)
            output, status = f"{named}|{'0' * len(coins)}|{coins}|", 3
        else:
            output, status = answer, 0
        with self.subTest(text=text):
            self.check(["analyze"], text, output.replace("|", "\n"), status)

    def test_answers_and_runs(self):
        for circuit, answer, runs in GATES + RESETS + FAULTS + BLOCKS + PRODUCTS + FEEDBACK:
            text = circuit.replace("|", "\n")
            self.check_answer(text, answer)
            for run in runs.split():
                self.check_run(text, run)
