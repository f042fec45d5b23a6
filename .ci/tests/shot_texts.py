"""Texts whose shots differ: of each gate, collapse, fault, feedback and target, and of blocks."""

# Each gate on one qubit, in a state of each letter.
GATES_ON_ONE = """\
RX 0 3 6
RY 1 4 7
X_ERROR(0.3) 0 1 2 3 4 5 6 7 8
Z_ERROR(0.3) 0 1 2 3 4 5 6 7 8
I 0 1 2
X 0 1 2
Y 3 4 5
Z 6 7 8
S 0 1 2
S_DAG 3 4 5
H 6 7 8
C_XYZ 0 1 2
Y_ERROR(0.25) 0 4 8
H_XY 3 4 5
H_YZ 6 7 8
SQRT_X 0 1 2
SQRT_X_DAG 3 4 5
SQRT_Y 6 7 8
C_ZYX 3 4 5
SQRT_Y_DAG 0 1 2
M 0 3 6
MX 1 4 7
MY 2 5 8
M 0 1 2 3 4 5 6 7 8
DETECTOR rec[-1] rec[-9]
DETECTOR rec[-18]
OBSERVABLE_INCLUDE(0) rec[-10] rec[-14]
"""

# Each gate on two qubits, on entangled ones too.
GATES_ON_TWO = """\
RX 0
RY 2 5
X_ERROR(0.3) 0 1 2 3 4 5
Z_ERROR(0.3) 0 1 2 3 4 5
CX 0 1 2 3
CY 4 0 3 5
CZ 1 4
XCX 0 2
XCY 1 3 4 5
XCZ 2 4
Y_ERROR(0.1) 0 1 2 3 4 5
YCX 5 0
YCY 3 1
YCZ 2 0
SWAP 4 1
X_ERROR(0.1) 0 1 2 3 4 5
ISWAP 0 3
ISWAP_DAG 5 2
SQRT_XX 1 0
SQRT_XX_DAG 2 3
Z_ERROR(0.1) 0 1 2 3 4 5
SQRT_YY 4 5
SQRT_YY_DAG 0 4
SQRT_ZZ 3 5
SQRT_ZZ_DAG 2 1
M 0 5
MX 1 4
MY 2 3
M 0 1 2 3 4 5
DETECTOR rec[-12] rec[-9]
DETECTOR rec[-11]
DETECTOR rec[-7] rec[-8]
"""

# Each measurement and each reset, in states of its own letter and of others, with flips.
COLLAPSES = """\
H 0
CX 0 1 0 2
X_ERROR(0.2) 0 1 2 3
M 0 !1
MX 2
M(0.2) 2
Z_ERROR(0.2) 0 1 2
MY(0.3) !0 3
MR 0 3
MR(0.4) !1
X_ERROR(0.5) 0 1 2 3
MRX 0 1
MRX(0.1) !2
MRY(0.1) 0 !1 2
MRY 3
M 0 1 2 3
H 0 1
CX 0 2
X_ERROR(0.25) 0 2
R 0 1
M 2
RX 2
Z_ERROR(0.25) 2
MX 2
RY 3
X_ERROR(0.25) 3
MY 3
R 3 3
M 3
DETECTOR rec[-1]
DETECTOR rec[-2] rec[-3]
DETECTOR rec[-4] rec[-5] rec[-6]
OBSERVABLE_INCLUDE(1) rec[-7] rec[-9]
"""

# Products of several letters, measured once and again.
PRODUCTS = """\
MPP X0*X1 Z0*Z1 !Y0*Y1
DETECTOR rec[-1] rec[-2] rec[-3]
X_ERROR(0.1) 0 1 2 3
Z_ERROR(0.1) 0 1 2 3
MPP(0.2) X0*Y1*Z2 !Z0*!Z1*X3 Y3
MPP X0*Y1*Z2 Z0*Z1*X3 X3*X2
DETECTOR rec[-3] rec[-6]
DETECTOR rec[-2] rec[-5]
MPP X2 Z3*Z2 !X0*X1*X2*X3
M 0 1 2 3
OBSERVABLE_INCLUDE(0) rec[-1] rec[-6]
"""

# Records of every kind that are fed back, as they are written.
FEEDBACK = """\
H 0 1
X_ERROR(0.3) 1 2
M(0.2) 0 !1
MX 2
CX rec[-3] 0 rec[-2] 1 rec[-1] 3
CY rec[-1] 4 rec[-3] 2
CZ rec[-2] 5 5 rec[-1]
H 5
MR 3
CX rec[-1] 3
MPP(0.25) X4*Z5 Y0*Y1
CY rec[-1] 4
CZ rec[-2] 2
M 0 1 3 4 5
MX 2
DETECTOR rec[-6]
DETECTOR rec[-5]
DETECTOR rec[-4]
OBSERVABLE_INCLUDE(0) rec[-1]
"""

# Blocks inside one another, with records that reach into the turn before.
BLOCKS = """\
R 0 1 2
M 1
REPEAT 3 {
    X_ERROR(0.2) 0 1
    REPEAT 2 {
        CX 0 1 2 1
        MR(0.1) 1
        DETECTOR(1, 2) rec[-1] rec[-2]
        SHIFT_COORDS(1)
    }
    H 2
    REPEAT 5 {
        TICK
    }
    CX rec[-2] 0
    M 2
    OBSERVABLE_INCLUDE(0) rec[-1]
}
M 0 1 2
DETECTOR rec[-3]
"""

# Faults of several letters, of one qubit twice, of none, and of every probability.
ERRORS_TOGETHER = """\
H 0 2
CX 0 1 2 3
E(0.5) X0 Z1 Y2
CORRELATED_ERROR(0.3) Z0 X0 Y3
E(0.2)
X_ERROR(0) 0 1
Y_ERROR(1) 1 3
E(1e-38) X0 X1 X2 X3
Z_ERROR(.999999999999999999) 0
MPP(0.5) X0*X1 Z0*Z1
M 2 3
MX 0
DETECTOR rec[-5]
DETECTOR rec[-4]
DETECTOR rec[-2] rec[-3]
OBSERVABLE_INCLUDE(0) rec[-1]
"""

# Detectors and observables that are fixed, random and empty, and that name a record twice.
TARGETS = """\
DETECTOR
H 0
CX 0 1
X_ERROR(0.1) 0 1
M 0 1
DETECTOR rec[-1] rec[-2]
DETECTOR rec[-1]
DETECTOR rec[-2] rec[-2]
OBSERVABLE_INCLUDE(5) rec[-1]
OBSERVABLE_INCLUDE(0) rec[-1] rec[-2]
MR(0.5) 0
OBSERVABLE_INCLUDE(5) rec[-1] rec[-3]
X_ERROR(0.75) 0
M !0
OBSERVABLE_INCLUDE(2) rec[-1]
DETECTOR rec[-1] rec[-4]
"""

# Many records, and many words of the generator for each shot.
MANY_TURNS = """\
REPEAT 50 {
    H 0
    X_ERROR(0.1) 0
    M(0.1) 0
    X_ERROR(0.1) 0 1
    CX rec[-1] 1
    MR 1
    DETECTOR rec[-1] rec[-2]
    OBSERVABLE_INCLUDE(0) rec[-1]
}
MX 0 1
"""

TEXTS = ["", GATES_ON_ONE, GATES_ON_TWO, COLLAPSES, PRODUCTS, FEEDBACK, BLOCKS, ERRORS_TOGETHER, TARGETS, MANY_TURNS]
