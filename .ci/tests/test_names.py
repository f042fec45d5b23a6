"""Names: aliases in mixed case, all names in small letters, and those that are left out. All by hand."""
from program import ProgramTest

# A gate on one qubit and what it makes of the states of X and of Z with sign plus: the record of MY after the first,
# and of MX after the second.
ON_ONE_QUBIT = [
    # X becomes Y, -Y or Z, and Z becomes Z, Z or X: where a record is random it is its coin, 1.
    ("sQRT_z", "0", "1"),
    ("SqRt_Z_dAg", "1", "1"),
    ("h_Xz", "1", "0"),
]

# A gate on two qubits of which the first is 1, and whether it flips MX and M of the second, which begins as 0 of each.
CONTROLLED = [
    ("cNoT", "01"),
    ("Zcx", "01"),
    ("zCy", "11"),
    ("ZcZ", "10"),
]

# Coins, or all 0, faults, a text, and what `run` writes.
OTHERS = [
    (None, "", "x 0\nmZ 0\nMz 0", "11\n\n"),
    (None, "", "x 0\nrZ 0\nm 0", "0\n\n"),
    (None, "", "x 0\nMrz 0\nM 0", "10\n\n"),
    (None, "0", "e(0.1) x0\nm 0", "1\n\n"),
    (None, "0", "Correlated_Error(0.1) x0\nm 0", "1\n\n"),
    ("10", "", "mPp x0*x1\nMpP X0*X1", "11\n\n"),
]

# All names, in small letters. Each collapse is random and its coin is 0, or it is of a state that was just prepared.
SMALL = """\
i 0
x 0
y 0
z 0
h 0
h_xz 0
h_xy 0
h_yz 0
s 0
sqrt_z 0
s_dag 0
sqrt_z_dag 0
sqrt_x 0
sqrt_x_dag 0
sqrt_y 0
sqrt_y_dag 0
c_xyz 0
c_zyx 0
cx 0 1
cnot 0 1
zcx 0 1
cy 0 1
zcy 0 1
cz 0 1
zcz 0 1
xcx 0 1
xcy 0 1
xcz 0 1
ycx 0 1
ycy 0 1
ycz 0 1
swap 0 1
iswap 0 1
iswap_dag 0 1
sqrt_xx 0 1
sqrt_xx_dag 0 1
sqrt_yy 0 1
sqrt_yy_dag 0 1
sqrt_zz 0 1
sqrt_zz_dag 0 1
r 0 1
mx 0
my 0
rx 0
ry 0
mrx 0
mry 0
x_error(0) 0
y_error(0) 0
z_error(0) 0
detector(1)
observable_include(0)
tick
qubit_coords(0) 0
shift_coords(1)
repeat 1 {
}
rz 0
mrz 0
mz 0
mr 0
m 0
"""

# Names that are known and left out.
LEFT_OUT = """
    DEPOLARIZE1 depolarize2 Pauli_Channel_1 PAULI_CHANNEL_2 heralded_erase HERALDED_PAULI_CHANNEL_1
    Else_Correlated_Error I_ERROR ii II_Error MXX mYY Mzz SPP spp_dag MPad CXSWAP swapcx CZswap SWAPcz H_NXY h_nxz
    H_nyz C_NXYZ c_xnyz C_XyNZ C_NZYX c_znyx C_ZYnX
""".split()

# Names that no instruction has.
UNKNOWN = """
    FOO MXY MZZZ XX H_ H_XX CCX T ZCW RZZ MRZ1 E1 REPEATS REPEA 0 X)
""".split()


class Names(ProgramTest):
    def test_aliases_of_gates_on_one_qubit(self):
        for name, of_x, of_z in ON_ONE_QUBIT:
            with self.subTest(name=name):
                text = f"RX 0\n{name} 0\nMY 0\nR 0\n{name} 0\nMX 0"
                self.check(["run", "--coins", "1111"], text, f"{of_x}{of_z}\n\n")

    def test_aliases_of_controlled_gates(self):
        for name, flips in CONTROLLED:
            with self.subTest(name=name):
                text = f"X 0\nRX 1\n{name} 0 1\nMX 1\nR 1\n{name} 0 1\nM 1"
                self.check(["run", "--coins", "1111"], text, f"{flips}\n\n")

    def test_names_of_other_instructions(self):
        self.check_runs(OTHERS, 0)

    def test_small_letters(self):
        self.check(["run"], SMALL, "00000000\n00\n")

    def check_refused_names(self, names, line):
        """Names in the second line of a text."""
        self.check_refused((f"\n {name}(0.1) 0 1\n", line) for name in names)

    def test_names_that_are_left_out(self):
        self.check_refused_names(LEFT_OUT, "refused 12 line 2\n")

    def test_unknown_names(self):
        self.check_refused_names(UNKNOWN, "refused 11 line 2\n")
