"""Each gate against its unitary matrix U, as Stim's gate reference prints it: U P is the image of P times U, for every letter or
pair of letters P.

The factor before a matrix, 1/2 or the square root of 1/2, stands on both sides and is left out. A matrix is a text of its rows,
with a character a number. The first qubit is the lowest bit of a row's number.
"""
import itertools

from program import ProgramTest

ON_ONE_QUBIT = {
    "I": "1. .1", "X": ".1 1.", "Y": ".j i.", "Z": "1. .-", "H": "11 1-", "H_XY": ".b a.", "H_YZ": "1j i-", "S": "1. .i",
    "S_DAG": "1. .j", "SQRT_X": "ab ba", "SQRT_X_DAG": "ba ab", "SQRT_Y": "ad aa", "SQRT_Y_DAG": "bb cb", "C_XYZ": "bd ba",
    "C_ZYX": "aa cb",
}

ON_TWO_QUBITS = {
    "CX": "1... ...1 ..1. .1..", "CY": "1... ...j ..1. .i..", "CZ": "1... .1.. ..1. ...-", "XCX": "111- 11-1 1-11 -111",
    "XCY": "11ji 11ij ij11 ji11", "XCZ": "1... .1.. ...1 ..1.", "YCX": "1j1i i1j1 1i1j j1i1", "YCY": "1jj1 i1-j i-1j 1ii1",
    "YCZ": "1... .1.. ...j ..i.", "SWAP": "1... ..1. .1.. ...1", "ISWAP": "1... ..i. .i.. ...1",
    "ISWAP_DAG": "1... ..j. .j.. ...1", "SQRT_XX": "a..b .ab. .ba. b..a", "SQRT_XX_DAG": "b..a .ba. .ab. a..b",
    "SQRT_YY": "a..c .ab. .ba. c..a", "SQRT_YY_DAG": "b..d .ba. .ab. d..b", "SQRT_ZZ": "1... .i.. ..i. ...1",
    "SQRT_ZZ_DAG": "1... .j.. ..j. ...1",
}

NUMBERS = {
    ".": 0, "1": 1, "-": -1, "i": 1j, "j": -1j, "a": 1 + 1j, "b": 1 - 1j, "c": -1 + 1j, "d": -1 - 1j,
}

LETTERS = {"I": "1. .1", "X": ".1 1.", "Y": ".j i.", "Z": "1. .-"}

SIGNS = {"": 1, "!": -1}


def matrix_of(text):
    return [[NUMBERS[character] for character in row] for row in text.split(" ")]


def product(first, second):
    return [[sum(a * b for a, b in zip(row, column)) for column in zip(*second)] for row in first]


def word_matrix(letters):
    """The matrix of letters, of which the first acts on the lowest bit."""
    matrix = [[1]]
    for letter in letters:
        small = matrix_of(LETTERS[letter])
        matrix = [[a * b for a in small_row for b in row] for small_row in small for row in matrix]
    return matrix


def words_of(size):
    return ["".join(letters) for letters in itertools.product("IXYZ", repeat=size)][1:]


def image_of(gate, letters):
    """The sign and the letters of the image."""
    before = product(gate, word_matrix(letters))
    images = itertools.product(SIGNS, words_of(len(letters)))
    found = [(sign, image) for sign, image in images
             if before == [[SIGNS[sign] * value for value in row] for row in product(word_matrix(image), gate)]]
    (image,) = found
    return image


def measured(sign, letters):
    return "MPP " + sign + "*".join(f"{letter}{qubit}" for qubit, letter in enumerate(letters) if letter != "I") + "\n"


def circuit_of(name, letters, image):
    """Each qubit of the gate is half of a Bell pair, so a word on these qubits is decided only once it was measured."""
    qubits = " ".join(str(qubit) for qubit in range(len(letters)))
    return f"R 0 1 2 3\nH 0 1\nCX 0 2 1 3\n{measured('', letters)}{name} {qubits}\n{measured(*image)}"


class Gates(ProgramTest):
    def check_images(self, table, size):
        """The second outcome of each circuit is the first, which is random, whatever its own coin is."""
        for name, text in table.items():
            gate, words = matrix_of(text), words_of(size)
            circuits = "".join(circuit_of(name, letters, image_of(gate, letters)) for letters in words)
            for first, second in itertools.product("01", repeat=2):
                with self.subTest(gate=name, coins=first + second):
                    coins = f"0000{first}{second}" * len(words)
                    self.check(["run", "--coins", coins], circuits, first * 2 * len(words) + "\n\n")

    def test_gates_on_one_qubit(self):
        self.assertEqual(len(ON_ONE_QUBIT), 15)
        self.check_images(ON_ONE_QUBIT, 1)

    def test_gates_on_two_qubits(self):
        self.assertEqual(len(ON_TWO_QUBITS), 18)
        self.check_images(ON_TWO_QUBITS, 2)
