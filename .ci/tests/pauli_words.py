"""Products of Pauli letters with their phases, and what gates turn them into.

A word is (power, x, z): i to the power, times X on the qubits whose bits x has, times Z on those whose bits z has.
"""

IDENTITY = (0, 0, 0)


def times(first, second):
    """The product of two words: a Z of the first that passes an X of the second on its qubit brings -1."""
    return ((first[0] + second[0] + 2 * bin(first[2] & second[1]).count("1")) % 4, first[1] ^ second[1], first[2] ^ second[2])


def letter_at(letter, qubit):
    bit = 1 << qubit
    return {"I": IDENTITY, "X": (0, bit, 0), "Y": (1, bit, bit), "Z": (0, 0, bit)}[letter]


def word_of(letters, qubits, power=0):
    """The product of letters, one at each of the qubits, from left to right."""
    word = (power, 0, 0)
    for letter, qubit in zip(letters, qubits):
        word = times(word, letter_at(letter, qubit))
    return word


def anticommute(first, second):
    return bin(first[1] & second[2]).count("1") % 2 != bin(first[2] & second[1]).count("1") % 2


def unsigned(word):
    """The Hermitian word of the same letters with sign plus, and the sign: 1 or -1 for a Hermitian word."""
    plus = bin(word[1] & word[2]).count("1")
    return (plus % 4, word[1], word[2]), {0: 1, 2: -1}[(word[0] - plus) % 4]


# The images of X and Z, from Stim's gate reference; those of two qubits of X_, Z_, _X and _Z.
IMAGES = {
    "I": "X Z", "X": "X -Z", "Y": "-X -Z", "Z": "-X Z", "H": "Z X", "H_XY": "Y -Z", "H_YZ": "-X Y",
    "S": "Y Z", "S_DAG": "-Y Z", "SQRT_X": "X -Y", "SQRT_X_DAG": "X Y", "SQRT_Y": "-Z X", "SQRT_Y_DAG": "Z -X",
    "C_XYZ": "Y X", "C_ZYX": "Z Y", "H_NXY": "-Y -Z", "H_NXZ": "-Z -X", "H_NYZ": "-X -Y",
    "C_NXYZ": "-Y -X", "C_XNYZ": "-Y X", "C_XYNZ": "Y -X", "C_NZYX": "-Z -Y", "C_ZNYX": "Z -Y", "C_ZYNX": "-Z Y",
    "CX": "XX Z_ _X ZZ", "CY": "XY Z_ ZX ZZ", "CZ": "XZ Z_ ZX _Z",
    "XCX": "X_ ZX _X XZ", "XCY": "X_ ZY XX XZ", "XCZ": "X_ ZZ XX _Z",
    "YCX": "XX ZX _X YZ", "YCY": "XY ZY YX YZ", "YCZ": "XZ ZZ YX _Z",
    "SWAP": "_X _Z X_ Z_", "ISWAP": "ZY _Z YZ Z_", "ISWAP_DAG": "-ZY _Z -YZ Z_",
    "SQRT_XX": "X_ -YX _X -XY", "SQRT_XX_DAG": "X_ YX _X XY", "SQRT_YY": "-ZY XY -YZ YX", "SQRT_YY_DAG": "ZY -XY YZ -YX",
    "SQRT_ZZ": "YZ Z_ ZY _Z", "SQRT_ZZ_DAG": "-YZ Z_ -ZY _Z",
    "CXSWAP": "XX _Z X_ ZZ", "SWAPCX": "_X ZZ XX Z_", "CZSWAP": "ZX _Z XZ Z_", "II": "X_ Z_ _X _Z",
}
ALIASES = {"H_XZ": "H", "SQRT_Z": "S", "SQRT_Z_DAG": "S_DAG", "CNOT": "CX", "ZCX": "CX", "ZCY": "CY", "ZCZ": "CZ",
           "SWAPCZ": "CZSWAP"}


def image_words(name, qubits):
    """What a gate at these qubits makes of X and of Z of each."""
    words = [word_of(text.lstrip("-").replace("_", "I"), qubits, 2 * text.startswith("-"))
             for text in IMAGES[ALIASES.get(name, name)].split()]
    return list(zip(words[::2], words[1::2]))


def apply_gate(name, qubits, word):
    """What a gate at these qubits makes of a word."""
    images = image_words(name, qubits)
    rest = ~sum(1 << qubit for qubit in qubits)
    result = (word[0], word[1] & rest, word[2] & rest)
    for which in (0, 1):
        for qubit, image in zip(qubits, images):
            if word[1 + which] >> qubit & 1:
                result = times(result, image[which])
    return result


def apply_generalized_s(product, sign, word):
    """What SPP of a Hermitian product P makes of a word W: W where they commute and i W P where not; -P for the inverse."""
    if not anticommute(product, word):
        return word
    power, x, z = times(word, product)
    return (power + (1 if sign > 0 else 3)) % 4, x, z
