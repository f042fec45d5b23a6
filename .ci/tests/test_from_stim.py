"""What tools/from_stim.py writes is the same as what it read: channels, gates, and whole circuits, run exactly."""
import random
import unittest
from decimal import Decimal, localcontext
from fractions import Fraction
from itertools import product

import pauli_words
from exact_states import LETTERS_1, LETTERS_2, read_instructions, run_circuit
from programs import convert, read_rows, refusals, without_comments
from stim_gates import multiply
from stim_text import INSTRUCTIONS, Refused

# Every name of Stim's gate reference, aliases too.
STIM_NAMES = """
    DETECTOR MPAD OBSERVABLE_INCLUDE QUBIT_COORDS SHIFT_COORDS TICK M MZ MR MRZ MRX MRY MX MY R RZ RX RY REPEAT
    CORRELATED_ERROR E DEPOLARIZE1 DEPOLARIZE2 ELSE_CORRELATED_ERROR HERALDED_ERASE HERALDED_PAULI_CHANNEL_1 II_ERROR I_ERROR
    PAULI_CHANNEL_1 PAULI_CHANNEL_2 X_ERROR Y_ERROR Z_ERROR MPP SPP SPP_DAG MXX MYY MZZ I X Y Z C_NXYZ C_NZYX C_XNYZ C_XYNZ
    C_XYZ C_ZNYX C_ZYNX C_ZYX H H_XZ H_NXY H_NXZ H_NYZ H_XY H_YZ S SQRT_Z SQRT_X SQRT_X_DAG SQRT_Y SQRT_Y_DAG S_DAG SQRT_Z_DAG
    CX CNOT ZCX CXSWAP CY ZCY CZ ZCZ CZSWAP SWAPCZ II ISWAP ISWAP_DAG SQRT_XX SQRT_XX_DAG SQRT_YY SQRT_YY_DAG SQRT_ZZ
    SQRT_ZZ_DAG SWAP SWAPCX XCX XCY XCZ YCX YCY YCZ
""".split()
# Those of which docs/FORMATS.md says that stabsim refuses them.
LEFT_OUT = """
    DEPOLARIZE1 DEPOLARIZE2 PAULI_CHANNEL_1 PAULI_CHANNEL_2 HERALDED_ERASE HERALDED_PAULI_CHANNEL_1 ELSE_CORRELATED_ERROR
    I_ERROR II II_ERROR MXX MYY MZZ MPAD SPP SPP_DAG CXSWAP SWAPCX CZSWAP SWAPCZ H_NXY H_NXZ H_NYZ C_NXYZ C_XNYZ C_XYNZ
    C_NZYX C_ZNYX C_ZYNX
""".split()
NEVER = ("HERALDED_ERASE", "HERALDED_PAULI_CHANNEL_1", "ELSE_CORRELATED_ERROR")


def enumerate_sums(faults, words):
    """The probability of each product of a set of faults, over all sets: `faults` are (word, probability) pairs."""
    sums = {(0, 0): Fraction(1)}
    places = {word: pauli_words.word_of(word, range(len(word)))[1:] for word in words}
    for word, chance in faults:
        x, z = places[word]
        after = {}
        for (a, b), value in sums.items():
            after[a, b] = after.get((a, b), 0) + value * (1 - chance)
            after[a ^ x, b ^ z] = after.get((a ^ x, b ^ z), 0) + value * chance
        sums = after
    return {word: sums.get(place, 0) for word, place in places.items()}


def faults_of(line):
    """The independent faults in place of a channel on the qubits 0, or 0 and 1, as (word, probability) pairs."""
    faults = []
    for name, (chance,), targets in read_instructions(convert(line)):
        if name == "E":
            letters = {int(target[1:]): target[0] for target in targets}
            faults.append((letters.get(0, "I") + letters.get(1, "I"), Fraction(chance)))
        else:
            faults.append((name[0], Fraction(chance)))
    return faults


class Channels(unittest.TestCase):
    def assert_channel(self, line, expected):
        faults = faults_of(line)
        sums = enumerate_sums(faults, expected)
        for word, chance in expected.items():
            self.assertLess(abs(sums[word] - chance), Fraction(1, 10**15), (line, word))
        return faults

    def test_depolarize1_is_the_same_channel_and_follows_the_formula(self):
        for text in ("1e-30", "0.000001", "0.001", "0.1", "0.3333333333333333", "0.5", "0.7499", "0.75"):
            p = Fraction(text)
            faults = self.assert_channel(f"DEPOLARIZE1({text}) 0", dict.fromkeys(LETTERS_1, p / 3))
            with localcontext() as context:
                context.prec = 80
                q = (1 - (1 - 4 * Decimal(text) / 3).sqrt()) / 2
            self.assertEqual([word for word, _ in faults], ["X", "Y", "Z"])
            for _, chance in faults:
                self.assertLessEqual(chance, Fraction(q))
                self.assertLess(Fraction(q) - chance, max(Fraction(q) / 10**17, Fraction(1, 10**38)))

    def test_depolarize2_is_the_same_channel_and_follows_the_formula(self):
        for text in ("0.000001", "0.001", "0.1", "0.5", "0.9", "0.9375"):
            p = Fraction(text)
            faults = self.assert_channel(f"DEPOLARIZE2({text}) 0 1", dict.fromkeys(LETTERS_2, p / 15))
            with localcontext() as context:
                context.prec = 80
                q = (1 - (1 - 16 * Decimal(text) / 15).sqrt().sqrt().sqrt()) / 2
            self.assertEqual([word for word, _ in faults], LETTERS_2)
            for _, chance in faults:
                self.assertLess(abs(Fraction(q) - chance), Fraction(q) / 10**17)

    def test_channels_that_faults_make_are_taken_apart_into_them(self):
        source = random.Random(1)
        for words, name, targets in ((LETTERS_1, "PAULI_CHANNEL_1", "0"), (LETTERS_2, "PAULI_CHANNEL_2", "0 1")):
            for most in (4, 40, 400):
                chosen = [(word, Fraction(source.randrange(most), 1000)) for word in words]
                sums = enumerate_sums(chosen, words)
                with localcontext() as context:
                    context.prec = 120
                    texts = ", ".join(format(Decimal(sums[word].numerator) / sums[word].denominator, "f") for word in words)
                found = dict(self.assert_channel(f"{name}({texts}) {targets}", sums))
                self.assertEqual(found, {word: chance for word, chance in chosen if chance})

    def test_channels_near_depolarizing_ones(self):
        source = random.Random(2)
        for words, name, targets in ((LETTERS_1, "PAULI_CHANNEL_1", "0"), (LETTERS_2, "PAULI_CHANNEL_2", "0 1")):
            for _ in range(5):
                texts = [f"0.0{source.randrange(20000, 21000)}" for _ in words]
                self.assert_channel(f"{name}({', '.join(texts)}) {targets}", dict(zip(words, map(Fraction, texts))))

    def test_x_and_z_that_are_independent_are_found(self):
        """With q = 0.1 each: q (1 - q) = 0.09 and q^2 = 0.01, as docs/FROM_STIM.md says."""
        self.assertEqual(faults_of("PAULI_CHANNEL_1(0.09, 0.01, 0.09) 0"), [("X", Fraction(1, 10)), ("Z", Fraction(1, 10))])

    def test_one_word_alone_is_one_fault(self):
        self.assertEqual(faults_of("PAULI_CHANNEL_1(0, 0.9, 0) 0"), [("Y", Fraction(9, 10))])
        only_xz = ", ".join("0.5" if word == "XZ" else "0" for word in LETTERS_2)
        self.assertEqual(faults_of(f"PAULI_CHANNEL_2({only_xz}) 0 1"), [("XZ", Fraction(1, 2))])

    def test_channels_that_do_nothing_leave_a_comment(self):
        for line in ("DEPOLARIZE1(0) 0", "DEPOLARIZE2(0) 0 1", "PAULI_CHANNEL_1(0, 0, 0) 0"):
            self.assertEqual(convert(line), "# " + line)

    def test_channels_that_no_faults_make_are_refused(self):
        rows = [
            ("PAULI_CHANNEL_1(0.1, 0, 0.1) 0", "Y would need a negative probability"),
            ("PAULI_CHANNEL_1(0.1, 0.0001, 0.1) 0", "Y would need a negative probability"),
            ("PAULI_CHANNEL_2(0.1, 0.1, 0, 0, 0, 0, 0, 0, 0, 0, 0, 0, 0, 0, 0) 0 1", "would need a negative probability"),
            ("DEPOLARIZE1(0.76) 0", "mixes too much"),
            ("DEPOLARIZE2(0.94) 0 1", "mixes too much"),
            ("PAULI_CHANNEL_1(0.3, 0.3, 0.1) 0", "mixes too much"),
            ("PAULI_CHANNEL_1(0.5, 0.4, 0.2) 0", "more than 1"),
        ]
        for line, reason in rows:
            (found,) = refusals("H 0\n" + line)
            self.assertEqual(found[0], 2, line)
            self.assertIn(reason, found[1], line)

    def test_every_target_and_pair_has_its_faults(self):
        self.assertEqual(without_comments(convert("DEPOLARIZE1(0.75) 3 0 3")),
                         ["X_ERROR(0.5) 3 0 3", "Y_ERROR(0.5) 3 0 3", "Z_ERROR(0.5) 3 0 3"])
        lines = without_comments(convert("DEPOLARIZE2(0.9375) 3 0 5 7"))
        expected = [" ".join(["E(0.5)", *(letter + qubit for letter, qubit in zip(word, pair) if letter != "I")])
                    for pair in (("3", "0"), ("5", "7")) for word in LETTERS_2]
        self.assertEqual(lines, expected)


class Gates(unittest.TestCase):
    def images_of(self, text, qubits):
        words = [pauli_words.letter_at(letter, qubit) for qubit in range(qubits) for letter in "XZ"]
        for name, _, targets in read_instructions(text):
            size = len(pauli_words.IMAGES[name].split()) // 2
            for at in range(0, len(targets), size):
                group = [int(target) for target in targets[at:at + size]]
                words = [pauli_words.apply_gate(name, group, word) for word in words]
        return words

    def test_tables_of_images_keep_which_words_anticommute(self):
        for name, images in pauli_words.IMAGES.items():
            qubits = range(len(images.split()) // 2)
            before = [pauli_words.letter_at(letter, qubit) for qubit in qubits for letter in "XZ"]
            after = [image for pair in pauli_words.image_words(name, qubits) for image in pair]
            for (a, b), (c, d) in product(zip(before, after), repeat=2):
                self.assertEqual(pauli_words.anticommute(a, c), pauli_words.anticommute(b, d), name)

    def test_gates_that_are_left_out_have_the_same_images(self):
        names = [name for name in LEFT_OUT if name in pauli_words.IMAGES or name in pauli_words.ALIASES]
        self.assertEqual(len(names), 14)
        for name in names:
            qubits = 2 if name in ("CXSWAP", "SWAPCX", "CZSWAP", "SWAPCZ", "II") else 1
            for targets in ("0", "1") if qubits == 1 else ("0 1", "1 0"):
                line = f"{name} {targets}"
                text = convert(line)
                self.assertFalse({step[0] for step in read_instructions(text)} & set(LEFT_OUT))
                expected = [pauli_words.letter_at(letter, qubit) for qubit in (0, 1) for letter in "XZ"]
                expected = [pauli_words.apply_gate(pauli_words.ALIASES.get(name, name), [int(q) for q in targets.split()], word)
                            for word in expected]
                self.assertEqual(self.images_of(text, 2), expected, line)

    def test_generalized_s_of_every_product_of_three_letters(self):
        for letters in product("IXYZ", repeat=3):
            factors = [letter + str(qubit) for qubit, letter in enumerate(letters) if letter != "I"]
            if not factors:
                continue
            word = pauli_words.word_of(letters, range(3))
            for name, mark in product(("SPP", "SPP_DAG"), ("", "!")):
                text = convert(f"{name} {mark}{'*'.join(factors)}")
                sign = 1 if (name == "SPP") == (mark == "") else -1
                expected = [pauli_words.apply_generalized_s(word, sign, pauli_words.letter_at(letter, qubit))
                            for qubit in range(3) for letter in "XZ"]
                self.assertEqual(self.images_of(text, 3), expected, (name, mark, letters))

    def test_letters_on_one_qubit_are_multiplied_in_their_order(self):
        for letters in [*product("XYZ", repeat=2), *product("XYZ", repeat=3)]:
            text = "*".join(letter + "5" for letter in letters)
            word = pauli_words.word_of(letters, [5] * len(letters))
            plus = bin(word[1] & word[2]).count("1")
            if (word[0] - plus) % 2:
                self.assertRaises(Refused, multiply, text)
            else:
                letter = {(0, 0): "I", (1, 0): "X", (1, 1): "Y", (0, 1): "Z"}[word[1] >> 5, word[2] >> 5]
                expected = ((word[0] - plus) % 4 == 2, {5: letter} if letter != "I" else {})
                self.assertEqual(multiply(text), expected, text)

    def test_a_qubit_that_comes_again_keeps_the_order(self):
        self.assertEqual(without_comments(convert("H_NXZ 0 1 0 2")), ["H 0 1", "Y 0 1", "H 0 2", "Y 0 2"])
        self.assertEqual(without_comments(convert("CXSWAP 0 1 2 3 1 4")), ["CX 0 1 2 3", "SWAP 0 1 2 3", "CX 1 4", "SWAP 1 4"])

    def test_every_name_of_stim_is_kept_replaced_or_refused(self):
        self.assertEqual(set(INSTRUCTIONS) | {"REPEAT"}, set(STIM_NAMES))
        chances = {"PAULI_CHANNEL_1": "(0.01, 0.01, 0.01)", "PAULI_CHANNEL_2": f"({', '.join(['0.01'] * 15)})",
                   "OBSERVABLE_INCLUDE": "(0)", "DEPOLARIZE1": "(0.01)", "DEPOLARIZE2": "(0.01)", "E": "(0.01)",
                   "X_ERROR": "(0.01)", "Y_ERROR": "(0.01)", "Z_ERROR": "(0.01)", "CORRELATED_ERROR": "(0.01)",
                   "ELSE_CORRELATED_ERROR": "(0.01)", "HERALDED_ERASE": "(0.01)",
                   "HERALDED_PAULI_CHANNEL_1": "(0.01, 0.01, 0.01, 0.01)"}
        targets = {"E": "X0", "CORRELATED_ERROR": "X0", "ELSE_CORRELATED_ERROR": "X0", "MPP": "X0", "SPP": "X0", "SPP_DAG": "X0",
                   "TICK": "", "SHIFT_COORDS": "", "DETECTOR": "", "OBSERVABLE_INCLUDE": "", "MPAD": "0 1"}
        for name in STIM_NAMES:
            line = f"{name}{chances.get(name, '')} {targets.get(name, '0 1')}"
            if name in NEVER:
                (found,) = refusals("TICK\nTICK\n" + line)
                self.assertEqual(found[0], 3)
                self.assertIn(name, found[1])
            elif name != "REPEAT":
                names = {step[0] for step in read_instructions(convert(line))}
                self.assertFalse(names & set(LEFT_OUT), line)
                self.assertEqual(convert(line) != line, name in LEFT_OUT, line)


class Circuits(unittest.TestCase):
    def assert_same_states(self, text, qubits):
        before, after = run_circuit(text, qubits), run_circuit(convert(text), qubits)
        self.assertEqual(set(before), set(after), text)
        for records, state in before.items():
            for word in set(state) | set(after[records]):
                difference = state.get(word, 0) - after[records].get(word, 0)
                self.assertLess(abs(difference), Fraction(1, 10**15), text)

    def draw_line(self, source, room):
        """A line on the qubits 0 to 2, and how many records it makes; `room` is how many it may."""
        a, b, c = (str(qubit) for qubit in source.sample(range(3), 3))
        mark, letter = source.choice(("", "!")), source.choice("XYZ")
        p = f"0.0{source.randrange(1, 1000):03}"
        quiet = [f"DEPOLARIZE1({p}) {a} {b}", f"DEPOLARIZE2({p}) {a} {b}", f"I_ERROR({p}) {a}", f"II {a} {b}",
                 f"PAULI_CHANNEL_1(0.02, 0.021, 0.0{source.randrange(190, 230)}) {a}",
                 f"PAULI_CHANNEL_2({', '.join(f'0.010{source.randrange(100)}' for _ in range(15))}) {a} {b}",
                 f"E({p}) !{letter}{a} Y{b} Z{a}", f"{letter}_ERROR({p}) {b}", f"R{letter} {c}",
                 f"SPP {mark}{letter}{a}*Y{b}*X{c} X{a}*X{b}",
                 f"SPP_DAG {mark}{letter}{a} {letter}{a}*X{b}*Y{b}*!X{c}*Y{c}*{letter}{a}",
                 *(f"{name} {a} {b} {a}" for name in source.sample([n for n in LEFT_OUT if n.startswith(("H_", "C_"))], 3)),
                 *(f"{name} {a} {b} {b} {c}" for name in ("CXSWAP", "SWAPCX", "CZSWAP", "SWAPCZ")),
                 *(f"{name} {a} {b} {c} {a}" for name in source.sample(sorted(pauli_words.IMAGES), 6)
                   if len(pauli_words.IMAGES[name].split()) == 4)]
        loud = [f"M{letter * 2}({p}) {mark}{a} {b}", f"M{letter * 2} {a} !{b} {b} {c}", f"MPAD({p}) 0 1", f"MR{letter} {mark}{a}",
                f"MPP({p}) {mark}{letter}{a}*Z{b}*{letter}{a} X{b}*Y{b}*Z{b}*!X{c}*Y{c}*Z{c}", f"M({p}) {a}",
                f"M {a}\nXCZ {b} rec[-1] {a} {c}\nYCZ {c} rec[-1]\nCZ rec[-1] rec[-1] {a} rec[-1] {b} {c}"]
        line = source.choice(quiet + loud)
        records = 1 if line.startswith(("MR", "M ", "M(")) else 2
        return (line, records) if line in loud and records <= room else (source.choice(quiet), 0)

    def test_drawn_circuits_leave_the_same_states_with_the_same_records(self):
        source = random.Random(3)
        for _ in range(60):
            lines, room = ["H 0", "H_YZ 1"], 4
            for _ in range(8):
                line, records = self.draw_line(source, room)
                lines.append(line)
                room -= records
            self.assert_same_states("\n".join(lines), 4)

    def test_rows_of_the_page(self):
        """Each row whose first two cells are code says what the script writes, and both do the same."""
        rows = list(read_rows("Gates and measurements"))
        self.assertGreater(len(rows), 25)
        for text, expected in rows:
            self.assertEqual(without_comments(convert(text))[-len(expected):], expected, text)
            self.assert_same_states(text, 4)


if __name__ == "__main__":
    unittest.main()
