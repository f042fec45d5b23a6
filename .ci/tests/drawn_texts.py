"""Circuits that are drawn: lines of every kind on five qubits, a block inside another, and rounds.

There are three kinds. Of a calm circuit nothing but Z is measured, and no outcome is random. A fixed one has all gates and
measurements, and each target is of records whose parity is fixed, whatever the state. An open one has targets of any records too.

What is drawn are items: a line, in its plainest form, or a block, which is its turns and its items. They are written in that form
or in an odd one, with their blocks or without.
"""
import random
import re

KINDS = ("calm", "fixed", "open")

QUBITS = range(5)

GATES = "I X Y Z S S_DAG H H_XY H_YZ SQRT_X SQRT_X_DAG SQRT_Y SQRT_Y_DAG C_XYZ C_ZYX".split()

PAIR_GATES = """
    CX CY CZ XCZ YCZ SWAP ISWAP ISWAP_DAG SQRT_ZZ SQRT_ZZ_DAG XCX XCY YCX YCY SQRT_XX SQRT_XX_DAG SQRT_YY SQRT_YY_DAG
""".split()

# Of each list the first so many take products of Z to products of Z.
CALM_GATES, CALM_PAIR_GATES = GATES[:6], PAIR_GATES[:10]

# A gate on two qubits, and one that undoes it, on the same qubits.
UNDOING = {
    "CX": "CX", "SWAP": "SWAP", "YCY": "YCY", "XCY": "XCY", "ISWAP": "ISWAP_DAG", "SQRT_XX": "SQRT_XX_DAG",
    "SQRT_YY_DAG": "SQRT_YY", "SQRT_ZZ": "SQRT_ZZ_DAG",
}

CHANCES = ("0", "1", "0.1", "0.10", "0.001", ".5", "1.", "25e-2", "1E-38", "0.999999999999999999")

COORDINATES = ("", "()", "(5)", "(-1, 2)", "(0, 7, 1000000000)", "(3, 0, -8, 1)")

NOTHINGS = ("TICK", "QUBIT_COORDS(0.5, -1e3) 0 1", "M", "", "# M 0 {")


class Drawing:
    def __init__(self, seed, kind):
        self.source, self.kind, self.is_calm = random.Random(f"{kind} {seed}"), kind, kind == "calm"
        self.records = 0  # of first turns
        self.one_of = self.source.choice

    def up_to(self, most):
        return self.source.randint(0, most)

    def letter(self):
        return "Z" if self.is_calm else self.one_of("XYZ")

    def qubits(self, most=3):
        """As many as come, of which some may be the same."""
        return "".join(f" {self.one_of(QUBITS)}" for _ in range(self.up_to(most)))

    def flip(self):
        return self.one_of(("", "", f"({self.one_of(CHANCES)})"))

    def factors(self, left_out=None):
        """A product of one letter, two or three."""
        qubits = [qubit for qubit in QUBITS if qubit != left_out]
        return [(self.letter(), qubit) for qubit in sorted(self.source.sample(qubits, 1 + self.up_to(2)))]

    def product(self, factors):
        return " " + "*".join(f"{self.one_of(('', '', '!'))}{letter}{qubit}" for letter, qubit in factors)

    def measurement(self, letter, qubit, reset=""):
        return f"M{reset}{letter}{self.flip()} {self.one_of(('', '', '!'))}{qubit}"

    def product_measurement(self, factors):
        return f"MPP{self.flip()}{self.product(factors)}"

    def record(self):
        return f" rec[-{1 + self.up_to(self.records - 1)}]"

    def pairs(self):
        return "".join(" {} {}".format(*self.source.sample(QUBITS, 2)) for _ in range(self.up_to(3)))

    def feedback(self):
        """Of records, where there are any."""
        name = self.one_of(("CX", "CY", "CZ"))
        if not self.records:
            return name
        pairs = [(self.record(), f" {self.one_of(QUBITS)}") for _ in range(self.up_to(2))]
        is_turned = name == "CZ" and self.up_to(1)
        return name + "".join(qubit + record if is_turned else record + qubit for record, qubit in pairs)

    def noise(self):
        letters = "".join(f" {self.one_of('XYZ')}{self.one_of(QUBITS)}" for _ in range(self.up_to(4)))
        chance = self.one_of(CHANCES)
        return self.one_of((f"{self.one_of('XYZ')}_ERROR({chance}){self.qubits()}", f"E({chance}){letters}"))

    def nothing(self):
        return self.one_of((*NOTHINGS, *(f"SHIFT_COORDS{self.one_of(COORDINATES)}" for _ in range(4))))

    def noises(self):
        return [self.one_of((self.noise, self.noise, self.nothing))() for _ in range(self.up_to(2))]

    def line(self):
        """A line of any kind but a target's."""
        gates, pair_gates = (CALM_GATES, CALM_PAIR_GATES) if self.is_calm else (GATES, PAIR_GATES)
        marked = "".join(f" {self.one_of(('', '!'))}{qubit}" for qubit in self.qubits().split())
        products = "".join(self.product(self.factors()) for _ in range(self.up_to(2)))
        pair_gate = f"{self.one_of(pair_gates)}{self.pairs()}"
        measured = f"M{self.one_of(('', 'R'))}{self.letter()}{self.flip()}{marked}"
        return self.one_of((
            f"{self.one_of(gates)}{self.qubits()}", pair_gate, pair_gate, measured, measured, f"R{self.letter()}{self.qubits()}",
            f"MPP{self.flip()}{products}", self.feedback(), self.feedback(), self.noise(), self.nothing(),
        ))

    def target(self, records):
        """A detector, or a part of an observable."""
        name = self.one_of((f"OBSERVABLE_INCLUDE({self.up_to(2)})", *2 * (f"DETECTOR{self.one_of(COORDINATES)}",)))
        return name + "".join(records)

    def open_target(self):
        return self.target(self.record() for _ in range(self.up_to(4) if self.records else 0))

    def fixed_target(self):
        """Lines that end with a target whose parity is fixed."""
        (a, b), letter, factors = self.source.sample(QUBITS, 2), self.letter(), self.factors()
        gate, others = self.one_of(list(UNDOING)), self.factors(left_out=a)
        before, behind, records = self.one_of((
            ([self.measurement(letter, a)], [self.measurement(letter, a)], 2),
            ([f"R{letter} {a}"], [self.measurement(letter, a)], 1),
            ([self.measurement(letter, a, "R")], [self.measurement(letter, a)], 1),
            ([self.product_measurement(factors)], [self.product_measurement(factors)], 2),
            # The record turns the qubit back. What a flip or a mark does to it is no outcome.
            ([self.measurement(letter, a), f"C{'XYZ'['ZXY'.index(letter)]} rec[-1] {a}"], [self.measurement(letter, a)], 1),
            (
                [self.product_measurement(factors), f"{gate} {a} {b}"],
                [f"{UNDOING[gate]} {a} {b}", self.product_measurement(factors)], 2,
            ),
            # The letters are gathered at a qubit apart.
            (
                [self.product_measurement(others)],
                [f"RX {a}", *(f"C{other} {a} {qubit}" for other, qubit in others), self.measurement("X", a)], 2,
            ),
        ))
        return [*before, *self.noises(), *behind, self.target(f" rec[-{back + 1}]" for back in range(records))]

    def count(self, lines):
        """The lines, whose records are counted."""
        self.records += sum(records_of(line) for line in lines)
        return lines

    def part(self):
        lines = []
        for _ in range(1 + self.up_to(4)):
            lines += self.count([self.line()])
        lines.append(self.noise())
        if not self.is_calm:
            lines += self.count(self.fixed_target())
        return lines if self.kind == "fixed" else [*lines, self.open_target()]

    def rounds(self):
        """A product that is measured in each turn, and compared with the turn before."""
        factors = self.factors()
        first, again = self.product_measurement(factors), self.product_measurement(factors)
        body = [*self.noises(), again, self.target((" rec[-1]", " rec[-2]"))]
        return [*self.count([first]), (1 + self.up_to(2), self.count(body))]

    def circuit(self):
        begin = self.part()
        nested = (1 + self.up_to(2), [*self.part(), (1 + self.up_to(2), self.part()), *self.part()])
        return [*begin, nested, *self.part(), *self.rounds(), *self.part()]


def records_of(line):
    return len(line.split()) - 1 if line.startswith("M") else 0


ODD_NAMES = {
    "MZ": ("M", "MZ"), "MRZ": ("MR", "MRZ"), "RZ": ("R", "RZ"), "E": ("E", "CORRELATED_ERROR"), "CX": ("CX", "CNOT", "ZCX"),
    "CY": ("CY", "ZCY"), "CZ": ("CZ", "ZCZ"), "H": ("H", "H_XZ"), "S": ("S", "SQRT_Z"), "S_DAG": ("S_DAG", "SQRT_Z_DAG"),
}

INDENTS, ZEROS, STARS, BLANKS = ("", "", "    ", "\t"), ("", "", "0", "000"), ("*", "*", " * ", "\t*"), (" ", " ", "  ", "\t")

TAGS = ("", "", "", "[tag]", " [a # b { (]", "[]")

ENDS = ("", "", " ", "\t# M 0", "\r", " # rec[-1] { }\n", "\n \t")


def odd_name(source, name):
    name = source.choice(ODD_NAMES.get(name, (name,)))
    return source.choice((name, name.lower(), "".join(source.choice((letter, letter.lower())) for letter in name)))


def odd_line(source, line):
    """The same line with another name of its instruction, small letters, blanks, zeros in front, a tag or a comment."""
    name, arguments, targets = re.fullmatch(r"(\w*)(\([^)]*\))?(.*)", line).groups()
    if not name:
        return line
    blank = source.choice(("", "", " ", "\t"))
    arguments = re.sub(r"[(,]|(?=\))", lambda found: blank + found[0] + blank, arguments or "")
    targets = re.sub(r"(?<!\d)\d", lambda found: source.choice(ZEROS) + found[0], targets)
    targets = re.sub(r"[XYZ]", lambda found: source.choice((found[0], found[0].lower())), targets)
    targets = re.sub(" ", lambda found: source.choice(BLANKS), targets)
    targets = re.sub(r"\*", lambda found: source.choice(STARS), targets)
    return "".join((source.choice(INDENTS), odd_name(source, name), source.choice(TAGS), arguments, targets, source.choice(ENDS)))


def write_plain(items):
    """The text of items in their plain form."""
    return "".join(f"{item}\n" if isinstance(item, str) else f"REPEAT {item[0]} {{\n{write_plain(item[1])}}}\n" for item in items)


def write_unrolled(items):
    """The same without blocks."""
    return "".join(f"{item}\n" if isinstance(item, str) else write_unrolled(item[1]) * item[0] for item in items)


def write_odd(source, items):
    """The same in odd forms."""
    text = ""
    for item in items:
        if isinstance(item, str):
            text += f"{odd_line(source, item)}\n"
        else:
            begin = source.choice(("repeat 0{} {{ # a block", "REPEAT\t{}{{", "  Repeat[x] {} {{\t"))
            text += f"{begin.format(item[0])}\n{write_odd(source, item[1])}{source.choice(INDENTS)}}}\n"
    return text


def draw_text(seed, kind="open"):
    """The text of a seed in its plain form."""
    return write_plain(Drawing(seed, kind).circuit())


def draw_both(seed, kind):
    """The text of a seed in an odd form, and in its plain form without blocks."""
    items = Drawing(seed, kind).circuit()
    return write_odd(random.Random(seed), items), write_unrolled(items)
