"""Runs small circuits exactly: of Stim's format with its noise channels, and of this project's profile.

What comes out is, for each list of records, the state that it leaves, times its probability. A state is the list of
its coefficients: rho is the sum of coefficient times word over all words, divided by 2 to the number of qubits. All
numbers are fractions, so two circuits are the same exactly where these are equal.
"""
import re
from fractions import Fraction

from pauli_words import (ALIASES, IDENTITY, IMAGES, anticommute, apply_gate, apply_generalized_s, letter_at, times, unsigned,
                         word_of)

INSTRUCTION = re.compile(r"\s*(\w+)\s*(?:\[[^\]]*\])?\s*(?:\(([^)]*)\))?\s*([^#{]*?)\s*(\{?)\s*(?:#.*)?")
LETTERS_1 = "XYZ"
LETTERS_2 = [a + b for a in "IXYZ" for b in "IXYZ"][1:]
QUIET = ("TICK", "QUBIT_COORDS", "SHIFT_COORDS", "DETECTOR", "OBSERVABLE_INCLUDE", "I_ERROR", "II_ERROR")


def read_instructions(text):
    """The instructions of a text as (name, arguments, targets), with blocks written out."""
    levels = [[]]
    turns = []
    for line in text.split("\n"):
        if not line.strip() or line.strip().startswith("#"):
            continue
        if line.strip().startswith("}"):
            body = levels.pop()
            levels[-1] += body * turns.pop()
            continue
        name, arguments, targets, brace = INSTRUCTION.fullmatch(line).groups()
        if brace:
            turns.append(int(targets))
            levels.append([])
        else:
            arguments = [part.strip() for part in (arguments or "").split(",") if part.strip()]
            levels[-1].append((name.upper(), arguments, targets.split()))
    return levels[0]


def add_state(states, records, state):
    into = states.setdefault(records, {})
    for word, value in state.items():
        into[word] = into.get(word, 0) + value


class Run:
    """A run of one circuit from all qubits 0."""

    def __init__(self, qubits):
        zeros = {(0, 0, z): Fraction(1) for z in range(1 << qubits)}
        self.states = {(): zeros}

    def change(self, function):
        """Replaces each state by those that `function` answers of it, as (records, state) pairs."""
        states = {}
        for records, state in self.states.items():
            for appended, after in function(records, state):
                if any(after.values()):
                    add_state(states, records + appended, after)
        self.states = states

    def map_words(self, function):
        def one(_, state):
            after = {}
            for word, value in state.items():
                plain, sign = unsigned(function(word))
                after[plain] = value * sign
            return [((), after)]
        self.change(one)

    def apply_errors(self, chances):
        """A channel that multiplies by each of these (word, probability), and else by nothing."""
        def one(_, state):
            return [((), {word: value * (1 - 2 * sum(chance for error, chance in chances if anticommute(error, word)))
                          for word, value in state.items()})]
        self.change(one)

    def measure(self, word, is_inverted, flip, is_kept=True):
        """Appends the outcome of a Hermitian word, inverted and flipped, or appends nothing."""
        def one(_, state):
            results = []
            for outcome in (0, 1):
                after = project(state, word, outcome)
                for flipped, chance in ((0, 1 - flip), (1, flip)):
                    record = (outcome ^ is_inverted ^ flipped,) if is_kept else ()
                    results.append((record, {plain: value * chance for plain, value in after.items()}))
            return results
        self.change(one)

    def reset(self, letter, qubit):
        """The state of this letter with sign plus, whatever the outcome was."""
        word, other = letter_at(letter, qubit), letter_at("Z" if letter == "X" else "X", qubit)

        def one(_, state):
            after = project(state, word, 0)
            for plain, value in project(state, word, 1).items():
                after[plain] = after.get(plain, 0) + (-value if anticommute(other, plain) else value)
            return [((), after)]
        self.change(one)

    def apply_where(self, record, word):
        def one(records, state):
            if records[record] == 0:
                return [((), state)]
            return [((), {plain: -value if anticommute(word, plain) else value for plain, value in state.items()})]
        self.change(one)


def project(state, word, outcome):
    """The coefficients of P rho P, where P projects on the word's outcome."""
    after = {}
    for plain, value in state.items():
        if anticommute(word, plain):
            continue
        after[plain] = after.get(plain, 0) + value / 2
        other, sign = unsigned(times(word, plain))
        after[other] = after.get(other, 0) + (-sign if outcome else sign) * value / 2
    return after


def read_product(text):
    """A product as Stim writes it: its word, a `!` counting as -1."""
    word = IDENTITY
    for factor in text.upper().split("*"):
        word = times(word, letter_at(factor.lstrip("!")[0], int(factor.lstrip("!")[1:])))
        word = ((word[0] + 2 * factor.startswith("!")) % 4, word[1], word[2])
    return word


def run_noise(run, name, chances, targets):
    if name in ("X_ERROR", "Y_ERROR", "Z_ERROR"):
        words, size = [name[0]], 1
    elif name in ("DEPOLARIZE1", "PAULI_CHANNEL_1"):
        words, size = LETTERS_1, 1
    else:
        words, size = LETTERS_2, 2
    if name.startswith("DEPOLARIZE"):
        chances = [chances[0] / len(words)] * len(words)
    for at in range(0, len(targets), size):
        qubits = [int(target) for target in targets[at:at + size]]
        run.apply_errors([(word_of(letters, qubits), chance) for letters, chance in zip(words, chances)])


def run_measurement(run, name, flip, targets):
    if name in ("MXX", "MYY", "MZZ"):
        pairs = zip(targets[::2], targets[1::2])
        targets = ["*".join("!" * target.startswith("!") + name[1] + target.lstrip("!") for target in pair) for pair in pairs]
        name = "MPP"
    letter = name[-1] if name[-1] in "XY" else "Z"
    for target in targets:
        if name == "MPAD":
            run.measure(IDENTITY, int(target), flip)
        elif name == "MPP":
            run.measure(read_product(target), 0, flip)
        else:
            qubit = int(target.lstrip("!"))
            if name.startswith("M"):
                run.measure(letter_at(letter, qubit), int(target.startswith("!")), flip)
            if "R" in name:
                run.reset(letter, qubit)


def run_gate(run, name, targets):
    size = len(IMAGES[ALIASES.get(name, name)].split()) // 2
    for at in range(0, len(targets), size):
        group = targets[at:at + size]
        bits = [target for target in group if target.startswith("rec")]
        if not bits:
            qubits = [int(target) for target in group]
            run.map_words(lambda word: apply_gate(name, qubits, word))
        elif len(bits) == 1:
            letter = ALIASES.get(name, name)[0 if name in ("XCZ", "YCZ") else 1]
            qubit = next(int(target) for target in group if target not in bits)
            run.apply_where(int(bits[0][4:-1]), letter_at(letter, qubit))


def run_circuit(text, qubits):
    """The states that a circuit leaves, by their records."""
    run = Run(qubits)
    for name, arguments, targets in read_instructions(text):
        chances = [] if name in QUIET else [Fraction(argument) for argument in arguments]
        if name in QUIET:
            continue
        if name in ("E", "CORRELATED_ERROR"):
            word = read_product("*".join(targets)) if targets else IDENTITY
            run.apply_errors([(word, chances[0])])
        elif name.startswith(("DEPOLARIZE", "PAULI_CHANNEL")) or name.endswith("_ERROR"):
            run_noise(run, name, chances, targets)
        elif name in ("SPP", "SPP_DAG"):
            for target in targets:
                word = read_product(target)
                run.map_words(lambda before: apply_generalized_s(word, 1 if name == "SPP" else -1, before))
        elif name[0] in "MR":
            run_measurement(run, name, chances[0] if chances else Fraction(0), targets)
        else:
            run_gate(run, name, targets)
    return run.states
