"""Reads detector error models, as `analyze` and Stim write them. docs/FORMATS.md says what they mean. It isn't proved.

A Reader takes lines one by one, unrolls blocks, numbers detectors with their shifts, and hands on each error. `read_model` lists
the errors of a text, and a Merger makes one of those that flip the same. Any decimals may be probabilities and coordinates, so
some texts are read that `predict` refuses.
"""
import io
import re
from decimal import Context, Decimal, localcontext
from functools import lru_cache
from math import inf
from typing import NamedTuple

# Exponents are those of numbers that are read, of at most eight digits, and of their products.
CONTEXT = Context(prec=1000, Emax=400_000_000, Emin=-400_000_000)
MOST_UNROLLED, MOST_BLOCKS = 20_000_000, 32
MOST_DETECTORS, MOST_OBSERVABLES = 1_000_000, 1_024  # of a model that is listed

BLANKS = " \t\r"
# A byte that is neither a blank nor printed is read as a question mark, which stands in no name, number or target either.
READ_AS = bytes(byte if 32 <= byte < 127 or byte in b"\t\r" else ord(" " if byte == 10 else "?") for byte in range(256))
HEAD = re.compile(r"[ \t\r]*([^ \t\r\[({}#]*)(?:[ \t\r]*\[[^\]]*\])?(?:[ \t\r]*\(([^)#]*)\))?")
NUMBER = re.compile(r"[-+]?(?:[0-9]+(?:\.[0-9]*)?|\.[0-9]+)(?:[eE][-+]?0*[0-9]{1,8})?")
COUNT, TARGET = re.compile(r"0*([0-9]{1,18})"), re.compile(r"([DL])0*([0-9]{1,18})")
# How few and how many arguments each line takes, and which targets.
ANY = 10**9
LINES = {"error": (1, 1, "DL^"), "detector": (0, ANY, "D"), "logical_observable": (0, 0, "L"), "shift_detectors": (0, ANY, "")}
HINTS = dict.fromkeys(("refused", "random", "usage"), ": stabsim gave an answer that is no model")


class ModelError(Exception):
    """Why a line can't be read."""


def shown(text):
    """A text of the input, cut to what a message has room for."""
    return repr(text if len(text) <= 40 else text[:40] + "...")


# Numbers and targets. A detector is its number, and the observable k is -1 - k, so that both are one sorted list.

def read_number(text):
    if not NUMBER.fullmatch(text):
        raise ModelError(f"{shown(text)} is no number")
    return +Decimal(text)


def read_probability(text):
    value = read_number(text)
    if not 0 <= value <= 1:
        raise ModelError(f"{shown(text)} is no probability")
    return value


@lru_cache(maxsize=4096)
def read_arguments(name, arguments, weigh):
    """The numbers in parentheses; of an error what `weigh` makes of its probability."""
    texts = [text.strip(BLANKS) for text in arguments.split(",")] if arguments and arguments.strip(BLANKS) else []
    least, most, _ = LINES[name]
    if not least <= len(texts) <= most:
        raise ModelError(f"{name} takes {least} arguments, not {len(texts)}")
    return tuple(weigh(read_probability(text)) if name == "error" else read_number(text) for text in texts)


def read_count(text):
    digits = COUNT.fullmatch(text)
    if not digits:
        raise ModelError(f"{shown(text)} is no number of at most 18 digits")
    return int(digits[1])


@lru_cache(maxsize=65536)
def read_target(text):
    parts = TARGET.fullmatch(text)
    if not parts:
        raise ModelError(f"{shown(text)} is no target of at most 18 digits")
    return int(parts[2]) if parts[1] == "D" else -1 - int(parts[2])


def read_targets(name, rest):
    """The targets of a line, sorted."""
    texts, letters = rest.split(), LINES[name][2]
    if name == "shift_detectors":
        if len(texts) != 1:
            raise ModelError(f"shift_detectors takes 1 number, not {len(texts)}")
        return [read_count(texts[0])]
    if "^" in letters and "^" in rest:
        texts = [text for text in texts if text != "^"]
    targets = sorted(map(read_target, texts))
    if targets and (targets[0] < 0 and "L" not in letters or targets[-1] >= 0 and "D" not in letters):
        raise ModelError(f"{name} takes no {'observables' if letters == 'D' else 'detectors'}")
    return targets


def odd(targets):
    """Those of sorted targets that come an odd number of times: the symptom of an error."""
    if len(set(targets)) < len(targets):
        left = set()
        for target in targets:
            left ^= {target}
        targets = sorted(left)
    return tuple(targets)


def split(symptom):
    """The numbers of its detectors, and those of its observables, both ascending."""
    return tuple(target for target in symptom if target >= 0), tuple(-1 - target for target in reversed(symptom) if target < 0)


# Lines

class Block:
    """A block: its line, what it does in each turn, and how much that is, unrolled."""

    def __init__(self, turns, at):
        self.turns, self.at, self.steps, self.size = turns, at, [], 0


class Reader:
    """Reads the lines of a model, and counts the detectors, the observables and the lines of errors, all unrolled.

    `take_error` is called for each error, with what `weigh` makes of its probability, a decimal, and with its symptom."""

    def __init__(self, take_error, weigh, keep_coordinates=True, most_detectors=inf, most_observables=inf):
        self.take_error, self.weigh, self.keep_coordinates = take_error, weigh, keep_coordinates
        self.most_detectors, self.most_observables = most_detectors, most_observables
        self.coordinates = {}
        self.at = self.unrolled = self.detectors = self.observables = self.error_lines = 0
        self.shift, self.offset = 0, []
        self.blocks = []

    def read(self, lines):
        """Reads these lines, which are bytes. A ModelError says which of them can't be read."""
        try:
            with localcontext(CONTEXT):
                for self.at, line in enumerate(lines, 1):
                    self.take_line(line.translate(READ_AS).decode("ascii"))
            if self.blocks:
                self.at = self.blocks[-1].at
                raise ModelError("the block isn't closed")
        except ModelError as reason:
            raise ModelError(f"line {self.at}: {reason}") from None

    def take_line(self, text):
        head = HEAD.match(text)
        name, arguments = head[1].lower(), head[2]
        rest = text[head.end():].partition("#")[0]
        if name == "repeat" or "{" in rest or "}" in rest:
            self.take_brace(head[0].strip(BLANKS), name, arguments, rest.strip(BLANKS))
        elif name in LINES:
            numbers, targets = read_arguments(name, arguments, self.weigh), read_targets(name, rest)
            if self.blocks:
                self.keep(1 + len(numbers) + len(targets), self.apply, name, numbers, targets)
            else:
                self.apply(name, numbers, targets)
        elif name or head[0].strip(BLANKS) or rest.strip(BLANKS):
            raise ModelError(f"{shown(head[1])} isn't the name of a line{HINTS.get(name, '')}")

    def take_brace(self, head, name, arguments, rest):
        if not head and rest == "}":
            return self.close_block()
        if name != "repeat" or rest[-1:] != "{" or (arguments or "").strip(BLANKS):
            raise ModelError("a block begins with 'repeat', a number and '{', and ends with a '}' on a line of its own")
        turns = read_count(rest[:-1].strip(BLANKS))
        if turns == 0:
            raise ModelError("a block is repeated at least once")
        if len(self.blocks) == MOST_BLOCKS:
            raise ModelError(f"more than {MOST_BLOCKS} blocks inside one another")
        self.blocks.append(Block(turns, self.at))

    def close_block(self):
        if not self.blocks:
            raise ModelError("no block is open")
        block = self.blocks.pop()
        block.size = block.turns * (1 + block.size)
        self.check_size(block)
        if self.blocks:
            self.keep(block.size, self.unroll, block)
        else:
            self.unrolled += block.size
            self.unroll(block)

    def keep(self, size, action, *words):
        """What a line, or a block that is closed, does is done where the innermost open block is unrolled."""
        block = self.blocks[-1]
        block.steps.append((action, words))
        block.size += size
        self.check_size(block)

    def check_size(self, block):
        if self.unrolled + block.size > MOST_UNROLLED:
            self.at = block.at
            raise ModelError(f"with this block more than {MOST_UNROLLED:,} lines, arguments and targets are unrolled")

    def unroll(self, block):
        for _ in range(block.turns):
            for action, words in block.steps:
                action(*words)

    def apply(self, name, arguments, targets):
        if name == "shift_detectors":
            self.shift += targets[0]
            self.offset += [Decimal(0)] * (len(arguments) - len(self.offset))
            for place, value in enumerate(arguments):
                self.offset[place] += value
            return
        if self.shift:
            targets = [target + self.shift if target >= 0 else target for target in targets]
        if targets and (targets[-1] >= self.detectors or -targets[0] > self.observables):
            self.count_targets(targets[-1] + 1, -targets[0])
        if name == "error":
            self.error_lines += 1
            self.take_error(arguments[0], odd(targets))
        elif name == "detector" and arguments and self.keep_coordinates:
            offset = self.offset[:len(arguments)] + [0] * (len(arguments) - len(self.offset))
            self.coordinates.update(dict.fromkeys(targets, tuple(value + move for value, move in zip(arguments, offset))))

    def count_targets(self, detectors, observables):
        self.detectors, self.observables = max(self.detectors, detectors), max(self.observables, observables)
        if self.detectors > self.most_detectors or self.observables > self.most_observables:
            raise ModelError(f"more than {self.most_detectors} detectors or {self.most_observables} observables")


# Models

class ErrorModel(NamedTuple):
    """The errors, each with its probability, detectors and observables (ascending), and how many of both there are.

    Coordinates are by detector, where a line states some."""
    errors: list
    detectors: int
    observables: int
    coordinates: dict


def read_model(text):
    """The model of a text, with floating-point numbers; or a ModelError."""
    errors = []
    reader = Reader(lambda chance, symptom: errors.append((chance, *split(symptom))), float,
                    most_detectors=MOST_DETECTORS, most_observables=MOST_OBSERVABLES)
    reader.read(io.BytesIO(text.encode("ascii", "replace")))
    coordinates = {detector: tuple(map(float, place)) for detector, place in reader.coordinates.items()}
    return ErrorModel(errors, reader.detectors, reader.observables, coordinates)


def fold(chance):
    """A probability p, or 1 - p where that is less, so that rounding keeps its digits; 1 less twice that; and which of them."""
    least = min(chance, 1 - chance)
    return least, 1 - 2 * least, chance > least


class Merger:
    """Merges errors that flip the same, by probabilities of any kind of numbers: those of p and q are one of p + q - 2pq."""

    def __init__(self):
        # Of each symptom a number of at most 1/2, and those symptoms whose probability is 1 less that number.
        self.chances, self.turned = {}, set()

    def add(self, folded, symptom):
        """An error with a probability that is folded. p + q - 2pq is p (1 - 2q) + q, and `stays` is 1 - 2q."""
        chance, stays, turned = folded
        before = self.chances.get(symptom)
        self.chances[symptom] = chance if before is None else before * stays + chance
        if turned:
            self.turned ^= {symptom}

    def merged(self):
        """The probability of each symptom that has one."""
        whole = ((symptom, 1 - chance if symptom in self.turned else chance) for symptom, chance in self.chances.items())
        return {symptom: chance for symptom, chance in whole if chance}
