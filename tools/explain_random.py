#!/usr/bin/env python3
"""Says where in a circuit a random detector or observable stands, and which measurements and resets decide it.

    ./stabsim analyze < code.stim > answer.txt      # status 3: random D3, and two lists of coins
    tools/explain_random.py code.stim answer.txt
    ./stabsim analyze < code.stim | tools/explain_random.py code.stim

The circuit is the one that stabsim read, and the answer the three lines that `analyze` wrote. One of the two may be `-`, for
standard input, and the answer is if it is left out. Turns of blocks and targets of a line are counted from 1, and coins from 0.

This program is tested and NOT proved. It reads the text by itself, and doesn't judge it: that stabsim did.

Exit status: 0 explained; 1 the circuit and the answer don't belong together; 2 one of them can't be read, or the explanation
can't be written.
"""
import argparse
import os
import re
import signal
import sys
from array import array
from collections import Counter
from itertools import compress

try:
    from stim_text import LINE
except ImportError as missing:
    sys.exit(f"explain_random.py needs the file stim_text.py beside it: {missing}")

MEASURED = set("M MZ MX MY MR MRZ MRX MRY MPP".split())
RESET = set("R RZ RX RY".split())
# Instructions that have no collapse, and are nothing that an answer names.
OTHERS = set("""
    I X Y Z H H_XZ H_XY H_YZ S SQRT_Z S_DAG SQRT_Z_DAG SQRT_X SQRT_X_DAG SQRT_Y SQRT_Y_DAG C_XYZ C_ZYX CX CNOT ZCX CY ZCY CZ ZCZ
    XCX XCY XCZ YCX YCY YCZ SWAP ISWAP ISWAP_DAG SQRT_XX SQRT_XX_DAG SQRT_YY SQRT_YY_DAG SQRT_ZZ SQRT_ZZ_DAG
    X_ERROR Y_ERROR Z_ERROR E CORRELATED_ERROR TICK QUBIT_COORDS
""".split())

MOST_BLOCKS, MOST_DIGITS, MOST_LISTED, MOST_SHOWN = 32, 18, 20, 100


class Unreadable(Exception):
    """Why a text can't be read."""


class Apart(Exception):
    """Why a circuit and an answer don't belong together."""


class Line:
    """A line of the circuit that collapses, detects or shifts: what one turn of it counts."""

    __slots__ = "at", "name", "text", "collapses", "detectors", "observable", "places", "shift"
    turns = 1

    def __init__(self, at, name, text, collapses=0, detectors=0, observable=None, places=(), shift=()):
        self.at, self.name, self.text, self.collapses, self.detectors = at, name, text, collapses, detectors
        self.observable, self.places, self.shift = observable, places, shift


class Block:
    """A block: its lines and blocks, and what one turn of them counts."""

    def __init__(self, at, turns):
        self.at, self.turns, self.parts = at, turns, []
        self.collapses = self.detectors = 0
        self.shift = []

    def add(self, part):
        self.parts.append(part)
        self.collapses += part.turns * part.collapses
        self.detectors += part.turns * part.detectors
        self.shift = moved(self.shift, part.shift, part.turns)


# Reading

def moved(offsets, shift, times):
    """Offsets after a shift that comes so many times, place by place."""
    if not shift:
        return offsets
    longest = max(len(offsets), len(shift))
    first, second = ([*given, *[0] * (longest - len(given))] for given in (offsets, shift))
    return [a + times * b for a, b in zip(first, second)]


def split(text):
    """Targets. Blanks may stand round the * of a product."""
    return re.findall(r"[^ \t\r]+", re.sub(r"[ \t\r]*\*[ \t\r]*", "*", text))


def read_number(text, what):
    """A whole number that stabsim takes somewhere; any number of zeros may stand in front."""
    minus = text.startswith("-")
    digits = text[minus:].lstrip("0")
    if not re.fullmatch("-?[0-9]+", text) or len(digits) > MOST_DIGITS:
        raise Unreadable(f"{what} {shorten(text)} isn't a whole number that stabsim takes")
    return int(digits or "0") * (-1 if minus else 1)


def read_numbers(text, what):
    arguments = [argument.strip(" \t\r") for argument in (text or "").split(",")]
    return [] if arguments == [""] else [read_number(argument, what) for argument in arguments]


def read_line(at, text, parts):
    """A line of the circuit, or None where it is one of the others."""
    name = parts["name"].upper()
    if name in OTHERS:
        return None
    if name in MEASURED or name in RESET:
        return Line(at, name, text, collapses=len(split(parts["targets"])))
    if name == "DETECTOR":
        return Line(at, name, text, detectors=1, places=read_numbers(parts["arguments"], "the coordinate"))
    if name == "SHIFT_COORDS":
        return Line(at, name, text, shift=read_numbers(parts["arguments"], "the coordinate"))
    if name == "OBSERVABLE_INCLUDE":
        number = (parts["arguments"] or "").strip(" \t\r")
        return Line(at, name, text, observable=read_number(number, "the number of the observable"))
    raise Unreadable(f"'{shorten(parts['name'])}' is no instruction that stabsim takes; is this the circuit that it read?")


def read_circuit(text):
    """The circuit as a block of one turn."""
    opened = [Block(0, 1)]
    for at, line in enumerate(text.split("\n"), 1):
        try:
            read_into(opened, at, line)
        except Unreadable as reason:
            raise Unreadable(f"the circuit's line {at}: {reason}") from None
    if len(opened) > 1:
        raise Unreadable(f"the circuit's line {opened[-1].at}: the block isn't closed")
    return opened[0]


def read_into(opened, at, text):
    """Reads a line into the innermost block that is open."""
    parts = LINE.fullmatch(text)
    if not parts:
        raise Unreadable("no line that stabsim takes")
    if parts["brace"] == "{":
        if parts["name"].upper() != "REPEAT" or len(opened) > MOST_BLOCKS:
            raise Unreadable(f"a block begins with REPEAT, and stands in at most {MOST_BLOCKS - 1} others")
        turns = read_number(parts["targets"].strip(" \t\r"), "the number of turns")
        if turns < 1:
            raise Unreadable("a block is repeated at least once")
        opened.append(Block(at, turns))
    elif parts["brace"]:
        if len(opened) == 1 or parts["name"]:
            raise Unreadable("a brace that closes no block")
        block = opened.pop()
        opened[-1].add(block)
    elif text.strip(" \t\r") and not text.lstrip(" \t\r").startswith("#"):
        line = read_line(at, text, parts)
        if line:
            opened[-1].add(line)


def read_answer(text):
    """What the answer names, as a letter and a number, and its two lists of coins."""
    # The launcher's own lines may stand in between.
    first, *lists = [line.strip(" \t\r") for line in text.split("\n") if not line.startswith("stabsim")] or [""]
    named = re.fullmatch(r"random ([DL])([0-9]{1,18})", first)
    if not named:
        began = f"begins with '{shorten(first)}'" if text else "is empty"
        raise Unreadable(f"the answer {began}: where a detector or observable is random, analyze writes 'random' and its name")
    lists += ["", ""]
    if any(lists[2:]) or not all(re.fullmatch("[01]*", coins) for coins in lists[:2]):
        raise Unreadable("the answer's second and third line aren't two lists of coins, each a digit 0 or 1")
    return named[1], int(named[2]), lists[0], lists[1]


# Finding

def find(circuit, kind, number):
    """The line that makes the collapse or detector of this number, with the turns of the blocks round it, the number of those
    left in the line, and the offsets of coordinates there."""
    block, turns, offsets = circuit, [], []
    while True:
        for part in block.parts:
            in_a_turn = getattr(part, kind)
            if number < part.turns * in_a_turn:
                break
            number -= part.turns * in_a_turn
            offsets = moved(offsets, part.shift, part.turns)
        if isinstance(part, Line):
            return part, turns, number, offsets
        turn, number = divmod(number, in_a_turn)
        offsets = moved(offsets, part.shift, turn)
        turns.append((turn + 1, part))
        block = part


def find_includes(circuit, observable):
    """The lines that add to an observable, each with the blocks round it, in the order of the text."""
    found, left = [], [(circuit, ())]
    while left:
        part, around = left.pop()
        if isinstance(part, Block):
            inside = (*around, part) if part.at else around
            left += [(inner, inside) for inner in reversed(part.parts)]
        elif part.observable == observable:
            found.append((part, around))
    return found


def lines_of_collapses(block):
    """The line of each collapse of one turn of a block."""
    lines = array("I")
    for part in block.parts:
        if part.collapses:
            in_a_turn = array("I", [part.at]) * part.collapses if isinstance(part, Line) else lines_of_collapses(part)
            lines += in_a_turn * part.turns
    return lines


# Telling

def shorten(text):
    """A piece of a text in one line of a terminal."""
    text = text.encode("ascii", "backslashreplace").decode()
    text = re.sub(r"[\x00-\x1f\x7f]", lambda found: f"\\x{ord(found[0]):02x}", text)
    return text if len(text) <= MOST_SHOWN else f"{text[:MOST_SHOWN]}..."


def quote(line):
    """The text of a line, without its indentation and its comment."""
    text = LINE.fullmatch(line.text)
    return "    " + shorten(line.text[:text.end("targets")].strip(" \t\r"))


def within(turns):
    """The turns of blocks, the innermost first."""
    return "".join(f", in turn {turn} of {block.turns} of the block of line {block.at}" for turn, block in reversed(turns))


def tell_detector(circuit, number):
    if number >= circuit.detectors:
        raise Apart(f"the answer names D{number}, and the circuit has {circuit.detectors} detectors")
    line, turns, _, offsets = find(circuit, "detectors", number)
    yield f"D{number} is random: coins decide its value, also where no fault happens."
    yield f"It is of line {line.at}{within(turns)}:"
    yield quote(line)
    places = [place + offset for place, offset in zip(line.places, [*offsets, *[0] * len(line.places)])]
    yield f"Its coordinates: {', '.join(map(str, places))}" if places else "It has no coordinates."


def tell_observable(circuit, number):
    includes = find_includes(circuit, number)
    if not includes:
        raise Apart(f"the answer names L{number}, and the circuit has no OBSERVABLE_INCLUDE({number})")
    yield f"L{number} is random: coins decide its value, also where no fault happens."
    yield f"Lines that add to it: {len(includes)}"
    for line, around in includes[:MOST_LISTED]:
        blocks = "".join(f", in each of {block.turns} turns of the block of line {block.at}" for block in reversed(around))
        yield f"Line {line.at}{blocks}:"
        yield quote(line)
    if len(includes) > MOST_LISTED:
        yield f"and {len(includes) - MOST_LISTED} more"


def tell_coins(circuit, first, second):
    for coins in (first, second):
        if len(coins) != circuit.collapses:
            raise Apart(f"the answer has a list of {len(coins)} coins, and the circuit has {circuit.collapses}")
    differing = (int.from_bytes(first.encode(), "big") ^ int.from_bytes(second.encode(), "big")).to_bytes(len(first), "big")
    number = differing.find(1)
    if number < 0:
        raise Apart("the answer's two lists are the same: no coin differs")
    line, turns, target, _ = find(circuit, "collapses", number)
    kind = "reset" if line.name in RESET else "measurement and reset" if line.name.startswith("MR") else "measurement"
    yield f"Coins: {len(first)}. Differing in the two lists: {differing.count(1)}"
    name = shorten(split(LINE.fullmatch(line.text)["targets"])[target])
    yield f"The first is coin {number}, the {kind} of target {target + 1} ({name}) of line {line.at}{within(turns)}:"
    yield quote(line)
    counts = Counter(compress(lines_of_collapses(circuit), differing))
    yield "Differing coins by line:"
    yield from (f"    line {at}: {counts[at]}" for at in sorted(counts)[:MOST_LISTED])
    if len(counts) > MOST_LISTED:
        yield f"    and {len(counts) - MOST_LISTED} more lines"


def explain(circuit_text, answer_text):
    """The lines of the explanation."""
    letter, number, first, second = read_answer(answer_text)
    circuit = read_circuit(circuit_text)
    told = list((tell_detector if letter == "D" else tell_observable)(circuit, number))
    return told + list(tell_coins(circuit, first, second))


# The program

def read_file(name):
    """The text of a file, or of standard input, a character a byte."""
    try:
        with open(0 if name == "-" else name, "rb") as file:
            return file.read().decode("latin-1")
    except OSError as error:
        raise Unreadable(f"{'standard input' if name == '-' else shorten(name)} can't be read: {error.strerror}") from None


def write(stream, text):
    """Whether a text could be written to the stream of this number."""
    left = text.encode()
    try:
        while left:
            left = left[os.write(stream, left):]
    except OSError:
        return False
    return True


def main():
    parser = argparse.ArgumentParser(description="Say where a random detector or observable stands, and which coins decide it.")
    parser.add_argument("circuit", help="the file with the circuit that stabsim read, or - for standard input")
    parser.add_argument("answer", nargs="?", default="-", help="the file with what analyze wrote (default: standard input)")
    options = parser.parse_args()
    if options.circuit == options.answer == "-":
        parser.error("only one of the two can be standard input")
    status = 2
    try:
        told = explain(read_file(options.circuit), read_file(options.answer))
        status = 0 if write(1, "\n".join([*told, ""])) else 2
        reason = None if status == 0 else "standard output can't be written"
    except Apart as apart:
        status, reason = 1, f"{apart}: they don't belong together"
    except Unreadable as unreadable:
        reason = unreadable
    except MemoryError:
        reason = "memory ran out"
    if reason:
        write(2, f"explain_random.py: {reason}\n")
    return status


if __name__ == "__main__":
    # As other commands end where a pipe is closed, or by Ctrl-C: without a traceback.
    for number in (signal.SIGPIPE, signal.SIGINT):
        signal.signal(number, signal.SIG_DFL)
    sys.exit(main())
