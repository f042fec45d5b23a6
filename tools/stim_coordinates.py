"""Coordinates of a text in Stim's format: one scale that makes those of all detectors whole numbers, or none of them.

In a circuit stabsim reads whole numbers up to 10^9 in DETECTOR and SHIFT_COORDS, and any decimals in QUBIT_COORDS. In a model it
reads whole numbers up to 10^18 - 1, and asks of the coordinates of a detector, once they are shifted, that they are within this
too.
"""
import re
from fractions import Fraction
from math import gcd

from stim_numbers import SIGNED_DECIMAL, read_number
from stim_text import LINE, Refused, name_of, read_arguments, shown

CIRCUIT_LINES, MODEL_LINES = ("DETECTOR", "SHIFT_COORDS"), ("DETECTOR", "SHIFT_DETECTORS")
PLACES = 16


class Coordinates:
    """What becomes of the coordinates of a text: they are multiplied by `scale`, or left out where that is None."""

    def __init__(self, lines, is_model, choice, scale):
        self.lines, self.is_model = lines, is_model
        self.greatest = 10**18 - 1 if is_model else 10**9
        self.least = None if choice == "drop" else self.find_scale()
        self.scale = scale or self.least
        self.note = None if scale or choice == "drop" else self.describe()

    def describe(self):
        """What is told of a scale that was found, or wasn't."""
        if self.scale is None:
            return ("coordinates of detectors are left out and kept as comments, as no scale makes all of them whole numbers up "
                    f"to {self.greatest:,}")
        if self.scale > 1:
            return f"all coordinates are multiplied by {self.scale:,}, so that those of detectors are whole numbers"
        return None

    def find_values(self):
        """The coordinates of detectors and shifts in each different line that has some."""
        names = MODEL_LINES if self.is_model else CIRCUIT_LINES
        return {text: values for text in dict.fromkeys(self.lines) if "(" in text and name_of(text) in names
                for values in [read_values(text)] if values}

    def find_scale(self):
        """The least number that makes all coordinates whole and within the limits, or None."""
        values, scale = self.find_values(), 1
        for value in {value for row in values.values() for value in row}:
            scale = scale * value.denominator // gcd(scale, value.denominator)
        greatest = max((abs(value) for row in values.values() for value in row), default=0)
        if self.is_model and any(name_of(text) == "SHIFT_DETECTORS" for text in values):
            greatest = max(greatest, find_greatest(self.lines, values))
        return scale if greatest * scale <= self.greatest else None

    def convert(self, kind, text):
        """The text of a coordinate, multiplied by the scale."""
        if kind == "decimal":
            if self.scale in (1, None) and SIGNED_DECIMAL.fullmatch(text):
                return text
            return format((read_number(text) * (self.scale or 1)).normalize(), "f")
        whole = Fraction(read_number(text)) * self.scale
        if whole.denominator != 1:
            raise Refused(f"the coordinate {shown(text)} times {self.scale} is no whole number{self.advise()}", "coordinates")
        if abs(whole) > self.greatest:
            raise Refused(f"the coordinate {shown(text)} times {self.scale} is beyond {self.greatest}{self.advise()}",
                          "coordinates")
        return text if self.scale == 1 and text.lstrip("-").isdigit() else str(int(whole))

    def advise(self):
        if self.least is None:
            return "; no scale does for this text, and --coordinates drop leaves coordinates out"
        return f"; --scale {self.least} is the least that does for this text"


def read_values(text):
    """The coordinates of a line, as far as they are numbers."""
    parts, values = LINE.fullmatch(text), []
    for argument in read_arguments(parts)[:PLACES] if parts else []:
        try:
            values.append(Fraction(read_number(argument)))
        except Refused:
            values.append(Fraction(0))
    return values


class Extent:
    """Of a part of a model: how far it moves coordinates, and the least and the greatest of its detectors, place by place."""

    def __init__(self, turns):
        self.turns = turns
        self.moved = [Fraction(0)] * PLACES
        self.least, self.greatest = {}, {}

    def include(self, place, least, greatest):
        self.least[place] = min(self.least.get(place, least), least)
        self.greatest[place] = max(self.greatest.get(place, greatest), greatest)

    def add_detector(self, values):
        for place, value in enumerate(values):
            at = self.moved[place] + value
            self.include(place, at, at)

    def move(self, values):
        for place, value in enumerate(values):
            self.moved[place] += value

    def add_block(self, block):
        """All turns of a block: each begins as far as the one before it moved, so the first and the last go farthest."""
        for place in block.least:
            begin, last = self.moved[place], self.moved[place] + block.moved[place] * (block.turns - 1)
            self.include(place, min(begin, last) + block.least[place], max(begin, last) + block.greatest[place])
        self.move([move * block.turns for move in block.moved])


def find_greatest(lines, values):
    """The greatest magnitude that a coordinate of a detector has, once it is shifted."""
    levels = [Extent(1)]
    for text in lines:
        name = name_of(text)
        if name == "REPEAT":
            turns = re.search(r"\d{1,18}(?=[ \t\r]*\{)", text)
            levels.append(Extent(int(turns[0]) if turns else 1))
        elif not name and "}" in text.partition("#")[0] and len(levels) > 1:
            block = levels.pop()
            levels[-1].add_block(block)
        elif text in values:
            (levels[-1].add_detector if name == "DETECTOR" else levels[-1].move)(values[text])
    whole = levels[0]
    return max((abs(value) for value in [*whole.least.values(), *whole.greatest.values()]), default=0)
