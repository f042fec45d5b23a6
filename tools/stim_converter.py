"""The conversion of a text in Stim's format into the form that stabsim reads, line by line."""
import re
from functools import cached_property
from typing import NamedTuple, Optional

from stim_channels import NotIndependent, replace_chain, replace_channel, replace_herald
from stim_coordinates import Coordinates
from stim_gates import replace_gate
from stim_numbers import convert_probability, read_number
from stim_observables import Products, find_letters, replace_product
from stim_qubits import MOST_QUBITS, WITHOUT_QUBITS, Qubits
from stim_text import (INSTRUCTIONS, LINE, MODEL_LINES, Line, Refused, check_targets, is_instruction, name_of, name_qubits,
                       number_of, shown, split)

MOST_OBSERVABLES, MOST_BLOCKS = 1024, 32
CHANNELS = ("DEPOLARIZE1", "DEPOLARIZE2", "PAULI_CHANNEL_1", "PAULI_CHANNEL_2")
HERALDS = ("HERALDED_ERASE", "HERALDED_PAULI_CHANNEL_1")
CORRELATED, ELSE = ("E", "CORRELATED_ERROR"), "ELSE_CORRELATED_ERROR"
PLAIN_ERROR = re.compile(r"[ \t]*error\(([^()#{} \t\r,]*)\)(?: [DL]\d+| \^)*")  # most lines of a model, and read at once
RECORD_NUMBER = re.compile(r"(?<=rec\[-)\d{1,18}(?=\])")  # no text has records as far back as greater numbers
APPROXIMATE = "approximate: "


class Choices(NamedTuple):
    """What may be asked of a conversion."""
    coordinates: str = "scale"
    scale: Optional[int] = None
    is_renumbered: bool = False
    may_measure: bool = False
    may_approximate: bool = False


class Converter:
    """The conversion of a text. `known` are lines that were converted: most texts have many that are equal."""

    def __init__(self, lines, is_model=False, choices=Choices()):
        self.lines, self.is_model, self.choices = lines, is_model, choices
        self.instructions = MODEL_LINES if is_model else INSTRUCTIONS
        self.coordinates = Coordinates(lines, is_model, choices.coordinates, choices.scale)
        self.blocks, self.known, self.added = [], {}, 0
        self.approximate, self.approximate_chains = set(), 0
        names = set() if is_model else {name_of(text) for text in set(lines)}
        self.products = Products(lines) if choices.may_measure and "OBSERVABLE_INCLUDE" in names else None
        self.chains = find_chains(lines) if ELSE in names else {}
        self.of_chains = {}

    def convert(self):
        """The lines of the converted text, and what can't be converted, as (line, reason) pairs."""
        converted, refused = [], []
        if not self.is_model and self.choices.is_renumbered and self.qubits.numbers:
            converted.append(self.qubits.describe())
        for at, text in enumerate(self.lines, 1):
            try:
                converted.append(self.convert_line(text, at))
            except Refused as reason:
                refused.append((at, str(reason)))
        return converted, refused or [(at, "the block isn't closed") for at in self.blocks]

    def notes(self):
        """What is told of a text that was converted."""
        count = self.approximate_chains + (sum(text in self.approximate for text in self.lines) if self.approximate else 0)
        if count:
            lines = f"{count:,} lines are" if count > 1 else "1 line is"
            yield f"{lines} approximate: errors that exclude one another are independent there", "approximate"
        if self.coordinates.note:
            yield self.coordinates.note, "coordinates"

    # Lines

    def convert_line(self, text, at):
        if at in self.chains:
            return self.convert_in_chain(text, at)
        if self.products and at in self.products.found:
            return self.convert_product(text, at)
        if text in self.known:
            return self.known[text]
        error = PLAIN_ERROR.fullmatch(text) if self.is_model else None
        if error:
            return text[:error.start(1)] + convert_probability(error[1]) + text[error.end(1):]
        parts = cut(text)
        if parts["name"].upper() == "REPEAT" or parts["brace"] == "{":
            return self.open_block(parts, at)
        if is_instruction(parts):
            self.known[text] = self.convert_instruction(parts)
            return self.known[text]
        if parts["brace"] and not self.blocks:
            raise Refused("no block is open")
        self.blocks = self.blocks[:-1] if parts["brace"] else self.blocks
        return text

    def open_block(self, parts, at):
        targets = split(parts["targets"])
        has_form = parts["name"].upper() == "REPEAT" and parts["brace"] == "{" and not (parts["arguments"] or "").strip(" \t\r")
        if not has_form or len(targets) != 1:
            raise Refused("a block begins with REPEAT, a number and an opening brace")
        self.blocks.append(at)
        if not re.fullmatch(r"0*[1-9]\d{0,17}", targets[0]):
            raise Refused(f"a block is repeated 1 to {10**18 - 1} times, not {shown(targets[0])}")
        if len(self.blocks) > MOST_BLOCKS:
            raise Refused(f"more than {MOST_BLOCKS} blocks inside one another")
        return parts.string

    def convert_instruction(self, parts):
        line = self.read(parts)
        arguments = self.convert_arguments(line)
        lines, is_approximate = self.replace(line, arguments)
        if lines is None:
            return line.write_with(arguments)
        if is_approximate:
            self.approximate.add(parts.string)
        return "\n".join([line.write_comment(APPROXIMATE * is_approximate), *lines])

    def read(self, parts):
        """An instruction that is checked."""
        if parts["brace"]:
            raise Refused("a closing brace stands on a line of its own")
        if parts["name"].upper() not in self.instructions:
            raise Refused(f"{shown(parts['name'])} isn't the name of an instruction that can be converted")
        line = Line(parts, self.change)
        check_targets(line, self.instructions)
        if not self.is_model and line.name not in WITHOUT_QUBITS:
            self.check_qubits(line)
        return line

    def change(self, name, targets):
        """The text of targets with new numbers of qubits, and with records behind those that were added."""
        if self.added:
            targets = RECORD_NUMBER.sub(lambda found: str(int(found[0]) + self.added), targets)
        if self.choices.is_renumbered and not self.is_model and name not in WITHOUT_QUBITS:
            targets = self.qubits.rename(targets)
        return targets

    def replace(self, line, arguments):
        """The lines in place of an instruction, or None where it stays; and whether they are approximate."""
        name, may_approximate = line.name, self.choices.may_approximate
        if name in ("DETECTOR", "SHIFT_COORDS", "SHIFT_DETECTORS"):
            return self.leave_out(line), False
        if self.is_model:
            return None, False
        if name in CHANNELS:
            return replace_channel(line, may_approximate)
        if name in HERALDS:
            return replace_herald(line, may_approximate, self.find_spare)
        if name == "QUBIT_COORDS":
            kept = [target for target in line.targets if number_of(target) < MOST_QUBITS]
            return None if kept == line.targets else [line.write(name, ", ".join(arguments), kept)] * bool(kept), False
        steps = replace_gate(line, arguments, self.find_spare)
        return None if steps is None else [line.write(*step) for step in steps], False

    def leave_out(self, line):
        """The line without its coordinates, where these are left out."""
        if self.coordinates.scale is not None or not line.arguments:
            return None
        return [] if line.name == "SHIFT_COORDS" else [line.write(line.parts["name"], "", line.targets)]

    # Arguments and qubits

    def convert_arguments(self, line):
        least, most, kind = self.instructions[line.name][0]
        count = len(line.arguments)
        if not least <= count <= most:
            raise Refused(f"{line.name} takes {least if least == most else f'{least} to {most}'} arguments, not {count}")
        return [self.convert_argument(kind, text) for text in line.arguments]

    def convert_argument(self, kind, text):
        if kind == "probability":
            return convert_probability(text)
        if kind == "observable":
            return convert_observable(text)
        if kind == "coordinate" and self.coordinates.scale is None:
            read_number(text)
            return text
        return self.coordinates.convert(kind, text)

    def check_qubits(self, line):
        """That stabsim reads the numbers of the qubits, and that letters stand in an observable only where they are measured."""
        letters = find_letters(line.targets) if line.name == "OBSERVABLE_INCLUDE" else []
        if letters and not self.choices.may_measure:
            raise Refused(f"{shown(letters[0])}: observables are sums of records here; --observables measures products where "
                          "that is the same", "observables")
        named = name_qubits(line.changed)
        if not named or max(named) < MOST_QUBITS:
            return
        if not self.choices.is_renumbered:
            raise Refused(f"qubit {max(named)}: the greatest qubit is {MOST_QUBITS - 1}; --renumber numbers them in the order "
                          "of first use", "qubits")
        if line.name != "QUBIT_COORDS":
            raise Refused(f"the circuit uses {len(self.qubits.used):,} qubits, and {MOST_QUBITS:,} is the most", "qubits")

    @cached_property
    def qubits(self):
        return Qubits(self.lines, self.choices.is_renumbered)

    def find_spare(self):
        return self.qubits.spare

    # Lines that others change

    def convert_product(self, text, at):
        """An observable of a product, whose record is behind those before it."""
        self.products.check(at)
        if self.products.found[at]:
            self.added += 1
            self.known.clear()
        line = self.read(cut(text))
        return "\n".join([line.write_comment(), *replace_product(line, ", ".join(self.convert_arguments(line)))])

    def convert_in_chain(self, text, at):
        """A line of errors that exclude one another, which are converted together where their first one is reached."""
        if at not in self.of_chains:
            self.of_chains.update(self.convert_chain(self.chains[at]))
        done = self.of_chains[at]
        if isinstance(done, Refused):
            raise done
        return done

    def convert_chain(self, chain):
        """What becomes of each line of a chain: its text, or why it is refused."""
        found, lines = {}, {}
        for at in chain:
            try:
                lines[at] = self.read(cut(self.lines[at - 1]))
                self.convert_arguments(lines[at])
            except Refused as reason:
                found[at] = reason
        first = chain[0]
        if not found and lines[first].name not in CORRELATED:
            found[first] = Refused(f"{ELSE} doesn't stand right behind {CORRELATED[1]}", "exclusive")
        if found:
            return {**dict.fromkeys(chain, ""), **found}
        try:
            replaced, is_approximate = replace_chain([lines[at] for at in chain], self.choices.may_approximate)
        except NotIndependent as reason:
            return {**dict.fromkeys(chain, reason), first: ""}
        self.approximate_chains += (len(chain) - 1) * is_approximate
        return {at: self.convert_instruction(lines[at].parts) if done is None
                else "\n".join([lines[at].write_comment(APPROXIMATE * is_approximate), *done])
                for at, done in zip(chain, replaced)}


def cut(text):
    parts = LINE.fullmatch(text)
    if not parts:
        raise Refused("no line of Stim's format, or more on it behind a brace")
    return parts


def convert_observable(text):
    value = read_number(text)
    if value != value.to_integral_value():
        raise Refused(f"the observable {shown(text)} is no whole number")
    if value < 0:
        raise Refused(f"the observable {shown(text)} is below 0")
    if value >= MOST_OBSERVABLES:
        raise Refused(f"the observable {shown(text)} is beyond {MOST_OBSERVABLES - 1}")
    return text if re.fullmatch(r"\d+", text) else str(int(value))


def find_chains(lines):
    """By the number of each line of a chain of errors that exclude one another: the numbers of all its lines."""
    chains, chain = {}, []
    for at, text in enumerate(lines, 1):
        name = name_of(text)
        if name == ELSE:
            chain.append(at)
            chains[at] = chains[chain[0]] = chain
        elif name in CORRELATED:
            chain = [at]
        elif name or text.partition("#")[0].strip(" \t\r"):
            chain = []
    return chains
