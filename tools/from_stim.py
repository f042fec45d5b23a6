#!/usr/bin/env python3
"""Writes a Stim circuit, or an error model that Stim wrote, in the form that stabsim reads.

    tools/from_stim.py < code.stim > converted.stim
    tools/from_stim.py --renumber --observables --approximate-disjoint < code.stim > converted.stim
    tools/from_stim.py --dem < model.dem > converted.dem

This program is tested and NOT proved. What stabsim says is about the circuit that this program writes: that is the one to
keep beside the results. docs/FROM_STIM.md has the formulas, and says what can't be converted.

Noise channels become independent faults that make the same channel, and gates that stabsim leaves out become gates that it
has. An instruction that is replaced stays above its replacement as a comment. All other lines stay as they are, except that

- probabilities of more than 18 significant digits, or 38 decimal places, are cut down to these;
- where a coordinate of DETECTOR or SHIFT_COORDS (with --dem, of detector or shift_detectors) isn't whole, all coordinates are
  multiplied by the least number that makes these whole; where there is none, these are left out. Standard error says so.

Exit statuses: 0, the text is converted; 1, some line can't be converted, or a stream failed; 2, the command line is wrong.
With 1 and 2 the reason goes to standard error, and standard output has the one line NOT_CONVERTED, which stabsim refuses.
An interrupt, and a pipe that is closed, end the program by their signals.
"""
import signal

if __name__ == "__main__":
    for name, handler in (("SIGINT", signal.default_int_handler), ("SIGPIPE", signal.SIG_IGN)):
        if hasattr(signal, name) and signal.getsignal(getattr(signal, name)) == handler:
            signal.signal(getattr(signal, name), signal.SIG_DFL)

import argparse
import sys

try:
    from stim_converter import Choices, Converter
    from stim_text import SECTIONS
    from script_streams import discard, tell
except ImportError as missing:
    print("NOT_CONVERTED # by from_stim.py: it needs the files stim_*.py and script_streams.py beside it")
    sys.exit(f"from_stim.py needs Python 3.8 or later, and the files stim_*.py and script_streams.py beside it: {missing}")

SHOWN = 3


class Parser(argparse.ArgumentParser):
    """A parser whose refusal can't be taken for a circuit either."""

    def error(self, message):
        write(not_converted(message))
        super().error(message)


def parse_options():
    parser = Parser(description="Write a Stim circuit, or an error model, in the form that stabsim reads: from standard input to "
                    "standard output. docs/FROM_STIM.md explains it.", allow_abbrev=False)
    parser.add_argument("--dem", action="store_true", help="read an error model in place of a circuit")
    parser.add_argument("--coordinates", choices=("scale", "drop"),
                        help="make those of detectors whole numbers by one scale (the default), or leave them out")
    parser.add_argument("--scale", type=int, metavar="N", help="multiply all coordinates by N")
    parser.add_argument("--renumber", action="store_true", help="number the qubits in the order of their first use")
    parser.add_argument("--observables", action="store_true", help="measure Pauli products of observables where that is the same")
    parser.add_argument("--approximate-disjoint", action="store_true",
                        help="take errors that exclude one another for independent ones, where nothing is the same")
    options = parser.parse_args()
    if options.scale is not None and options.scale < 1:
        parser.error("--scale takes a whole number from 1 on")
    if options.scale is not None and options.coordinates:
        parser.error("--scale and --coordinates exclude one another")
    if options.dem and (options.renumber or options.observables or options.approximate_disjoint):
        parser.error("--renumber, --observables and --approximate-disjoint are for circuits, and not for --dem")
    return options


def not_converted(reason):
    """A line that stabsim refuses, and Stim too: no instruction has this name."""
    return f"NOT_CONVERTED # by from_stim.py: {' '.join(reason.splitlines())}\n".encode("latin-1", "backslashreplace")


def write(data):
    """Whether standard output took the bytes."""
    if not sys.stdout:
        tell("the output can't be written: standard output is closed")
        return False
    try:
        sys.stdout.buffer.write(data)
        sys.stdout.buffer.flush()
        return True
    except OSError as reason:
        tell(f"the output can't be written: {reason}")
        discard(sys.stdout)
        return False


def read_lines():
    if not sys.stdin:
        raise OSError("standard input is closed")
    return sys.stdin.buffer.read().decode("latin-1").split("\n")


def convert(options):
    """The bytes to write, what is told, and the exit status."""
    choices = Choices(options.coordinates or "scale", options.scale, options.renumber, options.observables,
                      options.approximate_disjoint)
    converter = Converter(read_lines(), options.dem, choices)
    converted, refused = converter.convert()
    if not refused:
        notes = [f'from_stim.py: {note} (docs/FROM_STIM.md, "{SECTIONS[section]}")' for note, section in converter.notes()]
        return "\n".join(converted).encode("latin-1"), notes, 0
    told = [f"line {at}: {reason}" for at, reason in refused[:SHOWN]]
    if len(refused) > SHOWN:
        more = len(refused) - SHOWN
        told.append(f"{more:,} more line{'s' * (more > 1)} can't be converted")
    return not_converted("; ".join(told)), told, 1


def main():
    options = parse_options()
    try:
        data, told, status = convert(options)
    except OSError as reason:
        data, told, status = not_converted("no input"), [f"the input can't be read: {reason}"], 1
    except MemoryError:
        data, told, status = not_converted("no memory"), ["memory ran out"], 1
    for message in told:
        tell(message)
    return status if write(data) else 1


if __name__ == "__main__":
    sys.exit(main())
