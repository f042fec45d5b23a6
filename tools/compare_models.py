#!/usr/bin/env python3
"""Says whether two detector error models agree: the same symptoms, each with the same probability.

    tools/compare_models.py code.dem stim.dem
    tools/compare_models.py --coordinates --tolerance 1e-6 code.dem stim.dem
    tools/compare_models.py --merge code.dem > merged.dem

This program is tested and NOT proved. A file is a model as Stim or stabsim writes it, and `-` is standard input. The lines are
those of docs/FORMATS.md; any decimals may be probabilities and coordinates. A symptom is what an error line flips: the
detectors and observables that it names an odd number of times, whatever `^` stands between them. Blocks are unrolled, and lines
of one symptom are merged: errors of probabilities p and q are one of probability p + q - 2pq. An error that flips nothing, and a
symptom of probability 0, count for nothing.

Models agree if they have as many detectors, as many observables and the same symptoms, whose probabilities differ by at most
--tolerance (1e-9 if left out) times the greater of the two. With --coordinates each detector must have as many coordinates too,
which differ by at most --tolerance times the greatest of 1 and their magnitudes; of several lines that give coordinates of one
detector the last counts. Of each kind of difference the number is written, and the five that are greatest.

Probabilities are merged as decimals of up to 1,000 digits. That is exact while these suffice, as they do for 26 lines of one
symptom whose probabilities have at most 38 decimal places, and for 300 lines of three places. Beyond, each line rounds by less
than 1e-998 of the value.

--merge writes a model that has each symptom once, with its probability rounded to 18 digits and 38 decimal places, as Stim and
`stabsim predict` read it. Errors are sorted by the numbers of their detectors, and then of their observables. Behind them stand
the last detector and the last observable; with --coordinates each detector that has some, of which `predict` takes whole
numbers alone.

Lines are read one by one, so that memory goes by the number of symptoms; of a block all lines are kept. Blocks may unroll to
20,000,000 lines, arguments and targets in all, and may stand 32 deep.

Exit status: 0 where the models agree, or the merged one was written; 1 where they differ; 2 where a file can't be read, with its
line and the reason on standard error, where the answer can't be written, or where the command line is wrong.
"""
import argparse
import gc
import signal
import sys
from decimal import ROUND_HALF_EVEN, Decimal, setcontext
from heapq import nlargest
from typing import NamedTuple

try:
    import script_streams as streams
    from error_model import CONTEXT, Merger, ModelError, Reader, fold, read_number, split
except ImportError as missing:
    sys.exit(f"compare_models.py needs the files error_model.py and script_streams.py beside it: {missing}")

WORST = 5


class Model(NamedTuple):
    """What a text says: the probability of each symptom that has one, and the coordinates of each detector that has some."""
    detectors: int
    observables: int
    error_lines: int
    symptoms: dict
    coordinates: dict


def read_merged(lines, keep_coordinates):
    """The model of these lines, which are bytes; or a ModelError."""
    merger = Merger()
    reader = Reader(merger.add, fold, keep_coordinates)
    reader.read(lines)
    symptoms = merger.merged()
    symptoms.pop((), None)  # errors that flip nothing
    return Model(reader.detectors, reader.observables, reader.error_lines, symptoms, reader.coordinates)


def read_file(name, keep_coordinates):
    """The model of a file. What can't be read ends the program."""
    try:
        with open(0 if name == "-" else name, "rb", closefd=name != "-") as lines:
            return read_merged(lines, keep_coordinates)
    except ModelError as refused:
        fail(f"{label(name)}: {refused}")
    except OSError as failure:
        fail(f"{label(name)}: {failure.strerror}")


def label(name):
    return "standard input" if name == "-" else name


# Names and numbers

def name_targets(symptom):
    """A symptom as a line of a model has it: detectors, and then observables."""
    detectors, observables = split(symptom)
    return " ".join([*(f"D{detector}" for detector in detectors), *(f"L{observable}" for observable in observables)])


def write_decimal(value):
    """A number without an exponent, unless that would be long."""
    value = value.normalize()
    return format(value, "f" if abs(value.adjusted()) < 40 or not value else "e")


def shorten(value):
    """A number with 18 digits."""
    return write_decimal(Decimal(f"{value:.18g}"))


def round_probability(value):
    return value.quantize(Decimal(1).scaleb(-min(38, 17 - value.adjusted())), ROUND_HALF_EVEN)


# Comparing

def find_differences(ours, theirs, options):
    """The lines to write of each kind of difference, and the greatest relative difference of two probabilities.

    Coordinates that weren't asked for weren't kept, so that none differ."""
    kinds = [f"numbers of {name} differ: {mine} and {other}" for name, mine, other in
             (("detectors", ours.detectors, theirs.detectors), ("observables", ours.observables, theirs.observables))
             if mine != other]
    for name, here, there in zip(options.models, (ours.symptoms, theirs.symptoms), (theirs.symptoms, ours.symptoms)):
        alone = {symptom: chance for symptom, chance in here.items() if symptom not in there}
        kinds += tell(f"symptoms in {label(name)} alone", alone,
                      lambda symptom: f"{name_targets(symptom)}: {shorten(here[symptom])}")
    greatest, apart = Decimal(0), {}
    for symptom, mine in ours.symptoms.items():
        other = theirs.symptoms.get(symptom, mine)
        if mine != other:
            relative = abs(mine - other) / max(mine, other)
            greatest = max(greatest, relative)
            if abs(mine - other) > options.tolerance * max(mine, other):
                apart[symptom] = relative
    kinds += tell("probabilities that differ", apart, lambda symptom: "{}: {} and {}, apart by {:.2g}".format(
        name_targets(symptom), shorten(ours.symptoms[symptom]), shorten(theirs.symptoms[symptom]), apart[symptom]))
    moved = find_moved(ours.coordinates, theirs.coordinates, options.tolerance)
    kinds += tell("coordinates that differ", moved, lambda detector: f"D{detector}: " + " and ".join(
        write_place(model.coordinates.get(detector, ())) for model in (ours, theirs)))
    return kinds, greatest


def find_moved(ours, theirs, tolerance):
    """How far each detector lies elsewhere: infinitely far where one model has more coordinates than the other."""
    moved = {}
    for detector in sorted(ours.keys() | theirs.keys()):
        mine, other = ours.get(detector, ()), theirs.get(detector, ())
        if len(mine) != len(other):
            moved[detector] = Decimal("Infinity")
        elif any(abs(a - b) > tolerance * max(1, abs(a), abs(b)) for a, b in zip(mine, other)):
            moved[detector] = max(abs(a - b) for a, b in zip(mine, other))
    return moved


def tell(kind, found, write):
    """How many differences of a kind there are, and the worst. `found` says how bad each is."""
    return [f"{kind}: {len(found)}"] + [f"    {write(what)}" for what in nlargest(WORST, found, found.get)] if found else []


def write_place(place):
    return f"({', '.join(map(write_decimal, place))})" if place else "none"


# Writing

def write_merged(model):
    """The lines of a model that has each symptom once."""
    for symptom in sorted(model.symptoms, key=split):
        yield f"error({write_decimal(round_probability(model.symptoms[symptom]))}) {name_targets(symptom)}"
    for detector in sorted(model.coordinates):
        yield f"detector{write_place(model.coordinates[detector])} D{detector}"
    if model.detectors and model.detectors - 1 not in model.coordinates:
        yield f"detector D{model.detectors - 1}"
    if model.observables:
        yield f"logical_observable L{model.observables - 1}"


def write(lines):
    try:
        with open(1, "w", encoding="utf-8", errors="surrogateescape", closefd=False) as output:
            output.writelines(f"{line}\n" for line in lines)
    except OSError as failure:
        fail(f"standard output: {failure.strerror}")


def compare(options):
    ours, theirs = (read_file(name, options.coordinates) for name in options.models)
    differences, greatest = find_differences(ours, theirs, options)
    lines = [f"{label(name)}: detectors {model.detectors}, observables {model.observables}, error lines {model.error_lines}, "
             f"symptoms {len(model.symptoms)}" for name, model in zip(options.models, (ours, theirs))]
    lines.append(f"greatest relative difference of two probabilities: {greatest:.2g}")
    write([*lines, *differences, f"the models {'differ' if differences else 'agree'}"])
    return 1 if differences else 0


def fail(reason):
    streams.tell(f"compare_models.py: {reason}")
    sys.exit(2)


def read_options():
    parser = argparse.ArgumentParser(
        description="Say whether two detector error models agree, or write one with equal symptoms merged. A file '-' is "
                    "standard input. The exit status is 0 where they agree, 1 where they differ, 2 where one can't be read.",
        usage="compare_models.py [--tolerance T] [--coordinates] OURS THEIRS\n"
              "       compare_models.py --merge FILE [--coordinates]")
    parser.add_argument("models", nargs="*", metavar="OURS THEIRS", help="the two models")
    parser.add_argument("--tolerance", metavar="T", help="the greatest relative difference of probabilities (default: 1e-9)")
    parser.add_argument("--coordinates", action="store_true", help="compare, or write, coordinates of detectors too")
    parser.add_argument("--merge", metavar="FILE", help="write the model of this file with equal symptoms merged")
    options = parser.parse_args()
    if options.merge is not None and (options.models or options.tolerance is not None):
        parser.error("--merge takes one file, and no tolerance")
    if options.merge is None and (len(options.models) != 2 or options.models == ["-", "-"]):
        parser.error("two models are compared, of which one may be standard input")
    try:
        options.tolerance = read_number("1e-9" if options.tolerance is None else options.tolerance)
    except ModelError as refused:
        parser.error(f"--tolerance: {refused}")
    if options.tolerance < 0:
        parser.error("--tolerance takes a number from 0 on")
    return options


def main():
    for name in ("SIGINT", "SIGPIPE"):  # Ctrl-C and a closed pipe end it without a word, as they end other filters
        if hasattr(signal, name):
            signal.signal(getattr(signal, name), signal.SIG_DFL)
    gc.disable()  # nothing here makes cycles, and looking for them takes half the time
    setcontext(CONTEXT)
    options = read_options()
    try:
        if options.merge is None:
            return compare(options)
        return write(write_merged(read_file(options.merge, options.coordinates)))
    except MemoryError:
        return fail("memory ran out")


if __name__ == "__main__":
    sys.exit(main())
