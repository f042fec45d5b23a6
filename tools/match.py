#!/usr/bin/env python3
"""From circuits to logical error rates: decodes shots by minimum-weight perfect matching, at any distance.

    tools/match.py --shots 100000 --seed 1 examples/repetition_code.stim
    tools/match.py --rotated 3,5,7 --probabilities 0.004,0.006,0.008 --shots 10000 --plot threshold.png

Of each circuit `analyze` writes the error model and `detect` draws the shots. Prints a line for each, with the rate at which the
decoded observables are wrong, and its 95 % interval (Wilson's). With --rotated the circuits are rotated surface codes that
tools/rotated_code.py writes. Matching takes errors that flip at most two detectors. So detectors are left out where errors flip
more: those that --keep doesn't name, or else those of the kinds that tell nothing of the observables (docs/DECODING.md).

It needs numpy, and PyMatching or networkx: on Debian python3-numpy and python3-networkx, for /usr/bin/python3; for --plot
python3-matplotlib too. This program is tested and NOT proved.

Exit statuses: 0 done; 1 a circuit was refused or can't be matched, a library or the program is missing, or a file can't be
written, as standard error says; 2 the options are wrong; 130 interrupted. Circuits behind one that is refused are still decoded.
"""
import argparse
import re
import subprocess
import sys
import tempfile
from math import sqrt
from pathlib import Path

try:
    import rotated_code
    import script_streams as streams
    from detector_choice import CannotMatch, check_choice, choose_by_place, choose_detectors
    from error_model import ModelError, read_model
except ImportError as missing:
    sys.exit(f"match.py needs the other scripts of its folder: {missing}")

try:
    import numpy as np
    from matching_graph import ByNetworkx, ByPyMatching, CannotExplain, Decoder, is_there
except ImportError:
    np = None

TOOLS = Path(__file__).resolve().parent
SHOTS_OF_A_RUN = 1000000  # that `detect` draws at most
PIECE = 10000  # shots that are decoded at once, or fewer where they have more than so many bytes
PIECE_BYTES = 1 << 26
DEVIATIONS = 1.959963984540054  # of the normal distribution, between which 95 % lie
HEADS = ("detectors", "error lines", "seed", "shots", "wrong", "rate", "from", "to")
WIDTHS = (11, 11, 6, 9, 8, 9, 9, 9)


class Refused(Exception):
    """Why a circuit has no rate."""


class Case:
    """A circuit to decode: its name, a function that gives its text, and of a generated one its distance and probability."""

    def __init__(self, name, read, distance=None, probability=None):
        self.name, self.read, self.distance, self.probability = name, read, distance, probability


# The programs that are run

def file_of(content):
    file = tempfile.TemporaryFile()
    file.write(content)
    file.seek(0)
    return file


def refuse_unless_done(words, status, output):
    if status != 0:
        said = output[:200].decode("latin-1").partition("\n")[0]
        raise Refused(f"{words[1]} ended with status {status}: {said}")


def analyze(program, circuit):
    words = [program, "analyze"]
    with file_of(circuit) as source:
        done = subprocess.run(words, stdin=source, stdout=subprocess.PIPE)
    refuse_unless_done(words, done.returncode, done.stdout)
    return read_model(done.stdout.decode("latin-1"))


def draw(program, circuit, seed, shots, width):
    """Shots of one run of `detect`, some at a time: a row for each, with a column for each detector and then each observable."""
    words = [program, "detect", "--shots", str(shots), "--seed", str(seed)]
    piece = max(1, min(PIECE, PIECE_BYTES // (width + 1)))
    with file_of(circuit) as source, subprocess.Popen(words, stdin=source, stdout=subprocess.PIPE) as process:
        try:
            for begin in range(0, shots, piece):
                size = min(piece, shots - begin) * (width + 1)
                data = process.stdout.read(size)
                rows = np.frombuffer(data[:len(data) // (width + 1) * (width + 1)], np.uint8).reshape(-1, width + 1)
                if len(data) < size or (rows[:, :-1] & 254 != 48).any() or (rows[:, -1] != 10).any():
                    data += process.stdout.read(200)
                    process.stdout.close()
                    refuse_unless_done(words, process.wait(), data)
                    raise Refused(f"detect didn't write {shots} shots of {width} characters 0 or 1")
                yield rows[:, :-1] - 48
            process.stdout.close()
            refuse_unless_done(words, process.wait(), b"")
        finally:
            process.kill()  # where an interrupt left it running


def convert(text):
    """A circuit of Stim in the form that stabsim reads, its qubits numbered without gaps: so distance 45 has few enough."""
    done = subprocess.run([sys.executable, str(TOOLS / "from_stim.py"), "--renumber"], input=text.encode(), capture_output=True)
    if done.returncode != 0:
        raise Refused(f"from_stim.py ended with status {done.returncode}: {done.stderr[:200].decode('latin-1').strip()}")
    return done.stdout


# Rates

def wilson(wrong, shots):
    """The rates for which this many wrong ones of so many shots lie at most so many standard deviations from the mean."""
    square = DEVIATIONS**2
    middle = (wrong + square / 2) / (shots + square)
    half = DEVIATIONS / (shots + square) * sqrt(wrong * (shots - wrong) / shots + square / 4)
    return middle - half if wrong else 0.0, middle + half if wrong < shots else 1.0


def count_wrong(decoder, pieces, detectors):
    wrong = 0
    for shots in pieces:
        try:
            found = decoder.decode(shots[:, :detectors])
        except CannotExplain:
            raise Refused("the errors of the model can't give the detection events of a shot") from None
        wrong += int(np.count_nonzero((found != shots[:, detectors:]).any(axis=1)))
    return wrong


class Table:
    """The lines that are printed, and what --plot draws."""

    def __init__(self, options, cases):
        self.options, self.cases, self.points = options, cases, []
        self.name_width = max(map(len, ["circuit", *(case.name for case in cases)]))
        self.runs = -(-options.shots // SHOTS_OF_A_RUN)

    def print_line(self, name, cells):
        print("  ".join([name.ljust(self.name_width), *(cell.rjust(width) for cell, width in zip(cells, WIDTHS))]), flush=True)

    def decode(self, number, case):
        """Decodes the circuit of this number, with seeds of its own. The cells of its line."""
        options, circuit = self.options, case.read()
        model = analyze(options.stabsim, circuit)
        if not model.observables:
            raise Refused("the circuit has no observable")
        kept = choose_by_place(model, options.keep) if options.keep else choose_detectors(model)
        decoder = Decoder(check_choice(model, kept), model.observables, options.matcher)
        seed, left, wrong = options.seed + number * self.runs, options.shots, 0
        for run in range(self.runs):
            shots = min(left, SHOTS_OF_A_RUN)
            pieces = draw(options.stabsim, circuit, seed + run, shots, model.detectors + model.observables)
            wrong += count_wrong(decoder, pieces, model.detectors)
            left -= shots
        rate, (low, high) = wrong / options.shots, wilson(wrong, options.shots)
        self.points.append((case.distance, case.probability, rate, low, high))
        return [f"{len(kept)}/{model.detectors}", str(len(model.errors)), str(seed), str(options.shots), str(wrong),
                f"{rate:.2e}", f"{low:.2e}", f"{high:.2e}"]

    def fill(self):
        """Prints all lines. Whether no circuit was refused."""
        print(f"matching by {self.options.matcher.name}")
        self.print_line("circuit", HEADS)
        done = True
        for number, case in enumerate(self.cases):
            try:
                cells = self.decode(number, case)
            except (Refused, CannotMatch, ModelError) as reason:
                done = tell(f"{case.name}: {reason}")
            except OSError as reason:
                done = tell(f"{case.name}: can't use {reason.filename or 'a file'}: {reason.strerror}")
            else:
                self.print_line(case.name, cells)
        return done


def plot(points, path):
    """A curve for each distance, on logarithmic axes."""
    import matplotlib
    matplotlib.use("Agg")
    from matplotlib import pyplot
    figure, axes = pyplot.subplots(figsize=(6, 4.2), dpi=100)
    for at in sorted({point[0] for point in points}):
        chances, rates, lows, highs = zip(*sorted((float(point[1]), *point[2:]) for point in points if point[0] == at))
        bars = [[rate - low for rate, low in zip(rates, lows)], [high - rate for rate, high in zip(rates, highs)]]
        axes.errorbar(chances, rates, yerr=bars, marker="o", markersize=4, capsize=2, linewidth=1, label=f"distance {at}")
    axes.set(xscale="log", yscale="log", xlabel="probability of each kind of noise", ylabel="logical error rate of a shot")
    chances = {float(point[1]): point[1] for point in points}
    axes.xaxis.set_minor_locator(pyplot.NullLocator())
    axes.set_xticks(list(chances))
    axes.set_xticklabels(list(chances.values()))
    axes.grid(True, which="both", linewidth=0.3)
    axes.legend()
    figure.tight_layout()
    figure.savefig(path)


# Options

def listed(kind):
    return lambda text: [kind(part.strip()) for part in text.split(",")]


def patterns(text):
    """Coordinates of detectors: numbers, or * for any, separated by commas; several are separated by blanks."""
    found = []
    for part in text.split():
        numbers = part.split(",")
        if not all(re.fullmatch(r"\*|-?\d{1,18}", number) for number in numbers):
            raise argparse.ArgumentTypeError(f"{part!r} is no list of whole numbers or *, as 2,0 or *,*,*,1")
        found.append([None if number == "*" else int(number) for number in numbers])
    if not found:
        raise argparse.ArgumentTypeError("no coordinates are given")
    return found


def whole(least, most):
    def read(text):
        if not re.fullmatch(r"\d{1,20}", text) or not least <= int(text) <= most:
            raise argparse.ArgumentTypeError(f"{text!r} is no whole number from {least} to {most}")
        return int(text)
    return read


def read_options():
    parser = argparse.ArgumentParser(description="Decode shots by minimum-weight matching, and print logical error rates.")
    parser.add_argument("circuits", nargs="*", metavar="CIRCUIT", help="files in the form that stabsim reads")
    parser.add_argument("--rotated", type=listed(rotated_code.distance), metavar="3,5,7",
                        help="rotated surface codes of these distances")
    parser.add_argument("--probabilities", type=listed(rotated_code.probability), metavar="0.004,0.006",
                        help="of each kind of their noise")
    parser.add_argument("--rounds", type=rotated_code.rounds, help="of each rotated code (default: as many as its distance)")
    parser.add_argument("--keep", type=patterns, metavar="PLACES", help="decode by the detectors whose coordinates begin so: as "
                        "'2,2 6,2', or '*,*,*,1' where the fourth is 1 (default: found from the errors)")
    parser.add_argument("--shots", type=whole(1, 10**12), default=10000, help="of each circuit (default: 10000)")
    parser.add_argument("--seed", type=whole(0, 2**64 - 1), default=0,
                        help="each circuit has one of its own for each million of shots, from this on (default: 0)")
    parser.add_argument("--plot", metavar="FILE.png", help="draw the rates of the rotated codes")
    parser.add_argument("--library", choices=["pymatching", "networkx"], help="default: pymatching where it is installed")
    parser.add_argument("--stabsim", default=str(TOOLS.parent / "stabsim"), metavar="PROGRAM", help="in place of ./stabsim")
    options = parser.parse_args()
    if bool(options.rotated) == bool(options.circuits):
        parser.error("give circuits, or --rotated")
    if bool(options.rotated) != bool(options.probabilities):
        parser.error("--rotated and --probabilities go together")
    if not options.rotated and (options.plot or options.rounds):
        parser.error("--plot and --rounds go with --rotated")
    if options.plot and not (options.plot.endswith(".png") and Path(options.plot).parent.is_dir()):
        parser.error("--plot takes the name of a .png file in a folder that is there")
    if options.seed + len(make_cases(options)) * -(-options.shots // SHOTS_OF_A_RUN) > 2**64:
        parser.error("the seeds go beyond 18446744073709551615")
    return options


def make_cases(options):
    cases = [Case(name, Path(name).read_bytes) for name in options.circuits]
    for size in options.rotated or []:
        for chance in options.probabilities:
            def read(size=size, chance=chance):
                return convert(rotated_code.write_circuit(size, options.rounds or size, chance))
            cases.append(Case(f"rotated distance {size}, {chance}", read, size, chance))
    return cases


def tell(reason):
    streams.tell(f"match.py: {reason}")
    return False


def find_matcher(library):
    """The class that decodes by this library, or by the first that is installed."""
    if np is not None:
        for matcher in (ByPyMatching, ByNetworkx):
            if library in (None, matcher.name) and is_there(matcher.name):
                return matcher
    return tell(f"needs numpy and {library or 'networkx, or PyMatching'}: on Debian install python3-numpy and python3-networkx, "
                "and run /usr/bin/python3 tools/match.py; PyMatching is pip's package pymatching")


def run():
    options = read_options()
    options.matcher = find_matcher(options.library)
    if not options.matcher:
        return 1
    if options.plot and not is_there("matplotlib"):
        tell("--plot needs matplotlib: on Debian install python3-matplotlib, and run /usr/bin/python3 tools/match.py")
        return 1
    table = Table(options, make_cases(options))
    done = table.fill()
    if options.plot and table.points:
        plot(table.points, options.plot)
    return 0 if done else 1


def main():
    try:
        streams.need_output()
        try:
            return run()
        finally:
            sys.stdout.flush()  # here, where it may fail
    except MemoryError:
        tell("memory ran out")
        return 1
    except OSError as reason:
        tell(f"{reason.filename or 'standard output'}: {reason.strerror}" if reason.strerror else reason)
        if not reason.filename and sys.stdout:
            streams.discard(sys.stdout)
        return 1
    except KeyboardInterrupt:
        return 130


if __name__ == "__main__":
    sys.exit(main())
