#!/usr/bin/env python3
"""Decodes shots of a small code by looking up the likeliest observables, and prints how often that is wrong.

    examples/decode.py --shots 1000000 --seed 5 examples/repetition_code.stim

It runs `analyze` for the error model and `detect` for the shots. It needs numpy (Debian: python3-numpy, for /usr/bin/python3).
The table has an entry for each set of detection events, so this is for codes with at most 20 detectors and observables; for
larger ones there is tools/match.py. Exit statuses: 0 done, 1 refused or missing, as standard error says, 2 wrong options, 130
interrupted.
"""
import argparse
import subprocess
import sys
from pathlib import Path

TOP = Path(__file__).resolve().parent.parent
sys.path.insert(0, str(TOP / "tools"))
try:
    import error_model
    import numpy as np
    import script_streams as streams
except ImportError:
    sys.exit("decode.py needs numpy: on Debian install python3-numpy, and run /usr/bin/python3 examples/decode.py")

MOST_BITS = 20


def run(program, words, circuit):
    """What the program writes of a circuit's text. A refusal or a random detector stands on its standard output."""
    done = subprocess.run([program, *words], input=circuit, capture_output=True)
    if done.returncode != 0:
        said = (done.stdout[:200] + done.stderr).decode("latin-1").strip()
        sys.exit(f"decode.py: {words[0]} ended with status {done.returncode}: {said}")
    return done.stdout


def as_arrays(model):
    """The detectors and the observables that each error flips, a column an error, and the probabilities."""
    checks, flips = (np.zeros((rows, len(model.errors)), np.uint8) for rows in (model.detectors, model.observables))
    for column, (_, detectors, observables) in enumerate(model.errors):
        checks[list(detectors), column] = 1
        flips[list(observables), column] = 1
    return checks, flips, np.array([chance for chance, _, _ in model.errors])


def read_model(text):
    """The same of a model's text."""
    return as_arrays(error_model.read_model(text))


def read_shots(data, shots, width=None):
    """A row a shot, which has a column a detector and then one an observable: so many, if that is known."""
    if width is not None and len(data) != shots * (width + 1):
        raise ValueError(f"detect didn't write {shots} shots of {width} characters")
    return np.frombuffer(data, np.uint8).reshape(shots, -1)[:, :-1] - 48


def as_numbers(rows):
    """Each row of bits as a whole number, the first bit being the lowest."""
    return rows.astype(np.int64) @ (1 << np.arange(rows.shape[1], dtype=np.int64))


def find_distribution(checks, flips, chances):
    """The probability of each set of detection events (a column) with each set of flipped observables (a row)."""
    bits = len(checks) + len(flips)
    distribution = np.zeros(1 << bits)
    distribution[0] = 1
    places = np.arange(1 << bits)
    for mask, chance in zip(as_numbers(np.vstack([checks, flips]).T), chances):
        distribution = (1 - chance) * distribution + chance * distribution[places ^ mask]
    return distribution.reshape(1 << len(flips), 1 << len(checks))


def decode(options):
    circuit = options.circuit.read_bytes()  # once, since it may be a pipe
    model = error_model.read_model(run(options.program, ["analyze"], circuit).decode("latin-1"))
    print(f"detectors {model.detectors}, observables {model.observables}, error lines {len(model.errors)}")
    if model.detectors + model.observables > MOST_BITS:
        sys.exit(f"decode.py: more than {MOST_BITS} detectors and observables are too many for a table; use tools/match.py")
    distribution = find_distribution(*as_arrays(model))

    words = ["detect", "--shots", str(options.shots), "--seed", str(options.seed)]
    shots = read_shots(run(options.program, words, circuit), options.shots, model.detectors + model.observables)
    events, actual = as_numbers(shots[:, :model.detectors]), as_numbers(shots[:, model.detectors:])
    wrong = int(np.count_nonzero(distribution.argmax(axis=0)[events] != actual))
    print(f"shots {options.shots}, decoded wrongly {wrong}: logical error rate {wrong / options.shots:.6f}")
    print(f"by the error model {1 - distribution.max(axis=0).sum():.6f}")


def main():
    parser = argparse.ArgumentParser(description="Decode shots of a small code, and print its logical error rate.")
    parser.add_argument("circuit", type=Path)
    parser.add_argument("--shots", type=int, default=100000, help="at most 1000000 (default: 100000)")
    parser.add_argument("--seed", type=int, default=0, help="of the random numbers (default: 0)")
    parser.add_argument("--program", default=TOP / "stabsim", help="in place of ./stabsim")
    try:
        streams.need_output()
        try:
            options = parser.parse_args()
            if options.shots < 1 or options.seed < 0:
                parser.error("--shots takes a whole number from 1 on, --seed one from 0 on")
            decode(options)
        finally:
            sys.stdout.flush()  # here, where it may fail
    except (OSError, ValueError, error_model.ModelError) as reason:
        sys.stdout = None  # it may be what failed, and is not written again
        sys.exit(f"decode.py: {reason}")
    except KeyboardInterrupt:
        sys.exit(130)


if __name__ == "__main__":
    main()
