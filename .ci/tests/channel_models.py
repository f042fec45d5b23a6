"""What the noise channels of a circuit in Stim's format flip, merged by symptom, with the channels as they are: exclusive.

X and Z of each qubit of a channel are followed forward through the circuit, all at once, a bit each. The cases of a channel, such
as the fifteen of DEPOLARIZE2, are products of these. So the symptom of a case, which is the detectors and observables that it
flips, is the exclusive or of theirs, and the channel is a distribution over symptoms. Independent faults, one for each symptom,
have this distribution, and are solved for here from it, channel by channel. Then the faults of all channels that have the same
symptom are merged into one: that an odd number of them happens.

Nothing of this is shared with tools/from_stim.py, which solves for faults by their letters, before anything is followed.
"""
from functools import lru_cache
from math import expm1, log1p

from exact_states import read_instructions
from frame_models import Frames, step

QUIET = ("TICK", "QUBIT_COORDS", "SHIFT_COORDS")
# The channels of exclusive cases, and how many qubits they act on. Of all other errors each is a fault of its own.
CHANNELS = {"DEPOLARIZE1": 1, "DEPOLARIZE2": 2, "PAULI_CHANNEL_1": 1, "PAULI_CHANNEL_2": 2}
# Their cases as Stim orders them, by the bits that are multiplied: X and Z of the first qubit are 1 and 2, of the second 4 and 8.
LETTERS = {"I": 0, "X": 1, "Y": 3, "Z": 2}
CASES = {1: [LETTERS[a] for a in "XYZ"], 2: [LETTERS[a] + 4 * LETTERS[b] for a in "IXYZ" for b in "IXYZ"][1:]}


def is_odd(bits):
    return bin(bits).count("1") % 2 == 1


def places_of_ones(bits):
    """The places of the bits that are 1, in its digits as text, since shifts of long numbers are slow."""
    digits = bin(bits)[:1:-1]
    place = digits.find("1")
    while place >= 0:
        yield place
        place = digits.find("1", place + 1)


@lru_cache(None)
def read_chances(name, arguments):
    """The probability of each product of a channel's bits, by its number."""
    cases = CASES[CHANNELS[name]]
    chances = [float(text) for text in arguments]
    if name.startswith("DEPOLARIZE"):
        chances = [chances[0] / len(cases)] * len(cases)
    of_product = dict(zip(cases, chances))
    return tuple(of_product.get(product, 0.0) for product in range(4 ** CHANNELS[name]))


def follow_channels(text):
    """The channels, each as its first bit and its probabilities; and for each detector and observable the bits that flip it."""
    frames, channels, detectors, observables = Frames(), [], [], {}
    for name, arguments, targets in read_instructions(text):
        first = len(frames.chances)
        if name in ("DETECTOR", "OBSERVABLE_INCLUDE"):
            flips = 0
            for target in targets:
                flips ^= frames.records[int(target[4:-1])]
            if name == "DETECTOR":
                detectors.append(flips)
            else:
                observables[int(arguments[0])] = observables.get(int(arguments[0]), 0) ^ flips
        elif name in CHANNELS:
            for qubit in targets:
                frames.add_fault(None, [("X", int(qubit))])
                frames.add_fault(None, [("Z", int(qubit))])
            chances, after = read_chances(name, tuple(arguments)), len(frames.chances)
            channels += [(bit, chances) for bit in range(first, after, 2 * CHANNELS[name])]
        elif name not in QUIET:
            step(frames, name, arguments, targets)
            channels += [(first + k, (0.0, float(chance))) for k, chance in enumerate(frames.chances[first:])]
    return channels, detectors, [observables.get(k, 0) for k in range(max(observables, default=-1) + 1)]


@lru_cache(None)
def split_channel(chances, unseen):
    """Independent faults that make the distribution over symptoms: (product, probability), a product for each symptom.

    `unseen` are the products whose symptom is empty. Take a set of bits of which each unseen product has an even number: then all
    products of a symptom have an even number of them, or all an odd one. The mean of 1 for even and -1 for odd is the product of
    1 - 2q over the faults that have an odd number. So the logarithms of 1 - 2q are the Walsh-Hadamard transform of those of the
    means, times -2 through the number of such sets.
    """
    products = range(len(chances))
    subsets = [subset for subset in products if not any(is_odd(subset & product) for product in unseen)]
    odd = [sum(chance for product, chance in enumerate(chances) if is_odd(subset & product)) for subset in subsets]
    logarithms = [log1p(-2 * chance) for chance in odd]
    faults, known = [], set(unseen)
    for product in products:
        if product not in known:
            known.update(product ^ other for other in unseen)
            total = sum(-value if is_odd(subset & product) else value for subset, value in zip(subsets, logarithms))
            faults.append((product, -expm1(-2 * total / len(subsets)) / 2))
    return faults


def merge(faults, symptom, chance):
    """Adds a fault to those of its symptom."""
    other = faults.get(symptom, 0.0)
    faults[symptom] = other + chance - 2 * other * chance


def find_symptoms(targets):
    """What each bit flips, of these targets: a number that has a bit for each target."""
    symptoms = {}
    for k, flips in enumerate(targets):
        for place in places_of_ones(flips):
            symptoms[place] = symptoms.get(place, 0) | 1 << k
    return symptoms


def merged_faults(text):
    """The probability of each symptom of a circuit that isn't empty; and how many detectors there are."""
    channels, detectors, observables = follow_channels(text)
    symptoms, faults = find_symptoms(detectors + observables), {}
    for first, chances in channels:
        of_products = [0]
        while len(of_products) < len(chances):
            of_bit = symptoms.get(first, 0)
            of_products += [symptom ^ of_bit for symptom in of_products]
            first += 1
        unseen = tuple(product for product, symptom in enumerate(of_products) if not symptom)
        for product, chance in split_channel(chances, unseen):
            merge(faults, of_products[product], chance)
    return faults, len(detectors)


def merged_model(model, detectors):
    """The same of the lines of an error model without blocks, of which we know how many detectors it has."""
    by_targets, faults = {}, {}
    for line in model.split("\n"):
        if line.startswith("error("):
            chance, _, targets = line[len("error("):].partition(") ")
            merge(by_targets, targets, float(chance))
    for targets, chance in by_targets.items():
        places = [int(target[1:]) + (detectors if target[0] == "L" else 0) for target in targets.split()]
        merge(faults, sum(1 << place for place in places), chance)
    return faults
