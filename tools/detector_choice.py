"""Which detectors of a model matching can use: a set of which no error flips more than two.

In a surface code, checks of X and of Z are two kinds of detectors, and one kind tells of the observable. An error that flips
detectors of both kinds is, in most models, the product of one error of each. So two detectors are of one kind where an error
flips these two, and isn't such a product; and the kinds that are kept are those in which some error flips an observable.
"""
from collections import defaultdict

from error_model import Merger, fold


class CannotMatch(Exception):
    """Why a model can't be decoded by matching."""


def merge(errors):
    """The probability of each pair of (detectors, observables) to be flipped by an odd number of the errors that flip these."""
    merger = Merger()
    for probability, detectors, observables in errors:
        merger.add(fold(probability), (detectors, observables))
    symptoms = merger.merged()
    symptoms.pop(((), ()), None)  # errors that flip nothing
    return symptoms


def keep(errors, kept):
    """The errors as these detectors see them."""
    return [(chance, tuple(detector for detector in detectors if detector in kept), observables)
            for chance, detectors, observables in errors]


class Kinds:
    """Detectors in groups, which are joined: each has the least of its group as its name."""

    def __init__(self):
        self.above = {}

    def of(self, detector):
        path = []
        while self.above.setdefault(detector, detector) != detector:
            path.append(detector)
            detector = self.above[detector]
        self.above.update(dict.fromkeys(path, detector))
        return detector

    def join(self, first, second):
        first, second = sorted((self.of(first), self.of(second)))
        self.above[second] = first


def is_product(symptom, singles):
    """Whether two errors that flip one detector each flip the same together."""
    (first, second), observables = symptom
    return any(tuple(sorted(set(one) ^ set(observables))) in singles[second] for one in singles[first])


def find_pairs(symptoms):
    """The symptoms of two detectors that are no products of two errors."""
    singles = defaultdict(set)
    for detectors, observables in symptoms:
        if len(detectors) == 1:
            singles[detectors[0]].add(observables)
    return [symptom for symptom in symptoms if len(symptom[0]) == 2 and not is_product(symptom, singles)]


def find_kinds(symptoms):
    """The kind of each detector, and the kinds in which an error flips an observable."""
    pairs, kinds = find_pairs(symptoms), Kinds()
    for (first, second), _ in pairs:
        kinds.join(first, second)
    with_observable = {kinds.of(detectors[0]) for detectors, observables in pairs if observables}
    with_observable |= {kinds.of(detectors[0]) for detectors, observables in symptoms if len(detectors) == 1 and observables}
    return kinds, with_observable


def first_above_two(symptoms, kinds, kept):
    """The detectors of the first symptom that has more than two of the kept kinds, if there is one."""
    for detectors, _ in symptoms:
        if len(detectors) > 2:
            seen = [detector for detector in detectors if kinds.of(detector) in kept]
            if len(seen) > 2:
                return seen
    return None


def named(detectors):
    return " ".join(f"D{detector}" for detector in detectors)


def choose_detectors(model):
    """The detectors to keep, found from the errors alone."""
    symptoms = merge(model.errors)
    everything = set(range(model.detectors))
    if all(len(detectors) <= 2 for detectors, _ in symptoms):
        return everything
    kinds, kept = find_kinds(symptoms)
    above = first_above_two(symptoms, kinds, kept)
    if above:
        raise CannotMatch(f"an error flips {named(above)}, which seem to be of one kind, and matching takes two at most; "
                          "--keep says which detectors to keep")
    return {detector for detector in everything if kinds.of(detector) in kept}


def matches(pattern, place):
    """Whether the coordinates begin with those of the pattern, of which None is any."""
    return len(place) >= len(pattern) and all(number in (None, at) for number, at in zip(pattern, place))


def choose_by_place(model, patterns):
    """The detectors whose coordinates fit one of the patterns."""
    kept = {detector for detector, place in model.coordinates.items() if any(matches(pattern, place) for pattern in patterns)}
    if not kept:
        raise CannotMatch("--keep leaves no detector: none has such coordinates")
    return kept


def check_choice(model, kept):
    """The merged errors as the kept detectors see them, where matching can decode them."""
    symptoms = merge(keep(model.errors, kept))
    for detectors, _ in symptoms:
        if len(detectors) > 2:
            raise CannotMatch(f"an error flips {named(detectors)} of the detectors that are kept, and matching takes two at most")
    for probability, detectors, observables in model.errors:
        if probability > 0 and observables and detectors and not kept & set(detectors):
            raise CannotMatch(f"an error flips an observable and {named(detectors)}, and none of these detectors is kept")
    return symptoms
