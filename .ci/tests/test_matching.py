"""tools/detector_choice.py and tools/matching_graph.py: which detectors are kept, and that what is matched has the least weight.

What is least is found here by going through all sets of errors, one error after the other.
"""
import json
import random
import re
import tempfile
import unittest
from itertools import product
from math import inf, log, sqrt
from pathlib import Path

import stim_circuits
from frame_models import write_model
from programs import MATCH, TOP, convert, find_program, find_python, load, run
from test_decode import read_errors, repetition_model

choice, reader = (load(TOP / "tools" / f"{name}.py") for name in ("detector_choice", "error_model"))

# Decodes sets of events of models, whose errors are (probability, detectors, observables).
DECODE_EVENTS = f"""
import json, sys
sys.path.insert(0, {str(TOP / 'tools')!r})
import numpy, detector_choice, matching_graph
answers = []
for errors, detectors, events in json.load(sys.stdin):
    errors = [(chance, tuple(flipped), tuple(observables)) for chance, flipped, observables in errors]
    decoder = matching_graph.Decoder(detector_choice.merge(errors), 2, matching_graph.ByNetworkx)
    rows = numpy.array([[k in row for k in range(detectors)] for row in events], numpy.uint8)
    found = []
    for row in rows:
        try:
            found.append(decoder.decode(row[None])[0].tolist())
        except matching_graph.CannotExplain:
            found.append(None)
    answers.append(found)
print(json.dumps(answers))
"""


def decode_events(cases):
    """Of each case (errors, number of detectors, sets of events) the observables that are decoded for each set."""
    done = run([find_python("numpy", "networkx"), "-c", DECODE_EVENTS], json.dumps(cases).encode())
    if done.returncode != 0:
        raise AssertionError(done.stderr.decode())
    return json.loads(done.stdout)


def as_mask(numbers):
    return sum(1 << number for number in numbers)


def merged(errors):
    """The probability of each (events, observables), by bits, to be flipped by an odd number of the errors that flip these."""
    found = {}
    for chance, detectors, observables in errors:
        key = as_mask(detectors), as_mask(observables)
        before = found.get(key, 0)
        found[key] = before * (1 - chance) + chance * (1 - before)
    return found


def least_weights(errors):
    """Of each (events, observables) the least weight of a set of merged errors that gives it. Where several errors flip the same
    detectors and not the same observables, the likeliest counts: matching has one edge."""
    likeliest = {}
    for (events, observables), chance in merged(errors).items():
        if 0 < chance < 1 and chance > likeliest.get(events, (0, 0))[0]:
            likeliest[events] = chance, observables
    least = {(0, 0): 0.0}
    for events, (chance, observables) in likeliest.items():
        after = dict(least)
        for (some, others), weight in least.items():
            key = some ^ events, others ^ observables
            after[key] = min(after.get(key, inf), weight + log((1 - chance) / chance))
        least = after
    return least


def all_sets(count):
    return [[k for k in range(count) if bits >> k & 1] for bits in range(1 << count)]


class LeastWeight(unittest.TestCase):
    def assert_least(self, cases):
        """Each answer flips what some set of errors of the least weight does, and is none where no set gives the events."""
        compared = 0
        for (errors, _, sets), answers in zip(cases, decode_events(cases)):
            least = least_weights(errors)
            for events, answer in zip(sets, answers):
                weights = {key: least.get((as_mask(events), key), inf) for key in range(4)}
                with self.subTest(errors=errors, events=events):
                    if min(weights.values()) == inf:
                        self.assertIsNone(answer)
                    else:
                        self.assertIsNotNone(answer)
                        # Weights are rounded to a millionth before they are added.
                        self.assertLess(weights[as_mask(k for k in (0, 1) if answer[k])], min(weights.values()) + 1e-4)
                        compared += 1
        return compared

    def draw_case(self, draws, detectors, most_errors):
        errors = []
        for _ in range(draws.randrange(1, most_errors)):
            flipped = draws.sample(range(detectors), min(detectors, draws.choice([1, 2, 2, 2])))
            observables = [k for k in range(2) if draws.random() < 0.4]
            errors.append((draws.choice([0.001, 0.01, 0.02, 0.1, 0.3]), sorted(flipped), observables))
        seen = {detector for _, flipped, _ in errors for detector in flipped}
        return errors, detectors, [events for events in all_sets(detectors) if seen.issuperset(events)]

    def test_drawn_graphs(self):
        draws = random.Random(1)
        cases = [self.draw_case(draws, draws.randrange(1, 8), 16) for _ in range(60)]
        self.assertGreater(self.assert_least(cases), 500)

    def test_graphs_without_a_boundary(self):
        """Rings of detectors: an odd number of events has no explanation."""
        cases = []
        for size in (4, 5, 8):
            ring = [(0.01 * (k + 1), sorted((k, (k + 1) % size)), [0] * (k == 0)) for k in range(size)]
            cases.append((ring, size, all_sets(size)))
        self.assertEqual(self.assert_least(cases), 8 + 16 + 128)

    def test_many_events(self):
        """A strip of detectors, with all sets of events: their matching needs more than pairs of neighbours."""
        draws = random.Random(2)
        errors = [(draws.choice([0.01, 0.02, 0.03, 0.2]), [k, k + 1], [0] * (k % 5 == 0)) for k in range(8)]
        errors += [(draws.choice([0.01, 0.05]), [k, k + 2], [1] * (k % 3 == 0)) for k in range(7)]
        errors += [(0.004, [0], []), (0.003, [8], [0])]
        self.assertEqual(self.assert_least([(errors, 9, all_sets(9))]), 1 << 9)


def add_up(errors):
    """The probability of each (events, observables), by bits, from merged errors."""
    chances = {(0, 0): 1.0}
    for (events, observables), chance in merged(errors).items():
        after = {key: part * (1 - chance) for key, part in chances.items()}
        for (some, others), part in chances.items():
            key = some ^ events, others ^ observables
            after[key] = after.get(key, 0) + part * chance
        chances = after
    return chances


class Rates(unittest.TestCase):
    """How often matching is wrong: the probabilities of events and observables are added up over all sets of errors."""

    def wrong_rates(self, cases):
        """Of each case (errors, number of detectors) how often matching is wrong, and how often the likeliest observable is."""
        rates = []
        asked = [(errors, detectors, all_sets(detectors)) for errors, detectors in cases]
        for (errors, _, sets), answers in zip(asked, decode_events(asked)):
            chances = add_up(errors)
            wrong = sum(chances.get((as_mask(events), 1 - answer[0]), 0) for events, answer in zip(sets, answers) if answer)
            rates.append((wrong, sum(min(chances.get((as_mask(events), value), 0) for value in (0, 1)) for events in sets)))
        return rates

    def test_repetition_codes_are_decoded_nearly_as_well_as_can_be(self):
        converted = convert(stim_circuits.repetition_code(3, 3).replace("0.00", "0.01"))
        cases = [([(chance, sorted(flipped), [0] * value) for chance, flipped, value in errors], 8)
                 for errors in (repetition_model(), read_errors(write_model(converted)))]
        for wrong, least in self.wrong_rates(cases):
            self.assertGreater(least, 0.005)
            self.assertTrue(least * 0.999999 <= wrong < least * 1.03)

    def test_likely_errors_are_taken_off_first(self):
        """Worked by hand: D0 L0 is flipped with 0.8, D0 alone with 0.1, D1 L0 always, and D1 with 1 and again with 0.6.

        Of D0, an event means the one error or the other, and no event neither or both: the likelier is L0 with 0.8 * 0.9 of
        0.8 * 0.9 + 0.2 * 0.1, and no L0 with 0.2 * 0.9 of 0.2 * 0.9 + 0.8 * 0.1. D1 tells nothing.
        """
        errors = [(0.8, [0], [0]), (0.1, [0], []), (1.0, [1], [0]), (1.0, [1], []), (0.6, [1], [])]
        self.assertAlmostEqual(self.wrong_rates([(errors, 2)])[0][0], 0.2 * 0.1 + 0.8 * 0.1)


class OfShots(unittest.TestCase):
    def test_the_rate_of_a_rotated_code_is_the_computed_one(self):
        """Of two rounds, from the circuit to the rate. The least weights say what is decoded; where both values of the observable
        have the same, either may be."""
        layout = stim_circuits.rotated_layout(3)
        text = convert(stim_circuits.surface_code("rotated", layout, "Z", 3, 2).replace("0.00", "0.01"))
        model = reader.read_model(write_model(text))
        kept = [detector for detector in range(model.detectors) if layout.kinds[model.coordinates[detector][:2]] == "Z"]
        errors = [(chance, [kept.index(detector) for detector in detectors if detector in kept], observables)
                  for chance, detectors, observables in model.errors]
        least, low, high = least_weights(errors), 0, 0
        for (events, value), chance in add_up(errors).items():
            difference = least.get((events, value), inf) - least.get((events, 1 - value), inf)
            low += chance * (difference > 1e-4)
            high += chance * (difference > -1e-4)
        self.assertTrue(0.03 < low <= high < 1.2 * low)
        with tempfile.TemporaryDirectory() as folder:
            path = Path(folder) / "code.stim"
            path.write_text(text)
            done = run([find_python("numpy", "networkx"), MATCH, "--stabsim", find_program(), "--shots", "20000", path])
        shots, wrong = done.stdout.decode().splitlines()[2].split()[4:6]
        error = 5 * sqrt(high / 20000)
        self.assertTrue(low - error < int(wrong) / 20000 < high + error, (low, high, wrong))
        self.assertEqual(shots, "20000")


def kept_of(text):
    """The model of a circuit, and the detectors that are chosen."""
    model = reader.read_model(write_model(text))
    return model, choice.choose_detectors(model)


class Choice(unittest.TestCase):
    def assert_kind(self, text, layout, basis):
        model, kept = kept_of(text)
        expected = {detector for detector, place in model.coordinates.items() if layout.kinds[place[:2]] == basis}
        self.assertEqual(kept, expected)
        self.assertLess(len(kept), model.detectors)
        for detectors, _ in choice.check_choice(model, kept):
            self.assertLessEqual(len(detectors), 2)

    def test_surface_codes_keep_the_kind_of_the_observable(self):
        layouts = {"rotated": stim_circuits.rotated_layout, "unrotated": stim_circuits.unrotated_layout}
        for (name, layout), basis, distance in product(layouts.items(), "XZ", (2, 3)):
            with self.subTest(name=name, basis=basis, distance=distance):
                text = stim_circuits.surface_code(name, layout(distance), basis, distance, 3)
                self.assert_kind(convert(text), layout(distance), basis)

    def test_without_noise_of_the_gates_the_kind_is_kept_whole(self):
        """Then an error of a measurement at a boundary is the product of two others, and nothing else joins the rounds there."""
        for basis in "XZ":
            layout = stim_circuits.rotated_layout(3)
            text = stim_circuits.surface_code("rotated", layout, basis, 3, 3)
            text = re.sub(r"(?m)^ *(DEPOLARIZE2|DEPOLARIZE1\(0.001\)).*\n", "", text)
            with self.subTest(basis=basis):
                self.assert_kind(convert(text), layout, basis)

    def test_all_detectors_are_kept_where_no_error_flips_more_than_two(self):
        model, kept = kept_of((TOP / "examples" / "surface_code.stim").read_text())
        self.assertEqual((kept, model.detectors), (set(range(24)), 24))

    def test_models_by_hand(self):
        """The two kinds are D0 D2 and D1 D3, and D0 D1 is a product of both. D4 goes with D0 by a product, or by more."""
        pairs = "".join(f"error(0.1) {flipped}\n" for flipped in ("D0 L0", "D0 D2", "D1 D3", "D1", "D0 D1 L0", "D0 D1 D2 D3"))
        rows = [
            (pairs, {0, 2}),
            (pairs + "error(0.1) D4\nerror(0.1) D0 D4 L0\n", {0, 2}),
            (pairs + "error(0.1) D4\nerror(0.1) D0 D4\n", {0, 2, 4}),
            (pairs + "error(0.1) D4 L0\nerror(0.1) D0 D4\n", {0, 2, 4}),
            (pairs + "error(0.1) D2 L1\n", {0, 2}),
            (pairs + "error(0) D0 D1\nerror(0) D1 L0\n", {0, 2}),
        ]
        for text, expected in rows:
            with self.subTest(text=text):
                self.assertEqual(choice.choose_detectors(reader.read_model(text)), expected)

    def test_what_cant_be_matched_is_told(self):
        pairs = "".join(f"error(0.1) {flipped}\n" for flipped in ("D0 L0", "D0 D2", "D1 D3", "D1", "D0 D1 D2 D3"))
        for text, said in (
            (pairs + "error(0.1) D0 D1\n", "an error flips D0 D1 D2 D3, which seem to be of one kind"),
            (pairs + "error(0.1) D3 L1\n", "an error flips D0 D1 D2 D3, which seem to be of one kind"),
            (convert(stim_circuits.color_code(3, 4), scale=2), "which seem to be of one kind"),
        ):
            model = reader.read_model(text if text.startswith("error") else write_model(text))
            with self.assertRaises(choice.CannotMatch) as caught:
                choice.choose_detectors(model)
            self.assertIn(said, str(caught.exception))

    def test_choice_by_places(self):
        model = reader.read_model("".join(f"detector({k % 3}, {k // 3}, {-k}) D{k}\n" for k in range(9)) + "detector D9\n")
        for patterns, expected in (
            ([[1]], {1, 4, 7}), ([[None, 2]], {6, 7, 8}), ([[0, 0], [2, 1]], {0, 5}), ([[None, None, -4]], {4}),
            ([[None, None, None]], set(range(9))),
        ):
            self.assertEqual(choice.choose_by_place(model, patterns), expected)
        self.assertRaises(choice.CannotMatch, choice.choose_by_place, model, [[0, 0, 0, 0]])

    def test_a_choice_that_loses_an_observable_or_flips_three_is_told(self):
        model = reader.read_model("error(0.1) D0 D1 D2\nerror(0.1) D1\nerror(0.1) D3 L0\nerror(0.2) D3 L0\n")
        self.assertEqual(choice.check_choice(model, {0, 2, 3}).keys(), {((0, 2), ()), ((3,), (0,))})
        self.assertAlmostEqual(choice.check_choice(model, {0, 2, 3})[(3,), (0,)], 0.1 * 0.8 + 0.9 * 0.2)
        for kept, said in (({0, 1, 2, 3}, "flips D0 D1 D2 of"), ({0, 1}, "flips an observable and D3, and none")):
            with self.assertRaises(choice.CannotMatch) as caught:
                choice.check_choice(model, kept)
            self.assertIn(said, str(caught.exception))


if __name__ == "__main__":
    unittest.main()
