"""Drawn circuits. What is written of one in an odd form, with blocks, is what is written of it in its plain form without them.
Its analysis is what runs say, and what faults flip that are followed forward one by one."""
import random

from drawn_texts import KINDS, draw_both, draw_text
from exact_states import read_instructions
from frame_models import follow_faults, write_model
from program import CIRCUIT_ORDERS, ProgramTest, bits, listed, run_program


def differing(first, second):
    """A character 1 where two lists of characters differ."""
    return bits(a != b for a, b in zip(first, second))


def collapses_of(text):
    """For each collapse of a text without blocks whether it makes a record."""
    return [name[0] == "M" for name, _, targets in read_instructions(text) if name[0] == "M" or name in ("RX", "RY", "RZ")
            for _ in targets]


class DrawnCircuits(ProgramTest):
    def ask(self, words, text, status=0):
        """The lines that are written."""
        written, ended_with = run_program(words, text)
        self.assertEqual(ended_with, status, words)
        return written.decode().splitlines()

    def run_drawn(self, text, source, collapses, faults=()):
        """The detections of a run with these faults, and with coins that are drawn."""
        coins = bits(source.getrandbits(1) for _ in range(collapses))
        return self.ask(["run", "--coins", coins, "--faults", listed(faults)], text)[1]

    def test_odd_forms_and_blocks(self):
        for seed in range(1, 31):
            for kind in KINDS:
                text, plain = draw_both(seed, kind)
                for words in CIRCUIT_ORDERS:
                    with self.subTest(words=words, text=text):
                        self.assertEqual(run_program(words, text), run_program(words, plain))

    def check_sums(self, text, plain, seed):
        """Faults together flip the exclusive sum of what each of them flips, whatever the coins, and so do their lines.

        It answers how many faults flip something."""
        faults, declarations = follow_faults(plain)
        names = [line.split(" ")[-1] for line in declarations]
        collapses, source = len(collapses_of(plain)), random.Random(seed)
        numbers = [number for number, (_, flipped) in enumerate(faults) if flipped]
        for _ in range(2):
            happened = sorted(source.sample(range(len(faults)), min(len(faults), source.randint(2, 4))))
            expected = bits(sum(name in faults[number][1] for number in happened) % 2 for name in names)
            self.assertEqual(self.run_drawn(text, source, collapses, happened), expected)
            lines = listed(numbers.index(number) for number in happened if number in numbers)
            self.assertEqual(self.ask(["predict", "--lines", lines], write_model(plain)), [expected])
        return len(numbers)

    def test_models_are_what_faults_flip(self):
        """Of texts without random targets."""
        flipping = 0
        for seed in range(1, 101):
            for kind in "calm", "fixed":
                text, plain = draw_both(seed, kind)
                with self.subTest(text=text):
                    self.check(["analyze"], text, write_model(plain))
                    flipping += self.check_sums(text, plain, seed)
        self.assertGreater(flipping, 1000)

    def test_models_are_what_runs_say(self):
        """An error line for each fault that flips something: what the run with it alone flips."""
        for seed in range(201, 211):
            text = draw_text(seed, "fixed")
            model = self.ask(["analyze"], text)
            names = [line.split(" ")[-1] for line in model if not line.startswith("error")]
            expected = []
            for number, line in enumerate(self.ask(["faults"], text)[:-1]):
                flips = self.ask(["run", "--faults", str(number)], text)[1]
                flipped = [name for name, digit in zip(names, flips) if digit == "1"]
                if flipped:
                    expected.append(f"error({line.split(' ')[1]}) {' '.join(flipped)}")
            with self.subTest(text=text):
                self.assertEqual([line for line in model if line.startswith("error")], expected)
                self.assertGreater(len(expected), 0)

    def check_random(self, text, plain, answer, source):
        """The coins tell the target apart, none before it differs under any, and records differ where the coins do."""
        named, *coins = answer
        declarations = [line.split(" ")[-1] for line in follow_faults(plain)[1]]
        target = declarations.index(named.removeprefix("random "))
        (records, first), (others, second) = (self.ask(["run", "--coins", digits], text) for digits in coins)
        self.assertEqual(differing(first, second)[:target + 1], "0" * target + "1")
        is_recorded = collapses_of(plain)
        flips = [digit for digit, recorded in zip(differing(*coins), is_recorded, strict=True) if recorded]
        self.assertEqual(differing(records, others), "".join(flips))
        for _ in range(5):
            self.assertEqual(self.run_drawn(text, source, len(is_recorded))[:target], "0" * target)

    def test_random_targets_differ_under_their_coins(self):
        randoms = 0
        for seed in range(1, 61):
            text, plain = draw_both(seed, "open")
            written, status = run_program(["analyze"], text)
            with self.subTest(text=text):
                if status == 3:
                    self.check_random(text, plain, written.decode().splitlines(), random.Random(seed))
                    randoms += 1
                else:
                    self.compare((written, status), write_model(plain))
        self.assertGreater(randoms, 20)
