"""Pcg64 of Rust's rand_pcg, and the shots that are drawn from it.

Written from the public description: PCG XSL RR 128/64 by Melissa O'Neill, and the default `seed_from_u64` of rand_core,
which fills the 32 bytes of a seed by PCG XSH RR 64/32.
"""
from fractions import Fraction

WORD = 2**64 - 1
STATE = 2**128 - 1

MULTIPLIER = 0x2360ED051FC65DA44385DF649FCCF645

FILL_MULTIPLIER = 6364136223846793005
FILL_INCREMENT = 11634580027462260723


def rotated_right(value, places, width):
    places %= width
    return (value >> places | value << (width - places)) & (2**width - 1)


def seed_bytes(seed):
    """The 32 bytes that `seed_from_u64` makes of a seed."""
    filled = b""
    state = seed
    for _ in range(8):
        state = (state * FILL_MULTIPLIER + FILL_INCREMENT) & WORD
        shifted = ((state >> 18 ^ state) >> 27) & 0xFFFFFFFF
        filled += rotated_right(shifted, state >> 59, 32).to_bytes(4, "little")
    return filled


class Pcg64:
    def __init__(self, state, increment):
        self.increment = increment | 1
        self.state = (state + self.increment) & STATE
        self._step()

    @classmethod
    def of_stream(cls, state, stream):
        """The generator that `Lcg128Xsl64::new` makes."""
        return cls(state, stream << 1 | 1)

    @classmethod
    def of_seed(cls, seed):
        """The generator that `seed_from_u64` makes."""
        filled = seed_bytes(seed)
        return cls(int.from_bytes(filled[:16], "little"), int.from_bytes(filled[16:], "little"))

    def _step(self):
        self.state = (self.state * MULTIPLIER + self.increment) & STATE

    def next_word(self):
        self._step()
        return rotated_right((self.state >> 64 ^ self.state) & WORD, self.state >> 122, 64)


def bound_of(probability):
    """A fault of this probability, a text such as 0.1, happens where its word is below this bound."""
    return int(Fraction(probability) * 2**64)


def draw_shots(seed, shots, probabilities, collapses):
    """For each shot which faults happen, by their probabilities in order, and the coins of the collapses."""
    generator = Pcg64.of_seed(seed)
    bounds = [bound_of(probability) for probability in probabilities]
    for _ in range(shots):
        faults = [generator.next_word() < bound for bound in bounds]
        coins = [generator.next_word() & 1 == 1 for _ in range(collapses)]
        yield faults, coins
