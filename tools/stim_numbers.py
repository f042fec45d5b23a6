"""Numbers of Stim's format: their exact values, and probabilities as stabsim reads them."""
import re
from decimal import ROUND_DOWN, Context, Decimal, setcontext
from functools import lru_cache

from stim_text import Refused, shown

setcontext(Context(prec=250, Emax=10**9, Emin=-(10**9)))
READING = Context(prec=250, rounding=ROUND_DOWN, Emax=10**9, Emin=-(10**9))

NUMBER = re.compile(r"[-+]?(\d+(\.\d*)?|\.\d+)([eE][-+]?\d{1,15})?")
DECIMAL = re.compile(r"(\d+(\.\d*)?|\.\d+)([eE][-+]?\d{1,3})?")
SIGNED_DECIMAL = re.compile(f"-?({DECIMAL.pattern})")


def read_number(text):
    """The value of a number, exact up to its 250th digit. One beyond 1e400 is taken for that, and one below 1e-400 for 0."""
    if not NUMBER.fullmatch(text):
        raise Refused(f"{shown(text)} is no number")
    value = Decimal(text)
    if abs(value.adjusted()) > 400 and value:
        return Decimal(0) if value.adjusted() < 0 else Decimal("1e400").copy_sign(value)
    return READING.plus(value)


def read_probability(text):
    value = read_number(text)
    if not 0 <= value <= 1:
        raise Refused(f"{shown(text)} is no probability")
    return value


def write_probability(value):
    """A probability, cut down to 18 significant digits and 38 decimal places."""
    places = min(38, 17 - value.adjusted()) if value else 0
    return format(abs(value.quantize(Decimal(1).scaleb(-places), ROUND_DOWN).normalize()), "f")


def write_quotient(value):
    """The same of a fraction."""
    return write_probability(Decimal(value.numerator) / value.denominator)


@lru_cache(1 << 16)
def convert_probability(text):
    """The text of a probability, which stays where stabsim reads it."""
    value = read_probability(text)
    shorter = write_probability(value)
    return text if DECIMAL.fullmatch(text) and Decimal(shorter) == value else shorter
