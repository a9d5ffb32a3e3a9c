"""Fractions as decimals."""
from fractions import Fraction


def rounded(value, places):
    """The decimal of a fraction with so many places, a half rounded away from 0."""
    unit = 10**places
    size = int(abs(Fraction(value)) * unit + Fraction(1, 2))
    digits = "%0*d" % (places + 1, size)
    sign = "-" if value < 0 and size else ""
    return sign + (digits[:-places] + "." + digits[-places:] if places else digits)


def exact(value):
    """A fraction for a sentence that claims: `171/136 (1.257)`, a whole number as `1`."""
    value = Fraction(value)
    return str(value) if value.denominator == 1 else "%s (%s)" % (value, rounded(value, 3))


# What stands for the delay of a lane that is saturated.
OVER = "over"


def delay_text(delay, places):
    """A delay as a decimal, or OVER where there is none."""
    return OVER if delay is None else rounded(delay, places)


def per_cent(value):
    """The hundredfold of a fraction, with one decimal."""
    return rounded(value * 100, 1)
