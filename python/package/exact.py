"""What a Total says where 64 bits do not hold it."""
from decimal import MAX_EMAX, MAX_PREC, MIN_EMIN, Context, Decimal
from fractions import Fraction
from math import lcm

EXACT = Context(prec=MAX_PREC, Emax=MAX_EMAX, Emin=MIN_EMIN)


def total(parts, wide):
    """The sum of a Fraction, or None, and of fractions that are pairs of a numerator and a denominator."""
    common = lcm(*[denom for _, denom in parts])
    return Fraction(sum(numer * (common // denom) for numer, denom in parts), common) + (wide or 0)


def decimal(value, places):
    """The value with so many places, which may be more digits than str() takes. A half goes to the even neighbour, and 0 has no sign."""
    return format(Decimal(round(value * 10**places)).scaleb(-places, EXACT), "f")
