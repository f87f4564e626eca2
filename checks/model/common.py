"""Words that rows share: types, numbers, fractions and answers. Fractions are pairs of whole numbers, as they are written."""
from fractions import Fraction

CALLS = {}

# The least and the greatest number of each type.
RANGES = {f"i{bits}": (-(2 ** (bits - 1)), 2 ** (bits - 1) - 1) for bits in (8, 16, 32, 64, 128)}
RANGES |= {f"u{bits}": (0, 2**bits - 1) for bits in (8, 16, 32, 64, 128)}
RANGES |= {"isize": RANGES["i64"], "usize": RANGES["u64"]}


def typed(words):
    """The range of the type that the first word names, and the other words."""
    kind, *rest = words.split(" ")
    return RANGES[kind], rest


def fits(span, *numbers):
    return all(span[0] <= it <= span[1] for it in numbers)


def fields(word, span):
    """The two numbers of `-7/2`, or of `3` over 1. They must fit the type."""
    numer, _, denom = word.partition("/")
    pair = int(numer), int(denom or 1)
    if not fits(span, *pair):
        raise ValueError(f"{word} does not fit the type")
    return pair


def lowest(value, span):
    """A fraction as the answer of a call that returns lowest terms, or none if these do not fit the type."""
    value = Fraction(value)
    return f"{value.numerator}/{value.denominator}" if fits(span, value.numerator, value.denominator) else "none"


def order(left, right):
    return "less" if left < right else "greater" if left > right else "equal"


def truth(value):
    return "true" if value else "false"
