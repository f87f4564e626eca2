"""The calls of `Both`, which `Ratio` and `Reduced` share."""
from fractions import Fraction

from model.common import RANGES, fields, fits, lowest, order, typed

DIGITS = "0123456789abcdefghijklmnopqrstuvwxyz"
PARSE_ERROR = "refused: failed to parse integer"
ZERO_DENOMINATOR = "refused: zero value denominator"

# How Python formats a number in each form, and the prefix of its base.
FORMS = {"Decimal": ("d", ""), "Binary": ("b", "0b"), "Octal": ("o", "0o"), "LowerHex": ("x", "0x"), "UpperHex": ("X", "0x")}


def checked_new(words):
    span, (word,) = typed(words)
    numer, denom = fields(word, span)
    return "none" if denom == 0 else lowest(Fraction(numer, denom), span)


def cmp(words):
    span, (left, right) = typed(words)
    return order(Fraction(*fields(left, span)), Fraction(*fields(right, span)))


def number_of(text, base, span):
    """The number of a text: digits behind one optional sign, which is a minus for signed types alone. Nothing if there is none."""
    digits = text[1:] if text[:1] in (("+", "-") if span[0] < 0 else ("+",)) else text
    values = [DIGITS.find(it) for it in digits.lower()]
    if not values or not all(0 <= it < base for it in values):
        return None
    size = sum(it * base**place for place, it in enumerate(reversed(values)))
    number = -size if text.startswith("-") else size
    return number if fits(span, number) else None


def read(text, base, span):
    """The lowest terms of a text, or the refusal that comes first."""
    numer, slash, denom = text.partition("/")
    numbers = number_of(numer, base, span), number_of(denom if slash else "1", base, span)
    if None in numbers:
        return PARSE_ERROR
    if numbers[1] == 0:
        return ZERO_DENOMINATOR
    answer = lowest(Fraction(*numbers), span)
    return PARSE_ERROR if answer == "none" else answer


def from_str(words):
    kind, text = words.split(" ", 1)
    return read(text[1:-1], 10, RANGES[kind])


def from_str_radix(words):
    kind, base, text = words.split(" ", 2)
    is_readable = 2 <= int(base) <= 36 and "/" in text
    return read(text[1:-1], int(base), RANGES[kind]) if is_readable else PARSE_ERROR


def text(words):
    """Both numbers, or the first alone if the other is 1. A base other than 10 has the two's complement of the type's width."""
    span, (word, form, alternate) = typed(words)
    letter, prefix = FORMS[form]
    modulus = span[1] - span[0] + 1
    numbers = [format(it if form == "Decimal" else it % modulus, letter) for it in fields(word, span)]
    shown = numbers[:1] if fields(word, span)[1] == 1 else numbers
    return '"' + "/".join((prefix if alternate == "true" else "") + it for it in shown) + '"'


CALLS = {
    "Both::checked_new": checked_new,
    "Both::cmp": cmp,
    "Both::from_str": from_str,
    "Both::from_str_radix": from_str_radix,
    "Both::text": text,
}
