"""The calls on natural numbers of any length, by their digits of 64 bits, and on fractions of them."""
from fractions import Fraction
from math import gcd

from model.common import order, truth
from model.fields import ROUNDED, bits_of_float, decimal_of, quoted

BASE = 2**64


def digit(word):
    kind, _, number = word.partition("-" if word.startswith("max") else "^")
    return BASE - 1 - int(number or 0) if kind == "max" else 2 ** int(number) if number else int(word)


def digits(word):
    """The digits of `[5,max-1,0*16,2^63]`, the lowest one first."""
    found = []
    for it in word[1:-1].split(",") if word != "[]" else []:
        one, _, times = it.partition("*")
        found += [digit(one)] * int(times or 1)
    return found


def number_of(word):
    return sum(it * BASE**i for i, it in enumerate(digits(word)))


def shown(number, length):
    """So many digits of a number. Those near the highest one are `max` and `max-9`."""
    words = []
    for i in range(length):
        it = number // BASE**i % BASE
        missing = BASE - 1 - it
        words.append("max" if missing == 0 else f"max-{missing}" if missing < 10_000 else str(it))
    return f"[{','.join(words)}]"


def changed(compute):
    """A call that changes its first number. `compute` gives the number that it becomes, beyond its digits or below 0 as it may be."""

    def answer(words):
        first, *rest = words.split()
        length = len(digits(first))
        number = compute(number_of(first), *(number_of(it) if it[0] == "[" else int(it) for it in rest))
        return f"{abs(number // BASE**length)} {shown(number % BASE**length, length)}"

    return answer


def divide(words):
    first, by = words.split()
    quotient, rest = divmod(number_of(first), int(by))
    return f"{rest} {shown(quotient, len(digits(first)))}"


def shift_right(words):
    first, count = words.split()
    number = number_of(first)
    return f"{number % 2 ** int(count)} {shown(number >> int(count), len(digits(first)))}"


def multiply(words):
    first, second = words.split()
    return shown(number_of(first) * number_of(second), len(digits(first)) + len(digits(second)))


def quotient_digit(words):
    first, second = words.split()
    quotient, rest = divmod(number_of(first), number_of(second))
    return f"{quotient} {shown(rest, len(digits(first)))}" if quotient < BASE else f"none {first}"


def divide_long(words):
    first, second = words.split()
    quotient, rest = divmod(number_of(first), number_of(second))
    return " ".join(shown(it, len(digits(first))) for it in (quotient, rest))


def divisor(words):
    first, second = words.split()
    return f"{shown(gcd(number_of(first), number_of(second)), len(digits(first)))} {shown(0, len(digits(second)))}"


def lowest_terms(words):
    x = Fraction(*map(number_of, words.split()))
    return f"{x.numerator}/{x.denominator}" if max(x.numerator, x.denominator) < BASE else "none"


def read_decimal(words):
    length, text = words.split(" ")
    text = quoted(text)
    return shown(int(text or 0), int(length)) if all(it in "0123456789" for it in text) else "none"


def put_last_digits(words):
    first, count = words.split()
    rest, last = divmod(number_of(first), 10 ** int(count))
    text = str(last).rjust(int(count), "0") if int(count) else ""
    return f'"{text}" {shown(rest, len(digits(first)))}'


def signed(sign, value):
    return -value if sign == "-" else value


def round_quotient(words):
    """The magnitude of the rounded number, by one rule or by all."""
    sign, quotient, part, *rule = words.split()
    value = signed(sign, int(quotient) + Fraction(part))
    return " ".join(str(abs(ROUNDED[it](value))) for it in rule or ROUNDED)


def round_fraction(words):
    sign, numer, denom, rule = words.split()
    value = signed(sign, Fraction(number_of(numer), number_of(denom)))
    return shown(abs(ROUNDED[rule](value)), len(digits(numer)) + 1)


def put_places(words):
    sign, number, places = words.split()
    value = signed(sign, Fraction(number_of(number), 10 ** int(places)))
    return f'"{decimal_of(value, int(places))}"'


def put_decimal(words):
    sign, numer, denom, places, rule = words.split()
    value = signed(sign, Fraction(number_of(numer), number_of(denom)))
    power = 10 ** int(places)
    return f'"{decimal_of(Fraction(ROUNDED[rule](value * power), power), int(places))}"'


def nearest_f64(words):
    """A 0 has no sign, and a fraction that is rounded to 0 has one."""
    sign, numer, denom = words.split()
    value = Fraction(number_of(numer), number_of(denom))
    return bits_of_float(value, negative=sign == "-" and value != 0)


def float_of(words):
    """Any fraction that begins with these digits: where more follow them, a part of the last one is added."""
    sign, number, more, up, down = words.split()
    value = int(number) + Fraction(more == "more", 3)
    exponent = max(min(int(down) - int(up), 5000), -5000)
    return bits_of_float(value * Fraction(2) ** exponent, negative=sign == "-")


NATURAL = {
    "add_digit": changed(lambda a, digit: a + digit),
    "add": changed(lambda a, b: a + b),
    "add_times": changed(lambda a, b, digit: a + b * digit),
    "subtract_digit": changed(lambda a, digit: a - digit),
    "subtract": changed(lambda a, b: a - b),
    "subtract_times": changed(lambda a, b, digit: a - b * digit),
    "times_plus": changed(lambda a, digit, plus: a * digit + plus),
    "shift_left": changed(lambda a, count: a << count),
    "shift_right": shift_right,
    "divide": divide,
    "multiply": multiply,
    "quotient_digit": quotient_digit,
    "divide_long": divide_long,
    "gcd": divisor,
    "gcd_wide": lambda words: str(gcd(*map(int, words.split()))),
    "lowest_terms": lowest_terms,
    "is_zero": lambda word: truth(number_of(word) == 0),
    "compare": lambda words: order(*map(number_of, words.split())),
    "used": lambda word: str(-(-number_of(word).bit_length() // 64)),
    "bits": lambda word: str(number_of(word).bit_length()),
    "read_decimal": read_decimal,
    "put_decimal": lambda word: f'"{number_of(word)}"',
    "put_last_digits": put_last_digits,
}

LONG = {
    "round_quotient": round_quotient,
    "round_fraction": round_fraction,
    "put_places": put_places,
    "put_decimal": put_decimal,
    "nearest_f64": nearest_f64,
}

CALLS = {f"ratio_natural::{name}": call for name, call in NATURAL.items()}
CALLS |= {f"naturals::{name}": call for name, call in LONG.items()} | {"leading::float_of": float_of}
