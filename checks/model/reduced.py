"""The calls of `Reduced`, and those that split an amount."""
import math
import re
import struct
from fractions import Fraction

from model.common import RANGES, fields, fits, lowest, typed

HALF = Fraction(1, 2)
WIDTH = 128

# How a rule rounds to a whole number, in the order of Rust's `Rounding`.
RULES = {
    "HalfAway": lambda x: math.floor(abs(x) + HALF) * (1 if x > 0 else -1),
    "HalfEven": round,
    "Down": math.trunc,
    "Up": lambda x: math.ceil(x) if x > 0 else math.floor(x),
    "Floor": math.floor,
    "Ceil": math.ceil,
}


def fraction(word, span):
    """The value of a fraction, whose lowest terms must fit the type."""
    value = Fraction(*fields(word, span))
    if not fits(span, value.numerator, value.denominator):
        raise ValueError(f"the lowest terms of {word} do not fit the type")
    return value


def number(value, span):
    return str(value) if fits(span, value) else "none"


def items(word):
    """The words of a list such as `[1,-2]`."""
    assert word[0] == "[" and word[-1] == "]"
    return word[1:-1].split(",") if word != "[]" else []


def numbers(word, span):
    found = [int(it) for it in items(word)]
    assert fits(span, *found)
    return found


def fractions(word, span):
    return [fraction(it, span) for it in items(word)]


def listed(texts):
    return f"[{','.join(map(str, texts))}]"


def fractional(value):
    return f"{value.numerator}/{value.denominator}"


def of_one(answer):
    """A call on one fraction."""

    def answer_to(words):
        span, (word,) = typed(words)
        return answer(fraction(word, span), span)

    return answer_to


def of_two(compute):
    """A call on two fractions that returns lowest terms, or nothing at a division by 0."""

    def answer(words):
        span, (left, right) = typed(words)
        try:
            value = compute(fraction(left, span), fraction(right, span))
        except ZeroDivisionError:
            return "none"
        return "none" if value is None else lowest(value, span)

    return answer


def remainder(x, y):
    return x - y * math.trunc(x / y)


def divisor(x, y):
    """The greatest fraction that goes a whole number of times into both."""
    return Fraction(math.gcd(x.numerator * y.denominator, y.numerator * x.denominator), x.denominator * y.denominator)


def multiple(x, y):
    return abs(x * y) / divisor(x, y) if x * y else Fraction(0)


# Rounding by a rule.


def by_rule(answer):
    """A call that takes a rule as its last word. Without one, the answers by all six."""

    def answer_to(words):
        span, rest = typed(words)
        rules = [rest.pop()] if rest[-1] in RULES else list(RULES)
        return " ".join(answer(rest, span, RULES[it]) for it in rules)

    return answer_to


def whole(compute):
    def answer(words, span, rule):
        try:
            return number(rule(compute(*(fraction(it, span) for it in words))), span)
        except ZeroDivisionError:
            return "none"

    return answer


def in_parts(compute):
    def answer(words, span, rule):
        *operands, parts = words
        assert fits(span, int(parts)) and int(parts) > 0
        try:
            return lowest(Fraction(rule(compute(*(fraction(it, span) for it in operands)) * int(parts)), int(parts)), span)
        except ZeroDivisionError:
            return "none"

    return answer


def digits(units, places):
    """The decimal with so many places that has this many units in its last place."""
    text = str(abs(units)).zfill(places + 1)
    point = len(text) - places
    return '"' + "-" * (units < 0) + text[:point] + "." * (places > 0) + text[point:] + '"'


def decimal(words, span, rule):
    word, places = words
    assert int(places) <= 38
    return digits(rule(fraction(word, span) * 10 ** int(places)), int(places))


def exact_decimal(value, _):
    for places in range(2 * WIDTH):
        if (value * 10**places).denominator == 1:
            return digits(int(value * 10**places), places)
    return "none"


# Texts.

WHOLE = "[+-]?[0-9]+"
DECIMAL = r"([+-]?)([0-9]+\.?[0-9]*|\.[0-9]+)(?:[eE]([+-]?[0-9]+))?"
NOT_DECIMAL = "refused: the text is not a decimal such as -12.5 or 1.5e-3"
DECIMAL_NOT_HELD = "refused: the lowest terms of the decimal do not fit the type"
NOT_NUMBER = "refused: the text is not a number such as -0.5, 3/4, -1 1/2 or 12.5%"
ZERO_DENOMINATOR = "refused: the denominator is 0"
NOT_HELD = "refused: the lowest terms do not fit the type, or a whole number of the fraction is 2^128 or more"


def quoted(words):
    """The range of the type, and the text between the quotes."""
    kind, _, text = words.partition(" ")
    assert len(text) > 1 and text[0] == text[-1] == '"'
    return RANGES[kind], text[1:-1]


def decimal_value(text):
    """The value of a decimal, or None if it is not 0 and too long a power of ten for any type."""
    sign, mantissa, exponent = re.fullmatch(DECIMAL, text).groups()
    value = Fraction(sign + mantissa)
    if value and abs(int(exponent or 0)) > 1000 + len(text):
        return None
    return value * Fraction(10) ** int(exponent or 0) if value else value


def from_decimal(words):
    span, text = quoted(words)
    if not re.fullmatch(DECIMAL, text):
        return NOT_DECIMAL
    return held(decimal_value(text), span, DECIMAL_NOT_HELD)


def held(value, span, refusal):
    answer = "none" if value is None else lowest(value, span)
    return refusal if answer == "none" else answer


def from_text(words):
    span, text = quoted(words)
    plain = text[:-1] if text.endswith("%") else text
    if re.fullmatch(DECIMAL, plain):
        value = decimal_value(plain)
    elif re.fullmatch(f"{WHOLE}/{WHOLE}", plain) or re.fullmatch(f"{WHOLE} [0-9]+/[0-9]+", text):
        *before, numer, denom = map(int, re.split("[ /]", plain))
        if denom == 0:
            return ZERO_DENOMINATOR
        if any(abs(it) >= 2**WIDTH for it in (*before, numer, denom)):
            return NOT_HELD
        value = Fraction(numer, denom)
        if before:
            value = (abs(before[0]) + value) * (-1 if text.startswith("-") else 1)
    else:
        return NOT_NUMBER
    return held(value / 100 if value and plain != text else value, span, NOT_HELD)


# Floats: the digits of a form, its least exponent, the end of its range, and its name in `struct`.
FORMS = {64: (53, -1074, 2**1024, ">d"), 32: (24, -149, 2**128, ">f")}


def nearest(value, form):
    """The nearest float as m and e of m * 2^e, a tie to the even m. m is None if it is infinite."""
    count, least, end, _ = form
    exponent = max(least, value.numerator.bit_length() - value.denominator.bit_length() - count - 1)
    while abs(value) / Fraction(2) ** exponent >= 2**count:
        exponent += 1
    rounded = round(value / Fraction(2) ** exponent)
    return (None if abs(rounded) * Fraction(2) ** exponent >= end else rounded, exponent)


def bits(form):
    """A call that gives the bits of the nearest float. The fraction may be in other terms than its lowest."""

    def answer(words):
        span, (word,) = typed(words)
        value = Fraction(*fields(word, span))
        rounded, exponent = nearest(value, form)
        size = math.inf if rounded is None else float(abs(rounded) * Fraction(2) ** exponent)
        return hex(int.from_bytes(struct.pack(form[3], -size if value < 0 else size), "big"))

    return answer


def of_float(answer, form):
    """A call on the float nearest to a decimal."""

    def answer_to(words):
        span, (word,) = typed(words)
        if word in ("NaN", "inf", "-inf"):
            return "none"
        rounded, exponent = nearest(Fraction(word), form)
        return "none" if rounded is None else lowest(answer(rounded, exponent, form), span)

    return answer_to


def exact(rounded, exponent, _):
    return rounded * Fraction(2) ** exponent


def rationalized(rounded, exponent, form):
    """A whole float itself. Else the simplest fraction between the points halfway to its two neighbours."""
    value = exact(rounded, exponent, form)
    if value.denominator == 1:
        return value
    unit = Fraction(2) ** exponent
    narrow = unit / 2 if abs(rounded) == 2 ** (form[0] - 1) and exponent > form[1] else unit
    low, high = (narrow, unit) if value > 0 else (unit, narrow)
    return between(value - low / 2, value + high / 2)


# The simplest fractions.


def between(low, high):
    """The fraction strictly between with the least denominator, and of these the one nearest to 0."""
    if low >= high:
        return None
    if low < 0 < high:
        return Fraction(0)
    middle, half = (low + high) / 2, (high - low) / 2

    # Of the fractions with denominators up to this one, the nearest to the middle lies inside if any does.
    def has(most):
        return abs(middle.limit_denominator(most) - middle) < half

    most = 1
    while not has(most):
        most *= 2
    least = most // 2 + 1 if most > 1 else 1
    while least < most:
        trial = (least + most) // 2
        least, most = (least, trial) if has(trial) else (trial + 1, most)
    return Fraction(math.floor(low * least) + 1 if low >= 0 else math.ceil(high * least) - 1, least)


def simplest_within(words):
    """`>=1/3 <1/2` has its lower end, and not its upper one. `any` is no bound: a whole number is near the other one."""
    span, (low_word, high_word) = typed(words)
    has_low, low = bound(low_word, ">", span)
    has_high, high = bound(high_word, "<", span)
    low, high = (min(high or 0, 0) - 2 if low is None else low), (max(low or 0, 0) + 2 if high is None else high)
    found = [it for it in (between(low, high),) if it is not None]
    found += [low] * (has_low and (low < high or low == high and has_high)) + [high] * (has_high and low < high)
    return lowest(min(found, key=lambda it: (it.denominator, abs(it))), span) if found else "none"


def bound(word, sign, span):
    """Whether the end belongs to it, and the end."""
    if word == "any":
        return False, None
    included, end = re.fullmatch(f"{sign}(=?)(.*)", word).groups()
    return bool(included), fraction(end, span)


# Continued fractions, and products of many.


def quotients(value):
    found = [math.floor(value)]
    while value != found[-1]:
        value = 1 / (value - found[-1])
        found.append(math.floor(value))
    return found


def of_quotients(found):
    value = Fraction(found[-1])
    for it in reversed(found[:-1]):
        value = it + 1 / value
    return value


def convergents(value, _):
    found = quotients(value)
    return listed(fractional(of_quotients(found[:end])) for end in range(1, len(found) + 1))


def from_quotients(words):
    span, (word,) = typed(words)
    found = numbers(word, span)
    return lowest(of_quotients(found), span) if found and all(it > 0 for it in found[1:]) else "none"


def quotient_of(above, below, span):
    return "none" if 0 in below else lowest(math.prod(above, start=Fraction(1)) / math.prod(below), span)


def product_of(words):
    span, (word, room) = typed(words)
    found = fractions(word, span)
    assert int(room) >= 2 * len(found), "with less room a step may not fit"
    return quotient_of(found, [], span)


def quotient_of_lists(words):
    """Two lists, and the length of the room, if the call takes one."""
    span, (above, below, *room) = typed(words)
    above, below = numbers(above, span), numbers(below, span)
    assert all(int(it) >= 2 * len(above + below) for it in room), "with less room a step may not fit"
    return quotient_of(above, below, span)


def cast(words):
    kind, other, word = words.split(" ")
    return lowest(fraction(word, RANGES[kind]), RANGES[other])


# Amounts that are split.


def parted(amount, sums):
    """Differences of the marks: the amount times each sum of the first shares, rounded with a half away from 0."""
    marks = [0] + [RULES["HalfAway"](amount * it) for it in sums]
    return [later - earlier for earlier, later in zip(marks, marks[1:])]


def running(found):
    return [sum(found[: end + 1], Fraction(0)) for end in range(len(found))]


def split(words):
    span, (amount, shares, before) = typed(words)
    amount, shares, before = int(amount), fractions(shares, span), numbers(before, span)
    sums = running(shares)
    if len(before) != len(shares):
        why = "the number of parts is not the number of shares"
    elif any(it < 0 for it in shares):
        why = "a share is below 0"
    elif any(not fits(span, it.numerator, it.denominator, RULES["HalfAway"](amount * it)) for it in sums):
        why = "a sum of the first shares, or the amount times this sum, rounded, does not fit the type"
    elif sum(shares) != 1:
        why = "the shares do not add up to 1"
    else:
        return listed(parted(amount, sums))
    return f"{listed(before)} refused: {why}"


def split_by_weights(words):
    span, (amount, weights, before) = typed(words)
    amount, weights, before = int(amount), numbers(weights, span), numbers(before, span)
    if len(before) != len(weights):
        why = "the number of parts is not the number of weights"
    elif any(it < 0 for it in weights):
        why = "a weight is below 0"
    elif not fits(span, sum(weights)):
        why = "the sum of the weights does not fit the type"
    elif sum(weights) == 0:
        why = "no weight is above 0"
    else:
        return listed(parted(amount, [it / sum(weights) for it in running(weights)]))
    return f"{listed(before)} refused: {why}"


CALLS = {
    "Reduced::checked_add": of_two(lambda x, y: x + y),
    "Reduced::checked_sub": of_two(lambda x, y: x - y),
    "Reduced::checked_mul": of_two(lambda x, y: x * y),
    "Reduced::checked_div": of_two(lambda x, y: x / y),
    "Reduced::checked_rem": of_two(remainder),
    "Reduced::checked_gcd": of_two(divisor),
    "Reduced::checked_lcm": of_two(multiple),
    "Reduced::simplest_between": of_two(between),
    "Reduced::simplest_within": simplest_within,
    "Reduced::trunc": of_one(lambda x, span: lowest(math.trunc(x), span)),
    "Reduced::cast": cast,
    "Reduced::checked_mul_round": by_rule(whole(lambda x, y: x * y)),
    "Reduced::checked_div_round": by_rule(whole(lambda x, y: x / y)),
    "Reduced::round_to": by_rule(in_parts(lambda x: x)),
    "Reduced::checked_mul_round_to": by_rule(in_parts(lambda x, y: x * y)),
    "Reduced::checked_div_round_to": by_rule(in_parts(lambda x, y: x / y)),
    "Reduced::decimal": by_rule(decimal),
    "Reduced::exact_decimal": of_one(exact_decimal),
    "Reduced::from_decimal": from_decimal,
    "Reduced::from_text": from_text,
    "Reduced::from_float": of_float(exact, FORMS[64]),
    "Reduced::from_float32": of_float(exact, FORMS[32]),
    "Reduced::rationalize": of_float(rationalized, FORMS[64]),
    "Reduced::rationalize32": of_float(rationalized, FORMS[32]),
    "Reduced::to_f64": bits(FORMS[64]),
    "Reduced::to_f32": bits(FORMS[32]),
    "Ratio::to_f64": bits(FORMS[64]),
    "Ratio::to_f32": bits(FORMS[32]),
    "Reduced::continued_fraction": of_one(lambda x, _: listed(quotients(x))),
    "Reduced::convergents": of_one(convergents),
    "Reduced::from_continued_fraction": from_quotients,
    "Reduced::checked_product_of": product_of,
    "Reduced::checked_quotient_of": quotient_of_lists,
    "continued::from_quotients": from_quotients,
    "many_products::checked_quotient_of_products": quotient_of_lists,
    "splitting::split": split,
    "splitting::split_by_weights": split_by_weights,
}
