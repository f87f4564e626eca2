"""The calls of `BigFraction`. A fraction is any text that Python's `Fraction` reads, such as `1e400`."""
import math
import re
import struct
from fractions import Fraction

from model.common import fields, order, truth, typed

RULES = ("HalfAway", "HalfEven", "Down", "Up", "Floor", "Ceil")
WHOLE = r"[+-]?\d+"
DECIMAL = r"([+-]?(?:\d+\.?\d*|\.\d+))(?:[eE]([+-]?\d+))?"
NOT_NUMBER = "refused: the text is not a number such as -0.5, 3/4, -1 1/2 or 12.5%"
# The digits, the least exponent and the first exponent that is too great, and the letters of `struct`, for floats of each width.
FLOATS = {64: (53, -1074, 1024, ">d", ">Q"), 32: (24, -149, 128, ">f", ">I")}


def shown(value):
    """The fraction, with ` long` behind it if a number doesn't fit an `i64`. `None` is none."""
    if value is None:
        return "none"
    value = Fraction(value)
    short = -(2**63) <= value.numerator < 2**63 and value.denominator < 2**63
    return str(value) if short else f"{value} long"


def quoted(text):
    return f'"{text}"'


def unquoted(words):
    if not (len(words) > 1 and words[0] == words[-1] == '"'):
        raise ValueError(f"{words} is no text in quotes")
    return words[1:-1]


def whole(rule, x):
    """The whole number that the rule gives."""
    sign = -1 if x < 0 else 1
    return {
        "HalfAway": sign * math.floor(abs(x) + Fraction(1, 2)),
        "HalfEven": round(x),
        "Down": math.trunc(x),
        "Up": sign * math.ceil(abs(x)),
        "Floor": math.floor(x),
        "Ceil": math.ceil(x),
    }[rule]


def decimal_text(x, places, rule):
    number = whole(rule, x * 10**places)
    digits = str(abs(number)).zfill(places + 1)
    point = len(digits) - places
    return ("-" if number < 0 else "") + digits[:point] + ("." + digits[point:] if places else "")


def multiple(rule, x, step):
    """The multiple of the step that the rule gives."""
    return whole(rule, x / step) * step


def by_rules(words, answer):
    """The answers by the rule that comes last, or by all six."""
    first, second, *rule = words.split(" ")
    return " ".join(answer(Fraction(first), second, it) for it in rule or RULES)


def nearest_float(x, width):
    """The nearest float, and an infinite one as `inf` or `-inf`. A tie goes to the float with the even last digit."""
    digits, least, top, *_ = FLOATS[width]
    if x == 0:
        return Fraction(0)
    exponent = abs(x.numerator).bit_length() - x.denominator.bit_length()
    exponent -= abs(x) < Fraction(2) ** exponent
    step = Fraction(2) ** max(exponent - digits + 1, least)
    near = round(x / step) * step
    return near if abs(near) < 2**top else math.inf if x > 0 else -math.inf


def float_bits(word, width):
    *_, kind, number = FLOATS[width]
    near = float(nearest_float(Fraction(word), width))
    return hex(struct.unpack(number, struct.pack(kind, near))[0])


def float_value(word, width):
    return "none" if word in ("inf", "-inf", "nan") else shown(nearest_float(Fraction(word), width))


def decimal(text):
    """The value of a decimal with any exponent, or `None`."""
    match = re.fullmatch(DECIMAL, text, re.ASCII)
    if not match:
        return None
    digits = Fraction(match[1])
    return digits and digits * Fraction(10) ** int(match[2] or 0)


def quotient(text, zero):
    """The value of a fraction of whole numbers, or the refusal over 0, or `None`."""
    match = re.fullmatch(f"({WHOLE})/({WHOLE})", text, re.ASCII)
    return match and (Fraction(int(match[1]), int(match[2])) if int(match[2]) else zero)


def from_str(text):
    zero = "refused: zero value denominator"
    value = Fraction(text) if re.fullmatch(WHOLE, text, re.ASCII) else quotient(text, zero)
    return "refused: failed to parse integer" if value is None else value if value == zero else shown(value)


def typed_value(text, zero):
    """The value of what a person types, or the refusal over 0, or `None`."""
    mixed = re.fullmatch(r"([+-]?)(\d+) (\d+/\d+)", text, re.ASCII)
    if mixed:
        part = quotient(mixed[3], zero)
        return zero if part == zero else (-1 if mixed[1] == "-" else 1) * (int(mixed[2]) + part)
    value = decimal(text.removesuffix("%"))
    value = quotient(text.removesuffix("%"), zero) if value is None else value
    return value / 100 if text.endswith("%") and value not in (None, zero) else value


def from_text(text):
    zero = "refused: the denominator is 0"
    value = typed_value(text, zero)
    return NOT_NUMBER if value is None else zero if value == zero else shown(value)


def decimal_numbers(text):
    """The numerator and the denominator of a decimal as it is written, or `None`. One beyond 10^(10^6) counts as 2^(10^7)."""
    match = re.fullmatch(DECIMAL, text, re.ASCII)
    if not match:
        return None
    whole, _, part = match[1].partition(".")
    exponent = int(match[2] or 0)
    tens = 10 ** abs(exponent) if abs(exponent) <= 10**6 else 1 << 10**7
    numer, denom = int(whole + part), 10 ** len(part)
    return (numer * tens, denom) if exponent >= 0 else (numer, denom * tens)


def typed_numbers(text):
    """The same for what a person types."""
    mixed = re.fullmatch(r"([+-]?)(\d+) (\d+)/(\d+)", text, re.ASCII)
    if mixed:
        whole, numer, denom = map(int, mixed.groups()[1:])
        return (-1 if mixed[1] == "-" else 1) * (whole * denom + numer), denom
    front = text.removesuffix("%")
    fraction = re.fullmatch(f"({WHOLE})/({WHOLE})", front, re.ASCII)
    numbers = (int(fraction[1]), int(fraction[2])) if fraction else decimal_numbers(front)
    return numbers and (numbers[0], numbers[1] * (100 if text.endswith("%") else 1))


def have_bits(numbers, bits):
    return all(abs(number).bit_length() <= bits for number in numbers)


def from_within(numbers_of):
    def answer(words):
        bits, _, text = words.partition(" ")
        numbers = numbers_of(unquoted(text))
        if numbers is None:
            return "refused: the text is not a number that the call reads"
        if numbers[1] == 0:
            return "refused: the denominator is 0"
        return shown(Fraction(*numbers)) if have_bits(numbers, int(bits)) else "refused: the numerator or the denominator has more bits than the bound"

    return answer


def from_digits(words):
    sign, *lists = words.split(" ")
    numer, denom = (sum(int(it) << (64 * at) for at, it in enumerate(digits[1:-1].split(","))) for digits in lists)
    return shown(Fraction(-numer if sign == "-" else numer, denom) if denom else None)


def total(word):
    """The sum of the pairs with a denominator other than 0."""
    pairs = [it.split("/") for it in word[1:-1].split(",") if it]
    return shown(sum((Fraction(int(n), int(d)) for n, d in pairs if int(d)), Fraction(0)))


def from_wide(words):
    span, (word,) = typed(words)
    return shown(Fraction(*fields(word, span)))


def append_text(words):
    word, _, text = words.partition(" ")
    return quoted(unquoted(text) + str(Fraction(word)))


def continued(x):
    quotients = []
    while x is not None:
        quotients.append(math.floor(x))
        x = 1 / (x - quotients[-1]) if x != quotients[-1] else None
    return quotients


def gcd(x, y):
    return Fraction(math.gcd(x.numerator * y.denominator, y.numerator * x.denominator), x.denominator * y.denominator)


def power(words):
    x, exponent = Fraction(words.split(" ")[0]), int(words.split(" ")[1])
    # Powers of 0, 1 and -1 are known, however great the exponent is.
    if x == 0:
        return shown(None if exponent < 0 else exponent == 0)
    return shown(x**exponent if abs(x) != 1 else x ** (exponent % 2))


def power_within(words):
    x, exponent, bits = words.split(" ")
    # Powers of other numbers have more bits than an exponent of this size.
    if abs(int(exponent)) > 10**6 and abs(Fraction(x)) not in (0, 1):
        return "none"
    value = power(f"{x} {exponent}")
    numbers = Fraction(0 if value == "none" else value.removesuffix(" long")).as_integer_ratio()
    return value if have_bits(numbers, int(bits)) else "none"


def nearest(x, bound):
    """Python's `limit_denominator`, but the lower one of two whole numbers at the same distance."""
    if bound < 1:
        return None
    most = math.floor(bound)
    return math.floor(x) if most == 1 and x.denominator == 2 else x.limit_denominator(most)


def simplest(low, high):
    """The fraction with the least denominator strictly between two, and of these the one nearest to 0."""
    if low >= high:
        return None
    if low < 0 < high:
        return Fraction(0)
    if high <= 0:
        return -simplest(-high, -low)
    floor = math.floor(low)
    if floor + 1 < high:
        return Fraction(floor + 1)
    # Both ends are within 1 of the floor. What is behind it is simplest where its reciprocal is. Without an upper end, that is a whole number.
    if low == floor:
        return floor + Fraction(1, math.floor(1 / (high - floor)) + 1)
    return floor + 1 / simplest(1 / (high - floor), 1 / (low - floor))


def of_one(compute, answer=shown):
    return lambda words: answer(compute(Fraction(words)))


def of_two(compute, answer=shown):
    return lambda words: answer(compute(*map(Fraction, words.split(" "))))


ONE = {
    "floor": math.floor,
    "ceil": math.ceil,
    "round": lambda x: whole("HalfAway", x),
    "trunc": math.trunc,
    "fract": lambda x: x - math.trunc(x),
    "numer": lambda x: x.numerator,
    "denom": lambda x: x.denominator,
    "reciprocal": lambda x: 1 / x if x else None,
    "negate": lambda x: -x,
    "abs": abs,
    "copy": lambda x: x,
    "signum": lambda x: (x > 0) - (x < 0),
    "from_integer": lambda x: x,
    "from_reduced": lambda x: x,
    "harmonic": lambda n: sum(Fraction(1, k) for k in range(1, int(n) + 1)),
}
TRUTHS = {"is_zero": lambda x: x == 0, "is_negative": lambda x: x < 0, "is_positive": lambda x: x > 0}
TWO = {
    "add": lambda x, y: x + y,
    "subtract": lambda x, y: x - y,
    "multiply": lambda x, y: x * y,
    "divide": lambda x, y: x / y if y else None,
    "remainder": lambda x, y: x - y * math.trunc(x / y) if y else None,
    "gcd": gcd,
    "lcm": lambda x, y: abs(x * y) / gcd(x, y) if x * y else 0,
    "nearest": nearest,
    "simplest_between": simplest,
}
OTHERS = {
    "compare": of_two(order, str),
    "continued_fraction": of_one(lambda x: f"[{','.join(map(shown, continued(x)))}]", str),
    "decimal": lambda words: by_rules(words, lambda x, places, rule: quoted(decimal_text(x, int(places), rule))),
    "round_to": lambda words: by_rules(words, lambda x, parts, rule: shown(multiple(rule, x, Fraction(1, int(parts))))),
    "round_to_multiple_of": lambda words: by_rules(words, lambda x, step, rule: shown(multiple(rule, x, Fraction(step)))),
    "to_text": of_one(str, quoted),
    "append_text": append_text,
    "pow": power,
    "pow_within": power_within,
    "to_f64": lambda word: float_bits(word, 64),
    "to_f32": lambda word: float_bits(word, 32),
    "from_f64": lambda word: float_value(word, 64),
    "from_f32": lambda word: float_value(word, 32),
    "from_str": lambda words: from_str(unquoted(words)),
    "from_text": lambda words: from_text(unquoted(words)),
    "from_decimal": lambda words: shown(decimal(unquoted(words))),
    "from_text_within": from_within(typed_numbers),
    "from_decimal_within": from_within(decimal_numbers),
    "from_digits": from_digits,
    "from_slots": total,
    "from_wide": from_wide,
}
FOUND = {
    **{name: of_one(compute) for name, compute in ONE.items()},
    **{name: of_one(compute, truth) for name, compute in TRUTHS.items()},
    **{name: of_two(compute) for name, compute in TWO.items()},
    **OTHERS,
}
CALLS = {f"BigFraction::{name}": answer for name, answer in FOUND.items()}
