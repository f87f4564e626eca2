"""The calls on integers and on the fields of fractions."""
from fractions import Fraction
from math import ceil, floor, gcd, lcm

from model.common import RANGES, fields, fits, lowest, order, truth

# The six rules, on a fraction.
ROUNDED = {
    "HalfAway": lambda x: floor(x + Fraction(1, 2)) if x > 0 else -floor(-x + Fraction(1, 2)),
    "HalfEven": round,
    "Down": int,
    "Up": lambda x: floor(x) if x < 0 else ceil(x),
    "Floor": floor,
    "Ceil": ceil,
}


def bits_of(span):
    return (span[1] - span[0]).bit_length()


def has_exact_sums(span):
    return span[2] in ("i32", "i64")


def over(compute):
    """A call over the type that the first word names: it gets the range with that name behind it. `all` stands for the twelve types, which
    then have one answer."""

    def answer(words):
        kind, _, rest = words.partition(" ")
        answers = {compute((*RANGES[it], it), rest) for it in (RANGES if kind == "all" else [kind])}
        if len(answers) != 1:
            raise ValueError(f"types differ: {answers}")
        return answers.pop()

    return answer


def whole(number, span):
    return str(number) if fits(span, number) else "none"


def pair(numbers, span):
    return "none" if numbers is None or not fits(span, *numbers) else f"{numbers[0]}/{numbers[1]}"


def of_numbers(compute):
    """A call on whole numbers of the type."""

    def answer(span, words):
        numbers = [int(it) for it in words.split()]
        if not fits(span, *numbers):
            raise ValueError(f"{words} does not fit the type")
        return compute(span, *numbers)

    return over(answer)


def of_pairs(compute):
    """A call on the fields of fractions, as pairs."""
    return over(lambda span, words: compute(span, *(fields(it, span) for it in words.split())))


def of_fractions(compute):
    """A call on the values of fractions."""
    return of_pairs(lambda span, *pairs: compute(span, *(Fraction(*it) for it in pairs)))


def cut_division(a, b):
    quotient = int(Fraction(a, b))
    return f"{quotient} {a - quotient * b}"


def floored_division(a, b):
    return f"{a // b} {a % b}"


def is_multiple(a, b):
    return a == 0 if b == 0 else a % b == 0


def half_base(span):
    bits = bits_of(span)
    return 2 ** (bits // 2) if bits >= 64 else None


def halves(span, a):
    base = half_base(span)
    return floored_division(a, base) if base else "none"


def exact(compute):
    """A sum that a type of exact sums forms, in lowest terms."""
    return of_fractions(lambda span, x, y: lowest(compute(x, y), span) if has_exact_sums(span) else "none")


INTEGERS = {
    "ZERO": over(lambda span, _: "0"),
    "ONE": over(lambda span, _: "1"),
    "MIN": over(lambda span, _: str(span[0])),
    "MAX": over(lambda span, _: str(span[1])),
    "half_base": over(lambda span, _: str(half_base(span) or "none")),
    "halves": of_numbers(halves),
    "held": of_numbers(lambda span, a: "true"),
    "is_zero": of_numbers(lambda span, a: truth(a == 0)),
    "is_one": of_numbers(lambda span, a: truth(a == 1)),
    "is_even": of_numbers(lambda span, a: truth(a % 2 == 0)),
    "is_odd": of_numbers(lambda span, a: truth(a % 2 == 1)),
    "from_i128": over(lambda span, word: whole(int(word), span)),
    "from_u128": over(lambda span, word: whole(int(word), span)),
    "to_i128": of_numbers(lambda span, a: whole(a, RANGES["i128"])),
    "to_u128": of_numbers(lambda span, a: whole(a, RANGES["u128"])),
    "try_plus": of_numbers(lambda span, a, b: whole(a + b, span)),
    "try_minus": of_numbers(lambda span, a, b: whole(a - b, span)),
    "try_times": of_numbers(lambda span, a, b: whole(a * b, span)),
    "try_lcm": of_numbers(lambda span, a, b: whole(lcm(a, b), span)),
    "gcd": of_numbers(lambda span, a, b: str(gcd(a, b))),
    "is_multiple_of": of_numbers(lambda span, a, b: truth(is_multiple(a, b))),
    "div_rem": of_numbers(lambda span, a, b: cut_division(a, b)),
    "div_mod_floor": of_numbers(lambda span, a, b: floored_division(a, b)),
    "exact_sum": exact(lambda x, y: x + y),
    "exact_diff": exact(lambda x, y: x - y),
    "gcds": of_pairs(lambda span, left, right: f"{gcd(*left)} {gcd(*right)}"),
}


def scaled(span, left, right):
    """Both fractions over their least common denominator, if all three numbers fit the type."""
    common = lcm(left[1], right[1])
    numbers = left[0] * (common // left[1]), right[0] * (common // right[1])
    return numbers if fits(span, common, *numbers) else None


def sum_by(sign):
    """Exact over a type of exact sums. Over another, the numbers on the way must fit, too."""

    def compute(span, left, right):
        result = Fraction(*left) + sign * Fraction(*right)
        if has_exact_sums(span):
            return lowest(result, span)
        numbers = scaled(span, left, right)
        return "none" if numbers is None or not fits(span, numbers[0] + sign * numbers[1]) else lowest(result, span)

    return of_pairs(compute)


def remainder(span, left, right):
    if right[0] == 0 or scaled(span, left, right) is None:
        return "none"
    x, y = Fraction(*left), Fraction(*right)
    return lowest(x - int(x / y) * y, span)


def power(span, words):
    base, exponent = words.split()
    (n, d), e = fields(base, span), int(exponent)
    numbers = n ** abs(e), d ** abs(e)
    return "none" if not fits(span, *numbers) else reciprocal(span, numbers) if e < 0 else pair(numbers, span)


def reciprocal(span, numbers):
    n, d = numbers
    return "none" if n == 0 else pair((d, n) if n > 0 else (-d, -n), span)


def with_number(compute):
    """A call on a fraction's fields and a number, in either order."""

    def answer(span, words):
        parts = [fields(it, span) if "/" in it else int(it) for it in words.split()]
        return compute(span, *parts)

    return over(answer)


def codes(span, x):
    """The floored quotients of Euclid's algorithm, and 0. A quotient above the type is the least number twice."""
    quotient, found = floor(x), []
    found += [quotient] if quotient <= span[1] else [span[0]] * 2
    return found + ([0] if x == quotient else codes(span, 1 / (x - quotient)))


def nearest(span, ratio, most):
    """Among all denominators: the nearest fraction, then the smaller denominator, then the smaller number."""
    n, d = ratio
    found = min((Fraction(abs(n * k - m * d), k), k, m) for k in range(1, most + 1) for m in (n * k // d, n * k // d + 1))
    return lowest(Fraction(found[2], found[1]), span)


def simplest(span, low, high):
    """Among all denominators of the type: the numerator nearest to 0 within both bounds. A bound is a sign and a fraction, or None."""
    for denom in range(1, span[1] + 1):
        first, last = span
        if low:
            first = max(first, ceil(low[1] * denom) if low[0] == ">=" else floor(low[1] * denom) + 1)
        if high:
            last = min(last, floor(high[1] * denom) if high[0] == "<=" else ceil(high[1] * denom) - 1)
        if first <= last:
            return f"{min(max(first, 0), last)}/{denom}"
    return "none"


def bound(word, span):
    end = word.lstrip("<>=")
    return None if word == "any" else (word[: -len(end)], Fraction(*fields(end, span)))


def simplest_within(span, words):
    low, high = words.split()
    return simplest(span[:2], bound(low, span), bound(high, span))


DIGITS = {"Decimal": ("d", ""), "Binary": ("b", "0b"), "Octal": ("o", "0o"), "LowerHex": ("x", "0x"), "UpperHex": ("X", "0x")}


def printed(span, words):
    """Both numbers, or one if the other is 1. Other bases than 10 show the two's complement."""
    ratio, *form = words.split()
    digits, prefix = DIGITS[form[0] if form else "Decimal"]
    numbers = fields(ratio, span)
    shown = [it if digits == "d" else it % 2 ** bits_of(span) for it in numbers]
    texts = [(prefix if form[1:] == ["prefix"] else "") + format(it, digits) for it in shown]
    return '"' + "/".join(texts if numbers[1] != 1 else texts[:1]) + '"'


def quoted(words):
    if words[0] != '"' or words[-1] != '"':
        raise ValueError(f"{words} is no text")
    return words[1:-1]


def leading_fields(span, words):
    """The longest beginning that is `N` or `N/D`. None if there is none, or if a slash is not followed by a number."""
    text = quoted(words)
    numbers, at = [], 0
    while not numbers or (len(numbers) == 1 and text[at : at + 1] == "/"):
        start = at = at + len(numbers)
        while at < len(text) and (text[at].isdigit() or (at == start and text[at] == "-")):
            at += 1
        try:
            numbers.append(int(text[start:at]))
        except ValueError:
            return "none"
    numer, denom = (*numbers, 1)[:2]
    return f"{numer}/{denom} {at}" if fits(span, numer, denom) else "none"


def from_str_radix(span, words):
    radix, text = words.split(" ", 1)
    numer, denom = (int(it, int(radix)) for it in quoted(text).split("/"))
    return lowest(Fraction(numer, denom), span)


def from_slash(span, words):
    numer, _, denom = quoted(words).partition("/")
    return lowest(Fraction(int(numer), int(denom or 1)), span)


def typed_text(span, words):
    """A decimal, a fraction or a mixed number, with a percent sign or none."""
    text = quoted(words)
    front, parts = text.removesuffix("%"), 1 if text.removesuffix("%") == text else 100
    whole_part, space, part = front.partition(" ")
    value = Fraction(whole_part)
    if space:
        value += Fraction(part) if not whole_part.startswith("-") else -Fraction(part)
    return lowest(value / parts, span)


def by_rule(compute):
    """A call whose last word is a rule."""

    def answer(span, words):
        *parts, rule = words.split()
        return compute(span, ROUNDED[rule], *(Fraction(*fields(it, span)) for it in parts))

    return over(answer)


def decimal_of(value, places):
    """The text of a multiple of 1/10^places."""
    number = abs(int(value * 10**places))
    digits = str(number).rjust(places + 1, "0")
    sign = "-" if value < 0 else ""
    return f"{sign}{digits[:-places]}.{digits[-places:]}" if places else sign + digits


def decimal_text(span, rule, x, places):
    return f'"{decimal_of(Fraction(rule(x * 10**int(places)), 10**int(places)), int(places))}"'


def bits_of_float(x, form="d", negative=None):
    """The bits of the float nearest to x, with ties to even, in hexadecimal. `negative` gives the sign of a 0."""
    digits, least, most, width = (53, -1074, 1024, 64) if form == "d" else (24, -149, 128, 32)
    unit = Fraction(2) ** least
    while abs(x) >= unit * 2**digits:
        unit *= 2
    value = round(abs(x) / unit) * unit
    # An infinite float has the bits that the next power of 2 would have.
    magnitude = min(value, Fraction(2) ** most)
    number = float_bits(magnitude, digits, least)
    below = x < 0 if negative is None else negative
    return hex(number | below << (width - 1))


def float_bits(magnitude, digits, least):
    """The exponent and the digits of a float, as one number: it counts the floats from 0."""
    unit, count = Fraction(2) ** least, 0
    while magnitude >= unit * 2**digits:
        unit, count = unit * 2, count + 2 ** (digits - 1)
    return count + int(magnitude / unit)


def numbered(compute):
    """A call on one fraction that returns a whole number."""
    return of_fractions(lambda span, x: str(compute(x)))


def sign_of(x):
    return (x > 0) - (x < 0)


FIELDS = {
    "Primitive::BITS": over(lambda span, _: str(bits_of(span))),
    "sums::checked_add": sum_by(1),
    "sums::checked_sub": sum_by(-1),
    "products::checked_mul": of_fractions(lambda span, x, y: lowest(x * y, span)),
    "products::checked_div": of_fractions(lambda span, x, y: "none" if y == 0 else lowest(x / y, span)),
    "remainder::checked_rem": of_pairs(remainder),
    "sums::numerator_of": with_number(lambda span, a, part: whole(a * part[1] + part[0], span)),
    "sums::sum_over": with_number(lambda span, x, part: floored_division(x + part[0], part[1])),
    "sums::multiple_over": with_number(lambda span, part, factor: floored_division(part[0] * factor, part[1])),
    "sums::carried_on": over(lambda span, words: str(int(words.split()[0]) + (words.split()[1] == "true"))),
    "order::compare": of_fractions(lambda span, x, y: order(x, y)),
    "hash::hash_counted": of_fractions(lambda span, x: " ".join(map(str, codes(span, x)))),
    "order::divide_left": of_pairs(lambda span, x: floored_division(*x)),
    "order::divide_right": of_pairs(lambda span, x: floored_division(*x)),
    "checked_new::checked_new": of_pairs(lambda span, x: "none" if x[1] == 0 else lowest(Fraction(*x), span)),
    "ratio_integer::lowest_terms": of_fractions(lambda span, x: lowest(x, span)),
    "ratio_integer::cancelled": of_pairs(lambda span, x: cancelled(x)),
    "ratio_integer::both_lowest_terms": of_fractions(lambda span, x, y: f"{lowest(x, span)} {lowest(y, span)}"),
    "ratio_integer::both_cancelled": of_pairs(lambda span, x, y: f"{cancelled(x)} {cancelled(y)}"),
    "pow::checked_pow": over(power),
    "pow::checked_recip": of_pairs(reciprocal),
    "nearest::nearest": with_number(nearest),
    "simplest::simplest_between": of_fractions(lambda span, low, high: simplest(span[:2], (">", low), ("<", high))),
    "simplest::simplest_within": over(simplest_within),
    "text::text": over(printed),
    "text::base_ten_text": over(printed),
    "text::put_digits": of_numbers(lambda span, n: f'"{n}"'),
    "text::from_str": over(from_slash),
    "text::from_str_radix": over(from_str_radix),
    "text::leading_fields": over(leading_fields),
    "ratio_decimal::from_decimal": over(lambda span, words: lowest(Fraction(quoted(words)), span)),
    "ratio_decimal::from_text": over(typed_text),
    "ratio_decimal::round_to": by_rule(lambda span, rule, x, parts: lowest(Fraction(rule(x * parts)) / parts, span)),
    "ratio_decimal::decimal": by_rule(decimal_text),
    "ratio_decimal::rounded_product": by_rule(lambda span, rule, x, y: whole(rule(x * y), span)),
    "ratio_decimal::rounded_quotient": by_rule(lambda span, rule, x, y: "none" if y == 0 else whole(rule(x / y), span)),
    "ratio_decimal::rounded_product_to": by_rule(lambda span, rule, x, y, parts: lowest(Fraction(rule(x * y * parts)) / parts, span)),
    "ratio_decimal::rounded_quotient_to": by_rule(
        lambda span, rule, x, y, parts: "none" if y == 0 else lowest(Fraction(rule(x / y * parts)) / parts, span)
    ),
    "float::to_f64": of_fractions(lambda span, x: bits_of_float(x)),
    "float::to_f32": of_fractions(lambda span, x: bits_of_float(x, "f")),
    "rounding::floor": numbered(floor),
    "rounding::ceil": numbered(ceil),
    "rounding::trunc": numbered(int),
    "rounding::round": numbered(ROUNDED["HalfAway"]),
    "rounding::fract": of_pairs(lambda span, x: str(x[0] - int(Fraction(*x)) * x[1])),
    "rounding::to_integer": numbered(int),
    **{
        f"rounding::to_{kind}": of_fractions(lambda span, x, kind=kind: whole(int(x), RANGES[kind]))
        for kind in ("i64", "i128", "u64", "u128")
    },
    "sign::neg": of_numbers(lambda span, a: whole(-a, span)),
    "SignedInteger::try_negate": of_numbers(lambda span, a: whole(-a, span)),
    "sign::abs": of_pairs(lambda span, x: str(-x[0] if Fraction(*x) < 0 else x[0])),
    "sign::signum": numbered(sign_of),
    "sign::is_positive": of_fractions(lambda span, x: truth(x > 0)),
    "sign::is_negative": of_fractions(lambda span, x: truth(x < 0)),
    "sign::abs_sub": of_fractions(lambda span, x, y: lowest(max(x - y, 0), span)),
    "sign::have_unlike_signs": of_numbers(lambda span, a, b: truth((a < 0) != (b < 0))),
    "sign::is_above_zero": of_numbers(lambda span, a: truth(a > 0)),
}


def cancelled(numbers):
    divisor = gcd(*numbers)
    return f"{numbers[0] // divisor}/{numbers[1] // divisor}"


CALLS = {f"Integer::{name}": call for name, call in INTEGERS.items()} | FIELDS
