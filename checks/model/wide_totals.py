"""The calls of `ratio_totals` on wide totals, on lists, and the splits."""
from fractions import Fraction
from types import SimpleNamespace

from model.common import RANGES, fits, order
from model.readings import (
    MOST_DIGITS, below, by_rules, decimal_bytes, decimal_digits, digits, lcm, listed, pairs, parts, read, refused,
    rounded, step, whole,
)
from model.totals import length, slots, total

READS = ["sum", "mean", "sign", "to_f64", "to_integer", "round_to", "put_decimal"]
SHORT = refused("ratio_totals", "ShortRoom ShortRoom")


def wide(size, value=Fraction(0), common=1, count=0):
    return SimpleNamespace(size=size, value=value, common=common, count=count)


def put(into, other, sign, spare):
    """Puts in another total, or says why not."""
    if spare < 8 * into.size + 6:
        return "MoreRoom"
    both = lcm(into.common, other.common)
    if into.size < other.size or 2 ** (64 * into.size) <= both:
        return "MoreDigits"
    into.value, into.common, into.count = into.value + sign * other.value, both, into.count + sign * other.count
    return None


def one(fields, factor=None):
    """The total of one fraction, or of a product. A fraction needs no more digits than any total has."""
    value = Fraction(*fields) * (Fraction(*factor) if factor else 1)
    return wide(2, value, value.denominator, 1)


def is_great(it):
    return not (below(128)(it.value.numerator) and below(128)(it.value.denominator))


def take(into, word, spare):
    """Takes a step. It must be refused exactly if it says so."""
    is_refused, sign, fractions, factor = step(word)
    for fields in fractions:
        other = one(fields, factor)
        why = "TooGreat" if is_great(other) else put(into, other, sign, spare)
        if (why is not None) != is_refused:
            raise ValueError(f"{word}: {why}")


def begun(size, room, words, spare):
    """The total of a list and of steps."""
    if not 2 <= size <= MOST_DIGITS or room < 4 * size + 6:
        raise ValueError("the room is too small for the total")
    into = wide(size)
    for word in words:
        for fields in listed(word) if word.startswith("[") else []:
            if put(into, one(fields), 1, spare):
                raise ValueError(f"{word} does not fit")
        if not word.startswith("["):
            take(into, word, spare)
    return into


def built(words):
    """Both totals of a row."""
    own, _, others = words.partition(" with ")
    own, _, moved = own.partition(" moved_to ")
    size, room, spare, *steps = own.split(" ")
    spare = len(digits(spare))
    first = begun(int(size), len(digits(room)), steps, spare)
    if moved:
        size, room, *steps = moved.split(" ")
        first.size = int(size)
        for word in steps:
            take(first, word, spare)
    others, _, then = others.partition(" then ")
    size, room, *steps = others.split(" ") if others else ("2", "[0*14]")
    other = begun(int(size), len(digits(room)), [it for it in steps if it.startswith("[")], spare)
    for word in steps:
        if word in ("merge", "take_out"):
            if put(first, other, 1 if word == "merge" else -1, spare):
                raise ValueError(f"{word} is refused")
        elif not word.startswith("["):
            take(other, word, spare)
    for word in then.split(" ") if then else []:
        take(first, word, spare)
    return first, other


def read_total(call, first, args, rule, span):
    numbers, rooms, buffers = parts(args)
    number = whole(numbers[0]) if numbers else first.count
    if call == "put_decimal":
        short = rooms[0] < decimal_digits(first.size, number) or buffers[0] < decimal_bytes(first.size, number)
    else:
        short = rooms[0] < 4 * first.size + (6 if call in ("sign", "to_f64") else 14)

    def limit(number):
        return fits(span, number)

    return SHORT if short else read(call, first.value, number, rule, limit, limit)


def compared(first, other, free):
    return SHORT if free < 3 * (first.size + other.size) + 11 else order(first.value, other.value)


def changed(call, first, other, numbers, rooms):
    """What a change returns. A fraction that is taken out is refused as one that is added."""
    name = "WideRefusal"
    if call in ("merge", "take_out"):
        why = put(first, other, 1, rooms[0])
    else:
        more = one(*(pairs(it)[0] for it in numbers))
        name = "WideProductRefusal" if "product" in call else name
        why = "TooGreat" if is_great(more) else put(first, more, 1, rooms[0])
    return refused("ratio_totals", f"{name} {why}") if why else "ok"


def of_total(call):
    def answer(words, args, rule):
        kind, _, words = words.partition(" ")
        numbers, rooms, _ = parts(args)
        if call == "new":
            size, room = words.split(" ")
            return "0" if 2 <= int(size) <= MOST_DIGITS and 4 * int(size) + 6 <= len(digits(room)) else "none"
        first, other = built(words)
        if call in READS:
            return read_total(call, first, args, rule, RANGES[kind])
        if call in ("compare", "compare_with"):
            return compared(first, other if call == "compare" else one(pairs(numbers[0])[0]), rooms[0])
        if call == "moved_to":
            size = whole(numbers[0])
            return str(first.count) if first.size <= size <= MOST_DIGITS and 4 * size + 6 <= rooms[0] else SHORT
        return str(first.count) if call == "count" else changed(call, first, other, numbers, rooms)

    return by_rules(answer)


def typed_sum(words):
    """The lowest terms of the sum of a list, if they fit the type, with the fractions."""
    kind, items = words.split(" ")
    return read("sum", total(listed(items)), 0, "", lambda it: fits(RANGES[kind], it)), listed(items)


def checked_sum_in(words, args, _):
    """No slot and no room are needed if the common denominator has at most 64 bits, and no numerator over it more than 128."""
    answer, items = typed_sum(words)
    common = lcm(*(denom for _, denom in items))
    if below(64)(common) and all(abs(total(items[:i]) * common) < 2**127 for i in range(len(items) + 1)):
        return answer
    given, room = args.split(" ")
    denominators = len({Fraction(*it).denominator for it in items})
    if len(slots(given)) < denominators:
        return refused("ratio_totals", "SumRefusal MoreSlots")
    return answer if 4 * length(denominators) + 6 <= len(digits(room)) else refused("ratio_totals", "SumRefusal MoreRoom")


def has_place(items, size, room, spare):
    """Why the sum of the fractions has no place in the room, if it has none."""
    if not 2 <= size <= MOST_DIGITS or room < 4 * size + 6 or spare < 8 * size + 6:
        return "MoreRoom"
    return "MoreDigits" if 2 ** (64 * size) <= lcm(*(Fraction(*it).denominator for it in items)) else None


def checked_wide_sum_in(words, args, _):
    answer, items = typed_sum(words)
    (size,), rooms, _ = parts(args)
    why = has_place(items, int(size), *rooms)
    return refused("ratio_totals", f"WideRefusal {why}") if why else answer


def marks_of(amount, shares):
    """The amount times the sums of the first shares, rounded with a half away from 0. The parts are their differences."""
    return [rounded(whole(amount) * total(shares[:i]), "HalfAway") for i in range(len(shares) + 1)]


def differences(marks):
    return " ".join(str(high - low) for low, high in zip(marks, marks[1:]))


def split(words, *_):
    """Each sum of the first shares, and each mark, has to fit the type."""
    kind, amount, shares = words.split(" ")
    shares = listed(shares)
    sums = [total(shares[:i]) for i in range(len(shares) + 1)]
    marks = marks_of(amount, shares)
    fit = all(fits(RANGES[kind], it.numerator, it.denominator) for it in sums) and fits(RANGES[kind], *marks)
    return differences(marks) if fit else "refused: a sum of the first shares, or the amount times this sum, rounded, does not fit the type"


def split_in(words, args, _):
    _, amount, shares = words.split(" ")
    (places, size), rooms, _ = parts(args)
    shares = listed(shares)
    reasons = [
        (int(places) != len(shares), "Length"), (any(numer < 0 for numer, _ in shares), "BelowZero"),
        (has_place(shares, int(size), *rooms), "TooMany"), (total(shares) != 1, "NotOne"),
    ]
    for applies, why in reasons:
        if applies:
            return refused("ratio_totals", f"RoomSplitRefusal {why}")
    return differences(marks_of(amount, shares))


CHANGES = "new count add subtract add_product subtract_product merge take_out moved_to compare compare_with".split()
CALLS = {f"ratio_totals::WideTotal::{name}": of_total(name) for name in READS + CHANGES}
CALLS.update({f"ratio_totals::{it.__name__}": by_rules(it) for it in (checked_sum_in, checked_wide_sum_in, split_in)})
CALLS["num_rational::split"] = by_rules(split)
