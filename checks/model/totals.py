"""The calls on slots and on totals in slots, of `ratio_slots` and `ratio_totals`."""
from fractions import Fraction
from types import SimpleNamespace

from model.common import RANGES, fits, order
from model.readings import (
    MOST_DIGITS, MOST_WEIGHT, below, by_rules, decimal_bytes, decimal_digits, digits, lcm, listed, pairs, parts,
    read, refused, step, whole,
)

READS = ["sum", "mean", "sign", "to_f64", "to_integer", "round_to", "put_decimal"]


def total(fractions):
    return sum((Fraction(*it) for it in fractions), Fraction(0))


def slots(word):
    """The fields of the slots of a list, or of so many empty ones."""
    return [(0, 0)] * int(word) if word.isdigit() else listed(word)


def length(denominators):
    """The digits that a read keeps for the common denominator of so many slots."""
    return max(1, min(denominators, MOST_DIGITS))


def has_room(kind, size, number, rooms, buffers):
    """Whether the room of a read and its buffer are long enough."""
    if kind == "put_decimal":
        return decimal_digits(size, number) <= rooms[-1] and decimal_bytes(size, number) <= buffers[0]
    return 4 * size + (12 if kind == "round_to" else 6) <= rooms[-1]


def read_slots(kind, fractions, count, args, rule, limit, whole_limit):
    """A read of slots whose denominators are not 0."""
    numbers, rooms, buffers = parts(args)
    number = whole(numbers[0]) if numbers else count
    if not has_room(kind, length(len(fractions)), number, rooms, buffers):
        return refused("ratio_slots", "ReadRefusal MoreRoom")
    return read(kind, total(fractions), number, rule, limit, whole_limit)


def whole_128(number):
    return fits(RANGES["i128"], number)


# ---- lists of slots

LISTED = {
    "sum_of": "sum", "mean_of": "mean", "sign_of": "sign", "float_of": "to_f64", "integer_of": "to_integer", "multiple_of": "round_to",
    "put_decimal_of": "put_decimal",
}


def of_list(kind):
    return by_rules(lambda words, args, rule: read_slots(kind, [it for it in listed(words) if it[1]], 1, args, rule, below(64), whole_128))


def put_bounded_of(words, args, rule):
    (places,), rooms, buffers = parts(args)
    places = int(places)
    if rooms[0] < places // 19 * 9 + 35 or buffers[0] < (places // 19 * 2 + 8) * 20 + places + 3:
        return refused("ratio_slots", "ReadRefusal MoreRoom")
    value = total(it for it in listed(words) if it[1])
    return "none" if (value * 10**places * 2).denominator == 1 else read("put_decimal", value, places, rule, None)


def order_of(words, args, _):
    left, right = map(listed, words.split(" with "))
    between, room = args.split(" ")
    if len(slots(between)) < len(left) + len(right):
        return refused("ratio_slots", "OrderRefusal MoreSlots")
    if any(numer == -(2**127) for numer, _ in right):
        return refused("ratio_slots", "OrderRefusal TooGreat")
    held = [it for it in left + right if it[1]]
    if len(digits(room)) < 4 * length(len(held)) + 6:
        return refused("ratio_slots", "OrderRefusal MoreRoom")
    return order(total(it for it in left if it[1]), total(it for it in right if it[1]))


def put_loose(words, args, _):
    ((numer, denom),) = pairs(args)
    held = listed(words)
    if any(more and not under for more, under in held):
        return refused("ratio_slots", "LooseRefusal NotEmpty")
    if not any(under in (0, denom) for _, under in held):
        return refused("ratio_slots", "LooseRefusal MoreRoom")
    numer += sum(more for more, under in held if under == denom)
    return f"{numer}/{denom}" if whole_128(numer) else refused("ratio_slots", "LooseRefusal TooGreat")


def find(words, args, _):
    return next((str(i) for i, (_, denom) in enumerate(listed(words)) if denom == whole(args)), "none")


def add_short(words, *_):
    ((numer, common),), ((more, denom),) = map(pairs, words.split(" "))
    both = lcm(common, denom)
    numbers = [numer * (both // common), more * (both // denom)]
    shown = all(map(whole_128, [*numbers, sum(numbers), both]))
    return f"{sum(numbers)}/{both}" if shown else "none"


def short_pair(words, *_):
    return read("sum", total(pairs(words)), 0, "", below(64))


def count_digits(more):
    """How many digits a read of the slots needs."""
    return lambda words, *_: str(4 * length(sum(denom != 0 for part in words.split(" with ") for _, denom in slots(part))) + more)


def read_over(words, args, _):
    """Both numbers over the common denominator by their digits, the lowest first."""
    held = [it for it in listed(words) if it[1]]
    if len(digits(args)) < 4 * length(len(held)) + 6:
        return refused("ratio_slots", "ReadRefusal MoreRoom")
    common = lcm(*(denom for _, denom in held))
    numer = sum(more * (common // denom) for more, denom in held)
    return f"{'-' if numer < 0 else ''}{number_digits(abs(numer))}/{number_digits(common)}"


def number_digits(number):
    found = []
    while number:
        number, digit = divmod(number, 2**64)
        found.append(digit)
    return found


# ---- a total that grows

def next_length(words, args, _):
    taken, more, chance = map(whole, words.split(" "))
    fewest = max(8, 2 * (taken + more))
    found = fewest + chance % (fewest // 8 + 1)
    return "none" if whole(args) < found else str(found)


def leave_zeros(words, *_):
    fractions = [it for it in listed(words) if all(it)]
    return " ".join([str(len(fractions)), *(f"{numer}/{denom}" for numer, denom in fractions + [(0, 0)] * (len(listed(words)) - len(fractions)))])


# ---- totals in slots

def table(size):
    return SimpleNamespace(size=size, held={}, weight=0, count=0)


def put(into, fractions, sign, count):
    """Puts in what has these numerators over these denominators, so often, or says why not."""
    if into.size < len({*into.held, *fractions}):
        return "MoreRoom"
    if MOST_WEIGHT < into.weight + abs(count[0]):
        return "TooMany"
    for denom, numer in fractions.items():
        into.held[denom] = into.held.get(denom, 0) + sign * numer
    into.weight, into.count = into.weight + count[0], into.count + sign * count[1]
    return None


def reduced(fields):
    value = Fraction(*fields)
    return value.numerator, value.denominator


def take(into, word):
    """Takes a step. It must be refused exactly if it says so."""
    is_refused, sign, fractions, factor = step(word)
    for fields in fractions:
        numer, denom = reduced(fields)
        if factor:
            numer, denom = reduced((numer * factor[0], denom * factor[1]))
        why = "TooGreat" if not (below(64)(numer) and below(64)(denom)) else put(into, {denom: numer}, sign, (1, 1))
        if (why is not None) != is_refused:
            raise ValueError(f"{word}: {why}")


def merge(into, other, sign):
    return put(into, other.held, sign, (other.weight, other.count))


def products(words):
    """The products of two lists in lowest terms, or those of one list with 1."""
    lists = [listed(it) for it in words]
    return [reduced((x[0] * y[0], x[1] * y[1])) for x, y in zip(lists[0], lists[1] if lists[1:] else [(1, 1)] * len(lists[0]))]


def built(words):
    """Both totals of a row."""
    own, _, others = words.partition(" with ")
    own, _, moved = own.partition(" moved_to ")
    count, *steps = own.split(" ")
    first = table(len(slots(count)))
    if steps and steps[0].startswith("["):
        for numer, denom in products(steps):
            put(first, {denom: numer}, 1, (1, 1))
        steps = []
    for word in steps:
        take(first, word)
    count, *steps = (others or "0").split(" ")
    other = table(len(slots(count)))
    for word in steps:
        if word.lstrip("!") in ("merge", "take_out"):
            if (merge(first, other, 1 if "merge" in word else -1) is not None) != word.startswith("!"):
                raise ValueError(word)
        else:
            take(other, word)
    if moved:
        count, *steps = moved.split(" ")
        first.size = len(slots(count))
        for word in steps:
            take(first, word)
    return first, other


def compared(first, other, args):
    between, room = args.split(" ")
    both = {*first.held, *other.held}
    if len(slots(between)) < len(both):
        return refused("ratio_slots", "CompareRefusal MoreSlots")
    if len(digits(room)) < 4 * length(len(both)) + 6:
        return refused("ratio_slots", "CompareRefusal MoreRoom")
    return order(value_of(first), value_of(other))


def value_of(it):
    return total((numer, denom) for denom, numer in it.held.items())


def changed(first, call, other, args):
    """What a change of a total returns."""
    if call == "moved_to":
        return str(first.count) if len(first.held) <= len(slots(args)) else refused("ratio_slots", "Refusal MoreRoom")
    if call in ("merge", "take_out"):
        why = merge(first, other, 1)
    else:
        numer, denom = 1, 1
        for x in map(pairs, args.split(" ")):
            numer, denom = numer * x[0][0], denom * x[0][1]
        numer, denom = reduced((numer, denom))
        great = call == "add_product" and not (below(64)(numer) and below(64)(denom))
        why = "TooGreat" if great else put(first, {denom: numer}, 1, (1, 1))
    library, name = ("ratio_totals", "ProductRefusal") if call == "add_product" else ("ratio_slots", "Refusal")
    return refused(library, f"{name} {why}") if why else "ok"


def of_total(call):
    """A call on a total over the type that the first word names."""

    def answer(words, args, rule):
        kind, _, rest = words.partition(" ")
        span = RANGES[kind]
        first, other = built(rest)
        size = length(len(first.held))
        if call in READS:
            limit = lambda number: fits(span, number)
            fractions = [(numer, denom) for denom, numer in first.held.items()]
            return read_slots(call, fractions, first.count, args, rule, limit, limit)
        if call == "compare_with":
            fraction, _, args = args.partition(" ")
            other = table(1)
            take(other, "+" + fraction)
        if call in ("compare", "compare_with"):
            return compared(first, other, args)
        counts = {
            "count": lambda: first.count, "numerator_in": lambda: first.held.get(whole(args), 0), "read_digits": lambda: 4 * size + 6,
            "multiple_digits": lambda: 4 * size + 12, "decimal_digits": lambda: decimal_digits(size, whole(args)),
            "decimal_bytes": lambda: decimal_bytes(size, whole(args)),
        }
        return str(counts[call]()) if call in counts else changed(first, call, other, args)

    return by_rules(answer)


def total_of(words, *_):
    kind, count, items = words.split(" ")
    first = table(len(slots(count)))
    whys = [put(first, {denom: numer}, 1, (1, 1)) for numer, denom in products([items])]
    return refused("ratio_slots", "Refusal MoreRoom") if "MoreRoom" in whys else str(first.count)


def dot(words, *_):
    _, count, xs, ys = words.split(" ")
    if len(listed(xs)) != len(listed(ys)):
        return refused("ratio_totals", "DotRefusal UnlikeLengths")
    first = table(len(slots(count)))
    for numer, denom in products([xs, ys]):
        why = put(first, {denom: numer}, 1, (1, 1)) if below(64)(numer) and below(64)(denom) else "TooGreat"
        if why:
            return refused("ratio_totals", f"DotRefusal {why}")
    return str(first.count)


CALLS = {f"ratio_slots::{name}": of_list(kind) for name, kind in LISTED.items()}
for function in (put_bounded_of, order_of, put_loose, find, add_short, short_pair, next_length, leave_zeros):
    CALLS[f"ratio_slots::{function.__name__}"] = by_rules(function)
for name, more in (("read", 6), ("multiple", 12), ("order", 6)):
    CALLS[f"ratio_slots::digits_of_{name}"] = by_rules(count_digits(more))
COUNTS = "count read_digits multiple_digits decimal_digits decimal_bytes".split()
CHANGES = "add subtract add_product merge take_out moved_to compare compare_with".split()
for name in READS + COUNTS + CHANGES:
    CALLS[f"ratio_totals::Total::{name}"] = of_total(name)
CALLS.update({"ratio_slots::numerator_in": of_total("numerator_in"), "ratio_slots::read_slots": by_rules(read_over)})
CALLS.update({"ratio_totals::total_of": by_rules(total_of), "ratio_totals::dot": by_rules(dot)})
