"""The calls on sums in rooms, of `ratio_slots`: how many fractions, how many digits for the common denominator, and the room."""
from fractions import Fraction
from types import SimpleNamespace

from model.common import order
from model.readings import (
    MOST_DIGITS, below, by_rules, decimal_bytes, decimal_digits, digits, lcm, listed, parts, read, refused, step,
    whole,
)
from model.totals import length, number_digits

NO_SUM = refused("ratio_slots", "NoSum NoSum")


def number_of(some):
    return int.from_bytes(b"".join(digit.to_bytes(8, "little") for digit in some), "little")


def room_of(done, size, room):
    """The three numbers in a room: the sum of the positive numerators, the common denominator and the sum of the negative ones."""
    found = SimpleNamespace(done=done, size=size, length=len(room), positive=0, common=0, negative=0)
    if size <= MOST_DIGITS and 4 * size + 6 <= len(room):
        found.positive, found.common = number_of(room[: size + 3]), number_of(room[size + 3 : 2 * size + 3])
        found.negative = number_of(room[2 * size + 3 : 3 * size + 6])
    return found


def put(into, other, sign):
    """The sum with another one put in, or taken out."""
    both = lcm(into.common, other.common)
    mine, more = both // into.common, both // other.common
    ups, downs = (other.positive, other.negative) if sign > 0 else (other.negative, other.positive)
    into.positive, into.negative = into.positive * mine + ups * more, into.negative * mine + downs * more
    into.common, into.done = both, into.done + other.done


def fraction_in(fields, negative):
    """A fraction as a sum in a room of its own."""
    numer, denom = abs(fields[0]), fields[1]
    return SimpleNamespace(done=1, size=2, length=14, positive=0 if negative else numer, common=denom, negative=numer if negative else 0)


def held(words):
    """The sum that the words say."""
    first, *others = words.split(" ")
    if not others:
        return fraction_in(listed(f"[{first.lstrip('-')}]")[0], first.startswith("-"))
    if others[-1].startswith("["):
        return room_of(whole(first), whole(others[0]), digits(others[1]))
    into = SimpleNamespace(done=0, size=int(first), length=36, positive=0, common=1, negative=0)
    for word in others:
        _, sign, fractions, _ = step(word)
        for fields in fractions:
            put(into, fraction_in(fields, sign < 0), 1)
    return into


def holds_sum(it):
    """The numbers are those of as many fractions as the sum has, each of 128 bits."""
    return 0 < it.common and max(it.positive, it.negative) <= it.common * it.done * 2**128


def value_of(it):
    return Fraction(it.positive - it.negative, it.common)


def reading(call):
    """A read of the sum in a room."""
    kind, limit = call.replace("wide_", ""), below(128 if "wide" in call else 64)

    def answer(words, args, rule):
        it = held(words)
        numbers, _, buffers = parts(args)
        number = whole(numbers[0]) if numbers else 0
        needed = decimal_digits(it.size, number) if kind == "put_decimal" else 4 * it.size + (14 if kind == "round_to" else 6)
        if it.common == 0 or it.length < needed or kind == "put_decimal" and buffers[0] < decimal_bytes(it.size, number):
            return NO_SUM
        return read(kind, value_of(it), number, rule, limit)

    return by_rules(answer)


def told(it):
    """The counts, the three numbers and the sum."""
    numbers = " ".join(str(number_digits(number)) for number in (it.positive, it.common, it.negative))
    return f"{it.done} {it.size} {numbers} {read('sum', value_of(it), 0, '', below(64))}"


def changing(sign):
    def answer(words, args, _):
        into, other = map(held, words.split(" with "))
        if into.size < other.size:
            return refused("ratio_slots", "AddRefusal MoreDigits")
        if not (holds_sum(into) and holds_sum(other)):
            return refused("ratio_slots", "AddRefusal NoSum")
        if len(digits(args)) < 8 * into.size + 6:
            return refused("ratio_slots", "AddRefusal MoreRoom")
        if 2**64 <= into.done + other.done:
            return refused("ratio_slots", "AddRefusal TooMany")
        if 2 ** (64 * into.size) <= lcm(into.common, other.common):
            return refused("ratio_slots", "AddRefusal MoreDigits")
        put(into, other, sign)
        return told(into)

    return by_rules(answer)


def compare(words, args, _):
    left, right = map(held, words.split(" with "))
    if not (left.common and right.common) or len(digits(args)) < 3 * (left.size + right.size) + 11:
        return NO_SUM
    return order(value_of(left), value_of(right))


def moved_to(words, args, _):
    it = held(words)
    size, room = args.split(" ")
    if not holds_sum(it) or not it.size <= int(size) <= MOST_DIGITS or len(digits(room)) < 4 * int(size) + 6:
        return "none"
    it.size = int(size)
    return told(it)


def zero(words, args, _):
    size = int(words)
    return f"0 {size}" if 0 < size <= MOST_DIGITS and 4 * size + 6 <= len(digits(args)) else "none"


def of(_, args, __):
    return "1 2" if 14 <= len(digits(args)) else "none"


def slots_in(word):
    return length(sum(denom != 0 for _, denom in listed(word)))


def begin(words, args, _):
    return f"0 {slots_in(words)}" if 4 * slots_in(words) + 6 <= len(digits(args)) else "none"


def go_on(words, args, _):
    it = held(words)
    slots, most = args.split(" ")
    count = len(listed(slots))
    if count < it.done or not holds_sum(it):
        return refused("ratio_slots", "JoinRefusal NotJoined")
    return f"{min(it.done + int(most), count)} {it.size}"


READS = "sum mean sign to_f64 put_decimal wide_sum wide_mean wide_round_to".split()
CALLS = {f"ratio_slots::Joined::{name}": reading(name) for name in READS}
CALLS.update({f"ratio_slots::Joined::{it.__name__}": by_rules(it) for it in (compare, moved_to, zero, of, begin, go_on)})
CALLS.update({"ratio_slots::Joined::merge": changing(1), "ratio_slots::Joined::take_out": changing(-1)})
