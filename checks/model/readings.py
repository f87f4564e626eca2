"""What totals, slots and rooms share: words of their rows, reads of a sum, and the texts of refusals."""
import re
import struct
from fractions import Fraction
from math import floor, gcd

from model.common import order

CALLS = {}
RULES = ["HalfAway", "HalfEven", "Down", "Up", "Floor", "Ceil"]
MOST_DIGITS = 16384
MOST_WEIGHT = 2**63 - 1


def lcm(*numbers):
    """The least common multiple. That of no numbers is 1."""
    found = 1
    for number in numbers:
        found = found // gcd(found, number) * number
    return found


def by_rules(answer):
    """A call whose row ends with ` by RULE`; `each` stands for all six. `answer` takes the words, those behind ` in ` and the rule."""

    def answers(words):
        words, _, rule = words.partition(" by ")
        words, _, args = words.partition(" in ")
        return " ".join(answer(words, args, it) for it in (RULES if rule == "each" else [rule]))

    return answers


def whole(word):
    """The number that a word writes: `-7`, or `2^64-59` and `-2^127` by a power of 2."""
    power = re.fullmatch(r"(-?)2\^(\d+)([+-]\d+)?", word)
    return int(power[1] + "1") * 2 ** int(power[2]) + int(power[3] or 0) if power else int(word)


def pairs(item):
    """The fields that an item stands for: `1/2*3` is 1/2 three times, and `1/2..4` is 1/2, 1/3 and 1/4."""
    if ".." in item:
        numer, _, span = item.partition("/")
        first, last = span.split("..")
        return [(int(numer), denom) for denom in range(int(first), int(last) + 1)]
    item, _, times = item.partition("*")
    numer, _, denom = item.partition("/")
    return [(whole(numer), whole(denom or "1"))] * int(times or 1)


def listed(word):
    """The fields of each fraction or slot in `[1/2,0/0]`."""
    if (word[:1], word[-1:]) != ("[", "]"):
        raise ValueError(f"{word} is no list")
    return [pair for item in word[1:-1].split(",") if item for pair in pairs(item)]


def digits(word):
    return [numer for numer, _ in listed(word)]


def parts(args):
    """The numbers, the lengths of the rooms and those of the buffers among the words."""
    words = args.split(" ") if args else []
    rooms = [len(digits(it)) for it in words if it.startswith("[")]
    buffers = [int(it.partition("*")[2]) for it in words if it.startswith(("x*", "0*"))]
    numbers = [it for it in words if not it.startswith(("[", "x*", "0*"))]
    return numbers, rooms, buffers


def rounded(value, rule):
    """The whole number that the rule says."""
    low, sign = floor(value), 1 if value > 0 else -1
    rest = value - low
    if rest == 0:
        return low
    if rule.startswith("Half") and rest == Fraction(1, 2):
        up = sign > 0 if rule == "HalfAway" else low % 2 == 1
    else:
        up = {"Down": sign < 0, "Up": sign > 0, "Floor": False, "Ceil": True}.get(rule, rest > Fraction(1, 2))
    return low + up


def decimal(value, places, rule):
    """The text with so many places, in quotes."""
    number = rounded(value * 10**places, rule)
    text = str(abs(number)).zfill(places + 1)
    text = text[:-places] + "." + text[-places:] if places else text
    return f'"{"-" if number < 0 else ""}{text}"'


def bits(value):
    """The bits of the nearest float."""
    return "0x" + struct.pack(">d", value.numerator / value.denominator).hex()


def pair(value, limit):
    """Lowest terms, or none if the limit does not hold of both numbers."""
    value = Fraction(value)
    return f"{value.numerator}/{value.denominator}" if limit(value.numerator) and limit(value.denominator) else "none"


def read(kind, value, number, rule, limit, whole_limit=None):
    """What a read of this sum returns where there is room. The number is a count, places or parts of 1."""
    if kind == "mean":
        return pair(value / number, limit) if 0 < number else "none"
    if kind == "round_to":
        return pair(Fraction(rounded(value * number, rule), number), limit)
    if kind == "to_integer":
        whole = rounded(value, rule)
        return str(whole) if whole_limit(whole) else "none"
    if kind == "put_decimal":
        return decimal(value, number, rule)
    return {"sum": lambda: pair(value, limit), "sign": lambda: order(value, 0), "to_f64": lambda: bits(value)}[kind]()


def decimal_digits(length, places):
    """The digits that a decimal needs where the common denominator has so many."""
    return 4 * length + places // 19 * 2 + 12


def decimal_bytes(length, places):
    return (length + places // 19 + 5) * 20 + places + 3


def below(bits):
    """The limit of numbers without a type: less than 2^bits without the sign."""
    return lambda number: abs(number) < 2**bits


def step(word):
    """Whether it is refused, its sign, the fields of its fractions and those of a factor."""
    refused = word.startswith("!")
    word = word[refused:]
    items, _, factor = word[1:].partition("x")
    return refused, {"+": 1, "-": -1}[word[0]], pairs(items), pairs(factor)[0] if factor else None


def refused(library, refusal):
    """The answer of a call that refuses: `refused("ratio_slots", "Refusal MoreRoom")`."""
    name, variant = refusal.split(" ")
    return f"refused: {TEXTS[library, name][variant]}"


SLOTS_TAKEN = "all slots are taken by other denominators"
WEIGHT = "the total has its greatest weight, 2^63 - 1"
LONG = "the common denominator is not below 2^(2^20)"
MORE_DIGITS = "the common denominator needs more digits"
SHORT_ROOM = "the room is too small"
SPARE = "the spare digits are too few"
FEW_DIGITS = "the room has too few digits"

TEXTS = {
    ("ratio_slots", "Refusal"): {"MoreRoom": SLOTS_TAKEN, "TooMany": WEIGHT},
    ("ratio_slots", "ReadRefusal"): {"MoreRoom": SHORT_ROOM, "TooLong": LONG},
    ("ratio_slots", "CompareRefusal"): {
        "MoreSlots": "the slots are fewer than the denominators of both totals",
        "TooMany": "the weights of both totals are together above 2^63 - 1",
        "MoreRoom": FEW_DIGITS,
        "TooLong": "the common denominator of both totals is not below 2^(2^20)",
    },
    ("ratio_slots", "OrderRefusal"): {
        "MoreSlots": "the slots are fewer than those of both lists",
        "TooGreat": "the negative of a numerator of the second list does not fit 128 bits",
        "MoreRoom": FEW_DIGITS,
        "TooLong": "the common denominator of both lists is not below 2^(2^20)",
    },
    ("ratio_slots", "LooseRefusal"): {
        "MoreRoom": SLOTS_TAKEN,
        "NotEmpty": "the slot has the denominator 0, and a numerator that is not 0",
        "TooGreat": "the sum of the numerators does not fit 128 bits",
    },
    ("ratio_slots", "JoinRefusal"): {"NotJoined": "the room does not look as the last step left it", "TooLong": LONG},
    ("ratio_slots", "NoSum"): {"NoSum": "the room holds no sum, or is too small"},
    ("ratio_slots", "AddRefusal"): {
        "NoSum": "one of the rooms holds no sum",
        "MoreRoom": SPARE,
        "TooMany": "both sums together have 2^64 fractions or more",
        "MoreDigits": MORE_DIGITS,
    },
    ("ratio_totals", "ProductRefusal"): {
        "MoreRoom": SLOTS_TAKEN,
        "TooMany": WEIGHT,
        "TooGreat": "one of the lowest terms of the product is 2^64 or more",
    },
    ("ratio_totals", "DotRefusal"): {
        "UnlikeLengths": "the lists have different lengths",
        "MoreRoom": "the slots are fewer than the denominators of the products",
        "TooMany": "the lists have more than 2^63 - 1 items",
        "TooGreat": "one of the lowest terms of a product is 2^64 or more",
    },
    ("ratio_totals", "SumRefusal"): {
        "MoreSlots": "the items have more denominators than there are slots",
        "MoreRoom": SHORT_ROOM,
        "TooMany": "the items are more than 2^63 - 1",
        "TooLong": LONG,
    },
    ("ratio_totals", "WideRefusal"): {
        "MoreRoom": "the room or the spare digits are too few",
        "TooMany": WEIGHT,
        "MoreDigits": MORE_DIGITS,
    },
    ("ratio_totals", "WideProductRefusal"): {
        "MoreRoom": SPARE,
        "TooMany": WEIGHT,
        "MoreDigits": MORE_DIGITS,
        "TooGreat": "one of the lowest terms of the product is 2^128 or more",
    },
    ("ratio_totals", "ShortRoom"): {"ShortRoom": SHORT_ROOM},
    ("ratio_totals", "RoomSplitRefusal"): {
        "Length": "the number of parts is not the number of shares",
        "BelowZero": "a share is below 0",
        "TooMany": "the sum of the shares has no place in the room",
        "NotOne": "the shares do not add up to 1",
    },
}
CALLS.update({f"{library}::{name}::fmt": texts.__getitem__ for (library, name), texts in TEXTS.items()})
