"""The calls of `ratio_expressions`: what a person types. Places are counted in characters, from 0."""
import math
import re
import unicodedata
from fractions import Fraction
from functools import reduce

from model.big import decimal_text, gcd, nearest, nearest_float, quoted, simplest, unquoted, whole
from model.common import truth
from model.hints import advice

VULGAR = "[¼½¾⅐⅑⅒⅓⅔⅕⅖⅗⅘⅙⅚⅛⅜⅝⅞↉]"
EXPONENT = r"(?:[eE][+-]?\d+)?"
DECIMAL = rf"\d+(?:\.\d+)?{EXPONENT}|\.\d+{EXPONENT}|{VULGAR}"
MIXED = re.compile(rf"(\d+(?: \d+/\d+| ?{VULGAR}))(?![ \t]*(?:\^|\*\*))", re.ASCII)
TOKEN = re.compile(rf"(?P<number>{DECIMAL})|(?P<name>[A-Za-z_]\w*)|(?P<sign><=|>=|!=|\*\*|[-+*/%^<=>(),×·∙⋅÷⁄−–≠≤≥])", re.ASCII)
PERCENT = re.compile(r"%(?![\w.(])", re.ASCII)
PLAIN = {"×": "*", "·": "*", "∙": "*", "⋅": "*", "**": "^", "÷": "/", "⁄": "/", "−": "-", "–": "-", "≠": "!=", "≤": "<=", "≥": ">="}
NAMES = {"+": "Add", "-": "Subtract", "*": "Multiply", "/wide": "Divide(Wide)", "/half": "Divide(Half)", "/tight": "Divide(Tight)", "<=": "AtMost", ">=": "AtLeast", "!=": "NotEqual"}
COMPARISONS = {
    "<": lambda x, y: x < y,
    "<=": lambda x, y: x <= y,
    "=": lambda x, y: x == y,
    "!=": lambda x, y: x != y,
    ">=": lambda x, y: x >= y,
    ">": lambda x, y: x > y,
}
NO_EXPRESSION = "the expression cannot go on like this"


class Refused(Exception):
    """Why a text has no value, and the place."""


def tokens_of(text):
    """The tokens: the kind or the plain sign, the piece of the text and the place. The last one has the kind `end`, or `none` where none begins."""
    tokens, at = [], 0
    while at < len(text):
        kind, piece = token_at(text, at)
        if not kind and text[at] not in " \t":
            break
        if kind:
            tokens.append((kind, piece, at))
        at += len(piece) or 1
    return [*tokens, ("end" if at == len(text) else "none", "", at)]


def token_at(text, at):
    """The kind of the token at a place, and its piece, or two empty texts."""
    match = TOKEN.match(text, at)
    if not match:
        return "", ""
    piece, kind = match[0], match.lastgroup
    if kind == "number":
        slash = text[:at].endswith(("/", "⁄")) and not text[: at - 1].endswith((" ", "\t"))
        mixed = MIXED.match(text, at)
        piece = mixed[1] if mixed and not slash else piece
        return kind, piece + ("%" if PERCENT.match(text, at + len(piece)) and not slash else "")
    if piece == "%" and not text[:at].endswith((" ", "\t")) and PERCENT.match(text, at):
        return "", ""
    if piece in "/÷⁄%":
        spaces = text[:at].endswith((" ", "\t")) + text[at + 1 :].startswith((" ", "\t"))
        return PLAIN.get(piece, piece) + ("tight" if piece in "/⁄" and spaces == 0 else "wide" if spaces == 2 else "half"), piece
    return PLAIN.get(piece, piece) if kind == "sign" else kind, piece


def steps_of(text):
    """The steps of the text's tree in postfix order, each like a token. A call has the number of its arguments, too."""
    return parsed(text)[0]


def parsed(text):
    """The steps, and the chains that are taken whole, from one place to another."""
    tokens, steps, chains, ends = tokens_of(text), [], [], [0]

    def taken(*kinds):
        if tokens[0][0] in kinds:
            ends.append(tokens[0][2] + len(tokens[0][1]))
            return tokens.pop(0)

    def must(*kinds):
        token = taken(*kinds)
        if not token:
            raise Refused(NO_EXPRESSION, tokens[0][2])
        return token

    def primary():
        kind, piece, place = must("number", "name", "(")
        if kind == "(":
            sum_()
            must(")")
            steps.append(("group", "g", "g", place))
        elif kind == "name" and taken("("):
            call(piece, place)
        else:
            steps.append((kind, kind, piece, place))

    def call(name, place):
        count = 1
        sum_()
        while must(",", ")")[0] == ",":
            sum_()
            steps.append(("comma", ",", ",", place))
            count += 1
        steps.append(("call", count, f"{name}:{count}", place))

    def power():
        primary()
        if operator := taken("^"):
            signed()
            steps.append(("apply", *operator))

    def signed():
        if sign := taken("+", "-"):
            signed()
            steps.append(("sign", sign[0], {"-": "~", "+": "+~"}[sign[0]], sign[2]))
        else:
            power()

    def product():
        signed()
        while operator := taken("*", "/tight", "/half", "%half", "/wide", "%wide"):
            start, chained = tokens[0][2], False
            signed()
            while operator[0] in ("/wide", "%wide") and (slash := taken("/tight")):
                signed()
                steps.append(("apply", *slash))
                chained = True
            chains.extend([(start, ends[-1])] if chained else [])
            steps.append(("apply", *operator))

    def sum_():
        product()
        while operator := taken("+", "-"):
            product()
            steps.append(("apply", *operator))

    sum_()
    if operator := taken(*COMPARISONS):
        sum_()
        steps.append(("apply", *operator))
    must("end")
    return steps, chains


def number(piece, place):
    """The value of a number as it is typed."""
    text = piece.removesuffix("%")
    if len(re.sub(r"\D", "", re.split("[eE]", text + "e", maxsplit=1)[1])) > 5:
        raise Refused("the exponent has more than five digits", place)
    spelled = re.sub(rf"(\d?) ?({VULGAR})", lambda it: f"{it[1]} {unicodedata.normalize('NFKC', it[2])}", text).replace("⁄", "/")
    try:
        value = sum(map(Fraction, spelled.split()))
    except ZeroDivisionError:
        raise Refused("the denominator is 0", place) from None
    return value / 100 if piece.endswith("%") else value


def bits(x):
    """The least number of bits with both numbers at most 2 to this power."""
    return (max(abs(x.numerator), x.denominator) - 1).bit_length()


def fitting(values, place):
    """The numbers, if they have at most a million bits together."""
    if sum(map(bits, values)) > 10**6:
        raise Refused("the numbers have more than a million bits together", place)
    return values


def power(x, y, place):
    if y.denominator != 1:
        raise Refused("the exponent is no whole number", place)
    if bits(x) * abs(y) > 10**6:
        raise Refused("the power may have more than a million bits", place)
    return quotient(Fraction(1), x ** -int(y), place) if y < 0 else x ** int(y)


def quotient(x, y, place):
    if y == 0:
        raise Refused("this divides by 0", place)
    return x / y


def bounded(x, most):
    return "the bound is below 1" if most < 1 else Fraction(nearest(x, most))


def between(x, y):
    return "there is nothing between equal numbers" if x == y else simplest(min(x, y), max(x, y))


def lcm(x, y):
    return abs(x * y) / gcd(x, y) if x * y else Fraction(0)


# How many numbers each call takes, and what it gives of them. A text says why it refuses them.
MANY = range(1, 100)
FUNCTIONS = {
    "abs": ([1], abs),
    "floor": ([1], math.floor),
    "ceil": ([1], math.ceil),
    "round": ([1], lambda x: whole("HalfAway", x)),
    "trunc": ([1], math.trunc),
    "cents": ([1], lambda x: Fraction(whole("HalfAway", x * 100), 100)),
    "gcd": (MANY, lambda *all: abs(reduce(gcd, all))),
    "lcm": (MANY, lambda *all: abs(reduce(lcm, all))),
    "min": (MANY, lambda *all: min(all)),
    "max": (MANY, lambda *all: max(all)),
    "nearest": ([2], bounded),
    "between": ([2], between),
}


def called(name, arguments, place):
    if name not in FUNCTIONS:
        raise Refused("there is no such call", place)
    counts, function = FUNCTIONS[name]
    if len(arguments) not in counts:
        raise Refused("the call takes another number of arguments", place)
    result = function(*fitting(numbers(arguments, place), place))
    if isinstance(result, str):
        raise Refused(result, place)
    return Fraction(result)


def numbers(values, place):
    if any(isinstance(it, bool) for it in values):
        raise Refused("this takes numbers, and not true or false", place)
    return values


def applied(operator, x, y, place):
    if operator in COMPARISONS:
        return COMPARISONS[operator](x, y)
    if operator == "^":
        return power(x, y, place)
    fitting([x, y], place)
    if operator[0] in "/%":
        divided = quotient(x, y, place)
        return divided if operator[0] == "/" else x - y * math.trunc(divided)
    return {"+": x + y, "-": x - y, "*": x * y}[operator]


def value_of(text, names, hidden=0):
    """The value of a text behind its first characters, which are hidden."""
    stack = []
    for kind, what, piece, place in steps_of(" " * hidden + text[hidden:]):
        if kind == "number":
            stack.append(number(piece, place))
        elif kind == "name":
            if piece not in names:
                raise Refused("nothing has this name", place)
            stack.append(names[piece])
        elif kind == "sign":
            operand = numbers([stack.pop()], place)[0]
            stack.append(operand if what == "+" else -operand)
        elif kind == "call":
            stack[-what:] = [called(piece.partition(":")[0], stack[-what:], place)]
        elif kind == "apply":
            stack[-2:] = [applied(what, *numbers(stack[-2:], place), place)]
    return stack[0]


def answer(line, names):
    """The value of a line, which gives it names."""
    steps_of(line)
    match = re.match(r"[ \t]*([A-Za-z_]\w*)[ \t]*=", line, re.ASCII)
    value = value_of(line, names, match.end() if match else 0)
    names.update({match[1]: value} if match else {}, ans=value)
    return value


def worth(value):
    return truth(value) if isinstance(value, bool) else str(value)


def worth_of(compute, *words):
    try:
        return worth(compute(*words))
    except Refused as refusal:
        reason, place = refusal.args
        return f"refused: {reason}, at column {place + 1}"


def read_as(text):
    """The text with parentheses around the chains of slashes that are taken whole, or `None` if there is none, or if it is long."""
    try:
        chains = parsed(text)[1]
    except Refused:
        return None
    if not chains or len(text.encode()) > 1000:
        return None
    marks = {place: sign for start, end in chains for place, sign in ((start, "("), (end, ")"))}
    return "".join(marks.get(at, "") + character for at, character in enumerate(text)) + marks.get(len(text), "")


def mixed(x):
    floor = math.trunc(x)
    return f"{floor} {abs(x - floor)}" if floor and x != floor else str(x)


def both(x):
    decimal = decimal_text(x, 6, "HalfAway")
    if x.denominator == 1:
        return str(x)
    return f"{x} = {decimal.rstrip('0')}" if 10**6 % x.denominator == 0 else f"{x} ≈ {decimal}"


def float_text(x):
    """The nearest float with the fewest places that read back as it."""
    near = nearest_float(x, 64)
    if isinstance(near, float):
        return str(near)
    for places in range(1075):
        text = decimal_text(near, places, "HalfEven")
        if nearest_float(Fraction(text), 64) == near:
            return text


def in_form(x, form, places):
    return {
        "Fraction": str,
        "Decimal": lambda x: decimal_text(x, places, "HalfAway"),
        "Mixed": mixed,
        "Fields": lambda x: "\t".join([str(x), decimal_text(x, places, "HalfAway"), mixed(x)]),
        "Both": both,
        "Float": float_text,
    }[form](x)


def reply(line, form, places, names):
    if not line.strip(" \t"):
        return ""
    try:
        value = answer(line, names)
    except Refused as refusal:
        reason, place = refusal.args
        reason = "the expression ends too soon" if reason == NO_EXPRESSION and place == len(line) else reason
        shown = re.sub(r"[\x00-\x1f\x7f]", "?", line.replace("\t", " "))
        return f"{shown}\n{' ' * place}^\nerror: {reason}, at column {place + 1}{advice(line, reason, place)}"
    is_truth = isinstance(value, bool)
    text = truth(value) if is_truth else in_form(value, form, places)
    shown = read_as(line) if form == "Both" else None
    return text if shown is None else shown + (": " if is_truth else " = ") + text


def typed(words):
    """The text of a row, in which escapes stand for one byte."""
    text = unquoted(words)
    for escape, byte in (("\\n", "\n"), ("\\r", "\r"), ("\\t", "\t"), ("\\0", "\0")):
        text = text.replace(escape, byte)
    return text


def shown(text):
    return quoted(text.replace("\n", "\\n").replace("\t", "\\t"))


def tree_of(words):
    try:
        return " ".join(piece for _, _, piece, _ in steps_of(typed(words)))
    except Refused as refusal:
        return f"refused at column {refusal.args[1] + 1}"


def operators(words):
    return " ".join(NAMES[what] for kind, what, *_ in steps_of(typed(words)) if kind == "apply")


def answers(words):
    names = {}
    return " ".join(worth_of(answer, line, names) for line in typed(words).split("\n"))


def reply_to(words):
    named, text = re.fullmatch(r'([^"]*) (".*")', words).groups()
    form, _, places = named.partition(" ")
    names = {}
    return shown("\n".join(reply(line, form, int(places or 0), names) for line in typed(text).split("\n")))


def reading(words):
    read = read_as(typed(words))
    return "none" if read is None else shown(read)


CALLS = {
    "expr::tree_of": tree_of,
    "expr::operators": operators,
    "expr::value_of": lambda words: worth_of(value_of, typed(words), {}),
    "expr::answer": answers,
    "expr::read_as": reading,
    "replies::reply_to": reply_to,
}
