"""What the calls of expressions give, by Python's Fraction, and drawn arguments for them."""
from fractions import Fraction
from math import ceil, floor, gcd, lcm, trunc

HALF, CENT = Fraction(1, 2), Fraction(1, 100)


def rounded(x):
    """The nearest whole number, a half rounded away from 0."""
    return floor(x + HALF) if x > 0 else ceil(x - HALF)


def greatest_divisor(*numbers):
    over = lcm(*(x.denominator for x in numbers))
    return Fraction(gcd(*(int(x * over) for x in numbers)), over)


def least_multiple(*numbers):
    return Fraction(lcm(*(x.numerator for x in numbers)), gcd(*(x.denominator for x in numbers)))


def nearest(x, most):
    """Of two fractions that are as near, `limit_denominator` takes the one with the smaller denominator, and else the lesser one."""
    return x.limit_denominator(floor(most)) if most >= 1 else "BoundBelowOne"


def between(x, y):
    low, high = min(x, y), max(x, y)
    if low == high:
        return "NothingBetween"
    if low < 0 < high:
        return Fraction(0)
    return first_between(low, high) if low >= 0 else -first_between(-high, -low)


def first_between(low, high):
    """The first fraction strictly between two from 0 on that a walk down the tree of Stern and Brocot meets. It goes many steps to one side at once."""
    (n, d), (m, e) = low.as_integer_ratio(), high.as_integer_ratio()
    (a, b), (p, q) = (0, 1), (1, 0)
    while True:
        if (a + p) * d <= n * (b + q):
            steps = (n * b - a * d) // (p * d - n * q)
            a, b = a + steps * p, b + steps * q
        elif (a + p) * e >= m * (b + q):
            steps = (p * e - m * q) // (m * b - a * e)
            p, q = p + steps * a, q + steps * b
        else:
            return Fraction(a + p, b + q)


OF_ONE = {"abs": abs, "floor": floor, "ceil": ceil, "round": rounded, "trunc": trunc, "cents": lambda x: rounded(x / CENT) * CENT}
OF_TWO = {"nearest": nearest, "between": between}
OF_MANY = {"gcd": greatest_divisor, "lcm": least_multiple, "min": lambda *numbers: min(numbers), "max": lambda *numbers: max(numbers)}
CALLS = {**OF_ONE, **OF_TWO, **OF_MANY}
UNKNOWN = ["nothing", "Max", "roun", "abs_"]


def takes(name, count):
    return count == 1 if name in OF_ONE else count == 2 if name in OF_TWO else True


def called(name, values):
    """What a call gives of the values of its arguments, or the reason why it refuses them."""
    if name not in CALLS:
        return "UnknownCall"
    if not takes(name, len(values)):
        return "ArgumentCount"
    if any(isinstance(x, bool) for x in values):
        return "NotNumber"
    result = CALLS[name](*values)
    return result if isinstance(result, str) else Fraction(result)


def drawn_call(dice, argument):
    """The name of a call, and its arguments, each drawn by `argument`: most often as many as it takes, and numbers for which it gives or refuses something."""
    name = dice.choice(list(CALLS)) if dice.random() < 0.95 else dice.choice(UNKNOWN)
    count = 1 if name in OF_ONE else 2 if name in OF_TWO else dice.choice([1, 2, 2, 3, 4])
    arguments = [argument() for _ in range(count if dice.random() < 0.93 else dice.randrange(1, 4))]
    if name in ("round", "cents") and dice.random() < 0.3:
        arguments[0] = tie(dice, 1 if name == "round" else 100)
    if name == "nearest" and dice.random() < 0.8:
        arguments[1:2] = [bound(dice)]
    if name == "between" and dice.random() < 0.1:
        arguments[1:2] = arguments[:1]
    return name, arguments


def tie(dice, parts):
    """A number half way between two multiples of 1/parts."""
    x = Fraction(2 * dice.randrange(10 ** dice.randrange(1, 12)) + 1, 2 * parts)
    node = ("number", f"{x.numerator}/{x.denominator}", x)
    return ("minus", node) if dice.random() < 0.5 else node


def bound(dice):
    """A number of halves, small or large, for the denominator of `nearest`. Below 1 it is refused."""
    halves = dice.randrange(dice.choice([4, 20, 2000, 2 ** 70]))
    return ("number", f"{halves / 2:.1f}" if halves < 2000 else str(halves // 2), Fraction(halves, 2) if halves < 2000 else Fraction(halves // 2))
