"""Uses the package in several interpreters of one process. python/test starts it.

    python/interpreters.py FOLDER WHEN     FOLDER is where the package is, and the first interpreter imports it at the start, in between or last
"""
import sys

try:
    import _interpreters as others  # since Python 3.13
except ImportError:
    import _xxsubinterpreters as others

FOLDER, WHEN = sys.argv[1:]
IMPORT = f"import sys; sys.path.insert(0, {FOLDER!r}); from fractions import Fraction; from bakhsney import Ratio, Total"
AGAIN = "del sys.modules['bakhsney._ratio'], sys.modules['bakhsney']"
REFUSED = f"import sys; sys.path.insert(0, {FOLDER!r})\ntry:\n    import bakhsney\nexcept ImportError:\n    refused = True\nassert refused"
USE = """
half, wide = Ratio(1, 2), Fraction(1, 2**70)
assert type(Ratio(2) ** 63) is Fraction and type(Ratio(2) ** 62 * 2 / half) is Fraction and type(Ratio(2**70, 3)) is Fraction
assert type(half + Fraction(1, 3)) is Ratio and type(half + wide) is Fraction and half < half + wide and repr(half) == "Ratio(1, 2)"
assert Ratio.from_float(0.1).limit_denominator(10) == Fraction(1, 10)
total = Total([2**70, wide, Ratio(1, 3), 7])
assert type(total.sum()) is Fraction and total.mean() * 4 == total.sum() and total.decimal(2) == f"{2**70 + 7}.33"
"""


def started(kind="legacy"):
    return others.create(kind) if others.__name__ == "_interpreters" else others.create(isolated=kind == "isolated")


def run(interpreter, *codes):
    for code in codes:
        said = others.run_string(interpreter, code)
        assert said is None, said


def here(*codes):
    for code in codes:
        exec(code, globals())


one, two = started(), started()
if WHEN == "start":
    here(IMPORT, USE)
run(one, IMPORT, USE)
run(two, IMPORT, USE)
run(one, USE)
others.destroy(two)
run(one, USE, AGAIN, IMPORT, USE)
if WHEN == "between":
    here(IMPORT, USE)
others.destroy(one)
here(IMPORT, USE, AGAIN, IMPORT, USE)
three = started()
run(three, IMPORT, USE)
others.destroy(three)
here(USE)
if sys.version_info >= (3, 12):
    four = started("isolated")  # with a lock of its own
    run(four, REFUSED)
    others.destroy(four)
