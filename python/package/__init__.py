"""Exact fractions over proved calls. README.md of the folder python/ says what they do."""
from numbers import Rational

from bakhsney import columns, exact  # a Total takes its calls of exact
from bakhsney._ratio import Ratio, Total

__all__ = ["Ratio", "Total", "columns"]

Rational.register(Ratio)
