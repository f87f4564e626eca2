"""Calls over whole columns. README.md of the folder python/ says what they do."""
from bakhsney._ratio import add, compare, divide, multiply, sort_order, subtract, total_of

__all__ = ["add", "compare", "divide", "multiply", "sort_order", "subtract", "total_of"]
