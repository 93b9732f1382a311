"""Decimals, and the whole numbers that replace them, such as cents. The program's numbers are integers.

>>> first_decimal(["12", "12.50"]), scale_of(["12", "12.50"]), scaled("12.5", 2)
('12.50', 2, '1250')
"""

from __future__ import annotations

import re
from collections.abc import Iterable

__all__ = ["CENTS", "digits_of", "first_decimal", "has_thousands", "scale_of", "scaled"]

CENTS = 2
_DECIMAL = re.compile(r"([+-]?)([0-9]*)(?:[.,]([0-9]*))?", re.ASCII)
_WHOLE = re.compile(r"[+-]?[0-9]+", re.ASCII)
_THOUSANDS = re.compile(r"[+-]?[0-9]{1,3},[0-9]{3}", re.ASCII)


def digits_of(value: str) -> int | None:
    """How many digits a decimal has behind its point or comma, without zeros at the end. None if the value isn't a
    decimal.
    """
    found = _DECIMAL.fullmatch(value)
    return len((found[3] or "").rstrip("0")) if found and (found[2] or found[3]) else None


def has_thousands(value: str) -> bool:
    """Whether exactly three digits follow the only comma. Such a comma mostly separates thousands."""
    return bool(_THOUSANDS.fullmatch(value))


def first_decimal(values: Iterable[str]) -> str | None:
    """The first decimal among values that are all decimals or whole numbers. None if another value is among them. Empty
    fields don't count.
    """
    found = [value for value in values if value]
    decimals = [value for value in found if not _WHOLE.fullmatch(value)]
    if not decimals or any(digits_of(value) is None for value in found) or all(map(has_thousands, decimals)):
        return None
    return decimals[0] if len({c for value in decimals for c in value if c in ".,"}) == 1 else None


def scale_of(values: Iterable[str]) -> int:
    """The number of digits behind the point that a column of decimals needs: at least two, and as many as any value
    has.
    """
    return max([CENTS, *(digits_of(value) or 0 for value in values)])


def scaled(value: str, digits: int) -> str:
    """A decimal times a power of ten, as a whole number."""
    found = _DECIMAL.fullmatch(value)
    sign, whole, part = (found[1], found[2], found[3] or "") if found else ("", value, "")
    number = int((whole or "0") + part.ljust(digits, "0")[:digits])
    return str(-number if sign == "-" else number)
