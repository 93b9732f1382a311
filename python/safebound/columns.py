"""Makes 64-bit keys from a column: a Python list, an array, or a column of Arrow, pandas or polars.

Rows without a value (NULL) are left out.
"""

from __future__ import annotations

import ctypes
import sys
from array import array
from collections.abc import Mapping, Set
from typing import Any, Iterable, Optional

from .arguments import is_text
from .errors import WrongType

__all__ = ["keys_of"]

# Methods that return a column's values as a list of Python objects: in Arrow, in numpy and similar libraries, in
# polars.
_LISTED_BY = ("to_pylist", "tolist", "to_list")


def keys_of(values: object) -> Any:
    """An array of 64-bit keys, one for each row that has a value. Two rows have the same key if their values are equal.

    The array may share the memory of `values`. Raises WrongType if `values` isn't a column, or if one of its values
    can't be a value of a column.
    """
    _refuse_what_is_no_column(values)
    found = _of_pandas(values)
    if found is None:
        found = _of_numpy(values)
    keys = _in_memory(values if found is None else found)
    return _as_keys(_numbers_for(_python_values(values))) if keys is None else keys


def _refuse_what_is_no_column(values: object) -> None:
    """Raises WrongType unless there is one value for each row. Counting other values would make bounds too low."""
    kind = type(values).__name__
    if is_text(values):
        raise WrongType(f"values: {kind} is a text and no column: a column has one value for each row")
    if isinstance(values, Mapping):
        raise WrongType(f"values: {kind} is a mapping and no column: give the values of one column")
    if isinstance(values, Set):
        raise WrongType(f"values: {kind} has each value once, and a column has one for each row: give a list")
    if isinstance(values, type):
        raise WrongType(f"values: {values.__name__} is a type and no column")
    dimensions = _dimensions(values)
    if dimensions not in (None, 1):
        raise WrongType(f"values: {kind} has {dimensions} dimensions, and a column has one: give one of its columns")


def _dimensions(values: object) -> Optional[int]:
    """The number of dimensions of the values, or None if they don't say."""
    try:
        told, shape = getattr(values, "ndim", None), getattr(values, "shape", None)
    except Exception as error:
        raise WrongType(f"values: {type(values).__name__} is no column: {error}") from error
    if isinstance(told, int):
        return told
    if isinstance(shape, tuple):
        return len(shape)
    view = _view(values)
    return None if view is None else view.ndim


def _of_pandas(values: object) -> Any:
    """For a pandas column: a number for each value that isn't missing, the same number for equal values. Otherwise
    None.
    """
    pandas = sys.modules.get("pandas")
    if pandas is None or not isinstance(values, (pandas.Series, pandas.Index, pandas.api.extensions.ExtensionArray)):
        return None
    try:
        numbers = pandas.factorize(values)[0]
    except TypeError as error:
        raise WrongType(f"values: a value of this {type(values).__name__} isn't one of a column: {error}") from error
    return numbers[numbers >= 0]


def _of_numpy(values: object) -> Any:
    """For a numpy array of numbers or times: its values in 64 bits, without masked ones, NaN and NaT. Otherwise None.

    Complex numbers, and floats of more than 64 bits, give None too.
    """
    numpy = sys.modules.get("numpy")
    if numpy is None or not isinstance(values, numpy.ndarray):
        return None
    known, kind = values, values.dtype.kind
    if isinstance(values, numpy.ma.MaskedArray) and kind in "biufmM":
        known = values.compressed()
    if kind in "mM":
        return known[~numpy.isnat(known)].astype(values.dtype.newbyteorder("=")).view(numpy.int64)
    if kind == "f" and values.dtype.itemsize <= 8:
        floats = known[known == known].astype(numpy.float64)
        # The zeros 0.0 and -0.0 are one value.
        return (floats + 0.0).view(numpy.int64)
    if kind in "biu":
        return numpy.ascontiguousarray(known, dtype=numpy.uint64 if kind == "u" else numpy.int64)
    return None


def _python_values(values: object) -> Iterable[object]:
    """The values one by one, as Python objects if the column has a method for that."""
    by = next((name for name in _LISTED_BY if callable(getattr(values, name, None))), None)
    listed: Any = values if by is None else getattr(values, by)()
    try:
        iter(listed)
    except TypeError:
        raise WrongType(f"values: {type(values).__name__} is no column: a column has one value for each row") from None
    return listed  # type: ignore[no-any-return]


def _numbers_for(values: Iterable[object]) -> array[int]:
    """A number for each value, the same number for equal values.

    None, `pandas.NA`, and values that don't equal themselves, such as NaN, count as missing and get no number.
    """
    absent = getattr(sys.modules.get("pandas"), "NA", None)
    numbers: dict[object, int] = {}
    keys = array("Q")
    for place, value in enumerate(values):
        try:
            if value is not None and value is not absent and value == value:
                keys.append(numbers.setdefault(value, len(numbers)))
        except (TypeError, ValueError, ArithmeticError) as error:
            what = f"is of {type(value).__name__}, which isn't one value of a column: {error}"
            raise WrongType(f"values: value {place} {what}") from error
    return keys


def _view(values: object) -> Optional[memoryview]:
    try:
        return memoryview(values)  # type: ignore[arg-type]
    except (TypeError, ValueError, BufferError):
        return None


def _in_memory(values: object) -> Any:
    """The values themselves as keys, if memory has them as 64-bit integers without a mask. Otherwise None."""
    view = _view(values)
    if view is None or getattr(values, "mask", None) is not None:
        return None
    is_flat = view.ndim == 1 and view.c_contiguous
    fits = is_flat and view.itemsize == 8 and view.format.lstrip("@=<") in ("q", "Q", "l", "L")
    return _as_keys(view) if fits else None


def _as_keys(view: memoryview | array[int]) -> Any:
    keys = ctypes.c_uint64 * len(view)
    return keys.from_buffer_copy(view) if len(view) == 0 or memoryview(view).readonly else keys.from_buffer(view)
