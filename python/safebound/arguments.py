"""Checks of arguments. Each fault is a SafeBoundError, and its message begins with the argument's name."""

from __future__ import annotations

import operator
from collections.abc import Collection, Mapping, Set
from typing import Any, Iterator, Tuple

from .errors import BadEntries, UnknownEntry, WrongType

__all__ = [
    "MOST", "hashable", "index_of", "is_text", "items_of", "names_of", "rows_of", "set_of", "shown", "whole_number"
]

# The greatest number of 64 bits.
MOST = 2**64 - 1
_MOST_SHOWN = 60


def shown(value: object) -> str:
    """A value as a message shows it: not too long, and without a fault of its own `repr`."""
    try:
        text = repr(value)
    except Exception:
        return f"a value of type {type(value).__name__}"
    return text if len(text) <= _MOST_SHOWN else text[: _MOST_SHOWN - 2] + ".."


def index_of(head: str, value: object) -> int:
    """A whole number of any type, such as numpy's. Floats, texts, True and False are refused."""
    try:
        # numpy's True and False have a type of their own, whose kind is "b".
        if not isinstance(value, bool) and getattr(getattr(value, "dtype", None), "kind", None) != "b":
            return operator.index(value)  # type: ignore[arg-type]
    except Exception:
        pass
    raise WrongType(f"{head}: {shown(value)} is no whole number")


def whole_number(head: str, value: object) -> int | None:
    """A whole number, or None if 64 bits can't hold it."""
    number = index_of(head, value)
    return number if 0 <= number <= MOST else None


def is_text(value: object) -> bool:
    """Whether it is a text or bytes. Its items are characters, and never what a list of rows or of names has."""
    if not isinstance(value, memoryview):
        return isinstance(value, (str, bytes, bytearray))
    try:
        return value.itemsize == 1 and isinstance(value.obj, (bytes, bytearray))
    except ValueError:
        return True  # The view was released.


def items_of(head: str, value: object, of: str) -> Iterator[Any]:
    """The items of a list. Errors of the caller's own iterator aren't changed."""
    try:
        if not is_text(value) and not isinstance(value, type):
            return iter(value)  # type: ignore[call-overload, no-any-return]
    except TypeError:
        pass
    raise WrongType(f"{head}: {shown(value)} is no list of {of}")


def rows_of(head: str, value: object, of: str) -> Iterator[Any]:
    """The items of a list in which each item counts, and their order. In a set or a mapping equal items are one."""
    if isinstance(value, (Mapping, Set)):
        kind = "mapping" if isinstance(value, Mapping) else "set"
        raise WrongType(f"{head}: {shown(value)} is a {kind}, and no list of {of}")
    return items_of(head, value, of)


def hashable(value: object) -> bool:
    try:
        hash(value)
    except Exception:
        return False
    return True


def names_of(head: str, value: object) -> Tuple[str, ...]:
    """The names of entries, each once."""
    names = tuple(items_of(head, value, "names"))
    seen = set()
    for place, name in enumerate(names):
        if not isinstance(name, str):
            raise WrongType(f"{head}: entry {place} is {shown(name)}, and not a name")
        if name in seen:
            raise BadEntries(f"{head}: entry {shown(name)} comes twice", name)
        seen.add(name)
    return names


def set_of(entries: object, bits: Mapping[str, int]) -> int:
    """A set of entries: the sum of their bits."""
    if is_text(entries) or not isinstance(entries, Collection):
        example = f", such as {{{shown(entries)}}}" if isinstance(entries, str) else ""
        raise WrongType(f"entries: a set of them is a collection of names{example}, and not {shown(entries)}")
    number = 0
    for entry in items_of("entries", entries, "names"):
        try:
            number |= bits[entry]
        except KeyError:
            raise UnknownEntry(f"entries: there is no entry {shown(entry)}", entry) from None
        except Exception:
            raise WrongType(f"entries: {shown(entry)} is no name, since it has no hash") from None
    return number
