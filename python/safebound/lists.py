"""Lists of a column: runs that say how often its values repeat."""

from __future__ import annotations

from collections.abc import Mapping, Set
from math import isqrt
from typing import Any, Hashable, Iterable, NamedTuple, Sequence, SupportsIndex, Tuple

from . import _library
from ._library import Status
from .arguments import is_text, rows_of, shown, whole_number
from .columns import keys_of
from .errors import BadAccuracy, BadOtherRun, BadRows, BadRun, WrongType

__all__ = ["Run", "Runs", "append", "compress", "cut", "degree_sequence", "greater", "lesser"]


class Run(NamedTuple):
    """`keys` different values of a column, each of which occurs in `degree` rows."""

    degree: int
    keys: int


Runs = Iterable[Tuple[SupportsIndex, SupportsIndex]]


def degree_sequence(values: Iterable[Hashable]) -> list[Run]:
    """The degree sequence of a column: how many rows have each of its values.

    Args:
        values: the column's values, one for each row, in any order: a column of pandas, Arrow or numpy, an `array`, or
            any iterable of hashable values. Rows without a value (NULL) are left out: None, NaN, NaT, `pandas.NA` and
            masked items. Two values are one where Python finds them equal. Values that your engine finds equal have to
            be equal in Python too. If your engine takes one NaN as equal to another, or ignores case, give one value
            for these. One-dimensional 64-bit whole numbers are read without a copy.

    Returns:
        Runs in descending order of their degrees, which sum to the number of rows with a value.

    Raises:
        WrongType: a text, bytes, a mapping or a set; an object with more than one dimension, such as a table; a value
            that isn't hashable. Iterating over these wouldn't give one value per row, so the list would be wrong.
        BadKeys: more than 2**48 values.
        OutOfMemory: there was too little memory.

    >>> degree_sequence([8, 8, 8, 8, 8, 2, 2, 2, None, 5])
    [Run(degree=5, keys=1), Run(degree=3, keys=1), Run(degree=1, keys=1)]
    """
    keys = keys_of(values)
    return _runs_of("degrees", [keys, len(keys)], isqrt(2 * len(keys)))


def compress(runs: Runs, accuracy: SupportsIndex) -> list[Run]:
    """A few runs that dominate a list. Bounds over them are valid, and are computed faster.

    Args:
        runs: pairs of a degree and a number of keys. Both are at least 1, no degree is above the one before it, and all
            degrees sum to at most 2**48.
        accuracy: K, from 1 to 64. Each degree of the result is at most (K + 1) / K times the list's degree at the same
            rank.

    Returns:
        At most K times as many runs as the first degree has binary digits, and one more. They sum to as many rows as
        the list.

    Raises:
        WrongType: the runs are a set, a mapping or a text, or a number isn't whole; likewise for the other calls.
        BadAccuracy, BadRun: a value isn't valid.
        OutOfMemory: there was too little memory.

    >>> compress([(5, 1), (4, 1), (3, 1), (1, 1)], 1)
    [Run(degree=5, keys=2), Run(degree=3, keys=1)]
    """
    given, number = encoded(runs), whole_number("accuracy", accuracy)
    if number is None:
        raise BadAccuracy(f"accuracy: it is from 1 to 64, not {shown(accuracy)}", accuracy)
    return _runs_of("compress", [given, len(given), number], len(given) + 1, given)


def append(runs: Runs, others: Runs) -> list[Run]:
    """The rank-wise sum of two lists: a list of a column's old rows and of rows that came later.

    From a list of the rows that satisfy one condition, and a list of those that satisfy another, it also makes a list
    for the rows that satisfy at least one of both (OR).

    Args:
        runs: pairs of a degree and a number of keys, as for `compress`.
        others: the same for the second list.

    Returns:
        Runs that dominate the values of both together, whichever values they share. Their sum is the sum of both sums.

    Raises:
        BadRun, BadOtherRun: a run of the first or of the second list isn't valid.
        BadSum: both together sum to more than 2**48.
        OutOfMemory: there was too little memory.

    >>> append([(3, 1), (1, 2)], [(2, 2)])
    [Run(degree=5, keys=1), Run(degree=3, keys=1), Run(degree=1, keys=1)]
    """
    return _of_both("append", runs, others, 1)


def lesser(runs: Runs, others: Runs) -> list[Run]:
    """A list for the rows that satisfy two conditions (AND), from a list of those that satisfy each.

    At each rank its running sum of degrees is the lesser of the running sums of the two lists. The lesser degree at
    each rank would be too low.

    Args:
        runs: pairs of a degree and a number of keys, as for `compress`.
        others: the same for the second list.

    Returns:
        Runs that dominate all values that both lists dominate.

    Raises:
        BadRun, BadOtherRun: a run of the first or of the second list isn't valid.
        OutOfMemory: there was too little memory.

    >>> lesser([(3, 2)], [(4, 1), (1, 2)])
    [Run(degree=3, keys=1), Run(degree=2, keys=1), Run(degree=1, keys=1)]
    """
    return _of_both("lesser", runs, others, 3)


def greater(runs: Runs, others: Runs) -> list[Run]:
    """A list for the rows of either of two values, from a list of the rows of each value.

    It has the greater degree at each rank. For the rows of both values together take `append`.

    Args:
        runs: pairs of a degree and a number of keys, as for `compress`.
        others: the same for the second list.

    Returns:
        Runs that dominate all values that either list dominates.

    Raises:
        BadRun, BadOtherRun: a run of the first or of the second list isn't valid.
        BadSum: the greater degrees sum to more than 2**48.
        OutOfMemory: there was too little memory.

    >>> greater([(3, 1), (1, 1)], [(2, 2), (1, 1)])
    [Run(degree=3, keys=1), Run(degree=2, keys=1), Run(degree=1, keys=1)]
    """
    return _of_both("greater", runs, others, 1)


def cut(runs: Runs, rows: SupportsIndex) -> list[Run]:
    """The list for at most `rows` of the rows that a list counts.

    Args:
        runs: pairs of a degree and a number of keys, as for `compress`.
        rows: how many rows there are at most.

    Returns:
        The first degrees of the list while their sum is within the number, and then one degree for the rest of the
        number.

    Raises:
        BadRows: the number isn't from 0 to 2**64 - 1.
        BadRun: a run isn't valid.
        OutOfMemory: there was too little memory.

    >>> cut([(5, 1), (4, 1)], 7)
    [Run(degree=5, keys=1), Run(degree=2, keys=1)]
    """
    given, number = encoded(runs), whole_number("rows", rows)
    if number is None:
        raise BadRows(f"rows: their number is from 0 to 2**64 - 1, not {shown(rows)}", rows)
    return _runs_of("cut", [given, len(given), number], len(given) + 1, given)


def encoded(runs: Runs, error: type[BadRun] = BadRun, column: object = None) -> Any:
    """The runs as the library takes them. Numbers that 64 bits can't hold are refused."""
    head = _message_head(error, column)
    pairs = []
    for place, run in enumerate(rows_of(head, runs, "runs")):
        degree, keys = _pair(run, place, head)
        pair = (whole_number(f"{head}: run {place}", degree), whole_number(f"{head}: run {place}", keys))
        if None in pair:
            what, number = ("degree", degree) if pair[0] is None else ("number of keys", keys)
            said = f"{head}: the {what} of run {place} is {shown(number)}, which isn't from 1 to 2**48"
            raise error(said, place, column)
        pairs.append(pair)
    return _library.array_of(_library.Run, pairs)


def wrong_run(runs: Sequence[Any], place: int, error: type[BadRun] = BadRun, column: object = None) -> BadRun:
    """The error for a run that the library refuses. It is the first wrong run of its list."""
    degree, keys = runs[place].degree, runs[place].keys
    before = runs[place - 1].degree if place else degree
    if degree == 0 or keys == 0:
        why = f"run {place} has " + ("degree 0" if degree == 0 else "no keys")
    elif degree > before:
        why = f"the list rises at run {place}: degree {degree} after {before}"
    else:
        why = f"at run {place} the list sums to more than 2**48 rows"
    return error(f"{_message_head(error, column)}: {why}", place, column)


def _message_head(error: type[BadRun], column: object) -> str:
    """The beginning of a message on a list: the argument's name, and in a query the column."""
    if isinstance(column, tuple):
        return f"lists: {column_text(column)}"
    return "others" if error is BadOtherRun else "runs"


def column_text(column: tuple[Any, ...]) -> str:
    """A column as messages and tables show it. The parts may be of any type."""
    return ".".join(part if isinstance(part, str) else shown(part) for part in column)


def _pair(run: Any, place: int, head: str) -> tuple[Any, Any]:
    """The degree and the number of keys of a run. In a set both would be in any order, or one number."""
    try:
        if not is_text(run) and not isinstance(run, (Mapping, Set)):
            degree, keys = run
            return degree, keys
    except (TypeError, ValueError):
        pass
    raise WrongType(f"{head}: run {place} is {shown(run)}, and not a pair of a degree and a number of keys")


def _of_both(name: str, runs: Runs, others: Runs, times: int) -> list[Run]:
    """The list that a call makes of two lists. It has at most `times` as many runs as both lists together."""
    first, second = encoded(runs), encoded(others, BadOtherRun)
    return _runs_of(name, [first, len(first), second, len(second)], times * (len(first) + len(second)), first, second)


def _runs_of(name: str, given: list[Any], room: int, runs: Sequence[Any] = (), others: Sequence[Any] = ()) -> list[Run]:
    status, detail, into = _library.call(name, given, _library.Run, room)
    if status == Status.BAD_RUN:
        raise wrong_run(runs, detail)
    if status == Status.BAD_OTHER_RUN:
        raise wrong_run(others, detail, BadOtherRun)
    _library.raise_for(status, detail)
    return [Run(run.degree, run.keys) for run in into[:detail]]
