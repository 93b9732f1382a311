"""Rows of outer joins, semi-joins and anti-joins."""

from __future__ import annotations

from typing import Literal, Optional, SupportsIndex

from . import _library
from ._library import NO_BOUND
from .arguments import shown, whole_number
from .errors import BadJoinKind, BadRows

__all__ = ["JoinKind", "joined_rows"]

JoinKind = Literal["left", "right", "full", "semi", "anti"]

# The numbers are those of safebound.h.
_KINDS = {"left": 1, "right": 2, "full": 3, "semi": 4, "anti": 5}


def joined_rows(
    kind: JoinKind, inner: Optional[SupportsIndex], left: Optional[SupportsIndex], right: Optional[SupportsIndex]
) -> Optional[int]:
    """How many rows an outer join, a semi-join or an anti-join has at most.

    Args:
        kind: `"left"`, `"right"` or `"full"` for an outer join; `"semi"` for the rows of the left side that have a
            match, as EXISTS keeps them; `"anti"` for those that have none, as NOT EXISTS keeps them.
        inner: a bound of the inner join of both sides by the same condition, or None if no bound is known.
        left: a bound of all rows of the left side, or None. A condition in ON that names only this side mustn't lower
            it: an outer join and an anti-join keep rows that fail it.
        right: a bound of all rows of the right side, or None; likewise.

    Returns:
        For an outer join, `inner` and the rows that the join adds to it; for a semi-join the lesser of `inner` and
        `left`; for an anti-join `left`. None if no bound is known.

    Raises:
        BadJoinKind: there is no such kind.
        BadRows: a bound isn't from 0 to 2**64 - 1.
        WrongType: a bound isn't a whole number.

    >>> joined_rows("left", inner=12, left=6, right=5)
    18
    """
    if not isinstance(kind, str) or kind not in _KINDS:
        raise BadJoinKind(f"kind: a join is {', '.join(_KINDS)}, not {shown(kind)}", kind)
    bounds = [_bound("inner", inner), _bound("left", left), _bound("right", right)]
    status, rows = _library.ask("joined_rows", [_KINDS[kind], *bounds])
    _library.raise_for(status, rows)
    return None if rows == NO_BOUND else rows


def _bound(argument: str, rows: Optional[SupportsIndex]) -> int:
    if rows is None:
        return NO_BOUND
    number = whole_number(argument, rows)
    if number is None:
        raise BadRows(f"{argument}: a bound is from 0 to 2**64 - 1, not {shown(rows)}", rows)
    return number
