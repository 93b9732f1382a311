"""Row bounds of joins that are never too low, and the best plans by them.

Python's side of SafeBound's library. The caller says of a query how many rows each entry has at most, and how often the
values of each joined column repeat:

>>> from safebound import Query, degree_sequence
>>> query = Query(
...     entries=["r", "s"],
...     equalities=[(("r", "x"), ("s", "x"))],
...     row_bounds={"r": 6, "s": 5},
...     lists={("r", "x"): degree_sequence([1, 1, 1, 2, 2, 3]), ("s", "x"): degree_sequence([1, 1, 4, 5, 6])},
... )
>>> query.bounds()[{"r", "s"}]
9
"""

from ._library import VERSION as __version__
from ._library import path, version
from .bounds import Bounds
from .command import Output, Plan, append_stats, plan_stats, run
from .errors import (
    BadAccuracy, BadBounds, BadBudget, BadEntries, BadEqualities, BadEquality, BadJoinKind, BadKeys, BadLimit,
    BadList, BadOtherRun, BadPlan, BadRows, BadRun, BadSum, BudgetExceeded, LibraryNotFound, MissingList,
    OutOfMemory, PastBits, Refused, SafeBoundError, UnknownEntry, WorkExceeded, WrongType, WrongValue
)
from .joins import JoinKind, joined_rows
from .lists import Run, Runs, append, compress, cut, degree_sequence, greater, lesser
from .plans import Join, Order, Tree
from .query import NO_VALUES, Column, Query

__all__ = [
    "BadAccuracy", "BadBounds", "BadBudget", "BadEntries", "BadEqualities", "BadEquality", "BadJoinKind", "BadKeys",
    "BadLimit", "BadList", "BadOtherRun", "BadPlan", "BadRows", "BadRun", "BadSum", "BudgetExceeded",
    "LibraryNotFound", "MissingList", "OutOfMemory", "PastBits", "Refused", "SafeBoundError", "UnknownEntry",
    "WorkExceeded", "WrongType", "WrongValue"
]
__all__ += ["NO_VALUES", "Bounds", "Column", "Join", "JoinKind", "Order", "Output", "Plan", "Query", "Run", "Runs"]
__all__ += ["Tree", "__version__", "append", "append_stats", "compress", "cut", "degree_sequence", "greater"]
__all__ += ["joined_rows", "lesser", "path", "plan_stats", "run", "version"]
