"""Exceptions: a class for each status of the library, and one for the program's refusals."""

from __future__ import annotations


class SafeBoundError(Exception):
    """The base class of all errors of this package.

    Two errors are equal if they have the same class and equal `args`. `args` has the arguments of the constructor, so
    that an error can be pickled and sent to another process.
    """

    def __eq__(self, other: object) -> bool:
        if not isinstance(other, SafeBoundError):
            return NotImplemented
        return type(self) is type(other) and self.args == other.args

    def __hash__(self) -> int:
        return hash((type(self), str(self)))


class LibraryNotFound(SafeBoundError, ImportError):
    """There is no libsafebound.so, or it has another version."""


class OutOfMemory(SafeBoundError, MemoryError):
    """There was too little memory. Nothing has changed."""


class PastBits(SafeBoundError):
    """Each plan has a part without a bound: its number of rows doesn't fit in 64 bits."""


class BudgetExceeded(SafeBoundError):
    """The best plan exceeds the budget.

    Attributes:
        least: the least budget that would do, in rows.
    """

    def __init__(self, least: int) -> None:
        super().__init__(least)
        self.least = least

    def __str__(self) -> str:
        return f"the best plan has a part of at most {self.least} rows, which is the least budget that would do"


class WorkExceeded(SafeBoundError):
    """The work exceeds the limit.

    Attributes:
        least: the least limit that would do.
    """

    def __init__(self, least: int) -> None:
        super().__init__(least)
        self.least = least

    def __str__(self) -> str:
        return f"the work is {self.least}, which is the least limit that would do"


class WrongType(SafeBoundError, TypeError):
    """An argument has a type that the call doesn't accept. The call guesses nothing from it. The message begins with
    the argument's name.
    """


class WrongValue(SafeBoundError, ValueError):
    """A value that isn't valid. The message begins with the name of the argument.

    Attributes:
        place: which value; the subclass says of what.
    """

    def __init__(self, message: str, place: object) -> None:
        super().__init__(message, place)
        self.message, self.place = message, place

    def __str__(self) -> str:
        return self.message


class BadKeys(WrongValue):
    """There are more than 2**48 keys. `place` is their number."""


class BadAccuracy(WrongValue):
    """The accuracy isn't from 1 to 64. `place` is the accuracy."""


class BadRun(WrongValue):
    """A run's degree or number of keys is 0, its degree is above the one before it, or the sum so far is above 2**48.

    `place` is the number of the run in its list; `column` is the entry and the column of a query's list, else None.
    """

    def __init__(self, message: str, place: int, column: object = None) -> None:
        super().__init__(message, place)
        self.args, self.column = (message, place, column), column


class BadOtherRun(BadRun):
    """Like `BadRun`, for the second of two lists."""


class BadSum(WrongValue):
    """The result of two lists has more than 2**48 rows. `place` is that number."""


class BadEntries(WrongValue):
    """A query has no entry, more than sixteen, or one entry twice. `place` is how many, or the entry.

    A plan whose bytes are asked for has at most twelve entries.
    """


class UnknownEntry(BadEntries, KeyError):
    """A set of entries has a name that isn't the name of an entry. `place` is the name."""


class BadRows(WrongValue):
    """An entry has no row bound, or one that isn't from 0 to 2**48. `place` is the entry."""


class BadEqualities(WrongValue):
    """A query has more than 256 equalities. `place` is how many."""


class BadEquality(WrongValue):
    """An equality names an entry that doesn't exist, or has one entry on both sides. `place` is the equality's number.
    """


class BadList(WrongValue):
    """A list is of an entry that doesn't exist, or has no runs. `place` is the entry and the column."""


class MissingList(WrongValue):
    """A column that an equality names has no list. `place` is the equality's number."""


class BadBounds(WrongValue):
    """There aren't 2**n bounds for an n from 1 to 16, or one isn't from 0 to 2**64 - 1. `place` is how many there are,
    or the bound.
    """


class BadPlan(WrongValue):
    """The order or the tree isn't one of this query. `place` is its number of parts, or the number of the wrong part.
    """


class BadBudget(WrongValue):
    """The budget isn't from 0 to 2**59. `place` is the budget."""


class BadLimit(WrongValue):
    """The limit of work isn't from 0 to 2**64 - 1. `place` is the limit."""


class BadJoinKind(WrongValue):
    """There is no such kind of join. `place` is the kind that was given."""


class Refused(SafeBoundError):
    """The program refuses a text or a file. docs/ERRORS.md explains the status and the line.

    Attributes:
        status: the program's exit status.
        line: its line of standard error, without `error ` at the beginning and without the line end.
    """

    def __init__(self, status: int, line: str) -> None:
        super().__init__(status, line)
        self.status, self.line = status, line

    def __str__(self) -> str:
        return f"{self.line} (status {self.status})"
