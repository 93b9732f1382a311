"""Faults that end a command, each with one line for the user and an exit status."""

from __future__ import annotations


class Fault(Exception):
    """The base class of all faults: the exit status, and a word for the kind of fault."""

    status = 1
    word = "error"

    def line(self) -> str:
        return f"{self.word}: {self}"


class Usage(Fault):
    """The words of the command line are wrong."""

    status, word = 2, "usage"


class Unreadable(Fault):
    """A file named by the user can't be read or written."""

    status, word = 3, "file"


class Refused(Fault):
    """The query has a part that this program doesn't bound. The message names the part and its place."""

    status, word = 5, "refused"


class WrongCounts(Fault):
    """The counts in a file aren't a result of the counting statement."""

    status, word = 6, "counts"


class PastBudget(Fault):
    """The best plan exceeds the budget."""

    status, word = 8, "budget"

    def __init__(self, budget: int, least: int) -> None:
        super().__init__(
            f"{budget} rows are too few: the best plan has a part of at most {least} rows, so {least} would do"
        )
        self.least = least


class NoBound(Fault):
    """No plan has a bound below 2^64."""

    status, word = 9, "no bound"

    def __init__(self) -> None:
        super().__init__("in every plan a part has a bound of 2^64 - 1 rows or more")


class EngineFault(Fault):
    """The engine failed: it can't be reached, it refuses a statement, or time ran out."""

    status, word = 12, "engine"

    def __init__(self, message: str, of_data: bool = False) -> None:
        """`of_data` says that a value in some row is the cause, as in a division by zero."""
        super().__init__(message)
        self.of_data = of_data


class AboveBound(Fault):
    """A level or the whole query has more rows than its bound. An assumption of the bounds is then wrong."""

    status, word = 17, "audit"

    def __init__(self, what: str, rows: int, bound: int) -> None:
        super().__init__(
            f"{what} has {rows} rows, and its bound is {bound}. The engine has answered two statements over one"
            " snapshot in two ways: a function isn't as STABLE or IMMUTABLE as it is declared, or a table isn't of"
            " this snapshot. This plan admits nothing"
        )


class Missing(Fault):
    """Something that this program needs isn't installed."""

    status, word = 13, "missing"
