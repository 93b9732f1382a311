"""A database engine: the dialect of its SQL, its catalog, and a connection.

A `Dialect` is data. A `Catalog` says what the names of a query mean. It runs no query and changes no setting. A
`Connection` runs statements, all in one read-only transaction over one snapshot.
"""

from __future__ import annotations

from abc import ABC, abstractmethod
from dataclasses import dataclass
from typing import Iterable, Iterator

from .calls import Call, Function
from .dialect import Dialect
from .faults import EngineFault
from .query import Column, Row, Table
from .tokens import Token, written


class Catalog(ABC):
    """What an engine knows about tables, columns and functions, and about a query that isn't run."""

    @abstractmethod
    def table(self, name: list[Token]) -> Table | None:
        """The table or view of this name, or None."""

    @abstractmethod
    def functions(self, asked: set[Call]) -> dict[Call, list[Function]]:
        """All functions that each call may mean. Where the engine would choose one by the types of the arguments, it
        may be any of them.
        """

    def volatile(self, asked: set[Call]) -> dict[Call, str]:
        """Says which of these calls may give another result the next time, and why."""
        found = self.functions(asked)
        return {call: function.why_volatile for call in sorted(found, key=str) for function in found[call]
                if function.why_volatile}

    def is_aggregate(self, call: Call) -> bool:
        """Whether the call is one of an aggregate, whatever the engine finds by its name."""
        found = self.functions({call}).get(call, [])
        return bool(found) and all(function.is_aggregate for function in found)

    @abstractmethod
    def view_texts(self, names: set[str]) -> list[tuple[str, str, str]]:
        """The views with these names, and the row policies of tables with these names. Each has its name, a word for
        its kind, and its definition as SQL.
        """

    @abstractmethod
    def check(self, sql: str) -> None:
        """Raises EngineFault if the engine refuses the query."""

    @abstractmethod
    def can_export(self, column: Column) -> bool:
        """Whether the column can be written to a table file: its values are whole numbers, or texts that are equal only
        if all characters are.
        """

    @abstractmethod
    def whole_numbers(self, column: Column) -> bool:
        """Whether a column that can be written has whole numbers. If not, it has texts."""

    @abstractmethod
    def plain_order(self, column: Column) -> bool:
        """Whether the engine orders the column's texts by code points."""

    def same_when_equal(self, column: Column) -> bool:
        """Whether every function gives one result for all values of a group of GROUP BY. A numeric column is an
        exception: 1.0 and 1.00 are in one group, and their texts differ.
        """
        return False

    def complaint(self, sql: str) -> str | None:
        """The engine's complaint about the query, or None if it accepts the query."""
        try:
            self.check(sql)
        except EngineFault as fault:
            return str(fault)
        return None

    def why_not_alone(self, inner: list[Token]) -> str | None:
        """Why the subquery doesn't run alone, or None if it does. Then it names nothing of the query around it.
        """
        return self.complaint(written(inner))

    def expected(self, sql: str) -> int | None:
        """How many rows the engine's own planner expects for the query, or None if it doesn't say."""
        return None

    def without_snapshot(self, names: set[str]) -> dict[str, str]:
        """Says which of these tables aren't held by the transaction's snapshot, and why. Each statement may see other
        rows of such a table.
        """
        return {}

    def has_text_now(self, table: str, column: str) -> bool:
        """Whether the column has the text 'now' among its values. A date function with this argument reads the clock.
        """
        return False

    def merged_side(self, left: Column, right: Column) -> int | None:
        """Whose values the merged column of USING has: 0 for the left column's, 1 for the right column's. None if both
        are converted to another type, or if it isn't known.
        """
        return 0

    def output_names(self, sql: str) -> list[str] | None:
        """The names of a query's output columns, or None if the engine can't be asked for them."""
        return None

    def described(self, sql: str) -> list[Column]:
        """The columns of a query's result. A column has no kind if it isn't known how its values are compared."""
        raise NotImplementedError("this engine isn't asked for the columns of a query")


class Connection(ABC):
    """Runs statements in one read-only transaction over one snapshot, which lasts until `close`."""

    @abstractmethod
    def rows(self, sql: str) -> list[Row]:
        """All rows of a result that fits into memory."""

    def counted(self, sql: str, large: bool) -> list[Row]:
        """The result of a statement that counts. Its numbers may be of any size. `large` says that parts of it may have
        many rows. An error leaves the transaction usable.
        """
        raise NotImplementedError("this engine has no exact numbers of any size")

    @abstractmethod
    def stream(self, sql: str) -> Iterator[Row]:
        """The rows of a result of any length, one by one. The first row has the names of the columns."""

    @abstractmethod
    def csv(self, sql: str, null: str = "") -> Iterator[str]:
        """The result as CSV with a header, piece by piece. NULL is written as the text `null` without quotes. No other
        value is written that way.
        """

    def prepare_joins(self, tables: Iterable[Table]) -> None:
        """Makes the settings that later statements over these tables need."""

    def keep_order(self) -> None:
        """Makes the engine join in the order in which each later statement is written."""

    @abstractmethod
    def close(self) -> None:
        """Ends the transaction and the connection. The database is unchanged."""


@dataclass(frozen=True)
class Engine:
    """The dialect, the catalog and the connection of one engine."""

    dialect: Dialect
    catalog: Catalog
    connection: Connection


def one_line(message: object) -> str:
    """The first line of an engine's message."""
    return str(message).strip().split("\n")[0]


def with_names(rows: Iterable[Row], names: Iterable[str]) -> Iterator[Row]:
    """The names of the columns as a first row, then the rows."""
    yield tuple(names)
    yield from rows
