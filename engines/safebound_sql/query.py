"""The meaning of a query for its bounds: entries, the equalities that join them, and all other conditions."""

from __future__ import annotations

from dataclasses import dataclass, field
from typing import Any, Callable, Hashable, NamedTuple, Tuple

from safebound.limits import MOST_EQUALITIES

# A row of an engine's result.
Row = Tuple[Any, ...]


class Column(NamedTuple):
    """A table's column. For columns of one `kind`, = compares values as GROUP BY does. The kind is None if that isn't
    known.
    """

    name: str
    type: str
    kind: Hashable | None


class Spread(NamedTuple):
    """Where a table's rows are on other servers: its parts, as SQL names them. If `by` isn't None, it is a column of
    which each value is in one part only; the engine groups each part by it separately.
    """

    parts: tuple[str, ...]
    by: str | None


class Table(NamedTuple):
    """A table or view. `columns` are the columns that a star means, in declared order. `by_name` finds columns by their
    names in the form that the engine compares, and `key` are the columns of the primary key. `identity`, if it is
    known, distinguishes the table from all others: its database and name, then # and a number that changes when the
    table is created again. `spread` says where its rows are, if they are on other servers.
    """

    columns: tuple[Column, ...]
    by_name: dict[str, Column]
    identity: str | None = None
    spread: Spread | None = None
    key: tuple[str, ...] = ()


class EntryColumn(NamedTuple):
    """A column of an entry."""

    entry: int
    column: Column


class Reference(NamedTuple):
    """A place in a text that names a column, and the name as written."""

    named: EntryColumn
    text: str


class Text(NamedTuple):
    """A part of the query as written. It knows where it names columns, so that the names can be replaced.
    """

    parts: tuple[str | Reference, ...]

    def __str__(self) -> str:
        return self.naming(lambda named: None)

    def naming(self, other: Callable[[EntryColumn], str | None]) -> str:
        """The text, with each column named by the function. If the function returns None, the name is as written."""
        return "".join(part if isinstance(part, str) else other(part.named) or part.text for part in self.parts)


@dataclass
class Entry:
    """An entry of FROM. `table` and `alias` are SQL as the query has it. `name` is the alias in the form that the
    engine compares.
    """

    number: int
    name: str
    alias: str
    table: str
    about: Table
    own: list[Text] = field(default_factory=list)


class Equality(NamedTuple):
    """An equality of columns of two entries, and an edge of the join graph. Its = compares values as GROUP BY does."""

    left: EntryColumn
    right: EntryColumn


class Condition(NamedTuple):
    """A conjunct: its text, and the entries that it names."""

    text: Text
    entries: frozenset[int]


@dataclass
class Query:
    """A query. `conditions` are the conditions on several entries or on no entry, with the equalities, in the order of
    the text.

    Above the join are DISTINCT, the outputs, GROUP BY, HAVING, ORDER BY and LIMIT. They are as written, but a star is
    replaced by its columns. `named_above` are the columns that may be named there. If USING merged columns, a name
    above the join has to mean the merged column. For some engines `frame` then has FROM as written, with the entries'
    numbers in their places. For others `renamed` has the columns that get other names.
    """

    entries: list[Entry]
    distinct: str = ""
    outputs: list[str | EntryColumn] = field(default_factory=list)
    later_clauses: str = ""
    named_above: set[EntryColumn] = field(default_factory=set)
    frame: list[str | int] = field(default_factory=list)
    renamed: set[EntryColumn] = field(default_factory=set)
    conditions: list[Condition] = field(default_factory=list)
    equalities: list[Equality] = field(default_factory=list)
    no_edges: list[tuple[Text, str]] = field(default_factory=list)
    needed: set[EntryColumn] = field(default_factory=set)

    def take_equality(self, one: EntryColumn, other: EntryColumn) -> str | None:
        """Adds an equality to those that bounds use, once. If they can't use it, returns why."""
        if one.column.kind is None or one.column.kind != other.column.kind:
            return f"{one.column.type} and {other.column.type} aren't compared as they are grouped"
        if Equality(one, other) in self.equalities or Equality(other, one) in self.equalities:
            return None
        if len(self.equalities) == MOST_EQUALITIES:
            return f"{MOST_EQUALITIES} others come before it"
        self.equalities.append(Equality(one, other))
        return None

    def joined_columns(self, entry: int) -> list[Column]:
        """The columns of an entry that equalities name, in the order of the table."""
        named = {side.column for equality in self.equalities for side in equality if side.entry == entry}
        return self._in_order(entry, named)

    def used_columns(self, entry: int) -> list[Column]:
        """The columns of an entry that are named outside its own conditions."""
        return self._in_order(entry, {named.column for named in self.needed if named.entry == entry})

    def _in_order(self, entry: int, some: set[Column]) -> list[Column]:
        return [column for column in self.entries[entry].about.by_name.values() if column in some]

    def complete(self, entries: frozenset[int], before: tuple[frozenset[int], ...] = ()) -> list[Text]:
        """The conditions that name some of these entries and no other. Conditions that name only entries of one set of
        `before` are left out.
        """
        return [
            condition.text
            for condition in self.conditions
            if condition.entries
            and condition.entries <= entries
            and not any(condition.entries <= part for part in before)
        ]

    @property
    def constants(self) -> list[Text]:
        """The conditions that name no entry, such as 1 = 2."""
        return [condition.text for condition in self.conditions if not condition.entries]
