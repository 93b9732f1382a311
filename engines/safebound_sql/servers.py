"""Tables whose rows are on other servers. The servers filter and count their own rows, and send the remaining values of
a column.

PostgreSQL can send a server a complete count or GROUP BY over one of its tables, and a comparison with the values of an
array. It can send neither a semi-join nor a part of an aggregate; for these it would fetch the rows. So each part of a
table is queried by itself, and the coordinator adds up the counts that the servers send for each value. In place of a
semi-join a server gets an array of the remaining values of the other column.
"""

from __future__ import annotations

from dataclasses import dataclass
from typing import Iterable

from .dialect import Dialect
from .query import Column, Entry, Query
from .reducing import (
    Joined, Parts, along_a_tree, around_a_cycle, closes_a_cycle, components, own_conditions, partners, reduced,
    semi_join, where,
)


@dataclass
class Source:
    """The place of an entry's rows: a part of the statement, or its table under conditions."""

    entry: Entry
    conditions: list[str]
    part: str | None = None

    def total(self) -> tuple[str, str]:
        """SQL for the number of rows, and the FROM from which it is computed."""
        if len(self._tables()) == 1:
            return "COUNT(*)", self._rows(*self._tables())
        counts = " UNION ALL ".join(f"SELECT COUNT(*) AS n {self._rows(table)}" for table in self._tables())
        return "CAST(SUM(n) AS BIGINT)", f"FROM ({counts}) AS servers"

    def degrees(self, column: Column, dialect: Dialect) -> str:
        """How many rows each value of the column has. The counts of all servers are added up, unless each value is on
        one server only.

        COUNT counts the column and not rows, so that NULL has degree 0.
        """
        value = f"{self.entry.alias}.{dialect.quote(column.name)}"
        spread = self.entry.about.spread
        if len(self._tables()) == 1 or spread is None or spread.by == column.name:
            return f"SELECT COUNT({value}) AS d {self._rows(self.part or self.entry.table)}{self._groups(value)}"
        counts = " UNION ALL ".join(
            f"SELECT COUNT({value}) AS n, {value} AS v {self._rows(table)}{self._groups(value)}"
            for table in self._tables()
        )
        return f"SELECT CAST(SUM(n) AS BIGINT) AS d FROM ({counts}) AS servers GROUP BY v"

    def values(self, columns: list[Column], dialect: Dialect) -> str:
        """The different values of these columns, from each server once."""
        values = ", ".join(f"{self.entry.alias}.{dialect.quote(column.name)}" for column in columns)
        return " UNION ALL ".join(
            f"SELECT {values} {self._rows(table)}{self._groups(values)}" for table in self._tables()
        )

    def _groups(self, values: str) -> str:
        """A GROUP BY. If PostgreSQL expects as many groups as rows, it may fetch the rows; a HAVING makes it expect
        fewer groups.
        """
        return f" GROUP BY {values}" + (" HAVING COUNT(*) > 0" if self.entry.about.spread and not self.part else "")

    def _tables(self) -> tuple[str, ...]:
        """The tables that are queried, one by one."""
        spread = None if self.part else self.entry.about.spread
        return spread.parts if spread else (self.part or self.entry.table,)

    def _rows(self, table: str) -> str:
        return f"FROM {table} AS {self.entry.alias}{where(self.conditions)}"


class Limits:
    """The conditions on each entry's rows: its own conditions, and that its values are among the remaining values of
    its partners. `texts` are the parts of a statement with these values.
    """

    def __init__(self, query: Query, dialect: Dialect, prefix: str) -> None:
        self.query, self.dialect, self.prefix = query, dialect, prefix
        self.names: dict[str, str] = {}
        self.among: dict[int, dict[int, list[str]]] = {entry.number: {} for entry in query.entries}
        joined = partners(query)
        for entry, others in steps_elsewhere(query, joined):
            for other in others:
                # `other` has no more rows left than before, so the new condition replaces the old one.
                self.among[entry][other] = self._among(entry, other, joined[entry][other])

    @property
    def texts(self) -> list[tuple[str, str]]:
        return [(name, text) for text, name in self.names.items()]

    def of(self, entry: int) -> list[str]:
        return own_conditions(self.query.entries[entry]) + [
            text for texts in self.among[entry].values() for text in texts
        ]

    def _among(self, entry: int, other: int, pairs: list[tuple[Column, Column]]) -> list[str]:
        source = Source(self.query.entries[other], self.of(other))
        text = source.values(list(dict.fromkeys(right for _, right in pairs)), self.dialect)
        values = self.names.setdefault(text, f"{self.prefix}{len(self.names) + 1}")
        exact = semi_join(self.query, self.dialect, entry, other, pairs, values)
        if not self.query.entries[entry].about.spread:
            return [exact]
        mine = self.query.entries[entry].alias
        dialect = self.dialect
        tested = [dialect.remote_in(f"{mine}.{dialect.quote(left.name)}", right, values) for left, right in pairs]
        return tested if len(tested) == 1 else tested + [exact]


def steps_elsewhere(query: Query, joined: Joined) -> Iterable[tuple[int, list[int]]]:
    """The semi-joins in their order. They leave the same rows as those of `steps`.

    Along a tree, an entry without a condition doesn't limit the others at first, since all its values would be sent.
    """
    limited = {entry.number for entry in query.entries if entry.own}
    for reached in components(joined):
        if closes_a_cycle(joined, reached):
            yield from around_a_cycle(joined, reached)
            continue
        some_skipped = False
        for entry, others in along_a_tree(reached):
            limited_partners = [other for other in others if other in limited]
            some_skipped |= limited_partners != others
            if limited_partners:
                limited.add(entry)
                yield entry, limited_partners
        if some_skipped:
            yield from along_a_tree(reached)


def has_remote_tables(query: Query) -> bool:
    return any(entry.about.spread for entry in query.entries)


def rows_to_count(
    query: Query, dialect: Dialect, columns: dict[int, list[Column]], prefix: str
) -> tuple[list[tuple[str, str]], dict[int, Source]]:
    """The parts of a statement, and for each entry the place of its reduced rows in the statement with these parts."""
    if has_remote_tables(query):
        limits = Limits(query, dialect, prefix)
        return limits.texts, {entry.number: Source(entry, limits.of(entry.number)) for entry in query.entries}
    parts = reduced(query, dialect, columns, prefix)
    return parts.texts, {
        entry.number: Source(
            entry, [] if entry.number in parts.rows else own_conditions(entry), parts.rows.get(entry.number)
        )
        for entry in query.entries
    }


def rows_to_join(query: Query, dialect: Dialect, columns: dict[int, list[Column]], prefix: str) -> Parts:
    """The rows that were counted, with these columns."""
    if not has_remote_tables(query):
        return reduced(query, dialect, columns, prefix)
    limits = Limits(query, dialect, prefix)
    parts = Parts(limits.texts)
    for entry in query.entries:
        if limits.among[entry.number]:
            parts.add(entry, dialect, columns[entry.number], limits.of(entry.number), prefix)
    return parts
