"""Names in a block. Its entries may be queries in FROM and parts of WITH."""

from __future__ import annotations

from typing import TYPE_CHECKING

from .blocks import Query as Several, Select, innermost, part_named
from .faults import EngineFault
from .names import Names
from .query import Column, Table
from .reading import Source, Statement, Tokens
from .tokens import Token, written

if TYPE_CHECKING:
    from .block_plans import Planner

# The most rows that the library accepts for an entry.
MOST_ROWS = 2**48


class BlockNames(Names):
    """Names in a block. A subquery may name entries of the block, so the tokens of subqueries are read too."""

    looks_into_subqueries = True

    def __init__(self, statement: Statement, plans: Planner, select: Select, outside: set[str]) -> None:
        self.plans, self.select, self.visible, self.outside = plans, select, select.visible, outside
        self.given: dict[int, tuple[int, set[str]]] = {}
        self.laterals: dict[int, Several] = {}
        super().__init__(statement, plans.engine)

    def _is_of_this_statement(self, qualifier: Token) -> bool:
        """An entry with a schema may be one of a block around this one, if that has one of the same name."""
        return super()._is_of_this_statement(qualifier) and self.dialect.normalized_name(qualifier) not in self.outside

    def _text_of(self, source: Source) -> str:
        return self.plans.text_of(source.table) if source.is_query else written(source.table)

    def _table_of(self, source: Source) -> Table | None:
        number = len(self.entries)
        if source.is_query:
            first = source.table[innermost(source.table, 0) + 1].at
            inner = next((one for one in self.select.inner if self.plans.pieces[one.start].at == first), None)
            if inner is None:
                raise self.statement.refuse(source.alias, "only a SELECT is bounded here")
            text = self.plans.source_of(inner)
            if source.says_lateral and self.catalog.complaint(self.plans.with_parts(self.visible, text)):
                self.laterals[number] = inner
                text = self._beside_entries(source, text)
            return self._given(number, inner, text, source.columns, source)
        part = part_named(source.table[0], self.visible, self.dialect) if len(source.table) == 1 else None
        if part is None:
            return self.catalog.table(source.table)
        return self._given(number, part.query, f"SELECT * FROM {part.name.text}", [], source)

    def _given(self, number: int, query: Several, text: str, columns: Tokens, source: Source) -> Table:
        """The columns of a query in FROM or WITH. Its rows are bounded by its own plan, and aren't counted."""
        rows = self.plans.rows_of(query)
        if rows is None or rows > MOST_ROWS:
            raise self.statement.refuse(
                source.alias, "its rows aren't bounded" + ("" if rows is None else f" by {MOST_ROWS} or fewer")
            )
        found = self._described(number, source, self.plans.with_parts(self.visible, text))
        names = [self.dialect.normalized_name(token) for token in columns if token.is_name]
        found = [column._replace(name=name) for name, column in zip(names, found)] + found[len(names) :]
        self.given[number] = rows, {
            self.dialect.normalized(name, True) for name in self.plans.unique_columns(query, [c.name for c in found])
        }
        return Table(tuple(found), {self.dialect.normalized(column.name, True): column for column in found})

    def _described(self, number: int, source: Source, text: str) -> list[Column]:
        """The columns of a query. Those of one in LATERAL aren't compared as columns of an entry are."""
        try:
            found = self.catalog.described(text)
        except EngineFault:
            why = "it names an entry of a block further out, and isn't bounded"
            raise self.statement.refuse(source.alias, why) from None
        return [column._replace(kind=None) for column in found] if number in self.laterals else found

    def _beside_entries(self, source: Source, text: str) -> str:
        """A query with the columns of the query in LATERAL, which names the entries before it."""
        before = [
            f"{entry.table} AS {entry.alias}{written(other.columns)}"
            for entry, other in zip(self.entries, self.statement.sources)
        ]
        before = [f"LATERAL {one}" if one.startswith("(") else one for one in before]
        alias = source.alias.text
        return f"SELECT {alias}.* FROM {', '.join([*before, f'LATERAL ({text}) AS {alias}'])}"
