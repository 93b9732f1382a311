"""Writes SQL in the planned order: for the query itself, for the true rows of its levels, and for the rows that the
engine expects.
"""

from __future__ import annotations

from .dialect import Dialect
from .levels import Level, Plan, Shape, entries_of
from .query import EntryColumn, Query, Text
from .reducing import Parts, bracketed, own_conditions, where
from .servers import rows_to_join


class Writer:
    """Writes statements for a query. With `reduce` they join the rows that were counted, otherwise the tables."""

    def __init__(self, query: Query, dialect: Dialect, prefix: str, reduce: bool) -> None:
        self.query, self.dialect, self.prefix = query, dialect, prefix
        self.columns = {entry.number: query.used_columns(entry.number) for entry in query.entries}
        self.parts = rows_to_join(query, dialect, self.columns, prefix) if reduce else Parts()

    def query_in_order(self, plan: Plan) -> str:
        """The query with its joins in the planned order."""
        writing, query = StatementWriter(self), self.query
        joined = writing.below_the_outputs(plan.shape)
        outputs = ", ".join(output if isinstance(output, str) else writing.column(output) for output in query.outputs)
        later = query.later_clauses
        lines = [f"SELECT {query.distinct and query.distinct + ' '}{outputs}", joined, *filter(None, [later])]
        return writing.before("\n".join(lines))

    def true_rows(self, levels: list[Level]) -> str:
        """A statement that counts the rows of each level. Levels are numbered from 1."""
        writing = StatementWriter(self)
        counts = [f"SELECT {number}, COUNT(*) {writing.joined(level.shape)}" for number, level in enumerate(levels, 1)]
        return writing.before("\nUNION ALL ".join(counts))

    def plainly(self, shape: Shape) -> str:
        """The join of a shape's entries over the tables themselves, with their conditions, in an order that the engine
        chooses.
        """
        numbers = sorted(entries_of(shape))
        entries = [self.query.entries[number] for number in numbers]
        conditions = [text for entry in entries for text in own_conditions(entry)]
        conditions += [bracketed(str(text)) for text in self.query.complete(frozenset(numbers)) + self.query.constants]
        return f"SELECT 1 FROM {', '.join(f'{entry.table} AS {entry.alias}' for entry in entries)}{where(conditions)}"


class StatementWriter:
    """One statement while it is written. If the engine doesn't keep the shape of a join tree, the right side of a join
    becomes a part of WITH when it has several entries. `within` has, for each entry in such a part, the name of the
    part.
    """

    def __init__(self, writer: Writer) -> None:
        self.query, self.dialect, self.columns = writer.query, writer.dialect, writer.columns
        self.prefix, self.rows = writer.prefix, writer.parts.rows
        self.texts: list[tuple[str, str]] = list(writer.parts.texts)
        self.within: dict[int, str] = {}

    def before(self, select: str) -> str:
        """The statement with its parts before it."""
        return self.dialect.with_parts(self.texts, select)

    def text(self, text: Text) -> str:
        return text.naming(self._elsewhere)

    def column(self, named: EntryColumn) -> str:
        """A column of a star as an output, under its own name."""
        name = self.dialect.quote(named.column.name)
        visible = self._visible(named)
        return f"{self.query.entries[named.entry].alias}.{visible}{'' if visible == name else f' AS {name}'}"

    def _visible(self, named: EntryColumn) -> str:
        """The name of the column beside its entry's alias."""
        return self._name_within(named) if named in self.query.renamed else self.dialect.quote(named.column.name)

    def _elsewhere(self, named: EntryColumn) -> str | None:
        """The column's name in a part of several entries, or its new name if it was renamed. Otherwise None."""
        part = self.within.get(named.entry)
        if part:
            return f"{part}.{self._name_within(named)}"
        return (
            f"{self.query.entries[named.entry].alias}.{self._visible(named)}" if named in self.query.renamed else None
        )

    def _name_within(self, named: EntryColumn) -> str:
        return self.dialect.quote(f"{self.prefix}{named.entry}_{named.column.name}")

    def below_the_outputs(self, shape: Shape) -> str:
        """FROM and WHERE for the clauses above the join: each entry has its own alias, and its columns have their own
        names.
        """
        if self.query.frame:
            return self._in_frame(self.joined(shape))
        self.within = {}
        joins = self._from(shape)
        again = self._entries_of_parts()
        return f"FROM {joins}{again}{where(self._left_over(shape))}"

    def _in_frame(self, joined: str) -> str:
        """FROM as written, with the joined rows' columns in place of each table, so that USING merges as in the query.
        """
        columns = {number: self._named_above(number) for number in range(len(self.query.entries))}
        outputs = [
            f"{self._source(named)} AS {self._name_within(named)}" for some in columns.values() for named in some
        ]
        rows = f"{self.prefix}joined"
        parts = [
            part if isinstance(part, str) else self._row_of(part, columns[part], rows) for part in self.query.frame
        ]
        return f"FROM (SELECT {', '.join(outputs)} {joined}) AS {rows}, {''.join(parts)}"

    def _row_of(self, number: int, columns: list[EntryColumn], rows: str) -> str:
        outputs = ", ".join(f"{rows}.{self._name_within(named)} AS {self._visible(named)}" for named in columns)
        return f"LATERAL (SELECT {outputs}) AS {self.query.entries[number].alias}"

    def _named_above(self, number: int) -> list[EntryColumn]:
        columns = (EntryColumn(number, column) for column in self.columns[number])
        return [named for named in columns if named in self.query.named_above]

    def _entries_of_parts(self) -> str:
        """Joins each entry of a part once more, under its own alias. Rows match by the row number that the part has."""
        again, numbered = "", f"{self.prefix}row"
        for number, part in sorted(self.within.items()):
            columns, alias = self._named_above(number), self.query.entries[number].alias
            if not columns:
                continue
            outputs = ", ".join(
                [numbered, *(f"{self._name_within(named)} AS {self._visible(named)}" for named in columns)]
            )
            again += (
                f"\n  {self.dialect.join_word} (SELECT {outputs} FROM {part}) AS {alias}"
                f" ON {alias}.{numbered} = {part}.{numbered}"
            )
        if again:
            rows = f"SELECT {self.dialect.row_number} AS {numbered}, "
            parts = set(self.within.values())
            self.texts = [
                (name, text.replace("SELECT ", rows, 1) if name in parts else text) for name, text in self.texts
            ]
        return again

    def joined(self, shape: Shape) -> str:
        """FROM with the joins of this shape, and WHERE with the remaining conditions."""
        self.within = {}
        joins = self._from(shape)
        return f"FROM {joins}{where(self._left_over(shape))}"

    def _left_over(self, shape: Shape) -> list[str]:
        return self._alone(shape) + list(map(self._condition, self.query.constants))

    def _condition(self, text: Text) -> str:
        return bracketed(self.text(text))

    def _alone(self, shape: Shape) -> list[str]:
        """The own conditions that haven't been tested yet. A part tests those of its entries, and a renamed column
        comes from a subquery that tests them.
        """
        within = {*self.rows, *self.within, *(named.entry for named in self.query.renamed)}
        numbers = [number for number in entries_of(shape) if number not in within]
        return [text for number in numbers for text in own_conditions(self.query.entries[number])]

    def _from(self, shape: Shape) -> str:
        if isinstance(shape, int):
            return self._entry(shape)
        left, right = shape
        sides = frozenset(entries_of(left)), frozenset(entries_of(right))
        joins = (self._side if self.dialect.makes_tables else self._from)(left), self._side(right)
        conditions = " AND ".join(map(self._condition, self.query.complete(sides[0] | sides[1], sides)))
        if conditions:
            return f"{joins[0]}\n  {self.dialect.join_word} {joins[1]} ON {conditions}"
        return f"{joins[0]}\n  CROSS JOIN {joins[1]}"

    def _entry(self, number: int) -> str:
        entry = self.query.entries[number]
        rows = f"{self.rows.get(number, entry.table)} AS {entry.alias}"
        if not any(named.entry == number for named in self.query.renamed):
            return rows
        columns = [EntryColumn(number, column) for column in self.columns[number]]
        outputs = ", ".join(
            f"{entry.alias}.{self.dialect.quote(named.column.name)} AS {self._visible(named)}" for named in columns
        )
        conditions = [] if number in self.rows else own_conditions(entry)
        return f"(SELECT {outputs} FROM {rows}{where(conditions)}) AS {entry.alias}"

    def _side(self, shape: Shape) -> str:
        """The right side of a join."""
        if isinstance(shape, int):
            return self._from(shape)
        if self.dialect.keeps_trees:
            return f"({self._from(shape)})"
        return self._part(shape)

    def _part(self, shape: Shape) -> str:
        """Writes the joins of this shape as a part. Returns its name."""
        outside, self.within = self.within, {}
        joins, alone = self._from(shape), self._alone(shape)
        needed = [EntryColumn(number, column) for number in entries_of(shape) for column in self.columns[number]]
        outputs = ", ".join(f"{self._source(named)} AS {self._name_within(named)}" for named in needed) or "1 AS one"
        name = f"{self.prefix}{len(self.texts) + 1}"
        self.texts.append((name, f"SELECT {outputs} FROM {joins}{where(alone)}"))
        self.within = {**outside, **dict.fromkeys(entries_of(shape), name)}
        return name

    def _source(self, named: EntryColumn) -> str:
        alias = self.query.entries[named.entry].alias
        return self._elsewhere(named) or f"{alias}.{self.dialect.quote(named.column.name)}"
