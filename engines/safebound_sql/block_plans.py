"""Plans queries with several blocks and with outer joins. Each block is counted, planned and bounded by itself.

For a query in FROM, the block around it uses that query's bound, and counts nothing. If the query groups by one column,
its rows have each value of this column once. Entries are counted under their own conditions only, without semi-joins.
"""

from __future__ import annotations

import functools
import re
from .block import Block
from .block_bounds import BlockPlan, BlockBounder
from .block_rows import grouping_expression, limited_rows, why_more_rows, without_alias
from .block_sql import rows_of_levels, sql_of
from .blocks import Finder, Query as Several, Select, With, has_from, outside_parentheses, part_named
from .dialect import as_script
from .engine import Engine
from .faults import EngineFault, NoBound, PastBudget, Refused
from .levels import library_faults
from .meaning import refuse_volatile
from .names import alias_of
from .progress import Progress
from .reading import Statement, Tokens, read
from .tokens import tokens, without_end, written


class Planner:
    """Plans all blocks of a text, from the innermost block to the outermost."""

    def __init__(self, engine: Engine, text: str, accuracy: int, budget: int, progress: Progress | None = None) -> None:
        self.engine, self.text, self.accuracy, self.budget = engine, text, accuracy, budget
        self.dialect, self.catalog, self.connection = engine.dialect, engine.catalog, engine.connection
        self.progress = progress or Progress()
        self.pieces = tokens(text, engine.dialect.rules)
        self.at = {token.at: number for number, token in enumerate(self.pieces)}
        self.query = Finder(text, self.pieces, engine.dialect).find()
        refuse_volatile(Statement(text), self.pieces, engine)
        engine.catalog.check(without_end(text, self.pieces))
        self.blocks: dict[int, Block] = {}
        self.plans: dict[int, BlockPlan] = {}
        self.bounders: dict[int, BlockBounder] = {}
        self._plan_all(self.query)
        self.plans = {select.start: self.plans[select.start] for select in self.query.selects()}
        self.rows = self.rows_of(self.query)
        self.rows_there: int | None = None
        if self.unbounded and not self.blocks:
            raise Refused(self.unbounded[0])
        if self.cost > budget:
            raise PastBudget(budget, self.cost)

    @property
    def cost(self) -> int:
        """The most rows of a join of any block, or of the whole query."""
        return max(self.rows or 0, *(plan.cost for plan in self.plans.values()))

    def _plan_all(self, query: Several) -> None:
        """Plans the blocks of a query that aren't planned yet. A block may name a part of WITH behind it."""
        for select in query.selects():
            if select.start not in self.plans:
                self.plans[select.start] = self._plan(select)

    def _plan(self, select: Select) -> BlockPlan:
        try:
            if not has_from(self.pieces[select.start : select.end]):
                more = why_more_rows(self.pieces[select.start : select.end], self.dialect, self.catalog)
                return BlockPlan(select, rows=None if more else 1, more_rows=more)
            with self.progress.doing(f"counting for {select.label}"), library_faults(self.budget):
                block = Block(self, select)
                bounder = BlockBounder(block, self.accuracy)
                plan = bounder.plan()
        except (Refused, NoBound) as fault:
            return BlockPlan(select, refused=str(fault))
        self.blocks[select.start], self.bounders[select.start] = block, bounder
        return plan

    def rows_of(self, query: Several) -> int | None:
        """The bound of a query's rows: for UNION the sum of its sides, for EXCEPT the left side, for INTERSECT the
        lesser side.
        """
        if query.refused:
            return None
        self._plan_all(query)
        behind = self.behind(query)
        if why_more_rows(behind, self.dialect, self.catalog):
            return None
        found = [self.rows_of(m) if isinstance(m, Several) else self.plans[m.start].rows for m in query.members]
        rows = [number for number in found if number is not None]
        if len(rows) < len(found) or not rows:
            return None
        if len(set(word.split()[0] for word in query.operators)) > 1:
            return sum(rows)
        first = query.operators[0].split()[0] if query.operators else ""
        total = sum(rows) if first == "UNION" else min(rows) if first == "INTERSECT" else rows[0]
        return limited_rows(total, behind)

    def behind(self, query: Several) -> Tokens:
        """The clauses behind all SELECTs of a query, as ORDER BY behind UNION."""
        return self.pieces[self._token_after(query) : query.end]

    def _token_after(self, query: Several) -> int:
        last = query.members[-1]
        return last.end if isinstance(last, Select) or last.end == query.end else last.end + 1

    def unique_columns(self, query: Several, names: list[str]) -> set[str]:
        """The columns of a query in which no value occurs twice. If the query groups by one column, it is that column.
        If the query is a SELECT DISTINCT with one output, it is that output.
        """
        if (
            len(query.members) != 1
            or not isinstance(query.members[0], Select)
            or query.members[0].start not in self.blocks
        ):
            return set()
        block = self.blocks[query.members[0].start]
        clauses, outputs = block.statement.later_clauses, block.statement.outputs
        if len(outputs) != len(names):
            return set()
        if clauses and clauses[0].says("GROUP"):
            expression = grouping_expression(clauses)
            column = block.names.single_column(expression) if expression else None
            return {
                name
                for name, piece in zip(names, outputs)
                if column and block.names.single_column(without_alias(piece)) == column
            }
        only = (
            block.statement.distinct
            and block.statement.distinct[0].says("DISTINCT")
            and len(outputs) == len(block.statement.distinct) == 1
        )
        return set(names) if only else set()

    def aliases_outside(self, select: Select) -> tuple[set[str], set[str]]:
        """The aliases that the blocks around this one have in FROM, and the names of all their columns."""
        aliases: set[str] = set()
        columns: set[str] = set()
        while select.outside:
            select = select.outside
            pieces = list(self.pieces[select.start : select.end])
            if not has_from(pieces):
                # It has no entries. Its outputs have their names outside parentheses.
                columns |= {self.dialect.normalized_name(name) for name in outside_parentheses(pieces) if name.is_name}
                continue
            try:
                statement = read(self.text, pieces, self.dialect, in_blocks=True)
            except Refused:
                # The entries and columns of this one aren't known, so any name in it may be one of them.
                names = [token for token in self.pieces[select.start : select.end] if token.is_name]
                keys = {self.dialect.normalized_name(token) for token in names}
                return aliases | keys, columns | keys
            columns |= {
                self.dialect.normalized_name(alias) for output in statement.outputs if (alias := alias_of(output))
            }
            for source in statement.sources:
                aliases.add(self.dialect.normalized_name(source.alias))
                whole = not source.is_query and not part_named(source.table[-1], select.visible, self.dialect)
                about = self.catalog.table(source.table) if whole else None
                # A query in FROM or a part of WITH may give its columns any name that the text has.
                columns |= set(about.by_name) if about else self._all_names
        return aliases, columns

    @functools.cached_property
    def _all_names(self) -> set[str]:
        return {self.dialect.normalized_name(token) for token in self.pieces if token.is_name}

    def joins_within(self, inner: Tokens) -> bool:
        """Whether a block among these tokens has several entries, or has no plan."""
        first, last = inner[0].at, inner[-1].at
        return any(
            first <= self.pieces[select.start].at <= last
            and not (select.start in self.blocks and len(self.blocks[select.start].order) == 1)
            for select in self.query.selects()
        )

    def source_of(self, query: Several) -> str:
        """The text of a query as written."""
        return self.text[self.pieces[query.start].at : self._stop(query.end)]

    def _stop(self, end: int) -> int:
        return self.pieces[end - 1].at + len(self.pieces[end - 1].text)

    def with_parts(self, visible: list[With], text: str) -> str:
        """A query that runs alone, with the parts of WITH that it can name before it."""
        for one in reversed(visible):
            if not one.parts:
                continue
            if re.match(r"WITH\b", text, re.IGNORECASE):
                text = f"SELECT * FROM ({text}\n) AS inner_query"
            parts = [f"{p.name.text}{written(p.columns)} AS ({self.planned_text(p.query)})" for p in one.parts]
            text = f"WITH {one.word and one.word + ' '}{', '.join(parts)}\n{text}"
        return text

    def text_of(self, piece: Tokens) -> str:
        """The text of tokens, with the blocks among them in their planned order."""
        if not piece:
            return ""
        start, end = self.at[piece[0].at], self.at[piece[-1].at] + 1
        return self._text(start, end, self._inner_queries(start, end))

    def _inner_queries(self, start: int, end: int) -> list[Several]:
        """The outermost queries in parentheses among the tokens."""
        queries = [
            inner
            for select in self.query.selects()
            for inner in select.inner
            if start <= inner.start and inner.end <= end
        ]
        outermost: list[Several] = []
        for query in sorted(queries, key=lambda query: (query.start, -query.end)):
            if not outermost or query.start >= outermost[-1].end:
                outermost.append(query)
        return outermost

    def _text(self, start: int, end: int, inner: list[Several]) -> str:
        parts, at = [], self.pieces[start].at
        for query in inner:
            parts += [self.text[at : self.pieces[query.start].at], self.planned_text(query)]
            at = self._stop(query.end)
        return "".join(parts) + self.text[at : self._stop(end)]

    def planned_text(self, query: Several) -> str:
        """The text of a query with each block in its planned order, and otherwise as written."""
        spans: list[tuple[int, int, str]] = [
            (part.query.start, part.query.end, self.planned_text(part.query)) for part in query.parts
        ]
        for member in query.members:
            if isinstance(member, Several):
                spans.append((member.start, member.end, self.planned_text(member)))
            elif member.start in self.blocks:
                spans.append((member.start, member.end, sql_of(self.blocks[member.start])))
            else:
                spans.append((member.start, member.end, self._text(member.start, member.end, member.inner)))
        parts, at = [], self.pieces[query.start].at
        for start, end, text in spans:
            parts += [self.text[at : self.pieces[start].at], text]
            at = self._stop(end)
        return "".join(parts) + self.text[at : self._stop(query.end)]

    def sql(self) -> str:
        return self.planned_text(self.query)

    def check(self) -> None:
        why = self.catalog.complaint(self.sql())
        if why:
            raise EngineFault(f"{why}. The query is taken as it is, but not with its blocks in the planned order")

    @property
    def settings(self) -> tuple[str, ...]:
        """The settings that keep the joins of all blocks in their order."""
        return self.dialect.settings_for(entry.about for block in self.blocks.values() for entry in block.query.entries)

    def script(self) -> str:
        return as_script(*self.settings, self.sql())

    @property
    def unbounded(self) -> list[str]:
        found = [part.query.refused for part in self.query.all_parts() if part.query.refused]
        found += [f"{plan.select.label}: {plan.refused}" for plan in self.plans.values() if plan.refused]
        if self.rows is None and not found:
            more = [plan.more_rows for plan in self.plans.values() if plan.more_rows]
            found.append(f"the query: its rows aren't bounded: {more[-1] if more else 'its ORDER BY may make more'}")
        return list(dict.fromkeys(found))

    def true_rows(self) -> None:
        """Counts the rows of each level of a block, and those of a whole query of several SELECTs. It skips blocks that
        name something of the blocks around them, and blocks in WITH RECURSIVE.
        """
        self.connection.keep_order()
        for start, block in self.blocks.items():
            refused = [part.query for part in self.query.all_parts() if part.query.refused]
            if any(query.start <= start < query.end for query in refused):
                continue
            if any(self.aliases_outside(block.select)) and any(
                map(
                    block.names_outside,
                    [*block.statement.conditions, *(piece for step in block.steps for piece in step.conditions)],
                )
            ):
                continue
            with self.progress.doing(f"counting the rows of {block.select.label}"):
                for number, level in enumerate(self.plans[start].levels, 1):
                    sql = self.with_parts(block.visible, f"SELECT count(*) {rows_of_levels(block, number)}")
                    level.rows = self.connection.rows(sql)[0][0]
        if self.query.operators and self.rows is not None:
            with self.progress.doing("counting the rows of the whole query"):
                self.rows_there = self.connection.rows(f"SELECT count(*) FROM ({self.sql()}\n) AS whole")[0][0]


def has_several_blocks(text: str, engine: Engine) -> bool:
    """Whether the text has to be planned in blocks: it has WITH, UNION or its like, an outer join, or a query in FROM;
    or a subquery joins, or names an entry outside of itself; or only subqueries have FROM.
    """
    pieces = tokens(text, engine.dialect.rules)
    query = Finder(text, pieces, engine.dialect).find()
    select = query.members[0] if len(query.members) == 1 else None
    if query.parts or query.operators or not isinstance(select, Select):
        return True
    if select.inner and not has_from(pieces[select.start : select.end]):
        return True
    try:
        statement = read(text, list(pieces), engine.dialect, in_blocks=True)
    except Refused:
        return any(
            token.says("LEFT", "RIGHT", "FULL") and after.says("JOIN", "OUTER")
            for token, after in zip(pieces, pieces[1:])
        )
    if any(step.kind != "INNER" for step in statement.steps) or any(source.is_query for source in statement.sources):
        return True
    for inner in select.inner:
        piece = pieces[inner.start : inner.end]
        if (
            any(token.says("JOIN") for token in piece)
            or len(list(inner.selects())) > 1
            or _joins(text, piece, engine)
            or engine.catalog.why_not_alone(piece)
        ):
            return True
    return False


def _joins(text: str, piece: Tokens, engine: Engine) -> bool:
    try:
        return len(read(text, list(piece), engine.dialect, in_blocks=True).sources) > 1
    except Refused:
        return True
