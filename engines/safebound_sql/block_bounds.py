"""Plans a block: counts its entries, orders its joins, and bounds each level.

After outer joins there are several kinds of rows. In the rows of one kind, the same set of entries have a row; all
other entries' columns are NULL. A kind has at most as many rows as the join of its entries. The bounds of all kinds are
added up.
"""

from __future__ import annotations

from dataclasses import dataclass, field

import safebound
from safebound.limits import MOST_ENTRIES, MOST_EQUALITIES

from .block import Block
from .block_laterals import ONE_ROW, Kind, Lateral, Way, both
from .block_rows import clauses_above, most_rows, why_more_rows
from .blocks import Select
from .counting import Counts, counts_among, histograms
from .faults import NoBound, Refused
from .levels import MOST_BUDGET, Equal, Lists, equalities_of, lists_of
from .query import Column, EntryColumn, Query
from .reducing import own_conditions
from .servers import Source as Counted
from .tokens import written


@dataclass
class BlockLevel:
    """A level of a block: which entry is joined and how, its table, the bound of its scan, and the level's bound."""

    joined: str
    source: str
    scan: int
    bound: int
    entries: list[int]
    rows: int | None = None


@dataclass
class BlockPlan:
    """A block's levels and the bound of its rows, or the reason why it isn't bounded. If only its joins are bounded,
    `more_rows` says why it may have more rows than they.
    """

    select: Select
    levels: list[BlockLevel] = field(default_factory=list)
    rows: int | None = None
    refused: str | None = None
    more_rows: str | None = None
    notes: list[str] = field(default_factory=list)

    @property
    def cost(self) -> int:
        return max((level.bound for level in self.levels), default=0)


class BlockBounder:
    """Counts a block's entries and plans its joins.

    `rows`, `lists` and `equalities` are those of all entries of the block, with those of queries in LATERAL. `kinds`
    are the kinds of the block's rows.
    """

    rows: dict[str, int]
    lists: Lists
    equalities: list[Equal]

    def __init__(self, block: Block, accuracy: int) -> None:
        self.block: Block = block
        self.query: Query = block.query
        self.accuracy: int = accuracy
        self.laterals: dict[int, Lateral] = {}
        self.kinds: list[Kind] = [ONE_ROW]

    def plan(self) -> BlockPlan:
        block, query = self.block, self.query
        block.connection.prepare_joins(entry.about for entry in query.entries)
        self.laterals = {number: Lateral(self, number, inner) for number, inner in block.names.laterals.items()}
        counts = self._count_rows({})
        self._take_all(counts)
        known = safebound.Query(list(self.rows), self.equalities, self.rows, self.lists)
        self.bounds = known.bounds()
        block.order = self._best_order(counts, self.lists)
        levels = self._levels(counts)
        notes = [f"not used for bounds: {written(piece)}" for piece in block.not_used]
        above = [token for piece in clauses_above(block) for token in piece]
        more = why_more_rows(above, block.dialect, block.catalog)
        rows = None if more else most_rows(block, levels[-1].bound)
        return BlockPlan(block.select, levels, rows, more_rows=more, notes=notes)

    def _take_all(self, counts: Counts) -> None:
        """Puts the entries of queries in LATERAL beside the block's own."""
        own = [entry.name for entry in self.query.entries if entry.number not in self.laterals]
        self.rows = {name: counts.rows[name] for name in own}
        self.lists, self.equalities = lists_of(counts, self.accuracy), equalities_of(self.query)
        for lateral in self.laterals.values():
            self.rows.update(lateral.rows)
            self.lists.update(lateral.lists)
            self.equalities += [pair for pair in lateral.equalities if pair not in self.equalities]
        if len(self.rows) > MOST_ENTRIES:
            raise Refused(f"with those of LATERAL it has {len(self.rows)} entries, and {MOST_ENTRIES} are the most")
        del self.equalities[MOST_EQUALITIES:]
        used = {column for pair in self.equalities for column in pair}
        self.lists = {column: runs for column, runs in self.lists.items() if column in used}

    def _levels(self, counts: Counts) -> list[BlockLevel]:
        order, levels = self.block.order, list[BlockLevel]()
        for position, number in enumerate(order):
            word = self._join(number, first=position == 0)
            entry = self.query.entries[number]
            source = "a query" if self.block.statement.sources[number].is_query else entry.table
            bound = sum(map(self._bound_of_kind, self.kinds))
            joined, scan = f"{word}{entry.name}", counts.rows[entry.name]
            levels.append(BlockLevel(joined, source, scan, bound, order[: position + 1]))
        return levels

    def lists_of_columns(self, columns: list[EntryColumn]) -> Lists:
        """The lists of columns that a block around this one joins with its own."""
        more = {named.entry: [other.column for other in columns if other.entry == named.entry] for named in columns}
        return lists_of(self._count_rows(more), self.accuracy) if columns else {}

    def _count_rows(self, more: dict[int, list[Column]]) -> Counts:
        """The rows of each entry, and the degrees of its joined columns and of these further ones. For a query in FROM,
        they follow from the plan of that query.
        """
        query, given = self.query, self.block.names.given
        joined = {entry.number: self._joined_columns(entry.number, more) for entry in query.entries}
        own = [entry for entry in query.entries if entry.number not in given]
        asked = {entry.name: joined[entry.number] for entry in own}
        selects = [
            text
            for entry in own
            for text in histograms(Counted(entry, own_conditions(entry)), asked[entry.name], self.block.dialect)
        ]
        counts = counts_among(asked, self.block.connection.rows("\nUNION ALL ".join(selects)) if selects else [])
        for number, (rows, unique) in given.items():
            entry = query.entries[number]
            counts.rows[entry.name] = rows
            for column in joined[number]:
                once = self.block.dialect.normalized(column.name, True) in unique
                counts.runs[entry.name, column.name] = [(1, rows) if once else (rows, 1)] if rows else []
        return counts

    def _joined_columns(self, number: int, more: dict[int, list[Column]]) -> list[Column]:
        """The columns of an entry that are joined in the block, with a query in LATERAL, or around the block."""
        of_laterals = [
            named.column for lateral in self.laterals.values() for named in lateral.outer if named.entry == number
        ]
        return list(dict.fromkeys([*self.query.joined_columns(number), *of_laterals, *more.get(number, [])]))

    def _best_order(self, counts: Counts, lists: Lists) -> list[int]:
        """The best order of the entries that are joined first, then the other entries as written."""
        names, reorderable = [entry.name for entry in self.query.entries], self.block.reorderable
        some = {names[number] for number in reorderable}
        within = [(one, other) for one, other in equalities_of(self.query) if one[0] in some and other[0] in some]
        used = {column for pair in within for column in pair}
        known = safebound.Query(
            [names[number] for number in reorderable], within, {name: counts.rows[name] for name in some},
            {column: runs for column, runs in lists.items() if column in used},
        )
        order = [names.index(name) for name in known.best_order(MOST_BUDGET).entries]
        return order + [step.source for step in self.block.steps if step.source not in reorderable]

    def _join(self, number: int, first: bool) -> str:
        """Joins an entry to the kinds of rows. Returns the SQL words of the join."""
        kind, kinds = self.block.steps[number].kind, self.kinds
        lateral = self.laterals.get(number)
        own = lateral.kinds if lateral else [(Way(frozenset([self.query.entries[number].name])),)]
        matched = [both(some, one) for some in kinds for one in own]
        if first or kind == "INNER":
            self.kinds = matched
            return "LATERAL " if lateral else ""
        self.kinds = {"LEFT": matched + kinds, "RIGHT": matched + own, "FULL": matched + kinds + own}[kind]
        return f"{kind} JOIN {'LATERAL ' if lateral else ''}"

    def _bound_of_kind(self, kind: Kind) -> int:
        bounds = [self._bound_of_way(way) for way in kind]
        known = [bound for bound in bounds if bound is not None]
        if not known:
            raise NoBound
        return min(known)

    def _bound_of_way(self, way: Way) -> int | None:
        bound: int | None = self.bounds[set(way.entries)] if way.entries else 1
        return None if bound is None else bound * way.times
