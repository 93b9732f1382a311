"""LATERAL: a query in FROM that names entries before it. With these entries its rows are those of an inner join under
its own conditions.

The entries of the query are then entries of the block around it, under names of their own. An equality of one of their
columns with a column of that block is an edge.
"""

from __future__ import annotations

from typing import TYPE_CHECKING, Iterator, NamedTuple, Tuple

from .block_rows import is_one_row, limit_of, may_aggregate
from .blocks import Query as Several, Select
from .query import EntryColumn
from .reading import Tokens

if TYPE_CHECKING:
    from .block import Block
    from .block_bounds import BlockBounder
    from .levels import Lists


class Way(NamedTuple):
    """A bound of some rows: they are at most as many as the join of these entries has, times a number."""

    entries: frozenset[str]
    times: int = 1


# A kind of rows. Each of its ways is a bound of them.
Kind = Tuple[Way, ...]
ONE_ROW: Kind = (Way(frozenset()),)
ColumnName = Tuple[str, str]


def both(one: Kind, other: Kind) -> Kind:
    """The rows of one kind, each with the rows of the other."""
    return tuple(Way(a.entries | b.entries, a.times * b.times) for a in one for b in other)


class Lateral:
    """A query in LATERAL, and what the block around it takes from it."""

    def __init__(self, around: BlockBounder, number: int, query: Several) -> None:
        self.around, self.name = around, around.query.entries[number].name
        self.rows: dict[str, int] = {}
        self.lists: Lists = {}
        self.equalities: list[tuple[ColumnName, ColumnName]] = []
        self.outer: list[EntryColumn] = []
        self.kinds = self._kinds_of(query)

    def _kinds_of(self, query: Several) -> list[Kind]:
        found = [self._kinds_of_member(member) for member in query.members]
        words = {word.split()[0] for word in query.operators}
        kept = found[:1] if words and "UNION" not in words else found
        return _limited([kind for kinds in kept for kind in kinds], limit_of(self.around.block.plans.behind(query)))

    def _kinds_of_member(self, member: Select | Several) -> list[Kind]:
        if isinstance(member, Several):
            return self._kinds_of(member)
        bounder = self.around.block.plans.bounders.get(member.start)
        if bounder is None or is_one_row(bounder.block):
            return [ONE_ROW]
        prefix = f"{self.name}.{member.start}."
        self._take_entries(bounder, prefix)
        kinds = [tuple(way._replace(entries=frozenset(prefix + name for name in way.entries)) for way in kind)
                 for kind in bounder.kinds]
        # An aggregate makes one row even from no rows.
        kinds += [ONE_ROW] * may_aggregate(bounder.block)
        return _limited(kinds, limit_of(bounder.block.statement.later_clauses))

    def _take_entries(self, bounder: BlockBounder, prefix: str) -> None:
        edges = list(_edges(bounder.block, self.around.block))
        lists = {**bounder.lists, **bounder.lists_of_columns([inner for inner, _ in edges])}
        self.rows.update({prefix + name: rows for name, rows in bounder.rows.items()})
        self.lists.update({(prefix + name, column): runs for (name, column), runs in lists.items()})
        self.equalities += [
            ((prefix + one[0], one[1]), (prefix + other[0], other[1])) for one, other in bounder.equalities
        ]
        for inner, outer in edges:
            mine = prefix + bounder.query.entries[inner.entry].name, inner.column.name
            yours = self.around.query.entries[outer.entry].name, outer.column.name
            self.equalities.append((yours, mine))
            self.outer.append(outer)


def _limited(kinds: list[Kind], limit: int | None) -> list[Kind]:
    return kinds if limit is None else [(*kind, Way(frozenset(), limit)) for kind in kinds]


def _edges(inside: Block, around: Block) -> Iterator[tuple[EntryColumn, EntryColumn]]:
    """The equalities of a column of the inner block with one of the block around it, which all its rows satisfy."""
    for piece in inside.tested_conditions():
        for at, token in enumerate(piece):
            if token.kind == "operator" and token.text in inside.dialect.equals:
                sides = piece[:at], piece[at + 1 :]
                for mine, yours in (sides, sides[::-1]):
                    inner, outer = _inner_column(inside, mine), _outer_column(inside, around, yours)
                    if inner and outer and inner.column.kind is not None and inner.column.kind == outer.column.kind:
                        yield inner, outer


def _inner_column(inside: Block, piece: Tokens) -> EntryColumn | None:
    return None if inside.names_outside(piece) else inside.names.single_column(piece)


def _outer_column(inside: Block, around: Block, piece: Tokens) -> EntryColumn | None:
    is_outside = inside.names_outside(piece) and inside.names.single_column(piece) is None
    return around.names.single_column(piece) if is_outside else None
