"""The bound of the rows of a query block (one SELECT). It follows from the bound of the block's joins, and from
outputs, GROUP BY, HAVING and LIMIT.
"""

from __future__ import annotations

from typing import TYPE_CHECKING, Iterator

from .calls import call_at, calls
from .dialect import Dialect
from .engine import Catalog
from .names import alias_of, subqueries
from .reading import Tokens
from .tokens import closing, part_of_name

if TYPE_CHECKING:
    from .block import Block

SETS_OF_GROUPS = ("ROLLUP", "CUBE", "GROUPING")
WORDS_OF_CALLS = ("FILTER", "WITHIN", "BY")
BEHIND_GROUPS = ("HAVING", "WINDOW", "ORDER", "LIMIT", "OFFSET", "FETCH")


def why_more_rows(pieces: Tokens, dialect: Dialect, catalog: Catalog) -> str | None:
    """Why a SELECT may make more rows than its joins, if its outputs and the clauses behind them have these tokens."""
    own = outside_subqueries(pieces)
    if _has_grouping_sets(own):
        return "it groups by several sets of columns"
    asked = calls(own, dialect)
    found = catalog.functions(set(asked))
    sets = [token for call, token in asked.items() if any(function.returns_set for function in found.get(call, ()))]
    return f"{sets[0].text} may make several rows of one" if sets else None


def most_rows(block: Block, joined: int) -> int:
    """The bound of the rows of a block that makes no more rows than its joins."""
    clauses = block.statement.later_clauses
    if clauses and clauses[0].says("GROUP"):
        return limited_rows(joined, clauses)
    if is_one_row(block):
        return 1
    # An aggregate makes one row even from no rows.
    return limited_rows(max(joined, int(may_aggregate(block))), clauses)


def is_one_row(block: Block) -> bool:
    """Whether the block aggregates all its rows into one."""
    clauses = block.statement.later_clauses
    if clauses and clauses[0].says("GROUP"):
        return False
    if clauses and clauses[0].says("HAVING"):
        return True
    return any(_has_aggregate(block, piece) for piece in clauses_above(block))


def may_aggregate(block: Block) -> bool:
    """Whether the block may aggregate all its rows into one: a name that it calls may mean an aggregate. One in a
    subquery may be of this block, if its argument is.
    """
    clauses = block.statement.later_clauses
    if clauses and clauses[0].says("GROUP"):
        return False
    asked = calls([token for piece in clauses_above(block) for token in piece], block.dialect)
    found = block.catalog.functions(set(asked))
    return any(function.is_aggregate for functions in found.values() for function in functions)


def clauses_above(block: Block) -> list[Tokens]:
    """What is computed from the joined rows: DISTINCT, the outputs and the clauses behind."""
    statement = block.statement
    return [statement.distinct, *statement.outputs, statement.later_clauses]


def outside_subqueries(pieces: Tokens) -> Tokens:
    """The tokens without those of subqueries. A subquery among outputs has one value, whatever it calls."""
    inside = {at for start, end in subqueries(pieces) for at in range(start, end)}
    return [token for at, token in enumerate(pieces) if at not in inside]


def _has_grouping_sets(pieces: Tokens) -> bool:
    """Whether GROUP BY has several sets of columns, or the empty one."""
    for at, token in enumerate(pieces):
        if token.says("GROUP") and not part_of_name(pieces, at):
            groups = pieces[at + 2 :]
            return any(
                word.says(*SETS_OF_GROUPS) or (word.says("(") and after.says(")") and before.says("BY", ","))
                for before, word, after in zip(pieces[at + 1 :], groups, groups[1:])
            )
    return False


def _has_aggregate(block: Block, piece: Tokens) -> bool:
    """Whether the tokens call an aggregate of the block's rows. One whose arguments name a block around it may be an
    aggregate of that one.
    """
    for at in _calls_outside_subqueries(piece):
        end = _end_of_call(piece, at)
        is_window = end + 1 < len(piece) and piece[end + 1].says("OVER")
        inner = [token for token in piece[at + 1 : end + 1] if not token.says(*WORDS_OF_CALLS)]
        if is_window or block.names_outside(inner):
            continue
        if block.catalog.is_aggregate(call_at(piece, at, block.dialect)):
            return True
    return False


def _calls_outside_subqueries(piece: Tokens) -> Iterator[int]:
    inside = {at for start, end in subqueries(piece) for at in range(start, end)}
    for at, token in enumerate(piece[:-1]):
        if at not in inside and token.is_name and piece[at + 1].says("("):
            yield at


def _end_of_call(piece: Tokens, at: int) -> int:
    """The last token of a call, with WITHIN GROUP and FILTER."""
    end = closing(piece, at + 1)
    while end + 2 < len(piece) and piece[end + 1].says("FILTER", "WITHIN"):
        start = next((n for n in range(end + 2, len(piece)) if piece[n].says("(")), len(piece) - 1)
        end = closing(piece, start)
    return end


def limit_of(clauses: Tokens) -> int | None:
    """The number of LIMIT, if the clauses end in LIMIT and a number."""
    ends_so = len(clauses) > 1 and clauses[-2].says("LIMIT") and clauses[-1].text.isdigit()
    return int(clauses[-1].text) if ends_so else None


def limited_rows(rows: int, clauses: Tokens) -> int:
    """The lesser of `rows` and the number of LIMIT, if the clauses end so."""
    limit = limit_of(clauses)
    return rows if limit is None else min(rows, limit)


def grouping_expression(clauses: Tokens) -> Tokens | None:
    """The expression of GROUP BY if there is exactly one. Otherwise None."""
    piece: Tokens = []
    for token in clauses[2:]:
        if token.says(*BEHIND_GROUPS):
            break
        piece.append(token)
    return None if any(token.says(",") for token in piece) else piece


def without_alias(piece: Tokens) -> Tokens:
    alias = alias_of(piece)
    return piece if alias is None else piece[: -2 if piece[-2].says("AS") else -1]
