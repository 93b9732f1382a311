"""Finds the words of a query that may choose other rows, or another order of rows, each time the query runs.

Rows are counted in one statement and joined in another, so nothing is bounded over rows that may change between them.
Only subqueries and views are searched, since they stand below the join. Words above it, such as the query's own LIMIT,
change no row that is joined.
"""

from __future__ import annotations

from typing import Iterator

from .dialect import Dialect
from .reading import Tokens
from .tokens import Token, closing, part_of_name, written

WORDS = ("LIMIT", "OFFSET", "FETCH", "TABLESAMPLE")
# Window functions that have one value for all rows that tie, unless a frame counts rows.
WINDOWS_WITH_TIES = (
    "RANK", "DENSE_RANK", "PERCENT_RANK", "CUME_DIST", "COUNT", "MIN", "MAX", "SUM", "AVG", "TOTAL", "BOOL_AND",
    "BOOL_OR", "EVERY",
)
IN_ORDER = (
    "ARRAY_AGG", "STRING_AGG", "JSON_AGG", "JSONB_AGG", "JSON_OBJECT_AGG", "JSONB_OBJECT_AGG", "XMLAGG",
    "GROUP_CONCAT", "JSON_GROUP_ARRAY", "JSON_GROUP_OBJECT", "MODE", "ANY_VALUE", "LISTAGG",
)
AGGREGATES = ("COUNT", "SUM", "AVG", "TOTAL", "MIN", "MAX", *IN_ORDER)
BEHIND_GROUPS = ("HAVING", "WINDOW", "ORDER", "LIMIT", "UNION", "INTERSECT", "EXCEPT")


def nondeterministic(pieces: Tokens, dialect: Dialect) -> Iterator[tuple[Token, str]]:
    """The words by which a query chooses some of its rows, and where they are. In SQLite a column beside GROUP BY may
    choose too."""
    for at, token in enumerate(pieces):
        if token.kind != "word" or part_of_name(pieces, at):
            continue
        what = _chosen_by(pieces, at, dialect.plain_words)
        if what:
            yield token, what
    if dialect.takes_bare_columns:
        yield from _bare_columns(pieces)


def _chosen_by(pieces: Tokens, at: int, plain_words: tuple[str, ...]) -> str | None:
    token, after = pieces[at], pieces[at + 1] if at + 1 < len(pieces) else None
    if token.says(*WORDS) and not token.says(*plain_words):
        return token.text.upper()
    if after is None:
        return None
    if token.says("DISTINCT") and after.says("ON"):
        return "DISTINCT ON"
    if token.says(*IN_ORDER) and after.says("(") and not _in_whole_order(pieces, at + 1):
        return f"{token.text} without a whole order"
    if token.says("OVER") and (after.says("(") or after.is_name):
        function = _before(pieces, at)
        frames = any(word.says("ROWS") for word in pieces)
        if frames or not (function and function.says(*WINDOWS_WITH_TIES)):
            return f"{function.text if function else 'a function'} OVER, where rows tie"
    return None


def _in_whole_order(pieces: Tokens, start: int) -> bool:
    """Whether an aggregate puts its values in order by the values themselves."""
    inner = pieces[start + 1 : closing(pieces, start)]
    at = next((at for at, token in enumerate(inner) if token.says("ORDER")), None)
    if at is None:
        return False
    end = next((end for end in range(at) if inner[end].says(",")), at)
    by = [token for token in inner[at + 2 :] if not token.says("ASC", "DESC")]
    return written(inner[:end]).lower() == written(by).lower()


def _before(pieces: Tokens, at: int) -> Token | None:
    """The function whose call ends before OVER, or before FILTER and its condition."""
    while at > 0 and pieces[at - 1].says(")"):
        depth, start = 0, at - 1
        while start >= 0:
            depth += pieces[start].says(")") - pieces[start].says("(")
            if depth == 0:
                break
            start -= 1
        at = start - 1
        if at < 0 or not pieces[at].says("FILTER"):
            return pieces[at] if at >= 0 else None
    return None


def _bare_columns(pieces: Tokens) -> Iterator[tuple[Token, str]]:
    """Columns beside GROUP BY or an aggregate that are neither grouped nor within one: SQLite takes them from some
    row."""
    for at, token in enumerate(pieces):
        if not token.says("SELECT") or part_of_name(pieces, at):
            continue
        outputs, groups = _outputs_and_groups(pieces, at)
        own = list(_outside_aggregates(outputs))
        if groups is None and len(own) == len(outputs):
            continue
        grouped = {word.text.lower() for word in groups or ()}
        for place in own:
            name = outputs[place]
            after = outputs[place + 1] if place + 1 < len(outputs) else None
            if (
                name.is_name
                and not name.says(
                    "DISTINCT", "ALL", "AS", "CASE", "WHEN", "THEN", "ELSE", "END", "NULL", "CAST", "AND", "OR",
                    "NOT", "IS",
                )
                and not (after and after.says("(", "."))
                and not (place and outputs[place - 1].says("AS"))
                and name.text.lower() not in grouped
            ):
                yield name, f"{name.text} beside GROUP BY or an aggregate"


def _outputs_and_groups(pieces: Tokens, start: int) -> tuple[Tokens, Tokens | None]:
    """The outputs of the SELECT at `start`, and its list of GROUP BY or None."""
    outputs: Tokens = []
    groups: Tokens | None = None
    into, at = outputs, start + 1
    while at < len(pieces) and not pieces[at].says(")"):
        end = closing(pieces, at) if pieces[at].says("(") else at
        if pieces[at].says("FROM") and into is outputs:
            into = []
        elif pieces[at].says("GROUP") and at + 1 < len(pieces) and pieces[at + 1].says("BY"):
            groups = into = []
            end = at + 1
        elif pieces[at].says(*BEHIND_GROUPS) and not part_of_name(pieces, at):
            if pieces[at].says("UNION", "INTERSECT", "EXCEPT"):
                break
            into = []
        else:
            into += pieces[at : end + 1]
        at = end + 1
    return outputs, groups


def _outside_aggregates(outputs: Tokens) -> Iterator[int]:
    at = 0
    while at < len(outputs):
        is_call = outputs[at].kind == "word" and at + 1 < len(outputs) and outputs[at + 1].says("(")
        if is_call and outputs[at].says(*AGGREGATES):
            end = closing(outputs, at + 1) + 1
            if end + 1 < len(outputs) and outputs[end].says("FILTER"):
                end = closing(outputs, end + 1) + 1
            if not (end < len(outputs) and outputs[end].says("OVER")):
                at = end
                continue
        yield at
        at += 1
