"""The questions: the query of each file, and each connected set of its entries as a query of its own.

Queries are those of cases/reading.py. A condition is a tuple there: ("and", [conditions]), ("or", [conditions]),
("not", condition), or a comparison such as ("<", left, right). A side of a comparison is ("column", entry, column) or
("literal", value).
"""

from __future__ import annotations

import copy
import glob
import itertools
import os
from typing import Any, Iterator, Tuple

import reading

from . import places

Condition = Tuple[Any, ...]
# An entry and one of its columns, both by number.
Column = Tuple[int, int]
Equality = Tuple[Column, Column]


class Question:
    """A query of the profile, with its file."""

    def __init__(self, path: str, schema: reading.Schema) -> None:
        self.name, self.path = os.path.basename(path)[:-4], path
        with open(path, encoding="utf-8") as f:
            self.text = f.read()
        self.query = reading.Query(schema, self.text)


def schema() -> reading.Schema:
    with open(os.path.join(places.QUERIES, "schema.sql"), encoding="utf-8") as f:
        return reading.read_schema(f.read())


def questions(folder: str = os.path.join(places.QUERIES, "profile")) -> list[Question]:
    read = schema()
    return [Question(path, read) for path in sorted(glob.glob(os.path.join(folder, "*.sql")))]


def is_cyclic(query: reading.Query) -> bool:
    """Whether some equality joins two entries that other equalities already connect."""
    equals = reading.equalities(query)
    return len(reading.kept_equalities(equals)) < len(equals)


def is_connected(query: reading.Query) -> bool:
    return len(reading.kept_equalities(reading.equalities(query))) == len(query.entries) - 1


def is_equality(cond: Condition) -> bool:
    """Whether a condition is an equality of two columns, of one entry or of two."""
    return cond[0] == "=" and all(side[0] == "column" for side in cond[1:])


def own_conjuncts(query: reading.Query, entry: int) -> list[Condition]:
    """The conjuncts that name this entry and no other."""
    return [cond for cond in query.conjuncts if reading.entries_in(cond) == {entry}]


def restricted(query: reading.Query, entries: tuple[int, ...]) -> reading.Query:
    """The query over some of its entries, with the conjuncts that name only these."""
    place, inner = {entry: at for at, entry in enumerate(entries)}, copy.copy(query)
    inner.entries = [query.entries[entry] for entry in entries]
    inner.conjuncts = [renumbered(cond, place) for cond in query.conjuncts if reading.entries_in(cond) <= set(entries)]
    inner.outputs = []
    return inner


def renumbered(cond: Condition, place: dict[int, int]) -> Condition:
    """The condition with each entry's number replaced by that of `place`."""
    if cond[0] in ("and", "or"):
        return cond[0], [renumbered(part, place) for part in cond[1]]
    if cond[0] == "not":
        return cond[0], renumbered(cond[1], place)
    return (cond[0], *(("column", place[side[1]], side[2]) if side[0] == "column" else side for side in cond[1:]))


def connected_sets(query: reading.Query) -> Iterator[tuple[int, ...]]:
    """All sets of at least two entries that equalities connect, the whole query last."""
    for size in range(2, len(query.entries) + 1):
        for entries in itertools.combinations(range(len(query.entries)), size):
            if is_connected(restricted(query, entries)):
                yield entries


# ---- as SQL. Aliases are made from the entries' numbers, so that equal sets of different questions have the same text


def side_sql(query: reading.Query, side: Condition) -> str:
    if side[0] == "literal":
        text = str(side[1])
        return text if isinstance(side[1], int) else "'" + text.replace("'", "''") + "'"
    _, entry, column = side
    table, _ = query.entries[entry]
    return f"E{entry}.{query.schema[table][0][column][0]}"


def cond_sql(query: reading.Query, cond: Condition) -> str:
    if cond[0] in ("and", "or"):
        return "(" + f" {cond[0].upper()} ".join(cond_sql(query, part) for part in cond[1]) + ")"
    if cond[0] == "not":
        return f"NOT ({cond_sql(query, cond[1])})"
    return f"{side_sql(query, cond[1])} {cond[0]} {side_sql(query, cond[2])}"


def sql(query: reading.Query) -> str:
    """A statement that gives a 1 for each row of the query's join."""
    entries = ", ".join(f"{table} E{at}" for at, (table, _) in enumerate(query.entries))
    return f"SELECT 1 FROM {entries} WHERE {' AND '.join(cond_sql(query, cond) for cond in query.conjuncts)}"
