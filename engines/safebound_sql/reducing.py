"""Semi-joins along the equalities, and the parts of a statement in which they are written.

A semi-join keeps the rows of an entry that have a match in each of some entries with which it is joined. The remaining
rows are a materialised part of the statement, so that the engine computes them once.
"""

from __future__ import annotations

import re
from dataclasses import dataclass, field
from typing import Dict, Iterable, List, Tuple

from .dialect import Dialect
from .query import Column, Entry, Query


@dataclass
class Parts:
    """Materialised parts of a statement by their names, and for each entry the place of its rows: a part, or the table.

    `sizes`: for each entry, how many parts the engine computes to get its part, if it keeps none of them.
    """

    texts: list[tuple[str, str]] = field(default_factory=list)
    rows: dict[int, str] = field(default_factory=dict)
    sizes: dict[int, int] = field(default_factory=dict)

    def within(self, entry: int, others: list[int], most: int | None) -> list[int]:
        """The entries of `others` that a new part of this entry may name, so that its size is at most `most`."""
        size, kept = self.sizes.get(entry, 0) + 1, []
        for other in others:
            if most is None or size + self.sizes[other] <= most:
                size += self.sizes[other]
                kept.append(other)
        if kept or entry not in self.sizes:
            self.sizes[entry] = size
        return kept

    def add(self, entry: Entry, dialect: Dialect, columns: list[Column], conditions: list[str], prefix: str) -> None:
        """Adds a part: these columns of the entry's rows for which the conditions are true."""
        name = f"{prefix}{len(self.texts) + 1}"
        outputs = (
            ", ".join(f"{entry.alias}.{dialect.quote(column.name)}" for column in columns)
            or f"1 AS {dialect.quote(prefix)}"
        )
        rows = self.rows.get(entry.number, entry.table)
        self.texts.append((name, f"SELECT {outputs} FROM {rows} AS {entry.alias}{where(conditions)}"))
        self.rows[entry.number] = name


# For each entry the entries that it is joined with, each with pairs of columns. The first column is the entry's own.
Joined = Dict[int, Dict[int, List[Tuple[Column, Column]]]]


def partners(query: Query) -> Joined:
    found: Joined = {entry.number: {} for entry in query.entries}
    for left, right in query.equalities:
        found[left.entry].setdefault(right.entry, []).append((left.column, right.column))
        found[right.entry].setdefault(left.entry, []).append((right.column, left.column))
    return found


def components(joined: Joined) -> Iterable[list[tuple[int, int | None]]]:
    """A list for each group of entries that equalities connect. Each entry has beside it the entry from which it was
    reached.
    """
    seen: set[int] = set()
    for start in joined:
        if start in seen:
            continue
        reached: list[tuple[int, int | None]] = [(start, None)]
        seen.add(start)
        for entry, _ in reached:
            new = [other for other in joined[entry] if other not in seen]
            seen.update(new)
            reached += [(other, entry) for other in new]
        yield reached


def closes_a_cycle(joined: Joined, reached: list[tuple[int, int | None]]) -> bool:
    return sum(len(joined[entry]) for entry, _ in reached) != 2 * (len(reached) - 1)


def along_a_tree(reached: list[tuple[int, int | None]]) -> Iterable[tuple[int, list[int]]]:
    """The semi-joins up the tree and down again. They are a full reducer: each remaining row matches a row of every
    entry.
    """
    yield from ((entry, [other for other, parent in reached if parent == entry]) for entry, _ in reversed(reached))
    yield from ((entry, [parent]) for entry, parent in reached if parent is not None)


def around_a_cycle(joined: Joined, reached: list[tuple[int, int | None]]) -> Iterable[tuple[int, list[int]]]:
    """First one pass up the tree; then three passes, each with semi-joins along all equalities. Further passes might
    remove further rows.
    """
    down = [entry for entry, _ in reached]
    up = down[::-1]
    for at, entry in enumerate(up):
        yield entry, [other for other in joined[entry] if other in up[:at]]
    for way in (down[1:], up[1:], down[1:]):
        yield from ((entry, list(joined[entry])) for entry in way)


def steps(query: Query) -> Iterable[tuple[int, list[int]]]:
    """The semi-joins in their order. Each has an entry, and the entries in which its rows need a match."""
    joined = partners(query)
    for reached in components(joined):
        yield from around_a_cycle(joined, reached) if closes_a_cycle(joined, reached) else along_a_tree(reached)


def reduced(query: Query, dialect: Dialect, columns: dict[int, list[Column]], prefix: str) -> Parts:
    """The entries' reduced rows, with these columns."""
    joined, parts = partners(query), Parts()
    for entry, others in steps(query):
        first = entry not in parts.rows
        conditions = own_conditions(query.entries[entry]) if first else []
        others = parts.within(entry, others, dialect.most_parts_of_a_part)
        for other in others:
            conditions.append(semi_join(query, dialect, entry, other, joined[entry][other], parts.rows[other]))
        if first or others:
            parts.add(query.entries[entry], dialect, columns[entry], conditions, prefix)
    return parts


def semi_join(
    query: Query, dialect: Dialect, entry: int, other: int, pairs: list[tuple[Column, Column]], rows: str
) -> str:
    """The condition that a row of `entry` has a match in `other`. It uses IN, for which SQLite makes an index and
    PostgreSQL a hash table. If the engine has no IN of several columns, it uses EXISTS.
    """
    mine, yours = query.entries[entry].alias, query.entries[other].alias
    if len(pairs) > 1 and not dialect.takes_rows_in:
        meet = [f"{yours}.{dialect.quote(right.name)} = {mine}.{dialect.quote(left.name)}" for left, right in pairs]
        return f"EXISTS (SELECT 1 FROM {rows} AS {yours}{where(meet)})"
    left = ", ".join(f"{mine}.{dialect.quote(column.name)}" for column, _ in pairs)
    right = ", ".join(f"{yours}.{dialect.quote(column.name)}" for _, column in pairs)
    return f"{left if len(pairs) == 1 else f'({left})'} IN (SELECT {right} FROM {rows} AS {yours})"


def own_conditions(entry: Entry) -> list[str]:
    return [bracketed(str(text)) for text in entry.own]


def bracketed(condition: str) -> str:
    """The condition as a member of an AND: in parentheses if it may have an OR."""
    return f"({condition})" if re.search(r"\bOR\b", condition, re.IGNORECASE) else condition


def where(conditions: list[str]) -> str:
    return f" WHERE {' AND '.join(conditions)}" if conditions else ""
