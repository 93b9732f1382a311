"""Degree lists and bounds of sets, by docs/DEFINITIONS.md, over columns of numbers. The results are those of
cases/reading.py, but this code is fast enough for millions of rows.

A list is an array of degrees, the greatest first. Bounds take it as runs of equal degrees.
"""

from __future__ import annotations

from functools import cached_property, lru_cache, partial
from math import prod
from typing import Callable, List, NamedTuple, Tuple

import numpy as np
import reading

from . import asked
from .asked import Column, Condition, Equality
from .columns import Rows, Tables

# Degrees, each with how many keys have it.
Runs = List[Tuple[int, int]]


def degree_sequence(keys: np.ndarray) -> np.ndarray:
    """The degrees of keys: how often each occurs."""
    return np.sort(np.unique(keys, return_counts=True)[1])[::-1]


def runs_of(degrees: np.ndarray) -> Runs:
    if not len(degrees):
        return []
    starts = np.flatnonzero(np.diff(degrees, prepend=degrees[0] + 1))
    return list(zip(degrees[starts].tolist(), np.diff(starts, append=len(degrees)).tolist()))


def compressed(degrees: np.ndarray, accuracy: int) -> np.ndarray:
    """Replaces each degree by its head, at most one K-th greater, and ends the list once it has the degrees' sum."""
    parts, done, end, total = [np.zeros(0, np.int64)], 0, 0, int(degrees.sum())
    for head, rows in heads_of(degrees, accuracy):
        end += rows
        times = max(-(-(end - done) // head), 0)
        parts.append(np.full(times, head, np.int64))
        done += times * head
    found = np.concatenate(parts)
    if done > total:
        found[-1] -= done - total
    return found


def heads_of(degrees: np.ndarray, accuracy: int) -> list[tuple[int, int]]:
    """The heads, each with the rows of the degrees that it replaces."""
    heads: list[tuple[int, int]] = []
    for degree, keys in runs_of(degrees):
        if not heads or (accuracy + 1) * degree < accuracy * heads[-1][0]:
            heads.append((degree, 0))
        heads[-1] = heads[-1][0], heads[-1][1] + degree * keys
    return heads


def padded(lists: list[np.ndarray]) -> np.ndarray:
    longest = max(map(len, lists), default=0)
    return np.array([np.pad(one, (0, longest - len(one))) for one in lists])


def from_sums(sums: np.ndarray) -> np.ndarray:
    degrees = np.diff(sums, prepend=0)
    return degrees[degrees > 0]


def least_sums(lists: list[np.ndarray]) -> np.ndarray:
    return from_sums(np.cumsum(padded(lists), axis=1).min(axis=0))


def sum_by_rank(lists: list[np.ndarray]) -> np.ndarray:
    return padded(lists).sum(axis=0)


class Pair:
    """The statistics of a filter column for a joined column."""

    def __init__(self, filters: np.ndarray, joined: np.ndarray, accuracy: int) -> None:
        self.filters, self.joined, self.accuracy = filters, joined, accuracy

    @cached_property
    def frequent(self) -> list[int]:
        values, first, count = np.unique(self.filters, return_index=True, return_counts=True)
        found: list[int] = values[np.lexsort((first, -count))[:32]].tolist()
        return found

    @cached_property
    def cuts(self) -> np.ndarray:
        ordered = np.sort(self.filters)
        return np.array([ordered[len(ordered) * i // 32] for i in range(32)])

    def list_of(self, rows: np.ndarray) -> np.ndarray:
        return compressed(degree_sequence(self.joined[rows]), self.accuracy)

    def of_value(self, value: float) -> np.ndarray:
        return self.list_of(self.filters == value) if value in self.frequent else self.rest

    @cached_property
    def rest(self) -> np.ndarray:
        """One list for any value that isn't frequent: at each rank the greatest degree, cut at the number of rows of
        the most frequent of these values.
        """
        rows = ~np.isin(self.filters, self.frequent)
        if not rows.any():
            return np.zeros(0, np.int64)
        pairs, degrees = np.unique(np.stack([self.filters[rows], self.joined[rows]]), axis=1, return_counts=True)
        order = np.lexsort((-degrees, pairs[0]))
        values, degrees = pairs[0][order], degrees[order]
        starts = np.flatnonzero(np.diff(values, prepend=values[0] - 1))
        ranks = np.arange(len(values)) - np.repeat(starts, np.diff(starts, append=len(values)))
        greatest = np.zeros(ranks.max() + 1, np.int64)
        np.maximum.at(greatest, ranks, degrees)
        most = np.add.reduceat(degrees, starts).max()
        return compressed(from_sums(np.minimum(np.cumsum(greatest), most)), self.accuracy)

    def leaf(self, values: np.ndarray) -> np.ndarray:
        return np.maximum(np.searchsorted(self.cuts, values, side="right") - 1, 0)

    @cached_property
    def leaves(self) -> np.ndarray:
        return self.leaf(self.filters)

    def of_range(self, low: float | None, high: float | None) -> np.ndarray:
        if not len(self.filters):
            return np.zeros(0, np.int64)
        ends = sorted([0 if low is None else int(self.leaf(low)), 31 if high is None else int(self.leaf(high))])
        size = 1
        while ends[0] // size != ends[1] // size:
            size *= 2
        return self.of_node(size, ends[0] // size)

    @lru_cache(None)
    def of_node(self, size: int, number: int) -> np.ndarray:
        return self.list_of(self.leaves // size == number)


class Reference(NamedTuple):
    """A column that refers to a key of another table."""

    column: int
    target: str
    key: int


class Statistics:
    """The lists of all tables at one accuracy. The lists of a pair of columns are made only once."""

    def __init__(self, tables: Tables, accuracy: int) -> None:
        self.tables, self.accuracy = tables, accuracy

    @lru_cache(None)
    def whole(self, table: str, joined: int) -> np.ndarray:
        return compressed(degree_sequence(self.tables.columns[table][joined]), self.accuracy)

    @lru_cache(None)
    def pair(self, table: str, joined: int, filters: int) -> Pair:
        return Pair(self.tables.columns[table][filters], self.tables.columns[table][joined], self.accuracy)

    @lru_cache(None)
    def referring(self, table: str, reference: Reference) -> tuple[np.ndarray, np.ndarray]:
        """The rows of a table that refer to a row of another table, and the rows to which they refer."""
        values = self.tables.columns[table][reference.column]
        keys = self.tables.columns[reference.target][reference.key]
        row_of_key = np.full(max(values.max(initial=0), keys.max(initial=0)) + 1, -1)
        row_of_key[keys] = np.arange(len(keys))
        rows = np.flatnonzero(row_of_key[values] >= 0)
        return rows, row_of_key[values[rows]]

    @lru_cache(None)
    def whole_referring(self, table: str, joined: int, reference: Reference) -> np.ndarray:
        rows, _ = self.referring(table, reference)
        return compressed(degree_sequence(self.tables.columns[table][joined][rows]), self.accuracy)

    @lru_cache(None)
    def pair_referring(self, table: str, joined: int, reference: Reference, filters: int) -> Pair:
        rows, targets = self.referring(table, reference)
        filtered = self.tables.columns[reference.target][filters][targets]
        return Pair(filtered, self.tables.columns[table][joined][rows], self.accuracy)


class Filtered:
    """The list of a joined column over the rows that satisfy an entry's own conditions."""

    def __init__(self, tables: Tables, whole: np.ndarray, pair_of: Callable[[int], Pair]) -> None:
        self.tables, self.whole, self.pair_of = tables, whole, pair_of

    def list_under(self, conjuncts: list[Condition]) -> np.ndarray:
        if not conjuncts:
            return self.whole
        return least_sums([self.of_cond(reading.without_not(("and", conjuncts))), self.whole])

    def of_cond(self, cond: Condition) -> np.ndarray:
        if cond[0] == "and":
            return self.of_and(cond[1])
        if cond[0] == "or":
            return sum_by_rank([self.of_cond(part) for part in cond[1]])
        op, left, right = cond
        if left[0] != "column" or right[0] != "literal":
            return self.whole
        pair, value = self.pair_of(left[2]), self.tables.literal(right[1])
        if op == "=":
            return pair.of_value(value)
        if op == "<>":
            return sum_by_rank([pair.of_range(None, value), pair.of_range(value, None)])
        return self.of_range([cond])

    def of_and(self, parts: list[Condition]) -> np.ndarray:
        """The list under an AND. All tests of a column's range count as one range."""
        ranged: dict[int, list[Condition]] = {}
        for part in filter(reading.is_range, parts):
            ranged.setdefault(part[1][2], []).append(part)
        others = [self.of_cond(part) for part in parts if not reading.is_range(part)]
        return least_sums([self.of_range(ranged[column]) for column in sorted(ranged)] + others)

    def of_range(self, tests: list[Condition]) -> np.ndarray:
        values = {op: [self.tables.literal(test[2][1]) for test in tests if test[0][0] == op] for op in "<>"}
        return self.pair_of(tests[0][1][2]).of_range(max(values[">"], default=None), min(values["<"], default=None))


# ---- bounds of sets

# A function of ranks or of rows is stored as steps: a value, and the index where it ends. After the last step it is 0.
Steps = List[Tuple[int, int]]


def product(functions: list[Steps]) -> Steps:
    """The product of step functions. It ends where the shortest function ends."""
    found: Steps = []
    places = [0] * len(functions)
    at, length = 0, min(function[-1][1] if function else 0 for function in functions)
    while at < length:
        end = min(function[place][1] for function, place in zip(functions, places))
        found.append((prod(function[place][0] for function, place in zip(functions, places)), end))
        places = [place + (function[place][1] == end) for function, place in zip(functions, places)]
        at = end
    return found


def row_of(degrees: Runs, rank: int) -> int:
    """The first row of a rank."""
    row = 0
    for degree, keys in degrees:
        row += degree * min(keys, rank)
        rank -= min(keys, rank)
    return row


def on_rows(degrees: Runs, by_rank: Steps) -> Steps:
    """A function of rows: for each row, the value that `by_rank` has at the row's rank."""
    steps = [(value, row_of(degrees, end)) for value, end in by_rank]
    found = [step for step, before in zip(steps, [0] + [end for _, end in steps]) if step[1] > before]
    rows = row_of(degrees, sum(keys for _, keys in degrees))
    return found if steps and steps[-1][1] >= rows else [*found, (0, rows)]


def on_ranks(degrees: Runs, by_row: Steps) -> Steps:
    """A function of ranks: for each rank, the sum of `by_row` over the rows of this rank."""
    found: Steps = []
    row, rank, place = 0, 0, 0
    for degree, keys in degrees:
        last = rank + keys
        while rank < last:
            while by_row[place][1] <= row:
                place += 1
            within = min(last - rank, (by_row[place][1] - row) // degree)
            value = by_row[place][0] * degree if within else sum_over(by_row, place, row, row + degree)
            rank, row = rank + max(within, 1), row + degree * max(within, 1)
            found.append((value, rank))
    return found


def sum_over(by_row: Steps, place: int, row: int, end: int) -> int:
    """The sum over the rows from `row` to `end`."""
    total = 0
    while row < end:
        value, until = by_row[place]
        total += value * (min(until, end) - row)
        row, place = min(until, end), place + 1
    return total


class ColumnLists:
    """The lists of a query's joined columns. An entry's row bound is the sum of any of its lists."""

    def __init__(self, query: reading.Query, lists: dict[Column, np.ndarray]) -> None:
        self.query, self.lists = query, lists

    @cached_property
    def runs(self) -> dict[Column, Runs]:
        return {column: runs_of(degrees) for column, degrees in self.lists.items()}

    def bound(self) -> int:
        """The bound of all entries together: the least of all turns."""
        if any(not len(degrees) for degrees in self.lists.values()):
            return 0
        equals = reading.equalities(self.query)
        turns = [reading.kept_equalities(equals[turn:] + equals[:turn]) for turn in range(min(len(equals), 16))]
        return min(map(self.of_turn, turns))

    def of_turn(self, equals: list[Equality]) -> int:
        classes: list[set[Column]] = []
        for left, right in equals:
            classes = reading.merged(classes, left, right)
        weights = self.weights(0, None, classes)
        return sum_over(weights, 0, 0, weights[-1][1])

    def weights(self, entry: int, above: set[Column] | None, classes: list[set[Column]]) -> Steps:
        """The weight of each row of an entry, by the classes of its other columns."""
        rows = next(row_of(runs, 2**62) for (of, _), runs in self.runs.items() if of == entry)
        found = [[(1, rows)]]
        for one in classes:
            own = next((side for side in one if side[0] == entry), None)
            if own and one is not above:
                below = [on_ranks(self.runs[side], self.weights(side[0], one, classes)) for side in one if side != own]
                found.append(on_rows(self.runs[own], product(below)))
        return product(found)


def joined_columns(query: reading.Query) -> set[Column]:
    return {side for equal in reading.equalities(query) for side in equal}


def known(statistics: Statistics, query: reading.Query) -> ColumnLists:
    """Lists from statistics of whole tables."""
    lists = {}
    for entry, column in joined_columns(query):
        table = query.entries[entry][0]
        pair_of = partial(statistics.pair, table, column)
        filtered = Filtered(statistics.tables, statistics.whole(table, column), pair_of)
        lists[entry, column] = filtered.list_under(asked.own_conjuncts(query, entry))
    return ColumnLists(query, lists)


def known_by_keys(statistics: Statistics, query: reading.Query) -> ColumnLists:
    """Lists from statistics and from the conditions on referred entries. They are valid for the set of all entries."""
    found = known(statistics, query)
    for one, other in reading.equalities(query):
        carry(statistics, found, one, other)
        carry(statistics, found, other, one)
    return found


def carry(statistics: Statistics, found: ColumnLists, side: Column, carrier: Column) -> None:
    """If `side` refers to the key `carrier`, lowers the lists of its entry: they then count only rows that refer to a
    row which satisfies the carrier's own conjuncts.
    """
    query, (entry, column), (of, key) = found.query, side, carrier
    own, table, target = asked.own_conjuncts(query, of), query.entries[entry][0], query.entries[of][0]
    names = query.schema[table][0][column][0], query.schema[target][0][key][0]
    if not own or not query.schema.refers_to_key(table, names[0], target, names[1]):
        return
    reference = Reference(column, target, key)
    for joined in [joined for of_entry, joined in found.lists if of_entry == entry]:
        whole = statistics.whole_referring(table, joined, reference)
        filtered = Filtered(statistics.tables, whole, partial(statistics.pair_referring, table, joined, reference))
        found.lists[entry, joined] = least_sums([found.lists[entry, joined], filtered.list_under(own)])


def known_reduced(rows: Rows, accuracy: int) -> ColumnLists:
    """Lists from reduced scans."""
    lists = {}
    for entry, column in joined_columns(rows.query):
        keys = rows.columns[entry][column][rows.reduced[entry]]
        lists[entry, column] = compressed(degree_sequence(keys), accuracy)
    return ColumnLists(rows.query, lists)
