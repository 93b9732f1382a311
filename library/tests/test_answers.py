"""Compares random calls with a slow, literal implementation of the definitions (cases/reading.py), and bounds with true
counts.
"""

from __future__ import annotations

import itertools
import math
import random
import sqlite3
import time
import unittest
from collections import Counter
from typing import Any, Callable, Dict, Iterable, Iterator, Sequence, Tuple, Union

from calls import NO_BOUND, NO_VALUES, Answer, Call, Status, answers, by_ctypes
import reading as by_definition

RUNS = 150
MOST_ENTRIES = MOST_TURNS = 16

Pair = Tuple[int, int]
# Two columns, each as a pair of an entry and a column number.
Equality = Tuple[Pair, Pair]
DegreeLists = Dict[Pair, "list[int]"]
# An entry, or a pair of trees.
Tree = Union[int, Tuple["Tree", "Tree"]]
# Decides between trees of equal cost and sum: the set of the left tree as a number, and the TieBreak of both trees.
TieBreak = Tuple[int, Tuple[Any, ...], Tuple[Any, ...]]


def runs_of(degrees: Iterable[int]) -> list[Pair]:
    return [(degree, len(list(group))) for degree, group in itertools.groupby(degrees)]


def degrees_of(runs: Iterable[Pair]) -> list[int]:
    return [degree for degree, keys in runs for _ in range(keys)]


def random_degrees(pick: random.Random) -> list[int]:
    return sorted(
        (pick.choice([1, 2, 3, 5, 40, 1000]) * pick.randint(1, 3) for _ in range(pick.randint(0, 12))), reverse=True
    )


class Lists(unittest.TestCase):
    def check(self, made: list[tuple[Call, list[int]]]) -> None:
        """`made` has pairs of a call and of the degrees that its runs have to expand to."""
        for (call, expected), answer in zip(made, answers([call for call, _ in made])):
            self.assertEqual(answer, (Status.OK, len(runs_of(expected)), runs_of(expected)), call)

    def test_degrees(self) -> None:
        made = []
        for seed in range(RUNS):
            pick = random.Random(seed)
            spread = pick.choice([[0, 1, 2], range(20), [0, 2**63, 2**64 - 1], range(2**64 - 9, 2**64), [5]])
            keys = [pick.choice(spread) for _ in range(pick.choice([0, 1, 9, 60, 400]))]
            made.append((Call("degrees", [keys], 30), by_definition.degree_sequence(keys)))
        self.check(made)

    def test_compress(self) -> None:
        made = []
        for seed in range(RUNS):
            pick = random.Random(seed)
            degrees, accuracy = random_degrees(pick), pick.choice([1, 2, 3, 8, 64])
            split = [(degree, 1) for degree in degrees] if pick.random() < 0.3 else runs_of(degrees)
            expected = by_definition.compressed(degrees, accuracy)
            made.append((Call("compress", [split], len(split) + 1, accuracy), expected))
        self.check(made)

    def test_append(self) -> None:
        made = []
        for seed in range(RUNS):
            pick = random.Random(seed)
            one, other = random_degrees(pick), random_degrees(pick)
            made.append((Call("append", [runs_of(one), runs_of(other)], 24), by_definition.by_rank(sum, [one, other])))
        self.check(made)

    def test_lesser_and_greater(self) -> None:
        made = []
        for seed in range(RUNS):
            pick = random.Random(seed)
            lists = [random_degrees(pick), random_degrees(pick)]
            runs = [runs_of(degrees) for degrees in lists]
            made.append((Call("lesser", runs, 72), by_definition.least_sums(lists)))
            made.append((Call("greater", runs, 24), by_definition.by_rank(max, lists)))
        self.check(made)

    def test_cut(self) -> None:
        made = []
        for seed in range(RUNS):
            pick = random.Random(seed)
            degrees = random_degrees(pick)
            rows = pick.choice([0, 1, pick.randint(0, sum(degrees)), sum(degrees), sum(degrees) + 1, 2**64 - 1])
            made.append((Call("cut", [runs_of(degrees)], 13, rows), by_definition.cut(degrees, rows)))
        self.check(made)

    def test_lists_of_conditions_dominate(self) -> None:
        """Rows have a key, a colour and a size. Calls make lists for conditions on these rows. The running sums of such
        a list are never below the true counts.
        """
        calls, keys = [], []
        for seed in range(RUNS):
            pick = random.Random(seed)
            rows = [(pick.choice(range(6)), pick.choice("rgb"), pick.choice("SML")) for _ in range(pick.randint(0, 60))]
            red, small, green = ([key for key, *rest in rows if value in rest] for value in "rSg")
            lists = [runs_of(by_definition.degree_sequence(some)) for some in (red, small, green)]
            calls.append(Call("lesser", lists[:2], 99))
            keys.append([key for key, *rest in rows if rest == ["r", "S"]])
            calls.append(Call("append", lists[:2], 99))
            keys.append([key for key, colour, size in rows if colour == "r" or size == "S"])
            calls.append(Call("greater", [lists[0], lists[2]], 99))
            keys.append(pick.choice([red, green]))
            sampled = pick.sample(red, pick.randint(0, len(red)))
            calls.append(Call("cut", [lists[0]], 99, len(sampled)))
            keys.append(sampled)
        for call, some, answer in zip(calls, keys, answers(calls)):
            self.assertEqual(answer.status, Status.OK)
            bound = list(itertools.accumulate(degrees_of(answer.elements)))
            true: list[int] = list(itertools.accumulate(by_definition.degree_sequence(some)))
            for rank, count in enumerate(true):
                self.assertLessEqual(count, bound[min(rank, len(bound) - 1)], call)

    def test_numbers_at_the_limit(self) -> None:
        most = 2**48
        self.check_runs([
            (Call("compress", [[(most, 1)]], 2, 64), [(most, 1)]),
            (Call("compress", [[(2, 1), (1, most - 2)]], 3, 1), [(2, most // 2)]),
            (Call("append", [[(1, most - 1)], [(1, 1)]], 2), [(2, 1), (1, most - 2)]),
            (Call("lesser", [[(most, 1)], [(1, most)]], 1), [(1, most)]),
            (Call("greater", [[(most, 1)], [(most, 1)]], 1), [(most, 1)]),
            (Call("greater", [[(most - 1, 1)], [(1, 2)]], 2), [(most - 1, 1), (1, 1)]),
            (Call("cut", [[(1, most)]], 1, most - 1), [(1, most - 1)]),
        ])

    def test_ten_billion_rows(self) -> None:
        """One value in 4,000,000,000 rows, one in 3,000,000,000, a thousand in 2,000,000 each, a billion in one row
        each.

        At accuracy 1 the second degree isn't below half of the first, so the list begins with the first degree twice:
        8,000,000,000 rows. These are the rows of the first two values and of 500 of the thousand, so the other 500
        follow.
        """
        table = [(4_000_000_000, 1), (3_000_000_000, 1), (2_000_000, 1000), (1, 1_000_000_000)]
        self.check_runs([
            (Call("compress", [table], 8, 1), [(4_000_000_000, 2), (2_000_000, 500), (1, 1_000_000_000)]),
            (Call("compress", [table], 8, 4), table),
            (Call("append", [table, table], 8), [(2 * degree, keys) for degree, keys in table]),
        ])

    def check_runs(self, made: list[tuple[Call, list[Any]]]) -> None:
        for (call, expected), answer in zip(made, answers([call for call, _ in made])):
            self.assertEqual(answer, (Status.OK, len(expected), expected), call)


class GivenLists(by_definition.ListBounds):
    """Bounds over given lists, computed by the definitions."""

    def __init__(self, equalities: list[Equality], rows: list[int], lists: DegreeLists) -> None:
        self.equalities, self.rows, self.lists = equalities, rows, lists


def with_values(rows: list[int], lists: DegreeLists, equalities: list[Equality]) -> tuple[list[int], DegreeLists]:
    """Row bounds and lists for a set in which these equalities hold. A row without a value in one of their columns
    joins with nothing, and isn't counted.
    """
    rows = list(rows)
    for entry, column in itertools.chain(*equalities):
        rows[entry] = min(rows[entry], sum(lists[entry, column]))
    return rows, {(e, column): by_definition.cut(degrees, rows[e]) for (e, column), degrees in lists.items()}


class RandomQuery:
    """Equalities over small tables, and lists that dominate the tables' columns. Some rows have no value."""

    def __init__(self, seed: int) -> None:
        self.pick = pick = random.Random(seed)
        self.entries = pick.choice([2, 2, 3, 3, 4, 5])
        columns, spread = pick.randint(1, 3), pick.choice([1, 2, 3, 6])
        nulls = pick.choice([0, 0, 0.3, 1])

        def value() -> int | None:
            return None if pick.random() < nulls else pick.randint(1, spread)

        most = 6 if self.entries < 5 else 4
        self.tables = [
            [[value() for _ in range(columns)] for _ in range(pick.randint(0, most))] for _ in range(self.entries)
        ]
        if pick.random() < 0.2:
            self.tables[1] = self.tables[0]
        pairs = list(itertools.combinations(range(self.entries), 2))

        def random_column(entry: int) -> Pair:
            return entry, pick.randrange(columns)

        self.equalities: list[Equality] = []
        for _ in range(pick.randint(0, self.entries + 1)):
            one, other = pick.sample(pick.choice(pairs), 2)
            self.equalities.append((random_column(one), random_column(other)))
        self.larger_tables = [
            self.tables[e] + ([[value() for _ in range(columns)]] if pick.random() < 0.3 else [])
            for e in range(self.entries)
        ]
        self.rows = [len(table) + pick.choice([0, 0, 1]) for table in self.tables]
        self.lists = {side: self.list_of(*side) for equality in self.equalities for side in equality}

    def list_of(self, entry: int, column: int) -> list[int]:
        """A list that dominates the column. It is made from the degrees over the table or over a table with more rows:
        unchanged, compressed, or appended from two parts.
        """
        values = [row[column] for row in self.larger_tables[entry] if row[column] is not None]
        shape, degrees = self.pick.random(), list(by_definition.degree_sequence(values))
        if shape < 0.3:
            return list(by_definition.compressed(degrees, self.pick.choice([1, 2, 8])))
        if shape < 0.5:
            at = self.pick.randint(0, len(values))
            parts = [by_definition.degree_sequence(values[:at]), by_definition.degree_sequence(values[at:])]
            return list(by_definition.by_rank(sum, parts))
        return degrees

    def call(self) -> Call:
        """The call, with the lists in random order, and with arbitrary numbers as names of columns."""
        def name(column: int) -> int:
            return (column * 2_147_483_647 + 5) % 2**32

        equalities = [(a, name(x), b, name(y)) for (a, x), (b, y) in self.equalities]
        sides, runs, lists = list(self.lists), [(7, 1)], []
        self.pick.shuffle(sides)
        for entry, column in sides:
            own = runs_of(self.lists[entry, column])
            lists.append((entry, name(column), len(runs) if own else NO_VALUES, len(own)))
            runs += own + [(1, 1)]
        return Call("bounds", [self.rows, equalities, lists, runs], 2**self.entries)

    def bound_by_definition(self, entries: list[int]) -> int:
        """The bound of a set, by the definitions."""
        rows, lists = with_values(self.rows, self.lists, self.within(entries))
        return GivenLists(self.equalities, rows, lists).of_set(set(entries))

    def within(self, entries: Iterable[int]) -> list[Equality]:
        """The equalities between these entries."""
        return [e for e in self.equalities if e[0][0] in entries and e[1][0] in entries]

    def work(self) -> int:
        """The work of all sets. Each turn of a set costs 1 plus the number of runs in the two lists of each of its
        equalities.
        """
        length = {side: len(runs_of(degrees)) for side, degrees in self.lists.items()}
        sets = [[e for e in range(self.entries) if number >> e & 1] for number in range(2**self.entries)]
        return sum(
            min(max(len(own), 1), MOST_TURNS) * (1 + sum(length[side] for e in own for side in e))
            for own in map(self.within, sets)
        )

    def count_choices(self, entries: list[int]) -> int:
        """Counts, by nested loops, the choices for a set of entries that satisfy the equalities between them. A choice
        has one row of each entry.
        """
        inner = self.within(entries)
        found = 0
        for rows in itertools.product(*(self.tables[entry] for entry in entries)):
            row = dict(zip(entries, rows))
            found += all(row[a][x] is not None and row[a][x] == row[b][y] for (a, x), (b, y) in inner)
        return found


def clique(entries: int, limit: int | None) -> Call:
    """A call in which all pairs of entries are joined, each pair by columns of its own."""
    equalities = [(a, b, b, a) for a, b in itertools.combinations(range(entries), 2)]
    lists = [(entry, column, 0, 12) for entry in range(entries) for column in range(entries) if column != entry]
    runs = [(12 - at, 1000) for at in range(12)]
    return Call("bounds_within", [[78000] * entries, equalities, lists, runs], 2**entries, limit)


def timed(call: Call) -> tuple[Answer, float]:
    """The result of a call, and the processor time that this process spent on it, in seconds."""
    began = time.process_time()
    found = by_ctypes(call)
    return found, time.process_time() - began


class Bounds(unittest.TestCase):
    def test_random_queries(self) -> None:
        queries = [RandomQuery(seed) for seed in range(3 * RUNS)]
        calls = [query.call() for query in queries]
        joined = equal = 0
        for query, call, answer in zip(queries, calls, answers(calls)):
            self.assertEqual((answer.status, answer.detail), (Status.OK, 2**query.entries), call)
            for number, bound in enumerate(answer.elements):
                entries = [e for e in range(query.entries) if number >> e & 1]
                self.assertEqual(bound, query.bound_by_definition(entries) if entries else 1, (entries, call))
                count = query.count_choices(entries)
                self.assertLessEqual(count, bound, (entries, call))
                joined, equal = joined + (count > 0 and len(entries) > 1), equal + (count == bound and len(entries) > 1)
        self.assertGreater(joined, 100)
        self.assertGreater(equal, 100)

    def test_rows_without_values(self) -> None:
        """Two tables of a million rows. Ten rows of one and all rows of the other have a value, and all values differ.
        So at most ten rows join. The bound of a single table is its million rows.
        """
        million = 10**6
        lists, runs = [(0, 0, 0, 1), (1, 0, 1, 1)], [(1, 10), (1, million)]
        none = [(0, 0, NO_VALUES, 0), (1, 0, 1, 1)]
        some, nothing, apart = answers([
            Call("bounds", [[million, million], [(0, 0, 1, 0)], lists, runs], 4),
            Call("bounds", [[million, million], [(0, 0, 1, 0)], none, runs], 4),
            Call("bounds", [[million, million], [], lists, runs], 4),
        ])
        self.assertEqual(some.elements, [1, million, million, 10])
        self.assertEqual(nothing.elements, [1, million, million, 0])
        self.assertEqual(apart.elements, [1, million, million, million**2])

    def test_sets_alone(self) -> None:
        """`set_bound` gives each set the bound that `bounds`, which bounds all sets, gives it."""
        queries = [RandomQuery(seed) for seed in range(RUNS)]
        calls = [query.call() for query in queries]
        for call, answer in zip(calls, answers(calls)):
            alone = answers([Call("set_bound", call.arrays, 0, number) for number in range(call.room)])
            self.assertEqual(
                [(one.status, one.detail) for one in alone], [(Status.OK, bound) for bound in answer.elements], call
            )

    def test_limits_of_work(self) -> None:
        """With the smallest sufficient limit the bounds are unchanged. With a limit of one less they are refused, and
        the answer's detail is the smallest sufficient limit.
        """
        queries = [RandomQuery(seed) for seed in range(RUNS)]
        calls = [query.call() for query in queries]
        for query, call, answer in zip(queries, calls, answers(calls)):
            work = query.work()
            enough, less = answers([call._replace(name="bounds_within", number=limit) for limit in (work, work - 1)])
            self.assertEqual(enough, answer, call)
            self.assertEqual(less, (Status.WORK, work, []), call)

    def test_a_limit_ends_at_once(self) -> None:
        """All pairs of entries are joined, each pair by columns of its own. Refusing the bounds of twelve entries takes
        less than a twentieth of the time in which they are computed. Refusing the bounds of sixteen entries takes less
        than half of that time; computing them would take most of a minute or more. Time is this process's processor
        time, so that other work on the machine doesn't count.
        """
        sixteen, twelve = answers([clique(16, 10**6), clique(12, 10**6)])
        for refused in (sixteen, twelve):
            self.assertEqual((refused.status, refused.elements), (Status.WORK, []))
        whole, taken = timed(clique(12, twelve.detail))
        self.assertEqual(whole.status, Status.OK)
        for entries, part in ((12, 20), (16, 2)):
            _, refusing = timed(clique(entries, 10**6))
            self.assertLess(part * refusing, taken, entries)

    def test_saturated_bounds(self) -> None:
        """If two joined columns have one value each, the bound is the product of their rows. Without equalities, two or
        more entries of 2**48 rows have a product that exceeds 64 bits.
        """
        for rows, expected in [
            ((2**31, 2**32), 2**63),
            ((2**32, 2**32), NO_BOUND),
            ((2**32 - 1, 2**32 + 1), NO_BOUND),
            ((2**48, 2**48), NO_BOUND),
        ]:
            lists, runs = [(0, 0, 0, 1), (1, 0, 1, 1)], [(rows[0], 1), (rows[1], 1)]
            (answer,) = answers([Call("bounds", [rows, [(0, 0, 1, 0)], lists, runs], 4)])
            self.assertEqual(answer.elements, [1, rows[0], rows[1], expected])
        twelve = answers([Call("bounds", [[2**48] * 12, [], [], []], 4096)])[0].elements
        self.assertEqual(Counter(min(n, NO_BOUND) for n in twelve), {1: 1, 2**48: 12, NO_BOUND: 4083})

    def test_ten_billion_rows(self) -> None:
        """Two tables joined by one column: the bound sums, rank by rank, the products of the degrees."""
        one, other = [(4_000_000_000, 1), (2, 3_000_000_000)], [(1000, 1_000_000), (1, 9_000_000_000)]
        rows = [10_000_000_000, 10_000_000_000]
        joined = 4_000_000_000 * 1000 + 2 * 1000 * 999_999 + 2 * (3_000_000_000 - 999_999)
        lists, runs = [(0, 0, 0, 2), (1, 0, 2, 2)], one + other
        (answer,) = answers([Call("bounds", [rows, [(0, 0, 1, 0)], lists, runs], 4)])
        self.assertEqual(answer, (Status.OK, 4, [1, *rows, joined]))


# ---- plans


KINDS = {
    1: "SELECT COUNT(*) FROM r LEFT JOIN s ON {}",
    2: "SELECT COUNT(*) FROM r RIGHT JOIN s ON {}",
    3: "SELECT COUNT(*) FROM r FULL JOIN s ON {}",
    4: "SELECT COUNT(*) FROM r WHERE EXISTS (SELECT * FROM s WHERE {})",
    5: "SELECT COUNT(*) FROM r WHERE NOT EXISTS (SELECT * FROM s WHERE {})",
}
CONDITIONS = ["r.x = s.x", "r.x < s.x", "r.x = s.x AND r.y = 1", "r.x = s.x AND s.y <> 1", "r.x = s.x OR r.y IS NULL",
              "1 = 0", "r.y IS NOT NULL"]


class JoinedTables(unittest.TestCase):
    """Joined tables that SQLite counts, with nulls and equal rows."""

    @unittest.skipIf(sqlite3.sqlite_version_info < (3, 39), "this SQLite has no RIGHT and no FULL JOIN")
    def test_never_under(self) -> None:
        calls, counts = [], []
        for seed in range(RUNS):
            pick = random.Random(seed)
            store = sqlite3.connect(":memory:")
            for table in "rs":
                store.execute(f"CREATE TABLE {table} (x, y)")
                rows = [(pick.choice([None, 1, 2, 3]), pick.choice([None, 1, 2])) for _ in range(pick.randint(0, 9))]
                store.executemany(f"INSERT INTO {table} VALUES (?, ?)", rows)
            condition = pick.choice(CONDITIONS)
            parts = [f"r JOIN s ON {condition}", "r", "s"]
            bounds = [store.execute(f"SELECT COUNT(*) FROM {part}").fetchone()[0] for part in parts]
            for kind, statement in KINDS.items():
                calls.append(Call("joined_rows", [bounds], 0, kind))
                counts.append(store.execute(statement.format(condition)).fetchone()[0])
            store.close()
        for call, count, answer in zip(calls, counts, answers(calls)):
            self.assertEqual(answer.status, Status.OK)
            self.assertGreaterEqual(answer.detail, count, call)

    def test_each_kind(self) -> None:
        """Sums that 64 bits can't hold, and bounds that are unknown."""
        numbers = [0, 1, 5, 2**48, 2**63, 2**64 - 2, NO_BOUND]
        asked = [(bounds, kind) for kind in KINDS for bounds in itertools.product(numbers, repeat=3)]
        calls = [Call("joined_rows", [bounds], 0, kind) for bounds, kind in asked]
        for ((inner, left, right), kind), answer in zip(asked, answers(calls)):
            most = {1: inner + left, 2: inner + right, 3: inner + left + right, 4: min(inner, left), 5: left}
            self.assertEqual(answer, (Status.OK, min(most[kind], NO_BOUND), []))


def orders(bounds: list[int], entries: int) -> Iterator[tuple[int, int, tuple[int, ...], list[int]]]:
    """For each order its greatest level, the sum of its levels, the order itself, and its levels. The least of these
    tuples is best.
    """
    for order in itertools.permutations(range(entries)):
        levels = [bounds[sum(1 << e for e in order[: k + 1])] for k in range(entries)]
        yield max(levels), sum(levels), order, levels


def trees(entries: tuple[int, ...]) -> Iterator[Tree]:
    """All trees over a set of entries: a leaf, or two trees. The left one has the first entry of the set."""
    if len(entries) == 1:
        yield entries[0]
    for size in range(1, len(entries)):
        for rest in itertools.combinations(entries[1:], size - 1):
            left = (entries[0], *rest)
            right = tuple(e for e in entries if e not in left)
            yield from itertools.product(trees(left), trees(right))


def set_of(tree: Tree) -> int:
    return set_of(tree[0]) | set_of(tree[1]) if isinstance(tree, tuple) else 1 << tree


def tie_break_of(tree: Tree) -> TieBreak:
    """The key that decides between trees of equal cost and sum."""
    return (set_of(tree[0]), tie_break_of(tree[0]), tie_break_of(tree[1])) if isinstance(tree, tuple) else (0, (), ())


def joins_of(tree: Tree, bounds: list[int], joins: list[tuple[int, int, int]], entries: int) -> int:
    """Appends a tree's joins to `joins`. Returns the number of its root."""
    if not isinstance(tree, tuple):
        return tree
    left, right = joins_of(tree[0], bounds, joins, entries), joins_of(tree[1], bounds, joins, entries)
    joins.append((left, right, bounds[set_of(tree)]))
    return entries + len(joins) - 1


def best_tree(bounds: list[int], entries: int) -> tuple[int, int, TieBreak, list[tuple[int, int, int]]]:
    found = []
    for tree in trees(tuple(range(entries))):
        joins: list[tuple[int, int, int]] = []
        joins_of(tree, bounds, joins, entries)
        levels = [bound for _, _, bound in joins] or [bounds[1]]
        found.append((max(levels), sum(levels), tie_break_of(tree), joins))
    return min(found)


def random_bounds(pick: random.Random, entries: int) -> list[int]:
    kind = pick.choice(["few", "few", "many", "large", "none"])
    numbers = {
        "few": [1, 2, 3],
        "many": range(1000),
        "large": range(2**58, 2**58 + 9),
        "none": [2**59, 2**60, NO_BOUND],
    }[kind]
    bounds = [pick.choice(numbers) for _ in range(2**entries)]
    if pick.random() < 0.3:
        bounds[pick.randrange(1, 2**entries)] = NO_BOUND
    return bounds


class Plans(unittest.TestCase):
    def check(self, name: str, best: Callable[[list[int], int], tuple[int, Sequence[Any]]]) -> None:
        """Plans random bounds with the least sufficient budget, with a budget of one less, and with the greatest
        budget.
        """
        calls, expected = [], []
        for seed in range(2 * RUNS):
            pick = random.Random(seed)
            entries = pick.choice([1, 2, 3, 3, 4, 4, 5])
            bounds = random_bounds(pick, entries)
            cost, found = best(bounds, entries)
            for budget in {min(cost, 2**59), max(min(cost, 2**59) - 1, 0), 2**59}:
                calls.append(Call(name, [bounds], len(found), budget))
                refusal: tuple[int, int | None, list[Any]] = (
                    (Status.PAST_BITS, None, []) if cost == NO_BOUND else (Status.BUDGET, cost, [])
                )
                expected.append((Status.OK, len(found), found) if cost <= budget else refusal)
        found = answers(calls)
        for call, answer, wanted in zip(calls, found, expected):
            self.assertEqual(answer, wanted, call)
        self.assertEqual({answer.status for answer in found}, {Status.OK, Status.BUDGET, Status.PAST_BITS})

    def test_orders(self) -> None:
        def best(bounds: list[int], entries: int) -> tuple[int, Sequence[Any]]:
            cost, _, order, levels = min(orders(bounds, entries))
            return cost, list(zip(order, levels))

        self.check("order", best)

    def test_trees(self) -> None:
        def best(bounds: list[int], entries: int) -> tuple[int, Sequence[Any]]:
            cost, _, _, joins = best_tree(bounds, entries)
            return cost, joins

        self.check("tree", best)


# ---- many entries


def star(entries: int, centre: int) -> Call:
    """One entry is joined with each other entry, by columns of its own."""
    others = [entry for entry in range(entries) if entry != centre]
    equalities = [(centre, entry, entry, 0) for entry in others]
    lists = [(centre, entry, 0, 2) for entry in others] + [(entry, 0, 2, 2) for entry in others]
    rows = [10 if entry == centre else 6 for entry in range(entries)]
    return Call("bounds", [rows, equalities, lists, [(3, 1), (1, 7), (2, 1), (1, 4)]], 2**entries)


def ring(entries: int) -> Call:
    """Column 1 of each entry is joined with column 0 of the next one. In column 0 each value occurs once."""
    equalities = [(entry, 1, (entry + 1) % entries, 0) for entry in range(entries)]
    lists = [(entry, column, column, 1) for entry in range(entries) for column in (0, 1)]
    return Call("bounds", [[8] * entries, equalities, lists, [(1, 8), (2, 4)]], 2**entries)


def clique_of_one_class(entries: int, number: int) -> Call:
    """A set of entries whose first columns are equal, with an equality for each pair."""
    equalities = [(a, 0, b, 0) for a, b in itertools.combinations(range(entries), 2)]
    lists = [(entry, 0, 0, 2) for entry in range(entries)]
    return Call("set_bound", [[3] * entries, equalities, lists, [(2, 1), (1, 1)]], 0, number)


def clique_of_keys(rows: list[int], number: int) -> Call:
    """A set of entries. Each pair of them is joined by columns of its own, in which each value occurs once."""
    entries = range(len(rows))
    equalities = [(a, b, b, a) for a, b in itertools.combinations(entries, 2)]
    lists = [(entry, column, entry, 1) for entry in entries for column in entries if column != entry]
    return Call("set_bound", [rows, equalities, lists, [(1, count) for count in rows]], 0, number)


class ManyEntries(unittest.TestCase):
    """Queries of up to sixteen entries, whose bounds are known from their shapes."""

    SIZES = (3, *range(12, MOST_ENTRIES + 1))

    def test_chains(self) -> None:
        """Chains of many entries, each with 100 keys that occur once. Entries of a set that are neighbours in the chain
        have 100 rows together. So the bound of a set is 100 ** n, where n is its number of runs of neighbours.
        """
        for entries in self.SIZES:
            rows, last = 100, entries - 1
            run_counts = [bin(number & ~(number >> 1)).count("1") for number in range(2**entries)]
            equalities = [(e, 0, e + 1, 0) for e in range(last)]
            lists, runs = [(e, 0, e, 1) for e in range(entries)], [(1, rows)] * entries
            bounds = answers([Call("bounds", [[rows] * entries, equalities, lists, runs], 2**entries)])[0].elements
            self.assertEqual(bounds, [rows**count for count in run_counts])
            order, tree = answers([Call("order", [bounds], entries, rows), Call("tree", [bounds], last, rows)])
            self.assertEqual(order, (Status.OK, entries, [(e, rows) for e in range(entries)]))
            # Of trees with equal cost and sum, the best one has the smallest left sets. So each left child is a single
            # entry: 0 with (1 with (2 ...)).
            later = [(last - 2 - k, entries + k, rows) for k in range(entries - 2)]
            self.assertEqual(tree, (Status.OK, last, [(last - 1, last, rows)] + later))

    def test_stars(self) -> None:
        """In each column of the centre, which has ten rows, one value occurs three times. Each other entry has one
        value twice and four values once. At worst three rows of the centre match two rows of each other entry, and four
        rows match one. So the centre and m others have 3 * 2**m + 4 rows. The best order begins with another entry,
        which has six rows, and goes on with the centre.
        """
        for entries, centre in [(entries, centre) for entries in self.SIZES for centre in (0, entries - 1)]:
            joined = [10, *(3 * 2**count + 4 for count in range(1, entries))]
            (bounds,) = answers([star(entries, centre)])
            self.assertEqual(bounds.status, Status.OK)
            for number, bound in enumerate(bounds.elements):
                count = bin(number & ~(1 << centre)).count("1")
                self.assertEqual(bound, joined[count] if number >> centre & 1 else 6**count, (entries, centre, number))
            first, *others = [entry for entry in range(entries) if entry != centre]
            (order,) = answers([Call("order", [bounds.elements], entries, joined[-1])])
            self.assertEqual(order, (Status.OK, entries, list(zip([first, centre, *others], [6, *joined[1:]]))))

    def test_rings(self) -> None:
        """Each row joins with at most one row of the next entry, and the last entry is joined with the first. So an arc
        (a run of neighbours in the ring) has as many rows as its first entry. So has the whole ring.
        """
        for entries in self.SIZES:
            (bounds,) = answers([ring(entries)])
            self.assertEqual(bounds.status, Status.OK)
            for number, bound in enumerate(bounds.elements):
                before = number << 1 | number >> (entries - 1)
                arcs = bin(number & ~before).count("1") or min(number, 1)
                self.assertEqual(bound, 8**arcs, (entries, number))

    def test_cliques(self) -> None:
        """All pairs of entries are joined. In the first call each entry has one column, with one value in two of its
        three rows: then m entries have at most 2**m + 1 rows. In the second call each value of a column occurs once:
        then a set has at most as many rows as its smallest entry, which is the last one.
        """
        for entries in self.SIZES:
            rows = [100 - entry for entry in range(entries)]
            for number in (1, 3, 2**entries - 2, 2**entries - 1):
                most = [2 ** bin(number).count("1") + 1, rows[number.bit_length() - 1]]
                found = answers([clique_of_one_class(entries, number), clique_of_keys(rows, number)])
                self.assertEqual(found, [(Status.OK, bound, []) for bound in most], (entries, number))

    def test_sets_of_sixteen_entries(self) -> None:
        """The bound of a set of entries without equalities is the product of their row bounds, also with the sixteenth
        entry.
        """
        rows = [2, 3] * 8
        given: list[Sequence[Any]] = [rows, [], [], []]
        (whole,) = answers([Call("bounds", given, 2**16)])
        self.assertEqual((whole.status, whole.detail), (Status.OK, 2**16))
        for number in (0, 1, 2**15, 2**15 + 1, 2**16 - 2, 2**16 - 1):
            product = math.prod(rows[e] for e in range(16) if number >> e & 1)
            self.assertEqual(whole.elements[number], product)
            (alone,) = answers([Call("set_bound", given, 0, number)])
            self.assertEqual((alone.status, alone.detail), (Status.OK, product))


if __name__ == "__main__":
    unittest.main()
