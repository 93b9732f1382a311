"""Tests counted bounds on PostgreSQL: examples with known numbers, conditions that aren't counted, and random queries
compared with the engine's own counts.
"""

from __future__ import annotations

import json
import unittest
from decimal import Decimal

import random_queries
from bases import COUNTED, POSTGRES, OnEachEngine, PostgresBase
from process import Process
from random_queries import QUERIES, Randomly, RandomQuery, in_tens
from safebound_sql.counted import MOST_PAIRS
from safebound_sql.levels import MOST_BUDGET, Plan, entries_of
from safebound_sql.planner import Planner

ALL, EQUALITIES = "all conditions", "equalities"
TRIANGLE = "e1.b = e2.a AND e2.b = e3.a AND e3.b = e1.a"
CIRCLE = f"SELECT * FROM e e1, e e2, e e3 WHERE {TRIANGLE}"


class CountedBounds(OnEachEngine):
    """Methods for the tests of this file."""

    def counted(self, text: str, reduce: bool = True, tree: bool = False) -> tuple[Planner, Plan]:
        planner = self.planner_for(text, reduce)
        return planner, planner.plan_by_counting(1, MOST_BUDGET, tree)

    def bounds(self, text: str, reduce: bool = True) -> list[int]:
        """The counted bounds of the levels. Checks that they equal the levels' rows, and don't exceed the uncounted
        bounds.
        """
        planner, plan = self.counted(text, reduce)
        self.assertEqual(planner.true_rows(plan), [level.bound for level in plan.levels], text)
        without = planner.plan(1, MOST_BUDGET, False)
        for level, other in zip(plan.levels, without.levels, strict=True):
            self.assertLessEqual(level.bound, other.bound)
        self.assertEqual((plan.notes, plan.unused), ([], []))
        return [level.bound for level in plan.levels]


class Examples(CountedBounds):
    """Examples with known numbers."""

    base_class = PostgresBase
    schema = """
    CREATE TABLE r (x INTEGER);
    CREATE TABLE s (x INTEGER);
    CREATE TABLE w (b INTEGER, a INTEGER);
    CREATE TABLE e (a INTEGER, b INTEGER);
    CREATE TABLE pair (x INTEGER, y INTEGER);
    """

    @classmethod
    def fill(cls) -> None:
        cls.base.fill("r", [(1,), (1,), (1,), (2,), (2,), (3,), (None,)])
        cls.base.fill("s", [(1,), (1,), (4,), (5,), (6,), (None,)])
        cls.base.fill("w", [(1, 1), (1, 2), (2, 1), (2, 2)])
        cls.base.fill("e", [(1, 2), (2, 3), (3, 1), (1, 3)])
        cls.base.fill("pair", [(1, 1), (1, 2), (2, 2), (None, None)])

    def test_counts_multiply(self) -> None:
        self.assertEqual(self.bounds("SELECT * FROM r, s WHERE r.x = s.x"), [2, 6])
        self.assertEqual(self.bounds("SELECT * FROM r, s WHERE r.x = s.x", reduce=False), [6, 6])

    def test_two_equalities_of_the_same_entries(self) -> None:
        text = "SELECT * FROM w w1, w w2 WHERE w1.b = w2.b AND w1.a = w2.a"
        self.assertEqual(self.bounds(text)[-1], 4)
        self.assertEqual(self.planned(text)[1].cost, 8)
        self.assertEqual(self.bounds("SELECT * FROM w w1 JOIN w w2 USING (a, b)")[-1], 4)

    def test_cycles(self) -> None:
        self.assertEqual(self.bounds(CIRCLE)[-1], 3)
        self.assertEqual(self.bounds(f"{CIRCLE} AND e1.a < e2.a")[-1], 2)
        self.assertEqual(self.bounds(CIRCLE, reduce=False)[-1], 3)

    def test_a_row_whose_own_columns_differ(self) -> None:
        text = "SELECT * FROM pair a, r b WHERE a.x = b.x AND b.x = a.y"
        self.assertEqual(self.bounds(text, reduce=False)[-1], 5)
        self.assertEqual(self.bounds(text)[-1], 5)

    def test_without_a_condition(self) -> None:
        self.assertEqual(self.bounds("SELECT * FROM r, s")[-1], 42)
        self.assertEqual(self.bounds("SELECT * FROM r, s, w w1, w w2 WHERE r.x = s.x AND w1.a = w2.a")[-1], 48)

    def test_a_condition_without_entries(self) -> None:
        """Such a condition is tested when rows are joined, and lowers no bound."""
        planner, plan = self.counted("SELECT * FROM r, s WHERE r.x = s.x AND 1 = 2")
        self.assertEqual([level.bound for level in plan.levels], [2, 6])
        self.assertEqual(planner.true_rows(plan), [0, 0])

    def test_a_condition_of_three_entries(self) -> None:
        text = "SELECT * FROM r, s, w WHERE r.x = s.x AND w.a = r.x AND (r.x = 1 OR s.x + w.b > r.x)"
        self.assertEqual(self.bounds(text)[-1], 12)
        self.assertEqual(self.bounds("SELECT * FROM r, s, w WHERE r.x + s.x = w.a + w.b")[-1], 16)

    def test_trees(self) -> None:
        text = f"SELECT * FROM e e1, e e2, e e3, r WHERE {TRIANGLE} AND e3.a = r.x AND e1.a <= r.x"
        planner, plan = self.counted(text, tree=True)
        self.assertEqual(planner.true_rows(plan), [level.bound for level in plan.levels])
        self.assertEqual({level.counted for level in plan.levels}, {ALL})

    def test_names_of_all_kinds(self) -> None:
        self.base.script('DROP TABLE IF EXISTS "T x"; CREATE TABLE "T x" ("k ""y" INTEGER, safebound_n INTEGER)')
        self.base.fill('"T x"', [(1, 1), (1, 2), (2, 2), (None, 1)])
        text = (
            'SELECT * FROM "T x" AS "A b", "T x" AS safebound_1'
            ' WHERE "A b"."k ""y" = safebound_1."k ""y" AND "A b".safebound_n <= safebound_1.safebound_n'
        )
        self.assertEqual(self.bounds(text)[-1], 4)
        self.assertEqual(self.bounds('SELECT * FROM "T x", r WHERE "k ""y" = x AND safebound_n + x > 2')[-1], 5)


class NotCounted(CountedBounds):
    """Bounds are unchanged where something can't be counted."""

    base_class = PostgresBase
    schema = """
    CREATE COLLATION folded (provider = icu, locale = 'und-u-ks-level2', deterministic = false);
    CREATE TYPE mood AS ENUM ('sad', 'glad');
    CREATE TABLE a (k INTEGER, n NUMERIC, m NUMERIC(6, 2), u TEXT COLLATE folded, t TEXT, c CHAR(3), f FLOAT,
                    i INTERVAL, o mood);
    CREATE TABLE g (k INTEGER, x INTEGER);
    CREATE TABLE hub (a INTEGER, b INTEGER);
    CREATE TABLE three (a INTEGER, b INTEGER, c INTEGER);
    """

    @classmethod
    def fill(cls) -> None:
        cls.base.script(
            "INSERT INTO a VALUES (1, 1.0, 1.0, 'a', 'a', 'a', 0, '1 day', 'sad'),"
            " (1, 1.00, 1.00, 'A', 'A', 'A', '-0', '24 hours', 'glad'),"
            " (1, NULL, 2, NULL, 'b', 'b ', 1, '2 days', NULL)"
        )
        cls.base.script("INSERT INTO g SELECT 1, i FROM generate_series(1, 2001) AS i")
        cls.base.script("INSERT INTO three SELECT 1, 1, i FROM generate_series(1, 2001) AS i")
        cls.base.fill("three", [(1, 2, 0), (2, 1, 0)])
        cls.base.script("INSERT INTO hub SELECT i, 0 FROM generate_series(1, 2001) AS i")
        cls.base.script("INSERT INTO hub SELECT 0, i FROM generate_series(1, 2001) AS i")

    def test_equal_values_that_differ(self) -> None:
        """Rows are grouped by equal values, so a condition would be tested with only one of the values."""
        for condition in (
            "p.n::text <> q.n::text", "p.u COLLATE \"C\" <> q.u", "p.f::text <> q.f::text", "p.i::text <> q.i::text",
            "p.o < q.o",
        ):
            with self.subTest(condition):
                text = f"SELECT 1 FROM a p, a q WHERE p.k = q.k AND {condition}"
                planner, plan = self.counted(text)
                self.never_under(planner, plan, text)
                self.assertEqual([level.bound for level in plan.levels], [3, 9])
                self.assertEqual([str(unused) for unused, _ in plan.unused], [condition])

    def test_equal_values_that_are_the_same(self) -> None:
        for condition, rows in (("p.m::text <> q.m::text", 4), ("p.t || q.t <> 'aA'", 8), ("p.c || q.c < 'a'", 3)):
            with self.subTest(condition):
                self.assertEqual(self.bounds(f"SELECT * FROM a p, a q WHERE p.k = q.k AND {condition}"), [3, rows])

    def test_equalities_over_equal_values_that_differ(self) -> None:
        self.assertEqual(self.bounds("SELECT * FROM a p, a q WHERE p.n = q.n AND p.k <= q.k"), [2, 4])
        self.assertEqual(self.bounds("SELECT * FROM a p, a q WHERE p.u = q.u AND p.t <= q.t"), [2, 3])

    def test_the_limit_of_pairs(self) -> None:
        """A level with as many pairs as the limit is counted. With more pairs it isn't."""
        self.assertEqual(MOST_PAIRS, 2000 * 2000)
        text = "SELECT 1 FROM g p, g q WHERE p.x < q.x AND p.x <= 2000 AND q.x"
        self.assertEqual(self.counted(f"{text} <= 2000")[1].levels[-1].bound, 1999000)
        plan = self.counted(f"{text} <= 2001")[1]
        self.assertEqual(plan.levels[-1].bound, 2000 * 2001)
        told = "level 2 is counted by equalities alone: by all conditions more than 4000000 pairs would meet"
        self.assertEqual(plan.notes, [told])

    def test_equalities_alone(self) -> None:
        """With only one of the two equalities there would be more choices."""
        text = "SELECT 1 FROM three p, three q WHERE p.a = q.a AND p.b = q.b AND p.c < q.c"
        self.assertEqual(self.planned(text)[1].cost, 2002**2 + 1)
        plan = self.counted(text)[1]
        self.assertEqual([level.counted for level in plan.levels], [None, EQUALITIES])
        self.assertEqual([level.bound for level in plan.levels], [2003, 2001**2 + 2])

    def test_past_the_limit_by_equalities_too(self) -> None:
        text = f"SELECT 1 FROM hub e1, hub e2, hub e3 WHERE {TRIANGLE}"
        planner, plan = self.counted(text)
        without = planner.plan(1, MOST_BUDGET, False)
        self.assertEqual([level.counted for level in plan.levels], [None, ALL, None])
        self.assertEqual(plan.levels[-1].bound, without.levels[-1].bound)
        self.assertEqual(plan.notes, ["level 3 isn't counted: more than 4000000 pairs would meet"])
        self.never_under(planner, plan, text)

    def test_without_semi_joins(self) -> None:
        text = "SELECT 1 FROM g p, g q WHERE p.x = q.x AND p.x <= 5 AND q.x BETWEEN 3 AND 9 AND p.k + q.x > 4"
        self.assertEqual(self.bounds(text, reduce=False), [5, 2])

    def test_a_condition_that_ends_in_an_error(self) -> None:
        text = "SELECT 1 FROM g p, g q WHERE p.k = q.k AND p.x < 9 AND q.x < 9 AND 1 / (p.x - q.x) > 0"
        planner, plan = self.counted(text)
        self.assertEqual([level.bound for level in plan.levels], [8, 64])
        self.assertEqual(plan.notes, ["other conditions than equalities aren't counted: division by zero"])
        self.assertEqual(len(plan.unused), 1)
        planner.expect(plan)


class Commands(OnEachEngine, Process):
    """Tests the option in a process of its own."""

    base_class = PostgresBase
    schema = "CREATE TABLE w (b INTEGER, a INTEGER); INSERT INTO w VALUES (1, 1), (1, 2), (2, 1), (2, 2);"
    text = "SELECT w1.a FROM w w1, w w2 WHERE w1.b = w2.b AND w1.a = w2.a AND w1.a <= w2.b"

    def done(self, command: str, *words: str, text: str | None = None, status: int = 0) -> str:
        ended = self.tried(command, *words, text=self.text if text is None else text)
        self.assertEqual(ended.returncode, status, ended.stderr)
        return ended.stderr if status else ended.stdout

    def test_plans(self) -> None:
        lines = self.done("audit", "--count").splitlines()
        self.assertEqual([line.split()[4] for line in lines[1:3]], ["4", "3"])
        self.assertEqual(lines[3:], ["budget 4 would do"])
        told = json.loads(self.done("plan", "--count", "--json"))
        self.assertEqual([level["counted by"] for level in told["levels"]], [None, ALL])
        self.assertEqual(([], []), (told["notes"], told["not used for bounds"]))
        self.assertEqual(self.done("sql", "--count"), self.done("sql"))
        told = json.loads(self.done("plan", "--json"))
        self.assertEqual([level["counted by"] for level in told["levels"]], [None, None])
        self.assertEqual(len(told["not used for bounds"]), 1)

    def test_budgets(self) -> None:
        self.done("run", "--budget", "4", status=8)
        self.assertEqual(self.done("run", "--count", "--budget", "4").splitlines(), ["a", "1", "1", "2"])
        told = self.done("run", "--count", "--budget", "3", status=8)
        self.assertIn("a part of at most 4 rows, so 4 would do", told)

    def test_several_blocks(self) -> None:
        """Blocks keep their bounds, and a note says so."""
        told = "nothing is counted: --count is for queries of one block, whose joins are inner ones\n"
        for command, text in (
            ("audit", "SELECT w1.a FROM w w1 LEFT JOIN w w2 ON w1.b = w2.b AND w1.a = w2.a"),
            ("plan", "WITH v AS (SELECT * FROM w) SELECT 1 FROM v, w WHERE v.a = w.a AND v.b = w.b"),
            ("plan", "SELECT a FROM w UNION ALL SELECT b FROM w"),
        ):
            with self.subTest(text):
                self.assertEqual(self.done(command, "--count", text=text), self.done(command, text=text) + told)

    def test_words(self) -> None:
        self.assertIn("either it, or --kept or --counts", self.done("plan", "--count", "--kept", "f", status=2))
        self.assertIn("either it, or --kept or --counts", self.done("plan", "--count", "--counts", "f", status=2))
        self.assertIn("--count", self.done("counts", "--count", status=2))


class CommandsOfSqlite(OnEachEngine, Process):
    def test_it_isnt_for_sqlite(self) -> None:
        self.base.script("CREATE TABLE w (a INTEGER)")
        ended = self.tried("plan", "--count", text="SELECT 1 FROM w v, w WHERE v.a = w.a")
        told = "safebound-sql: usage: --count is for PostgreSQL: SQLite has no exact numbers past 2^63\n"
        self.assertEqual((ended.returncode, ended.stdout, ended.stderr), (2, "", told))


class RandomlyCounted(Randomly):
    """Texts of v are compared without regard to case, numbers of n have any scale, and further conditions may join."""

    def schema(self) -> str:
        collation = (
            "DROP COLLATION IF EXISTS folded CASCADE;"
            "CREATE COLLATION folded (provider = icu, locale = 'und-u-ks-level2', deterministic = false);"
        )
        tables = super().schema().replace("VARCHAR(9)", "VARCHAR(9) COLLATE folded").replace("NUMERIC(6, 2)", "NUMERIC")
        return collation + tables

    def _value(self, name: str) -> object:
        value = super()._value(name)
        if isinstance(value, Decimal):
            return value.quantize(Decimal(1).scaleb(-self.random.choice((2, 3, 4))))
        return value

    def _condition(self, found: RandomQuery, form: str, left: int, right: int) -> None:
        if form in random_queries.CROSS:
            form = self.random.choice(random_queries.CROSS + CROSS)
        super()._condition(found, form.replace("{v} = {W}", "{v} = {V}"), left, right)


CROSS = (
    "{n}::text <> {N}::text", "{n} < {N}", '{v} COLLATE "C" <> {V}', "{v} <> {V}", "{d} < {D}",
    "{m} % 2 = {M} % 2", "{w} || {W} <> 'aA'", "({k}, {m}) <> ({K}, {M})", "coalesce({k}, {K}) > 0",
)


@unittest.skipUnless(POSTGRES, "no PostgreSQL")
@in_tens(QUERIES)
class RandomCounts(CountedBounds):
    """Compares each level's bound with the engine's own count."""

    base_class = PostgresBase

    def ask(self, numbers: range) -> None:
        exact = levels = 0
        for number in numbers:
            randomly = RandomlyCounted(number, "counted on postgres")
            if number == numbers[0]:
                self.doCleanups()
                randomly.lay(self.base)
            found = randomly.query()
            with self.subTest(number=number, query=found.text):
                here, of = self.check(randomly, found)
                exact, levels = exact + here, levels + of
        COUNTED["levels of random queries that were counted"] += levels
        COUNTED["levels of random queries of which the bound has to be the rows"] += exact
        self.assertGreater(exact, levels // 2)

    def check(self, randomly: Randomly, found: RandomQuery) -> tuple[int, int]:
        """Checks one query. Returns how many levels must have a bound equal to their rows, and how many joins there
        are.
        """
        choose = randomly.random.choice
        reduce, accuracy, tree = choose((True, True, False)), choose((1, 8)), choose((False, False, True))
        planner = self.planner_for(found.text, reduce)
        without = planner.plan(accuracy, MOST_BUDGET, tree)
        plan = planner.plan_by_counting(accuracy, MOST_BUDGET, tree)
        self.assertEqual(plan.notes, [])
        true = self.never_under(planner, plan, found.text)
        exact = levels = 0
        for level, other, rows in zip(plan.levels, without.levels, true, strict=True):
            self.assertLessEqual(level.bound, other.bound)
            some = {planner.query.entries[entry].name for entry in entries_of(level.shape)}
            if not reduce:
                self.assertEqual(rows, self.base.rows(found.count_of(some))[0][0])
            if level.counted and not self.apart_within(plan, frozenset(entries_of(level.shape))):
                self.assertEqual((level.bound, level.counted), (rows, ALL))
                exact += 1
            levels += not isinstance(level.shape, int)
        planner.engine.connection.close()
        return exact, levels

    def apart_within(self, plan: Plan, entries: frozenset[int]) -> bool:
        """Whether some condition on these entries alone is used by no bound."""
        unused = {text for text, _ in plan.unused}
        return any(one.text in unused and one.entries <= entries for one in plan.query.conditions)


for test in (Examples, NotCounted, Commands):
    globals()[test.__name__] = unittest.skipUnless(POSTGRES, "no PostgreSQL")(test)
del test

if __name__ == "__main__":
    unittest.main()
