"""Tests kept counts: when they are used, and how later rows are added. No bound from them is too low."""

from __future__ import annotations

import json
import os
import subprocess
import tempfile
import unittest
from pathlib import Path

from bases import OnEachEngine, SqliteBase, on_postgres
from process import PROGRAM, Process
from random_queries import QUERIES, TABLES, Randomly, in_tens
from safebound_sql.faults import WrongCounts
from safebound_sql.kept import KeptCounts
from safebound_sql.levels import MOST_BUDGET, Plan

MOST = 60
JOINED = "SELECT a.y, b.z FROM a JOIN b ON a.x = b.x"


class WithKept(OnEachEngine):
    def setUp(self) -> None:
        folder = tempfile.TemporaryDirectory()
        self.addCleanup(folder.cleanup)
        self.file = os.path.join(folder.name, "kept.json")

    def keep(self, text: str) -> None:
        planner = self.planner_for(text)
        kept = KeptCounts(self.file, has_to_be_there=False)
        kept.keep(planner.query, planner.engine)
        kept.save()
        planner.engine.connection.close()

    def append(self, table: str, condition: str) -> int:
        engine = self.planner_for(f"SELECT 1 FROM {table}").engine
        kept = KeptCounts(self.file)
        new = kept.append(table, condition, engine)[1]
        kept.save()
        engine.connection.close()
        return new

    def by_kept(self, text: str, tree: bool = False) -> tuple[Plan, list[int]]:
        """A plan from kept counts. Checks that no bound of it is too low."""
        planner = self.planner_for(text, reduce=False)
        plan = planner.plan_by_kept(1, MOST_BUDGET, tree, KeptCounts(self.file))
        true = self.never_under(planner, plan, text)
        self.same_rows(planner, plan, text)
        planner.engine.connection.close()
        return plan, true


class Taken(WithKept):
    def setUp(self) -> None:
        super().setUp()
        self.base.script(
            "DROP TABLE IF EXISTS a; DROP TABLE IF EXISTS b;"
            " CREATE TABLE a (x INTEGER, y INTEGER); CREATE TABLE b (x INTEGER, y INTEGER, z INTEGER)"
        )
        self.base.fill("a", [(n % 3, n) for n in range(12)] + [(None, 1)])
        self.base.fill("b", [(n % 4, n % 2, n) for n in range(8)])

    def test_the_plan_is_that_of_counting_now(self) -> None:
        self.keep(JOINED)
        plan, _ = self.by_kept(JOINED)
        self.assertEqual(sorted(plan.kept), ["a", "b"])
        _, now = self.planned(JOINED, reduce=False)
        self.assertEqual((plan.levels, plan.counts), (now.levels, now.counts))

    def test_an_entry_with_a_condition_is_counted_now(self) -> None:
        self.keep(JOINED)
        plan, true = self.by_kept(JOINED + " AND b.z < 2")
        self.assertEqual((list(plan.kept), plan.changed, plan.counts.rows), (["a"], {}, {"a": 13, "b": 2}))
        self.assertEqual(plan.counts.runs["b", "x"], [(1, 2)])
        self.assertEqual(plan.levels[-1].bound, true[-1])

    def test_whole_tables_are_kept(self) -> None:
        self.keep(JOINED + " AND b.z < 2 AND a.y = 1")
        plan, _ = self.by_kept(JOINED)
        self.assertEqual((sorted(plan.kept), plan.counts.rows), (["a", "b"], {"a": 13, "b": 8}))

    def test_a_column_that_isnt_kept(self) -> None:
        self.keep(JOINED)
        text = "SELECT a.y FROM a, b WHERE a.y = b.y"
        self.assertEqual(self.by_kept(text)[0].kept, {})
        self.keep(text)
        self.assertEqual(sorted(self.by_kept(JOINED + " AND a.y = b.y")[0].kept), ["a", "b"])

    def test_a_table_joined_with_itself(self) -> None:
        text = "SELECT p.x FROM a p, a q, b WHERE p.x = q.y AND q.x = b.x"
        self.keep(text)
        self.assertEqual(sorted(self.by_kept(text)[0].kept), ["b", "p", "q"])

    def test_rows_that_came_later(self) -> None:
        self.keep(JOINED)
        self.base.fill("a", [(3, 100)] * 40)
        plan, true = self.by_kept(JOINED)
        self.assertEqual((list(plan.kept), plan.changed), (["b"], {"a": (13, 53)}))
        self.assertEqual(true[-1], 24 + 80)

    def test_rows_that_are_appended(self) -> None:
        """Most new rows have the value that was most frequent before."""
        self.keep(JOINED)
        self.base.fill("a", [(0, 100)] * 40 + [(5, 101)] * 2 + [(None, 102)])
        self.assertEqual(self.append("a", "y >= 100"), 43)
        plan, true = self.by_kept(JOINED)
        self.assertEqual((sorted(plan.kept), plan.changed), (["a", "b"], {}))
        self.assertEqual(plan.counts.runs["a", "x"], [(44, 1), (6, 1), (4, 1)])
        self.assertEqual(self.append("a", "y > 1000"), 0)
        self.assertEqual(self.by_kept(JOINED)[0].counts, plan.counts)

    def test_rows_that_dont_add_up(self) -> None:
        self.keep(JOINED)
        self.base.fill("a", [(0, 100)] * 40)
        before = Path(self.file).read_text()
        for table, condition in (("a", "y > 100"), ("a", "y > 0"), ("a", "y >= 100 LIMIT 40"), ("a, b", "a.y >= 100")):
            with self.assertRaises(WrongCounts):
                self.append(table, condition)
        self.assertEqual(Path(self.file).read_text(), before)

    def test_a_table_that_was_made_anew(self) -> None:
        """The new table has the same name, columns and number of rows, but all its rows have one value."""
        self.keep(JOINED)
        self.base.script("DROP TABLE a; CREATE TABLE a (x INTEGER, y INTEGER)")
        self.base.fill("a", [(0, n) for n in range(13)])
        plan, true = self.by_kept(JOINED)
        self.assertNotIn("a", plan.kept)
        self.assertEqual(true[-1], 26)
        with self.assertRaises(WrongCounts):
            self.append("a", "y > 1000")
        self.keep(JOINED)
        self.assertEqual(sorted(self.by_kept(JOINED)[0].kept), ["a", "b"])
        self.assertEqual(len(KeptCounts(self.file).tables), 2)


TakenOnPostgres = on_postgres(Taken)


class OtherTables(WithKept):
    def test_a_table_of_another_file(self) -> None:
        other = SqliteBase()
        self.addCleanup(other.close)
        for base, rows in ((self.base, [(n, 0) for n in range(9)]), (other, [(1, 0)] * 9)):
            base.script("CREATE TABLE a (x INTEGER, y INTEGER); CREATE TABLE b (x INTEGER, z INTEGER)")
            base.fill("a", rows)
            base.fill("b", rows)
        self.keep(JOINED)
        mine, self.base = self.base, other
        self.addCleanup(setattr, self, "base", mine)
        self.assertEqual(self.by_kept(JOINED)[0].kept, {})


class OtherTypes(WithKept):
    schema = """
    CREATE TABLE a (x TEXT COLLATE "C", y INTEGER); CREATE TABLE b (x TEXT COLLATE "C", z INTEGER);
    CREATE COLLATION nocase (provider = icu, locale = 'und-u-ks-level2', deterministic = false);
    """

    def test_a_column_of_another_type(self) -> None:
        """By the new type all values are equal."""
        for table in "ab":
            self.base.fill(table, [(word, 0) for word in ("a", "A")])
        self.keep(JOINED)
        for table in "ab":
            self.base.script(f"ALTER TABLE {table} ALTER x TYPE TEXT COLLATE nocase")
        plan, true = self.by_kept(JOINED)
        self.assertEqual((plan.kept, true[-1]), ({}, 4))


OtherTypesOnPostgres = on_postgres(OtherTypes)
del OtherTypes


@in_tens(min(QUERIES, MOST))
class RandomlyKept(WithKept):
    def ask(self, numbers: range) -> None:
        taken = 0
        for number in numbers:
            randomly = Randomly(number, self.base.engine)
            self.doCleanups()
            WithKept.setUp(self)
            self.base.script(randomly.schema())
            for table in range(TABLES):
                self.base.fill(f"t{table}", randomly.rows())
            found = randomly.query()
            with self.subTest(number=number, query=found.text):
                self.keep(found.text)
                self.by_kept(found.text)
                for table in range(TABLES):
                    self.base.fill(f"t{table}", [(*row[:-1], 5000 + (row[0] or 0)) for row in randomly.rows()])
                plan, _ = self.by_kept(found.text)
                self.assertTrue(all(then != now for then, now in plan.changed.values()))
                for table in {table for _, table in found.entries}:
                    self.append(f"t{table}", f"n{table} >= 5000")
                plan, _ = self.by_kept(found.text, tree=randomly.random.random() < 0.3)
                self.assertEqual(plan.changed, {})
                taken += len(plan.kept)
        self.assertGreater(taken, len(numbers) // 2)


RandomlyKeptOnPostgres = on_postgres(RandomlyKept)


class KeptCommands(WithKept, Process):
    schema = "CREATE TABLE a (x INTEGER, y INTEGER); CREATE TABLE b (x INTEGER, z INTEGER)"

    @classmethod
    def fill(cls) -> None:
        cls.base.fill("a", [(n % 3, n) for n in range(6)])
        cls.base.fill("b", [(n % 2, n) for n in range(6)])

    def done(self, command: str, *words: str, status: int = 0) -> str:
        ended = self.tried(command, *words, text=JOINED)
        self.assertEqual(ended.returncode, status, ended.stderr)
        return ended.stderr if status else ended.stdout

    def test_from_keeping_to_appending(self) -> None:
        self.assertEqual(self.done("counts", "--keep", self.file), "a: 6 rows, x\nb: 6 rows, x\n")
        shown = self.done("plan", "--kept", self.file).splitlines()
        self.assertRegex(
            shown[-1], r"^counts of \d{4}-\d\d-\d\d \d\d:\d\d:\d\d UTC are taken for a, b: bounds hold for"
        )
        self.assertIn("bound / rows", self.done("audit", "--kept", self.file))
        self.assertEqual(self.done("sql", "--kept", self.file), self.done("sql", "--no-reduce"))
        self.base.fill("a", [(1, 100)])
        self.assertIn(
            "\na: 6 rows were kept, and 7 are there now; counted anew\n", self.done("plan", "--kept", self.file)
        )
        told = json.loads(self.done("plan", "--json", "--kept", self.file))
        self.assertEqual((list(told["kept"]), told["counted anew"]), (["b"], ["a"]))
        line = [PROGRAM, "append", "--db", self.base.url, "--kept", self.file, "--where", "y = 100", "a"]
        ended = subprocess.run(line, capture_output=True, text=True, timeout=600)
        self.assertEqual((ended.returncode, ended.stdout), (0, "a: 7 rows, 1 of them new\n"), ended.stderr)
        told = json.loads(self.done("plan", "--json", "--kept", self.file))
        self.assertEqual((sorted(told["kept"]), told["counted anew"]), (["a", "b"], []))
        self.assertEqual(os.listdir(os.path.dirname(self.file)), ["kept.json"])

    def test_files_that_arent_right(self) -> None:
        self.done("plan", "--kept", self.file, status=3)
        self.done("counts", "--keep", "/nowhere/kept.json", status=3)
        self.done("counts", "--keep", self.file)
        right = Path(self.file).read_text()
        for old, new in (
            ("[", ""), ("counts 1", "counts 2"), ('"rows": ', '"rows": -'), ('"x": [[', '"x": [[1, 1], ['),
            ('"types"', '"kinds"'), ('"x": [[', '"x": [["q", 1], ['), (right, "[]"), (right, "{}"), (right, ""),
        ):
            self.assertIn(old, right)
            Path(self.file).write_text(right.replace(old, new))
            with self.subTest(new), self.assertRaises(WrongCounts):
                KeptCounts(self.file)
        self.done("plan", "--kept", self.file, status=6)

    def test_words(self) -> None:
        self.done("run", "--budget", "9", "--kept", self.file, status=2)
        self.assertIn("either", self.done("plan", "--kept", self.file, "--counts", self.file, status=2))
        line = [PROGRAM, "counts", "--dialect", "trino", "--schema", "/dev/null", "--keep", self.file, "-"]
        ended = subprocess.run(line, input=JOINED, capture_output=True, text=True, timeout=600)
        self.assertEqual(ended.returncode, 2, ended.stderr)


KeptCommandsOnPostgres = on_postgres(KeptCommands)

if __name__ == "__main__":
    unittest.main()
