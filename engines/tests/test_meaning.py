"""Tests what is counted and which conditions are edges, on small tables whose counts are known."""

from __future__ import annotations

import unittest
from typing import Any, Dict

from bases import POSTGRES, OnEachEngine, PostgresBase, SqliteBase, on_postgres
from safebound_sql.counting import Counts, counts_of
from safebound_sql.faults import PastBudget
from safebound_sql.levels import entries_of
from safebound_sql.planner import Planner

# A node of PostgreSQL's plan, as EXPLAIN writes it in JSON.
Explained = Dict[str, Any]


class Counted(OnEachEngine):
    """Tests the histogram of each joined column."""

    schema = "CREATE TABLE a (x INTEGER, y INTEGER); CREATE TABLE b (x INTEGER, z INTEGER); CREATE TABLE n (x INTEGER)"

    @classmethod
    def fill(cls) -> None:
        cls.base.fill("a", [(1, 1), (1, 2), (2, 1), (None, 1), (None, 1), (None, 2), (3, 2)])
        cls.base.fill("b", [(1, 5), (1, 6), (1, 7), (3, 5), (4, 5), (None, 5)])
        cls.base.fill("n", [(None,)] * 3)

    def counts(self, text: str, reduce: bool) -> Counts:
        planner = self.planner_for(text, reduce)
        return counts_of(planner.query, planner.engine.connection.rows(planner.counting))

    def test_null_is_no_value(self) -> None:
        counts = self.counts("SELECT a.y FROM a, b WHERE a.x = b.x", reduce=False)
        self.assertEqual(counts.rows, {"a": 7, "b": 6})
        self.assertEqual(counts.runs, {("a", "x"): [(2, 1), (1, 2)], ("b", "x"): [(3, 1), (1, 2)]})

    def test_own_conditions_come_first(self) -> None:
        counts = self.counts("SELECT a.y FROM a, b WHERE a.x = b.x AND y = 1 AND z < 7", reduce=False)
        self.assertEqual(counts.rows, {"a": 4, "b": 5})
        self.assertEqual(counts.runs, {("a", "x"): [(1, 2)], ("b", "x"): [(2, 1), (1, 2)]})

    def test_rows_without_a_partner_go(self) -> None:
        counts = self.counts("SELECT a.y FROM a JOIN b ON a.x = b.x AND a.y = 1", reduce=True)
        self.assertEqual(counts.rows, {"a": 1, "b": 3})
        self.assertEqual(counts.runs, {("a", "x"): [(1, 1)], ("b", "x"): [(3, 1)]})

    def test_a_condition_of_on_counts(self) -> None:
        counts = self.counts("SELECT a.y FROM a JOIN b ON a.x = b.x AND b.z = 5 WHERE a.y = 2", reduce=False)
        self.assertEqual(counts.rows, {"a": 3, "b": 4})

    def test_a_table_joined_with_itself(self) -> None:
        text = "SELECT p.x, q.x FROM a p JOIN a q ON p.y = q.y WHERE p.x = 1 AND q.x = 2"
        self.assertEqual(self.counts(text, reduce=False).rows, {"p": 2, "q": 1})
        self.assertEqual(self.counts(text, reduce=True).rows, {"p": 1, "q": 1})

    def test_a_column_without_values(self) -> None:
        """A column with only NULLs joins no row. With a list of one value it would join the two rows of a in which x
        is 1.
        """
        text = "SELECT a.y FROM a, n WHERE a.x = n.x"
        for reduce, bounds in ((True, [0, 0]), (False, [3, 0])):
            for tree in (False, True):
                planner, plan = self.planned(text, reduce, tree=tree)
                self.assertEqual(plan.counts.runs["n", "x"], [])
                self.assertEqual([level.bound for level in plan.levels], bounds[tree:])
                self.assertEqual(self.never_under(planner, plan, text)[-1], 0)

    def test_an_entry_that_nothing_joins(self) -> None:
        counts = self.counts("SELECT a.y FROM a, b WHERE b.z > 5", reduce=True)
        self.assertEqual((counts.rows, counts.runs), ({"a": 7, "b": 2}, {}))


class Edges(OnEachEngine):
    """Tests which conditions are equalities that bounds may use."""

    schema = """
    CREATE TABLE a (x INTEGER, y INTEGER, t TEXT);
    CREATE TABLE b (x INTEGER, y INTEGER, t TEXT);
    CREATE TABLE c (x INTEGER, y INTEGER);
    """

    @classmethod
    def fill(cls) -> None:
        cls.base.fill("a", [(n % 4, n, f"t{n % 3}") for n in range(12)])
        cls.base.fill("b", [(n % 3, n % 5, f"t{n % 5}") for n in range(10)])
        cls.base.fill("c", [(n % 2, n) for n in range(6)])

    def equalities(self, text: str) -> int:
        planner, plan = self.planned(text)
        self.never_under(planner, plan, text)
        self.same_rows(planner, plan, text)
        return len(planner.query.equalities)

    def test_equalities_of_columns(self) -> None:
        self.assertEqual(self.equalities("SELECT a.y FROM a, b WHERE a.x = b.x AND (b.t = a.t)"), 2)
        self.assertEqual(self.equalities("SELECT a.y FROM a, b WHERE a.x = b.x AND b.x = a.x"), 1)

    def test_or_over_two_entries(self) -> None:
        self.assertEqual(self.equalities("SELECT a.y FROM a, b WHERE a.x = b.x OR a.y = 1"), 0)
        self.assertEqual(self.equalities("SELECT a.y FROM a, b WHERE a.x = b.x AND a.y = 1 OR b.y = 2"), 0)
        self.assertEqual(self.equalities("SELECT a.y FROM a, b WHERE a.y = 1 OR b.y = 2 AND a.x = b.x"), 0)
        self.assertEqual(self.equalities("SELECT a.y FROM a, b WHERE a.x = b.x AND (a.y = 1 OR b.y = 2)"), 1)

    def test_what_isnt_an_equality_of_columns(self) -> None:
        for condition in (
            "NOT a.x = b.x", "a.x = b.x + 0", "a.x <= b.x", "(a.x = b.x) IS NULL", "a.x = b.x IS NOT NULL AND 1 = 1",
            "CASE WHEN a.x = b.x THEN 1 ELSE 0 END = 1 AND a.x = 1", "a.x BETWEEN b.x AND b.y",
        ):
            with self.subTest(condition):
                self.assertEqual(
                    self.equalities(f"SELECT a.y FROM a, b WHERE {condition}") if self.taken(condition) else 0, 0
                )

    def taken(self, condition: str) -> bool:
        """Whether the engine accepts the condition. PostgreSQL has no = between a number and a truth value."""
        return not (self.base.engine == "postgres" and "IS NOT NULL" in condition)

    def test_equality_within_an_entry(self) -> None:
        planner, _ = self.planned("SELECT a.y FROM a, b WHERE a.x = a.y AND a.x = b.x")
        self.assertEqual(
            (len(planner.query.equalities), list(map(str, planner.query.entries[0].own))), (1, ["a.x = a.y"])
        )

    def test_a_cycle(self) -> None:
        self.assertEqual(self.equalities("SELECT a.y FROM a, b, c WHERE a.x = b.x AND b.y = c.y AND c.x = a.x"), 3)

    def test_using(self) -> None:
        for text in (
            "SELECT x, a.t FROM a JOIN b USING (x) JOIN c USING (x) WHERE x < 2 ORDER BY x",
            "SELECT * FROM a JOIN b USING (x)", "SELECT * FROM a JOIN b USING (y, x) JOIN c USING (x)",
            "SELECT b.* FROM a JOIN (b JOIN c ON b.y = c.y) ON a.x = c.x",
        ):
            with self.subTest(text):
                self.assertGreater(self.equalities(text), 0)


@unittest.skipUnless(POSTGRES, "no PostgreSQL")
class EdgesOfPostgres(OnEachEngine):
    """Types that PostgreSQL compares with = differently from how it groups them."""

    base_class = PostgresBase
    schema = """
    CREATE TYPE mood AS ENUM ('sad', 'glad');
    CREATE COLLATION nocase (provider = icu, locale = 'und-u-ks-level2', deterministic = false);
    CREATE DOMAIN word AS text;
    CREATE TABLE a (i INTEGER, b BIGINT, n NUMERIC(6, 2), f DOUBLE PRECISION, t TEXT, v VARCHAR(5), c CHAR(5), d DATE,
                    s TIMESTAMP, m mood, w word, k TEXT COLLATE "C", u TEXT COLLATE nocase, r INTEGER[], x BOX);
    INSERT INTO a SELECT n, n, n, n, 'T' || n, n, n, '2020-01-01', '2020-01-01', 'sad', 'w', n,
        CASE n WHEN 1 THEN 'Q' ELSE 'q' END, ARRAY[n], NULL FROM generate_series(1, 4) n;
    CREATE TABLE b AS SELECT * FROM a;
    CREATE TABLE mine (i INTEGER, owner NAME);
    INSERT INTO mine VALUES (1, user), (2, 'nobody'), (3, user);
    CREATE TABLE yours (i INTEGER, "user" NAME);
    INSERT INTO yours VALUES (1, 'nobody'), (2, 'nobody'), (3, user);
    """

    def test_which_columns_meet(self) -> None:
        for left, right, edge in (
            ("i", "i", True), ("i", "b", False), ("i", "n", False), ("n", "n", True), ("f", "f", True),
            ("f", "n", False), ("t", "t", True), ("t", "v", False), ("v", "v", True), ("c", "c", True),
            ("d", "d", True), ("d", "s", False), ("m", "m", True), ("w", "w", True), ("w", "t", True), ("k", "k", True),
            ("k", "t", False), ("u", "u", True), ("r", "r", False), ("x", "x", False),
        ):
            with self.subTest(f"{left} = {right}"):
                text = f"SELECT a.i FROM a, b WHERE a.{left} = b.{right}"
                planner, plan = self.planned(text)
                self.assertEqual(len(planner.query.equalities), int(edge))
                self.assertEqual(len(planner.query.no_edges), int(not edge))
                self.never_under(planner, plan, text)
                self.same_rows(planner, plan, text)

    def test_a_word_of_the_language_is_no_column(self) -> None:
        text = "SELECT mine.i FROM mine, yours WHERE owner = user AND mine.i = yours.i"
        planner, plan = self.planned(text)
        self.assertEqual(self.never_under(planner, plan, text)[-1], 2)
        self.same_rows(planner, plan, text)
        self.assertEqual(len(planner.query.equalities), 1)


class EdgesOfSqlite(OnEachEngine):
    """Columns that SQLite compares with = differently from how it groups them: 1 equals '1' and '01'."""

    base_class = SqliteBase
    schema = """
    CREATE TABLE a (i INTEGER, t TEXT, k TEXT COLLATE NOCASE, n NUMERIC, r REAL, o, b BLOB);
    INSERT INTO a VALUES (1, '1', 'a', 1, 1, '1', '1'), (1, '01', 'A', 2, 2, 1, 1), (2, '2.0', 'b', '2', 2, 2, '2');
    CREATE TABLE c AS SELECT * FROM a WHERE 0;
    DROP TABLE c;
    CREATE TABLE c (i INTEGER, t TEXT, k TEXT COLLATE NOCASE, n NUMERIC, r REAL, o, b BLOB);
    INSERT INTO c VALUES (1, '1', 'a', 1, 1, '1', '1'), (2, '01', 'A', 2, 2, 1, 1), (3, '2.0', 'b', '2', 2, 2, '2');
    CREATE TABLE s (x ANY) STRICT;
    INSERT INTO s VALUES (1), ('1'), ('01');
    CREATE TABLE l (x ANY);
    INSERT INTO l VALUES (1), (2);
    CREATE VIEW v AS SELECT * FROM c;
    """

    def test_which_columns_meet(self) -> None:
        for left in "itknrob":
            for right in "itknrob":
                with self.subTest(f"{left} = {right}"):
                    text = f"SELECT a.i, c.i FROM a, c WHERE a.{left} = c.{right}"
                    planner, plan = self.planned(text)
                    edge = left == right or {left, right} == {"o", "b"}
                    self.assertEqual(len(planner.query.equalities), int(edge))
                    self.never_under(planner, plan, text)
                    self.same_rows(planner, plan, text)

    def test_numbers_meet_texts(self) -> None:
        text = "SELECT a.i FROM a JOIN c ON a.t = c.i WHERE c.i = 1"
        planner, plan = self.planned(text)
        self.assertEqual(self.never_under(planner, plan, text)[-1], 2)
        self.assertEqual(planner.query.equalities, [])

    def test_any_of_a_strict_table(self) -> None:
        text = "SELECT * FROM s, l WHERE s.x = l.x"
        planner, plan = self.planned(text)
        self.assertEqual(self.never_under(planner, plan, text)[-1], 3)
        self.assertEqual(planner.query.equalities, [])

    def test_columns_of_a_view_are_no_edges(self) -> None:
        text = "SELECT a.i FROM a, v WHERE a.i = v.i AND a.rowid < 3"
        planner, plan = self.planned(text)
        self.assertEqual(planner.query.equalities, [])
        self.same_rows(planner, plan, text)

    def test_row_numbers(self) -> None:
        text = "SELECT a.rowid, c.t FROM a, c WHERE a.rowid = c.i AND a.oid > 1"
        planner, plan = self.planned(text)
        self.assertEqual(len(planner.query.equalities), 1)
        self.never_under(planner, plan, text)
        self.same_rows(planner, plan, text)

    def test_texts_in_double_quotes(self) -> None:
        text = 'SELECT a.i FROM a, c WHERE a.k = c.k AND a.t = "1"'
        planner, plan = self.planned(text)
        self.same_rows(planner, plan, text)


class Orders(OnEachEngine):
    """Tests the order in the SQL, and the number that is compared with a budget."""

    schema = """
    CREATE TABLE a (x INTEGER, p INTEGER);
    CREATE TABLE b (x INTEGER, y INTEGER);
    CREATE TABLE c (y INTEGER, p INTEGER);
    CREATE TABLE d (x INTEGER);
    CREATE TABLE e (y INTEGER);
    """

    @classmethod
    def fill(cls) -> None:
        cls.base.fill("a", [(1, n) for n in range(40)])
        cls.base.fill("b", [(1, n % 5) for n in range(30)])
        cls.base.fill("c", [(7, 7), (8, 8)])
        cls.base.fill("d", [(1,)] + [(None,)] * 9)
        cls.base.fill("e", [(n,) for n in range(5)])

    def test_the_sql_has_the_planned_order(self) -> None:
        """The best order begins with a product, which no engine would choose itself."""
        text = "SELECT a.p FROM b JOIN a ON a.x = b.x AND a.p = 3 JOIN e ON b.y = e.y"
        planner, plan = self.planned(text, reduce=False)
        order = [planner.query.entries[number].name for number in entries_of(plan.shape)]
        self.assertEqual(order, ["a", "e", "b"])
        sql = planner.sql(plan)
        self.assertEqual(sorted("abe", key=lambda name: sql.index(f" AS {name}")), order)
        self.assertEqual(self.joined_by_engine(planner, sql), order)

    def joined_by_engine(self, planner: Planner, sql: str) -> list[str]:
        """The order in which the engine says that it joins. The first two entries may be in either order."""
        planner.engine.connection.keep_order()
        if self.base.engine == "sqlite":
            steps = planner.engine.connection.rows(f"EXPLAIN QUERY PLAN {sql}")
            return [step[3].split()[1] for step in steps if step[3].split()[0] in ("SCAN", "SEARCH")]
        plan = planner.engine.connection.rows(f"EXPLAIN (FORMAT JSON) {sql}")[0][0][0]["Plan"]
        found = []
        while "Plans" in plan:
            names = [set(leaves(part)) for part in plan["Plans"]]
            if len(names) == 2:
                found.append(min(names, key=len))
            plan = plan["Plans"][0] if len(names) == 1 or len(names[0]) > len(names[1]) else plan["Plans"][1]
        order = [name for names in reversed(found) for name in names]
        first = ({"a", "b", "e"} - set(order)) | set(order[:1])
        return sorted(first, key=lambda name: sql.index(f" AS {name}")) + order[1:]

    def test_a_budget_is_for_every_level(self) -> None:
        planner, plan = self.planned("SELECT d.x FROM d JOIN d AS e ON d.x = e.x", reduce=False)
        self.assertEqual([level.bound for level in plan.levels], [10, 1])
        with self.assertRaises(PastBudget) as refused:
            planner.plan(1, 9, False)
        self.assertEqual(refused.exception.least, 10)
        planner.plan(1, 10, False)


def leaves(plan: Explained) -> list[str]:
    return [plan["Alias"]] if "Alias" in plan else [name for part in plan.get("Plans", []) for name in leaves(part)]


class Trees(OnEachEngine):
    """The engine keeps a join tree: PostgreSQL by parentheses, SQLite by a materialised part."""

    schema = "CREATE TABLE a (x INTEGER, p INTEGER); CREATE TABLE b (x INTEGER, y INTEGER, z INTEGER)"
    text = """SELECT p.p, q.p + 1, s.z FROM a p JOIN b r ON p.x = r.x JOIN b s ON r.y = s.y AND r.z <= s.z
        JOIN a q ON q.x = s.x
        WHERE p.p < 5 AND q.p < 9"""

    @classmethod
    def fill(cls) -> None:
        cls.base.fill("a", [(n % 10, n) for n in range(40)])
        cls.base.fill("b", [(n % 10, n % 3, n) for n in range(30)])

    def test_its_rows(self) -> None:
        for reduce in (True, False):
            planner, plan = self.planned(self.text, reduce, 8, tree=True)
            self.assertEqual(plan.shape, ((0, 1), (2, 3)))
            self.never_under(planner, plan, self.text)
            self.same_rows(planner, plan, self.text)

    def test_names_of_its_outputs(self) -> None:
        """A column of a part keeps its name."""
        planner, plan = self.planned(self.text.replace("q.p + 1, s.z", "q.p, s.z AS last"), True, 8, tree=True)
        self.assertEqual(next(planner.engine.connection.csv(planner.sql(plan))), "p,p,last\n")

    def test_the_engine_joins_so(self) -> None:
        planner, plan = self.planned(self.text, False, 8, tree=True)
        planner.engine.connection.keep_order()
        sql = planner.sql(plan)
        if self.base.engine == "sqlite":
            steps = planner.engine.connection.rows(f"EXPLAIN QUERY PLAN {sql}")
            read = [(step[1], step[3].split()[1]) for step in steps if step[3].split()[0] in ("SCAN", "SEARCH")]
            self.assertIn("MATERIALIZE safebound_1", [step[3] for step in steps])
            self.assertEqual([name for parent, name in read if parent and name[0] != "("], ["s", "q"])
            # Each entry of the part is joined to the part by row numbers, so that it has its own name again.
            self.assertEqual(
                [name for parent, name in read if not parent], ["p", "r", "safebound_1", "safebound_1", "safebound_1"]
            )
        else:
            told = planner.engine.connection.rows(f"EXPLAIN (FORMAT JSON) {sql}")[0][0][0]["Plan"]
            joined = sorted(sorted(names) for names in joins(told))
            self.assertEqual(joined, [["p", "q", "r", "s"], ["p", "r"], ["q", "s"]])


def joins(plan: Explained) -> list[list[str]]:
    """The entries below each join."""
    parts = plan.get("Plans", [])
    return ([leaves(plan)] if len(parts) == 2 else []) + [found for part in parts for found in joins(part)]


class Reduced(OnEachEngine):
    """With semi-joins the planned SQL joins the rows that were counted, otherwise the tables."""

    schema = "CREATE TABLE a (x INTEGER, p INTEGER); CREATE TABLE b (x INTEGER, q INTEGER)"

    @classmethod
    def fill(cls) -> None:
        cls.base.fill("a", [(n, n) for n in range(9)])
        cls.base.fill("b", [(n, 0) for n in range(0, 90, 8)])

    def test_the_counted_rows_are_joined(self) -> None:
        text = "SELECT a.p FROM a, b WHERE a.x = b.x AND a.p < b.x + 1 AND a.p > 0"
        planner, plan = self.planned(text)
        self.assertEqual([level.bound for level in plan.levels], [1, 1])
        self.assertEqual(self.never_under(planner, plan, text), [1, 1])
        self.same_rows(planner, plan, text)
        planner, plan = self.planned(text, reduce=False)
        self.assertEqual([level.bound for level in plan.levels], [8, 8])
        self.assertEqual(self.never_under(planner, plan, text), [8, 1])
        self.same_rows(planner, plan, text)


class Snapshots(OnEachEngine):
    """The joined rows are the counted ones, even if other connections write meanwhile."""

    schema = "CREATE TABLE a (x INTEGER); CREATE TABLE b (x INTEGER)"

    def test_rows_that_come_between(self) -> None:
        self.base.fill("a", [(1,), (2,)])
        self.base.fill("b", [(1,), (1,)])
        planner, plan = self.planned("SELECT a.x FROM a, b WHERE a.x = b.x")
        self.base.fill("b", [(1,)] * 7)
        self.assertEqual(planner.engine.connection.rows(planner.sql(plan)), [(1,), (1,)])
        self.never_under(planner, plan, "")
        self.assertEqual(self.base.rows("SELECT count(*) FROM a, b WHERE a.x = b.x"), [(9,)])

    def test_nothing_is_written(self) -> None:
        planner, _ = self.planned("SELECT a.x FROM a")
        with self.assertRaisesRegex(Exception, "read-?only"):
            planner.engine.connection.rows("CREATE TABLE c (x INTEGER)")


for test in (Counted, Edges, Orders, Trees, Reduced, Snapshots):
    globals()[test.__name__ + "OnPostgres"] = on_postgres(test)
del test

if __name__ == "__main__":
    unittest.main()
