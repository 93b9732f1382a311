"""Tests queries of several blocks and outer joins. No level of a block has more rows than its bound, and the rows are
those of the query.
"""

from __future__ import annotations

import json
import random
import unittest

import tpch
from bases import POSTGRES, ROOT, OnEachEngine, PostgresBase, counted, on_postgres
from process import Process
from safebound_sql import block_plans
from safebound_sql.command import open_engine
from safebound_sql.faults import PastBudget, Refused
from safebound_sql.levels import MOST_BUDGET

QUERIES_OF_THE_ARCHIVE = ROOT / "bench" / "archive_queries"


class InBlocks(OnEachEngine, Process):
    def tried_in_blocks(self, text: str, budget: int = MOST_BUDGET) -> block_plans.Planner:
        """Plans a query, and checks its rows and those of its levels. Returns the planner."""
        engine = open_engine(self.base.url, None)
        try:
            self.assertTrue(block_plans.has_several_blocks(text, engine))
            planner = block_plans.Planner(engine, text, 1, budget)
            planner.check()
            planner.true_rows()
            for plan in planner.plans.values():
                for level in plan.levels:
                    if level.rows is not None:
                        self.assertLessEqual(level.rows, level.bound, f"{level.joined} of {plan.select.label}\n{text}")
            engine.connection.keep_order()
            rows, true = engine.connection.rows(planner.sql()), self.base.rows(text)
            self.assertEqual(counted(rows), counted(true), planner.sql())
            self.assertEqual(self.columns(planner.sql()), self.columns(text))
            if planner.rows is not None:
                self.assertLessEqual(len(true), planner.rows)
            return planner
        finally:
            engine.connection.close()

    def columns(self, text: str) -> list[str]:
        return [column[0] for column in self.base.connection.execute(text).description]

    def bounds(self, text: str, *bounds: list[int]) -> block_plans.Planner:
        """Compares the bounds of the blocks' levels with bounds computed by hand. The inner blocks come first."""
        with self.subTest(text):
            planner = self.tried_in_blocks(text)
            self.assertEqual(planner.unbounded, [])
            if bounds:
                found = [[level.bound for level in plan.levels] for plan in planner.plans.values()]
                self.assertEqual(found, list(bounds))
            return planner
        self.fail(text)

    def not_bounded(self, text: str, *words: str) -> None:
        """The query is refused, or a part of it isn't bounded, and these words say why. So no budget admits it."""
        with self.subTest(text):
            engine = open_engine(self.base.url, None)
            self.addCleanup(engine.connection.close)
            self.assertTrue(block_plans.has_several_blocks(text, engine))
            try:
                said = block_plans.Planner(engine, text, 1, MOST_BUDGET).unbounded
            except Refused as refused:
                said = [str(refused)]
            self.assertTrue(said)
            for some in words:
                self.assertIn(some, "\n".join(said))

    def bounded(self, text: str) -> bool:
        """Whether every join of the query has a bound."""
        engine = open_engine(self.base.url, None)
        several = block_plans.has_several_blocks(text, engine)
        engine.connection.close()
        if several:
            return not self.tried_in_blocks(text).unbounded
        planner, plan = self.planned(text)
        self.never_under(planner, plan, text)
        self.same_rows(planner, plan, text)
        planner.engine.connection.close()
        return True


SCHEMA = """
CREATE TABLE a (x INTEGER, p INTEGER, t TEXT);
CREATE TABLE b (x INTEGER, y INTEGER, z INTEGER);
CREATE TABLE c (y INTEGER, w INTEGER);
CREATE TABLE k (x INTEGER PRIMARY KEY);
CREATE TABLE v (x INTEGER);
"""


class SmallTables(InBlocks):
    schema = SCHEMA

    @classmethod
    def fill(cls) -> None:
        cls.base.fill("a", [(n % 6 if n % 7 else None, n, f"t{n % 4}") for n in range(20)])
        cls.base.fill("b", [(n % 5, n % 4, n) for n in range(20)])
        cls.base.fill("c", [(n % 3, n) for n in range(12)])
        cls.base.fill("k", [(n,) for n in range(3)])
        cls.base.fill("v", [(None,)] * 5)


class Blocks(SmallTables):
    def test_outer_joins(self) -> None:
        # The rows of k match at most 12 rows of b: three values occur in four rows each. A LEFT JOIN adds up to 3 rows
        # of k.
        self.bounds("SELECT k.x, b.z FROM k LEFT JOIN b ON k.x = b.x", [3, 15])
        self.bounds("SELECT k.x, b.z FROM k LEFT JOIN b ON k.x = b.x AND b.z < 5", [3, 6])
        self.bounds("SELECT k.x, b.z FROM b RIGHT JOIN k ON k.x = b.x", [20, 15])
        self.bounds("SELECT k.x, b.z FROM k FULL JOIN b ON k.x = b.x", [3, 35])
        # No row of v has a value.
        self.bounds("SELECT k.x FROM k LEFT JOIN v ON k.x = v.x", [3, 3])
        for text in (
            (
                "SELECT a.p, b.z, c.w FROM a LEFT JOIN b ON a.x = b.x AND b.z > 4 LEFT JOIN c ON c.y = b.y WHERE a.p >"
                " 3 AND b.z IS NULL OR c.w = 1"
            ),
            "SELECT a.p, b.z FROM a LEFT JOIN b ON a.x = b.x WHERE b.z IS NULL AND a.t = 't1'",
            "SELECT a.p, b.z FROM a FULL JOIN b ON a.x = b.x AND a.p > 4 WHERE b.z IS NULL OR b.z > 3",
            "SELECT a.p, b.z, c.w FROM a RIGHT JOIN b ON a.x = b.x JOIN c ON c.y = b.y",
            "SELECT a.p, b.z, c.w FROM a LEFT JOIN b ON a.x = b.x JOIN c ON c.y = b.y AND c.w > 1 WHERE a.p < 12",
            "SELECT a.p, b.z, c.w FROM a LEFT JOIN b ON a.x = b.x, c WHERE c.w = a.p",
            "SELECT count(*) FROM a LEFT JOIN b ON a.x = b.x LEFT JOIN c ON c.w = a.p FULL JOIN k ON k.x = c.y",
            "SELECT a.p FROM a LEFT JOIN b ON a.x = b.x OR a.p = b.z",
            "SELECT a.p, b.z, k.x FROM a JOIN b ON a.x = b.x AND a.p > 12 AND 1 < 2 RIGHT JOIN k ON k.x = a.x",
            "SELECT a.p, b.z, k.x FROM a JOIN b ON 1 = 0 RIGHT JOIN k ON k.x = a.x WHERE k.x > 0",
            "SELECT a.p, b.z, k.x FROM (a LEFT JOIN b ON a.x = b.x) FULL JOIN k ON k.x = a.x AND b.z > 3",
            (
                "SELECT a.p, b.z, k.x FROM a CROSS JOIN b FULL JOIN k ON k.x = a.x AND b.z = a.p WHERE a.p IS NULL OR"
                " b.x = 1"
            ),
        ):
            self.bounds(text)

    def test_queries_in_from_and_with(self) -> None:
        for text in (
            (
                "WITH q AS (SELECT x, count(*) AS n FROM b, c WHERE b.y = c.y GROUP BY x) SELECT a.p, q.n FROM a, q"
                " WHERE a.x = q.x"
            ),
            (
                "WITH q (u, v) AS (SELECT x, y FROM b), r AS (SELECT u FROM q WHERE v > 1) SELECT a.p FROM a JOIN r ON"
                " r.u = a.x"
            ),
            "SELECT s.m, a.t FROM (SELECT b.x, max(z) AS m FROM b GROUP BY b.x) AS s JOIN a ON a.x = s.x ORDER BY 1, 2",
            (
                "SELECT s.p FROM (SELECT a.p, b.z FROM a LEFT JOIN b ON a.x = b.x) AS s, (SELECT max(w) AS w FROM c) AS"
                " m WHERE s.z < m.w"
            ),
            "SELECT s.x FROM (SELECT x FROM a UNION SELECT y FROM b LIMIT 100) AS s LEFT JOIN k ON k.x = s.x",
            "SELECT count(*) FROM (SELECT DISTINCT x FROM b) AS s, k WHERE s.x = k.x",
        ):
            self.bounds(text)
        # An aggregate over no rows makes one row.
        for count in ("count(*)", "count(*) FILTER (WHERE b.z > 0)", "coalesce(max(b.z), 1)"):
            self.bounds(f"SELECT s.n, k.x FROM (SELECT {count} AS n FROM b WHERE b.z > 99) AS s, k", [0], [1, 3])
        self.bounds("SELECT s.x FROM (SELECT x FROM k UNION ALL SELECT y FROM c) AS s, k", [3], [12], [3, 45])
        # A part of WITH hides the table with the same name.
        self.bounds("WITH c AS (SELECT 1 AS y) SELECT b.z FROM b WHERE b.y IN (SELECT y FROM c)")
        self.bounds("SELECT s.n, k.x FROM (SELECT count(*) AS n FROM b, c WHERE b.y = c.y) AS s, k", [12, 60], [1, 3])

    def test_what_isnt_read(self) -> None:
        postgres = self.base.engine == "postgres"
        without_alias = "subquery in FROM must have an alias" if postgres else "a query in FROM needs an alias"
        for text, words in (
            (
                "SELECT a.p FROM a, (SELECT b.x FROM b LEFT JOIN (c LEFT JOIN k ON k.x = c.y) ON b.y = c.y) AS s",
                "in parentheses",
            ),
            (
                "SELECT a.p FROM a JOIN (b LEFT JOIN c ON b.y = c.y) ON a.x = b.x LEFT JOIN k ON k.x = a.x",
                "in parentheses",
            ),
            ("SELECT a.p FROM a LEFT JOIN b USING (x)", "write out its columns with ON"),
            ("SELECT a.p FROM a LEFT JOIN b ON a.x = b.x, (VALUES (1)) AS v", "only a SELECT"),
            ("SELECT a.p FROM a LEFT JOIN (b JOIN c ON b.y = c.y) ON a.x = b.x", "aren't bounded on this side"),
            ("SELECT a.p FROM a LEFT JOIN c ON a.p = c.w, (SELECT x FROM b)", without_alias),
            ("WITH q AS (VALUES (1)) SELECT a.p FROM a, q", "VALUES at line 1, column 12: a query begins with SELECT"),
        ):
            done = self.tried("plan", text=text)
            self.assertIn(words, done.stdout + done.stderr)
        if postgres:
            done = self.tried("plan", text="SELECT s.n FROM (SELECT generate_series(1, p) AS n FROM a) AS s, b")
            self.assertIn("s at line 1, column 63: its rows aren't bounded", done.stdout + done.stderr)
            done = self.tried("plan", text="SELECT a.p FROM a, b RIGHT JOIN c ON b.y = c.y")
            self.assertIn("RIGHT JOIN at line 1, column 22: behind a comma it isn't bounded", done.stdout + done.stderr)

    def test_what_is_for_queries_of_one_block(self) -> None:
        text = "SELECT k.x FROM k LEFT JOIN b ON k.x = b.x"
        for words in (["plan", "--tree"], ["plan", "--kept", "/nowhere"], ["counts"], ["export", "/nowhere/at/all"]):
            done = self.tried(*words, text=text)
            self.assertEqual((done.returncode, done.stdout), (5, ""), done.stderr)
            self.assertIn("queries of one block", done.stderr)

    def test_together(self) -> None:
        self.bounds("SELECT x FROM k UNION ALL SELECT y FROM c ORDER BY 1", [3], [12])
        for text, rows in (
            ("SELECT x FROM k UNION ALL SELECT y FROM c", 15),
            ("SELECT x FROM k UNION ALL SELECT y FROM c LIMIT 5", 5),
            ("SELECT a.p FROM a, k WHERE a.p = k.x UNION SELECT w FROM c EXCEPT SELECT z FROM b", 35),
            ("SELECT x FROM a INTERSECT SELECT x FROM k ORDER BY x", 3),
            ("SELECT x FROM a EXCEPT SELECT x FROM b", 20),
        ):
            self.assertEqual(self.bounds(text).rows, rows, text)

    def test_only_subqueries_have_from(self) -> None:
        self.bounds("SELECT (SELECT count(*) FROM b, c WHERE b.y = c.y) AS n, 1 AS one", [12, 60], [])
        self.bounds("SELECT EXISTS (SELECT 1 FROM k) AS e ORDER BY 1", [3], [])
        self.bounds("SELECT 1 AS z WHERE EXISTS (SELECT 1 FROM k LEFT JOIN v ON v.x = k.x)", [3, 3], [])
        text = "SELECT (WITH q AS (SELECT x FROM k) SELECT count(*) FROM q JOIN c ON c.w = q.x) AS n"
        self.assertEqual(self.bounds(text).rows, 1)
        # Only the innermost names a row outside, over a SELECT without FROM.
        self.bounds("SELECT k.x FROM k WHERE EXISTS (SELECT (SELECT max(c.w) FROM c WHERE c.y = k.x))", [12], [], [3])
        text = "SELECT (SELECT count(*) FROM k LEFT JOIN c ON c.w = k.x) AS n"
        self.assertEqual(self.tried("run", "--budget", "5", text=text).returncode, 8)
        done = self.tried("run", "--budget", "6", text=text)
        self.assertEqual((done.returncode, done.stdout), (0, "n\n3\n"), done.stderr)

    def test_the_rows_that_come_out_are_held(self) -> None:
        text = "SELECT x FROM k UNION ALL SELECT y FROM c"
        done = self.tried("plan", text=text)
        self.assertIn("the whole query: at most 15 rows\nbudget 15 would do\n", done.stdout)
        document = json.loads(self.tried("plan", "--json", text=text).stdout)
        self.assertEqual((document["rows"], document["least budget"]), (15, 15))
        done = self.tried("audit", text=text + " ORDER BY 1 LIMIT 4")
        self.assertIn("the whole query: at most 4 rows, and it has 4\n", done.stdout)
        document = json.loads(self.tried("audit", "--json", text=text.replace(" ALL", "")).stdout)
        self.assertEqual((document["rows"], document["true rows"]), (15, 3))
        done = self.tried("run", "--budget", "14", text=text)
        self.assertEqual((done.returncode, done.stdout), (8, ""), done.stderr)
        self.assertIn("15 would do", done.stderr)
        done = self.tried("run", "--budget", "15", text=text)
        self.assertEqual((done.returncode, len(done.stdout.splitlines())), (0, 16), done.stderr)
        # An aggregate makes one row of none.
        text = "SELECT count(*) FROM v LEFT JOIN k ON false WHERE v.x = 1"
        self.assertEqual(self.tried("run", "--budget", "0", text=text).returncode, 8)

    def test_stars(self) -> None:
        # The plan begins with k, which has the fewest rows.
        for text in (
            "SELECT * FROM b JOIN k ON b.x = k.x WHERE EXISTS (SELECT 1 FROM c WHERE c.w = b.z)",
            "SELECT DISTINCT * FROM b JOIN k AS \"K k\" ON b.x = \"K k\".x LEFT JOIN v ON v.x = b.x",
            "SELECT *, b.*, 1 AS one FROM b, k, a WHERE b.x = k.x AND a.p = z AND EXISTS (SELECT 1 FROM c WHERE w = z)",
            "SELECT sum(q.one) FROM (SELECT * FROM (SELECT z AS one, x FROM b) AS b JOIN k ON b.x = k.x) AS q",
            "SELECT * FROM b JOIN k ON b.x = k.x UNION ALL SELECT z, y, x, 7 FROM b",
            "SELECT x, y, z, x FROM b EXCEPT SELECT * FROM b JOIN k ON b.x = k.x",
            (
                "SELECT p FROM a WHERE (p, 1) IN (SELECT * FROM (SELECT * FROM (SELECT z FROM b) AS one JOIN (SELECT 1"
                " AS o FROM k) AS two ON 1 = 1) AS q)"
            ),
            "WITH q AS (SELECT * FROM b JOIN k ON b.x = k.x) SELECT * FROM q LEFT JOIN c ON c.w = q.z",
        ):
            self.bounds(text)

    def test_names_with_a_schema(self) -> None:
        schema = "public" if self.base.engine == "postgres" else "main"
        for text in (
            "SELECT S.a.p FROM S.a WHERE EXISTS (SELECT 1 FROM c WHERE c.w > S.a.x)",
            "SELECT 1 + S.a.p, b.z FROM S.a LEFT JOIN S.b ON S.a.x = b.x AND S.b.z > 3 WHERE S.a.p < 9 ORDER BY 1",
            "SELECT a.p FROM S.a, b WHERE S.a.x = S.b.x AND EXISTS (SELECT 1 FROM c WHERE c.w = S.a.p)",
        ):
            self.bounds(text.replace("S.", schema + "."))

    def test_with_below_with(self) -> None:
        for text in (
            (
                "WITH p AS (SELECT x FROM a) SELECT q.x FROM (WITH r AS (SELECT x FROM p) SELECT r.x FROM r) AS q"
                " LEFT JOIN b ON b.x = q.x"
            ),
            # The inner part hides the outer one, which has more rows.
            (
                "WITH p AS (SELECT x FROM a) SELECT q.x FROM (WITH p AS (SELECT x FROM k), r AS (SELECT x FROM p)"
                " SELECT r.x FROM r) AS q, p WHERE q.x = p.x"
            ),
        ):
            self.bounds(text)
        planner = self.bounds(
            "SELECT q.x FROM (WITH a AS (SELECT x FROM k) SELECT a.x FROM a) AS q, c", [3], [3], [3, 36]
        )
        self.assertEqual(planner.rows, 36)

    def test_parts_of_recursive_that_dont_lead_back(self) -> None:
        text = "WITH RECURSIVE q AS (SELECT x FROM r), r AS (SELECT x FROM k) SELECT q.x FROM q, c"
        self.bounds(text, [3], [3], [3, 36])
        self.not_bounded(
            "WITH RECURSIVE q AS (SELECT x FROM k), k (x) AS (SELECT 1 UNION ALL SELECT x + 1 FROM k WHERE x < 9)"
            " SELECT q.x FROM q, c", "how often it goes on isn't known",
        )

    def test_aggregates_of_the_block_around(self) -> None:
        # The argument is of the block around the subquery, so that block has one row, even from no rows.
        for subquery in ("SELECT count(a.p)", "SELECT max(a.p) FROM k LIMIT 1"):
            self.assertEqual(self.tried_in_blocks(f"SELECT ({subquery}) FROM a WHERE a.p = 99").rows, 1)
            self.bounds(f"SELECT q.n FROM (SELECT ({subquery}) AS n FROM a WHERE a.p = 99) q LEFT JOIN v ON 1 = 0")

    def test_outputs_without_an_alias_keep_their_names(self) -> None:
        self.bounds("SELECT (SELECT max(b.z) FROM b, c WHERE c.y = b.y)  FROM a LEFT JOIN k ON k.x = a.x")
        self.bounds("SELECT (SELECT sum(c.w + b.z)   FROM c JOIN b ON c.y = b.y) , a.p  +  1 FROM a, (SELECT 1 AS n) q")

    def test_a_subquery_that_names_an_output(self) -> None:
        if self.base.engine == "sqlite":
            self.bounds(
                "SELECT a.p AS one FROM a JOIN b ON a.x = b.x WHERE EXISTS (SELECT 1 FROM c WHERE c.w = one AND c.y"
                " = b.y)"
            )

    def test_parts_of_with_without_a_subquery(self) -> None:
        # Here k has the rows of b.
        part = "k" if self.base.engine == "sqlite" else "(TABLE k)"
        for text in (
            f"SELECT a.p FROM a LEFT JOIN c ON c.y = a.p WHERE a.p IN {part}",
            f"SELECT a.p, c.w FROM a JOIN c ON c.y = a.x AND a.p NOT IN {part}",
            f"SELECT a.p, c.w FROM c LEFT JOIN a ON c.y = a.x AND a.p IN {part}",
        ):
            self.bounds(f"WITH k AS (SELECT z FROM b) {text}")
            self.bounds(f"WITH other AS (SELECT z FROM b WHERE z > 5) {text.replace(part, part.replace('k', 'other'))}")

    def test_subqueries(self) -> None:
        for text in (
            "SELECT a.p FROM a WHERE EXISTS (SELECT 1 FROM b, c WHERE b.y = c.y AND b.x = a.x)",
            "SELECT a.p FROM a, k WHERE a.x = k.x AND NOT EXISTS (SELECT * FROM b WHERE b.x = a.x AND z > p)",
            "SELECT a.p FROM a WHERE p > (SELECT avg(z) FROM b WHERE b.x = a.x)",
            "SELECT a.p FROM a WHERE a.x IN (SELECT b.x FROM b WHERE b.y IN (SELECT c.y FROM c WHERE c.w = a.p))",
            "SELECT a.p, (SELECT count(*) FROM b WHERE b.x = a.x) AS n FROM a JOIN k ON k.x = a.x",
            "SELECT a.p FROM a WHERE a.x IN (SELECT b.x FROM b, c WHERE b.y = c.y)",
        ):
            self.bounds(text)

    def test_what_isnt_bounded_is_named(self) -> None:
        text = (
            "WITH RECURSIVE r (n) AS (SELECT 1 UNION SELECT n + 1 FROM r WHERE n < 5) SELECT r.n FROM r, k WHERE k.x"
            " = r.n"
        )
        whole = text + " UNION SELECT a.p FROM a, k WHERE a.x = k.x"
        planner = self.tried_in_blocks(whole)
        self.assertIn("WITH RECURSIVE at line 1, column 6", planner.unbounded[0])
        done = self.tried("plan", text=text)
        self.assertEqual((done.returncode, done.stdout), (5, ""), done.stderr)
        self.assertIn("refused: WITH RECURSIVE at line 1, column 6", done.stderr)
        done = self.tried("plan", text=whole)
        self.assertEqual(done.returncode, 0, done.stderr)
        self.assertIn("not bounded: WITH RECURSIVE at line 1, column 6", done.stdout)
        self.assertIn("the query, UNION: at most", done.stdout)
        done = self.tried("run", "--budget", "1000", text=whole)
        self.assertEqual((done.returncode, done.stdout), (5, ""), done.stderr)
        self.assertIn("refused: not all blocks are bounded: WITH RECURSIVE at line 1, column 6", done.stderr)

    def test_bounds_past_all_numbers(self) -> None:
        """The bound of twelve entries without an equality exceeds 64 bits. Then the block above isn't bounded either.
        """
        many = ", ".join(f"b AS b{n}" for n in range(12))
        done = self.tried("plan", text=f"SELECT s.n FROM (SELECT b0.x AS n FROM {many}) AS s, k")
        self.assertIn("not bounded: the query: s at line 1", done.stdout, done.stderr)
        self.assertIn("not bounded: ", done.stdout)

    def test_a_budget_is_for_every_block(self) -> None:
        text = "SELECT k.x FROM k WHERE k.x IN (SELECT b.y FROM b, c WHERE b.y = c.y)"
        self.tried_in_blocks(text, 60)
        with self.assertRaises(PastBudget) as refused:
            self.tried_in_blocks(text, 59)
        self.assertEqual(refused.exception.least, 60)
        done = self.tried("run", "--budget", "60", text=text + " ORDER BY 1")
        self.assertEqual((done.returncode, done.stdout), (0, "x\n0\n1\n2\n"), done.stderr)


class BlocksOfSqlite(SmallTables):
    """WITH as SQLite has it: it needs no RECURSIVE, and its parts see each other."""

    def test_parts_that_lead_back(self) -> None:
        for text in (
            "WITH k (x) AS (SELECT 1 UNION ALL SELECT x + 1 FROM k WHERE x < 50) SELECT k.x FROM k, c",
            "WITH q (x) AS (SELECT 1 UNION ALL SELECT x + 1 FROM q WHERE x < 50) SELECT q.x FROM q, c",
            "SELECT q.x FROM (WITH k (x) AS (SELECT 1 UNION SELECT x + 1 FROM c, k WHERE x < 9) SELECT x FROM k) q, c",
        ):
            self.not_bounded(text, "it leads back to itself, and how often it goes on isn't known")

    def test_later_parts(self) -> None:
        self.bounds(
            "WITH q AS (SELECT x FROM k), k AS (SELECT b.z AS x FROM b) SELECT q.x FROM q LEFT JOIN c ON c.w = -1",
            [20], [20], [20, 20],
        )


@unittest.skipUnless(POSTGRES, "no PostgreSQL")
class BlocksOfPostgres(SmallTables):
    """What PostgreSQL alone has: LATERAL, sets of rows among outputs, and functions of the user's own."""

    base_class = PostgresBase
    schema = SCHEMA + """
CREATE FUNCTION three (a) RETURNS SETOF int LANGUAGE sql STABLE AS 'VALUES (1), (2), (3)';
CREATE FUNCTION three (int) RETURNS SETOF int LANGUAGE sql STABLE AS 'VALUES (1), (2), (3)';
CREATE OPERATOR !!! (RIGHTARG = int, FUNCTION = three);
CREATE FUNCTION total (int) RETURNS int LANGUAGE sql IMMUTABLE AS 'SELECT $1 + 1';
CREATE FUNCTION count (int, text) RETURNS int LANGUAGE sql IMMUTABLE AS 'SELECT $1';
CREATE SCHEMA s;
CREATE FUNCTION s.sum (int) RETURNS int LANGUAGE sql IMMUTABLE AS 'SELECT $1';
"""

    @classmethod
    def setUpClass(cls) -> None:
        super().setUpClass()
        cls.addClassCleanup(cls.base.script, "DROP SCHEMA s CASCADE")

    def test_selects_without_from(self) -> None:
        for text in (
            "SELECT q.g, a.p FROM a JOIN (SELECT generate_series(1, 5) AS g) q ON q.g = a.x",
            "WITH q AS (SELECT generate_series(1, 50) g) SELECT q.g FROM q LEFT JOIN a ON a.x = q.g",
            "SELECT b.z FROM b LEFT JOIN (SELECT 1 AS n UNION ALL SELECT generate_series(2, 40)) q ON true",
            "SELECT q.n FROM (SELECT unnest(ARRAY[1, 1, 1]) AS n) q LEFT JOIN b ON false",
            "SELECT q.n FROM (SELECT 1 AS n GROUP BY GROUPING SETS ((), ())) q LEFT JOIN b ON false",
            "SELECT q.n FROM (SELECT 1 AS n ORDER BY generate_series(1, 9)) q LEFT JOIN b ON false",
            "SELECT q.n FROM ((SELECT 1 AS n) ORDER BY generate_series(1, 9)) q LEFT JOIN b ON false",
        ):
            self.not_bounded(text, "its rows aren't bounded" if "((SELECT" not in text else "")
        self.bounds("SELECT q.n, k.x FROM (SELECT 1 + abs(-1) AS n) q, k", [], [1, 3])
        self.bounds("SELECT q.n, k.x FROM (SELECT (SELECT count(*) FROM b) AS n) q, k", [20], [], [1, 3])

    def test_sets_of_rows_anywhere(self) -> None:
        for inner in (
            "SELECT x FROM a ORDER BY generate_series(1, 9)",
            "SELECT x FROM a GROUP BY x, generate_series(1, 9)",
            "SELECT x, count(*) FROM a GROUP BY x ORDER BY generate_series(1, 3)",
            "SELECT count(*) AS x FROM a ORDER BY generate_series(1, 30)",
            "SELECT DISTINCT ON (generate_series(1, 3)) x FROM k",
            "SELECT x, rank() OVER w FROM a WINDOW w AS (ORDER BY generate_series(1, 3))",
            "SELECT !!! x AS x FROM a",
            "SELECT x OPERATOR(pg_catalog.+) generate_series(1, 3) AS x FROM a",
            "SELECT a.three AS x FROM a",
            "SELECT public.three(x) AS x FROM a",
        ):
            self.not_bounded(f"SELECT q.x FROM ({inner}) q LEFT JOIN b ON false", "its rows aren't bounded")
        text = "SELECT generate_series(1, 9) FROM a LEFT JOIN b ON a.x = b.x"
        self.not_bounded(text, "generate_series may make several rows of one")
        done = self.tried("run", "--budget", str(MOST_BUDGET), text=text)
        self.assertEqual((done.returncode, done.stdout), (5, ""), done.stderr)
        self.not_bounded(
            "(SELECT a.x FROM a LEFT JOIN b ON a.x = b.x) ORDER BY generate_series(1, 3)", "its rows aren't bounded"
        )
        # A subquery has one value, whatever it calls.
        self.bounds("SELECT (SELECT generate_series(1, 1)) FROM k LEFT JOIN v ON false", [], [3, 18])

    def test_functions_named_like_aggregates(self) -> None:
        for inner, rows in (
            ("total(x)", 20), ("s.sum(p)", 20), ("count(p, 'a')", 20), ("sum(p)", 1), ("count(*)", 1),
            ("bool_and(p > 1)", 1), ("max(p) FILTER (WHERE p > 3)", 1), ("max(p) OVER ()", 20),
            ("percentile_disc(0.5) WITHIN GROUP (ORDER BY p)", 1),
        ):
            text = f"SELECT q.t FROM (SELECT {inner} AS t FROM a) q LEFT JOIN b ON false"
            self.bounds(text, [20], [rows, rows + 20 * rows])
        text = "SELECT 1 FROM v LEFT JOIN k ON false WHERE v.x = 1 ORDER BY count(*)"
        self.assertEqual(self.bounds(text, [0, 0]).rows, 1)
        # This max is of the rows outside: the query in FROM has a row for each of b.
        text = "SELECT (SELECT count(*) FROM (SELECT max(a.p) FROM b) q) FROM a LEFT JOIN v ON false"
        planner = self.tried_in_blocks(text)
        self.assertEqual([plan.rows for plan in planner.plans.values()][0], 20)

    def test_parentheses_around_queries(self) -> None:
        self.bounds(
            "SELECT * FROM ((SELECT x FROM a) UNION ALL (SELECT x FROM b)) q LEFT JOIN c ON q.x = c.w",
            [20], [20], [40, 80],
        )
        self.bounds("SELECT * FROM (((SELECT x FROM k))) q, c", [3], [3, 36])
        self.bounds("SELECT * FROM (((SELECT x FROM k) EXCEPT SELECT x FROM v) LIMIT 2) AS q (n), c", [3], [5], [2, 24])
        self.bounds("SELECT * FROM (((SELECT x FROM a) ORDER BY x LIMIT 4)) q, k", [20], [3, 12])
        self.bounds("SELECT * FROM ((SELECT x FROM k) AS one JOIN c ON c.w = one.x) LEFT JOIN v ON v.x = one.x")
        both = "(SELECT b.z FROM b WHERE b.x = k.x) UNION ALL (SELECT c.w FROM c WHERE c.y = k.x)"
        self.bounds(f"SELECT k.x, q.z FROM k, LATERAL ({both}) q", [20], [12], [3, 24])
        for text in (
            "SELECT p FROM a WHERE p IN ((SELECT w FROM c) EXCEPT (SELECT b.y FROM b, k WHERE b.x = k.x))",
            "SELECT p FROM a WHERE x = ((SELECT max(b.x) FROM b JOIN k ON b.x = k.x))",
            "SELECT p FROM a WHERE ((SELECT true) UNION (SELECT count(*) > 0 FROM b JOIN k ON b.x = k.x))",
            "SELECT ((SELECT count(*) FROM b LEFT JOIN k ON b.x = k.x) + 1) * (((SELECT 2))) AS n",
            "SELECT * FROM ((WITH k AS (SELECT z FROM b) SELECT z FROM k) UNION ((SELECT x FROM k))) q, c",
        ):
            self.bounds(text)
        self.not_bounded("SELECT (SELECT count(*) FROM k) ORDER BY generate_series(1, 3)", "its rows aren't bounded")

    def test_lateral(self) -> None:
        self.bounds("SELECT a.p, q.z FROM a, LATERAL (SELECT b.z FROM b WHERE b.x = a.x) q", [20], [20, 60])
        near = "SELECT b.z FROM b WHERE b.x = k.x"
        self.bounds(f"SELECT k.x, q.z FROM k, LATERAL ({near}) q", [20], [3, 12])
        self.bounds(f"SELECT * FROM k CROSS JOIN LATERAL ({near}) AS q (n)", [20], [3, 12])
        self.bounds(f"SELECT k.x, q.z FROM k LEFT JOIN LATERAL ({near}) q ON true", [20], [3, 15])
        self.bounds(f"SELECT k.x, q.z FROM k LEFT JOIN LATERAL ({near} AND b.z < 5) q ON q.z > 1", [5], [3, 6])
        self.bounds(f"SELECT k.x, q.z FROM k, LATERAL ({near} ORDER BY z LIMIT 2) q", [20], [3, 6])
        self.bounds(f"SELECT k.x, q.z FROM k LEFT JOIN LATERAL ({near} ORDER BY z LIMIT 2) q ON true", [20], [3, 9])
        self.bounds("SELECT k.x, q.n FROM k, LATERAL (SELECT count(*) AS n FROM b WHERE b.x = k.x) q", [20], [3, 3])
        self.bounds("SELECT k.x, q.y FROM k, LATERAL (SELECT k.x + 1 AS y) q", [], [3, 3])
        self.bounds("SELECT v.x, q.n FROM v, LATERAL (SELECT count(*) AS n FROM b WHERE b.x = v.x) q", [20], [5, 5])
        both = f"{near} UNION ALL SELECT c.w FROM c WHERE c.y = k.x"
        self.bounds(f"SELECT k.x, q.z FROM k, LATERAL ({both}) q", [20], [12], [3, 24])
        text = f"SELECT k.x, q.z, c.w FROM k CROSS JOIN LATERAL ({near}) q JOIN c ON c.w = k.x"
        self.bounds(text, [20], [3, 12, 12])
        self.bounds(
            "SELECT k.x, q.z, r.w FROM k, LATERAL (SELECT b.z, b.y FROM b WHERE b.x = k.x) q,"
            " LATERAL (SELECT c.w FROM c WHERE c.y = q.y AND c.w = k.x) r", [20], [12], [3, 12, 12],
        )
        self.bounds(
            "SELECT k.x, q.z FROM k, LATERAL (SELECT b.z, c.w FROM b LEFT JOIN c ON c.w = b.z WHERE b.x = k.x) q",
            [20, 32], [3, 24],
        )
        # It names nothing before it, and is a query in FROM like others.
        self.bounds("SELECT k.x, q.z FROM k, LATERAL (SELECT b.z FROM b) q", [20], [3, 60])
        self.not_bounded("SELECT k.x FROM k, LATERAL (SELECT generate_series(1, k.x)) q", "its rows aren't bounded")
        self.not_bounded(
            "SELECT * FROM a WHERE EXISTS (SELECT 1 FROM b, LATERAL (SELECT c.y FROM c WHERE c.w = a.p) q)",
            "it names an entry of a block further out",
        )

    def test_names_that_are_cut(self) -> None:
        for start in ("a" * 62, "\u00e9" * 31, "\"" + "A b" * 20 + "ab"):
            end = "\"" if start.startswith("\"") else ""
            kept = self.base.rows(f"SELECT (parse_ident('{start}x{end}'))[1]::name::text")[0][0]
            self.base.script(f'CREATE TABLE "{kept}" (x INTEGER); INSERT INTO "{kept}" VALUES (1), (2)')
            with self.subTest(start):
                self.bounds(
                    f"WITH {start}xaaa{end} AS (SELECT b.z AS x FROM b) SELECT t.x FROM {start}xbb{end} t LEFT JOIN v"
                    " ON false", [20], [20, 120],
                )
                text = f"SELECT {start}xb{end}.x FROM {start}xccc{end} LEFT JOIN k ON k.x = {start}xd{end}.x"
                self.bounds(text, [2, 4])


@unittest.skipUnless(POSTGRES, "no PostgreSQL")
class Tpch(InBlocks):
    """The 22 queries of TPC-H. Each join of each query has a bound."""

    base_class = PostgresBase
    schema = tpch.SCHEMA

    @classmethod
    def fill(cls) -> None:
        for table, rows in tpch.rows().items():
            cls.base.fill(table, rows)

    def test_all_queries(self) -> None:
        found = 0
        for number, text in tpch.QUERIES.items():
            with self.subTest(number):
                found += self.bounded(text)
        self.assertEqual(found, 22)


@unittest.skipUnless(QUERIES_OF_THE_ARCHIVE.is_dir(), "no queries of the archive")
class Archive(InBlocks):
    """Queries over packages that safebound_cli doesn't accept: outer joins, WITH, UNION, subqueries."""

    @classmethod
    def fill(cls) -> None:
        cls.base.script((QUERIES_OF_THE_ARCHIVE / "schema.sql").read_text())
        pick = random.Random(3)
        sections = (
            "games", "libs", "admin", "editors", "mail", "shells", "xfce", "python", "database", "sound", "fonts",
        )
        names = ["mutt", "python3-a", "python3-b", "libx", "liby", "x-doc"] + [f"p{n}" for n in range(54)]
        teams = ("Debian Games Team", "Debian GNOME Maintainers", "Debian Python Team", "Ada", "Ben")
        paths = ("/", "/usr/bin", "/usr/sbin", "/lib/systemd/system", "/usr/include/a", "/etc/cron.daily")

        def some() -> int:
            return pick.randrange(1, 61)

        cls.base.fill("maintainer", list(enumerate(teams, 1)))
        cls.base.fill(
            "package",
            [
                (
                    n, name, f"s{n % 9}", pick.randrange(1, 6), pick.choice(sections), "optional",
                    pick.choice((1000, 200_000, 200_000_000)), pick.randrange(5000),
                )
                for n, name in enumerate(names, 1)
            ],
        )
        cls.base.fill(
            "dependency", [(some(), pick.choice(("Depends", "Recommends", "Breaks")), some()) for _ in range(240)]
        )
        tags = ("interface::graphical", "interface::x11", "works-with::audio")
        cls.base.fill("tag", [(some(), pick.choice(("protocol", "interface")), pick.choice(tags)) for _ in range(120)])
        cls.base.fill("directory", [(n, path, 1) for n, path in enumerate(paths, 1)])
        ends = (".h", ".service", ".timer", "")
        cls.base.fill(
            "file", [(some(), pick.randrange(1, 7), pick.choice("abc") + pick.choice(ends)) for _ in range(200)]
        )

    def test_all_queries(self) -> None:
        unbounded = []
        for file in sorted((QUERIES_OF_THE_ARCHIVE / "beyond").glob("*.sql")):
            with self.subTest(file.name):
                if not self.bounded(file.read_text()):
                    unbounded.append(file.stem)
        self.assertEqual(unbounded, ["all-that-mutt-needs"])


BlocksOnPostgres, ArchiveOnPostgres = on_postgres(Blocks), on_postgres(Archive)
del InBlocks, SmallTables

if __name__ == "__main__":
    unittest.main()
