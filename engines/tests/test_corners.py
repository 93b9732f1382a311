"""Corners of SQL where a plan could count other rows than it joins, or return another query. Each was once a bug.
"""

from __future__ import annotations

import os
import subprocess
import tempfile
import unittest

from bases import POSTGRES, OnEachEngine, PostgresBase, SqliteBase, counted, on_postgres
from process import PROGRAM, Process
from safebound_sql.faults import Refused

WAYS = [(reduce, tree) for reduce in (True, False) for tree in (False, True)]


class Corners(OnEachEngine, Process):
    """Checks that all classes of this file use."""

    def refused(self, text: str, *words: str) -> None:
        with self.subTest(text):
            try:
                with self.assertRaises(Refused) as raised:
                    self.planner_for(text)
            finally:
                self.doCleanups()  # an open transaction would hold what the test changes next
            for word in words:
                self.assertIn(word, str(raised.exception))

    def right(self, *texts: str) -> None:
        """Checks, for each kind of plan, that the rows are those of the query, in the query's order, and that no bound
        is too low.
        """
        for text in texts:
            for reduce, tree in WAYS:
                with self.subTest(text, reduce=reduce, tree=tree):
                    planner, plan = self.planned(text, reduce, tree=tree)
                    self.never_under(planner, plan, text)
                    planner.engine.connection.keep_order()
                    rows, true = planner.engine.connection.rows(planner.sql(plan)), self.base.rows(text)
                    if "ORDER BY" in text:
                        self.assertEqual(list(map(repr, rows)), list(map(repr, true)), planner.sql(plan))
                    self.assertEqual(counted(rows), counted(true), planner.sql(plan))
                    planner.engine.connection.close()


class Names(Corners):
    """Clauses above the join (outputs, grouping, order) mean the same in the planned SQL."""

    schema = """
    CREATE TABLE a (id INTEGER, qty INTEGER, name TEXT);
    CREATE TABLE b (id INTEGER, qty2 INTEGER, t TEXT);
    CREATE TABLE c (id INTEGER, w INTEGER);
    CREATE TABLE d (w INTEGER, e INTEGER);
    """

    @classmethod
    def fill(cls) -> None:
        cls.base.fill("a", [(n, 10 - n, f"n{n % 3}") for n in range(9)])
        cls.base.fill("b", [(n, n * 7 % 5, f"t{n}") for n in range(2, 12)])
        cls.base.fill("c", [(n, n % 4) for n in range(12)])
        cls.base.fill("d", [(n, n + 5) for n in range(3)])

    def test_aliases_like_columns_over_using(self) -> None:
        self.right(
            "SELECT -id AS id, qty FROM a JOIN b USING (id) ORDER BY id LIMIT 3",
            "SELECT -id AS id, id AS other FROM a JOIN b USING (id) JOIN c USING (id) ORDER BY id, other LIMIT 4",
            "SELECT id % 3 AS id, count(*) FROM a JOIN b USING (id) GROUP BY id ORDER BY id, 2",
            "SELECT max(id) id FROM b JOIN c USING (id) GROUP BY w ORDER BY id",
            "SELECT -qty AS qty2, -qty2 AS qty FROM a JOIN b USING (id) ORDER BY qty2, qty LIMIT 5",
            "SELECT DISTINCT id / 2 AS id FROM a JOIN b USING (id), d WHERE id > 1 ORDER BY id DESC",
            "SELECT id FROM a JOIN b USING (id) WHERE id > 3 AND t <> name ORDER BY a.qty",
        )

    def test_aliases_like_columns_in_trees(self) -> None:
        self.right(
            (
                "SELECT -a.id AS id, d.e qty FROM a, b, c, d WHERE a.id = b.id AND b.id = c.id AND c.w = d.w ORDER BY"
                " id LIMIT 3"
            ),
            (
                "SELECT -qty AS qty2, qty2 AS qty FROM a, b, c, d WHERE a.id = b.id AND b.id = c.id AND c.w = d.w ORDER"
                " BY qty2 LIMIT 3"
            ),
            (
                "SELECT max(e) AS e, count(*) FROM a, b, c, d WHERE a.id = b.id AND b.id = c.id AND c.w = d.w GROUP BY"
                " qty ORDER BY qty"
            ),
        )

    def test_stars(self) -> None:
        self.right(
            "SELECT *, -qty AS other FROM a JOIN b USING (id) JOIN c USING (id) ORDER BY other, 1",
            "SELECT b.*, id FROM a JOIN b USING (id) ORDER BY t LIMIT 4",
            "SELECT c.*, a.* FROM a, b, c, d WHERE a.id = b.id AND b.id = c.id AND c.w = d.w ORDER BY a.id",
        )

    def test_outputs_keep_their_names(self) -> None:
        for text, names in (
            (
                "SELECT id, -id AS id2, max(qty) qty FROM a JOIN b USING (id) GROUP BY id ORDER BY 1",
                ["id", "id2", "qty"],
            ),
            ("SELECT * FROM a JOIN b USING (id) ORDER BY id", ["id", "qty", "name", "qty2", "t"]),
            (
                "SELECT a.id   +  1, ( b.id ), max( b.id )  OVER (), a.id AS  z FROM a JOIN b ON a.id = b.id"
                " ORDER BY 1",
                ["?column?", "id", "max", "z"] if self.base.engine == "postgres"
                else ["a.id   +  1", "id", "max( b.id )  OVER ()", "z"],
            ),
        ):
            for reduce, tree in WAYS:
                planner, plan = self.planned(text, reduce, tree=tree)
                first = next(planner.engine.connection.csv(planner.sql(plan)))
                self.assertEqual(first.splitlines()[0], ",".join(names))
                planner.engine.connection.close()

    def test_what_is_written_above_stays(self) -> None:
        text = (
            "SELECT -id AS id, max( qty )  FILTER (WHERE qty>1) qty FROM a JOIN b USING (id) GROUP BY id HAVING"
            " count(*)>0 ORDER BY id"
        )
        planner, plan = self.planned(text)
        sql = planner.sql(plan)
        self.assertIn("SELECT -id AS id, max( qty ) FILTER (WHERE qty>1) qty\n", sql)
        self.assertTrue(sql.endswith("GROUP BY id HAVING count(*)>0 ORDER BY id"), sql)

    def test_both_names_of_a_merged_column(self) -> None:
        text = "SELECT a.id, b.id, id FROM a JOIN b USING (id) ORDER BY 1"
        if self.base.engine == "postgres":
            self.right(text)
        else:
            self.refused(text, "b.id at line 1, column 14", "USING merged")
        self.right("SELECT a.id, b.id FROM a JOIN b USING (id) ORDER BY 2")

    def test_names_with_their_schema(self) -> None:
        schema = "public" if self.base.engine == "postgres" else "main"
        self.right(
            f"SELECT {schema}.a.qty, {schema}.b.id + 1 AS id FROM a, b WHERE {schema}.a.id = {schema}.b.id ORDER BY"
            f" {schema}.a.qty"
        )

    def test_names_that_are_words_elsewhere(self) -> None:
        columns = ", ".join(f'"{word}" INTEGER' for word in ("offset", "window", "fetch", "limit", "order"))
        self.base.script(
            f"DROP TABLE IF EXISTS odd; CREATE TABLE odd (id INTEGER, {columns}); INSERT INTO odd VALUES (3, 1, 2, 3,"
            " 4, 5)"
        )
        self.right(
            (
                'SELECT o."offset", o."window" AS "limit" FROM odd o, a WHERE o.id = a.id AND o."order" > 1 ORDER BY'
                ' o."limit"'
            ),
            "SELECT a.qty AS offset, o.id AS window FROM odd o JOIN a ON o.id = a.id ORDER BY 1 LIMIT 2 OFFSET 0",
        )
        if self.base.engine == "sqlite":
            self.right(
                "SELECT offset, window FROM odd, a WHERE odd.id = a.id AND offset = 1 AND fetch = 3 ORDER BY window"
            )
        else:
            self.right(
                "SELECT o.offset, o.window, o.order FROM odd o, a WHERE o.id = a.id AND o.limit = 4 ORDER BY o.fetch"
            )


class ViewsThatChoose(Corners):
    """A view that chooses some of its rows may choose other rows when it is joined than when it is counted."""

    schema = """
    CREATE TABLE a (x INTEGER, y INTEGER, t TEXT);
    CREATE TABLE b (x INTEGER, z INTEGER);
    CREATE VIEW numbered AS SELECT x, y, row_number() OVER (ORDER BY x) AS n FROM a;
    CREATE VIEW few AS SELECT x, y FROM a ORDER BY x LIMIT 3;
    CREATE VIEW above_some AS SELECT x FROM numbered;
    CREATE VIEW ranked AS SELECT x, rank() OVER (ORDER BY x) AS r, count(*) OVER (PARTITION BY y) AS c FROM a;
    CREATE VIEW summed AS SELECT x, count(*) AS n, min(y) AS y FROM a GROUP BY x HAVING count(*) > 0;
    CREATE VIEW framed AS SELECT x, count(*) OVER (ORDER BY x ROWS UNBOUNDED PRECEDING) AS c FROM a;
    """

    @classmethod
    def fill(cls) -> None:
        cls.base.fill("a", [(n % 3, n, f"t{n % 2}") for n in range(9)])
        cls.base.fill("b", [(n % 4, n) for n in range(9)])
        aggregate = "string_agg(t, ',')" if cls.base.engine == "postgres" else "group_concat(t)"
        cls.base.script(f"CREATE VIEW listed AS SELECT x, {aggregate} AS l FROM a GROUP BY x")
        if cls.base.engine == "postgres":
            cls.base.script("CREATE VIEW firsts AS SELECT DISTINCT ON (x) x, y FROM a ORDER BY x")
            cls.base.script("CREATE VIEW arrays AS SELECT x, array_agg(y) AS l FROM a GROUP BY x")
            cls.base.script("CREATE VIEW ordered AS SELECT x, array_agg(y ORDER BY y) AS l FROM a GROUP BY x")
        else:
            cls.base.script("CREATE VIEW bare AS SELECT x, y FROM a GROUP BY x")

    def test_they_are_refused(self) -> None:
        choosing = ["numbered", "few", "above_some", "framed", "listed"]
        for view in choosing + (["firsts", "arrays"] if self.base.engine == "postgres" else ["bare"]):
            self.refused(
                f"SELECT b.z FROM b, {view} WHERE b.x = {view}.x", f"{view} at line 1, column 20", "make a table of it"
            )
            self.refused(
                f"SELECT b.z FROM b WHERE b.x IN (SELECT x FROM {view})", f"{view} at line 1", "make a table of it"
            )

    def test_others_are_taken(self) -> None:
        self.right(
            "SELECT b.z, ranked.r FROM b, ranked WHERE b.x = ranked.x AND ranked.c > 0 ORDER BY 1, 2",
            "SELECT b.z, summed.n FROM b, summed WHERE b.x = summed.x ORDER BY 1",
        )
        if self.base.engine == "postgres":
            self.right("SELECT b.z, ordered.l FROM b, ordered WHERE b.x = ordered.x ORDER BY 1")

    def test_subqueries(self) -> None:
        self.refused(
            "SELECT z FROM b WHERE x IN (SELECT row_number() OVER (ORDER BY t) FROM a)", "row_number OVER", "subquery"
        )
        if self.base.engine == "postgres":
            self.refused("SELECT z FROM b WHERE z IN (SELECT DISTINCT ON (x) y FROM a)", "DISTINCT ON of a subquery")
        else:
            self.refused("SELECT z FROM b WHERE z IN (SELECT y FROM a GROUP BY x)", "y beside GROUP BY")
            self.refused("SELECT z FROM b WHERE (x, z) IN (SELECT x, max(y) + y FROM a)", "beside GROUP BY")
        self.right("SELECT z FROM b WHERE z IN (SELECT max(y) FROM a GROUP BY x) ORDER BY z")


@unittest.skipUnless(POSTGRES, "no PostgreSQL")
class CornersOfPostgres(Corners):
    base_class = PostgresBase
    schema = """
    CREATE TABLE a (x INTEGER, y INTEGER, c CHAR(5), n NUMERIC(5, 1));
    CREATE TABLE b (x NUMERIC, z INTEGER, c BPCHAR, n NUMERIC);
    CREATE TABLE e (x INTEGER PRIMARY KEY, name TEXT, more TEXT);
    INSERT INTO a SELECT n, n * 2, 'v' || n, n + 0.5 FROM generate_series(1, 7) n;
    INSERT INTO b SELECT n, n, 'v' || n, n + 0.50 FROM generate_series(2, 9) n;
    INSERT INTO e SELECT n, 'n' || n, 'm' || n FROM generate_series(1, 9) n;
    ANALYZE;
    """

    def test_using_across_types(self) -> None:
        self.right(
            "SELECT sum(x / 2) FROM a JOIN b USING (x)", "SELECT sum(x / 2) FROM b JOIN a USING (x)",
            "SELECT x, x / 2, n FROM a JOIN b USING (x, n) WHERE x / 2 > 1.2 ORDER BY x",
            "SELECT n::text FROM a JOIN b USING (n) ORDER BY 1", "SELECT * FROM a JOIN b USING (n) ORDER BY a.x",
            "SELECT c || '|' FROM a JOIN b USING (c) ORDER BY 1",
            "SELECT length(c::text), pg_typeof(x)::text FROM a JOIN b USING (c, x) WHERE x / 2 <> 1 ORDER BY 1",
        )

    def test_the_order_is_kept_over_using(self) -> None:
        """The planned SQL also has USING above the join, but the engine makes no join for it."""
        planner, plan = self.planned("SELECT x FROM a JOIN b USING (x) JOIN e USING (x)", reduce=False)
        planner.engine.connection.keep_order()
        [[told]] = planner.engine.connection.rows(f"EXPLAIN (FORMAT JSON) {planner.sql(plan)}")
        self.assertEqual(str(told).count("'Node Type': 'Seq Scan'") + str(told).count("Index"), 3, told)

    def test_the_sessions_settings(self) -> None:
        self.base.script(
            "CREATE OR REPLACE VIEW settings AS SELECT setting::int AS x FROM pg_settings WHERE name ="
            " 'join_collapse_limit'"
        )
        self.base.script(
            "CREATE OR REPLACE FUNCTION hidden() RETURNS text LANGUAGE sql STABLE AS $$ SELECT"
            " current_setting('jit') $$"
        )
        for condition in (
            "a.y > current_setting('join_collapse_limit')::int", "EXISTS (SELECT 1 FROM pg_settings)",
            "hidden() = 'on'",
        ):
            self.refused(f"SELECT a.x FROM a, e WHERE a.x = e.x AND {condition}", "settings")
        self.refused("SELECT a.x FROM a, settings WHERE a.x = settings.x", "settings at line 1, column 20")
        self.refused("SELECT a.x FROM a, pg_stat_activity WHERE a.x = pid", "pg_stat_activity")
        self.refused("SELECT a.x FROM a, pg_cursors", "pg_cursors")

    def test_row_policies(self) -> None:
        self.base.script(
            """
            DROP TABLE IF EXISTS guarded; CREATE TABLE guarded (x INTEGER, y INTEGER); INSERT INTO guarded VALUES (1,
                1), (2, 2);
            ALTER TABLE guarded ENABLE ROW LEVEL SECURITY; CREATE POLICY p ON guarded USING (x < 9)
        """
        )
        text = "SELECT a.x FROM a, guarded g WHERE a.x = g.x"
        self.right(text)
        for condition, words in (("random() < 1", "random"), ("x IN (SELECT y FROM a LIMIT 1)", "LIMIT")):
            self.base.script(f"DROP POLICY p ON guarded; CREATE POLICY p ON guarded USING ({condition})")
            self.refused(text, "guarded at line 1, column 20", "a row policy", words)
            self.refused(
                "SELECT x FROM a WHERE x IN (SELECT x FROM guarded)", "guarded at line 1", "a row policy", words
            )

    def test_functions_that_hide(self) -> None:
        self.refused(r'''SELECT x FROM a WHERE U&"\0072andom"() < 0.5''', 'U&"', "line 1, column 23", "escapes")
        self.base.script(
            """
            CREATE OR REPLACE FUNCTION drawn(e) RETURNS float LANGUAGE sql VOLATILE AS 'SELECT random()';
            CREATE OR REPLACE FUNCTION of_two(int, int) RETURNS boolean LANGUAGE sql VOLATILE AS 'SELECT random() <
                0.5';
            DROP OPERATOR IF EXISTS public.@#@ (int, int);
            CREATE OPERATOR public.@#@ (FUNCTION = of_two, LEFTARG = int, RIGHTARG = int)
        """
        )
        self.refused("SELECT x FROM a WHERE x IN (SELECT e.x FROM e WHERE e.drawn < 0.5)", "drawn at line 1")
        self.refused("SELECT x FROM a WHERE x @#@ 2", "@#@ at line 1")
        self.refused("SELECT x FROM a WHERE x OPERATOR(public.@#@) 2", "@#@ at line 1")

    def test_casts_of_the_users_own(self) -> None:
        self.base.script(
            """
            DROP TYPE IF EXISTS wrapped CASCADE; CREATE TYPE wrapped AS (v int);
            CREATE DOMAIN "Wrapped Twice" AS wrapped; CREATE TYPE around AS (inner_one wrapped);
            CREATE OR REPLACE FUNCTION to_wrapped(int) RETURNS wrapped LANGUAGE plpgsql VOLATILE AS
                'BEGIN RETURN ROW((random() * 20)::int)::wrapped; END';
            CREATE CAST (int AS wrapped) WITH FUNCTION to_wrapped(int);
            CREATE OR REPLACE FUNCTION to_number(wrapped) RETURNS int LANGUAGE sql VOLATILE AS 'SELECT 1';
            CREATE CAST (wrapped AS int) WITH FUNCTION to_number(wrapped);
        """
        )
        try:
            for cast in (
                "(a.x::wrapped).v", "(CAST(a.x AS wrapped)).v", "(a.x::public.wrapped).v", "(wrapped(a.x)).v",
                '(a.x::"Wrapped Twice").v', "((ROW(a.x)::around).inner_one).v", "((ARRAY[a.x]::wrapped[])[1]).v",
                "ROW(a.x)::int", "CAST(ROW(a.x) AS integer)",
            ):
                self.refused(f"SELECT a.x, e.name FROM a JOIN e ON a.x = e.x WHERE {cast} < 10", "it may answer anew")
            self.right("SELECT a.x, e.name FROM a JOIN e ON a.x = e.x WHERE a.x::text < '4' AND a.y::numeric > 2")
            # PostgreSQL would add this cast by itself.
            self.base.script("DROP CAST (int AS wrapped); CREATE CAST (int AS wrapped) WITH FUNCTION to_wrapped(int)"
                             " AS IMPLICIT")
            self.refused("SELECT a.x FROM a JOIN e ON a.x = e.x", "it may answer anew")
        finally:
            self.base.script("DROP TYPE wrapped CASCADE; DROP TYPE around")

    def test_the_time_of_the_statement(self) -> None:
        self.base.script(
            """
            CREATE OR REPLACE FUNCTION stmt() RETURNS timestamptz LANGUAGE sql STABLE AS 'SELECT statement_timestamp()';
            CREATE OR REPLACE FUNCTION below() RETURNS timestamptz LANGUAGE sql STABLE AS 'SELECT stmt()';
            CREATE OR REPLACE FUNCTION in_body() RETURNS timestamptz STABLE RETURN statement_timestamp();
            CREATE OR REPLACE FUNCTION kept() RETURNS timestamptz LANGUAGE sql STABLE AS 'SELECT now()';
            CREATE OR REPLACE FUNCTION at_work() RETURNS bigint LANGUAGE sql STABLE AS 'SELECT count(*) FROM
                pg_stat_activity';
        """
        )
        for called in ("stmt()", "public.stmt()", "below()", "in_body()"):
            self.refused(f"SELECT a.x FROM a JOIN e ON a.x = e.x WHERE {called} IS NOT NULL", "what goes on now")
        self.refused("SELECT a.x FROM a JOIN e ON a.x = e.x WHERE at_work() > 3", "it tells of what goes on")
        self.right("SELECT a.x FROM a JOIN e ON a.x = e.x WHERE kept() IS NOT NULL")

    def test_texts_of_two_collations(self) -> None:
        self.base.script('DROP TABLE IF EXISTS f; CREATE TABLE f (w TEXT COLLATE "C", v TEXT COLLATE "POSIX");'
                         " INSERT INTO f VALUES ('a', 'a')")
        text = "SELECT f.w FROM f, f AS g, e WHERE f.w = g.v AND e.name = 'n1'"
        ended = self.tried("run", "--budget", "9", text=text)
        self.assertEqual(ended.returncode, 12, ended.stderr)
        self.assertIn("which may come to rows that the query itself never reaches", ended.stderr)

    def test_operators_of_the_users_own(self) -> None:
        self.base.script(
            """
            DROP SCHEMA IF EXISTS mine CASCADE; CREATE SCHEMA mine;
            CREATE FUNCTION mine.never(int, int) RETURNS boolean LANGUAGE sql IMMUTABLE AS 'SELECT $1 <> $2';
            CREATE OPERATOR mine.= (FUNCTION = mine.never, LEFTARG = int, RIGHTARG = int);
            DROP TABLE IF EXISTS words; CREATE TABLE words (v VARCHAR(9)); INSERT INTO words VALUES ('a'), ('A'), ('b');
            CREATE OR REPLACE FUNCTION alike(varchar, varchar) RETURNS boolean LANGUAGE sql IMMUTABLE AS 'SELECT
                lower($1::text) = lower($2::text)';
            CREATE OPERATOR public.= (FUNCTION = alike, LEFTARG = varchar, RIGHTARG = varchar);
        """
        )
        try:
            text = "SELECT p.v FROM words p, words q WHERE p.v = q.v"
            planner, plan = self.planned(text)
            self.assertEqual(planner.query.equalities, [])
            self.assertEqual(self.never_under(planner, plan, text)[-1], 5)
            self.same_rows(planner, plan, text)
            planner.engine.connection.close()
        finally:
            self.base.script("DROP OPERATOR public.= (varchar, varchar)")
        url = self.base.url + ("&" if "?" in self.base.url else "?") + "options=-csearch_path%3Dmine,pg_catalog,public"
        ended = self.tried("plan", text="SELECT a.x FROM a, e WHERE a.x = e.x", db=url)
        self.assertEqual(ended.returncode, 5, ended.stderr)
        self.assertIn("mine", ended.stderr)

    def test_tables_without_snapshots(self) -> None:
        with tempfile.NamedTemporaryFile("w", suffix=".csv") as file:
            os.chmod(file.name, 0o644)
            self.base.script(
                f"""
                CREATE EXTENSION IF NOT EXISTS file_fdw; DROP SERVER IF EXISTS files CASCADE;
                CREATE SERVER files FOREIGN DATA WRAPPER file_fdw;
                CREATE FOREIGN TABLE lines (x INTEGER) SERVER files OPTIONS (filename '{file.name}', format 'csv');
                CREATE VIEW of_lines AS SELECT x FROM lines;
                CREATE TABLE parted (x INTEGER) PARTITION BY RANGE (x);
                CREATE FOREIGN TABLE part PARTITION OF parted FOR VALUES FROM (0) TO (9)
                SERVER files OPTIONS (filename '{file.name}');
            """
            )
            try:
                for table in ("lines", "of_lines", "parted"):
                    self.refused(
                        f"SELECT a.x FROM a, {table} f WHERE a.x = f.x", f"{table} at line 1, column 20", "file_fdw"
                    )
            finally:
                self.base.script("DROP SERVER files CASCADE; DROP TABLE parted; DROP EXTENSION file_fdw")

    def test_groups_by_a_primary_key(self) -> None:
        self.right(
            "SELECT e.x, e.name, count(*) FROM e, a WHERE e.x = a.x GROUP BY e.x ORDER BY e.more",
            (
                "SELECT e.x AS k, upper(name), count(*) FROM e JOIN a ON e.x = a.x GROUP BY k HAVING max(more) > 'a'"
                " ORDER BY 1"
            ),
            "SELECT e.x, name FROM e JOIN a ON e.x = a.x GROUP BY 1, y ORDER BY y",
        )

    def test_aggregates_within_a_group(self) -> None:
        self.right(
            "SELECT percentile_cont(0.5) WITHIN GROUP (ORDER BY y) AS half, e.name FROM a, e WHERE a.x = e.x GROUP BY"
            " e.name ORDER BY 2"
        )


class CornersOfSqlite(Corners):
    base_class = SqliteBase
    schema = """
    CREATE TABLE a (x INTEGER, d TEXT, y INTEGER);
    CREATE TABLE b (x INTEGER, "o]dd" INTEGER, z INTEGER);
    CREATE TABLE n (x INTEGER, d TEXT);
    INSERT INTO a VALUES (1, '2020-01-01', 1), (2, '2021-06-01', NULL), (3, '2022-01-01', 2);
    INSERT INTO b VALUES (1, 1, 5), (2, 2, 6), (3, 9, NULL);
    INSERT INTO n VALUES (1, 'now'), (2, '2020-01-01');
    CREATE VIEW today AS SELECT x FROM n WHERE date(d) < '2024-01-01';
    CREATE VIEW hidden AS SELECT x FROM a WHERE d < datetime("now");
    CREATE VIEW fixed AS SELECT x FROM a WHERE d < date('2021-01-01', '+1 year');
    """

    def test_dates(self) -> None:
        why = "may ask for the time"
        for condition in (
            'a.d < datetime("now")', "a.d < datetime('n'||'ow')", "a.d < date(coalesce(a.d, 'now'))",
            "a.d < [date](\"now\")", "a.x IN (SELECT x FROM n WHERE date(d) > '2000-01-01')",
        ):
            self.refused(f"SELECT a.x FROM a, b WHERE a.x = b.x AND {condition}", why)
        self.refused("SELECT n.x FROM n, b WHERE n.x = b.x AND date(n.d) < '2024-01-01'", why)
        self.refused("SELECT b.x FROM b, today WHERE b.x = today.x", "today at line 1", why)
        self.refused("SELECT b.x FROM b, hidden WHERE b.x = hidden.x", "hidden at line 1", why)
        self.right(
            "SELECT a.x FROM a, b WHERE a.x = b.x AND date(a.d, '+1 day') > date('2020-06-01') ORDER BY 1",
            "SELECT b.x FROM b, fixed WHERE b.x = fixed.x AND julianday(2459000.5) > 1 ORDER BY 1",
            "SELECT strftime('%Y', d) AS d FROM a JOIN b USING (x) ORDER BY d DESC",
        )

    def test_aliases_as_texts(self) -> None:
        self.refused(
            "SELECT a.y + 1 AS 'w' FROM a, b WHERE a.x = b.x AND w > 2", "w at line 1, column 53",
            "the name of an output",
        )
        self.right(
            "SELECT a.y + 1 AS 'w' FROM a, b WHERE a.x = b.x ORDER BY w",
            "SELECT 'q'.x AS 'one' FROM a AS 'q', b WHERE 'q'.x = b.x ORDER BY one",
        )

    def test_keywords_as_aliases(self) -> None:
        self.right(
            'SELECT 1, "order".x FROM b AS "order" ORDER BY 2', 'SELECT "by".x FROM b AS "by" ORDER BY "by".x',
            'SELECT "desc".x, a.y FROM b AS "desc" JOIN a ON a.x = "desc".x ORDER BY 1 DESC',
        )

    def test_comments_at_the_end(self) -> None:
        for end in ("; -- done", ";;", " /* not closed", "; /* not closed", " -- done"):
            for text in ("SELECT a.x FROM a JOIN b ON a.x = b.x", "SELECT a.x FROM a LEFT JOIN b ON a.x = b.x"):
                ended = self.tried("run", "--budget", "9", text=text + end)
                self.assertEqual((ended.returncode, ended.stdout), (0, "x\n1\n2\n3\n"), ended.stderr)

    def test_brackets_in_names(self) -> None:
        self.right('SELECT "o]dd" FROM a, b WHERE a.x = b.x AND b."o]dd" < 9 ORDER BY 1')
        self.refused('SELECT b.z FROM b WHERE z IN (SELECT y + 4 FROM a WHERE y = "o]dd")', "the subquery")

    def test_outputs_that_end_in_words(self) -> None:
        self.right(
            "SELECT a.y IS NULL, b.z FROM a, b WHERE a.x = b.x AND b.z IS NOT NULL ORDER BY 1, 2",
            (
                "SELECT CASE WHEN a.y > 1 THEN 1 END, a.x IS TRUE FROM a, b WHERE a.x = b.x AND CASE b.z WHEN 5 THEN 1"
                " END IS NULL ORDER BY 1"
            ),
            (
                "SELECT a.x NOT NULL, b.z ISNULL FROM a, b WHERE a.x = b.x AND a.y NOT NULL AND (b.z ISNULL) = FALSE"
                " ORDER BY 1"
            ),
        )

    def test_an_unknown_collation(self) -> None:
        self.base.connection.create_collation("mine", lambda one, other: (one > other) - (one < other))
        self.base.script(
            "DROP TABLE IF EXISTS k; CREATE TABLE k (x INTEGER, t TEXT COLLATE mine); INSERT INTO k VALUES (1, 'a')"
        )
        self.right("SELECT a.x FROM a, k WHERE a.x = k.x ORDER BY 1")
        self.base.script("DROP TABLE k")


class Texts(Corners):
    schema = "CREATE TABLE a (x INTEGER, t TEXT); CREATE TABLE b (x INTEGER)"

    @classmethod
    def fill(cls) -> None:
        cls.base.fill("a", [(1, "one\r\ntwo"), (2, "one\ntwo")])
        cls.base.fill("b", [(1,), (2,)])

    def test_line_ends_stay(self) -> None:
        """A line end within a text is unchanged."""
        text = "SELECT a.x\r\nFROM a, b\r\nWHERE a.x = b.x AND t = 'one\r\ntwo'\r\n"
        with tempfile.NamedTemporaryFile("wb", suffix=".sql") as file:
            file.write(b"\xef\xbb\xbf" + text.encode())
            file.flush()
            for words, given in (([file.name], None), (["-"], text.encode())):
                ended = subprocess.run(
                    [PROGRAM, "run", "--db", self.base.url, "--budget", "9", *words], input=given, capture_output=True
                )
                self.assertEqual((ended.returncode, ended.stdout), (0, b"x\n1\n"), ended.stderr)


for test in (Names, ViewsThatChoose, Texts):
    globals()[test.__name__ + "OnPostgres"] = on_postgres(test)
del test
del Corners

if __name__ == "__main__":
    unittest.main()
