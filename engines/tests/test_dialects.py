"""Tests engines that can't be reached: sqlglot parses each text in its dialect, and another engine runs it.

SQLite understands the SQL of all five dialects, except for settings and CREATE OR REPLACE TEMPORARY TABLE. PostgreSQL
understands that of Trino and DuckDB. So these two engines run the counting statement and the planned SQL over random
tables.
"""

from __future__ import annotations

import json
import os
import re
import subprocess
import tempfile
import unittest

import sqlglot
from sqlglot import exp

import random_outputs
from bases import COUNTED, OnEachEngine, counted, on_postgres
from process import PROGRAM
from random_outputs import QueriesOfNamedOutputs
from random_queries import NAMED, QUERIES, TABLES, Randomly, RandomQuery, in_tens
from safebound_sql.counting import Counts, counts_of
from safebound_sql.faults import Refused
from safebound_sql.levels import MOST_BUDGET, entries_of
from safebound_sql.planner import Planner
from safebound_sql.query import Row
from safebound_sql.unreached import DIALECTS, SchemaFile, unreached

# Each query is asked in all five dialects.
MOST = 60
TAKEN_BY_POSTGRES = ("trino", "duckdb")

SCHEMA = """
CREATE TABLE a (x INTEGER PRIMARY KEY, y BIGINT, t VARCHAR(9), f DOUBLE, n DECIMAL(6, 2) NOT NULL,
    CONSTRAINT c CHECK (x < 9));
CREATE TABLE IF NOT EXISTS b (x SMALLINT, z INTEGER, t VARCHAR, f DOUBLE, n DECIMAL(6, 2), o DECIMAL(9, 4));
    -- the third
CREATE TABLE s.c (x INTEGER, t VARCHAR(3) COLLATE nocase, d DATE) WITH (format = 'ORC')
"""
JOINED = "SELECT a.y, b.z FROM a JOIN b ON a.x = b.x WHERE a.y > 1"


def statements(script: str) -> list[str]:
    """The statements of a script. No text in it may have a line that ends in a semicolon."""
    return [statement for statement in re.split(r";(?:\n|\Z)", script) if statement.strip()]


def parsed(script: str, dialect: str) -> list[exp.Expression]:
    """The script as sqlglot reads it. MATERIALIZED is left out, since sqlglot doesn't know it."""
    return [sqlglot.parse_one(text.replace(" AS MATERIALIZED (", " AS ("), read=dialect) for text in statements(script)]


class Dialects(OnEachEngine):
    """Methods for tests of each dialect, over an SQLite database."""

    def planner(self, dialect: str, text: str, schema: str = SCHEMA, reduce: bool = True) -> Planner:
        return Planner(unreached(dialect, schema), text, reduce)

    def run_script(self, script: str) -> list[Row]:
        """The rows of a script's last statement."""
        *before, last = statements(script)
        for statement in before:
            made = re.match(r"CREATE OR REPLACE TEMPORARY TABLE (\w+) AS\n", statement)
            if made:
                self.base.script(
                    f"DROP TABLE IF EXISTS temp.{made[1]}; CREATE TEMPORARY TABLE {made[1]} AS {statement[made.end():]}"
                )
        rows: list[Row] = self.base.rows(last)
        return rows


@in_tens(min(QUERIES, MOST))
class RandomDialects(Dialects):
    def ask(self, numbers: range) -> None:
        joined = 0
        for number in numbers:
            randomly = Randomly(number, self.base.engine)
            if number == numbers[0]:
                # In SQLite a table made from a query loses its collations; in the other engines it keeps them.
                schema = randomly.schema().replace(" COLLATE NOCASE", "")
                self.base.script(schema)
                for table in range(TABLES):
                    self.base.fill(f"t{table}", randomly.rows())
            found = randomly.query()
            for dialect in DIALECTS if self.base.engine == "sqlite" else TAKEN_BY_POSTGRES:
                with self.subTest(number=number, query=found.text, dialect=dialect):
                    joined += self.check(dialect, randomly, re.sub(r"DROP TABLE IF EXISTS \w+;", "", schema), found)
                    COUNTED[f"random queries answered in {dialect} on {self.base.engine}"] += 1
        self.assertGreater(joined, len(numbers) // 2)

    def check(self, dialect: str, randomly: Randomly, schema: str, found: RandomQuery) -> bool:
        """Checks one query on one engine. Returns whether bounds could use an equality."""
        choose = randomly.random.choice
        planner = self.planner(dialect, found.text, schema, choose((True, True, False)))
        parsed(planner.counting, dialect)
        counts = counts_of(planner.query, self.run_script(planner.counting))
        plan = planner.planned(counts, choose((1, 8)), MOST_BUDGET, choose((False, False, True)))
        for level in plan.levels:
            some = {planner.query.entries[entry].name.lower() for entry in entries_of(level.shape)}
            if not planner.reduce or len(some) == len(found.entries):
                self.assertLessEqual(self.base.rows(found.count_of(some))[0][0], level.bound)
        script = planner.script(plan)
        parsed(script, dialect)
        self.assertEqual(counted(self.run_script(script)), counted(self.base.rows(found.text)), script)
        return bool(planner.query.equalities)


@in_tens(min(NAMED, MOST // 3))
class RandomOutputsInDialects(Dialects):
    """Outputs named like columns, over USING. The script's rows are the query's, in its order."""

    def ask(self, numbers: range) -> None:
        for number in numbers:
            randomly = QueriesOfNamedOutputs(number, "sqlite")
            if number == numbers[0]:
                schema = re.sub("REAL|NUMERIC", "INTEGER", randomly.schema())
                self.base.script(schema)
                for table in range(random_outputs.TABLES):
                    self.base.fill(f"u{table}", randomly.rows())
            text = randomly.query().replace("offset", "total")
            for dialect in DIALECTS:
                with self.subTest(number=number, query=text, dialect=dialect):
                    planner = self.planner(
                        dialect, text, re.sub(r"DROP TABLE IF EXISTS \w+;", "", schema), randomly.random.random() < 0.6
                    )
                    counts = counts_of(planner.query, self.run_script(planner.counting))
                    script = planner.script(planner.planned(counts, 1, MOST_BUDGET, randomly.random.random() < 0.4))
                    parsed(script, dialect)
                    self.assertEqual(self.run_script(script), self.base.rows(text), script)


RandomDialectsOnPostgres = on_postgres(RandomDialects)


class Written(Dialects):
    """Compares the written SQL with what each engine needs."""

    def test_the_way_to_keep_the_order(self) -> None:
        words = {
            "spark": "SET spark.sql.cbo.joinReorder.enabled = false;\nSET spark.sql.cbo.starSchemaDetection = false;\n",
            "trino": "SET SESSION join_reordering_strategy = 'NONE';\n",
            "duckdb": "SET disabled_optimizers = 'join_order';\n",
            "snowflake": "CREATE OR REPLACE TEMPORARY TABLE safebound_",
            "bigquery": "CREATE OR REPLACE TEMPORARY TABLE safebound_",
        }
        text = "SELECT a.y FROM a, b, s.c AS c WHERE a.x = b.x AND b.z = c.x"
        for dialect in DIALECTS:
            planner = self.planner(dialect, text)
            plan = planner.planned(self.some_counts(planner), 1, MOST_BUDGET, False)
            script = planner.script(plan)
            self.assertTrue(script.startswith(words[dialect]), script)
            last = parsed(script, dialect)[-1]
            joins = [
                table.alias or table.name
                for table in last.args["from"].expressions + [join.this for join in last.args["joins"]]
            ]
            order = [planner.query.entries[entry].alias for entry in entries_of(plan.shape)]
            if planner.engine.dialect.makes_tables:
                self.assertEqual(joins[1:], order[2:])
                self.assertTrue(joins[0].startswith("safebound_"), joins)
            else:
                self.assertEqual(joins, order)

    def some_counts(self, planner: Planner) -> Counts:
        """Counts for which the best order joins the entries from the last to the first."""
        rows = []
        for entry in planner.query.entries:
            many = 10 - entry.number
            rows.append((entry.name, "", many, 1))
            rows += [(entry.name, column.name, 1, many) for column in planner.query.joined_columns(entry.number)]
        return counts_of(planner.query, rows)

    def test_parts_that_would_be_computed_too_often(self) -> None:
        """If the engine doesn't keep parts, a statement that would read a table more than 100 times counts only under
        own conditions.
        """
        text = (
            "SELECT 1 FROM a AS e1, a AS e2, a AS e3, a AS e4, a AS e5 WHERE e1.y = e2.y AND e2.y = e3.y AND e3.y ="
            " e4.y AND e4.y = e5.y"
        )
        for dialect in DIALECTS:
            planner = self.planner(dialect, text)
            self.assertEqual(planner.reduce, dialect not in ("spark", "trino"))
            self.assertEqual("--no-reduce" in (planner.note or ""), dialect in ("spark", "trino"))
            self.assertEqual(" IN (SELECT " in planner.counting, planner.reduce)
            self.assertTrue(self.planner(dialect, JOINED).reduce)

    def test_materialized_where_it_is_known(self) -> None:
        for dialect in DIALECTS:
            self.assertEqual("MATERIALIZED" in self.planner(dialect, JOINED).counting, dialect == "duckdb")

    def test_several_columns_meet(self) -> None:
        text = "SELECT 1 FROM a JOIN b ON a.x = b.x AND a.y = b.z"
        for dialect in DIALECTS:
            statement = self.planner(dialect, text).counting
            self.assertNotIn(") IN (", statement)
            [exists, *_] = [found for tree in parsed(statement, dialect) for found in tree.find_all(exp.Exists)]
            self.assertEqual(len(list(exists.find_all(exp.EQ))), 2)

    def test_conditions_keep_their_characters(self) -> None:
        text = "SELECT a.y FROM a JOIN b ON a.x = b.x WHERE a.t = 'it''s  --' AND  a.y  <>  0x1F AND a.y NOT IN (1,2)"
        for dialect in DIALECTS:
            planner = self.planner(dialect, text)
            own = [str(part) for part in planner.query.entries[0].own]
            self.assertEqual(own, ["a.t = 'it''s  --'", "a.y <> 0x1F", "a.y NOT IN (1,2)"])
            self.assertIn("a.t = 'it''s  --' AND a.y <> 0x1F", planner.counting)

    def test_names_are_found_as_the_engine_does(self) -> None:
        text = 'SELECT A."x" FROM "A" JOIN b ON "A".X = B.x'
        for dialect in DIALECTS:
            mark = DIALECTS[dialect].quotes
            asked = text.replace('"', mark)
            if dialect in ("snowflake", "bigquery"):
                with self.assertRaises(Refused):  # "x" isn't X in the one, and `A` isn't the table a in the other
                    self.planner(dialect, asked)
            else:
                self.assertEqual(len(self.planner(dialect, asked).query.equalities), 1)
        self.assertIn('"X"', self.planner("snowflake", JOINED).counting)


class Edges(Dialects):
    def equalities(self, dialect: str, condition: str) -> int:
        return len(self.planner(dialect, f"SELECT 1 FROM a, b, s.c AS c WHERE {condition}").query.equalities)

    def test_which_columns_meet(self) -> None:
        for dialect in DIALECTS:
            for condition in ("a.x = b.x", "a.y = b.z", "a.t = b.t", "a.n = b.n", "b.z = c.x AND a.x = c.x"):
                self.assertGreater(self.equalities(dialect, condition), 0, condition)
            for condition in (
                "a.f = b.f", "a.n = b.o", "a.x = b.t", "a.t = c.t", "a.x = b.n", "a.x < b.x", "NOT a.x = b.x",
                "(a.x = b.x OR a.y = 1)", "a.x = b.x + 0", "c.d = a.t",
            ):
                self.assertEqual(self.equalities(dialect, condition), 0, condition)

    def test_a_collation_of_a_whole_table(self) -> None:
        for tail, edges in (("", 1), (" DEFAULT COLLATE 'und:ci'", 0), (" DEFAULT_DDL_COLLATION = 'en-ci'", 0)):
            schema = f"CREATE TABLE p (t VARCHAR(3)); CREATE TABLE q (t VARCHAR(3)){tail};"
            for dialect in DIALECTS:
                query = self.planner(dialect, "SELECT 1 FROM p, q WHERE p.t = q.t", schema).query
                self.assertEqual(len(query.equalities), edges, dialect)


class RefusedByDialects(Dialects):
    def refused(self, dialect: str, text: str, *words: str) -> None:
        with self.subTest(dialect, text=text):
            with self.assertRaises(Refused) as raised:
                self.planner(dialect, text)
            for word in words:
                self.assertIn(word, str(raised.exception))

    def test_joins_that_arent_inner(self) -> None:
        for dialect in DIALECTS:
            for word in ("ANTI", "SEMI", "ASOF", "POSITIONAL", "DIRECTED"):
                self.refused(dialect, f"SELECT 1 FROM a {word} JOIN b ON y = z", f"{word} at line 1, column 17")
            self.refused(dialect, "SELECT 1 FROM a LEFT JOIN b ON a.x = b.x", "LEFT JOIN")
            self.refused(dialect, "SELECT 1 FROM a AS s, s.c AS c WHERE s.x = c.x", "a schema too")
            self.refused(dialect, "SELECT 1 FROM a LATERAL VIEW explode(a.t) e AS q")

    def test_what_isnt_there(self) -> None:
        for dialect in DIALECTS:
            self.refused(dialect, "SELECT q.* FROM a", "q at line 1, column 8", "no entry of FROM is called so")
            self.refused(dialect, "SELECT a.q FROM a", "a.q at line 1, column 8", "the table has no such column")
            self.refused(
                dialect, "SELECT a.x FROM a WHERE a.x = = 1",
                f"isn't read as {DIALECTS[dialect].title}'s SQL by sqlglot",
            )

    def test_rows_that_are_chosen(self) -> None:
        for dialect in DIALECTS:
            for tail in (
                "QUALIFY row_number() OVER (ORDER BY a.x) = 1", "USING SAMPLE 5", "SORT BY a.x", "START WITH x = 1",
                "MINUS SELECT 1 FROM b",
            ):
                self.refused(dialect, f"SELECT 1 FROM a WHERE a.x > 1 {tail}", tail.split()[0 if tail[0] != "U" else 1])
            for text in (
                "SELECT TOP 5 a.x FROM a", "SELECT 1 FROM a SAMPLE (5)", "SELECT 1 FROM a TABLESAMPLE (5 PERCENT)",
                "SELECT * EXCEPT (x) FROM a", "SELECT a.* EXCLUDE (x) FROM a", "SELECT * FROM a JOIN b USING (x)",
            ):
                self.refused(dialect, text)

    def test_what_may_answer_anew(self) -> None:
        for dialect in DIALECTS:
            for name in ("rand()", "random()", "uuid()", "my_function(a.x)", "now()", "current_timestamp", "s.f(a.x)"):
                self.refused(dialect, f"SELECT 1 FROM a WHERE {name} = a.x", "alike at each call")
            self.refused(dialect, "SELECT 1 FROM s.c AS c WHERE c.d = DATE 'today'", "the time")
            self.refused(dialect, "SELECT 1 FROM s.c AS c WHERE c.d = CAST('now' AS DATE)", "the time")
            self.planner(dialect, "SELECT max(a.x), count(*) FROM a WHERE lower(a.t) = 'today' AND a.x IN (1, 2)")

    def test_subqueries(self) -> None:
        for dialect in DIALECTS:
            for inner in (
                "SELECT b.x FROM b WHERE b.x = a.y", "SELECT b.x FROM b WHERE z = y", "SELECT q.x FROM q",
                "SELECT b.x FROM b LIMIT 1", "SELECT x FROM b WHERE z IN (SELECT y FROM a)",
            ):
                self.refused(dialect, f"SELECT 1 FROM a WHERE a.x IN ({inner})", "subquery")
            self.planner(
                dialect,
                "SELECT 1 FROM a WHERE a.x IN (SELECT max(q.x) FROM b AS q WHERE z > 1 AND t LIKE 'a%' GROUP BY q.z)",
            )

    def test_texts_that_engines_read_in_their_own_ways(self) -> None:
        for dialect in DIALECTS:
            for text in (
                r"'a\' OR 1 = 1 --'", r"r'a'", "b'a'", "'''a'''", "$$a$$", "/* /* */ */ 1", ":a", "?", "@a", "{a}",
            ):
                self.refused(dialect, f"SELECT 1 FROM a WHERE a.t = {text}")
        self.planner("spark", "SELECT 1 FROM a WHERE a.t = \"it's\" AND a.x < 1L")
        self.refused("trino", "SELECT 1 FROM a WHERE a.x < 1L", "begins nothing")
        self.planner("bigquery", "SELECT 1 FROM a # all of it\nWHERE a.x < 1")
        self.planner("snowflake", "SELECT 1 FROM a // all of it\nWHERE a.x < 1")

    def test_schema_files(self) -> None:
        for schema, words in (
            ("CREATE VIEW v AS SELECT 1", "CREATE at line 1, column 1 of the schema file"),
            ("CREATE TABLE a (x INTEGER); CREATE TABLE A (y INTEGER)", "declared twice"),
            ("CREATE TABLE a (x INTEGER, X BIGINT)", "declared twice"),
            ("CREATE TABLE a AS SELECT 1", "columns in parentheses"),
            ("CREATE TABLE a (x)", "a name and a type"),
            ("CREATE TABLE a (LIKE b)", "a name and a type"),
            ("CREATE TABLE a (x INTEGER", "columns in parentheses"),
            ("DROP TABLE a", "CREATE TABLE and nothing else"),
        ):
            with self.subTest(schema), self.assertRaises(Refused) as raised:
                unreached("trino", schema)
            self.assertIn(words, str(raised.exception))
        with self.assertRaises(Refused) as raised:
            self.planner("trino", "SELECT 1 FROM nowhere")
        self.assertIn("nowhere", str(raised.exception))
        nested = unreached(
            "bigquery", "CREATE OR REPLACE TABLE a (x INT64 NOT NULL, s ARRAY<STRUCT<p INT64, q STRING>>, t STRING)"
        )
        assert isinstance(nested.catalog, SchemaFile)
        self.assertEqual([column.name for column in nested.catalog.tables[("a",)].columns], ["x", "s", "t"])


class DialectCommands(unittest.TestCase):
    def setUp(self) -> None:
        folder = tempfile.TemporaryDirectory()
        self.addCleanup(folder.cleanup)
        self.schema, self.counts = os.path.join(folder.name, "schema.sql"), os.path.join(folder.name, "counts.csv")
        with open(self.schema, "w") as out:
            out.write(SCHEMA)
        with open(self.counts, "w") as out:
            out.write("entry,column,degree,keys\na,,3,1\na,x,1,3\nb,,5,1\nb,x,4,1\nb,x,1,1\n")

    def done(self, *words: str, status: int = 0) -> str:
        ended = subprocess.run([PROGRAM, *words, "-"], input=JOINED, text=True, capture_output=True, timeout=600)
        self.assertEqual(ended.returncode, status, ended.stderr)
        return ended.stderr if status else ended.stdout

    def test_from_counts_to_a_script(self) -> None:
        given = ("--dialect", "trino", "--schema", self.schema)
        self.assertIn('COUNT(a."x")', self.done("counts", *given))
        script = self.done("sql", "--counts", self.counts, *given)
        shown = self.done("plan", "--counts", self.counts, *given)
        table = [line for line in shown.splitlines() if line.startswith("-- ")]
        self.assertEqual(table[0].split()[1:], ["level", "joined", "of", "scan", "bound"])
        self.assertEqual([line.split()[-1] for line in table[1:3]], ["3", "5"])
        self.assertEqual(shown, "".join(f"{line}\n" for line in table) + script)
        told = json.loads(self.done("plan", "--json", "--counts", self.counts, *given))
        self.assertEqual(f"{told['setting']};\n{told['sql']};\n", script)
        self.done("plan", "--budget", "4", "--counts", self.counts, *given, status=8)

    def test_words(self) -> None:
        self.assertIn("--schema", self.done("counts", "--dialect", "spark", status=2))
        self.assertIn("--counts", self.done("plan", "--dialect", "spark", "--schema", self.schema, status=2))
        self.assertIn("--db or --dialect", self.done("counts", status=2))
        self.assertIn("--db or --dialect", self.done("plan", "--db", "sqlite:x", "--dialect", "spark", status=2))
        self.assertIn("oracle", self.done("counts", "--dialect", "oracle", "--schema", self.schema, status=2))
        self.done("run", "--budget", "3", "--dialect", "spark", "--schema", self.schema, status=2)
        self.done("counts", "--dialect", "spark", "--schema", "/nowhere.sql", status=3)


if __name__ == "__main__":
    unittest.main()
