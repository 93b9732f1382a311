"""Tests refusals: the message names the unsupported part and its place, and no statement is run for it."""

from __future__ import annotations

import unittest

from bases import POSTGRES, OnEachEngine, PostgresBase, SqliteBase, on_postgres
from safebound_sql.faults import EngineFault, Refused


class Refusing(OnEachEngine):
    def refused(self, text: str, *words: str, fault: type[Exception] = Refused) -> None:
        with self.subTest(text), self.assertRaises(fault) as raised:
            self.planner_for(text)
        for word in words:
            self.assertIn(word, str(raised.exception))


class Refusals(Refusing):
    schema = """
    CREATE TABLE a (x INTEGER, y INTEGER, t TEXT);
    CREATE TABLE b (x INTEGER, z INTEGER, t TEXT);
    CREATE VIEW low AS SELECT * FROM a WHERE x < 3;
    CREATE VIEW lower_still AS SELECT * FROM low;
    CREATE VIEW pale AS SELECT * FROM a WHERE random() < 1;
    CREATE VIEW paler_still AS SELECT * FROM pale;
    """

    def test_joins(self) -> None:
        self.refused("SELECT 1 FROM a LEFT JOIN b ON a.x = b.x", "LEFT JOIN", "line 1, column 17")
        self.refused("SELECT 1\nFROM a\n  FULL OUTER JOIN b ON a.x = b.x", "FULL JOIN", "line 3, column 3")
        self.refused("SELECT 1 FROM a RIGHT JOIN b USING (x)", "RIGHT JOIN", "line 1, column 17")
        self.refused("SELECT 1 FROM a NATURAL JOIN b", "NATURAL JOIN", "line 1, column 17")
        self.refused("SELECT 1 FROM a JOIN b USING (z)", "z at line 1, column 31")

    def test_whole_queries(self) -> None:
        self.refused("SELECT x FROM a UNION SELECT x FROM b", "UNION", "line 1, column 17")
        self.refused("SELECT x FROM a WHERE x = 1 EXCEPT SELECT x FROM b", "EXCEPT", "line 1, column 29")
        self.refused("SELECT x FROM a ORDER BY x INTERSECT SELECT x FROM b", "INTERSECT", "line 1, column 28")
        self.refused("WITH q AS (SELECT x FROM a) SELECT x FROM q", "WITH", "line 1, column 1")
        self.refused("DELETE FROM a", "DELETE", "line 1, column 1")
        self.refused("SELECT x FROM a; DELETE FROM a", "a second statement", "line 1, column 16")
        self.refused("SELECT 1", "too early")
        self.refused("", "too early")
        self.refused("SELECT x FROM a WHERE x = $1", "'$' at line 1, column 27")

    def test_sources(self) -> None:
        self.refused("SELECT 1 FROM a, (SELECT x FROM b) c", "a subquery", "line 1, column 18")
        self.refused("SELECT 1 FROM a, LATERAL (SELECT a.x) c", "LATERAL", "line 1, column 18")
        self.refused("SELECT 1 FROM a, generate_series(1, 3) g", "generate_series(", "line 1, column 33")
        self.refused("SELECT 1 FROM a, nowhere", "nowhere", "line 1, column 18", "no such table")
        self.refused("SELECT 1 FROM a JOIN a ON 1 = 1", "line 1, column 22", "two entries have this alias")
        many = ", ".join(f"a AS a{n}" for n in range(17))
        self.refused(f"SELECT 1 FROM {many}", "a16 at line 1, column", "at most 16")

    def test_forms_of_joins(self) -> None:
        self.refused(
            "SELECT 1 FROM (a JOIN b ON a.x = b.x) AS j", "AS at line 1, column 39", "an alias of joined tables"
        )
        self.refused(
            "SELECT 1 FROM a JOIN (b CROSS JOIN low) USING (x)", "USING at line 1, column 47", "write it out with ON"
        )
        self.refused("SELECT 1 FROM (a JOIN b ON a.x = b.x", "too early: a parenthesis of FROM isn't closed")
        self.refused("SELECT 1 FROM a, (VALUES (1)) AS v", "a subquery", "line 1, column 18")

    def test_texts_that_arent_whole(self) -> None:
        self.refused("SELECT x FROM a WHERE x = 1 AND AND y = 2", "a condition is missing")
        self.refused("SELECT x FROM a WHERE t = 'b", "at line 1, column 27 begins nothing that is known, or never ends")

    def test_subqueries(self) -> None:
        self.refused(
            "SELECT 1 FROM a, b WHERE EXISTS (SELECT 1 FROM b AS c WHERE c.x = a.x)",
            "the subquery at line 1, column 33",
        )
        self.refused("SELECT 1 FROM a WHERE x IN (SELECT z FROM b WHERE z = y)", "the subquery at line 1, column 28")
        self.refused('SELECT 1 FROM a WHERE x IN (SELECT z FROM b WHERE z = "y")', "the subquery at line 1, column 28")
        self.refused("SELECT (SELECT max(z) FROM b WHERE b.x = a.x) FROM a", "the subquery at line 1, column 8")
        self.refused("SELECT 1 FROM a WHERE x IN (SELECT x FROM b LIMIT 1)", "LIMIT of a subquery at line 1, column 45")
        self.planner_for("SELECT 1 FROM a WHERE x IN (SELECT z FROM b WHERE z = 1) AND y = (SELECT max(x) FROM b)")

    def test_what_the_engine_says(self) -> None:
        self.refused("SELECT a.q FROM a", "q", fault=EngineFault)
        self.refused("SELECT x FROM a, b", "ambiguous", fault=EngineFault)
        if self.base.engine == "postgres":
            self.refused("SELECT a.x FROM a WHERE a.x =", "syntax", fault=EngineFault)
        self.refused("SELECT a.x FROM a WHERE nosuch(a.x) = 1", "nosuch", fault=EngineFault)

    def test_random(self) -> None:
        self.refused("SELECT x FROM a WHERE random() < 1", "random at line 1, column 23", "anew")
        self.refused("SELECT random() FROM a", "random at line 1, column 8")
        self.refused("SELECT x FROM a WHERE x IN (SELECT z FROM b WHERE random() < 1)", "random at line 1, column 51")
        self.planner_for("SELECT lower(t), abs(x) FROM a WHERE coalesce(x, 1) = 1 AND length(t) > 0")

    def test_views(self) -> None:
        self.planner_for("SELECT x FROM lower_still")
        self.refused("SELECT 1 FROM b, pale", "pale at line 1, column 18", "random")
        self.refused("SELECT 1 FROM paler_still", "paler_still at line 1, column 15", "random")
        self.refused(
            "SELECT 1 FROM b WHERE x IN (SELECT x FROM paler_still)", "paler_still at line 1, column 43", "random"
        )


@unittest.skipUnless(POSTGRES, "no PostgreSQL")
class RefusalsOfPostgres(Refusing):
    base_class = PostgresBase
    schema = """
    CREATE TABLE a (x INTEGER, y INTEGER);
    CREATE FUNCTION mine(INTEGER) RETURNS INTEGER LANGUAGE sql AS 'SELECT $1';
    CREATE FUNCTION calm(INTEGER) RETURNS INTEGER LANGUAGE sql IMMUTABLE AS 'SELECT $1';
    """

    def test_functions(self) -> None:
        self.refused("SELECT 1 FROM a WHERE mine(x) = 1", "mine at line 1, column 23")
        self.refused('SELECT 1 FROM a WHERE public."mine"(x) = 1', '"mine" at line 1, column 30')
        self.refused("SELECT 1 FROM a WHERE clock_timestamp() > '2020-01-01'", "clock_timestamp")
        self.refused(
            "SELECT 1 FROM a WHERE statement_timestamp() > '2020-01-01'", "statement_timestamp at line 1, column 23"
        )
        self.planner_for("SELECT now(), current_date FROM a WHERE calm(x) = 1")

    def test_forms(self) -> None:
        self.refused("SELECT x FROM a /* b", "the comment at line 1, column 17 never ends")
        self.refused("SELECT 1 FROM ONLY a", "ONLY at line 1, column 15")
        self.refused(
            "SELECT 1 FROM a JOIN a b JOIN a c ON b.x = c.x ON a.x = b.x",
            "JOIN at line 1, column 26: each JOIN has its ON",
        )
        self.refused("SELECT 1 FROM a TABLESAMPLE SYSTEM (10)", "TABLESAMPLE at line 1, column 17")
        self.refused("SELECT 1 FROM a AS q (p, q)", "q( at line 1")
        self.refused("SELECT 1 FROM a FOR UPDATE", "FOR at line 1, column 17")
        self.refused("SELECT x INTO c FROM a", "INTO at line 1, column 10")
        self.refused("SELECT count(a) FROM a", "a at line 1, column 14", "a whole row")
        self.refused("SELECT count(a.*) FROM a", "a star stands alone")
        self.planner_for("SELECT public.a.x FROM a WHERE public.a.y = 1 ORDER BY public.a.x")


class RefusalsOfSqlite(Refusing):
    base_class = SqliteBase
    schema = "CREATE TABLE a (x INTEGER, y INTEGER, d TEXT); CREATE TABLE b (x INTEGER)"

    def test_time(self) -> None:
        self.refused("SELECT 1 FROM a WHERE d > date('now', '-1 day')", "date at line 1, column 27")
        self.refused("SELECT 1 FROM a WHERE d > datetime()", "datetime at line 1, column 27")
        self.refused("SELECT 1 FROM a WHERE strftime('%Y') > d", "strftime at line 1, column 23")
        self.refused("SELECT 1 FROM a WHERE d > current_timestamp", "current_timestamp at line 1, column 27")
        self.planner_for("SELECT 1 FROM a WHERE strftime('%Y', d) > '2020' AND date(d) < '2021-01-01'")

    def test_names_of_outputs(self) -> None:
        self.refused("SELECT a.x + 1 AS s FROM a WHERE s > 3", "s at line 1, column 34", "the name of an output")
        self.refused('SELECT b.x AS s FROM a, b WHERE a.d = "s"', '"s" at line 1, column 39')
        self.planner_for("SELECT a.x + 1 AS s FROM a GROUP BY s HAVING s > 1 ORDER BY s")

    def test_forms(self) -> None:
        self.refused("SELECT 1 FROM a INDEXED BY i", "INDEXED at line 1, column 17")
        self.refused("SELECT x FROM a WHERE x = ?", "'?' at line 1, column 27")
        self.refused("SELECT x FROM a WHERE x = :y", "':' at line 1, column 27")


RefusalsOnPostgres = on_postgres(Refusals)

if __name__ == "__main__":
    unittest.main()
