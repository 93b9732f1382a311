"""Tests conditions of every kind. Conditions on one entry are tested first, the others in the join; texts are
unchanged.
"""

from __future__ import annotations

import unittest

from bases import POSTGRES, OnEachEngine, PostgresBase, SqliteBase, on_postgres

TEXTS = ("it's", "x\\", "AND", "a = b OR", "", "--", "/*", None, "Zürich")


class Conditioned(OnEachEngine):
    schema = """
    CREATE TABLE a (x INTEGER, "Odd ""name" INTEGER, t TEXT, d DATE);
    CREATE TABLE b (x INTEGER, y INTEGER, u TEXT, d DATE, date DATE);
    """

    @classmethod
    def fill(cls) -> None:
        cls.base.fill("a", [(n % 5, n, TEXTS[n % 9], f"2020-01-{n + 1:02}") for n in range(18)])
        cls.base.fill("b", [(n % 4, n, TEXTS[n % 5], f"2020-02-{n + 1:02}", f"2020-01-{n + 1:02}") for n in range(12)])

    def conditions(self, *conditions: tuple[str, int]) -> None:
        """Checks the rows of a join under each condition. The number beside it says how many of its conjuncts are on a
        single entry.
        """
        for condition, own in conditions:
            text = f"SELECT a.x, b.u, a.d FROM a JOIN b ON a.x = b.x WHERE {condition} ORDER BY 1, 2, 3"
            for reduce in (True, False):
                with self.subTest(condition, reduce=reduce):
                    planner, plan = self.planned(text, reduce)
                    self.assertEqual(sum(len(entry.own) for entry in planner.query.entries), own)
                    self.never_under(planner, plan, text)
                    self.same_rows(planner, plan, text)


class Conditions(Conditioned):
    def test_texts(self) -> None:
        self.conditions(
            ("t = 'it''s' AND u = 'AND'", 2),
            (r"t = 'x\' AND u <> 'a = b OR'", 2),
            ("t = '--' /* t = 'x' */ AND 1 = 1", 1),
            ("t = 'Zürich' -- OR y = 1\n AND y > 1", 2),
            ("t LIKE '%''%' OR t = '/*'", 1),
        )

    def test_names(self) -> None:
        self.conditions(
            ('"Odd ""name" BETWEEN 2 AND 9 AND y > 1', 2),
            ('"Odd ""name" < y', 0),
            ("a.d < b.date", 0),
            ("CAST(a.d AS date) > '2020-01-05'", 1),
            ("A.T = 'AND' AND \"y\" = 2", 2),
        )

    def test_what_belongs_together(self) -> None:
        self.conditions(
            ("a.t IS NULL AND (u IS NOT NULL)", 2),
            ("NOT (t = 'AND' OR t = '')", 1),
            ("a.x = 1 OR(t = 'AND')OR t = ''", 1),
            ("(a.x = 1 or(t = 'AND')) AND a.x > 0 AND (y = 1 OR(b.u = 'AND')or a.x = y) AND y > 0", 3),
            ("a.x + 1 = y OR t = u AND y < 5", 0),
            ("((a.x = 1 AND (b.y < 9)) AND t = t)", 3),
            ("y NOT BETWEEN 2 AND 5 AND a.x BETWEEN 1 AND y", 1),
            ("CASE WHEN t = 'AND' THEN 1 WHEN t = 'OR' OR y = 2 THEN 2 ELSE 3 END = 1 AND y - b.x > 0", 1),
            ("coalesce(t, u) = 'AND' AND upper(t) >= 'A'", 1),
            ("1 = 1 AND 2 = 2", 0),
            ("1 = 2", 0),
        )

    def test_subqueries(self) -> None:
        self.conditions(
            ("(t, 1) IN (SELECT u, 1 FROM b) AND y IN (SELECT x FROM a WHERE x > 1)", 2),
            ("EXISTS (SELECT 1 FROM a AS c WHERE c.x = 3)", 0),
            ("y = (SELECT min(y) FROM b WHERE y > 2 AND u IS NOT NULL) AND t IS NOT NULL", 2),
            ("NOT EXISTS (SELECT 1 FROM b WHERE y > 99) AND a.x IN (SELECT x FROM b UNION SELECT y FROM b)", 1),
        )


@unittest.skipUnless(POSTGRES, "no PostgreSQL")
class ConditionsOfPostgres(Conditioned):
    base_class = PostgresBase

    def test_texts(self) -> None:
        self.conditions(
            (r"t = E'it\'s' AND u = E'\x41ND'", 2),
            ("t = $$it's$$ AND u = $q$AND$q$", 2),
            ("/* a /* nested */ comment OR */ y = 1", 1),
            ("a.t = 'it'\n''''\n's'", 1),
            (r"t = U&'\0041ND'", 1),
        )

    def test_operators(self) -> None:
        self.conditions(
            ("t ~ '^A' AND u ~* 'and' AND t !~ 'x'", 3),
            ("ARRAY[b.y] && ARRAY[1, 2, 3] AND b.y = ANY (ARRAY[1, 2])", 2),
            ("to_tsvector('simple', u) @@ to_tsquery('simple', 'and')", 1),
            ("b.y::text || '' = '1' AND (b.y)::numeric(4, 1) = 1", 2),
            ("t COLLATE \"C\" > 'A' AND b.x=-1 OR b.x=+1", 0),
            ("b.y # 1 = 0 AND b.y ^ 2 > 4", 2),
        )

    def test_forms(self) -> None:
        self.conditions(
            ("a.d > date '2020-01-03' AND extract(day FROM b.d) > 2", 2),
            ("b.d - interval '1 day' > a.d", 0),
            ("y BETWEEN SYMMETRIC 9 AND 2 AND t IS NOT NULL IS NOT UNKNOWN", 2),
            ("t IS DISTINCT FROM u AND t IS NOT DISTINCT FROM 'AND'", 1),
            ("a.d < current_date AND t = trim(both FROM t)", 2),
        )


class ConditionsOfSqlite(Conditioned):
    base_class = SqliteBase

    def test_what_sqlite_alone_has(self) -> None:
        self.conditions(
            ("`y` == 2 AND [t] == 'AND'", 2),
            ("t GLOB 'A*' AND u NOTNULL AND a.d ISNULL", 3),
            ("a.x IS b.y", 0),
            ("x'00ff' <> t AND hex(t) = hex('AND')", 2),
            ('t = "no such column"', 1),
            ("t = \"AND\" COLLATE NOCASE", 1),
            ("t IN (\"u\")", 0),
        )


ConditionsOnPostgres = on_postgres(Conditions)

if __name__ == "__main__":
    unittest.main()
