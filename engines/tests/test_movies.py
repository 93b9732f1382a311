"""Tests queries in the form of the Join Order Benchmark, from their text to an audit."""

from __future__ import annotations

import json
import unittest

import movies
from bases import OnEachEngine, on_postgres
from process import Process


class Movies(OnEachEngine, Process):
    schema = movies.SCHEMA

    @classmethod
    def fill(cls) -> None:
        for table, rows in movies.rows().items():
            cls.base.fill(table, rows)
        if cls.base.engine == "postgres":
            cls.base.script("ANALYZE")

    def test_from_a_text_to_an_audit(self) -> None:
        for name, text in movies.QUERIES.items():
            with self.subTest(name):
                done = self.tried("audit", "--json", text=text)
                self.assertEqual(done.returncode, 0, done.stderr)
                told = json.loads(done.stdout)
                self.assertEqual(len(told["levels"]), len(told["entries"]))
                for level in told["levels"]:
                    self.assertLessEqual(level["rows"], level["bound"])
                joined = text.split("FROM")[1]
                self.assertEqual(told["levels"][-1]["rows"], self.base.rows(f"SELECT count(*) FROM{joined}")[0][0])

    def test_the_rows(self) -> None:
        for name, text in movies.QUERIES.items():
            for reduce, tree in ((True, False), (True, True), (False, False)):
                with self.subTest(name, reduce=reduce, tree=tree):
                    planner, plan = self.planned(text, reduce, tree=tree)
                    self.never_under(planner, plan, text)
                    self.same_rows(planner, plan, text)


MoviesOnPostgres = on_postgres(Movies)

if __name__ == "__main__":
    unittest.main()
