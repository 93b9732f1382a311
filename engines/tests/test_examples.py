"""Loads the shop, the films and the best seller of bench/estimates into each engine, and checks their plans."""

from __future__ import annotations

import importlib.machinery
import importlib.util
import csv
import tempfile
import unittest

from bases import ROOT, OnEachEngine, example, on_postgres
from safebound_sql.levels import Plan
from safebound_sql.planner import Planner
from safebound_sql.query import Row


class Examples(OnEachEngine):
    def checked(
        self, schema: str, tables: dict[str, list[Row]], text: str, reduce: bool
    ) -> tuple[Planner, Plan, list[int]]:
        planner, plan = self.planned(text, reduce)
        planner.expect(plan)
        true = self.never_under(planner, plan, text)
        self.same_rows(planner, plan, text)
        planner.engine.connection.close()
        return planner, plan, true

    def loaded(self, schema: str, tables: dict[str, list[Row]]) -> None:
        """Creates the tables, after dropping old ones."""
        self.doCleanups()
        for table in reversed(schema.split("CREATE TABLE ")[1:]):
            self.base.script(f"DROP TABLE IF EXISTS {table.split(' ')[0]}")
        self.base.script(schema)
        order = [table.split(" ")[0].lower() for table in schema.split("CREATE TABLE ")[1:]]
        for table, rows in sorted(tables.items(), key=lambda item: order.index(item[0].split(" ")[0])):
            self.base.fill(table, rows)

    def test_the_shop_and_the_films(self) -> None:
        for name in ("shop", "films"):
            schema, text, tables = example(name)
            self.loaded(schema, tables)
            for reduce in (True, False):
                with self.subTest(name, reduce=reduce):
                    _, plan, true = self.checked(schema, tables, text, reduce)
                    self.assertGreater(true[-1], 0)

    def test_the_best_seller(self) -> None:
        """PostgreSQL expects some 20 rows in the complete join. It has 100,010 rows, which is also the bound."""
        loader = importlib.machinery.SourceFileLoader("estimates", str(ROOT / "bench" / "estimates"))
        spec = importlib.util.spec_from_loader("estimates", loader)
        assert spec
        estimates = importlib.util.module_from_spec(spec)
        loader.exec_module(estimates)
        tables = {}
        with tempfile.TemporaryDirectory() as folder:
            estimates.write_files(folder)
            for name in ("product", "item", "ordered"):
                with open(f"{folder}/{name}.csv", newline="") as lines:
                    header, *records = csv.reader(lines)
                tables[f"{name} ({', '.join(header)})"] = [tuple(record) for record in records]
        self.loaded(estimates.SCHEMA, tables)
        if self.base.engine == "postgres":
            self.base.script("ANALYZE")
        planner, plan, true = self.checked(estimates.SCHEMA, tables, estimates.QUERY, True)
        self.assertEqual(true[-1], 100_010)
        self.assertEqual(plan.levels[-1].bound, 100_010)
        if self.base.engine == "postgres":
            last = plan.levels[-1]
            assert last.expected is not None and last.factor is not None
            self.assertLess(last.expected, 1_000)
            self.assertGreater(last.factor, 100)


ExamplesOnPostgres = on_postgres(Examples)

if __name__ == "__main__":
    unittest.main()
