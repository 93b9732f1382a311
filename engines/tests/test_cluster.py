"""Tests a cluster. Its counts and rows are those of a single server, and servers send only remaining rows or values."""

from __future__ import annotations

import csv
import io
import os
import subprocess
import unittest
from fractions import Fraction
from typing import TYPE_CHECKING

import test_counted
import test_kept
import test_meaning
from bases import CLUSTER, DATABASE, ROOT, ClusterBase, OnEachEngine, counted, on_cluster
from process import Process
from random_queries import QUERIES, Randomly, RandomQuery, in_tens
from test_random import AnyQueries
from safebound_sql.command import open_engine
from safebound_sql.counting import Counts, counts_of
from safebound_sql.kept import KeptCounts
from safebound_sql.planner import Planner
from safebound_sql.tokens import tokens

if TYPE_CHECKING:
    from fetched import Fetch


class OnCluster(OnEachEngine):
    base_class = ClusterBase

    def counts(self, text: str, reduce: bool, url: str | None = None) -> Counts:
        engine = open_engine(url or self.base.url, None)
        try:
            planner = Planner(engine, text, reduce)
            return counts_of(planner.query, engine.connection.rows(planner.counting))
        finally:
            engine.connection.close()

    def same_counts(self, text: str) -> None:
        """Checks that counts, and so the plan, equal those of a single server."""
        for reduce in (True, False):
            with self.subTest(reduce=reduce):
                self.assertEqual(self.counts(text, reduce), self.counts(text, reduce, self.base.alone.url), text)

    def fetches_of(self, text: str, reduce: bool = True, rows: bool = False) -> list[Fetch]:
        """The statements that servers get from the counting statement, or from the statement that joins the rows."""
        from fetched import fetches

        planner = self.planner_for(text, reduce)
        if not rows:
            return fetches(planner.engine.connection.rows, planner.counting)
        plan = planner.plan(1, 2**59, False)
        planner.engine.connection.keep_order()
        return fetches(planner.engine.connection.rows, planner.sql(plan))


@unittest.skipUnless(CLUSTER, "no cluster")
class TheShop(OnCluster, Process):
    """Tests the shop with 67,000 rows."""

    TIMES = Fraction(1, 10)
    text: str

    @classmethod
    def fill(cls) -> None:
        import shop

        shop.SHOP.fill(cls.base.cluster, cls.TIMES)
        cls.base.alone.script(shop.SCHEMA)
        for table in shop.ROWS:
            cls.base.alone.script(shop.SHOP.filling(table, cls.TIMES))
        cls.base.alone.script("ANALYZE")
        cls.text = shop.query()

    def test_its_rows_are_those_of_bench_shop(self) -> None:
        import shop

        for table, (_, _, record) in shop.of_bench("shop").tables(1).items():
            made = self.base.rows(f"{shop.ROWS[table].format(s=1)} LIMIT 1000")
            self.assertEqual(made, [record(i) for i in range(1000)], table)

    def test_the_plan_is_that_of_one_server(self) -> None:
        self.same_counts(self.text)
        planner, plan = self.planned(self.text)
        beside = Planner(open_engine(self.base.alone.url, None), self.text)
        self.addCleanup(beside.engine.connection.close)
        levels = [(level.shape, level.bound) for level in beside.plan(1, 2**59, False).levels]
        self.assertEqual([(level.shape, level.bound) for level in plan.levels], levels)
        self.assertGreater(self.never_under(planner, plan, self.text)[-1], 0)

    def test_the_rows(self) -> None:
        done = self.tried("run", "--budget", "10000000", text=self.text)
        self.assertEqual(done.returncode, 0, done.stderr)
        rows = [tuple(map(int, row)) for row in list(csv.reader(io.StringIO(done.stdout)))[1:]]
        self.assertEqual(counted(rows), counted(self.base.rows(self.text)))

    def test_no_whole_table_is_fetched(self) -> None:
        for reduce, rows in ((True, False), (False, False), (True, True)):
            with self.subTest(reduce=reduce, rows=rows):
                asked = self.fetches_of(self.text, reduce, rows)
                self.assertEqual([fetch for fetch in asked if fetch.takes_whole_table], [])
                if reduce:
                    self.assertLess(sum(fetch.rows for fetch in asked), 10_000)

    def test_no_nested_loops(self) -> None:
        """PostgreSQL expects one row in a part with remaining values, however many there are."""
        planner, plan = self.planned(
            """SELECT 1 FROM item_1 i JOIN orders_1 o ON o.id = i.order_id JOIN customer_1 c ON c.id = o.customer
            JOIN product_1 p ON p.id = i.product WHERE c.region < 5 AND o.dayno < 50 AND p.id > 2"""
        )
        planner.engine.connection.keep_order()
        self.assertNotIn("Nested Loop", repr(planner.engine.connection.rows(f"EXPLAIN {planner.sql(plan)}")))
        self.assertIn("SET enable_nestloop = off;\nSET jit = off;\n", planner.script(plan))

    def test_servers_group_what_isnt_spread_by_the_column(self) -> None:
        """From 40,000 items each server sends some 2,000 products. A table that is partitioned by the column is grouped
        on the servers too.
        """
        asked = self.fetches_of("SELECT 1 FROM item i JOIN product p ON p.id = i.product", reduce=False)
        grouped = [fetch for fetch in asked if "GROUP BY" in fetch.statement]
        self.assertEqual(len(grouped), 4)
        self.assertLess(sum(fetch.rows for fetch in grouped), 10_000)

    def test_entries_under_no_condition_tell_nothing_at_first(self) -> None:
        """The semi-joins mustn't begin with this leaf of the tree: all 20,000 orders would be sent."""
        text = (
            "SELECT 1 FROM product p JOIN item i ON i.product = p.id JOIN orders o ON o.id = i.order_id WHERE p.id ="
            " 1999"
        )
        self.same_counts(text)
        self.assertLess(sum(fetch.rows for fetch in self.fetches_of(text)), 1_000)

    def test_the_command(self) -> None:
        """Runs `engines/cluster`: it starts servers, fills them, plans, audits and runs, shows what servers send, and
        stops them.
        """
        done = subprocess.run(
            [ROOT / "engines" / "cluster", "--times", "1/10"], text=True, capture_output=True, timeout=600
        )
        self.assertEqual(done.returncode, 0, done.stderr)
        self.assertIn("filling 67,000 rows", done.stdout)
        self.assertIn("the same by both", done.stdout)
        self.assertEqual(done.stdout.count("rows come from the servers, and no table as it is"), 2)
        folder = done.stdout.split("host=")[1].split("/coordinator")[0]
        self.assertFalse(os.path.exists(folder))

    def test_kept_counts(self) -> None:
        kept = [KeptCounts("nowhere", has_to_be_there=False) for _ in range(2)]
        for one, url in zip(kept, (self.base.url, self.base.alone.url)):
            planner = Planner(open_engine(url, None), self.text)
            self.addCleanup(planner.engine.connection.close)
            one.keep(planner.query, planner.engine)
        there, here = ([(table.name, table.rows, table.runs) for table in one.tables.values()] for one in kept)
        self.assertEqual(there, here)


@unittest.skipUnless(CLUSTER, "no cluster")
class OtherTables(OnCluster):
    """Small tables with conditions of many kinds, some of which PostgreSQL doesn't send to servers."""

    schema = """CREATE TABLE a (x INTEGER, y INTEGER, v VARCHAR(5), t TEXT);
CREATE TABLE b (z INTEGER, x INTEGER, y INTEGER, v VARCHAR(9), t TEXT)"""

    @classmethod
    def fill(cls) -> None:
        cls.base.fill("a", [(n % 7 or None, n % 5, f"v{n % 4}", f"t{n % 6}") for n in range(40)])
        cls.base.fill("b", [(n, n % 3 if n % 11 else None, n % 4, f"v{n % 3}", f"t{n % 5}") for n in range(60)])
        more = "CREATE TABLE here AS SELECT * FROM b; CREATE VIEW seen AS SELECT * FROM b"
        cls.base.on(cls.base.cluster.coordinator, more)
        cls.base.alone.script(more)

    def checked(self, text: str) -> None:
        self.same_counts(text)
        planner, plan = self.planned(text)
        self.never_under(planner, plan, text)
        self.same_rows(planner, plan, text)

    def test_a_value_of_two_servers(self) -> None:
        """Each value of b.x is on both servers."""
        self.checked("SELECT * FROM b JOIN b c ON c.x = b.x WHERE b.z < 20")

    def test_texts_of_any_length_go_along(self) -> None:
        self.checked("SELECT * FROM a JOIN b ON b.v = a.v WHERE a.y < 3 AND a.t <> 't2'")
        asked = self.fetches_of("SELECT 1 FROM a JOIN b ON b.v = a.v WHERE a.x = 1")
        self.assertEqual([fetch for fetch in asked if fetch.takes_whole_table], [])

    def test_what_isnt_sent(self) -> None:
        """Conditions on enum values, on functions of the user's own, and with subqueries."""
        kind = "CREATE TYPE mood AS ENUM ('good', 'bad', 'none')"
        self.base.cluster.on_servers(kind)
        odd = "CREATE FUNCTION odd(integer) RETURNS boolean IMMUTABLE LANGUAGE sql AS 'SELECT $1 % 2 = 1'"
        for sql in (kind, odd):
            self.base.on(self.base.cluster.coordinator, sql)
            self.base.alone.script(sql)
        self.base.script("CREATE TABLE felt (k INTEGER, m mood)")
        self.base.fill("felt", [(n, ("good", "bad", None, "bad")[n % 4]) for n in range(30)])
        self.checked("SELECT * FROM felt f JOIN felt g ON g.m = f.m WHERE f.k < 6")
        self.checked("SELECT * FROM a JOIN b ON b.x = a.x WHERE odd(b.z) AND a.y IN (SELECT y FROM b WHERE z < 3)")

    def test_two_equalities_of_the_same_entries(self) -> None:
        """The values of each column are sent separately. The join tests which of them are in one row."""
        self.checked("SELECT * FROM a JOIN b ON b.x = a.x AND b.y = a.y WHERE a.t = 't2'")

    def test_entries_under_no_condition_tell_in_the_end(self) -> None:
        self.checked("SELECT * FROM a JOIN b ON b.x = a.x WHERE b.z < 9")
        self.checked("SELECT * FROM b p JOIN a q ON q.y = p.y JOIN a s ON s.x = p.x WHERE p.z < 3")
        self.checked("SELECT * FROM b p JOIN a q ON q.y = p.y JOIN a s ON s.x = p.x")

    def test_cycles(self) -> None:
        self.checked("SELECT * FROM a JOIN b ON b.x = a.x JOIN b c ON c.y = b.y AND c.z = a.y WHERE b.z < 50")

    def test_tables_of_the_coordinator(self) -> None:
        self.checked("SELECT * FROM a JOIN here ON here.x = a.x WHERE here.z < 9")
        self.checked("SELECT * FROM a JOIN here ON here.x = a.x JOIN b ON b.y = here.y WHERE a.t = 't1'")

    def test_views(self) -> None:
        self.checked("SELECT * FROM a JOIN seen ON seen.x = a.x WHERE seen.z < 9")

    def test_entries_that_join_nothing(self) -> None:
        self.checked("SELECT * FROM a, b WHERE a.x = 3 AND b.z < 4")
        self.checked("SELECT count(*) FROM a")
        self.checked("SELECT * FROM a JOIN b ON b.x < a.x WHERE a.x = 3 AND b.z < 4")

    def test_parts_of_parts(self) -> None:
        """A table partitioned by range, with partitions partitioned by list, and one part on the coordinator."""
        coordinator = self.base.cluster.coordinator
        self.base.cluster.on_servers("CREATE TABLE deep (z INTEGER, x INTEGER)")
        self.base.on(
            coordinator,
            """
            CREATE TABLE deep (z INTEGER, x INTEGER) PARTITION BY RANGE (z);
            CREATE TABLE deep_1 PARTITION OF deep FOR VALUES FROM (MINVALUE) TO (40) PARTITION BY LIST (x);
            CREATE FOREIGN TABLE deep_1_1 PARTITION OF deep_1 FOR VALUES IN (0, 1) SERVER server1 OPTIONS (table_name
                'deep');
            CREATE FOREIGN TABLE deep_1_2 PARTITION OF deep_1 DEFAULT SERVER server2 OPTIONS (table_name 'deep');
            CREATE TABLE deep_2 PARTITION OF deep DEFAULT;
            INSERT INTO deep SELECT z, x FROM here""",
        )
        self.base.alone.script("CREATE TABLE deep AS SELECT z, x FROM here")
        self.checked("SELECT * FROM deep d JOIN a ON a.x = d.x WHERE a.y < 3")
        self.checked("SELECT * FROM deep d JOIN deep e ON e.z = d.z WHERE d.x = 1")

    def test_a_look_at_a_table_sets_nothing(self) -> None:
        engine = open_engine(self.base.url, None)
        self.addCleanup(engine.connection.close)
        settings = "SELECT current_setting('enable_nestloop'), current_setting('jit')"
        table = engine.catalog.table(tokens("b", engine.dialect.rules))
        assert table and table.spread
        self.assertEqual(len(table.spread.parts), 2)
        self.assertEqual(engine.connection.rows(settings), [("on", "on")])
        engine = self.planner_for("SELECT 1 FROM a JOIN b ON a.x = b.x").engine
        self.assertEqual(engine.connection.rows(settings), [("off", "off")])

    def test_one_part_alone(self) -> None:
        engine = open_engine(self.base.url, None)
        self.addCleanup(engine.connection.close)
        text = "SELECT 1 FROM b_1 JOIN a ON a.x = b_1.x WHERE b_1.y = 2"
        planner = Planner(engine, text)
        counts = counts_of(planner.query, engine.connection.rows(planner.counting))
        [[rows]] = engine.connection.rows("SELECT count(*) FROM b_1 WHERE y = 2 AND x IN (SELECT x FROM a)")
        self.assertEqual(counts.rows["b_1"], rows)
        self.assertNotIn("IN (SELECT", planner.counting)

    def reader(self, *tables: str) -> str:
        """The coordinator's address for a user who may read only these tables."""
        coordinator = self.base.cluster.coordinator
        options: list[str] = self.base.on(coordinator, "SELECT umoptions FROM pg_user_mapping LIMIT 1")[0][0]
        password = next(option.partition("=")[2] for option in options if option.startswith("password="))
        reader = f"reader_{DATABASE}"
        self.base.on(coordinator, f"CREATE ROLE {reader} LOGIN; GRANT USAGE ON SCHEMA public TO {reader}")
        self.addCleanup(self.base.on, coordinator, f"DROP OWNED BY {reader}; DROP ROLE {reader}")
        self.base.on(coordinator, f"GRANT SELECT ON {', '.join(tables)} TO {reader}")
        for number in (1, 2):
            mapping = f"OPTIONS (user 'postgres', password '{password}')"
            self.base.on(coordinator, f"CREATE USER MAPPING FOR {reader} SERVER server{number} {mapping}")
        url: str = self.base.url
        return url.replace("//postgres@", f"//{reader}@")

    def test_parts_that_may_not_be_read(self) -> None:
        """A user who may read the table but not its parts gets the same counts; PostgreSQL fetches the rows and counts
        them.
        """
        text = "SELECT 1 FROM a JOIN b ON b.x = a.x WHERE a.y < 3"
        self.assertEqual(self.counts(text, True, self.reader("a", "b")), self.counts(text, True))

    def test_policies_of_parts(self) -> None:
        """A policy on a part hides rows from users who read the part, but not from users who read the whole table."""
        coordinator = self.base.cluster.coordinator
        self.base.on(
            coordinator,
            """
            CREATE TABLE mixed (z INTEGER, x INTEGER, y INTEGER, v VARCHAR(9), t TEXT) PARTITION BY HASH (z);
            CREATE TABLE mixed_1 PARTITION OF mixed FOR VALUES WITH (MODULUS 2, REMAINDER 0);
            CREATE FOREIGN TABLE mixed_2 PARTITION OF mixed FOR VALUES WITH (MODULUS 2, REMAINDER 1) SERVER server2
                OPTIONS (table_name 'b');
            INSERT INTO mixed_1 SELECT * FROM b_1;
            ALTER TABLE mixed_1 ENABLE ROW LEVEL SECURITY""",
        )
        self.addCleanup(self.base.on, coordinator, "DROP TABLE mixed")
        text = "SELECT 1 FROM mixed m JOIN mixed n ON n.x = m.x WHERE m.z < 30"
        here = self.counts(text.replace("mixed", "b"), True, self.base.alone.url)
        self.assertEqual(self.counts(text, True, self.reader("mixed", "mixed_1", "mixed_2")), here)
        self.base.on(coordinator, "ALTER TABLE mixed_1 DISABLE ROW LEVEL SECURITY")
        self.assertEqual(self.counts(text, True), here)


@unittest.skipUnless(CLUSTER, "no cluster")
@in_tens(max(10, QUERIES // 4))
class RandomQueriesOnCluster(AnyQueries, OnCluster):
    """Runs fewer random queries than on a single server."""

    def check(self, randomly: Randomly, found: RandomQuery) -> bool:
        self.same_counts(found.text)
        return super().check(randomly, found)


for test in (
    test_meaning.Counted, test_meaning.Reduced, test_meaning.Snapshots, test_kept.Taken, test_counted.Examples,
):
    globals()[test.__name__ + "OnCluster"] = on_cluster(test)
del test

if __name__ == "__main__":
    unittest.main()
