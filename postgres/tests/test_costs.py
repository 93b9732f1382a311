"""Tests of what statistics cost: memory of a backend, deltas that nobody folds, planning.

    postgres/tests/test_costs.py
"""

from __future__ import annotations

import os
import sys
import time
import unittest
from typing import Any

import psycopg

sys.dont_write_bytecode = True
HERE = os.path.dirname(os.path.abspath(__file__))
sys.path[:0] = [os.path.join(HERE, "..")]
from installed import Installed, TemporaryServer

server: TemporaryServer


def setUpModule() -> None:
    global server
    server = unittest.enterModuleContext(Installed())


class Measured(unittest.TestCase):
    def setUp(self) -> None:
        self.owner = self.connect()
        self.owner.execute("CREATE EXTENSION IF NOT EXISTS safebound")

    def connect(self) -> psycopg.Connection[Any]:
        connection = psycopg.connect(server.url, autocommit=True, prepare_threshold=None)
        self.addCleanup(connection.close)
        return connection

    def number(self, statement: str, connection: psycopg.Connection[Any] | None = None) -> float:
        row = (connection or self.owner).execute(statement).fetchone()
        return float(row[0]) if row else 0


class Memory(Measured):
    COLUMNS = 200
    MEMORY = "SELECT sum(total_bytes) FROM pg_backend_memory_contexts"

    def make(self, column: str) -> None:
        columns = ", ".join(f"c{i} {column}" for i in range(self.COLUMNS))
        self.owner.execute(f"CREATE TABLE wide (id integer PRIMARY KEY, {columns})")
        self.addCleanup(self.owner.execute, "DROP TABLE wide")

    def grown(self, queries: list[str]) -> float:
        """By how many bytes a new backend grows while it plans these."""
        asks = self.connect()
        asks.execute("SET safebound.estimates = bound; EXPLAIN SELECT FROM pg_class")
        before = self.number(self.MEMORY, asks)
        for query in queries:
            asks.execute(f"EXPLAIN {query}")
        return self.number(self.MEMORY, asks) - before

    def test_200_columns(self) -> None:
        """A backend whose queries use each of 200 columns in a condition takes at most 20 MB."""
        self.make("integer")
        values = ", ".join(f"(i * {i + 7}) % {100 + i}" for i in range(self.COLUMNS))
        self.owner.execute(f"INSERT INTO wide SELECT i, {values} FROM generate_series(1, 2000) AS i")
        self.owner.execute("SELECT safebound.keep('wide')")
        one = [f"SELECT FROM wide a JOIN wide b USING (id) WHERE a.c{i} = 7" for i in range(1)]
        each = [f"SELECT FROM wide a JOIN wide b USING (id) WHERE a.c{i} = 7" for i in range(self.COLUMNS)]
        self.assertLess(self.grown(one), 2 << 20)
        self.assertLess(self.grown(each), 20 << 20)

    def test_many_joined_columns(self) -> None:
        """21 columns are counted as joined columns under 200. A query that uses two of them reads the lists of two."""
        self.make("integer")
        values = ", ".join(f"(i * {i + 7}) % {100 + i}" for i in range(self.COLUMNS))
        self.owner.execute(f"INSERT INTO wide SELECT i, {values} FROM generate_series(1, 100) AS i")
        joined = ",".join(f"c{i}" for i in range(20))
        self.owner.execute(f"SELECT safebound.keep('wide', '{{{joined}}}', common => 20, ranges => 8)")
        self.assertLess(self.grown(["SELECT FROM wide a JOIN wide b ON a.c1 = b.c2 WHERE a.c3 = 7"]), 2 << 20)

    def test_long_values(self) -> None:
        """200 rows of three texts of 32 KB."""
        self.owner.execute("CREATE TABLE long (id integer PRIMARY KEY, a text, b text, c text)")
        self.addCleanup(self.owner.execute, "DROP TABLE long")
        text = "(SELECT string_agg(md5((i * 1000 + j)::text), '') FROM generate_series(1, 1024) AS j)"
        self.owner.execute(f"INSERT INTO long SELECT i, {text}, {text}, {text} FROM generate_series(1, 200) AS i")
        self.owner.execute("SELECT safebound.keep('long', '{id,a,b,c}')")
        conditions = [f"a.{column} = 'x'" for column in "abc"]
        queries = [f"SELECT FROM long a JOIN long b ON a.a = b.b AND a.c = b.c WHERE {one}" for one in conditions]
        self.assertLess(self.grown(queries), 2 << 20)


class Folding(Measured):
    """Deltas fold by themselves. No test calls fold."""

    DELTAS = "SELECT deltas FROM safebound.kept WHERE \"table\" = 'trip'::regclass"

    def make(self, rows: int) -> None:
        self.owner.execute("CREATE TABLE trip (id integer PRIMARY KEY, day integer)")
        self.addCleanup(self.owner.execute, "DROP TABLE trip")
        self.owner.execute(f"INSERT INTO trip SELECT i, i % 10 FROM generate_series(1, {rows}) AS i")
        self.owner.execute("SELECT safebound.watch('trip')")
        self.rows = rows

    def insert(self, statements: int, connection: psycopg.Connection[Any] | None = None) -> None:
        """One row by each statement, which commits."""
        loop = f"FOR i IN {self.rows + 1}..{self.rows + statements} LOOP INSERT INTO trip VALUES (i, i % 10); COMMIT"
        (connection or self.owner).execute(f"DO $$ BEGIN {loop}; END LOOP; END $$")
        self.rows += statements

    def becomes_few(self) -> None:
        """Writes now and then, until there are few deltas."""
        for _ in range(100):
            if self.number(self.DELTAS) < 200:
                return
            time.sleep(0.1)
            self.insert(20)
        self.fail(f"there are {self.number(self.DELTAS)} deltas")

    def bounded(self, query: str = "SELECT FROM trip") -> float:
        self.owner.execute("SET safebound.estimates = bound")
        told = self.owner.execute(f"EXPLAIN (FORMAT JSON) {query}").fetchone()
        return float(told[0][0]["Plan"]["Plan Rows"]) if told else 0

    def test_a_small_table_is_counted(self) -> None:
        self.make(100)
        self.insert(1000)
        self.becomes_few()
        self.assertGreaterEqual(self.number("SELECT rows FROM safebound.kept"), 200)
        self.assertEqual(self.bounded(), self.number("SELECT count(*) FROM trip"))

    def test_a_large_tables_deltas_are_merged(self) -> None:
        self.make(100000)
        self.insert(1000)
        self.becomes_few()
        self.assertEqual(self.number("SELECT rows FROM safebound.kept"), 100000)
        self.assertEqual(self.bounded(), self.number("SELECT count(*) FROM trip"))
        query = "SELECT FROM trip a JOIN trip b USING (day)"
        joined = "SELECT sum(rows * rows) FROM (SELECT count(*) AS rows FROM trip GROUP BY day) AS days"
        self.assertGreaterEqual(self.bounded(query), self.number(joined))

    def test_an_owner_that_cant_log_in(self) -> None:
        self.make(100)
        self.owner.execute("CREATE ROLE silent; ALTER TABLE trip OWNER TO silent")
        self.addCleanup(self.owner.execute, "ALTER TABLE trip OWNER TO postgres; DROP ROLE silent")
        self.insert(1000)
        self.becomes_few()

    def test_an_owner_with_settings_of_its_own(self) -> None:
        self.make(100)
        self.owner.execute("CREATE ROLE strict LOGIN; ALTER TABLE trip OWNER TO strict")
        self.addCleanup(self.owner.execute, "ALTER TABLE trip OWNER TO postgres; DROP ROLE strict")
        self.owner.execute("ALTER ROLE strict SET default_transaction_isolation = serializable")
        self.owner.execute("ALTER ROLE strict SET default_transaction_read_only = on")
        self.insert(1000)
        self.becomes_few()

    def test_writers_wait_for_nobody(self) -> None:
        """While somebody holds the lock that a fold takes, writers go on. Later writers try again."""
        self.make(100)
        holder = self.connect()
        holder.execute("BEGIN; LOCK TABLE trip IN SHARE UPDATE EXCLUSIVE MODE")
        self.owner.execute("SET lock_timeout = '1s'")
        self.insert(500)
        time.sleep(1)
        self.assertEqual(self.number(self.DELTAS), 500)
        holder.execute("COMMIT")
        time.sleep(1)
        self.becomes_few()

    def test_an_open_transaction_keeps_its_delta(self) -> None:
        """A row that is committed after several folds is counted, though its delta has a low number."""
        self.make(100000)
        late = self.connect()
        late.execute("BEGIN; INSERT INTO trip VALUES (-1, 5)")
        for _ in range(2):
            self.insert(500)
            time.sleep(1.1)
            self.becomes_few()
        late.execute("COMMIT")
        self.assertEqual(self.bounded(), self.number("SELECT count(*) FROM trip"))
        for _ in range(2):
            self.insert(500)
            time.sleep(1.1)
            self.becomes_few()
        self.assertEqual(self.bounded(), self.number("SELECT count(*) FROM trip"))

    def test_an_old_snapshot_sees_its_own_deltas(self) -> None:
        self.make(100000)
        self.insert(50)
        old = self.connect()
        old.execute("BEGIN ISOLATION LEVEL REPEATABLE READ; SET LOCAL safebound.estimates = bound")
        old.execute("SELECT FROM trip LIMIT 1")
        self.insert(500)
        self.becomes_few()
        told = old.execute("EXPLAIN (FORMAT JSON) SELECT FROM trip").fetchone()
        self.assertEqual(told[0][0]["Plan"]["Plan Rows"] if told else 0, 100050)

    def test_planning_after_30000_statements(self) -> None:
        """A plan takes at most 1.3 times the time of the processor that it took before 30,000 statements came. The
        table is analyzed before and never later: PostgreSQL's own planning depends on its sample.
        """
        self.make(1000000)
        self.owner.execute("ALTER TABLE trip SET (autovacuum_enabled = false)")
        self.owner.execute("ANALYZE trip")
        asks = self.connect()
        before = self.planned(asks)
        self.insert(30000)
        time.sleep(1.1)
        self.becomes_few()
        self.assertLess(self.planned(asks), 1.3 * before)

    def planned(self, asks: psycopg.Connection[Any]) -> float:
        """Processor time of a backend for 3,000 plans, the least of five."""
        pid = asks.info.backend_pid
        asks.execute("SET safebound.estimates = bound")
        explain = "EXPLAIN SELECT FROM trip a JOIN trip b USING (id)"
        plans = f"DO $$ BEGIN FOR i IN 1..3000 LOOP EXECUTE '{explain}'; END LOOP; END $$"
        least = float("inf")
        for _ in range(5):
            begun = ticks(pid)
            asks.execute(plans)
            least = min(least, ticks(pid) - begun)
        return least


def ticks(pid: int) -> float:
    """The processor time of a process so far, in nanoseconds."""
    with open(f"/proc/{pid}/schedstat", encoding="ascii") as told:
        return float(told.read().split()[0])


if __name__ == "__main__":
    unittest.main()
