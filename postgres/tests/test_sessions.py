"""Tests that depend on how a session begins and on who writes. Each test has its own connections, to one server of this
file.

    postgres/tests/test_sessions.py
"""

from __future__ import annotations

import os
import subprocess
import sys
import time
import unittest
from typing import Any

import psycopg

sys.dont_write_bytecode = True
HERE = os.path.dirname(os.path.abspath(__file__))
sys.path[:0] = [os.path.join(HERE, "..")]
from installed import TemporaryServer, Installed, programs

# Sessions don't load the library by themselves: each test decides where it is loaded.
SETTINGS = ("session_preload_libraries=", "wal_level=logical", "max_prepared_transactions=2",
            "wal_receiver_status_interval=1")
JOIN = "SELECT count(*) FROM r JOIN s USING (x)"
MADE = """
CREATE EXTENSION IF NOT EXISTS safebound;
DROP TABLE IF EXISTS r, s;
CREATE TABLE r (x integer);
INSERT INTO r SELECT i % 10 FROM generate_series(1, 1000) AS i;
CREATE TABLE s (x integer);
INSERT INTO s SELECT i % 10 FROM generate_series(1, 100) AS i;
SELECT safebound.watch('r'), safebound.watch('s');
"""


server: TemporaryServer


def setUpModule() -> None:
    global server
    server = unittest.enterModuleContext(Installed(SETTINGS))


class Connected(unittest.TestCase):
    """r and s have 10 different values. Each occurs 100 times in r and 10 times in s, so 10,000 rows join."""

    def setUp(self) -> None:
        self.owner = self.connect()
        self.owner.execute(MADE)
        # The role's settings exist before the library is loaded.
        self.owner.execute("LOAD 'safebound'")

    def connect(self, user: str = "postgres", database: str = "postgres", options: str = "") -> psycopg.Connection[Any]:
        connection = psycopg.connect(
            server.url, user=user, dbname=database, options=options, autocommit=True, prepare_threshold=None
        )
        self.addCleanup(connection.close)
        return connection

    def role(self, *settings: str) -> str:
        self.owner.execute("CREATE ROLE asker LOGIN; GRANT SELECT, INSERT ON r, s TO asker")
        self.addCleanup(self.owner.execute, "DROP OWNED BY asker; DROP ROLE asker")
        for setting in settings:
            self.owner.execute(f"ALTER ROLE asker SET {setting}")
        return "asker"

    def refused(
        self, connection: psycopg.Connection[Any], statement: str = JOIN, state: str = "SB001"
    ) -> psycopg.Error:
        with self.assertRaises(psycopg.Error) as caught:
            connection.execute(statement)
        self.assertEqual(caught.exception.sqlstate, state)
        return caught.exception


class Loaded(Connected):
    def test_a_session_that_begins_with_the_library(self) -> None:
        user = self.role("session_preload_libraries = 'safebound'", "safebound.budget = 9999")
        self.refused(self.connect(user))
        self.owner.execute("ALTER ROLE asker SET safebound.budget = 10000")
        self.assertEqual(self.connect(user).execute(JOIN).fetchone(), (10000,))

    def test_where_the_library_isnt_loaded_nothing_binds(self) -> None:
        user = self.role("safebound.budget = 9999")
        self.assertEqual(self.connect(user).execute(JOIN).fetchone(), (10000,))

    def test_a_user_changes_no_budget(self) -> None:
        user = self.role("session_preload_libraries = 'safebound'", "safebound.budget = 9999")
        asker = self.connect(user, options="-c safebound.budget=0 -c safebound.unbounded=admit")
        self.refused(asker)
        self.owner.execute("ALTER ROLE asker RESET ALL; ALTER ROLE asker SET session_preload_libraries = 'safebound'")
        self.owner.execute("ALTER SYSTEM SET safebound.budget = 9998")
        self.owner.execute("SELECT pg_reload_conf()")
        self.addCleanup(self.owner.execute, "SELECT pg_reload_conf()")
        self.addCleanup(self.owner.execute, "ALTER SYSTEM RESET safebound.budget")
        asker = self.connect(user, options="-c safebound.budget=0")
        self.refused(asker)
        for statement in ("SET safebound.budget = 0", "RESET ALL", "SET session_preload_libraries = ''", "DISCARD ALL"):
            try:
                asker.execute(statement)
            except psycopg.errors.InsufficientPrivilege:
                pass
            self.refused(asker)

    def test_no_user_can_begin_without_the_library(self) -> None:
        user = self.role("session_preload_libraries = 'safebound'", "safebound.budget = 9999")
        with self.assertRaises(psycopg.OperationalError):
            self.connect(user, options="-c session_preload_libraries=")


class Running(Connected):
    def test_parallel_workers_dont_ask_again(self) -> None:
        for setting in ("parallel_setup_cost = 0", "parallel_tuple_cost = 0", "min_parallel_table_scan_size = 0"):
            self.owner.execute(f"SET {setting}")
        self.owner.execute("SET force_parallel_mode = on")
        self.owner.execute("SET safebound.budget = 10000")
        told = self.owner.execute(f"EXPLAIN (ANALYZE, FORMAT JSON) {JOIN}").fetchone()
        self.assertIn("'Workers Launched': ", str(told))
        self.assertNotIn("'Workers Launched': 0", str(told))
        self.owner.execute("SET safebound.budget = 9999")
        self.refused(self.owner)

    def test_children_in_a_subquery(self) -> None:
        """In the finished plan a subquery's entries have other numbers than in the subquery's own part of the planner.
        """
        self.owner.execute("CREATE TABLE above (x integer); CREATE TABLE below () INHERITS (above)")
        self.addCleanup(self.owner.execute, "DROP TABLE above CASCADE")
        for more in range(1, 8):
            others = ", ".join(f"r r{i}" for i in range(more))
            query = f"SELECT 1 FROM {others}, (SELECT DISTINCT a.x FROM above a JOIN s USING (x)) q WHERE r0.x = q.x"
            names = [row[0] for row in self.owner.execute("SELECT * FROM safebound.bounds(%s)", (query,))]
            self.assertIn(["a", "s"], names)

    def test_prepared_transactions(self) -> None:
        """Rows of a prepared transaction come together with their delta, when it is committed."""
        self.owner.execute("BEGIN; INSERT INTO r SELECT 1 FROM generate_series(1, 100); PREPARE TRANSACTION 'one'")
        self.owner.execute("SET safebound.budget = 10000")
        self.assertEqual(self.owner.execute(JOIN).fetchone(), (10000,))
        self.owner.execute("COMMIT PREPARED 'one'")
        self.refused(self.owner)
        self.owner.execute("SET safebound.budget = 11000")
        self.assertEqual(self.owner.execute(JOIN).fetchone(), (11000,))

    def test_a_cursor_that_is_held(self) -> None:
        self.owner.execute("SET safebound.budget = 9999")
        self.refused(self.owner, "DECLARE c CURSOR WITH HOLD FOR SELECT 1 FROM r JOIN s USING (x)")

    def test_protocol_parameters(self) -> None:
        """A statement with protocol parameters is bounded with their values."""
        self.owner.execute("SET safebound.budget = 1000")
        statement = "SELECT count(*) FROM r JOIN s USING (x) WHERE r.x = %s"
        self.assertEqual(self.owner.execute(statement, (1,), prepare=True).fetchone(), (1000,))
        self.owner.execute("SET plan_cache_mode = force_generic_plan; SET safebound.budget = 999")
        self.refused_with(statement, 1)
        self.assertEqual(self.owner.execute(statement, (77,), prepare=True).fetchone(), (0,))

    def refused_with(self, statement: str, *parameters: int) -> None:
        with self.assertRaises(psycopg.Error) as caught:
            self.owner.execute(statement, parameters, prepare=True)
        self.assertEqual(caught.exception.sqlstate, "SB001")

    def test_rows_of_a_user_without_rights_count(self) -> None:
        asker = self.connect(self.role())
        asker.execute("INSERT INTO r SELECT 1 FROM generate_series(1, 100)")
        self.owner.execute("SET safebound.budget = 10000")
        self.refused(self.owner)


class Restored(Connected):
    def test_a_dump(self) -> None:
        """Statistics aren't dumped. A restored table is unknown, accepts rows, and can be watched again."""
        words = [os.path.join(programs() or "", "pg_dump"), server.url]
        dump = subprocess.run(words, check=True, capture_output=True, text=True).stdout
        self.assertNotIn("safebound_insert", dump)
        self.owner.execute("CREATE DATABASE restored")
        self.addCleanup(self.owner.execute, "DROP DATABASE restored")
        restored = server.url.replace("/postgres?", "/restored?")
        words = ["psql", "-q", "-v", "ON_ERROR_STOP=1", restored]
        subprocess.run(words, input=dump, check=True, text=True, stdout=subprocess.DEVNULL)
        connection = self.connect(database="restored")
        self.addCleanup(connection.close)
        connection.execute("LOAD 'safebound'; INSERT INTO r VALUES (1); SET safebound.budget = 1000000")
        counts = "SELECT (SELECT count(*) FROM safebound.kept), (SELECT count(*) FROM safebound.kept_delta)"
        self.assertEqual(connection.execute(counts).fetchone(), (0, 0))
        self.refused(connection, state="SB002")
        connection.execute("SELECT safebound.watch('r'), safebound.watch('s')")
        self.assertEqual(connection.execute(JOIN).fetchone(), (10010,))


class Elsewhere(Connected):
    def test_a_join_that_a_foreign_server_makes(self) -> None:
        self.owner.execute("CREATE EXTENSION postgres_fdw")
        self.addCleanup(self.owner.execute, "DROP EXTENSION postgres_fdw CASCADE")
        options = f"OPTIONS (host '{server.folder}', dbname 'postgres')"
        self.owner.execute(f"CREATE SERVER itself FOREIGN DATA WRAPPER postgres_fdw {options}")
        self.owner.execute("CREATE USER MAPPING FOR postgres SERVER itself OPTIONS (user 'postgres')")
        for name in ("r", "s"):
            options = f"OPTIONS (table_name '{name}')"
            self.owner.execute(f"CREATE FOREIGN TABLE far_{name} (x integer) SERVER itself {options}")
        join = "SELECT far_r.x FROM far_r JOIN far_s USING (x)"
        # No local join is left in the plan.
        self.assertNotIn("Hash", str(self.owner.execute(f"EXPLAIN {join}").fetchall()))
        self.owner.execute("SET safebound.budget = 1000000")
        self.refused(self.owner, join, "SB002")


class Replicated(Connected):
    def wait(self, statement: str) -> None:
        """Waits until the statement returns true."""
        for _ in range(300):
            if self.subscriber.execute(statement).fetchone() == (True,):
                return
            time.sleep(0.1)
        self.fail(f"never true: {statement}")

    def setUp(self) -> None:
        super().setUp()
        self.owner.execute("CREATE DATABASE subscriber")
        self.addCleanup(self.owner.execute, "DROP DATABASE subscriber")
        self.subscriber = self.connect(database="subscriber")
        self.addCleanup(self.subscriber.close)
        self.subscriber.execute(MADE)
        self.subscriber.execute("TRUNCATE r")
        self.owner.execute("CREATE PUBLICATION p FOR TABLE r")
        self.owner.execute("SELECT pg_create_logical_replication_slot('one', 'pgoutput')")
        self.addCleanup(self.owner.execute, "DROP PUBLICATION p")

    def test_what_a_replica_applies(self) -> None:
        self.subscriber.execute("SELECT safebound.watch('r')")
        self.applied()

    def test_what_a_replica_applies_to_parts(self) -> None:
        """A replica applies rows to the partitioned table, which stores them in a part."""
        self.subscriber.execute("DROP TABLE r; CREATE TABLE r (x integer) PARTITION BY HASH (x)")
        for i in range(2):
            values = f"VALUES WITH (MODULUS 2, REMAINDER {i})"
            self.subscriber.execute(f"CREATE TABLE r_{i} PARTITION OF r FOR {values}")
        self.subscriber.execute("SELECT safebound.watch('r')")
        self.applied()

    def applied(self) -> None:
        where = f"host={server.folder} port=5432 user=postgres dbname=postgres"
        options = "create_slot = false, slot_name = 'one', copy_data = false"
        self.subscriber.execute(f"CREATE SUBSCRIPTION u CONNECTION '{where}' PUBLICATION p WITH ({options})")
        self.addCleanup(self.subscriber.execute, "DROP SUBSCRIPTION u")
        known = "SELECT known FROM safebound.kept WHERE \"table\" = 'r'::regclass"
        self.assertEqual(self.subscriber.execute(known).fetchone(), (True,))
        self.owner.execute("INSERT INTO r VALUES (5), (5)")
        self.wait("SELECT count(*) = 2 FROM r")
        self.assertEqual(self.subscriber.execute(known).fetchone(), (False,))
        self.subscriber.execute("LOAD 'safebound'; SET safebound.budget = 1000000")
        self.refused(self.subscriber, state="SB002")
        self.subscriber.execute("SELECT safebound.watch('r')")
        self.assertEqual(self.subscriber.execute(JOIN).fetchone(), (20,))


if __name__ == "__main__":
    unittest.main()
