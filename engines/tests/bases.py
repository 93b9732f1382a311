"""Databases for the tests, one on each engine. Each has a connection by the engine's own driver, which may write."""

from __future__ import annotations

import csv
import os
import sqlite3
import tempfile
import unittest
from collections import Counter
from pathlib import Path
from typing import TYPE_CHECKING, Any, Callable

from safebound_sql.command import open_engine
from safebound_sql.levels import MOST_BUDGET, Plan
from safebound_sql.planner import Planner
from safebound_sql.query import Row

if TYPE_CHECKING:
    from server import Server

ROOT = Path(__file__).resolve().parents[2]
POSTGRES = os.environ.get("SAFEBOUND_SQL_POSTGRES")
CLUSTER = os.environ.get("SAFEBOUND_SQL_CLUSTER")
# The database of this process. All databases of a server share its roles and the list of databases, so their names are
# made from it.
DATABASE = os.environ.get("SAFEBOUND_SQL_DATABASE", "postgres")
GATE = bool(os.environ.get("SAFEBOUND_SQL_GATE"))
# Numbers that tests add up. engines/test prints the sums.
COUNTED: Counter[str] = Counter()


class SqliteBase:
    """A file in a temporary folder. Its write-ahead log lets other connections write while it is read, so that tests
    can check the snapshot.
    """

    engine = "sqlite"

    def __init__(self) -> None:
        self.folder = tempfile.TemporaryDirectory()
        self.file = os.path.join(self.folder.name, "test.db")
        self.url = f"sqlite:{self.file}"
        self.connection = sqlite3.connect(self.file, isolation_level=None)
        self.connection.execute("PRAGMA journal_mode = wal")

    def script(self, text: str) -> None:
        self.connection.executescript(text)

    def fill(self, table: str, rows: list[Row]) -> None:
        if rows:
            self.connection.execute("BEGIN")
            self.connection.executemany(f"INSERT INTO {table} VALUES ({', '.join('?' * len(rows[0]))})", rows)
            self.connection.execute("COMMIT")

    def rows(self, sql: str) -> list[Row]:
        rows: list[Row] = self.connection.execute(sql).fetchall()
        return rows

    def close(self) -> None:
        self.connection.close()
        self.folder.cleanup()


class PostgresBase:
    """The server's database, emptied."""

    engine = "postgres"

    def __init__(self) -> None:
        import psycopg

        assert POSTGRES
        self.url = POSTGRES
        self.connection = psycopg.connect(POSTGRES, autocommit=True)
        self.script("DROP SCHEMA public CASCADE; CREATE SCHEMA public")

    def script(self, text: str) -> None:
        self.connection.execute(text)

    def fill(self, table: str, rows: list[Row]) -> None:
        with self.connection.cursor() as cursor, cursor.copy(f"COPY {table} FROM STDIN") as into:
            for row in rows:
                into.write_row(row)

    def rows(self, sql: str) -> list[Row]:
        rows: list[Row] = self.connection.execute(sql).fetchall()
        return rows

    def close(self) -> None:
        self.connection.close()


class ClusterBase:
    """The cluster's database, emptied. A single server has the same tables and rows, for comparison."""

    engine = "postgres"

    def __init__(self) -> None:
        from cluster import Cluster

        assert CLUSTER
        self.cluster, self.alone = Cluster(CLUSTER, DATABASE), PostgresBase()
        for server in self.cluster.all_servers:
            self.on(server, "DROP SCHEMA public CASCADE; CREATE SCHEMA public")
        self.url = self.cluster.url

    def on(self, server: Server, sql: str) -> list[Row]:
        from cluster import connected

        with connected(server) as connection:
            answer = connection.execute(sql)
            rows: list[Row] = answer.fetchall() if answer.description else []
            return rows

    def script(self, text: str) -> None:
        self.cluster.script(text)
        self.alone.script(text)

    def fill(self, table: str, rows: list[Row]) -> None:
        import psycopg

        with psycopg.connect(self.url, autocommit=True) as connection, connection.cursor() as cursor:
            with cursor.copy(f"COPY {table} FROM STDIN") as into:
                for row in rows:
                    into.write_row(row)
        self.alone.fill(table, rows)

    def rows(self, sql: str) -> list[Row]:
        return self.alone.rows(sql)

    def close(self) -> None:
        self.alone.close()


class OnEachEngine(unittest.TestCase):
    """Tests that run on SQLite. `on_postgres` makes a class that runs them on PostgreSQL. `schema` and `fill` make the
    tables.
    """

    base: Any
    base_class: type = SqliteBase
    schema = ""
    # Whether each test may run in a process of its own.
    apart = False

    @classmethod
    def setUpClass(cls) -> None:
        cls.base = cls.base_class()
        cls.addClassCleanup(cls.base.close)
        if cls.schema:
            cls.base.script(cls.schema)
        cls.fill()

    @classmethod
    def fill(cls) -> None:
        """Fills the tables."""

    def planner_for(self, text: str, reduce: bool = True) -> Planner:
        """A planner for the query."""
        engine = open_engine(self.base.url, None)
        self.addCleanup(engine.connection.close)
        return Planner(engine, text, reduce)

    def planned(
        self, text: str, reduce: bool = True, accuracy: int = 1, tree: bool = False, budget: int = MOST_BUDGET
    ) -> tuple[Planner, Plan]:
        planner = self.planner_for(text, reduce)
        return planner, planner.plan(accuracy, budget, tree)

    def same_rows(self, planner: Planner, plan: Plan, text: str) -> None:
        """Checks that the planned SQL returns the rows of the query itself, each row as often as the query does."""
        connection = planner.engine.connection
        connection.keep_order()
        self.assertEqual(counted(connection.rows(planner.sql(plan))), counted(self.base.rows(text)), text)

    def never_under(self, planner: Planner, plan: Plan, text: str) -> list[int]:
        """Checks that no level has more rows than its bound. Returns the numbers of rows."""
        true = planner.true_rows(plan)
        for level, rows in zip(plan.levels, true, strict=True):
            self.assertLessEqual(rows, level.bound, f"{level.shape} of {text}\n{planner.sql(plan)}")
        return true


def counted(rows: list[Row]) -> Counter[str]:
    return Counter(map(repr, rows))


def on_postgres(test: type[OnEachEngine]) -> type[OnEachEngine]:
    """The same tests on PostgreSQL. They are skipped if it isn't installed."""
    return unittest.skipUnless(POSTGRES, "no PostgreSQL")(
        type(test.__name__ + "OnPostgres", (test,), {"base_class": PostgresBase, "__module__": test.__module__})
    )


def on_cluster(test: type[OnEachEngine]) -> type[OnEachEngine]:
    """The same tests on the cluster. They are skipped if there is no cluster."""
    return unittest.skipUnless(CLUSTER, "no cluster")(
        type(test.__name__ + "OnCluster", (test,), {"base_class": ClusterBase, "__module__": "test_cluster"})
    )


def in_full(test: Callable[..., None]) -> Callable[..., None]:
    """A test that `engines/test --gate` leaves out."""
    return unittest.skipIf(GATE, "not in the gate")(test)


def example(name: str) -> tuple[str, str, dict[str, list[Row]]]:
    """The schema, the query and the tables of an example of this repository."""
    folder = ROOT / "examples" / name
    tables = {}
    for file in sorted(folder.glob("*.csv")):
        with open(file, newline="", encoding="utf-8") as lines:
            header, *records = csv.reader(lines)
        tables[f"{file.stem} ({', '.join(header)})"] = [tuple(record) for record in records]
    return (folder / "schema.sql").read_text(), (folder / "query.sql").read_text(), tables
