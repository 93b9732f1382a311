"""For each connected set of entries how many rows its join has, and how many PostgreSQL expects."""

from __future__ import annotations

import csv
import os
from typing import Any, NamedTuple

import psycopg
import reading

from . import asked, grouping, places, server
from .columns import Rows, Tables

# If counting by groups finds at most this many rows, PostgreSQL counts them too. Both counts must agree.
COUNTED_TWICE = 3_000_000
SETTINGS = ("work_mem = '256MB'", "jit = off", "statement_timeout = '{seconds}s'")
KEPT = os.path.join(places.MADE, "truth.csv")


class Truth(NamedTuple):
    """The number of rows, or None if it couldn't be counted; how it was counted; and PostgreSQL's estimate."""

    rows: int | None
    by: str
    expected: int


def number(connection: psycopg.Connection[Any], sql: str) -> int | None:
    """The only number in a statement's result, or None if the statement takes too long."""
    try:
        return int(server.value(connection, sql))
    except psycopg.errors.QueryCanceled:
        return None


def stored_counts() -> dict[str, Truth]:
    """The counts since the tables last changed, by statement."""
    if not os.path.exists(KEPT) or os.path.getmtime(KEPT) <= os.path.getmtime(os.path.join(places.TABLES, "file.csv")):
        return {}
    with open(KEPT, encoding="utf-8", newline="") as f:
        lines = list(csv.reader(f))
    return {sql: Truth(int(rows) if rows else None, by, int(expected)) for sql, rows, by, expected in lines}


class Counter:
    """Counts each set once, even if several questions have it, and stores the counts until the tables change."""

    def __init__(self, connection: psycopg.Connection[Any], tables: Tables, seconds: int) -> None:
        self.connection, self.tables, self.known = connection, tables, stored_counts()
        self.keep()
        for setting in SETTINGS:
            connection.execute("SET " + setting.format(seconds=seconds))

    def keep(self) -> None:
        with open(KEPT, "w", encoding="utf-8", newline="") as f:
            csv.writer(f).writerows([sql, *found] for sql, found in self.known.items())

    def of(self, query: reading.Query) -> Truth:
        sql = asked.sql(query)
        if sql not in self.known:
            self.known[sql] = self.counted(query, sql)
            self.keep()
        return self.known[sql]

    def counted(self, query: reading.Query, sql: str) -> Truth:
        expected = server.value(self.connection, f"EXPLAIN (FORMAT JSON) {sql}")[0]["Plan"]["Plan Rows"]
        groups = Rows(self.tables, query).counted()
        if groups is not None and groups > COUNTED_TWICE:
            return Truth(groups, "groups", expected)
        rows = number(self.connection, f"SELECT COUNT(*) FROM ({sql}) AS JOINED")
        if rows is not None and groups is not None and rows != groups:
            raise AssertionError(f"{rows} rows by PostgreSQL, {groups} by groups: {sql}")
        if rows is None and groups is None:
            groups = number(self.connection, grouping.Grouping(query).sql())
        if rows is None:
            return Truth(groups, "nobody" if groups is None else "groups", expected)
        return Truth(rows, "PostgreSQL" if groups is None else "both", expected)
