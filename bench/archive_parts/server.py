"""The tables in a PostgreSQL: loaded, indexed and analyzed."""

from __future__ import annotations

import os
from typing import Any, Iterable

import psycopg

from . import places
from .making import COLUMNS

INDEXES = {
    "package": ("SOURCE", "MAINTAINER", "SECTION"),
    "dependency": ("PACKAGE", "TARGET"),
    "tag": ("PACKAGE", "NAME"),
    "directory": ("PARENT",),
    "file": ("PACKAGE", "DIRECTORY", "NAME"),
}


def copy(connection: psycopg.Connection[Any], table: str, columns: Iterable[str], path: str) -> None:
    """Fills a table with the rows of a CSV file."""
    statement = f"COPY {table} ({', '.join(columns)}) FROM STDIN (FORMAT csv, HEADER true)"
    with connection.cursor().copy(statement) as into, open(path, "rb") as f:
        while data := f.read(1 << 20):
            into.write(data)


def load(connection: psycopg.Connection[Any], folder: str) -> None:
    """Loads all tables of a folder with their keys, an index for each column by which queries join, and statistics."""
    with open(os.path.join(places.QUERIES, "schema.sql"), encoding="utf-8") as f:
        connection.execute(f.read())
    for table, columns in COLUMNS.items():
        copy(connection, table, columns, os.path.join(folder, table + ".csv"))
    for table, column in ((table, column) for table, columns in INDEXES.items() for column in columns):
        connection.execute(f"CREATE INDEX ON {table} ({column})")
    connection.execute("ANALYZE")


def value(connection: psycopg.Connection[Any], sql: str) -> Any:
    """The first value of a statement's first row."""
    row = connection.execute(sql).fetchone()
    if row is None:
        raise LookupError(f"no row: {sql}")
    return row[0]
