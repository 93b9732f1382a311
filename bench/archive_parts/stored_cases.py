"""The expected output of the stored cases over the sample: plans by cases/reading.py, rows and levels by PostgreSQL."""

from __future__ import annotations

import glob
import os
from typing import Any, Sequence

import psycopg
import reading

from . import asked, making, places, server
from .columns import Rows, Tables

CASES = os.path.join(places.ROOT, "cases")
SAMPLE = os.path.join(CASES, "archive-sample")


def read(path: str) -> str:
    with open(path, encoding="utf-8", newline="") as f:
        return f.read()


def load(connection: psycopg.Connection[Any]) -> None:
    """Loads the sample into a schema of its own, with each row's number in its file."""
    connection.execute("DROP SCHEMA IF EXISTS SAMPLE CASCADE")
    connection.execute("CREATE SCHEMA SAMPLE")
    connection.execute("SET search_path = SAMPLE")
    server.load(connection, SAMPLE)
    for table, columns in making.COLUMNS.items():
        connection.execute(f"CREATE TABLE NUMBERED_{table} (LIKE {table}, ROW_NUMBER BIGSERIAL)")
        server.copy(connection, "NUMBERED_" + table, columns, os.path.join(SAMPLE, table + ".csv"))
    connection.execute("ANALYZE")


def numbered(query: reading.Query, order: Sequence[int], outputs: str, order_by: str) -> str:
    """The SQL of the query's conjuncts over some entries, over the tables that have a column with row numbers."""
    entries = ", ".join(f"NUMBERED_{query.entries[entry][0]} E{entry}" for entry in order)
    inner = [asked.cond_sql(query, cond) for cond in query.conjuncts if reading.entries_in(cond) <= set(order)]
    return f"SELECT {outputs} FROM {entries} WHERE {' AND '.join(inner) or 'TRUE'} {order_by}"


def rows_text(connection: psycopg.Connection[Any], query: reading.Query, order: Sequence[int]) -> str:
    """The rows in the order of nested loops along the plan's order."""
    outputs = ", ".join(asked.side_sql(query, ("column", entry, column)) for entry, column, _ in query.outputs)
    sql = numbered(query, order, outputs, "ORDER BY " + ", ".join(f"E{entry}.ROW_NUMBER" for entry in order))
    rows = connection.execute(sql).fetchall()
    header: str = reading.record([name for _, _, name in query.outputs])
    return header + "".join(reading.record(row) for row in rows)


def bounds(query: reading.Query, options: set[str], accuracy: int) -> reading.ListBounds:
    """The bounds for the options of a case."""
    tables = [
        reading.read_rows(query.schema, table, read(os.path.join(SAMPLE, table.lower() + ".csv")))
        for table, _ in query.entries
    ]
    if "--reduce" in options:
        stays = Rows(Tables(SAMPLE, query.schema), query).reduced
        lists = [[row for row, kept in zip(rows, keeps) if kept] for rows, keeps in zip(tables, stays)]
        return reading.ListBounds(query, lists, accuracy)
    if "--keys" in options:
        return reading.KeyBounds(query, tables, accuracy)
    return reading.Bounds(query, tables, accuracy, True)


def expected(connection: psycopg.Connection[Any], folder: str) -> dict[str, str]:
    """The expected text of both streams, and the status."""
    words = read(os.path.join(folder, "args")).split("\n")[:-1]
    command, options = words[0], dict(zip(words, words[1:] + [""]))
    query = reading.Query(asked.schema(), read(os.path.join(folder, "query.sql")))
    try:
        known = bounds(query, set(words), int(options.get("--accuracy", 1)))
        plan, notes = reading.planned(query, known, int(options.get("--budget", 1_000_000)))
    except reading.Refused as refused:
        return {"out": "", "notes": f"error {refused.args[1]}\n", "status": f"{refused.args[0]}\n"}
    out = ""
    if command == "run":
        out = rows_text(connection, query, plan.last)
    if command == "audit":
        counts = [server.value(connection, numbered(query, step, "COUNT(*)", "")) for step in plan.steps]
        out = "".join(f"{line} {bound} {rows}\n" for (line, bound), rows in zip(plan.lines, counts))
    return {"out": out, "notes": notes, "status": "0\n"}


def write(files: dict[str, str]) -> None:
    for path, text in files.items():
        with open(path, "w", encoding="utf-8", newline="") as f:
            f.write(text)


def compare(connection: psycopg.Connection[Any], writes: bool) -> int:
    """How many stored files of the cases over the sample differ from the expected ones. With `writes` the files are
    written instead.
    """
    load(connection)
    folders = [os.path.dirname(path) for path in sorted(glob.glob(os.path.join(CASES, "*", "tables")))]
    files = {
        os.path.join(folder, "expected." + name): text
        for folder in folders
        for name, text in expected(connection, folder).items()
    }
    if writes:
        write(files)
    wrong = [path for path, text in files.items() if read(path) != text]
    for path in wrong:
        print(f"{path} isn't what is expected")
    return len(wrong)
