"""Kept counts: how often values repeat in whole tables, stored in a file for later plans.

Counts belong to a table by its identity in the engine, and to a column by its name and type, so another table of the
same name doesn't get them. Kept counts say nothing about rows that came later, so their users compare the number of
rows.
"""

from __future__ import annotations

import datetime
import json
import os
from dataclasses import dataclass, field
from typing import Any, Dict, Iterable, List, Tuple

import safebound

from .counting import counts_among, histograms
from .engine import Engine
from .faults import Unreadable, WrongCounts
from .levels import library_faults
from .meaning import Meaning
from .query import Column, Entry, Query, Row
from .reducing import own_conditions
from .servers import Source

FORM = "safebound-sql kept counts 1"

Runs = List[Tuple[int, int]]


@dataclass
class KeptTable:
    """A table's number of rows when it was counted, and for each counted column its type and its degree list."""

    name: str
    time: str
    rows: int
    types: dict[str, str] = field(default_factory=dict)
    runs: dict[str, Runs] = field(default_factory=dict)

    def has(self, column: Column) -> bool:
        return self.types.get(column.name) == type_of(column)

    def answer(self, entry: str, columns: Iterable[Column]) -> list[Row]:
        """The rows that a counting statement would return for these columns."""
        lines: list[Row] = [(entry, column.name, *run) for column in columns for run in self.runs[column.name]]
        with_nulls = [column for column in columns if _sum_of_rows(self.runs[column.name]) < self.rows]
        return lines + [(entry, column.name, 0, 1) for column in with_nulls]


def type_of(column: Column) -> str:
    """The type and kind of a column. They decide how its values are compared."""
    return f"{column.type}, {column.kind}"


def _sum_of_rows(runs: Runs) -> int:
    return sum(degree * keys for degree, keys in runs)


def now() -> str:
    return datetime.datetime.now(datetime.timezone.utc).strftime("%Y-%m-%d %H:%M:%S UTC")


class KeptCounts:
    """The tables of a file of kept counts. A file that doesn't exist has no tables."""

    def __init__(self, file: str, has_to_be_there: bool = True) -> None:
        self.file = file
        self.tables: dict[str, KeptTable] = {}
        if has_to_be_there or os.path.exists(file):
            self._read()

    def _read(self) -> None:
        try:
            with open(self.file, encoding="utf-8") as text:
                content = json.load(text)
            if content["form"] != FORM:
                raise ValueError
            for identity, about in content["tables"].items():
                self.tables[identity] = _read_table(about)
        except OSError as error:
            raise Unreadable(f"{self.file}: {error}") from None
        except (ValueError, KeyError, TypeError, AttributeError):
            raise WrongCounts(f"{self.file} isn't a file of kept counts") from None

    def save(self) -> None:
        """Replaces the file. The old file is there until the new one is complete."""
        tables = ",\n".join(
            f"{json.dumps(identity)}: {json.dumps(vars(table))}" for identity, table in self.tables.items()
        )
        try:
            with open(f"{self.file}.new", "w", encoding="utf-8") as out:
                out.write(f'{{"form": "{FORM}", "tables": {{\n{tables}\n}}}}\n')
            os.replace(f"{self.file}.new", self.file)
        except OSError as error:
            raise Unreadable(f"{self.file}: {error}") from None

    def usable_counts(self, query: Query) -> dict[int, KeptTable]:
        """The kept counts of the entries that need no new count: without own conditions, and with all joined columns
        kept.
        """
        found = {}
        for entry in query.entries:
            table = self.tables.get(entry.about.identity or "")
            if table and not entry.own and all(map(table.has, query.joined_columns(entry.number))):
                found[entry.number] = table
        return found

    def keep(self, query: Query, engine: Engine) -> list[KeptTable]:
        """Counts all rows of the query's tables, without conditions. It counts the joined columns, and those that were
        kept before.
        """
        entries: dict[str, Entry] = {}
        columns: dict[str, list[Column]] = {}
        for entry in query.entries:
            identity = entry.about.identity or ""
            before = self.tables[identity].types if identity in self.tables else ()
            own = query.joined_columns(entry.number) + columns.get(identity, [])
            entries.setdefault(identity, entry)
            columns[identity] = [
                c for c in entry.about.by_name.values() if c in own or (c.name in before and c.kind is not None)
            ]
        parts = [
            part
            for identity, entry in entries.items()
            for part in histograms(Source(_renamed_entry(entry, identity), []), columns[identity], engine.dialect)
        ]
        counts = counts_among(columns, engine.connection.rows("\nUNION ALL ".join(parts)))
        for identity, entry in entries.items():
            self._forget(identity)
            kept = self.tables[identity] = KeptTable(entry.table, now(), counts.rows[identity])
            for column in columns[identity]:
                kept.types[column.name], kept.runs[column.name] = type_of(column), counts.runs[identity, column.name]
        return [self.tables[identity] for identity in entries]

    def _forget(self, identity: str) -> None:
        """Removes the table, and earlier tables of the same name."""
        place = identity.rpartition("#")[0]
        self.tables = {other: table for other, table in self.tables.items() if other.rpartition("#")[0] != place}

    def append(self, table: str, condition: str, engine: Engine) -> tuple[KeptTable, int]:
        """Adds later rows to a table's kept counts. The condition must be true for exactly these rows. Returns the
        table, and the number of added rows.
        """
        query = Meaning(f"SELECT 1 FROM {table} WHERE {condition}", engine).query
        if len(query.entries) != 1 or str(query.later_clauses):
            raise WrongCounts("one table is needed, and a condition for its rows")
        entry = query.entries[0]
        kept = self.tables.get(entry.about.identity or "")
        columns = [column for column in entry.about.by_name.values() if kept and column.name in kept.types]
        if kept is None or len(columns) < len(kept.types) or not all(map(kept.has, columns)):
            raise WrongCounts(f"{self.file} has no counts of {table} as it is; keep them anew")
        conditions = own_conditions(entry) + list(map(str, query.constants))
        whole, new = Source(_renamed_entry(entry, "whole"), []), Source(_renamed_entry(entry, "new"), conditions)
        parts = histograms(whole, [], engine.dialect) + histograms(new, columns, engine.dialect)
        counts = counts_among({"whole": [], "new": columns}, engine.connection.rows("\nUNION ALL ".join(parts)))
        if kept.rows + counts.rows["new"] != counts.rows["whole"]:
            why = (
                f"{kept.rows} rows are kept and {counts.rows['new']} come to them, but {table} has"
                f" {counts.rows['whole']}"
            )
            raise WrongCounts(f"{why}; keep its counts anew")
        for column in columns:
            kept.runs[column.name] = _append_runs(kept.runs[column.name], counts.runs["new", column.name])
        kept.rows, kept.time = counts.rows["whole"], now()
        return kept, counts.rows["new"]


def _renamed_entry(entry: Entry, name: str) -> Entry:
    return Entry(entry.number, name, entry.alias, entry.table, entry.about)


def _append_runs(old: Runs, new: Runs) -> Runs:
    """The library's rank-wise sum. It dominates the list of all rows, even if old and new rows share values."""
    if not (old and new):
        return old or new
    with library_faults():
        return [(run.degree, run.keys) for run in safebound.append(old, new)]


def _read_table(about: Dict[str, Any]) -> KeptTable:
    """A table of a file, after it is checked."""
    runs = {column: [(int(degree), int(keys)) for degree, keys in found] for column, found in about["runs"].items()}
    table = KeptTable(str(about["name"]), str(about["time"]), int(about["rows"]), dict(about["types"]), runs)
    if set(table.types) != set(runs) or any(_is_invalid(found, table.rows) for found in runs.values()):
        raise ValueError
    return table


def _is_invalid(runs: Runs, rows: int) -> bool:
    descends = all(before[0] >= after[0] for before, after in zip(runs, runs[1:]))
    return not descends or any(degree < 1 or keys < 1 for degree, keys in runs) or _sum_of_rows(runs) > rows
