"""Writes a query and its tables as files for safebound_cli: the schema, the query, and one CSV file for each table.

safebound_cli has whole numbers, texts, and conditions that compare; it has no NULL. Anything else is refused.
"""

from __future__ import annotations

import contextlib
import csv
import os
import re
from typing import Generator, Iterator

from safebound.sql_texts import (
    MOST_CHARACTERS, MOST_NUMBER, MOST_ROWS, MOST_TABLE_BYTES, folded, written_name,
)

from .engine import Engine
from .faults import Refused, Unreadable
from .meaning import Meaning
from .progress import Progress
from .query import Column, Entry, EntryColumn, Row
from .reading import Tokens
from .tokens import Token

CONNECTING = ("AND", "OR", "NOT", "BETWEEN", "IN", "(", ")", ",", "+", "-", "=", "<>", "<", "<=", ">", ">=")
CLI_OPERATORS = {"==": "=", "!=": "<>"}
ORDERING = ("<", "<=", ">", ">=", "BETWEEN")


def cli_name(name: str) -> str:
    """The name as safebound_cli reads it. All names are in upper case, since safebound_cli converts words to upper
    case.
    """
    return written_name(folded(name))


class Export:
    """The files of one query."""

    def __init__(self, meaning: Meaning, engine: Engine, folder: str, progress: Progress) -> None:
        self.statement, self.names, self.query = meaning.statement, meaning.names, meaning.query
        self.dialect, self.catalog, self.connection = engine.dialect, engine.catalog, engine.connection
        self.folder, self.progress = folder, progress
        self.used: dict[int, set[Column]] = {entry.number: set() for entry in self.query.entries}
        self.types: dict[EntryColumn, str] = {}

    def write(self) -> None:
        """Writes all files into the folder."""
        text = self._query_text()
        tables = self._entries_by_table()
        try:
            if os.path.isdir(self.folder) and os.listdir(self.folder):
                raise Unreadable(f"{self.folder} isn't empty")
            self._write_files(text, tables)
        except OSError as error:
            raise Unreadable(str(error)) from None

    def _write_files(self, text: str, tables: dict[str, list[Entry]]) -> None:
        """Writes all files. After an error none of them is left, nor a folder that wasn't there before."""
        with contextlib.ExitStack() as undo:
            for folder in missing_folders(self.folder):
                os.mkdir(folder)
                undo.callback(os.rmdir, folder)
            undo.callback(self._delete_files)
            schema = [self._write_table(name, entries) for name, entries in tables.items()]
            self._write_file("schema.sql", ";\n".join(schema) + ";\n")
            self._write_file("query.sql", text)
            undo.pop_all()

    def _delete_files(self) -> None:
        for file in os.listdir(self.folder):
            os.unlink(os.path.join(self.folder, file))

    def _write_file(self, name: str, text: str) -> None:
        with open(os.path.join(self.folder, name), "w", encoding="utf-8", newline="") as file:
            file.write(text)

    def _query_text(self) -> str:
        for piece in (self.statement.distinct, self.statement.later_clauses):
            if piece:
                raise self._refuse(piece[0])
        outputs = [output for piece in self.statement.outputs for output in self._output(piece)]
        conditions = [condition for piece in self.statement.conditions for condition in self._condition(piece)]
        conditions += [f"{self._column(one)} = {self._column(other)}" for one, other in self.names.usings]
        entries = ", ".join(f"{self._table_name(entry)} {cli_name(entry.name)}" for entry in self.query.entries)
        where = f"\nWHERE {' AND '.join(conditions)}" if conditions else ""
        return f"SELECT {', '.join(outputs)}\nFROM {entries}{where}\n"

    def _refuse(self, token: Token) -> Refused:
        return self.statement.refuse(token, "safebound_cli has no such part")

    def _output(self, piece: Tokens) -> Iterator[str]:
        star = self.names.star_columns(piece)
        if star is not None:
            yield from map(self._column, star)
            return
        size = next((size for size in (3, 1) if len(piece) >= size and self.names.single_column(piece[:size])), None)
        if size is None:
            raise self._refuse(piece[0])
        rest = piece[size + 1 :] if len(piece) > size and piece[size].says("AS") else piece[size:]
        if len(rest) > 1 or (rest and not rest[0].is_name):
            raise self._refuse(piece[size])
        named = self.names.single_column(piece[:size])
        if named is None:
            raise self._refuse(piece[0])
        column = self._column(named)
        yield f"{column} AS {cli_name(self.dialect.normalized_name(rest[0]))}" if rest else column

    def _condition(self, piece: Tokens) -> Iterator[str]:
        """The condition in safebound_cli's SQL. `column IS NOT NULL` is left out, since no exported value is
        NULL.
        """
        ends = [token.text.upper() for token in piece[-3:]]
        if ends == ["IS", "NOT", "NULL"] and (tested := self.names.single_column(piece[:-3])):
            self._column(tested)
            return
        parts, at = [], 0
        while at < len(piece):
            word, size = self._word(piece, at)
            parts.append(word)
            at += size
        if any(token.says(*ORDERING) for token in piece):
            self._refuse_order_of_texts(piece)
        yield f"({' '.join(parts)})"

    def _word(self, piece: Tokens, at: int) -> tuple[str, int]:
        """One operand or connecting word of a condition, and how many tokens it takes."""
        token = piece[at]
        text = CLI_OPERATORS.get(token.text, token.text.upper())
        if token.kind in ("word", "mark", "operator") and text in CONNECTING:
            return text, 1
        if token.kind == "number" and token.text.isdigit() and int(token.text) <= MOST_NUMBER:
            return token.text, 1
        if token.kind == "text" and token.text[0] == "'":
            return token.text, 1
        for size in (3, 1):
            named = self.names.single_column(piece[at : at + size])
            if named:
                return self._column(named), size
        raise self._refuse(token)

    def _refuse_order_of_texts(self, piece: Tokens) -> None:
        for named in self.names.named_columns(piece):
            if not self.catalog.whole_numbers(named.column) and not self.catalog.plain_order(named.column):
                why = "safebound_cli orders texts by code points, and the column doesn't"
                raise self.statement.refuse(piece[0], why, named.column.name)

    def _column(self, named: EntryColumn) -> str:
        self.used[named.entry].add(named.column)
        return f"{cli_name(self.query.entries[named.entry].name)}.{cli_name(named.column.name)}"

    def _table_name(self, entry: Entry) -> str:
        name = self.dialect.normalized_name(self.statement.sources[entry.number].table[-1])
        if not re.fullmatch(r"[A-Za-z0-9_]+", name):
            raise self.statement.refuse(self.statement.sources[entry.number].table[-1], "a file can't be named so")
        return cli_name(name)

    def _entries_by_table(self) -> dict[str, list[Entry]]:
        tables: dict[str, list[Entry]] = {}
        for entry in self.query.entries:
            same = tables.setdefault(self._table_name(entry), [])
            if same and same[0].about != entry.about:
                raise self.statement.refuse(
                    self.statement.sources[entry.number].table[-1], "two tables would have one file"
                )
            same.append(entry)
        return tables

    def _write_table(self, name: str, entries: list[Entry]) -> str:
        """Writes a table's file. Returns its CREATE TABLE."""
        used = set().union(*(self.used[entry.number] for entry in entries))
        columns = [column for column in entries[0].about.by_name.values() if column in used] or list(
            entries[0].about.columns[:1]
        )
        if len({folded(column.name) for column in columns}) < len(columns):
            raise Refused(f"columns of {name} differ in upper and lower case alone, which safebound_cli takes for one")
        for column in columns:
            if not self.catalog.can_export(column):
                raise Refused(f"{name}.{column.name}: safebound_cli has no {column.type}")
        always_joined = set.intersection(*(set(self.query.joined_columns(entry.number)) for entry in entries))
        values = ", ".join(self.dialect.quote(column.name) for column in columns)
        present = " AND ".join(
            f"{self.dialect.quote(column.name)} IS NOT NULL" for column in columns if column in always_joined
        )
        with self.progress.doing(f"writing {name}"):
            sql = f"SELECT {values} FROM {entries[0].table}" + (f" WHERE {present}" if present else "")
            # After a refusal the rows left are given up before the connection is closed.
            with contextlib.closing(self._rows(sql)) as rows:
                kinds = self._write_records(name.strip('"').lower() + ".csv", columns, rows)
        declared = ", ".join(f"{cli_name(column.name)} {kind} NOT NULL" for column, kind in zip(columns, kinds))
        return f"CREATE TABLE {name} ({declared})"

    def _rows(self, sql: str) -> Generator[Row, None, None]:
        yield from self.connection.stream(sql)

    def _write_records(self, file: str, columns: list[Column], rows: Iterator[Row]) -> list[str]:
        """Writes the rows. Returns the types of the columns."""
        kinds: list[type] = [int if self.catalog.whole_numbers(column) else str for column in columns]
        longest = [1] * len(columns)
        next(rows)
        with open(os.path.join(self.folder, file), "w", encoding="utf-8", newline="") as out:
            writer = csv.writer(out)
            writer.writerow([folded(column.name) for column in columns])
            for number, row in enumerate(rows, 1):
                _check_row(file, number, columns, row, kinds)
                longest = [
                    max(most, len(value)) if isinstance(value, str) else most for most, value in zip(longest, row)
                ]
                writer.writerow(row)
            if out.tell() > MOST_TABLE_BYTES:
                raise Refused(f"{file} has more than {MOST_TABLE_BYTES} bytes")
        if max(longest) > MOST_CHARACTERS:
            raise Refused(f"{file} has a text of more than {MOST_CHARACTERS} characters")
        return ["INTEGER" if kind is int else f"VARCHAR({most})" for kind, most in zip(kinds, longest)]


def missing_folders(folder: str) -> list[str]:
    """The folder and those above it that aren't there, the highest first."""
    folder = os.path.abspath(folder)
    return [] if os.path.exists(folder) else [*missing_folders(os.path.dirname(folder)), folder]


def _check_row(file: str, number: int, columns: list[Column], row: Row, kinds: list[type]) -> None:
    if number > MOST_ROWS:
        raise Refused(f"{file} has more than {MOST_ROWS} rows")
    for column, value, kind in zip(columns, row, kinds):
        if value is None:
            raise Refused(f"{file}: row {number} has no {column.name}, and safebound_cli has no NULL")
        if type(value) is not kind:
            raise Refused(f"{file}: {column.name} of row {number} is no {'whole number' if kind is int else 'text'}")


def export_files(meaning: Meaning, engine: Engine, folder: str, progress: Progress) -> None:
    Export(meaning, engine, folder, progress).write()
