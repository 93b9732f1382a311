"""SQLite by Python's sqlite3. The file is opened read-only, and one transaction holds its snapshot."""

from __future__ import annotations

import contextlib
import functools
import os
import re
import sqlite3
import time
from dataclasses import dataclass
from pathlib import Path
from typing import Iterator, Sequence

from . import stops
from .calls import Call, Function
from .dialect import Dialect
from .engine import Catalog, Connection, Engine, one_line, with_names
from .faults import EngineFault
from .query import Column, Row, Table
from .reading import at_commas
from .tokens import SQLITE, Token, closing, unquoted

DETERMINISTIC = 0x800
DATE_FUNCTIONS = ("date", "time", "datetime", "julianday", "unixepoch", "strftime", "timediff")
DATE_TEXT = re.compile(r"'(\d{4}-\d\d-\d\d)?[T ]*(\d\d:\d\d(:\d\d(\.\d+)?)?)? *(Z|[+-]\d\d:\d\d)?'")
ROW_NUMBERS = ("rowid", "oid", "_rowid_")

TABLE = """
SELECT schema, type, wr, strict, name FROM pragma_table_list
WHERE name = ? COLLATE NOCASE AND (?2 IS NULL OR schema = ?2 COLLATE NOCASE)
ORDER BY schema <> 'temp', schema <> 'main' LIMIT 1
"""
COLUMNS = "SELECT name, type, hidden FROM pragma_table_xinfo(?, ?) ORDER BY cid"
FUNCTIONS = f"SELECT name, narg, type = 's', NOT flags & {DETERMINISTIC} FROM pragma_function_list"


# The words that name a column only in quotes.
RESERVED = frozenset(
    "current_date current_time current_timestamp add all alter and as autoincrement between case check collate commit"
    " constraint create default deferrable delete distinct drop else escape except exists foreign from group having in"
    " index insert intersect into is isnull join limit not nothing notnull null on or order primary references select"
    " set table then to transaction union unique update using values when where".split()
)


@dataclass(frozen=True)
class SqliteDialect(Dialect):
    def normalized(self, name: str, quoted: bool) -> str:
        return super().normalized(name, False)

    def reads_clock(self, pieces: list[Token], at: int, in_view: bool = False) -> bool:
        """Finds date() and its like with an argument that isn't a literal date. Values of a column are checked later,
        when it is known whose column it is.
        """
        dates = self._date_arguments(pieces, at)
        if dates is None:
            return False
        return not dates or not all(_is_date(date) or (not in_view and _may_be_column(date)) for date in dates)

    def _date_arguments(self, pieces: list[Token], at: int) -> list[list[Token]] | None:
        """The date arguments of the date function that is called at this token. None if there is no such call."""
        is_call = pieces[at].is_name and at + 1 < len(pieces) and pieces[at + 1].says("(")
        function = self.normalized_name(pieces[at]) if is_call else ""
        if function not in DATE_FUNCTIONS:
            return None
        given = [part for part in at_commas(pieces[at + 2 : closing(pieces, at + 1)]) if part]
        return given[1:2] if function == "strftime" else given[:2] if function == "timediff" else given[:1]

    def clock_arguments(self, pieces: list[Token]) -> Iterator[tuple[Token, list[Token]]]:
        for at, token in enumerate(pieces):
            yield from ((token, date) for date in self._date_arguments(pieces, at) or () if not _is_date(date))


# CROSS JOIN keeps the order, so no setting is needed.
DIALECT = SqliteDialect(
    name="sqlite",
    title="SQLite",
    rules=SQLITE,
    comma_binds_less=False,
    merged_columns_first=False,
    equals=("=", "=="),
    calls_without_parentheses=("CURRENT_DATE", "CURRENT_TIME", "CURRENT_TIMESTAMP"),
    # SQLite computes an entry of WITH, and all entries that it uses, again for each use.
    most_parts_of_a_part=200,
    join_word="CROSS JOIN",
    keeps_trees=False,
    outputs_in_conditions=True,
    texts_name_outputs=True,
    plain_words=("OFFSET", "WINDOW", "FETCH"),
    takes_bare_columns=True,
    rows_are_values=False,
    parts_see_each_other=True,
    why_clock=(
        "SQLite's date functions may ask for the time, unless they get a date as it is, or a column that never says"
        " 'now'"
    ),
    reserved=RESERVED,
)


class SqliteConnection(Connection):
    def __init__(self, file: str, timeout: int | None) -> None:
        path = self.path = Path(file).resolve()
        if not path.is_file():
            raise EngineFault(f"there is no file {file}")
        self.state_at_opening: Row | None = None
        self.timeout: int | None = None
        self.ends: float | None = None
        with self._as_faults():
            try:
                self._open("mode=ro")
            except sqlite3.OperationalError:
                if os.access(path.parent, os.W_OK) or self._state() is None:
                    raise
                # There is no write-ahead log, and none can be created in this folder, so the file has all rows. If the
                # file changes while it is read, the statement fails.
                self.state_at_opening = self._state()
                self._open("mode=ro&immutable=1")
        self.timeout = timeout
        self.connection.set_progress_handler(self._is_late, 10_000)

    def _open(self, how: str) -> None:
        self.connection = sqlite3.connect(f"{self.path.as_uri()}?{how}", uri=True, isolation_level=None)
        self.connection.text_factory = lambda raw: raw.decode("utf-8", "surrogateescape")
        self.connection.execute("BEGIN")
        self.connection.execute("SELECT count(*) FROM sqlite_master").fetchone()

    def _state(self) -> Row | None:
        """A value that changes when the file is written. None if a log lies beside the file."""
        if os.path.exists(f"{self.path}-wal"):
            return None
        about = os.stat(self.path)
        return about.st_ino, about.st_size, about.st_mtime_ns, about.st_ctime_ns

    def _is_late(self) -> bool:
        return self.ends is not None and time.monotonic() > self.ends

    @contextlib.contextmanager
    def _as_faults(self) -> Iterator[None]:
        """Starts the time limit of a statement, and turns exceptions of sqlite3 into faults."""
        self.ends = time.monotonic() + self.timeout if self.timeout else None
        try:
            yield
        except sqlite3.Error as error:
            if stops.first_signal():
                raise KeyboardInterrupt from None
            late = self.ends is not None and time.monotonic() > self.ends
            raise EngineFault("canceled, since the time is over" if late else one_line(error), not late) from None
        if self.state_at_opening and self._state() != self.state_at_opening:
            raise EngineFault(
                "the file was written to while it was read, in a folder in which SQLite can't make its log"
            )

    def rows(self, sql: str, given: Sequence[str | None] = ()) -> list[Row]:
        with self._as_faults():
            return self.connection.execute(sql, given).fetchall()

    def names(self, sql: str) -> list[str]:
        """The names of the statement's columns."""
        with self._as_faults():
            return [column[0] for column in self.connection.execute(sql).description]

    def stream(self, sql: str) -> Iterator[Row]:
        with self._as_faults():
            cursor = self.connection.execute(sql)
            yield from with_names(cursor, [column[0] for column in cursor.description])

    def csv(self, sql: str, null: str = "") -> Iterator[str]:
        for row in self.stream(sql):
            yield ",".join(null if value is None else _field(value, null) for value in row) + "\n"

    def close(self) -> None:
        self.connection.close()


class SqliteCatalog(Catalog):
    def __init__(self, connection: SqliteConnection) -> None:
        self.connection = connection

    def has_text_now(self, table: str, column: str) -> bool:
        name = DIALECT.quote(column)
        sql = f"SELECT EXISTS (SELECT 1 FROM {table} WHERE CAST({name} AS TEXT) = 'now' COLLATE NOCASE)"
        return bool(self.connection.rows(sql)[0][0])

    def table(self, name: list[Token]) -> Table | None:
        parts = [unquoted(token) if token.kind == "quoted" else token.text for token in name if token.is_name]
        if len(parts) > 2:
            return None
        found = self.connection.rows(TABLE, (parts[-1], parts[0] if len(parts) == 2 else None))
        if not found:
            return None
        schema, kind, without_rowid, strict, stored_name = found[0]
        where = f"{DIALECT.quote(schema)}.{DIALECT.quote(parts[-1])}"
        columns = [
            (self._column(where, name, declared, kind == "table", strict), hidden)
            for name, declared, hidden in self.connection.rows(COLUMNS, (parts[-1], schema))
        ]
        by_name = {DIALECT.normalized(column.name, True): column for column, _ in columns}
        if kind == "table" and not without_rowid:
            for other in ROW_NUMBERS:
                by_name.setdefault(other, Column(other, "INTEGER", ("INTEGER", "BINARY")))
        identity = f"{self.connection.path} {schema} {stored_name}#{self._schema_version(schema)}"
        return Table(tuple(column for column, hidden in columns if hidden != 1), by_name, identity)

    def _schema_version(self, schema: str) -> int:
        """A number that changes with the schema. A single table has no such number."""
        return int(self.connection.rows(f"PRAGMA {DIALECT.quote(schema)}.schema_version")[0][0])

    def _column(self, table: str, name: str, declared: str, of_table: bool, strict: bool) -> Column:
        """A column. In a view or a virtual table it has no kind, since its collation isn't known."""
        collation = self._collation(table, name) if of_table else None
        kind = (affinity(declared, strict), collation) if collation else None
        return Column(name, declared or "no type", kind)

    def _collation(self, table: str, name: str) -> str | None:
        """A column's collation. It is found by testing whether 'a' equals 'A' or 'a '; UNION compares by the collation
        of its first part.
        """
        values = f"SELECT {DIALECT.quote(name)} FROM {table} WHERE 0 UNION SELECT 'a' UNION SELECT ?"
        try:
            case, space = (
                self.connection.rows(f"SELECT count(*) FROM ({values})", (other,))[0][0] for other in ("A", "a ")
            )
        except EngineFault as fault:
            if "no such collation sequence" in str(fault):  # only the program that made the table defines it
                return None
            raise
        return {(2, 2): "BINARY", (1, 2): "NOCASE", (2, 1): "RTRIM"}.get((case, space))

    @functools.cached_property
    def known_functions(self) -> dict[str, list[tuple[int, Function]]]:
        """All functions by their names, each with the number of its arguments, or -1 for any."""
        found: dict[str, list[tuple[int, Function]]] = {}
        for name, arguments, is_scalar, volatile in self.connection.rows(FUNCTIONS):
            why = DIALECT.why_volatile if is_scalar and volatile else None
            found.setdefault(name.lower(), []).append((arguments, Function(why, is_aggregate=not is_scalar)))
        return found

    def functions(self, asked: set[Call]) -> dict[Call, list[Function]]:
        """SQLite takes the function with this number of arguments, or else the one with any number."""
        return {call: self._functions_of(call) for call in asked}

    def _functions_of(self, call: Call) -> list[Function]:
        known = self.known_functions.get(call.name, [])
        exact = [function for arguments, function in known if arguments == call.arguments]
        return exact or [function for _, function in known]

    def view_texts(self, names: set[str]) -> list[tuple[str, str, str]]:
        views = self.connection.rows("SELECT name, sql FROM sqlite_master WHERE type = 'view'")
        return [
            (name, "the view", text)
            for name in names
            for view, text in views
            if _last(name) == DIALECT.normalized(view, True)
        ]

    def check(self, sql: str) -> None:
        self.connection.rows(f"EXPLAIN {sql}")

    def why_not_alone(self, inner: list[Token]) -> str | None:
        """SQLite takes an unknown name in double quotes for a text, so names get other quotes here."""
        in_quotes = {token: "`" + unquoted(token).replace("`", "``") + "`" for token in inner if token.text[0] == '"'}
        return super().why_not_alone([token._replace(text=in_quotes.get(token, token.text)) for token in inner])

    def described(self, sql: str) -> list[Column]:
        return [Column(name, "no type", None) for name in self.output_names(sql)]

    def output_names(self, sql: str) -> list[str]:
        return self.connection.names(f"SELECT * FROM ({sql}\n) LIMIT 0")

    def can_export(self, column: Column) -> bool:
        return column.kind in (("INTEGER", "BINARY"), ("TEXT", "BINARY"))

    def whole_numbers(self, column: Column) -> bool:
        return isinstance(column.kind, tuple) and column.kind[0] == "INTEGER"

    def plain_order(self, column: Column) -> bool:
        return True


def open_engine(file: str, timeout: int | None) -> Engine:
    connection = SqliteConnection(file, timeout)
    return Engine(DIALECT, SqliteCatalog(connection), connection)


def _last(name: str) -> str:
    """The last component of a name with dots."""
    return DIALECT.normalized(name.split(".")[-1].strip('"`[] '), True)


def affinity(declared: str, strict: bool) -> str:
    """The affinity of a declared type, by SQLite's rules."""
    name = declared.upper()
    if "INT" in name:
        return "INTEGER"
    if any(part in name for part in ("CHAR", "CLOB", "TEXT")):
        return "TEXT"
    if not name or "BLOB" in name or (strict and name == "ANY"):
        return "BLOB"
    return "REAL" if any(part in name for part in ("REAL", "FLOA", "DOUB")) else "NUMERIC"


def _field(value: object, null: str) -> str:
    """A value in CSV. It is quoted if it would otherwise be read as another value, or as NULL."""
    text = f"x'{value.hex()}'" if isinstance(value, bytes) else str(value)
    return '"' + text.replace('"', '""') + '"' if text == null or any(mark in text for mark in ',"\n\r') else text


def _is_date(tokens: list[Token]) -> bool:
    return len(tokens) == 1 and (
        tokens[0].kind == "number" or bool(DATE_TEXT.fullmatch(tokens[0].text) and len(tokens[0].text) > 2)
    )


def _may_be_column(tokens: list[Token]) -> bool:
    return tokens[0].is_name and (len(tokens) == 1 or (len(tokens) == 3 and tokens[1].says(".") and tokens[2].is_name))
