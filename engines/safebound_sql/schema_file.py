"""Reads a schema file: the CREATE TABLE statements of an engine that can't be reached, in the SQL of that engine."""

from __future__ import annotations

import re
from typing import Hashable, Iterator, Protocol

from .faults import Refused
from .query import Column, Table
from .reading import Tokens
from .tokens import Token, closing, place, tokens, written

TABLE_CONSTRAINTS = ("CONSTRAINT", "PRIMARY", "UNIQUE", "FOREIGN", "CHECK")
AFTER_TYPE = (
    "NOT", "NULL", "PRIMARY", "UNIQUE", "REFERENCES", "DEFAULT", "CHECK", "CONSTRAINT", "COMMENT", "COLLATE",
    "OPTIONS", "WITH", "GENERATED", "AS", "IDENTITY", "AUTOINCREMENT", "MASKING", "TAG",
)
BEFORE_TABLE = ("OR", "REPLACE", "TEMP", "TEMPORARY", "TRANSIENT", "EXTERNAL", "LOCAL", "GLOBAL")
WHOLE = re.compile(r"(BIG|SMALL|TINY|HUGE|BYTE)?INT(EGER)?|INT(2|4|8|64)|LONG|SHORT|BYTE")
TEXTS = re.compile(r"(VARCHAR|STRING|TEXT)(\(\d+\))?")
DECIMALS = re.compile(r"(?:DECIMAL|NUMERIC|NUMBER|DEC)\((\d+)(?:,(\d+))?\)")
EQUAL_AS_GROUPED = re.compile(r"DATE|BOOLEAN|BOOL|UUID|CHAR\(\d+\)|(BIG)?NUMERIC|DECIMAL|NUMBER|DATETIME")


class NameRules(Protocol):
    """The part of a dialect that is needed to read a schema file: how the engine compares names."""

    @property
    def rules(self) -> re.Pattern[str]:
        """Matches one token of the engine's SQL."""

    def normalized_table_name(self, name: Tokens) -> tuple[str, ...]:
        """A table's name in the form that the engine compares. Different names of one table have the same form."""

    def normalized_name(self, token: Token) -> str:
        """A column's name in the form that the engine compares."""


def kind_of(declared: str) -> Hashable | None:
    """The kind of a column of this type, or None. Columns of one kind are compared as GROUP BY groups them. Whole
    numbers of any width have one kind; floating point numbers and times with a zone have none.
    """
    name = declared.upper().replace(" ", "")
    if WHOLE.fullmatch(name):
        return "a whole number"
    if TEXTS.fullmatch(name):
        return "a text"
    if match := DECIMALS.fullmatch(name):
        return "a decimal", match[1], match[2] or "0"
    return name if EQUAL_AS_GROUPED.fullmatch(name) else None


def declared(text: str, dialect: NameRules) -> dict[tuple[str, ...], Table]:
    """The tables that the text declares, by their normalized names. A table that is declared twice is refused."""
    found: dict[tuple[str, ...], Table] = {}
    for pieces in _statements(tokens(text, dialect.rules)):
        name, columns = _table(text, pieces, dialect)
        key = dialect.normalized_table_name(name)
        if key in found:
            raise _refusal(text, name[0], "this table is declared twice")
        found[key] = columns
    return found


def _refusal(text: str, token: Token, why: str) -> Refused:
    return Refused(f"{token.text} at {place(text, token.at)} of the schema file: {why}")


def _statements(pieces: Tokens) -> Iterator[Tokens]:
    statement: Tokens = []
    for token in pieces:
        if not token.says(";"):
            statement.append(token)
        elif statement:
            yield statement
            statement = []
    if statement:
        yield statement


def _table(text: str, pieces: Tokens, dialect: NameRules) -> tuple[Tokens, Table]:
    """The name and the columns of one CREATE TABLE statement. Any other statement is refused."""
    at = 1
    while at < len(pieces) and pieces[at].says(*BEFORE_TABLE):
        at += 1
    if not (pieces[0].says("CREATE") and at < len(pieces) and pieces[at].says("TABLE")):
        raise _refusal(
            text, pieces[0],
            "it has CREATE TABLE and nothing else; a view is written as the table that it is to a query",
        )
    at += 1
    if [token.text.upper() for token in pieces[at : at + 3]] == ["IF", "NOT", "EXISTS"]:
        at += 3
    start = at
    while at < len(pieces) and not pieces[at].says("("):
        at += 1
    name, end = pieces[start:at], closing(pieces, at)
    if not name or end >= len(pieces) or not all(token.is_name or token.says(".") for token in name):
        raise _refusal(text, pieces[0], "a table has a name, and columns in parentheses")
    table = _columns(text, pieces[at + 1 : end], dialect)
    return name, _of_unknown_kinds(table) if any("COLLAT" in token.text.upper() for token in pieces[end:]) else table


def _of_unknown_kinds(table: Table) -> Table:
    """The table with columns of unknown kinds. A collation after the list of columns applies to all of them."""
    columns = {name: column._replace(kind=None) for name, column in table.by_name.items()}
    return Table(tuple(columns.values()), columns)


def _columns(text: str, pieces: Tokens, dialect: NameRules) -> Table:
    columns: dict[str, Column] = {}
    for item in _items(pieces):
        if not item or item[0].says("LIKE"):
            raise _refusal(text, (item or pieces or [Token("mark", "(", 0, "")])[0], "a column has a name and a type")
        if item[0].kind == "word" and item[0].says(*TABLE_CONSTRAINTS):
            continue
        column = _column(text, item, dialect)
        if column.name in columns:
            raise _refusal(text, item[0], "this column is declared twice")
        columns[column.name] = column
    return Table(tuple(columns.values()), columns)


def _items(pieces: Tokens) -> Iterator[Tokens]:
    """The items between the commas that are outside all parentheses and angle brackets."""
    item: Tokens = []
    depth = at = 0
    while at < len(pieces):
        end = closing(pieces, at) if pieces[at].says("(", "[") else at
        token = pieces[at]
        if token.kind == "operator":
            depth += token.text.count("<") - token.text.count(">")
        if token.says(",") and depth == 0:
            yield item
            item = []
        else:
            item += pieces[at : end + 1]
        at = end + 1
    yield item


def _column(text: str, item: Tokens, dialect: NameRules) -> Column:
    """A column. A column with its own collation has no kind, since it isn't known how its values are grouped."""
    end = next(
        (at for at, token in enumerate(item) if at and token.kind == "word" and token.says(*AFTER_TYPE)), len(item)
    )
    if not item[0].is_name or end < 2:
        raise _refusal(text, item[0], "a column has a name and a type")
    kind = None if any(token.says("COLLATE") for token in item[end:]) else kind_of(written(item[1:end]))
    return Column(dialect.normalized_name(item[0]), written(item[1:end]), kind)
