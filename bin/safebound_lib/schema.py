"""Reads schema texts: the tables that a text declares, and the place of an error (docs/DEFINITIONS.md, "Schema texts").
"""
from __future__ import annotations

from dataclasses import dataclass, field
from collections.abc import Callable
from typing import TYPE_CHECKING

from safebound.sql_texts import number_of

from .grammar import Reader, Wrong
from .tokens import tokens_of

if TYPE_CHECKING:
    from .tokens import Token

NUMBERS = ("INT", "INTEGER", "SMALLINT", "BIGINT")


@dataclass
class Column:
    token: Token
    type: str
    length: int | None = None
    is_not_null: bool = False

    @property
    def name(self) -> str:
        return self.token.name

    @property
    def is_number(self) -> bool:
        return self.length is None


@dataclass
class Reference:
    target: Token
    target_columns: list[Token]
    referring_columns: list[Token]


@dataclass
class Table:
    token: Token
    columns: list[Column] = field(default_factory=list)
    keys: list[list[Token]] = field(default_factory=list)
    primary: list[tuple[Token, list[Token]]] = field(default_factory=list)
    references: list[Reference] = field(default_factory=list)

    @property
    def name(self) -> str:
        return self.token.name

    @property
    def file(self) -> str:
        return self.name.lower() + ".csv"

    def column(self, name: str) -> Column | None:
        return next((column for column in self.columns if column.name == name), None)


@dataclass
class Schema:
    """The tables of a schema text, as far as it was read. For a valid schema `expected` is empty. Otherwise the text
    was read up to the token number `wrong_at`, and `expected` has what is allowed in its place.
    """
    tables: list[Table]
    tokens: list[Token]
    wrong_at: int | None = None
    expected: tuple[str, ...] = ()

    def table(self, name: str) -> Table | None:
        return next((table for table in self.tables if table.name == name), None)


class SchemaReader(Reader):
    def __init__(self, tokens: list[Token]) -> None:
        super().__init__(tokens)
        self.tables: list[Table] = []

    def schema(self) -> None:
        self.table()
        while self.maybe(";") and not self.test_end():
            self.table()
        if not self.test_end():
            self.fail()

    def test_end(self) -> bool:
        self.test(lambda token: False, "the end of the text")
        return self.token is None

    def table(self) -> None:
        self.take("CREATE")
        self.take("TABLE")
        self.tables.append(Table(self.take_name("a table's name")))
        self.take("(")
        self.separated(self.element)
        self.take(")")

    def element(self) -> None:
        table = self.tables[-1]
        if self.maybe("CONSTRAINT"):
            self.take_name("a rule's name")
            if not self.table_rule(table):
                self.fail()
            return
        if not self.table_rule(table):
            self.column(table)

    def table_rule(self, table: Table) -> bool:
        if self.has("PRIMARY"):
            self.primary(table, [self.next()], self.names)
        elif self.maybe("UNIQUE"):
            table.keys.append(self.names())
        elif self.maybe("FOREIGN"):
            self.take("KEY")
            columns = self.names()
            self.take("REFERENCES")
            self.target(table, columns)
        else:
            return False
        return True

    def primary(self, table: Table, words: list[Token], columns: Callable[[], list[Token]]) -> None:
        self.take("KEY")
        found = columns()
        table.keys.append(found)
        table.primary.append((words[0], found))

    def column(self, table: Table) -> None:
        column = Column(self.take_name("a column's name"), "")
        self.type(column)
        table.columns.append(column)
        while self.column_rule(table, column):
            pass

    def column_rule(self, table: Table, column: Column) -> bool:
        constraint = self.maybe("CONSTRAINT")
        if constraint:
            self.take_name("a rule's name")
        if self.maybe("NOT"):
            self.take("NULL")
            column.is_not_null = True
        elif self.has("PRIMARY"):
            self.primary(table, [self.next()], lambda: [column.token])
        elif self.maybe("UNIQUE"):
            table.keys.append([column.token])
        elif self.maybe("REFERENCES"):
            self.target(table, [column.token])
        else:
            return self.fail() if constraint else False
        return True

    def names(self) -> list[Token]:
        self.take("(")
        found = self.separated(lambda: self.take_name("a column's name"))
        self.take(")")
        return found

    def target(self, table: Table, columns: list[Token]) -> None:
        target = self.take_name("a table's name")
        table.references.append(Reference(target, self.names() if self.has("(") else [], columns))
        while self.maybe("ON"):
            self.take("DELETE", "UPDATE")
            if self.maybe("NO"):
                self.take("ACTION")
            elif self.maybe("SET"):
                self.take("NULL", "DEFAULT")
            else:
                self.take("CASCADE")

    def type(self, column: Column) -> None:
        if self.has("INTEGER", "INT", "SMALLINT", "BIGINT"):
            column.type = self.next().word
            return
        if self.maybe("CHAR", "CHARACTER"):
            self.take("VARYING")
        else:
            self.take("VARCHAR")
        self.take("(")
        if not self.test(
            lambda token: token.kind == "number" and number_of(token.source) > 0, "a length of at least 1"
        ):
            self.fail()
        column.length = number_of(self.next().source)
        column.type = f"VARCHAR({column.length})"
        self.take(")")


def read_schema(text: bytes) -> Schema:
    """Reads a schema from the bytes of its text, up to the first error."""
    reader = SchemaReader(tokens_of(text))
    try:
        reader.schema()
    except Wrong:
        return Schema(reader.tables, reader.tokens, reader.furthest, tuple(reader.expected))
    return Schema(reader.tables, reader.tokens)
