"""Engines that can't be reached from here. This program writes their SQL, and the user runs it.

A schema file of CREATE TABLEs and a list of functions take the place of a connection. The functions in the list give
the same result at each call. A query is refused where something isn't known for sure.
"""

from __future__ import annotations

import logging
import re
from dataclasses import dataclass, replace
from typing import Iterator

from .dialect import Dialect
from .calls import Call, Function
from .engine import Catalog, Connection, Engine
from .faults import EngineFault, Missing, Refused
from .known import CALLED, PLAIN, CLOCK_WORDS
from .query import Column, Row, Table
from .reading import Statement, Tokens, read
from .schema_file import declared
from .tokens import BACKTICKS, DOUBLE_QUOTES, Token, dialect_rules, part_of_name, tokens, unquoted, written

# A later sqlglot reads some texts in another way.
TESTED_SQLGLOT = re.compile(r"10\.([6-9]|\d\d)\b")
DAYS = ("now", "today", "tomorrow", "yesterday")

# As keywords, without quotes, these words keep or leave out rows differently from an inner join. As names they need
# quotes.
NO_INNER_JOIN = (
    "QUALIFY", "PIVOT", "UNPIVOT", "LATERAL", "TABLESAMPLE", "SEMI", "ANTI", "ASOF", "POSITIONAL", "DIRECTED",
    "MATCH_RECOGNIZE", "UNNEST", "EXPLODE", "MINUS",
)
BEFORE_BY = ("CLUSTER", "DISTRIBUTE", "SORT", "CONNECT")
PARTS_OF_SELECT = {
    "expressions", "from", "joins", "where", "group", "having", "order", "limit", "offset", "distinct", "windows",
}
RESERVED = (*CLOCK_WORDS, "NULL", "TRUE", "FALSE")
IN_LOWER_CASE = frozenset(word.lower() for word in RESERVED)


@dataclass(frozen=True)
class UnreachedDialect(Dialect):
    """The dialect of an engine without a connection. If no setting makes the engine keep the order, each level is a
    temporary table.
    """

    calls_without_parentheses: tuple[str, ...] = CLOCK_WORDS
    outputs_in_conditions: bool = True
    schemas_in_names: bool = False
    knows_blocks: bool = False
    takes_rows_in: bool = False
    star_over_using: bool = False
    keeps_parts: str = "AS"
    reserved: frozenset[str] = IN_LOWER_CASE
    why_volatile: str = "it isn't known here to answer alike at each call"
    quotes: str = '"'
    folds_up: bool = False
    folds_tables: bool = True

    def with_parts(self, parts: list[tuple[str, str]], select: str) -> str:
        """If each level is a table, each part is a table too, and the result is a script."""
        if not self.makes_tables:
            return super().with_parts(parts, select)
        return "".join(f"CREATE OR REPLACE TEMPORARY TABLE {name} AS\n{text};\n" for name, text in parts) + select

    def quote(self, name: str) -> str:
        return self.quotes + name.replace(self.quotes, self.quotes * 2) + self.quotes

    def normalized(self, name: str, quoted: bool) -> str:
        if self.folds_up:
            return name if quoted else name.upper()
        return name.lower()

    def normalized_table_name(self, name: list[Token]) -> tuple[str, ...]:
        """The table's name in the form that the engine compares."""
        names = [token for token in name if token.is_name]
        if self.folds_tables:
            return tuple(map(self.normalized_name, names))
        return tuple(unquoted(token) if token.kind == "quoted" else token.text for token in names)

    def reads_clock(self, pieces: list[Token], at: int, in_view: bool = False) -> bool:
        """Whether the token is a text, such as 'now', that becomes the current date or time."""
        token = pieces[at]
        if token.kind != "text" or token.text[1:-1].split(" ")[0].lower() not in DAYS:
            return False
        before = pieces[at - 1].text.upper() if at else ""
        return before.startswith(("DATE", "TIME")) or (at + 1 < len(pieces) and pieces[at + 1].says("AS", "::"))


def reading_again(dialect: UnreachedDialect) -> UnreachedDialect:
    """The dialect of an engine that computes a part again wherever it is named, with all parts that it names."""
    return replace(dialect, most_parts_of_a_part=200, most_scans=100)


DIALECTS = {
    dialect.name: dialect
    for dialect in (
        reading_again(UnreachedDialect(
            name="spark",
            title="Spark",
            rules=dialect_rules(BACKTICKS, texts="'\"", suffixes="[lLsSyYfFdD]|[bB][dD]"),
            quotes="`",
            settings=("SET spark.sql.cbo.joinReorder.enabled = false", "SET spark.sql.cbo.starSchemaDetection = false"),
            equals=("=", "=="),
        )),
        reading_again(UnreachedDialect(
            name="trino",
            title="Trino",
            rules=dialect_rules(DOUBLE_QUOTES),
            settings=("SET SESSION join_reordering_strategy = 'NONE'",),
        )),
        UnreachedDialect(
            name="duckdb",
            title="DuckDB",
            rules=dialect_rules(DOUBLE_QUOTES),
            settings=("SET disabled_optimizers = 'join_order'",),
            keeps_parts="AS MATERIALIZED",
            equals=("=", "=="),
        ),
        UnreachedDialect(
            name="snowflake",
            title="Snowflake",
            rules=dialect_rules(DOUBLE_QUOTES, comments="//"),
            folds_up=True,
            reserved=frozenset(RESERVED),
            makes_tables=True,
            keeps_trees=False,
        ),
        UnreachedDialect(
            name="bigquery",
            title="BigQuery",
            rules=dialect_rules(BACKTICKS, texts="'\"", comments="#"),
            quotes="`",
            folds_tables=False,
            makes_tables=True,
            keeps_trees=False,
        ),
    )
}


class SchemaFile(Catalog):
    """The tables of a schema file, and the functions that are known without asking an engine."""

    def __init__(self, dialect: UnreachedDialect, schema: str) -> None:
        self.dialect, self.tables = dialect, declared(schema, dialect)

    def table(self, name: list[Token]) -> Table | None:
        return self.tables.get(self.dialect.normalized_table_name(name))

    def functions(self, asked: set[Call]) -> dict[Call, list[Function]]:
        """All functions that aren't known to give the same result at each call. Operators are known."""
        unknown = [call for call in asked if re.match(r"\w", call.name) and call.name.lower() not in CALLED]
        return {call: [Function(self.dialect.why_volatile)] for call in unknown}

    def view_texts(self, names: set[str]) -> list[tuple[str, str, str]]:
        return []

    def check(self, sql: str) -> None:
        """Refuses a query that this program would read differently from the engine."""
        statement, pieces = Statement(sql), tokens(sql, self.dialect.rules)
        for token in _no_inner_joins(pieces):
            raise statement.refuse(token, "only inner joins of whole tables are bounded")
        schemas = {name[0].lower() for name in self.tables if len(name) > 1}
        for source in read(sql, list(pieces), self.dialect).sources:
            if self.dialect.normalized_name(source.alias).lower() in schemas:
                raise statement.refuse(
                    source.alias, "it is the name of a schema too, and engines differ in which is meant"
                )
        # sqlglot takes a while to load, and the engines with a connection don't need it.
        try:
            import sqlglot
        except ImportError:
            raise Missing(
                "sqlglot reads the SQL of engines that aren't reached: run engines/setup, or install python3-sqlglot"
            ) from None
        if not TESTED_SQLGLOT.match(sqlglot.__version__):
            raise Missing(
                f"sqlglot {sqlglot.__version__} is installed, and only 10.6 was tested: pip install 'sqlglot ~= 10.6',"
                " or Debian 12's python3-sqlglot"
            )
        logging.getLogger("sqlglot").setLevel(logging.CRITICAL)
        try:
            trees = sqlglot.parse(written(pieces), read=self.dialect.name)
        except (sqlglot.errors.SqlglotError, RecursionError):
            by = f"sqlglot {sqlglot.__version__}"
            raise Refused(f"the query isn't read as {self.dialect.title}'s SQL by {by}") from None
        tree = trees[0]
        odd = {name for name, part in tree.args.items() if part} - PARTS_OF_SELECT if tree else set()
        if not isinstance(tree, sqlglot.exp.Select) or odd:
            raise Refused(f"the query has a part that isn't bounded: {', '.join(sorted(odd)) or 'it is no SELECT'}")

    def why_not_alone(self, inner: list[Token]) -> str | None:
        """None if each name in the subquery belongs to one of its own tables, or isn't a column's name. Otherwise the
        reason.
        """
        if any(token.says("SELECT", "WITH", "VALUES") for token in inner[1:]):
            return "there is a subquery within it"
        try:
            sources = read("", list(inner), self.dialect).sources
        except Refused:
            return "it isn't a plain query over tables by their names"
        tables = [table for source in sources if (table := self.table(source.table))]
        if len(tables) < len(sources):
            return "a table of it isn't in the schema file"
        own = {token.at for source in sources for token in (*source.table, source.alias)}
        aliases = {self.dialect.normalized_name(source.alias) for source in sources}
        columns = {name for table in tables for name in table.by_name}
        for at, token in enumerate(inner):
            if token.is_name and token.at not in own and not self._known_within(inner, at, aliases, columns):
                return f"{token.text} isn't known to be its own"
        return None

    def _known_within(self, inner: Tokens, at: int, aliases: set[str], columns: set[str]) -> bool:
        token, after = inner[at], inner[at + 1 : at + 2]
        if at and inner[at - 1].says(".", "AS", "::"):
            return True
        if after and after[0].says("."):
            return self.dialect.normalized_name(token) in aliases
        if after and (after[0].says("(") or after[0].kind == "text") and token.kind == "word":
            return True
        return self.dialect.normalized_name(token) in columns or (token.kind == "word" and token.text.upper() in PLAIN)

    def merged_side(self, left: Column, right: Column) -> int | None:
        return 0 if left.type.upper() == right.type.upper() else None

    def complaint(self, sql: str) -> str | None:
        return None

    def can_export(self, column: Column) -> bool:
        raise not_reached(self.dialect)

    def whole_numbers(self, column: Column) -> bool:
        raise not_reached(self.dialect)

    def plain_order(self, column: Column) -> bool:
        raise not_reached(self.dialect)


class NoConnection(Connection):
    """A connection that runs nothing. The settings are printed before the query."""

    def __init__(self, dialect: Dialect) -> None:
        self.dialect = dialect

    def rows(self, sql: str) -> list[Row]:
        raise not_reached(self.dialect)

    def stream(self, sql: str) -> Iterator[Row]:
        raise not_reached(self.dialect)

    def csv(self, sql: str, null: str = "") -> Iterator[str]:
        raise not_reached(self.dialect)

    def close(self) -> None:
        """Does nothing."""


def not_reached(dialect: Dialect) -> EngineFault:
    return EngineFault(f"{dialect.title} isn't reached from here")


def unreached(name: str, schema: str) -> Engine:
    """An engine known only by its dialect and by the schema of its tables."""
    dialect = DIALECTS[name]
    return Engine(dialect, SchemaFile(dialect, schema), NoConnection(dialect))


def _no_inner_joins(pieces: Tokens) -> Iterator[Token]:
    """Words and stars that an engine reads differently from an inner join."""
    for at, token in enumerate(pieces):
        if part_of_name(pieces, at) and not token.says("*"):
            continue
        before, after = pieces[max(at - 1, 0)], pieces[min(at + 1, len(pieces) - 1)]
        odd = token.says(*NO_INNER_JOIN) or (token.says(*BEFORE_BY) and after.says("BY"))
        odd = odd or (token.says("START") and after.says("WITH")) or (token.says("SAMPLE") and before.says("USING"))
        odd = odd or (token.says("TOP", "AS") and before.says("SELECT", "DISTINCT", "ALL"))
        star = token.says("*") and before.says("SELECT", "DISTINCT", "ALL", ",", ".", "(")
        if odd or (star and after.kind == "word" and not after.says("FROM")):
            yield token
