"""What to write in place of SQL that the language of schemas doesn't have."""
from __future__ import annotations

from typing import TYPE_CHECKING

from safebound.sql_texts import RESERVED

from ..near import nearest
from ..spot import plain

if TYPE_CHECKING:
    from .texts import Place

TYPES = (
    "The types are INTEGER (also INT, SMALLINT and BIGINT, all of 64 bits) and VARCHAR(n), a text of at most n"
    " characters."
)
DATES = "Store dates and times as texts of the form YYYY-MM-DD, which compare as dates do: VARCHAR(10)."
DECIMALS = "Store decimals as integers of the smallest unit, as cents in the place of euros: INTEGER."
TEXTS = "Give texts a length: VARCHAR(n) with n of up to 1,000,000."
BOOLEANS = "Store yes and no as INTEGER 1 and 0."
ADVICE_BY_TYPE = {
    **dict.fromkeys(
        (
            "TEXT", "STRING", "CLOB", "CHAR", "CHARACTER", "NCHAR", "NVARCHAR", "VARCHAR2", "CITEXT", "TINYTEXT",
            "MEDIUMTEXT", "LONGTEXT", "UUID", "JSON", "JSONB", "BLOB", "BYTEA", "ENUM",
        ),
        TEXTS,
    ),
    **dict.fromkeys(("DATE", "TIME", "TIMESTAMP", "DATETIME", "TIMESTAMPTZ", "INTERVAL", "YEAR"), DATES),
    **dict.fromkeys(("DECIMAL", "NUMERIC", "DEC", "FLOAT", "REAL", "DOUBLE", "MONEY", "NUMBER"), DECIMALS),
    **dict.fromkeys(("BOOLEAN", "BOOL", "BIT"), BOOLEANS),
    **dict.fromkeys(
        ("SERIAL", "BIGSERIAL", "TINYINT", "MEDIUMINT", "INT2", "INT4", "INT8", "UNSIGNED", "LONG"),
        "Write INTEGER: it has 64 bits and a sign.",
    ),
}
RULES_OF_COLUMNS = "The rules of a column are NOT NULL, PRIMARY KEY, UNIQUE and REFERENCES."
NOT_IN_LANGUAGE = {
    "DEFAULT": "DEFAULT isn't part of the language: rows come from files, which have every value. Leave it out.",
    "CHECK": "CHECK isn't part of the language: put the condition into the query's WHERE.",
    "NULL": "Tables have no nulls: write NOT NULL.",
    **dict.fromkeys(
        (
            "AUTO_INCREMENT", "AUTOINCREMENT", "IDENTITY", "GENERATED", "COLLATE", "COMMENT", "UNSIGNED", "INDEX",
            "KEY", "ASC", "DESC",
        ),
        "{} isn't part of the language: leave it out. " + RULES_OF_COLUMNS,
    ),
}
STATEMENTS = ("INSERT", "DROP", "ALTER", "UPDATE", "DELETE", "SET", "USE", "GRANT", "BEGIN", "COMMIT", "PRAGMA", "COPY")


def swapped_texts(place: Place) -> str | None:
    if place.at == 0 and place.word() in ("SELECT", "WITH"):
        return "This looks like a query: the command takes SCHEMA first and then QUERY."
    return None


def other_statement(place: Place) -> str | None:
    if place.word() in STATEMENTS and "CREATE" in place.expected:
        return "A schema text holds CREATE TABLE alone. Rows come from the table files."
    if place.word(-1) == "CREATE":
        return "A schema text holds CREATE TABLE alone: no TEMPORARY tables, views or indexes."
    if place.word(-1) == "IF" and place.word() == "NOT":
        return "IF NOT EXISTS isn't part of the language: CREATE TABLE and the name."
    if place.word() == "CREATE" and ";" in place.expected:
        return "A ; is missing between two tables."
    if place.token(-1).is_one(")") and ";" in place.expected:
        return "Behind the ) of a table stands a ; or the end: no options of an engine."
    return None


def missing_type(place: Place) -> str | None:
    if "VARCHAR" not in place.expected and "VARYING" not in place.expected:
        return None
    word = place.word(-1) if place.word(-1) in ("CHAR", "CHARACTER") else place.word()
    instead = ADVICE_BY_TYPE.get(word) or ADVICE_BY_TYPE.get(nearest(word, ADVICE_BY_TYPE, 0.85) or "", "")
    near = nearest(word, ("INTEGER", "INT", "SMALLINT", "BIGINT", "VARCHAR"), 0.74) if not instead and word else None
    called = f"{plain(word)} is no type here. " if word and place.token().kind != "end" else ""
    return f"{called}{f'Did you mean {near}? ' if near else ''}{TYPES} {instead}".strip()


def index_clause(place: Place) -> str | None:
    if place.word(-1) in ("INDEX", "KEY", "FULLTEXT") and place.token().is_one("(") and "VARCHAR" in place.expected:
        return f"{place.word(-1)} isn't part of the language: leave it out. A key is PRIMARY KEY (X) or UNIQUE (X)."
    return None


def wrong_length(place: Place) -> str | None:
    if place.word(-1) in ("VARCHAR", "VARYING"):
        return "A text has its length: VARCHAR(n), of at most n characters."
    if place.token(-1).is_one("(") and "a length of at least 1" in place.expected:
        return "The n of VARCHAR(n) is a number from 1 to 1,000,000."
    if place.token().is_one("(") and place.word(-1) in ("INT", "INTEGER", "SMALLINT", "BIGINT"):
        return f"{place.word(-1)} takes no length: every number has 64 bits."
    return None


def not_in_language(place: Place) -> str | None:
    said = NOT_IN_LANGUAGE.get(place.word())
    return said.format(place.word()) if said else None


def wrong_comma(place: Place) -> str | None:
    if place.token().is_one(")") and place.token(-1).is_one(","):
        return "A comma too many stands before the )."
    if place.token().is_name and "," in place.expected:
        return f"Is a comma missing before {plain(place.token().source)}? {RULES_OF_COLUMNS}"
    return None


def reserved_word(place: Place) -> str | None:
    wants_name = any(what in ("a table's name", "a column's name") for what in place.expected)
    if place.word() in RESERVED and wants_name:
        return (
            f'{place.word()} is a reserved word. Give it another name, or write it in double quotes, here and in the'
            f' query: "{place.word()}".'
        )
    return None


def qualified_name(place: Place) -> str | None:
    if place.token().is_one("."):
        return "A table has one name: there are no names of schemas or databases before it."
    return None


def wrong_quotes(place: Place) -> str | None:
    """A text in single quotes in the place of a name."""
    wanted = next(
        (what for what in place.expected if what in ("a table's name", "a column's name", "a rule's name")), None
    )
    if place.token().kind == "text" and wanted:
        return (
            f"In single quotes stands a text, and here {wanted} has to stand: write"
            f" {plain(place.token().source[1:-1])} without quotes."
        )
    return None


CERTAIN = (
    swapped_texts, wrong_quotes, other_statement, index_clause, wrong_length, missing_type, not_in_language,
    qualified_name,
)
GUESSES = (wrong_comma, reserved_word)
