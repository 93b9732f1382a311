"""`error schema CAUSE AT`: what is wrong with a schema text at that place."""
from __future__ import annotations

import os
import shlex
from typing import TYPE_CHECKING

from . import read
from .schema_advice import CERTAIN, GUESSES
from .texts import accented, with_advice, bad_character, marked_line_of_text, not_utf8, place_of, quotes_for
from .usage import is_query, tables_named, with_tables
from ..near import hint, series
from ..spot import plain
from ..table import BY_WORD
from ..tokens import tokens_of

if TYPE_CHECKING:
    from ..faults import Fault
    from . import Run
    from ..schema import Column, Reference, Schema, Table
    from ..tokens import Token


def explain(fault: Fault, run: Run) -> list[str]:
    data, schema, at = read(run.schema_file), run.schema, fault.at
    token = next((t for t in tokens_of(data) if t.start == at and t.kind != "bad"), None)
    says = {"syntax": syntax, "name": name, "nullable": nullable}[fault.cause]
    other = not_utf8(run.schema_file, data, at, run) or no_schema(run)
    if other:
        return other
    name_there = accented(data, schema.tokens, at)
    said = [quotes_for(name_there, [])] if name_there else says(schema, at)
    line = marked_line_of_text(run.schema_file, data, schema, at, token.end - at if token else 1)
    return [line, *said, in_order(run)]


def in_order(run: Run) -> str:
    """If query and schema were given in the wrong order: the command with the right order."""
    if not (is_query(run.schema_file) and is_schema(run.query_file)):
        return ""
    folder = f" --data {plain(run.path_of('.'))}" if run.user_folder else ""
    files = " ".join(plain(shlex.quote(file)) for file in (run.query_file, run.schema_file))
    return f"So it is:\n    safebound {run.command} {files}{folder}"


def no_schema(run: Run) -> list[str]:
    """An explanation for a table's file given in place of the schema's."""
    command = BY_WORD.get(run.command)
    if command and with_tables([run.schema_file, run.query_file]):
        return [tables_named(command, run)]
    if not run.schema_file.lower().endswith(".csv"):
        return []
    return [
        f"{plain(run.schema_file)} is a table's file, and here the schema's has to stand. Leave it out, and a schema is"
        f" proposed:{run.line_without_schema()}"
    ]


def is_schema(file: str) -> bool:
    """Whether a file begins as a schema does."""
    return os.path.isfile(file) and any(token.is_one("CREATE") for token in tokens_of(read(file))[:1])


def syntax(schema: Schema, at: int) -> list[str]:
    place = place_of(schema, at)
    if place.token().kind == "bad":
        return [bad_character(place)]
    return with_advice(place, CERTAIN, GUESSES)


def nullable(schema: Schema, at: int) -> list[str]:
    table, column = next((t, c) for t in schema.tables for c in t.columns if c.token.start == at)
    return [
        f"The column {plain(column.name)} of {plain(table.name)} may be null, and tables have no nulls. Add NOT NULL"
        f" behind its type: {plain(column.token.source)} {column.type} NOT NULL. A column of the primary key needs"
        " none."
    ]


def name(schema: Schema, at: int) -> list[str]:
    for table in schema.tables:
        said = (
            of_table(schema, table, at)
            or next((s for c in table.columns for s in [of_column(table, c, at)] if s), None) or of_keys(table, at)
            or of_references(schema, table, at)
        )
        if said:
            return [said]
    return []


def of_table(schema: Schema, table: Table, at: int) -> str | None:
    if table.token.start != at:
        return None
    if not all(c.isascii() and (c.isalnum() or c == "_") for c in table.name):
        return (
            f"{plain(table.token.source)} can't be a table's name, since its file is called after it: it has letters"
            " from A to Z, digits and _ alone."
        )
    return f"There is a table {plain(table.name)} before this one. Give one of the two another name."


def of_column(table: Table, column: Column, at: int) -> str | None:
    if column.token.start == at:
        return (
            f"{plain(table.name)} has a column {plain(column.name)} before this one (upper and lower case count as"
            " one). Give one of the two another name."
        )
    return None


def of_keys(table: Table, at: int) -> str | None:
    second = next((word for word, _ in table.primary[1:] if word.start == at), None)
    if second:
        return (
            f"{plain(table.name)} has two primary keys. A key of several columns is one rule, PRIMARY KEY (A, B); a"
            " further key is UNIQUE."
        )
    lists = table.keys + [reference.referring_columns for reference in table.references]
    return next((said for tokens in lists for said in [of_list(table, tokens, at)] if said), None)


def of_list(table: Table, tokens: list[Token], at: int) -> str | None:
    """A sentence on a name in a list of columns that the table doesn't have, or that the list has twice."""
    token = next((t for t in tokens if t.start == at), None)
    if token is None:
        return None
    names = [column.name for column in table.columns]
    if token.name in names:
        return (
            f"{plain(token.name)} stands twice in this list."
            if any(t.name == token.name and t.start < at for t in tokens) else None
        )
    return (
        f"{plain(table.name)} has no column {plain(token.name)}. Its columns are"
        f" {series(names)}.{hint(token.name, names)}"
    )


def of_references(schema: Schema, table: Table, at: int) -> str | None:
    for reference in table.references:
        target = schema.table(reference.target.name)
        if target and any(token.start == at for token in reference.target_columns):
            return of_list(target, reference.target_columns, at)
        if reference.target.start == at:
            return of_target(schema, reference, target)
    return None


def of_target(schema: Schema, reference: Reference, target: Table | None) -> str:
    names = [table.name for table in schema.tables]
    if target is None:
        return (
            f"The schema has no table {plain(reference.target.name)}. Its tables are"
            f" {series(names)}.{hint(reference.target.name, names)}"
        )
    if not reference.target_columns and not target.primary:
        return (
            f"{plain(target.name)} has no primary key to refer to. Name the columns, as REFERENCES"
            f" {plain(target.name)} (X), or leave the reference out: rows aren't checked against it."
        )
    count = len(reference.target_columns or target.primary[0][1])
    return (
        f"The reference has {len(reference.referring_columns)} columns, and leads to {count} of {plain(target.name)}."
        " Both sides have equally many."
    )
