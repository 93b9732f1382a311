"""Explains why a query can't compare a column of decimals with a number, and how to write that column in cents."""
from __future__ import annotations

import os
from typing import TYPE_CHECKING

from safebound.decimals import digits_of, first_decimal, scale_of, scaled
from safebound.sql_texts import name_of, typed_name, written_name

from .. import decimals
from ..query import Literal, Reference, resolved_column, visible_columns
from ..spot import plain

if TYPE_CHECKING:
    from . import Run
    from ..query import Query
    from ..schema import Schema

COMPARISONS = ("=", "<>", "<", "<=", ">", ">=")


def of_decimals(cause: str, query: Query, schema: Schema, at: int, run: Run) -> list[str]:
    """Two sentences on a fault at place `at` of the query text.

    The first says that the column has decimals, and gives the command that writes it in cents. The second gives the
    comparison with the column in cents. The list is empty where no column of decimals is compared at this place.
    """
    if cause == "kind":
        return of_kind(query, schema, at, run)
    return of_point(query, schema, at, run) if cause == "syntax" else []


def of_kind(query: Query, schema: Schema, at: int, run: Run) -> list[str]:
    """For a column of decimals compared with a whole number: the program refuses to compare a text with a number."""
    test = next(t for t in query.tests if any(o.token.start == at for o in t.operands[1:]))
    sides = [test.operands[0], next(o for o in test.operands[1:] if o.token.start == at)]
    literal = next((side for side in sides if isinstance(side, Literal) and side.is_number), None)
    beside = next((side for side in sides if isinstance(side, Reference)), None)
    if literal is None or beside is None:
        return []
    sign = test.operator if test.operator in COMPARISONS and beside is sides[0] else ""
    return two_sentences(query, schema, beside, "".join(token.source for token in literal.tokens), sign, run)


def of_point(query: Query, schema: Schema, at: int, run: Run) -> list[str]:
    """For a column compared with a decimal: the query's syntax is wrong at the decimal point or comma."""
    number = next((i for i, token in enumerate(query.tokens) if token.start == at), 0)
    around = query.tokens[max(number - 4, 0):number + 2]
    before, behind = around[:-2], around[-2:]
    if len(before) < 3 or len(behind) < 2 or not behind[0].is_one(".", ",") or behind[1].kind != "number":
        return []
    whole, sign, column = before[-1], before[-2], before[-3]
    if whole.kind != "number" or not sign.is_one(*COMPARISONS) or not column.is_name:
        return []
    scope = range(len(query.entries))
    found = [r for r in (Reference(None, column, scope),) if visible_columns(query, r, schema)]
    value = f"{whole.source}.{behind[1].source}"
    return two_sentences(query, schema, found[0], value, sign.source, run) if found else []


def two_sentences(query: Query, schema: Schema, beside: Reference, number: str, sign: str, run: Run) -> list[str]:
    """The two sentences on the column `beside`, which the query compares with `number` by `sign`.

    If `sign` is empty, the second sentence gives only the number. The list is empty if the schema declares the column
    as a number, if the table's file can't be read, or if the file has no decimals in the column.
    """
    from ..sheets import NoTable, sheet_of
    _, table, column = resolved_column(query, beside, schema)
    if column.is_number or not os.path.isfile(table.file):
        return []
    word = run.path_of(table.file)
    try:
        sheet = sheet_of(table.file, word)
    except NoTable:
        return []
    found = next((c for c in sheet.columns if c.name == written_name(column.name)), None)
    first = first_decimal(found.values) if found else None
    if found is None or first is None:
        return []
    digits = max(scale_of(found.values), digits_of(number) or 0)
    new = typed_name(decimals.new_column_name(name_of(found.name), digits))
    whole = scaled(number, digits)
    declared = f", and {plain(run.schema_file)} declares it: {plain(new)} INTEGER NOT NULL"
    schema_too = "" if run.is_proposed else declared
    line = decimals.line_to_paste(word, found.name, digits)
    return [
        f"{plain(found.name)} has decimals, as `{plain(first)}` on line {found.values[first]} of {plain(table.file)},"
        f" and numbers are integers here: so it is a text, and can't be compared with {plain(number)}. Store the"
        f" smallest unit: this writes it in {decimals.units(digits)}:{line}",
        f"Then the query says {plain(new)}{f' {sign} {whole}' if sign else f', and {whole} for {number}'}{schema_too}.",
    ]
