"""`error query CAUSE AT`: what is wrong with a query text at that place."""
from __future__ import annotations

import os
from collections.abc import Iterable
from typing import TYPE_CHECKING, cast

from safebound.sql_texts import LEAST_NUMBER, MOST_NUMBER, folded, typed_name, written_name

from . import read
from .decimals import of_decimals
from .query_advice import CERTAIN, CLOCKS, GUESSES, no_clock
from .reads import missing_table
from .texts import accented, with_advice, bad_character, marked_line_of_text, not_utf8, place_of, quotes_for
from ..convert import not_text_message
from ..near import hint, series, nearest
from ..query import Literal, Reference, resolved_column, visible_columns
from ..records import records
from ..spot import plain

if TYPE_CHECKING:
    from ..faults import Fault
    from . import Run
    from ..query import Entry, Query
    from ..schema import Schema, Table
    from ..tokens import Token

NO_RECORD: tuple[int, list[str]] = (0, [])


def explain(fault: Fault, run: Run) -> list[str]:
    data, query, at = read(run.query_file), run.query, fault.at
    says = {"syntax": syntax, "name": name, "kind": wrong_kind}[fault.cause]
    other = not_utf8(run.query_file, data, at, run) or no_query(run, data)
    if other:
        return other
    schema, name_there = run.schema, accented(data, query.tokens, at)
    said = (
        [quotes_for(name_there, names_of(schema))] if name_there
        else of_decimals(fault.cause, query, schema, at, run) or of_a_proposal(fault, query, schema, run)
        or says(query, schema, at)
    )
    return [marked_line_of_text(run.query_file, data, query, at, length(query, at)), *said]


def no_query(run: Run, data: bytes) -> list[str]:
    """An explanation for a table's file given in place of the query's."""
    if not run.query_file.lower().endswith(".csv"):
        return []
    if not_text_message(data):
        return [f"{plain(run.query_file)} {not_text_message(data)}."]
    table = os.path.basename(run.query_file)[:-4].upper()
    return [
        (
            f"{plain(run.query_file)} is a table's file, and here the query's has to stand. All its rows are asked for"
            f" by a text in a file of its own, as query.sql: SELECT * FROM {plain(table)}"
        ),
        f"Then this runs it:{run.line_without_schema('query.sql')}",
    ]


def of_a_proposal(fault: Fault, query: Query, schema: Schema, run: Run) -> list[str]:
    """Faults that come from a proposed schema: a table's file is missing, or a single value made the type of a column
    text.
    """
    if not run.is_proposed:
        return []
    at = fault.at
    table = (
        next((e.table for e in query.entries if e.table.start == at and schema.table(e.table.name) is None), None)
        if fault.cause == "name" else None
    )
    if table:
        return missing_table(table.name, run)
    return odd_value(query, schema, at) if fault.cause == "kind" else []


def odd_value(query: Query, schema: Schema, at: int) -> list[str]:
    """Sentences on a value that isn't a number, if a number is compared with a column of which nearly all values are.
    """
    from ..sheets import odd_values_warnings, sheet_of
    test = next(t for t in query.tests if any(o.token.start == at for o in t.operands[1:]))
    other = next(o for o in test.operands[1:] if o.token.start == at)
    literal, beside = (other, test.operands[0]) if isinstance(other, Literal) else (test.operands[0], other)
    if not isinstance(literal, Literal) or not literal.is_number or not isinstance(beside, Reference):
        return []
    entry, table, column = resolved_column(query, beside, schema)
    found = next((c for c in sheet_of(table.file, table.file).columns if c.name == written_name(column.name)), None)
    if found is None or found.odd is None and not found.has_gaps:
        return []
    return [
        f"{operand_in_words(query, beside, schema)}, and {operand_in_words(query, literal, schema)}.",
        f"{plain(table.file)}: {odd_values_warnings(found)[0]}",
    ]


def names_of(schema: Schema) -> list[str]:
    """The names of all tables and columns."""
    return [table.name for table in schema.tables] + [
        column.name for table in schema.tables for column in table.columns
    ]


def length(query: Query, at: int) -> int:
    """How many bytes to mark: those of the token at `at`, or of the whole reference that begins there."""
    reference = next((r for r in query.references if r.token.start == at), None)
    token = next((t for t in query.tokens if t.start == at and t.kind != "bad"), None)
    return max(reference.end - at if reference else token.end - at if token else 1, 1)


def syntax(query: Query, schema: Schema, at: int) -> list[str]:
    place = place_of(query, at)
    if place.token().kind == "bad":
        return [bad_character(place)]
    literal = next((o for o in query.literals if o.token.start == at), None)
    if literal and not literal.fits:
        return [f"A number is from {LEAST_NUMBER:,} to {MOST_NUMBER:,} (64 bits), and this one isn't."]
    several = name_of_words(query, place.at, names_of(schema))
    if several:
        return [f"{several} is a name of several words, and stands in double quotes."]
    place.outs = outputs(query, schema)
    return with_advice(place, CERTAIN, GUESSES)


def outputs(query: Query, schema: Schema) -> tuple[tuple[set[str], bool], ...]:
    """The output columns of a query. Each has the names by which ORDER BY may call it, and whether it is a number."""
    end = next((i for i, token in enumerate(query.tokens) if token.is_one("FROM")), 0)
    found, item = [], []
    for token in query.tokens[1:end + 1]:
        if not token.is_one(",", "FROM"):
            item.append(token)
            continue
        found += output(query, schema, item)
        item = []
    return tuple(found)


def output(query: Query, schema: Schema, item: list[Token]) -> list[tuple[set[str], bool]]:
    """The columns of one item of SELECT: for `*` those of all entries, for `ENTRY.*` those of the entry, else one
    column.
    """
    names = {token.name for token in item if token.is_name}
    entries = [
        entry for entry in query.entries if schema.table(entry.table.name)
        and (item[-1:] and not item[-1].is_one("*") or len(item) == 1 or entry.name in names)
    ]
    tables = [schema.table(entry.table.name) for entry in entries]
    columns = [column for table in tables if table for column in table.columns]
    if item[-1:] and item[-1].is_one("*"):
        return [({column.name}, column.is_number) for column in columns]
    return [(names, any(column.is_number for column in columns if column.name in names))]


def name(query: Query, schema: Schema, at: int) -> list[str]:
    """Explains the name at this place. The program tests the tables and aliases of FROM first, then the references."""
    for number, entry in enumerate(query.entries):
        earlier = [e.name for e in query.entries[:number]]
        if entry.table.start == at and schema.table(entry.table.name) is None:
            return [unknown_table(entry.table, schema)]
        if (entry.alias or entry.table).start == at and entry.name in earlier:
            return [twice_in_from(entry)]
    reference = next(r for r in query.references if r.token.start == at)
    joined = next((said for i in reference.scope for said in [no_comma(query, query.entries[i])] if said), "")
    if joined:
        return [joined]
    return unknown_entry(query, reference, schema) if reference.entry else unknown_column(query, reference, schema)


def no_comma(query: Query, entry: Entry) -> str:
    """A sentence on an alias without AS that is the name of another table's file."""
    alias, table = entry.alias, entry.table
    if alias is None or query.tokens[query.tokens.index(alias) - 1].is_one("AS"):
        return ""
    file = alias.name.lower() + ".csv"
    if alias.name == table.name or not os.path.isfile(file):
        return ""
    return (
        f"{plain(alias.source)} is read here as another name of {plain(table.source)}, though {plain(file)} is there."
        f" For both tables put a comma between them: FROM {plain(table.source)}, {plain(alias.source)}."
    )


def unknown_table(token: Token, schema: Schema) -> str:
    tables = [table.name for table in schema.tables]
    return (
        f"The schema has no table {plain(token.name)}. Its tables are"
        f" {series(tables)}.{hint(token.name, tables)}{letter_case_hint(token, tables)}"
    )


def letter_case_hint(token: Token, names: Iterable[str]) -> str:
    """A sentence if a name in double quotes differs from an existing name only in upper and lower case."""
    if token.kind == "quoted" and token.name.upper() in names:
        return f" A name in double quotes keeps its case: write {token.name.upper()} without quotes."
    return ""


def twice_in_from(entry: Entry) -> str:
    table = plain(entry.table.name)
    how = "Give this one another alias" if entry.alias else f"Give each an alias, as FROM {table} A, {table} B"
    return f"{plain(entry.name)} is the name of two entries. {how}, and write its columns with it."


def columns(table: Table | None) -> list[str]:
    return [column.name for column in table.columns] if table else []


def unknown_entry(query: Query, reference: Reference, schema: Schema) -> list[str]:
    """Explains a reference `entry.column` whose entry or column doesn't exist."""
    wanted, scope = reference.token.name, [query.entries[i] for i in reference.scope]
    entry = next((e for e in scope if e.name == wanted), None)
    if entry is None:
        return [no_entry(query, reference, scope)]
    table = schema.table(entry.table.name)
    called = plain(entry.name) + (f" (table {plain(entry.table.name)})" if entry.alias else "")
    missing = cast("Token", reference.column)
    return [
        f"{called} has no column {plain(missing.name)}. Its columns are"
        f" {series(columns(table))}.{hint(missing.name, columns(table))}{letter_case_hint(missing, columns(table))}"
    ]


def no_entry(query: Query, reference: Reference, scope: list[Entry]) -> str:
    wanted, names = reference.token.name, [entry.name for entry in scope]
    if any(entry.name == wanted for entry in query.entries):
        return (
            f"{plain(wanted)} can't be named in this ON: there only the entries of its own JOIN, up to the one just"
            f" joined, may stand: {series(names)}. Put the condition into WHERE."
        )
    renamed = next((entry for entry in scope if entry.table.name == wanted), None)
    if renamed:
        return (
            f"The table {plain(wanted)} has the alias {plain(renamed.name)} here, and goes by that alone: write"
            f" {plain(renamed.name)}.{plain(reference.column.source) if reference.column else '*'}."
        )
    return f"There is no entry {plain(wanted)} in FROM. There are {series(names)}.{hint(wanted, names)}"


def unknown_column(query: Query, reference: Reference, schema: Schema) -> list[str]:
    """Explains a column name without an entry before it, if several entries or none have such a column."""
    token, found = reference.token, visible_columns(query, reference, schema)
    if found:
        having = [
            f"{plain(entry.name)} (table {plain(table.name)})" if entry.alias else plain(entry.name)
            for entry, table, _ in found
        ]
        return [
            f"{plain(token.name)} is a column of {series(having)}. Write it with one of them, as"
            f" {plain(found[0][0].name)}.{plain(token.source)}."
        ]
    tables = {query.entries[i].name: schema.table(query.entries[i].table.name) for i in reference.scope}
    repeated = next((said for table in tables.values() for said in [named_twice(token, table)] if said), "")
    if repeated:
        return [f"No entry has a column {plain(token.name)}. {repeated}"]
    if token.kind == "quoted":
        return name_in_quotes(token, tables)
    if token.word in CLOCKS:
        return [f"No entry has a column {plain(token.name)}. {no_clock(token.word)}"]
    every = [f"{entry}.{column}" for entry, table in tables.items() for column in columns(table)]
    near = nearest(token.name, {name.split(".", 1)[1] for name in every})
    near = next((name for name in every if name.split(".", 1)[1] == near), None)
    each = "".join(f"\n    {plain(entry)}: {series(map(plain, columns(table)))}" for entry, table in tables.items())
    words = name_beginning_at(query, token, [column for table in tables.values() for column in columns(table)])
    if words:
        return [f"No entry has a column {plain(token.name)}. A name with a blank stands in double quotes: {words}."]
    as_text = (
        f" A text takes single quotes: '{plain(token.source)}'." if is_compared(query, reference) and not near else ""
    )
    return [
        f"No entry has a column {plain(token.name)}." + (f" Did you mean {near}?" if near else "") + as_text,
        f"The columns are:{each}",
    ]


def name_of_words(query: Query, at: int, names: list[str]) -> str:
    """Looks, around the token of this number, for a column name of several words that was written without quotes.
    Returns it in double quotes, or nothing.
    """
    firsts = query.tokens[max(at - 3, 0):at + 1]
    found = (name_beginning_at(query, token, names) for token in firsts if token.kind == "word")
    return next((name for name in found if name), "")


def named_twice(token: Token, table: Table | None) -> str:
    """A sentence on a column that was left out, since the header of its file names it more than once."""
    if table is None or not os.path.isfile(table.file):
        return ""
    _, header = next(records(read(table.file)), NO_RECORD)
    count = sum(folded(name) == folded(token.name) for name in header)
    return (
        f"The header of {plain(table.file)} names it {count} times, so it is left out: rename all but one of them."
        if count > 1 else ""
    )


def name_beginning_at(query: Query, token: Token, names: list[str]) -> str:
    """The column's name of several words that begins with this token, in double quotes, or nothing."""
    at = query.tokens.index(token)
    for name in names:
        behind = [t.source.upper() for t in query.tokens[at:at + len(name.split())]]
        if " " in name and name.upper().split() == behind:
            return f'"{plain(name)}"'
    return ""


def is_compared(query: Query, reference: Reference) -> bool:
    """Whether the reference stands on the right of a comparison. A text may have been meant there."""
    return any(reference in test.operands[1:] for test in query.tests)


def name_in_quotes(token: Token, tables: dict[str, Table | None]) -> list[str]:
    """Explains a name in double quotes that no entry has. Mostly a text was meant."""
    names = {column for table in tables.values() for column in columns(table)}
    if token.name.upper() in names:
        return ["No entry has a column of that name." + letter_case_hint(token, names)]
    near = nearest(token.name, names, 0.85)
    if near:
        return [
            f"No entry has a column {plain(token.source)}: in double quotes upper and lower case count. Did you mean"
            f" {plain(typed_name(near))}?"
        ]
    text = plain(token.name).replace("'", "''")
    return [
        f'In double quotes stands a name, and no column is called {plain(token.source)}. A text takes single quotes:'
        f' \'{text}\'.'
    ]


def wrong_kind(query: Query, schema: Schema, at: int) -> list[str]:
    test = next(t for t in query.tests if any(o.token.start == at for o in t.operands[1:]))
    left, other = test.operands[0], next(o for o in test.operands[1:] if o.token.start == at)
    return [
        (
            f"Both sides of a comparison are numbers or both are texts. {operand_in_words(query, left, schema)} and"
            f" {operand_in_words(query, other, schema)}."
        ),
        *how_to_write_literal(query, left, other, schema),
    ]


def operand_in_words(query: Query, operand: Literal | Reference, schema: Schema) -> str:
    if isinstance(operand, Literal):
        shown = "".join(plain(token.source) for token in operand.tokens)
        return f"{shown} is a number" if operand.is_number else f"{shown} is a text"
    entry, _, column = resolved_column(query, operand, schema)
    return f"{plain(entry.name)}.{plain(column.name)} is {column.type}"


def how_to_write_literal(
    query: Query, left: Literal | Reference, other: Literal | Reference, schema: Schema
) -> list[str]:
    """How to write the literal so that it has the other operand's kind, number or text."""
    if isinstance(left, Reference) and isinstance(other, Reference):
        return [of_the_kind(query, left, other, schema)]
    literal, beside = (other, left) if isinstance(other, Literal) else (left, other)
    if not isinstance(literal, Literal) or not isinstance(beside, Reference):
        return []
    source = literal.tokens[-1].source
    if literal.is_number:
        return [f"As a text it is written '{source}'."]
    if source[1:-1].isascii() and source[1:-1].isdigit():
        return [f"As a number it is written {source[1:-1]}, without quotes."]
    return []


def of_the_kind(query: Query, left: Reference, other: Reference, schema: Schema) -> str:
    """The columns of the right entry that can be compared with the left one."""
    (_, _, column), (entry, table, _) = resolved_column(query, left, schema), resolved_column(query, other, schema)
    fitting = [f"{plain(entry.name)}.{plain(c.name)}" for c in table.columns if c.is_number == column.is_number]
    kind_there = "numbers" if column.is_number else "texts"
    return (
        f"Of {plain(entry.name)} these are {kind_there} too: {series(fitting)}." if fitting
        else f"{plain(entry.name)} has no column of {kind_there}: declare both columns as one kind."
    )
