"""Explains `error table FILE CAUSE ..`: what is wrong with a table file, in which record and at which value."""
from __future__ import annotations

import re
from typing import TYPE_CHECKING

from safebound.sql_texts import LEAST_NUMBER, MOST_NUMBER, folded, number_of

from . import read
from .texts import convert_line, how_to_convert
from ..convert import not_text_message
from ..near import series, nearest
from ..records import chosen, column_place, left_open, records
from ..spot import cut_text, plain, spot
from ..terminal import columns

if TYPE_CHECKING:
    from ..faults import Fault
    from . import Run
    from ..schema import Table
    from ..tokens import Token

SEPARATORS = {";": "semicolons", "\t": "tabs", "|": "bars"}
MOST_OF_VALUE, MOST_FIELDS = 60, 20


def explain(fault: Fault, run: Run) -> list[str]:
    schema = run.schema
    is_it = (
        (lambda t: t.name.upper() == run.table.upper()) if run.command == "append" else (lambda t: t.file == fault.file)
    )
    table = next(filter(is_it, schema.tables))
    says = {"utf8": utf8, "header": header, "width": wrong_width, "field": field, "key": key}[fault.cause]
    data = read(fault.file)
    if not_text_message(data):
        return [f"{fault.file} {not_text_message(data)}."]
    return says(table, fault, data, run)


def header_differs(data: bytes) -> str:
    """If all rows (two or more) have one number of fields and the header has another: a sentence on that; else ""."""
    found = records(data)
    wide, widths, ends, rows = len(next(found, (0, []))[1]), set(), set(), 0
    for rows, (_, fields) in enumerate(found, 1):
        widths.add(len(fields))
        ends.add(fields[-1])
    if len(widths) != 1 or widths == {wide} or rows < 2 or left_open(data, rows) is not None:
        return ""
    each = widths.pop()
    first = f"Each row has {each} fields, and the header has {wide}: "
    if each == wide + 1 and ends == {""}:
        return first + "all rows end in a comma. Name the column behind it, or take it away."
    return first + (
        "a name is missing in the header. Write one for each field." if each > wide
        else "the header has a name too many, or the rows lack a field."
    )


def closed_late(data: bytes, number: int) -> str:
    """A sentence if a field of this record has both a line end and a comma, since its quote then seems to be closed too
    late; else "".
    """
    ((line, fields),) = chosen(data, number)
    place = next((i for i, value in enumerate(fields) if "\n" in value and "," in value), None)
    if place is None:
        return ""
    begins = line + sum(value.count("\n") for value in fields[:place])
    return (
        f'The quote that opens on line {begins} is closed only on line {begins + fields[place].count(chr(10))}, so the'
        f' lines between are one value. Write the " that is missing on line {begins}, or take away the one there.'
    )


def quoted_value(value: str) -> str:
    """A value between backticks, as the file has it. A long value is cut."""
    return f"`{plain(value[:MOST_OF_VALUE])}{'...' if len(value) > MOST_OF_VALUE else ''}`"


def at_record(fault: Fault, line: int) -> str:
    return f"{fault.file}, line {line}, record {fault.record}"


def utf8(table: Table, fault: Fault, data: bytes, run: Run) -> list[str]:
    at = fault.at
    byte = f"The byte 0x{data[at]:02X} here is no UTF-8." if at < len(data) else "The file ends within a character."
    return [spot(fault.file, data, at), f"{byte} {how_to_convert(data, fault.file, run)}"]


def header(table: Table, fault: Fault, data: bytes, run: Run) -> list[str]:
    found = next((fields for _, fields in records(data)), None)
    wanted = [column.name for column in table.columns]
    if found is None:
        return [f"{fault.file} holds nothing. Its first line names the columns: {','.join(map(plain, wanted))}"]
    column = fault.column
    count = sum(folded(name) == folded(column) for name in found)
    first = (
        f"The header of {fault.file} names {plain(column)} {count} times; each declared column stands there once."
        if count else f"The header of {fault.file}, its first line, has no column {plain(column)}."
    )
    shown = (
        f"\n    found:    {cut_text(','.join(found), columns() - 14)}"
        f"\n    expected: {cut_text(','.join(wanted), columns() - 14)}"
    )
    return [
        first + shown, "Columns may come in any order, and further ones are passed over.",
        why_no_header(found, wanted, column, count, convert_line(fault.file, run)),
    ]


def why_no_header(found: list[str], wanted: list[str], column: str, count: int, convert: str) -> str:
    """A guess at why the header lacks the column or has it twice, and what to do; "" without a guess."""
    separator = next((s for s in SEPARATORS if len(found) == 1 and s in found[0]), None)
    if separator:
        return (
            f"The file looks separated by {SEPARATORS[separator]}, as spreadsheets in many countries write it. This"
            f" writes it with commas:{convert}"
        )
    if count:
        return ""
    if (
        any(re.fullmatch(r"[+-]?[0-9]+", name) for name in found)
        or not any(folded(name) in map(folded, wanted) for name in found) and len(found) == len(wanted) > 1
        and not any(nearest(w, found) for w in wanted)
    ):
        return f"The first line looks like a row. Put the names above it: {plain(','.join(wanted))}"
    padded = next((name for name in found if name != name.strip() and folded(name.strip()) == folded(column)), None)
    if padded:
        return f"Blanks count: {quoted_value(padded)} has some at its ends."
    near = nearest(column, found)
    return f"Is it {quoted_value(near)}? Give it the column's name." if near else ""


def wrong_width(table: Table, fault: Fault, data: bytes, run: Run) -> list[str]:
    (_, head), (line, fields) = chosen(data, 0, fault.record)
    first = (
        f"{at_record(fault, line)}: this record has {fault.found} field{'' if fault.found == 1 else 's'}, and"
        f" the header has {len(head)}."
    )
    shown = (
        f"\n    header: {cut_text(','.join(head), columns() - 12)}\n    record:"
        f" {cut_text(' | '.join(f[:MOST_OF_VALUE] for f in fields[:MOST_FIELDS]), columns() - 12)}"
    )
    opened = left_open(data, fault.record)
    if opened is not None:
        return [
            first,
            spot(fault.file, data, opened),
            (
                'The quote here isn\'t closed: a " is missing behind it, and the field goes on to the end of the file.'
                ' A " within a field in quotes is written twice.'
            ),
        ]
    whole = header_differs(data)
    if whole:
        return [first + shown, whole]
    late = closed_late(data, fault.record)
    if late:
        return [first + shown, late]
    if len(fields) > len(head):
        return [
            first + shown,
            'An unquoted comma is often the cause: a value with a comma stands in double quotes, as "Paris, capital".',
        ]
    separator = next((s for s in SEPARATORS if s in "".join(fields)), None)
    looks = (
        f"The record looks separated by {SEPARATORS[separator]}, and the header isn't: write it with commas. Where the"
        f" whole file is separated so, this does it:{convert_line(fault.file, run)}" if separator
        else "A field is missing, or a line is cut. An empty field keeps its comma."
    )
    return [first + shown, looks]


def field(table: Table, fault: Fault, data: bytes, run: Run) -> list[str]:
    (_, head), (line, fields) = chosen(data, 0, fault.record)
    column = next(c for c in table.columns if c.name == fault.column)
    value = fields[column_place(head, column.name)]
    first = (
        f"{at_record(fault, line)}, column {plain(column.name)}:"
        f" here stands {quoted_value(value) if value else 'nothing'},"
        f" and the column is {column.type}."
    )
    return [
        first, number_expected(value) if column.is_number else text_expected(value, column.length or 0),
        over_lines(value, line),
    ]


def over_lines(value: str, line: int) -> str:
    """A sentence if a value spans several lines, since its quote is then mostly closed too late; else ""."""
    ends = value.count("\n")
    return (
        f'The value begins with a " on line {line}, and has {ends} line ends. Where a " is missing that closes it on'
        ' that line, write it there.' if ends else ""
    )


def number_expected(value: str, of_words: str = "For texts declare the column as VARCHAR(n).") -> str:
    """What a field of a number column has to be, and what this value seems to be. `of_words` is the advice for a value
    that seems to be neither number nor date nor null.
    """
    expected = "A number is digits, with - or + before them where there is a sign."
    if re.fullmatch(r"[+-]?[0-9]+", value, re.ASCII):
        return (
            f"A number is from {LEAST_NUMBER:,} to {MOST_NUMBER:,} (64 bits), and this one is"
            f" {'smaller' if number_of(value) < 0 else 'larger'}."
        )
    if not value or value.upper() in ("NULL", "\\N", "NA", "N/A", "NAN", "NONE"):
        return (
            f"There are no nulls. {expected} Write a number that stands for none, as 0 or -1, or leave the record out."
        )
    if re.fullmatch(r"\s*[+-]?[0-9]+\s*", value):
        return f"{expected} Blanks beside it count: take them away."
    if re.fullmatch(r"[0-9]{4}-[0-9]{2}-[0-9]{2}.*|[0-9]{1,2}[./][0-9]{1,2}[./][0-9]{2,4}", value):
        return f"{expected} This looks like a date: declare the column as VARCHAR(10), and write dates as YYYY-MM-DD."
    if re.fullmatch(r"[+-]?[0-9]{1,3}([,.' \u00a0\u202f][0-9]{3})+", value):
        return (
            f"{expected} Without the marks between thousands it is {re.sub('[^0-9+-]', '', value)}; a decimal is stored"
            " as an integer of the smallest unit, as cents."
        )
    if re.fullmatch(r"[+-]?[0-9]*[.,][0-9]*", value):
        return (
            f"{expected} Decimals are stored as integers of the smallest unit, as cents in the place of euros; 5.0 is"
            " written 5."
        )
    return f"{expected} {of_words}"


def text_expected(value: str, most: int) -> str:
    return (
        f"The value has {len(value):,} characters, and at most {most:,} fit. Declare a longer text,"
        f" VARCHAR({len(value)}) or more, or shorten the value."
    )


def key(table: Table, fault: Fault, data: bytes, run: Run) -> list[str]:
    (_, head), (line, fields), (earlier, before) = chosen(data, 0, fault.record, fault.earlier)
    for tokens in table.keys:
        at = [column_place(head, token.name) for token in tokens]
        if [fields[i] for i in at] == [before[i] for i in at] or all(
            is_same(table, t, fields[i], before[i]) for t, i in zip(tokens, at)
        ):
            names, values = series(plain(t.name) for t in tokens), ", ".join(quoted_value(fields[i]) for i in at)
            key_there = key_in_schema(tokens[0], run)
            break
    return [
        (
            f"{at_record(fault, line)}: {values} stands in the key {names} already, on line {earlier} (record"
            f" {fault.earlier}).\n    line {earlier}: {cut_text(','.join(before), columns() - 20)}\n    line {line}:"
            f" {cut_text(','.join(fields), columns() - 20)}"
        ),
        (
            "No two records have the same values in a PRIMARY KEY or UNIQUE. Remove one of the two, or the key from the"
            f" schema{key_there}."
        ),
    ]


def key_in_schema(column: Token, run: Run) -> str:
    """The schema line that declares the key of this column, and whether the key was guessed from rows."""
    data = read(run.schema_file)
    guessed = ", where it was guessed from the rows of that time" if data.startswith(b"-- Proposed from") else ""
    return f", {plain(run.schema_file)}, line {data[:column.start].count(10) + 1}{guessed}"


def is_same(table: Table, token: Token, one: str, other: str) -> bool:
    """Whether two fields spell the same value: as numbers, 7 and 007 are equal."""
    return one == other or is_of_numbers(table, token) and number_of(one) == number_of(other)


def is_of_numbers(table: Table, token: Token) -> bool:
    column = table.column(token.name)
    return column is not None and column.is_number
