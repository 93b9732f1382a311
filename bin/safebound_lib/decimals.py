"""Columns of decimals. The program's numbers are integers: it reads such a column as text, until `safebound convert
--cents` writes it in whole cents.
"""
from __future__ import annotations

import re
import shlex

from safebound.decimals import CENTS, digits_of, first_decimal, has_thousands, scale_of, scaled
from safebound.sql_texts import LEAST_NUMBER, MOST_NUMBER, folded, name_of, typed_name

from .near import series
from .records import column_place
from .spot import plain
from .words import Misused

MOST_DIGITS = 18


def units(digits: int) -> str:
    return "cents" if digits == CENTS else f"{10 ** digits}ths"


def new_column_name(name: str, digits: int) -> str:
    """The name of the new column of whole numbers."""
    unit = units(digits)
    return f"{name}{'_' if re.fullmatch('[A-Za-z0-9_]+', name) else ' '}{unit.upper() if name.isupper() else unit}"


def line_to_paste(word: str, name: str, digits: int) -> str:
    """The command that writes a column in whole numbers. `word` is the file's name as the user wrote it on the command
    line.
    """
    more = "" if digits == CENTS else f" --digits {digits}"
    return f"\n    safebound convert {plain(word)} --cents {plain(shlex.quote(name_of(name)))}{more}"


def of_decimals(name: str, values: dict[str, int], word: str) -> str:
    """A sentence on a column whose values are all decimals, and the command that writes it in cents."""
    first, digits = first_decimal(values), scale_of(values)
    if first is None:
        return ""
    return (
        f"{plain(name)} has decimals, as `{plain(first)}` on line {values[first]}, and numbers are integers here: so it"
        " is proposed as a text, and 12.5 and 12.50 would be two values. Store the smallest unit: this writes it in"
        f" {units(digits)}, {scaled(first, digits)} for {plain(first)}, as a column"
        f" {plain(typed_name(new_column_name(name_of(name), digits)))}:{line_to_paste(word, name, digits)}"
    )


def in_whole_numbers(file: str, records: list[list[str]], name: str, digits: int) -> str:
    """Writes a column of the records in whole numbers, under a new name. Returns a sentence on what was done."""
    header = records[0] if records else []
    if folded(name) not in map(folded, header):
        raise Misused(f"{plain(file)} has no column {plain(name)}. Its columns are {series(map(plain, header))}")
    at = column_place(header, name)
    for number, record in enumerate(records[1:], 1):
        if at < len(record) and record[at]:
            refuse_value(file, number, record[at], name, digits)
            record[at] = scaled(record[at], digits)
    records[0][at] = new_column_name(records[0][at], digits)
    return f"{plain(name)} is now {plain(typed_name(records[0][at]))}, in {units(digits)}"


def refuse_value(file: str, number: int, value: str, name: str, digits: int) -> None:
    """Refuses a value that isn't a decimal, or that would lose digits. The user has to decide how to change it."""
    has, where = digits_of(value), f"{plain(file)}, record {number}: {plain(name)} is `{plain(value)}`"
    if has is None:
        raise Misused(f"{where}, and this is no number. Write one there; nothing was written")
    if has_thousands(value) and digits < 3:
        raise Misused(f"{where}. Where the comma stands between thousands, take it away; nothing was written")
    if has > digits:
        line = line_to_paste(shlex.quote(file), name, has)
        raise Misused(f"{where}, which has {has} digits behind its point. Nothing was written; this keeps them:{line}")
    if not LEAST_NUMBER <= int(scaled(value, digits)) <= MOST_NUMBER:
        raise Misused(f"{where}, which is past 64 bits in {units(digits)}; nothing was written")
