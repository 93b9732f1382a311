"""Table files from which a schema is proposed: their names, columns and values, and faults that prevent a proposal."""
import os
import re
import shlex
from collections.abc import Iterator
from dataclasses import dataclass, field
from functools import cached_property
from typing import Optional

from safebound.decimals import digits_of, first_decimal
from safebound.sql_texts import LEAST_NUMBER, MOST_NUMBER, MOST_TABLE_BYTES, folded, written_name

from .convert import SEPARATORS, encoding_of, not_text_message
from .decimals import of_decimals
from .explain.tables import header_differs, closed_late, number_expected, quoted_value as marked
from .near import series
from .records import left_open, records
from .spot import plain
from .terminal import saying

MOST_COLUMNS = 64
TABLE_NAME = re.compile(r"[A-Za-z0-9_]+")
# Such a number is printed exactly as it was written: it has no leading zeros and no sign +.
NUMBER = re.compile(r"0|-?[1-9][0-9]*")
LIKE_A_VALUE = re.compile(r"[+-]?[0-9][0-9.,:/ -]*|\d{4}-\d{2}-\d{2}.*")
NO_RECORD: tuple[int, list[str]] = (0, [])


class NoTable(ValueError):
    """The file gives no table. The message says why, and what to do."""


@dataclass
class Column:
    """A column: its name as a schema writes it, and its different values, each with the line of its first row."""
    name: str
    place: int
    values: dict[str, int] = field(default_factory=dict)

    @cached_property
    def is_number(self) -> bool:
        return bool(self.values) and all(
            NUMBER.fullmatch(value) and LEAST_NUMBER <= int(value) <= MOST_NUMBER for value in self.values
        )

    @property
    def length(self) -> int:
        return max((len(value) for value in self.values), default=0) or 1

    @property
    def has_gaps(self) -> bool:
        """Whether some fields are empty and all others are numbers."""
        return (
            "" in self.values and len(self.values) > 1
            and all(NUMBER.fullmatch(value) for value in self.values if value)
        )

    @property
    def odd(self) -> Optional[str]:
        """In a column of numbers with fewer other values: the first other value. A number with a leading zero doesn't
        count: a column of such numbers is meant as text.
        """
        return next(iter(self.odd_values), None)

    @cached_property
    def odd_values(self) -> list[str]:
        """The different values but for which a column would be one of numbers or decimals, or nothing: as many as a
        third may be no numbers, and as few as slips may be decimals.
        """
        found = [value for value in self.values if value and not value.isdigit() and not NUMBER.fullmatch(value)]
        strange = [value for value in found if digits_of(value) is None]
        if strange and len(self.values) > len(strange) and are_few(len(strange), len(self.values)):
            return strange
        return found if are_slips(len(found), len(self.values)) else []

    @property
    def remark(self) -> str:
        """What kept a column from being one of numbers, and on which line first; "" where nothing did."""
        odd = [*self.odd_values, *([""] if "" in self.values and (self.odd_values or self.has_gaps) else [])]
        what = series((marked(value) if value else "empty fields" for value in odd), most=4)
        first = min(map(self.values.__getitem__, odd), default=0)
        return f"{self.kind_of_others}, but for {what}, first on line {first}" if odd else ""

    @property
    def kind_of_others(self) -> str:
        """What the values are that aren't odd."""
        odd = set(self.odd_values)
        others = [value for value in self.values if value and value not in odd]
        return "decimals" if first_decimal(others) is not None else "numbers"

    @property
    def over_lines(self) -> Optional[str]:
        """The first value that has both a line end and a comma. Its closing quote may be missing, so that it swallowed
        rows.
        """
        return next((value for value in self.values if "\n" in value and "," in value), None)


@dataclass
class Sheet:
    """A table file: the name of its table as a schema writes it, its columns, its rows, and what a user has to know."""
    file: str
    name: str
    columns: list[Column]
    rows: int = 0
    says: list[str] = field(default_factory=list)

    def is_key(self, column: Column) -> bool:
        """Whether a column has no repeated value. Always False for fewer than two rows, which show nothing."""
        return self.rows > 1 and len(column.values) == self.rows


def are_slips(some: int, of: int) -> bool:
    """Whether `some` values of `of` are so few that they look like slips: one of at least three, or at most a tenth."""
    return some == 1 and of > 2 or some * 10 <= of


def are_few(some: int, of: int) -> bool:
    """Whether `some` values of `of` are so few that the others say what a column is."""
    return are_slips(some, of) or some * 3 <= of


def sheet_of(file: str, typed_name: str) -> Sheet:
    """The table of a file. `typed_name` is the file's name as the user wrote it on the command line."""
    sheet = Sheet(file, table_name(file, typed_name), [])
    base = os.path.basename(file)
    if base != base.lower():
        sheet.says.append(f"The program looks for {plain(base.lower())}, in lower case: rename {plain(base)}.")
    if sheet.name.startswith('"'):
        sheet.says.append(
            f"A query writes this table in double quotes too, {sheet.name}: the word can't be a name without them."
        )
    others = [name for name in os.listdir(os.path.dirname(file) or ".") if name.lower() == base.lower() != name]
    if others and base == base.lower():
        said = series(map(plain, sorted(others)))
        sheet.says.append(f"{said} is there too, and isn't read: upper and lower case count.")
    data = bytes_of(file, typed_name)
    found = records(data)
    line, header = next(found, NO_RECORD)
    refuse_header(typed_name, header)
    refuse_title(data, header)
    add_columns(sheet, header)
    with saying(f"looking at {plain(file)} .."):
        fill(sheet, found, len(header), data)
    for column in sheet.columns:
        decimals = of_decimals(column.name, column.values, typed_name)
        sheet.says += [decimals] if decimals else odd_values_warnings(column)
        sheet.says += repeats_warnings(sheet, column, data)
    if sheet.rows == 0 and next(records(data, 1), None) is None:
        sheet.says.append("There are no rows: types and lengths are guesses.")
    return sheet


def odd_values_warnings(column: Column) -> list[str]:
    """Sentences on values that give a column another type than was probably meant."""
    says, odd, long = [], column.odd, column.over_lines
    if odd is not None:
        others = [marked(value) for value in column.odd_values[1:]]
        others += [f"empty fields, first on line {column.values['']}"] if "" in column.values else []
        also = f", and also {series(others, most=4)}" if others else ""
        says.append(
            f"{column.name} has {marked(odd)} on line {column.values[odd]}{also}. All its other values are"
            f" {column.kind_of_others}: so it is proposed as a text, and can't be compared with numbers."
            f" {number_expected(odd, 'Write a number there, or leave the record out.')}"
        )
    elif column.has_gaps:
        says.append(
            f"{column.name} has empty fields beside its numbers, first on line {column.values['']}, and tables have no"
            " nulls: it is proposed as a text. To compare numbers, write one for none, as 0 or -1."
        )
    if long is not None:
        says.append(
            f'On line {column.values[long]} begins a value of {column.name} that holds line ends and commas:'
            f' {marked(long)}. If these are rows of their own, a " is missing that closes the value, or one too many'
            ' opens it.'
        )
    return says


def repeats_warnings(sheet: Sheet, column: Column, data: bytes) -> list[str]:
    """A sentence on repeated values in a column that is named like the table's key."""
    repeats = sheet.rows - len(column.values)
    if (
        not repeats or not are_slips(repeats, sheet.rows) or not KEY_NAME.fullmatch(column.name)
        and not is_key_name_of(column.name, sheet.name)
    ):
        return []
    seen: dict[str, int] = {}
    for line, fields in records(data, 1):
        value = fields[column.place] if column.place < len(fields) else None
        if value in seen:
            return [
                f"{column.name} is named like a key, and {marked(value)} stands there on lines {seen[value]} and"
                f" {line}: so it is no key. Give one of the two another value, or remove one."
            ]
        if value is not None:
            seen[value] = line
    return []


KEY_NAME = re.compile("ID|NO|NR|NUM|NUMBER|CODE|KEY")


def is_key_name_of(name: str, table: str) -> bool:
    """Whether a column is named like the key of a table: PUPIL_ID or PUPILID in PUPILS."""
    stem = re.sub("_?(ID|NO|NR|NUM|NUMBER|CODE|KEY)$", "", name)
    return stem != name and stem in (table, table.removesuffix("S"))


def table_name(file: str, typed_name: str) -> str:
    base = os.path.basename(file)
    stem, ending = os.path.splitext(base)
    if ending.lower() == ".sql":
        folder = shlex.quote(os.path.dirname(file) or ".")
        raise NoTable(
            "It is the text of a query or a schema, and no table. This proposes a schema from all tables of its"
            f" folder:\n    safebound schema {plain(folder)}"
        )
    if ending.lower() != ".csv":
        raise NoTable(f"A table's file ends in .csv. This writes it as one:\n    safebound convert {plain(typed_name)}")
    if not TABLE_NAME.fullmatch(stem):
        better = re.sub("[^a-z0-9_]+", "_", stem.lower()).strip("_") or "table1"
        raise NoTable(
            "The file's name is no table's name, which has letters from A to Z, digits and _ alone. Rename it, as to"
            f" {better}.csv"
        )
    return written_name(stem.upper())


def bytes_of(file: str, typed_name: str) -> bytes:
    try:
        with open(file, "rb") as f:
            data = f.read(MOST_TABLE_BYTES + 1)
    except OSError as fault:
        raise NoTable(f"It can't be read: {fault.strerror}.") from None
    if len(data) > MOST_TABLE_BYTES:
        raise NoTable(
            "It is longer than 64 MiB, which is the most for a table. Leave out columns and rows that no query needs."
        )
    if not_text_message(data):
        raise NoTable(f"It {not_text_message(data)}.")
    if encoding_of(data) not in ("utf-8", "utf-8-sig"):
        first = first_byte_not_utf8(data)
        raise NoTable(f"It isn't in UTF-8{first}. This writes it so:\n    safebound convert {plain(typed_name)}")
    return data


def first_byte_not_utf8(data: bytes) -> str:
    """The place of the first byte that isn't UTF-8: its line, and the text of the value in Windows-1252."""
    try:
        data.decode()
    except UnicodeDecodeError as fault:
        line = data[:fault.start].count(b"\n") + 1
        around = re.split(rb"[,;\t\r\n]", data[:fault.start])[-1] + re.split(rb"[,;\t\r\n]", data[fault.start:])[0]
        return f", first on line {line}, in {marked(around.decode('latin-1'))}" if 0 not in around else ""
    return ""


def refuse_header(typed_name: str, header: list[str]) -> None:
    """Refuses a first record that can't be the names of columns."""
    if not header:
        raise NoTable("It holds nothing. Its first line names the columns, separated by commas.")
    separator = next((s for s in SEPARATORS if s != "," and len(header) == 1 and s in header[0]), None)
    if separator and header[0] == f"sep={separator}":
        raise NoTable(
            f"Its first line, {plain(header[0])}, is a sign for Excel and no header, and it is separated by"
            f" {SEPARATORS[separator]}. This leaves that line out, and writes commas:\n    safebound convert"
            f" {plain(typed_name)}"
        )
    if separator:
        raise NoTable(
            f"It is separated by {SEPARATORS[separator]}. This writes it with commas:\n    safebound convert"
            f" {plain(typed_name)}"
        )
    if any(LIKE_A_VALUE.fullmatch(name) for name in header):
        names = ",".join(f"COLUMN{number}" for number in range(1, len(header) + 1))
        raise NoTable(
            f"Its first line looks like a row ({plain(','.join(header))[:60]}), and has to name the columns. Write a"
            f" line of names above it, as {names[:60]}; if it is names, give them others that don't begin with a digit."
        )


def refuse_title(data: bytes, header: list[str]) -> None:
    """Refuses a title above the header: the first line has one filled field, and the second looks like a line of names.
    """
    line, second = next(records(data, 1), NO_RECORD)
    named = sum(name != "" for name in header)
    if len(header) == 1 < len(second) and (line > 2 or " " in header[0]) and is_header(second):
        raise NoTable(
            f"Line 1 looks like a title, and line {line} like the header. Delete the lines above the header."
        )
    if (
        named == 1 < len(header) - 1 and len(second) == len(header) and is_header(second)
    ):
        raise NoTable(
            f"The first line names 1 of its {len(header)} columns, and line {line} looks like the header. Delete what"
            " stands above that."
        )


def is_header(names: list[str]) -> bool:
    """Whether fields look like the names of columns."""
    return all(names) and not any(map(LIKE_A_VALUE.fullmatch, names))


def add_columns(sheet: Sheet, header: list[str]) -> None:
    """Adds the columns that can be declared, and sentences on the other ones, which a run skips."""
    keys = [folded(name) for name in header]
    unnamed = [str(place + 1) for place, name in enumerate(header) if not name]
    twice = list(dict.fromkeys(name for place, name in enumerate(header) if name and keys.count(keys[place]) > 1))
    padded = [name for name in header if name != name.strip()]
    strange = [name for name in header if any(ord(c) < 32 or "\udc80" <= c <= "\udcff" for c in name)]
    for place, name in enumerate(header):
        if name and name not in strange and keys.count(keys[place]) == 1:
            sheet.columns.append(Column(written_name(name), place))
    if padded:
        sheet.says.append(
            "In the header"
            f" {series(map(marked, padded), most=8)} {'have blanks' if len(padded) > 1 else 'has a blank'} beside the"
            " name, and blanks count. Take them away."
        )
    if unnamed:
        sheet.says.append(
            f"Column {series(unnamed)} has no name in the header, and is left out: give it one to use it."
        )
    if twice:
        sheet.says.append(
            f"The header names {series(map(plain, twice))} more than once (upper and lower case count as one): rename"
            " one of each to use them."
        )
    if strange:
        sheet.says.append(
            f"The header has control characters in {series(map(plain, strange))}: rename them to use them."
        )
    if len(sheet.columns) > MOST_COLUMNS:
        left = [column.name for column in sheet.columns[MOST_COLUMNS:]]
        sheet.says.append(
            f"A table has at most 64 columns, and this file has {len(sheet.columns)}: the first 64 are declared, and"
            f" these aren't: {series(left, most=8)}. Put those that a query needs in the place of others."
        )
        del sheet.columns[MOST_COLUMNS:]
    quoted = [column.name for column in sheet.columns if column.name.startswith('"')]
    if quoted and not padded:
        sheet.says.append(
            "A query writes these names in double quotes too, as they stand here:"
            f" {series(map(plain, quoted), most=8)}."
        )
    if not sheet.columns:
        raise NoTable(" ".join(sheet.says) or "The header names no column.")


def fill(sheet: Sheet, found: Iterator[tuple[int, list[str]]], wide: int, data: bytes) -> None:
    """Adds the values of the records that have as many fields as the header, and a sentence on the other records."""
    ragged, first = 0, None
    for number, (line, fields) in enumerate(found, 1):
        if len(fields) != wide:
            ragged, first = ragged + 1, first or (number, line, len(fields))
            continue
        sheet.rows += 1
        for column in sheet.columns:
            column.values.setdefault(fields[column.place], line)
    if first:
        sheet.says.append(ragged_records(ragged, first, wide, data))


def ragged_records(ragged: int, first: tuple[int, int, int], wide: int, data: bytes) -> str:
    number, line, has = first
    whole = header_differs(data)
    if whole:
        return f"{whole} A run will refuse the file until then."
    late = "" if left_open(data, number) is not None else closed_late(data, number)
    if late:
        return f"{late} A run will refuse the file until then."
    others = f", and {ragged - 1} more records differ too" if ragged > 1 else ""
    why = (
        "A quote of that record isn't closed."
        if left_open(data, number) is not None
        else (
            'An unquoted comma is often the cause: a value with a comma stands in double quotes, as "Paris, capital".'
            if has > wide else "An empty field keeps its comma."
        )
    )
    return f"Line {line} has {has} field{'s' * (has != 1)}, and the header {wide}{others}: a run will refuse it. {why}"
