"""`safebound convert`: writes a text file in UTF-8, and a table as CSV with commas, as the program reads them."""
from __future__ import annotations

import codecs
import csv
import io
import itertools
import os
import re
import shlex
import tempfile
from collections.abc import Iterator
from dataclasses import dataclass

from . import program
from .decimals import in_whole_numbers
from .near import series
from .spot import plain
from .table import CENTS, DIGITS, ENCODING, OUTPUT
from .words import Line, Misused, positional_words

SEPARATORS = {",": "commas", ";": "semicolons", "\t": "tabs", "|": "bars"}
LOOKED_AT = 100
BYTE_ORDER_MARKS = (
    (codecs.BOM_UTF8, "utf-8-sig"),
    (codecs.BOM_UTF32_LE, "utf-32"),
    (codecs.BOM_UTF32_BE, "utf-32"),
    (codecs.BOM_UTF16_LE, "utf-16"),
    (codecs.BOM_UTF16_BE, "utf-16"),
)
ENCODING_NAMES = {
    "utf-8": "UTF-8",
    "utf-8-sig": "UTF-8 with a byte order mark",
    "cp1252": "Windows-1252 (Latin-1)",
    "latin-1": "Latin-1",
    "utf-16": "UTF-16",
    "utf-16-le": "UTF-16",
    "utf-16-be": "UTF-16",
    "utf-32": "UTF-32",
}
NOT_TEXT = (
    (
        b"PK\x03\x04",
        "is a workbook or an archive, and no text. Save its sheet as CSV (in Excel: CSV UTF-8), and take that",
    ),
    (
        b"\xd0\xcf\x11\xe0",
        "is a workbook of an old Excel, and no text. Save its sheet as CSV (in Excel: CSV UTF-8), and take that",
    ),
    (b"\x1f\x8b", "is packed: unpack it first (gunzip)"),
)


@dataclass
class Sheet:
    """A table's text: its separator, the number of lines before the first record, and the records."""
    separator: str
    lines_before: int
    records: list[list[str]]


def convert(line: Line) -> int:
    files = positional_words(line.words[1:])
    if len(files) != 1:
        one = shlex.quote(files[0]) if files else "FILE"
        raise Misused(f"convert takes one file{' at a time' * (len(files) > 1)}:\n    safebound convert {plain(one)}")
    file, data = files[0], read(files[0])
    encoding = line.own.get(ENCODING.word) or encoding_of(data)
    text = decode(file, data, encoding)
    sheet = None if file.lower().endswith(".sql") else sheet_of(text)
    commas = " with commas" if sheet else ""
    output = line.own.get(OUTPUT.word)
    cents = in_cents(line, file, sheet)
    is_right = encoding == "utf-8" and (not sheet or sheet.separator == "," and not sheet.lines_before)
    if output is None and not cents and is_right:
        program.write(1, f"{plain(file)}: is UTF-8{commas} already; nothing was written\n")
        return 0
    new = (csv_text(sheet) if sheet else text).encode()
    was = ENCODING_NAMES.get(encoding, encoding) + (f", separated by {SEPARATORS[sheet.separator]}" if sheet else "")
    says = f"{was}; now it is UTF-8{commas}{cents}"
    return write_result(file, data, new, output, says, ragged_warning(sheet) if sheet else "", bool(cents))


def in_cents(line: Line, file: str, sheet: Sheet | None) -> str:
    """Changes the column of `--cents` to whole numbers, and returns a sentence on it; "" without this option."""
    name, digits = line.own.get(CENTS.word), line.own.get(DIGITS.word, "2")
    if name is None and DIGITS.word not in line.own:
        return ""
    if name is None or sheet is None:
        raise Misused(f"{DIGITS.word} stands beside {CENTS.word}, and both are for tables alone")
    if not re.fullmatch("[1-9]|1[0-8]", digits):
        raise Misused(f"{DIGITS.word} takes a number from 1 to 18: {DIGITS.spelled}")
    return f". {in_whole_numbers(file, sheet.records, name, int(digits))}"


def read(file: str) -> bytes:
    try:
        with open(file, "rb") as f:
            data = f.read()
    except IsADirectoryError:
        raise Misused(folder_message(file)) from None
    except OSError as fault:
        raise Misused(f"{plain(file)}: {fault.strerror}") from None
    if not_text_message(data):
        raise Misused(f"{plain(file)} {not_text_message(data)}")
    return data


def not_text_message(data: bytes) -> str:
    """Says of a workbook or a packed file what it is and what the user has to do; "" for any other file."""
    return next((says for start, says in NOT_TEXT if data.startswith(start)), "")


def folder_message(folder: str) -> str:
    tables = sorted(name for name in os.listdir(folder) if name.lower().endswith((".csv", ".txt", ".tsv")))
    file = os.path.join(folder, tables[0]) if tables else "FILE"
    return (
        f"{plain(folder)} is a folder, and convert takes one file at a time:\n    safebound convert"
        f" {plain(shlex.quote(file))}"
    )


def encoding_of(data: bytes) -> str:
    """The encoding that the byte order mark names. Without a mark it is guessed from the bytes."""
    marked = next((name for mark, name in BYTE_ORDER_MARKS if data.startswith(mark)), None)
    if marked:
        return marked
    # In UTF-16 every second byte of most texts is 0.
    for first, name in ((1, "utf-16-le"), (0, "utf-16-be")):
        part = data[first:2000:2]
        if len(part) > 1 and part.count(0) > len(part) // 2:
            return name
    return next(name for name in ("utf-8", "cp1252", "latin-1") if is_encoded_in(data, name))


def is_encoded_in(data: bytes, encoding: str) -> bool:
    try:
        data.decode(encoding)
    except UnicodeDecodeError:
        return False
    return True


def decode(file: str, data: bytes, encoding: str) -> str:
    try:
        return data.decode(encoding).removeprefix("\ufeff")
    except LookupError:
        raise Misused(
            f"there is no encoding {plain(encoding)}; some are utf-8, latin-1, cp1252, cp850, utf-16"
        ) from None
    except UnicodeError:
        raise Misused(f"{plain(file)} is not in {plain(encoding)}: give another {ENCODING.word}") from None


def sheet_of(text: str) -> Sheet:
    """The records of a text. A first line `sep=;`, as Excel writes it, names the separator. Without it, the separator
    that splits the records most evenly is taken.
    """
    first, _, rest = text.partition("\n")
    named = first.rstrip("\r").removeprefix("sep=")
    if first.startswith("sep=") and named in SEPARATORS:
        return Sheet(named, 1, list(parse_records(rest, named)))
    separator = max(SEPARATORS, key=lambda one: evenness(text, one))
    return Sheet(separator, 0, list(parse_records(text, separator)))


def parse_records(text: str, separator: str) -> Iterator[list[str]]:
    csv.field_size_limit(2**31 - 1)
    return (record for record in csv.reader(io.StringIO(text, newline=""), delimiter=separator) if record)


def evenness(text: str, separator: str) -> tuple[bool, int, int]:
    """How well a separator fits, as a tuple to compare: whether it splits the header, how many records have as many
    fields as the header, and how many fields the header has.
    """
    widths = [len(record) for _, record in zip(range(LOOKED_AT), parse_records(text, separator))]
    wide = widths[0] if widths else 1
    return wide > 1, widths.count(wide), wide


def csv_text(sheet: Sheet) -> str:
    out = io.StringIO()
    csv.writer(out, lineterminator="\r\n").writerows(sheet.records)
    return out.getvalue()


def ragged_warning(sheet: Sheet) -> str:
    """A warning that names the records with more or fewer fields than the header; "" if all have as many."""
    wide = len(sheet.records[0]) if sheet.records else 0
    found = [number for number, record in enumerate(sheet.records) if len(record) != wide]
    said = f"record {found[0]}" if len(found) == 1 else f"records {series(map(str, found), most=4)}"
    return f"The header has {wide} fields, and {said} has another number.\n" if found else ""


def unused_name(name: str) -> str:
    """A name that no file has: `name`, or `name` with a number after it."""
    number = next(n for n in itertools.count(1) if not os.path.lexists(f"{name}{n if n > 1 else ''}"))
    return f"{name}{number if number > 1 else ''}"


def write_result(
    file: str, old: bytes, new: bytes, output: str | None, says: str, warning: str, numbers_kept: bool
) -> int:
    """Writes the new text, and returns the exit status. Only the input itself may be overwritten; its old bytes are
    first kept in a file of another name.
    """
    folder, base = os.path.split(file)
    target = output or os.path.join(
        folder, base.lower() if base.lower().endswith((".csv", ".sql")) else os.path.splitext(base)[0].lower() + ".csv"
    )
    is_same = os.path.exists(target) and os.path.samefile(file, target)
    kept = (unused_name(f"{file}.original") if numbers_kept else f"{file}.original") if is_same else None
    if target == "-":
        program.write(1, new.decode())
        return 0
    if os.path.exists(target) and not kept:
        raise Misused(
            f"{plain(target)} is there already, and nothing is written over: {OUTPUT.word} FILE names another file"
        )
    try:
        if kept:
            write_new(kept, old)
        replace_file(target, new, os.stat(file).st_mode & 0o777)
    except FileExistsError:
        raise Misused(
            f"{plain(kept or target)} is there already, and nothing is written over: give that file another name"
        ) from None
    except OSError as fault:
        raise Misused(f"{plain(fault.filename or target)}: {fault.strerror}") from None
    was = f"The file as it was is {plain(kept)}." if kept else f"{plain(file)} is as it was."
    program.write(1, f"{plain(target)}: was {says}. {was}\n")
    program.say(warning)
    return 0


def write_new(file: str, data: bytes) -> None:
    with open(file, "xb") as f:
        f.write(data)


def replace_file(target: str, data: bytes, mode: int) -> None:
    """Replaces a file at once. After an error the target is unchanged."""
    number, name = tempfile.mkstemp(dir=os.path.dirname(target) or ".", prefix=".safebound-")
    try:
        with os.fdopen(number, "wb") as f:
            f.write(data)
        os.chmod(name, mode)
        os.replace(name, target)
    except OSError:
        os.unlink(name)
        raise
