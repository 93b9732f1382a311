"""Reads the records of a table file, each with the number of the line where it begins."""
from __future__ import annotations

import csv
import io
import re
import sys
from collections.abc import Iterator

from safebound.sql_texts import folded

# A field in quotes, the end of a field, and the end of a line.
CLOSED = re.compile(r'"(?:[^"]|"")*"(?!")')
FIELD_END = re.compile(r"[,\r\n]|$(?![\r\n])")
LINE_END = re.compile(r"\r\n|\r|\n")


def records(data: bytes, first: int = 0) -> Iterator[tuple[int, list[str]]]:
    """Pairs of a line number, counted from 1, and the fields of the record that begins on that line. Empty lines aren't
    records.
    """
    csv.field_size_limit(sys.maxsize)
    reader, number = csv.reader(io.StringIO(text_of(data), newline="")), 0
    while True:
        line = reader.line_num + 1
        try:
            fields = next(reader)
        except StopIteration:
            return
        if fields and number >= first:
            yield line, fields
        number += bool(fields)


def chosen(data: bytes, *numbers: int) -> list[tuple[int, list[str]]]:
    """The records with these numbers; record 0 is the header."""
    found = {}
    for number, record in enumerate(records(data)):
        if number in numbers:
            found[number] = record
        if number >= max(numbers):
            break
    return [found[number] for number in numbers]


def text_of(data: bytes) -> str:
    return data.decode("utf-8", "surrogateescape").removeprefix("\ufeff")


def left_open(data: bytes, number: int) -> int | None:
    """The place, in bytes, of the quote in this record that is never closed, or None."""
    mark = len(data) - len(data.removeprefix(b"\xef\xbb\xbf"))
    text = data[mark:].decode("latin-1")
    at = begin_of(text, chosen(data, number)[0][0])
    while at < len(text):
        if text[at] == '"':
            closed = CLOSED.match(text, at)
            if not closed:
                return mark + at
            at = closed.end()
        at = end_of(FIELD_END, text, at)
        if text[at - 1:at] in ("\r", "\n"):
            return None
    return None


def begin_of(text: str, line: int) -> int:
    """The place where line `line` begins, counted from 1. Lines end in CR, LF or both, as in the csv module."""
    at = 0
    for _ in range(line - 1):
        at = end_of(LINE_END, text, at)
    return at


def end_of(pattern: re.Pattern[str], text: str, at: int) -> int:
    """Where the next match ends. Without a match, the end of the text."""
    found = pattern.search(text, at)
    return found.end() if found else len(text)


def column_place(header: list[str], name: str) -> int:
    return [folded(field) for field in header].index(folded(name))
