"""A place in a file: its line and column, and the text of the line with a mark below the place."""
from __future__ import annotations

import unicodedata

from .terminal import columns

INDENT, DOTS = 4, "..."


def plain(text: str) -> str:
    """Text that is safe on a terminal: control characters, and bytes that are no UTF-8, are escaped."""
    return "".join(
        (
            c if c.isprintable()
            else f"\\x{ord(c) - 0xDC00:02x}" if "\udc80" <= c <= "\udcff" else c.encode("unicode_escape").decode()
        )
        for c in text
    )


def text_width(text: str) -> int:
    return sum(2 if unicodedata.east_asian_width(c) in "WF" else 0 if unicodedata.combining(c) else 1 for c in text)


def spot(file: str, data: bytes, at: int, length: int = 1) -> str:
    """`FILE, line L, column C`, then the line, then a mark below the place. Columns count characters, from 1."""
    at = min(at, len(data))
    while data[at:at + 1] >= b"\xc0" and b"\x80" <= data[at + length:at + length + 1] < b"\xc0":
        length += 1
    start = data.rfind(b"\n", 0, at) + 1
    end = data.find(b"\n", at)
    line = data[start:len(data) if end < 0 else end].rstrip(b"\r")
    number = data.count(b"\n", 0, at) + 1
    head, tail = at - start, at - start + length
    before, marked, behind = map(without_mark, (line[:head], line[head:tail], line[tail:]))
    return f"{plain(file)}, line {number}, column {len(before) + 1}\n" + marked_line(before, marked, behind)


def without_mark(part: bytes) -> str:
    return part.decode("utf-8", "surrogateescape").replace("\ufeff", "")


def cut_text(text: str, most: int, at_front: bool = False) -> str:
    """Text that is safe on a terminal, cut at its end or its front to `most` columns."""
    text = plain(text.replace("\t", " "))
    if text_width(text) <= most:
        return text
    kept = text[-most:] if at_front else text[:most]
    while kept and text_width(kept) > most - len(DOTS):
        kept = kept[1:] if at_front else kept[:-1]
    return DOTS + kept if at_front else kept + DOTS


def marked_line(before: str, marked: str, behind: str) -> str:
    """The line, cut to the terminal's width, and the mark."""
    room = columns() - INDENT
    before = cut_text(before, room * 3 // 5, at_front=True)
    marked = cut_text(marked, room - text_width(before))
    behind = cut_text(behind, room - text_width(before) - text_width(marked))
    mark = "^" * max(text_width(marked), 1)
    return f"{' ' * INDENT}{before}{marked}{behind}\n{' ' * (INDENT + text_width(before))}{mark}"
