"""Text tables, used by `str()` of bounds and plans and by `explain()`."""

from __future__ import annotations

from typing import Sequence


def text_table(header: Sequence[str], rows: Sequence[Sequence[object]]) -> str:
    """A text table, one line for each row. Numbers are aligned to the right, texts to the left."""
    texts = [list(header), *([str(cell) for cell in row] for row in rows)]
    is_number = [bool(rows) and all(isinstance(row[at], int) for row in rows) for at in range(len(header))]
    wide = [max(len(line[at]) for line in texts) for at in range(len(header))]
    return "\n".join("  ".join(_cell(*cell) for cell in zip(line, wide, is_number)).rstrip() for line in texts)


def _cell(text: str, wide: int, is_number: bool) -> str:
    return text.rjust(wide) if is_number else text.ljust(wide)
