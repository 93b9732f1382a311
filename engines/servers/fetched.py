"""The statements that servers of a cluster get, and the numbers of rows that they send, from EXPLAIN."""

from __future__ import annotations

import re
from typing import Any, Callable, Iterator, NamedTuple

PREPARED = re.compile(r"\bWHERE\b|\bGROUP BY\b|\bcount\(", re.IGNORECASE)


class Fetch(NamedTuple):
    """The statement that a server gets, and the number of rows that it sends."""

    statement: str
    rows: int

    @property
    def takes_whole_table(self) -> bool:
        """Whether all rows of a table are sent unchanged."""
        return not PREPARED.search(self.statement)


def fetches(ask: Callable[[str], list[tuple[Any, ...]]], sql: str) -> list[Fetch]:
    """The statements that servers get when the statement runs, and the numbers of rows that they send."""
    return list(_of(ask(f"EXPLAIN (ANALYZE, VERBOSE, FORMAT JSON) {sql}")[0][0][0]["Plan"]))


def _of(node: dict[str, Any]) -> Iterator[Fetch]:
    if "Remote SQL" in node:
        yield Fetch(node["Remote SQL"], node["Actual Rows"] * node["Actual Loops"])
    for below in node.get("Plans", ()):
        yield from _of(below)
