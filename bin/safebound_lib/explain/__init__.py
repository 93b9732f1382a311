"""The explanation below the line of a fault: what is wrong, where, and what to do."""
from __future__ import annotations

import csv
import importlib
import os
import shlex
import textwrap
from typing import TYPE_CHECKING

from .. import terminal
from ..words import option_of
from ..spot import plain
from ..table import STATS
from ..words import positional_words

if TYPE_CHECKING:
    from ..faults import Fault
    from ..query import Query
    from ..schema import Schema

PARTS = {
    "usage": "usage",
    "read": "reads",
    "schema": "schemas",
    "query": "queries",
    "table": "tables",
    "limit": "limits",
    "stats": "statistics",
    "budget": "budgets",
    "past-bits": "budgets",
    "write": "streams",
    "memory": "streams",
    "memory-limit": "buffers",
}

# Exceptions that come up if a file has changed since the program read it, or if it is nested too deeply or too long for
# this code.
UNEXPLAINED = (OSError, LookupError, ValueError, StopIteration, RecursionError, MemoryError, csv.Error)
PROPOSING = ("run", "plan", "audit", "stats", "picture")
# Lines that begin with one of these are commands for the user to paste. They aren't wrapped.
TO_PASTE = ("    safebound ", "    mv ", "    echo ")


class Run:
    """A run that has ended: its words, the program (if there is one), the folder where the user was before `--data`,
    and whether its schema was proposed.
    """

    def __init__(
        self, words: list[str], program: str | None = None, user_folder: str | None = None, is_proposed: bool = False
    ) -> None:
        self.words, self.program, self.user_folder, self.is_proposed = words, program, user_folder, is_proposed
        self.command = words[0] if words else ""
        found = positional_words(words[1:])
        self.schema_file, self.query_file = (
            (found + ["", ""])[:2] if self.command != "demo" else ("schema.sql", "query.sql")
        )
        self.stats_file = option_of(words[1:], STATS.word) if self.command == "plan" else None
        self.table, self.rows_file = "", None
        if self.command == "append":
            self.stats_file, self.table, self.rows_file = (found[1:] + ["", "", ""])[:3]
            self.query_file = ""

    @property
    def schema(self) -> Schema:
        from ..schema import read_schema
        return read_schema(read(self.schema_file))

    def path_of(self, file: str) -> str:
        """A file's name for a command line that the user types in the current folder."""
        return shlex.quote(os.path.relpath(file, self.user_folder) if self.user_folder else file)

    def line_without_schema(self, query: str | None = None) -> str:
        """A command to paste: this command with a query, without a schema, and with the tables' folder as `--data`."""
        command = self.command if self.command in PROPOSING else "run"
        return (
            f"\n    safebound {command} {plain(shlex.quote(query or self.query_file))} --data"
            f" {plain(self.path_of('.'))}"
        )

    @property
    def named(self) -> tuple[str, str, str | None, str | None]:
        """The files that the command line names."""
        return self.schema_file, self.query_file, self.stats_file, self.rows_file

    @property
    def query(self) -> Query:
        from ..query import read_query
        return read_query(read(self.query_file))


def read(file: str) -> bytes:
    with open(file, "rb") as f:
        return f.read()


def explained(fault: Fault, run: Run) -> str:
    """The explanation of a fault. It ends in a line end."""
    part = importlib.import_module(f".{PARTS[fault.kind]}", __name__)
    try:
        return wrapped_blocks(part.explain(fault, run))
    except UNEXPLAINED:
        # Without an explanation, the fault's line and the exit status stay as they are.
        return ""


def wrapped_blocks(blocks: list[str]) -> str:
    """Wraps each line of each block, and keeps its indentation. Excerpts of texts are coloured."""
    return "".join(terminal.coloured("\n".join(map(wrapped, block.split("\n")))) + "\n" for block in blocks if block)


def wrapped(line: str) -> str:
    width, indent = terminal.columns(), " " * (len(line) - len(line.lstrip()))
    if len(line) <= width or line.startswith(TO_PASTE):
        return line
    return "\n".join(
        textwrap.wrap(
            line.strip(), width, initial_indent=indent, subsequent_indent=indent and indent + "    ",
            break_long_words=False, break_on_hyphens=False,
        )
    )


def connection_warning(run: Run) -> str:
    """For a plan whose equalities don't connect all entries: a sentence that says so. A bound is then a product."""
    from .budgets import connection_warning as said
    try:
        return "" if run.command not in ("run", "plan", "audit") else wrapped_blocks([said(run)])
    except UNEXPLAINED:
        return ""
