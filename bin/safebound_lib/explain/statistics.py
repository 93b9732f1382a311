"""`error stats CAUSE AT`: the file isn't a statistics file, it lacks columns that the query needs, or (in `append`) it
lacks the table.
"""
from __future__ import annotations

import os
import shlex
from typing import TYPE_CHECKING

from ..near import hint, series
from ..spot import plain

if TYPE_CHECKING:
    from ..faults import Fault
    from . import Run


def remaking_command(run: Run) -> str:
    """The command that makes the file again, for the user's current folder."""
    texts = [run.query_file or "QUERY"] if run.is_proposed else [run.schema_file, run.query_file or "QUERY"]
    data = f" --data {run.path_of('.')}" if run.user_folder else ""
    return plain(f"safebound stats {' '.join(map(shlex.quote, texts))}{data} > {run.path_of(run.stats_file or '')}")


def explain(fault: Fault, run: Run) -> list[str]:
    file, at = plain(run.stats_file or ""), fault.at
    anew = f"Make it anew:\n    {remaking_command(run)}"
    if fault.cause == "missing" and run.command == "append":
        return without_section(file, run)
    if fault.cause == "missing":
        return [
            (
                f"{entry_called(run, at)} needs statistics that {file} doesn't have: it was made for a query that"
                " doesn't name its table, or compares or joins other columns."
            ),
            anew,
        ]
    if fault.cause == "syntax" and not os.path.getsize(run.stats_file or ""):
        return [
            f"{file} is empty. Either what should have written it failed, or a command read it whose output went into"
            " it: the shell empties such a file first.",
            anew,
        ]
    if fault.cause == "syntax":
        return [f"{file} is no statistics file from line {at} on: it is cut there, or was changed.", anew]
    return [
        (
            f"Line {at} of {file} can't follow those before it: it names what the schema doesn't have, or a number or a"
            " list is past its limit or out of order."
        ),
        "Was the file made over another schema?",
        anew,
    ]


def without_section(file: str, run: Run) -> list[str]:
    """Says what is missing: the table in the schema, or its statistics in the file."""
    names = [table.name for table in run.schema.tables]
    if not any(name.upper() == run.table.upper() for name in names):
        return [f"The schema has no table {plain(run.table)}. Its tables are {series(names)}.{hint(run.table, names)}"]
    table = plain(run.table)
    return [
        (
            f"{file} has no statistics of the table {table}: it was made for a query that doesn't name it. `append`"
            " adds rows to the tables that are in the file, and no table."
        ),
        (
            "Put the new rows into the table's own file, and make the statistics anew with a query that names"
            f" {table}:\n    {remaking_command(run)}"
        ),
    ]


def entry_called(run: Run, entry: int) -> str:
    """How a message names the FROM entry of this number: by its name where the query can be read."""
    try:
        return f"The FROM entry {plain(run.query.entries[entry].name)}"
    except (OSError, IndexError, RecursionError):
        return f"The FROM entry {entry}, counted from 0,"
