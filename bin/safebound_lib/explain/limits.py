"""`error limit WHICH FOUND`: the limit, and what exceeds it."""
from __future__ import annotations

from typing import TYPE_CHECKING

from safebound.sql_texts import MOST_ROWS, MOST_TABLE_BYTES, MOST_TEXT_BYTES

from ..spot import plain

if TYPE_CHECKING:
    from ..faults import Fault
    from . import Run

SAYS = {
    "tables": "A schema has at most 64 tables, and this one has {found:,}. Declare those that the query names.",
    "columns": (
        "A table has at most 64 columns, and one here has {found:,}. Declare those that the query needs: further ones"
        " of the file are passed over."
    ),
    "text-length": "A VARCHAR(n) has n of at most 1,000,000, and one here has {found:,}.",
    "nesting": "At most 64 parentheses may be open at one place of a query, and here {found:,} are.",
    "from-entries": (
        "A query has at most 12 entries in FROM, and this one has {found:,}. Leave out those that the answer doesn't"
        " need, or ask in two queries and join their answers."
    ),
    "in-values": (
        "An IN list has at most 1,000 values, and one here has {found:,}. Put the values into a table of one column and"
        " join it."
    ),
    "conjuncts": "A query has at most 256 conditions joined by AND, and this one has {found:,}.",
    "outputs": "A query has at most 1,024 columns in its answer, and this one has {found:,}.",
}


def explain(fault: Fault, run: Run) -> list[str]:
    file = plain(fault.file)
    if fault.cause == "rows" and run.command == "append":
        return [
            (
                f"With the rows of {file} the table {plain(run.table)} has more than {MOST_ROWS:,} rows, which is the"
                " most for a table."
            ),
            beyond(),
        ]
    if fault.cause == "rows":
        return [f"{file} has more than {MOST_ROWS:,} rows, which is the most for a table.", beyond()]
    if fault.cause != "file-bytes":
        return [SAYS[fault.cause].format(found=fault.found)]
    if fault.found == MOST_TEXT_BYTES + 1:
        return [f"{file} is longer than 1 MiB ({MOST_TEXT_BYTES:,} bytes), which is the most for a schema or a query.",
                "Is it a text of SQL at all? The words are SCHEMA and then QUERY."]
    if run.stats_file is not None and fault.file == run.stats_file:
        return [
            f"{file} is longer than 64 MiB ({MOST_TABLE_BYTES:,} bytes), which is the most for a statistics file. With"
            " a lower --accuracy `stats` writes a shorter one."
        ]
    return [f"{file} is longer than 64 MiB ({MOST_TABLE_BYTES:,} bytes), which is the most for a table.", beyond()]


def beyond() -> str:
    return (
        "Columns and rows that the query doesn't need can be left out of the file. Larger tables stay in the engine"
        " that holds them: engines/safebound-sql bounds joins there."
    )
