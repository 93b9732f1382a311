"""The statement that counts, for each entry, its rows under its own conditions, and how often the values of each joined
column repeat. With semi-joins (`reduce`) it leaves out rows that can't be in the result.
"""

from __future__ import annotations

import csv
from dataclasses import dataclass
from typing import Collection, Iterable

from safebound.sql_texts import written_text

from .dialect import Dialect
from .faults import Unreadable, WrongCounts
from .query import Column, Query, Row
from .reducing import own_conditions
from .servers import Source, rows_to_count

HEADER = ("entry", "column", "degree", "keys")


@dataclass
class Counts:
    """How many rows each entry has, and for each joined column the runs of its degrees, the largest degree first."""

    rows: dict[str, int]
    runs: dict[tuple[str, str], list[tuple[int, int]]]


def prefix_for(texts: Iterable[str]) -> str:
    """A prefix for the names of parts. It doesn't occur in the texts, so no name of the query begins with it."""
    prefix = "safebound_"
    while any(prefix in text.lower() for text in texts):
        prefix += "_"
    return prefix


def counting_statement(query: Query, dialect: Dialect, prefix: str, reduce: bool, known: Collection[int] = ()) -> str:
    """The counting statement. Its rows are (entry, column, degree, keys): `keys` different values of the column occur
    in `degree` rows each.

    Rows in which the column is NULL have degree 0. A row with the column '' says how many rows the entry has. For
    entries in `known`, whose degrees are known already, the statement asks only for this number.
    """
    columns = {
        entry.number: [] if entry.number in known else query.joined_columns(entry.number) for entry in query.entries
    }
    texts: list[tuple[str, str]] = []
    sources = {entry.number: Source(entry, own_conditions(entry)) for entry in query.entries}
    if reduce:
        texts, sources = rows_to_count(query, dialect, columns, prefix)
    selects = [text for number, source in sources.items() for text in histograms(source, columns[number], dialect)]
    return dialect.with_parts(texts, "\nUNION ALL ".join(selects))


def histograms(source: Source, columns: list[Column], dialect: Dialect) -> list[str]:
    """The parts of a counting statement about one entry."""
    name = written_text(source.entry.name)
    degree, rows = source.total()
    total = _select_line(dialect, name, "''", degree, "1", rows)
    return [total] + [_histogram(name, column, dialect, source) for column in columns]


def _select_line(dialect: Dialect, entry: str, column: str, degree: str, keys: str, rows: str) -> str:
    values = zip((entry, column, degree, keys), HEADER)
    return f"SELECT {', '.join(f'{value} AS {dialect.quote(name)}' for value, name in values)} {rows}"


def _histogram(entry: str, column: Column, dialect: Dialect, source: Source) -> str:
    degrees = f"FROM ({source.degrees(column, dialect)}) AS degrees GROUP BY d"
    return _select_line(dialect, entry, written_text(column.name), "d", "COUNT(*)", degrees)


def counts_of(query: Query, rows: Iterable[Row]) -> Counts:
    """The counts in a statement's result.

    Raises:
        WrongCounts: it isn't a result of the statement of this query.
    """
    return counts_among({entry.name: query.joined_columns(entry.number) for entry in query.entries}, rows)


def counts_among(asked: dict[str, list[Column]], rows: Iterable[Row]) -> Counts:
    """The counts in a statement's result, for entries given by name, each with its counted columns."""
    counts = Counts({}, {})
    zeros: dict[tuple[str, str], int] = {}
    wanted = {(entry, column.name) for entry, columns in asked.items() for column in columns}
    for entry, column, degree, keys in rows:
        if column == "" and keys == 1 and entry not in counts.rows:
            counts.rows[entry] = degree
        elif (entry, column) in wanted and degree == 0:
            zeros[entry, column] = keys
        elif (entry, column) in wanted:
            counts.runs.setdefault((entry, column), []).append((degree, keys))
        else:
            raise WrongCounts(f"({entry}, {column}, {degree}, {keys}) is no count of this query")
    if set(counts.rows) != set(asked):
        raise WrongCounts("the rows of an entry aren't counted, or an entry isn't of this query")
    for entry, column in wanted:
        runs = counts.runs.setdefault((entry, column), [])
        runs.sort(reverse=True)
        total = sum(degree * keys for degree, keys in runs)
        if total > counts.rows[entry] or (total < counts.rows[entry] and (entry, column) not in zeros):
            raise WrongCounts(
                f"the degrees of {entry}.{column} sum to {total}, and {entry} has {counts.rows[entry]} rows"
            )
    return counts


def counts_of_file(query: Query, file: str) -> Counts:
    """The counts of a CSV file that has a header and then the statement's result."""
    try:
        with open(file, newline="", encoding="utf-8") as lines:
            records = list(csv.reader(lines))
    except (OSError, UnicodeDecodeError) as error:
        raise Unreadable(f"{file}: {error}") from None
    if not records or tuple(records[0]) != HEADER:
        raise WrongCounts(f"{file} doesn't begin with {','.join(HEADER)}")
    try:
        rows = [(entry, column, int(degree), int(keys)) for entry, column, degree, keys in records[1:]]
    except ValueError:
        raise WrongCounts(f"{file}: a record isn't a name, a name and two numbers") from None
    if any(degree < 0 or keys < 1 for _, _, degree, keys in rows):
        raise WrongCounts(f"{file}: a degree is below 0, or keys are below 1")
    return counts_of(query, rows)
