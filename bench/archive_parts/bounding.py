"""The bound of each connected set of entries, for each set of flags."""

from __future__ import annotations

from typing import NamedTuple

import reading

from . import asked, degrees
from .columns import Rows, Tables


class Flags(NamedTuple):
    """A choice of options: where the lists come from, and how accurate they are."""

    source: str
    accuracy: int

    @property
    def words(self) -> list[str]:
        source = [] if self.source == "statistics" else ["--" + self.source]
        return source + ([] if self.accuracy == 1 else ["--accuracy", str(self.accuracy)])

    @property
    def name(self) -> str:
        return "`" + " ".join(self.words) + "`" if self.words else "no flag"


COMPUTED = (Flags("statistics", 1), Flags("statistics", 8), Flags("keys", 8), Flags("reduce", 1), Flags("reduce", 64))
COUNT = Flags("count", 1)
# The program is run with all of these. The bounds of --count aren't computed here; the bounds that the program prints
# are compared with PostgreSQL's rows and with the bounds of --reduce.
TRIED = (*COMPUTED, COUNT)


class Bounder:
    """Bounds of sets. Each set is a query of its own. It is bounded only once, even if several questions have it.
    """

    def __init__(self, tables: Tables) -> None:
        self.tables = tables
        self.known: dict[str, dict[Flags, int]] = {}
        self.statistics = {flags.accuracy: degrees.Statistics(tables, flags.accuracy) for flags in COMPUTED}

    def lists(self, query: reading.Query, flags: Flags, rows: Rows) -> degrees.ColumnLists:
        if flags.source == "reduce":
            return degrees.known_reduced(rows, flags.accuracy)
        known = degrees.known_by_keys if flags.source == "keys" else degrees.known
        return known(self.statistics[flags.accuracy], query)

    def of(self, query: reading.Query) -> dict[Flags, int]:
        """The bound of the query's set of all entries."""
        sql = asked.sql(query)
        if sql not in self.known:
            rows = Rows(self.tables, query)
            self.known[sql] = {flags: self.lists(query, flags, rows).bound() for flags in COMPUTED}
        return self.known[sql]
