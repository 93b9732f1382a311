"""Tables whose rows the servers of a cluster, or a single server, generate themselves, as many as a factor says."""

from __future__ import annotations

from fractions import Fraction
from typing import NamedTuple

from cluster import Cluster, connected
from server import Server

# Every server makes all rows, and keeps those that the coordinator's partitioning assigns to it.
PLACES = "CREATE TABLE IF NOT EXISTS place (k INTEGER) PARTITION BY HASH (k)"
KEPT = " WHERE satisfies_hash_partition('place'::regclass, {servers}, {number}, k)"


class GeneratedTables(NamedTuple):
    """The schema of some tables, and for each table a query that makes its rows at size {s}. The first column, k,
    decides which server has a row.
    """

    schema: str
    rows: dict[str, str]

    def fill(self, cluster: Cluster, times: int | Fraction) -> None:
        cluster.script(self.schema)
        cluster.on_servers(PLACES)
        for table in self.rows:
            cluster.on_servers(self.filling(table, times, KEPT))
        cluster.on_servers("ANALYZE")
        # The tables are named, since a bare ANALYZE skips foreign tables.
        cluster.script(f"ANALYZE {', '.join(self.rows)}")

    def fill_one(self, server: Server, times: int | Fraction) -> None:
        with connected(server) as connection:
            connection.execute(self.schema)
            for table in self.rows:
                connection.execute(self.filling(table, times))
            connection.execute("ANALYZE")

    def filling(self, table: str, times: int | Fraction, kept: str = "") -> str:
        size = Fraction(times)
        rows = self.rows[table].format(s=f"{size.numerator} / {size.denominator}")
        return f"INSERT INTO {table} SELECT * FROM ({rows}) AS made{kept}"
