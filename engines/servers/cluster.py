"""A cluster on this machine: a coordinator, and servers that have the rows of its tables.

Each table of the coordinator is partitioned by the hash of its first column. Each partition is a table of another
server, reached by postgres_fdw. Plans join and count partition by partition.
"""

from __future__ import annotations

import contextlib
import os
import re
import secrets
from concurrent.futures import ThreadPoolExecutor
from functools import partial
from typing import Any, Callable, Iterable

from server import GoneOnLeaving, Server, connected_by, free_ports, new_folder, own

SERVERS = 2
PART_BY_PART = ("enable_partitionwise_join=on", "enable_partitionwise_aggregate=on")
# Rows are sent in large batches, and from all servers at once.
OPTIONS = {"host": "127.0.0.1", "fetch_size": "10000", "batch_size": "1000", "async_capable": "true"}


class Cluster:
    """The servers of a cluster, with their data in a folder, and one database of each server. They run until `stop`,
    which another process may call.
    """

    def __init__(self, folder: str, database: str = "postgres") -> None:
        self.folder = folder
        self.coordinator = Server(os.path.join(folder, "coordinator"), settings=PART_BY_PART, database=database)
        self.servers = [
            Server(os.path.join(folder, f"server{number}"), database=database) for number in range(1, SERVERS + 1)
        ]
        self.all_servers = [self.coordinator, *self.servers]

    def start(self) -> None:
        self.password = secrets.token_urlsafe(24)
        for server, port in zip(self.all_servers, free_ports(len(self.all_servers))):
            server.port = port
            os.mkdir(server.folder, 0o700)
            own(server.folder)
        at_once(partial(self._started, server) for server in self.all_servers)
        self._link(self.coordinator.database)

    def _started(self, server: Server) -> None:
        server.make(self.password)
        server.start()

    def add_database(self, name: str) -> None:
        """Makes a database of this name on each server, and links the coordinator's database to the others. Only the
        process that started the cluster may call it.
        """
        at_once(partial(server.add_database, name) for server in self.all_servers)
        self._link(name)

    def _link(self, database: str) -> None:
        with connected_by(self.coordinator.url_of(database)) as coordinator:
            coordinator.execute("CREATE SCHEMA servers; CREATE EXTENSION postgres_fdw SCHEMA servers")
            for number, server in enumerate(self.servers, 1):
                there = {**OPTIONS, "dbname": database, "port": server.port}
                options = ", ".join(f"{name} '{value}'" for name, value in there.items())
                coordinator.execute(
                    f"CREATE SERVER server{number} FOREIGN DATA WRAPPER postgres_fdw OPTIONS ({options})"
                )
                mapping = f"OPTIONS (user 'postgres', password '{self.password}')"
                coordinator.execute(f"CREATE USER MAPPING FOR postgres SERVER server{number} {mapping}")

    def stop(self) -> None:
        running = [s for s in self.all_servers if os.path.exists(os.path.join(s.data, "postmaster.pid"))]
        at_once(server.stop for server in running)

    @property
    def url(self) -> str:
        return self.coordinator.url

    def script(self, text: str) -> None:
        """Runs statements. Each CREATE TABLE among them makes a table whose rows are on the servers."""
        with connected(self.coordinator) as coordinator:
            for statement in filter(str.strip, text.split(";")):
                made = re.match(r"\s*CREATE TABLE (\w+)\s*\((.*)\)\s*$", statement, re.DOTALL)
                dropped = re.match(r"\s*DROP TABLE ", statement)
                if made or dropped:
                    self.on_servers(statement)
                if made:
                    self._partitioned(coordinator, *made.groups())
                else:
                    coordinator.execute(statement)

    def _partitioned(self, coordinator: Any, name: str, columns: str) -> None:
        """Creates a partitioned table without keys: it can't have a key over partitions on other servers."""
        keyless = re.sub(r"\s+(PRIMARY KEY|UNIQUE)\b", " NOT NULL", columns)
        coordinator.execute(f"CREATE TABLE {name} ({keyless}) PARTITION BY HASH ({columns.split()[0]})")
        for number in range(1, SERVERS + 1):
            values = f"WITH (MODULUS {SERVERS}, REMAINDER {number - 1})"
            part = f"{name}_{number} PARTITION OF {name} FOR VALUES {values} SERVER server{number}"
            coordinator.execute(f"CREATE FOREIGN TABLE {part} OPTIONS (table_name '{name}')")

    def on_servers(self, statement: str) -> None:
        """Runs a statement on each server. It may have {number} for the number of the server, from 0, and {servers} for
        the number of servers.
        """
        texts = [
            statement.replace("{number}", str(number)).replace("{servers}", str(SERVERS)) for number in range(SERVERS)
        ]
        at_once(partial(_executed, server, text) for server, text in zip(self.servers, texts))


def _executed(server: Server, statement: str) -> None:
    with connected(server) as connection:
        connection.execute(statement)


def connected(server: Server) -> contextlib.AbstractContextManager[Any]:
    return connected_by(server.url)


def at_once(calls: Iterable[Callable[[], None]]) -> None:
    with ThreadPoolExecutor() as pool:
        for done in [pool.submit(call) for call in calls]:
            done.result()


class TemporaryCluster(Cluster, GoneOnLeaving):
    """A cluster for a `with`. It starts on entering, and is removed on leaving."""

    def __init__(self) -> None:
        super().__init__(new_folder())

    def __enter__(self) -> TemporaryCluster:
        with contextlib.ExitStack() as undo:
            undo.push(self)
            self.start()
            undo.pop_all()
        return self
