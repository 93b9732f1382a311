"""A PostgreSQL server of our own. Its data is in a folder. It is reached by a socket in that folder, or by a port of
this machine and a password.
"""

from __future__ import annotations

import contextlib
import glob
import os
import shutil
import socket
import subprocess
import tempfile
from typing import Any, Iterator

SETTINGS = ("fsync=off", "full_page_writes=off", "synchronous_commit=off", "max_wal_size=4GB")


def programs() -> str | None:
    """The folder of the newest PostgreSQL's programs, or None if PostgreSQL isn't installed."""
    folders = sorted(glob.glob("/usr/lib/postgresql/*/bin"), key=lambda folder: int(folder.split("/")[-2]))
    found = shutil.which("initdb")
    if found:
        folders.append(os.path.dirname(found))
    return folders[-1] if folders else None


def owner() -> str | None:
    """The user that servers run as, or None for the current user. PostgreSQL refuses to run as root."""
    return "postgres" if os.geteuid() == 0 else None


def own(path: str) -> None:
    """Makes the user of the servers the owner of a file or a folder."""
    user = owner()
    if user:
        shutil.chown(path, user)


def free_ports(count: int) -> list[int]:
    """Free ports of this machine."""
    sockets = [socket.socket() for _ in range(count)]
    for one in sockets:
        one.bind(("127.0.0.1", 0))
    ports = [one.getsockname()[1] for one in sockets]
    for one in sockets:
        one.close()
    return ports


def new_folder() -> str:
    folder = tempfile.mkdtemp(prefix="safebound-sql-")
    own(folder)
    return folder


@contextlib.contextmanager
def connected_by(url: str) -> Iterator[Any]:
    import psycopg

    with psycopg.connect(url, autocommit=True) as connection:
        yield connection


class Server:
    """A server in a folder of its own, which other users can't read."""

    def __init__(
        self, folder: str, port: int | None = None, settings: tuple[str, ...] = (), database: str = "postgres"
    ) -> None:
        self.folder, self.port, self.settings, self.database = folder, port, SETTINGS + settings, database
        self.data = os.path.join(folder, "data")

    def make(self, password: str | None = None) -> None:
        words = ["-D", self.data, "-U", "postgres", "-E", "UTF8", "--locale=C.UTF-8", "--no-sync", "--auth-local=trust"]
        if password is None:
            return self._run("initdb", *words)
        with tempfile.NamedTemporaryFile("w", dir=self.folder) as file:
            file.write(password)
            file.flush()
            own(file.name)
            self._run("initdb", *words, "--auth-host=scram-sha-256", f"--pwfile={file.name}")

    def start(self) -> None:
        where = f"-c listen_addresses=127.0.0.1 -p {self.port}" if self.port else "-c listen_addresses="
        options = " ".join([f"-k {self.folder}", where, *(f"-c {setting}" for setting in self.settings)])
        self._run("pg_ctl", "-D", self.data, "-w", "-l", os.path.join(self.folder, "log"), "-o", options, "start")

    def stop(self) -> None:
        self._run("pg_ctl", "-D", self.data, "-m", "immediate", "stop")

    def add_database(self, name: str) -> None:
        with connected_by(self.url) as connection:
            connection.execute(f"CREATE DATABASE {name} TEMPLATE template0")

    def _run(self, program: str, *words: str) -> None:
        user, folder = owner(), programs()
        if folder is None:
            raise RuntimeError("PostgreSQL isn't installed")
        front = ["runuser", "-u", user, "--"] if user else []
        command = front + [os.path.join(folder, program), *words]
        # The output goes to a file: the server that pg_ctl starts would keep a pipe open.
        with tempfile.TemporaryFile("w+") as said:
            done = subprocess.run(command, cwd=self.folder, stdout=said, stderr=subprocess.STDOUT)
            if done.returncode:
                said.seek(0)
                raise RuntimeError(f"{program}: {said.read()}")

    @property
    def url(self) -> str:
        """The address of its database while it runs. Any process may have started it."""
        return self.url_of(self.database)

    def url_of(self, database: str) -> str:
        return f"postgresql://postgres@/{database}?host={self.folder}&port={self._told_port()}"

    def _told_port(self) -> str:
        with open(os.path.join(self.data, "postmaster.pid"), encoding="utf-8") as told:
            return told.read().split("\n")[3]


class GoneOnLeaving:
    """Stops on leaving a `with`, and removes its folder."""

    folder: str

    def stop(self) -> None:
        raise NotImplementedError

    def __exit__(self, *_: object) -> None:
        try:
            self.stop()
        finally:
            shutil.rmtree(self.folder, ignore_errors=True)


class TemporaryServer(Server, GoneOnLeaving):
    """A server for a `with`. It starts on entering, and is removed on leaving."""

    def __init__(self, settings: tuple[str, ...] = ()) -> None:
        super().__init__(new_folder(), settings=settings)

    def __enter__(self) -> TemporaryServer:
        with contextlib.ExitStack() as undo:
            undo.callback(shutil.rmtree, self.folder, ignore_errors=True)
            self.make()
            self.start()
            undo.pop_all()
        return self
