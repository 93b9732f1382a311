"""Plans and runs of the built program over the tables, and the same queries in PostgreSQL, with seconds and peaks of
memory."""

from __future__ import annotations

import os
import re
import subprocess
import tempfile
from typing import NamedTuple

from . import places

BUDGET = 20_000_000


class Ended(NamedTuple):
    """A finished process: its status, seconds, seconds of processor, peak of memory in MiB, and standard error."""

    status: int
    seconds: float
    processor: float
    peak: float
    notes: str

    @property
    def least(self) -> int | None:
        """The smallest sufficient budget, if the run's budget was too small."""
        found = re.fullmatch(r"error budget (\d+)\n", self.notes)
        return int(found[1]) if found else None

    @property
    def levels(self) -> list[tuple[str, int]]:
        """The entries of the order, each with the bound of its level."""
        return [
            (alias, int(bound)) for alias, bound in re.findall(r"^level \d+ (\S+) (\d+)$", self.notes, re.MULTILINE)
        ]

    @property
    def cost(self) -> int | None:
        return self.least or max((bound for _, bound in self.levels), default=None)


class Rows(NamedTuple):
    """The number of an answer's rows, and a checksum of them that doesn't depend on their order."""

    number: int
    sum: int


def run_command(command: list[str], out: str, folder: str | None = None, env: dict[str, str] | None = None) -> Ended:
    """Runs a command in a folder, with its output in a file."""
    timed = os.path.join(os.path.dirname(os.path.abspath(__file__)), "timed.py")
    with open(out, "wb") as rows, tempfile.TemporaryFile() as notes, tempfile.NamedTemporaryFile("r") as told:
        subprocess.run(
            ["/usr/bin/python3", "-S", "-E", timed, told.name, *command],
            cwd=folder,
            env=env,
            stdin=subprocess.DEVNULL,
            stdout=rows,
            stderr=notes,
            check=True,
        )
        status, seconds, processor, peak = told.read().split()
        notes.seek(0)
        return Ended(int(status), float(seconds), float(processor), int(peak) / 1024, notes.read().decode())


def by_program(command: str, question: str, words: list[str], out: str) -> Ended:
    """`plan` or `run` over the tables, which are read again."""
    program = [places.PROGRAM, command, "schema.sql", question, "--budget", str(BUDGET)]
    return run_command([*program, *words], out, places.TABLES)


def by_postgres(url: str, text: str, out: str, seconds: int) -> Ended:
    """The query over the loaded tables, its rows as CSV."""
    settings = dict(os.environ, PGOPTIONS=f"-c statement_timeout={seconds}s")
    return run_command(["psql", "-qX", url, "-c", f"COPY ({text}) TO STDOUT (FORMAT csv)"], out, env=settings)


def rows_of(path: str, with_header: bool) -> Rows:
    """Each line is a row, since no text of the archive has a line end."""
    number = total = 0
    with open(path, "rb") as f:
        if with_header:
            f.readline()
        for line in f:
            number += 1
            total += hash(line.rstrip(b"\r\n"))
    return Rows(number, total)
