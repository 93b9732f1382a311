"""What a running program is doing, by what the system knows of it: which table it reads, and how much it has written.
"""
from __future__ import annotations

import itertools
import os
import time
from typing import Optional

from . import terminal
from .explain import UNEXPLAINED, Run

AFTER = 1.0


def in_bytes(count: int) -> str:
    return f"{count / 1_000_000:,.1f} MB"


def counted(pid: int, what: str) -> int:
    """How many bytes a process has read (`rchar`) or written (`wchar`), from /proc. On other systems 0."""
    try:
        with open(f"/proc/{pid}/io", encoding="ascii") as f:
            return next(int(line.split()[1]) for line in f if line.startswith(what))
    except (OSError, StopIteration):
        return 0


def open_files(pid: int) -> list[str]:
    """The names of the files that a process has open, without their folders."""
    try:
        return [os.path.basename(os.readlink(f"/proc/{pid}/fd/{name}")) for name in os.listdir(f"/proc/{pid}/fd")]
    except OSError:
        return []


def tables_of(words: list[str]) -> list[tuple[str, int]]:
    """The table files that a query names, each with its size. The list is empty if they aren't known."""
    try:
        run = Run(words)
        entries = run.query.entries if run.stats_file is None else []
        files = dict.fromkeys(entry.table.name.lower() + ".csv" for entry in entries)
        return [(file, os.path.getsize(file)) for file in files]
    except UNEXPLAINED:
        return []


class Progress:
    """A line on the terminal that shows progress, once a run takes more than a second."""

    def __init__(self, pid: int, words: list[str]) -> None:
        self.pid, self.words, self.began, self.is_shown = pid, words, time.monotonic(), False
        self.tables: list[tuple[str, int]] = []
        self.is_looked_up = False

    def show(self, notes: int, shows_rows: bool) -> None:
        """Shows the line. `notes` counts the bytes of the plan so far; `shows_rows` says that rows go to this terminal.
        """
        seconds = time.monotonic() - self.began
        if seconds < AFTER or notes and shows_rows:
            return
        if not self.is_looked_up:
            self.tables, self.is_looked_up = tables_of(self.words), True
        terminal.show(f"{self.says(notes)} ({seconds:.0f} s)")
        self.is_shown = True

    def says(self, notes: int) -> str:
        if notes:
            return f"rows written: {in_bytes(max(counted(self.pid, 'wchar') - notes, 0))}"
        number = self.table_now()
        if number is not None:
            file, size = self.tables[number]
            return f"reading {file}, table {number + 1} of {len(self.tables)}, {in_bytes(size)}"
        of = f" in {len(self.tables)} tables, {in_bytes(sum(size for _, size in self.tables))}" if self.tables else ""
        return f"counting how often values repeat{of}, and planning"

    def table_now(self) -> Optional[int]:
        """The index of the table that is open, else of the last one whose bytes have all been read. None once all
        tables are read.
        """
        names = [file for file, _ in self.tables]
        opened = next((names.index(file) for file in open_files(self.pid) if file in names), None)
        if opened is not None:
            return opened
        whole = list(itertools.accumulate(size for _, size in self.tables))
        come = sum(total <= counted(self.pid, "rchar") for total in whole)
        return max(come - 1, 0) if come < len(whole) else None

    def clear(self) -> None:
        if self.is_shown:
            terminal.clear()
            self.is_shown = False
