"""Processor seconds of the questions inside PostgreSQL, whose planner uses its own numbers of rows, bounds, or the mean
of both."""

from __future__ import annotations

import csv
import os
import statistics
import threading
from dataclasses import dataclass
from typing import Iterable, Iterator

import psycopg
from timing import processor_time

from . import asked, places, server
from .making import COLUMNS

INSIDE = os.path.join(places.MADE, "inside.csv")
INSIDE_COLUMNS = ("query", "half", "mode", "seconds", "cancelled", "planning")
MODES = ("off", "mean", "bound")
LONGEST = 30.0
# A query that takes less than this many seconds is run again, and the lesser time counts.
AGAIN_BELOW = 0.3


class Backend:
    """A session, with the processor time of its backend."""

    def __init__(self, url: str) -> None:
        self.connection = psycopg.connect(url, autocommit=True)
        self.connection.execute("SET max_parallel_workers_per_gather = 0; SET jit = off")
        self.pid = self.connection.info.backend_pid

    def seconds(self) -> float:
        return processor_time(self.pid)

    def cancel_at(self, end: float, done: threading.Event) -> None:
        while not done.wait(0.25):
            if self.seconds() > end:
                self.connection.cancel()

    def run(self, text: str) -> tuple[float, bool]:
        """Plans and runs a query without returning its rows. Returns its seconds, and whether it was cancelled."""
        begin, done = self.seconds(), threading.Event()
        watch = threading.Thread(target=self.cancel_at, args=(begin + LONGEST, done))
        watch.start()
        try:
            self.connection.execute("EXPLAIN (ANALYZE, TIMING OFF) " + text).fetchall()
            return self.seconds() - begin, False
        except psycopg.errors.QueryCanceled:
            return LONGEST, True
        finally:
            done.set()
            watch.join()

    def planned(self, text: str) -> tuple[float, str]:
        """The milliseconds of processor time for planning, the least of five, and the plan without its numbers."""
        least = LONGEST
        for _ in range(5):
            begin = self.seconds()
            lines = self.connection.execute("EXPLAIN " + text).fetchall()
            least = min(least, self.seconds() - begin)
        return least * 1000, "\n".join(line.split("  (cost=")[0] for line, in lines)


def keep(url: str) -> None:
    backend = Backend(url)
    backend.connection.execute("CREATE EXTENSION IF NOT EXISTS safebound")
    begin = backend.seconds()
    calls = " + ".join(f"safebound.keep({table!r})" for table in COLUMNS)
    lists = server.value(backend.connection, f"SELECT {calls}")
    print(f"{lists} lists in {backend.seconds() - begin:.1f} s of one processor", flush=True)


def measured(backend: Backend, text: str) -> tuple[float, bool]:
    seconds, cancelled = backend.run(text)
    for _ in range(2):
        if not cancelled and seconds < AGAIN_BELOW:
            seconds = min(seconds, backend.run(text)[0])
    return seconds, cancelled


def in_modes(backend: Backend, text: str, modes: Iterable[str]) -> Iterator[tuple[str, float, bool, float]]:
    """Measures one question in each mode. If an earlier mode had the same plan, the time of that run is used again, and
    only planning is measured.
    """
    known: dict[str, tuple[float, bool, float]] = {}
    for mode in modes:
        backend.connection.execute(f"SET safebound.estimates = {mode}")
        planning, plan = backend.planned(text)
        if plan not in known:
            known[plan] = (*measured(backend, text), planning)
        seconds, cancelled, planned_then = known[plan]
        yield mode, seconds + (planning - planned_then) / 1000, cancelled, planning


def rows(url: str) -> Iterator[list[object]]:
    """Each question in each mode, in turn. Every second question was not looked at while the extension was developed.
    """
    backend = Backend(url)
    for number, question in enumerate(asked.questions()):
        modes = (MODES[(number + turn) % len(MODES)] for turn in range(len(MODES)))
        for mode, seconds, cancelled, planning in in_modes(backend, question.text, modes):
            half = "aside" if number % 2 else "seen"
            yield [question.name, half, mode, round(seconds, 5), cancelled, round(planning, 3)]


@dataclass
class Taken:
    """The times of one question in each mode."""

    seconds: dict[str, float]
    cancelled: dict[str, bool]
    planning: dict[str, float]


def by_question(lines: list[dict[str, str]], half: str) -> dict[str, Taken]:
    times_by_question: dict[str, Taken] = {}
    for line in lines:
        if half in ("all", line["half"]):
            one = times_by_question.setdefault(line["query"], Taken({}, {}, {}))
            one.seconds[line["mode"]] = float(line["seconds"])
            one.cancelled[line["mode"]] = line["cancelled"] == "True"
            one.planning[line["mode"]] = float(line["planning"])
    return {name: one for name, one in times_by_question.items() if len(one.seconds) == len(MODES)}


def table(lines: list[dict[str, str]]) -> Iterator[str]:
    yield (
        "| questions | rows given | total | without those cancelled in any mode | median of the ratio | worst |"
        " cancelled | planning longer by, median and 90th percentile |"
    )
    yield "|---|---|---|---|---|---|---|---|"
    for half in ("all", "seen", "aside"):
        times = list(by_question(lines, half).values())
        yield from (f"| {half} ({len(times)}) | {mode} | {cells(times, mode)} |" for mode in MODES)


def cells(times: list[Taken], mode: str) -> str:
    """The times of all questions in one mode, divided by those with PostgreSQL's own numbers of rows."""
    ratios = sorted(one.seconds[mode] / one.seconds["off"] for one in times)
    longer = sorted(one.planning[mode] - one.planning["off"] for one in times)
    whole = sum(one.seconds[mode] for one in times)
    ended = sum(one.seconds[mode] for one in times if not any(one.cancelled.values()))
    cancelled = sum(one.cancelled[mode] for one in times)
    return (
        f"{whole:.1f} s | {ended:.1f} s | {statistics.median(ratios):.2f} | {ratios[-1]:.1f} | {cancelled} |"
        f" {statistics.median(longer):.2f} ms, {longer[len(longer) * 9 // 10]:.2f} ms"
    )


def slower(lines: list[dict[str, str]]) -> Iterator[str]:
    for name, one in by_question(lines, "all").items():
        for mode in MODES[1:]:
            if one.seconds[mode] > 2 * one.seconds["off"]:
                yield f"{name}, {mode}: {one.seconds[mode]:.4f} s, PostgreSQL's own {one.seconds['off']:.4f} s"


def report() -> None:
    with open(INSIDE, encoding="utf-8", newline="") as f:
        lines = list(csv.DictReader(f))
    print("\n".join([*table(lines), *slower(lines)]))
