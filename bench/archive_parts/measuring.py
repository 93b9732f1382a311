"""Measures everything, into three CSV files: the sets of entries, the runs of each question beside PostgreSQL, and its
plans beside its runs.
"""

from __future__ import annotations

import csv
import os
import shutil
import sys
import tempfile
from typing import Iterable, Iterator

from server import connected_by

from . import asked, places, running
from .bounding import COMPUTED, TRIED, Bounder
from .columns import kept
from .truth import Counter

SETS = os.path.join(places.MADE, "sets.csv")
RUNS = os.path.join(places.MADE, "runs.csv")
PLANS = os.path.join(places.MADE, "plans.csv")
ABOUT_SETS = ("question", "entries", "size", "whole", "cyclic", "rows", "by", "expected")
SET_COLUMNS = [*ABOUT_SETS, *(flags.name for flags in COMPUTED)]
ABOUT_RUNS = ("cost", "last", "status", "seconds", "peak", "rows", "same")
RUN_COLUMNS = ["question", "flags", *ABOUT_RUNS, "postgres_rows", "postgres_seconds"]
COMMANDS, FIGURES = ("plan", "run"), ("status", "seconds", "processor", "peak")
PLAN_COLUMNS = ["question", "flags", "load", *(f"{command}_{figure}" for command in COMMANDS for figure in FIGURES)]
# Seconds that PostgreSQL may take to count a set, and to run a query.
COUNTING, ASKING = 60, 60


def say(text: str) -> None:
    print(text, file=sys.stderr, flush=True)


def write(path: str, columns: Iterable[str], rows: Iterable[Iterable[object]]) -> None:
    """Writes a CSV file. It gets its name only when it is complete."""
    with open(path + ".new", "w", encoding="utf-8", newline="") as f:
        out = csv.writer(f)
        out.writerow(columns)
        out.writerows(rows)
    os.replace(path + ".new", path)


def sets(url: str) -> Iterator[list[object]]:
    tables = kept(places.TABLES, asked.schema())
    bounder = Bounder(tables)
    with connected_by(url) as connection:
        counter = Counter(connection, tables, COUNTING)
        for question in asked.questions():
            say(f"sets of {question.name}")
            yield from sets_of(question, counter, bounder)


def sets_of(question: asked.Question, counter: Counter, bounder: Bounder) -> Iterator[list[object]]:
    for entries in asked.connected_sets(question.query):
        query = asked.restricted(question.query, entries)
        names = " ".join(question.query.entries[entry][1] for entry in entries)
        is_whole, is_cyclic = len(entries) == len(question.query.entries), asked.is_cyclic(query)
        about = (question.name, names, len(entries), int(is_whole), int(is_cyclic))
        yield [*about, *counter.of(query), *bounder.of(query).values()]


def runs(url: str) -> Iterator[list[object]]:
    with tempfile.TemporaryDirectory(dir=places.MADE) as folder:
        out = os.path.join(folder, "rows.csv")
        for question in asked.questions():
            say(f"runs of {question.name}")
            shutil.copy(question.path, places.TABLES)
            by_postgres = running.by_postgres(url, question.text, out, ASKING)
            true = running.rows_of(out, False) if by_postgres.status == 0 else None
            beside = (true and true.number, by_postgres.seconds)
            yield from (
                [question.name, flags.name, *one_run(question, flags.words, out, true), *beside] for flags in TRIED
            )


def one_run(question: asked.Question, words: list[str], out: str, true: running.Rows | None) -> list[object]:
    """The run or its refusal, with its rows and PostgreSQL's."""
    run = running.by_program("run", os.path.basename(question.path), words, out)
    rows = running.rows_of(out, True) if run.status == 0 else None
    last = run.levels[-1][1] if run.status == 0 else None
    same = None if rows is None or true is None else int(rows == true)
    return [run.cost, last, run.status, run.seconds, run.peak, rows and rows.number, same]


def plans() -> Iterator[list[object]]:
    """Each plan and then at once the run of the same question, with the machine's load at that time."""
    with tempfile.TemporaryDirectory(dir=places.MADE) as folder:
        out = os.path.join(folder, "rows.csv")
        for question in asked.questions():
            say(f"plans of {question.name}")
            shutil.copy(question.path, places.TABLES)
            yield from ([question.name, flags.name, *one_plan(question, flags.words, out)] for flags in TRIED)


def one_plan(question: asked.Question, words: list[str], out: str) -> list[object]:
    """The load before the plan, and the figures of both commands."""
    load, name = os.getloadavg()[0], os.path.basename(question.path)
    both = [running.by_program(command, name, words, out) for command in COMMANDS]
    return [load, *(getattr(one, figure) for one in both for figure in FIGURES)]
