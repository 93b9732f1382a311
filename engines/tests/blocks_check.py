"""Checks what safebound-sql makes of one query: its rows by column, the bounds of its blocks, and its budget."""

from __future__ import annotations

import contextlib
import csv
import io
import json
import tempfile
from collections import Counter
from dataclasses import dataclass, field
from typing import Any

from safebound_sql.command import main
from safebound_sql.levels import MOST_BUDGET
from safebound_sql.query import Row

NULL = "no value"
ADMITTED, REFUSED, PAST_BUDGET, PAST_BITS = 0, 5, 8, 9


@dataclass(frozen=True)
class Answer:
    """The names of an answer's columns, and its rows as texts, by column."""

    header: tuple[str, ...]
    rows: Counter[tuple[str, ...]]


@dataclass(frozen=True)
class Said:
    """What the command said: its status and both its texts."""

    status: int
    out: str
    notes: str


@dataclass
class Checked:
    """Whether a query was refused, or how many of its parts aren't bounded, and each fault that was found."""

    refused: str = ""
    unbounded: list[str] = field(default_factory=list)
    faults: list[str] = field(default_factory=list)


def as_texts(row: Row) -> tuple[str, ...]:
    return tuple(NULL if value is None else str(value) for value in row)


def answer_of(base: Any, text: str) -> Answer:
    """What the engine itself answers."""
    cursor = base.connection.execute(text)
    return Answer(tuple(column[0] for column in cursor.description), Counter(map(as_texts, cursor.fetchall())))


class Command:
    """Runs commands of safebound-sql on a database, in this process."""

    def __init__(self, base: Any) -> None:
        # Compiling a query takes longer than all its rows.
        self.url = base.url + ("&options=-c%20jit%3Doff" if base.engine == "postgres" else "")

    def said(self, text: str, *words: str) -> Said:
        out, notes = io.StringIO(), io.StringIO()
        with tempfile.NamedTemporaryFile("w", suffix=".sql", encoding="utf-8") as file:
            file.write(text)
            file.flush()
            with contextlib.redirect_stdout(out), contextlib.redirect_stderr(notes):
                status = main([words[0], "--db", self.url, "--timeout", "20", *words[1:], file.name])
        return Said(status, out.getvalue(), notes.getvalue())


def checked(base: Any, text: str, true: Answer, run: bool = True) -> Checked:
    """Everything that has to hold of a query of which the engine gives this answer. Without `run`, the least budget
    that the plan tells stands for the command's refusals.
    """
    command, found = Command(base), Checked()
    audit = command.said(text, "audit", "--json")
    if audit.status in (REFUSED, PAST_BITS):
        found.refused = audit.notes.strip()
        return found
    if audit.status != ADMITTED:
        found.faults.append(f"audit ends with {audit.status}: {audit.notes.strip()}")
        if not audit.out:
            return found
    plan = json.loads(audit.out)
    found.unbounded = plan.get("not bounded", [])
    planned = answer_of(base, plan["sql"])
    found.faults += differences("the planned SQL", planned, true)
    blocks = plan.get("blocks", [plan])
    levels = [level for block in blocks for level in block["levels"] if level.get("rows") is not None]
    found.faults += [
        f"{level.get('joined')}: {level['rows']} rows, and the bound is {level['bound']}" for level in levels
        if level["rows"] > level["bound"]
    ]
    most = max([level["rows"] for level in levels] + ([true.rows.total()] if "blocks" in plan else []), default=0)
    if run:
        found.faults += budget_faults(command, text, true, most, bool(found.unbounded))
    elif not found.unbounded and plan.get("least budget", most) < most:
        found.faults.append(f"the least budget is {plan['least budget']}: {most} rows come out or are joined")
    return found


def differences(what: str, given: Answer, true: Answer) -> list[str]:
    found = []
    if given.header != true.header:
        found.append(f"{what} has the columns {given.header}, and the query {true.header}")
    if given.rows != true.rows:
        found.append(f"{what} has other rows: {list((given.rows - true.rows).items())[:3]} in place of"
                     f" {list((true.rows - given.rows).items())[:3]}")
    return found


def budget_faults(command: Command, text: str, true: Answer, most: int, unbounded: bool) -> list[str]:
    """`run` has to refuse one row less than the query has or joins. Within its least budget it has to give the rows."""
    if unbounded:
        run = command.said(text, "run", "--budget", str(MOST_BUDGET))
        return [] if run.status == REFUSED else [f"run ends with {run.status}, and a part isn't bounded"]
    found = []
    if most:
        less = command.said(text, "run", "--budget", str(most - 1))
        if less.status != PAST_BUDGET:
            found.append(f"run --budget {most - 1} ends with {less.status}: {most} rows come out or are joined")
    run = command.said(text, "run", "--null", NULL, "--budget", str(MOST_BUDGET))
    if run.status != ADMITTED:
        return [*found, f"run ends with {run.status}: {run.notes.strip()}"]
    header, *rows = csv.reader(io.StringIO(run.out, newline=""))
    return found + differences("run", Answer(tuple(header), Counter(tuple(row) for row in rows)), true)
