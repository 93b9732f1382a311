"""The plan as JSON: entries with their tables, conditions, scans and levels with their bounds."""
from __future__ import annotations

import json
from dataclasses import dataclass
from typing import TYPE_CHECKING

from safebound.plan_texts import read_audit, read_plan

from . import program
from .explain import Run, read
from .query import references_of, resolved_column
from .table import ACCURACY, BUDGET, COUNT, KEYS, REDUCE, USUAL_BUDGET
from .words import option_of

if TYPE_CHECKING:
    from safebound.plan_texts import PlanText
    from .query import Compound, Query, Test
    from .schema import Schema
    from .words import Line


def show(path: str, line: Line) -> int:
    """Runs the command, and writes JSON on standard output in place of the command's text. A fault is printed
    unchanged.
    """
    status, out, notes = program.answer(path, line.words)
    if status:
        from .main import explain, is_explained
        program.say(notes.decode("utf-8", "surrogateescape"))
        if is_explained(line):
            explain(path, line, status, notes)
        return status
    plan = read_plan(notes.decode())
    rows = read_audit(out.decode(), plan) if line.command == "audit" else None
    program.write(1, json.dumps(as_json(Run(line.words, path), plan, rows), indent=2, ensure_ascii=False) + "\n")
    return 0


@dataclass
class Condition:
    """A condition as written, the entries that it names, and the first level or node (by its number) where it holds."""
    text: str
    entries: list[str]
    step: int


def conditions_of(run: Run, plan: PlanText) -> list[Condition]:
    """The conditions of a run's query, each with the first level or node of the plan where it holds."""
    text, query, schema = read(run.query_file), run.query, run.schema
    steps = (
        [set(plan.leaves(number)) for number in range(len(plan.scans) + len(plan.nodes))] if plan.is_tree
        else entries_of_levels(plan)
    )
    return [one_condition(text, query, schema, conjunct, steps, plan) for conjunct in query.conjuncts()]


def as_json(run: Run, plan: PlanText, rows: list[int] | None) -> dict[str, object]:
    query, conditions, step = run.query, conditions_of(run, plan), "node" if plan.is_tree else "level"
    return {
        "command": run.command,
        "budget": int(option_of(run.words, BUDGET.word) or USUAL_BUDGET),
        "accuracy": (
            int(option_of(run.words, ACCURACY.word) or 1) if run.stats_file is None else accuracy_in(run.stats_file)
        ),
        "reduce": any(word == REDUCE.word for word in run.words),
        "count": any(word == COUNT.word for word in run.words),
        "bushy": plan.is_tree,
        "keys": any(word == KEYS.word for word in run.words),
        "stats": run.stats_file,
        "entries": [
            {
                "entry": e.name, "table": e.table.name, "file": e.table.name.lower() + ".csv",
                "bound": plan.scans[e.name], "conditions": [c.text for c in conditions if c.entries == [e.name]],
            }
            for e in query.entries
        ],
        **(
            {"nodes": nodes_of(plan, rows, conditions)} if plan.is_tree
            else {"levels": levels_of(plan, rows, conditions)}
        ),
        "conditions": [{"text": c.text, "entries": c.entries, step: c.step} for c in conditions],
        "widest": max(plan.bounds),
    }


def accuracy_in(file: str) -> int:
    """The accuracy of a statistics file: the last word of its first line."""
    return int(read(file).split(b"\n", 1)[0].rpartition(b" ")[2])


def entries_of_levels(plan: PlanText) -> list[set[str]]:
    """The entries of each level."""
    order = [alias for alias, _ in plan.levels]
    return [set(order[:k + 1]) for k in range(len(order))]


def at_step(conditions: list[Condition], number: int) -> list[str]:
    return [c.text for c in conditions if c.step == number and len(c.entries) > 1]


def levels_of(plan: PlanText, rows: list[int] | None, conditions: list[Condition]) -> list[dict[str, object]]:
    return [
        {
            "level": k, "entry": alias, "bound": bound, **({"rows": rows[k - 1]} if rows else {}),
            "conditions": at_step(conditions, k),
        }
        for k, (alias, bound) in enumerate(plan.levels, 1)
    ]


def nodes_of(plan: PlanText, rows: list[int] | None, conditions: list[Condition]) -> list[dict[str, object]]:
    return [{"node": k, "left": node.left, "right": node.right, "entries": plan.leaves(k), "bound": node.bound,
             **({"rows": rows[k - len(plan.scans)]} if rows else {}), "conditions": at_step(conditions, k)}
            for k, node in enumerate(plan.nodes, len(plan.scans))]


def one_condition(
    text: bytes, query: Query, schema: Schema, conjunct: Compound | Test, steps: list[set[str]], plan: PlanText
) -> Condition:
    named = {resolved_column(query, reference, schema)[0].name for reference in references_of(conjunct)}
    entries = [entry.name for entry in query.entries if entry.name in named]
    first = next(number for number, step in enumerate(steps) if named <= step)
    written = " ".join(text[conjunct.start:conjunct.end].decode().split())
    return Condition(written, entries, first if plan.is_tree else 1 + first)
