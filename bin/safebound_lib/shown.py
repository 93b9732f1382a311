"""What a picture or a page shows of a plan: its steps, their bounds, their true rows if an audit has counted them, and
their conditions.
"""
from __future__ import annotations

import os
from dataclasses import dataclass, field
from typing import TYPE_CHECKING

from safebound.plan_texts import PlanText

if TYPE_CHECKING:
    from .explain import Run

NO_CONDITION = "no condition: each row meets each row"


@dataclass
class Shown:
    """A plan and what is shown beside it. `own` has the conditions on a single entry, by entry. `at` has all others, by
    the number of the first level or node where they hold.
    """
    title: str
    plan: PlanText
    rows: list[int] | None = None
    budget: int | None = None
    tables: dict[str, str] = field(default_factory=dict)
    own: dict[str, list[str]] = field(default_factory=dict)
    at: dict[int, list[str]] | None = None

    @property
    def step(self) -> str:
        return "node" if self.plan.is_tree else "level"

    def is_past(self, bound: int) -> bool:
        return self.budget is not None and bound > self.budget

    def table(self, alias: str) -> str:
        return self.tables.get(alias, alias)

    def number(self, at: int) -> int:
        """The printed number of the level or inner node with this index."""
        return at + (len(self.plan.scans) if self.plan.is_tree else 1)

    def step_name(self, at: int) -> str:
        if self.plan.is_tree:
            return f"node {self.number(at)}, of {' '.join(self.plan.leaves(self.number(at)))}"
        return f"level {at + 1} {self.plan.levels[at][0]}"

    def step_id(self, at: int) -> str:
        return f"step-{self.number(at)}"

    def entry_id(self, alias: str) -> str:
        return f"entry-{self.plan.entries.index(alias)}"

    def joined_by(self, at: int) -> list[str]:
        """The conditions that hold from this level or inner node on. If it is known that there are none, a sentence
        that says so.
        """
        found = (self.at or {}).get(self.number(at), [])
        is_join = self.plan.is_tree or at > 0
        return found or [NO_CONDITION] * (is_join and self.at is not None)

    def said(self) -> list[tuple[str, str, str]]:
        """The lines below the picture. Each has a step or an entry, a word that tells own conditions from joining ones,
        and the condition.
        """
        if self.plan.is_tree:
            lines = [
                (f"{number}  {alias}", "its own", words) for number, alias in enumerate(self.plan.entries)
                for words in self.own.get(alias, [])
            ]
            lines += [
                (str(self.number(at)), "joined by", words) for at in range(len(self.plan.nodes))
                for words in self.joined_by(at)
            ]
        else:
            lines = [
                (f"{at + 1}  {alias}", kind, words) for at, (alias, _) in enumerate(self.plan.levels)
                for kind, found in (("its own", self.own.get(alias, [])), ("joined by", self.joined_by(at)))
                for words in found
            ]
        return [
            ("" if at and lines[at - 1][0] == name else name, kind, words)
            for at, (name, kind, words) in enumerate(lines)
        ]


def shown_of(run: Run, plan: PlanText, rows: list[int] | None, budget: int | None) -> Shown:
    """What is shown of a plan whose texts are those of a run."""
    from .json_plan import conditions_of
    own: dict[str, list[str]] = {}
    at: dict[int, list[str]] = {}
    for condition in conditions_of(run, plan):
        if len(condition.entries) == 1:
            own.setdefault(condition.entries[0], []).append(condition.text)
        else:
            at.setdefault(condition.step, []).append(condition.text)
    tables = {entry.name: entry.table.name for entry in run.query.entries}
    return Shown(title_of(os.path.basename(run.query_file), plan, budget), plan, rows, budget, tables, own, at)


def title_of(file: str, plan: PlanText, budget: int | None) -> str:
    shape, step, most = (
        ("join tree", "node", max(plan.bounds)) if plan.is_tree else ("order", "level", max(plan.bounds))
    )
    if budget is not None and most > budget:
        return f"{file} is refused: its best {shape} has a {step} of up to {most:,} rows, past the budget"
    return f"{file}: the best {shape}; no {step} has more than {most:,} rows"
