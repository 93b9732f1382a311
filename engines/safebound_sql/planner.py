"""Plans and runs one query in one snapshot of an engine."""

from __future__ import annotations

import contextlib
import re
from collections import Counter
from typing import Collection, Iterator, TextIO

from .counted import BoundLowerer
from .counting import Counts, counting_statement, counts_of, counts_of_file, prefix_for
from .dialect import as_script
from .engine import Engine
from .faults import EngineFault, PastBudget
from .kept import KeptCounts
from .levels import MOST_BUDGET, Plan, best_plan
from .meaning import Meaning
from .progress import Progress
from .query import Row
from .writing import Writer


def scan_counts(statement: str, prefix: str) -> Counter[str]:
    """How often the statement reads each table, in an engine that computes a part again wherever it is named."""
    read: dict[str, Counter[str]] = {}
    last: Counter[str] = Counter()
    for name, text in re.findall(
        rf"(?:^  ({re.escape(prefix)}\d+) AS |^(?:UNION ALL )?SELECT )(.*)$", statement, re.MULTILINE
    ):
        found: Counter[str] = Counter()
        for table in re.findall(r"\b(?:FROM|JOIN) ([^\s()]+)", text):
            found += read.get(table, Counter([table]))
        if name:
            read[name] = found
        else:
            last += found
    return last


@contextlib.contextmanager
def _adding_to_faults(why: str) -> Iterator[None]:
    """Adds `why` to the message of a fault that a value in some row caused."""
    try:
        yield
    except EngineFault as fault:
        raise EngineFault(f"{fault} ({why})" if fault.of_data else str(fault)) from None


class Planner:
    """The steps of the commands. All statements run in the engine's only transaction."""

    def __init__(self, engine: Engine, text: str, reduce: bool = True, progress: Progress | None = None) -> None:
        self.engine, self.reduce = engine, reduce
        self.progress = progress or Progress()
        self.meaning = Meaning(text, engine)
        self.query = self.meaning.query
        engine.connection.prepare_joins(entry.about for entry in self.query.entries)
        self.prefix = prefix_for([text])
        self.note = self._why_not_reduced()
        self.reduce = self.reduce and not self.note
        self.writer = Writer(self.query, engine.dialect, self.prefix, self.reduce)

    def _why_not_reduced(self) -> str | None:
        """Why semi-joins are left out, or None if they aren't. An engine that doesn't keep parts would read a table too
        often.
        """
        dialect = self.engine.dialect
        if not self.reduce or dialect.most_scans is None:
            return None
        table, times = scan_counts(self.counting, self.prefix).most_common(1)[0]
        if times <= dialect.most_scans:
            return None
        why = f"{dialect.title} computes a part again wherever it is named, and would read {table} {times} times"
        return f"{why}; so this counts under own conditions alone, as with --no-reduce, and so do plan and sql"

    @property
    def counting(self) -> str:
        return counting_statement(self.query, self.engine.dialect, self.prefix, self.reduce)

    def plan(self, accuracy: int, budget: int, tree: bool, counts_file: str | None = None) -> Plan:
        """Counts and plans."""
        if counts_file:
            counts = counts_of_file(self.query, counts_file)
        else:
            counts = counts_of(self.query, self._count_rows(()))
        return self.planned(counts, accuracy, budget, tree)

    def plan_by_counting(self, accuracy: int, budget: int, tree: bool) -> Plan:
        """Counts and plans, then lowers the bounds of the plan's levels to counted numbers."""
        plan = self.plan(accuracy, MOST_BUDGET, tree)
        with self.progress.doing(f"counting the choices of rows of {len(plan.levels)} levels"):
            BoundLowerer(plan, self.engine, self.prefix, self.reduce).lower()
        if plan.cost > budget:
            raise PastBudget(budget, plan.cost)
        return plan

    def plan_by_kept(self, accuracy: int, budget: int, tree: bool, kept: KeptCounts) -> Plan:
        """Plans with the kept counts of tables whose number of rows hasn't changed. Counts the other entries."""
        taken = kept.usable_counts(self.query)
        answer = self._count_rows(taken)
        rows = {entry: degree for entry, column, degree, _ in answer if column == ""}
        changed = {
            entry.name: (taken.pop(entry.number).rows, rows[entry.name])
            for entry in self.query.entries
            if entry.number in taken and taken[entry.number].rows != rows[entry.name]
        }
        if changed:
            answer = self._count_rows(taken)
        for number, table in taken.items():
            answer += table.answer(self.query.entries[number].name, self.query.joined_columns(number))
        plan = self.planned(counts_of(self.query, answer), accuracy, budget, tree)
        plan.kept = {self.query.entries[number].name: table.time for number, table in taken.items()}
        plan.changed = changed
        return plan

    def _count_rows(self, known: Collection[int]) -> list[Row]:
        why = "each condition is tested on all rows of its table, and the query itself may never reach this row"
        doing = f"counting the rows of {len(self.query.entries) - len(known)} entries"
        with self.progress.doing(doing), _adding_to_faults(f"while counting, {why}"):
            statement = counting_statement(self.query, self.engine.dialect, self.prefix, self.reduce, known)
            return self.engine.connection.rows(statement)

    def planned(self, counts: Counts, accuracy: int, budget: int, tree: bool) -> Plan:
        return best_plan(self.query, counts, accuracy, budget, tree)

    def check(self, plan: Plan) -> None:
        """Lets the engine check the planned query before the query is reported as admitted."""
        why = self.engine.catalog.complaint(self.sql(plan))
        if why:
            hint = (
                "try --no-reduce, by which the tables themselves are joined"
                if self.reduce
                else "write it in another way"
            )
            raise EngineFault(f"{why}. The query is taken as it is, but not in the planned order: {hint}")

    def expect(self, plan: Plan) -> None:
        """Asks the engine how many rows it expects in each level."""
        for level in plan.levels:
            level.expected = self.engine.catalog.expected(self.writer.plainly(level.shape))

    @property
    def settings(self) -> tuple[str, ...]:
        """The settings that keep the joins in their order."""
        return self.engine.dialect.settings_for(entry.about for entry in self.query.entries)

    def sql(self, plan: Plan) -> str:
        return self.writer.query_in_order(plan)

    def script(self, plan: Plan) -> str:
        """The planned SQL, with the settings before it that make the engine keep the order."""
        return as_script(*self.settings, self.sql(plan))

    def true_rows(self, plan: Plan) -> list[int]:
        self.engine.connection.keep_order()
        with self.progress.doing(f"counting the rows of {len(plan.levels)} levels"):
            answer = self.engine.connection.rows(self.writer.true_rows(plan.levels))
        found = {number: rows for number, rows in answer}
        return [found[number] for number in range(1, len(plan.levels) + 1)]

    def run(self, plan: Plan, out: TextIO, null: str = "") -> None:
        """Writes the rows. After the first row nothing else is written."""
        self.engine.connection.keep_order()
        why = "in the planned order, which may come to rows that the query itself never reaches"
        why += "; --no-reduce tests conditions later" if self.reduce else ""
        with self.progress.doing("joining") as end, _adding_to_faults(why):
            for part in self.engine.connection.csv(self.sql(plan), null):
                end()
                out.write(part)
