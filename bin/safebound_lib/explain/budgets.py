"""`error budget LEAST` and `error past-bits`: what makes the bound large, and what would lower it."""
from __future__ import annotations

import subprocess
from typing import TYPE_CHECKING

from safebound.plan_texts import PlanText, read_plan

from . import read
from ..faults import fault_of
from ..near import series
from ..program import answer
from ..query import components, equality
from ..table import ACCURACY, BUDGET, BUSHY, COUNT, KEYS, MOST_BUDGET, MOST_BUDGET_OF_A_TREE, REDUCE, USUAL_BUDGET
from ..terminal import saying
from ..words import option_of

if TYPE_CHECKING:
    from ..faults import Fault
    from . import Run
    from ..table import Option

SECONDS = 60
TRIED_ACCURACY = "8"


def explain(fault: Fault, run: Run) -> list[str]:
    budget, most = int(option_of(run.words, BUDGET.word) or USUAL_BUDGET), most_budget(run)
    is_past_bits, least = fault.kind == "past-bits", fault.least
    shape, step = ("join tree", "node") if has_flag(run, BUSHY) else ("order", "level")
    if is_past_bits:
        first = f"In every {shape} some {step} has a bound of 2^128 - 1 rows or more. No budget helps."
    elif least > most:
        first = (
            f"The best {shape} has a {step} whose bound is {least:,} rows. No --budget goes that far: the most is"
            f" {most:,}."
        )
    else:
        first = (
            f"The best {shape} has a {step} whose bound is {least:,} rows, and the budget is {budget:,}. The least"
            f" budget is --budget {least}."
        )
    apart = connection_warning(run)
    several = [] if has_flag(run, COUNT) else several_equalities(run)
    with saying("trying other options .."):
        past = "" if is_past_bits else at_fault(run, least, budget)
        return [first, past, apart, *several, *ways_out(run, budget, apart)]


def most_budget(run: Run) -> int:
    """The greatest budget that the run accepts."""
    return MOST_BUDGET_OF_A_TREE if has_flag(run, BUSHY) else MOST_BUDGET


def connection_warning(run: Run) -> str:
    """A sentence if equalities don't connect all entries. Mostly the user forgot a condition."""
    query = run.query
    found = components(query, run.schema)
    if len(found) < 2:
        return ""
    named = [series(query.entries[i].name for i in group) for group in found]
    parts = "; ".join(named)
    return (
        f"These entries aren't connected: {parts}. No condition of the form A.X = B.Y leads from one of these groups to"
        " another, so each row of one meets each row of the others. Is a condition forgotten?"
    )


def several_equalities(run: Run) -> list[str]:
    """A sentence for each pair of entries that several equalities join, as for a key of two columns."""
    query, schema, text = run.query, run.schema, read(run.query_file)
    found: dict[tuple[int, int], list[str]] = {}
    for condition in query.conjuncts():
        pair = equality(query, condition, schema)
        if pair:
            found.setdefault((min(pair), max(pair)), []).append(
                " ".join(text[condition.start:condition.end].decode().split())
            )
    names = [entry.name for entry in query.entries]
    return [
        f"{names[one]} and {names[other]} are joined by {len(said)} equalities: {series(said)}. A bound counts one of"
        " them alone: together they count as one, so there may be far fewer rows than it says."
        for (one, other), said in found.items() if len(said) > 1
    ]


def with_words(run: Run, words: list[str]) -> int | PlanText | None:
    """The result of `plan` with further words: the plan, or the least budget if it is refused, or None."""
    if run.program is None or run.command == "demo":
        return None
    keep = planned_words(run.words)
    try:
        status, _, notes = answer(run.program, [*keep[:1], *words, *keep[1:]], seconds=SECONDS)
    except subprocess.TimeoutExpired:
        return None
    if status == 0:
        return read_plan(notes.decode("utf-8", "replace"))
    fault = fault_of(notes)
    return fault.least if fault and fault.kind == "budget" else None


def planned_words(words: list[str]) -> list[str]:
    """The words of `plan` for the same schema and query, without the options that the caller tries."""
    found, left = ["plan"], list(words[1:])
    while left:
        word = left.pop(0)
        if word == "--":
            return found + [word, *left]
        if word in (BUDGET.word, ACCURACY.word):
            del left[:1]
        elif word not in (REDUCE.word, BUSHY.word, KEYS.word, COUNT.word) and not word.startswith(
            (BUDGET.word + "=", ACCURACY.word + "=")
        ):
            found.append(word)
    return found


def at_fault(run: Run, least: int, budget: int) -> str:
    """Names the levels or nodes above the budget. It plans the query under the least budget to see them."""
    if least > most_budget(run):
        return ""
    plan = with_words(run, given_options(run, least))
    if plan is None or isinstance(plan, int):
        return ""
    if plan.is_tree:
        nodes = [(number, node.bound) for number, node in enumerate(plan.nodes, len(plan.scans)) if node.bound > budget]
        said = series(f"node {number} ({series(plan.leaves(number))}), of {bound:,} rows" for number, bound in nodes)
        return f"Past the budget: {said}." if nodes else ""
    past = [(number + 1, alias, bound) for number, (alias, bound) in enumerate(plan.levels) if bound > budget]
    if not past:
        return ""
    order = series((alias for alias, _ in plan.levels), "and then")
    said = series(f"level {number} ({alias}), of {bound:,} rows" for number, alias, bound in past)
    return f"That order is {order}. Past the budget: {said}."


def given_options(run: Run, budget: int, accuracy: str | None = None, flag: Option | None = None) -> list[str]:
    """The run's options, and the given ones. A flag that is tried replaces the flags with which it can't be combined.
    """
    flags = [one for one in (REDUCE, BUSHY, KEYS, COUNT) if has_flag(run, one)]
    if flag is not None:
        flags = [one for one in flags if BUSHY in (one, flag)] + [flag]
    kept = None if COUNT in flags else accuracy or option_of(run.words, ACCURACY.word)
    return [BUDGET.word, str(budget)] + ([ACCURACY.word, kept] if kept else []) + [one.word for one in flags]


def has_flag(run: Run, flag: Option) -> bool:
    before = run.words[:run.words.index("--")] if "--" in run.words else run.words
    return flag.word in before


def has_reference(run: Run) -> bool:
    """Whether a table of the query declares a reference."""
    schema = run.schema
    tables = [schema.table(entry.table.name) for entry in run.query.entries]
    return any(table is not None and table.references for table in tables)


def options_that_may_lower(run: Run) -> list[tuple[str, tuple[str | None, Option | None]]]:
    """Options that may lower the bounds, each with its name. With `--count` no other option lowers them."""
    if has_flag(run, COUNT):
        return []
    is_close = int(option_of(run.words, ACCURACY.word) or 1) >= int(TRIED_ACCURACY)
    ways: list[tuple[str, tuple[str | None, Option | None]]] = []
    if not has_flag(run, REDUCE):
        ways.append((f"With {REDUCE.word}", (None, REDUCE)))
    if not is_close:
        ways.append((f"With {ACCURACY.word} {TRIED_ACCURACY}", (TRIED_ACCURACY, None)))
    if len(ways) == 2:
        ways.append(("With both", (TRIED_ACCURACY, REDUCE)))
    if not has_flag(run, KEYS) and has_reference(run):
        ways.append((f"With {KEYS.word}", (None, KEYS)))
    return [*ways, (f"With {COUNT.word}", (None, COUNT))]


def ways_out(run: Run, budget: int, apart: str) -> list[str]:
    """The least budget or the bounds with other options, and other things that the user can do."""
    ways = options_that_may_lower(run)
    if not has_flag(run, BUSHY) and len(run.query.entries) > 3 and budget <= MOST_BUDGET_OF_A_TREE:
        ways.append((f"With {BUSHY.word}", (None, BUSHY)))
    results = [(name, with_words(run, given_options(run, budget, *how))) for name, how in ways]
    found = [f"    {name} {result_in_words(result, budget)}" for name, result in results]
    found = [line for line in found if not line.endswith(" None")]
    rest = "" if apart else "A condition on a column of one entry lowers bounds most: = or a range."
    return (["What other options come to:\n" + "\n".join(found)] if found else []) + [rest]


def result_in_words(found: int | PlanText | None, budget: int) -> str | None:
    if found is None:
        return None
    if isinstance(found, int):
        return f"the least budget is {found:,}."
    return f"it fits: no {'node' if found.is_tree else 'level'} has a bound of more than {max(found.bounds):,} rows."
