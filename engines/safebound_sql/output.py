"""Plans as a table for readers, and as JSON for programs."""

from __future__ import annotations

import json
from .block_plans import Planner
from .levels import Level, Plan, Shape, entries_of
from .query import EntryColumn, Query


def plan_table(plan: Plan, title: str, true_rows: list[int] | None = None) -> str:
    """The plan as text: one line for each level, and notes below the levels."""
    heads = ["level", "joined", "of", "scan", "bound", f"{title} expects", "factor"]
    rows = [_row(plan, number, level) for number, level in enumerate(plan.levels, 1)]
    if all(level.expected is None for level in plan.levels):
        heads, rows = heads[:5], [row[:5] for row in rows]
    if true_rows is not None:
        heads += ["rows", "bound / rows"]
        rows = [
            row + [str(true), _factor_text(level.bound / max(true, 1))]
            for row, level, true in zip(rows, plan.levels, true_rows)
        ]
    lines = _aligned([heads] + rows)
    if plan.tree:
        lines.append(
            "scans: " + ", ".join(f"{entry.name} {plan.counts.rows[entry.name]}" for entry in plan.query.entries)
        )
    lines.append(f"budget {plan.cost} would do")
    lines += _lines_of_kept(plan)
    lines += plan.notes
    lines += [f"not used for bounds: {text} ({why})" for text, why in plan.unused]
    return "\n".join(lines) + "\n"


def blocks_table(planner: Planner, notes: list[str]) -> str:
    """The plans of all blocks as text, the bound of the whole query's rows, and the parts that aren't bounded."""
    lines: list[str] = []
    for plan in planner.plans.values():
        if not plan.levels:
            continue
        audited = any(level.rows is not None for level in plan.levels)
        heads = ["level", "joined", "of", "scan", "bound"] + ["rows", "bound / rows"] * audited
        rows = [
            [str(n), level.joined, level.source, str(level.scan), str(level.bound)]
            for n, level in enumerate(plan.levels, 1)
        ]
        if audited:
            for row, level in zip(rows, plan.levels):
                row += [str(level.rows), _factor_text(level.bound / max(level.rows or 0, 1))]
        most = "" if plan.rows is None else f": at most {plan.rows} rows"
        lines += [f"{plan.select.label}{most}", *_aligned([heads] + rows), *plan.notes, ""]
    if planner.rows is not None:
        there = "" if planner.rows_there is None else f", and it has {planner.rows_there}"
        lines.append(f"the whole query: at most {planner.rows} rows{there}")
    lines += [f"not bounded: {why}" for why in planner.unbounded]
    return "\n".join([*lines, f"budget {planner.cost} would do", *notes]) + "\n"


def blocks_document(planner: Planner, notes: list[str]) -> str:
    """The plans of all blocks as JSON, the bound of the whole query's rows, and the parts that aren't bounded."""
    content = {
        "blocks": [
            {
                "name": plan.select.label,
                "rows": plan.rows,
                "not used for bounds": plan.notes,
                "levels": [
                    {
                        "joined": level.joined, "of": level.source, "scan": level.scan, "bound": level.bound,
                        "rows": level.rows,
                    }
                    for level in plan.levels
                ],
            }
            for plan in planner.plans.values()
            if plan.levels
        ],
        "rows": planner.rows,
        "true rows": planner.rows_there,
        "not bounded": planner.unbounded,
        "notes": notes,
        "least budget": planner.cost,
        "setting": "; ".join(planner.settings),
        "sql": planner.sql(),
    }
    return json.dumps(content, indent=2, ensure_ascii=False) + "\n"


def _lines_of_kept(plan: Plan) -> list[str]:
    lines = [
        f"{name}: {then} rows were kept, and {now} are there now; counted anew"
        for name, (then, now) in plan.changed.items()
    ]
    for time in sorted(set(plan.kept.values())):
        names = ", ".join(name for name, then in plan.kept.items() if then == time)
        lines.append(f"counts of {time} are taken for {names}: bounds hold for the rows of then")
    return lines


def _row(plan: Plan, number: int, level: Level) -> list[str]:
    expected = "-" if level.expected is None else str(level.expected)
    factor = "-" if level.factor is None else _factor_text(level.factor)
    return [str(number), *_joined(plan, level.shape), str(level.bound), expected, factor]


def _joined(plan: Plan, shape: Shape) -> list[str]:
    """What a level joins: the new entry with its table and its scan, or both sides of a tree's join."""
    if isinstance(shape, int):
        return _scan(plan, shape)
    last = shape[1]
    if isinstance(last, int) and not plan.tree:
        return _scan(plan, last)
    entries = plan.query.entries
    left, right = (", ".join(entries[number].name for number in entries_of(side)) for side in shape)
    return [f"({left}) with ({right})", "", ""]


def _scan(plan: Plan, number: int) -> list[str]:
    new = plan.query.entries[number]
    return [new.name, new.table, str(plan.counts.rows[new.name])]


def _factor_text(factor: float) -> str:
    return f"{factor:.2g}" if factor < 10 else f"{factor:.0f}"


def _aligned(rows: list[list[str]]) -> list[str]:
    """Lines with aligned columns: words to the left, numbers to the right."""
    widths = [max(map(len, column)) for column in zip(*rows)]
    sides = [str.ljust if at in (1, 2) else str.rjust for at in range(len(widths))]
    return ["  ".join(side(cell, width) for side, cell, width in zip(sides, row, widths)).rstrip() for row in rows]


def plan_document(plan: Plan, settings: tuple[str, ...], sql: str, true_rows: list[int] | None = None) -> str:
    """The plan as JSON."""
    query = plan.query
    levels = [_level(query, level) for level in plan.levels]
    if true_rows is not None:
        levels = [{**level, "rows": true} for level, true in zip(levels, true_rows)]
    content = {
        "entries": [
            {
                "name": entry.name, "table": entry.table, "conditions": list(map(str, entry.own)),
                "scan": plan.counts.rows[entry.name],
            }
            for entry in query.entries
        ],
        "equalities": [[_column(query, side) for side in equality] for equality in query.equalities],
        "conditions": [str(condition.text) for condition in query.conditions],
        "not used for bounds": [{"condition": str(text), "why": why} for text, why in plan.unused],
        "order": [query.entries[number].name for number in entries_of(plan.shape)],
        "tree": _shape(query, plan.shape) if plan.tree else None,
        "levels": levels,
        "least budget": plan.cost,
        "notes": plan.notes,
        "kept": plan.kept,
        "counted anew": list(plan.changed),
        "setting": "; ".join(settings),
        "sql": sql,
    }
    return json.dumps(content, indent=2, ensure_ascii=False) + "\n"


def _level(query: Query, level: Level) -> dict[str, object]:
    names = [query.entries[number].name for number in entries_of(level.shape)]
    return {
        "entries": names, "bound": level.bound, "counted by": level.counted, "expected": level.expected,
        "factor": level.factor,
    }


def _column(query: Query, named: EntryColumn) -> dict[str, str]:
    return {"entry": query.entries[named.entry].name, "column": named.column.name}


def _shape(query: Query, shape: Shape) -> object:
    return query.entries[shape].name if isinstance(shape, int) else [_shape(query, side) for side in shape]
