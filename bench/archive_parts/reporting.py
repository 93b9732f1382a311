"""The tables of the pages, out of the three CSV files of `measuring`."""

from __future__ import annotations

import csv
from typing import Dict, Iterable, List

import numpy as np

from .bounding import COMPUTED, COUNT, TRIED, Flags
from .measuring import COMMANDS, PLANS, RUNS, SETS
from .running import BUDGET

SMALL_BUDGET = 1_000_000
SHARES = (50, 75, 90, 100)
# The lines of a CSV file, each as a map from column names.
Lines = List[Dict[str, str]]


def read(path: str) -> Lines:
    with open(path, encoding="utf-8", newline="") as f:
        return list(csv.DictReader(f))


def number_text(value: float) -> str:
    """A number as the tables show it: two digits below ten, a whole number below a thousand, then three digits. From a
    million on it is a power of ten.
    """
    if value < 10:
        return f"{value:.2g}"
    if value < 1000:
        return f"{value:.0f}"
    return f"{float(f'{value:.3g}'):,.0f}" if value < 1e6 else f"{value:.1e}".replace("e+0", "e").replace("e+", "e")


def spread(values: Iterable[float]) -> list[str]:
    """Median, 75th and 90th percentile, and the greatest."""
    found = list(values)
    return [number_text(np.percentile(found, share)) for share in SHARES] if found else ["-"] * len(SHARES)


def median_p90_most(values: Iterable[float]) -> str:
    """Median, 90th percentile and the greatest."""
    found = spread(values)
    return f"{found[0]}, {found[2]}, {found[3]}"


def table(header: list[str], rows: Iterable[list[str]]) -> None:
    for row in (header, ["---"] * len(header), *rows):
        print("| " + " | ".join(row) + " |")
    print()


def flags_run(found: Lines) -> list[Flags]:
    """The sets of flags that were run."""
    return [flags for flags in TRIED if any(one["flags"] == flags.name for one in found)]


def counted_factors(runs: Lines, names: set[str]) -> list[float]:
    """For each whole query that `--count` admits, its printed bound divided by PostgreSQL's rows."""
    counts = [one for one in runs if one["flags"] == COUNT.name and one["question"] in names]
    both = [(one["last"], one["postgres_rows"]) for one in counts if one["last"] and one["postgres_rows"]]
    return [int(last) / max(int(rows), 1) for last, rows in both]


def factor(one: dict[str, str], name: str) -> float:
    return int(one[name]) / max(int(one["rows"]), 1)


def bound_factors(sets: Lines, name: str) -> list[float]:
    return [factor(one, name) for one in sets if one["rows"] and one[name]]


def is_below(one: dict[str, str], bound: str, rows: str) -> bool:
    """Whether a bound is less than the number of rows, if the rows were counted."""
    return bool(one[rows]) and int(one[bound]) < int(one[rows])


def check(sets: Lines, runs: Lines) -> None:
    """Checks that no bound is below its rows, that no run has other rows than PostgreSQL, and that the program prints
    the bounds that the definitions give."""
    whole = [one for one in sets if one["whole"] == "1"]
    bound = {(one["question"], flags.name): int(one[flags.name]) for one in whole for flags in COMPUTED}
    ran = [one for one in runs if one["status"] == "0"]
    under = [one for one in sets for flags in COMPUTED if is_below(one, flags.name, "rows")]
    under += [one for one in ran if is_below(one, "last", "postgres_rows")]
    defined = [one for one in runs if one["flags"] != COUNT.name]
    others = [one for one in defined if one in ran and int(one["last"]) != bound[one["question"], one["flags"]]]
    low = [one for one in defined if int(one["cost"]) < bound[one["question"], one["flags"]]]
    reduced = [flags.name for flags in COMPUTED if flags.source == "reduce"][-1]
    counts = [one for one in ran if one["flags"] == COUNT.name]
    above = [one for one in counts if int(one["last"]) > bound[one["question"], reduced]]
    wrong = [one for one in ran if one["same"] == "0"]
    print(
        f"{len(sets)} sets, of which {sum(not one['rows'] for one in sets)} weren't counted; bounds that were under:"
        f" {len(under)}. {len(ran)} runs, of which {sum(one['same'] == '1' for one in ran)} have PostgreSQL's rows and"
        f" {len(wrong)} others; {len(ran) - len(others)} print the bound of the definitions.\n"
    )
    if under or wrong or others or low or above:
        raise SystemExit(f"archive: {under + wrong + others + low + above}")


REFUSED = ("refused at 20,000,000", "at 1,000,000")
WHOLE = ["whole query: bound / rows", "median", "75th", "90th percentile", "worst", *REFUSED]


def whole_queries(sets: Lines, runs: Lines) -> None:
    """Prints two tables: bounds of whole queries divided by their rows, and how many queries each budget refuses."""
    whole = [one for one in sets if one["whole"] == "1"]
    for title, chosen in (("all", ("0", "1")), ("without cycles", ("0",)), ("with cycles", ("1",))):
        asked = [one for one in whole if one["cyclic"] in chosen]
        print(f"{len({one['question'] for one in asked})} questions, {title}:\n")
        table(WHOLE, [whole_by(flags, asked, runs) for flags in flags_run(runs)])


def whole_by(flags: Flags, asked: Lines, runs: Lines) -> list[str]:
    """The line of the table for one set of flags."""
    names = {one["question"] for one in asked}
    cost = {one["question"]: int(one["cost"]) for one in runs if one["flags"] == flags.name and one["cost"]}
    refused = [sum(cost.get(name, budget + 1) > budget for name in names) for budget in (BUDGET, SMALL_BUDGET)]
    factors = counted_factors(runs, names) if flags == COUNT else bound_factors(asked, flags.name)
    return [flags.name, *spread(factors), *map(str, refused)]


def by_size(sets: Lines) -> None:
    sizes = sorted({int(one["size"]) for one in sets})
    print("Median, and 90th percentile, of bound / rows by the number of entries:\n")
    rows = []
    for flags in COMPUTED:
        of_size = [[one for one in sets if int(one["size"]) == size] for size in sizes]
        spreads = [spread(bound_factors(some, flags.name)) for some in of_size]
        rows.append([flags.name, *(f"{found[0]}, {found[2]}" for found in spreads)])
    counts = [str(sum(int(one["size"]) == size for one in sets)) for size in sizes]
    table(["entries", *map(str, sizes)], [["sets", *counts], *rows])


def estimates(sets: Lines) -> None:
    """How often PostgreSQL expects too few rows."""
    whole = [one for one in sets if one["whole"] == "1"]
    rows = [expected("whole queries", whole), expected("all connected sets", sets)]
    table(["", "counted", "too low", "too low by more than ten times", "at worst"], rows)


def expected(title: str, sets: Lines) -> list[str]:
    both = [(int(one["expected"]), int(one["rows"])) for one in sets if one["rows"]]
    low = [rows / max(expected, 1) for expected, rows in both if expected < rows]
    counted, far = f"{len(both)} of {len(sets)}", sum(factor > 10 for factor in low)
    return [title, counted, str(len(low)), str(far), f"{max(low):,.0f} times"]


TIMES = [
    "",
    "admitted",
    "`run` of all of these",
    "PostgreSQL of the same",
    "of these not ended after 60 s",
    "peak, median and greatest",
    "longest refusal",
]


def times(runs: Lines) -> None:
    table(TIMES, [times_by(flags, runs) for flags in flags_run(runs)])


def times_by(flags: Flags, runs: Lines) -> list[str]:
    own = [one for one in runs if one["flags"] == flags.name]
    ran = [one for one in own if one["status"] == "0"]
    refusals = [float(one["seconds"]) for one in own if one["status"] != "0"]
    peaks = [float(one["peak"]) for one in ran]
    return [
        flags.name,
        str(len(ran)),
        f"{sum(float(one['seconds']) for one in ran):.1f} s",
        f"{sum(float(one['postgres_seconds']) for one in ran):.1f} s",
        str(sum(not one["postgres_rows"] for one in ran)),
        f"{np.median(peaks):.0f} MiB, {max(peaks):.0f} MiB",
        f"{max(refusals, default=0):.1f} s",
    ]


def sums(runs: Lines) -> None:
    """The times of `--reduce` beside PostgreSQL's, and the time of each set of flags for the questions that all of them
    admit.
    """
    ran = [one for one in runs if one["status"] == "0"]
    reduced = [one for one in ran if one["flags"] == "`--reduce`" and one["postgres_rows"]]
    both = [(float(one["seconds"]), float(one["postgres_seconds"])) for one in reduced]
    sides = [f"{sum(side):.1f} s, {np.median(side):.2f} s in the median" for side in zip(*both)]
    print(
        f"{len(both)} questions that `--reduce` admits and PostgreSQL ended: `run` took {sides[0]}, PostgreSQL"
        f" {sides[1]}; `run` was faster for {sum(mine < other for mine, other in both)}.\n"
    )
    took = {
        flags.name: {one["question"]: float(one["seconds"]) for one in ran if one["flags"] == flags.name}
        for flags in flags_run(ran)
    }
    admitted = set.intersection(*(set(own) for own in took.values()))
    by_flags = [f"{sum(own[name] for name in admitted):.1f} s with {flags}" for flags, own in took.items()]
    print(f"{len(admitted)} questions are admitted whatever the flags: {', '.join(by_flags)}.\n")


FIGURES = {"seconds": "seconds", "processor": "seconds of processor", "peak": "peak in MiB"}


def plans(found: Lines) -> None:
    """`plan` compared with the `run` right after it, for questions that the budget admits. Each cell has the median,
    the 90th percentile and the maximum.
    """
    loads, refused = [float(one["load"]) for one in found], [one for one in found if one["run_status"] != "0"]
    longest = {command: max((float(one[f"{command}_seconds"]) for one in refused), default=0.0) for command in COMMANDS}
    print(
        f"{len(found)} plans, each with its run right after it, at load {min(loads):.0f} to {max(loads):.0f};"
        f" {len(refused)} times both refused, `plan` in at most {longest['plan']:.1f} s and `run` in at most"
        f" {longest['run']:.1f} s. Median, 90th percentile, worst of the others:\n"
    )
    header = ["", "admitted", *(f"`{command}`, {title}" for title in FIGURES.values() for command in COMMANDS)]
    table(header, [plans_by(flags, found) for flags in flags_run(found)])
    if any(one["plan_status"] != one["run_status"] for one in found):
        raise SystemExit("archive: a plan and its run end with different statuses")


def plans_by(flags: Flags, found: Lines) -> list[str]:
    ran = [one for one in found if one["flags"] == flags.name and one["run_status"] == "0"]
    columns = [f"{command}_{name}" for name in FIGURES for command in COMMANDS]
    return [flags.name, str(len(ran)), *(median_p90_most(float(one[column]) for one in ran) for column in columns)]


def beside_reduce(found: Lines) -> None:
    """The ratio of `plan --count` to `plan --reduce` of the same question, in time."""
    took = {(one["question"], one["flags"]): float(one["plan_seconds"]) for one in found}
    counts = {question: seconds for (question, flags), seconds in took.items() if flags == COUNT.name}
    ratios = [seconds / took[question, "`--reduce`"] for question, seconds in counts.items()]
    if ratios:
        print(
            f"`plan --count` took {median_p90_most(ratios)} times as long as `plan --reduce` (median, 90th percentile,"
            " worst).\n"
        )


def worst(sets: Lines, number: int = 10) -> None:
    """The whole queries with the loosest bounds, for each set of flags."""
    whole = [one for one in sets if one["whole"] == "1" and one["rows"]]
    for flags in COMPUTED:
        found = [(factor(one, flags.name), one) for one in whole if one[flags.name]]
        loosest = sorted(found, key=lambda pair: -pair[0])[:number]
        print(f"{flags.name}:\n")
        header = ["question", "rows", "bound", "times"]
        table(header, [[one["question"], one["rows"], one[flags.name], number_text(times)] for times, one in loosest])


def report() -> None:
    sets, runs = read(SETS), read(RUNS)
    check(sets, runs)
    whole_queries(sets, runs)
    by_size(sets)
    estimates(sets)
    times(runs)
    sums(runs)
    plans(read(PLANS))
    beside_reduce(read(PLANS))
    worst(sets)
