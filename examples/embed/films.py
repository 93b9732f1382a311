"""The query of examples/films, planned from lists.

    SELECT .. FROM PERSON P, CAST_INFO CI, TITLE T, MOVIE_COMPANY MC, COMPANY C
    WHERE CI.PERSON = P.ID AND CI.TITLE = T.ID AND MC.TITLE = T.ID AND MC.COMPANY = C.ID
      AND CI.PART = 'director' AND C.COUNTRY = 'NO'

A planner has its own access to the values of a column. This program reads them from the files of that folder:

    python3 examples/embed/films.py examples/films
"""

from __future__ import annotations

import csv
import os
import sys

from safebound import BudgetExceeded, Query, compress, degree_sequence


def read(folder: str, name: str) -> list[dict[str, str]]:
    with open(os.path.join(folder, name), newline="", encoding="utf-8") as f:
        return list(csv.DictReader(f))


def query_over(folder: str) -> Query:
    tables = {
        "P": read(folder, "person.csv"),
        "CI": [row for row in read(folder, "cast_info.csv") if row["PART"] == "director"],
        "T": read(folder, "title.csv"),
        "MC": read(folder, "movie_company.csv"),
        "C": [row for row in read(folder, "company.csv") if row["COUNTRY"] == "NO"],
    }
    equalities = [
        (("CI", "PERSON"), ("P", "ID")),
        (("CI", "TITLE"), ("T", "ID")),
        (("MC", "TITLE"), ("T", "ID")),
        (("MC", "COMPANY"), ("C", "ID")),
    ]
    joined = {column for equality in equalities for column in equality}
    lists = {(e, name): compress(degree_sequence(row[name] for row in tables[e]), accuracy=1) for e, name in joined}
    return Query(
        entries=list(tables),
        equalities=equalities,
        row_bounds={entry: len(rows) for entry, rows in tables.items()},
        lists=lists,
    )


def print_order(query: Query, budget: int) -> None:
    try:
        order = query.best_order(budget)
    except BudgetExceeded as refused:
        print(f"no order within {budget} rows: {refused.least} would do")
        return
    print("best order")
    for entry, level in zip(order.entries, order.levels):
        print(f"  {entry} {level}")


def print_tree(query: Query, budget: int) -> None:
    tree = query.best_tree(budget)
    names = list(tree.entries) + [f"join {i}" for i in range(len(tree.joins))]
    print("best tree")
    for i, join in enumerate(tree.joins):
        print(f"  join {i}: {names[join.left]} {names[join.right]} {join.bound}")


query = query_over(sys.argv[1] if len(sys.argv) > 1 else "examples/films")
print(f"all five joined: at most {query.bounds()[query.entries]} rows")
print_order(query, 1_000_000)
print_tree(query, 1_000_000)
print_order(query, 1000)
