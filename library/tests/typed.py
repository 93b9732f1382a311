"""Calls of the library, for their types: `mypy --strict` reports exactly the lines with `# wrong`. This file is never
run.
"""

from __future__ import annotations

from typing import Dict, FrozenSet, List, Literal, NewType, Optional, Tuple

from safebound import Bounds, Join, Order, Plan, Query, Run, Tree, append, compress, cut, degree_sequence, greater
from safebound import JoinKind, joined_rows, lesser, plan_stats, run

entries: List[str] = ["r", "s"]
equalities: List[Tuple[Tuple[str, str], Tuple[str, str]]] = [(("r", "x"), ("s", "x"))]
rows: Dict[str, int] = {"r": 6, "s": 5}
lists: Dict[Tuple[str, str], List[Run]] = {("r", "x"): degree_sequence([1, 2, 2, None]), ("s", "x"): [Run(2, 2)]}
query = Query(entries, equalities, rows, lists)

pairs: Dict[Tuple[str, int], List[Tuple[int, int]]] = {("r", 1): [(3, 2)]}
Query(("r", "s"), [(("r", 1), ("s", 1))], {"r": 6, "s": 5}, pairs)
Query(["r"], [], {"r": 7}, {})

Name = NewType("Name", str)
named: Dict[Name, int] = {Name("r"): 6}
Query([Name("r")], [], named, {})
letters: Dict[Literal["r", "s"], int] = {"r": 6, "s": 5}
Query(["r", "s"], [], letters, {("r", "x"): compress([(3, 2)], 8)})

bounds: Bounds = query.bounds()
one: Optional[int] = bounds[{"r", "s"}]
other: Optional[int] = bounds[frozenset(["r"])]
whole: Optional[int] = bounds[query.entries]
sets: List[FrozenSet[str]] = list(bounds)
order: Order = query.best_order(12)
tree: Tree = query.best_tree(budget=12)
numbers: Tuple[int, ...] = (order.cost, tree.cost, query.memory(order), query.memory(tree), *order.levels)
joins: Tuple[Join, ...] = tree.joins
texts: Tuple[str, ...] = (order.explain(), tree.explain(), query.explain(), query.explain(tree), *order.entries)
maker: Optional[Query] = order.query
known: int = query.row_bounds["r"]
both: List[Run] = append(lists["r", "x"], [(3, 2)])
few: List[Run] = cut(lesser(both, greater(both, [(3, 2)])), 7)
rows_at_most: Optional[int] = joined_rows("left", bounds[{"r", "s"}], 6, None)
kind: JoinKind = "semi"
rows_with_a_match: Optional[int] = joined_rows(kind, 12, 6, 5)
files: Dict[str, bytes] = {"schema.sql": b""}
status: int = run(["plan", b"schema.sql"], files).status
plan: Plan = plan_stats("", b"", b"", budget=3)

Query(entries, equalities, rows, {"r": [Run(2, 2)]})  # wrong
Query(entries, equalities, {"r": 6.5}, lists)  # wrong
Query(entries, [("r", "s")], rows, lists)  # wrong
query.best_order("12")  # wrong
query.memory(12)  # wrong
run([1, 2], files)  # wrong
compress([3, 2], 8)  # wrong
joined_rows("left", 12.5, 6, 5)  # wrong
joined_rows("inner", 12, 6, 5)  # wrong
degree_sequence([[1], [2]])  # wrong
