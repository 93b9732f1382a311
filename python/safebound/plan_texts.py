"""Reads the texts of plans and audits, as the program prints them (docs/USING.md), into scans, levels and nodes.

>>> plan = read_plan("scan R 3\\nscan S 2\\nlevel 1 S 2\\nlevel 2 R 3\\n")
>>> plan.scans, plan.levels
({'R': 3, 'S': 2}, [('S', 2), ('R', 3)])
>>> read_audit("level 1 S 2 2\\nlevel 2 R 3 1\\n", plan)
[2, 1]
"""

from __future__ import annotations

import re
from dataclasses import dataclass

__all__ = ["Node", "NoPlan", "PlanText", "read_audit", "read_plan"]


@dataclass(frozen=True)
class Node:
    """An inner node of a join tree: the numbers of the two nodes that it joins, and its bound."""

    left: int
    right: int
    bound: int


@dataclass
class PlanText:
    """A plan: the bounds of the scans by entry, in the order of FROM. It has either the levels along the order, as
    pairs of an entry and its bound, or the inner nodes of a join tree. Nodes are numbered from 0: first the entries in
    the order of FROM, then the inner nodes.
    """

    scans: dict[str, int]
    levels: list[tuple[str, int]]
    nodes: list[Node]

    @property
    def is_tree(self) -> bool:
        return not self.levels

    @property
    def entries(self) -> list[str]:
        return list(self.scans)

    @property
    def bounds(self) -> list[int]:
        """The bounds that a budget limits: of the levels, of the inner nodes, or of the only entry of a tree."""
        return [bound for _, bound in self.levels] or [node.bound for node in self.nodes] or list(self.scans.values())

    def leaves(self, number: int) -> list[str]:
        """The entries at the leaves of a node, from left to right."""
        if number < len(self.scans):
            return [self.entries[number]]
        node = self.nodes[number - len(self.scans)]
        return self.leaves(node.left) + self.leaves(node.right)


class NoPlan(ValueError):
    """The text isn't a plan, or isn't an audit of this plan."""


def read_plan(text: str) -> PlanText:
    """The plan in the standard error of `plan`, `run` or `audit`. A name may have blanks.

    Raises:
        NoPlan: it is another text.
    """
    lines = text.split("\n")[:-1]
    if lines and re.fullmatch("memory [0-9]+", lines[-1]):
        # With --memory the last line tells the bytes of the plan's buffers.
        lines.pop()
    scans = _matches(r"scan (.*) ([0-9]+)", lines)
    levels = _matches(r"level [0-9]+ (.*) ([0-9]+)", lines)
    nodes = _matches(r"node ([0-9]+) ([0-9]+) ([0-9]+) ([0-9]+)", lines)
    is_complete = scans and len(scans) + len(levels) + len(nodes) == len(lines)
    if not is_complete or not (len(levels) == len(scans) and not nodes or not levels and _is_tree(nodes, len(scans))):
        raise NoPlan("this is no plan text: " + (lines[0] if lines else "nothing"))
    return PlanText(
        {m[1]: int(m[2]) for m in scans}, [(m[1], int(m[2])) for m in levels],
        [Node(int(m[2]), int(m[3]), int(m[4])) for m in nodes],
    )


def _matches(form: str, lines: list[str]) -> list[re.Match[str]]:
    return [match for line in lines for match in [re.fullmatch(form, line)] if match]


def _is_tree(nodes: list[re.Match[str]], entries: int) -> bool:
    """Whether inner nodes make one tree of so many entries. Each node comes after the two that it joins, and each node
    but the last is joined once.
    """
    joined = sorted(int(m[side]) for m in nodes for side in (2, 3))
    numbers = [int(m[1]) for m in nodes]
    behind = all(max(int(m[2]), int(m[3])) < int(m[1]) for m in nodes)
    return behind and numbers == list(range(entries, 2 * entries - 1)) and joined == list(range(2 * entries - 2))


def read_audit(text: str, plan: PlanText) -> list[int]:
    """The true rows of each level, or of each inner node, in the standard output of `audit`.

    Raises:
        NoPlan: it is another text, or the audit of another plan.
    """
    lines = text.split("\n")[:-1]
    wanted = [f"level {k} {alias} {bound} " for k, (alias, bound) in enumerate(plan.levels, 1)]
    wanted += [f"node {k} {node.left} {node.right} {node.bound} " for k, node in enumerate(plan.nodes, len(plan.scans))]
    if len(lines) != len(wanted) or not all(
        re.fullmatch(re.escape(start) + "[0-9]+", line) for line, start in zip(lines, wanted)
    ):
        raise NoPlan("the audit text is not of this plan")
    return [int(line.rpartition(" ")[2]) for line in lines]
