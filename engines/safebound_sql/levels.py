"""Makes the plan: hands counts to the proved library, and returns its levels."""

from __future__ import annotations

import contextlib
from dataclasses import dataclass, field
from typing import Dict, Iterator, Tuple, Union

import safebound
from safebound.limits import MOST_BUDGET as MOST_BUDGET

from .counting import Counts
from .faults import Missing, NoBound, PastBudget, WrongCounts
from .query import EntryColumn, Query, Text

Shape = Union[int, "tuple[Shape, Shape]"]

# Side: the names of an entry and its column, as the library takes them. Equal: two equal columns. Lists: the columns'
# lists.
Side = Tuple[str, str]
Equal = Tuple[Side, Side]
Lists = Dict[Side, safebound.Runs]


@dataclass
class Level:
    """A level of the plan: the entries that are joined in it, its bound, and the rows that the engine expects, if it
    says so.

    `counted` says which conditions the bound was counted by, if it was counted.
    """

    shape: Shape
    bound: int
    expected: int | None = None
    counted: str | None = None

    @property
    def factor(self) -> float | None:
        """The bound divided by the rows that the engine expects."""
        return None if self.expected is None else self.bound / max(self.expected, 1)


@dataclass
class Plan:
    """A plan: the shape of its joins, and its levels, of which the last one has all entries.

    `kept` has the entries whose counts are kept ones, with their time. `changed` has the entries whose kept counts
    weren't used, with the number of rows then and now. `tested` has conditions that only counted bounds use, and
    `notes` says what isn't counted.
    """

    query: Query
    counts: Counts
    shape: Shape
    levels: list[Level]
    tree: bool
    kept: dict[str, str] = field(default_factory=dict)
    changed: dict[str, tuple[int, int]] = field(default_factory=dict)
    tested: frozenset[Text] = frozenset()
    notes: list[str] = field(default_factory=list)

    @property
    def unused(self) -> list[tuple[Text, str]]:
        """The conditions on several entries that no bound uses, and why."""
        return [(text, why) for text, why in self.query.no_edges if text not in self.tested]

    @property
    def cost(self) -> int:
        return max(level.bound for level in self.levels)


def entries_of(shape: Shape) -> list[int]:
    """The entries of a shape from left to right."""
    return [shape] if isinstance(shape, int) else entries_of(shape[0]) + entries_of(shape[1])


@contextlib.contextmanager
def library_faults(budget: int = MOST_BUDGET) -> Iterator[None]:
    """Turns the library's exceptions into faults of this package."""
    try:
        yield
    except safebound.BudgetExceeded as error:
        raise PastBudget(budget, error.least) from None
    except safebound.PastBits:
        raise NoBound from None
    except safebound.LibraryNotFound as error:
        raise Missing(str(error)) from None
    except safebound.WrongValue as error:
        raise WrongCounts(str(error)) from None


def best_plan(query: Query, counts: Counts, accuracy: int, budget: int, tree: bool) -> Plan:
    """The best plan for the counts.

    Raises:
        PastBudget: the best plan has a level above the budget.
        NoBound: each plan has a level without a bound.
    """
    with library_faults(budget):
        known = safebound.Query(
            [entry.name for entry in query.entries], equalities_of(query), counts.rows, lists_of(counts, accuracy)
        )
        levels = (
            _levels_of_tree(query, known.best_tree(budget), counts)
            if tree
            else _levels(query, known.best_order(budget))
        )
    return Plan(query, counts, levels[-1].shape, levels, tree)


def lists_of(counts: Counts, accuracy: int) -> Lists:
    """The list of each counted column, as the library takes it."""
    return {
        column: safebound.compress(runs, accuracy) if runs else safebound.NO_VALUES
        for column, runs in counts.runs.items()
    }


def equalities_of(query: Query) -> list[Equal]:
    """The equalities as the library takes them."""

    def of(side: EntryColumn) -> Side:
        return query.entries[side.entry].name, side.column.name

    return [(of(equality.left), of(equality.right)) for equality in query.equalities]


def _levels(query: Query, order: safebound.Order) -> list[Level]:
    numbers = {entry.name: entry.number for entry in query.entries}
    levels: list[Level] = []
    for name, bound in zip(order.entries, order.levels):
        shape: Shape = (levels[-1].shape, numbers[name]) if levels else numbers[name]
        levels.append(Level(shape, bound))
    return levels


def _levels_of_tree(query: Query, tree: safebound.Tree, counts: Counts) -> list[Level]:
    """A level for each join of the tree. For a single entry, one level with its rows."""
    if not tree.joins:
        return [Level(0, counts.rows[query.entries[0].name])]
    nodes: list[Shape] = [entry.number for entry in query.entries]
    levels = []
    for join in tree.joins:
        nodes.append((nodes[join.left], nodes[join.right]))
        levels.append(Level(nodes[-1], join.bound))
    return levels
