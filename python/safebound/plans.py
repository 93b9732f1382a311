"""Plans and their bounds: left-deep orders and join trees. A plan has a reference to the query that made it."""

from __future__ import annotations

from typing import TYPE_CHECKING, Any, Iterable, NamedTuple, Optional, SupportsIndex, Tuple, Union

from ._tables import text_table
from .arguments import index_of, is_text, rows_of, shown
from .errors import BadPlan, WrongType

if TYPE_CHECKING:
    from .query import Query

__all__ = ["Join", "Order", "QueryPlan", "Shape", "Tree"]

Shape = Union[str, Tuple["Shape", "Shape"]]


class _OfQuery:
    """The common base of orders and trees. It has the query that made the plan."""

    _query: Optional[Query] = None

    @property
    def query(self) -> Optional[Query]:
        """The query that made this plan. It is None if the plan was built by hand or comes from a statistics file."""
        return self._query

    def explain(self) -> str:
        """A text with each step of the plan: its entries, the equalities and lists that it uses, and its bound.

        Raises:
            BadPlan: no query made this plan.
        """
        if self._query is None:
            raise BadPlan("no query made this plan: nothing is known of its lists", None)
        return self._query.explain(self)  # type: ignore[arg-type]


def _names(entries: object) -> Tuple[str, ...]:
    names = tuple(rows_of("entries", entries, "names"))
    wrong = next((name for name in names if not isinstance(name, str)), None)
    if wrong is not None or None in names:
        raise WrongType(f"entries: {shown(wrong)} is no name")
    return names


class _OrderParts(NamedTuple):
    entries: Tuple[str, ...]
    levels: Tuple[int, ...]


class Order(_OfQuery, _OrderParts):
    """A left-deep order: `levels[k]` is the bound of the first k + 1 of `entries`, in rows.

    >>> print(Order(("s", "r"), (5, 12)))
    level  joined  rows at most
        1  s                  5
        2  r                 12
    """

    def __new__(cls, entries: Iterable[str], levels: Iterable[SupportsIndex]) -> Order:
        numbers = (index_of("levels", level) for level in rows_of("levels", levels, "bounds"))
        return _OrderParts.__new__(cls, _names(entries), tuple(numbers))

    @property
    def cost(self) -> int:
        """The largest bound of a level. It is the least budget that admits this order.

        Raises:
            BadPlan: the order has no level.
        """
        if not self.levels:
            raise BadPlan("levels: the order has none", 0)
        return max(self.levels)

    def __str__(self) -> str:
        rows = [(at, *level) for at, level in enumerate(zip(self.entries, self.levels), 1)]
        return text_table(["level", "joined", "rows at most"], rows)


class Join(NamedTuple):
    """A node of a tree: the numbers of the two nodes that it joins, and its bound in rows."""

    left: int
    right: int
    bound: int


def _join(place: int, given: Any) -> Join:
    """A join, from three numbers."""
    head = f"joins: join {place}"
    if not is_text(given):
        numbers = [index_of(head, number) for number in rows_of(head, given, "numbers")]
        if len(numbers) == 3:
            return Join(*numbers)
    raise WrongType(f"{head} is {shown(given)}, and not two nodes and a bound")


class _TreeParts(NamedTuple):
    entries: Tuple[str, ...]
    joins: Tuple[Join, ...]


class Tree(_OfQuery, _TreeParts):
    """A join tree over n entries.

    The nodes 0 to n - 1 are `entries`, and node n + i is `joins[i]`. The last node is the root.

    >>> print(Tree(("a", "b", "c"), (Join(1, 2, 6), Join(0, 3, 30))))
    join  left  right   rows at most
       0  b     c                  6
       1  a     join 0            30
    """

    def __new__(cls, entries: Iterable[str], joins: Iterable[Join]) -> Tree:
        names = _names(entries)
        if not names:
            raise BadPlan("entries: a tree has at least one", 0)
        found = (_join(place, given) for place, given in enumerate(rows_of("joins", joins, "joins")))
        return _TreeParts.__new__(cls, names, tuple(found))

    @property
    def cost(self) -> int:
        """The largest bound of a join, or the row bound of a single entry. It is the least budget that admits the tree.

        Raises:
            BadPlan: the tree has one entry, and no query made it.
        """
        if self.joins:
            return max(join.bound for join in self.joins)
        if self._query is None:
            raise BadPlan("joins: there is none, and no query made this tree: the rows of its entry aren't known", 1)
        return self._query.row_bounds[self.entries[0]]

    @property
    def shape(self) -> Shape:
        """The tree as pairs of pairs: `("a", ("b", "c"))`.

        Raises:
            BadPlan: a join is of a node that doesn't stand before it.
        """
        nodes: list[Shape] = list(self.entries)
        for place, join in enumerate(self.joins):
            if not (0 <= join.left < len(nodes) and 0 <= join.right < len(nodes)):
                raise BadPlan(f"joins: join {place} is of a node that doesn't stand before it", place)
            nodes.append((nodes[join.left], nodes[join.right]))
        return nodes[-1]

    def node(self, number: SupportsIndex) -> str:
        """The name of a node: the name of its entry, or `join` and the number of the join.

        Raises:
            BadPlan: the tree has no such node.
        """
        at, entries = index_of("number", number), len(self.entries)
        if not 0 <= at < entries + len(self.joins):
            raise BadPlan(f"number: the tree has no node {shown(at)}", at)
        return self.entries[at] if at < entries else f"join {at - entries}"

    def __str__(self) -> str:
        if not self.joins:
            return f"{self.entries[0]} alone"
        rows = [(at, self.node(join.left), self.node(join.right), join.bound) for at, join in enumerate(self.joins)]
        return text_table(["join", "left", "right", "rows at most"], rows)


QueryPlan = Union[Order, Tree]
