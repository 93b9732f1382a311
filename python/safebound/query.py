"""Queries: bounds of sets of entries, and the best plans for these bounds."""

from __future__ import annotations

import ctypes
from collections.abc import Sequence as SomeSequence
from functools import cached_property
from types import MappingProxyType
from typing import (
    Any, Collection, Dict, Hashable, Iterable, List, Mapping, NoReturn, Optional, SupportsIndex, Tuple, TypeVar
)

from . import _library
from ._library import Status
from ._tables import text_table
from .arguments import hashable, is_text, items_of, names_of, set_of, shown, whole_number
from .bounds import Bounds
from .errors import (
    BadBudget, BadEntries, BadEquality, BadLimit, BadList, BadPlan, BadRows, MissingList, PastBits, WrongType
)
from .limits import ENGINE_ENTRIES, MOST_ENTRIES
from .lists import Run, Runs, column_text, encoded, wrong_run
from .plans import Join, Order, QueryPlan, Tree

__all__ = ["NO_VALUES", "Column", "Query"]

Column = Tuple[str, Hashable]

# Mapping is invariant in the type of its keys. With these type variables, keys of a subtype are accepted too.
_Name = TypeVar("_Name", bound=str)
_Column = TypeVar("_Column", bound=Column)


class _NoValues(Tuple[Run, ...]):
    """The list of a column in which no row has a value."""

    __slots__ = ()

    def __eq__(self, other: object) -> bool:
        return self is other

    def __hash__(self) -> int:
        return hash(_NoValues)

    def __repr__(self) -> str:
        return "NO_VALUES"

    def __reduce__(self) -> str:
        return "NO_VALUES"


# An empty list may have been forgotten, so a column without values needs this mark.
NO_VALUES = _NoValues()


def _pair(head: str, value: Any, of: str) -> Tuple[Any, Any]:
    """Checks a pair. A text is refused: two characters would be read as the pair."""
    if is_text(value) or not isinstance(value, SomeSequence) or len(value) != 2:
        raise WrongType(f"{head} is {shown(value)}, and not a pair of {of}")
    return (value[0], value[1])


def _column(head: str, value: Any) -> Column:
    column = _pair(head, value, "an entry and a name of its column")
    if not hashable(column):
        raise WrongType(f"{head} is {shown(value)}, and a name in it isn't hashable")
    return column


def _mapping(argument: str, value: object, of: str) -> None:
    if not isinstance(value, Mapping):
        raise WrongType(f"{argument}: {shown(value)} is no mapping from {of}")


def _equality_text(equality: Tuple[Column, Column]) -> str:
    return " = ".join(map(column_text, equality))


class Query:
    """A query of up to sixteen entries, described by row bounds and by lists of its columns.

    Args:
        entries: the names of the entries, each once. A table that is joined with itself is two entries.
        equalities: pairs of columns that are equal, of two different entries; a column is a pair of an entry and any
            name within it.
        row_bounds: for each entry the most rows that it may have, 0 to 2**48.
        lists: for each column that an equality names, runs that dominate its values, as `degree_sequence`, `compress`
            and `append` give them. If they sum to less than the entry's row bound, the other rows are taken for rows
            without a value, which join with nothing. If they sum to more, they are cut at the row bound. If no row of a
            column has a value, give `NO_VALUES`. An empty list is refused, unless the row bound is 0.

    A query doesn't change once it is made. Two queries are equal if all their arguments are.

    Raises:
        WrongType: a text was given where names or columns belong, or a number that isn't whole, and the like.
        BadEntries, BadRows, BadEquality, BadList, BadRun: a name or a number can't be valid. The first call of
            `bounds`, `best_order` or `best_tree` reports any other fault.

    >>> query = Query(["r", "s"], [(("r", "x"), ("s", "x"))], {"r": 6, "s": 5},
    ...               {("r", "x"): [(3, 2)], ("s", "x"): [(2, 2), (1, 1)]})
    >>> query.bounds()[{"r", "s"}]
    12
    >>> query.best_order(budget=12)
    Order(entries=('s', 'r'), levels=(5, 12))
    >>> query.best_tree(budget=11)  # doctest: +NORMALIZE_WHITESPACE
    Traceback (most recent call last):
    safebound.errors.BudgetExceeded: the best plan has a part of at most 12 rows,
    which is the least budget that would do
    """

    def __init__(
        self,
        entries: Iterable[str],
        equalities: Iterable[Tuple[Column, Column]],
        row_bounds: Mapping[_Name, SupportsIndex],
        lists: Mapping[_Column, Runs],
    ) -> None:
        self.entries: Tuple[str, ...] = names_of("entries", entries)
        pairs = items_of("equalities", equalities, "pairs of columns")
        self.equalities = tuple(self._equality(place, given) for place, given in enumerate(pairs))
        self._number_by_entry = {entry: number for number, entry in enumerate(self.entries)}
        self._number_by_column: Dict[Column, int] = {}
        self._rows = self._rows_of(row_bounds)
        self._equalities = self._equalities_of()
        self._lists, self._runs, self._places = self._lists_of(lists)
        self.row_bounds: Mapping[str, int] = MappingProxyType(dict(zip(self.entries, self._rows)))

    @staticmethod
    def _equality(place: int, given: Any) -> Tuple[Column, Column]:
        left, right = _pair(f"equalities: equality {place}", given, "columns")
        head = f"equalities: a side of equality {place}"
        return (_column(head, left), _column(head, right))

    def _number_of(self, column: Column) -> int:
        return self._number_by_column.setdefault(column, len(self._number_by_column))

    def _rows_of(self, row_bounds: Mapping[Any, SupportsIndex]) -> Any:
        _mapping("row_bounds", row_bounds, "entries to numbers")
        rows = []
        for entry in self.entries:
            if entry not in row_bounds:
                raise BadRows(f"row_bounds: entry {shown(entry)} has none", entry)
            number = whole_number(f"row_bounds: entry {shown(entry)}", row_bounds[entry])
            if number is None:
                raise self._bad_rows(entry, row_bounds[entry])
            rows.append(number)
        return _library.array_of(ctypes.c_uint64, rows)

    @staticmethod
    def _bad_rows(entry: str, number: object) -> BadRows:
        said = f"row_bounds: that of entry {shown(entry)} is {shown(number)}, which isn't from 0 to 2**48"
        return BadRows(said, entry)

    def _equalities_of(self) -> Any:
        found = []
        for place, (left, right) in enumerate(self.equalities):
            alien = next((column for column in (left, right) if column[0] not in self._number_by_entry), None)
            if alien is not None:
                text = _equality_text((left, right))
                said = f"equalities: equality {place}, {text}, names {shown(alien[0])}, which is no entry"
                raise BadEquality(said, place)
            numbers = self._number_by_entry[left[0]], self._number_by_entry[right[0]]
            found.append((numbers[0], self._number_of(left), numbers[1], self._number_of(right)))
        return _library.array_of(_library.Equality, found)

    def _lists_of(self, lists: Mapping[Any, Runs]) -> Tuple[Any, Any, List[Tuple[Column, int]]]:
        _mapping("lists", lists, "columns to runs")
        found: List[Tuple[int, int, int, int]] = []
        runs: List[Tuple[int, int]] = []
        places: List[Tuple[Column, int]] = []
        self._list_by_column: Dict[Column, Tuple[Run, ...]] = {}
        for given_column, given in lists.items():
            column = _column("lists: a key", given_column)
            if column[0] not in self._number_by_entry:
                said = f"lists: there is one of {column_text(column)}, and no entry {shown(column[0])}"
                raise BadList(said, column)
            if column in self._list_by_column:
                raise BadList(f"lists: {column_text(column)} has two", column)
            own = encoded(given, column=column)
            kept = NO_VALUES if given is NO_VALUES else tuple(Run(run.degree, run.keys) for run in own)
            self._list_by_column[column] = kept
            without = given is NO_VALUES or (len(own) == 0 and self._rows[self._number_by_entry[column[0]]] == 0)
            first = _library.NO_VALUES if without else len(runs)
            found.append((self._number_by_entry[column[0]], self._number_of(column), first, len(own)))
            runs += [(run.degree, run.keys) for run in own]
            places += [(column, place) for place in range(len(own))]
        return _library.array_of(_library.List, found), _library.array_of(_library.Run, runs), places

    @property
    def lists(self) -> Mapping[Column, Tuple[Run, ...]]:
        """The list of each column that was given."""
        return MappingProxyType(self._list_by_column)

    # ---- as a value

    def _parts(self) -> Tuple[Any, ...]:
        return (self.entries, self.equalities, dict(self.row_bounds), self._list_by_column)

    def __eq__(self, other: object) -> bool:
        return isinstance(other, Query) and (self is other or self._parts() == other._parts())

    def __hash__(self) -> int:
        return hash((self.entries, self.equalities, tuple(self._rows)))

    def __reduce__(self) -> Tuple[Any, ...]:
        return (Query, self._parts())

    def __repr__(self) -> str:
        shown = {
            column: runs if runs is NO_VALUES else [tuple(run) for run in runs]
            for column, runs in self._list_by_column.items()
        }
        lists = ", ".join(f"{column}: {runs}" for column, runs in shown.items())
        entries, equalities, rows = list(self.entries), list(self.equalities), dict(self.row_bounds)
        return f"Query(entries={entries}, equalities={equalities}, row_bounds={rows}, lists={{{lists}}})"

    def __str__(self) -> str:
        return "\n\n".join(self._known())

    def _known(self) -> List[str]:
        """One text table each for the row bounds, the equalities, and the lists of the columns that equalities use."""
        named = [column for equality in self.equalities for column in equality]
        used = [column for column in self._list_by_column if column in named]
        lists = [
            (column_text(c), sum(d * k for d, k in runs), sum(k for _, k in runs), max((d for d, _ in runs), default=0))
            for c, runs in ((c, self._list_by_column[c]) for c in used)
        ]
        tables = [text_table(["entry", "rows at most"], list(self.row_bounds.items()))]
        equal = [[_equality_text(equality)] for equality in self.equalities]
        tables += [text_table(["equality"], equal)] if equal else []
        tables += [text_table(["list of", "rows", "values", "rows of the most frequent"], lists)] if lists else []
        return tables

    def explain(self, plan: Optional[QueryPlan] = None) -> str:
        """Text tables of the query's row bounds, equalities and lists, and of the bounds: those of its sets, or of each
        step of a plan.

        Only lists that an equality uses are shown.

        Args:
            plan: an order or a tree of this query.

        Raises:
            BadPlan: the plan isn't one of this query.

        >>> query = Query(["r", "s"], [(("r", "x"), ("s", "x"))], {"r": 6, "s": 5},
        ...               {("r", "x"): [(3, 2)], ("s", "x"): [(2, 2), (1, 1)]})
        >>> print(query.explain(query.best_order(budget=12)))
        entry  rows at most
        r                 6
        s                 5
        <BLANKLINE>
        equality
        r.x = s.x
        <BLANKLINE>
        list of  rows  values  rows of the most frequent
        r.x         6       2                          3
        s.x         5       3                          2
        <BLANKLINE>
        level  joined  by         rows at most
            1  s                             5
            2  r       r.x = s.x            12
        """
        if plan is None:
            return "\n\n".join([*self._known(), str(self.bounds())])
        self._checked(plan)
        steps = self._levels_table(plan) if isinstance(plan, Order) else self._joins_table(plan)
        return "\n\n".join([*self._known(), steps])

    def _levels_table(self, order: Order) -> str:
        rows = [
            (at + 1, entry, self._between(order.entries[:at], [entry]), level)
            for at, (entry, level) in enumerate(zip(*order))
        ]
        return text_table(["level", "joined", "by", "rows at most"], rows)

    def _joins_table(self, tree: Tree) -> str:
        below = [[entry] for entry in tree.entries]
        rows = []
        for at, join in enumerate(tree.joins):
            left, right = below[join.left], below[join.right]
            rows.append((at, tree.node(join.left), tree.node(join.right), self._between(left, right), join.bound))
            below.append(left + right)
        return text_table(["join", "left", "right", "by", "rows at most"], rows) if rows else f"{tree} {tree.cost}"

    def _between(self, some: Iterable[str], others: Iterable[str]) -> str:
        """The equalities between two sets of entries."""
        left, right = set(some), set(others)
        used = [
            (one, other) for one, other in self.equalities
            if (one[0] in left and other[0] in right) or (one[0] in right and other[0] in left)
        ]
        return ", ".join(map(_equality_text, used))

    # ---- calls of the library

    def _given(self) -> List[Any]:
        """The query as arguments of the library's calls."""
        arrays: List[Any] = [self._rows, self._equalities, self._lists, self._runs]
        return [part for array in arrays for part in (array, len(array))]

    def _asked(self, name: str, given: List[Any]) -> Any:
        status, detail, into = _library.call(name, given, ctypes.c_uint64, 1 << min(len(self.entries), MOST_ENTRIES))
        if status != Status.OK:
            self._raise_for(status, detail)
        return into

    @cached_property
    def _bounds(self) -> Any:
        return self._asked("bounds", self._given())

    def _raise_for(self, status: int, detail: int) -> NoReturn:
        """Raises the error for a status of `bounds`, with the names of this query."""
        if status == Status.BAD_ROWS:
            raise self._bad_rows(self.entries[detail], self._rows[detail])
        if status == Status.BAD_RUN:
            column, place = self._places[detail]
            raise wrong_run(self._list_by_column[column], place, column=column)
        if status == Status.BAD_LIST:
            column = list(self._list_by_column)[detail]
            said = f"lists: that of {column_text(column)} has no runs: where no row has a value it is NO_VALUES"
            raise BadList(said, column)
        if status == Status.BAD_EQUALITY:
            text = _equality_text(self.equalities[detail])
            raise BadEquality(f"equalities: equality {detail}, {text}, has one entry on both sides", detail)
        if status == Status.MISSING_LIST:
            without = next(column for column in self.equalities[detail] if column not in self._list_by_column)
            text = _equality_text(self.equalities[detail])
            raise MissingList(f"lists: {column_text(without)} of equality {detail}, {text}, has none", detail)
        _library.raise_for(status, detail)
        raise AssertionError(status)

    def bounds(self, limit: Optional[SupportsIndex] = None) -> Bounds:
        """The bounds of all sets of entries.

        Args:
            limit: the most work that may be done. The amount of work is computed first. A set has as many turns as
                equalities, but at least one and at most 16. Each turn costs 1 plus the number of runs in the two lists
                of each equality of the set.

        Returns:
            A mapping from each of the 2**n sets of names to a number of rows. It is at least the number of choices, one
            row from each of these entries, that satisfy all equalities between the entries. None if the number exceeds
            64 bits.

        Raises:
            BadEntries, BadRows, BadEqualities, BadEquality, BadList, BadRun, MissingList: a value isn't valid.
            WorkExceeded: the work exceeds the limit; `least` would do.
            BadLimit: the limit isn't from 0 to 2**64 - 1.
            OutOfMemory: there was too little memory.
        """
        if limit is None:
            return Bounds._of(self.entries, self._bounds)
        number = whole_number("limit", limit)
        if number is None:
            raise BadLimit(f"limit: it is from 0 to 2**64 - 1, not {shown(limit)}", limit)
        return Bounds._of(self.entries, self._asked("bounds_within", [*self._given(), number]))

    def bound_of(self, entries: Collection[str]) -> Optional[int]:
        """The bound of one set of entries, the same as in `bounds()`. No other set is bounded.

        Args:
            entries: a collection of names, such as `query.entries` for all entries.

        Returns:
            A number of rows, or None if no bound is known.

        Raises:
            UnknownEntry: a name isn't the name of an entry. It is a KeyError too.
            As `bounds`.

        >>> query = Query(["r", "s"], [(("r", "x"), ("s", "x"))], {"r": 6, "s": 5},
        ...               {("r", "x"): [(3, 2)], ("s", "x"): [(2, 2), (1, 1)]})
        >>> query.bound_of({"r", "s"})
        12
        """
        number = set_of(entries, {entry: 1 << number for entry, number in self._number_by_entry.items()})
        status, detail = _library.ask("set_bound", [*self._given(), number & _library.MOST])
        if status != Status.OK:
            self._raise_for(status, detail)
        return None if detail == _library.NO_BOUND else detail

    def best_order(self, budget: SupportsIndex) -> Order:
        """The best left-deep order.

        It has the least cost, which is the largest bound of its levels. Of orders with equal cost it has the least sum
        of bounds. Of these it is the first by the places of its entries in `entries`.

        Args:
            budget: the largest bound that a level may have, 0 to 2**59.

        Raises:
            BudgetExceeded: the best order exceeds the budget; `least` would do.
            PastBits: each order has a level without a bound.
            BadBudget, and what `bounds` raises.
        """
        levels = self._best("order", budget, _library.Level, len(self.entries))
        order = Order(tuple(self.entries[level.entry] for level in levels), tuple(level.bound for level in levels))
        order._query = self
        return order

    def best_tree(self, budget: SupportsIndex) -> Tree:
        """The best join tree of any shape.

        It has the least cost, which is the largest bound of its joins. Of trees with equal cost it has the least sum of
        bounds.

        Args:
            budget: the largest bound that a join may have, 0 to 2**59.

        Raises:
            As `best_order`.
        """
        joins = self._best("tree", budget, _library.Join, len(self.entries) - 1)
        tree = Tree(self.entries, tuple(Join(join.left, join.right, join.bound) for join in joins))
        tree._query = self
        return tree

    def memory(self, plan: QueryPlan) -> int:
        """How many bytes the buffers of SafeBound's own engine take for a plan of this query.

        The number is the sum, over all buffers and lists of buffers, of capacity times the size of an element. It is
        the same on every machine.

        Args:
            plan: a result of `best_order` or `best_tree`.

        Raises:
            BadPlan: the plan isn't one of this query. Another query made it, or its entries, nodes or bounds differ.
            BadEntries: the query has more than twelve entries. The engine takes at most twelve.
            PastBits: the number doesn't fit in 64 bits.

        >>> query = Query(["r", "s"], [(("r", "x"), ("s", "x"))], {"r": 6, "s": 5},
        ...               {("r", "x"): [(3, 2)], ("s", "x"): [(2, 2), (1, 1)]})
        >>> query.memory(query.best_order(budget=12))
        531
        """
        self._checked(plan)
        if isinstance(plan, Order):
            levels = [(self._number_by_entry[entry], bound) for entry, bound in zip(plan.entries, plan.levels)]
            parts = _library.array_of(_library.Level, levels)
        else:
            parts = _library.array_of(_library.Join, plan.joins)
        name = "memory" if isinstance(plan, Order) else "tree_memory"
        status, detail = _library.ask(name, [self._rows, len(self._rows), parts, len(parts)])
        if status == Status.BAD_ENTRIES:
            said = f"plan: SafeBound's own engine takes 1 to {ENGINE_ENTRIES} entries, not {detail}"
            raise BadEntries(said, detail)
        if status == Status.PAST_BITS:
            raise PastBits("the plan takes more bytes than 64 bits tell")
        _library.raise_for(status, detail)
        return detail

    # ---- whether a plan is one of this query

    def _checked(self, plan: QueryPlan) -> None:
        """Raises BadPlan unless the plan is one of this query, with its entries and its bounds."""
        if not isinstance(plan, (Order, Tree)):
            raise WrongType(f"plan: {type(plan).__name__} is no plan: best_order and best_tree give one")
        if plan.query is not None and plan.query != self:
            raise BadPlan(f"plan: another query made it, over {', '.join(plan.entries)}", len(plan.entries))
        if isinstance(plan, Order):
            self._check_order(plan)
        else:
            self._check_tree(plan)

    def _check_order(self, order: Order) -> None:
        if sorted(order.entries) != sorted(self.entries):
            raise BadPlan(f"plan: the order has other entries: {', '.join(order.entries)}", len(order.entries))
        if len(order.levels) != len(self.entries):
            said = f"plan: an order of {len(self.entries)} entries has as many levels, and not {len(order.levels)}"
            raise BadPlan(said, len(order.levels))
        bounds = self.bounds()
        for place, level in enumerate(order.levels):
            self._check_bound(f"level {place}", place, level, bounds[order.entries[: place + 1]])

    def _check_tree(self, tree: Tree) -> None:
        if tuple(tree.entries) != self.entries or len(tree.joins) != len(self.entries) - 1:
            said = f"plan: the tree has other entries, or too many or too few joins: {shown(tree)}"
            raise BadPlan(said, len(tree.joins))
        bounds, below = self.bounds(), [frozenset([entry]) for entry in self.entries]
        for place, join in enumerate(tree.joins):
            sides = [number for number in (join.left, join.right) if number in range(len(below))]
            if len(sides) < 2 or below[sides[0]] & below[sides[1]]:
                said = f"plan: join {place} is of a node that doesn't stand before it, or of one entry twice"
                raise BadPlan(said, place)
            below.append(below[sides[0]] | below[sides[1]])
            self._check_bound(f"join {place}", place, join.bound, bounds[below[-1]])

    @staticmethod
    def _check_bound(part: str, place: int, given: int, bound: Optional[int]) -> None:
        if given != bound:
            raise BadPlan(f"plan: the bound of {part} is {shown(given)}, and this query's is {bound}", place)

    def _best(self, name: str, budget: SupportsIndex, element: Any, room: int) -> List[Any]:
        number = whole_number("budget", budget)
        if number is None:
            raise BadBudget(f"budget: it is from 0 to 2**59, not {shown(budget)}", budget)
        status, detail, into = _library.call(name, [self._bounds, len(self._bounds), number], element, room)
        _library.raise_for(status, detail)
        return list(into[:detail])
