"""Plans how to count the choices of rows of some entries without joining the rows (variable elimination).

A choice has one row of each of some entries, and satisfies all conditions that name no other entry. A factor of these
entries gives, for each combination of values of its open columns, the number of choices with these values. A column is
open as long as some condition that names it hasn't been tested.
"""

from __future__ import annotations

from typing import Callable, Iterable, NamedTuple, Sequence, Tuple, Union

from .query import EntryColumn, Equality, Text


class Conjunct(NamedTuple):
    """A condition on several entries, and the columns that it names. It is an equality of two columns, or any other
    condition.
    """

    entries: frozenset[int]
    columns: frozenset[EntryColumn]
    what: Union[Equality, Text]


class Factor(NamedTuple):
    """The entries of a factor, and its open columns."""

    entries: frozenset[int]
    open: tuple[EntryColumn, ...]


class Join(NamedTuple):
    """Two factors and the factor that their join makes. `equalities` join them; each has the left side's column first.
    `others` are the other conditions that can then be tested.
    """

    left: Factor
    right: Factor
    both: Factor
    equalities: tuple[tuple[EntryColumn, EntryColumn], ...]
    others: tuple[Conjunct, ...]

    @property
    def has_few_pairs(self) -> bool:
        """Whether equalities compare all open columns of one side. Then each group of the other side meets at most one
        group, so the pairs are at most as many as the other side's groups.
        """
        joined = [{pair[side] for pair in self.equalities} for side in (0, 1)]
        return joined[0].issuperset(self.left.open) or joined[1].issuperset(self.right.open)


Pair = Tuple[Factor, Factor]


def joins(entries: Sequence[int], conjuncts: Iterable[Conjunct]) -> list[Join]:
    """The joins that lead from factors of single entries to the factor of all entries, which has no open column."""
    left = [conjunct for conjunct in conjuncts if conjunct.entries <= frozenset(entries)]
    factors = [_factor(frozenset([entry]), left) for entry in entries]
    found: list[Join] = []
    while len(factors) > 1:
        join = _next_join(factors, left)
        left = [conjunct for conjunct in left if not conjunct.entries <= join.both.entries]
        factors = [join.both, *(factor for factor in factors if factor not in (join.left, join.right))]
        found.append(join)
    return found


def _factor(entries: frozenset[int], left: list[Conjunct]) -> Factor:
    """The factor of these entries, after all conditions that name no other entry are tested."""
    named = {
        named
        for conjunct in left
        if not conjunct.entries <= entries
        for named in conjunct.columns
        if named.entry in entries
    }
    return Factor(entries, tuple(sorted(named, key=lambda named: (named.entry, named.column.name))))


def _next_join(factors: list[Factor], left: list[Conjunct]) -> Join:
    """Joins two factors. It prefers a pair in which one factor has no conditions with any third factor. Among these it
    prefers a pair whose join `has_few_pairs`. Without such a pair it takes two factors that an equality connects, or
    else two factors that any condition connects.
    """

    def ends_in(pair: Pair) -> bool:
        return all(c.entries <= pair[0].entries | pair[1].entries for c in left if c.entries & pair[0].entries)

    def folds(pair: Pair) -> bool:
        return ends_in(pair) and _join(*pair, left).has_few_pairs

    def equal(pair: Pair) -> bool:
        return bool(_join(*pair, left).equalities)

    def connected(pair: Pair) -> bool:
        return any(c.entries & pair[0].entries and c.entries & pair[1].entries for c in left)

    pairs = [(one, other) for one in factors for other in factors if one is not other]
    wishes: list[Callable[[Pair], bool]] = [folds, ends_in, equal, connected]
    return _join(*next(pair for wish in wishes for pair in filter(wish, pairs)), left)


def _join(one: Factor, other: Factor, left: list[Conjunct]) -> Join:
    entries = one.entries | other.entries
    now = [conjunct for conjunct in left if conjunct.entries <= entries]
    equalities = tuple(
        (what.left, what.right) if what.left.entry in one.entries else (what.right, what.left)
        for _, _, what in now
        if isinstance(what, Equality)
    )
    others = tuple(conjunct for conjunct in now if not isinstance(conjunct.what, Equality))
    return Join(one, other, _factor(entries, left), equalities, others)
