"""Counted bounds: how many choices of rows satisfy the conditions of a level, if the engine has exact numbers of any
size. One statement counts all levels by factors (`factors`), and joins no rows.
"""

from __future__ import annotations

from math import prod
from typing import Iterable, NamedTuple, Sequence

from .dialect import Dialect
from .engine import Catalog, Engine
from .factors import Conjunct, Factor, Join, joins
from .faults import EngineFault
from .levels import Plan, entries_of
from .query import EntryColumn, Equality, Query, Reference, Text
from .reducing import Parts, bracketed, own_conditions, where
from .servers import rows_to_join

# How many pairs of groups a join of two factors may have. A level that needs a larger join isn't counted.
MOST_PAIRS = 4_000_000


def conjuncts_of(query: Query, catalog: Catalog) -> list[Conjunct]:
    """The conditions on several entries that depend only on the values by which rows are grouped. These are each
    equality that joins, and those other conditions whose columns' equal values give equal results in every function.
    """
    equalities = [
        Conjunct(frozenset((left.entry, right.entry)), frozenset((left, right)), equality)
        for equality in query.equalities
        for left, right in (equality,)
    ]
    apart = {text for text, _ in query.no_edges}
    others = [
        Conjunct(condition.entries, columns_of(condition.text), condition.text)
        for condition in query.conditions
        if condition.text in apart
    ]
    return equalities + [
        other for other in others if all(catalog.same_when_equal(named.column) for named in other.columns)
    ]


def columns_of(text: Text) -> frozenset[EntryColumn]:
    return frozenset(part.named for part in text.parts if isinstance(part, Reference))


class FactorPart(NamedTuple):
    """A factor's part of the statement, and the parts that count the pairs of groups of its joins."""

    name: str
    pairs: tuple[str, ...]


class ChoicesStatement:
    """Writes the statement that counts choices of rows, part by part."""

    def __init__(
        self, query: Query, dialect: Dialect, prefix: str, conjuncts: list[Conjunct], reduce: bool, most_pairs: int
    ) -> None:
        self.query, self.dialect, self.prefix, self.most_pairs = query, dialect, prefix, most_pairs
        self.conjuncts = conjuncts
        named = {named for conjunct in conjuncts for named in conjunct.columns}
        in_order = sorted(named, key=lambda one: (one.entry, one.column.name))
        # Columns get numbers, since the name of a column may already have the greatest length of a name.
        self.columns = {one: f"{prefix}{one.entry}_{at}" for at, one in enumerate(in_order)}
        columns = {
            entry.number: [c for c in entry.about.by_name.values() if EntryColumn(entry.number, c) in named]
            for entry in query.entries
        }
        self.parts = rows_to_join(query, dialect, columns, prefix) if reduce else Parts()
        self.texts = list(self.parts.texts)
        self.number = f"{prefix}n"
        self.parts_by_factor: dict[Factor, FactorPart] = {}

    def statement(self, levels: Iterable[tuple[int, Sequence[int]]]) -> str:
        """The statement returns one row for each level: the level's number, and the number of choices of its entries'
        rows. A level with too many pairs has no row.
        """
        selects = [f"SELECT {number} AS level, {self._select_of_level(entries)}" for number, entries in levels]
        return self.dialect.with_parts(self.texts, "\nUNION ALL ".join(selects))

    def _select_of_level(self, entries: Sequence[int]) -> str:
        found = joins(entries, self.conjuncts)
        made = self._part_of_factor(found[-1].both, {join.both: join for join in found})
        return f"{self.number} FROM {made.name}{where(self._within_limit(made.pairs))}"

    def _within_limit(self, pairs: Iterable[str]) -> list[str]:
        """The conditions that each number of pairs is within the limit. PostgreSQL tests these conditions once
        and first, and doesn't compute a part that is then never read.
        """
        return [f"(SELECT {self.number} FROM {name}) <= {self.most_pairs}" for name in pairs]

    def _part_of_factor(self, factor: Factor, by: dict[Factor, Join]) -> FactorPart:
        """The part that computes this factor. The part of a factor doesn't depend on the joins that lead to it."""
        if factor not in self.parts_by_factor:
            part = self._part_of_join(by[factor], by) if factor in by else self._part_of_entry(factor)
            self.parts_by_factor[factor] = part
        return self.parts_by_factor[factor]

    def _add_part(self, text: str) -> str:
        name = f"{self.prefix}{len(self.texts) + 1}"
        self.texts.append((name, text))
        return name

    def _part_of_entry(self, factor: Factor) -> FactorPart:
        """The factor of one entry: for each combination of values of its open columns, how many of its rows have them.
        """
        [number] = factor.entries
        entry = self.query.entries[number]
        rows, conditions = self.parts.rows.get(number), own_conditions(entry)
        values = [f"{entry.alias}.{self.dialect.quote(named.column.name)}" for named in factor.open]
        source = f"FROM {rows or entry.table} AS {entry.alias}{where([] if rows else conditions)}"
        return FactorPart(self._add_part(self._select(factor, values, "CAST(COUNT(*) AS NUMERIC)", source)), ())

    def _select(self, factor: Factor, values: list[str], number: str, source: str) -> str:
        """The SELECT of a number for each combination of values of the factor's open columns."""
        outputs = [f"{value} AS {self.columns[named]}" for value, named in zip(values, factor.open)]
        groups = f" GROUP BY {', '.join(str(at) for at in range(1, len(outputs) + 1))}" if outputs else ""
        return f"SELECT {', '.join([*outputs, f'{number} AS {self.number}'])} {source}{groups}"

    def _part_of_join(self, join: Join, by: dict[Factor, Join]) -> FactorPart:
        left, right = self._part_of_factor(join.left, by), self._part_of_factor(join.right, by)
        pairs = left.pairs + tuple(name for name in right.pairs if name not in left.pairs)
        own = [] if join.has_few_pairs else [self._part_of_pairs(join, left.name, right.name)]
        sides = {**dict.fromkeys(join.left.entries, left.name), **dict.fromkeys(join.right.entries, right.name)}
        values = [f"{sides[named.entry]}.{self.columns[named]}" for named in join.both.open]
        joined = f"{left.name} {self._join_clause(join, left.name, right.name, right.name)}"
        source = f"FROM {joined}{self._lateral_entries(join, sides)}"
        tests = [bracketed(str(other.what)) for other in join.others] + self._within_limit(own)
        product = f"COALESCE(SUM({left.name}.{self.number} * {right.name}.{self.number}), 0)"
        text = self._select(join.both, values, product, source + where(tests))
        return FactorPart(self._add_part(text), (*pairs, *own))

    def _join_clause(self, join: Join, left: str, right: str, rows: str) -> str:
        """The JOIN of the right side. Its groups are read from `rows`."""
        equal = [f"{left}.{self.columns[one]} = {right}.{self.columns[other]}" for one, other in join.equalities]
        return f"JOIN {rows} ON {' AND '.join(equal)}" if equal else f"CROSS JOIN {rows}"

    def _lateral_entries(self, join: Join, sides: dict[int, str]) -> str:
        """Gives columns their own names and their entries' aliases again, for the conditions that name them."""
        named = sorted(
            set[EntryColumn]().union(*(other.columns for other in join.others)), key=lambda named: named.column.name
        )
        return "".join(
            f" CROSS JOIN LATERAL (SELECT {self._with_alias(entry, named, sides[entry])})"
            f" AS {self.query.entries[entry].alias}"
            for entry in sorted({column.entry for column in named})
        )

    def _with_alias(self, entry: int, named: list[EntryColumn], part: str) -> str:
        return ", ".join(
            f"{part}.{self.columns[column]} AS {self.dialect.quote(column.column.name)}"
            for column in named
            if column.entry == entry
        )

    def _part_of_pairs(self, join: Join, left: str, right: str) -> str:
        """The part that counts the pairs of groups whose values are equal."""
        rows = self._groups_by(left, [one for one, _ in join.equalities])
        others = self._groups_by(right, [other for _, other in join.equalities])
        product = f"COALESCE(SUM({left}.{self.number} * {right}.{self.number}), 0)"
        joined = f"{rows} {self._join_clause(join, left, right, others)}"
        return self._add_part(f"SELECT {product} AS {self.number} FROM {joined}")

    def _groups_by(self, name: str, columns: list[EntryColumn]) -> str:
        """How many groups of a factor share each combination of values of these columns."""
        values = list(dict.fromkeys(self.columns[column] for column in columns))
        outputs = ", ".join([*values, f"CAST(COUNT(*) AS NUMERIC) AS {self.number}"])
        groups = f" GROUP BY {', '.join(values)}" if values else ""
        return f"(SELECT {outputs} FROM {name}{groups}) AS {name}"


class BoundLowerer:
    """Lowers a plan's bounds to counted numbers, for levels of several entries."""

    def __init__(
        self, plan: Plan, engine: Engine, prefix: str, reduce: bool, most_pairs: int = MOST_PAIRS
    ) -> None:
        self.plan, self.engine, self.prefix, self.reduce, self.most_pairs = plan, engine, prefix, reduce, most_pairs
        every = conjuncts_of(plan.query, engine.catalog)
        self.equalities = [conjunct for conjunct in every if isinstance(conjunct.what, Equality)]
        self.others = [conjunct for conjunct in every if not isinstance(conjunct.what, Equality)]
        # Whether nested loops could take long.
        self.large = prod(sorted(plan.counts.rows.values())[-2:]) > most_pairs

    def lower(self) -> None:
        """Counts by all conditions. Where that makes too many pairs, counts only by equalities."""
        levels = [number for number, level in enumerate(self.plan.levels, 1) if not isinstance(level.shape, int)]
        left = self._count_by_all(levels)
        more = [number for number in left if self._others_within(number)]
        past = f"more than {self.most_pairs} pairs would meet"
        never = self._lower_by(more, self.equalities, "equalities")
        for number in left:
            if number in never or number not in more:
                self.plan.notes.append(f"level {number} isn't counted: {past}")
            else:
                self.plan.notes.append(f"level {number} is counted by equalities alone: by all conditions {past}")

    def _count_by_all(self, levels: list[int]) -> list[int]:
        """Counts by all conditions. A condition may fail with an error on rows that the query itself never tests. Then
        this counts only by equalities.
        """
        try:
            left = self._lower_by(levels, self.equalities + self.others, "all conditions")
        except EngineFault as fault:
            if not (fault.of_data and self.others):
                raise
            self.plan.notes.append(f"other conditions than equalities aren't counted: {fault}")
            self.others = []
            left = self._lower_by(levels, self.equalities, "equalities")
        self.plan.tested = frozenset(other.what for other in self.others if isinstance(other.what, Text))
        return left

    def _others_within(self, number: int) -> bool:
        entries = frozenset(entries_of(self.plan.levels[number - 1].shape))
        return any(other.entries <= entries for other in self.others)

    def _lower_by(self, levels: list[int], conjuncts: list[Conjunct], by: str) -> list[int]:
        """Lowers the bounds of these levels. Returns the levels that it didn't count."""
        if not levels:
            return []
        asked = ChoicesStatement(
            self.plan.query, self.engine.dialect, self.prefix, conjuncts, self.reduce, self.most_pairs
        )
        statement = asked.statement([(number, entries_of(self.plan.levels[number - 1].shape)) for number in levels])
        found = {number: int(choices) for number, choices in self.engine.connection.counted(statement, self.large)}
        for number, choices in found.items():
            level = self.plan.levels[number - 1]
            level.bound, level.counted = min(level.bound, choices), by
        return [number for number in levels if number not in found]
