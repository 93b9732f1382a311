"""A query's number of rows by groups, as one SQL statement, for joins with too many rows to be listed.

Equal columns are one variable. Each entry is a table of its variables with counts, and the variables are summed out one
after another.
"""

from __future__ import annotations

from typing import NamedTuple

import reading

from . import asked
from .asked import Column, Condition

Variable = int


class Factor(NamedTuple):
    """A table of counts by its variables, with its name in the statement."""

    name: str
    variables: frozenset[Variable]


class Grouping:
    """The statement while it is made."""

    def __init__(self, query: reading.Query) -> None:
        self.query = query
        self.parts: list[str] = []
        self.number = self.variables()
        between = [cond for cond in query.conjuncts if len(reading.entries_in(cond)) > 1]
        self.pending: list[Condition] = [cond for cond in between if not asked.is_equality(cond)]
        self.factors = [self.scan(entry) for entry in range(len(query.entries))]

    def variables(self) -> dict[Column, Variable]:
        """The variable of each column that is named by some condition over two entries."""
        classes: list[set[Column]] = []
        for left, right in reading.equalities(self.query):
            classes = reading.merged(classes, left, right)
        found = {side: number for number, one in enumerate(classes) for side in one}
        between = [cond for cond in self.query.conjuncts if len(reading.entries_in(cond)) > 1]
        for column in (column for cond in between for column in columns_of(cond)):
            found.setdefault(column, len(found) + len(classes))
        return found

    def add(self, select: str, variables: frozenset[Variable]) -> Factor:
        name = f"F{len(self.parts)}"
        self.parts.append(f"{name} AS ({select})")
        return Factor(name, variables)

    def scan(self, entry: int) -> Factor:
        """The rows of an entry, counted by its variables."""
        own = {column: number for (of, column), number in self.number.items() if of == entry}
        names = {column: asked.side_sql(self.query, ("column", entry, column)) for column in own}
        first = {number: names[column] for column, number in sorted(own.items(), reverse=True)}
        tests = [asked.cond_sql(self.query, cond) for cond in asked.own_conjuncts(self.query, entry)]
        tests += [
            f"{names[column]} = {first[number]}" for column, number in own.items() if names[column] != first[number]
        ]
        columns = "".join(f"{text} AS V{number}, " for number, text in first.items())
        ends = f" GROUP BY {', '.join(first.values())}" if first else ""
        where = f" WHERE {' AND '.join(tests)}" if tests else ""
        table = self.query.entries[entry][0]
        return self.add(f"SELECT {columns}COUNT(*) AS C FROM {table} E{entry}{where}{ends}", frozenset(first))

    def of_cond(self, cond: Condition) -> frozenset[Variable]:
        return frozenset(self.number[column] for column in columns_of(cond))

    def around(self, variable: Variable) -> tuple[list[Factor], frozenset[Variable]]:
        """The factors that must be joined before a variable is summed out, and all their variables."""
        named = [self.of_cond(cond) for cond in self.pending]
        wanted = frozenset({variable}).union(*(some for some in named if variable in some))
        chosen = [factor for factor in self.factors if variable in factor.variables]
        for other in wanted - {variable}:
            if not any(other in factor.variables for factor in chosen):
                chosen.append(next(factor for factor in self.factors if other in factor.variables))
        return chosen, all_variables(chosen)

    def sum_away(self, variable: Variable) -> None:
        """Joins the factors around a variable into one factor, and sums the variable out."""
        chosen, every = self.around(variable)
        at = {number: [factor for factor in chosen if number in factor.variables] for number in every}
        tests = [
            f"{one.name}.V{n} = {other.name}.V{n}"
            for n, holders in at.items()
            for one, other in zip(holders, holders[1:])
        ]
        ready = [cond for cond in self.pending if self.of_cond(cond) <= every]
        tests += [self.renamed(cond, at) for cond in ready]
        self.pending = [cond for cond in self.pending if cond not in ready]
        left = sorted(every - {variable})
        columns = "".join(f"{at[n][0].name}.V{n}, " for n in left)
        ends = f" GROUP BY {', '.join(f'{at[n][0].name}.V{n}' for n in left)}" if left else ""
        where = f" WHERE {' AND '.join(tests)}" if tests else ""
        times = " * ".join(f"{factor.name}.C" for factor in chosen)
        self.factors = [factor for factor in self.factors if factor not in chosen]
        names = ", ".join(factor.name for factor in chosen)
        select = f"SELECT {columns}SUM({times}) AS C FROM {names}{where}{ends}"
        self.factors.append(self.add(select, frozenset(left)))

    def renamed(self, cond: Condition, at: dict[Variable, list[Factor]]) -> str:
        """A comparison of two columns, in terms of the variables."""
        op, *sides = cond
        texts = [f"{at[self.number[side[1:]]][0].name}.V{self.number[side[1:]]}" for side in sides]
        return f"{texts[0]} {op} {texts[1]}"

    def sql(self) -> str:
        """The statement. In each step the variable with the fewest other variables around it is summed out."""
        while left := all_variables(self.factors):
            self.sum_away(min(left, key=lambda variable: (len(self.around(variable)[1]), variable)))
        total = " * ".join(f"COALESCE((SELECT C FROM {factor.name}), 0)" for factor in self.factors)
        return f"WITH {', '.join(self.parts)} SELECT {total}"


def columns_of(cond: Condition) -> list[Column]:
    """The columns that a condition names, in order."""
    sides = [side for part in reading.comparisons(cond) for side in part[1:]]
    return [side[1:] for side in sides if side[0] == "column"]


def all_variables(factors: list[Factor]) -> frozenset[Variable]:
    return frozenset(variable for factor in factors for variable in factor.variables)
