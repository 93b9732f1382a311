"""Random queries over random skewed tables, in the SQL of PostgreSQL or SQLite. A test also gets their conditions and
entries.
"""

from __future__ import annotations

import datetime
import os
import random
from dataclasses import dataclass, field
from decimal import Decimal
from typing import Any, Callable

from bases import OnEachEngine
from safebound_sql.query import Row

QUERIES = int(os.environ.get("SAFEBOUND_SQL_QUERIES", "20"))
NAMED = int(os.environ.get("SAFEBOUND_SQL_OUTPUTS", "20"))
SEED = int(os.environ.get("SAFEBOUND_SQL_SEED", "1"))

TABLES = 4
TYPES = {"k": "INTEGER", "m": "BIGINT", "w": "TEXT", "v": "VARCHAR(9)", "d": "DATE", "n": "NUMERIC(6, 2)"}
OWN = (
    "{k} < {c}", "{k} BETWEEN 1 AND {c}", "{k} IN (0, {c}, 3)", "{w} LIKE 'a%'", "{w} IS NOT NULL", "{k} IS NULL",
    "{v} <> 'b'", "NOT ({k} = 1 OR {m} > {c})", "({k} = {c} OR {w} = 'a')", "{d} >= '2020-01-03'", "{n} > 1.25",
    "lower({w}) = 'a'", "{k} IN (SELECT m0 FROM t0 WHERE m0 > 1)", "coalesce({k}, 0) <> {c}",
    "CASE WHEN {m} IS NULL THEN 0 ELSE 1 END = 1", "{k} <= {m}", "{k} = {m} AND {w} = {w}",
    "{m} = (SELECT min(m1) FROM t1)",
)
CROSS = (
    "{k} < {K}", "({k} = {K} OR {m} = {M})", "{k} + {M} > {c}", "{w} <> {W}", "NOT {k} = {K}", "{k} = {K} + 1",
    "{k} BETWEEN {K} AND {M}", "({w} = {W}) IS NOT NULL", "({k} = 1 OR {K} = 2 AND {W} = 'a')", "{k} = {M}",
    "({k} = {n} AND {K} >= 0 OR {W} = 'a')",
)
OUTPUTS = (
    "{k}, {W}", "*", "count(*)", "DISTINCT {k}, {K}", "min({w}), max({M}), count({d})", "{a}.*, {N}",
    "{w} AS word, {n} * 2 AS twice, {D}",
)


def in_tens(queries: int) -> Callable[[type[OnEachEngine]], type[OnEachEngine]]:
    """A decorator that gives a class one test for each ten random queries, which share their tables. The test calls the
    method `ask` with the numbers of the queries.
    """

    def with_tests(test: type[OnEachEngine]) -> type[OnEachEngine]:
        for begin in range(SEED, SEED + queries, 10):
            numbers = range(begin, min(begin + 10, SEED + queries))
            setattr(test, f"test_queries_from_{begin:05}", lambda self, numbers=numbers: self.ask(numbers))
        test.apart = True
        return test

    return with_tests


@dataclass
class RandomQuery:
    """A query: its text, and its conditions, each with the entries that it names."""

    entries: list[tuple[str, int]]
    conditions: list[tuple[str, frozenset[str]]] = field(default_factory=list)
    text: str = ""

    def count_of(self, names: set[str]) -> str:
        """A query that counts the choices for these entries that satisfy all conditions which name no other entry.
        """
        sources = ", ".join(f"t{table} AS {name}" for name, table in self.entries if name in names)
        complete = [f"({text})" for text, named in self.conditions if named <= names]
        return f"SELECT count(*) FROM {sources}" + (f" WHERE {' AND '.join(complete)}" if complete else "")


class Randomly:
    """Tables and queries that a number determines."""

    def __init__(self, number: int, engine: str) -> None:
        self.random = random.Random(f"{number} {engine}")
        self.sqlite = engine == "sqlite"

    def schema(self) -> str:
        """The schema. Columns of some tables are compared differently from those of other tables."""
        tables = []
        for table in range(TABLES):
            nocase = " COLLATE NOCASE" if self.sqlite and self.random.random() < 0.3 else ""
            columns = [f"{name}{table} {kind}{nocase if name == 'w' else ''}" for name, kind in TYPES.items()]
            tables.append(f"DROP TABLE IF EXISTS t{table}; CREATE TABLE t{table} ({', '.join(columns)});")
        return "\n".join(tables)

    def lay(self, base: Any) -> None:
        """Makes the tables in a test database, and fills them."""
        base.script(self.schema())
        for table in range(TABLES):
            base.fill(f"t{table}", self.rows())

    def rows(self) -> list[Row]:
        return [tuple(self._value(name) for name in TYPES) for _ in range(self.random.choice((0, 3, 8, 14, 20)))]

    def _value(self, name: str) -> object:
        if self.random.random() < 0.12:
            return None
        skewed = int(self.random.choice((3, 6, 9)) * self.random.random() ** 2)
        if name in "km":
            return skewed
        if name in "wv":
            return self.random.choice(("a", "A", "b", "1", "01", "c d", "e'f"))[:9] if skewed > 1 else "a"
        if name == "d":
            day = datetime.date(2020, 1, 1) + datetime.timedelta(skewed)
            return str(day) if self.sqlite else day
        return skewed * 0.25 if self.sqlite else Decimal(skewed) / 4

    def query(self) -> RandomQuery:
        joined = self.random.random() < 0.9
        count = self.random.choice((1, 2, 3, 3, 4, 5)) if joined else 2
        found = RandomQuery([(f"e{number}", self.random.randrange(TABLES)) for number in range(count)])
        for at in range(1, count):
            if joined:
                self._equality(found, self.random.randrange(at), at)
        for _ in range(self.random.choice((0, 0, 1, 2))):
            if count > 1:
                self._equality(found, *self.random.sample(range(count), 2))
        for _ in range(self.random.choice((0, 1, 2, 3))):
            entry = self.random.randrange(count)
            self._condition(found, self.random.choice(OWN), entry, entry)
        if count > 1 and self.random.random() < 0.4:
            self._condition(found, self.random.choice(CROSS), *self.random.sample(range(count), 2))
        self._write(found)
        return found

    def _equality(self, found: RandomQuery, left: int, right: int) -> None:
        pairs = ("kK", "kK", "mM", "wW", "vV", "dD", "nN", "kM", "kN", "vW")
        names = self.random.choice(pairs + ("wK",) * self.sqlite)
        self._condition(found, f"{{{names[0]}}} = {{{names[1]}}}", left, right)

    def _condition(self, found: RandomQuery, form: str, left: int, right: int) -> None:
        text = self._filled(found, form, left, right)
        found.conditions.append((text, frozenset((found.entries[left][0], found.entries[right][0]))))

    def _filled(self, found: RandomQuery, form: str, left: int, right: int) -> str:
        """The form with columns in place of letters. A small letter is a column of the left entry, a capital letter one
        of the right entry.
        """
        values = {"c": self.random.randrange(5), "a": found.entries[left][0]}
        for name in TYPES:
            values[name] = self._column(found, left, name)
            values[name.upper()] = self._column(found, right, name)
        return form.format(**values)

    def _column(self, found: RandomQuery, entry: int, name: str) -> str:
        """A column with its entry. If no other entry has this column, the entry is left out at times."""
        alias, table = found.entries[entry]
        clear = sum(other == table for _, other in found.entries) == 1
        return f"{name}{table}" if clear and self.random.random() < 0.2 else f"{alias}.{name}{table}"

    def _write(self, found: RandomQuery) -> None:
        count = len(found.entries)
        outputs = self._filled(
            found, self.random.choice(OUTPUTS), self.random.randrange(count), self.random.randrange(count)
        )
        left, seen = list(found.conditions), {found.entries[0][0]}
        sources = f"t{found.entries[0][1]} AS {found.entries[0][0]}"
        for alias, table in found.entries[1:]:
            seen.add(alias)
            on = [c for c in left if c[1] <= seen and self.random.random() < 0.6]
            left = [c for c in left if c not in on]
            text = " AND ".join(f"({text})" if " OR " in text or self.random.random() < 0.1 else text for text, _ in on)
            sources += f" JOIN t{table} {alias} ON {text}" if on else f" CROSS JOIN t{table} AS {alias}"
        where = f" WHERE {' AND '.join(text for text, _ in left)}" if left else ""
        found.text = f"SELECT {outputs} FROM {sources}{where}{self.random.choice(('', '', ' ORDER BY 1'))}"
