"""Random queries over USING or ON, with ORDER BY and with outputs named like columns of the tables. The clauses above
the join (outputs, grouping, order, limit) must mean the same in the planned SQL.
"""

from __future__ import annotations

import random
import re
from decimal import Decimal

from safebound_sql.query import Row

TABLES = 3
SHARED = ("id", "k", "w")
TYPES_OF_ID = {
    "sqlite": ("INTEGER", "INTEGER", "REAL", "NUMERIC"),
    "postgres": ("INTEGER", "INTEGER", "BIGINT", "NUMERIC", "NUMERIC(7, 1)"),
}
# The order of types by conversion. If USING merges columns of two of these types, PostgreSQL converts the earlier type
# to the later one. There is one exception: INTEGER or BIGINT with NUMERIC(7, 1) are both converted to NUMERIC.
WIDER = ("INTEGER", "BIGINT", "NUMERIC(7, 1)", "NUMERIC")


class QueriesOfNamedOutputs:
    """Tables and queries that a number determines. Every query has ORDER BY over all its outputs, so that the order of
    its rows is determined.
    """

    def __init__(self, number: int, engine: str) -> None:
        self.random = random.Random(f"names {number} {engine}")
        self.engine = engine

    def schema(self) -> str:
        choose = self.random.choice
        return "\n".join(
            f"DROP TABLE IF EXISTS u{n}; CREATE TABLE u{n} (id {choose(TYPES_OF_ID[self.engine])}, k INTEGER, w TEXT,"
            f" v{n} INTEGER, name{n} TEXT);"
            for n in range(TABLES)
        )

    def rows(self) -> list[Row]:
        return [
            tuple(self._value(name) for name in ("id", "k", "w", "v", "name"))
            for _ in range(self.random.choice((4, 8, 14)))
        ]

    def _value(self, name: str) -> int | str | Decimal | None:
        if self.random.random() < 0.1:
            return None
        number = int(self.random.choice((3, 6)) * self.random.random() ** 1.5)
        if name == "id":
            return number if self.engine == "sqlite" else Decimal(number)
        return number if name in "kv" else "abcdef"[number]

    def query(self) -> str:
        """A query over USING or ON, of two to four entries."""
        choose = self.random.choice
        count = choose((2, 2, 3, 4))
        self.entries = [(f"e{n}", self.random.randrange(TABLES)) for n in range(count)]
        self.merged = self.random.sample(SHARED, choose((0, 1, 1, 1, 2)))
        sources = f"u{self.entries[0][1]} AS e0"
        for alias, table in self.entries[1:]:
            before = self.random.randrange(int(alias[1:]))
            how = f"USING ({', '.join(self.merged)})" if self.merged else ""
            if not how:
                name = choose(SHARED[1:])
                how = f"ON e{before}.{name} = {alias}.{name}"
            sources += f" JOIN u{table} {alias} {how}"
        conditions = [text for text in (self._condition() for _ in range(choose((0, 1, 1, 2)))) if text]
        where = f" WHERE {' AND '.join(conditions)}" if conditions else ""
        return choose((self._plain, self._plain, self._grouped))(sources, where)

    def converts_both(self, schema: str) -> bool:
        """Whether USING merges an INTEGER or BIGINT column with a later NUMERIC(7, 1) column. The merged column then
        has neither of their types.
        """
        if self.engine == "sqlite" or "id" not in self.merged:
            return False
        types = re.findall(r"\(id (.*?), k", schema)
        merged, *others = [types[table] for _, table in self.entries]
        for other in others:
            if merged in ("INTEGER", "BIGINT") and other == "NUMERIC(7, 1)":
                return True
            merged = max(merged, other, key=WIDER.index)
        return False

    def _condition(self) -> str:
        left, right = self._operand(), self._operand()
        return self.random.choice(
            (
                f"{left} IS NOT NULL", f"coalesce(CAST({left} AS TEXT), '') <= coalesce(CAST({right} AS TEXT), 'b')",
                f"{left} = {left}",
            )
        )

    def _operand(self) -> str:
        """A column: a merged column without a table, any other column with its entry."""
        if self.merged and self.random.random() < 0.5:
            return self.random.choice(self.merged)
        alias, table = self.random.choice(self.entries)
        name = self.random.choice([name for name in (*SHARED, f"v{table}", f"name{table}") if name not in self.merged])
        return f"{alias}.{name}"

    def _aliases(self, count: int) -> list[str]:
        """Names of columns for outputs."""
        table = self.entries[0][1]
        return self.random.sample(
            [*SHARED, f"v{table}", f"name{table}", "other", "offset" if self.engine == "sqlite" else "total"], count
        )

    def _output(self) -> str:
        operand = self._operand()
        return self.random.choice(
            (operand, f"coalesce(CAST({operand} AS TEXT), '-')", f"CASE WHEN {operand} IS NULL THEN 1 ELSE 2 END")
        )

    def _named(self, text: str, alias: str) -> str:
        return f"{text} {alias}" if self.random.random() < 0.3 and alias != "offset" else f"{text} AS {alias}"

    def _plain(self, sources: str, where: str) -> str:
        aliases = self._aliases(self.random.choice((2, 3)))
        outputs = ", ".join(self._named(self._output(), alias) for alias in aliases)
        distinct = self.random.choice(("", "", "DISTINCT "))
        return f"SELECT {distinct}{outputs} FROM {sources}{where} ORDER BY {self._order(aliases)}{self._limit()}"

    def _grouped(self, sources: str, where: str) -> str:
        aliases = self._aliases(3)
        by = self._output()
        outputs = ", ".join(
            (
                self._named(by, aliases[0]), self._named("count(*)", aliases[1]),
                self._named(f"max({self._operand()})", aliases[2]),
            )
        )
        having = self.random.choice(("", f" HAVING count({self._operand()}) > 0"))
        return (
            f"SELECT {outputs} FROM {sources}{where} GROUP BY {by}{having} ORDER BY"
            f" {self._order(aliases)}{self._limit()}"
        )

    def _order(self, aliases: list[str]) -> str:
        """ORDER BY over all outputs, by their names or numbers."""
        places = list(range(len(aliases)))
        self.random.shuffle(places)
        return ", ".join(
            f"{self.random.choice((aliases[at], aliases[at], at + 1))}{self.random.choice(('', ' DESC'))}"
            for at in places
        )

    def _limit(self) -> str:
        return self.random.choice(("", "", " LIMIT 3", " LIMIT 5 OFFSET 1"))
