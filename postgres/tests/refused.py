"""Checks random queries of every form under a budget of one row less than their greatest join: all have to be refused.

    postgres/tests/refused.py URL [SEED [SETS [QUERIES]]]

The server at URL has the extension installed. For each of SETS sets of watched tables, QUERIES queries are run without
a budget, and EXPLAIN ANALYZE counts the rows of each join. No join may have more rows than safebound.bounds says. Then
each query whose greatest join has two rows or more is run with a budget of one row less. It has to be refused, with
SQLSTATE SB001 or, where a join has no bound, SB002.

Many of the tables are empty or have parts that are pruned, and many conditions contradict each other or a constraint:
the planner then leaves a side of a join out. Queries are set operations, recursive WITH, joins of all kinds in any
nesting, LATERAL, semi- and anti-joins, subqueries in FROM, and prepared statements.
"""

from __future__ import annotations

import random
import sys
from collections import Counter
from collections.abc import Iterator

import psycopg
from never_under import JOINS, NOT_RUN, PRELUDE
from never_under import Connection, Plan, Table, condition, equality, is_null, value, where, with_time_limit

# SQLSTATEs of a refused query.
ABOVE, UNBOUNDED = "SB001", "SB002"
# Of 100 refused queries at most this many may be refused since a join has no bound.
MOST_UNBOUNDED = 42
KINDS = ("plain", "plain", "plain", "hash", "list", "list", "children")
JOIN_KINDS = ("JOIN", "JOIN", "LEFT JOIN", "LEFT JOIN", "RIGHT JOIN", "FULL JOIN", "FULL JOIN", "CROSS JOIN")
SET_OPERATIONS = ("UNION", "UNION ALL", "INTERSECT", "INTERSECT ALL", "EXCEPT", "EXCEPT ALL")
SETTINGS = {
    "safebound.estimates": ("off", "mean", "bound"),
    "enable_hashjoin": ("on", "on", "off"),
    "enable_mergejoin": ("on", "on", "off"),
    "enable_nestloop": ("on", "on", "off"),
    "enable_material": ("on", "off"),
    "enable_memoize": ("on", "off"),
    "enable_partitionwise_join": ("off", "off", "on"),
    "enable_partition_pruning": ("on", "on", "off"),
    "constraint_exclusion": ("partition", "on"),
    "join_collapse_limit": ("8", "8", "1"),
    "from_collapse_limit": ("8", "8", "1"),
    "geqo_threshold": ("12", "12", "3"),
    "plan_cache_mode": ("auto", "force_generic_plan", "force_custom_plan"),
}
# A table or a subquery of FROM, by its alias.
Entry = tuple[str, Table]


def as_text(alias: str) -> str:
    """The first column of an entry, so that columns of all types can be compared."""
    return f'({alias}.c0::text COLLATE "C")'


class WatchedTable(Table):
    """A table that is watched, and may be empty."""

    def fill_statements(self) -> Iterator[str]:
        if self.r.random() < 0.85:
            yield from super().fill_statements()
        if self.kind == "plain" and self.r.random() < 0.3:
            yield f"ALTER TABLE {self.name} ADD CHECK (c0 IS DISTINCT FROM {self.absent()}) NOT VALID"

    def absent(self) -> str:
        """A value that no row has."""
        return value(self.r, self.columns[0], 1, 0).replace("0", "99999")

    def keep_statements(self) -> Iterator[str]:
        for name in [self.name, *self.parts()]:
            yield f"SELECT safebound.watch('{name}')"


class Generator:
    """Makes queries over tables."""

    def __init__(self, r: random.Random, tables: list[WatchedTable]) -> None:
        self.r, self.tables, self.numbers = r, tables, 0

    def alias(self) -> str:
        self.numbers += 1
        return f"t{self.numbers}"

    def chance(self, share: float) -> bool:
        return self.r.random() < share

    def source(self, table: WatchedTable) -> str:
        """The rows of a table: all, or only those of a part, or none."""
        whole = [table.name] if table.kind != "children" else []
        part = self.r.choice([*whole, *table.parts()])
        if self.chance(0.88):
            return part if table.kind == "children" or self.chance(0.3) else table.name
        return self.r.choice([
            f"(SELECT * FROM {part} WHERE false)",
            f"(SELECT * FROM {part} WHERE c0 = {value(self.r, table.columns[0], 3, 0)} AND c0 IS NULL)",
            f"(SELECT * FROM {part} WHERE c0 = {table.absent()})",
            f"(SELECT * FROM {part} LIMIT 0)",
            f"(SELECT * FROM {part} OFFSET 0)",
            f"(SELECT DISTINCT * FROM {part})",
            f"(SELECT * FROM {part} UNION ALL SELECT * FROM {part} WHERE false)",
        ])

    def leaf(self) -> tuple[str, list[Entry]]:
        alias, table = self.alias(), self.r.choice(self.tables)
        return f"{self.source(table)} {alias}", [(alias, table)]

    def on(self, lefts: list[Entry], rights: list[Entry], kind: str) -> str:
        if kind == "CROSS JOIN":
            return ""
        text = equality(self.r, self.r.choice(lefts), self.r.choice(rights))
        if kind == "FULL JOIN":
            return f" ON {text}"
        if self.chance(0.1):
            text = self.r.choice(["false", is_null(self.r, self.r.choice(lefts + rights))])
        if self.chance(0.25):
            text += f" AND {self.test(lefts + rights)}"
        return f" ON {text}"

    def test(self, entries: list[Entry]) -> str:
        """A condition on one entry. It may be one that no row satisfies."""
        alias, table = self.r.choice(entries)
        return self.r.choice([
            condition(self.r, alias, table),
            condition(self.r, alias, table),
            is_null(self.r, (alias, table)),
            f"{alias}.c0 = {value(self.r, table.columns[0], 30, 0)}",
            f"{alias}.c0 = {value(self.r, table.columns[0], 3, 0)} AND {alias}.c0 IS NULL",
            "false",
        ])

    def lateral(self, lefts: list[Entry]) -> tuple[str, list[Entry]]:
        alias, inner, table = self.alias(), self.alias(), self.r.choice(self.tables)
        on = equality(self.r, self.r.choice(lefts), (inner, table))
        more = self.r.choice(["", "", " LIMIT 2", " OFFSET 0"])
        return f"LATERAL (SELECT {inner}.* FROM {table.name} {inner} WHERE {on}{more}) {alias}", [(alias, table)]

    def joined(self, size: int) -> tuple[str, list[Entry]]:
        """Joins of any kinds and shape."""
        if size == 1:
            return self.leaf()
        middle = self.r.randint(1, size - 1)
        left, lefts = self.joined(middle)
        if self.chance(0.12):
            right, rights = self.lateral(lefts)
            return f"({left} {self.r.choice(['JOIN', 'LEFT JOIN'])} {right} ON true)", lefts + rights
        right, rights = self.joined(size - middle)
        kind = self.r.choice(JOIN_KINDS)
        return f"({left} {kind} {right}{self.on(lefts, rights, kind)})", lefts + rights

    def exists(self, entries: list[Entry]) -> str:
        """A semi- or an anti-join, with one or two tables on its right side."""
        inner, inners = self.joined(self.r.choice([1, 1, 2]))
        outer = self.r.choice(entries)
        on = equality(self.r, outer, self.r.choice(inners))
        return f"{self.r.choice(['', 'NOT '])}EXISTS (SELECT FROM {inner} WHERE {on})"

    def select(self, columns: str = "1") -> str:
        text, entries = self.joined(self.r.choice([1, 2, 2, 3, 3, 4, 5]))
        wheres = [self.exists(entries) for _ in range(self.r.choice([0, 0, 0, 0, 1, 1, 2]))]
        wheres += [self.test(entries) for _ in range(self.r.choice([0, 0, 0, 1]))]
        if columns == "column":
            columns = as_text(entries[0][0])
        return f"SELECT {columns} AS c FROM {text}{where(wheres)}"

    def nested(self) -> str:
        """A query that is joined as a subquery of FROM, or as a WITH."""
        inner, other, table = self.select("column"), self.alias(), self.r.choice(self.tables)
        on = f"q.c = {as_text(other)}"
        if self.chance(0.5):
            return f"SELECT 1 FROM ({inner}) q {self.r.choice(JOIN_KINDS[:4])} {table.name} {other} ON {on}"
        how = self.r.choice(["", "MATERIALIZED ", "NOT MATERIALIZED "])
        return f"WITH q AS {how}({inner}) SELECT 1 FROM q, {table.name} {other} WHERE {on}"

    def recursive(self) -> str:
        alias, table = self.alias(), self.r.choice(self.tables)
        step = f"SELECT {as_text(alias)} FROM n JOIN {table.name} {alias} ON n.c = {as_text(alias)}"
        return f"WITH RECURSIVE n AS ({self.select('column')} UNION {step}) SELECT 1 FROM n"

    def set_operation(self) -> str:
        parts = [f"({self.select('column')})" for _ in range(self.r.choice([2, 2, 3]))]
        text = parts[0]
        for part in parts[1:]:
            text = f"({text} {self.r.choice(SET_OPERATIONS)} {part})"
        return text

    def scalar(self) -> str:
        """A subquery in an expression."""
        return f"SELECT ({self.select('count(*)')}) FROM {self.select()[len('SELECT 1 AS c FROM '):]}"

    def query(self) -> str:
        others = [self.set_operation, self.set_operation, self.nested, self.recursive, self.scalar]
        return self.select() if self.chance(0.55) else self.r.choice(others)()


def children(plan: Plan) -> tuple[list[Plan], list[Plan]]:
    """The nodes below a node, and its subqueries with plans of their own."""
    below = plan.get("Plans", [])
    apart = [part for part in below if part["Parent Relationship"] in ("InitPlan", "SubPlan")]
    return [part for part in below if part not in apart], apart


def own_joins(plan: Plan) -> Iterator[Plan]:
    """The joins of a plan without its subqueries, each after those below it."""
    for below in children(plan)[0]:
        yield from own_joins(below)
    if plan["Node Type"] in JOINS:
        yield plan


def subqueries(plan: Plan) -> Iterator[Plan]:
    below, apart = children(plan)
    for part in apart:
        yield part
        yield from subqueries(part)
    for part in below:
        yield from subqueries(part)


def number_of(subquery: Plan) -> int | None:
    """The number of a subquery in its plan. EXPLAIN doesn't tell that of a WITH."""
    words = subquery["Subplan Name"].split()
    return int(words[1]) if words[0] in ("InitPlan", "SubPlan") else None


def joins_in_order(plan: Plan) -> list[Plan] | None:
    """The joins of a plan as safebound.bounds lists them; None if their order can't be told."""
    apart = list(subqueries(plan))
    numbered = {number_of(part): part for part in apart}
    if len(numbered) < len(apart):
        return None
    free = [i for i in range(1, len(apart) + 1) if i not in numbered]
    numbered = {free[0] if number is None and free else number: part for number, part in numbered.items()}
    if None in numbered:
        return None
    ordered = [part for _, part in sorted(numbered.items(), key=lambda item: item[0] or 0)]
    return [join for part in [*ordered, plan] for join in own_joins(part)]


def all_joins(plan: Plan) -> list[Plan]:
    return [join for part in [*subqueries(plan), plan] for join in own_joins(part)]


class Session:
    """The session that asks, and its counters."""

    def __init__(self, connection: Connection, r: random.Random, seed: int) -> None:
        self.connection, self.r, self.seed = connection, r, seed
        self.seen: Counter[str] = Counter()
        self.sets = 0

    def fail(self, kind: str, text: str) -> None:
        self.seen[kind] += 1
        if self.seen[kind] <= 5:
            print(f"seed {self.seed}, set {self.sets}: {kind}: {text}", flush=True)

    def explained(self, budget: int, text: str, prepared: str) -> Plan:
        explain = f"EXPLAIN (ANALYZE, TIMING OFF, FORMAT JSON) {'EXECUTE asked' if prepared else text}"
        cursor = self.connection.execute(f"SET safebound.budget = {budget}; {with_time_limit(explain)}")
        cursor.nextset()
        cursor.nextset()
        row = cursor.fetchone()
        assert row is not None
        plan: Plan = row[0][0]["Plan"]
        return plan

    def check_bounds(self, plan: Plan, text: str) -> None:
        """No join has more rows than its bound. One that is read again for each row of another relation has the rows
        of its mean reading.
        """
        joins = joins_in_order(plan)
        bounds = self.connection.execute("SELECT bound FROM safebound.bounds(%s)", (text,)).fetchall()
        if joins is None or len(joins) != len(bounds):
            self.seen["plans of another order"] += 1
            return
        for join, (bound,) in zip(joins, bounds):
            if bound is None:
                self.seen["joins without a bound"] += 1
                continue
            self.seen["joins compared"] += 1
            if join["Actual Rows"] > bound:
                self.fail("UNDER", f"{join['Node Type']} has {join['Actual Rows']} rows, not {bound}: {text}")

    def check_refusal(self, plan: Plan, text: str, prepared: str) -> None:
        most = max((join["Actual Rows"] for join in all_joins(plan)), default=0)
        if most < 2:
            self.seen["with less than two rows"] += 1
            return
        try:
            again = self.explained(most - 1, text, prepared)
            if max(join["Actual Rows"] for join in all_joins(again)) >= most:
                self.fail("ADMITTED", f"{most} rows: {prepared or text}")
        except psycopg.Error as error:
            if error.sqlstate not in (ABOVE, UNBOUNDED):
                raise
            self.seen[f"refused {error.sqlstate}"] += 1

    def ask(self, text: str) -> None:
        prepared = f"PREPARE asked AS {text}" if self.r.random() < 0.2 else ""
        try:
            if prepared:
                self.connection.execute(prepared)
            plan = self.explained(0, text, prepared)
            self.seen["queries"] += 1
            if not prepared:
                self.check_bounds(plan, text)
            self.check_refusal(plan, text, prepared)
        except NOT_RUN:
            self.seen["not run"] += 1
        finally:
            self.connection.execute("DEALLOCATE ALL; SET safebound.budget = 0")

    def one_set(self, queries: int) -> None:
        self.connection.execute("RESET ALL")
        tables = [WatchedTable(self.r, f"re{i}", KINDS) for i in range(4)]
        for i, table in enumerate(tables):
            table.make(self.connection, list(tables[:i]))
        if self.r.random() < 0.5:
            self.connection.execute("ANALYZE re0, re1, re2, re3")
        self.connection.execute("SET jit = off; SET max_parallel_workers_per_gather = 0")
        for name, values in SETTINGS.items():
            self.connection.execute(f"SET {name} = {self.r.choice(values)}")
        for _ in range(queries):
            self.ask(Generator(self.r, tables).query())
        self.sets += 1

    def report(self) -> str:
        return f"{self.sets} sets: " + ", ".join(f"{name} {count}" for name, count in sorted(self.seen.items()))

    def unbounded(self) -> float:
        """Of 100 refused queries those without a bound."""
        above, unbounded = self.seen[f"refused {ABOVE}"], self.seen[f"refused {UNBOUNDED}"]
        return 100 * unbounded / max(1, above + unbounded)


def main() -> int:
    numbers = [int(word) for word in sys.argv[2:5]]
    seed, sets, queries = numbers + [1, 20, 40][len(numbers) :]
    with psycopg.connect(sys.argv[1], autocommit=True, prepare_threshold=None) as connection:
        connection.execute(PRELUDE)
        session = Session(connection, random.Random(seed), seed)
        for number in range(sets):
            session.one_set(queries)
            if number % 100 == 99:
                print(session.report(), flush=True)
    print(f"{session.report()}; {session.unbounded():.0f} in 100 refused without a bound")
    failed = session.seen["UNDER"] or session.seen["ADMITTED"] or session.unbounded() > MOST_UNBOUNDED
    return 1 if failed or not session.seen["joins compared"] else 0


if __name__ == "__main__":
    sys.exit(main())
