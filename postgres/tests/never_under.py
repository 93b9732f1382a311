"""Checks random queries over random tables: no scan and no join of a plan has more rows than its bound.

    postgres/tests/never_under.py URL [SEED [TABLES [QUERIES]]]

The server at URL has the extension installed. For each of TABLES sets of tables, QUERIES queries are planned with
safebound.estimates = bound. EXPLAIN ANALYZE runs them and counts the rows of each node. Tables are plain, partitioned
or have children. Queries read them directly, by a view, a subquery or WITH. If a join reads an unknown table, the plan
has PostgreSQL's own number for the join, which isn't checked. The statements of a set are sent in few texts, so that
thousands of sets take no longer than their queries do.
"""

from __future__ import annotations

import json
import random
import sys
from collections.abc import Iterator
from typing import Any, Dict, Set, Tuple

import psycopg

Connection = psycopg.Connection[Any]
# A node of a plan, as EXPLAIN tells it.
Plan = Dict[str, Any]

# Types whose values can be compared across columns, each with a form of text for a small number.
TYPES = {
    "integer": "{n}",
    "bigint": "{n}",
    "numeric": "{n}.{zeros}",
    "text": "'v{n}'",
    'text COLLATE "C"': "'v{n}'",
    "caseless": "'{case}{n}'",
    "varchar(9)": "'v{n}'",
    "small": "{n}",
}
COMPARABLE = [["integer", "bigint", "small"], ["text", "varchar(9)"], ['text COLLATE "C"'], ["caseless"], ["numeric"]]
JOINS = ("Nested Loop", "Hash Join", "Merge Join")
SCANS = ("Seq Scan", "Index Scan", "Index Only Scan", "Bitmap Heap Scan")
# A partitioned table is read by its parts.
APPENDS = ("Append", "Merge Append")
# Nodes between a join and the tables below it. They have the rows of the node below.
PASSING_NODES = (
    "Hash", "Sort", "Incremental Sort", "Materialize", "Memoize", "Bitmap Index Scan", "BitmapOr", "BitmapAnd",
)
# A join with more outer and semi-joins in it isn't bounded.
MOST_SPECIAL_JOINS = 6
# How many queries are sent in one text, and after how many sets of tables progress is printed.
QUERIES_IN_ONE_TEXT, SETS_BETWEEN_REPORTS = 20, 250
PLAN_BY_BOUNDS = "SET safebound.estimates = bound"
KINDS = ("plain", "plain", "plain", "hash", "list", "children")
# These tables have only the rows of their parts, and statistics as a whole.
PARTITIONED = ("hash", "list")
PRELUDE = """
CREATE EXTENSION IF NOT EXISTS safebound;
CREATE COLLATION IF NOT EXISTS caseless (provider = icu, locale = 'und-u-ks-level2', deterministic = false);
DO $$ BEGIN CREATE DOMAIN caseless AS text COLLATE caseless; EXCEPTION WHEN duplicate_object THEN NULL; END $$;
DO $$ BEGIN CREATE DOMAIN small AS integer CHECK (VALUE < 100000); EXCEPTION WHEN duplicate_object THEN NULL; END $$;
"""


def with_time_limit(queries: str) -> str:
    """Queries with a time limit, since some would take minutes. The statements that create tables have no limit. If a
    query ends just as the limit is reached, PostgreSQL cancels the statement after it. So the statement that lifts the
    limit is in the same text.
    """
    return f"SET LOCAL statement_timeout = '1s'; {queries}; SET LOCAL statement_timeout = 0"


def value(r: random.Random, column_type: str, distinct: int, null: float) -> str:
    if r.random() < null:
        return "NULL"
    skewed = min(r.randrange(distinct), r.randrange(distinct))
    return TYPES[column_type].format(n=skewed, zeros="0" * r.randint(1, 3), case=r.choice("vV"))


class Table:
    def __init__(self, r: random.Random, name: str, kinds: tuple[str, ...] = KINDS) -> None:
        self.name, self.r, self.kind, self.bare = name, r, r.choice(kinds), kinds == ("plain",)
        self.has_key = False
        family = r.choice(COMPARABLE)
        self.columns = [r.choice(family if r.random() < 0.5 else r.choice(COMPARABLE)) for _ in range(r.randint(2, 4))]
        self.distinct = [r.choice([1, 3, 8, 40]) for _ in self.columns]

    def parts(self) -> list[str]:
        """The partitions, or the children, of a table that has some."""
        if self.kind == "plain":
            return []
        return [f"{self.name}_{i}" for i in range(2)]

    def list_values(self, part: int) -> str:
        """The values of a list partition: one value and NULL, or all other values."""
        return "DEFAULT" if part else f"FOR VALUES IN (NULL, {TYPES[self.columns[0]].format(n=0, zeros='0', case='v')})"

    def create_statements(self) -> Iterator[str]:
        columns = ", ".join(f"c{i} {column_type}" for i, column_type in enumerate(self.columns))
        by = {"hash": " PARTITION BY HASH (c0)", "list": " PARTITION BY LIST (c0)"}.get(self.kind, "")
        yield f"DROP TABLE IF EXISTS {self.name} CASCADE"
        yield f"CREATE TABLE {self.name} ({columns}){by}"
        for i, part in enumerate(self.parts()):
            kind = {
                "hash": f"PARTITION OF {self.name} FOR VALUES WITH (MODULUS 2, REMAINDER {i})",
                "list": f"PARTITION OF {self.name} {self.list_values(i)}",
                "children": f"() INHERITS ({self.name})",
            }[self.kind]
            yield f"CREATE TABLE {part} {kind}"
        yield f"CREATE VIEW {self.name}_view AS SELECT * FROM {self.name}"

    def fill_statements(self) -> Iterator[str]:
        r = self.r
        rows = r.choice([0, 1, 10, 40, 120, 400])
        nulls = [r.choice([0, 0, 0.2, 0.9]) for _ in self.columns]
        if rows:
            columns = list(zip(self.columns, self.distinct, nulls))
            tuples = (", ".join(value(r, *column) for column in columns) for _ in range(rows))
            yield f"INSERT INTO {self.name} VALUES ({'), ('.join(tuples)})"
            if self.kind == "children":
                yield f"INSERT INTO {self.name}_0 SELECT * FROM ONLY {self.name} LIMIT 30"

    def key_statements(self) -> Iterator[str]:
        """Makes the first column the key. Rows without a value there are deleted, and all rows but one of each value.
        """
        again = f"EXISTS (SELECT FROM {self.name} b WHERE a.c0 = b.c0 AND a.ctid < b.ctid)"
        yield f"DELETE FROM {self.name} a WHERE c0 IS NULL OR {again}"
        yield f"ALTER TABLE {self.name} ADD PRIMARY KEY (c0)"
        self.has_key = True

    def reference_statements(self, other: Table) -> Iterator[str]:
        """Makes each column of the key's type refer to the other table's key. Rows with other values are deleted."""
        for i, column_type in enumerate(self.columns):
            if other.has_key and column_type == other.columns[0] and (i > 0 or not self.has_key):
                there = f"EXISTS (SELECT FROM {other.name} o WHERE o.c0 = {self.name}.c{i})"
                yield f"UPDATE {self.name} SET c{i} = NULL WHERE NOT {there}"
                yield f"ALTER TABLE {self.name} ADD FOREIGN KEY (c{i}) REFERENCES {other.name}"

    def keep_statements(self) -> Iterator[str]:
        r = self.r
        for name in [self.name, *self.parts()]:
            some = f"common => {r.choice([0, 1, 3, 100])}, ranges => {r.choice([0, 1, 3, 64])}"
            yield f"SELECT safebound.keep('{name}', {some}, accuracy => {r.choice([1, 2, 8, 64])})"

    def all_statements(self, others: list[Table]) -> Iterator[str]:
        yield from self.create_statements()
        yield from self.fill_statements()
        if self.kind == "plain" and self.r.random() < 0.5:
            yield from self.key_statements()
        for other in others:
            yield from self.reference_statements(other)
        if self.r.random() < 0.5:
            yield f"CREATE INDEX ON {self.name} (c{self.r.randrange(len(self.columns))})"

    def make(self, connection: Connection, others: list[Table]) -> None:
        """Creates the table, and in a later transaction its statistics."""
        for statements in (self.all_statements(others), self.keep_statements()):
            connection.execute("; ".join(statements))

    def read(self, alias: str, alone: set[str]) -> str:
        """The item of FROM for the table, before its alias. If a part is read alone, `alone` gets the alias."""
        parts = self.parts() + ([f"ONLY {self.name}"] if self.kind == "children" else [])
        if parts and self.r.random() < 0.6:
            alone.add(alias)
            return self.r.choice(parts)
        if self.bare:
            return self.name
        subqueries = [f"(SELECT * FROM {self.name})", f"(SELECT DISTINCT * FROM {self.name})"]
        return self.r.choice([*3 * [self.name], f"{self.name}_view", *subqueries, f"with_{self.name}"])


def condition(r: random.Random, alias: str, table: Table) -> str:
    i = r.randrange(len(table.columns))
    column = f"{alias}.c{i}"

    def one() -> str:
        return value(r, table.columns[i], table.distinct[i] + 2, 0)

    def compared(*operators: str) -> str:
        return f"{column} {r.choice(operators)} {one()}"

    def equal() -> str:
        return f"{column} = {one()}"

    def like() -> str:
        is_text = "text" in table.columns[i]
        return f"{column} LIKE 'v{r.choice(['1%', '2_', '%', '3', '1%2', ''])}'" if is_text else equal()

    def by_subquery() -> str:
        literal = one()
        return f"{column} = (SELECT {literal}::{'text' if literal.startswith(chr(39)) else 'numeric'})"

    made = [
        lambda: f"{column} IN ({', '.join(one() for _ in range(r.randint(1, 4)))})",
        lambda: f"{column} IS {r.choice(['', 'NOT '])}NULL",
        lambda: f"({column} = {one()} OR {condition(r, alias, table)})",
        lambda: compared("<", ">=", "<>"),
        by_subquery,
        lambda: f"{compared('>', '>=')} AND {compared('<', '<=')}",
        lambda: f"{one()} {r.choice(['<', '>', '<=', '>='])} {column}",
        like,
        *4 * [equal],
    ]
    return made[r.randrange(11)]()


def equality(r: random.Random, left: tuple[str, Table], right: tuple[str, Table]) -> str:
    pairs = [
        (i, j)
        for i, a in enumerate(left[1].columns)
        for j, b in enumerate(right[1].columns)
        if any(a in family and b in family for family in COMPARABLE)
    ]
    if not pairs:
        return "true"
    some = r.sample(pairs, min(len(pairs), r.choice([1, 1, 2])))
    return " AND ".join(f"{left[0]}.c{i} = {right[0]}.c{j}" for i, j in some)


def with_tables(r: random.Random, tables: list[Table]) -> str:
    how = ("", "NOT MATERIALIZED", "MATERIALIZED")
    return "WITH " + ", ".join(f"with_{t.name} AS {r.choice(how)} (SELECT * FROM {t.name})" for t in tables)


def leaf(r: random.Random, number: int, tables: list[Table], alone: set[str]) -> tuple[str, list[tuple[str, Table]]]:
    """A table, or its rows that have a match in another table, or its rows that have none."""
    alias, table = f"t{number}", r.choice(tables)
    text = f"{table.read(alias, alone)} {alias}"
    if r.random() < 0.15:
        within, other = f"s{number}", r.choice(tables)
        read, on = other.read(within, alone), equality(r, (alias, table), (within, other))
        partner = f"SELECT FROM {read} {within} WHERE {on}"
        text = f"(SELECT {alias}.* FROM {text} WHERE {r.choice(['', 'NOT '])}EXISTS ({partner})) {alias}"
    return text, [(alias, table)]


def is_null(r: random.Random, entry: tuple[str, Table]) -> str:
    return f"{entry[0]}.c{r.randrange(len(entry[1].columns))} IS NULL"


def outer_joins(
    r: random.Random, numbers: range, tables: list[Table], alone: set[str]
) -> tuple[str, list[tuple[str, Table]]]:
    """Joins of any shape, most of them outer joins, and the tables that they join."""
    if len(numbers) == 1:
        return leaf(r, numbers[0], tables, alone)
    middle = r.randint(1, len(numbers) - 1)
    left, lefts = outer_joins(r, numbers[:middle], tables, alone)
    right, rights = outer_joins(r, numbers[middle:], tables, alone)
    kind = r.choice(["JOIN", "LEFT JOIN", "LEFT JOIN", "RIGHT JOIN", "FULL JOIN", "FULL JOIN"])
    on = equality(r, r.choice(lefts), r.choice(rights))
    if kind != "FULL JOIN" and r.random() < 0.4:
        entry = r.choice(lefts + rights)
        on += f" AND {is_null(r, entry) if r.random() < 0.5 else condition(r, *entry)}"
    return f"({left} {kind} {right} ON {on})", lefts + rights


def where(conditions: list[str]) -> str:
    return f" WHERE {' AND '.join(conditions)}" if conditions else ""


def special_joins(text: str) -> int:
    return sum(text.count(words) for words in ("LEFT JOIN", "RIGHT JOIN", "FULL JOIN", "EXISTS"))


def outer_query(r: random.Random, tables: list[Table]) -> tuple[str, set[str]]:
    """Nested outer joins, under conditions on sides that may be missing, and the aliases of the parts that are read
    alone.
    """
    alone: set[str] = set()
    text, visible = outer_joins(r, range(r.randint(3, 6)), tables, alone)
    room = MOST_SPECIAL_JOINS - special_joins(text)
    if room < 0:
        return outer_query(r, tables)
    wheres = [is_null(r, r.choice(visible)) for _ in range(r.choice([0, 1, 1, 2]))]
    for i in range(min(room, r.choice([0, 0, 1, 2]))):
        table = r.choice(tables)
        on = equality(r, r.choice(visible), (f"e{i}", table))
        there = f"EXISTS (SELECT FROM {table.read(f'e{i}', alone)} e{i} WHERE {on})"
        wheres.append(r.choice(["", "NOT ", "NOT "]) + there)
    if r.random() < 0.3:
        wheres.append(condition(r, *r.choice(visible)))
    return f"{with_tables(r, tables)} SELECT 1 FROM {text}{where(wheres)}", alone


def query(r: random.Random, tables: list[Table]) -> tuple[str, set[str]]:
    """A query, and the aliases of the parts that it reads alone."""
    if r.random() < 0.4:
        return outer_query(r, tables)
    alone: set[str] = set()
    entries = [(f"t{i}", r.choice(tables)) for i in range(r.randint(1, 5))]
    text, wheres, visible = f"{entries[0][1].read('t0', alone)} t0", [], [entries[0]]
    for entry in entries[1:]:
        on = equality(r, r.choice(visible), entry)
        kind = r.choice(["JOIN", "JOIN", "JOIN", "LEFT JOIN", "RIGHT JOIN", "FULL JOIN", "EXISTS", "NOT EXISTS"])
        if kind.endswith("EXISTS"):
            more = f" AND {condition(r, *entry)}" if r.random() < 0.3 else ""
            read = entry[1].read(entry[0], alone)
            wheres.append(f"{kind} (SELECT FROM {read} {entry[0]} WHERE {on}{more})")
            continue
        if kind != "FULL JOIN" and r.random() < 0.3:
            on += f" AND {condition(r, *r.choice([entry, r.choice(visible)]))}"
        text = f"({text} {kind} {entry[1].read(entry[0], alone)} {entry[0]} ON {on})"
        visible.append(entry)
    wheres += [condition(r, *r.choice(visible)) for _ in range(r.choice([0, 1, 1, 2]))]
    return f"{with_tables(r, tables)} SELECT 1 FROM {text}{where(wheres)}", alone


def is_known(plan: Plan, known: set[str]) -> bool:
    """Whether a plan only reads known tables and joins them.

    `known` has the names of plain and of partitioned tables, and the aliases by which a part is read alone.
    """
    if plan["Node Type"] in SCANS:
        name = plan["Relation Name"]
        return name in known or name.rpartition("_")[0] in known or plan["Alias"] in known
    below = [part for part in plan.get("Plans", []) if part["Parent Relationship"] in ("Outer", "Inner", "Member")]
    return plan["Node Type"] in (*JOINS, *PASSING_NODES, *APPENDS) and all(is_known(part, known) for part in below)


def is_read_again(join: Plan, below: Plan) -> bool:
    """Whether the rows below are counted each time the join reads them again. A nested loop reads its inner side for
    each outer row. A merge join may go back in its inner scan, also through a Result node, which tests a condition
    without columns once.
    """
    again = {"Nested Loop": True, "Merge Join": below["Node Type"] in (*SCANS, *APPENDS, "Result")}
    return below["Parent Relationship"] == "Inner" and again.get(join["Node Type"], False)


def nodes(plan: Plan, known: set[str], repeated: bool = False) -> Iterator[Plan]:
    """The scans and joins whose bound applies to all their rows, that is those not repeated for each row of another
    relation. Parts that are read together have one bound, as a whole.
    """
    kind = plan["Node Type"]
    if not repeated and plan["Actual Loops"] == 1 and kind in (*JOINS, *SCANS, *APPENDS) and is_known(plan, known):
        yield plan
    if kind in APPENDS:
        return
    for below in plan.get("Plans", []):
        yield from nodes(below, known, repeated or is_read_again(plan, below))


# Errors of a query that isn't run: it takes too long, or compares values that have no equality.
NOT_RUN = (psycopg.errors.QueryCanceled, psycopg.errors.FeatureNotSupported, psycopg.errors.UndefinedFunction,
           psycopg.errors.DatatypeMismatch)
# A query, and the known tables and parts that it reads.
Asked = Tuple[str, Set[str]]


class QuerySession:
    """The session that asks queries, and its counters."""

    def __init__(self, connection: Connection, r: random.Random, head: str) -> None:
        self.connection, self.r, self.head = connection, r, head
        self.sets = self.queries = self.failed = self.scans = self.too_many_rows = 0
        self.bounds_by_rows: list[float] = []

    def check_node(self, node: Plan, text: str) -> None:
        if node["Node Type"] in JOINS:
            self.bounds_by_rows.append(node["Plan Rows"] / max(1, node["Actual Rows"]))
        else:
            self.scans += 1
        if node["Actual Rows"] > node["Plan Rows"]:
            self.too_many_rows += 1
            print(f"{self.head}: {node['Node Type']} has {node['Actual Rows']} rows, not {node['Plan Rows']}: {text}")

    def check_plan(self, plan: Plan, text: str, known: set[str]) -> None:
        before = self.too_many_rows
        for node in nodes(plan, known):
            self.check_node(node, text)
        if self.too_many_rows > before and "-v" in sys.argv:
            raise SystemExit(json.dumps(plan, indent=1))

    def note_not_run(self, text: str, error: psycopg.Error) -> None:
        self.failed += 1
        if "-v" in sys.argv:
            print(text, error)

    def ask(self, asked: list[Asked]) -> None:
        """Sends queries in one text. If one of them can't be run, each is sent alone."""
        explain = "EXPLAIN (ANALYZE, TIMING OFF, FORMAT JSON)"
        try:
            cursor = self.connection.execute(with_time_limit("; ".join(f"{explain} {text}" for text, _ in asked)))
        except NOT_RUN as error:
            if len(asked) == 1:
                return self.note_not_run(asked[0][0], error)
            return self.ask_one_by_one(asked)
        for text, known in asked:
            cursor.nextset()
            row = cursor.fetchone()
            assert row is not None
            self.check_plan(row[0][0]["Plan"], text, known)

    def ask_one_by_one(self, asked: list[Asked]) -> None:
        for one in asked:
            self.ask([one])

    def one_set(self, queries: int) -> None:
        """Creates new tables, and asks queries over them."""
        self.connection.execute("SET safebound.estimates = off")
        tables = [Table(self.r, f"nu{i}") for i in range(3)]
        for i, table in enumerate(tables):
            table.make(self.connection, tables[:i])
        self.connection.execute("ANALYZE nu0, nu1, nu2")
        self.connection.execute(PLAN_BY_BOUNDS)
        known = {table.name for table in tables if table.kind in ("plain", *PARTITIONED)}
        for method in ("hashjoin", "mergejoin", "nestloop"):
            self.connection.execute(f"SET enable_{method} = {self.r.choice(['on', 'on', 'off'])}")
        asked = [(text, known | alone) for text, alone in (query(self.r, tables) for _ in range(queries))]
        for first in range(0, queries, QUERIES_IN_ONE_TEXT):
            self.ask(asked[first : first + QUERIES_IN_ONE_TEXT])
        self.sets += 1
        self.queries += queries

    def report(self) -> str:
        sorted_ratios = sorted(self.bounds_by_rows) or [0]
        return (
            f"{self.sets} sets, {self.queries - self.failed} queries ({self.failed} not run), {self.scans} scans and "
            f"{len(self.bounds_by_rows)} joins, {self.too_many_rows} under; bound by rows of a join: "
            f"median {sorted_ratios[len(sorted_ratios) // 2]:.2f}, "
            f"90th percentile {sorted_ratios[len(sorted_ratios) * 9 // 10]:.1f}"
        )


def main() -> int:
    numbers = [int(word) for word in sys.argv[2:5]]
    seed, sets, queries = numbers + [1, 20, 40][len(numbers) :]
    with psycopg.connect(sys.argv[1], autocommit=True) as connection:
        connection.execute(PRELUDE)
        connection.execute("SET jit = off; SET max_parallel_workers_per_gather = 0")
        session = QuerySession(connection, random.Random(seed), f"seed {seed}")
        for number in range(sets):
            session.one_set(queries)
            if number % SETS_BETWEEN_REPORTS == SETS_BETWEEN_REPORTS - 1:
                print(session.report(), flush=True)
    print(session.report())
    return 1 if session.too_many_rows or not session.bounds_by_rows else 0


if __name__ == "__main__":
    sys.exit(main())
