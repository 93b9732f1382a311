"""Checks random queries while other sessions write: no join of a plan has more rows than its bound, or than the budget.

    postgres/tests/beside.py URL [SEED [SETS [QUERIES]]] [--unwatched]

For each of SETS sets of tables, QUERIES queries are asked while three other sessions insert, update, delete, copy and
truncate, and call safebound.fold. Half of the queries run in REPEATABLE READ, where the plan's numbers are bounds for
the snapshot in which it runs. The others are prepared, and run in READ COMMITTED under a budget near their bound; if a
query is admitted, no join has more rows than the budget. With --unwatched, new rows aren't followed. Then some joins
have to exceed their bounds, which shows that the test would notice it.
"""

from __future__ import annotations

import random
import sys
import threading
from collections import Counter
from collections.abc import Iterator

import psycopg
from never_under import PLAN_BY_BOUNDS, JOINS, KINDS, NOT_RUN, PARTITIONED, PRELUDE
from never_under import Connection, Plan, Table, with_time_limit, nodes, query, value

WRITERS = 3
# SQLSTATEs of a refused query.
ABOVE, UNBOUNDED = "SB001", "SB002"


def unrepeated_joins(plan: Plan, repeated: bool = False) -> Iterator[Plan]:
    """The joins of a plan that aren't repeated for each row of another relation."""
    if plan["Node Type"] in JOINS and plan["Actual Loops"] == 1 and not repeated:
        yield plan
    for below in plan.get("Plans", []):
        inner = plan["Node Type"] == "Nested Loop" and below["Parent Relationship"] == "Inner"
        yield from unrepeated_joins(below, repeated or inner)


class Writer(threading.Thread):
    """A session that writes to random tables until it is stopped."""

    def __init__(self, url: str, seed: int, tables: list[Table], watched: bool) -> None:
        super().__init__()
        self.url, self.r, self.tables, self.watched = url, random.Random(seed), tables, watched
        self.stopping = threading.Event()
        self.counts: Counter[str] = Counter()

    def run(self) -> None:
        with psycopg.connect(self.url) as connection:
            connection.execute("SET statement_timeout = '2s'")
            connection.commit()
            while not self.stopping.is_set():
                self.transaction(connection)

    def transaction(self, connection: Connection) -> None:
        r = self.r
        if r.random() < 0.2:
            connection.execute("SET TRANSACTION ISOLATION LEVEL REPEATABLE READ")
        try:
            for _ in range(r.choice([1, 1, 1, 3])):
                self.statement(connection, r.choice(self.tables))
            if r.random() < 0.2:
                connection.rollback()
            else:
                connection.commit()
        except psycopg.Error as error:
            connection.rollback()
            self.counts[f"error {error.sqlstate}"] += 1

    def row(self, table: Table) -> list[str]:
        columns = zip(table.columns, table.distinct)
        return [value(self.r, column_type, distinct, 0.1) for column_type, distinct in columns]

    def statement(self, connection: Connection, table: Table) -> None:
        r = self.r
        kinds = ["insert", "one", "update", "delete", "copy", "truncate", "fold"]
        kind = r.choices(kinds, [12, 4, 8, 8, 4, 1, 2 if self.watched else 0])[0]
        i = r.randrange(len(table.columns))
        some = value(r, table.columns[i], table.distinct[i], 0)
        # Into the whole table, or directly into a part.
        into = r.choice([table.name, table.name, *table.parts()])
        if kind in ("insert", "one"):
            rows = (f"({', '.join(self.row(table))})" for _ in range(1 if kind == "one" else r.randint(1, 20)))
            connection.execute(f"INSERT INTO {into} VALUES {', '.join(rows)}")
        elif kind == "update":
            j = r.randrange(len(table.columns))
            new = value(r, table.columns[j], table.distinct[j], 0.1)
            connection.execute(f"UPDATE {into} SET c{j} = {new} WHERE c{i} = {some}")
        elif kind == "delete":
            connection.execute(f"DELETE FROM {into} WHERE c{i} = {some} OR random() < 0.3")
        elif kind == "copy":
            with connection.cursor().copy(f"COPY {into} FROM STDIN") as copy:
                for _ in range(r.randint(1, 20)):
                    cells = self.row(table)
                    copy.write_row([None if cell == "NULL" else cell.strip("'") for cell in cells])
        elif kind == "truncate":
            connection.execute(f"TRUNCATE {into} CASCADE")
        else:
            connection.execute(f"SELECT safebound.fold('{r.choice([table.name, *table.parts()])}')")
        self.counts[kind] += 1


class QuerySession:
    """The session that asks queries, with its counters."""

    def __init__(self, connection: Connection, r: random.Random, watched: bool) -> None:
        self.connection, self.r, self.watched = connection, r, watched
        self.seen: Counter[str] = Counter()

    def check_node(self, node: Plan, most: int, name: str, text: str) -> None:
        self.seen[name] += 1
        if node["Actual Rows"] > most:
            self.seen["too many rows"] += 1
            if self.seen["too many rows"] <= 3:
                print(f"{node['Node Type']} has {node['Actual Rows']} rows, at most {most}: {text}")

    def count_unknown_tables(self) -> None:
        """Counts the watched tables whose statistics aren't valid any more. The writers make no table so."""
        unknown = self.connection.execute('SELECT "table" FROM safebound.kept WHERE NOT known').fetchall()
        self.seen["unknown tables"] += len(unknown)

    def check_bounds(self, explained: list[Plan], known: set[str], text: str) -> None:
        """Checks that each scan and join of known tables has at most as many rows as the plan says."""
        for node in nodes(explained[0]["Plan"], known):
            kind = "joins" if node["Node Type"] in JOINS else "scans"
            self.check_node(node, node["Plan Rows"], f"snapshot {kind}", text)

    def check_budget(self, explained: list[Plan], budget: int, text: str) -> None:
        """Checks that each join of an admitted query has at most as many rows as the budget."""
        self.seen["admitted"] += 1
        for node in unrepeated_joins(explained[0]["Plan"]):
            self.check_node(node, budget, "budget joins", text)

    def explain(self, text: str) -> list[Plan]:
        cursor = self.connection.execute(with_time_limit(f"EXPLAIN (ANALYZE, TIMING OFF, FORMAT JSON) {text}"))
        cursor.nextset()
        row = cursor.fetchone()
        assert row is not None
        explained: list[Plan] = row[0]
        return explained

    def check_in_snapshot(self, text: str, known: set[str]) -> None:
        with self.connection.transaction():
            self.connection.execute("SET TRANSACTION ISOLATION LEVEL REPEATABLE READ")
            for _ in range(3):
                self.check_bounds(self.explain(text), known, text)

    def check_under_budget(self, text: str) -> None:
        """Runs a prepared query several times under a budget near its bound."""
        self.connection.execute(f"PREPARE asked AS {text}")
        for _ in range(4):
            explained = self.connection.execute("EXPLAIN (FORMAT JSON) EXECUTE asked").fetchone()
            assert explained is not None
            budget = max(1, int(explained[0][0]["Plan"]["Plan Rows"] * self.r.choice([0.5, 1, 1, 1, 2])))
            if budget > 2_000_000_000:
                return
            self.connection.execute(f"SET safebound.budget = {budget}")
            try:
                self.check_budget(self.explain("EXECUTE asked"), budget, text)
            except psycopg.Error as error:
                if error.sqlstate not in (ABOVE, UNBOUNDED):
                    raise
                self.seen["refused" if error.sqlstate == ABOVE else "refused without a bound"] += 1
            finally:
                self.connection.execute("SET safebound.budget = 0")

    def ask(self, text: str, known: set[str]) -> None:
        try:
            if not self.watched or self.r.random() < 0.5:
                self.check_in_snapshot(text, known)
            else:
                self.check_under_budget(text)
            self.seen["queries"] += 1
        except (*NOT_RUN, psycopg.errors.DeadlockDetected) as error:
            self.seen[f"not run {error.sqlstate}"] += 1
        self.connection.execute("DEALLOCATE ALL")


def create_tables(connection: Connection, r: random.Random, watched: bool) -> list[Table]:
    """Creates plain tables; in half of the sets, partitioned tables and tables with children too. In half of the sets,
    tables refer to earlier ones.
    """
    kinds = r.choice([("plain",), KINDS])
    refers = r.random() < 0.5
    tables = [Table(r, f"nu{i}", kinds) for i in range(3)]
    for i, table in enumerate(tables):
        table.make(connection, tables[:i] if refers else [])
        for name in [table.name, *table.parts()] if watched else []:
            connection.execute(f"SELECT safebound.watch('{name}')")
    return tables


def check_set(url: str, session: QuerySession, r: random.Random, watched: bool, queries: int) -> Counter[str]:
    """Creates a set of tables, and asks queries of them while writers change them."""
    session.connection.execute("SET safebound.estimates = off")
    tables = create_tables(session.connection, r, watched)
    known = {table.name for table in tables if table.kind in ("plain", *PARTITIONED)}
    session.connection.execute(f"SET plan_cache_mode = {r.choice(['force_generic_plan', 'auto'])}")
    session.connection.execute(PLAN_BY_BOUNDS)
    for method in ("hashjoin", "mergejoin", "nestloop"):
        session.connection.execute(f"SET enable_{method} = {r.choice(['on', 'on', 'off'])}")
    writers = [Writer(url, r.randrange(1 << 30), tables, watched) for _ in range(WRITERS)]
    for writer in writers:
        writer.start()
    try:
        session.count_unknown_tables()
        for _ in range(queries):
            text, alone = query(r, tables)
            session.ask(text, known | alone)
    finally:
        for writer in writers:
            writer.stopping.set()
        for writer in writers:
            writer.join()
    session.count_unknown_tables()
    return sum((writer.counts for writer in writers), Counter())


def main() -> int:
    words = [word for word in sys.argv[1:] if not word.startswith("--")]
    watched = "--unwatched" not in sys.argv
    numbers = [int(word) for word in words[1:4]]
    seed, sets, queries = numbers + [1, 4, 40][len(numbers) :]
    r = random.Random(seed)
    written: Counter[str] = Counter()
    with psycopg.connect(words[0], autocommit=True, prepare_threshold=None) as connection:
        connection.execute(PRELUDE)
        connection.execute("SET jit = off; SET max_parallel_workers_per_gather = 0")
        session = QuerySession(connection, r, watched)
        for _ in range(sets):
            written += check_set(words[0], session, r, watched, queries)
    for counts in (session.seen, written):
        print(", ".join(f"{name} {count}" for name, count in sorted(counts.items())))
    too_many, joins = session.seen["too many rows"], session.seen["snapshot joins"] + session.seen["budget joins"]
    if not watched:
        return 0 if too_many else 1
    return 1 if too_many or session.seen["unknown tables"] or not joins else 0


if __name__ == "__main__":
    sys.exit(main())
