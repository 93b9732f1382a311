"""Asks what sqlsmith makes up, as a role without rights, over watched tables of all types: no query may end a backend.

    postgres/tests/smith.py [SECONDS [SEED]]

Each of the modes off, mean and bound is tried with a budget, and one without, for its share of SECONDS (120), on a
server of its own. The server writes to its log when a signal ended a process. Where sqlsmith isn't installed (package
`sqlsmith`), nothing is tested.
"""

from __future__ import annotations

import os
import shutil
import subprocess
import sys
from collections.abc import Iterator

import psycopg

sys.dont_write_bytecode = True
sys.path[:0] = [os.path.join(os.path.dirname(os.path.abspath(__file__)), "..")]
from installed import Installed

# Modes, each with a budget; 0 is none.
TRIED = (("off", 50), ("mean", 50), ("bound", 50), ("bound", 0))
ENDED = ("terminated by signal", "PANIC:", "server process was terminated", "crash of another server process")
# Types of columns, each with a value for the number i.
TYPES = {
    "small": ("smallint", "integer", "bigint", "numeric", "real", "double precision", "oid", "money"),
    "texts": ("text", "varchar(20)", "char(8)", "name", 'text COLLATE "C"', "caseless", "bytea", "bit varying"),
    "times": ("date", "time", "timetz", "timestamp", "timestamptz", "interval", "boolean", "mood"),
    "others": ("uuid", "inet", "cidr", "macaddr", "jsonb", "int4range", "int4multirange", "pg_lsn"),
    "more": ("integer[]", "text[]", "positive", "pair", "tsvector", "json", "point", "bit(3)"),
}
VALUES = {
    "date": "date '2020-01-01' + i",
    "time": "time '10:00' + i * interval '1 minute'",
    "timetz": "timetz '10:00+01' + i * interval '1 minute'",
    "timestamp": "timestamp '2020-01-01' + i * interval '1 day'",
    "timestamptz": "timestamptz '2020-01-01' + i * interval '1 day'",
    "interval": "i * interval '1 hour'",
    "boolean": "i % 2 = 0",
    "mood": "(ARRAY['sad', 'well', 'glad']::mood[])[1 + i % 3]",
    "name": "('n' || i)::name",
    "bytea": "('b' || i)::bytea",
    "bit varying": "i::bit(8)::varbit",
    "bit(3)": "i::bit(3)",
    "money": "i::numeric::money",
    "uuid": "('00000000-0000-0000-0000-0000000000' || lpad(i::text, 2, '0'))::uuid",
    "inet": "inet '10.0.0.0' + i",
    "cidr": "('10.0.' || i || '.0/24')::cidr",
    "macaddr": "('08:00:2b:01:02:' || lpad(i::text, 2, '0'))::macaddr",
    "jsonb": "jsonb_build_object('a', i)",
    "json": "json_build_object('a', i)",
    "int4range": "int4range(i, i + 5)",
    "int4multirange": "int4multirange(int4range(i, i + 5))",
    "pg_lsn": "('0/' || i)::pg_lsn",
    "integer[]": "ARRAY[i, NULL]",
    "text[]": "ARRAY['a' || i]",
    "positive": "1 + i",
    "pair": "ROW(i, 'p' || i)::pair",
    "tsvector": "to_tsvector('simple', 'a' || i)",
    "point": "point(i, i)",
    "oid": "i::oid",
}
PRELUDE = """
CREATE EXTENSION safebound;
CREATE COLLATION caseless (provider = icu, locale = 'und-u-ks-level2', deterministic = false);
CREATE DOMAIN caseless AS text COLLATE caseless;
CREATE DOMAIN positive AS integer CHECK (VALUE > 0);
CREATE TYPE mood AS ENUM ('sad', 'well', 'glad');
CREATE TYPE pair AS (a integer, b text);
CREATE ROLE smith LOGIN;
ALTER ROLE smith SET statement_timeout = '1s';
ALTER ROLE smith SET max_parallel_workers_per_gather = 0;
"""
# Tables that refer to others, that have parts, children, or no rows.
SHAPES = """
CREATE TABLE key (id integer PRIMARY KEY, c text, d integer);
INSERT INTO key SELECT i, 'k' || i % 5, i % 7 FROM generate_series(1, 40) AS i;
CREATE TABLE referring (r integer REFERENCES key, s integer REFERENCES key, y integer);
INSERT INTO referring SELECT 1 + i % 40, 1 + i * i % 40, i % 9 FROM generate_series(1, 200) AS i;
CREATE TABLE listed (k integer, c text) PARTITION BY LIST (k);
CREATE TABLE listed_1 PARTITION OF listed FOR VALUES IN (1, 2);
CREATE TABLE listed_2 PARTITION OF listed DEFAULT;
INSERT INTO listed SELECT i % 4, 'k' || i % 5 FROM generate_series(1, 100) AS i;
CREATE TABLE above (x integer, y text);
CREATE TABLE below (z integer) INHERITS (above);
INSERT INTO below SELECT i % 6, 'k' || i, i FROM generate_series(1, 50) AS i;
CREATE TABLE without_rows (id integer, c text);
CREATE MATERIALIZED VIEW seen AS SELECT c, count(*) AS n FROM listed GROUP BY c;
CREATE VIEW viewed AS SELECT r.y, k.c FROM referring r LEFT JOIN key k ON r.r = k.id;
"""
WATCHED = (*TYPES, "key", "referring", "listed", "listed_1", "above", "below", "without_rows", "seen")


def table_statements(name: str) -> Iterator[str]:
    columns = [f"c{i} {column_type}" for i, column_type in enumerate(TYPES[name])]
    values = [VALUES.get(column_type, f"i::{column_type}") for column_type in TYPES[name]]
    nulls = [f"CASE WHEN i % {5 + j} > 0 THEN {text} END" for j, text in enumerate(values)]
    yield f"CREATE TABLE {name} ({', '.join(columns)})"
    yield f"INSERT INTO {name} SELECT {', '.join(nulls)} FROM generate_series(1, 60) AS i"
    yield f"INSERT INTO {name} SELECT * FROM {name} LIMIT 20"


def make_tables(connection: psycopg.Connection[tuple[object, ...]]) -> None:
    """Makes watched tables. The role may read some of them."""
    connection.execute(PRELUDE)
    for name in TYPES:
        connection.execute("; ".join(table_statements(name)))
    connection.execute(SHAPES)
    for name in WATCHED:
        connection.execute(f"SELECT safebound.watch('{name}')")
    readable = "small, texts, times, others, more, key, referring, listed, above, viewed"
    connection.execute(f"GRANT SELECT ON {readable} TO smith")


def ask(target: str, seed: int, seconds: float) -> None:
    """Runs sqlsmith for some seconds. It goes on after errors, and ends where the server does."""
    words = ["sqlsmith", f"--target={target}", "--exclude-catalog", f"--seed={seed}", "--max-queries=1000000"]
    try:
        subprocess.run(words, stdout=subprocess.DEVNULL, stderr=subprocess.DEVNULL, timeout=seconds)
    except subprocess.TimeoutExpired:
        pass


def main() -> int:
    if not shutil.which("sqlsmith"):
        print("smith.py: nothing is tested, since sqlsmith isn't installed")
        return 0
    numbers = [int(word) for word in sys.argv[1:3]]
    seconds, seed = numbers + [120, 1][len(numbers) :]
    with Installed(("log_min_error_statement=panic",)) as server:
        with psycopg.connect(server.url, autocommit=True) as connection:
            make_tables(connection)
            for i, (mode, budget) in enumerate(TRIED):
                connection.execute(f"ALTER ROLE smith SET safebound.estimates = {mode}")
                connection.execute(f"ALTER ROLE smith SET safebound.budget = {budget}")
                target = f"host={server.folder} port=5432 user=smith dbname=postgres"
                ask(target, seed + i, seconds / len(TRIED))
        with open(os.path.join(server.folder, "log"), encoding="utf-8", errors="replace") as log:
            lines = log.readlines()
    refused = sum("of this query" in line for line in lines)
    ended = [line for line in lines if any(words in line for words in ENDED)]
    print("".join(ended) or f"sqlsmith for {seconds} s: {refused} of its queries refused, and no backend ended")
    return 1 if ended or not refused else 0


if __name__ == "__main__":
    sys.exit(main())
