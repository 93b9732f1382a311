"""Skewed tables of films and people, and random queries over them.

A few films have most of the castings, keywords, ratings and awards, and these films are recent. A few people have most
of the castings, ratings and awards. Planners expect too few rows, since they assume that columns are independent.
"""

from __future__ import annotations

import random

from made import GeneratedTables

SCHEMA = """CREATE TABLE title (id INTEGER PRIMARY KEY, kind INTEGER NOT NULL, year INTEGER NOT NULL, studio INTEGER
    NOT NULL);
CREATE TABLE person (id INTEGER PRIMARY KEY, country INTEGER NOT NULL, born INTEGER NOT NULL);
CREATE TABLE studio (id INTEGER PRIMARY KEY, country INTEGER NOT NULL);
CREATE TABLE casting (title INTEGER NOT NULL, person INTEGER NOT NULL, role INTEGER NOT NULL);
CREATE TABLE keyword (title INTEGER NOT NULL, word INTEGER NOT NULL);
CREATE TABLE rating (person INTEGER NOT NULL, title INTEGER NOT NULL, stars INTEGER NOT NULL);
CREATE TABLE award (person INTEGER NOT NULL, title INTEGER NOT NULL, kind INTEGER NOT NULL)"""


def _chance(number: int) -> str:
    """SQL for a pseudorandom number of row i, at least 0 and below 1. It is the same on all servers."""
    return f"((hashint8(i * 16 + {number}) & 2147483647) / 2147483648.0::float8)"


def _skewed(most: str, power: float, number: int) -> str:
    """SQL for a pseudorandom whole number of row i, at least 0 and below `most`. If `power` is above 1, low numbers are
    more frequent.
    """
    return f"floor({most} * power({_chance(number)}, {power}))::integer"


def _table(count: str, *columns: str) -> str:
    first, *others = columns
    return f"SELECT {', '.join([first + ' AS k', *others])} FROM generate_series(0, {count} * {{s}} - 1) AS i"


MADE = GeneratedTables(
    SCHEMA,
    {
        "title": _table(
            "20000", "i::integer", _skewed("6", 2, 1), "2024 - (i / (200 * {s}))::integer", _skewed("500 * {s}", 3, 2)
        ),
        "person": _table("20000", "i::integer", _skewed("40", 3, 3), "2005 - (i % 80)::integer"),
        "studio": _table("500", "i::integer", _skewed("20", 2, 4)),
        "casting": _table("100000", _skewed("20000 * {s}", 2.5, 5), _skewed("20000 * {s}", 2, 6), _skewed("12", 2, 7)),
        "keyword": _table("40000", _skewed("20000 * {s}", 2, 8), _skewed("1000 * {s}", 3, 9)),
        "rating": _table(
            "60000", _skewed("20000 * {s}", 1.5, 10), _skewed("20000 * {s}", 3, 11), _skewed("10", 0.6, 12)
        ),
        "award": _table("6000", _skewed("20000 * {s}", 2.5, 13), _skewed("20000 * {s}", 2.5, 14), _skewed("5", 2, 15)),
    },
)

# The columns that are joined: a table and its column, then the other table and its column.
EDGES = [
    ("casting", "title", "title", "id"), ("casting", "person", "person", "id"), ("keyword", "title", "title", "id"),
    ("rating", "title", "title", "id"), ("rating", "person", "person", "id"), ("award", "person", "person", "id"),
    ("award", "title", "title", "id"), ("title", "studio", "studio", "id"), ("casting", "title", "keyword", "title"),
    ("casting", "title", "award", "title"), ("casting", "person", "award", "person"),
    ("keyword", "title", "award", "title"),
]
CONDITIONS = {
    "title": ("{a}.year BETWEEN {year} AND {year} + {few}", "{a}.kind = {small}", "{a}.year >= {late}"),
    "person": (
        "{a}.country = {small}", "{a}.born < {year} - 60 AND {a}.country < 9", "{a}.born BETWEEN 1970 AND 1970 + {few}",
    ),
    "studio": ("{a}.country = {small}", "{a}.country BETWEEN {few} AND {few} + 4"),
    "casting": ("{a}.role = {small}", "{a}.role IN ({small}, {few})"),
    "keyword": ("{a}.word = {few}", "{a}.word BETWEEN {small} AND {small} + 3"),
    "rating": ("{a}.stars >= 9", "{a}.stars = {few}"),
    "award": ("{a}.kind = {small}", "{a}.kind <> 0"),
}


def query(number: int) -> str:
    """A random query of three to six entries. The same number gives the same query. It selects count(*), so that no
    rows have to be read.
    """
    chosen = random.Random(number)
    entries = [chosen.choice(EDGES)[0]]
    conditions = []
    for _ in range(chosen.choice((2, 3, 3, 4, 4, 5))):
        ways = [(at, mine, other, theirs) for at, table in enumerate(entries) for mine, other, theirs in _ways(table)]
        at, mine, other, theirs = chosen.choice(ways)
        entries.append(other)
        conditions.append(f"e{len(entries) - 1}.{theirs} = e{at}.{mine}")
    for at in sorted(chosen.sample(range(len(entries)), chosen.randint(2, len(entries)))):
        values = {
            "a": f"e{at}", "small": chosen.randrange(4), "few": chosen.randrange(1, 8),
            "year": chosen.randrange(1950, 2024), "late": chosen.randrange(2000, 2024),
        }
        conditions.append(chosen.choice(CONDITIONS[entries[at]]).format(**values))
    sources = ", ".join(f"{table} e{at}" for at, table in enumerate(entries))
    return f"SELECT count(*) FROM {sources} WHERE {' AND '.join(conditions)}"


def _ways(table: str) -> list[tuple[str, str, str]]:
    """The joins of a table: its own column, the other table, and the other table's column."""
    forth = [(mine, other, theirs) for one, mine, other, theirs in EDGES if one == table]
    return forth + [(mine, other, theirs) for other, theirs, one, mine in EDGES if one == table]
