"""The shop of `bench/shop`, at a multiple of its size."""

from __future__ import annotations

import importlib.machinery
import importlib.util
from fractions import Fraction
from pathlib import Path
from typing import Any

from made import GeneratedTables

BENCH = Path(__file__).resolve().parents[2] / "bench"

SCHEMA = """CREATE TABLE product (id INTEGER PRIMARY KEY, kind INTEGER NOT NULL);
CREATE TABLE item (order_id INTEGER NOT NULL, product INTEGER NOT NULL);
CREATE TABLE orders (id INTEGER PRIMARY KEY, customer INTEGER NOT NULL, dayno INTEGER NOT NULL);
CREATE TABLE customer (id INTEGER PRIMARY KEY, region INTEGER NOT NULL)"""

# The rows of each table, by the number i of a row and the size s. The first column, k, decides which server has a row.
ROWS = {
    "product": "SELECT i AS k, i % 4 FROM generate_series(0, 20000 * {s} - 1) AS i",
    "item": (
        "SELECT (3 * i + 7) % (200000 * {s}) AS k, i / 2 % (CASE i % 2 WHEN 1 THEN 20000 * {s} ELSE 10 * {s} END)"
        " FROM generate_series(0, 400000 * {s} - 1) AS i"
    ),
    "orders": "SELECT i AS k, (7 * i + 7) % (50000 * {s}), i % 100 FROM generate_series(0, 200000 * {s} - 1) AS i",
    "customer": "SELECT i AS k, (i + 7) % 10 FROM generate_series(0, 50000 * {s} - 1) AS i",
}


def of_bench(name: str) -> Any:
    """A script of bench as a module."""
    loader = importlib.machinery.SourceFileLoader(name, str(BENCH / name))
    spec = importlib.util.spec_from_loader(name, loader)
    assert spec
    module = importlib.util.module_from_spec(spec)
    loader.exec_module(module)
    return module


def query() -> str:
    return str(of_bench("demo").QUERY)


def rows(times: int | Fraction) -> int:
    return int(670_000 * times)


SHOP = GeneratedTables(SCHEMA, ROWS)
