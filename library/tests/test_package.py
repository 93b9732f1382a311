"""The Python package: the examples of its pages, its errors, several threads, its installation, and how it finds the
library.
"""

from __future__ import annotations

import doctest
import importlib.util
import os
import pickle
import shutil
import subprocess
import sys
import tempfile
import threading
import unittest
from array import array
from typing import Any, Callable, Collection

import calls

import safebound
from safebound import _library, bounds, decimals, joins, lists, plan_texts, plans, query, sql_texts

PAIR = [(("r", "x"), ("s", "x"))]


def pair(**changed: Any) -> safebound.Query:
    given: dict[str, Any] = dict(
        entries=["r", "s"],
        equalities=PAIR,
        row_bounds={"r": 6, "s": 5},
        lists={("r", "x"): [(3, 2)], ("s", "x"): [(2, 2), (1, 1)]},
    )
    return safebound.Query(**{**given, **changed})


class Pages(unittest.TestCase):
    def test_what_docstrings_show(self) -> None:
        for module in (safebound, bounds, decimals, joins, lists, plan_texts, plans, query, sql_texts):
            failed, tried = doctest.testmod(module)
            self.assertEqual((failed, tried > 0), (0, True), module)

    def test_statuses_are_the_header_s(self) -> None:
        with open(os.path.join(calls.ROOT, "include", "safebound.h"), encoding="utf-8") as f:
            header = f.read()
        for name, number in vars(_library.Status).items():
            if not name.startswith("_"):
                self.assertIn(f"SAFEBOUND_{name} = {number}", header.replace(",", " ").replace("\n", " "))
        for kind, number in joins._KINDS.items():
            self.assertIn(f"SAFEBOUND_{kind.upper()}_JOIN = {number}", header)


class Errors(unittest.TestCase):
    def raises(
        self, kind: type[safebound.WrongValue], place: Any, make: Callable[[], object], column: object = None
    ) -> None:
        with self.assertRaises(kind) as caught:
            make()
        self.assertIs(type(caught.exception), kind)
        self.assertEqual((caught.exception.place, getattr(caught.exception, "column", None)), (place, column))
        self.assertIsInstance(caught.exception, ValueError)

    def test_lists(self) -> None:
        for number in (0, 65, 2**64, 2**64 + 1, -1):
            self.raises(safebound.BadAccuracy, number, lambda: safebound.compress([(1, 1)], number))
        for wrong in [(0, 1), (1, 0), (-1, 1), (1, -1), (2**64 + 1, 1), (1, 2**64 + 1), (6, 1)]:
            self.raises(safebound.BadRun, 1, lambda: safebound.compress([(5, 1), wrong], 1))
            self.raises(safebound.BadRun, 1, lambda: safebound.cut([(5, 1), wrong], 3))
            for of_both in (safebound.append, safebound.lesser, safebound.greater):
                self.raises(safebound.BadRun, 1, lambda: of_both([(5, 1), wrong], []))
                self.raises(safebound.BadOtherRun, 1, lambda: of_both([], [(5, 1), wrong]))
        self.raises(safebound.BadSum, 2**48 + 1, lambda: safebound.append([(2**48, 1)], [(1, 1)]))
        self.raises(safebound.BadSum, 2**48 + 1, lambda: safebound.greater([(2**48, 1)], [(1, 2)]))
        for number in (-1, 2**64):
            self.raises(safebound.BadRows, number, lambda: safebound.cut([(5, 1)], number))

    def test_joined_rows(self) -> None:
        wrong: tuple[Any, ...] = ("inner", "LEFT", "", None, 1)
        for kind in wrong:
            self.raises(safebound.BadJoinKind, kind, lambda: safebound.joined_rows(kind, 12, 6, 5))
        for number in (-1, 2**64):
            for rows in ((number, 6, 5), (12, number, 5), (12, 6, number)):
                self.raises(safebound.BadRows, number, lambda: safebound.joined_rows("semi", *rows))
        kinds: tuple[safebound.JoinKind, ...] = ("left", "right", "full", "semi", "anti")
        self.assertEqual([safebound.joined_rows(kind, 12, 6, 5) for kind in kinds], [18, 17, 23, 6, 6])
        self.assertEqual([safebound.joined_rows(kind, None, 6, 5) for kind in kinds], [None, None, None, 6, 6])

    def test_queries(self) -> None:
        one, other = ("r", "x"), ("s", "x")
        runs = {one: [(3, 2)], other: [(2, 2), (1, 1)]}
        for n in (0, 17, 64):
            names = [f"e{i}" for i in range(n)]
            self.raises(safebound.BadEntries, n, safebound.Query(names, [], dict.fromkeys(names, 1), {}).bounds)
        self.raises(safebound.BadEntries, "r", lambda: pair(entries=["r", "s", "r"]))
        for rows in ({"r": 6}, {"r": 6, "s": -1}, {"r": 6, "s": 2**64}):
            self.raises(safebound.BadRows, "s", lambda: pair(row_bounds=rows))
        self.raises(safebound.BadRows, "s", pair(row_bounds={"r": 6, "s": 2**48 + 1}).bounds)
        self.raises(safebound.BadEqualities, 257, pair(equalities=PAIR * 257).bounds)
        self.raises(safebound.BadEquality, 1, lambda: pair(equalities=PAIR + [(("r", "x"), ("t", "x"))]))
        self.raises(safebound.BadEquality, 1, pair(equalities=PAIR + [(("r", "x"), ("r", "y"))]).bounds)
        self.raises(safebound.BadList, ("t", "x"), lambda: pair(lists={**runs, ("t", "x"): []}))
        self.raises(safebound.MissingList, 0, pair(lists={one: [(3, 2)]}).bounds)
        for column, other_column in ((one, other), (other, one)):
            self.raises(safebound.BadList, column, pair(lists={other_column: [(1, 1)], column: []}).bounds)
        self.raises(safebound.BadRun, 1, pair(lists={one: [(3, 2)], other: [(2, 2), (3, 1)]}).bounds, other)
        self.raises(safebound.BadRun, 0, lambda: pair(lists={one: [(3, 2)], other: [(-2, 2)]}), other)

    def test_plans(self) -> None:
        for best in (pair().best_order, pair().best_tree):
            for budget in (-1, 2**59 + 1, 2**64, 2**64 + 100):
                self.raises(safebound.BadBudget, budget, lambda: best(budget))
            with self.assertRaises(safebound.BudgetExceeded) as caught:
                best(11)
            self.assertEqual(caught.exception.least, 12)
        large = safebound.Query(["a", "b"], [], {"a": 2**40, "b": 2**40}, {})
        for best in (large.best_order, large.best_tree):
            self.assertRaises(safebound.PastBits, best, 2**59)
        self.assertIsNone(large.bounds()[{"a", "b"}])

    def test_what_is_no_number(self) -> None:
        text: Any = "1"
        broken: Any = 1.0
        for make in (
            lambda: safebound.compress([(1, 1)], text),
            lambda: safebound.compress([(broken, 1)], 1),
            lambda: pair(row_bounds={"r": "6", "s": 5}),
        ):
            self.assertRaises(TypeError, make)


class Answers(unittest.TestCase):
    def test_by_name(self) -> None:
        """A triangle: three equalities that form a cycle."""
        columns = [(entry, column) for entry in "rst" for column in ("x", "y")]
        asked = safebound.Query(
            list("rst"),
            [(("r", "x"), ("s", "x")), (("s", "y"), ("t", "x")), (("t", "y"), ("r", "y"))],
            dict.fromkeys("rst", 3),
            {column: [(2, 1), (1, 1)] for column in columns},
        )
        bounds = asked.bounds()
        self.assertEqual(
            {"".join(sorted(names)): bounds[names] for names in bounds},
            {"": 1, "r": 3, "s": 3, "t": 3, "rs": 5, "rt": 5, "st": 5, "rst": 9},
        )
        self.assertEqual(bounds["r", "s", "r"], 5)
        self.assertEqual(len(bounds), 8)
        self.assertRaises(KeyError, lambda: bounds[{"u"}])
        order = asked.best_order(9)
        self.assertEqual((order, order.cost), ((("r", "s", "t"), (3, 5, 9)), 9))
        tree = asked.best_tree(9)
        self.assertEqual((tree.joins, tree.shape), (((1, 2, 5), (0, 3, 9)), ("r", ("s", "t"))))

    def test_no_rows_and_no_values(self) -> None:
        """An empty table has empty lists. A column with the list (1, 1) has one row with a value, and at most that row
        joins.
        """
        empty = pair(
            row_bounds={"r": 0, "s": 5}, lists={("r", "x"): safebound.degree_sequence([]), ("s", "x"): [(2, 2), (1, 1)]}
        )
        self.assertEqual((empty.bounds()[{"r"}], empty.bounds()[{"r", "s"}]), (0, 0))
        without = pair(lists={("r", "x"): [(1, 1)], ("s", "x"): [(2, 2), (1, 1)]})
        self.assertEqual((without.bounds()[{"r"}], without.bounds()[{"r", "s"}]), (6, 2))
        nothing = pair(lists={("r", "x"): safebound.NO_VALUES, ("s", "x"): [(2, 2), (1, 1)]})
        self.assertEqual((nothing.bounds()[{"r"}], nothing.bounds()[{"r", "s"}]), (6, 0))
        self.assertEqual(pickle.loads(pickle.dumps(nothing)), nothing)
        self.assertIn("('r', 'x'): NO_VALUES", repr(nothing))

    def test_one_set(self) -> None:
        asked = pair()
        sets: list[Collection[str]] = [[], ["s"], {"r", "s"}, asked.entries]
        self.assertEqual([asked.bound_of(entries) for entries in sets], [1, 5, 12, 12])
        self.assertRaises(KeyError, asked.bound_of, {"t"})
        self.assertRaises(safebound.WrongType, asked.bound_of, "rs")
        self.assertIsNone(safebound.Query(["r", "s"], [], {"r": 2**48, "s": 2**48}, {}).bound_of(["r", "s"]))

    def test_limit_of_work(self) -> None:
        asked = pair()
        with self.assertRaises(safebound.WorkExceeded) as raised:
            asked.bounds(6)
        self.assertEqual(raised.exception.least, 7)
        self.assertEqual(asked.bounds(7), asked.bounds())
        self.assertRaises(safebound.BadLimit, asked.bounds, -1)
        self.assertRaises(safebound.WrongType, asked.bounds, 7.0)

    def test_one_entry(self) -> None:
        alone = safebound.Query(["r"], [], {"r": 7}, {})
        self.assertEqual((alone.best_order(7), alone.best_tree(7)), ((("r",), (7,)), (("r",), ())))
        self.assertEqual(alone.best_tree(7).shape, "r")

    def test_threads(self) -> None:
        """Four threads that run at the same time get the results that a single thread gets."""
        asked = [
            pair(row_bounds={"r": 6, "s": rows}, lists={("r", "x"): [(3, 2)], ("s", "x"): [(2, 2), (1, rows)]})
            for rows in range(5, 205)
        ]
        alone = [(q.bounds()[{"r", "s"}], q.best_order(2**30)) for q in asked]
        keys = [array("Q", [pick % 97 for pick in range(at, 20000 + at)]) for at in range(4)]
        sequences = [safebound.degree_sequence(key) for key in keys]
        wrong = []

        def work(at: int) -> None:
            for q, expected in zip(asked, alone):
                other = safebound.Query(
                    q.entries,
                    PAIR,
                    {"r": 6, "s": q._rows[1]},
                    {("r", "x"): [(3, 2)], ("s", "x"): [(2, 2), (1, q._rows[1])]},
                )
                if (other.bounds()[{"r", "s"}], other.best_order(2**30)) != expected or safebound.degree_sequence(
                    keys[at]
                ) != sequences[at]:
                    wrong.append(at)

        threads = [threading.Thread(target=work, args=(at,)) for at in range(4)]
        for thread in threads:
            thread.start()
        for thread in threads:
            thread.join()
        self.assertEqual(wrong, [])


SAY = "import safebound; print(safebound.version(), safebound.path())"


class Installed(unittest.TestCase):
    """The package in a copy outside of the repository."""

    def setUp(self) -> None:
        self.folder = tempfile.mkdtemp()
        self.addCleanup(shutil.rmtree, self.folder)
        self.library = str(_library.path())

    def run_python(self, *words: str, **variables: str) -> subprocess.CompletedProcess[str]:
        clean = {name: value for name, value in os.environ.items() if name not in ("SAFEBOUND_LIBRARY", "PYTHONPATH")}
        return subprocess.run(
            [sys.executable, *words],
            cwd=self.folder,
            env={**clean, **variables},
            capture_output=True,
            text=True,
            timeout=120,
        )

    def copy(self) -> str:
        package = os.path.join(self.folder, "safebound")
        shutil.copytree(
            os.path.join(calls.ROOT, "python", "safebound"),
            package,
            ignore=shutil.ignore_patterns("*.so", "__pycache__"),
        )
        return package

    def test_where_it_looks(self) -> None:
        package = self.copy()
        beside = os.path.join(package, "libsafebound.so")
        found = self.run_python("-c", SAY, SAFEBOUND_LIBRARY=self.library)
        self.assertEqual(found.stdout.split(), [safebound.__version__, self.library], found.stderr)
        shutil.copy(self.library, beside)
        self.assertEqual(self.run_python("-c", SAY).stdout.split()[1:], [os.path.realpath(beside)])
        missing = self.run_python("-c", SAY, SAFEBOUND_LIBRARY=beside + ".none")
        says = f"LibraryNotFound: SAFEBOUND_LIBRARY names {beside}.none, which is no file: name libsafebound.so by it"
        self.assertIn(says, missing.stderr)
        no_library = self.run_python("-c", SAY, SAFEBOUND_LIBRARY=__file__)
        self.assertIn(f"LibraryNotFound: {__file__} can't be loaded (", no_library.stderr)

    def test_another_version(self) -> None:
        package = self.copy()
        with open(os.path.join(package, "_version.py"), "w", encoding="utf-8") as f:
            f.write('VERSION = "0.0.1"\n')
        done = self.run_python("-c", SAY, SAFEBOUND_LIBRARY=self.library)
        self.assertIn("isn't of version 0.0.1", done.stderr)

    @unittest.skipUnless(importlib.util.find_spec("pip"), "apt-get install python3-pip")
    def test_pip(self) -> None:
        """Installs as docs/EMBEDDING.md says, from a copy of the repository's folders, with the library that `make
        library` built.
        """
        shutil.copytree(
            os.path.join(calls.ROOT, "python"),
            os.path.join(self.folder, "python"),
            ignore=shutil.ignore_patterns("*.so", "__pycache__", "build", "*.egg-info"),
        )
        os.makedirs(os.path.join(self.folder, "library", "out"))
        shutil.copy(self.library, os.path.join(self.folder, "library", "out"))
        for name in ("LICENSE", os.path.join("library", "safebound.map")):
            shutil.copy(os.path.join(calls.ROOT, name), os.path.join(self.folder, name))
        target = os.path.join(self.folder, "site")
        done = self.run_python("-m", "pip", "install", "--quiet", "--no-index", "--target", target, "./python")
        self.assertEqual(done.returncode, 0, done.stderr)
        shutil.rmtree(os.path.join(self.folder, "library"))
        found = self.run_python("-c", SAY, PYTHONPATH=target)
        self.assertEqual(
            found.stdout.split(),
            [safebound.__version__, os.path.join(target, "safebound", "libsafebound.so")],
            found.stderr,
        )


if __name__ == "__main__":
    unittest.main()
