"""The objects of the Python package as values: how they are shown, compared, pickled and typed. A query refuses the
plans of another query.
"""

from __future__ import annotations

import concurrent.futures
import copy
import inspect
import os
import pickle
import shutil
import subprocess
import unittest
from typing import Any, Callable

import calls

import safebound
from safebound import BadPlan, Join, Order, Query, Run, Tree, WrongType, errors

R, S = ("r", "x"), ("s", "x")
GIVEN: dict[str, Any] = dict(
    entries=["r", "s"], equalities=[(R, S)], row_bounds={"r": 6, "s": 5}, lists={R: [(3, 2)], S: [(2, 2), (1, 1)]}
)


def pair(**changed: Any) -> Query:
    return Query(**{**GIVEN, **changed})


def triangle() -> Query:
    columns = [(entry, column) for entry in "rst" for column in "xy"]
    return Query(list("rst"), [(("r", "x"), ("s", "x")), (("s", "y"), ("t", "x")), (("t", "y"), ("r", "y"))],
                 dict.fromkeys("rst", 3), {column: [(2, 1), (1, 1)] for column in columns})


ERRORS: list[safebound.SafeBoundError] = [
    errors.BudgetExceeded(12),
    errors.WorkExceeded(7),
    errors.PastBits("each plan has a part without a bound"),
    errors.OutOfMemory("memory was wanting"),
    errors.LibraryNotFound("no library"),
    errors.Refused(5, "query syntax 0"),
    errors.WrongType("a text"),
    errors.SafeBoundError("x"),
    errors.BadRun("rises", 3, ("r", "x")),
    errors.BadOtherRun("rises", 3),
    errors.BadEntries("twice", "r"),
    errors.BadPlan("another", 2),
]


def raised(place: int) -> None:
    raise ERRORS[place]


class Shown(unittest.TestCase):
    def test_repr_makes_the_same_again(self) -> None:
        known = {**vars(safebound), **vars(safebound.plans)}
        for thing in (pair(), triangle(), pair().best_order(12), triangle().best_tree(9), Run(3, 2), Join(0, 1, 5)):
            self.assertEqual(eval(repr(thing), known), thing)  # noqa: S307
        self.assertEqual(repr(Order(("s", "r"), (5, 12))), "Order(entries=('s', 'r'), levels=(5, 12))")

    def test_bounds(self) -> None:
        bounds = pair().bounds()
        self.assertEqual(
            repr(bounds), "<Bounds {{'r'}: 6, {'s'}: 5, {'r', 's'}: 12}>".replace("{'r', 's'}", str({"r", "s"}))
        )
        self.assertEqual(
            str(bounds), "entries  rows at most\nr                   6\ns                   5\nr, s               12"
        )
        many = Query([f"e{n}" for n in range(12)], [], {f"e{n}": 2**20 for n in range(12)}, {}).bounds()
        lines = str(many).splitlines()
        self.assertEqual((len(lines), lines[1].split(), lines[-1]), (15, ["e0", "1048576"], "and 4082 other sets"))
        self.assertTrue(lines[-2].endswith("no bound"))
        self.assertLess(len(repr(many)), 1000)

    def test_plans(self) -> None:
        order, tree = pair().best_order(12), triangle().best_tree(9)
        self.assertEqual(
            str(order), "level  joined  rows at most\n    1  s                  5\n    2  r                 12"
        )
        self.assertEqual(
            str(tree),
            "join  left  right   rows at most\n   0  s     t                  5\n   1  r     join 0             9",
        )
        self.assertEqual((order.cost, tree.cost), (12, 9))
        alone = Query(["r"], [], {"r": 7}, {})
        self.assertEqual(
            (alone.best_order(7).cost, alone.best_tree(7).cost, str(alone.best_tree(7))), (7, 7, "r alone")
        )
        self.assertRaises(BadPlan, lambda: Tree(("r",), ()).cost)

    def test_explanations(self) -> None:
        """The text has the entries, the lists that are used, and the bounds. Lists that no equality uses are left out.
        """
        query = pair(lists={**GIVEN["lists"], ("s", "unused"): [(5, 1)]})
        for text in (query.explain(), query.best_order(12).explain(), query.best_tree(12).explain()):
            for words in (["r", "6"], ["s", "5"], ["r.x", "=", "s.x"], ["r.x", "6", "2", "3"], ["s.x", "5", "3", "2"]):
                self.assertIn(words, [line.split() for line in text.splitlines()], text)
            self.assertNotIn("unused", text)
        self.assertIn("2  r       r.x = s.x            12", query.best_order(12).explain())
        self.assertIn("0  r     s      r.x = s.x            12", query.best_tree(12).explain())
        self.assertIn("r.y = t.y", triangle().best_tree(9).explain().replace("t.y = r.y", "r.y = t.y"))
        self.assertEqual(
            Query(["r"], [], {"r": 7}, {}).best_tree(7).explain(),
            "entry  rows at most\nr                 7\n\nr alone 7",
        )
        self.assertRaises(BadPlan, Order(("r", "s"), (6, 12)).explain)


class Compared(unittest.TestCase):
    def test_queries(self) -> None:
        self.assertEqual(pair(), pair(entries=("r", "s"), lists={S: iter([(2, 2), (1, 1)]), R: [Run(3, 2)]}))
        self.assertEqual(hash(pair()), hash(pair()))
        changes: list[dict[str, Any]] = [
            dict(row_bounds={"r": 7, "s": 5}),
            dict(lists={R: [(3, 1)], S: [(1, 1)]}),
            dict(equalities=[]),
            dict(entries=["s", "r"]),
        ]
        for changed in changes:
            self.assertNotEqual(pair(), pair(**changed))

    def test_bounds_and_plans(self) -> None:
        self.assertEqual(pair().bounds(), pair().bounds())
        self.assertEqual(pair().bounds(), pair(entries=["s", "r"]).bounds())
        self.assertEqual(pair().bounds(), {frozenset(): 1, frozenset("r"): 6, frozenset("s"): 5, frozenset("rs"): 12})
        self.assertNotEqual(pair().bounds(), pair(row_bounds={"r": 6, "s": 4}).bounds())
        self.assertEqual(pair().best_order(12), (("s", "r"), (5, 12)))
        self.assertEqual(pair().best_tree(12), pair().best_tree(13))

    def test_errors(self) -> None:
        self.assertEqual(errors.BudgetExceeded(12), errors.BudgetExceeded(12))
        self.assertNotEqual(errors.BudgetExceeded(12), errors.BudgetExceeded(13))
        self.assertNotEqual(errors.BadRun("rises", 3), errors.BadOtherRun("rises", 3))
        self.assertEqual(len({errors.PastBits("a"), errors.PastBits("a"), errors.OutOfMemory("a")}), 2)


class Pickled(unittest.TestCase):
    def test_objects(self) -> None:
        query = triangle()
        plan = safebound.Plan((("R", 2),), Order(("R",), (2,)))
        for thing in (
            query,
            query.bounds(),
            query.best_order(9),
            query.best_tree(9),
            Run(3, 2),
            Join(0, 1, 5),
            plan,
            safebound.Output(0, b"a", b"b"),
        ):
            for copied in (
                *(pickle.loads(pickle.dumps(thing, protocol)) for protocol in range(2, 6)),
                copy.copy(thing),
                copy.deepcopy(thing),
            ):  # noqa: S301
                self.assertEqual((type(copied), copied), (type(thing), thing))
        tree = pickle.loads(pickle.dumps(query.best_tree(9)))  # noqa: S301
        self.assertEqual((tree.query, tree.cost, query.memory(tree)), (query, 9, query.memory(query.best_tree(9))))

    def test_errors_keep_what_they_say(self) -> None:
        kinds = {type(error) for error in ERRORS}
        for name, kind in vars(errors).items():
            if inspect.isclass(kind) and kind not in kinds and name != "annotations":
                ERRORS.append(kind("message", 3))
        for error in ERRORS:
            copied = pickle.loads(pickle.dumps(error))  # noqa: S301
            self.assertEqual((type(copied), str(copied), vars(copied)), (type(error), str(error), vars(error)))

    def test_a_pool_of_processes(self) -> None:
        """Each error comes out of the pool unchanged, and the pool still works."""
        with concurrent.futures.ProcessPoolExecutor(2) as pool:
            for place, error in enumerate(ERRORS):
                found = pool.submit(raised, place).exception(timeout=60)
                self.assertEqual((type(found), str(found)), (type(error), str(error)))
            self.assertEqual(pool.submit(pair).result(timeout=60), pair())
            self.assertEqual(pool.submit(pair().best_order, 12).result(timeout=60).query, pair())


class OfOneQuery(unittest.TestCase):
    def refuses(self, query: Query, plan: Any, words: str = "") -> None:
        asks: tuple[Callable[[Any], object], ...] = (query.memory, query.explain)
        for ask in asks:
            with self.assertRaises(BadPlan) as caught:
                ask(plan)
            self.assertIn(words, str(caught.exception))

    def test_another_query_s_plan(self) -> None:
        """Plans of other queries need other amounts of memory, even where they have this query's entries or levels."""
        query = pair()
        others = [
            pair(row_bounds={"r": 60, "s": 5}),
            pair(entries=["s", "r"]),
            pair(lists={R: [(3, 1)], S: [(1, 5)]}),
            pair(row_bounds={"r": 5, "s": 6}, equalities=[]),
            Query(["a", "b"], [], {"a": 6, "b": 5}, {}),
            triangle(),
        ]
        for other in others:
            plans: tuple[Order | Tree, ...] = (other.best_order(2**30), other.best_tree(2**30))
            for plan in plans:
                self.assertIs(plan.query, other)
                self.refuses(query, plan, "another query")
        self.assertEqual(query.memory(pair().best_order(12)), 531)
        self.assertEqual(query.memory(pair().best_tree(12)), 507)

    def test_the_engine_takes_twelve_entries(self) -> None:
        """Thirteen entries are bounded and planned. SafeBound's own engine takes at most twelve, so `memory` refuses
        thirteen.
        """
        for entries in (12, 13):
            names = [f"e{n}" for n in range(entries)]
            query = Query(names, [], dict.fromkeys(names, 2), {})
            plans: tuple[Order | Tree, ...] = (query.best_order(2**entries), query.best_tree(2**entries))
            for plan in plans:
                if entries == 12:
                    self.assertGreater(query.memory(plan), 0)
                    continue
                with self.assertRaises(errors.BadEntries) as caught:
                    query.memory(plan)
                self.assertEqual(caught.exception.place, 13)

    def test_plans_put_together_by_hand(self) -> None:
        """Only plans with this query's entries and bounds are accepted. No number is cut to 64 bits or rounded to a
        whole number.
        """
        query = pair()
        self.assertEqual(query.memory(Order(("s", "r"), (5, 12))), 531)
        self.assertEqual(query.memory(Tree(("r", "s"), (Join(0, 1, 12),))), 507)
        broken: tuple[Any, ...] = (12.0, 12.5, None, "12", True)
        for level in broken:
            self.assertRaises(WrongType, Order, ("s", "r"), (5, level))
            self.assertRaises(WrongType, Tree, ("r", "s"), (Join(0, 1, level),))
            self.assertRaises(WrongType, Tree, ("r", "s"), (Join(level, 1, 12),))
        for level in (12 + 2**64, 12 - 2**64, 3):
            self.refuses(query, Order(("s", "r"), (5, level)), "level 1")
            self.refuses(query, Tree(("r", "s"), (Join(0, 1, level),)), "join 0")
        for order in (
            Order(("s",), (5,)),
            Order(("s", "s"), (5, 5)),
            Order(("s", "t"), (5, 12)),
            Order(("s", "r"), (5,)),
            Order((), ()),
        ):
            self.refuses(query, order, "order")
        for joins in (
            (Join(0, 0, 12),),
            (Join(0, 2, 12),),
            (Join(-1, 0, 12),),
            (),
            (Join(0, 1, 12),) * 2,
        ):
            self.refuses(query, Tree(("r", "s"), joins), "join")
        self.refuses(query, Tree(("s", "r"), (Join(0, 1, 12),)))
        for wrong in (None, (("s", "r"), (5, 12)), "order"):
            self.assertRaises(WrongType, query.memory, wrong)

    def test_sets_are_collections_of_names(self) -> None:
        query = Query(["a", "b", "ab"], [], {"a": 2, "b": 3, "ab": 5}, {})
        bounds = query.bounds()
        texts: tuple[Any, ...] = ("ab", "a", "", b"ab", iter("ab"), 3, None)
        for text in texts:
            with self.assertRaises(WrongType):
                bounds[text]
            with self.assertRaises(WrongType):
                bounds.get(text)
        for collection, rows in [
            ({"a", "b"}, 6),
            (["ab"], 5),
            (("a", "ab", "a"), 10),
            (query.entries, 30),
            (frozenset(), 1),
            ({"ab": 0}.keys(), 5),
        ]:
            self.assertEqual(bounds[collection], rows)
        aliens: tuple[Any, ...] = ({"u"}, ["a", "u"], [1])
        for alien in aliens:
            self.assertRaises(KeyError, lambda: bounds[alien])
        self.assertNotIn({"u"}, bounds)

    def test_texts_in_place_of_names(self) -> None:
        changes: tuple[dict[str, Any], ...] = (
            dict(entries="rs"),
            dict(equalities=["r.x=s.x"]),
            dict(equalities=[("rx", "sx")]),
            dict(equalities=[(R, "sx")]),
            dict(equalities=[(("r",), S)]),
            dict(lists={"rx": [(1, 1)]}),
            dict(lists={R: "12", S: [(1, 1)]}),
            dict(lists=[(R, [(1, 1)])]),
            dict(lists={R: [3, 2], S: [(1, 1)]}),
            dict(lists={R: None, S: [(1, 1)]}),
            dict(lists={R: [(3, 2, 1)], S: [(1, 1)]}),
        )
        for changed in changes:
            self.assertRaises(WrongType, pair, **changed)


class Messages(unittest.TestCase):
    def test_which_of_several_things_is_wrong(self) -> None:
        for runs, words in [
            ([(5, 1), (4, 1), (3, 2), (6, 1)], "the list rises at run 3: degree 6 after 3"),
            ([(5, 1), (0, 1)], "run 1 has degree 0"),
            ([(5, 0)], "run 0 has no keys"),
            ([(2**47, 2), (1, 1)], "at run 1 the list sums to more than 2**48 rows"),
            ([(5, -1)], "the number of keys of run 0 is -1, which isn't from 1 to 2**48"),
            ([(2**64, 1)], "the degree of run 0 is 18446744073709551616, which isn't from 1 to 2**48"),
        ]:
            asks: list[tuple[Callable[[], object], str]] = [
                (lambda: safebound.compress(runs, 1), "runs: "),
                (lambda: safebound.append(runs, []), "runs: "),
                (lambda: safebound.append([], runs), "others: "),
                (lambda: pair(lists={**GIVEN["lists"], R: runs}).bounds(), "lists: r.x: "),
            ]
            for ask, head in asks:
                with self.assertRaises(errors.BadRun) as caught:
                    ask()
                self.assertEqual(str(caught.exception), head + words)

    def test_of_queries(self) -> None:
        cases: list[tuple[dict[str, Any], str]] = [
            (dict(row_bounds={"r": 6}), "row_bounds: entry 's' has none"),
            (
                dict(row_bounds={"r": 6, "s": 2**48 + 1}),
                "row_bounds: that of entry 's' is 281474976710657, which isn't from 0 to 2**48",
            ),
            (
                dict(row_bounds={"r": -1, "s": 5}),
                "row_bounds: that of entry 'r' is -1, which isn't from 0 to 2**48",
            ),
            (
                dict(equalities=[(R, S), (R, ("t", "y"))]),
                "equalities: equality 1, r.x = t.y, names 't', which is no entry",
            ),
            (
                dict(equalities=[(R, S), (R, ("r", "y"))]),
                "equalities: equality 1, r.x = r.y, has one entry on both sides",
            ),
            (dict(lists={R: [(3, 2)]}), "lists: s.x of equality 0, r.x = s.x, has none"),
            (dict(lists={**GIVEN["lists"], ("t", "y"): []}), "lists: there is one of t.y, and no entry 't'"),
            (dict(entries=["r", "s", "r"]), "entries: entry 'r' comes twice"),
        ]
        for changed, words in cases:
            with self.assertRaises(safebound.WrongValue) as caught:
                pair(**changed).bounds()
            self.assertEqual(str(caught.exception), words)


class Numbers(unittest.TestCase):
    def test_numpy_s_integers(self) -> None:
        numpy: Any = calls.module("numpy")
        if numpy is None:
            self.skipTest("numpy isn't here")
        query = pair(
            row_bounds={"r": numpy.int64(6), "s": numpy.uint8(5)},
            lists={R: numpy.array([[3, 2]]), S: [(numpy.int32(2), 2), (1, numpy.uint64(1))]},
        )
        self.assertEqual(query, pair())
        order = query.best_order(numpy.int64(12))
        self.assertEqual((order, query.memory(order)), (pair().best_order(12), 531))
        self.assertEqual(query.memory(Order(("s", "r"), (numpy.int64(5), numpy.uint64(12)))), 531)
        self.assertEqual(safebound.compress([(numpy.int64(5), 1)], numpy.int8(1)), [(5, 1)])
        for wrong in (numpy.float64(12), numpy.array([1, 2]), numpy.datetime64("2020-01-01")):
            self.assertRaises(WrongType, query.best_order, wrong)


class Typed(unittest.TestCase):
    """typed.py calls the package. mypy reports exactly its lines that end in `# wrong`."""

    def test_mypy(self) -> None:
        if shutil.which("mypy") is None:
            self.skipTest("mypy isn't here")
        there = os.path.join(calls.ROOT, "library", "tests", "typed.py")
        with open(there, encoding="utf-8") as f:
            wrong = [number for number, line in enumerate(f, 1) if line.rstrip().endswith("# wrong")]
        package = os.path.join(calls.ROOT, "python")
        words = ["--strict", "--no-error-summary", "--cache-dir", os.devnull, "--python-version", "3.9"]
        done = subprocess.run(
            ["mypy", *words, there],
            capture_output=True,
            text=True,
            env={**os.environ, "MYPYPATH": package},
            timeout=300,
        )
        found = sorted({int(line.split(":")[1]) for line in done.stdout.splitlines() if ": error:" in line})
        self.assertEqual(found, wrong, done.stdout + done.stderr)
        done = subprocess.run(
            ["mypy", *words, os.path.join(package, "safebound")], capture_output=True, text=True, timeout=300
        )
        self.assertEqual(done.stdout + done.stderr, "")


if __name__ == "__main__":
    unittest.main()
