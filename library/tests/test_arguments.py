"""Odd arguments in each place of each public call. Each is refused by a SafeBoundError that names the argument, and
none is read as something else.
"""

from __future__ import annotations

import array
import decimal
import fractions
import random
import unittest
from collections import Counter
from typing import Any, Callable, NamedTuple

import calls

import safebound
from safebound import Join, Order, Query, SafeBoundError, Tree, WrongType
from safebound.arguments import shown

numpy, pandas = calls.module("numpy"), calls.module("pandas")

R, S = ("r", "x"), ("s", "x")
RUNS: list[Any] = [(3, 2), (1, 4)]
PAIR: dict[str, Any] = dict(
    entries=["r", "s"], equalities=[(R, S)], row_bounds={"r": 6, "s": 5}, lists={R: [(3, 2)], S: [(2, 2), (1, 1)]}
)
QUERY = Query(**PAIR)


def query(**changed: Any) -> Query:
    return Query(**{**PAIR, **changed})


class Broken:
    """What can be neither shown, compared, hashed nor made a number."""

    def fail(self, *_: object) -> Any:
        raise ArithmeticError("broken")

    __repr__ = __eq__ = __hash__ = __index__ = __len__ = fail


class Part(NamedTuple):
    """An argument of a call: its name, with which messages begin, and the call with another value there."""

    name: str
    call: Callable[[Any], object]


def of_call(call: Callable[..., object], **right: Any) -> list[Part]:
    """Each argument of a call, given by a right value."""
    return [Part(name, lambda odd, name=name: call(**{**right, name: odd})) for name in right]  # type: ignore[misc]


def of_query(**right: Any) -> list[Part]:
    """Each argument of a query. All calls that bound it are made, since some faults are noticed there."""

    def asked(**given: Any) -> object:
        query = Query(**given)
        repr(query), str(query), hash(query), query == QUERY
        return query.bounds(), query.bound_of(query.entries), query.best_order(2**59), query.best_tree(2**59)

    return of_call(asked, **right)


def in_lists() -> list[Part]:
    """Places within arguments: a run, its numbers, a name, a column."""
    parts = []
    for call in (safebound.append, safebound.lesser, safebound.greater):
        parts += [
            Part("runs", lambda odd, call=call: call([odd], RUNS)),  # type: ignore[misc]
            Part("others", lambda odd, call=call: call(RUNS, [(odd, 1)])),  # type: ignore[misc]
        ]
    of_one: tuple[Callable[..., object], ...] = (safebound.compress, safebound.cut)
    for one in of_one:
        parts += [
            Part("runs", lambda odd, one=one: one([odd], 3)),  # type: ignore[misc]
            Part("runs", lambda odd, one=one: one([(1, odd)], 3)),  # type: ignore[misc]
        ]
    whole = of_query(**PAIR)
    entries, equalities, row_bounds, lists = (part.call for part in whole)
    return parts + [
        Part("entries", lambda odd: entries(["r", "s", odd])),
        Part("equalities", lambda odd: equalities([odd])),
        Part("equalities", lambda odd: equalities([(odd, S)])),
        Part("equalities", lambda odd: equalities([(R, (odd, "x"))])),
        Part("row_bounds", lambda odd: row_bounds({"r": 6, "s": odd})),
        Part("lists", lambda odd: lists({R: odd, S: [(1, 1)]})),
        Part("lists", lambda odd: lists({R: [odd], S: [(1, 1)]})),
        Part("lists", lambda odd: lists({R: [(odd, 1)], S: [(1, 1)]})),
    ]


def all_parts() -> list[Part]:
    order, tree = QUERY.best_order(12), QUERY.best_tree(12)
    calls_of_lists = [part for call in (safebound.append, safebound.lesser, safebound.greater)
                      for part in of_call(call, runs=RUNS, others=RUNS)]
    return [
        *of_query(**PAIR),
        *in_lists(),
        *calls_of_lists,
        *of_call(safebound.compress, runs=RUNS, accuracy=8),
        *of_call(safebound.cut, runs=RUNS, rows=3),
        *of_call(safebound.joined_rows, kind="left", inner=12, left=6, right=5),
        *of_call(safebound.Bounds, entries=["r"], numbers=[1, 6]),
        *of_call(QUERY.bounds, limit=7),
        *of_call(QUERY.bound_of, entries={"r"}),
        *of_call(QUERY.best_order, budget=12),
        *of_call(QUERY.best_tree, budget=12),
        *of_call(QUERY.memory, plan=order),
        *of_call(QUERY.explain, plan=tree),
        Part("entries", lambda odd: QUERY.bounds()[odd]),
        Part("entries", lambda odd: QUERY.bounds()[[odd]]),
        Part("entries", lambda odd: QUERY.bound_of([odd])),
        *of_call(lambda **given: QUERY.memory(Order(**given)), entries=("s", "r"), levels=(5, 12)),
        *of_call(lambda **given: QUERY.explain(Tree(**given)), entries=("r", "s"), joins=(Join(0, 1, 12),)),
        *of_call(lambda **given: [str(Order(**given)), Order(**given).cost], entries=("r",), levels=(6,)),
        *of_call(lambda **given: [Tree(**given).shape, Tree(**given).cost], entries=("r", "s"), joins=[(0, 1, 12)]),
        *of_call(tree.node, number=2),
        Part("values", safebound.degree_sequence),
    ]


def odd_values() -> list[Any]:
    """Values that some part of the package might trip over."""
    released = memoryview(b"ab")
    released.release()
    odd: list[Any] = [
        None, True, False, 0, 1, -1, 2, 3.0, 0.5, float("nan"), float("inf"), 2**48, 2**59, 2**63, 2**64, -(2**70),
        10**5000, 1j, fractions.Fraction(1, 2), decimal.Decimal(3), decimal.Decimal("sNaN"), decimal.Decimal("NaN"),
        "", "r", "rs", "12", "r6", "\ud800", "a\0b", b"", b"rs", b"\x03\x02", bytearray(b"rs"), bytearray(), [], (), {},
        set(), frozenset(), [None], [[]], [[[]]], [1], [(1,)], [(3, 2)], ((3, 2),), [(3, 2, 1)], [{3, 2}],
        [{3: 1, 2: 1}],
        {(3, 2)}, frozenset([(3, 2)]), {(3, 2): 1}, {3: 2}.items(), {"r": 6}.keys(), {"r": 6}.values(), Counter("rs"),
        {"r": None}, {"r": 6, "s": "5"}, {R: RUNS}, {R: None}, {R: ""}, {R: set()}, {R: {}}, {"r": RUNS}, {None: None},
        {"rx": RUNS}, [("r", "s")], [(R,)], [(R, R)], [(R, "sx")], [(R, ("s", []))], [(R, ([], "x"))], [(R, (1, "x"))],
        range(3), range(0), iter(()), iter([(3, 2)]), iter("rs"), (n for n in [1]), slice(1, 2), Ellipsis,
        NotImplemented,
        object, object(), len, lambda: 1, int, list, dict, type, array.array, memoryview(b"rs"), memoryview(b""),
        memoryview(array.array("q", [3, 2])), released, array.array("d", [1.5]), array.array("q"), Broken(), [Broken()],
        [(Broken(), 1)], {"r": Broken(), "s": 1}, [(R, ("s", Broken()))], ValueError("x"), QUERY, QUERY.bounds(), calls,
        Order((), ()), Order(("x", "y"), (5, 12)), Tree(("r", "s"), ()), Tree(("r", "s"), (Join(5, 9, 1),)),
    ]
    if numpy:
        odd += [
            numpy.array(5), numpy.array([]), numpy.array([3, 2]), numpy.array([[3.5, 2]]), numpy.array([[[3, 2]]]),
            numpy.bool_(True), numpy.float64(3), numpy.str_("rs"), numpy.datetime64("NaT"), numpy.array([True, False]),
            numpy.array(["r", "s"]), numpy.ndarray, numpy.array([None, [1]], dtype=object), numpy.array(True),
        ]
    if pandas:
        odd += [
            pandas.NA, pandas.NaT, pandas.Series([3, 2]), pandas.Series({"r": 6, "s": 5}), pandas.Series,
            pandas.DataFrame(),
            pandas.DataFrame({"degree": [3], "keys": [2]}), pandas.Series([[1]]), pandas.Index(["r"]),
        ]
    return odd


def mixed(pick: random.Random, some: list[Any]) -> Any:
    """A list, a tuple, a set or a mapping of odd values, within one another."""
    parts = [pick.choice(some) if pick.random() < 0.8 else mixed(pick, some) for _ in range(pick.randrange(4))]
    makers: list[Callable[[list[Any]], Any]] = [
        list, tuple, lambda parts: dict(zip(("r", "s", "t"), parts)), lambda parts: dict.fromkeys(["r", "s"], parts),
        lambda parts: {R: parts, S: parts}, lambda parts: [tuple(parts[:2])],
    ]
    return pick.choice(makers)(parts)


# Arguments that are wrong only beside one another: the names of entries in a query, the parts of a plan, two lists.
TOGETHER = (
    {"entries", "equalities", "row_bounds", "lists", "numbers"}, {"entries", "levels", "joins", "plan"},
    {"runs", "others", "runs and others"},
)


class Tried(unittest.TestCase):
    def refused(self, part: Part, odd: Any) -> bool:
        """Calls it. Whatever is raised has to be a SafeBoundError that names the argument."""
        try:
            part.call(odd)
            return False
        except (safebound.BudgetExceeded, safebound.WorkExceeded, safebound.PastBits, safebound.Refused):
            return True
        except SafeBoundError as error:
            names = {part.name}.union(*(names for names in TOGETHER if part.name in names))
            self.assertIn(str(error).partition(": ")[0], names, f"{part.name}: {type(error).__name__}: {error}")
            return True
        except BaseException as error:
            self.fail(f"{part.name}: {shown(odd)}: {type(error).__name__}: {error}")

    def each_in_each_place(self, parts: list[Part]) -> None:
        refused = 0
        for part in parts:
            # The values are made anew, since an iterator has another item at each call.
            refused += sum(self.refused(part, odd) for odd in odd_values())
        self.assertGreater(refused, 0.6 * len(parts) * len(odd_values()))
        pick = random.Random(1)
        for _ in range(40 * len(parts)):
            some = odd_values()
            self.refused(pick.choice(parts), pick.choice(some) if pick.random() < 0.2 else mixed(pick, some))


class OddArguments(Tried):
    def test_each_in_each_place(self) -> None:
        self.each_in_each_place(PARTS)

    def refuses(self, name: str, values: list[Any]) -> None:
        """Whatever argument has this name, these values are refused there."""
        places = [part for part in PARTS if part.name == name]
        self.assertTrue(places)
        for part in places:
            for value in values:
                with self.assertRaises(WrongType, msg=f"{name} {value!r}"):
                    part.call(value)

    def test_sets_and_mappings_are_no_runs(self) -> None:
        """In a set two equal runs are one, and two equal numbers of a run too. The bound would be too low."""
        odd: list[Any] = [
            {(3, 1)}, frozenset([(3, 1)]), {(3, 1): 0}, {3: 1}, {3: 1}.items(), {3: 1}.keys(), set(), {}, "", b"",
            bytearray(), memoryview(b""),
        ]
        self.refuses("runs", odd)
        self.refuses("others", odd)
        for value in odd:
            self.assertRaises(WrongType, lambda: query(lists={R: value, S: [(1, 1)]}))
        for run in ({3, 2}, {3: 0, 2: 0}, b"\x03\x02", bytearray(b"\x03\x02"), "32", frozenset([3])):
            self.refuses("runs", [[run]])
            self.refuses("others", [[run]])
            self.assertRaises(WrongType, lambda: query(lists={R: [run], S: [(1, 1)]}))

    def test_true_and_false_are_no_numbers(self) -> None:
        of_numpy = [numpy.bool_(True), numpy.array(True)] if numpy else []
        for name in ("accuracy", "budget", "inner", "left", "levels", "limit", "number", "right"):
            self.refuses(name, [True, False, *of_numpy])
        self.assertRaises(WrongType, lambda: safebound.cut(RUNS, True))
        for run in ((True, 1), (1, True)):
            self.refuses("runs", [[run]])
            self.refuses("others", [[run]])
        self.assertRaises(WrongType, lambda: query(row_bounds={"r": True, "s": 5}))
        self.assertRaises(WrongType, lambda: query(lists={R: [(True, True)], S: [(1, 1)]}))
        for plan in (lambda: Order(("r",), (True,)), lambda: Tree(("r", "s"), (Join(False, True, 12),))):
            self.assertRaises(WrongType, plan)
        # As values of a column they are what Python takes them for.
        self.assertEqual(safebound.degree_sequence([True, 1, False]), [(2, 1), (1, 1)])

    def test_names_that_no_entry_has(self) -> None:
        for ask in (QUERY.bound_of, QUERY.bounds().__getitem__):
            with self.assertRaises(safebound.UnknownEntry) as caught:
                ask({"u"})
            self.assertIsInstance(caught.exception, KeyError)
            self.assertEqual((str(caught.exception), caught.exception.place), ("entries: there is no entry 'u'", "u"))


PARTS = all_parts()
if __name__ == "__main__":
    unittest.main()
