"""Tests each wrong value, each room that is too small, and each refused request for memory.

calls.c checks that only the detail is written, that nothing is read past a length, and that no memory is kept.
"""

from __future__ import annotations

import subprocess
import sys
import unittest
from typing import Any, Optional, Tuple, TypeVar

from calls import MOST_BUDGET, MOST_ROWS, NO_VALUES, Answer, Call, Status, answer, answers, by_c

_E = TypeVar("_E")
Pair = Tuple[int, int]
# Four numbers. An equality is an entry and a column, then the other entry and column. A list is an entry, a column, its
# first run and its number of runs.
Equality = Tuple[int, int, int, int]

WRONG_LISTS = [
    ([(0, 1)], 0),
    ([(1, 0)], 0),
    ([(5, 1), (4, 1), (0, 3)], 2),
    ([(5, 1), (4, 0), (3, 1)], 1),
    ([(5, 1), (6, 1)], 1),
    ([(5, 1), (3, 1), (4, 1), (5, 1)], 2),
    ([(MOST_ROWS + 1, 1)], 0),
    ([(1, MOST_ROWS + 1)], 0),
    ([(MOST_ROWS, 1), (1, 1)], 1),
    ([(2**47, 1), (2**46, 2), (1, 1)], 2),
    ([(2**32, 2**32)], 0),
    ([(2**63, 2)], 0),
    ([(2**64 - 1, 2**64 - 1)], 0),
    ([(2, 1), (1, 2**64 - 1)], 1),
    ([(2, 1), (1, 2**64 - 2)], 1),
]
RIGHT = [(5, 1), (4, 1), (3, 1), (1, 1)]

# Three entries in a chain. In `runs` the list of column 7 of entry 1 lies between the other two lists.
ROWS = [6, 5, 4]
EQUALITIES = [(0, 0, 1, 7), (1, 8, 2, 0)]
LISTS = [(0, 0, 0, 1), (1, 7, 1, 2), (1, 8, 3, 1), (2, 0, 4, 2)]
RUNS = [(3, 2), (2, 2), (1, 1), (1, 5), (2, 1), (1, 2)]
BOUNDS = [0, 2, 2, 9, 2, 5, 5, 6]


def replaced(array: list[_E], place: int, element: _E) -> list[_E]:
    return array[:place] + [element] + array[place + 1 :]


def bounds_of(
    rows: list[int] = ROWS,
    equalities: list[Equality] = EQUALITIES,
    lists: list[Equality] = LISTS,
    runs: list[Pair] = RUNS,
    room: int = 8,
) -> Call:
    return Call("bounds", [rows, equalities, lists, runs], room)


class WrongValues(unittest.TestCase):
    def check(self, made: list[tuple[Call, int, Optional[int]]]) -> None:
        """`made` has triples of a call, its expected status and its expected detail. Nothing else may be returned."""
        for (call, status, detail), got in zip(made, answers([call for call, _, _ in made])):
            self.assertEqual(got, Answer(status, detail, []), call)

    def test_accuracy(self) -> None:
        self.check(
            [
                (Call("compress", [RIGHT], 8, k), Status.BAD_ACCURACY, k)
                for k in (0, 65, 256, 257, 2**32 + 1, 2**64 - 1)
            ]
        )

    def test_runs_of_lists(self) -> None:
        self.check([(Call("compress", [runs], 8, 1), Status.BAD_RUN, place) for runs, place in WRONG_LISTS])
        self.check([(Call("cut", [runs], 8, 3), Status.BAD_RUN, place) for runs, place in WRONG_LISTS])
        for name in ("append", "lesser", "greater"):
            self.check([(Call(name, [runs, RIGHT], 8), Status.BAD_RUN, place) for runs, place in WRONG_LISTS])
            self.check([(Call(name, [RIGHT, runs], 8), Status.BAD_OTHER_RUN, place) for runs, place in WRONG_LISTS])
            self.check([(Call(name, [runs, runs], 8), Status.BAD_RUN, place) for runs, place in WRONG_LISTS])

    def test_sum_of_two_lists(self) -> None:
        self.check([
            (Call("append", [[(MOST_ROWS, 1)], [(1, 1)]], 2), Status.BAD_SUM, MOST_ROWS + 1),
            (Call("append", [[(1, MOST_ROWS)], [(MOST_ROWS, 1)]], 2), Status.BAD_SUM, 2 * MOST_ROWS),
            (Call("greater", [[(MOST_ROWS, 1)], [(1, 2)]], 2), Status.BAD_SUM, MOST_ROWS + 1),
            (Call("greater", [[(1, MOST_ROWS)], [(MOST_ROWS, 1)]], 2), Status.BAD_SUM, 2 * MOST_ROWS - 1),
        ])

    def test_number_of_entries(self) -> None:
        self.check(
            [
                (bounds_of(rows=[1] * n, equalities=[], lists=[], runs=[]), Status.BAD_ENTRIES, n)
                for n in (0, 17, 64, 256)
            ]
        )

    def test_rows(self) -> None:
        for number in (MOST_ROWS + 1, 2**63, 2**64 - 1):
            self.check([(bounds_of(rows=replaced(ROWS, place, number)), Status.BAD_ROWS, place) for place in range(3)])

    def test_number_of_equalities(self) -> None:
        self.check([(bounds_of(equalities=EQUALITIES[:1] * n), Status.BAD_EQUALITIES, n) for n in (257, 1000)])
        self.assertEqual(answer(bounds_of(equalities=EQUALITIES[:1] * 256)).status, Status.OK)

    def test_equalities(self) -> None:
        for wrong in [
            (3, 0, 1, 7),
            (0, 0, 3, 7),
            (12, 0, 1, 7),
            (256, 0, 1, 7),
            (0, 0, 257, 7),
            (2**32 - 1, 0, 1, 7),
            (0, 0, 0, 0),
            (1, 7, 1, 8),
        ]:
            self.check(
                [
                    (bounds_of(equalities=replaced(EQUALITIES, place, wrong)), Status.BAD_EQUALITY, place)
                    for place in (0, 1)
                ]
            )

    def test_lists(self) -> None:
        for wrong in [
            (3, 9, 0, 1),
            (256, 0, 0, 1),
            (2**32 - 1, 0, 0, 1),
            (0, 0, 0, 7),
            (0, 0, 6, 1),
            (0, 0, 7, 0),
            (0, 0, 0, 0),
            (0, 0, 6, 0),
            (0, 0, 2**64 - 1, 1),
            (0, 0, 1, 2**64 - 1),
            (0, 0, 2**63, 2**63),
            (0, 0, NO_VALUES - 1, 0),
            (0, 0, NO_VALUES, 1),
            (3, 0, NO_VALUES, 0),
        ]:
            self.check([(bounds_of(lists=replaced(LISTS, place, wrong)), Status.BAD_LIST, place) for place in range(4)])
        self.check([(bounds_of(lists=LISTS + [again]), Status.BAD_LIST, 4) for again in LISTS])
        self.check([(bounds_of(lists=LISTS + [(0, 0, NO_VALUES, 0)]), Status.BAD_LIST, 4)])

    def test_sets(self) -> None:
        query = bounds_of().arrays
        self.check(
            [
                (Call("set_bound", query, 0, set), Status.BAD_SET, set)
                for set in (8, 9, 2**16, 2**32, 2**63, 2**64 - 1)
            ]
        )

    def test_kind_of_join(self) -> None:
        for kind in (0, 6, 2**32 + 1, 2**64 - 1):
            self.check([(Call("joined_rows", [[12, 6, 5]], 0, kind), Status.BAD_JOIN_KIND, kind)])

    def test_work(self) -> None:
        query = bounds_of().arrays
        (refused,) = answers([Call("bounds_within", query, 8, 0)])
        self.assertEqual((refused.status, refused.elements), (Status.WORK, []))
        assert refused.detail is not None
        self.check(
            [(Call("bounds_within", query, 8, limit), Status.WORK, refused.detail) for limit in (1, refused.detail - 1)]
        )

    def test_runs(self) -> None:
        self.check([(bounds_of(runs=replaced(RUNS, place, (0, 1))), Status.BAD_RUN, place) for place in range(6)])
        self.check([(bounds_of(runs=replaced(RUNS, place, (1, 0))), Status.BAD_RUN, place) for place in range(6)])
        self.check([(bounds_of(runs=replaced(RUNS, place, (3, 1))), Status.BAD_RUN, place) for place in (2, 5)])
        self.check(
            [(bounds_of(runs=replaced(RUNS, place, (1, 2**64 - 1))), Status.BAD_RUN, place) for place in range(6)]
        )
        # A list of a column that no equality names is checked too. `detail` names a run of the first wrong list, even
        # if a lower run is wrong.
        self.check([(bounds_of(lists=LISTS + [(2, 9, 6, 1)], runs=RUNS + [(0, 0)]), Status.BAD_RUN, 6)])
        self.check(
            [(bounds_of(lists=LISTS[::-1], runs=replaced(replaced(RUNS, 0, (0, 0)), 5, (0, 0))), Status.BAD_RUN, 5)]
        )

    def test_missing_lists(self) -> None:
        for place, equality in [(0, 0), (1, 0), (2, 1), (3, 1)]:
            self.check([(bounds_of(lists=LISTS[:place] + LISTS[place + 1 :]), Status.MISSING_LIST, equality)])
        self.check([(bounds_of(lists=[], runs=[]), Status.MISSING_LIST, 0)])
        self.check([(bounds_of(equalities=[(0, 7, 1, 7), (1, 8, 2, 0)]), Status.MISSING_LIST, 0)])

    def test_number_of_bounds(self) -> None:
        for name in ("order", "tree"):
            counts = (0, 1, 3, 7, 2**16 - 1, 2**17)
            self.check([(Call(name, [[1] * n], 16, 1), Status.BAD_BOUNDS, n) for n in counts])

    def test_budget(self) -> None:
        for name in ("order", "tree"):
            self.check(
                [(Call(name, [BOUNDS], 3, n), Status.BAD_BUDGET, n) for n in (MOST_BUDGET + 1, 2**63, 2**64 - 1)]
            )

    def test_a_level_in_the_middle(self) -> None:
        """The budget applies to the largest level, wherever it is. In every plan two of these three entries have 9
        rows, and all three have 6.
        """
        bounds = [1, 2, 2, 9, 2, 9, 9, 6]
        self.check(
            [(Call(name, [bounds], 3, budget), Status.BUDGET, 9) for name in ("order", "tree") for budget in (6, 8)]
        )

    def test_what_comes_first(self) -> None:
        """If several statuses apply, the call returns the first one in the header's list."""
        wrong: dict[str, Any] = dict(
            rows=[MOST_ROWS + 1] * 17, equalities=[(0, 0, 0, 0)] * 257, lists=[(0, 0, 9, 9)], runs=[(0, 0)], room=0
        )
        for name, right, status, detail in [
            ("rows", [6, MOST_ROWS + 1, 4], Status.BAD_ENTRIES, 17),
            ("rows", ROWS, Status.BAD_ROWS, 1),
            ("equalities", [(0, 0, 0, 0)], Status.BAD_EQUALITIES, 257),
            ("equalities", EQUALITIES, Status.BAD_EQUALITY, 0),
            ("lists", [(0, 0, 0, 1)], Status.BAD_LIST, 0),
            ("runs", RUNS, Status.BAD_RUN, 0),
            ("lists", LISTS, Status.MISSING_LIST, 0),
            ("room", 8, Status.ROOM, 8),
        ]:
            self.check([(bounds_of(**wrong), status, detail)])
            self.check([(bounds_of(**wrong)._replace(name="bounds_within", number=0), status, detail)])
            if status != Status.ROOM:
                self.check([(bounds_of(**wrong)._replace(name="set_bound", room=0, number=2**64 - 1), status, detail)])
            wrong[name] = right
        self.assertEqual(answer(bounds_of(**wrong)).status, Status.OK)
        self.check([
            (Call("compress", [[(0, 0)]], 0, 0), Status.BAD_ACCURACY, 0),
            (Call("compress", [[(0, 0)]], 0, 1), Status.BAD_RUN, 0),
            (Call("append", [[(MOST_ROWS, 1)], [(1, 1)]], 0), Status.BAD_SUM, MOST_ROWS + 1),
            (Call("greater", [[(MOST_ROWS, 1)], [(1, 2)]], 0), Status.BAD_SUM, MOST_ROWS + 1),
            (Call("order", [[1] * 3], 0, MOST_BUDGET + 1), Status.BAD_BOUNDS, 3),
            (Call("order", [BOUNDS], 0, MOST_BUDGET + 1), Status.BAD_BUDGET, MOST_BUDGET + 1),
            (Call("order", [BOUNDS], 2, 0), Status.ROOM, 3),
            (Call("tree", [[1] * 3], 0, MOST_BUDGET + 1), Status.BAD_BOUNDS, 3),
            (Call("tree", [BOUNDS], 0, MOST_BUDGET + 1), Status.BAD_BUDGET, MOST_BUDGET + 1),
            (Call("tree", [BOUNDS], 1, 0), Status.ROOM, 2),
        ])


# A call of each kind, with the room that it needs.
CALLS = [
    Call("degrees", [[8, 8, 8, 8, 8, 2, 2, 2, 5]], 3),
    Call("degrees", [[at * 2**40 for at in range(200) for _ in range(at % 20)]], 19),
    Call("compress", [RIGHT], 2, 1),
    Call("compress", [[(60 - at, 1) for at in range(60)]], 60, 64),
    Call("append", [[(3, 1), (1, 2)], [(2, 2)]], 3),
    Call("append", [[(60 - at, 1) for at in range(60)], [(60 - at, 2) for at in range(30)]], 60),
    Call("lesser", [[(3, 2)], [(4, 1), (1, 2)]], 3),
    Call("lesser", [[(60 - at, 1) for at in range(60)], [(60 - at, 2) for at in range(30)]], 60),
    Call("greater", [[(3, 1), (1, 1)], [(2, 2), (1, 1)]], 3),
    Call("greater", [[(60 - at, 1) for at in range(60)], [(60 - at, 2) for at in range(30)]], 30),
    Call("cut", [[(5, 1), (4, 1)]], 2, 7),
    Call("cut", [[(60 - at, 1) for at in range(60)]], 50, 1774),
    bounds_of(),
    bounds_of(equalities=EQUALITIES + [(2, 0, 0, 0)]),
    bounds_of(rows=[0, 9, 1]),
    bounds_of(lists=replaced(LISTS, 0, (0, 0, NO_VALUES, 0))),
    bounds_of()._replace(name="bounds_within", number=10**6),
    Call("order", [BOUNDS], 3, 6),
    Call("tree", [BOUNDS], 2, 9),
    Call("version", [], 6),
]


WITHOUT_MEMORY = """
import resource
from array import array
from safebound import OutOfMemory, degree_sequence, version

keys = array("Q", range(0, 2**64 - 2**42, 2**41))
version()
with open("/proc/self/statm", encoding="ascii") as f:
    size = int(f.read().split()[0]) * resource.getpagesize()
resource.setrlimit(resource.RLIMIT_AS, (size + 2**20, -1))
try:
    degree_sequence(keys)
except OutOfMemory:
    print("out of memory")
"""


class Rooms(unittest.TestCase):
    def test_each_room_that_is_too_small(self) -> None:
        for call in CALLS:
            made = [call._replace(room=room) for room in range(call.room)]
            for small, got in zip(made, answers(made)):
                self.assertEqual(got, Answer(Status.ROOM, call.room, []), small)

    def test_just_enough_and_more(self) -> None:
        for call in CALLS:
            enough, more = answers([call, call._replace(room=call.room + 3)])
            self.assertEqual((enough.status, enough.detail), (Status.OK, call.room), call)
            self.assertEqual(enough, more, call)


class Memory(unittest.TestCase):
    def test_each_request_refused(self) -> None:
        """Whichever request is refused, the call reports too little memory, or it does without that memory and gives
        the whole result. The same call made again gives its result.
        """
        wanting = Answer(Status.NO_MEMORY, None, [])
        told = 0
        for call in CALLS + [bounds_of()._replace(name="set_bound", room=0, number=7)]:
            ((whole, requests),) = by_c([call.line()])
            lines = [f"refuse {n} {call.line()}" for n in range(1, requests + 1)]
            *refused, (again, _) = by_c(lines + [call.line()])
            self.assertEqual(again, whole, call)
            for got, _ in refused:
                self.assertIn(got, (wanting, whole), call)
            told += sum(got == wanting for got, _ in refused)
        self.assertGreater(told, 10)

    def test_python(self) -> None:
        """Runs Python in a process of its own, with too little memory for a column."""
        if not sys.platform.startswith("linux"):
            self.skipTest("limits of memory are those of Linux")
        done = subprocess.run([sys.executable, "-c", WITHOUT_MEMORY], capture_output=True, text=True, timeout=120)
        self.assertEqual(done.stdout, "out of memory\n", done.stderr)


if __name__ == "__main__":
    unittest.main()
