"""Compares the lists of columns of all kinds with counts of their values: Python, numpy, pandas and Arrow's protocol.

numpy and pandas are tested if they are installed; library/test runs this file once more with a Python that has them.
"""

from __future__ import annotations

import ctypes
import datetime
import decimal
import random
import unittest
from array import array
from collections import Counter, OrderedDict, deque
from typing import Any, Hashable, Iterable, Iterator

from calls import module

import safebound
from safebound import WrongType, degree_sequence

numpy, pandas = module("numpy"), module("pandas")

NAN = float("nan")


def counted(values: Iterable[Hashable]) -> list[tuple[int, int]]:
    """The runs, from a count of the values that aren't missing."""
    degrees = Counter(Counter(values).values())
    return sorted(degrees.items(), reverse=True)


class Columns(unittest.TestCase):
    def gives(self, column: Any, values: Iterable[Hashable]) -> None:
        self.assertEqual(degree_sequence(column), counted(values), column)

    def refuses(self, column: Any, *words: str) -> None:
        with self.assertRaises(WrongType) as caught:
            degree_sequence(column)
        self.assertIsInstance(caught.exception, TypeError)
        self.assertIsInstance(caught.exception, safebound.SafeBoundError)
        for word in words:
            self.assertIn(word, str(caught.exception))


class Python(Columns):
    def test_any_iterable_of_hashables(self) -> None:
        values = [
            3,
            1,
            3,
            "a",
            (1, 2),
            (1, 2),
            datetime.date(2020, 1, 1),
            1.5,
            frozenset([1]),
            b"a",
            decimal.Decimal("1.50"),
            True,
        ]
        for column in (
            values,
            tuple(values),
            iter(values),
            (v for v in values),
            deque(values),
            dict(enumerate(values)).values(),
            map(lambda v: v, values),
        ):
            self.gives(column, values)
        self.gives([], [])

    def test_rows_without_a_value(self) -> None:
        self.gives([None, 1, None, 1, 2], [1, 1, 2])
        self.gives([1.5, NAN, float("nan"), NAN, 1.5], [1.5, 1.5])
        self.gives([decimal.Decimal("nan"), decimal.Decimal(1), complex("nan")], [1])
        self.gives([None, NAN], [])

    def test_what_is_no_column(self) -> None:
        """A set, and a mapping's keys, have each value once. For four rows of one value the list would be (1, 1)."""
        for mapping in ({"x": [1, 1, 1, 1]}, OrderedDict(x=1), Counter([1, 1, 1, 1])):
            self.refuses(mapping, type(mapping).__name__, "mapping")
        for once in ({1}, frozenset([1]), {"a": 1}.keys(), {"a": 1}.items()):
            self.refuses(once, type(once).__name__, "each value once")
        for text in ("abca", "", b"abca", bytearray(b"abca"), memoryview(b"abca")):
            self.refuses(text, type(text).__name__, "text")
        for other in (None, 7, 1.5, object()):
            self.refuses(other, type(other).__name__)

    def test_more_than_one_dimension(self) -> None:
        self.refuses([[1, 2], [1, 2]], "value 0", "list")
        self.refuses(([1], [1]), "value 0")
        self.refuses([1, {"x": 1}], "value 1", "dict")
        self.refuses([1, 2, {3}], "value 2", "set")
        self.refuses([(1, [2])], "value 0", "tuple")
        self.refuses(memoryview(array("q", range(6))).cast("B").cast("q", [2, 3]), "2 dimensions")
        self.refuses(((ctypes.c_int64 * 2) * 3)(), "2 dimensions")

    def test_errors_of_the_iterable_stay_its_own(self) -> None:
        def broken() -> Iterator[int]:
            yield 1
            raise ValueError("the file has ended")

        with self.assertRaisesRegex(ValueError, "the file has ended") as caught:
            degree_sequence(broken())
        self.assertNotIsInstance(caught.exception, safebound.SafeBoundError)

    def test_numbers_where_they_lie(self) -> None:
        numbers = [random.Random(1).choice([-1, 0, 7, 2**62]) for _ in range(100)]
        held = array("q", numbers)
        for column in (held, memoryview(held), memoryview(held.tobytes()).cast("q"), memoryview(held)[::1]):
            self.gives(column, numbers)
        self.gives(memoryview(held)[::2], numbers[::2])
        self.gives((ctypes.c_uint64 * 3)(5, 5, 6), [5, 5, 6])
        for kind in "bBhHiIlLqQfd":
            self.gives(array(kind, [3, 1, 3]), [3, 1, 3])
        self.gives(array("d", [0.0, -0.0, 1.0, NAN]), [0.0, 0.0, 1.0])


class ArrowLike:
    """A column as in Arrow: it has `to_pylist`, and an iterator over scalars. For a null, the scalar isn't None.
    """

    shape: tuple[int, ...]

    def __init__(self, values: list[Any]) -> None:
        self.values = values

    def __iter__(self) -> Iterator[tuple[str, Any]]:
        return (("scalar", value) for value in self.values)

    def to_pylist(self) -> list[Any]:
        return list(self.values)


class Arrow(Columns):
    def test_its_protocol(self) -> None:
        self.gives(ArrowLike([1, None, 1, "a"]), [1, 1, "a"])
        self.gives(ArrowLike([1.5, NAN, None]), [1.5])

    def test_tables(self) -> None:
        table = ArrowLike([{"x": 1}, {"x": 1}])
        self.refuses(table, "value 0", "dict")
        table.shape = (2, 1)
        self.refuses(table, "2 dimensions")

    def test_pyarrow(self) -> None:
        pyarrow = module("pyarrow")
        if pyarrow is None:
            self.skipTest("pyarrow isn't here")
        columns: tuple[list[Any], ...] = (
            [1, None, 1],
            ["a", "b", None, "a"],
            [1.5, NAN, None, 1.5],
            [datetime.datetime(2020, 1, 1), None],
        )
        for values in columns:
            known = [v for v in values if v is not None and v == v]
            for column in (
                pyarrow.array(values),
                pyarrow.chunked_array([values, values[:1]]),
                pyarrow.array(values).dictionary_encode(),
            ):
                self.gives(column, known + (values[:1] if isinstance(column, pyarrow.ChunkedArray) else []))
        self.refuses(pyarrow.table({"x": [1, 1]}))


@unittest.skipIf(numpy is None, "numpy isn't here")
class Numpy(Columns):
    def test_numbers(self) -> None:
        pick = random.Random(2)
        for kind in "bBhHiIlLqQ?fdg":
            values = [pick.choice([0, 1, 1, 5, 100]) for _ in range(50)]
            column = numpy.array(values, dtype=kind)
            for given in (
                column,
                column[::2],
                column[::-1],
                column.astype(column.dtype.newbyteorder(">")),
                numpy.asfortranarray(column),
            ):
                self.gives(given, given.tolist())
        self.gives(numpy.array([2**63, 2**64 - 1, 2**63], dtype="u8"), [2**63, 2**64 - 1, 2**63])
        self.gives(numpy.array([], dtype="f8"), [])
        self.gives(numpy.array([0.0, -0.0, NAN, 1.5, numpy.inf]), [0.0, 0.0, 1.5, 2.5])
        self.gives(numpy.array([0.0, NAN, 1.5], dtype="f2"), [0.0, 1.5])
        self.gives(numpy.array([1 + 2j, 1 + 2j, complex(NAN, 0)]), [1, 1])
        read_only = numpy.arange(5)
        read_only.flags.writeable = False
        self.gives(read_only, range(5))

    def test_other_types(self) -> None:
        self.gives(numpy.array(["a", "b", "a"]), "aba")
        self.gives(numpy.array([b"a", b"b", b"a"]), "aba")
        self.gives(numpy.array(["a", None, "a", NAN], dtype=object), "aa")
        self.gives(numpy.array([(1, 2.0), (1, 2.0), (3, 4.0)], dtype=[("a", "i4"), ("b", "f8")]), "aab")
        self.gives([numpy.int64(3), numpy.int32(3), 3, numpy.float64("nan"), numpy.datetime64("NaT")], [3, 3, 3])

    def test_times(self) -> None:
        for unit in ("Y", "D", "s", "ms", "us", "ns"):
            times = numpy.array(["2020-01-01", "NaT", "2020-01-01", "2021-01-01"], dtype=f"M8[{unit}]")
            for column in (times, times[::-1], times.astype(times.dtype.newbyteorder(">"))):
                self.gives(column, "aab")
        self.gives(numpy.array([1, 1, "NaT", 3], dtype="m8[s]"), "aab")

    def test_masked_items(self) -> None:
        mask = [0, 1, 0, 0, 1]
        self.gives(numpy.ma.array([7, 7, 7, 8, 9], mask=mask), [7, 7, 8])
        self.gives(numpy.ma.array([7, 7, 7, 8, 9]), [7, 7, 7, 8, 9])
        self.gives(numpy.ma.array([7, 7, NAN, 8, 9], mask=mask), [7, 8])
        self.gives(numpy.ma.array(list("aaabc"), mask=mask), "aab")
        self.gives(numpy.ma.array(list("aaabc"), mask=mask, dtype=object), "aab")
        self.gives(
            numpy.ma.array(["2020-01-01", "2020-01-01", "NaT", "2021-01-01", "2020-01-01"], mask=mask, dtype="M8[D]"),
            "ab",
        )
        self.gives([1, numpy.ma.masked, 1], [1, 1])

    def test_more_than_one_dimension(self) -> None:
        for wrong in (
            numpy.ones((2, 2)),
            numpy.ones((4, 1)),
            numpy.ones((1, 1, 1)),
            numpy.ma.ones((2, 2)),
            numpy.ones((2, 2), dtype=object),
            numpy.array([["a"]]),
        ):
            self.refuses(wrong, type(wrong).__name__, f"{wrong.ndim} dimensions")
        self.refuses(numpy.array(5), "0 dimensions")
        self.refuses(numpy.int64(5))
        self.refuses(list(numpy.ones((2, 2))), "value 0", "ndarray")
        self.refuses(numpy.str_("abca"), "text")


@unittest.skipIf(pandas is None, "pandas isn't here")
class Pandas(Columns):
    def of(self, column: Any, values: Iterable[Hashable]) -> None:
        """Checks the column itself, its array, and the column as an index."""
        for given in (column, column.array, pandas.Index(column), column[::-1], column.iloc[[]]):
            self.gives(given, [] if len(given) == 0 else values)

    def test_columns(self) -> None:
        self.of(pandas.Series([3, 1, 3]), [3, 1, 3])
        self.of(pandas.Series([3, 1, 3], dtype="uint8"), [3, 1, 3])
        self.of(pandas.Series([1.5, NAN, 1.5, 0.0, -0.0]), [1.5, 1.5, 0, 0])
        self.of(pandas.Series(["a", None, "a", NAN, "b", pandas.NA, pandas.NaT]), "aab")
        self.of(pandas.Series([1, pandas.NA, 1, 2], dtype="Int64"), [1, 1, 2])
        self.of(pandas.Series([True, pandas.NA, True], dtype="boolean"), [1, 1])
        self.of(pandas.Series(["a", pandas.NA, "a"], dtype="string"), "aa")
        self.gives(pandas.Series([(1, 2), (1, 2), (2, 1)]), "aab")
        self.gives(pandas.RangeIndex(5), range(5))
        self.gives(pandas.MultiIndex.from_tuples([(1, 2), (1, 2), (2, 1)]), "aab")

    def test_times_and_categoricals(self) -> None:
        times = pandas.Series(pandas.to_datetime(["2020-01-01", None, "2020-01-01", "2021-01-01"]))
        self.of(times, "aab")
        self.of(times.dt.tz_localize("Europe/Oslo"), "aab")
        self.of(times - times[0], "aab")
        self.of(times.dt.to_period("M"), "aab")
        self.of(pandas.Series(pandas.Categorical(["x", None, "x", "y"], categories=["y", "x", "z"])), "aab")

    def test_what_is_no_column(self) -> None:
        frame = pandas.DataFrame({"x": [1, 1, 1, 1]})
        self.refuses(frame, "DataFrame", "2 dimensions")
        self.refuses(pandas.DataFrame([[1, 2]], columns=["x", "x"])["x"], "DataFrame")
        self.refuses(frame[["x"]], "DataFrame")
        self.gives(frame["x"], [1, 1, 1, 1])
        self.refuses(pandas.Series([[1], [1]]), "Series", "unhashable")

    def test_values_in_a_list(self) -> None:
        self.gives([1, pandas.NA, 1, pandas.NaT, pandas.Timestamp("2020-01-01"), None], [1, 1, 2])


class Joins(unittest.TestCase):
    def test_a_frame_s_column_bounds_its_join(self) -> None:
        """Four rows of one value on both sides join to 16 rows. By the names of a frame's columns it would be four."""
        column = [1, 1, 1, 1]
        kinds = (
            [column]
            + ([numpy.array(column)] if numpy else [])
            + ([pandas.DataFrame({"x": column})["x"]] if pandas else [])
        )
        for kind in kinds:
            list_of = degree_sequence(kind)
            query = safebound.Query(
                ["r", "s"], [(("r", "x"), ("s", "x"))], {"r": 4, "s": 4}, {("r", "x"): list_of, ("s", "x"): list_of}
            )
            self.assertEqual(query.bounds()[{"r", "s"}], 16)


if __name__ == "__main__":
    unittest.main()
