"""Notes that come before the rows, on conditions that compare texts: some are compared by order and look like days,
times or numbers, and some conditions are true of an empty field.
"""
from __future__ import annotations

import os
import re
from collections.abc import Iterable, Iterator
from dataclasses import dataclass
from itertools import islice
from typing import TYPE_CHECKING

from safebound.decimals import first_decimal, scale_of
from safebound.sql_texts import name_of, text_of, written_name

from .decimals import line_to_paste
from .explain import UNEXPLAINED, Run, read
from .explain.tables import quoted_value
from .near import series
from .query import Compound, Literal, Reference, resolved_column
from .records import column_place, records
from .spot import plain

if TYPE_CHECKING:
    from .query import Query, Test
    from .schema import Schema
    from .sheets import Sheet

ORDERS = ("<", ">", "<=", ">=", "BETWEEN", "NOT BETWEEN")
# Of a file that no proposal has read, the first bytes are looked at; of a column, its first different values.
MOST_BYTES, MOST_VALUES = 262_144, 20_000
UNIT = "(?:0?[1-9]|[12][0-9]|3[01])"
MONTH = "(?:jan|feb|mar|apr|may|jun|jul|aug|sep|oct|nov|dec)[a-z]*"
CLOCK = "[0-9]{1,2}:[0-9]{2}(?::[0-9]{2}(?:[.,][0-9]+)?)?(?: ?[ap]m)?"
DAYS = (
    rf"(?:[0-9]{{4}}([-/.]){UNIT}\1{UNIT}|{UNIT}([-/.]){UNIT}\2(?:[0-9]{{4}}|[0-9]{{2}})"
    rf"|{UNIT}[-. ]+{MONTH}[-., ]+[0-9]{{2,4}}|{MONTH}[. ]+{UNIT},? [0-9]{{4}})"
    rf"(?:[T, ]+{CLOCK}.*)?"
)
NUMBERS = "[-+]?[€$£]?(?:[0-9][0-9.,'\u00a0 ]*|[.,][0-9]+)[%€$£]?"
DIGITS = str.maketrans("012345678", "999999999")


@dataclass(frozen=True)
class Kind:
    """What texts look like, the form in which their order as texts is that of their values, and how to get it."""
    name: str
    pattern: re.Pattern[str]
    good: str
    advice: str = ""

    def has(self, text: str) -> bool:
        return self.pattern.fullmatch(text.strip()) is not None

    def is_ordered(self, texts: Iterable[str]) -> bool:
        """Whether these texts have the order of their values: digits and signs stand at the same places in all."""
        shapes = {text.translate(DIGITS) for text in texts}
        longest = max(shapes, key=len, default=self.good)
        same = len(shapes) < 2 or bool(self.good) and all(map(longest.startswith, shapes))
        return same and longest.startswith(self.good) and not longest.startswith("-")


KINDS = (
    Kind(
        "days", re.compile(DAYS, re.IGNORECASE | re.ASCII), "9999-99-99",
        "Write days as YYYY-MM-DD, in the file and in the query: their order as texts is that of the days.",
    ),
    Kind(
        "times", re.compile(CLOCK, re.IGNORECASE | re.ASCII), "99:99",
        "Write times as HH:MM, from 00:00 to 23:59, in the file and in the query: their order as texts is that of the"
        " times.",
    ),
    Kind("numbers", re.compile(NUMBERS, re.ASCII), ""),
)


@dataclass
class Fields:
    """The different fields of a column, each with the line of its first record, and how many records were looked at if
    these weren't all.
    """
    file: str
    column: str
    values: dict[str, int]
    sample: int = 0

    @property
    def seen(self) -> str:
        return f" Only the first {self.sample:,} records of {plain(self.file)} were looked at." if self.sample else ""


def notes(run: Run, sheets: list[Sheet]) -> list[str]:
    """The notes on a run, from the tables' files, or from those that a proposal has read."""
    if run.stats_file is not None:
        return []
    try:
        query, schema = run.query, run.schema
        if query.wrong_at is not None or schema.wrong_at is not None:
            return []
        found = Found(run, query, schema, sheets)
        return list(dict.fromkeys([*found.of_orders(), *found.of_empty_fields()]))
    except UNEXPLAINED:
        # The program says what is wrong.
        return []


class Found:
    """The comparisons of a query, and the fields of the columns that they compare."""

    def __init__(self, run: Run, query: Query, schema: Schema, sheets: list[Sheet]) -> None:
        self.run, self.query, self.schema, self.text = run, query, schema, read(run.query_file)
        self.sheets, self.known = {name_of(sheet.name): sheet for sheet in sheets}, dict[tuple[str, str], Fields]()

    def column_of(self, reference: Reference) -> tuple[str, str] | None:
        """The names of the table and the column that a reference means; None for a column of numbers."""
        _, table, column = resolved_column(self.query, reference, self.schema)
        return None if column.is_number else (table.name, column.name)

    def fields(self, table: str, column: str) -> Fields:
        if (table, column) not in self.known:
            self.known[table, column] = self.read_fields(table, column)
        return self.known[table, column]

    def read_fields(self, table: str, column: str) -> Fields:
        declared = self.schema.table(table)
        assert declared
        if table not in self.sheets:
            return first_fields(declared.file, column)
        known = next(one for one in self.sheets[table].columns if one.name == written_name(column))
        return Fields(declared.file, column, known.values)

    def written(self, part: Test | Compound | Reference) -> str:
        start = part.token.start if isinstance(part, Reference) else part.start
        return plain(" ".join(self.text[start:part.end].decode().split()))

    def of_orders(self) -> Iterator[str]:
        """A note for each column whose fields look like days, times or numbers and are compared by order."""
        by_column: dict[tuple[str, str], list[Test]] = {}
        for test in self.query.tests:
            for reference in references(test) if test.operator in ORDERS else ():
                named = self.column_of(reference)
                if named and test not in by_column.setdefault(named, []):
                    by_column[named].append(test)
        for (table, column), tests in by_column.items():
            yield from self.of_order(self.fields(table, column), tests)

    def of_order(self, fields: Fields, tests: list[Test]) -> Iterator[str]:
        values = [value for value in islice(fields.values, MOST_VALUES) if value]
        literals = [text for test in tests for text in texts(test) if text]
        kind = next((kind for kind in KINDS if looks_like(kind, values, literals)), None)
        if kind is None:
            return
        fitting = [value for value in values if kind.has(value)]
        beside = [text for text in literals if kind.has(text) and not begins_codes(kind, text, fitting)]
        others = [value for test in tests for value in self.other_fields(test, fields) if kind.has(value)]
        if kind.is_ordered([*fitting, *beside, *others]):
            return
        is_ordered = kind.is_ordered(fitting)
        example = next((value for value in fitting if not value.translate(DIGITS).startswith(kind.good or "-")), "")
        example = example if example and not is_ordered else fitting[0]
        how = "Write it in the query in the form that the fields have." if is_ordered and beside else ""
        conditions = series((self.written(test) for test in tests), most=4)
        yield (
            f"Compared as texts, character by character, and not as {kind.name}: {conditions}."
            f" {plain(fields.column)} of {plain(fields.file)} has texts, as {quoted_value(example)} on line"
            f" {fields.values[example]}."
            f"{fields.seen} {how or kind.advice or self.to_numbers(fields)}"
        )

    def other_fields(self, test: Test, fields: Fields) -> list[str]:
        """Fields of another column that a comparison compares with these."""
        named = [self.column_of(reference) for reference in references(test)]
        others = [self.fields(*name) for name in named if name]
        return [value for other in others if other is not fields for value in islice(other.values, MOST_VALUES)]

    def to_numbers(self, fields: Fields) -> str:
        """How to make numbers of the fields of a column that look like numbers."""
        if first_decimal(fields.values) is not None:
            word = self.run.path_of(fields.file)
            return "This writes them as whole numbers, which compare as numbers:" + line_to_paste(
                word, written_name(fields.column), scale_of(fields.values)
            )
        empty = ", and one for none, as 0 or -1, into each empty field" if "" in fields.values else ""
        return (
            f"To compare numbers, write whole numbers in digits alone, without zeros in front{empty}. The column is"
            " INTEGER then, and the query has the number without quotes."
        )

    def of_empty_fields(self) -> Iterator[str]:
        """A note for each condition that is true of an empty field, where the column has one."""
        for conjunct in self.query.conjuncts():
            for test, unit, is_not in tests_in(conjunct):
                for reference in references(test):
                    named = self.column_of(reference)
                    if named and is_true_of_empty(test, reference, is_not) and not self.leaves_out_empty(reference):
                        yield from self.of_empty(self.fields(*named), reference, unit)

    def of_empty(self, fields: Fields, reference: Reference, unit: Test | Compound) -> Iterator[str]:
        if "" not in fields.values:
            return
        called = self.written(reference)
        is_mixed = isinstance(unit, Compound) and any(
            not self.is_same(reference, other) for test, _, _ in tests_in(unit) for other in references(test)
        )
        how = "write the condition without NOT, and then behind the comparison" if is_mixed else "write behind it"
        yield (
            f"Rows with an empty {called}, as on line {fields.values['']} of {plain(fields.file)}, may be among the"
            f" rows: an empty field is the empty text, of which {self.written(unit)} is true. In SQL-92 it isn't true"
            f" of a missing value.{fields.seen} To leave these rows out, {how}: AND {called} <> ''"
        )

    def is_same(self, one: Reference, other: Reference) -> bool:
        """Whether two references mean the same column of the same entry."""
        first, second = (resolved_column(self.query, reference, self.schema) for reference in (one, other))
        return first[0] is second[0] and first[2] is second[2]

    def leaves_out_empty(self, reference: Reference) -> bool:
        """Whether the query names the empty text beside this column, or another condition on it leaves it out."""
        found = [
            (conjunct, test) for conjunct in self.query.conjuncts() for test, _, _ in tests_in(conjunct)
            if len(references(test)) == 1 and self.is_same(reference, references(test)[0])
        ]
        return any(
            "" in texts(test) or conjunct is test and not is_true_of_empty(test, references(test)[0])
            for conjunct, test in found
        )


def references(test: Test) -> list[Reference]:
    return [operand for operand in test.operands if isinstance(operand, Reference)]


def texts(test: Test) -> list[str]:
    """The texts that stand in a comparison."""
    literals = [operand for operand in test.operands if isinstance(operand, Literal) and not operand.is_number]
    return [text_of(literal.tokens[-1].source) for literal in literals]


def tests_in(
    condition: Test | Compound, unit: Compound | None = None, is_not: bool = False
) -> Iterator[tuple[Test, Test | Compound, bool]]:
    """The comparisons in a condition, each with the outermost NOT around it or else itself, and whether it is negated.
    """
    if not isinstance(condition, Compound):
        yield condition, unit or condition, is_not
        return
    negates = condition.by == "NOT"
    for member in condition.members:
        yield from tests_in(member, unit or (condition if negates else None), is_not != negates)


def is_true_of_empty(test: Test, reference: Reference, is_not: bool = False) -> bool:
    """Whether a comparison, or its opposite, is true where this column is empty and any other one isn't."""
    values = [
        "" if operand is reference else "x" if isinstance(operand, Reference) else text_of(operand.tokens[-1].source)
        for operand in test.operands
    ]
    left, *others = values
    operator = test.operator.removeprefix("NOT ")
    is_true = {
        "=": left == others[0], "<>": left != others[0], "<": left < others[0], "<=": left <= others[0],
        ">": left > others[0], ">=": left >= others[0], "BETWEEN": others[0] <= left <= others[-1],
        "IN": left in others,
    }[operator]
    return is_true != (is_not != (operator != test.operator))


def looks_like(kind: Kind, values: list[str], literals: list[str]) -> bool:
    """Whether most fields look so, or some do and a text of the query does too."""
    fitting = sum(map(kind.has, values))
    return fitting * 2 > len(values) or fitting > 0 and any(map(kind.has, literals))


def begins_codes(kind: Kind, text: str, values: list[str]) -> bool:
    """Whether a text is the beginning of codes such as 0150, which have the same number of digits."""
    are_codes = not kind.good and text.startswith("0") and bool(values) and kind.is_ordered(values)
    return are_codes and values[0].translate(DIGITS).startswith(text.translate(DIGITS))


def first_fields(file: str, column: str) -> Fields:
    """The fields of a column in the first records of a file. Without its last record if the file goes on."""
    if not os.path.isfile(file):
        return Fields(file, column, {})
    with open(file, "rb") as f:
        data = f.read(MOST_BYTES)
        goes_on = bool(f.read(1))
    if goes_on:
        data = data[:data.rfind(b"\n") + 1] or data
    found = list(records(data))
    at, values = column_place(found[0][1], column), dict[str, int]()
    kept = found[1:-1] if goes_on else found[1:]
    for line, fields in kept:
        if at < len(fields):
            values.setdefault(fields[at], line)
    return Fields(file, column, values, len(kept) if goes_on else 0)
