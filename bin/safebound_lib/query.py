"""Reads query texts: their entries, references and conditions, and the place of an error (docs/DEFINITIONS.md, "Query
texts").
"""
from __future__ import annotations

from dataclasses import dataclass, field
from collections.abc import Callable
from typing import TYPE_CHECKING, cast

from safebound.sql_texts import LEAST_NUMBER, MOST_NUMBER, number_of

from .grammar import Reader, Wrong
from .tokens import tokens_of

if TYPE_CHECKING:
    from .schema import Column, Schema, Table
    from .tokens import Token

OPERATORS = ("=", "<>", "<", "<=", ">", ">=")


@dataclass
class Entry:
    """An entry of FROM. The items between the commas of FROM may have several entries, by JOIN; `first` is the number
    of the item's first entry.
    """
    table: Token
    alias: Token | None
    first: int

    @property
    def name(self) -> str:
        return (self.alias or self.table).name


@dataclass
class Reference:
    """`ENTRY.COLUMN`, `COLUMN`, or `ENTRY.*`, which has no `column`. `scope` has the numbers of the entries that the
    reference may mean.
    """
    entry: Token | None
    column: Token | None
    scope: range = range(0)

    @property
    def token(self) -> Token:
        return cast("Token", self.entry or self.column)

    @property
    def end(self) -> int:
        return cast("Token", self.column or self.entry).end


@dataclass
class Literal:
    tokens: list[Token]

    @property
    def token(self) -> Token:
        return self.tokens[0]

    @property
    def end(self) -> int:
        return self.tokens[-1].end

    @property
    def is_number(self) -> bool:
        return self.tokens[-1].kind == "number"

    @property
    def fits(self) -> bool:
        return not self.is_number or LEAST_NUMBER <= number_of("".join(t.source for t in self.tokens)) <= MOST_NUMBER


@dataclass
class Test:
    """A comparison, BETWEEN or IN, with its operands."""
    operator: str
    operands: list[Reference | Literal]
    start: int
    end: int


@dataclass
class Compound:
    """Conditions joined by AND or OR, or one condition under NOT."""
    by: str
    members: list[Test | Compound]
    start: int
    end: int


@dataclass
class Query:
    """The parts of a query text that were read. For a valid query `expected` is empty. Otherwise `wrong_at` is the
    number of the first token that isn't allowed, and `expected` has what is allowed in its place.
    """
    tokens: list[Token]
    entries: list[Entry] = field(default_factory=list)
    conditions: list[Test | Compound] = field(default_factory=list)
    references: list[Reference] = field(default_factory=list)
    tests: list[Test] = field(default_factory=list)
    literals: list[Literal] = field(default_factory=list)
    wrong_at: int | None = None
    expected: tuple[str, ...] = ()

    def conjuncts(self) -> list[Compound | Test]:
        return [member for condition in self.conditions for member in members(condition)]


class QueryReader(Reader):
    def __init__(self, tokens: list[Token]) -> None:
        super().__init__(tokens)
        self.query = Query(tokens)

    def read(self) -> None:
        self.take("SELECT")
        if not self.maybe("*"):
            self.separated(self.out)
        self.take("FROM")
        self.separated(self.part)
        if self.maybe("WHERE"):
            self.query.conditions.append(self.condition())
        self.maybe(";")
        self.test(lambda token: False, "the end of the text")
        if self.token is not None:
            self.fail()

    def out(self) -> None:
        first = self.take_name("a column")
        if not self.maybe("."):
            self.refer(None, first)
        elif self.maybe("*"):
            self.query.references.append(Reference(first, None))
            return
        else:
            self.refer(first, self.take_name("a column"))
        self.second_name("a name for it")

    def second_name(self, what: str) -> Token | None:
        if self.maybe("AS"):
            return self.take_name(what)
        return self.next() if self.has_name(what) else None

    def refer(self, entry: Token | None, column: Token) -> Reference:
        self.query.references.append(Reference(entry, column))
        return self.query.references[-1]

    def part(self) -> None:
        first = len(self.query.entries)
        self.source(first)
        while self.has("INNER") or self.has("JOIN"):
            if self.maybe("INNER") and not self.has("JOIN"):
                self.fail()
            self.take("JOIN")
            self.source(first)
            self.take("ON")
            seen = len(self.query.references)
            self.query.conditions.append(self.condition())
            for reference in self.query.references[seen:]:
                reference.scope = range(first, len(self.query.entries))

    def source(self, first: int) -> None:
        table = self.take_name("a table")
        self.query.entries.append(Entry(table, self.second_name("an alias"), first))

    def condition(self) -> Compound | Test:
        return self.joined("OR", lambda: self.joined("AND", self.factor))

    def joined(self, by: str, rule: Callable[[], Compound | Test]) -> Compound | Test:
        found = self.separated(rule, by)
        return found[0] if len(found) == 1 else Compound(by, found, found[0].start, found[-1].end)

    def factor(self) -> Compound | Test:
        word = self.maybe("NOT")
        found = self.test_or_condition()
        return Compound("NOT", [found], word.start, found.end) if word else found

    def test_or_condition(self) -> Compound | Test:
        if not self.has("("):
            return self.predicate()
        start = self.next().start
        found = self.condition()
        end = self.take(")").end
        # AND, OR and NOT keep their parentheses, so the text of such a condition can stand alone.
        return Compound(found.by, found.members, start, end) if isinstance(found, Compound) else found

    def predicate(self) -> Test:
        left = self.operand()
        negated = self.maybe("NOT")
        if self.maybe("BETWEEN"):
            low = self.operand()
            self.take("AND")
            return self.tested_by("NOT BETWEEN" if negated else "BETWEEN", [left, low, self.operand()])
        if self.maybe("IN"):
            self.take("(")
            values = self.separated(self.literal)
            return self.tested_by("NOT IN" if negated else "IN", [left, *values], self.take(")").end)
        if negated:
            self.fail()
        operator = self.take(*OPERATORS)
        return self.tested_by(operator.source, [left, self.operand()])

    def tested_by(self, operator: str, operands: list[Reference | Literal], end: int | None = None) -> Test:
        self.query.tests.append(Test(operator, operands, operands[0].token.start, end or operands[-1].end))
        return self.query.tests[-1]

    def operand(self) -> Literal | Reference:
        if not self.has_name("a column"):
            return self.literal()
        first = self.next()
        return self.refer(first, self.take_name("a column")) if self.maybe(".") else self.refer(None, first)

    def literal(self) -> Literal:
        sign = self.maybe("+", "-")
        if self.has_kind("number", "a number") or not sign and self.has_kind("text", "a text in single quotes"):
            self.query.literals.append(Literal([sign, self.next()] if sign else [self.next()]))
            return self.query.literals[-1]
        return self.fail()


def members(condition: Compound | Test) -> list[Compound | Test]:
    """The conditions that AND joins, also within parentheses. A condition that is no AND is returned alone."""
    if isinstance(condition, Compound) and condition.by == "AND":
        return [found for member in condition.members for found in members(member)]
    return [condition]


def references_of(condition: Compound | Test) -> list[Reference]:
    """The references in a condition."""
    if isinstance(condition, Compound):
        return [found for member in condition.members for found in references_of(member)]
    return [operand for operand in condition.operands if isinstance(operand, Reference)]


def read_query(text: bytes) -> Query:
    """Reads a query from the bytes of its text, up to the first error."""
    reader = QueryReader(tokens_of(text))
    try:
        reader.read()
    except Wrong:
        reader.query.wrong_at, reader.query.expected = reader.furthest, tuple(reader.expected)
    for reference in reader.query.references:
        reference.scope = reference.scope or range(len(reader.query.entries))
    return reader.query


def visible_columns(query: Query, reference: Reference, schema: Schema) -> list[tuple[Entry, Table, Column]]:
    """The entries in scope that a reference may mean, each with its table and the column."""
    found = []
    for number in reference.scope:
        entry = query.entries[number]
        table = schema.table(entry.table.name)
        if reference.entry and entry.name != reference.entry.name:
            continue
        column = table.column(reference.column.name) if table and reference.column else None
        if table and column:
            found.append((entry, table, column))
    return found


def meant_column(query: Query, reference: Reference, schema: Schema) -> tuple[Entry, Table, Column] | None:
    """The entry, the table and the column that a reference means. None unless it means exactly one."""
    found = visible_columns(query, reference, schema)
    return found[0] if len(found) == 1 else None


def resolved_column(query: Query, reference: Reference, schema: Schema) -> tuple[Entry, Table, Column]:
    """Like `meant`, for a reference that the program has resolved: it has exactly one meaning."""
    return visible_columns(query, reference, schema)[0]


def equality(query: Query, condition: Compound | Test, schema: Schema) -> tuple[int, int] | None:
    """The numbers of the two entries whose columns an equality joins, or None if the condition is no equality."""
    if not isinstance(condition, Test) or condition.operator != "=":
        return None
    one, other = (meant_column(query, o, schema) if isinstance(o, Reference) else None for o in condition.operands)
    if not one or not other or one[0] is other[0]:
        return None
    return number_of_entry(query, one[0]), number_of_entry(query, other[0])


def number_of_entry(query: Query, entry: Entry) -> int:
    return next(i for i, one in enumerate(query.entries) if one is entry)


def components(query: Query, schema: Schema) -> list[list[int]]:
    """The connected components of the join graph. Each is a list of entry numbers."""
    found = [[i] for i in range(len(query.entries))]
    for condition in query.conjuncts():
        pair = equality(query, condition, schema)
        if pair:
            one, other = (next(group for group in found if i in group) for i in pair)
            if one is not other:
                one.extend(other)
                found.remove(other)
    return [sorted(group) for group in found]
