"""The lists of degrees from which a plan's bounds are made, as a statistics file has them (docs/DEFINITIONS.md,
"Conditional statistics").
"""
from __future__ import annotations

from dataclasses import dataclass, field
from typing import Any, Dict, List, Tuple, TYPE_CHECKING

from safebound.sql_texts import number_of, text_of, written_text

from .query import Compound, Literal, Reference, equality, meant_column, references_of

if TYPE_CHECKING:
    from .query import Entry, Query, Test as Comparison
    from .schema import Schema

OPPOSITE = {"=": "<>", "<": ">=", ">": "<=", "BETWEEN": "NOT BETWEEN", "IN": "NOT IN"}
OPPOSITE.update({other: one for one, other in OPPOSITE.items()})
MIRRORED = {"<": ">", ">": "<", "<=": ">=", ">=": "<="}
LEAVES = 32
Runs = List[Tuple[int, int]]
# A number or a text. All values of one column have one kind, so they can be compared.
Value = Any
# The keys are tuples of a table, a filter column and a joined column, by name.
Pairs = Dict[Tuple[str, str, str], "Pair"]
# A joined column, a description of the rows that the list counts, and its runs.
Listed = Tuple[str, str, Runs]


@dataclass
class Pair:
    """The lists of a filter column and a joined column in a statistics file, as runs `(degree, values)`."""
    whole: Runs | None = None
    rest: Runs | None = None
    frequent: dict[Value, Runs | None] = field(default_factory=dict)
    cuts: list[Value] = field(default_factory=list)
    nodes: list[Runs | None] = field(default_factory=list)

    def of_value(self, value: Value) -> Runs | None:
        return self.frequent.get(value, self.rest)

    def leaf(self, value: Value) -> int:
        return max([0, *(number for number, cut in enumerate(self.cuts) if cut <= value)])

    def of_range(self, low: Value, high: Value) -> Runs | None:
        """The list of the smallest node whose leaves include those of `low` and `high`."""
        if not self.nodes:
            return self.whole
        first, last = 0 if low is None else self.leaf(low), LEAVES - 1 if high is None else self.leaf(high)
        size = next(size for size in (1, 2, 4, 8, 16, LEAVES) if first // size == last // size)
        return self.nodes[2 * LEAVES - 2 * LEAVES // size + first // size]


def read_pairs(text: str) -> Pairs:
    """The pairs of a statistics file, by table, filter column and joined column."""
    found: Pairs = {}
    table, pair = "", Pair()
    for line in text.splitlines():
        kind, *words = line.split(" ")
        if kind == "table":
            table = text_in(words[0])
        elif kind == "pair":
            pair = found[table, text_in(words[0]), text_in(words[1])] = Pair()
        elif kind == "frequent":
            pair.frequent[value_of(words[0])] = read_runs(words[1:])
        elif kind == "cut":
            pair.cuts.append(value_of(words[0]))
        elif kind == "node":
            pair.nodes.append(read_runs(words))
        elif kind in ("whole", "rest"):
            setattr(pair, kind, read_runs(words))
    return found


def text_in(word: str) -> str:
    return bytes.fromhex(word[1:]).decode("utf-8", "replace")


def value_of(word: str) -> Value:
    return text_in(word) if word.startswith("x") else int(word)


def read_runs(words: list[str]) -> Runs:
    pairs = [word.split("*") for word in words if word != "-"]
    return [(int(degree), int(values)) for degree, values in pairs]


@dataclass(frozen=True)
class ColumnTest:
    """A comparison of a column with a value. If NOT stood before it, `operator` is already the opposite one. Any other
    comparison has an empty `column`.
    """
    column: str = ""
    operator: str = ""
    value: Value = None


@dataclass(frozen=True)
class Group:
    """Conditions joined by AND or by OR."""
    by: str
    members: list[ColumnTest | Group]


def without_not(condition: Compound | Comparison, is_not: bool = False) -> ColumnTest | Group:
    """The condition without NOT: each NOT is moved down into the comparisons."""
    if isinstance(condition, Compound):
        if condition.by == "NOT":
            return without_not(condition.members[0], not is_not)
        by = "OR" if is_not == (condition.by == "AND") else "AND"
        return Group(by, [without_not(member, is_not) for member in condition.members])
    operator = OPPOSITE[condition.operator] if is_not else condition.operator
    is_negated = operator.startswith("NOT")
    left, *others = condition.operands
    if operator.endswith("BETWEEN"):
        ends = ("<", ">") if is_negated else (">=", "<=")
        return Group("OR" if is_negated else "AND", [column_test(left, end, other) for end, other in zip(ends, others)])
    if operator.endswith("IN"):
        return Group("AND" if is_negated else "OR", [column_test(left, "<>" if is_negated else "=", o) for o in others])
    return column_test(left, operator, others[0])


def column_test(left: Reference | Literal, operator: str, right: Reference | Literal) -> ColumnTest:
    if isinstance(left, Literal):
        left, operator, right = right, MIRRORED.get(operator, operator), left
    if not isinstance(left, Reference) or not isinstance(right, Literal) or left.column is None:
        return ColumnTest()
    return ColumnTest(left.column.name, operator, literal_value(right))


def literal_value(literal: Literal) -> Value:
    source = "".join(token.source for token in literal.tokens)
    return number_of(source) if literal.is_number else text_of(source)


@dataclass(frozen=True)
class NeededList:
    """Which list a condition needs: that of one value of the column, or of a range. If `low` or `high` is None, the
    range has no limit on that side.
    """
    column: str
    low: Value
    high: Value
    is_value: bool = False


def flat_members(condition: ColumnTest | Group) -> list[ColumnTest | Group]:
    """The members of an AND. A member that is an AND too is replaced by its members."""
    if isinstance(condition, ColumnTest) or condition.by == "OR":
        return [condition]
    return [found for member in condition.members for found in flat_members(member)]


def needed_lists(condition: ColumnTest | Group) -> list[NeededList]:
    """The lists that a condition needs. Ranges of one column within one AND count as one range."""
    found: list[NeededList] = []
    ranges: dict[str, tuple[list[Value], list[Value]]] = {}
    for member in flat_members(condition):
        if not isinstance(member, ColumnTest):
            found += [one for part in member.members for one in needed_lists(part)]
        elif member.operator == "=":
            found.append(NeededList(member.column, member.value, member.value, is_value=True))
        elif member.operator == "<>":
            found += [NeededList(member.column, None, member.value), NeededList(member.column, member.value, None)]
        elif member.column:
            ranges.setdefault(member.column, ([], []))[member.operator.startswith("<")].append(member.value)
    ends = ((column, max(low, default=None), min(high, default=None)) for column, (low, high) in ranges.items())
    return found + [NeededList(*one) for one in ends]


def rows_in_words(one: NeededList) -> str:
    """Says in words which rows a list counts."""
    if one.is_value:
        return f"rows with {one.column} = {value_text(one.low)}"
    if one.low is None:
        return f"rows with {one.column} up to {value_text(one.high)}"
    end = "on" if one.high is None else f"to {value_text(one.high)}"
    return f"rows with {one.column} from {value_text(one.low)} {end}"


def value_text(value: Value) -> str:
    return str(value) if isinstance(value, int) else written_text(str(value))


def joined_columns(query: Query, schema: Schema, entry: Entry) -> list[str]:
    """The columns of an entry that equalities join, each once."""
    found: list[str] = []
    for condition in query.conjuncts():
        if equality(query, condition, schema):
            sides = [meant_column(query, reference, schema) for reference in references_of(condition)]
            found += [s[2].name for s in sides if s and s[0] is entry and s[2].name not in found]
    return found


def entries_of(query: Query, schema: Schema, condition: Compound | Comparison) -> set[str]:
    """The names of the entries that a condition names."""
    return {found[0].name for r in references_of(condition) for found in [meant_column(query, r, schema)] if found}


def lists_of(query: Query, schema: Schema, text: str) -> dict[str, list[Listed]]:
    """For each entry of a query its lists. The list of all rows comes first."""
    pairs, found = read_pairs(text), {}
    for entry in query.entries:
        own = [c for c in query.conjuncts() if entries_of(query, schema, c) == {entry.name}]
        needed = needed_lists(Group("AND", [without_not(c) for c in own]))
        columns = joined_columns(query, schema, entry)
        found[entry.name] = [line for column in columns for line in lines(pairs, entry.table.name, column, needed)]
    return found


def lines(pairs: Pairs, table: str, column: str, needed: list[NeededList]) -> list[Listed]:
    of_column = {names[1]: pair for names, pair in pairs.items() if names[0] == table and names[2] == column}
    found = [("all rows", pair.whole) for pair in list(of_column.values())[:1]]
    for one in needed:
        pair = of_column.get(one.column)
        if pair:
            runs = pair.of_value(one.low) if one.is_value else pair.of_range(one.low, one.high)
            found.append((rows_in_words(one), runs))
    return [(column, of, runs or []) for of, runs in found]
