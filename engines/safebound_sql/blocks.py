"""The blocks of a query: each SELECT with its FROM. A block is the whole query, or a part of it in WITH, in FROM, in a
condition, or beside UNION, INTERSECT or EXCEPT.
"""

from __future__ import annotations

from dataclasses import dataclass, field
from typing import Iterator, Union

from .dialect import Dialect
from .faults import Refused
from .reading import BEHIND_FROM, BEHIND_TOGETHER, TOGETHER, Tokens, is_query
from .tokens import Token, closing, part_of_name, place


@dataclass
class Select:
    """A SELECT: where its tokens begin and end, how messages name it, the queries in it, and the parts of WITH that it
    can name.
    """

    start: int
    end: int
    label: str
    outside: Select | None
    visible: list[With]
    inner: list[Query] = field(default_factory=list)


@dataclass
class Part:
    """A part of WITH: its name, its column names and its query."""

    name: Token
    columns: Tokens
    query: Query


@dataclass
class With:
    """Parts of one WITH that a query can name. `word` is RECURSIVE or empty."""

    word: str
    parts: list[Part]


@dataclass
class Query:
    """A query with its WITH: one SELECT, or several with `operators` such as UNION between them."""

    start: int
    end: int
    word: str = ""
    parts: list[Part] = field(default_factory=list)
    operators: list[str] = field(default_factory=list)
    members: list[Union[Select, Query]] = field(default_factory=list)
    visible: list[With] = field(default_factory=list)
    refused: str | None = None

    def all_parts(self) -> Iterator[Part]:
        """The parts of all WITHs in the query."""
        for part in self.parts:
            yield part
            yield from part.query.all_parts()
        for member in self.members:
            for inner in [member] if isinstance(member, Query) else member.inner:
                yield from inner.all_parts()

    def selects(self) -> Iterator[Select]:
        """All SELECTs of the query, the inner ones first."""
        for part in self.parts:
            yield from part.query.selects()
        for member in self.members:
            if isinstance(member, Query):
                yield from member.selects()
                continue
            for inner in member.inner:
                yield from inner.selects()
            yield member


def part_named(name: Token, visible: list[With], dialect: Dialect) -> Part | None:
    """The part of WITH that the name of a table means, or None. A part hides the parts of WITHs around it."""
    wanted = dialect.normalized_name(name)
    found = (part for one in reversed(visible) for part in one.parts if dialect.normalized_name(part.name) == wanted)
    return next(found, None)


class Finder:
    """Finds the blocks among the tokens of a text."""

    def __init__(self, text: str, pieces: Tokens, dialect: Dialect) -> None:
        self.text, self.pieces, self.dialect = text, pieces, dialect

    def find(self) -> Query:
        end = len(self.pieces)
        while end and self.pieces[end - 1].says(";"):
            end -= 1
        query = self._read_query(0, end, "the query", None, [])
        for part in query.all_parts():
            if self._leads_to(part, part):
                part.query.refused = part.query.refused or (
                    f"{part.name.text} at {place(self.text, part.name.at)}: it leads back to itself, and how often it"
                    " goes on isn't known"
                )
            else:
                part.query.refused = None
        return query

    def _leads_to(self, part: Part, wanted: Part) -> bool:
        """Whether the part names the wanted one, or parts that lead to it."""
        seen: list[Part] = []
        todo = [part]
        while todo:
            named = [other for select in todo.pop().query.selects() for other in self._parts_in(select)]
            if any(other is wanted for other in named):
                return True
            new = [other for other in named if not any(other is one for one in seen)]
            seen += new
            todo += new
        return False

    def _parts_in(self, select: Select) -> list[Part]:
        inside = {at for inner in select.inner for at in range(inner.start, inner.end)}
        own = [self.pieces[at] for at in range(select.start, select.end) if at not in inside]
        return [part for name in tables_in(own) if (part := part_named(name, select.visible, self.dialect))]

    def _read_query(self, start: int, end: int, label: str, outside: Select | None, visible: list[With]) -> Query:
        query = Query(start, end)
        at = start
        if at < end and self.pieces[at].says("WITH"):
            at = self._read_with(query, at + 1, end, outside, visible)
        query.visible = [*visible, With(query.word, query.parts)] if query.parts else visible
        while at < end:
            at = self._read_member(query, at, end, label, outside)
            if at >= end or not self.pieces[at].says(*TOGETHER):
                break
            operator = self.pieces[at].text.upper()
            at += 1
            if at < end and self.pieces[at].says("ALL", "DISTINCT"):
                operator += f" {self.pieces[at].text.upper()}"
                at += 1
            query.operators.append(operator)
        return query

    def _read_with(self, query: Query, at: int, end: int, outside: Select | None, visible: list[With]) -> int:
        """Reads the parts of WITH. Returns the number of the token where the query itself begins."""
        why = None
        if self.pieces[at].says("RECURSIVE"):
            query.word = "RECURSIVE"
            why = f"WITH RECURSIVE at {self._place(at)}: how often it goes on isn't known"
            at += 1
        see_all = self.dialect.parts_see_each_other or query.word
        while at < end:
            name, columns = self.pieces[at], []
            at += 1
            if self.pieces[at].says("("):
                last = closing(self.pieces, at)
                columns, at = self.pieces[at : last + 1], last + 1
            while at < end and not self.pieces[at].says("("):
                at += 1
            last = closing(self.pieces, at)
            label = f"WITH {name.text} at {self._place(at)}"
            # Where parts see each other, the list grows by the later ones.
            seen = With(query.word, query.parts if see_all else list(query.parts))
            inner = self._read_query(at + 1, last, label, outside, [*visible, seen])
            inner.refused = why
            query.parts.append(Part(name, columns, inner))
            at = last + 1
            if not (at < end and self.pieces[at].says(",")):
                break
            at += 1
        return at

    def _read_member(self, query: Query, at: int, end: int, label: str, outside: Select | None) -> int:
        """Reads one SELECT, or a query in parentheses. Returns the number of the token behind it."""
        label = f"{label}, {query.operators[-1]}" if query.operators else label
        if self.pieces[at].says("("):
            last = closing(self.pieces, at)
            query.members.append(self._read_query(at + 1, last, label, outside, query.visible))
            return last + 1
        if not self.pieces[at].says("SELECT"):
            raise Refused(f"{self.pieces[at].text} at {self._place(at)}: a query begins with SELECT")
        select = Select(at, end, label, outside, query.visible)
        query.members.append(select)
        stop = self._end_of_core(at, end, bool(query.operators))
        select.end = stop
        self._read_inner_queries(select, query.visible)
        return stop

    def _end_of_core(self, at: int, end: int, together: bool) -> int:
        """The end of a SELECT. If UNION or its like connects several SELECTs, ORDER BY and LIMIT belong to all of them.
        """
        stop = at
        while stop < end:
            token = self.pieces[stop]
            if token.says(*TOGETHER) and not part_of_name(self.pieces, stop):
                return stop
            if together and token.says(*BEHIND_TOGETHER) and not part_of_name(self.pieces, stop):
                return stop
            stop = closing(self.pieces, stop) + 1 if token.says("(", "[") else stop + 1
        return end

    def _read_inner_queries(self, select: Select, visible: list[With]) -> None:
        at = select.start + 1
        while at < select.end:
            at = innermost(self.pieces, at)
            if self.pieces[at].says("(") and is_query(self.pieces, at + 1):
                last = closing(self.pieces, at)
                if not self.pieces[at + 1].says("VALUES"):
                    label = f"the subquery at {self._place(at)}"
                    select.inner.append(self._read_query(at + 1, last, label, select, visible))
                at = last
            at += 1

    def _place(self, at: int) -> str:
        return place(self.text, self.pieces[at].at)


def innermost(pieces: Tokens, at: int) -> int:
    """The last of the parentheses around one query, if they begin here. Otherwise the same number."""
    begins = pieces[at].says("(") and is_query(pieces, at + 1)
    while begins and pieces[at + 1].says("(") and closing(pieces, at + 1) + 1 == closing(pieces, at):
        at += 1
    return at


def has_from(pieces: Tokens) -> bool:
    """Whether a SELECT has FROM."""
    return any(token.says("FROM") for token in outside_parentheses(pieces))


def outside_parentheses(pieces: Tokens) -> Iterator[Token]:
    depth = 0
    for token in pieces:
        depth += token.says("(") - token.says(")")
        if depth == 0:
            yield token


def tables_in(pieces: Tokens) -> Iterator[Token]:
    """The names without a schema that stand where a table does, among the tokens of a SELECT without its subqueries."""
    lists = [False]
    for at, token in enumerate(pieces):
        before = pieces[at - 1] if at else token
        if token.says("("):
            lists.append(lists[-1] and before.says("FROM", "JOIN", ",", "(", "LATERAL"))
        elif token.says(")") and len(lists) > 1:
            lists.pop()
        elif token.says("FROM") and not part_of_name(pieces, at):
            # Within parentheses, as in extract(day FROM x), no table follows.
            lists[-1] = lists[-1] or len(lists) == 1
        elif token.says("SELECT", *BEHIND_FROM) and not part_of_name(pieces, at):
            lists[-1] = False
        elif token.is_name and not part_of_name(pieces, at):
            stands_first = before.says("FROM", "JOIN", ",", "(", "ONLY") and lists[-1]
            if stands_first or before.says("IN", "TABLE"):
                yield token
