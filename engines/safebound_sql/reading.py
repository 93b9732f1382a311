"""Splits a query into parts: outputs, entries, conditions, and the clauses above the join (GROUP BY, HAVING, ORDER BY,
LIMIT). Each part is a list of tokens, as written.

Only the frame SELECT .. FROM .. WHERE .. and the clauses after it are read. If FROM has more than inner joins of named
tables, the query is refused, with the name and place of that part. A block may have outer joins and queries in FROM.
"""

from __future__ import annotations

from dataclasses import dataclass, field
from typing import Iterator

from .dialect import Dialect
from .faults import Refused
from .tokens import Token, closing, part_of_name, place

Tokens = list[Token]

ABOVE = ("GROUP", "HAVING", "WINDOW", "ORDER", "LIMIT", "OFFSET", "FETCH")
TOGETHER = ("UNION", "INTERSECT", "EXCEPT")
BEHIND_TOGETHER = ("ORDER", "LIMIT", "OFFSET", "FETCH")
OUTER = ("LEFT", "RIGHT", "FULL", "NATURAL", "OUTER")
NO_TABLE = ("ONLY", "LATERAL")
IN_FROM = (*OUTER, "JOIN", "INNER", "CROSS", "ON", "USING")
BEHIND_FROM = ("WHERE", *ABOVE, *TOGETHER, "FOR")
NO_ALIAS = (*IN_FROM, *BEHIND_FROM, "TABLESAMPLE", "INDEXED", "NOT", "INTO")


@dataclass
class Source:
    """An entry as FROM has it: the tokens of the table's name, and the alias, or the table's name if there is no alias.

    For a query in FROM, `table` has its tokens with their parentheses, and `columns` may have the names of its columns.
    """

    table: Tokens
    alias: Token
    columns: Tokens = field(default_factory=list)
    says_lateral: bool = False

    @property
    def is_query(self) -> bool:
        return self.table[0].says("(")


@dataclass
class Step:
    """How a source is joined to the sources before it: INNER, LEFT, RIGHT or FULL, and the conditions of its ON.

    If a statement may have only inner joins, the conditions of ON are among the statement's conditions instead.
    """

    kind: str
    source: int
    conditions: list[Tokens] = field(default_factory=list)


@dataclass
class Using:
    """USING: its names, the sources on its left side, and the source on its right."""

    names: Tokens
    left: range
    right: int


@dataclass
class Statement:
    """The parts of a query. A condition is a conjunct of WHERE or of an ON.

    `written_outputs` has the text of each output with its gaps. `frame` is FROM as written, but with a source's number
    in place of the source, and None in place of an ON's condition.
    """

    text: str
    distinct: Tokens = field(default_factory=list)
    outputs: list[Tokens] = field(default_factory=list)
    written_outputs: list[str] = field(default_factory=list)
    sources: list[Source] = field(default_factory=list)
    usings: list[Using] = field(default_factory=list)
    conditions: list[Tokens] = field(default_factory=list)
    later_clauses: Tokens = field(default_factory=list)
    frame: list[Token | int | None] = field(default_factory=list)
    steps: list[Step] = field(default_factory=list)

    def refuse(self, token: Token, why: str, name: str | None = None) -> Refused:
        return Refused(f"{name or token.text} at {place(self.text, token.at)}: {why}")


def conjuncts(condition: Tokens) -> list[Tokens]:
    """The conjuncts of a condition: the parts between its ANDs, also within parentheses. A condition with OR is one
    part.
    """
    while (
        condition
        and condition[0].says("(")
        and closing(condition, 0) == len(condition) - 1
        and not is_query(condition, 1)
    ):
        condition = condition[1:-1]
    parts: list[Tokens] = [[]]
    between = 0
    for word, run in _outside_parentheses(condition):
        if word.says("OR"):
            return [condition]
        if word.says("BETWEEN"):
            between += 1
        if word.says("AND") and not between:
            parts.append([])
            continue
        if word.says("AND"):
            between -= 1
        parts[-1] += run
    return [parts[0]] if len(parts) == 1 else [inner for part in parts for inner in conjuncts(part)]


def is_query(pieces: Tokens, at: int) -> bool:
    """Whether a query begins here. If it begins with a query in parentheses, what stands behind that tells."""
    if at < len(pieces) and pieces[at].says("(") and is_query(pieces, at + 1):
        behind = closing(pieces, at) + 1
        return behind < len(pieces) and pieces[behind].says(")", *TOGETHER, *BEHIND_TOGETHER)
    return at < len(pieces) and pieces[at].says("SELECT", "WITH", "VALUES")


def _outside_parentheses(pieces: Tokens) -> Iterator[tuple[Token, Tokens]]:
    """Each token outside parentheses and CASE, with the tokens from it to the end of what it opens. For any other token
    these are only the token itself.
    """
    at = 0
    while at < len(pieces):
        end = at
        if pieces[at].says("(", "["):
            end = closing(pieces, at)
        elif pieces[at].says("CASE") and not part_of_name(pieces, at):
            end = _end_of_case(pieces, at)
        yield pieces[at], pieces[at : end + 1]
        at = end + 1


def _end_of_case(pieces: Tokens, start: int) -> int:
    depth = 0
    for at in range(start, len(pieces)):
        if part_of_name(pieces, at):
            continue
        depth += pieces[at].says("CASE") - pieces[at].says("END")
        if depth == 0:
            return at
    return len(pieces)


class Reader:
    """Reads one statement from its first token to its last."""

    def __init__(self, text: str, pieces: Tokens, dialect: Dialect, in_blocks: bool = False) -> None:
        self.statement = Statement(text)
        self.pieces = pieces
        self.at = 0
        self.comma_binds_less = dialect.comma_binds_less
        self.plain_words = dialect.plain_words
        self.in_blocks = in_blocks
        self.holes: list[tuple[int, int, int | None]] = []

    def read(self) -> Statement:
        while self.pieces and self.pieces[-1].says(";"):
            self.pieces.pop()
        for token in self.pieces:
            if token.says(";"):
                raise self.statement.refuse(token, "one statement, please", "a second statement")
        self._read_select()
        self._read_from()
        if self._take("WHERE"):
            self._read_conditions(self._read_until(BEHIND_FROM))
        self._read_later_clauses()
        return self.statement

    def _peek(self, *words: str, ahead: int = 0) -> bool:
        at = self.at + ahead
        return at < len(self.pieces) and self.pieces[at].says(*words)

    def _take(self, *words: str) -> bool:
        found = self._peek(*words)
        self.at += found
        return found

    def _refuse(self, why: str, name: str | None = None) -> Refused:
        if self.at < len(self.pieces):
            return self.statement.refuse(self.pieces[self.at], why, name)
        return Refused(f"the query ends too early: {why}")

    def _read_until(self, words: tuple[str, ...]) -> Tokens:
        """The tokens before the first of these keywords outside parentheses."""
        start = self.at
        while self.at < len(self.pieces) and not self._is_at_keyword(words):
            self.at = closing(self.pieces, self.at) if self._peek("(", "[") else self.at
            self.at += 1
        self.at = min(self.at, len(self.pieces))
        return self.pieces[start : self.at]

    def _is_at_keyword(self, words: tuple[str, ...]) -> bool:
        if not self._peek(*words) or self._peek(*self.plain_words) or part_of_name(self.pieces, self.at):
            return False
        if self.at and self.pieces[self.at - 1].says("AS"):
            return False
        if self._peek("GROUP", "ORDER") and not self._peek("BY", ahead=1):
            return False
        if self._peek("WINDOW") and not self._peek("AS", ahead=2):
            return False
        if self._peek("FROM") and self.at and self.pieces[self.at - 1].says("DISTINCT"):
            return False
        return not (self._peek("LEFT", "RIGHT") and self._peek("(", ahead=1))

    def _read_select(self) -> None:
        if self._peek("WITH"):
            raise self._refuse("a query with a part before SELECT isn't read; make it a view")
        if not self._take("SELECT"):
            raise self._refuse("a query begins with SELECT", None if self.at < len(self.pieces) else "nothing")
        start = self.at
        if self._take("DISTINCT") and self._take("ON"):
            self.at = closing(self.pieces, self.at) + 1
        elif self.at == start:
            self._take("ALL")
        self.statement.distinct = self.pieces[start : self.at]
        outputs = self._read_until(("FROM", "INTO", *BEHIND_FROM))
        if not self._take("FROM"):
            raise self._refuse("a query has FROM")
        self.statement.outputs = list(at_commas(outputs))
        self.statement.written_outputs = [
            self.statement.text[piece[0].at : piece[-1].at + len(piece[-1].text)] if piece else ""
            for piece in self.statement.outputs
        ]

    def _read_from(self) -> None:
        first, start = 0, self.at
        while True:
            self._read_joined(first)
            if not self._take(","):
                break
            if self.comma_binds_less:
                first = len(self.statement.sources)
        self.statement.frame = list(self._frame(start, self.at))

    def _frame(self, start: int, end: int) -> Iterator[Token | int | None]:
        for hole_start, hole_end, what in self.holes:
            yield from self.pieces[start:hole_start]
            yield what
            start = hole_end
        yield from self.pieces[start:end]

    def _read_joined(self, first: int) -> None:
        """Reads one item of FROM: a source and the sources joined to it. The left side of a USING begins with the
        source numbered `first`.
        """
        self._read_source()
        while True:
            cross, kind = self._peek("CROSS"), "INNER"
            if self.in_blocks and self._is_at_keyword(("LEFT", "RIGHT", "FULL")):
                kind = self._read_outer_kind(first)
            if self._is_at_keyword(OUTER):
                why = "write out its columns with USING" if self._peek("NATURAL") else "only inner joins are bounded"
                raise self._refuse(why, f"{self.pieces[self.at].text.upper()} JOIN")
            if not (self._take("JOIN") or (self._take("INNER", "CROSS") and self._take("JOIN"))):
                return
            right = len(self.statement.sources)
            self._read_source()
            if kind != "INNER":
                self._read_outer_conditions(kind, right)
            elif self._take("ON"):
                start = self.at
                parts = self._split_condition(self._read_until((*IN_FROM, *BEHIND_FROM, ",", ")")))
                if self.in_blocks:
                    self.statement.steps[-1].conditions += parts
                else:
                    self.statement.conditions += parts
                self.holes.append((start, self.at, None))
            elif self._take("USING"):
                self._read_using(first, right)
            elif self.comma_binds_less and not cross:
                raise self._refuse("each JOIN has its ON or USING right behind its table")

    def _read_outer_kind(self, first: int) -> str:
        kind = self.pieces[self.at].text.upper()
        if first and kind != "LEFT":
            raise self._refuse("behind a comma it isn't bounded; write the comma as CROSS JOIN", f"{kind} JOIN")
        self.at += 1
        self._take("OUTER")
        return kind

    def _read_outer_conditions(self, kind: str, right: int) -> None:
        if len(self.statement.sources) != right + 1:
            raise self._refuse("joined tables in parentheses aren't bounded on this side", f"{kind} JOIN")
        if not self._take("ON"):
            raise self._refuse("write out its columns with ON", f"{kind} JOIN")
        conditions = self._split_condition(self._read_until((*IN_FROM, *BEHIND_FROM, ",", ")")))
        self.statement.steps[right] = Step(kind, right, conditions)

    def _read_using(self, first: int, right: int) -> None:
        end = closing(self.pieces, self.at)
        names = [token for token in self.pieces[self.at + 1 : end] if not token.says(",")]
        if len(self.statement.sources) != right + 1:
            raise self._refuse("USING behind parentheses isn't read; write it out with ON", "USING")
        self.statement.usings.append(Using(names, range(first, right), right))
        self.at = end + 1

    def _read_source(self) -> None:
        if self._peek("(") and not is_query(self.pieces, self.at + 1):
            self.at += 1
            start = len(self.statement.sources)
            self._read_joined(start)
            if start and any(step.kind != "INNER" for step in self.statement.steps[start:]):
                raise self._refuse("an outer join in parentheses isn't bounded behind another table")
            if not self._take(")"):
                raise self._refuse("a parenthesis of FROM isn't closed here")
            if self._peek("AS") or (self.at < len(self.pieces) and self._is_at_alias()):
                raise self._refuse("an alias of joined tables isn't read")
            return
        says_lateral = self.in_blocks and self._peek("(", ahead=1) and self._take("LATERAL")
        if self._peek("(") and self.in_blocks:
            return self._read_query_in_from(says_lateral)
        if self._peek("("):
            raise self._refuse("a query within FROM isn't bounded; make it a view", "a subquery")
        if self._peek(*NO_TABLE):
            raise self._refuse("FROM has tables and views by their names")
        start = self.at
        table = self._read_table()
        alias = self._read_alias() or table[-1]
        if self._peek("(", "*", "TABLESAMPLE", "INDEXED", "NOT"):
            name = f"{alias.text}(" if self._peek("(") else None
            raise self._refuse("FROM has tables and views by their names, and an alias for each", name)
        self.holes.append((start, self.at, len(self.statement.sources)))
        self._add_source(Source(table, alias))

    def _add_source(self, source: Source) -> None:
        self.statement.steps.append(Step("INNER", len(self.statement.sources)))
        self.statement.sources.append(source)

    def _read_query_in_from(self, says_lateral: bool) -> None:
        end = closing(self.pieces, self.at)
        table = self.pieces[self.at : end + 1]
        self.at = end + 1
        alias, columns = self._read_alias(), []
        if alias is None:
            raise self._refuse("a query in FROM needs an alias")
        if self._peek("("):
            end = closing(self.pieces, self.at)
            columns = self.pieces[self.at : end + 1]
            self.at = end + 1
        self._add_source(Source(table, alias, columns, says_lateral))

    def _read_table(self) -> Tokens:
        start = self.at
        while True:
            if self.at >= len(self.pieces) or not self.pieces[self.at].is_name:
                raise self._refuse("a table's name is needed")
            self.at += 1
            if not self._take("."):
                return self.pieces[start : self.at]

    def _is_at_alias(self) -> bool:
        token = self.pieces[self.at]
        return token.kind in ("quoted", "text") or (token.kind == "word" and not token.says(*NO_ALIAS))

    def _read_alias(self) -> Token | None:
        explicit = self._take("AS")
        if self.at >= len(self.pieces) or not (explicit or self._is_at_alias()):
            return None
        if not (self.pieces[self.at].is_name or self.pieces[self.at].kind == "text"):
            raise self._refuse("an alias is needed")
        self.at += 1
        return self.pieces[self.at - 1]

    def _split_condition(self, condition: Tokens) -> list[Tokens]:
        parts = conjuncts(condition)
        if not all(parts):
            raise self._refuse("a condition is missing before this")
        return parts

    def _read_conditions(self, condition: Tokens) -> None:
        self.statement.conditions += self._split_condition(condition)

    def _read_later_clauses(self) -> None:
        if self._peek(*TOGETHER):
            raise self._refuse("rows of several queries together aren't bounded")
        if self._peek("FOR"):
            raise self._refuse("rows are read, not locked")
        if self.at < len(self.pieces) and not self._peek(*ABOVE):
            raise self._refuse("this isn't expected here")
        self.statement.later_clauses = self._read_until(TOGETHER + ("FOR",))
        if self.at < len(self.pieces):
            self._read_later_clauses()


def at_commas(pieces: Tokens) -> Iterator[Tokens]:
    part: Tokens = []
    for token, run in _outside_parentheses(pieces):
        if token.says(","):
            yield part
            part = []
        else:
            part += run
    yield part


def read(text: str, pieces: Tokens, dialect: Dialect, in_blocks: bool = False) -> Statement:
    """The parts of the query. With `in_blocks` it may have outer joins and queries in FROM."""
    return Reader(text, pieces, dialect, in_blocks).read()
