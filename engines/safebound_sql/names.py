"""Finds the columns that are named in the parts of a query.

The result may have more columns than the part really names: a word that isn't clearly something else is taken for every
column that it could be.
"""

from __future__ import annotations

from typing import Iterator, NamedTuple

from safebound.limits import MOST_ENTRIES

from .engine import Engine
from .nondeterministic import nondeterministic
from .query import Entry, EntryColumn, Reference, Table, Text
from .reading import Source, Statement, Tokens
from .tokens import Token, closing, gap_between, part_of_name, unquoted, written

# The last word of an output isn't its alias if one of these words comes before it, or if it is one of ENDS_OF_OUTPUTS.
NO_OPERAND = (
    "IS", "NOT", "AND", "OR", "LIKE", "ILIKE", "IN", "BETWEEN", "THEN", "ELSE", "WHEN", "CASE", "DISTINCT", "FROM",
    "ESCAPE", "COLLATE", "GLOB", "REGEXP", "MATCH", "SIMILAR", "TO", "ZONE", "OVER", "SYMMETRIC",
)
ENDS_OF_OUTPUTS = ("NULL", "END", "ISNULL", "NOTNULL")


class Place(NamedTuple):
    """Tokens that may name a column: the first token, the number of tokens, and the columns that they may name."""

    at: int
    size: int
    columns: frozenset[EntryColumn]


def subqueries(piece: Tokens) -> Iterator[tuple[int, int]]:
    """The start and the end (exclusive) of each outermost subquery, parentheses included."""
    at = 0
    while at < len(piece):
        if piece[at].says("(") and at + 1 < len(piece) and piece[at + 1].says("SELECT", "WITH", "VALUES"):
            end = closing(piece, at)
            yield at, end + 1
            at = end
        at += 1


def alias_of(output: Tokens) -> Token | None:
    """The alias of an output, or None."""
    if len(output) < 2 or not (output[-1].is_name or output[-1].kind == "text"):
        return None
    before, last = output[-2], output[-1]
    if before.says("AS"):
        return last
    ends = (
        before.kind in ("number", "text", "quoted")
        or before.says(")", "]")
        or (before.kind == "word" and not before.says(*NO_OPERAND))
    )
    return last if ends and not last.says(*ENDS_OF_OUTPUTS) else None


class Names:
    """The names of a statement's entries and columns, as the engine finds them."""

    looks_into_subqueries = False

    def __init__(self, statement: Statement, engine: Engine) -> None:
        self.statement = statement
        self.dialect, self.catalog = engine.dialect, engine.catalog
        self.entries: list[Entry] = []
        self.merged: dict[str, EntryColumn] = {}
        self.merged_away: set[EntryColumn] = set()
        self.usings: list[tuple[EntryColumn, EntryColumn]] = []
        for source in statement.sources:
            self._enter(source)
        self.by_alias = {entry.name: entry.number for entry in self.entries}
        statement.outputs = [self._without_schemas(piece) for piece in statement.outputs]
        statement.conditions = [self._without_schemas(piece) for piece in statement.conditions]
        for step in statement.steps:
            step.conditions = [self._without_schemas(piece) for piece in step.conditions]
        statement.distinct = self._without_schemas(statement.distinct)
        statement.later_clauses = self._without_schemas(statement.later_clauses)
        self.columns = self._merge()

    def _enter(self, source: Source) -> None:
        number = len(self.entries)
        if number == MOST_ENTRIES:
            raise self.statement.refuse(source.alias, f"a query has at most {MOST_ENTRIES} entries")
        name = self.dialect.normalized_name(source.alias)
        if any(name == entry.name for entry in self.entries):
            raise self.statement.refuse(source.alias, "two entries have this alias")
        table = self._text_of(source)
        about = self._table_of(source)
        if about is None:
            raise self.statement.refuse(source.table[0], "there is no such table or view", table)
        alias = self.dialect.quote(unquoted(source.alias)) if source.alias.kind == "text" else source.alias.text
        self.entries.append(Entry(number, name, alias, table, about))

    def _text_of(self, source: Source) -> str:
        return written(source.table)

    def _table_of(self, source: Source) -> Table | None:
        return self.catalog.table(source.table)

    def _without_schemas(self, piece: Tokens) -> Tokens:
        """The tokens with entry.column in place of schema.entry.column. The SQL that is written from them may define
        the entry in WITH, where it has no schema.
        """
        inside, kept, at = self._inside_subqueries(piece), [], 0
        while at < len(piece):
            end = at
            while piece[end].is_name and end + 2 < len(piece) and piece[end + 1].says(".") and piece[end + 2].is_name:
                end += 2
            if (
                end - at >= 4
                and at not in inside
                and self.dialect.schemas_in_names
                and self._is_of_this_statement(piece[end - 2])
            ):
                first, at = piece[at], end - 2
                kept.append(piece[at]._replace(gap=first.gap))
                at += 1
            kept += piece[at : end + 1]
            at = end + 1
        return kept

    def _is_of_this_statement(self, qualifier: Token) -> bool:
        return self.dialect.normalized_name(qualifier) in self.by_alias

    def _inside_subqueries(self, piece: Tokens) -> set[int]:
        return {at for start, end in subqueries(piece) for at in range(start, end)}

    def _merge(self) -> list[EntryColumn]:
        """Replaces USING by equalities. Returns the columns that a star means."""
        columns: list[EntryColumn] = []
        for entry in self.entries:
            own = [EntryColumn(entry.number, column) for column in entry.about.columns]
            using = next((using for using in self.statement.usings if using.right == entry.number), None)
            if using is None:
                columns += own
                continue
            merged = [self._merge_one(token, using.left, entry.number) for token in using.names]
            gone = self.merged_away.union(merged if self.dialect.merged_columns_first else ())
            own = [named for named in own if named not in gone]
            if self.dialect.merged_columns_first:
                before = [named for named in columns if named.entry not in using.left]
                block = [named for named in columns if named.entry in using.left and named not in gone]
                columns = before + merged + block + own
            else:
                columns += own
        return columns

    def _merge_one(self, token: Token, left: range, right: int) -> EntryColumn:
        """Turns one name of USING into an equality. Each side must have exactly one column of that name."""
        name = self.dialect.normalized_name(token)
        sides = [
            [
                named for number in numbers
                if (named := self._column_with_name(number, name)) and named not in self.merged_away
            ]
            for numbers in (left, [right])
        ]
        if any(len(side) != 1 for side in sides):
            raise self.statement.refuse(token, "USING needs one such column on each side")
        one, other = sides[0][0], sides[1][0]
        side = self.catalog.merged_side(one.column, other.column)
        if side is None:
            why = f"it merges {one.column.type} and {other.column.type} into one; write the equality with ON"
            raise self.statement.refuse(token, why)
        kept, away = (one, other) if side == 0 else (other, one)
        self.merged[name] = kept
        self.merged_away.add(away)
        self.usings.append((one, other))
        return kept

    def _column_with_name(self, number: int, name: str) -> EntryColumn | None:
        """The entry's column with this normalized name."""
        column = self.entries[number].about.by_name.get(name)
        return EntryColumn(number, column) if column else None

    def star_columns(self, piece: Tokens) -> list[EntryColumn] | None:
        """The columns of a star, for all entries or for one. None if the output isn't a star."""
        if len(piece) == 1 and piece[0].says("*"):
            if self.usings and not self.dialect.star_over_using:
                raise self.statement.refuse(
                    piece[0], "write out which columns, since engines order those of USING in their own way"
                )
            return self.columns
        if len(piece) != 3 or not (piece[0].is_name and piece[1].says(".") and piece[2].says("*")):
            return None
        number = self.by_alias.get(self.dialect.normalized_name(piece[0]))
        if number is None:
            raise self.statement.refuse(piece[0], "no entry of FROM is called so")
        return [EntryColumn(number, column) for column in self.entries[number].about.columns]

    def named_columns(self, piece: Tokens) -> set[EntryColumn]:
        """The columns that the tokens may name, outside subqueries."""
        return set().union(*(place.columns for place in self.places(piece)))

    def places(self, piece: Tokens) -> Iterator[Place]:
        inside = self._inside_subqueries(piece)
        for at, token in enumerate(piece):
            if at and piece[at - 1].says("AS", ".", "::", "COLLATE", "OVER", "WINDOW"):
                continue
            if at in inside:
                if self.looks_into_subqueries:
                    yield from self._place_inside(piece, at)
                continue
            after = piece[at + 1 : at + 3]
            if len(after) == 2 and after[0].says(".") and (token.is_name or token.kind == "text"):
                self._refuse_star(piece, at)
                if self.dialect.normalized_name(token) in self.by_alias:
                    yield Place(at, 3, frozenset([self._qualified_column(token, after[1])]))
            elif token.is_name and not self._is_no_column(piece, at):
                found = self._bare_columns(token, piece, at)
                if found:
                    yield Place(at, 1, found)

    def _place_inside(self, piece: Tokens, at: int) -> Iterator[Place]:
        """The columns of the outer query that a token inside a subquery may refer to. It may also name a column of the
        subquery's own entries.
        """
        token, after = piece[at], piece[at + 1 : at + 3]
        if len(after) == 2 and after[0].says("."):
            number = self.by_alias.get(self.dialect.normalized_name(token)) if token.is_name else None
            if number is None:
                return
            if after[1].says("*"):
                columns = self.entries[number].about.columns
                yield Place(at, 3, frozenset(EntryColumn(number, column) for column in columns))
            elif after[1].is_name and (named := self._column_with_name(number, self.dialect.normalized_name(after[1]))):
                yield Place(at, 3, frozenset([named]))
        elif token.is_name and not self._is_no_column(piece, at) and self._columns_called(token):
            yield Place(at, 1, self._columns_called(token))

    def _is_no_column(self, piece: Tokens, at: int) -> bool:
        """Whether the word clearly isn't a column: it is a function, the DATE of DATE '2020-01-01', or a field of a
        date.
        """
        token, after, before = piece[at], piece[at + 1 : at + 2], piece[max(at - 2, 0) : at]
        if after and after[0].says("("):
            return True
        before_a_text = after and after[0].kind == "text"
        if token.kind == "word" and (before_a_text or self.dialect.normalized_name(token) in self.dialect.reserved):
            return True
        part = len(before) == 2 and before[0].says("EXTRACT") and after and after[0].says("FROM")
        return bool(part or (len(before) == 2 and before[0].says("INTERVAL") and before[1].kind in ("text", "number")))

    def _refuse_star(self, piece: Tokens, at: int) -> None:
        if piece[at + 2].says("*"):
            raise self.statement.refuse(piece[at], "a star stands alone, as a whole output", written(piece))

    def _qualified_column(self, qualifier: Token, token: Token) -> EntryColumn:
        number = self.by_alias.get(self.dialect.normalized_name(qualifier))
        if number is None:
            raise self.statement.refuse(
                qualifier, f"no entry of FROM is called {qualifier.text}", f"{qualifier.text}.{token.text}"
            )
        may_name = token.is_name or token.kind == "text"
        named = self._column_with_name(number, self.dialect.normalized_name(token)) if may_name else None
        if named is None:
            raise self.statement.refuse(qualifier, "the table has no such column", f"{qualifier.text}.{token.text}")
        return named

    def _columns_called(self, token: Token) -> frozenset[EntryColumn]:
        """The columns that a name without a table may mean: the column that USING merged, or a column of each entry."""
        name = self.dialect.normalized_name(token)
        if name in self.merged:
            return frozenset([self.merged[name]])
        found = (self._column_with_name(entry.number, name) for entry in self.entries)
        return frozenset(named for named in found if named)

    def _bare_columns(self, token: Token, piece: Tokens, at: int) -> frozenset[EntryColumn]:
        found = self._columns_called(token)
        if (
            not found
            and self.dialect.rows_are_values
            and self.dialect.normalized_name(token) in self.by_alias
            and alias_of(piece[: at + 1]) is not token
        ):
            raise self.statement.refuse(token, "a whole row isn't a value here; name its columns")
        return found

    def named_as_written(self, number: int, text: str) -> str:
        """The text of an output, with the name that it has as written. SQLite names an expression by its text."""
        output, written_text = self.statement.outputs[number], self.statement.written_outputs[number]
        if not self.dialect.texts_name_outputs or text == written_text or alias_of(output):
            return text
        if output[-1].says("*") or self.single_column(output):
            return text
        if "".join(text.split()) == "".join(written_text.split()):
            return written_text
        return f"{text} AS {self.dialect.quote(written_text)}"

    def single_column(self, piece: Tokens) -> EntryColumn | None:
        """The column that the tokens name, perhaps in parentheses. None if they aren't a single name."""
        while len(piece) > 2 and piece[0].says("(") and piece[-1].says(")"):
            piece = piece[1:-1]
        place = next(self.places(piece), None) if len(piece) in (1, 3) else None
        return min(place.columns) if place and place.size == len(piece) and len(place.columns) == 1 else None

    def equated_columns(self, piece: Tokens) -> tuple[EntryColumn, EntryColumn] | None:
        """The two columns, if the condition is an equality between columns of two entries. Otherwise None."""
        for at, token in enumerate(piece):
            if token.kind == "operator" and token.text in self.dialect.equals:
                one, other = self.single_column(piece[:at]), self.single_column(piece[at + 1 :])
                if one and other and one.entry != other.entry:
                    return one, other
        return None

    def spelled(self, piece: Tokens) -> Text:
        """The tokens as a text that knows where it names columns. A column that USING merged is written with its entry.
        """
        places = {place.at: place for place in self.places(piece) if len(place.columns) == 1}
        parts: list[str | Reference] = []
        at = 0
        while at < len(piece):
            place = places.get(at)
            size = place.size if place else 1
            text = written(piece[at : at + size])
            if at:
                parts.append(gap_between(piece[at - 1], piece[at]))
            if place:
                [named] = place.columns
                merged = size == 1 and self.dialect.normalized_name(piece[at]) in self.merged
                parts.append(Reference(named, self.qualified_name(named) if merged else text))
            else:
                parts.append(text)
            at += size
        return Text(tuple(parts))

    def qualified_name(self, named: EntryColumn) -> str:
        return f"{self.entries[named.entry].alias}.{self.dialect.quote(named.column.name)}"

    def named_bare(self, pieces: list[Tokens]) -> set[str]:
        """The normalized names of the merged columns that the tokens name without a table."""
        bare = [piece[place.at] for piece in pieces for place in self.places(piece) if place.size == 1]
        return set(map(self.dialect.normalized_name, bare)) & set(self.merged)

    def qualified_columns(self, pieces: list[Tokens]) -> Iterator[tuple[Token, EntryColumn]]:
        """The columns that the tokens name with their entry, each with its token."""
        for piece in pieces:
            for place in self.places(piece):
                if place.size == 3:
                    yield piece[place.at], min(place.columns)

    def check_outputs_names(self, piece: Tokens, outputs: set[str]) -> None:
        """Refuses a condition that uses an output's name. SQLite would take the name for the output."""
        inside = self._inside_subqueries(piece)
        for at, token in enumerate(piece):
            bare = token.is_name and at not in inside and not part_of_name(piece, at)
            if (
                bare
                and self.dialect.normalized_name(token) in outputs
                and not self._is_no_column(piece, at)
                and not self._columns_called(token)
            ):
                raise self.statement.refuse(token, "it is the name of an output; write what it stands for")

    def check_subqueries(self, piece: Tokens) -> None:
        """Refuses a subquery that names an entry of the query, or that may choose other rows at each call."""
        for start, end in subqueries(piece):
            inner = piece[start + 1 : end - 1]
            for token, what in nondeterministic(inner, self.dialect):
                why = "which rows a subquery takes may change from call to call; make a table of it"
                raise self.statement.refuse(token, why, f"{what} of a subquery")
            reason = self.catalog.why_not_alone(inner)
            if reason:
                raise self.statement.refuse(
                    piece[start], f"only subqueries that stand alone are read ({reason})", "the subquery"
                )
