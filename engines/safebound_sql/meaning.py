"""Turns the text of a query into the `Query` that it means."""

from __future__ import annotations

from typing import Iterator

from .calls import calls
from .engine import Engine
from .names import Names, alias_of, subqueries
from .nondeterministic import nondeterministic
from .query import Condition, EntryColumn, Query, Reference, Text
from .reading import Statement, Tokens, at_commas, read
from .tokens import Token, closing, part_of_name, tokens, without_end, written


# Types by which PostgreSQL can't group.
UNGROUPED = ("json", "xml", "point", "line", "lseg", "box", "path", "polygon", "circle")


def refuse_volatile(statement: Statement, pieces: Tokens, engine: Engine) -> None:
    """Refuses functions, operators and views whose result may change from call to call."""
    asked = calls(pieces, engine.dialect)
    for call, why in engine.catalog.volatile(set(asked)).items():
        raise statement.refuse(asked[call], why)
    for at, token in enumerate(pieces):
        if engine.dialect.reads_clock(pieces, at):
            raise statement.refuse(token, engine.dialect.why_clock)
    tables = _tables(pieces)
    for name, why in _volatile_views(set(tables), engine):
        raise statement.refuse(tables[name], why, name)


def _tables(pieces: Tokens) -> dict[str, Token]:
    """The tokens that may name a table or view: names with or without a schema."""
    found: dict[str, Token] = {}
    for at, token in enumerate(pieces):
        if not token.is_name:
            continue
        if at > 1 and pieces[at - 1].says(".") and pieces[at - 2].is_name:
            found.setdefault(f"{pieces[at - 2].text}.{token.text}", token)
        else:
            found.setdefault(token.text, token)
    return found


def _volatile_views(names: set[str], engine: Engine) -> Iterator[tuple[str, str]]:
    """Pairs of a table or view and something volatile that it uses, in its own text or in that of a view which it
    names.
    """
    above = {name: name for name in names}
    todo = set(names)
    while todo:
        below: set[str] = set()
        yield from ((above[name], why) for name, why in engine.catalog.without_snapshot(todo).items())
        for name, what, text in engine.catalog.view_texts(todo):
            pieces = tokens(text, engine.dialect.rules)
            yield from ((above[name], f"{what} has {why}") for why in _volatile_parts(pieces, engine))
            new = set(_tables(pieces)) - set(above)
            above.update((other, above[name]) for other in new)
            below |= new
        todo = below


def _volatile_parts(pieces: Tokens, engine: Engine) -> Iterator[str]:
    asked = calls(pieces, engine.dialect)
    for call, why in engine.catalog.volatile(set(asked)).items():
        yield f"{asked[call].text}: {why}"
    for token, what in nondeterministic(pieces, engine.dialect):
        yield f"{what}, so its rows may be others at each call; make a table of it, and name that"
    for at, token in enumerate(pieces):
        if engine.dialect.reads_clock(pieces, at, in_view=True):
            yield f"{token.text}: {engine.dialect.why_clock}"


class Meaning:
    """A query's text, and what it means.

    Raises:
        Refused: a part of it isn't bounded here.
        EngineFault: the engine doesn't take it.
    """

    def __init__(self, text: str, engine: Engine) -> None:
        pieces = tokens(text, engine.dialect.rules)
        self.dialect, self.catalog = engine.dialect, engine.catalog
        self.statement = read(text, list(pieces), engine.dialect)
        refuse_volatile(self.statement, pieces, engine)
        self.names = Names(self.statement, engine)
        alone = without_end(text, pieces)
        engine.catalog.check(alone)
        self.outputs_names = self._names_of_outputs(alone)
        self.query = Query(self.names.entries)
        self._understand(pieces)

    def _understand(self, pieces: Tokens) -> None:
        for one, other in self.names.usings:
            self._take_equality(one, other, Text((self._reference(one), " = ", self._reference(other))))
        for piece in self.statement.conditions:
            self._take_condition(piece)
        self.query.outputs = [
            output for number, piece in enumerate(self.statement.outputs) for output in self._output(number, piece)
        ]
        self.query.distinct = self._text_above(self.statement.distinct)
        self.statement.later_clauses = self._with_columns_of_keys(self.statement.later_clauses)
        self.query.later_clauses = self._text_above(self.statement.later_clauses)
        self._keep_using()
        self.query.needed |= self.query.named_above
        self._look_for_now(pieces)

    def _look_for_now(self, pieces: Tokens) -> None:
        """Refuses a date function whose argument is a column with the value 'now', or isn't known to be a column of the
        query.
        """
        statement = self.statement
        for piece in (*statement.outputs, *statement.conditions, statement.distinct, statement.later_clauses):
            for start, end in subqueries(piece):
                for token, _ in self.dialect.clock_arguments(piece[start:end]):
                    raise statement.refuse(token, self.dialect.why_clock)
            for token, column in self.dialect.clock_arguments(piece):
                named = self.names.single_column(column)
                if named is None or self.catalog.has_text_now(self.query.entries[named.entry].table, named.column.name):
                    raise statement.refuse(token, self.dialect.why_clock)

    def _names_of_outputs(self, text: str) -> set[str]:
        """The names of outputs that SQLite may find within a condition."""
        if not self.dialect.outputs_in_conditions:
            return set()
        found = self.catalog.output_names(text)
        if found is not None:
            return {self.dialect.normalized(name, True) for name in found}
        return {self.dialect.normalized_name(alias) for output in self.statement.outputs if (alias := alias_of(output))}

    def _with_columns_of_keys(self, clauses: Tokens) -> Tokens:
        """If GROUP BY names a primary key, adds the other columns of its table that are named. PostgreSQL allows these
        columns beside a table's key, but a part of WITH has no key.
        """
        groups = _group_by_range(clauses)
        if groups is None or not any(entry.about.key for entry in self.query.entries):
            return clauses
        outputs = {
            self.dialect.normalized_name(alias): piece
            for piece in self.statement.outputs
            if (alias := alias_of(piece))
        }
        grouped = {
            named
            for piece in at_commas(clauses[groups.start : groups.stop])
            if (named := self._grouped_column(piece, outputs))
        }
        without_star = [
            piece for piece in (*self.statement.outputs, clauses) if self.names.star_columns(piece) is None
        ]
        mentioned = set[EntryColumn]().union(*map(self.names.named_columns, without_star))
        for piece in self.statement.outputs:
            mentioned |= set(self.names.star_columns(piece) or ())
        more: Tokens = []
        for other in sorted(mentioned - grouped, key=lambda named: (named.entry, named.column.name)):
            about = self.query.entries[other.entry].about
            if other.column.type in UNGROUPED:
                continue
            if (
                about.key
                and {
                    EntryColumn(other.entry, about.by_name[name]) for name in about.key if name in about.by_name
                } <= grouped
            ):
                more += tokens(f", {self.names.qualified_name(other)}", self.dialect.rules)
        return clauses[: groups.stop] + more + clauses[groups.stop :]

    def _grouped_column(self, piece: Tokens, outputs: dict[str, Tokens]) -> EntryColumn | None:
        """The column that an item of GROUP BY means: by its name, by an output's name, or by its number."""
        named = self.names.single_column(piece)
        if named or len(piece) != 1:
            return named
        output = outputs.get(self.dialect.normalized_name(piece[0])) if piece[0].is_name else None
        if (
            piece[0].kind == "number"
            and piece[0].text.isdigit()
            and 0 < int(piece[0].text) <= len(self.statement.outputs)
        ):
            output = self.statement.outputs[int(piece[0].text) - 1]
        if output is None:
            return None
        alias = alias_of(output)
        end = len(output) if alias is None else len(output) - (2 if output[-2].says("AS") else 1)
        return self.names.single_column(output[:end])

    def _keep_using(self) -> None:
        """Keeps the meaning of names that USING merged, for the clauses above the join. It keeps FROM as written, or
        renames the columns that were merged.
        """
        names, query = self.names, self.query
        if not names.usings:
            return
        if self.dialect.keeps_using:
            frame = self.statement.frame
            query.frame = list(_frame_pieces(frame))
            query.named_above |= {side for equality in names.usings for side in equality}
            return
        outputs = [piece for piece in self.statement.outputs if names.star_columns(piece) is None]
        above = [*outputs, self.statement.distinct, self.statement.later_clauses]
        bare = names.named_bare(above)
        normalized = self.dialect.normalized
        query.renamed = {named for named in names.merged_away if normalized(named.column.name, True) in bare}
        for token, named in names.qualified_columns(above):
            if named in query.renamed:
                why = (
                    "the column that USING merged is named without a table too; name it in one way, or write the"
                    " equality with ON"
                )
                raise self.statement.refuse(token, why, f"{token.text}.{named.column.name}")

    def _take_condition(self, piece: Tokens) -> None:
        self.names.check_subqueries(piece)
        self.names.check_outputs_names(piece, self.outputs_names)
        sides, text = self.names.equated_columns(piece), self.names.spelled(piece)
        if sides:
            return self._take_equality(*sides, text)
        named = self.names.named_columns(piece)
        entries = frozenset(column.entry for column in named)
        if len(entries) == 1:
            return self.query.entries[min(entries)].own.append(text)
        self.query.conditions.append(Condition(text, entries))
        self.query.needed |= named
        if entries:
            names = ", ".join(self.query.entries[number].name for number in sorted(entries))
            self.query.no_edges.append((text, f"it may name columns of {names}, and is tested when these are joined"))

    def _take_equality(self, one: EntryColumn, other: EntryColumn, text: Text) -> None:
        query = self.query
        query.conditions.append(Condition(text, frozenset((one.entry, other.entry))))
        query.needed |= {one, other}
        why = query.take_equality(one, other)
        if why:
            query.no_edges.append((text, why))

    def _reference(self, named: EntryColumn) -> Reference:
        return Reference(named, self.names.qualified_name(named))

    def _output(self, number: int, piece: Tokens) -> list[str | EntryColumn]:
        columns = self.names.star_columns(piece)
        if columns is None:
            return [self.names.named_as_written(number, self._text_above(piece))]
        self.query.named_above |= set(columns)
        return list(columns)

    def _text_above(self, piece: Tokens) -> str:
        """The text of a clause above the join, such as GROUP BY, as written."""
        self.names.check_subqueries(piece)
        self.query.named_above |= self.names.named_columns(piece)
        return written(piece)


def _group_by_range(clauses: Tokens) -> range | None:
    """The places of the tokens in the list of GROUP BY."""
    if len(clauses) < 3 or not clauses[0].says("GROUP"):
        return None
    at = 2
    while at < len(clauses) and (
        part_of_name(clauses, at) or not clauses[at].says("HAVING", "WINDOW", "ORDER", "LIMIT", "OFFSET", "FETCH")
    ):
        at = closing(clauses, at) + 1 if clauses[at].says("(", "[") else at + 1
    return range(2, at)


def _frame_pieces(frame: list[Token | int | None]) -> Iterator[str | int]:
    """FROM with the numbers of entries in their places. The condition of each ON is TRUE, since the conditions are
    tested below.
    """
    for part in frame:
        if isinstance(part, int):
            yield part
        else:
            yield " TRUE " if part is None else f" {part.text} "
