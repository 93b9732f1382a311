"""The SQL of an engine: how it reads names, and how to write it. A dialect is data, and needs no connection."""

from __future__ import annotations

import re
from dataclasses import dataclass
from typing import Iterable, Iterator

from .query import Column, Table
from .tokens import Token, unquoted


@dataclass(frozen=True)
class Dialect:
    """How an engine's SQL is read and written.

    `comma_binds_less` says that a comma of FROM binds less than JOIN. `plain_words` are keywords of other engines that
    are names in this one. `texts_name_outputs` says that an output without an alias is named by its text. A `reserved`
    word is a column only in quotes. `settings` keep the joins of a statement in their order. Some engines compute a
    part of WITH again wherever it is named: `most_parts_of_a_part` and `most_scans`
    limit this. `counts_exactly` says that numbers may be of any size.
    """

    name: str
    title: str
    rules: re.Pattern[str]
    comma_binds_less: bool = True
    merged_columns_first: bool = True
    equals: tuple[str, ...] = ("=",)
    calls_without_parentheses: tuple[str, ...] = ()
    outputs_in_conditions: bool = False
    texts_name_outputs: bool = False
    plain_words: tuple[str, ...] = ()
    schemas_in_names: bool = True
    knows_blocks: bool = True
    keeps_using: bool = False
    takes_bare_columns: bool = False
    columns_may_be_calls: bool = False
    casts_are_calls: bool = False
    rows_are_values: bool = True
    parts_see_each_other: bool = False
    row_number: str = "ROW_NUMBER() OVER ()"
    reserved: frozenset[str] = frozenset()
    most_parts_of_a_part: int | None = None
    most_scans: int | None = None
    settings: tuple[str, ...] = ()
    join_word: str = "JOIN"
    keeps_trees: bool = True
    keeps_parts: str = "AS MATERIALIZED"
    takes_rows_in: bool = True
    star_over_using: bool = True
    makes_tables: bool = False
    counts_exactly: bool = False
    why_volatile: str = "it may answer anew at each call"
    why_clock: str = "the time may be another one at each statement"

    def quote(self, name: str) -> str:
        """The name as SQL, in quotes."""
        return '"' + name.replace('"', '""') + '"'

    def with_parts(self, parts: list[tuple[str, str]], select: str) -> str:
        """The statement with named parts before it. A part may name the parts before it."""
        written = ",\n  ".join(f"{name} {self.keeps_parts} ({text})" for name, text in parts)
        return f"WITH\n  {written}\n{select}" if parts else select

    def settings_for(self, tables: Iterable[Table]) -> tuple[str, ...]:
        """The settings that keep a statement's joins of these tables in their order."""
        return self.settings

    def normalized(self, name: str, quoted: bool) -> str:
        """The name in the form that the engine compares."""
        return name if quoted else lower(name)

    def normalized_name(self, token: Token) -> str:
        """The name of a table, column, function or operator, in the form that the engine compares."""
        quoted = token.kind in ("quoted", "text")
        return self.normalized(unquoted(token) if quoted else token.text, quoted)

    def operators_of_words(self, token: Token) -> tuple[str, ...]:
        """The operators that a keyword stands for, as LIKE does."""
        return ()

    def reads_clock(self, pieces: list[Token], at: int, in_view: bool = False) -> bool:
        """Whether a function that reads the clock begins at the token `at`. Such a function may give two statements
        different times.

        `in_view`: the tokens are those of a view, and it isn't known whose columns they name.
        """
        return False

    def clock_arguments(self, pieces: list[Token]) -> Iterator[tuple[Token, list[Token]]]:
        """The calls of date functions whose argument is a column, each with the tokens of that column. They read the
        clock if the column has the value 'now'.
        """
        return iter(())

    def remote_in(self, value: str, column: Column, rows: str) -> str:
        """A condition that a foreign server can test: the value is one of the values of this column of `rows`, which
        are sent to the server.
        """
        raise NotImplementedError(f"{self.title} has no tables on other servers")


def lower(name: str) -> str:
    """The name with its ASCII letters in lower case."""
    return "".join(c.lower() if c.isascii() else c for c in name)


def as_script(*statements: str) -> str:
    """The statements, one below the other."""
    return "".join(f"{statement};\n" for statement in statements)
