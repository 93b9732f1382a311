"""Shared parts of explanations of schema and query texts: the place, what was read, what may stand there, and bytes
that are no UTF-8.
"""
from __future__ import annotations

import itertools
import unicodedata
from dataclasses import dataclass
from collections.abc import Callable
from typing import Optional, Tuple, TYPE_CHECKING

from ..convert import not_text_message
from ..near import hint, series
from ..spot import plain, spot
from ..tokens import Token

if TYPE_CHECKING:
    from . import Run
    from ..query import Query
    from ..schema import Schema

INVISIBLE = {
    "\u00a0": "a no-break space",
    "\ufeff": "a byte order mark",
    "\u200b": "a space of no width",
    "\u3000": "a wide space",
    "\f": "a form feed",
    "\v": "a vertical tab",
    "\0": "a NUL",
}
WITHIN_NAMES = {"\n": "a line end", "\r": "a line end", "\t": "a tab"}
QUOTES = "\u2018\u2019\u201c\u201d\u201e\u00ab\u00bb\u00b4"
CHARACTERS = {
    "!": "Unequal is written <>, as in A.X <> B.X.",
    "`": (
        'Names take double quotes where they need any, and no backticks: "name". Without quotes a name is read in upper'
        ' case.'
    ),
    "[": (
        'Names take double quotes where they need any, and no brackets: "name". Without quotes a name is read in upper'
        ' case.'
    ),
    "]": 'Names take double quotes where they need any, and no brackets: "name".',
    "#": "A comment begins with -- and goes to the end of its line.",
    "{": "A comment begins with -- and goes to the end of its line.",
    "?": "There are no parameters: write the value itself.",
    "$": "There are no parameters: write the value itself.",
    ":": "There are no parameters and no casts: write the value itself.",
    "@": "There are no parameters: write the value itself.",
    "%": "There is no arithmetic in conditions: compute the value, and write that.",
    "\\": "A \\ has no meaning here. A quote within a text is written twice: 'it''s'.",
}


NO_ARITHMETIC_THERE = (
    "There is no arithmetic in SELECT: take the column itself, and compute behind the command, or store the result as a"
    " column."
)


@dataclass
class Place:
    """A place in the tokens of a text: the token there, its neighbours, and what the grammar allows there."""
    tokens: list[Token]
    at: int
    expected: tuple[str, ...]
    # Whether the grammar fails at this token.
    is_grammar_error: bool = True
    # For ORDER BY: for each output column of the query its names, and whether it is a number.
    outs: tuple[tuple[set[str], bool], ...] = ()

    def token(self, ahead: int = 0) -> Token:
        at = self.at + ahead
        return self.tokens[at] if 0 <= at < len(self.tokens) else Token("end", -1, -1, "")

    def word(self, ahead: int = 0) -> str:
        return self.token(ahead).word


def is_in_select(place: Place) -> bool:
    """Whether a place lies between SELECT and FROM."""
    return any(token.is_one("SELECT") for token in place.tokens[: place.at]) and not any(
        token.is_one("FROM") for token in place.tokens[: place.at]
    )


def place_of(read: Query | Schema, at: int) -> Place:
    """The place of the first token that begins at this byte or later."""
    found = next((i for i, token in enumerate(read.tokens) if token.start >= at), len(read.tokens))
    return Place(read.tokens, found, read.expected, read.wrong_at == found)


def marked_line_of_text(file: str, data: bytes, read: Query | Schema, at: int, length: int) -> str:
    """The line of a text with a mark below the place. A name with accents is marked whole. At the end of the text, the
    mark is right behind the last token.
    """
    name = accented(data, read.tokens, at)
    if name:
        return spot(file, data, at - name.offset, name.length)
    last = read.tokens[-1] if read.tokens else None
    if last is not None and last.kind != "bad" and at >= last.end:
        at = last.end
    return spot(file, data, at, length)


@dataclass
class Accented:
    """A name with letters other than A to Z. `offset` says how many bytes before the first of these letters the name
    begins.
    """
    name: str
    offset: int

    @property
    def length(self) -> int:
        return len(self.name.encode())


def is_letter(c: str) -> bool:
    return c.isalnum() or c == "_" or unicodedata.combining(c) > 0


def accented(data: bytes, tokens: list[Token], at: int) -> Accented | None:
    """If a letter other than A to Z begins at this byte: the whole name around it. Otherwise None."""
    number = next((i for i, token in enumerate(tokens) if token.kind == "bad" and token.start == at), None)
    if number is None or not (tokens[number].source[:1].isalpha() or unicodedata.combining(tokens[number].source[:1])):
        return None
    before = (
        tokens[number - 1] if number and tokens[number - 1].kind == "word" and tokens[number - 1].end == at else None
    )
    text = data[before.start if before else at:].decode("utf-8", "replace")
    length = next((i for i, c in enumerate(text) if not is_letter(c)), len(text))
    return Accented(text[:length], at - before.start if before else 0)


def quotes_for(found: Accented, names: list[str]) -> str:
    """What to do about a name with an accent: write the existing name without the accent, or put the name in double
    quotes.
    """
    bare = "".join(c for c in unicodedata.normalize("NFD", found.name) if not unicodedata.combining(c))
    return (
        'A name with other letters than A to Z stands in double quotes, which keep its upper and lower case:'
        f' "{plain(found.name)}".{hint(bare, names)}'
    )


def not_utf8(file: str, data: bytes, at: int, run: Run) -> list[str] | None:
    """An explanation if the bytes are no UTF-8, else None."""
    try:
        data.decode("utf-8")
    except UnicodeDecodeError as bad:
        if bad.start == at:
            return [
                spot(file, data, at), f"This byte (0x{data[at]:02X}) is no UTF-8. {how_to_convert(data, file, run)}",
            ]
    return None


def how_to_convert(data: bytes, file: str, run: Run) -> str:
    """The command that writes a file in UTF-8."""
    if not_text_message(data):
        return f"The file {not_text_message(data)}."
    is_wide = data[:2] in (b"\xff\xfe", b"\xfe\xff")
    looks = (
        "The file looks like UTF-16, as Excel writes its Unicode texts" if is_wide
        else "The file may be Latin-1 or Windows-1252, as older programs write it"
    )
    return f"{looks}. This writes it in UTF-8:{convert_line(file, run)}"


def convert_line(file: str, run: Run) -> str:
    """The command that converts a file, on a line of its own."""
    return f"\n    safebound convert {plain(run.path_of(file))}"


def bad_character(place: Place) -> str:
    """What to do about characters that begin no token."""
    token = place.token()
    first = token.source[:1]
    if token.source[:2] in JOINERS:
        return instead_of_joiner(token.source[:2], "AND" in place.expected)
    if first in WITHIN_NAMES:
        return (
            f'Here is {WITHIN_NAMES[first]} within a name in double quotes. A name stands on one line, and has no'
            ' control characters: take it away, or close the name before it by a ".'
        )
    if token.source.startswith("/*"):
        return "A comment begins with -- and goes to the end of its line; there is no /* */."
    if first in "/%" and is_in_select(place):
        return NO_ARITHMETIC_THERE
    if first == "/":
        return "There is no arithmetic in conditions: compute the value, and write that."
    if first in INVISIBLE:
        return f"Here stands {INVISIBLE[first]} (U+{ord(first):04X}), which isn't seen: replace it by a blank."
    if first in QUOTES:
        return "These are quotes of a word processor: texts take ' and names take \"."
    if first == "'":
        missing = "This text isn't closed: a ' is missing behind it. A quote within a text is written twice: 'it''s'."
        return quote_within(place) or missing
    if first == '"':
        return bad_name(token.source)
    return CHARACTERS.get(first, f"The character {plain(first)} has no meaning here.")


def quote_within(place: Place) -> str:
    """A sentence if a quote within a text ends it, as in 'O'Brien'. A word then begins right behind the text."""
    tokens = place.tokens
    at = next(
        (i for i, t in enumerate(tokens[:-1]) if t.kind == "text" and tokens[i + 1].kind == "word"
         and tokens[i + 1].start == t.end), None
    )
    if at is None:
        return ""
    behind = list(itertools.takewhile(lambda token: not token.source.startswith("'"), tokens[at + 1:]))
    rest = "".join(" " * (token.start - before.end) + token.source for before, token in zip(tokens[at:], behind))
    within = tokens[at].source[1:-1].rstrip("\\")
    return (
        "This text isn't closed, since the one before it ends within"
        f" {plain(within.split(' ')[-1])}'{plain(behind[0].source)}. A quote within a text is"
        f" written twice: '{plain(within)}''{plain(rest)}'."
    )


JOINERS = {"||": "OR", "&&": "AND"}


def instead_of_joiner(sign: str, is_behind_a_condition: bool) -> str:
    """What to write in place of a sign that joins conditions or texts in other languages."""
    if sign == "||" and not is_behind_a_condition:
        return (
            "Texts can't be put together: || isn't part of the language. Take both columns, and put them together"
            " behind the command."
        )
    return f"Conditions are joined by {JOINERS[sign]}: {sign} isn't part of the language."


def bad_name(source: str) -> str:
    if source.startswith('""'):
        return "A name has at least one character. An empty text is written ''."
    return 'This name isn\'t closed: a " is missing behind it, on the same line.'


SPOKEN = {",": "a comma", ".": "a point", ";": "a semicolon"}


def token_in_words(source: str) -> str:
    """How a sentence names a token."""
    return SPOKEN.get(source, plain(source)[:40])


def what_stands(place: Place) -> str:
    """What was read at the place, and behind which token."""
    token, before = place.token(), place.token(-1)
    behind = f" behind {token_in_words(before.source)}" if before.source else ""
    if token.kind == "end":
        return f"The text ends here{behind}." if behind else "The text holds nothing."
    said = token_in_words(token.source)
    return (
        f"{said[0].upper()}{said[1:]} can't stand here{behind}." if token.source in SPOKEN
        else f"{said} can't stand here{behind}."
    )


def may_stand(place: Place) -> str:
    expected = list(dict.fromkeys(token_in_words(what) for group in place.expected for what in group.split(" or ")))
    return f"Here may stand {series(expected, 'or', 16)}." if expected else ""


# Functions that each give advice for a place, or None if they don't fit it.
Rules = Tuple[Callable[["Place"], Optional[str]], ...]


def first_said(rules: Rules, place: Place) -> str:
    """The first piece of advice that fits."""
    return next((said for rule in rules for said in [rule(place)] if said), "")


def with_advice(place: Place, certain: Rules, guesses: Rules) -> list[str]:
    """What was read, and what to do. If the advice is a guess, the list also says what may stand there."""
    said = first_said(certain, place)
    return [what_stands(place), said] if said else [what_stands(place), first_said(guesses, place), may_stand(place)]
