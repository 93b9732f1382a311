"""Splits SQL into tokens by the engine's own rules, so that texts are handed on exactly as written.

sqlglot's tokens have no places, and it doesn't reproduce a text exactly. In Debian 12's version x'00ff' becomes x'FF',
OR binds as AND does, TABLESAMPLE is dropped, and 'sad'::mood can't be read. Conditions go to the engine in the user's
own characters, so this module splits the text itself.
"""

from __future__ import annotations

import re
from typing import Iterable, NamedTuple

from .faults import Refused


class Token(NamedTuple):
    """A token: its kind, its characters, its place, and the gap before it ("", " " or a line's end)."""

    kind: str
    text: str
    at: int
    gap: str

    def says(self, *words: str) -> bool:
        """Whether it is one of these words or marks, in upper or lower case."""
        return self.kind in ("word", "mark", "operator") and self.text.upper() in words

    @property
    def is_name(self) -> bool:
        return self.kind in ("word", "quoted")


WORD = r"(?P<word>[^\W\d][\w$]*)"
NUMBER = r"(?P<number>0[xX][0-9a-fA-F]+|(?:\d+\.?\d*|\.\d+)(?:[eE][+-]?\d+)?)"
SPACE = r"(?P<space>[ \t\n\r\f\v]+|--[^\n]*)"

POSTGRES = re.compile(
    "|".join(
        [
            SPACE,
            r"(?P<comment>/\*)",
            r"(?P<text>[eE]'(?:[^'\\]|\\.|'')*'|[uU]&'(?:[^']|'')*'|[bBxXnN]?'(?:[^']|'')*'"
            r"|\$(?P<tag>(?:[^\W\d]\w*)?)\$.*?\$(?P=tag)\$)",
            r'(?P<escaped>[uU]&"(?:[^"]|"")+")',
            r'(?P<quoted>"(?:[^"]|"")+")',
            NUMBER,
            WORD,
            r"(?P<mark>::|:=|[(),.;:\[\]])",
            r"(?P<operator>(?:(?!--|/\*)[+\-*/<>=~!@#%^&|`?])+)",
        ]
    ),
    re.DOTALL,
)

SQLITE = re.compile(
    "|".join(
        [
            SPACE,
            r"(?P<space_too>/\*.*?(?:\*/|\Z))",
            r"(?P<text>[xX]?'(?:[^']|'')*')",
            r'(?P<quoted>"(?:[^"]|"")+"|`(?:[^`]|``)+`|\[[^\]]+\])',
            NUMBER,
            WORD,
            r"(?P<mark>[(),.;])",
            r"(?P<operator>\|\||->>?|<<|>>|<=|>=|<>|!=|==|[+\-*/%<>=&|~])",
        ]
    ),
    re.DOTALL,
)

DOUBLE_QUOTES = r'"(?:[^"\'\\]|"")+"'
BACKTICKS = r"`[^`'\\.]+`"


def dialect_rules(
    quoted: str, texts: str = "'", comments: str | None = None, suffixes: str = "(?!)"
) -> re.Pattern[str]:
    """Rules that don't depend on how an engine reads a backslash in a text, or a comment within a comment. Where it
    would matter, no token matches, and the query is refused. `texts` are the quote marks of texts, and `suffixes` are
    letters that may end a number.
    """
    text = "|".join(rf"(?!{mark * 3}){mark}(?:[^{mark}\\]|\\(?!{mark})|{mark}{mark})*{mark}" for mark in texts)
    return re.compile(
        "|".join(
            [
                rf"(?P<space>[ \t\n\r\f\v]+|(?:--{'|' + comments if comments else ''})[^\n\\]*)",
                r"(?P<space_too>/\*(?:(?!/\*|\*/).)*\*/)",
                rf"(?P<text>[xX]?(?:{text}))",
                rf"(?P<quoted>{quoted})",
                rf"(?P<number>0[xX][0-9a-fA-F]+|(?:\d+\.?\d*|\.\d+)(?:[eE][+-]?\d+)?(?:{suffixes})?(?![\w$]))",
                r"(?P<word>(?!(?:[bBnNeErR]|[bB][rR]|[rR][bB]|[uU]&)['\"])[^\W\d][\w$]*)",
                r"(?P<mark>::|[(),.;\[\]])",
                r"(?P<operator>\|\||->>?|=>|<=>|<<|>>|<=|>=|<>|!=|==|\|(?!>)|/(?![*/])|-(?!-)|[+*%<>=&~^])",
            ]
        ),
        re.DOTALL,
    )


MOST_PARENTHESES = 200

_COMMENT_ENDS = re.compile(r"/\*|\*/")


def place(text: str, at: int) -> str:
    """The line and column of a character of the text."""
    before = text[:at].split("\n")
    return f"line {len(before)}, column {len(before[-1]) + 1}"


def tokens(text: str, rules: re.Pattern[str]) -> list[Token]:
    """All tokens of the text, without comments and blanks."""
    found, at, gap, depth = [], 0, "", 0
    while at < len(text):
        match = rules.match(text, at)
        if not match:
            raise Refused(f"{text[at]!r} at {place(text, at)} begins nothing that is known, or never ends")
        kind, end = match.lastgroup, match.end()
        if kind == "escaped":
            raise Refused(
                f"{match.group()} at {place(text, at)}: a name with escapes; write its characters in double quotes"
            )
        if kind == "comment":
            end = _end_of_comment(text, at)
        if kind == "operator":
            end = at + len(_operator(match.group()))
        if kind in ("space", "space_too", "comment"):
            gap = "\n" if "\n" in text[at:end] or gap == "\n" else " "
        else:
            found.append(Token(kind or "", text[at:end], at, gap))
            gap = ""
            depth += found[-1].says("(") - found[-1].says(")")
            if depth > MOST_PARENTHESES:
                raise Refused(f"( at {place(text, at)}: more than {MOST_PARENTHESES} parentheses are open there")
        at = end
    return found


def without_end(text: str, pieces: list[Token]) -> str:
    """The text without what follows its last token: semicolons and comments."""
    last = next((token for token in reversed(pieces) if not token.says(";")), None)
    return text[: last.at + len(last.text)] if last else ""


def _end_of_comment(text: str, at: int) -> int:
    """The end of a comment. PostgreSQL's comments nest."""
    depth = 0
    for match in _COMMENT_ENDS.finditer(text, at):
        depth += 1 if match.group() == "/*" else -1
        if depth == 0:
            return match.end()
    raise Refused(f"the comment at {place(text, at)} never ends")


def _operator(run: str) -> str:
    """The longest operator that the run begins with. In PostgreSQL it may end in + or - only if it also has one of the
    characters below.
    """
    while len(run) > 1 and run[-1] in "+-" and not set(run) & set("~!@#%^&|`?"):
        run = run[:-1]
    return run


def written(pieces: Iterable[Token]) -> str:
    """The text of the tokens."""
    parts: list[str] = []
    before: Token | None = None
    for token in pieces:
        parts += [gap_between(before, token) if before else "", token.text]
        before = token
    return "".join(parts)


def gap_between(before: Token, token: Token) -> str:
    """The gap between two tokens. A line's end is kept only between two texts, since the engine joins such texts into
    one.
    """
    return "\n" if token.gap == "\n" and token.kind == before.kind == "text" else token.gap and " "


def unquoted(token: Token) -> str:
    """The name that a quoted token spells."""
    quote = token.text[-1]
    inner = token.text[1:-1]
    return inner if quote == "]" else inner.replace(quote * 2, quote)


def closing(pieces: list[Token], start: int) -> int:
    """Where the parenthesis or bracket at `start` closes. If it doesn't, the number of tokens."""
    depth = 0
    for at in range(start, len(pieces)):
        if pieces[at].says("(", "["):
            depth += 1
        elif pieces[at].says(")", "]"):
            depth -= 1
            if depth == 0:
                return at
    return len(pieces)


def part_of_name(pieces: list[Token], at: int) -> bool:
    """Whether a word belongs to a name with a dot, and so isn't a keyword."""
    return (at > 0 and pieces[at - 1].says(".")) or (at + 1 < len(pieces) and pieces[at + 1].says("."))
