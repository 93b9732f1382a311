"""Tokens of schema and query texts, with their places in bytes (docs/DEFINITIONS.md, "Tokens")."""
from __future__ import annotations

import re
from dataclasses import dataclass

from safebound.sql_texts import RESERVED, name_of

MARK = b"\xef\xbb\xbf"
BETWEEN_TOKENS = re.compile(rb"(?:[ \t\r\n]+|--[^\n]*)*")
TOKEN = re.compile(
    rb"(?P<word>[A-Za-z][A-Za-z0-9_]*)|(?P<quoted>\"(?:[^\"]|\"\")+\"(?!\"))|(?P<number>[0-9]+)"
    rb"|(?P<text>'(?:[^']|'')*'(?!'))|(?P<symbol><>|<=|>=|[=<>(),.;*+-])", re.DOTALL)
CONTROL = re.compile(rb"[\x00-\x1f]")


@dataclass(frozen=True)
class Token:
    """A token, or a place where no token begins (`kind` is then "bad")."""
    kind: str
    start: int
    end: int
    source: str

    @property
    def word(self) -> str:
        """The word in upper case; "" if the token isn't a word."""
        return self.source.upper() if self.kind == "word" else ""

    @property
    def is_name(self) -> bool:
        return self.kind == "quoted" or self.kind == "word" and self.word not in RESERVED

    @property
    def name(self) -> str:
        """The name that the token spells: a word in upper case, a quoted name as written."""
        return name_of(self.source)

    def is_one(self, *sources: str) -> bool:
        """Whether the token is one of these words or symbols."""
        return self.kind in ("word", "symbol") and self.source.upper() in sources


def tokens_of(text: bytes) -> list[Token]:
    """The tokens of a text's bytes, up to the end or to the first place where no token begins."""
    found: list[Token] = []
    at = len(MARK) if text.startswith(MARK) else 0
    while True:
        between = BETWEEN_TOKENS.match(text, at)
        at = between.end() if between else at
        if at == len(text):
            return found
        match = TOKEN.match(text, at)
        control = match and match.lastgroup == "quoted" and CONTROL.search(match[0])
        if control or not match:
            at += control.start() if control else 0
            return found + [Token("bad", at, at + 1, shown(text[at:at + 40]))]
        found.append(Token(match.lastgroup or "", at, match.end(), shown(match[0])))
        at = match.end()


def shown(data: bytes) -> str:
    return data.decode("utf-8", "replace")
