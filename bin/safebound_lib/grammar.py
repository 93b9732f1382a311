"""Reads tokens by a grammar, rule by rule. After an error it knows what it expected at that place."""
from __future__ import annotations

from collections.abc import Callable
from typing import NoReturn, TYPE_CHECKING, TypeVar

if TYPE_CHECKING:
    from .tokens import Token

Read = TypeVar("Read")


class Wrong(Exception):
    """The tokens don't fit the grammar."""


class Reader:
    """Walks along the tokens. It remembers the furthest token that it tested, and everything that it expected there."""

    def __init__(self, tokens: list[Token]) -> None:
        self.tokens, self.at, self.furthest = tokens, 0, 0
        self.expected: list[str] = []

    @property
    def token(self) -> Token | None:
        return self.tokens[self.at] if self.at < len(self.tokens) else None

    def test(self, passes: Callable[[Token], bool], what: str) -> bool:
        """Whether the next token passes. `what` names the expected thing, and is remembered."""
        if self.at > self.furthest:
            self.furthest, self.expected = self.at, []
        if what not in self.expected:
            self.expected.append(what)
        return self.token is not None and passes(self.token)

    def has(self, *sources: str) -> bool:
        return self.test(lambda token: token.is_one(*sources), " or ".join(sources))

    def maybe(self, *sources: str) -> Token | None:
        """Takes the next token if it is one of these words or symbols."""
        return self.next() if self.has(*sources) else None

    def take(self, *sources: str) -> Token:
        return self.maybe(*sources) or self.fail()

    def has_kind(self, kind: str, what: str) -> bool:
        return self.test(lambda token: token.kind == kind, what)

    def has_name(self, what: str) -> bool:
        return self.test(lambda token: token.is_name, what)

    def take_name(self, what: str) -> Token:
        return self.next() if self.has_name(what) else self.fail()

    def next(self) -> Token:
        self.at += 1
        return self.tokens[self.at - 1]

    def fail(self) -> NoReturn:
        raise Wrong()

    def separated(self, rule: Callable[[], Read], separator: str = ",") -> list[Read]:
        """Reads by a rule one or more times, with separators between. Returns the results."""
        found = [rule()]
        while self.maybe(separator):
            found.append(rule())
        return found
