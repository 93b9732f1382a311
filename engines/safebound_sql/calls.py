"""The calls of functions and operators in a query, by the names under which an engine finds them."""

from __future__ import annotations

from typing import NamedTuple

from .dialect import Dialect
from .reading import Tokens, at_commas
from .tokens import Token, closing


class Call(NamedTuple):
    """A name that may call a function, and how it is written.

    `how`: "bare", "qualified" (behind a schema), "attribute" (as a column of a row), "type" (of a cast), or "implicit",
    without a name, for casts that the engine adds by itself. `arguments` is their number, if it is known.
    """

    how: str
    name: str
    arguments: int | None = None


class Function(NamedTuple):
    """A function that a call may mean. `why_volatile` is None if it gives the same result at each call."""

    why_volatile: str | None = None
    returns_set: bool = False
    is_aggregate: bool = False


def calls(pieces: Tokens, dialect: Dialect) -> dict[Call, Token]:
    """What the tokens may call, each with its token."""
    found: dict[Call, Token] = {}
    for at, token in enumerate(pieces):
        behind_dot = at > 0 and pieces[at - 1].says(".")
        how = "qualified" if behind_dot else "bare"
        for name in dialect.operators_of_words(token):
            found.setdefault(Call("bare", name), token)
        if token.kind == "operator" or token.says(*dialect.calls_without_parentheses):
            found.setdefault(Call(how, dialect.normalized_name(token)), token)
        elif token.is_name and at + 1 < len(pieces) and pieces[at + 1].says("("):
            found.setdefault(call_at(pieces, at, dialect), token)
        elif dialect.columns_may_be_calls and behind_dot and token.is_name:
            found.setdefault(Call("attribute", dialect.normalized_name(token)), token)
        if dialect.casts_are_calls and _may_be_type(pieces, at):
            found.setdefault(Call("type", dialect.normalized_name(token)), token)
    if dialect.casts_are_calls and pieces:
        found.setdefault(Call("implicit", ""), pieces[0])
    return found


def call_at(pieces: Tokens, at: int, dialect: Dialect) -> Call:
    """The call of the function whose name is at `at`."""
    end = closing(pieces, at + 1)
    inner = pieces[at + 2 : end]
    if inner[:1] and inner[0].says("DISTINCT", "ALL"):
        inner = inner[1:]
    known = not (end + 1 < len(pieces) and pieces[end + 1].says("WITHIN"))
    given = [] if not inner or (len(inner) == 1 and inner[0].says("*")) else list(at_commas(_before_order(inner)))
    behind_dot = at > 0 and pieces[at - 1].says(".")
    name = dialect.normalized_name(pieces[at])
    return Call("qualified" if behind_dot else "bare", name, len(given) if known else None)


def _before_order(inner: Tokens) -> Tokens:
    """The arguments of an aggregate, without its ORDER BY."""
    at = 0
    while at < len(inner) and not (inner[at].says("ORDER") and inner[at + 1 : at + 2] and inner[at + 1].says("BY")):
        at = closing(inner, at) + 1 if inner[at].says("(", "[") else at + 1
    return inner[:at]


def _may_be_type(pieces: Tokens, at: int) -> bool:
    """Whether the word may be the type of a cast: x::type, CAST(x AS type), type(x) or type '..'."""
    before, after = pieces[max(at - 1, 0)], pieces[at + 1 : at + 2]
    return pieces[at].is_name and (
        before.says("::", "AS", ".") or bool(after and (after[0].says("(") or after[0].kind == "text"))
    )
