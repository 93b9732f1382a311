"""Reads the command line: takes out the options of the friendly command, and keeps every other word unchanged."""
from __future__ import annotations

from dataclasses import dataclass, field
from typing import TYPE_CHECKING

from .table import (
    ACCURACY, BUDGET, BUSHY, BY_WORD, COUNT, DATA, KEYS, MOST_SEED, REDUCE, STATS, TEXTS, own_options,
    options_with_value,
)

if TYPE_CHECKING:
    from .sheets import Sheet
    from .table import Option


# Options of which some pairs can't stand together, and two of which one limits the other's value.
EXCLUDING = {option.word for option in (ACCURACY, COUNT, KEYS, REDUCE, STATS)}
LIMITING = {BUDGET.word, BUSHY.word}


class Misused(ValueError):
    """Words that the friendly command itself can't take."""


@dataclass
class Line:
    """The words for the program, and the values of the friendly command's own options.

    `user_folder` is the folder that was current before `--data` changed it. `is_proposed` says that the schema is
    proposed, and `sheets` has the tables from which it is.
    """
    words: list[str] = field(default_factory=list)
    own: dict[str, str] = field(default_factory=dict)
    user_folder: str | None = None
    is_proposed: bool = False
    sheets: list[Sheet] = field(default_factory=list)

    @property
    def command(self) -> str:
        return self.words[0] if self.words else ""


def lacks_schema(line: Line) -> bool:
    """Whether the command expects a schema and a query, and the line has only a query and `--data`."""
    command = BY_WORD.get(line.command)
    takes_texts = command is not None and command.positional == TEXTS and not command.optional
    return takes_texts and DATA.word in line.own and len(positional_words(line.words[1:])) == 1


def is_surely_right(line: Line) -> bool:
    """Whether the program takes the words for certain. It may take others too: options that exclude each other in some
    lines, or a value behind =, are left to it.
    """
    command, words = BY_WORD.get(line.command), line.words[1:]
    if command is None or any(word.startswith("-") and "=" in word for word in words):
        return False
    known = {option.word: option for option in command.options}
    given, found = options(words), positional_words(words)
    return (
        len(found) == len(command.positional) and len(set(given)) == len(given) and known.keys() >= set(given)
        and len(EXCLUDING & set(given)) < 2 and not LIMITING <= set(given)
        and (command.positional != ("NUMBER",) or is_number(found[0], 0, MOST_SEED))
        and all(fits(known[word], option_of(words, word)) for word in given)
    )


def fits(option: Option, value: str | None) -> bool:
    if not option.value:
        return True
    if option.least is None or option.most is None:
        return bool(value) and not str(value).startswith("-")
    return value is not None and is_number(value, option.least, option.most)


def is_number(text: str, least: int, most: int) -> bool:
    return text.isascii() and text.isdigit() and len(text) < 20 and least <= int(text) <= most


def options(words: list[str]) -> list[str]:
    """The options among the words after the command, each without its value."""
    found, left, with_value = [], list(words), options_with_value()
    while left and left[0] != "--":
        word = left.pop(0)
        if word in with_value:
            del left[:1]
        if word.startswith("-") and word != "-":
            found.append(word.partition("=")[0])
    return found


def read_line(words: list[str]) -> Line:
    """Splits a list of words into a line. After `--`, and where another option expects its value, a word isn't one of
    our options.
    """
    line, left, own, with_value = Line(), list(words), own_options(), options_with_value()
    while left:
        word = left.pop(0)
        head, equals, value = word.partition("=")
        if word == "--":
            line.words += [word, *left]
            left = []
        elif word in with_value:
            line.words += [word, *left[:1]]
            del left[:1]
        elif word in own or head in own and own[head].value and equals:
            add_own(line, own[head if equals else word], value if equals else None, left)
        else:
            line.words.append(word)
    return line


def add_own(line: Line, option: Option, value: str | None, left: list[str]) -> None:
    if option.word in line.own:
        raise Misused(f"{option.word} stands twice")
    if option.value and value is None:
        if not left:
            raise Misused(f"{option.word} lacks its value: {option.spelled}")
        value = left.pop(0)
    if option.value and not value:
        raise Misused(f"{option.word} has an empty value: {option.spelled}")
    line.own[option.word] = value or ""


def positional_words(words: list[str]) -> list[str]:
    """The positional words after the command: all that are neither an option nor an option's value."""
    found: list[str] = []
    left, with_value = list(words), options_with_value()
    while left:
        word = left.pop(0)
        if word == "--":
            return found + left
        if word in with_value:
            del left[:1]
        elif not word.startswith("-") or word == "-":
            found.append(word)
    return found


def option_of(words: list[str], option: str) -> str | None:
    """The value of an option among the words of a command, or None."""
    left = list(words)
    while left:
        word = left.pop(0)
        if word == "--":
            return None
        if word == option:
            return left[0] if left else None
        if word.startswith(option + "="):
            return word[len(option) + 1:]
    return None
