"""The terminal that shows explanations: its width, its colours, and a line of progress that is cleared again."""
import contextlib
import os
import re
from collections.abc import Iterator

from . import program

LEAST, MOST, USUAL = 40, 100, 80
BOLD, RED, PLAIN = "\033[1m", "\033[1;31m", "\033[0m"
CLEARED = "\r\033[K"
EXCERPT = re.compile(r"(?P<place>[^\n]*)(?P<line>\n[^\n]*\n *)(?P<mark>\^+)")


def columns(stream: int = 2) -> int:
    """How wide lines may be: one column less than the terminal, within limits."""
    given = os.environ.get("COLUMNS", "")
    try:
        wide = int(given) if given.isdigit() and int(given) else os.get_terminal_size(stream).columns
    except OSError:
        wide = USUAL
    return max(LEAST, min(wide or USUAL, MOST)) - 1


def is_able() -> bool:
    """Whether standard error is a terminal that understands escape sequences."""
    return program.is_terminal(2) and os.environ.get("TERM", "dumb") != "dumb"


def has_colours() -> bool:
    # https://no-color.org: any value but the empty one turns colours off.
    return is_able() and not os.environ.get("NO_COLOR")


def coloured(excerpt: str) -> str:
    """An excerpt of a text, with the marked place in bold and the mark below it in red."""
    match = EXCERPT.fullmatch(excerpt)
    if not match or not has_colours():
        return excerpt
    return f"{BOLD}{match['place']}{PLAIN}{match['line']}{RED}{match['mark']}{PLAIN}"


def show(text: str) -> None:
    """Shows a line in place of the line that was shown before."""
    if is_able():
        program.say(CLEARED + text[:columns()])


def clear() -> None:
    if is_able():
        program.say(CLEARED)


@contextlib.contextmanager
def saying(text: str) -> Iterator[None]:
    """Shows a line while the body of the `with` runs."""
    show(text)
    try:
        yield
    finally:
        clear()
