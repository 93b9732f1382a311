"""What a user has been told in a folder already: notes that are worth reading once, and not before each run.

A file in the user's cache has a line for each note and folder. Without it, or where it can't be written, each note is
news.
"""
from __future__ import annotations

import hashlib
import os

MOST_LINES = 1000


def cache_file() -> str:
    """The file's path, by the rules for desktops of freedesktop.org; "" if the user has no home."""
    cache = os.environ.get("XDG_CACHE_HOME") or os.path.join(os.environ.get("HOME", ""), ".cache")
    return os.path.join(cache, "safebound", "told") if os.path.isabs(cache) else ""


def is_news(text: str) -> bool:
    """Whether this text hasn't been told yet in this folder. It is then noted as told."""
    file = cache_file()
    if not file:
        return True
    line = hashlib.sha256(os.fsencode(os.path.realpath(".")) + b"\0" + os.fsencode(text)).hexdigest()
    try:
        lines = lines_of(file)
        if line in lines:
            return False
        os.makedirs(os.path.dirname(file), mode=0o700, exist_ok=True)
        with open(file, "w", encoding="ascii") as f:
            f.writelines(f"{one}\n" for one in [*lines, line][-MOST_LINES:])
    except (OSError, ValueError):
        pass
    return True


def lines_of(file: str) -> list[str]:
    try:
        with open(file, encoding="ascii") as f:
            return f.read().split()
    except FileNotFoundError:
        return []
