"""Finds the nearest of some names, and writes names as a list in a sentence."""
from __future__ import annotations

import difflib
from collections.abc import Iterable


def nearest(name: str, names: Iterable[str], cutoff: float = 0.6) -> str | None:
    """The name most similar to `name`, without regard to case, or None."""
    by_fold = {other.casefold(): other for other in reversed(list(names)) if other != name}
    found = difflib.get_close_matches(name.casefold(), by_fold, 1, cutoff)
    return by_fold[found[0]] if found else None


def hint(name: str, names: Iterable[str]) -> str:
    """A sentence that asks whether the nearest name was meant, or "". If an option is cut short, the option that begins
    with it counts as nearest.
    """
    those = list(names)
    begun = [other for other in those if name.startswith("--") and other.startswith(name) and other != name]
    found = begun[0] if len(begun) == 1 else nearest(name, those)
    return f" Did you mean {found}?" if found else ""


def series(names: Iterable[str], last: str = "and", most: int = 12) -> str:
    """Names in a sentence: `A, B and C`."""
    found = list(names)
    if len(found) > most:
        found = found[:most - 1] + [f"{len(found) - most + 1} more"]
    return found[0] if len(found) == 1 else f"{', '.join(found[:-1])} {last} {found[-1]}" if found else "none"
