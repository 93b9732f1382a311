"""Bounds of sets of entries."""

from __future__ import annotations

from collections.abc import Collection, Mapping
from typing import Dict, FrozenSet, Iterable, Iterator, Optional, Sequence, Tuple

from ._library import NO_BOUND
from ._tables import text_table
from .arguments import items_of, names_of, set_of, shown, whole_number
from .errors import BadBounds

__all__ = ["Bounds"]

# At most this many sets are shown, as many as four entries have.
_MOST_SHOWN = 16


def rows_text(bound: Optional[int]) -> object:
    """A bound as a printed table shows it."""
    return "no bound" if bound is None else bound


def _checked(number: object) -> int:
    found = whole_number("numbers", number)
    if found is None:
        raise BadBounds(f"numbers: {shown(number)} isn't from 0 to 2**64 - 1", number)
    return found


class Bounds(Mapping[FrozenSet[str], Optional[int]]):
    """The bounds of all sets of a query's entries, in rows: `bounds[{"film", "person"}]`. It is None if no bound is
    known.

    A set is given as any collection of names. A text is refused, since its characters would be taken for names.

    >>> bounds = Bounds(["r", "s"], [1, 6, 5, 12])
    >>> bounds[["s", "r"]]
    12
    >>> print(bounds)
    entries  rows at most
    r                   6
    s                   5
    r, s               12
    """

    def __init__(self, entries: Sequence[str], numbers: Sequence[int]) -> None:
        names = names_of("entries", entries)
        found = tuple(map(_checked, items_of("numbers", numbers, "bounds")))
        if len(found) != 1 << len(names):
            said = f"numbers: {len(names)} entries have {1 << len(names)} bounds, not {len(found)}"
            raise BadBounds(said, len(found))
        self._keep(names, found)

    @classmethod
    def _of(cls, entries: Tuple[str, ...], numbers: Iterable[int]) -> Bounds:
        """The bounds as the library gave them, which aren't checked again."""
        made = cls.__new__(cls)
        made._keep(entries, tuple(numbers))
        return made

    def _keep(self, entries: Tuple[str, ...], numbers: Tuple[int, ...]) -> None:
        self.entries = entries
        self._bit: Dict[str, int] = {entry: 1 << at for at, entry in enumerate(entries)}
        self._numbers = numbers

    def __getitem__(self, entries: Collection[str]) -> Optional[int]:
        return self._bound(set_of(entries, self._bit))

    def _bound(self, bits: int) -> Optional[int]:
        return None if self._numbers[bits] == NO_BOUND else self._numbers[bits]

    def _names(self, bits: int) -> FrozenSet[str]:
        return frozenset(entry for entry, bit in self._bit.items() if bits & bit)

    def __iter__(self) -> Iterator[FrozenSet[str]]:
        return map(self._names, range(len(self._numbers)))

    def __len__(self) -> int:
        return len(self._numbers)

    def __eq__(self, other: object) -> bool:
        if isinstance(other, Bounds) and self.entries == other.entries:
            return self._numbers == other._numbers
        return super().__eq__(other)

    def __hash__(self) -> int:
        return hash((frozenset(self.entries), self._numbers[-1]))

    def __repr__(self) -> str:
        shown = ", ".join(f"{set(self._names(number)) or '{}'}: {self._bound(number)}" for number in self._shown())
        left = len(self) - len(self._shown()) - 1
        return f"<Bounds {{{shown}}}{f' and {left} other sets' if left else ''}>"

    def __str__(self) -> str:
        rows = [
            (", ".join(e for e in self.entries if e in self._names(number)), rows_text(self._bound(number)))
            for number in self._shown()
        ]
        left = len(self) - len(rows) - 1
        return text_table(["entries", "rows at most"], rows) + (f"\nand {left} other sets" if left else "")

    def _shown(self) -> Sequence[int]:
        """The sets that are shown: all but the empty one. If there are too many, only single entries and the set of
        all.
        """
        if len(self) <= _MOST_SHOWN:
            return sorted(range(1, len(self)), key=lambda number: (bin(number).count("1"), number))
        return [*self._bit.values(), len(self) - 1]
