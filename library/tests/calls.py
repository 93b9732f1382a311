"""Calls given as plain numbers, and their results in C and in Python.

Each call is made by the C program (calls.c) and through ctypes. The results have to be equal.
"""

from __future__ import annotations

import ctypes
import importlib
import os
import subprocess
import sys
from typing import Any, Iterator, NamedTuple, Optional, Sequence, Tuple, Union

HERE = os.path.dirname(os.path.abspath(__file__))
ROOT = os.path.dirname(os.path.dirname(HERE))
sys.dont_write_bytecode = True
sys.path[:0] = [os.path.join(ROOT, "python"), os.path.join(ROOT, "cases")]
os.environ.setdefault("PYTHONPATH", sys.path[0])

from safebound import _library  # noqa: E402

Status = _library.Status

PROGRAM = os.environ.get("SAFEBOUND_CALLS", os.path.join(ROOT, "library", "out", "calls"))
MOST_ROWS, MOST_BUDGET = 2**48, 2**59
NO_BOUND, NO_VALUES = _library.NO_BOUND, _library.NO_VALUES
UNTOUCHED = 0xA5A5A5A5A5A5A5A5

NUMBER, BYTE = ctypes.c_uint64, ctypes.c_char
QUERY = [NUMBER, _library.Equality, _library.List, _library.Run]
OF_RUNS = ("degrees", "compress", "append", "lesser", "greater", "cut")
OF_NUMBERS = ("bounds", "bounds_within", "set_bound", "joined_rows")
ELEMENTS: dict[str, Any] = {
    **dict.fromkeys(OF_RUNS, _library.Run), **dict.fromkeys(OF_NUMBERS, NUMBER),
    "order": _library.Level, "tree": _library.Join, "version": BYTE,
}
ARRAYS: dict[str, list[Any]] = {
    "degrees": [NUMBER],
    "compress": [_library.Run],
    "cut": [_library.Run],
    "order": [NUMBER],
    "tree": [NUMBER],
    **dict.fromkeys(("append", "lesser", "greater"), [_library.Run] * 2),
    **dict.fromkeys(("bounds", "bounds_within", "set_bound"), QUERY),
    "version": [],
}
WITHOUT_ROOM = {"set_bound", "joined_rows"}


# A number, or several numbers that belong together, such as a run's degree and its number of keys.
Element = Union[int, Tuple[int, ...]]


class Answer(NamedTuple):
    status: int
    detail: Optional[int]
    elements: list[Any]


class Call(NamedTuple):
    """A call: its name, its arrays, the room for its result, and its further number, such as an accuracy."""

    name: str
    arrays: Sequence[Sequence[Element]]
    room: int
    number: Optional[int] = None

    def line(self) -> str:
        parts: list[object] = [self.name, *([] if self.number is None else [self.number]), self.room]
        for array in self.arrays:
            parts += [len(array)] + [n for element in array for n in flat(element)]
        return " ".join(map(str, parts))


def module(name: str) -> Any:
    """The module, or None if it isn't installed."""
    try:
        return importlib.import_module(name)
    except ImportError:
        return None


def flat(element: Element) -> Sequence[int]:
    return element if isinstance(element, tuple) else [element]


def fields(element: Any) -> list[int]:
    if isinstance(element, ctypes.Structure):
        return [getattr(element, name) for name, _ in element._fields_]
    return [element[0] if isinstance(element, bytes) else element]


def shaped(name: str, numbers: list[int]) -> list[Element]:
    """The numbers of a result as elements. An element with several numbers is a tuple."""
    wide = len(getattr(ELEMENTS[name], "_fields_", [0]))
    return [n if wide == 1 else tuple(numbers[at : at + wide]) for at, n in enumerate(numbers) if at % wide == 0]


def arguments(call: Call) -> list[Any]:
    given: list[Any] = []
    for kind, array in zip(ARRAYS[call.name], call.arrays):
        given += [(kind * len(array))(*array), len(array)]
    return given + ([] if call.number is None else [call.number])


def by_ctypes(call: Call) -> Answer:
    given = [call.number, *call.arrays[0]] if call.name == "joined_rows" else arguments(call)
    into, detail = (ELEMENTS[call.name] * call.room)(), NUMBER(UNTOUCHED)
    given += [] if call.name in WITHOUT_ROOM else [into, call.room]
    status = getattr(_library._library(), "safebound_" + call.name)(*given, ctypes.byref(detail))
    written = detail.value if status == Status.OK and call.name not in WITHOUT_ROOM else 0
    return Answer(status, None if detail.value == UNTOUCHED else detail.value,
                  shaped(call.name, [n for element in into[:written] for n in fields(element)]))


def by_c(lines: list[str]) -> Iterator[tuple[Answer, int]]:
    """The results of the C program, each with the number of its requests for memory."""
    done = subprocess.run(
        [PROGRAM], input="".join(line + "\n" for line in lines), capture_output=True, text=True, timeout=300
    )
    if done.returncode != 0:
        at = done.stdout.count("\n")
        raise AssertionError(
            f"{done.stderr.strip()} (status {done.returncode}): {lines[at] if at < len(lines) else ''}"[:2000]
        )
    for line, told in zip(lines, done.stdout.splitlines()):
        words = told.split()
        name = next(word for word in line.split() if word in ELEMENTS)
        elements = shaped(name, [int(word) for word in words[2:-2]])
        yield Answer(int(words[0]), None if words[1] == "-" else int(words[1]), elements), int(words[-1])


def answers(calls: Sequence[Call]) -> list[Answer]:
    """The result of each call, which is the same in C and in Python."""
    found = []
    for call, (answer, _) in zip(calls, by_c([call.line() for call in calls])):
        other = by_ctypes(call)
        if answer != other:
            raise AssertionError(f"C gets {answer} and Python {other}: {call}")
        found.append(answer)
    if len(found) != len(calls):
        raise AssertionError("the C program answers fewer calls than it is asked")
    return found


def answer(call: Call) -> Answer:
    return answers([call])[0]
