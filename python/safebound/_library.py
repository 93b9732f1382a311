"""Finds and loads the shared object, makes its calls, and turns its statuses into exceptions."""

from __future__ import annotations

import ctypes
import ctypes.util
import functools
import os
import platform
import sys
import sysconfig
from pathlib import Path
from typing import Any, Iterator, Sequence

from . import errors
from .arguments import MOST as MOST
from .limits import MOST_ACCURACY, MOST_ENTRIES, MOST_EQUALITIES
from ._version import VERSION as VERSION

NAME, VARIABLE = "libsafebound.so", "SAFEBOUND_LIBRARY"
NO_BOUND = NO_VALUES = MOST

_Number = ctypes.c_uint64


class Run(ctypes.Structure):
    _fields_ = [("degree", _Number), ("keys", _Number)]


class Equality(ctypes.Structure):
    _fields_ = [(name, ctypes.c_uint32) for name in ("left_entry", "left_column", "right_entry", "right_column")]


class List(ctypes.Structure):
    _fields_ = [("entry", ctypes.c_uint32), ("column", ctypes.c_uint32), ("first", _Number), ("length", _Number)]


class Level(ctypes.Structure):
    _fields_ = [("entry", _Number), ("bound", _Number)]


class Join(ctypes.Structure):
    _fields_ = [("left", _Number), ("right", _Number), ("bound", _Number)]


class Status:
    """The statuses of safebound.h, under their names there."""

    OK, ROOM, NO_MEMORY, BUDGET, PAST_BITS, WORK = range(6)
    (BAD_KEYS, BAD_ACCURACY, BAD_RUN, BAD_OTHER_RUN, BAD_SUM, BAD_ENTRIES, BAD_ROWS, BAD_EQUALITIES, BAD_EQUALITY,
     BAD_LIST, MISSING_LIST, BAD_BOUNDS, BAD_BUDGET, BAD_LEVELS, BAD_LEVEL, BAD_JOINS, BAD_JOIN, BAD_SET,
     BAD_JOIN_KIND) = range(16, 35)


# A message begins with the argument of the package's calls.
WRONG = {
    Status.BAD_KEYS: (errors.BadKeys, "values: {} are more than 2**48"),
    Status.BAD_ACCURACY: (errors.BadAccuracy, f"accuracy: it is from 1 to {MOST_ACCURACY}, not {{}}"),
    Status.BAD_RUN: (errors.BadRun, "runs: run {} is of nothing, rises, or sums to more than 2**48"),
    Status.BAD_OTHER_RUN: (errors.BadOtherRun, "others: run {} is of nothing, rises, or sums to more than 2**48"),
    Status.BAD_SUM: (errors.BadSum, "runs and others: what both make has {} rows, more than 2**48"),
    Status.BAD_ENTRIES: (errors.BadEntries, f"entries: a query has 1 to {MOST_ENTRIES}, not {{}}"),
    Status.BAD_ROWS: (errors.BadRows, "row_bounds: that of entry {} isn't from 0 to 2**48"),
    Status.BAD_EQUALITIES: (errors.BadEqualities, f"equalities: a query has at most {MOST_EQUALITIES}, not {{}}"),
    Status.BAD_EQUALITY: (errors.BadEquality, "equalities: equality {} isn't of two different entries of the query"),
    Status.BAD_LIST: (errors.BadList, "lists: list {} is of an entry that isn't there, has no runs, or comes twice"),
    Status.MISSING_LIST: (errors.MissingList, "lists: a column of equality {} has none"),
    Status.BAD_BOUNDS: (errors.BadBounds, f"numbers: there are 2**n bounds, n from 1 to {MOST_ENTRIES}, not {{}}"),
    Status.BAD_BUDGET: (errors.BadBudget, "budget: it is from 0 to 2**59, not {}"),
    Status.BAD_LEVELS: (errors.BadPlan, "plan: an order has a level for each entry, not {}"),
    Status.BAD_LEVEL: (errors.BadPlan, "plan: level {} is of an entry that isn't there"),
    Status.BAD_JOINS: (errors.BadPlan, "plan: a tree has one join fewer than entries, not {}"),
    Status.BAD_JOIN: (errors.BadPlan, "plan: join {} is of a node that doesn't stand before it"),
}


def _folders() -> Iterator[Path]:
    """The folders in which the shared object is looked for, in this order."""
    here = Path(__file__).resolve().parent
    yield here
    yield from _folders_of_clone(here.parents[1])
    libraries = [folder for folder in here.parents if folder.name == "lib"]
    libraries += [Path(prefix) / "lib" for prefix in (sys.prefix, "/usr/local", "/usr")]
    for folder in libraries:
        yield folder
        yield folder / (sysconfig.get_config_var("MULTIARCH") or "")


def _folders_of_clone(root: Path) -> Iterator[Path]:
    """In a clone of the repository: where `make library` leaves the library, and the release, which is for one kind of
    machine.
    """
    if (root / "library" / "build").is_file():
        yield root / "library" / "out"
        if (platform.system(), platform.machine()) == ("Linux", "x86_64"):
            yield root / "dist"


def _candidates(name: str) -> Iterator[Path]:
    for folder in dict.fromkeys(_folders()):
        yield folder / f"{name}.{VERSION.partition('.')[0]}"
        yield folder / name


def find(name: str, variable: str) -> Path:
    """The path of the shared object with this name, or of the file that the variable names."""
    named = os.environ.get(variable)
    if named:
        if Path(named).is_file():
            return Path(named)
        raise errors.LibraryNotFound(f"{variable} names {named}, which is no file: name {name} by it, or unset it")
    looked = list(_candidates(name))
    for candidate in looked:
        if candidate.is_file():
            return candidate
    raise errors.LibraryNotFound(
        f"there is no {name}: install SafeBound's libraries (libsafebound0), build them in a clone (make library"
        f" command), or name the file by {variable} (looked for {', '.join(map(str, looked))})"
    )


def load(found: Path, variable: str) -> ctypes.CDLL:
    """Loads a shared object. The variable is the one that may name another."""
    try:
        return ctypes.CDLL(str(found))
    except OSError as error:
        raise errors.LibraryNotFound(f"{found} can't be loaded ({error}): name another file by {variable}") from None


def other_version(found: Path, target: str, variable: str) -> errors.LibraryNotFound:
    """The exception for a library of another version than this package. `target` is the make target that builds it."""
    return errors.LibraryNotFound(
        f"{found} isn't of version {VERSION}, as this package is: install that version of both, build the library in"
        f" the package's clone (make {target}), or name another by {variable}"
    )


def path() -> Path:
    """The path of the shared object that is loaded.

    If the variable SAFEBOUND_LIBRARY names a file, no other one is tried. Otherwise these folders are searched in
    order:
    - the folder of this package;
    - in a clone of the repository, where `make library` leaves the library, and then dist/ with the release;
    - the folder lib above this package, where `make install` puts the library;
    - lib/ of Python's prefix, of /usr/local and of /usr.
    In each lib the subfolder for this architecture is searched too, such as x86_64-linux-gnu.

    Raises:
        LibraryNotFound: none of these places has the library.
    """
    return find(NAME, VARIABLE)


@functools.lru_cache(maxsize=None)
def _library() -> ctypes.CDLL:
    found = load(path(), VARIABLE)
    numbers, size, detail = ctypes.POINTER(_Number), ctypes.c_size_t, ctypes.POINTER(_Number)
    runs = ctypes.POINTER(Run)
    query = [numbers, size, ctypes.POINTER(Equality), size, ctypes.POINTER(List), size, runs, size]
    forms = {
        "degrees": [numbers, size, runs, size, detail],
        "compress": [runs, size, _Number, runs, size, detail],
        "append": [runs, size, runs, size, runs, size, detail],
        "lesser": [runs, size, runs, size, runs, size, detail],
        "greater": [runs, size, runs, size, runs, size, detail],
        "cut": [runs, size, _Number, runs, size, detail],
        "bounds": [*query, numbers, size, detail],
        "bounds_within": [*query, _Number, numbers, size, detail],
        "set_bound": [*query, _Number, detail],
        "order": [numbers, size, _Number, ctypes.POINTER(Level), size, detail],
        "tree": [numbers, size, _Number, ctypes.POINTER(Join), size, detail],
        "memory": [numbers, size, ctypes.POINTER(Level), size, detail],
        "tree_memory": [numbers, size, ctypes.POINTER(Join), size, detail],
        "joined_rows": [_Number] * 4 + [detail],
        "version": [ctypes.c_char_p, size, detail],
    }
    for name, form in forms.items():
        # A library of the same version may be an older build, without calls that were added later.
        function = getattr(found, "safebound_" + name, None)
        if function is not None:
            function.argtypes, function.restype = form, ctypes.c_uint32
    text, length = ctypes.create_string_buffer(64), _Number()
    tell = getattr(found, "safebound_version", None)
    if tell is None or tell(text, 64, ctypes.byref(length)) != Status.OK or text.value.decode() != VERSION:
        raise other_version(path(), "library", VARIABLE)
    return found


def _function(name: str) -> Any:
    """The library's function safebound_NAME."""
    found = getattr(_library(), "safebound_" + name, None)
    if found is None:
        raise errors.LibraryNotFound(f"{path()} has no call safebound_{name}: it is older than this package")
    return found


def version() -> str:
    """The version of the loaded library as text, such as 0.4.0."""
    status, detail, text = call("version", [], ctypes.c_char, 64)
    raise_for(status, detail)
    return str(text.value.decode())


def array_of(element: Any, parts: Sequence[Any]) -> Any:
    """An array of elements. Each part has the numbers of one element."""
    return (element * len(parts))(*parts)


def call(name: str, given: list[Any], element: Any, room: int) -> tuple[int, int, Any]:
    """Calls a function with this much room, and again with more if it needs more. Returns its status, its detail and
    the array.
    """
    function = _function(name)
    while True:
        into, detail = (element * room)(), _Number()
        status = function(*given, into, room, ctypes.byref(detail))
        if status != Status.ROOM:
            return status, detail.value, into
        room = detail.value


def ask(name: str, given: list[Any]) -> tuple[int, int]:
    """Calls a function that computes a number. Returns its status and the number."""
    detail = _Number()
    status = _function(name)(*given, ctypes.byref(detail))
    return status, detail.value


def raise_for(status: int, detail: int) -> None:
    """Raises the exception for a status. For OK, does nothing."""
    if status == Status.OK:
        return
    if status == Status.NO_MEMORY:
        raise errors.OutOfMemory("memory was wanting")
    if status == Status.BUDGET:
        raise errors.BudgetExceeded(detail)
    if status == Status.WORK:
        raise errors.WorkExceeded(detail)
    if status == Status.PAST_BITS:
        raise errors.PastBits("each plan has a part without a bound")
    kind, message = WRONG[status]
    raise kind(message.format(detail), detail)
