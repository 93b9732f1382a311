"""The whole program over files in memory."""

from __future__ import annotations

import ctypes
import functools
from typing import Any, Iterable, List, Mapping, NamedTuple, Optional, SupportsIndex, Tuple, TypeVar, Union

from . import errors
from ._library import find, load, other_version
from .arguments import rows_of, shown, whole_number
from ._version import VERSION
from .plan_texts import read_plan
from .plans import Order

NAME, VARIABLE = "libsafebound_command.so", "SAFEBOUND_COMMAND_LIBRARY"
BUDGET, PAST_BITS, WRITE_FAULT, NO_MEMORY = 8, 9, 10, 11
LEAST_OUT, LEAST_NOTES, GROWS = 65536, 4096, 8

Text = Union[str, bytes, bytearray, memoryview]

# Mapping is invariant in the type of its keys. With this type variable, keys may be texts or bytes.
_Name = TypeVar("_Name", str, bytes)


class _Text(ctypes.Structure):
    _fields_ = [("bytes", ctypes.c_char_p), ("length", ctypes.c_size_t)]


class _File(ctypes.Structure):
    _fields_ = [("name", _Text), ("bytes", _Text)]


class Output(NamedTuple):
    """The result of a run: the program's exit status, its standard output and its standard error."""

    status: int
    out: bytes
    notes: bytes


def _version_of(found: ctypes.CDLL) -> str | None:
    """The version that a library says, or None if it says none."""
    try:
        return ctypes.string_at(ctypes.addressof(ctypes.c_char.in_dll(found, "safebound_command_version"))).decode()
    except ValueError:
        return None


@functools.lru_cache(maxsize=None)
def _library() -> ctypes.CDLL:
    where = find(NAME, VARIABLE)
    found = load(where, VARIABLE)
    if _version_of(found) != VERSION:
        raise other_version(where, "command", VARIABLE)
    size, number = ctypes.c_size_t, ctypes.POINTER(ctypes.c_uint64)
    found.safebound_command.argtypes = [
        ctypes.POINTER(_Text), size, ctypes.POINTER(_File), size, ctypes.c_char_p, size, ctypes.c_char_p, size,
        number, number
    ]
    found.safebound_command.restype = ctypes.c_uint32
    return found


def _bytes(head: str, value: Any) -> bytes:
    """The bytes of a text. Other types are refused, since `bytes` would accept even a list of numbers."""
    if not isinstance(value, (str, bytes, bytearray, memoryview)):
        raise errors.WrongType(f"{head}: {shown(value)} is no text and no bytes")
    try:
        return value.encode("utf-8", "surrogateescape") if isinstance(value, str) else bytes(value)
    except ValueError as error:
        raise errors.WrongValue(f"{head}: it has no bytes: {error}", None) from None


def _text(head: str, value: Any) -> _Text:
    """A text as the library takes it. The structure keeps the bytes alive."""
    held = _bytes(head, value)
    return _Text(held, len(held))


def _words(words: Any) -> List[_Text]:
    if isinstance(words, memoryview):
        raise errors.WrongType(f"words: {shown(words)} is no list of texts")
    return [_text(f"words: word {place}", word) for place, word in enumerate(rows_of("words", words, "texts"))]


def _files(files: Any) -> List[_File]:
    if not isinstance(files, Mapping):
        raise errors.WrongType(f"files: {shown(files)} is no mapping from names to texts")
    return [
        _File(_text("files: a name", name), _text(f"files: file {shown(name)}", data)) for name, data in files.items()
    ]


def run(words: Iterable[Text], files: Mapping[_Name, Text]) -> Output:
    """Runs the program over files in memory.

    The words are those of its command line, without its own name. Name each file as the words name it; a table's file
    has the table's name in lower case, with `.csv`. Output, statuses and limits are those of the program: see
    docs/USING.md and docs/ERRORS.md.

    >>> files = {
    ...     "schema.sql": "CREATE TABLE R (X INTEGER NOT NULL); CREATE TABLE S (X INTEGER NOT NULL)",
    ...     "query.sql": "SELECT R.X FROM R, S WHERE R.X = S.X",
    ...     "r.csv": "X\\n1\\n1\\n2\\n",
    ...     "s.csv": "X\\n1\\n3\\n",
    ... }
    >>> output = run(["run", "schema.sql", "query.sql"], files)
    >>> output.status, output.out
    (0, b'X\\r\\n1\\r\\n1\\r\\n')
    >>> print(output.notes.decode(), end="")
    scan R 3
    scan S 2
    level 1 S 2
    level 2 R 3
    >>> run(["plan", "schema.sql", "query.sql", "--budget", "2"], files)
    Output(status=8, out=b'', notes=b'error budget 3\\n')

    Raises:
        WrongType: a word, a name or a file is neither a text nor bytes, or a text, a set or a mapping was given in
            place of a list of words.
        WrongValue: a text has half a surrogate pair, which no bytes stand for.
        LibraryNotFound: libsafebound_command.so doesn't exist, or has another version.
    """
    given, named = _words(words), _files(files)
    call = _library().safebound_command
    word_array, file_array = (_Text * len(given))(*given), (_File * len(named))(*named)
    room, notes_room = LEAST_OUT, LEAST_NOTES
    while True:
        out, notes = ctypes.create_string_buffer(room), ctypes.create_string_buffer(notes_room)
        length, notes_length = ctypes.c_uint64(), ctypes.c_uint64()
        status = call(
            word_array, len(given), file_array, len(named), out, room, notes, notes_room,
            ctypes.byref(length), ctypes.byref(notes_length)
        )
        # With any status a line may have been cut if the room was too small for it.
        is_cut = notes_length.value == notes_room
        if not is_cut and not (status == WRITE_FAULT and length.value == room):
            return Output(status, ctypes.string_at(out, length.value), ctypes.string_at(notes, notes_length.value))
        room, notes_room = room if is_cut else room * GROWS, notes_room * GROWS if is_cut else notes_room


class Plan(NamedTuple):
    """A plan as the program prints it: the bound in rows of each scan, in the order of FROM, and the best order."""

    scans: Tuple[Tuple[str, int], ...]
    order: Order


def plan_stats(schema: Text, query: Text, stats: Text, budget: Optional[SupportsIndex] = None) -> Plan:
    """Plans a query from the text of a statistics file, without tables.

    The file is the output of `stats`, from this library or from the program. No bound of the plan is too low for the
    tables from which the file was made, while their rows are unchanged.

    >>> schema = "CREATE TABLE R (X INTEGER NOT NULL)"
    >>> files = {"schema": schema, "query": "SELECT X FROM R", "r.csv": "X\\n1\\n2\\n"}
    >>> stats = run(["stats", "schema", "query"], files).out
    >>> plan_stats(schema, "SELECT X FROM R", stats)
    Plan(scans=(('R', 2),), order=Order(entries=('R',), levels=(2,)))

    Args:
        budget: the most rows of a level, from 1 to 20,000,000; without it the program's, 1,000,000.

    Raises:
        BudgetExceeded, PastBits: as for an order.
        WrongType: an argument is neither a text nor bytes, or the budget isn't a whole number.
        Refused: a text is refused, or the file lacks something that the query needs.
        OutOfMemory: there was too little memory.
        LibraryNotFound: libsafebound_command.so doesn't exist, or has another version.
    """
    words = ["plan", "schema", "query", "--stats", "stats"]
    words += ["--budget", str(_budget(budget))] if budget is not None else []
    files = {"schema": _bytes("schema", schema), "query": _bytes("query", query), "stats": _bytes("stats", stats)}
    output = run(words, files)
    if output.status:
        raise _refusal(output)
    plan = read_plan(output.notes.decode())
    order = Order(tuple(name for name, _ in plan.levels), tuple(bound for _, bound in plan.levels))
    return Plan(tuple(plan.scans.items()), order)


def append_stats(schema: Text, stats: Text, table: str, rows: Text) -> bytes:
    """Adds new rows of one table to the text of a statistics file. The old rows of the table aren't needed.

    If the file stood for its tables, the new one stands for them with the new rows: no bound of a plan from it is too
    low for the grown table. PRIMARY KEY and UNIQUE are checked only among the new rows.

    >>> schema = "CREATE TABLE R (X INTEGER NOT NULL)"
    >>> files = {"schema": schema, "query": "SELECT X FROM R", "r.csv": "X\\n1\\n2\\n"}
    >>> stats = run(["stats", "schema", "query"], files).out
    >>> more = append_stats(schema, stats, "R", "X\\n2\\n3\\n4\\n")
    >>> plan_stats(schema, "SELECT X FROM R", more).scans
    (('R', 5),)

    Args:
        table: the table's name, in upper or lower case.
        rows: the new rows alone, as CSV with a header.

    Raises:
        WrongType: an argument is neither a text nor bytes.
        Refused: a text or a row is refused, the file has no statistics of the table, or the table would have too many
            rows.
        OutOfMemory: there was too little memory.
        LibraryNotFound: libsafebound_command.so doesn't exist, or has another version.
    """
    if not isinstance(table, str):
        raise errors.WrongType(f"table: {shown(table)} is no name")
    words: List[Text] = ["append", "--", "schema", "stats", _bytes("table", table), "rows"]
    files = {"schema": _bytes("schema", schema), "stats": _bytes("stats", stats), "rows": _bytes("rows", rows)}
    output = run(words, files)
    if output.status:
        raise _refusal(output)
    return output.out


def _budget(budget: SupportsIndex) -> int:
    number = whole_number("budget", budget)
    if number is None:
        raise errors.BadBudget(f"budget: it is from 1 to 20,000,000, not {shown(budget)}", budget)
    return number


def _refusal(output: Output) -> errors.SafeBoundError:
    line = output.notes.decode().split("\n")[0].split(" ", 1)[1]
    if output.status == BUDGET:
        return errors.BudgetExceeded(int(line.split()[1]))
    if output.status == PAST_BITS:
        return errors.PastBits()
    return errors.OutOfMemory(line) if output.status == NO_MEMORY else errors.Refused(output.status, line)
