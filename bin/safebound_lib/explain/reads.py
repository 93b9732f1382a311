"""`error read FILE`: why a file can't be read, and where it may be."""
from __future__ import annotations

import os
import shlex
from typing import TYPE_CHECKING

from .texts import convert_line
from .usage import is_query
from ..near import series, nearest
from ..spot import plain
from ..tokens import tokens_of

if TYPE_CHECKING:
    from ..faults import Fault
    from . import Run

OF_TEXTS, OF_SHEETS = (".txt", ".tsv", ".tab", ".dat"), (".xlsx", ".xls", ".ods")


def explain(fault: Fault, run: Run) -> list[str]:
    file = fault.file
    if not file:
        return ["The name of the file is empty."]
    if file == "-":
        return [
            "The program reads files, and no standard input. Write the text into a file, and name that in place of -."
        ]
    if is_one_query(file):
        return [
            f"Here stands the text of a query, {plain(file)[:60]}, and the name of a file has to. Write the text into a"
            f" file, as query.sql, and name that{lines_of_text(file, run)}"
        ]
    return [why_unreadable(file), *where_looked_for(file, run), *without_schema(file, run)]


def lines_of_text(text: str, run: Run) -> str:
    """The commands that write a query's text into a file and run it."""
    written = os.path.join(os.path.dirname(run.path_of("query.sql")), "query.sql")
    if os.path.exists("query.sql"):
        return "."
    return f":\n    echo {plain(shlex.quote(text))} > {written}{run.line_without_schema('query.sql')}"


def is_one_query(words: str) -> bool:
    return (
        not os.path.exists(words) and any(token.is_one("SELECT") for token in tokens_of(os.fsencode(words))[:1])
        and " " in words
    )


def without_schema(file: str, run: Run) -> list[str]:
    """If tables and query exist but the schema doesn't: the command that needs no schema."""
    is_able = (
        file == run.schema_file and not run.is_proposed and is_query(run.query_file)
        and any(name.endswith(".csv") for name in names_in("."))
    )
    return (
        [f"Without a schema, one is proposed from the tables:{run.line_without_schema()}"]
        if is_able and not near_file(file, os.path.dirname(file) or ".", run) else []
    )


def missing_table(name: str, run: Run) -> list[str]:
    """Why a proposed schema has no table of this name."""
    file, folder = name.lower() + ".csv", run.path_of(".")
    if os.path.isfile(file):
        return no_table(file, run)
    if os.path.isdir(file):
        return [f"{why_unreadable(file)} So there is no table {plain(name)}."]
    near = near_file(file, ".", run)
    return [
        f"There is no file {plain(file)} in {plain(folder)}, so there is no table {plain(name)}.",
        near or files_with_same_ending(file, "."),
    ]


def no_table(file: str, run: Run) -> list[str]:
    """Why a file that exists gives no table."""
    from ..sheets import NoTable, sheet_of
    try:
        sheet_of(file, run.path_of(file))
    except NoTable as why_not:
        return [f"{plain(file)}: no table is proposed. {why_not}"]
    return []


def why_unreadable(file: str) -> str:
    if os.path.isdir(file):
        return f"{plain(file)} is a folder, and no file."
    if os.path.exists(file):
        return (
            f"{plain(file)} is there, and can't be read: look at who may read it (ls -l), and whether its disk is well."
        )
    if os.path.islink(file):
        return f"{plain(file)} is a link that leads nowhere."
    return f"There is no file {plain(file)}."


def where_looked_for(file: str, run: Run) -> list[str]:
    """Where the file was looked for, and which file, in that folder or another, has its name or a similar one."""
    if os.path.exists(file):
        return []
    is_table = file not in run.named
    folder = os.path.dirname(file) or "."
    found = [
        "It was looked for in "
        f"{plain(os.path.abspath(folder)) if working_folder() else 'a working folder that is gone'}."
    ]
    if is_table:
        found.append(
            "A table's file has the table's name in lower case and .csv, and lies in the folder where the command runs."
        )
    elsewhere = folder_with(file, run, is_table) or near_file(file, folder, run)
    if elsewhere:
        return found + [elsewhere]
    if run.user_folder:
        found.append("With --data every file is looked up in that folder, the schema and the query too.")
    elif is_table:
        found.append("Where the tables lie elsewhere, give their folder: --data DIR.")
    return found + [files_with_same_ending(file, folder)]


def working_folder() -> str | None:
    try:
        return os.getcwd()
    except OSError:
        return None


def folder_with(file: str, run: Run, is_table: bool) -> str:
    """A sentence on a folder near by that has the file."""
    if run.user_folder and os.path.exists(os.path.join(run.user_folder, file)):
        whole = os.path.join(run.user_folder, file)
        inside = os.path.relpath(whole)
        return (
            "With --data every file is looked up in that folder, the schema and the query too. To take the one where"
            f" you are, write {plain(whole if inside.startswith('..') else inside)}."
        )
    beside = [os.path.dirname(f) for f in (run.schema_file, run.query_file) if os.path.dirname(f)] if is_table else []
    try:
        below = sorted(entry.name for entry in os.scandir(".") if entry.is_dir() and not entry.name.startswith("."))
    except OSError:
        below = []
    for folder in beside + below:
        if os.path.isfile(os.path.join(folder, file)):
            same = [
                f for f in (run.schema_file, run.query_file)
                if not os.path.isfile(os.path.join(folder, os.path.basename(f)))
            ]
            how = (
                f"give --data {plain(folder)}" if is_table or not same else f"write {plain(os.path.join(folder, file))}"
            )
            texts = ", with the texts' names as they are there" if is_table and beside and not same else ""
            return f"It is in {plain(folder)}: {how}{texts}."
    return ""


def names_in(folder: str) -> list[str]:
    try:
        return sorted(os.listdir(folder))
    except OSError:
        return []


def near_file(file: str, folder: str, run: Run) -> str:
    """A sentence on a file in this folder with a similar name."""
    if not os.path.isdir(folder):
        return f"There is no folder {plain(folder)}."
    name, names = os.path.basename(file), names_in(folder)
    for other in names:
        if other.casefold() == name.casefold():
            return (
                f"{plain(other)} is there: upper and lower case count. Rename it to"
                f" {plain(name)}.{rename(other, file, run)}"
            )
        if other.casefold() in (name.casefold() + ending for ending in OF_TEXTS):
            return (
                f"{plain(other)} is there: its name has one ending too many. This renames it:{rename(other, file, run)}"
            )
        if other.casefold().startswith(name.casefold() + "."):
            return f"{plain(other)} is there: unpack it, or rename it, to {plain(name)}."
    for other in names:
        stem, ending = os.path.splitext(other)
        if stem.casefold() + ".csv" == name.casefold() and ending.casefold() in OF_TEXTS:
            return (
                f"{plain(other)} is there. This writes it as"
                f" {plain(name)}:{convert_line(os.path.join(folder, other) if os.path.dirname(file) else other, run)}"
            )
        if stem.casefold() + ".csv" == name.casefold() and ending.casefold() in OF_SHEETS:
            return (
                f"{plain(other)} is there, a workbook: save its sheet as CSV (in Excel: CSV UTF-8), under the name"
                f" {plain(name)}."
            )
    near = nearest(name, [name for name in names if not name.endswith(".original")], 0.75)
    if near and run.is_proposed and near.endswith(".csv"):
        return f"{plain(near)} is there. Did you mean {plain(near.removesuffix('.csv').upper())}?"
    return f"{plain(near)} is there. Is it that one?" if near else ""


def rename(other: str, file: str, run: Run) -> str:
    """The command line that gives the other file this file's name."""
    words = [run.path_of(os.path.join(os.path.dirname(file), other)), run.path_of(file)]
    return f"\n    mv {' '.join(map(plain, words))}"


def files_with_same_ending(file: str, folder: str) -> str:
    """The files of the folder with the same ending."""
    ending = os.path.splitext(file)[1].casefold()
    found = [plain(name) for name in names_in(folder) if os.path.splitext(name)[1].casefold() == ending]
    return f"Files of that kind there: {series(found)}." if found else ""
