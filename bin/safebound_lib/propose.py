"""`safebound schema`, and runs without a schema. The schema text is proposed from the headers and values of table
files.
"""
import contextlib
import os
import re
import shlex
import tempfile
import time
from collections.abc import Iterator
from dataclasses import dataclass, field
from typing import Optional

from . import program
from .convert import not_text_message
from .explain import wrapped_blocks
from .explain.reads import OF_SHEETS, OF_TEXTS
from .explain.usage import is_query
from .query import read_query
from .sheets import Column, NoTable, Sheet, sheet_of
from .spot import cut_text, plain
from .table import DATA, RESULT
from .terminal import columns
from .told import is_news
from .words import Line, Misused, positional_words

MOST_TABLES, STATUS_FILES_LEFT_OUT = 64, 6
# A proposal that takes more seconds is worth saving.
SLOW = 1.0
# A column that refers to a table often has that table's name with one of these endings.
ENDINGS = re.compile(r"_?(ID|NO|NR|NUM|NUMBER|CODE|KEY|NAME)$")


@dataclass
class Proposal:
    """The proposed tables, and sentences on their files and on files that give no table."""
    sheets: list[Sheet] = field(default_factory=list)
    says: list[str] = field(default_factory=list)
    left_out: int = 0

    @property
    def text(self) -> str:
        """The whole schema text."""
        head = (
            f"-- Proposed from {len(self.sheets)} file{'s' * (len(self.sheets) != 1)}. Look at it: types, keys and"
            " references are what the rows there happen to show.\n-- A query may write these names in upper or lower"
            " case, but for those in double quotes.\n"
        )
        return head + "\n".join(table_text(sheet, self.sheets, has_remarks=True) for sheet in self.sheets)

    def short(self, files: list[str], target: str, uses: str) -> str:
        """The schema with one line for each table, and how to keep it. `files`, `target` and `uses` are texts to paste;
        `uses` is the command that uses a kept schema.
        """
        room = columns() if program.is_terminal(2) else None
        lines = [
            re.sub(r"\s+", " ", table_text(sheet, self.sheets)).replace("( ", "(").replace(" )", ")")
            for sheet in self.sheets
        ]
        head = f"-- This schema is proposed from the rows. {how_to_keep(files, target, uses)}\n"
        return head + "".join(f"{cut_text(line.strip(), room) if room else line.strip()}\n" for line in lines)


def how_to_keep(files: list[str], target: str, uses: str) -> str:
    """How to keep a proposed schema. If a schema.sql exists already, the command that uses it: `uses`."""
    if os.path.exists("schema.sql"):
        return f"{plain(target)} is there, and isn't used. This uses it:\n--     {plain(uses)}"
    return f"To keep it, and edit it:\n--     safebound schema {' '.join(map(plain, files))} --output {plain(target)}"


def how_to_skip(files: list[str], target: str, uses: str) -> str:
    """How a later run needs no proposal: the commands that save a schema and use it."""
    if os.path.exists("schema.sql"):
        return f"{plain(target)} is there. This uses it:\n--     {plain(uses)}"
    save = f"safebound schema {' '.join(map(plain, files))} --output {plain(target)}"
    return f"To save it, and run with it:\n--     {save}\n--     {plain(uses)}"


def line_with_schema(command: str, schema: str, query: str, folder: str) -> str:
    """The command that runs a query with a schema. Both files are in the tables' folder."""
    return f"safebound {command} {shlex.quote(schema)} {shlex.quote(query)} --data {shlex.quote(folder)}"


def proposal(files: list[str], user_folder: Optional[str] = None) -> Proposal:
    """Proposes a schema of files, in their order. `user_folder` is as in `Line`."""
    found = Proposal()
    for file in files:
        try:
            sheet = sheet_of(file, word_of(file, user_folder))
            if any(other.name == sheet.name for other in found.sheets):
                raise NoTable(f"There is another file of a table {sheet.name}. Rename one of them.")
            if len(found.sheets) == MOST_TABLES:
                raise NoTable("A schema has at most 64 tables: give the files of those that a query names.")
            found.sheets.append(sheet)
            found.says += [f"{plain(file)}: {said}" for said in sheet.says]
        except NoTable as why:
            found.left_out += 1
            found.says.append(f"{plain(file)}: no table is proposed. {why}")
    return found


def word_of(file: str, user_folder: Optional[str]) -> str:
    """A file's name for a command line that the user types in the current folder."""
    return shlex.quote(os.path.relpath(file, user_folder) if user_folder else file)


def table_text(sheet: Sheet, sheets: list[Sheet], has_remarks: bool = False) -> str:
    """The declaration of a table. With remarks, a comment says what kept a column from being one of numbers."""
    primary = primary_of(sheet)
    lines = [
        f"  {column.name} {column_type(column)}{rules(column, primary, sheet, sheets)}"
        f"{',' * (column is not sheet.columns[-1])}{f'  -- {column.remark}' if has_remarks and column.remark else ''}\n"
        for column in sheet.columns
    ]
    return f"CREATE TABLE {sheet.name} (\n{''.join(lines)});\n"


def column_type(column: Column) -> str:
    return "INTEGER" if column.is_number else f"VARCHAR({column.length})"


def rules(column: Column, primary: Optional[Column], sheet: Sheet, sheets: list[Sheet]) -> str:
    said = " PRIMARY KEY" if column is primary else " NOT NULL UNIQUE" if sheet.is_key(column) else " NOT NULL"
    target = referred_column(column, sheet, sheets)
    if target is None:
        return said
    other, key = target
    return f"{said} REFERENCES {other.name}" + ("" if key is primary_of(other) else f" ({key.name})")


def primary_of(sheet: Sheet) -> Optional[Column]:
    """The first column without repeated values that is named like a key. Otherwise the table's first column if it has
    no repeated values, else None.
    """
    keys = [column for column in sheet.columns if sheet.is_key(column)]
    stems = ("", stem_of(sheet.name), singular(stem_of(sheet.name)))
    named = [column for column in keys if stem_of(column.name) in stems]
    first = [column for column in keys if column is sheet.columns[0]]
    return next(iter(named + first), None)


def stem_of(name: str) -> str:
    """A name without an ending such as _ID. Columns that refer to a key often have one."""
    return ENDINGS.sub("", name.strip('"').upper())


def singular(name: str) -> str:
    for ending, without in (("IES", "Y"), ("SSES", "SS"), ("SHES", "SH"), ("CHES", "CH"), ("XES", "X"), ("S", "")):
        if name.endswith(ending):
            return name.removesuffix(ending) + without
    return name


def referred_column(column: Column, sheet: Sheet, sheets: list[Sheet]) -> Optional[tuple[Sheet, Column]]:
    """The table and key to which a column refers: the key has all the column's values, and the column's name is made
    from the name of the table or of the key.
    """
    found = [
        (other, key) for other in sheets if other is not sheet for key in other.columns if other.is_key(key)
        and column.values and key.is_number == column.is_number and column.values.keys() <= key.values.keys()
    ]
    named = [(other, key) for other, key in found if is_named_after(column, other, key)]
    return max(named, key=lambda pair: pair[1] is primary_of(pair[0])) if named else None


def is_named_after(column: Column, other: Sheet, key: Column) -> bool:
    """Whether a column's name fits: it is the table's or the key's name, perhaps with an ending, or it ends in _ and
    the table's name.
    """
    tables = {other.name.strip('"'), singular(other.name.strip('"'))}
    whole = column.name.strip('"').upper()
    called = {whole, stem_of(column.name), whole.rpartition("_")[2], stem_of(column.name).rpartition("_")[2]}
    return bool(called & tables) or column.name == key.name and stem_of(key.name) != ""


def schema(line: Line) -> int:
    """Runs `safebound schema`: the schema text goes to standard output, the sentences to standard error."""
    words = positional_words(line.words[1:])
    files = [file for word in words for file in (tables_in(word) if os.path.isdir(word) else [word])]
    if not files:
        if words:
            raise Misused(f"{plain(words[0])} is a folder, and has no file that ends in .csv")
        raise Misused("schema takes the tables' files, or their folder: safebound schema FILE.csv..")
    found = proposal(files)
    folders = {os.path.dirname(os.path.abspath(sheet.file)) for sheet in found.sheets}
    if len(folders) > 1:
        found.says.append("The files lie in several folders. A run looks for all of them in one.")
    if found.sheets:
        write(found.text, line.own.get(RESULT.word, "-"))
    program.say(sentences(found.says))
    return STATUS_FILES_LEFT_OUT if found.left_out else 0


def write(text: str, to: str) -> None:
    if to == "-":
        return program.write(1, text)
    try:
        with open(to, "x", encoding="utf-8") as f:
            f.write(text)
    except FileExistsError:
        raise Misused(
            f"{to} is there already, and nothing is written over: {RESULT.word} FILE names another file"
        ) from None
    except OSError as fault:
        raise Misused(f"{to}: {fault.strerror}") from None
    uses = line_with_schema("run", os.path.basename(to), "query.sql", os.path.dirname(to) or ".")
    program.say(f"{to}: look at it, and edit what isn't so. A query is run with it so:\n    {plain(uses)}\n")


def sentences(says: list[str]) -> str:
    """The sentences. For a terminal they are wrapped to its width."""
    return wrapped_blocks(says) if program.is_terminal(2) else "".join(f"{said}\n" for said in says)


def tables_in(folder: str) -> list[str]:
    """The table files of a folder."""
    return sorted(
        os.path.join(folder, name) if folder != "." else name for name in os.listdir(folder)
        if name.lower().endswith(".csv") and not name.startswith(".") and not os.path.isdir(os.path.join(folder, name))
    )


@contextlib.contextmanager
def with_proposed_schema(line: Line) -> Iterator[Line]:
    """The line with a schema's file, which is proposed from the tables in this folder.

    Standard error shows the schema in short, and what a user has to know about the tables, since the run may fail
    because of it. If a table is missing or its file gives no table, nothing of this is shown: it would hide that fault.
    """
    query, began = positional_words(line.words[1:])[0], time.monotonic()
    wanted = tables_of(query)
    has_all_tables = bool(wanted) and all(map(os.path.isfile, wanted))
    found = proposal(wanted if has_all_tables else tables_in("."), line.user_folder)
    if not found.sheets:
        folder = line.own[DATA.word]
        raise Misused(
            "\n".join(
                ["no schema can be proposed.", *(found.says or no_tables_sentences(folder, line.user_folder))]
            )
        )
    if has_all_tables and not found.left_out:
        files = [word_of(sheet.file, line.user_folder) for sheet in found.sheets]
        uses = line_with_schema(line.command, "schema.sql", query, line.own[DATA.word])
        target = word_of("schema.sql", line.user_folder)
        said = found.short(files, target, uses) + "\n" + sentences(found.says)
        if is_news(said):
            program.say(said)
        if time.monotonic() - began > SLOW:
            program.say(f"-- Proposing it took {time.monotonic() - began:.1f} s. {how_to_skip(files, target, uses)}\n")
    with tempfile.TemporaryDirectory(prefix="safebound-") as folder:
        file = os.path.join(folder, "schema.sql")
        with open(file, "w", encoding="utf-8") as f:
            f.write(found.text)
        at = len(line.words) - line.words[::-1].index(query) - 1
        yield Line([*line.words[:at], file, *line.words[at:]], line.own, line.user_folder, True, found.sheets)


def no_tables_sentences(folder: str, user_folder: Optional[str]) -> list[str]:
    """Sentences on a folder that has no table's file: which other files it has."""
    says = [f"In {DATA.word} {plain(folder)} there is no file that ends in .csv."]
    for name in sorted(os.listdir(".")):
        ending = os.path.splitext(name)[1].lower()
        if ending in OF_TEXTS and not packed_file(name):
            says.append(
                f"{plain(name)} is there. This writes it as a table's file:\n    safebound convert"
                f" {plain(word_of(name, user_folder))}"
            )
        elif ending in OF_SHEETS:
            says.append(
                f"{plain(name)} is there, a workbook: save each of its sheets as CSV (in Excel: CSV UTF-8), under the"
                " name of its table."
            )
    return says


def packed_file(file: str) -> bool:
    with open(file, "rb") as f:
        return bool(not_text_message(f.read(8)))


def tables_of(query: str) -> list[str]:
    """The files of the tables that a query names. The list is empty if the file isn't a query."""
    if not is_query(query):
        return []
    with open(query, "rb") as f:
        entries = read_query(f.read()).entries
    return list(dict.fromkeys(entry.table.name.lower() + ".csv" for entry in entries))
