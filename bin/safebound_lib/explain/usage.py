"""`error usage`: which word of the command line is wrong, and which words are allowed there."""
from __future__ import annotations

import os
import re
import shlex
from typing import TYPE_CHECKING

from ..near import hint, series
from ..pages import word_with_meaning, places_of
from ..spot import plain
from ..table import (
    ACCURACY, BUDGET, BUSHY, BY_WORD, COMMANDS, COUNT, DATA, KEYS, MOST_BUDGET_OF_A_TREE, MOST_SEED, REDUCE, STATS,
    TEXTS, program_options,
)
from ..terminal import columns
from ..tokens import tokens_of
from ..words import options, positional_words

if TYPE_CHECKING:
    from ..faults import Fault
    from . import Run
    from ..table import Command, Option

FOLDERS = ("--dir", "--directory", "--folder", "--path", "--input", "--tables", "-d", "-D")
OUTPUTS = ("--out", "--output", "--outfile", "--outpath", "-o")
MOST_LOOKED_AT = 4096
DIGITS = re.compile(r"[0-9]+", re.ASCII)


def explain(fault: Fault, run: Run) -> list[str]:
    command = BY_WORD.get(run.command)
    if command is None or command.is_own:
        return wrong_command(run)
    if command.positional == TEXTS and not first_strange(command, run) and with_tables(positional_words(run.words[1:])):
        return [tables_named(command, run)]
    return [first_wrong(command, run.words[1:]) or "These words are no command.",
            f"It is: safebound {command.spelled}{may_lack(command)}",
            f"`safebound help {command.word}` says more.", line_meant(command, run)]


def may_lack(command: Command) -> str:
    return ". Beside --data SCHEMA may be left out." if command.positional == TEXTS and DATA in command.options else ""


def line_meant(command: Command, run: Run) -> str:
    """The probable command where a schema was left out: with the only query in this folder, or in a folder below it."""
    files = positional_words(run.words[1:])
    if command.positional != TEXTS or len(files) > 1 or first_strange(command, run):
        return ""
    if not files:
        found = [name for name in os.listdir(".") if is_query(name)] if run.user_folder else []
        if len(found) == 1:
            return f"Without a schema, one is proposed from the tables:{run.line_without_schema(found[0])}"
        return no_query_yet(run) if run.user_folder and not found else ""
    below = (
        sorted(
            entry.name for entry in os.scandir(".") if entry.is_dir() and is_query(os.path.join(entry.name, files[0]))
        )
        if not os.path.exists(files[0]) and not run.user_folder
        else []
    )
    if len(below) == 1:
        return (
            f"{plain(files[0])} is in {plain(below[0])}. Without a schema, one is proposed from the tables there:"
            f"\n    safebound {command.word} {plain(shlex.quote(files[0]))} --data {plain(shlex.quote(below[0]))}"
        )
    return ""


def no_query_yet(run: Run) -> str:
    """How to write a query, in a folder with tables and without a query."""
    tables = sorted(name for name in os.listdir(".") if name.endswith(".csv"))
    if not tables:
        return ""
    return (
        f"There is no query in {plain(run.path_of('.'))}. Write one into a file there, as query.sql:"
        f" SELECT * FROM {plain(tables[0].removesuffix('.csv').upper())}\nThen this runs it:"
        f"{run.line_without_schema('query.sql')}"
    )


def first_strange(command: Command, run: Run) -> list[str]:
    return [word for word in options(run.words[1:]) if word not in {option.word for option in command.options}]


def overview() -> list[str]:
    commands = "\n".join(word_with_meaning(" ".join([c.word, *places_of(c)]), c.help, columns()) for c in COMMANDS)
    return [f"The commands are:\n{commands}", "`safebound help COMMAND` says more, with examples."]


def wrong_command(run: Run) -> list[str]:
    word, words = run.command, [c.word for c in COMMANDS]
    files = positional_words(run.words)
    if 0 < len(files) < 3 and files[0] == word and all(file.lower().endswith(".sql") for file in files):
        alone = len(files) == 1 and is_query(word)
        line = (
            run.line_without_schema(word) if alone
            else f"\n    safebound run {' '.join(plain(shlex.quote(file)) for file in files)}"
        )
        return [f"There is no command {plain(word)}. The command comes first:{line}", "`safebound help` lists them."]
    if word.startswith("-"):
        return [f"The command comes first, and then its options: {plain(word)} stands before one."] + overview()
    return [f"There is no command {plain(word)}.{hint(word, words)}"] + overview()


def first_wrong(command: Command, words: list[str]) -> str | None:
    """A sentence on the first word that isn't allowed in its place."""
    options = {o.word: o for o in program_options(command)}
    found, seen, left, budget = [], set(), list(words), None
    while left:
        word = left.pop(0)
        if word == "--":
            found += left
            break
        head, equals, behind = word.partition("=")
        if not word.startswith("-") or word == "-":
            found.append(word)
            continue
        if command.positional == ("NUMBER",) and DIGITS.fullmatch(word[1:]):
            found.append(word)
            continue
        if head not in options:
            return unknown_option(command, head, (behind if equals else "".join(left[:1])) or "FILE")
        value = behind if equals else left.pop(0) if options[head].value and left else None
        wrong = wrong_option(options[head], head in seen, value)
        if wrong:
            return wrong
        seen.add(head)
        budget = value if head == BUDGET.word else budget
    return (
        wrong_places(command, found) or wrong_beside(seen)
        or (wrong_budget(budget) if BUSHY.word in seen and budget else None)
    )


def unknown_option(command: Command, word: str, behind: str) -> str:
    """A sentence on an unknown option; `behind` is the word after the option."""
    if word in OUTPUTS:
        return (
            f"{command.word} has no option {plain(word)}: what it prints goes into a file behind a >, as in safebound"
            f" {command.word} .. > {plain(shlex.quote(behind))}"
        )
    may = f"Its options are {series(o.spelled for o in command.options)}."
    if word in FOLDERS and DATA in command.options:
        return f"{command.word} has no option {plain(word)}. Did you mean --data? {may}"
    if word in {o.word for c in COMMANDS for o in c.options}:
        return f"{command.word} has no option {plain(word)}. {may}"
    return (
        f"There is no option {plain(word)}.{hint(word, [o.word for o in command.options])} {may} A file whose name"
        " begins with - stands behind the word --."
    )


def wrong_beside(seen: set[str]) -> str | None:
    """A sentence on options of the line that can't be combined."""
    others = [option.word for option in (ACCURACY, REDUCE, COUNT, KEYS) if option.word in seen]
    if STATS.word in seen and others:
        return (
            f"{others[0]} can't stand beside {STATS.word}: a statistics file has its own accuracy, and tells of whole"
            " tables."
        )
    if COUNT.word in seen and len(others) > 1:
        other = next(word for word in others if word != COUNT.word)
        return (
            f"{other} can't stand beside {COUNT.word}. {COUNT.word} reduces scans as {REDUCE.word} does, and counts"
            " over them: no list is compressed, and none is carried."
        )
    if KEYS.word in seen and REDUCE.word in seen:
        return f"{REDUCE.word} can't stand beside {KEYS.word}. {KEYS.word} is for plans over whole tables."
    return None


def wrong_budget(value: str) -> str | None:
    """What is wrong with the budget of a join tree."""
    if int(value[-4000:]) <= MOST_BUDGET_OF_A_TREE:
        return None
    return (
        f"{BUDGET.word} has the value {plain(value)}. With {BUSHY.word} it takes a number from {BUDGET.least:,} to"
        f" {MOST_BUDGET_OF_A_TREE:,}."
    )


def wrong_option(option: Option, is_again: bool, value: str | None) -> str | None:
    """What is wrong with an option and its value, or nothing."""
    if is_again:
        return f"{option.word} stands twice; it may stand once."
    if not option.value:
        return f"{option.word} takes no value." if value is not None else None
    if option.least is None or option.most is None:
        return wrong_file(option, value)
    between = f"a number from {option.least:,} to {option.most:,}, in digits alone: {option.spelled}"
    if value is None:
        return f"{option.word} lacks its value, {between}."
    if not DIGITS.fullmatch(value):
        return (
            f"{option.word} has the value {plain(value) or 'of no characters'}. It takes {between}.{spelled_out(value)}"
        )
    if not option.least <= int(value[-4000:]) <= option.most:
        return f"{option.word} has the value {plain(value)}. It takes {between}."
    return None


def wrong_file(option: Option, value: str | None) -> str | None:
    """What is wrong with a file's name as a value, or nothing."""
    if value is None:
        return f"{option.word} lacks its value, the name of a file: {option.spelled}."
    if not value or value.startswith("-"):
        return (
            f"{option.word} has the value {plain(value) or 'of no characters'}. It takes the name of a file, which"
            f" doesn't begin with -: {option.spelled}."
        )
    return None


def spelled_out(value: str) -> str:
    """The number that was meant, in digits."""
    if re.fullmatch(r"[0-9]{1,3}([,_.' ][0-9]{3})+", value):
        return f" Write {re.sub('[^0-9]', '', value)}."
    match = re.fullmatch(r"([0-9])[eE]\+?([0-9])", value)
    return f" Write {int(match[1]) * 10 ** int(match[2])}." if match else ""


def is_query(file: str) -> bool:
    """Whether a file begins as a query does."""
    try:
        with open(file, "rb") as f:
            return any(token.is_one("SELECT") for token in tokens_of(f.read(MOST_LOOKED_AT))[:1])
    except OSError:
        return False


def with_tables(files: list[str]) -> bool:
    """Whether the files are a query and then tables."""
    return len(files) > 1 and is_query(files[0]) and all(file.lower().endswith(".csv") for file in files[1:])


def tables_named(command: Command, run: Run) -> str:
    """What to do if table files are given after a query."""
    query, *tables = positional_words(run.words[1:])
    are = "is a table" if len(tables) == 1 else "are tables"
    line = run.line_without_schema(query) if run.user_folder else line_of_query(command, query)
    return (
        f"{plain(series(tables))} {are}, and no line names tables: the query does. They are found in their folder, and"
        f" a schema is proposed from them:{line}"
    )


def line_of_query(command: Command, query: str) -> str:
    """The command that runs a query without a schema, in the query's folder if that has tables."""
    folder = os.path.dirname(query)
    is_there = bool(folder) and any(name.endswith(".csv") for name in os.listdir(folder))
    words = [os.path.basename(query), "--data", folder] if is_there else [query, "--data", "."]
    return f"\n    safebound {command.word} {' '.join(plain(shlex.quote(word)) for word in words)}"


def wrong_places(command: Command, found: list[str]) -> str | None:
    if len(found) == 1 and is_query(found[0]) and command.positional == TEXTS:
        return (
            f"{command.word} lacks SCHEMA: {plain(found[0])} is a query. Without a schema, one is proposed from the"
            f" tables where you say in which folder they are:{line_of_query(command, found[0])}"
        )
    if len(found) == 1 and command.positional == TEXTS and re.match(r"\s*SELECT\s", found[0], re.IGNORECASE):
        return (
            f"{command.word} takes files, and here stands the text of a query. Write it into a file beside the tables:"
            f"\n    echo {plain(shlex.quote(found[0]))} > query.sql\n    safebound {command.word} query.sql --data ."
        )
    if command.positional == ("NUMBER",) and not found:
        return (
            f"{command.word} wants a number, from 0 to {MOST_SEED:,}: it makes other rows for each."
            f"\n    safebound {command.word} 7"
        )
    if len(found) < len(command.positional):
        return f"{command.word} lacks {series(command.positional[len(found):])}."
    if len(found) > len(command.positional):
        return (
            f"{plain(found[len(command.positional)])} is a word too many: {command.word} takes"
            f" {series(command.positional)} alone."
        )
    if command.positional == ("NUMBER",) and not (DIGITS.fullmatch(found[0]) and int(found[0][-4000:]) <= MOST_SEED):
        return f"{plain(found[0])} is no number from 0 to {MOST_SEED:,}, in digits alone."
    return None
