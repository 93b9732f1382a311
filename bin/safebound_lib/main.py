"""The friendly command. It handles its own options and commands, and hands all other words to the program."""
from __future__ import annotations

import os
import re
from collections.abc import Callable
from typing import TYPE_CHECKING

from . import program, version
from .table import BY_WORD, DATA, EXPLAIN, HELP, JSON, VERSION as VERSION_OPTION
from .words import Misused, is_surely_right, lacks_schema, options, positional_words, read_line

if TYPE_CHECKING:
    from .words import Line

MISUSED = 2
COMPARING, MOST_LOOKED_AT = ("run", "plan", "audit"), 2**20
# What a query has if it compares texts by other signs than =. Without it nothing is loaded that notes need.
MAY_BE_NOTED = re.compile(rb"(?:[<>]=?|\bBETWEEN)(?:\s|--[^\n]*)*['\"A-Z]|\bNOT\b", re.IGNORECASE)
USAGE = b"error usage\n"
HOW_TO_READ_USAGE = (
    "safebound: --explain says which word is wrong; `safebound help` lists the commands and their options\n"
)


def main(words: list[str]) -> int:
    try:
        line = read_line(words)
        if HELP.word in line.own:
            return show_help(line.words[:1] if line.command in BY_WORD else [])
        if VERSION_OPTION.word in line.own or line.words == ["version"]:
            return show_version()
        if not line.words and (EXPLAIN.word in line.own or program.is_terminal(2)):
            return show_overview()
        refuse_strange(line)
        if DATA.word in line.own:
            enter(line)
        if line.command in BY_WORD and BY_WORD[line.command].is_own:
            return with_schema(line, own_command)
        return with_schema(line, lambda whole: run_program(whole, is_last=whole is line))
    except Misused as fault:
        return report_misuse(f"safebound: {fault}")


def report_misuse(text: str) -> int:
    """Reports words that the friendly command can't take. On a terminal, lines are wrapped at its width."""
    if program.is_terminal(2):
        from .explain import wrapped
        text = "\n".join(map(wrapped, text.split("\n")))
    program.say(f"{text}\n")
    return MISUSED


def refuse_strange(line: Line) -> None:
    """Refuses an option of the friendly command where it doesn't apply, and unknown options of the commands that the
    program doesn't have. The program itself refuses all else.
    """
    command = BY_WORD.get(line.command)
    known = {option.word for option in command.options} if command else ()
    for word in [*line.own, *(options(line.words[1:]) if command.is_own else [])] if command else ():
        if word not in known and word != EXPLAIN.word:
            from .near import hint
            raise Misused(
                f"{line.command} has no option {word}.{hint(word, known)} `safebound help {line.command}` lists those"
                " that it has"
            )


def enter(line: Line) -> None:
    """Makes the folder of `--data` the current one."""
    folder = line.own[DATA.word]
    try:
        line.user_folder = os.getcwd()
        os.chdir(folder)
    except OSError as fault:
        raise Misused(f"{DATA.word} {folder}: {no_folder(folder) or fault.strerror}") from None


def no_folder(folder: str) -> str:
    """Says why this folder can't be used, and which folder may be meant."""
    if os.path.isfile(folder):
        return f"this is a file, and the option takes its folder: {DATA.word} {os.path.dirname(folder) or '.'}"
    above = os.path.dirname(folder) or "."
    if os.path.exists(folder) or not os.path.isdir(above):
        return ""
    from .near import hint
    beside = [name for name in os.listdir(above) if os.path.isdir(os.path.join(above, name))]
    return f"there is no folder {folder}.{hint(os.path.basename(folder), beside)}"


def with_schema(line: Line, run: Callable[[Line], int]) -> int:
    """Runs a line. If it lacks a schema, runs it with one that is proposed."""
    if not lacks_schema(line):
        return run(line)
    from .propose import with_proposed_schema
    with with_proposed_schema(line) as whole:
        return run(whole)


def run_program(line: Line, is_last: bool) -> int:
    """Runs a command of the program itself. Where a fault may be explained, this process reads the program's standard
    error. Otherwise, if `is_last` says that nothing follows, the program replaces this process.
    """
    path = program.find_program()
    say_notes(line)
    if JSON.word in line.own:
        from .json_plan import show
        return show(path, line)
    explains = is_explained(line)
    if is_last and not explains and is_surely_right(line):
        program.replace_process(path, line.words)
    status, notes = program.run_and_read(path, line.words)
    if explains:
        explain(path, line, status, notes)
    elif notes == USAGE:
        program.say(HOW_TO_READ_USAGE)
    return status


def say_notes(line: Line) -> None:
    """Writes notes on the query's comparisons, before the plan and the rows."""
    files = positional_words(line.words[1:])
    # A pipe could be read only once, and that is the program's part.
    if line.command not in COMPARING or len(files) != 2 or not all(map(os.path.isfile, files)):
        return
    try:
        with open(files[1], "rb") as f:
            if not MAY_BE_NOTED.search(f.read(MOST_LOOKED_AT)):
                return
    except OSError:
        return
    from .compared import notes
    from .explain import Run
    found = notes(Run(line.words, None, line.user_folder, line.is_proposed), line.sheets)
    if found:
        from .propose import sentences
        program.say(sentences(found))


def is_explained(line: Line) -> bool:
    """Whether a fault is explained: on a terminal, for a run with a proposed schema, and with `--explain`, even if that
    word is misspelled.
    """
    from .near import nearest
    command = BY_WORD.get(line.command)
    strange = [
        word for word in options(line.words[1:]) if command and word not in {option.word for option in command.options}
    ]
    return (
        EXPLAIN.word in line.own or line.is_proposed or program.is_terminal(2)
        or any(nearest(word, [EXPLAIN.word], 0.8) for word in strange)
    )


def explain(path: str, line: Line, status: int, notes: bytes) -> None:
    """Explains a fault below its line. Below a plan it writes only a sentence on entries that aren't connected."""
    from .explain import Run, explained, connection_warning
    from .faults import fault_of
    run = Run(line.words, path, line.user_folder, line.is_proposed)
    fault = fault_of(notes) if status else None
    program.say(explained(fault, run) if fault else connection_warning(run) if status == 0 else "")


def own_command(line: Line) -> int:
    from . import own
    if line.command == "convert":
        from .convert import convert
        return convert(line)
    if line.command == "schema":
        from .propose import schema
        return schema(line)
    does: dict[str, Callable[[], int]] = {
        "help": lambda: show_help(line.words[1:]), "new": lambda: own.new(line.words[1:]),
        "check": lambda: own.check(program.find_program(), line),
        "picture": lambda: own.picture(program.find_program(), line),
        "completion": lambda: own.completion(line.words[1:]),
    }
    return does[line.command]()


def show_overview() -> int:
    """Writes the help on standard error if there is no command, in place of the line `error usage`."""
    from . import pages
    program.say(pages.overview(2))
    return MISUSED


def show_help(topics: list[str]) -> int:
    from . import pages
    if len(topics) > 1:
        raise Misused("help takes one word: a command, or errors")
    text = pages.topic(topics[0]) if topics else pages.overview()
    if text is None:
        from .near import hint, series
        raise Misused(
            f"there is no help on {topics[0]}.{hint(topics[0], pages.TOPICS)} There is help on {series(pages.TOPICS)}"
        )
    program.write(1, text)
    return 0


def show_version() -> int:
    from . import places
    path = places.program()
    missing = f"SAFEBOUND_PROGRAM names no file: {places.named()}" if places.named() else "not built yet (make build)"
    said = f"{path}: {program.release_name()}" if path == places.RELEASED else path or missing
    program.write(1, f"safebound {version()}\nprogram: {said}\n")
    return 0


def run(words: list[str]) -> int:
    """The exit status of the command. Python's own interruptions become what a shell expects."""
    try:
        return program.end_as(main(words))
    except KeyboardInterrupt:
        return program.end_as(-2)
