"""The commands that the program doesn't have: `new`, `check`, `picture`, `completion`."""
from __future__ import annotations

import os
import shlex
import shutil
import sys
import tempfile
from typing import TYPE_CHECKING

from safebound.plan_texts import PlanText, read_audit, read_plan

from . import pages, places, program
from .explain import Run, explained, connection_warning, read
from .explain.budgets import given_options, has_flag, most_budget, with_words
from .faults import fault_of
from .html_page import page
from .lists import lists_of
from .near import series
from .picture import draw
from .query import read_query
from .schema import read_schema
from .shown import shown_of
from .table import ACCURACY, BUDGET, COUNT, KEYS, OUTPUT, REDUCE, SHELLS, USUAL_BUDGET
from .words import Misused, option_of, positional_words

if TYPE_CHECKING:
    from .lists import Listed
    from .faults import Fault
    from .shown import Shown
    from .words import Line

PARTS_OF_EXAMPLE = (".sql", ".csv")
PICTURES = (".svg", ".html")


def new(words: list[str]) -> int:
    """Copies the texts and tables of an example into a new folder."""
    if len(words) != 1:
        raise Misused("new takes one word, the folder: safebound new FOLDER")
    folder, source = words[0], places.example()
    try:
        os.makedirs(folder, exist_ok=True)
        if os.listdir(folder):
            raise Misused(f"{folder} isn't empty: nothing was written")
        names = sorted(name for name in os.listdir(source) if name.endswith(PARTS_OF_EXAMPLE))
        for name in names:
            shutil.copyfile(os.path.join(source, name), os.path.join(folder, name))
    except OSError as fault:
        raise Misused(f"{folder}: {fault.strerror}") from None
    line = f"    {command_name()} run schema.sql query.sql --data {folder}\n"
    program.write(1, f"{folder}: {series(names)}\nRun it, and then edit it:\n{line}")
    return 0


def command_name() -> str:
    """How a user can call the command: by its name if the shell finds this file by it, else by its path."""
    found = shutil.which("safebound")
    is_it = found is not None and os.path.realpath(found) == os.path.realpath(sys.argv[0])
    return "safebound" if is_it or os.path.basename(sys.argv[0]) != "safebound" else shlex.quote(sys.argv[0])


def check(path: str, line: Line) -> int:
    """Checks the two texts without tables: it plans them in a folder that has no table. If the plan fails only because
    a table can't be read, both texts are valid.
    """
    files = positional_words(line.words[1:])
    if len(files) not in (1, 2) or len(files) != len([w for w in line.words[1:] if w != "--"]):
        raise Misused("check takes the schema and maybe the query: safebound check SCHEMA [QUERY]")
    with tempfile.TemporaryDirectory(prefix="safebound-") as empty:
        query = os.path.join(empty, "no query")
        with open(query, "wb"):
            pass
        absolute = [os.path.abspath(file) for file in files] + [query]
        status, _, notes = program.answer(path, ["plan", "--", *absolute[:2]], empty)
    fault = fault_of(notes)
    is_right = fault is not None and (
        fault.kind == "read" and fault.file not in absolute or len(files) == 1 and fault.kind == "query"
    )
    if is_right:
        program.write(1, valid_message(files))
        return 0
    return tell(notes, fault, Run(["plan", "--", *files], path, line.user_folder), dict(zip(absolute, files)), status)


def tell(notes: bytes, fault: Fault | None, run: Run, names: dict[str, str], status: int) -> int:
    """Prints the line of the fault, with the file's name as the user gave it, and the explanation."""
    if fault and fault.file in names:
        fault.file = names[fault.file]
        notes = notes.replace(os.fsencode(os.path.abspath(fault.file)), os.fsencode(fault.file))
    program.say(notes.decode("utf-8", "surrogateescape") + (explained(fault, run) if fault else ""))
    return status


def valid_message(files: list[str]) -> str:
    """One line for each text, on what was read."""
    schema = read_schema(read(files[0]))
    said = (
        f"{files[0]}: right. Tables:"
        f" {series((f'{t.name} ({len(t.columns)} columns)' for t in schema.tables), most=64)}\n"
    )
    if len(files) == 2:
        query = read_query(read(files[1]))
        entries = series(
            e.name if e.name == e.table.name else f"{e.name} (table {e.table.name})" for e in query.entries
        )
        said += f"{files[1]}: right. Entries: {entries}\n" + connection_warning(Run(["plan", "--", *files]))
    return said


def picture(path: str, line: Line) -> int:
    """Draws the plan and an audit's true rows. If the budget refuses the query, draws the plan and the budget."""
    to = line.own.get(OUTPUT.word, "plan.svg")
    if to != "-" and not to.lower().endswith(PICTURES):
        raise Misused(f"{OUTPUT.word} {to}: a picture's name ends in .svg, and a page's in .html")
    words = ["audit", *line.words[1:]]
    run = Run(words, path, line.user_folder)
    status, out, notes = program.answer(path, words)
    given_budget = option_of(words, BUDGET.word)
    budget = int(given_budget) if given_budget else None
    rows: list[int] | None = None
    if status:
        tell(notes, fault_of(notes), run, {}, status)
        plan, budget = refused_plan(run, fault_of(notes)), budget or USUAL_BUDGET
        if plan is None:
            return status
    else:
        plan = read_plan(notes.decode())
        rows = read_audit(out.decode(), plan)
    return save(picture_text(run, shown_of(run, plan, rows, budget), to), to, run) or status


def refused_plan(run: Run, fault: Fault | None) -> PlanText | None:
    """The plan that the budget refuses, made again under the greatest budget. None if that budget refuses it too."""
    if not fault or fault.kind != "budget" or fault.least > most_budget(run):
        return None
    plan = with_words(run, given_options(run, fault.least))
    return plan if isinstance(plan, PlanText) else None


def picture_text(run: Run, shown: Shown, to: str) -> str:
    """The picture, or an HTML page if the file's name ends in .html."""
    if not to.lower().endswith(".html"):
        return draw(shown)
    flags = [flag.word for flag in (REDUCE, COUNT, KEYS) if has_flag(run, flag)]
    return page(shown, {} if {REDUCE.word, COUNT.word} & set(flags) else lists_beside(run), flags)


def lists_beside(run: Run) -> dict[str, list[Listed]]:
    """The lists of the run's entries, from statistics that the program makes for the query; empty if that fails."""
    accuracy = option_of(run.words, ACCURACY.word)
    status, text, _ = program.answer(
        run.program or "",
        ["stats", *([ACCURACY.word, accuracy] if accuracy else []), "--", run.schema_file, run.query_file],
    )
    return lists_of(run.query, run.schema, text.decode()) if status == 0 else {}


def save(text: str, to: str, run: Run) -> int:
    if to == "-":
        program.write(1, text)
        return 0
    try:
        with open(to, "w", encoding="utf-8") as f:
            f.write(text)
    except OSError as fault:
        raise Misused(f"{to}: {fault.strerror}") from None
    program.say(f"{run.path_of(to)}: the picture of the plan; a browser shows it\n")
    return 0


def completion(words: list[str]) -> int:
    if len(words) != 1 or words[0] not in SHELLS:
        raise Misused(f"completion takes one word: {series(SHELLS, 'or')}")
    program.write(1, pages.completion(words[0]))
    return 0
