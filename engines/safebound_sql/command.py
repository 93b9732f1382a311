"""The command line: reads the words, runs a command, and gives the exit status."""

from __future__ import annotations

import argparse
import contextlib
import io
import os
import sys
from typing import Callable, NoReturn, Sequence

from . import block_plans, output, sqlite, stops
from .engine import Engine
from .export import export_files
from .faults import AboveBound, Fault, Refused, Unreadable, Usage
from .kept import KeptCounts
from .levels import MOST_BUDGET, Plan
from .planner import Planner
from .unreached import DIALECTS, unreached

ABOUT = {
    "plan": "the best order, each level's bound, and what the engine expects",
    "sql": "the query with its joins in the planned order",
    "run": "admit or refuse by the budget, then write the rows as CSV",
    "audit": "each level's bound, what the engine expects, and its true rows",
    "counts": "the counting statement, for those who run it themselves",
    "append": "add rows that came later to the kept counts of a table",
    "export": "the query's tables as files for safebound_cli",
}
NO_ROOM_FOR_OUTPUT = 10
NO_BLOCKS_COUNTED = "nothing is counted: --count is for queries of one block, whose joins are inner ones"


class Words(argparse.ArgumentParser):
    """A parser that raises `Usage` for wrong words, like other faults, instead of ending the process."""

    def error(self, message: str) -> NoReturn:
        raise Usage(f"{message} (safebound-sql --help tells more)")


def number(least: int, most: int) -> Callable[[str], int]:
    def read(word: str) -> int:
        if not (word.isascii() and word.isdigit() and least <= int(word) <= most):
            raise argparse.ArgumentTypeError(f"a number from {least} to {most}, not {word!r}")
        return int(word)

    return read


def argument_parser() -> Words:
    parser = Words(prog="safebound-sql", description="Row bounds for a query in PostgreSQL or SQLite.")
    commands = parser.add_subparsers(dest="command", required=True, parser_class=Words)
    for name, about in ABOUT.items():
        command = commands.add_parser(name, help=about, description=about[0].upper() + about[1:] + ".")
        unreached = name in ("plan", "sql", "counts")
        command.add_argument("--db", required=not unreached, metavar="DB", help="postgresql://.. or sqlite:FILE")
        if unreached:
            command.add_argument(
                "--dialect", choices=DIALECTS, help="in place of --db, of an engine that isn't reached from here"
            )
            command.add_argument(
                "--schema", metavar="FILE", help="with --dialect: the CREATE TABLEs of the query's tables"
            )
        command.add_argument(
            "--timeout", type=number(1, 10**6), metavar="SECONDS", help="ends a statement that takes longer"
        )
        if name == "append":
            command.add_argument("--kept", required=True, metavar="FILE", help="the kept counts")
            command.add_argument(
                "--where", required=True, metavar="CONDITION", help="true of the rows that came later alone"
            )
            command.add_argument("table", metavar="TABLE", help="the table, as a query names it")
            continue
        if name == "export":
            command.add_argument("folder", metavar="DIR", help="a folder that is new or empty")
        else:
            command.add_argument(
                "--no-reduce", action="store_true", help="count under own conditions alone, without semi-joins"
            )
        if name == "counts":
            command.add_argument(
                "--keep", metavar="FILE", help="count whole tables, and keep that in a file for later plans"
            )
        if name in ("plan", "sql", "run", "audit"):
            _plan_words(command, name)
        command.add_argument("query", metavar="QUERY", help="a file with the query, or - for standard input")
    return parser


def _plan_words(command: argparse.ArgumentParser, name: str) -> None:
    command.add_argument(
        "--accuracy", type=number(1, 64), default=1, metavar="K", help="how closely degrees are kept, 1 to 64 (1)"
    )
    command.add_argument("--tree", action="store_true", help="the best join tree of any shape")
    command.add_argument(
        "--budget", type=number(0, MOST_BUDGET), required=name == "run", default=MOST_BUDGET, metavar="N",
        help="the most rows that a bound of the plan may say",
    )
    if name == "run":
        command.add_argument(
            "--null", default="", metavar="TEXT", help="what stands for NULL in the CSV, never in quotes (nothing)"
        )
    if name in ("plan", "audit"):
        command.add_argument("--json", action="store_true", help="for programs")
    if name in ("plan", "sql", "audit"):
        command.add_argument(
            "--kept", metavar="FILE", help="kept counts, for entries without conditions; no semi-joins"
        )
    command.add_argument(
        "--count", action="store_true",
        help="on PostgreSQL: also count each level's choices of rows without joining them, and lower its bound to that",
    )
    if name in ("plan", "sql"):
        command.add_argument("--counts", metavar="FILE", help="the answer of the counting statement, as CSV")


def _engine(given: argparse.Namespace) -> Engine:
    """The engine that `--db` or `--dialect` names."""
    dialect = getattr(given, "dialect", None)
    if (given.db is None) == (dialect is None):
        raise Usage("either --db or --dialect is needed")
    if dialect is None:
        return open_engine(given.db, given.timeout)
    if given.schema is None:
        raise Usage("--dialect needs --schema FILE, where the CREATE TABLEs of the query's tables are")
    if given.command != "counts" and given.counts is None:
        raise Usage("--dialect needs --counts FILE, the answer to what `counts` prints")
    if getattr(given, "keep", None) or getattr(given, "kept", None):
        raise Usage("counts are kept by --db, of an engine that is reached")
    if getattr(given, "count", False):
        raise Usage("--count is for --db, of an engine that is reached")
    return unreached(dialect, text_of(given.schema))


def open_engine(db: str, timeout: int | None) -> Engine:
    kind, _, rest = db.partition(":")
    if kind in ("postgresql", "postgres"):
        from . import postgres  # psycopg takes a while to load

        return postgres.open_engine(db, timeout)
    if kind == "sqlite" and rest:
        return sqlite.open_engine(rest, timeout)
    raise Usage(f"--db is postgresql://.. or sqlite:FILE, not {db!r}")


def text_of(file: str) -> str:
    """A file's characters. Line ends are unchanged, since a text in the query may have one."""
    try:
        if file == "-":
            return sys.stdin.buffer.read().decode("utf-8-sig")
        with open(file, "rb") as text:
            return text.read().decode("utf-8-sig")
    except (OSError, UnicodeDecodeError) as error:
        raise Unreadable(f"{file}: {error}") from None


def _run_with_plan(given: argparse.Namespace, planner: Planner) -> None:
    """Runs the commands that need a plan."""
    kept = getattr(given, "kept", None)
    if given.count:
        plan = planner.plan_by_counting(given.accuracy, given.budget, given.tree)
    elif kept:
        plan = planner.plan_by_kept(given.accuracy, given.budget, given.tree, KeptCounts(kept))
    else:
        plan = planner.plan(given.accuracy, given.budget, given.tree, getattr(given, "counts", None))
    planner.check(plan)
    if given.command == "sql":
        sys.stdout.write(planner.script(plan))
        return
    planner.expect(plan)
    true_rows = planner.true_rows(plan) if given.command == "audit" else None
    if getattr(given, "json", False):
        sys.stdout.write(output.plan_document(plan, planner.settings, planner.sql(plan), true_rows))
    else:
        _show(given, planner, plan, true_rows)
    for number, (level, rows) in enumerate(zip(plan.levels, true_rows or ()), 1):
        if rows > level.bound:
            raise AboveBound(f"level {number}", rows, level.bound)


def _show(given: argparse.Namespace, planner: Planner, plan: Plan, true_rows: list[int] | None) -> None:
    shown = output.plan_table(plan, planner.engine.dialect.title, true_rows)
    if given.command == "plan" and given.dialect:
        shown = "".join(f"-- {line}\n" for line in shown.splitlines()) + planner.script(plan)
    (sys.stderr if given.command == "run" else sys.stdout).write(shown)
    if given.command == "run":
        planner.run(plan, sys.stdout, given.null)


def _run_keep(given: argparse.Namespace, planner: Planner) -> None:
    kept = KeptCounts(given.keep, has_to_be_there=False)
    with planner.progress.doing("counting whole tables"):
        tables = kept.keep(planner.query, planner.engine)
    kept.save()
    for table in tables:
        print(f"{table.name}: {table.rows} rows, {', '.join(table.runs) or 'no column'}")


def _run_append(given: argparse.Namespace, engine: Engine) -> None:
    kept = KeptCounts(given.kept)
    table, new = kept.append(given.table, given.where, engine)
    kept.save()
    print(f"{table.name}: {table.rows} rows, {new} of them new")


def _run_in_blocks(given: argparse.Namespace, engine: Engine, text: str) -> None:
    """Runs the commands that support queries of several blocks."""
    for option in ("tree", "kept", "counts"):
        if getattr(given, option, None):
            raise Refused(f"--{option} is for queries of one block, whose joins are inner ones")
    if given.command not in ("plan", "sql", "run", "audit"):
        raise Refused(f"{given.command} is for queries of one block, whose joins are inner ones")
    planner = block_plans.Planner(engine, text, given.accuracy, given.budget)
    planner.check()
    unbounded = planner.unbounded
    if given.command == "run" and unbounded:
        raise Refused(f"not all blocks are bounded: {unbounded[0]}")
    if given.command == "sql":
        sys.stdout.write(planner.script())
        return
    if given.command == "audit":
        planner.true_rows()
    notes = [NO_BLOCKS_COUNTED] if given.count else []
    if getattr(given, "json", False):
        sys.stdout.write(output.blocks_document(planner, notes))
    else:
        (sys.stderr if given.command == "run" else sys.stdout).write(output.blocks_table(planner, notes))
    if given.command == "run":
        engine.connection.keep_order()
        with planner.progress.doing("joining") as end:
            for part in engine.connection.csv(planner.sql(), given.null):
                end()
                sys.stdout.write(part)
    _compare_rows(planner)


def _compare_rows(planner: block_plans.Planner) -> None:
    """Raises a fault if more rows were counted than a bound says."""
    for plan in planner.plans.values():
        for number, level in enumerate(plan.levels, 1):
            if level.rows is not None and level.rows > level.bound:
                raise AboveBound(f"level {number}", level.rows, level.bound)
    if planner.rows is not None and (planner.rows_there or 0) > planner.rows:
        raise AboveBound("the whole query", planner.rows_there or 0, planner.rows)


def run_command(given: argparse.Namespace) -> None:
    text = text_of(given.query) if given.command != "append" else ""
    if getattr(given, "kept", None) and getattr(given, "counts", None):
        raise Usage("either --kept or --counts")
    count = getattr(given, "count", False)
    if count and (getattr(given, "kept", None) or getattr(given, "counts", None)):
        raise Usage("--count counts the rows of now: either it, or --kept or --counts")
    engine = _engine(given)
    try:
        if count and not engine.dialect.counts_exactly:
            raise Usage(f"--count is for PostgreSQL: {engine.dialect.title} has no exact numbers past 2^63")
        if given.command == "append":
            return _run_append(given, engine)
        if engine.dialect.knows_blocks and block_plans.has_several_blocks(text, engine):
            _run_in_blocks(given, engine, text)
            return sys.stdout.flush()
        planner = Planner(engine, text, not (getattr(given, "no_reduce", False) or getattr(given, "kept", None)))
        if given.command == "counts" and given.keep:
            _run_keep(given, planner)
        elif given.command == "counts":
            sys.stdout.write(planner.counting + ";\n")
            if planner.note:
                print(f"safebound-sql: note: {planner.note}", file=sys.stderr)
        elif given.command == "export":
            export_files(planner.meaning, engine, given.folder, planner.progress)
        else:
            _run_with_plan(given, planner)
        sys.stdout.flush()
    finally:
        engine.connection.close()


def main(arguments: Sequence[str] | None = None) -> int:
    """Runs a command. Returns the exit status."""
    if isinstance(sys.stdout, io.TextIOWrapper):
        sys.stdout.reconfigure(encoding="utf-8", errors="surrogateescape")
    stops.install_handlers()
    try:
        run_command(argument_parser().parse_args(arguments))
    except Fault as fault:
        print(f"safebound-sql: {fault.line()}", file=sys.stderr)
        return fault.status
    except OSError as error:  # of standard output: those of named files are faults
        with contextlib.suppress(OSError):
            print(f"safebound-sql: file: standard output: {error.strerror}", file=sys.stderr)
        os.dup2(os.open(os.devnull, os.O_WRONLY), 1)
        return NO_ROOM_FOR_OUTPUT
    except KeyboardInterrupt:
        return 128 + (stops.first_signal() or 2)
    except RecursionError:
        print("safebound-sql: refused: the query is nested too deeply", file=sys.stderr)
        return 5
    return 0
