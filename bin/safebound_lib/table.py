"""The table of commands and options. Help, man page, completion and explanations all read it, so one line adds an
option.
"""
from __future__ import annotations

from dataclasses import dataclass

MOST_BUDGET, MOST_BUDGET_OF_A_TREE, USUAL_BUDGET = 20_000_000, 4_000_000, 1_000_000


@dataclass(frozen=True)
class Option:
    """A word with a value, whose name in the help is `value`, or a flag. Options of the friendly command itself aren't
    handed on to the program.
    """
    word: str
    value: str | None
    help: str
    least: int | None = None
    most: int | None = None
    is_own: bool = False

    @property
    def spelled(self) -> str:
        return f"{self.word} {self.value}" if self.value else self.word


@dataclass(frozen=True)
class Command:
    word: str
    positional: tuple[str, ...]
    help: str
    options: tuple[Option, ...] = ()
    more: str = ""
    examples: tuple[str, ...] = ()
    is_own: bool = False
    optional: int = 0

    @property
    def spelled(self) -> str:
        needed = len(self.positional) - self.optional
        places = [place if i < needed else f"[{place}]" for i, place in enumerate(self.positional)]
        return " ".join([self.word, *places, *(f"[{option.spelled}]" for option in self.options)])


BUDGET = Option(
    "--budget", "N", "the greatest bound that a level may have; 1,000,000 without it", 1, MOST_BUDGET
)
ACCURACY = Option(
    "--accuracy", "K",
    "how closely lists of degrees are kept: more takes longer and mostly lowers bounds; 1 without it", 1, 64,
)
REDUCE = Option("--reduce", None, "leaves out rows that lack a partner, and makes bounds over the others")
COUNT = Option(
    "--count", None,
    "as --reduce, with bounds that are counted, mostly exact; not with --reduce, --keys or --accuracy",
)
BUSHY = Option(
    "--bushy", None, "joins by the best tree of any shape and not along an order; a budget is then at most 4,000,000"
)
KEYS = Option(
    "--keys", None,
    "uses conditions on a table for tables that refer to its key; not with --reduce or --count",
)
MEMORY = Option(
    "--memory", "N",
    "the most bytes that the buffers of the plan may take; the plan then ends with a line of its bytes", 1, 2**40,
)
OF_PLANS = (BUDGET, ACCURACY, MEMORY, REDUCE, COUNT, BUSHY, KEYS)
STATS = Option(
    "--stats",
    "FILE",
    (
        "plans from this statistics file, which `stats` wrote, and reads no table; only with --budget, --memory and"
        " --bushy"
    ),
)

DATA = Option(
    "--data",
    "DIR",
    (
        "runs in the folder DIR, where the tables are; SCHEMA and QUERY are looked up there too. With QUERY alone, a"
        " schema is proposed from the tables and shown on standard error"
    ),
    is_own=True,
)
EXPLAIN = Option("--explain", None, "explains a fault also where standard error is no terminal", is_own=True)
JSON = Option("--json", None, "writes the plan as JSON on standard output: tables, conditions and bounds", is_own=True)
OUTPUT = Option(
    "--output",
    "FILE",
    (
        "where the picture goes: plan.svg without it, and - is standard output; to a name in .html goes a page on which"
        " a click says more"
    ),
    is_own=True,
)
RESULT = Option("--output", "FILE", "writes to FILE, a new file; - is standard output", is_own=True)
ENCODING = Option(
    "--encoding", "NAME", "the encoding that the file has, as latin-1 or cp850; without it, it is found from the bytes",
    is_own=True,
)
CENTS = Option(
    "--cents",
    "COLUMN",
    "writes a column of decimals in whole cents, 1250 for 12.50, under a name of its own",
    is_own=True,
)
DIGITS = Option("--digits", "N", "beside --cents: how many digits behind the point are kept; 2 without it", is_own=True)
HELP = Option("--help", None, "this help", is_own=True)
VERSION = Option("--version", None, "the version of this command, and which program it runs", is_own=True)

TEXTS = ("SCHEMA", "QUERY")
OF_APPEND = ("SCHEMA", "STATS", "TABLE", "ROWS")
SHELLS = ("bash", "zsh")
COMMANDS = (
    Command(
        "run",
        TEXTS,
        "the plan on standard error, and every row on standard output, as CSV",
        (*OF_PLANS, DATA, EXPLAIN),
        "If a level's bound is above the budget, nothing is joined, and the least sufficient budget is printed.",
        (
            "safebound run schema.sql query.sql",
            "safebound run schema.sql query.sql --data shop --budget 50000 > rows.csv",
        ),
    ),
    Command(
        "plan",
        TEXTS,
        "the plan on standard error, and no rows",
        (*OF_PLANS, STATS, DATA, EXPLAIN, JSON),
        "",
        (
            "safebound plan schema.sql query.sql --accuracy 8", "safebound plan schema.sql query.sql --json",
            "safebound plan schema.sql query.sql --stats trips.stats",
        ),
    ),
    Command(
        "audit", TEXTS, "the plan, and beside each level's bound the number of its rows",
        (*OF_PLANS, DATA, EXPLAIN, JSON), "", ("safebound audit schema.sql query.sql --reduce",),
    ),
    Command(
        "stats", TEXTS, "the statistics file of the query's tables on standard output, for `plan --stats`",
        (ACCURACY, DATA, EXPLAIN),
        "The file serves every query that compares and joins the same columns. Make it anew where rows have changed.",
        ("safebound stats schema.sql query.sql > trips.stats",),
    ),
    Command(
        "append",
        OF_APPEND,
        "the statistics file STATS with new rows of one of its tables, on standard output",
        (DATA, EXPLAIN),
        (
            "TABLE is the table's name, and ROWS a CSV file of the new rows alone, with a header. The old rows aren't"
            " read, and keys are checked among the new rows alone. Write to another file than STATS."
        ),
        ("safebound append schema.sql trips.stats TRIP new.csv > trips.new",),
    ),
    Command(
        "demo", ("NUMBER",), "the audit of a query over a shop of 670,000 rows, made in memory", (EXPLAIN,),
        "NUMBER is from 0 to 4,294,967,295; each number makes other rows.", ("safebound demo 7",),
    ),
    Command(
        "schema",
        ("FILE..",),
        "proposes a schema text from the headers and values of table files, on standard output",
        (RESULT,),
        (
            "A column of whole numbers is INTEGER, any other a text of its greatest length. A column that repeats"
            " nothing is a key, and a column whose values are all in another table's key refers to it. Problems are"
            " listed on standard error, file by file, with what to do. The exit status is 6 if a file gives no table."
            " A folder stands for its files."
        ),
        ("safebound schema *.csv > schema.sql", "safebound schema shop --output schema.sql"),
        is_own=True,
    ),
    Command(
        "convert",
        ("FILE",),
        "writes a file of another encoding, or with semicolons or tabs, as the program reads it: UTF-8 with commas",
        (RESULT, ENCODING, CENTS, DIGITS),
        (
            "The new file keeps the name, and the file as it was gets a name that ends in .original. Another ending"
            " than .csv becomes .csv. A text of SQL only gets another encoding. Nothing is written over."
        ),
        (
            "safebound convert city.csv", "safebound convert Export.txt --output shop/city.csv",
            "safebound convert city.csv --encoding cp850",
            "safebound convert shop.csv --cents PRICE",
        ),
        is_own=True,
    ),
    Command(
        "check", TEXTS, "reads the two texts alone, without any table, and says what is wrong with them", (DATA,),
        "The query may be left out. The exit status is 0 where the texts are right.",
        ("safebound check schema.sql", "safebound check schema.sql query.sql"), is_own=True, optional=1,
    ),
    Command(
        "picture",
        TEXTS,
        "draws the plan, with each level's bound and true rows, as one SVG or one page of HTML",
        (*OF_PLANS, DATA, OUTPUT),
        (
            "It runs an audit, so the query is joined. Of a query that its budget refuses it draws the bounds and the"
            " budget."
        ),
        ("safebound picture schema.sql query.sql", "safebound picture schema.sql query.sql --output plan.html"),
        is_own=True,
    ),
    Command(
        "new", ("FOLDER",), "puts a small example into a new folder, to edit", (), "", ("safebound new trips",),
        is_own=True,
    ),
    Command(
        "help", ("COMMAND",), "this help, or that of one command; `help errors` lists every fault with what to do", (),
        "", ("safebound help run", "safebound help errors"), is_own=True, optional=1,
    ),
    Command(
        "completion", ("SHELL",), "prints the completion for bash or zsh", (), "",
        ("source <(safebound completion bash)",), is_own=True,
    ),
)
# The commands by name.
BY_WORD = {command.word: command for command in COMMANDS}
PROGRAM_COMMANDS = tuple(command for command in COMMANDS if not command.is_own)
MOST_SEED = 2**32 - 1


def program_options(command: Command) -> list[Option]:
    """The options of a command that the program itself reads."""
    return [option for option in command.options if not option.is_own]


def options_with_value() -> set[str]:
    """The words of all options of the program that have a value."""
    return {o.word for command in COMMANDS for o in program_options(command) if o.value}


def options_with_number() -> set[str]:
    """The options whose value is a number."""
    return {o.word for command in COMMANDS for o in program_options(command) if o.least is not None}


def own_options() -> dict[str, Option]:
    """All options of the friendly command, by their words."""
    found = {o.word: o for command in COMMANDS for o in command.options if o.is_own}
    return {**found, HELP.word: HELP, "-h": HELP, VERSION.word: VERSION}
