"""Help, the man page and shell completion, all made from the table of commands."""
from __future__ import annotations

import re
import textwrap
from typing import TYPE_CHECKING

from . import version
from .places import page
from .table import BY_WORD, COMMANDS, HELP, SHELLS, VERSION as VERSION_OPTION, options_with_number
from .terminal import columns

if TYPE_CHECKING:
    from .table import Command, Option

SUMMARY = "joins tables with bounds that are proved"
ABOUT = (
    "A schema text, a query text (select-project-join SQL-92) and one CSV file for each table: SafeBound bounds every"
    " scan and every intermediate join, picks the best order, refuses a query whose bound passes the budget, and then"
    " lists every row. No bound is too low; that is proved."
)
OWN_OPTIONS = (
    "Options of this command stand before `--`; all other words go to the proved program as they are, and its streams"
    " and exit status come back as they are. Where standard error is a terminal, a fault is explained below its line."
)
STATUSES = (
    "0 done; 2 the words; 3 a file; 4 the schema; 5 the query; 6 a table; 7 a limit; 8 the budget; 9 past every budget;"
    " 10 a stream; 11 memory; 14 a statistics file; 16 a limit of memory. `safebound help errors` lists each line."
)
LIMITS = "One to 12 entries in FROM; 64 MiB and 4,000,000 rows for each table; budgets up to 20,000,000."


def options_of(command: Command) -> list[Option]:
    return [*command.options, HELP]


def overview(stream: int = 1) -> str:
    """The help, as wide as the terminal of the stream with this number."""
    wide = columns(stream)
    lines = [*wrapped(f"safebound {version()}: {SUMMARY}", wide), "", *wrapped(ABOUT, wide), "", "Commands:"]
    lines += [word_with_meaning(" ".join([c.word, *places_of(c)]), c.help, wide) for c in COMMANDS]
    lines += [
        "",
        *wrapped(OWN_OPTIONS, wide),
        "",
        *wrapped("Limits: " + LIMITS, wide),
        "",
        "Begin with:",
        "    safebound new trips",
        "    cd trips",
        "    safebound run schema.sql query.sql",
        "",
        *wrapped(
            "`safebound help COMMAND` says more of one, with examples; `safebound help errors` lists the faults.", wide
        ),
    ]
    return "\n".join(lines) + "\n"


def places_of(command: Command) -> list[str]:
    needed = len(command.positional) - command.optional
    return [place if i < needed else f"[{place}]" for i, place in enumerate(command.positional)]


def of_command(command: Command) -> str:
    wide = columns(1)
    lines = (
        wrapped(f"safebound {command.spelled}", wide, "    ") + [""]
        + wrapped(f"{command.help[0].upper()}{command.help[1:]}. {command.more}".strip(), wide)
    )
    lines += ["", "Options:", *(word_with_meaning(o.spelled, option_help(o), wide) for o in options_of(command))]
    if command.examples:
        lines += ["", "Examples:", *(f"    {example}" for example in command.examples)]
    return "\n".join(lines) + "\n"


def option_help(option: Option) -> str:
    """The option's help, and its range if it has one."""
    return option.help + (f" ({option.least:,} to {option.most:,})" if option.least is not None else "")


def wrapped(text: str, wide: int, indent: str = "", first: str = "") -> list[str]:
    return textwrap.wrap(text, wide, initial_indent=first, subsequent_indent=indent, break_on_hyphens=False)


def word_with_meaning(word: str, text: str, wide: int) -> str:
    """A word with its meaning in a second column. If the word is too long for its column, the meaning goes below it."""
    first = f"  {word:<22} " if len(word) <= 22 else f"  {word}\n{'':25}"
    above, _, indent = first.rpartition("\n")
    return (above and above + "\n") + "\n".join(wrapped(text, wide, " " * 25, indent))


def errors() -> str:
    """The table of docs/ERRORS.md, laid out for a terminal."""
    with open(page("ERRORS.md"), encoding="utf-8") as f:
        lines = f.read().splitlines()
    found = ["Each fault is one line on standard error, with an exit status.", ""]
    for line in lines:
        cells = [plain(cell.strip()) for cell in line.strip("|").split("|")]
        if line.startswith("| `error") and len(cells) == 4:
            found += wrapped(f"{cells[0]}  (exit status {cells[1]})", columns(1), "    ")
            found += indented_lines(f"{cells[2]}.")
            found += indented_lines(f"To do: {cells[3]}.") if cells[3] else []
            found.append("")
    return "\n".join(found)


def plain(text: str) -> str:
    """A page's text for a terminal: without backquotes, and with the path of another page in place of a link to it."""
    text = re.sub(
        r"\[([^\]]*)\]\((\w+\.md)[^)]*\)",
        lambda found: f"docs/{found[2]}" if found[1] == found[2] else f"{found[1]} (docs/{found[2]})",
        text.replace("`", ""),
    )
    return re.sub(r"\bdocs/(\w+\.md)", lambda found: page(found[1]), text)


def indented_lines(text: str) -> list[str]:
    return textwrap.wrap(
        text, columns(1), initial_indent="    ", subsequent_indent="    ", break_on_hyphens=False,
        break_long_words=False,
    )


def man() -> str:
    """The man page, in the macros of man(7)."""
    lines = [f'.TH SAFEBOUND 1 "" "safebound {version()}"', ".SH NAME", f"safebound \\- {SUMMARY}", ".SH SYNOPSIS"]
    lines += [
        part
        for c in COMMANDS
        for part in (
            f".B safebound {roff(c.word)}", roff(" ".join([*places_of(c), *(f"[{o.spelled}]" for o in c.options)])),
            ".br",
        )
    ]
    lines += [".SH DESCRIPTION", roff(ABOUT), ".PP", roff(OWN_OPTIONS), ".SH COMMANDS"]
    for command in COMMANDS:
        lines += [
            ".TP", f".B {roff(' '.join([command.word, *places_of(command)]))}",
            roff(f"{command.help[0].upper()}{command.help[1:]}. {command.more}".strip()),
        ]
    lines.append(".SH OPTIONS")
    for option in dict.fromkeys(o for c in COMMANDS for o in c.options):
        of = ", ".join(c.word for c in COMMANDS if option in c.options)
        lines += [".TP", f".B {roff(option.spelled)}", roff(f"{option_help(option)}. With {of}.")]
    lines += [
        ".SH EXIT STATUS", roff(STATUSES), ".SH LIMITS", roff(LIMITS), ".SH EXAMPLES", ".nf",
        *(roff(e) for c in COMMANDS for e in c.examples), ".fi",
    ]
    return "\n".join(lines) + "\n"


def roff(text: str) -> str:
    return re.sub(r"^([.'])", r"\\&\1", text.replace("\\", "\\e").replace("-", "\\-"))


def topic(name: str) -> str | None:
    """The page of a topic, or nothing."""
    if name in BY_WORD:
        return of_command(BY_WORD[name])
    return errors() if name == "errors" else man() if name == "man" else None


TOPICS = tuple(BY_WORD) + ("errors", "man")


def completion(shell: str) -> str:
    words = {c.word: " ".join(o.word for o in options_of(c)) for c in COMMANDS}
    cases = "\n".join(f"        {word}) known={options!r};;" for word, options in words.items())
    commands = " ".join([*words, HELP.word, VERSION_OPTION.word])
    return {"bash": BASH, "zsh": ZSH}[shell].format(
        commands=commands, cases=cases, numbers="|".join(sorted(options_with_number())), topics=" ".join(TOPICS),
        shells=" ".join(SHELLS),
    )


BASH = """# bash completion for safebound
_safebound() {{
    local current=${{COMP_WORDS[COMP_CWORD]}} before=${{COMP_WORDS[COMP_CWORD-1]}} known=''
    COMPREPLY=()
    if [ "$COMP_CWORD" -eq 1 ]; then
        COMPREPLY=($(compgen -W '{commands}' -- "$current")); return
    fi
    case $before in
        {numbers}) return;;
        --data) COMPREPLY=($(compgen -d -- "$current")); return;;
        help) COMPREPLY=($(compgen -W '{topics}' -- "$current")); return;;
        completion) COMPREPLY=($(compgen -W '{shells}' -- "$current")); return;;
    esac
    case ${{COMP_WORDS[1]}} in
{cases}
    esac
    case $current in
        -*) COMPREPLY=($(compgen -W "$known" -- "$current"));;
        *) COMPREPLY=($(compgen -f -- "$current"));;
    esac
}}
complete -o filenames -F _safebound safebound
"""

ZSH = """#compdef safebound
_safebound() {{
    local known=''
    if (( CURRENT == 2 )); then
        compadd -- {commands}; return
    fi
    case $words[CURRENT-1] in
        {numbers}) return;;
        --data) _files -/; return;;
        help) compadd -- {topics}; return;;
        completion) compadd -- {shells}; return;;
    esac
    case $words[2] in
{cases}
    esac
    if [[ $PREFIX == -* ]]; then compadd -- ${{=known}}; else _files; fi
}}
if [[ $funcstack[1] == _safebound ]]; then _safebound "$@"; else compdef _safebound safebound; fi
"""
