"""Tests the friendly command around a program: explanations, words, streams and statuses, a terminal, and its own
commands.

    tests/run tests/test_friendly.py [CLASS[.TEST]]

The tests run what `make install` puts into a new folder. PROGRAM names the program; the default is the one that `make
build` made here, or else the release's.
"""

from __future__ import annotations

import atexit
import copy
import csv
import fcntl
import importlib
import json
import os
import pty
import re
import resource
import shlex
import shutil
import signal
import sqlite3
import stat
import struct
import subprocess
import sys
import tempfile
import termios
import threading
import unittest
from concurrent.futures import ThreadPoolExecutor
from typing import Any, Callable, Iterable, Mapping, TypeVar

sys.dont_write_bytecode = True
HERE = os.path.dirname(os.path.abspath(__file__))
ROOT = os.path.dirname(HERE)
sys.path.insert(0, HERE)
import first_hour  # noqa: E402
from faults import FAULTS, Fault  # noqa: E402
from mistakes import KINDS, Mistake  # noqa: E402
from program import chosen_program  # noqa: E402

LIBRARY, SCHOOL = (os.path.join(HERE, name) for name in ("library", "school"))
SECONDS = 300
FEATURES = (
    "run,plan,audit,demo,sql,many-entries,filters,words,accuracy,reduce,count,bushy,keys,cyclic,stats,memory,append"
)


# A case of a test, and the test's result for the case.
_Case = TypeVar("_Case")
_Found = TypeVar("_Found")

# What the command writes where the program says `error usage` and no terminal is.
BELOW = "safebound: --explain says which word is wrong; `safebound help` lists the commands and their options"
MISUSED = f"error usage\n{BELOW}\n".encode()


def want(is_so: object, what: object) -> None:
    """Fails with `what` unless `is_so` is true. It is a function and no method, since tests that run in parallel call
    it too.
    """
    if not is_so:
        raise AssertionError(what)


def on_one_line(text: str) -> str:
    return " ".join(text.split())


class TestSetup:
    """The installed command, and a temporary folder with a folder for the files of a test."""

    temp_folder: str
    folder: str
    temporary: str
    environment: dict[str, str]

    def __init__(self, program: str) -> None:
        self.installed = tempfile.mkdtemp(prefix="friendly-")
        os.chmod(self.installed, 0o755)
        done = subprocess.run(
            ["make", "-s", "install", f"DESTDIR={self.installed}", "PREFIX=/usr", f"PROGRAM={program}"],
            cwd=ROOT,
            capture_output=True,
            text=True,
        )
        if done.returncode:
            raise AssertionError(f"make install failed: {done.stdout}{done.stderr}")
        self.usr = os.path.join(self.installed, "usr")
        self.command, self.program = (os.path.join(self.usr, "bin", name) for name in ("safebound", "safebound_cli"))

    def beside(self) -> TestSetup:
        """The same command with a temporary folder of its own, so that tests can run side by side."""
        other = copy.copy(self)
        other.temp_folder = tempfile.mkdtemp(prefix="room-", dir=self.installed)
        # A test with unreadable files runs the program as the user nobody.
        os.chmod(other.temp_folder, 0o755)
        other.folder, other.temporary = (os.path.join(other.temp_folder, name) for name in ("folder", "temporary"))
        os.mkdir(other.temporary)
        other.environment = {
            **{k: v for k, v in os.environ.items() if k != "SAFEBOUND_PROGRAM"},
            "TMPDIR": other.temporary,
            # No cache can be here, so each run tells what later runs in a folder needn't.
            "XDG_CACHE_HOME": os.devnull,
        }
        return other

    def results_of(self, test: Callable[[TestSetup, _Case], _Found], cases: Iterable[_Case]) -> list[_Found]:
        """A test's result for each case. Cases run in parallel, each in a temporary folder of its own."""
        with ThreadPoolExecutor(os.cpu_count()) as pool:
            return list(pool.map(lambda case: test(self.beside(), case), cases))

    def lay(self, files: Mapping[str, bytes | None] | None = None, of: str = LIBRARY) -> None:
        """Creates a folder with the library's files; `files` replace some of them."""
        shutil.rmtree(self.folder, ignore_errors=True)
        shutil.copytree(of, self.folder, ignore=shutil.ignore_patterns("expected"))
        for name, data in (files or {}).items():
            path = os.path.join(self.folder, name)
            if data is None:
                os.remove(path)
                continue
            os.makedirs(os.path.dirname(path), exist_ok=True)
            with open(path, "wb") as f:
                f.write(data)

    def run(self, *words: str, command: str | None = None, **how: Any) -> tuple[int, bytes, bytes]:
        """The exit status, standard output and standard error of a run in the folder."""
        how = {
            "cwd": self.folder,
            "stdin": subprocess.DEVNULL,
            "capture_output": True,
            "timeout": 300,
            "env": self.environment,
            **how,
        }
        done = subprocess.run([command or self.command, *words], **how)
        return done.returncode, done.stdout, done.stderr

    def at_terminal(
        self,
        *words: str,
        out_too: bool = True,
        out: int = subprocess.DEVNULL,
        command: str | None = None,
        wide: int = 80,
        seen: Callable[[str], object] = lambda shown: None,
        **environment: str,
    ) -> tuple[int, str]:
        """Returns the exit status and the text on the terminal. Standard output is the terminal as well, or else `out`.

        `seen` gets the text so far.
        """
        ours, theirs = pty.openpty()
        fcntl.ioctl(theirs, termios.TIOCSWINSZ, struct.pack("HHHH", 24, wide, 0, 0))
        environment = {
            "TERM": "dumb",
            **{k: v for k, v in self.environment.items() if k not in ("TERM", "NO_COLOR", "COLUMNS")},
            **environment,
        }
        child = subprocess.Popen(
            [command or self.command, *words],
            cwd=self.folder,
            stdin=theirs,
            stderr=theirs,
            stdout=theirs if out_too else out,
            env=environment,
        )
        os.close(theirs)
        ended = threading.Timer(SECONDS, child.kill)
        ended.start()
        shown = b""
        while True:
            try:
                part = os.read(ours, 65536)
            except OSError:
                break
            if not part:
                break
            shown += part
            seen(shown.decode("utf-8", "replace"))
        os.close(ours)
        ended.cancel()
        return child.wait(timeout=60), re.sub("\r+\n", "\n", shown.decode())


class Installed(unittest.TestCase):
    """Tests over the installed command, each in a temporary folder of its own."""

    installed: TestSetup
    # tests/run may run the tests of one class in several processes.
    apart = True

    def setUp(self) -> None:
        self.setup = self.installed.beside()


def setUpModule() -> None:
    if hasattr(Installed, "installed"):
        return  # This process is a copy of one that has installed the command, and removes it.
    Installed.installed = TestSetup(chosen_program())
    atexit.register(shutil.rmtree, Installed.installed.installed)


# ---- explanations


def check_explained(setup: TestSetup, mistake: Mistake) -> None:
    """Checks a mistake: the program's line comes first and is unchanged, the status is the program's, and the
    explanation has its words.
    """
    setup.lay(mistake.files)
    bare = setup.run(*mistake.words, command=setup.program)
    status, out, told = setup.run("--explain", *mistake.words)
    notes = told.decode()
    assert mistake.line is not None
    want(bare[2].decode() == mistake.line + "\n", f"the program says {bare[2]!r}, and not {mistake.line!r}")
    want(notes.startswith(mistake.line + "\n"), f"the line is not first: {notes!r}")
    want((status, out) == bare[:2], f"status or output differ: {status}, {bare[0]}")
    for words in mistake.says:
        want(on_one_line(words) in on_one_line(notes), f"{words!r} is not said in:\n{notes}")


def failure(test: Callable[[TestSetup, _Case], object], setup: TestSetup, case: _Case) -> str:
    """The failure of a test, or ""."""
    try:
        test(setup, case)
    except AssertionError as fault:
        return str(fault)
    return ""


def without_excerpt(notes: str) -> str:
    """The sentences below the line of a fault, without the excerpt of the user's text and the mark below it."""
    lines = notes.split("\n")
    marked = [at for at, line in enumerate(lines) if re.fullmatch(r" {4} *\^+", line)]
    return "\n".join(line for at, line in enumerate(lines) if at not in marked and at + 1 not in marked)


def words_missing(notes: str, words: Iterable[str]) -> list[str]:
    """The words of which no form occurs in the text. Forms of a word are separated by |."""
    said = on_one_line(notes)
    forms = {word: word.split(" | " if "||" in word else "|") for word in words}
    return [word for word in forms if not any(on_one_line(form) in said for form in forms[word])]


def missing_parts(setup: TestSetup, fault: Fault) -> tuple[list[str], str]:
    """The missing parts of a fault's explanation (line, place, cause or remedy), and the whole explanation."""
    mistake = fault.mistake
    setup.lay(mistake.files)
    notes = setup.run("--explain", *mistake.words)[2].decode()
    sentences = without_excerpt(notes)
    line = [] if mistake.line is None or notes.startswith(mistake.line + "\n") else [mistake.line]
    parts = {
        "line": line,
        "place": words_missing(notes, fault.place or mistake.says[:1]),
        "cause": words_missing(sentences, fault.cause),
        "remedy": words_missing(sentences, fault.remedy),
    }
    return [f"{part} {words}" for part, words in parts.items() if words], notes


def of_the_first_hour(setup: TestSetup, fault: Fault) -> tuple[list[str], str]:
    """Makes a mistake over the school's files, in the folder above theirs. Returns the missing parts of the explanation
    below the proposed schema, and all of standard error.
    """
    setup.lay(fault.mistake.files, of=SCHOOL)
    notes = setup.run("--explain", *fault.mistake.words, cwd=setup.temp_folder)[2].decode()
    told = without_excerpt(re.split(r"^CREATE TABLE .*\n", notes, flags=re.M)[-1])
    line = fault.mistake.line
    parts = {
        "line": [line] if line and line not in notes.split("\n") else [],
        "place": words_missing(notes, fault.place),
        "cause": words_missing(told, fault.cause),
        "remedy": words_missing(told, fault.remedy),
    }
    return [f"{part} {words}" for part, words in parts.items() if words], notes


def check_pasted(setup: TestSetup, fault: Fault) -> None:
    """For a mistake whose explanation has one command to paste: the command works, and then the user's own command
    works too.
    """
    environment = {**setup.environment, "PATH": f"{os.path.dirname(setup.command)}:{os.environ['PATH']}"}
    notes = of_the_first_hour(setup, fault)[1]
    lines = re.findall(r"^ {4}((?:safebound|mv) .*)$", notes, re.M)
    want(len(lines) == 1, f"{fault.name} has {len(lines)} lines to paste:\n{notes}")
    for line in (
        lines if lines[0].startswith("safebound run") else [*lines, shlex.join(["safebound", *fault.mistake.words])]
    ):
        done = subprocess.run(["bash", "-c", line], cwd=setup.temp_folder, capture_output=True, env=environment)
        want(done.returncode == 0, f"{fault.name}: {line}: {done}")


class Explanations(Installed):
    def test_mistakes(self) -> None:
        alone = [kind for kind, mistakes in KINDS if len(mistakes) < 2]
        want(not alone, f"less than two variants: {alone}")
        cases = [(kind, mistake) for kind, mistakes in KINDS for mistake in mistakes]
        found = self.setup.results_of(lambda setup, case: failure(check_explained, setup, case[1]), cases)
        wrong = [f"{kind}: {mistake.line}: {fault}" for (kind, mistake), fault in zip(cases, found) if fault]
        want(not wrong, "\n".join(wrong))

    def test_each_fault_has_its_place_cause_and_remedy(self) -> None:
        found = zip(FAULTS, self.setup.results_of(missing_parts, FAULTS))
        wrong = [f"{fault.name} lacks {'; '.join(lacks)}:\n{notes}" for fault, (lacks, notes) in found if lacks]
        want(not wrong, f"{len(wrong)} of {len(FAULTS)} faults\n" + "\n".join(wrong))

    def test_the_first_hour(self) -> None:
        found = zip(first_hour.FIRST_HOUR, self.setup.results_of(of_the_first_hour, first_hour.FIRST_HOUR))
        wrong = [f"{fault.name} lacks {'; '.join(lacks)}:\n{notes}" for fault, (lacks, notes) in found if lacks]
        want(not wrong, f"{len(wrong)} of {len(first_hour.FIRST_HOUR)} mistakes\n" + "\n".join(wrong))

    def test_remedies_of_the_first_hour_work_when_pasted(self) -> None:
        faults = [fault for fault in first_hour.FIRST_HOUR if fault.name in first_hour.PASTED]
        want(len(faults) == len(first_hour.PASTED), "a name of PASTED is none of the mistakes")
        results = self.setup.results_of(lambda setup, fault: failure(check_pasted, setup, fault), faults)
        wrong = [found for found in results if found]
        want(not wrong, "\n".join(wrong))

    def test_decimals_are_compared_as_cents(self) -> None:
        """Pastes the advised command, and runs the query with the advised comparison. Its rows were counted by hand."""
        environment = {**self.setup.environment, "PATH": f"{os.path.dirname(self.setup.command)}:{os.environ['PATH']}"}
        for name, rows in (
            ("decimals beside a whole number", b"2 3 5"),
            ("decimals beside a decimal", b"2 3"),
            ("decimals with a comma", b"1 3 4"),
        ):
            fault = next(fault for fault in first_hour.FIRST_HOUR if fault.name == name)
            notes = of_the_first_hour(self.setup, fault)[1]
            want(not re.search("'(9|10)'", notes), f"a number in quotes is advised:\n{notes}")
            lines = re.findall(r"^ {4}(safebound .*)$", notes.rpartition("error query")[2], re.M)
            want(len(lines) == 1, f"{name} has {len(lines)} lines to paste:\n{notes}")
            done = subprocess.run(
                ["bash", "-c", lines[0]], cwd=self.setup.temp_folder, capture_output=True, env=environment
            )
            want(done.returncode == 0, f"{lines[0]}: {done}")
            advised = re.search(r"Then the query says (.*)\.$", notes, re.M)
            assert advised
            says = advised[1]
            with open(os.path.join(self.setup.folder, "query.sql"), "w") as f:
                f.write(f"SELECT id FROM jobs WHERE {says}")
            status, out, told = self.setup.run("run", "query.sql", "--data", self.setup.folder)
            want(status == 0 and sorted(out.split()[1:]) == rows.split(), f"{says}: {out + told!r}")

    def test_ten_questions_of_the_first_hour(self) -> None:
        """Compares the rows with those of sqlite3 over the same files."""
        base = sqlite3.connect(":memory:")
        base.executescript(first_hour.TABLES)
        for table in ("pupils", "teachers", "rooms", "lessons", "marks"):
            with open(os.path.join(SCHOOL, table + ".csv"), encoding="utf-8", newline="") as f:
                rows = list(csv.reader(f))[1:]
            base.executemany(f"INSERT INTO {table} VALUES ({', '.join('?' * len(rows[0]))})", rows)
        for question in first_hour.QUESTIONS:
            self.setup.lay({"query.sql": question.encode()}, of=SCHOOL)
            status, out, notes = self.setup.run("run", "query.sql", "--data", self.setup.folder)
            found = sorted(tuple(row) for row in list(csv.reader(out.decode().splitlines()))[1:])
            wanted = sorted(tuple(map(str, row)) for row in base.execute(question))
            want(status == 0 and found == wanted and found, f"{question}: {found}, and not {wanted}\n{notes.decode()}")

    def test_a_plan_of_entries_that_are_not_connected(self) -> None:
        self.setup.lay({"query.sql": b"SELECT R.NAME FROM READER R, LOAN L, BOOK B WHERE L.BOOK = B.ID"})
        status, _, notes = self.setup.run("plan", "schema.sql", "query.sql", "--explain")
        want(status == 0 and b"aren't connected: R; L and B" in notes, notes)
        self.setup.lay()
        want(
            b"connected" not in self.setup.run("plan", "schema.sql", "query.sql", "--explain")[2],
            "a connected query is warned of",
        )

    def test_what_is_advised_for_rows_works(self) -> None:
        """Runs the advised commands after `run .. |`: they sort the rows, remove duplicates, or end lines in LF."""
        sys.path.insert(0, os.path.join(self.setup.usr, "lib", "safebound"))
        ADVICE: dict[str, str] = importlib.import_module("safebound_lib.explain.query_advice").WORDS
        self.setup.lay({"query.sql": b"SELECT TOWN FROM READER"})
        page = shown("docs/USING.md", "To get LF: `safebound run schema.sql query.sql", "$//'")
        for advice, rows in (
            (ADVICE["ORDER"].partition("run ..")[2], b"TOWN\r\nHamar\r\nHamar\r\nMoss\r\n"),
            (ADVICE["DISTINCT"].partition("run ..")[2], b"TOWN\r\nHamar\r\nMoss\r\n"),
            (page, b"TOWN\nHamar\nHamar\nMoss\n"),
        ):
            done = subprocess.run(
                ["bash", "-c", f"{self.setup.command} run schema.sql query.sql 2> notes {advice.strip()}"],
                cwd=self.setup.folder,
                capture_output=True,
                env=self.setup.environment,
            )
            want(done.stdout == rows and not done.stderr, f"{advice}: {done}")

    def test_the_first_rows_are_taken_as_advised(self) -> None:
        """Runs the commands that are advised for LIMIT, behind the query without it."""
        rows = [b"NAME\r\n", *(f"reader {n}\r\n".encode() for n in range(1, 31))]
        readers = b"ID,NAME,TOWN\r\n" + b"".join(b"%d,%s,A\r\n" % (n, row[:-2]) for n, row in enumerate(rows[1:]))
        for limit, kept in (("LIMIT 2", rows[:3]), ("LIMIT 2 OFFSET 3", rows[:1] + rows[4:6]), ("LIMIT 0", rows[:1])):
            self.setup.lay({"reader.csv": readers, "query.sql": f"SELECT NAME FROM READER R {limit}".encode()})
            notes = on_one_line(self.setup.run("run", "schema.sql", "query.sql", "--explain")[2].decode())
            advised = notes.partition("safebound run .. |")[2].partition(" (the first line")[0]
            self.setup.lay({"reader.csv": readers, "query.sql": b"SELECT NAME FROM READER R"})
            line = f"{self.setup.command} run schema.sql query.sql 2> notes | {advised}"
            out = self.setup.run("-c", line, command="bash")[1]
            want(advised and out == b"".join(kept), f"{limit}: {advised}: {out!r}")

    def test_no_advice_turns_the_question_round(self) -> None:
        for query, never in (
            ("SELECT BOOK FROM LOAN WHERE DAY < CURRENT_DATE", "'CURRENT_DATE'"),
            ("SELECT BOOK FROM LOAN WHERE DAY IS NOT NULL", "DAY = ''"),
            ("SELECT BOOK FROM LOAN WHERE BOOK NOT IN (SELECT ID FROM BOOK)", "join"),
            ("SELECT NAME FROM AUTHOR UNION SELECT NAME FROM READER", "joined by OR"),
            ("SELECT NAME FROM READER WHERE NAME LIKE '%a'", "X >= "),
            ("SELECT * FROM sales-2024", "arithmetic"),
            ("SELECT COUNT(DISTINCT TOWN) FROM READER", "in the place of COUNT(*)"),
        ):
            self.setup.lay({"query.sql": query.encode()})
            notes = without_excerpt(self.setup.run("run", "schema.sql", "query.sql", "--explain")[2].decode())
            want(never not in on_one_line(notes), f"{query}:\n{notes}")

    def test_a_reader_that_has_gone(self) -> None:
        self.setup.lay()
        reader, writer = os.pipe()
        os.close(reader)
        status, _, notes = self.setup.run(
            "run", "schema.sql", "query.sql", "--explain", capture_output=False, stdout=writer, stderr=subprocess.PIPE
        )
        os.close(writer)
        want(
            status == 10
            and b"error write out\nThe reader has gone" in notes
            and b"Nothing is wrong with the data" in notes,
            notes,
        )
        with open("/dev/full", "wb") as full:
            status, _, notes = self.setup.run(
                "run", "schema.sql", "query.sql", "--explain", capture_output=False, stdout=full, stderr=subprocess.PIPE
            )
        want(status == 10 and b"disk is full" in notes, notes)

    def test_control_characters_of_a_file_do_not_reach_the_terminal(self) -> None:
        self.setup.lay(
            {
                "query.sql": b"SELECT TITLE FROM BOOK WHERE TITLE = '\x1b[31m' X",
                "genre.csv": b"ID,NAME\r\n\x1b[2J,x\r\n",
            }
        )
        for words in (("run", "schema.sql", "query.sql"), ("run", "schema.sql", "genre.sql")):
            with open(os.path.join(self.setup.folder, "genre.sql"), "wb") as f:
                f.write(b"SELECT * FROM GENRE")
            notes = self.setup.run(*words, "--explain")[2]
            want(b"\x1b" not in notes and b"\\x1b" in notes, notes)


# ---- words, streams and statuses go through


NOTED = (
    b"CREATE TABLE S (N INTEGER NOT NULL, DAY VARCHAR(10) NOT NULL, ISO VARCHAR(10) NOT NULL, CITY VARCHAR(9) NOT NULL)"
)
DAYS = (
    b"N,DAY,ISO,CITY\r\n1,15/09/2019,2019-09-15,Paris\r\n2,01/10/2019,2019-10-01,\r\n"
    b"3,16/08/2020,2020-08-16,Lyon\r\n"
)


class Notes(Installed):
    """Notes on comparisons whose rows may not be those that were meant."""

    def notes(self, condition: str, *words: str, table: bytes = DAYS) -> tuple[bytes, str]:
        """The rows, and standard error without what the program writes, for a query with a condition and a schema."""
        text = f"SELECT A.N FROM S A WHERE {condition}".encode()
        self.setup.lay({"s.csv": table, "schema.sql": NOTED, "query.sql": text})
        line = (*(words or ("run",)), "schema.sql", "query.sql")
        bare = self.setup.run(*(word for word in line if word != "--json"), command=self.setup.program)
        status, out, told = self.setup.run(*line)
        want(status == bare[0] == 0 and (out == bare[1] or "--json" in line), f"{condition}: {out!r}, not {bare[1]!r}")
        plan = b"" if "--json" in line else bare[2]
        want(told.endswith(plan), f"the notes of {condition} aren't before the plan: {told!r}")
        return out, told[:len(told) - len(plan)].decode()

    def test_notes_stand_once_before_the_rows_and_change_none(self) -> None:
        said = self.notes("A.DAY >= '01/09/2019' AND A.DAY < '31/12/2019' AND A.CITY <> 'Paris'")[1]
        want(said.count("\n") == 2 and said.count("15/09/2019") == 1 and said.count("AND A.CITY <> ''") == 1, said)
        want("Compared as texts" in self.notes("A.DAY > '01/09/2019'", "audit", "--json")[1], "--json says nothing")
        shown = self.setup.at_terminal("run", "schema.sql", "query.sql")[1]
        want(0 <= shown.find("Compared as texts") < shown.find("scan A") < shown.find("\nN\n"), shown)

    def test_what_compares_as_meant_is_not_noted(self) -> None:
        for condition in (
            "A.ISO >= '2019-09-01' AND A.ISO < '2020'", "A.CITY = 'Paris'", "A.CITY <> 'Paris' AND A.CITY <> ''",
            "A.CITY >= 'L'", "A.DAY = '15/09/2019'", "A.N > 1 AND A.N <> 3", "A.CITY <> 'Paris' AND A.CITY > 'A'",
        ):
            said = self.notes(condition)[1]
            want(said == "", f"{condition} has a note: {said}")
        want("in the form that the fields have" in self.notes("A.ISO >= '2019-9-1'")[1], "another form isn't noted")

    def test_the_addition_gives_the_rows_of_missing_values(self) -> None:
        base = sqlite3.connect(":memory:")
        base.execute("CREATE TABLE s (n, city)")
        base.executemany("INSERT INTO s VALUES (?, ?)", [(1, "Paris"), (2, None), (3, "Lyon")])
        for condition in ("A.CITY <> 'Paris'", "A.CITY < 'M'", "A.CITY NOT IN ('Paris')", "NOT A.CITY = 'Paris'"):
            advised = re.search(r"write behind it: (.*)\n", self.notes(condition)[1])
            assert advised, condition
            rows, said = self.notes(f"{condition} {advised[1]}")
            wanted = [str(row[0]) for row in base.execute(f"SELECT A.n FROM s A WHERE {condition}")]
            want(rows.decode().split()[1:] == wanted and not said, f"{condition}: {rows!r}, not {wanted}; {said}")

    def test_what_can_be_read_once_is_left_to_the_program(self) -> None:
        rows, said = self.notes("A.DAY > '01/09/2019'")
        line = f"{self.setup.command} run <(cat schema.sql) <(cat query.sql)"
        found = self.setup.run("-c", line, command="bash")
        want(said and found[:2] == (0, rows) and b"Compared" not in found[2], found)

    def test_a_long_file_is_looked_at_in_part(self) -> None:
        rows = b"".join(b"%d,%02d/08/2019,2019-08-01,Paris\r\n" % (n, 1 + n % 28) for n in range(20_000))
        said = self.notes("A.DAY > '02/08/2019' AND A.CITY <> 'Lyon'", table=DAYS.split(b"\r\n")[0] + b"\r\n" + rows)[1]
        want(re.search(r"Only the first [0-9,]+ records of s\.csv were looked at\.", said), said)


class PassedThrough(Installed):
    def test_the_cases_pass_through(self) -> None:
        done = subprocess.run(
            [os.path.join(ROOT, "cases", "run-cases"), "--features", FEATURES, "--below", BELOW, self.setup.command],
            capture_output=True,
            text=True,
            env=self.setup.environment,
        )
        want(done.returncode == 0 and ", 0 failed" in done.stdout, done.stdout)

    def test_broken_streams_files_and_words_pass_through(self) -> None:
        # cases/process copies the program. A copy of the command wouldn't find its package, so a wrapper calls it by
        # its path.
        wrapper = os.path.join(self.setup.temp_folder, "wrapper")
        with open(wrapper, "w") as f:
            f.write(
                f"#!/usr/bin/env python3\nimport os, sys\nos.execv({self.setup.command!r}, [{self.setup.command!r},"
                " *sys.argv[1:]])\n"
            )
        os.chmod(wrapper, 0o755)
        done = subprocess.run(
            [os.path.join(ROOT, "cases", "process"), wrapper, BELOW],
            capture_output=True,
            text=True,
            env=self.setup.environment,
        )
        want(done.returncode == 0, done.stdout)

    def test_the_examples_pass_through(self) -> None:
        done = subprocess.run(
            [os.path.join(ROOT, "examples", "check"), self.setup.command],
            capture_output=True,
            text=True,
            env=self.setup.environment,
        )
        want(done.returncode == 0, done.stdout)

    def test_own_options_are_taken_out_and_nothing_else(self) -> None:
        self.setup.lay({"--explain": b"SELECT TITLE FROM BOOK"})
        plain = self.setup.run("run", "schema.sql", "query.sql", "--budget", "9", command=self.setup.program)
        want(
            self.setup.run("run", "--explain", "schema.sql", "query.sql", "--budget", "9") == plain,
            "--explain changes a run",
        )
        behind = self.setup.run("plan", "schema.sql", "--", "--explain")
        want(
            behind == self.setup.run("plan", "schema.sql", "--", "--explain", command=self.setup.program)
            and behind[0] == 0,
            "a word behind -- is not the program's",
        )
        value = self.setup.run("plan", "schema.sql", "query.sql", "--budget", "--data")
        want(value == (2, b"", MISUSED), value)

    def test_a_misspelled_explain_is_explained(self) -> None:
        self.setup.lay()
        status, _, notes = self.setup.run("run", "schema.sql", "query.sql", "--explian")
        want(
            status == 2
            and notes.startswith(b"error usage\n")
            and b"no option --explian. Did you mean --explain?" in notes,
            notes,
        )
        want(
            self.setup.run("run", "schema.sql", "query.sql", "--budjet", "5") == (2, b"", MISUSED),
            "another option is explained too",
        )

    def test_a_signal_ends_the_command_too(self) -> None:
        self.setup.lay()
        child = subprocess.Popen(
            [self.setup.command, "demo", "7", "--explain"],
            cwd=self.setup.folder,
            stdout=subprocess.DEVNULL,
            stderr=subprocess.PIPE,
            env=self.setup.environment,
        )
        assert child.stderr
        child.stderr.read(5)
        child.send_signal(signal.SIGTERM)
        child.stderr.read()
        want(child.wait(timeout=60) in (-signal.SIGTERM, 0), child.returncode)


# ---- a terminal


LONG = (
    "SELECT "
    + ", ".join(f"B.TITLE AS T{i}" for i in range(40))
    + ", B.NME FROM BOOK B WHERE "
    + " AND ".join(f"B.ID > {i}" for i in range(40))
)

WIDE = "ID,NAME," + ",".join(f"A_LONG_NAME_OF_A_COLUMN_{i}" for i in range(20))


def read_all(number: int) -> bytes:
    with os.fdopen(number, "rb") as f:
        return f.read()


def shown(page: str, first: str, last: str) -> str:
    """The lines of a page between `first` and `last`, indented as in the page."""
    with open(os.path.join(ROOT, page), encoding="utf-8") as f:
        text = f.read()
    return text[text.index(first) + len(first):text.index(last) + len(last)].replace("\n    ", "\n").lstrip("\n") + "\n"


class ATerminal(Installed):
    def test_a_terminal_is_explained_to(self) -> None:
        self.setup.lay({"query.sql": b"SELECT R.NME FROM READER R"})
        status, shown = self.setup.at_terminal("run", "schema.sql", "query.sql")
        want(
            status == 5
            and shown.startswith(
                "error query name 7\nquery.sql, line 1, column 8\n    SELECT R.NME FROM READER R\n           ^^^^^\n"
            ),
            shown,
        )
        status, shown = self.setup.at_terminal("run", "schema.sql", "query.sql", out_too=False)
        want(status == 5 and "Did you mean NAME?" in on_one_line(shown), shown)
        want(
            self.setup.run("run", "schema.sql", "query.sql") == (5, b"", b"error query name 7\n"),
            "explained where standard error is no terminal",
        )

    def test_a_terminal_shows_the_plan_before_the_rows(self) -> None:
        self.setup.lay(of=os.path.join(ROOT, "examples", "films"))
        wanted = ""
        for name in ("notes", "out"):
            with open(os.path.join(ROOT, "examples", "films", "expected", "run", name), encoding="utf-8") as f:
                wanted += f.read()
        for _ in range(3):
            status, shown = self.setup.at_terminal("run", "schema.sql", "query.sql")
            want(status == 0 and shown == wanted, shown)

    def test_help_alone(self) -> None:
        self.setup.lay()
        status, shown = self.setup.at_terminal()
        want(
            status == 2
            and "error usage" not in shown
            and shown.startswith("safebound 0.")
            and "run SCHEMA QUERY" in shown,
            shown,
        )
        want(
            self.setup.run() == (2, b"", MISUSED),
            "where standard error is no terminal it is the program's line, and one below it",
        )

    def test_what_is_shown_fits_the_terminal(self) -> None:
        files = {
            "query.sql": LONG.encode(),
            "wide.sql": b"SELECT * FROM READER",
            "reader.csv": WIDE.encode() + b"\r\n",
            "all.sql": b"SELECT R.NAME FROM READER R, LOAN L, BOOK B",
        }
        lines: list[list[str]] = [
            ["run", "schema.sql", "query.sql"],
            ["run", "schema.sql", "wide.sql"],
            ["runn"],
            [],
            ["help"],
            ["help", "run"],
            ["help", "errors"],
            ["convert", "none.csv"],
        ]
        for words in lines:
            self.setup.lay(files)
            # Command lines are never wrapped, and neither are the paths of pages.
            for wide in (64, 80, 200) if "errors" in words else (40, 64, 80, 200):
                shown = self.setup.at_terminal(*words, wide=wide)[1]
                long = [
                    line
                    for line in shown.splitlines()
                    if len(line) > min(wide, 100) and not line.startswith(("    safebound", "error "))
                ]
                want(
                    not long and len(shown.splitlines()) > (0 if words[:1] == ["convert"] else 2),
                    f"{words} at {wide} columns:\n" + "\n".join(long),
                )
        self.setup.lay(of=os.path.join(ROOT, "examples", "budget"))
        shown = self.setup.at_terminal("run", "schema.sql", "query.sql", "--budget", "2500", wide=50)[1]
        want(max(map(len, shown.splitlines())) <= 50 and "it fits" in shown, shown)

    def test_colours(self) -> None:
        self.setup.lay({"query.sql": b"SELECT R.NME FROM READER R"})
        words = ("run", "schema.sql", "query.sql")
        coloured = self.setup.at_terminal(*words, TERM="xterm")[1]
        want(
            coloured.startswith("error query name 7\n\033[1mquery.sql, line 1, column 8\033[0m\n")
            and "           \033[1;31m^^^^^\033[0m\n" in coloured,
            repr(coloured),
        )
        plain = [
            self.setup.at_terminal(*words, TERM="xterm", NO_COLOR="1")[1],
            self.setup.at_terminal(*words, TERM="dumb")[1],
            self.setup.run(*words, "--explain")[2].decode(),
        ]
        want(all("\033" not in shown and shown == plain[0] for shown in plain), plain)
        want(
            "\033[1m" in self.setup.at_terminal(*words, TERM="xterm", NO_COLOR="")[1], "an empty NO_COLOR says nothing"
        )

    def test_other_options_are_tried_in_sight(self) -> None:
        self.setup.lay(of=os.path.join(ROOT, "examples", "budget"))
        shown = self.setup.at_terminal("run", "schema.sql", "query.sql", "--budget", "2500", TERM="xterm")[1]
        first, _, rest = shown.partition("\r\033[Ktrying other options ..\r\033[K")
        want(first == "error budget 3120\n" and rest.startswith("The best order"), repr(shown))

    def test_progress_of_a_read(self) -> None:
        """A table is read slowly, through a named pipe."""
        self.setup.lay({"genre.csv": None, "query.sql": b"SELECT NAME FROM GENRE"})
        pipe = os.path.join(self.setup.folder, "genre.csv")
        os.mkfifo(pipe)
        writer: int | None = os.open(pipe, os.O_RDWR)

        def seen(shown: str) -> None:
            nonlocal writer
            if "reading genre.csv, table 1 of 1" in shown and writer is not None:
                reader = os.open(pipe, os.O_RDONLY | os.O_NONBLOCK)
                os.write(writer, b"ID,NAME\r\n1,Novel\r\n")
                os.close(writer)
                os.close(reader)
                writer = None

        status, shown = self.setup.at_terminal("run", "schema.sql", "query.sql", seen=seen, TERM="xterm")
        want(status == 0 and shown.endswith("\r\033[Kscan GENRE 1\nlevel 1 GENRE 1\nNAME\nNovel\n"), repr(shown))

    def test_progress_of_rows(self) -> None:
        """There are more rows than a pipe holds. The pipe is read only after the terminal has shown how many bytes were
        written.
        """
        many = b"X\r\n" + 400 * b"1\r\n"
        self.setup.lay(
            {
                "schema.sql": b"CREATE TABLE R (X INTEGER NOT NULL); CREATE TABLE S (X INTEGER NOT NULL)",
                "query.sql": b"SELECT R.X, S.X FROM R, S WHERE R.X = S.X",
                "r.csv": many,
                "s.csv": many,
            }
        )
        reader, written = os.pipe()
        writer: int | None = written
        taken: list[bytes] = []
        rows = threading.Thread(target=lambda: taken.append(read_all(reader)))

        def seen(shown: str) -> None:
            nonlocal writer
            if "rows written: " in shown and writer is not None:
                os.close(writer)
                writer = None
                rows.start()

        status, shown = self.setup.at_terminal(
            "run", "schema.sql", "query.sql", out_too=False, out=written, seen=seen, TERM="xterm"
        )
        want(writer is None, f"no rows are told of: {shown!r}")
        rows.join()
        want(
            status == 0 and shown.endswith("\r\033[K") and taken == [b"X,X\r\n" + 160_000 * b"1,1\r\n"],
            repr(shown[-400:]),
        )

    def test_pages_show_what_is_printed(self) -> None:
        trips = os.path.join(ROOT, "examples", "trips")
        with open(os.path.join(trips, "query.sql"), "rb") as f:
            self.setup.lay({"query.sql": f.read().replace(b"PRICE FROM", b"PRICE, TRIP.DAY FROM")}, of=trips)
        notes = self.setup.run("run", "schema.sql", "query.sql", "--explain")[2].decode()
        want(notes == shown("docs/USING.md", "$ safebound run schema.sql query.sql", "CITY, GUIDE and PRICE."), notes)
        self.setup.lay(of=os.path.join(ROOT, "examples", "budget"))
        notes = self.setup.run("run", "schema.sql", "query.sql", "--budget", "2500", "--explain")[2].decode()
        want(
            notes == shown("docs/USING.md", "$ safebound run schema.sql query.sql --budget 2500", "= or a range."),
            notes,
        )


# ---- its own commands


def completed(setup: TestSetup, words: list[str]) -> list[str]:
    script = os.path.join(setup.usr, "share", "bash-completion", "completions", "safebound")
    code = 'source "$1"; shift; COMP_WORDS=("$@"); COMP_CWORD=$(($# - 1)); _safebound; printf "%s\\n" "${COMPREPLY[@]}"'
    return subprocess.run(
        ["bash", "-c", code, "bash", script, "safebound", *words], cwd=setup.folder, capture_output=True, text=True
    ).stdout.split()


# The schema that is proposed for the library's five tables.
PROPOSED = """CREATE TABLE AUTHOR (
  ID INTEGER PRIMARY KEY,
  NAME VARCHAR(15) NOT NULL UNIQUE,
  BORN INTEGER NOT NULL UNIQUE
);

CREATE TABLE BOOK (
  ID INTEGER PRIMARY KEY,
  TITLE VARCHAR(24) NOT NULL UNIQUE,
  AUTHOR INTEGER NOT NULL REFERENCES AUTHOR,
  GENRE INTEGER NOT NULL REFERENCES GENRE,
  PRICE INTEGER NOT NULL UNIQUE
);

CREATE TABLE GENRE (
  ID INTEGER PRIMARY KEY,
  NAME VARCHAR(5) NOT NULL UNIQUE
);

CREATE TABLE LOAN (
  BOOK INTEGER NOT NULL REFERENCES BOOK,
  READER INTEGER NOT NULL REFERENCES READER,
  DAY VARCHAR(10) NOT NULL
);

CREATE TABLE READER (
  ID INTEGER PRIMARY KEY,
  NAME VARCHAR(4) NOT NULL UNIQUE,
  TOWN VARCHAR(5) NOT NULL
);
"""


TABLES = ("author.csv", "book.csv", "genre.csv", "loan.csv", "reader.csv")


# Files with a problem, or with something that the user has to know: the file, its bytes, the words of the message, and
# the line in the schema (None: no table).
IN_THE_WAY = (
    ("a.csv", b"1,Ane,Hamar\r\n2,Bo,Moss\r\n", ("first line looks like a row", "line of names above it"), None),
    ("a.csv", b"", ("holds nothing", "first line names the columns"), None),
    ("a.csv", b"X;Y\r\n1;2\r\n", ("separated by semicolons", "safebound convert a.csv"), None),
    ("a.csv", "X,Y\r\n1,å\r\n".encode("latin-1"), ("isn't in UTF-8", "safebound convert a.csv"), None),
    ("a.csv", "X,Y\r\n1,å\r\n".encode("utf-16"), ("isn't in UTF-8", "safebound convert a.csv"), None),
    ("a.txt", b"X,Y\r\n1,2\r\n", ("ends in .csv", "safebound convert a.txt"), None),
    ("my-file 1.csv", b"X,Y\r\n1,2\r\n", ("no table's name", "Rename it, as to my_file_1.csv"), None),
    ("none.csv", None, ("can't be read",), None),
    (
        "a.csv",
        b"X,Y\r\n1,2\r\n1,2,3\r\n4\r\n",
        ("Line 3 has 3 fields, and the header 2", "1 more records differ", "unquoted comma"),
        "X INTEGER NOT NULL",
    ),
    (
        "a.csv",
        b'X,Y,Z\r\n1,2,3\r\n1,"2,3\r\n4,5,6\r\n',
        ("Line 3 has 2 fields", "A quote of that record isn't closed"),
        "Z INTEGER NOT NULL",
    ),
    (
        "a.csv",
        (",".join(f"C{i}" for i in range(70)) + "\r\n").encode(),
        ("at most 64 columns, and this file has 70", "C64, C65"),
        "C63 VARCHAR(1) NOT NULL",
    ),
    ("a.csv", b"X,x,Y\r\n1,2,3\r\n", ("names X and x more than once",), "Y INTEGER NOT NULL"),
    ("a.csv", b",Y\r\n1,3\r\n", ("Column 1 has no name",), "Y INTEGER NOT NULL"),
    (
        "a.csv",
        "select,größe,a b\r\n1,2,3\r\n".encode(),
        ("names in double quotes too", '"select", "größe" and "a b"'),
        '"größe" INTEGER NOT NULL',
    ),
    ("order.csv", b"X\r\n1\r\n", ('in double quotes too, "ORDER"',), 'CREATE TABLE "ORDER" ('),
    ("Book.CSV", b"X\r\n1\r\n", ("looks for book.csv", "rename Book.CSV"), "CREATE TABLE BOOK ("),
    ("a.csv", b"X,Y\r\n1,2\r\n,2\r\n", ("X has empty fields beside its numbers", "0 or -1"), "X VARCHAR(1)"),
    ("a.csv", b"ZIP\r\n0150\r\n2300\r\n2300\r\n", (), "ZIP VARCHAR(4) NOT NULL\n"),
    ("a.csv", b"X,Y\r\n", ("no rows",), "Y VARCHAR(1) NOT NULL"),
    ("a.csv", b"X,Y\r\n1,a\r\n2,b\r\n'3,c\r\n", ("X has `'3` on line 4",), "X VARCHAR(2) PRIMARY KEY"),
    (
        "a.csv",
        b"X,Y\r\n1,5\r\n2,n/a\r\n3,6\r\n4,none\r\n5,\r\n6,7\r\n7,8\r\n8,9\r\n",
        ("Y has `n/a` on line 3, and also `none` and empty fields, first on line 6",),
        "Y VARCHAR(4) NOT NULL UNIQUE  -- numbers, but for `n/a`, `none` and empty fields, first on line 3",
    ),
    (
        "a.csv",
        b"X,Y\r\n1,a,\r\n2,b,\r\n",
        ("Each row has 3 fields, and the header has 2", "end in a comma"),
        "Y VARCHAR(1) NOT NULL",
    ),
    (
        "a.csv",
        b"ID,Y\r\n1,a\r\n2,b\r\n\r\n2,a\r\n",
        ("`2` stands there on lines 3 and 5", "no key"),
        "ID INTEGER NOT NULL",
    ),
    (
        "a.csv",
        b'X,Y\r\n1,a\r\n2,"b\r\n3,c"\r\n4,d\r\n',
        ("On line 3 begins a value of Y that holds line ends and commas",),
        "X INTEGER PRIMARY KEY",
    ),
    ("a.csv", b"PK\x03\x04,Y\r\n", ("is a workbook", "CSV UTF-8"), None),
    ("a.sql", b"SELECT * FROM A", ("no table", "safebound schema ."), None),
)


OTHER_FILES = {
    "semicolons in Latin-1": "ID;NAME;TOWN\r\n1;Åse;\"Ha;mar\"\r\n2;Bo;\"Moss, by\"\r\n".encode("latin-1"),
    "tabs in UTF-16, as Excel writes": "ID\tNAME\tTOWN\r\n1\tÅse\tHa;mar\r\n2\tBo\tMoss, by\r\n".encode("utf-16"),
    "UTF-16 without a mark": "ID\tNAME\tTOWN\n1\tÅse\tHa;mar\n2\tBo\tMoss, by\n".encode("utf-16-le"),
    "a line for Excel": "sep=;\r\nID;NAME;TOWN\r\n1;Åse;\"Ha;mar\"\r\n2;Bo;Moss, by\r\n".encode(),
    "a mark": '\ufeffID,NAME,TOWN\n1,Åse,Ha;mar\n2,Bo,"Moss, by"\n'.encode(),
    "bars": "ID|NAME|TOWN\n1|Åse|Ha;mar\n2|Bo|Moss, by\n".encode(),
}


def copy_with_a_release(setup: TestSetup, name: str) -> str:
    """A copy of all files that `make run` and the command need. Nothing is built in it, and this program is its
    release.
    """
    alone = os.path.join(setup.temp_folder, name)
    for part in ("bin", "python", "tools", os.path.join("examples", "trips")):
        shutil.copytree(
            os.path.join(ROOT, part), os.path.join(alone, part), ignore=shutil.ignore_patterns("__pycache__")
        )
    os.makedirs(os.path.join(alone, "dist"))
    shutil.copy2(os.path.join(ROOT, "Makefile"), alone)
    shutil.copy2(setup.program, os.path.join(alone, "dist", "safebound_cli"))
    with open(os.path.join(alone, "dist", "RELEASE"), "w") as f:
        f.write("version 1.2.3\ncommit 0123456789abcdef0123456789abcdef01234567\n")
    return alone


class OwnCommands(Installed):
    def test_help(self) -> None:
        self.setup.lay()
        status, text, _ = self.setup.run("help")
        for words in (["--help"], ["-h"]):
            want(self.setup.run(*words) == (0, text, b""), f"{words} is another help")
        for word in (b"run SCHEMA QUERY", b"check SCHEMA [QUERY]", b"help errors", b"64 MiB", b"20,000,000"):
            want(word in text, word)
        for command in ("run", "plan", "audit", "demo", "check", "picture", "new", "completion"):
            status, text, _ = self.setup.run("help", command)
            want(status == 0 and b"Examples:" in text and text == self.setup.run(command, "--help")[1], command)
        status, text, _ = self.setup.run("help", "errors")
        with open(os.path.join(ROOT, "docs", "ERRORS.md")) as f:
            for line in re.findall(r"^\| `(error [^`]*)`", f.read(), re.M):
                want(line in text.decode(), line)
        status, _, notes = self.setup.run("help", "rum")
        want(status == 2 and b"Did you mean run?" in notes, notes)

    def test_version(self) -> None:
        self.setup.lay()
        for words in (["--version"], ["version"]):
            status, text, _ = self.setup.run(*words)
            want(
                status == 0
                and re.match(rb"safebound [0-9.]+\nprogram: ", text)
                and self.setup.program.encode() in text,
                text,
            )

    def test_man_page(self) -> None:
        path = os.path.join(self.setup.usr, "share", "man", "man1", "safebound.1")
        with open(path) as f:
            text = f.read()
        for words in (".TH SAFEBOUND 1", ".SH SYNOPSIS", "\\-\\-budget N", "12 entries"):
            want(words in text, words)
        if shutil.which("man"):
            done = subprocess.run(
                ["man", "--warnings", "-l", path],
                capture_output=True,
                text=True,
                env={**os.environ, "MANWIDTH": "80", "LC_ALL": "C.UTF-8"},
            )
            want(
                done.returncode == 0 and not done.stderr and "--accuracy K" in done.stdout,
                done.stderr or done.stdout[:300],
            )

    def test_completion(self) -> None:
        self.setup.lay()
        want(completed(self.setup, ["pl"]) == ["plan"], completed(self.setup, ["pl"]))
        want(completed(self.setup, ["run", "schema.sql", "--a"]) == ["--accuracy"], "an option of run")
        want(completed(self.setup, ["demo", "--"]) == ["--explain", "--help"], completed(self.setup, ["demo", "--"]))
        want(completed(self.setup, ["run", "sch"]) == ["schema.sql"], "a file")
        want("errors" in completed(self.setup, ["help", ""]), "a topic of help")
        want(completed(self.setup, ["run", "--budget", ""]) == [], "a value")
        zsh = os.path.join(self.setup.usr, "share", "zsh", "site-functions", "_safebound")
        with open(zsh) as f:
            want(f.readline() == "#compdef safebound\n", "zsh finds its completion by its first line")
        if shutil.which("zsh"):
            want(subprocess.run(["zsh", "-n", zsh]).returncode == 0, "zsh can't read its completion")
        want(self.setup.run("completion", "fish")[0] == 2, "a shell without completion")

    def test_data(self) -> None:
        self.setup.lay()
        inside = self.setup.run("run", "schema.sql", "query.sql")
        for words in (("--data", self.setup.folder), (f"--data={self.setup.folder}",)):
            want(self.setup.run("run", "schema.sql", "query.sql", *words, cwd="/") == inside and inside[0] == 0, words)
        status, _, notes = self.setup.run("run", "schema.sql", "query.sql", "--data", "nowhere")
        want(status == 2 and b"nowhere" in notes, notes)
        want(self.setup.run("run", "schema.sql", "query.sql", "--data")[0] == 2, "--data without its value")
        notes = self.setup.run(
            "run", "folder/schema.sql", "query.sql", "--data", "folder", "--explain", cwd=self.setup.temp_folder
        )[2]
        want(b"With --data every file is looked up in that folder" in notes, notes)

    def test_new(self) -> None:
        self.setup.lay()
        status, text, _ = self.setup.run("new", "mine")
        want(status == 0 and b"safebound run schema.sql query.sql" in text, text)
        line = text.decode().split("\n    ")[1]
        done = subprocess.run(
            ["bash", "-c", line], cwd=self.setup.folder, capture_output=True, env=self.setup.environment
        )
        want(done.returncode == 0, f"{line}: {done}")
        with open(os.path.join(ROOT, "examples", "trips", "expected", "run", "out"), "rb") as f:
            want(
                self.setup.run("run", "schema.sql", "query.sql", "--data", "mine")[:2] == (0, f.read()),
                "the example doesn't run",
            )
        status, _, notes = self.setup.run("new", "mine")
        want(status == 2 and b"isn't empty" in notes, notes)
        want(self.setup.run("new")[0] == 2, "new without a folder")

    def test_check(self) -> None:
        tables = {name: None for name in os.listdir(LIBRARY) if name.endswith(".csv")}
        self.setup.lay(tables)
        status, text, notes = self.setup.run("check", "schema.sql", "query.sql")
        want(
            (status, notes) == (0, b"")
            and b"query.sql: right. Entries: R (table READER), L (table LOAN) and B (table BOOK)" in text,
            text + notes,
        )
        status, text, notes = self.setup.run("check", "schema.sql")
        want((status, notes) == (0, b"") and b"schema.sql: right. Tables: AUTHOR (3 columns)" in text, text + notes)
        self.setup.lay({"query.sql": b"SELECT NAM FROM GENRE"})
        status, _, notes = self.setup.run("check", "schema.sql", "query.sql")
        want(
            status == 5
            and notes.startswith(b"error query name 7\nquery.sql, line 1, column 8\n")
            and b"GENRE.NAME" in notes,
            notes,
        )
        self.setup.lay({"schema.sql": b"CREATE TABLE X (Y TEXT)"})
        status, _, notes = self.setup.run("check", "schema.sql")
        want(status == 4 and notes.startswith(b"error schema syntax 18\n"), notes)
        status, _, notes = self.setup.run("check", "schema.sql", "none.sql")
        want(status == 4, notes)
        status, _, notes = self.setup.run("check", "none.sql")
        want(
            status == 3 and notes.startswith(b"error read none.sql\n") and b"There is no file none.sql" in notes, notes
        )
        self.setup.lay({"query.sql": b"SELECT A.NAME FROM AUTHOR A, GENRE G"})
        want(
            b"aren't connected: A; G" in self.setup.run("check", "schema.sql", "query.sql")[1], "a forgotten condition"
        )

    def test_schema(self) -> None:
        self.setup.lay()
        status, text, notes = self.setup.run("schema", *TABLES)
        want((status, notes) == (0, b"") and text.decode().endswith(".\n" + PROPOSED), text.decode() + notes.decode())
        want(self.setup.run("schema", ".")[1] == text, "a folder stands for its files")
        for file, data, says, has in IN_THE_WAY:
            self.setup.lay({file: data} if data is not None else {})
            status, text, notes = self.setup.run("schema", file)
            want(
                status == (6 if has is None else 0) and bool(text) == (has is not None),
                f"{file} {data!r}: {status} {text!r}",
            )
            for words in (f"{file}: ", *says):
                want(
                    on_one_line(words) in on_one_line(notes.decode()) or not says,
                    f"{words!r} is not said in:\n{notes.decode()}",
                )
            want(has is None or has in text.decode(), f"{has!r} is not in:\n{text.decode()}")
            if has and text:
                with open(os.path.join(self.setup.folder, "schema.sql"), "wb") as f:
                    f.write(text)
                want(self.setup.run("check", "schema.sql")[0] == 0, f"no schema: {text.decode()}")

    def test_schema_writes_nothing_over(self) -> None:
        self.setup.lay({"mine.sql": b"mine"})
        status, _, notes = self.setup.run("schema", "book.csv", "--output", "mine.sql")
        want(status == 2 and b"nothing is written over" in notes, notes)
        with open(os.path.join(self.setup.folder, "mine.sql"), "rb") as f:
            want(f.read() == b"mine", "it was written over")
        want(
            self.setup.run("schema", *TABLES, "--output", "new.sql")[0] == 0
            and self.setup.run("run", "new.sql", "query.sql")[1] == self.setup.run("run", "schema.sql", "query.sql")[1],
            "another schema gives other rows",
        )
        want(
            self.setup.run("schema")[0] == 2 and self.setup.run("schema", "--foo")[0] == 2,
            "no file, and a strange option",
        )

    def test_a_run_without_a_schema(self) -> None:
        self.setup.lay()
        rows = self.setup.run("run", "schema.sql", "query.sql")
        plan = self.setup.run("plan", "schema.sql", "query.sql")[2]
        os.remove(os.path.join(self.setup.folder, "schema.sql"))
        status, out, notes = self.setup.run("run", "query.sql", "--data", self.setup.folder, cwd="/")
        want(
            (status, out) == rows[:2]
            and notes.endswith(plan)
            and b"CREATE TABLE LOAN (" in notes
            and b"AUTHOR (" not in notes,
            notes,
        )
        want(self.setup.run("audit", "--data", ".", "query.sql", "--accuracy", "2")[0] == 0, "options beside it")
        want(json.loads(self.setup.run("plan", "query.sql", "--data", ".", "--json")[1])["widest"] > 0, "as JSON")
        want(self.setup.run("picture", "query.sql", "--data", ".", "--output", "-")[1].startswith(b"<svg"), "a picture")
        want(self.setup.run("run", "query.sql") == (2, b"", MISUSED), "without --data it is the program's")
        self.setup.lay({"query.sql": b"SELECT R.NAME FROM READER R, LOANS L"})
        status, _, notes = self.setup.run("run", "query.sql", "--data", ".", "--explain")
        want(status == 5 and b"Did you mean LOAN?" in notes, notes)
        want(self.setup.run("run", "query.sql", "--data", "..")[0] == 2, "a folder without tables")
        self.setup.lay({"query.sql": b"SELECT R.NAME FROM READER R"})
        status, _, notes = self.setup.run("run", "-", "--data", ".")
        want(status == 3 and b"reads files, and no standard input" in notes, notes)
        os.remove(os.path.join(self.setup.folder, "reader.csv"))
        os.mkdir(os.path.join(self.setup.folder, "reader.csv"))
        status, _, notes = self.setup.run("run", "query.sql", "--data", ".")
        want(status == 5 and b"reader.csv is a folder, and no file. So there is no table READER." in notes, notes)
        want(b"is a folder, and has no file" in self.setup.run("schema", "reader.csv")[2], "a folder without tables")
        want(os.listdir(self.setup.temporary) == [], "something was left over")

    def test_a_proposed_schema_is_shown_once_a_folder(self) -> None:
        self.setup.lay({"query.sql": b"SELECT NAME FROM READER"})
        run: dict[str, Any] = {"env": {**self.setup.environment, "XDG_CACHE_HOME": self.setup.temp_folder}}
        plan = self.setup.run("plan", "schema.sql", "query.sql")[2]
        line = ("plan", "query.sql", "--data", ".")
        first, second = (self.setup.run(*line, **run)[2] for _ in range(2))
        want(b"CREATE TABLE READER (" in first and second == plan, first + second)
        with open(os.path.join(self.setup.folder, "reader.csv"), "ab") as f:
            f.write(b"99,Somebody with a name that is longer than the others,Moss\r\n")
        want(b"CREATE TABLE READER (" in self.setup.run(*line, **run)[2], "another schema isn't shown")
        shutil.copytree(self.setup.folder, os.path.join(self.setup.temp_folder, "other"))
        want(b"CREATE TABLE" in self.setup.run(*line[:3], "../other", **run)[2], "it isn't shown in another folder")

    def test_a_slow_proposal_says_how_to_save_it(self) -> None:
        self.setup.lay({"query.sql": b"SELECT A FROM LONG", "schema.sql": None})
        with open(os.path.join(self.setup.folder, "long.csv"), "w") as f:
            f.write("A,B,C\n" + "".join(f"{n},{n % 977},name {n % 9973}\n" for n in range(400_000)))
        run: dict[str, Any] = {"env": {**self.setup.environment, "XDG_CACHE_HOME": self.setup.temp_folder}}
        for _ in range(2):
            notes = self.setup.run("plan", "query.sql", "--data", ".", **run)[2].decode()
        lines = re.findall(r"^--     safebound (.*)$", notes, re.M)
        want("-- Proposing it took " in notes and len(lines) == 2, notes)
        for line in lines:
            notes = self.setup.run(*shlex.split(line))[2].decode()
        want("scan LONG 400000" in notes and "Proposing" not in notes, notes)

    def test_convert(self) -> None:
        for name, data in OTHER_FILES.items():
            self.setup.lay({"reader.csv": data, "query.sql": b"SELECT NAME, TOWN FROM READER"})
            status, out, notes = self.setup.run("convert", "reader.csv")
            want((status, notes) == (0, b"") and b"reader.csv.original" in out, f"{name}: {out + notes!r}")
            with open(os.path.join(self.setup.folder, "reader.csv.original"), "rb") as f:
                want(f.read() == data, f"{name}: the file as it was is lost")
            rows = self.setup.run("run", "schema.sql", "query.sql")
            want(rows[:2] == (0, 'NAME,TOWN\r\nÅse,Ha;mar\r\nBo,"Moss, by"\r\n'.encode()), f"{name}: {rows}")
            want(b"nothing was written" in self.setup.run("convert", "reader.csv")[1], f"{name}: converted twice")

    def test_convert_writes_nothing_over(self) -> None:
        latin = "A;B\n1;å\n".encode("latin-1")
        self.setup.lay(
            {
                "new.csv": latin,
                "new.csv.original": b"mine",
                "Export.TXT": latin,
                "export.csv": b"mine",
                "book.xlsx": b"PK\x03\x04",
            }
        )
        lines: list[list[str]] = [
            ["new.csv"], ["Export.TXT"], ["new.csv", "--output", "export.csv"], ["book.xlsx"], ["none.csv"],
            ["new.csv", "--encoding", "utf-8"], ["new.csv", "--encoding", "no-such"], [],
        ]
        for words in lines:
            status, _, notes = self.setup.run("convert", *words)
            want(status == 2 and notes.startswith(b"safebound: "), f"{words}: {notes!r}")
        for file, wanted in (("new.csv", latin), ("new.csv.original", b"mine"), ("export.csv", b"mine")):
            with open(os.path.join(self.setup.folder, file), "rb") as f:
                want(f.read() == wanted, f"{file} was written over")
        want(
            self.setup.run("convert", "new.csv", "--output", "-") == (0, "A,B\r\n1,å\r\n".encode(), b""),
            "to standard output",
        )
        want(
            self.setup.run("convert", "new.csv", "--output", "made.csv", "--encoding", "cp850")[0] == 0
            and os.path.exists(os.path.join(self.setup.folder, "made.csv")),
            "another name and encoding",
        )

    def test_picture(self) -> None:
        self.setup.lay(of=os.path.join(ROOT, "examples", "films"))
        with open(os.path.join(ROOT, "docs", "films-plan.svg"), "rb") as f:
            wanted = f.read()
        status, svg, _ = self.setup.run("picture", "schema.sql", "query.sql", "--output", "-")
        want((status, svg) == (0, wanted), "not the picture of docs/")
        status, out, _ = self.setup.run("picture", "schema.sql", "query.sql")
        with open(os.path.join(self.setup.folder, "plan.svg"), "rb") as f:
            want((status, out, f.read()) == (0, b"", wanted), "plan.svg is another picture")
        status, _, notes = self.setup.run(
            "picture", "schema.sql", "query.sql", "--data", "folder", "--output", "films.svg",
            cwd=self.setup.temp_folder,
        )
        want(
            status == 0
            and notes.startswith(b"folder/films.svg: the picture")
            and os.path.exists(os.path.join(self.setup.folder, "films.svg")),
            notes,
        )
        os.remove(os.path.join(self.setup.folder, "plan.svg"))
        status, out, notes = self.setup.run("picture", "schema.sql", "query.sql", "--budget", "1000")
        want(status == 8 and notes.startswith(b"error budget 1304\n") and b"With --reduce it fits" in notes, notes)
        with open(os.path.join(self.setup.folder, "plan.svg")) as f:
            drawn = f.read()
        is_refused = "is refused" in drawn and "budget 1,000" in drawn and drawn.count('fill="#e08a7d"') == 3
        want(is_refused and "its true rows" not in drawn, "not the picture of a refused plan: " + drawn)
        status, _, notes = self.setup.run("picture", "schema.sql", "query.sql", "--output", "plan.png")
        want(status == 2 and b"ends in .svg, and a page's in .html" in notes, notes)
        want(not os.path.exists(os.path.join(self.setup.folder, "plan.png")), "a picture under another ending")

    def test_a_picture_has_no_marks_of_a_query(self) -> None:
        self.setup.lay({"query.sql": b"SELECT R.NAME FROM READER R WHERE R.NAME <> '<b>&\x1b' AND R.TOWN <> '\"'"})
        for output in ("plan.svg", "plan.html"):
            status, _, notes = self.setup.run("picture", "schema.sql", "query.sql", "--output", output)
            with open(os.path.join(self.setup.folder, output)) as f:
                text = f.read()
            want(
                status == 0 and "R.NAME &lt;&gt; '&lt;b&gt;&amp;\\x1b'" in text and "\x1b" not in text,
                f"{output}: {notes!r}{text}",
            )

    def test_picture_as_a_page(self) -> None:
        self.setup.lay(of=os.path.join(ROOT, "examples", "trips"))
        cases: list[tuple[list[str], str]] = [
            ([], "TRIP.CITY</b> of rows with PRICE up to 100"),
            (["--keys"], "further lists"),
            (["--reduce"], "doesn't print them"),
            (["--count"], "is counted"),
            (["--bushy", "--accuracy", "4"], "node 3, of"),
        ]
        for flags, said in cases:
            status, _, notes = self.setup.run("picture", "schema.sql", "query.sql", *flags, "--output", "plan.html")
            with open(os.path.join(self.setup.folder, "plan.html")) as f:
                text = f.read()
            want(
                status == 0 and said in text and "TRIP.CITY = CITY.NAME" in text and "<script" not in text,
                f"{flags}: {notes!r}{text}",
            )

    def test_json(self) -> None:
        self.setup.lay(of=os.path.join(ROOT, "examples", "trips"))
        status, text, notes = self.setup.run("plan", "schema.sql", "query.sql", "--json")
        plan = json.loads(text)
        want((status, notes) == (0, b""), notes)
        want(
            [(e["entry"], e["table"], e["bound"]) for e in plan["entries"]]
            == [("CITY", "CITY", 3), ("TRIP", "TRIP", 6), ("GUIDE", "GUIDE", 3)],
            plan["entries"],
        )
        want(
            [(level["entry"], level["bound"]) for level in plan["levels"]] == [("CITY", 3), ("TRIP", 6), ("GUIDE", 6)],
            plan["levels"],
        )
        want(
            plan["entries"][0]["conditions"] == ["CITY.COUNTRY = 'FR'"]
            and plan["levels"][2]["conditions"] == ["TRIP.GUIDE = GUIDE.ID"]
            and plan["widest"] == 6,
            plan,
        )
        rows = [
            level["rows"]
            for level in json.loads(self.setup.run("audit", "schema.sql", "query.sql", "--json")[1])["levels"]
        ]
        with open(os.path.join(ROOT, "examples", "trips", "expected", "audit", "out")) as f:
            want(rows == [int(line.split()[-1]) for line in f], rows)
        want(
            self.setup.run("plan", "schema.sql", "query.sql", "--json", "--budget", "2")
            == (8, b"", b"error budget 6\n"),
            "a fault with --json",
        )
        want(self.setup.run("run", "schema.sql", "query.sql", "--json")[0] == 2, "run has no --json")

    def test_without_a_program(self) -> None:
        self.setup.lay()
        alone = os.path.join(self.setup.temp_folder, "alone")
        for part in ("bin", "python"):
            shutil.copytree(
                os.path.join(ROOT, part), os.path.join(alone, part), ignore=shutil.ignore_patterns("__pycache__")
            )
        status, _, notes = self.setup.run(
            "run", "schema.sql", "query.sql", command=os.path.join(alone, "bin", "safebound")
        )
        want(status == 1 and b"make build" in notes and b"make run DATA=" in notes, notes)
        want(self.setup.run("help", command=os.path.join(alone, "bin", "safebound"))[0] == 0, "help needs no program")
        shutil.copy(self.setup.command, os.path.join(self.setup.folder, "safebound"))
        status, _, notes = self.setup.run("--version", command=os.path.join(self.setup.folder, "safebound"))
        want(status == 1 and b"A copy of this file alone can't run" in notes and b"Traceback" not in notes, notes)
        named: dict[str, Any] = {"env": {**self.setup.environment, "SAFEBOUND_PROGRAM": "/nowhere"}}
        status, _, notes = self.setup.run("run", "schema.sql", "query.sql", **named)
        want(status == 1 and notes.startswith(b"safebound: SAFEBOUND_PROGRAM is /nowhere, and there is no"), notes)
        want(b"SAFEBOUND_PROGRAM names no file" in self.setup.run("--version", **named)[1], "the version")

    def test_with_little_memory(self) -> None:
        self.setup.lay()
        told = 0
        for megabytes in range(8, 80, 8):
            def limit(size: int = megabytes << 20) -> None:
                resource.setrlimit(resource.RLIMIT_AS, (size, size))
            status, _, notes = self.setup.run("run", "query.sql", "--data", ".", preexec_fn=limit)
            want(b"Traceback" not in notes, f"{megabytes} MiB: {notes!r}")
            told += notes.startswith(b"safebound: memory is wanting")
        want(told, "no run says that memory is wanting")

    def test_the_release_runs_where_nothing_is_built(self) -> None:
        self.setup.lay()
        command = os.path.join(copy_with_a_release(self.setup, "released"), "bin", "safebound")
        said = (
            "The program of release 1.2.3 (dist/, built from commit 0123456789ab) runs. `make build` proves and builds"
            " one here.\n"
        )
        for told in (said, ""):
            status, seen = self.setup.at_terminal(
                "plan", "schema.sql", "query.sql", command=command, XDG_CACHE_HOME=self.setup.temp_folder
            )
            want(status == 0 and seen.startswith(told + "scan "), seen)
        plain = self.setup.run("plan", "schema.sql", "query.sql", command=self.setup.program)
        want(
            self.setup.run("plan", "schema.sql", "query.sql", command=command) == plain,
            "what is no terminal gets other bytes than the program's",
        )
        want(
            b"release 1.2.3" in self.setup.run("--version", command=command)[1], "the version doesn't name the release"
        )

    def test_make_run_takes_the_release_where_nothing_is_built(self) -> None:
        alone = copy_with_a_release(self.setup, "running")
        folders = os.path.join(self.setup.temp_folder, "commands")
        os.makedirs(folders)
        for name in ("make", "python3", "sh", "env"):
            found = sys.executable if name == "python3" else shutil.which(name)
            assert found
            os.symlink(found, os.path.join(folders, name))
        run: dict[str, Any] = {
            "cwd": alone,
            "capture_output": True,
            "text": True,
            "env": {**self.setup.environment, "PATH": folders},
        }
        done = subprocess.run(["make", "-s", "run"], **run)
        want(
            done.returncode == 0
            and done.stderr.startswith("Nothing is built here (make build), so the program of release 1.2.3")
            and "Lyon,Ada,80" in done.stdout,
            done.stderr + done.stdout,
        )
        want(done.stderr.count("release 1.2.3") == 1, done.stderr)
        want(
            "rt of the Rattle kit isn't here" in subprocess.run(["make", "-s", "run", "COMPILE=yes"], **run).stderr,
            "it is compiled without the kit",
        )
        os.remove(os.path.join(alone, "examples", "trips", "schema.sql"))
        done = subprocess.run(["make", "-s", "run"], **run)
        want(
            done.returncode == 0 and "Lyon,Ada,80" in done.stdout and "CREATE TABLE CITY (" in done.stderr, done.stderr
        )

    def test_what_is_installed(self) -> None:
        for path in ("bin/safebound", "bin/safebound_cli"):
            want(os.stat(os.path.join(self.setup.usr, path)).st_mode & stat.S_IXOTH, f"{path} may not be run by others")
        named = re.findall(r"[^\s(]*/(?:docs|share)/\S+\.md", self.setup.run("help", "errors", cwd="/")[1].decode())
        want(
            len(named) > 3 and all(path.startswith(self.setup.usr) and os.path.isfile(path) for path in named),
            f"help names pages that aren't installed: {named}",
        )
        for page in ("ERRORS.md", "USING.md"):
            want(os.path.isfile(os.path.join(self.setup.usr, "share", "safebound", page)), f"{page} is not installed")


if __name__ == "__main__":
    unittest.main()
