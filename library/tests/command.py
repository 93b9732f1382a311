"""Tests the whole program over files in memory from Python, and from C with requests for memory refused.
`library/test-command` runs it.

SAFEBOUND_COMMAND names the C program (command.c), linked with both libraries.
"""

from __future__ import annotations

import doctest
import os
import subprocess
import sys
import tempfile
import threading
import unittest
from typing import Any, Mapping

HERE = os.path.dirname(os.path.abspath(__file__))
ROOT = os.path.dirname(os.path.dirname(HERE))
sys.dont_write_bytecode = True
sys.path[:0] = [os.path.join(ROOT, "python")]

import safebound  # noqa: E402
from safebound import command  # noqa: E402
from test_arguments import Part, Tried, of_call  # noqa: E402

PROGRAM = os.environ["SAFEBOUND_COMMAND"]
SCHEMA = "CREATE TABLE R (X INTEGER NOT NULL); CREATE TABLE S (X INTEGER NOT NULL)"
QUERY = "SELECT R.X FROM R, S WHERE R.X = S.X"
RUN, PLAN = ["run", "schema.sql", "query.sql"], ["plan", "schema.sql", "query.sql"]
# The worked tables of docs/DEFINITIONS.md.
FILES: dict[str, str] = {
    "schema.sql": SCHEMA,
    "query.sql": QUERY,
    "r.csv": "X\r\n1\r\n1\r\n1\r\n2\r\n2\r\n3\r\n",
    "s.csv": "X\r\n1\r\n1\r\n4\r\n5\r\n6\r\n",
}
NOTES = b"scan R 6\nscan S 5\nlevel 1 S 5\nlevel 2 R 12\n"
ROWS = b"X\r\n" + 6 * b"1\r\n"


class OddArguments(Tried):
    def test_each_in_each_place(self) -> None:
        stats = safebound.run(["stats", "schema.sql", "query.sql"], FILES).out
        self.each_in_each_place([
            *of_call(safebound.run, words=PLAN, files=FILES),
            Part("words", lambda odd: safebound.run([*PLAN, odd], FILES)),
            Part("files", lambda odd: safebound.run(PLAN, {**FILES, "r.csv": odd})),
            *of_call(safebound.plan_stats, schema=SCHEMA, query=QUERY, stats=stats, budget=20),
            *of_call(safebound.append_stats, schema=SCHEMA, stats=stats, table="R", rows="X\n2\n"),
        ])


class Texts(unittest.TestCase):
    def test_what_the_docstring_shows(self) -> None:
        failed, tried = doctest.testmod(command)
        self.assertEqual((failed, tried > 0), (0, True))

    def test_a_run_and_a_plan(self) -> None:
        self.assertEqual(safebound.run(RUN, FILES), (0, ROWS, NOTES))
        self.assertEqual(safebound.run(PLAN, FILES), (0, b"", NOTES))
        self.assertEqual(
            safebound.run(
                (word.encode() for word in RUN),
                {name.encode(): memoryview(text.encode()) for name, text in FILES.items()},
            ),
            (0, ROWS, NOTES),
        )

    def test_texts_that_are_larger_than_the_first_rooms(self) -> None:
        table = "X\n" + "7\n" * 600
        output = safebound.run(RUN, {**FILES, "r.csv": table, "s.csv": table})
        self.assertEqual(
            output, (0, b"X\r\n" + 360_000 * b"7\r\n", b"scan R 600\nscan S 600\nlevel 1 R 600\nlevel 2 S 360000\n")
        )
        for length in (4096 - 12, 4096 - 11, 4096 - 10, 100_000):
            name = "s" * length
            self.assertEqual(safebound.run(["plan", name, "q"], {}), (3, b"", f"error read {name}\n".encode()))

    def test_texts_that_fill_the_first_room(self) -> None:
        # The header takes 3 bytes, and each row takes 3. 21844 rows leave one byte of the first room, and 21845 need
        # two more than it has.
        for rows in (21843, 21844, 21845):
            table = "X\n" + "7\n" * rows
            output = safebound.run(RUN, {**FILES, "r.csv": table, "s.csv": "X\n7\n"})
            self.assertEqual((output.status, output.out), (0, b"X\r\n" + rows * b"7\r\n"))

    def test_refusals(self) -> None:
        cases: list[tuple[list[str], Mapping[str, str | bytes], tuple[int, bytes]]] = [
            ([], {}, (2, b"error usage\n")),
            (PLAN, {}, (3, b"error read schema.sql\n")),
            (PLAN, {**FILES, "schema.sql": ""}, (4, b"error schema syntax 0\n")),
            (PLAN, {**FILES, "query.sql": ""}, (5, b"error query syntax 0\n")),
            (PLAN, {**FILES, "s.csv": b"X\r\n\xff\r\n"}, (6, b"error table s.csv utf8 3\n")),
            (PLAN, {**FILES, "query.sql": " " * (2**20 + 1)}, (7, b"error limit file-bytes query.sql 1048577\n")),
            (PLAN + ["--budget", "11"], FILES, (8, b"error budget 12\n")),
            (PLAN, {name: text for name, text in FILES.items() if name != "s.csv"}, (3, b"error read s.csv\n")),
        ]
        for words, files, expected in cases:
            self.assertEqual(safebound.run(words, files), (expected[0], b"", expected[1]))

    def test_words_and_names_of_any_bytes(self) -> None:
        odd_words: list[str | bytes] = [b"\xff", "\udcff"]
        for word in odd_words:
            self.assertEqual(safebound.run([word], FILES), (15, b"", b""))
        odd: dict[Any, str] = {b"\xff": "", "": QUERY, "é\0": SCHEMA, "r.csv": FILES["r.csv"], "s.csv": FILES["s.csv"]}
        self.assertEqual(safebound.run(["run", "é\0", ""], odd), (0, ROWS, NOTES))
        self.assertEqual(safebound.run(["run"] * 100_000, FILES), (2, b"", b"error usage\n"))
        self.assertEqual(safebound.run(["run"] * 20 + [b"\xff"], FILES), (15, b"", b""))
        longest = [
            "run",
            "--budget",
            "1000",
            "--accuracy",
            "64",
            "--memory",
            "1000000",
            "--reduce",
            "--bushy",
            "--",
            "schema.sql",
            "query.sql",
        ]
        self.assertEqual(safebound.run(longest, FILES).status, 0)


class Statistics(unittest.TestCase):
    """Plans from the text of a statistics file: the lines of `plan`, and an exception for each reason to refuse."""

    def setUp(self) -> None:
        self.stats = safebound.run(["stats", "schema.sql", "query.sql"], FILES).out

    def test_the_plan_is_that_of_the_tables(self) -> None:
        plan = safebound.plan_stats(SCHEMA, QUERY, self.stats)
        self.assertEqual(plan, ((("R", 6), ("S", 5)), (("S", "R"), (5, 12))))
        self.assertEqual(plan.order.cost, 12)

    def test_names_of_any_characters(self) -> None:
        query = 'SELECT "A B\x85".X FROM R "A B\x85"'
        stats = safebound.run(["stats", "schema.sql", "query.sql"], {**FILES, "query.sql": query}).out
        self.assertEqual(safebound.plan_stats(SCHEMA, query, stats), ((("A B\x85", 6),), (("A B\x85",), (6,))))

    def test_refusals(self) -> None:
        with self.assertRaises(safebound.BudgetExceeded) as past:
            safebound.plan_stats(SCHEMA, QUERY, self.stats, budget=11)
        self.assertEqual(past.exception.least, 12)
        cut = self.stats[: self.stats.rindex(b"end")]
        for query, stats, budget, status, line in [
            (QUERY, b"", None, 14, "stats syntax 1"),
            (QUERY, cut, None, 14, f"stats syntax {cut.count(10) + 1}"),
            ("SELECT X FROM R WHERE X = 1 AND X = 2", b"safebound-stats 1 1\nend\n", None, 14, "stats missing 0"),
            ("", self.stats, None, 5, "query syntax 0"),
            (QUERY, self.stats, 0, 2, "usage"),
        ]:
            with self.assertRaises(safebound.Refused) as refused:
                safebound.plan_stats(SCHEMA, query, stats, budget)
            self.assertEqual((refused.exception.status, refused.exception.line), (status, line))

    def test_new_rows(self) -> None:
        rows = "X\r\n1\r\n4\r\n"
        grown = safebound.append_stats(SCHEMA, self.stats, "r", rows)
        self.assertEqual(safebound.plan_stats(SCHEMA, QUERY, grown).scans, (("R", 8), ("S", 5)))
        self.assertEqual(safebound.append_stats(SCHEMA, self.stats, "R", "X\n"), self.stats)
        self.assertEqual(
            safebound.run(
                ["append", "schema.sql", "f", "R", "new.csv"], {"schema.sql": SCHEMA, "f": self.stats, "new.csv": rows}
            ),
            (0, grown, b""),
        )
        for stats, table, rows, status, line in [
            (b"", "R", rows, 14, "stats syntax 1"),
            (self.stats, "T", rows, 14, "stats missing 0"),
            (self.stats, "R", "Y\n1\n", 6, "table rows header X"),
            (b"safebound-stats 1 1\ntable x52 4000000\nend\n", "R", rows, 7, "limit rows rows 4000001"),
        ]:
            with self.assertRaises(safebound.Refused) as refused:
                safebound.append_stats(SCHEMA, stats, table, rows)
            self.assertEqual((refused.exception.status, refused.exception.line), (status, line))


class Library(unittest.TestCase):
    def test_threads(self) -> None:
        answers: list[safebound.Output] = []
        threads = [
            threading.Thread(target=lambda: answers.extend(safebound.run(RUN, FILES) for _ in range(50)))
            for _ in range(4)
        ]
        for thread in threads:
            thread.start()
        for thread in threads:
            thread.join()
        self.assertEqual(set(answers), {(0, ROWS, NOTES)})
        self.assertEqual(len(answers), 200)

    def test_where_it_isn_t(self) -> None:
        script = "import safebound\ntry: safebound.run([], {})\nexcept safebound.LibraryNotFound as error: print(error)"
        with tempfile.TemporaryDirectory() as folder:
            where = os.path.join(folder, "none.so")
            done = subprocess.run(
                [sys.executable, "-c", script],
                env={**os.environ, "SAFEBOUND_COMMAND_LIBRARY": where},
                capture_output=True,
                text=True,
            )
        says = f"SAFEBOUND_COMMAND_LIBRARY names {where}, which is no file"
        remedy = "name libsafebound_command.so by it, or unset it"
        self.assertEqual((done.stdout, done.stderr), (f"{says}: {remedy}\n", ""))

    def test_exits_are_the_header_s(self) -> None:
        with open(os.path.join(ROOT, "include", "safebound_command.h"), encoding="utf-8") as f:
            header = f.read()
        self.assertIn(f"SAFEBOUND_EXIT_WRITE = {command.WRITE_FAULT},", header)


class Memory(unittest.TestCase):
    """From C: whichever request for memory is refused, the program writes the line of that fault and no row."""

    def ends(self, refuse: int, words: list[str]) -> tuple[int, bytes, bytes]:
        with tempfile.TemporaryDirectory() as folder:
            for name, text in FILES.items():
                with open(os.path.join(folder, name), "w", newline="", encoding="utf-8") as f:
                    f.write(text)
            done = subprocess.run(
                [PROGRAM, *words], cwd=folder, env={**os.environ, "REFUSE": str(refuse)}, capture_output=True
            )
        return done.returncode, done.stdout, done.stderr

    def test_each_request_refused(self) -> None:
        for words, out in ((RUN, ROWS), (PLAN, b""), (RUN + ["--reduce"], ROWS), (RUN + ["--count"], ROWS)):
            whole = self.ends(10**9, words)
            self.assertEqual((whole[0], whole[1]), (0, out))
            answers: list[tuple[int, bytes, bytes]] = []
            while answers[-5:] != [whole] * 5:
                answers.append(self.ends(len(answers), words))
            self.assertEqual(set(answers) - {whole}, {(11, b"", b"error memory\n")})


if __name__ == "__main__":
    unittest.main()
