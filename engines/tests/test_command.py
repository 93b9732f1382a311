"""Runs the commands as processes. Tests what they print, how they end, and that they leave nothing behind."""

from __future__ import annotations

import csv
import hashlib
import importlib.util
import io
import json
import os
import pty
import shutil
import subprocess
import sys
import tempfile
import unittest

from bases import ROOT, OnEachEngine, in_full, on_postgres
from process import PROGRAM, Process

CLI = ROOT / "crates" / "safebound_cli" / "out" / "safebound_cli"


class Commands(OnEachEngine, Process):
    schema = """
    CREATE TABLE city (name TEXT PRIMARY KEY, country TEXT);
    CREATE TABLE guide (id INTEGER PRIMARY KEY, name TEXT);
    CREATE TABLE trip (city TEXT, guide INTEGER, price INTEGER);
    """
    text = (
        "SELECT city.name, g.name AS \"Guide\", price FROM city, trip t JOIN guide g ON t.guide = g.id\n"
        "WHERE country = 'FR' AND t.city = city.name AND price < 100 -- and no more\n"
    )

    @classmethod
    def fill(cls) -> None:
        cls.base.fill("city", [("Lyon", "FR"), ("Paris, capital", "FR"), ("Oslo", "NO")])
        cls.base.fill("guide", [(1, "Ada"), (2, "Ben"), (3, "Cleo")])
        trips = [
            ("Lyon", 1, 80), ("Lyon", 2, 95), ("Paris, capital", 3, 90), ("Oslo", 1, 20), ("Lyon", 3, 200),
            (None, 1, 3),
        ]
        cls.base.fill("trip", trips)

    def done(self, command: str, *words: str, text: str | None = None, status: int = 0) -> str:
        """A command's standard output, or its standard error if it has to fail."""
        ended = self.tried(command, *words, text=self.text if text is None else text)
        self.assertEqual(ended.returncode, status, ended.stderr)
        return ended.stderr if status else ended.stdout

    def test_plan(self) -> None:
        lines = self.done("plan").splitlines()
        self.assertEqual(lines[0].split()[:5], ["level", "joined", "of", "scan", "bound"])
        self.assertEqual(
            [line.split()[:5] for line in lines[1:4]],
            [["1", "city", "city", "2", "2"], ["2", "t", "trip", "3", "3"], ["3", "g", "guide", "3", "3"]],
        )
        self.assertEqual(lines[4:], ["budget 3 would do"])
        self.assertEqual("PostgreSQL expects" in lines[0], self.base.engine == "postgres")
        lines = self.done("plan", "--tree").splitlines()
        self.assertEqual(
            [line.split()[:5] for line in lines[1:3]],
            [["1", "(t)", "with", "(g)", "3"], ["2", "(city)", "with", "(t,", "g)"]],
        )
        self.assertEqual(lines[3:], ["scans: city 2, t 3, g 3", "budget 3 would do"])

    def test_plan_for_programs(self) -> None:
        told = json.loads(self.done("plan", "--json"))
        self.assertEqual(told["order"], ["city", "t", "g"])
        self.assertEqual([level["bound"] for level in told["levels"]], [2, 3, 3])
        self.assertEqual(told["entries"][1], {"name": "t", "table": "trip", "conditions": ["price < 100"], "scan": 3})
        self.assertEqual(told["least budget"], 3)
        self.assertEqual(told["sql"] + ";\n", self.done("sql").removeprefix("SET join_collapse_limit = 1;\n"))
        self.assertEqual(json.loads(self.done("plan", "--json", "--tree"))["tree"], ["city", ["t", "g"]])
        expected = [level["expected"] is not None for level in told["levels"]]
        self.assertEqual(expected, [self.base.engine == "postgres"] * 3)

    def test_audit(self) -> None:
        told = json.loads(self.done("audit", "--json"))
        self.assertEqual([level["rows"] for level in told["levels"]], [2, 3, 3])
        self.assertIn("bound / rows", self.done("audit"))
        told = json.loads(self.done("audit", "--json", "--no-reduce"))
        self.assertEqual([entry["scan"] for entry in told["entries"]], [2, 5, 3])

    def test_run(self) -> None:
        ended = self.tried("run", "--budget", "3", text=self.text)
        self.assertEqual(ended.returncode, 0)
        header, *rows = csv.reader(io.StringIO(ended.stdout))
        self.assertEqual(header, ["name", "Guide", "price"])
        self.assertEqual(sorted(rows), [["Lyon", "Ada", "80"], ["Lyon", "Ben", "95"], ["Paris, capital", "Cleo", "90"]])
        self.assertIn("budget 3 would do", ended.stderr)

    def test_run_with_a_limit(self) -> None:
        """The rows are among those of the query without the limit."""
        rows = self.done("run", "--budget", "3", text=self.text + "ORDER BY price LIMIT 2").splitlines()
        self.assertEqual(rows[1:], ["Lyon,Ada,80", "\"Paris, capital\",Cleo,90"])

    def test_the_sql_is_the_users_to_run(self) -> None:
        setting, _, sql = self.done("sql").rpartition("SET join_collapse_limit = 1;\n")
        self.assertEqual(len(self.base.rows(sql.rstrip(";\n"))), 3)

    def test_what_is_refused(self) -> None:
        told = self.done("run", "--budget", "2", status=8)
        why = "2 rows are too few: the best plan has a part of at most 3 rows, so 3 would do"
        self.assertEqual(told, f"safebound-sql: budget: {why}\n")
        self.assertEqual(
            self.done("plan", text=self.text.replace("JOIN", "NATURAL JOIN"), status=5),
            "safebound-sql: refused: NATURAL JOIN at line 1, column 62: write out its columns with USING\n",
        )
        self.assertIn("budget", self.done("run", status=2))
        self.assertIn("--accuracy", self.done("plan", "--accuracy", "65", status=2))
        self.assertIn("engine", self.done("plan", text=self.text.replace("price", "prize"), status=12))

    def test_databases_that_arent_there(self) -> None:
        for db, status in (
            ("sqlite:/nowhere/at/all.db", 12), ("postgresql://nobody@/none?host=/nowhere", 12), ("mysql:x", 2),
        ):
            ended = self.tried("plan", text=self.text, db=db)
            self.assertEqual((ended.returncode, ended.stdout), (status, ""), ended.stderr)
            self.assertEqual(len(ended.stderr.splitlines()), 1)

    def test_a_query_that_isnt_there(self) -> None:
        ended = subprocess.run([PROGRAM, "plan", "--db", self.base.url, "/nowhere.sql"], capture_output=True, text=True)
        self.assertEqual(ended.returncode, 3)

    def test_counts_of_others(self) -> None:
        sql = self.done("counts")
        with tempfile.TemporaryDirectory() as folder:
            file = os.path.join(folder, "counts.csv")
            with open(file, "w", newline="") as out:
                csv.writer(out).writerows([("entry", "column", "degree", "keys")] + self.base.rows(sql.rstrip(";\n")))
            self.assertEqual(self.done("plan", "--counts", file), self.done("plan"))
            with open(file) as out:
                lines = out.readlines()
            for wrong in (
                lines[1:], lines[:-1], lines + lines[-1:], lines[:1], lines + ["z,y,1,1\n"], lines + ["t,city,-1,1\n"],
            ):
                with open(file, "w") as out:
                    out.writelines(wrong)
                self.done("plan", "--counts", file, status=6)

    def test_a_bound_past_all_numbers(self) -> None:
        with tempfile.TemporaryDirectory() as folder:
            file = os.path.join(folder, "counts.csv")
            with open(file, "w") as out:
                out.write(f"entry,column,degree,keys\nguide,,{2**40},1\ntrip,,{2**40},1\n")
            told = self.done("plan", "--counts", file, text="SELECT 1 FROM guide, trip", status=9)
            self.assertIn("2^64", told)
            with open(file, "w") as out:
                out.write(f"entry,column,degree,keys\nguide,,{2**50},1\ntrip,,1,1\n")
            self.done("plan", "--counts", file, text="SELECT 1 FROM guide, trip", status=6)

    def test_a_timeout(self) -> None:
        self.base.script("CREATE TABLE IF NOT EXISTS long (x INTEGER); DELETE FROM long")
        self.base.fill("long", [(n,) for n in range(3000)])
        text = "SELECT count(*) FROM long a, long b, long c WHERE a.x + b.x + c.x < 0"
        told = self.done("audit", "--timeout", "1", text=text, status=12)
        self.assertIn("cancel", told)

    def test_nothing_is_left_behind(self) -> None:
        before = self.left()
        for command in ("plan", "audit", "counts", "sql"):
            self.done(command)
        self.done("run", "--budget", "9")
        self.assertEqual(self.left(), before)

    def left(self) -> object:
        if self.base.engine == "sqlite":
            self.base.connection.execute("PRAGMA wal_checkpoint(TRUNCATE)")
            with open(self.base.file, "rb") as file:
                return hashlib.sha256(file.read()).hexdigest()
        return self.base.rows("SELECT relname FROM pg_class ORDER BY 1"), self.base.rows("SHOW join_collapse_limit")

    def test_progress_on_a_terminal(self) -> None:
        ours, theirs = pty.openpty()
        line = [PROGRAM, "plan", "--db", self.base.url, "-"]
        running = subprocess.Popen(line, stdin=subprocess.PIPE, stdout=subprocess.DEVNULL, stderr=theirs)
        running.communicate(self.text.encode(), timeout=600)
        os.close(theirs)
        seen = b""
        try:
            while block := os.read(ours, 4096):
                seen += block
        except OSError:  # the other end is closed
            pass
        os.close(ours)
        self.assertIn(b"counting the rows of 3 entries: 0 s", seen)
        self.assertTrue(seen.endswith(b"\r\x1b[K"), seen)
        self.assertEqual(self.tried("plan", text=self.text).stderr, "")

    def test_export(self) -> None:
        with tempfile.TemporaryDirectory() as folder:
            self.done("export", folder)
            with open(os.path.join(folder, "trip.csv"), newline="") as file:
                self.assertEqual(file.read().splitlines()[0], "CITY,GUIDE,PRICE")
            with open(os.path.join(folder, "schema.sql")) as file:
                declared = "CITY VARCHAR(14) NOT NULL, GUIDE INTEGER NOT NULL, PRICE INTEGER NOT NULL"
                self.assertIn(f"CREATE TABLE TRIP ({declared})", file.read())
            self.assertIn("isn't empty", self.done("export", folder, status=3))
            if CLI.exists():
                rows = subprocess.run(
                    [CLI, "run", "schema.sql", "query.sql"], cwd=folder, capture_output=True, text=True
                )
                self.assertEqual(rows.returncode, 0, rows.stderr)
                self.assertEqual(
                    sorted(rows.stdout.splitlines()[1:]), sorted(self.done("run", "--budget", "9").splitlines()[1:])
                )

    def test_what_isnt_exported(self) -> None:
        if self.base.engine == "postgres":
            self.base.script(
                'CREATE TABLE "o-d" ("a" INTEGER, "A" INTEGER); CREATE TABLE cased ("a" INTEGER, "A" INTEGER)'
            )
        else:
            self.base.script('CREATE TABLE "o-d" (a INTEGER); CREATE TABLE twice (price REAL)')
        with tempfile.TemporaryDirectory() as folder:
            for text, words in (
                (self.text + "ORDER BY 1", "ORDER at line 3, column 1"),
                ("SELECT count(*) FROM trip", "count at line 1, column 8"),
                ("SELECT guide FROM trip WHERE city LIKE 'L%'", "LIKE at line 1, column 35"),
                ("SELECT city FROM trip", "safebound_cli has no NULL"),
                (
                    'SELECT q."a", q."A" FROM "o-d" q' if self.base.engine == "postgres" else 'SELECT a FROM "o-d"',
                    "a file can't be named so",
                ),
                (
                    ("SELECT cased.\"a\", cased.\"A\" FROM cased", "upper and lower case alone")
                    if self.base.engine == "postgres"
                    else ("SELECT price FROM twice", "TWICE.price: safebound_cli has no REAL")
                ),
            ):
                with self.subTest(text):
                    told = self.done("export", os.path.join(folder, "new", "one"), text=text, status=5)
                    self.assertIn(words, told)
                    self.assertEqual((told.count("\n"), os.listdir(folder)), (1, []), told)


class OfAnotherSqlglot(Process, unittest.TestCase):
    def test_a_version_that_was_not_tested_is_refused(self) -> None:
        with tempfile.TemporaryDirectory() as folder:
            for name, text in (
                ("sqlglot.py", "__version__ = '25.1.0'"), ("schema.sql", "CREATE TABLE t (a INTEGER)"),
                ("query.sql", "SELECT a FROM t"),
            ):
                with open(os.path.join(folder, name), "w") as file:
                    file.write(text)
            words = [PROGRAM, "counts", "--dialect", "duckdb", "--schema", "schema.sql", "query.sql"]
            ended = subprocess.run(
                words, cwd=folder, env={**os.environ, "PYTHONPATH": folder}, capture_output=True, text=True
            )
            self.assertEqual((ended.returncode, ended.stderr.count("\n")), (13, 1), ended.stderr)
            self.assertIn("sqlglot 25.1.0 is installed, and only 10.6 was tested", ended.stderr)


class Installed(unittest.TestCase):
    """pip installs the package and its command, and the command runs."""

    @in_full
    @unittest.skipUnless(importlib.util.find_spec("pip"), "no pip")
    def test_by_pip(self) -> None:
        with tempfile.TemporaryDirectory() as folder:
            for part in ("engines", "python"):
                shutil.copytree(ROOT / part, f"{folder}/{part}", ignore=shutil.ignore_patterns("tests", "__pycache__"))
            words = ["--quiet", "--no-index", "--no-build-isolation", "--no-deps", "--target", f"{folder}/site"]
            pip = [sys.executable, "-m", "pip", "install", *words, f"{folder}/engines"]
            done = subprocess.run(pip, capture_output=True, text=True)
            self.assertEqual(done.returncode, 0, done.stderr)
            environment = {**os.environ, "PYTHONPATH": f"{folder}/site:{ROOT / 'python'}"}
            line = [f"{folder}/site/bin/safebound-sql", "plan", "--db", "sqlite:/nowhere/at/all.db", "-"]
            told = subprocess.run(line, input="SELECT 1", env=environment, cwd=folder, capture_output=True, text=True)
            self.assertEqual((told.returncode, told.stdout), (12, ""), told.stderr)
            self.assertEqual(told.stderr, "safebound-sql: engine: there is no file /nowhere/at/all.db\n")


CommandsOnPostgres = on_postgres(Commands)

if __name__ == "__main__":
    unittest.main()
