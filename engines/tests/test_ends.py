"""Tests how commands end: interruptions, full disks, other encodings, folders without write permission, rows above a
bound.
"""

from __future__ import annotations

import os
import pty
import signal
import sqlite3
import subprocess
import tempfile
import time
import unittest

from bases import DATABASE, POSTGRES, OnEachEngine, PostgresBase, SqliteBase, on_postgres
from process import PROGRAM, Process


class Ends(OnEachEngine, Process):
    schema = "CREATE TABLE a (x INTEGER, t TEXT); CREATE TABLE b (x INTEGER); CREATE TABLE long (x INTEGER)"
    text = "SELECT a.x, t FROM a, b WHERE a.x = b.x ORDER BY a.x"
    takes_long = "SELECT count(*) FROM long a, long b, long c WHERE a.x + b.x + c.x < 0"

    @classmethod
    def fill(cls) -> None:
        cls.base.fill("a", [(1, None), (2, ""), (3, "NULL"), (4, 'a "b", c')])
        cls.base.fill("b", [(n,) for n in range(9)])
        cls.base.fill("long", [(n,) for n in range(3000)])

    def test_null_and_the_empty_text(self) -> None:
        for words, null, word in (
            ((), "", "NULL"), (("--null", "NULL"), "NULL", '"NULL"'), (("--null", "\\N"), "\\N", "NULL"),
        ):
            ended = self.tried("run", "--budget", "99", *words, text=self.text)
            empty = '""' if null == "" else ""
            self.assertEqual(ended.stdout, f'x,t\n1,{null}\n2,{empty}\n3,{word}\n4,"a ""b"", c"\n', ended.stderr)

    def test_signals(self) -> None:
        """Both signals end the command while it joins, and end the statement on the server."""
        for number, status in ((signal.SIGINT, 130), (signal.SIGTERM, 143)):
            ours, theirs = pty.openpty()
            line = [PROGRAM, "audit", "--db", self.base.url, "-"]
            running = subprocess.Popen(line, stdin=subprocess.PIPE, stdout=subprocess.DEVNULL, stderr=theirs)
            try:
                assert running.stdin
                running.stdin.write(self.takes_long.encode())
                running.stdin.close()
                seen = b""
                while b"levels: " not in seen:
                    seen += os.read(ours, 4096)
                time.sleep(1)
                running.send_signal(number)
                self.assertEqual(running.wait(timeout=600), status)
            finally:
                running.kill()
                os.close(ours)
                os.close(theirs)
            if self.base.engine == "postgres":
                time.sleep(0.5)
                told = self.base.rows(
                    "SELECT count(*) FROM pg_stat_activity WHERE query LIKE '%long AS c%' AND pid <> pg_backend_pid()"
                    " AND datname = current_database()"
                )
                self.assertEqual(told[0][0], 0)

    def test_a_full_disk(self) -> None:
        for command, *words in (["plan"], ["sql"], ["run", "--budget", "99"], ["audit", "--json"]):
            with open("/dev/full", "w") as full:
                ended = subprocess.run(
                    [PROGRAM, command, "--db", self.base.url, *words, "-"], input=self.text, stdout=full,
                    stderr=subprocess.PIPE, text=True,
                )
            self.assertEqual(ended.returncode, 10, ended.stderr)
            self.assertIn("standard output: No space left on device", ended.stderr)
            self.assertNotIn("Traceback", ended.stderr)

    def test_many_parentheses(self) -> None:
        ended = self.tried("plan", text=f"SELECT a.x FROM a WHERE {'(' * 1500}a.x = 1{')' * 1500}")
        self.assertEqual(ended.returncode, 5, ended.stderr)
        self.assertEqual(len(ended.stderr.splitlines()), 1)
        ended = self.tried("plan", text=f"SELECT a.x FROM a WHERE {'(' * 40}a.x = 1{')' * 40}")
        self.assertEqual(ended.returncode, 0, ended.stderr)

    def test_conditions_that_arent_counted_are_said(self) -> None:
        lines = self.tried("plan", text="SELECT a.x FROM a, b WHERE a.x = b.x AND a.x < b.x + 1").stdout.splitlines()
        self.assertIn(
            "not used for bounds: a.x < b.x + 1 (it may name columns of a, b, and is tested when these are joined)",
            lines,
        )


@unittest.skipUnless(POSTGRES, "no PostgreSQL")
class EndsOfPostgres(OnEachEngine, Process):
    base_class = PostgresBase
    schema = """
    CREATE TYPE mood AS ENUM ('sad', 'glad');
    CREATE TABLE a (x INTEGER, y INTEGER, m mood, "time" INTEGER);
    CREATE TABLE b (x INTEGER, s DATE, e DATE);
    INSERT INTO a SELECT n, n - 1, 'sad', n FROM generate_series(1, 5) n;
    INSERT INTO b SELECT n, '2020-01-01', '2020-02-01' FROM generate_series(3, 5) n;
    """

    def test_conditions_of_all_kinds_are_counted(self) -> None:
        """Each condition is on one entry, so only the rows that satisfy it are counted."""
        for condition in (
            "a.m = 'sad'::mood", "(b.s, b.e) OVERLAPS (date '2020-01-05', date '2020-03-01')",
            "a.y OPERATOR(pg_catalog.>) 0",
        ):
            planner, _ = self.planned(f"SELECT a.x FROM a, b WHERE a.x = b.x AND {condition}")
            self.assertEqual(sum(len(entry.own) for entry in planner.query.entries), 1, condition)
            self.assertEqual(planner.query.no_edges, [])
            planner.engine.connection.close()

    def test_rights_on_columns(self) -> None:
        """A word in a condition is also the name of a column that the user may not read. The planned SQL doesn't read
        this column.
        """
        reader = f"reader_{DATABASE}"
        self.base.script(
            f"""
            DO $$ BEGIN CREATE ROLE {reader} LOGIN; EXCEPTION WHEN duplicate_object THEN NULL; END $$;
            GRANT SELECT (x, y, m) ON a TO {reader}; GRANT SELECT ON b TO {reader};
            GRANT USAGE ON SCHEMA public TO {reader}
        """
        )
        try:
            url = self.base.url.replace("//postgres@", f"//{reader}@")
            text = "SELECT a.x FROM a, b WHERE a.x = b.x AND a.m = 'sad'::mood AND a.y + b.x > 0"
            text += " AND (b.s::timestamp AT TIME ZONE 'UTC') > '2019-01-01' ORDER BY 1"
            ended = self.tried("run", "--budget", "99", text=text, db=url)
            self.assertEqual((ended.returncode, ended.stdout), (0, "x\n3\n4\n5\n"), ended.stderr)
        finally:
            self.base.script(f"DROP OWNED BY {reader}; DROP ROLE {reader}")

    def test_what_the_engine_refuses_is_told_first(self) -> None:
        """GROUP BY names a key, and another column of the table can't be grouped. The query isn't admitted then."""
        self.base.script(
            "DROP TABLE IF EXISTS keyed; CREATE TABLE keyed (x INTEGER PRIMARY KEY, j JSON); INSERT INTO keyed VALUES"
            " (3, '1')"
        )
        text = "SELECT k.x, k.j FROM keyed k, b WHERE k.x = b.x GROUP BY k.x"
        for command, *words in (["plan"], ["sql"], ["run", "--budget", "99"]):
            ended = self.tried(command, *words, text=text)
            self.assertEqual((ended.returncode, ended.stdout), (12, ""), ended.stderr)
            self.assertIn("--no-reduce", ended.stderr)
            self.assertNotIn("would do", ended.stderr)

    def test_errors_that_the_query_doesnt_have(self) -> None:
        text = "SELECT a.x FROM a, b WHERE a.x = b.x AND 6 / a.y > 1"
        self.assertEqual(
            len(self.base.rows("SELECT a.x FROM b JOIN a ON a.x = b.x AND CASE WHEN a.x > 2 THEN 6 / a.y > 1 END")), 2
        )
        ended = self.tried("plan", text=text)
        self.assertEqual(ended.returncode, 12)
        self.assertIn(
            "division by zero (while counting, each condition is tested on all rows of its table", ended.stderr
        )

    def test_rows_above_a_bound(self) -> None:
        """A function is declared IMMUTABLE, but is false in the first five calls and true afterwards."""
        self.base.script(
            """
            CREATE OR REPLACE FUNCTION changing(INTEGER) RETURNS boolean LANGUAGE plpgsql IMMUTABLE AS $$
            DECLARE times INTEGER;
            BEGIN
                EXECUTE 'SELECT coalesce(nullif(current' || '_setting(''my.times'', true), ''''), ''0'')::int' INTO
                    times;
                PERFORM set_config('my.times', (times + 1)::text, false);
                RETURN times >= 5;
            END $$
        """
        )
        ended = self.tried("audit", "--no-reduce", text="SELECT a.x FROM a WHERE changing(a.x)")
        self.assertEqual(ended.returncode, 17, ended.stderr + ended.stdout)
        self.assertIn("audit: level 1 has 5 rows, and its bound is 0", ended.stderr)

    def test_other_encodings(self) -> None:
        for encoding in ("LATIN1", "SQL_ASCII"):
            name, latin = f"{encoding.lower()}_{DATABASE}", encoding == "LATIN1"
            self.base.script(f"DROP DATABASE IF EXISTS {name}")
            self.base.script(
                f"CREATE DATABASE {name} ENCODING '{encoding}' LC_COLLATE 'C' LC_CTYPE 'C' TEMPLATE template0"
            )
            try:
                url = self.base.url.replace(f"/{DATABASE}?", f"/{name}?")
                import psycopg

                with psycopg.connect(url, autocommit=True, client_encoding="utf8") as there:
                    there.execute("CREATE TABLE a (x INTEGER, \"größe\" TEXT)")
                    there.execute("INSERT INTO a VALUES (1, 'ä')")
                text = (
                    'SELECT "é".x AS "ß", größe FROM a AS "é", a AS "ü" WHERE "é".x = "ü".x'
                    if latin
                    else "SELECT x FROM a"
                )
                if latin:
                    text = text.replace("größe", '"é"."größe"')
                ended = self.tried("run", "--budget", "9", text=text, db=url)
                if latin:
                    self.assertEqual((ended.returncode, ended.stdout), (0, "ß,größe\n1,ä\n"), ended.stderr)
                else:
                    self.assertEqual(ended.returncode, 5)
                    self.assertIn("SQL_ASCII", ended.stderr)
            finally:
                self.base.script(f"DROP DATABASE {name}")


class EndsOfSqlite(OnEachEngine, Process):
    base_class = SqliteBase

    @unittest.skipUnless(os.geteuid() == 0, "only root can become another user")
    def test_a_folder_that_cant_be_written_to(self) -> None:
        with tempfile.TemporaryDirectory() as folder:
            file = os.path.join(folder, "still.db")
            connection = sqlite3.connect(file)
            connection.executescript(
                "PRAGMA journal_mode = wal; CREATE TABLE a (x INTEGER); INSERT INTO a VALUES (1), (2)"
            )
            connection.close()
            os.chmod(folder, 0o555)
            os.chmod(file, 0o444)
            ended = subprocess.run(
                [PROGRAM, "run", "--db", f"sqlite:{file}", "--budget", "9", "-"],
                input="SELECT a.x FROM a, a AS b WHERE a.x = b.x ORDER BY 1",
                capture_output=True,
                text=True,
                user="nobody",
                env={**os.environ, "HOME": "/"},
            )
            self.assertEqual((ended.returncode, ended.stdout), (0, "x\n1\n2\n"), ended.stderr)
            self.assertEqual(os.listdir(folder), ["still.db"])
            os.chmod(folder, 0o755)


EndsOnPostgres = on_postgres(Ends)

if __name__ == "__main__":
    unittest.main()
