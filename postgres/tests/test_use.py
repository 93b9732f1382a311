"""Tests of what the extension says and leaves: where a budget binds, an update from version 0.1, dumps, DROP EXTENSION.

    postgres/tests/test_use.py
"""

from __future__ import annotations

import os
import shutil
import subprocess
import sys
import unittest
from typing import Any

import psycopg

sys.dont_write_bytecode = True
HERE = os.path.dirname(os.path.abspath(__file__))
sys.path[:0] = [os.path.join(HERE, "..")]
from installed import Installed, TemporaryServer, pg_config, programs

# Sessions don't load the library by themselves.
SETTINGS = ("session_preload_libraries=",)
MADE = """
CREATE EXTENSION safebound;
CREATE TABLE r (x integer PRIMARY KEY);
CREATE TABLE s (x integer REFERENCES r, y integer);
INSERT INTO r SELECT generate_series(1, 10);
INSERT INTO s SELECT 1 + i % 10, i FROM generate_series(1, 100) AS i;
SELECT safebound.watch('r'), safebound.watch('s');
GRANT SELECT ON r, s TO PUBLIC;
"""
JOIN = "SELECT count(*) FROM r JOIN s USING (x)"

server: TemporaryServer


def setUpModule() -> None:
    global server
    server = unittest.enterModuleContext(Installed(SETTINGS))


class Fresh(unittest.TestCase):
    """Each test has a database of its own."""

    def setUp(self) -> None:
        self.postgres = self.connect("postgres")
        self.postgres.execute("CREATE DATABASE fresh")
        self.addCleanup(self.postgres.execute, "DROP DATABASE IF EXISTS fresh WITH (FORCE)")
        self.owner = self.connect("fresh")

    def connect(self, database: str, user: str = "postgres") -> psycopg.Connection[Any]:
        connection = psycopg.connect(server.url, dbname=database, user=user, autocommit=True, prepare_threshold=None)
        self.addCleanup(connection.close)
        return connection

    def heard(self, connection: psycopg.Connection[Any]) -> list[str]:
        """What the server says beside answers, from now on."""
        texts: list[str] = []
        connection.add_notice_handler(lambda told: texts.append(f"{told.severity}: {told.message_primary}"))
        return texts

    def one(self, statement: str) -> Any:
        row = self.owner.execute(statement).fetchone()
        return row[0] if row else None

    def state(self, connection: psycopg.Connection[Any], statement: str) -> str | None:
        try:
            connection.execute(statement)
        except psycopg.Error as error:
            return error.sqlstate
        return None


class Binding(Fresh):
    def setUp(self) -> None:
        super().setUp()
        self.owner.execute(MADE)
        self.roles = ("careless", "careful", "elsewhere")
        for role in self.roles:
            self.postgres.execute(f"CREATE ROLE {role} LOGIN")
            self.addCleanup(self.postgres.execute, f"DROP ROLE {role}")
        for setting in (
            "ROLE careless SET safebound.budget = 99",
            "ROLE careful SET safebound.budget = 99",
            "ROLE careful SET session_preload_libraries = 'safebound'",
            "ROLE elsewhere IN DATABASE postgres SET safebound.budget = 99",
            "ROLE elsewhere IN DATABASE postgres SET session_preload_libraries = '$libdir/safebound.so'",
        ):
            self.postgres.execute(f"ALTER {setting}")

    def told(self) -> dict[tuple[str, str], tuple[int, bool, bool]]:
        rows = self.owner.execute("SELECT role, database, budget, loaded, binds FROM safebound.admission")
        return {(role, database): (budget, loaded, binds) for role, database, budget, loaded, binds in rows}

    def test_the_view_says_who_is_refused(self) -> None:
        told = self.told()
        self.assertEqual(told["careless", "fresh"], (99, False, False))
        self.assertEqual(told["careful", "fresh"], (99, True, True))
        self.assertEqual(told["elsewhere", "fresh"], (0, False, False))
        self.assertEqual(told["elsewhere", "postgres"], (99, True, True))
        self.assertEqual(told["postgres", "fresh"], (0, False, False))
        for role in self.roles:
            state = self.state(self.connect("fresh", role), JOIN)
            self.assertEqual(state, "SB001" if told[role, "fresh"][2] else None, role)

    def test_what_comes_first(self) -> None:
        """A setting for a role in a database comes before that of the role, then of the database, then of all."""
        for expected, setting in (
            (7, "ROLE ALL SET safebound.budget = 7"),
            (6, "DATABASE fresh SET safebound.budget = 6"),
            (5, "ROLE postgres SET safebound.budget = 5"),
            (4, "ROLE postgres IN DATABASE fresh SET safebound.budget = 4"),
        ):
            self.postgres.execute(f"ALTER {setting}")
            self.addCleanup(self.postgres.execute, f"ALTER {setting.split(' SET')[0]} RESET safebound.budget")
            self.assertEqual(self.told()["postgres", "fresh"][0], expected)
            self.assertEqual(self.connect("fresh").execute("SHOW safebound.budget").fetchone(), (str(expected),))

    def test_the_servers_own_settings(self) -> None:
        self.postgres.execute("ALTER SYSTEM SET safebound.budget = 99")
        self.postgres.execute("SELECT pg_reload_conf()")
        self.addCleanup(self.postgres.execute, "SELECT pg_reload_conf()")
        self.addCleanup(self.postgres.execute, "ALTER SYSTEM RESET safebound.budget")
        self.owner = self.connect("fresh")
        # The view joins functions, which have no bound.
        self.owner.execute("LOAD 'safebound'; SET safebound.budget = 0")
        self.assertEqual(self.told()["postgres", "fresh"], (99, False, False))
        self.assertEqual(self.told()["careful", "fresh"], (99, True, True))

    def test_each_function_warns(self) -> None:
        heard = self.heard(self.owner)
        for call in ("keep('r')", "watch('r')", "fold('r')", "bounds('SELECT 1')", "unwatch('r')", "forget('r')"):
            heard.clear()
            self.owner.execute(f"SELECT safebound.{call}")
            self.assertIn("safebound.budget is set for the role careless, and doesn't bind", str(heard), call)
        self.postgres.execute("ALTER ROLE careless SET session_preload_libraries = 'safebound'")
        heard.clear()
        self.owner.execute("SELECT safebound.watch('r')")
        self.assertEqual(heard, [])
        self.owner.execute("SET safebound.budget = 9999; SELECT safebound.fold('r')")
        self.assertIn("safebound.budget is set for this session, and doesn't bind", str(heard))

    def test_keep_says_that_admission_wants_watch(self) -> None:
        heard = self.heard(self.owner)
        self.owner.execute("CREATE TABLE t (x integer PRIMARY KEY)")
        self.owner.execute("SELECT safebound.watch('t')")
        self.assertNotIn("NOTICE", str(heard))
        self.owner.execute("SELECT safebound.unwatch('t'), safebound.keep('t')")
        self.assertIn("NOTICE: \"t\" is kept, and not watched", str(heard))


class Updated(Fresh):
    def setUp(self) -> None:
        super().setUp()
        old = os.path.join(pg_config("--sharedir"), "extension", "safebound--0.1")
        shutil.copy(os.path.join(HERE, "safebound--0.1.sql"), old + ".sql")
        self.addCleanup(os.remove, old + ".sql")
        with open(old + ".control", "w", encoding="utf-8") as control:
            control.write("schema = safebound\n")
        self.addCleanup(os.remove, old + ".control")
        with open(os.path.join(HERE, "made-by-0.1.sql"), encoding="utf-8") as made:
            self.owner.execute(made.read())
        self.owner = self.connect("fresh")

    def test_a_library_that_doesnt_fit_says_so_and_does_nothing(self) -> None:
        self.owner.execute("LOAD 'safebound'")
        heard = self.heard(self.owner)
        self.owner.execute("SET safebound.estimates = bound")
        for _ in range(2):
            self.owner.execute("SELECT count(*) FROM things JOIN kinds ON things.kind = kinds.id")
        self.owner.execute("INSERT INTO things VALUES (2, 8)")
        self.assertEqual(len(heard), 1, heard)
        self.assertIn("the extension in this database has version 0.1", heard[0])
        self.assertEqual(self.state(self.owner, "SELECT safebound.fold('things')"), "55000")
        self.assertEqual(self.one("SELECT count(*) FROM safebound.kept_delta"), 1)

    def test_an_update(self) -> None:
        """Kept statistics stay. Watched tables are unknown until they are watched again."""
        # 53 rows of things; 26 of them have the kind 2, and 26 the kind 3, by 0.1's count and its delta.
        self.owner.execute("INSERT INTO things VALUES (2, 8)")
        self.owner.execute("ALTER EXTENSION safebound UPDATE")
        self.owner = self.connect("fresh")
        kept = self.owner.execute('SELECT "table"::text, watched, known FROM safebound.kept ORDER BY 1').fetchall()
        self.assertEqual(kept, [("kinds", False, True), ("things", True, False)])
        self.owner.execute("LOAD 'safebound'; SET safebound.estimates = bound")
        told = self.one("EXPLAIN (FORMAT JSON) SELECT FROM kinds WHERE kind = 'usual'")
        self.assertEqual(told[0]["Plan"]["Plan Rows"], 2)
        self.owner.execute('SELECT safebound.watch("table") FROM safebound.kept WHERE NOT known')
        self.owner.execute("INSERT INTO things VALUES (2, 8)")
        told = self.one("EXPLAIN (FORMAT JSON) SELECT FROM things")
        self.assertEqual(told[0]["Plan"]["Plan Rows"], 55)

    def test_an_updated_extension_is_as_a_new_one(self) -> None:
        self.owner.execute("ALTER EXTENSION safebound UPDATE")
        self.owner.execute("SELECT safebound.watch('things')")
        updated = members(self.owner)
        self.owner.execute("DROP EXTENSION safebound")
        self.assertEqual(left(self.owner), [])
        self.owner.execute("CREATE EXTENSION safebound")
        self.assertEqual(members(self.owner), updated)


def members(connection: psycopg.Connection[Any]) -> list[tuple[str, ...]]:
    """The members of the extension, with the columns of its tables, and its version and schema."""
    described = """
        SELECT pg_describe_object(classid, objid, 0), coalesce((
                SELECT string_agg(attname || ' ' || atttypid::regtype, ',' ORDER BY attnum) FROM pg_attribute
                WHERE classid = 'pg_class'::regclass AND attrelid = objid AND attnum > 0), ''), coalesce((
                SELECT concat(proname, prosrc, provolatile, proacl) FROM pg_proc
                WHERE classid = 'pg_proc'::regclass AND oid = objid), '')
        FROM pg_depend JOIN pg_extension e ON refobjid = e.oid
        WHERE refclassid = 'pg_extension'::regclass AND e.extname = 'safebound' AND deptype = 'e'
        UNION ALL SELECT extversion, extnamespace::regnamespace::text, '' FROM pg_extension
            WHERE extname = 'safebound'
        ORDER BY 1"""
    return connection.execute(described).fetchall()


def left(connection: psycopg.Connection[Any]) -> list[tuple[str, ...]]:
    """What is there of the extension, or was made by it."""
    return connection.execute("""
        SELECT 'schema', nspname::text FROM pg_namespace WHERE nspname = 'safebound'
        UNION ALL SELECT 'trigger', tgname FROM pg_trigger WHERE tgname LIKE 'safebound%'
        UNION ALL SELECT 'event trigger', evtname FROM pg_event_trigger WHERE evtname LIKE 'safebound%'
        UNION ALL SELECT 'function', proname FROM pg_proc WHERE probin LIKE '%safebound%'
        UNION ALL SELECT 'dependency', classid::text FROM pg_depend
            WHERE classid = 'pg_trigger'::regclass AND objid NOT IN (SELECT oid FROM pg_trigger)""").fetchall()


class Gone(Fresh):
    def setUp(self) -> None:
        super().setUp()
        self.owner.execute(MADE)

    def test_drop_extension_leaves_nothing(self) -> None:
        self.owner.execute("DROP EXTENSION safebound")
        self.assertEqual(left(self.owner), [])
        self.owner.execute("INSERT INTO s VALUES (1, 1)")
        self.owner.execute("CREATE EXTENSION safebound; SELECT safebound.watch('s')")

    def test_unwatch_leaves_no_trigger(self) -> None:
        self.owner.execute("SELECT safebound.unwatch('r'), safebound.unwatch('s')")
        self.assertEqual([what for what, _ in left(self.owner) if what == "trigger"], [])

    def test_a_dumped_table_without_the_extension(self) -> None:
        """Watched tables restore into a database without the extension."""
        words = [os.path.join(programs() or "", "pg_dump"), server.url_of("fresh"), "-t", "r", "-t", "s"]
        dump = subprocess.run(words, check=True, capture_output=True, text=True).stdout
        self.assertNotIn("safebound", dump)
        self.postgres.execute("CREATE DATABASE bare")
        self.addCleanup(self.postgres.execute, "DROP DATABASE bare WITH (FORCE)")
        words = ["psql", "-q", "-v", "ON_ERROR_STOP=1", server.url_of("bare")]
        subprocess.run(words, input=dump, check=True, text=True, stdout=subprocess.DEVNULL)
        self.assertEqual(self.connect("bare").execute(JOIN).fetchone(), (100,))

    def test_statistics_without_their_triggers(self) -> None:
        """pg_upgrade takes the extension's tables along, and leaves internal triggers out."""
        self.owner.execute("SET allow_system_table_mods = on")
        self.owner.execute("DELETE FROM pg_trigger WHERE tgrelid = 's'::regclass AND tgname LIKE 'safebound%'")
        self.owner = self.connect("fresh")
        self.owner.execute("LOAD 'safebound'; SET safebound.budget = 1000000")
        self.assertEqual(self.state(self.owner, JOIN), "SB002")

    def test_an_existing_schema_isnt_taken(self) -> None:
        self.owner.execute("DROP EXTENSION safebound; CREATE SCHEMA safebound")
        self.assertEqual(self.state(self.owner, "CREATE EXTENSION safebound"), "42P06")


if __name__ == "__main__":
    unittest.main()
