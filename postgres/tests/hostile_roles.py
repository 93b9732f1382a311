"""What roles that mean harm may learn, change or end: one that owns a table, one that may only connect, one with
TRIGGER on a table, one with CREATE on the database; and what a superuser may do over others' tables without giving them
its rights. After each test the server still runs, and none of these roles is a superuser.

    postgres/tests/hostile_roles.py
"""

from __future__ import annotations

import os
import sys
import threading
import time
import unittest
from typing import Any

import psycopg

sys.dont_write_bytecode = True
HERE = os.path.dirname(os.path.abspath(__file__))
sys.path[:0] = [os.path.join(HERE, "..")]
from installed import Installed, TemporaryServer

ROLES = ("owner", "guest", "triggers", "creator")
DENIED = "42501"
NOT_BY_HAND = "39P01"
OVER_BUDGET, UNBOUNDED = "SB001", "SB002"

# A function that makes `owner` a superuser, if it runs with a superuser's rights. A restricted operation forbids SET
# ROLE, and not ALTER ROLE.
SEIZE = """
CREATE FUNCTION owner.seize() RETURNS boolean LANGUAGE plpgsql AS $$ BEGIN
    IF (SELECT rolsuper FROM pg_catalog.pg_roles WHERE rolname = current_user) THEN
        EXECUTE 'ALTER ROLE owner SUPERUSER';
    END IF;
    RETURN true;
END $$;
"""

# Operators and functions that are closer to the arguments than PostgreSQL's own, each of which calls seize(). SQL that
# isn't qualified would find them, since the caller's search_path begins with their schema.
TRAPS = SEIZE + "".join(
    f"""
CREATE FUNCTION owner.{name}({left}, {right}) RETURNS boolean LANGUAGE plpgsql AS $$ BEGIN
    PERFORM owner.seize();
    RETURN $1::{base} OPERATOR(pg_catalog.{operator}) $2::{base};
END $$;
CREATE OPERATOR owner.{operator} (LEFTARG = {left}, RIGHTARG = {right}, FUNCTION = owner.{name});
"""
    for left, right, base in (("regclass", "regclass", "oid"), ("oid", "regclass", "oid"), ("oid", "oid", "oid"),
                              ("smallint", "integer", "integer"), ("bigint", "bigint", "numeric"))
    for operator, name in (("=", "equal"), (">", "more"))
) + """
CREATE FUNCTION owner.now() RETURNS timestamptz LANGUAGE plpgsql AS $$ BEGIN
    PERFORM owner.seize();
    RETURN pg_catalog.now();
END $$;
CREATE FUNCTION owner.nextval(regclass) RETURNS bigint LANGUAGE plpgsql AS $$ BEGIN
    PERFORM owner.seize();
    RETURN pg_catalog.nextval($1);
END $$;
"""

# The extension's tables, with the columns that the library expects, as anybody may make them.
OWN_TABLES = """
CREATE SEQUENCE safebound.versions;
CREATE TABLE safebound.kept_table (
    relation regclass PRIMARY KEY, rows bigint, accuracy smallint, common smallint, ranges smallint, made timestamptz,
    version bigint, sources oid[], joined smallint[], filters smallint[], referred bigint[]);
CREATE TABLE safebound.kept_lists (
    relation regclass, joined smallint, filter smallint, along smallint, referred oid, key smallint,
    joined_type regtype, filter_type regtype, joined_collation oid, filter_collation oid, lists bytea,
    PRIMARY KEY (relation, joined, filter, along, referred, key));
CREATE TABLE safebound.kept_delta (relation oid, id bigint, rows bigint, lists bytea, PRIMARY KEY (relation, id));
CREATE TABLE safebound.kept_source (source oid, relation oid, PRIMARY KEY (source, relation));
INSERT INTO safebound.kept_table VALUES ('t', 1, 8, 100, 64, now(), 1, NULL, '{}', '{}', '{}');
INSERT INTO safebound.kept_lists VALUES ('t', 0, 0, 0, 0, 0, 0, 0, 0, 0, '\\x7777');
"""

server: TemporaryServer


def connected(database: str, role: str) -> psycopg.Connection[Any]:
    """A connection to the server, which may be starting again after a crash."""
    for _ in range(300):
        try:
            return psycopg.connect(server.url, dbname=database, user=role, autocommit=True, prepare_threshold=None)
        except psycopg.OperationalError:
            time.sleep(0.1)
    raise AssertionError("the server doesn't come back")


def setUpModule() -> None:
    global server
    server = unittest.enterModuleContext(Installed())
    with connected("postgres", "postgres") as connection:
        for role in ROLES:
            connection.execute(f"CREATE ROLE {role} LOGIN")


class Hostile(unittest.TestCase):
    """Each test has a database of its own, where each role has a schema of its name."""

    extension = True

    def setUp(self) -> None:
        with connected("postgres", "postgres") as connection:
            connection.execute("DROP DATABASE IF EXISTS hostile WITH (FORCE)")
            connection.execute("CREATE DATABASE hostile")
        self.superuser = self.connect("postgres")
        if self.extension:
            self.superuser.execute("CREATE EXTENSION safebound; GRANT USAGE ON SCHEMA safebound TO owner")
        for role in ROLES:
            self.superuser.execute(f"CREATE SCHEMA {role} AUTHORIZATION {role}")

    def tearDown(self) -> None:
        with connected("postgres", "postgres") as connection:
            seized = "SELECT rolname FROM pg_roles WHERE rolsuper AND rolname <> 'postgres'"
            superusers = connection.execute(seized).fetchall()
            for role in ROLES:
                connection.execute(f"ALTER ROLE {role} NOSUPERUSER; ALTER ROLE {role} RESET ALL")
        with open(os.path.join(server.folder, "log"), encoding="utf-8", errors="replace") as log:
            ended = [line for line in log if "terminated by signal" in line]
        with open(os.path.join(server.folder, "log"), "w", encoding="utf-8"):
            pass
        self.assertEqual(superusers, [])
        self.assertEqual(ended, [])

    def connect(self, role: str) -> psycopg.Connection[Any]:
        connection = connected("hostile", role)
        self.addCleanup(connection.close)
        return connection

    def run_all(self, role: str, *statements: str) -> psycopg.Connection[Any]:
        connection = self.connect(role)
        for statement in statements:
            connection.execute(statement)
        return connection

    def state(self, connection: psycopg.Connection[Any], statement: str) -> str | None:
        """The SQLSTATE of a statement's error, or None."""
        try:
            connection.execute(statement)
        except psycopg.Error as error:
            self.assertFalse(connection.closed, statement)
            return error.sqlstate
        return None

    def known(self, table: str) -> bool:
        known = f"SELECT known AND watched FROM safebound.kept WHERE \"table\" = '{table}'::regclass"
        row = self.superuser.execute(known).fetchone()
        return row is not None and bool(row[0])


class Owner(Hostile):
    """A role that owns a table, and may use the schema safebound."""

    def test_operators_and_functions_of_its_own(self) -> None:
        owner = self.run_all("owner", TRAPS, "CREATE TABLE t (x int PRIMARY KEY)",
                             "CREATE TABLE u (x int REFERENCES t)",
                             "INSERT INTO t VALUES (1), (2); INSERT INTO u VALUES (1), (1)")
        for path in ("owner", "owner, pg_catalog"):
            owner.execute(f"SET search_path = {path}")
            for table in ("owner.t", "owner.u"):
                for call in ("keep", "watch", "fold", "unwatch", "watch", "forget", "watch"):
                    owner.execute(f"SELECT safebound.{call}('{table}')")
                    owner.execute("INSERT INTO u VALUES (2)")

    def test_ddl_over_a_watched_table(self) -> None:
        """The role needs no right on the extension for this: the event trigger runs by itself."""
        owner = self.run_all("owner", TRAPS, "CREATE TABLE t (x int)", "CREATE MATERIALIZED VIEW m AS TABLE t")
        self.superuser.execute("REVOKE ALL ON SCHEMA safebound FROM owner")
        self.superuser.execute("SELECT safebound.watch('owner.t'), safebound.watch('owner.m')")
        owner.execute("SET search_path = owner, pg_catalog")
        for ddl in ("REFRESH MATERIALIZED VIEW m", "ALTER TABLE t ADD y int", "DROP MATERIALIZED VIEW m",
                    "ALTER TABLE t ALTER x TYPE bigint", "DROP TABLE t"):
            owner.execute(ddl)
        self.assertEqual(self.superuser.execute("SELECT count(*) FROM safebound.kept").fetchone(), (0,))

    def test_an_operator_for_everybody(self) -> None:
        """Who may create in the schema public reaches a superuser's DDL and counts."""
        self.superuser.execute("GRANT CREATE ON SCHEMA public TO owner")
        self.run_all("owner", TRAPS.replace("CREATE OPERATOR owner.", "CREATE OPERATOR public."))
        for statement in ("CREATE TABLE t (x int)", "SELECT safebound.keep('t')", "SELECT safebound.watch('t')",
                          "INSERT INTO t VALUES (1)", "SELECT safebound.fold('t')", "DROP TABLE t"):
            self.superuser.execute(statement)

    def test_others_tables(self) -> None:
        self.superuser.execute("CREATE TABLE theirs (x int); SELECT safebound.watch('theirs')")
        owner = self.connect("owner")
        for call in ("keep", "watch", "fold", "unwatch", "forget"):
            self.assertEqual(self.state(owner, f"SELECT safebound.{call}('theirs')"), DENIED)
        for table in ("kept_table", "kept_lists", "kept_delta", "kept_source", "kept"):
            self.assertEqual(self.state(owner, f"TABLE safebound.{table}"), DENIED)
        self.assertTrue(self.known("theirs"))

    def test_a_trigger_by_hand(self) -> None:
        owner = self.run_all("owner", "CREATE TABLE owner.t (x int); INSERT INTO owner.t VALUES (1)",
                             "SELECT safebound.watch('owner.t')")
        made = "CREATE TRIGGER z AFTER DELETE ON owner.t FOR EACH STATEMENT EXECUTE FUNCTION safebound.follow()"
        self.assertEqual(self.state(owner, made), DENIED)
        self.superuser.execute(made)
        self.assertEqual(self.state(owner, "DELETE FROM owner.t"), NOT_BY_HAND)
        self.superuser.execute("DROP TRIGGER z ON owner.t")
        owner.execute("DELETE FROM owner.t")

    def test_triggers_without_their_rows(self) -> None:
        """Each other event, level or list of columns is refused too, or the rows are counted all the same."""
        owner = self.run_all("owner", "CREATE TABLE owner.t (x int)", "SELECT safebound.watch('owner.t')")
        self.superuser.execute("SET safebound.budget = 1")
        for made in ("BEFORE INSERT ON owner.t FOR EACH STATEMENT", "AFTER INSERT ON owner.t FOR EACH STATEMENT",
                     "AFTER UPDATE OF x ON owner.t FOR EACH STATEMENT", "BEFORE INSERT ON owner.t FOR EACH ROW",
                     "AFTER TRUNCATE ON owner.t FOR EACH STATEMENT", "AFTER INSERT ON owner.t FOR EACH ROW"):
            self.superuser.execute(f"CREATE TRIGGER z {made} EXECUTE FUNCTION safebound.follow()")
            for statement in ("INSERT INTO owner.t VALUES (1), (1)", "UPDATE owner.t SET x = 1", "TRUNCATE owner.t"):
                self.assertIn(self.state(owner, statement), (None, NOT_BY_HAND))
            self.superuser.execute("DROP TRIGGER z ON owner.t")
        owner.execute("INSERT INTO owner.t VALUES (1), (1)")
        self.assertEqual(self.state(self.superuser, "SELECT count(*) FROM owner.t a JOIN owner.t b USING (x)"),
                         OVER_BUDGET)

    def test_a_trigger_that_is_replaced(self) -> None:
        """A watched table's trigger is replaced by one that never fires, and the table is watched again."""
        owner = self.run_all("owner", "CREATE TABLE owner.t (x int)", "SELECT safebound.watch('owner.t')")
        named = "SELECT tgname FROM pg_trigger WHERE tgrelid = 'owner.t'::regclass AND tgname ~ '^safebound_insert'"
        name = self.superuser.execute(named).fetchone()
        assert name
        for role in (owner, self.superuser):
            made = (f"CREATE OR REPLACE TRIGGER \"{name[0]}\" AFTER INSERT ON owner.t REFERENCING NEW TABLE AS new_rows"
                    " FOR EACH STATEMENT WHEN (false) EXECUTE FUNCTION safebound.follow()")
            self.state(role, made)
            self.state(role, f"ALTER TABLE owner.t ENABLE ALWAYS TRIGGER \"{name[0]}\"")
        self.counted_after_watch(owner)

    def test_a_trigger_that_is_changed_in_the_catalog(self) -> None:
        owner = self.run_all("owner", "CREATE TABLE owner.t (x int)", "SELECT safebound.watch('owner.t')")
        for change in ("tgnewtable = NULL", "tgtype = 16", "tgattr = '1'", "tgenabled = 'R'"):
            self.superuser.execute(f"UPDATE pg_trigger SET {change} WHERE tgrelid = 'owner.t'::regclass"
                                   " AND tgname ~ '^safebound_insert'")
            self.counted_after_watch(owner)

    def counted_after_watch(self, owner: psycopg.Connection[Any]) -> None:
        """100 rows that come after `watch` count."""
        owner.execute("TRUNCATE owner.t")
        owner.execute("SELECT safebound.watch('owner.t')")
        owner.execute("INSERT INTO owner.t SELECT 1 FROM generate_series(1, 100)")
        self.superuser.execute("SET safebound.budget = 9999")
        self.assertEqual(self.state(self.superuser, "SELECT count(*) FROM owner.t a JOIN owner.t b USING (x)"),
                         OVER_BUDGET)
        self.superuser.execute("RESET safebound.budget")

    def test_a_composite_type_that_loses_an_attribute(self) -> None:
        """Values that differed in it are equal afterwards."""
        self.superuser.execute("DROP SCHEMA owner")
        for lost, types in (
            ("ALTER TYPE pair DROP ATTRIBUTE b", "CREATE TYPE pair AS (a int, b int)"),
            ("ALTER TABLE pair DROP b", "CREATE TABLE pair (a int, b int)"),
        ):
            for column, value in (("pair", "ROW(1, i)::pair"), ("pair[]", "ARRAY[ROW(1, i)::pair]"),
                                  ("outer_pair", "ROW(ROW(1, i)::pair)::outer_pair"), ("some_pair", "ROW(1, i)::pair")):
                with self.subTest(lost=lost, column=column):
                    self.superuser.execute("DROP SCHEMA IF EXISTS owner CASCADE")
                    self.superuser.execute("CREATE SCHEMA owner AUTHORIZATION owner")
                    owner = self.run_all("owner", types, "CREATE TYPE outer_pair AS (p pair)",
                                         "CREATE DOMAIN some_pair AS pair", f"CREATE TABLE t (c {column})",
                                         f"INSERT INTO t SELECT {value} FROM generate_series(1, 100) i",
                                         "SELECT safebound.watch('t')")
                    self.assertTrue(self.known("owner.t"))
                    owner.execute(lost)
                    self.superuser.execute("SET safebound.budget = 100; SET search_path = owner")
                    join = "SELECT count(*) FROM t a JOIN t b USING (c)"
                    self.assertEqual(self.state(self.superuser, join), UNBOUNDED)
                    self.superuser.execute("RESET safebound.budget; RESET search_path")


class Guest(Hostile):
    """A role that may only connect."""

    def setUp(self) -> None:
        super().setUp()
        self.superuser.execute("CREATE TABLE secret (name text, salary int)")
        self.superuser.execute("INSERT INTO secret SELECT 'n' || i, CASE WHEN i <= 7 THEN 123456 ELSE i END"
                               " FROM generate_series(1, 1000) i")
        self.superuser.execute("SELECT safebound.watch('secret')")

    def test_ddl(self) -> None:
        guest = self.connect("guest")
        for ddl in ("CREATE TEMP TABLE q (x int PRIMARY KEY, y serial)", "ALTER TABLE q ADD z int DEFAULT 7",
                    "ALTER TABLE q ALTER z TYPE text", "CREATE INDEX ON q (z)", "SELECT 1 AS x INTO TEMP p",
                    "CREATE VIEW pg_temp.v AS TABLE q", "CREATE FUNCTION pg_temp.f() RETURNS int RETURN 1",
                    "CREATE TYPE pg_temp.c AS (a int, b int)", "ALTER TYPE pg_temp.c DROP ATTRIBUTE b",
                    "CREATE TRIGGER u BEFORE UPDATE ON q FOR EACH ROW"
                    " EXECUTE FUNCTION suppress_redundant_updates_trigger()", "DROP TRIGGER u ON q",
                    "CREATE TEMP TABLE pt (x int) PARTITION BY LIST (x)",
                    "CREATE TEMP TABLE pt1 PARTITION OF pt FOR VALUES IN (1)", "ALTER TABLE pt DETACH PARTITION pt1",
                    "DROP TABLE q, p, pt, pt1 CASCADE"):
            guest.execute(ddl)
        self.assertTrue(self.known("secret"))

    def test_statistics(self) -> None:
        guest = self.connect("guest")
        for statement in ("TABLE safebound.kept_lists", "TABLE safebound.kept", "SELECT safebound.keep('secret')",
                          "SELECT safebound.unwatch('secret')", "SELECT safebound.fold('secret')",
                          "SELECT safebound.follow()", "SELECT safebound.on_change()",
                          "SELECT * FROM safebound.bounds('SELECT FROM secret a, secret b')"):
            self.assertEqual(self.state(guest, statement), DENIED, statement)

    def test_a_refusal(self) -> None:
        """A role with a budget and without SELECT isn't told how many rows have a value."""
        self.superuser.execute("ALTER ROLE guest SET safebound.budget = 1000")
        asked = "SELECT count(*) FROM secret a, secret b, secret c WHERE a.salary = 123456"
        self.assertEqual(self.state(self.connect("guest"), asked), DENIED)

    def test_locks_of_others(self) -> None:
        """A table that somebody has locked stops no DDL of another table."""
        writer = self.connect("postgres")
        writer.execute("BEGIN; TRUNCATE secret")
        guest = self.connect("guest")
        guest.execute("SET lock_timeout = '3s'; CREATE TEMP TABLE mine (x int); DROP TABLE mine")
        writer.execute("ROLLBACK")

    def test_two_that_truncate(self) -> None:
        """Each locks a watched table and then makes a temporary one. Neither waits for the other."""
        self.superuser.execute("CREATE TABLE w (x int); SELECT safebound.watch('w')")
        one, other = self.connect("postgres"), self.connect("postgres")
        for connection, table in ((one, "secret"), (other, "w")):
            connection.execute(f"SET lock_timeout = '3s'; BEGIN; TRUNCATE {table}")
        for connection in (one, other):
            connection.execute("CREATE TEMP TABLE mine (x int); COMMIT")

    def test_many_watched_tables(self) -> None:
        """DDL and writes of other tables take at most 1.3 times as long with 300 watched tables."""
        guest = self.run_all("guest", "CREATE TABLE guest.t (x int)", "SET client_min_messages = error")
        loop = ("DO $$ BEGIN FOR i IN 1..40 LOOP CREATE TEMP TABLE q (x int); DROP TABLE q;"
                " INSERT INTO guest.t VALUES (1); END LOOP; END $$")
        before = self.least(guest, loop)
        self.superuser.execute("DO $$ BEGIN FOR i IN 1..300 LOOP EXECUTE format('CREATE TABLE many_%s (x int)', i);"
                               " PERFORM safebound.watch(format('many_%s', i)); END LOOP; END $$")
        self.superuser.execute("VACUUM ANALYZE pg_class, pg_attribute, pg_trigger, pg_depend, pg_type")
        self.assertTrue(any(self.least(guest, loop) < 1.3 * before for _ in range(5)))

    def least(self, connection: psycopg.Connection[Any], statement: str) -> int:
        """The least time of the processor that a session takes for a statement, of several."""
        times = []
        for _ in range(9):
            begun = self.processor_time(connection)
            connection.execute(statement)
            times.append(self.processor_time(connection) - begun)
        return min(times)

    def processor_time(self, connection: psycopg.Connection[Any]) -> int:
        with open(f"/proc/{connection.info.backend_pid}/schedstat", encoding="ascii") as file:
            return int(file.read().split()[0])


class Triggers(Hostile):
    """A role with TRIGGER on a table of another."""

    def test_triggers_of_a_watched_table(self) -> None:
        self.superuser.execute("CREATE TABLE t (x int); GRANT TRIGGER, INSERT ON t TO triggers")
        self.superuser.execute("SELECT safebound.watch('t')")
        role = self.run_all("triggers", "CREATE FUNCTION triggers.f() RETURNS trigger LANGUAGE plpgsql AS"
                            " $$ BEGIN RETURN NULL; END $$")
        for event in ("DELETE", "INSERT", "UPDATE"):
            made = f"CREATE TRIGGER z AFTER {event} ON t FOR EACH STATEMENT EXECUTE FUNCTION"
            self.assertEqual(self.state(role, f"{made} safebound.follow()"), DENIED)
        names = self.superuser.execute("SELECT tgname FROM pg_trigger WHERE tgrelid = 't'::regclass").fetchall()
        for (name,) in names:
            for replace in ("", "OR REPLACE "):
                made = f"CREATE {replace}TRIGGER \"{name}\" AFTER INSERT ON t EXECUTE FUNCTION triggers.f()"
                self.assertIsNotNone(self.state(role, made))
            self.assertEqual(self.state(role, f"DROP TRIGGER \"{name}\" ON t"), DENIED)
            self.assertEqual(self.state(role, f"ALTER TABLE t DISABLE TRIGGER \"{name}\""), DENIED)
        role.execute("CREATE TRIGGER z AFTER INSERT ON t FOR EACH STATEMENT EXECUTE FUNCTION triggers.f()")
        role.execute("INSERT INTO t SELECT 1 FROM generate_series(1, 100)")
        self.superuser.execute("SET safebound.budget = 9999")
        self.assertEqual(self.state(self.superuser, "SELECT count(*) FROM t a JOIN t b USING (x)"), OVER_BUDGET)


class Creator(Hostile):
    """A role with CREATE on the database, which hasn't the extension yet."""

    extension = False

    def setUp(self) -> None:
        super().setUp()
        self.superuser.execute("GRANT CREATE ON DATABASE hostile TO creator")
        self.superuser.execute("CREATE TABLE t (x int); INSERT INTO t SELECT i % 3 FROM generate_series(1, 300) i")
        self.creator = self.run_all("creator", "CREATE SCHEMA safebound")

    def test_tables_of_a_schema_of_that_name(self) -> None:
        """Sessions that plan, write and make tables don't read them."""
        for columns in (300, 10):
            more = ", ".join(f"c{i} bigint DEFAULT 4702111234474983745" for i in range(columns))
            for name in ("kept_table", "kept_lists", "kept_delta", "kept_source"):
                self.creator.execute(f"CREATE TABLE safebound.{name} (relation regclass PRIMARY KEY, {more})")
                self.creator.execute(f"INSERT INTO safebound.{name} SELECT 't'::regclass")
                self.creator.execute(f"GRANT ALL ON safebound.{name} TO PUBLIC")
            for mode in ("mean", "bound"):
                self.superuser.execute(f"SET safebound.estimates = {mode}")
                joined = self.superuser.execute("SELECT count(*) FROM t a JOIN t b USING (x)").fetchone()
                self.assertEqual(joined, (30000,))
            self.superuser.execute("ANALYZE t; CREATE TEMP TABLE q (x int); DROP TABLE q; INSERT INTO t VALUES (NULL)")
            self.creator.execute("DROP SCHEMA safebound CASCADE; CREATE SCHEMA safebound")

    def test_tables_with_the_right_columns(self) -> None:
        """They are none of the extension's, whatever they say of a table."""
        self.creator.execute("SET search_path = safebound, public")
        self.creator.execute(OWN_TABLES)
        self.creator.execute("GRANT USAGE ON SCHEMA safebound TO PUBLIC")
        self.creator.execute("GRANT ALL ON ALL TABLES IN SCHEMA safebound TO PUBLIC")
        for mode in ("mean", "bound"):
            self.superuser.execute(f"SET safebound.estimates = {mode}")
            joined = self.superuser.execute("SELECT count(*) FROM t a JOIN t b USING (x)").fetchone()
            self.assertEqual(joined, (30000,))
        self.superuser.execute("ANALYZE t; CREATE TEMP TABLE q (x int); DROP TABLE q; INSERT INTO t VALUES (NULL)")

    def test_a_budget(self) -> None:
        """Tables of that schema are tables as all others."""
        self.creator.execute("CREATE TABLE safebound.a AS SELECT 1 AS x FROM generate_series(1, 300)")
        self.superuser.execute("ALTER ROLE creator SET safebound.budget = 10")
        join = "SELECT count(*) FROM safebound.a one JOIN safebound.a other USING (x)"
        self.assertEqual(self.state(self.connect("creator"), join), UNBOUNDED)

    def test_the_extension_doesnt_take_the_schema(self) -> None:
        self.assertEqual(self.state(self.superuser, "CREATE EXTENSION safebound"), "42P06")
        self.creator.execute("DROP SCHEMA safebound")
        self.superuser.execute("CREATE EXTENSION safebound")
        self.assertEqual(self.state(self.creator, "CREATE TABLE safebound.kept_more (x int)"), DENIED)


class Superuser(Hostile):
    """A superuser who counts tables of others."""

    def referring(self, owner_of_keys: str) -> None:
        """owner.t refers to keys.pk. The keys' index has an expression that writes down as whom it runs."""
        self.superuser.execute(SEIZE.replace("owner.seize", "public.seize"))
        self.superuser.execute(f"CREATE SCHEMA keys AUTHORIZATION {owner_of_keys}")
        self.run_all(
            owner_of_keys, "CREATE TABLE keys.seen (name text); GRANT INSERT ON keys.seen TO PUBLIC",
            "CREATE TABLE keys.pk (id int PRIMARY KEY, c int)",
            "INSERT INTO keys.pk SELECT i, i FROM generate_series(1, 10) i",
            "CREATE FUNCTION keys.same(int) RETURNS int IMMUTABLE LANGUAGE plpgsql AS $$ BEGIN RETURN $1; END $$",
            "CREATE INDEX ON keys.pk ((c + keys.same(1)))",
            "CREATE FUNCTION keys.note() RETURNS int VOLATILE LANGUAGE plpgsql AS $$ BEGIN"
            " INSERT INTO keys.seen VALUES (current_user); PERFORM public.seize(); RETURN 1; END $$",
            "CREATE OR REPLACE FUNCTION keys.same(int) RETURNS int IMMUTABLE LANGUAGE plpgsql AS"
            " $$ BEGIN PERFORM keys.note(); RETURN $1; END $$",
            "GRANT USAGE ON SCHEMA keys TO PUBLIC; GRANT SELECT, REFERENCES ON keys.pk TO PUBLIC")
        self.run_all("owner", "CREATE TABLE owner.t (r int REFERENCES keys.pk, x int)")
        self.superuser.execute("TRUNCATE keys.seen")

    def seen(self) -> set[str]:
        return {name for (name,) in self.superuser.execute("SELECT name FROM keys.seen").fetchall()}

    def test_counts_over_others_expressions(self) -> None:
        for owner_of_keys in ("owner", "creator"):
            self.referring(owner_of_keys)
            for call in ("keep", "watch"):
                self.superuser.execute(f"SELECT safebound.{call}('owner.t')")
            owner = self.connect("owner")
            for i in range(120):
                owner.execute(f"INSERT INTO owner.t VALUES (1, {i})")
            self.superuser.execute("TRUNCATE keys.seen")
            for statement in ("ANALYZE owner.t", "SELECT safebound.fold('owner.t')",
                              "SELECT safebound.watch('owner.t')"):
                self.superuser.execute(statement)
                self.assertEqual(self.seen(), set(), statement)
            owner.execute("SELECT safebound.fold('owner.t'), safebound.keep('owner.t')")
            self.assertEqual(self.seen(), set())
            self.superuser.execute("DROP SCHEMA keys, owner CASCADE; DROP FUNCTION seize()")
            self.superuser.execute("CREATE SCHEMA owner AUTHORIZATION owner")

    def test_analyze_of_all_tables(self) -> None:
        """ANALYZE evaluates the expressions of an index itself, as the table's owner."""
        self.referring("creator")
        self.superuser.execute("SELECT safebound.watch('owner.t'), safebound.watch('keys.pk')")
        owner = self.connect("owner")
        for i in range(120):
            owner.execute(f"INSERT INTO owner.t VALUES (1, {i})")
        self.superuser.execute("TRUNCATE keys.seen")
        self.state(self.superuser, "ANALYZE")
        self.state(self.superuser, "VACUUM ANALYZE")
        self.assertLessEqual(self.seen(), {"creator"})

    def test_lists_along_a_reference_that_the_owner_may_not_read(self) -> None:
        """A superuser may read the referred table. The statistics of a table whose owner may not have none of it."""
        self.superuser.execute("CREATE TABLE pk (id int PRIMARY KEY, c int); INSERT INTO pk VALUES (1, 42)")
        self.superuser.execute("GRANT REFERENCES ON pk TO owner")
        self.run_all("owner", "CREATE TABLE owner.t (r int REFERENCES pk)", "INSERT INTO owner.t VALUES (1)")
        self.superuser.execute("SELECT safebound.keep('owner.t')")
        along = "SELECT count(*) FROM safebound.kept_lists WHERE along > 0"
        self.assertEqual(self.superuser.execute(along).fetchone(), (0,))
        self.superuser.execute("GRANT SELECT ON pk TO owner; SELECT safebound.keep('owner.t')")
        self.assertNotEqual(self.superuser.execute(along).fetchone(), (0,))

    def test_the_session_stays_the_superusers(self) -> None:
        self.run_all("owner", "CREATE TABLE owner.t (x int)")
        self.superuser.execute("SET search_path = owner, public")
        self.superuser.execute("SELECT safebound.watch('owner.t'), safebound.fold('owner.t')")
        session = self.superuser.execute("SELECT current_user, current_setting('search_path')").fetchone()
        self.assertEqual(session, ("postgres", "owner, public"))
        self.assertIsNotNone(self.state(self.superuser, "SELECT safebound.keep('owner.t', '{nothing}')"))
        session = self.superuser.execute("SELECT current_user, current_setting('search_path')").fetchone()
        self.assertEqual(session, ("postgres", "owner, public"))

    def test_own_tables_that_were_changed(self) -> None:
        """The extension does nothing with tables of other columns, and doesn't read them."""
        self.superuser.execute("CREATE TABLE t (x int); INSERT INTO t SELECT i % 3 FROM generate_series(1, 300) i")
        self.superuser.execute("SELECT safebound.watch('t')")
        more = ", ".join(f"ADD c{i} bigint DEFAULT 4702111234474983745" for i in range(300))
        for table in ("kept_table", "kept_lists", "kept_delta", "kept_source"):
            self.superuser.execute(f"ALTER TABLE safebound.{table} {more}")
        other = self.connect("postgres")
        other.execute("SET safebound.estimates = bound")
        join = "SELECT count(*) FROM t a JOIN t b USING (x)"
        self.assertEqual(other.execute(join).fetchone(), (30000,))
        other.execute("CREATE TEMP TABLE q (x int); DROP TABLE q; ANALYZE t; SET safebound.budget = 1000000")
        self.assertEqual(self.state(other, join), UNBOUNDED)
        for call in ("keep", "watch"):
            self.assertEqual(self.state(other, f"SELECT safebound.{call}('t')"), "55000")
        other.execute("INSERT INTO t VALUES (1)")


class Beside(Hostile):
    def test_who_counts_and_who_unwatches(self) -> None:
        """Two sessions change what is kept of one table: one waits for the other, and neither fails."""
        owner = self.run_all("owner", "CREATE TABLE owner.t (x int)", "SELECT safebound.watch('owner.t')")
        failed: list[str | None] = []
        owner.execute("BEGIN; SELECT safebound.fold('owner.t')")
        other = self.connect("owner")
        waits = threading.Thread(
            target=lambda: failed.append(self.state(other, "SELECT safebound.unwatch('owner.t')"))
        )
        waits.start()
        time.sleep(0.3)
        owner.execute("COMMIT")
        waits.join()
        self.assertEqual(failed, [None])


if __name__ == "__main__":
    unittest.main()
