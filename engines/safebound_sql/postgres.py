"""PostgreSQL by psycopg 3. One read-only REPEATABLE READ transaction lasts from the first look at the catalog to the
last row.
"""

from __future__ import annotations

import codecs
import contextlib
import functools
import json
import re
from dataclasses import dataclass, replace
from typing import Any, Callable, Iterable, Iterator, Mapping, Sequence

from safebound.sql_texts import written_text

from .calls import Call, Function
from .dialect import Dialect
from .engine import Catalog, Connection, Engine, one_line, with_names
from .faults import EngineFault, Fault, Missing, Refused
from .query import Column, Row, Spread, Table
from .tokens import POSTGRES, Token, written

try:
    import psycopg
except ImportError:
    psycopg = None  # type: ignore[assignment]

# A column's kind is its base type and its collation: = compares columns of one kind as GROUP BY does. A column has a
# kind if its type is an enum, or a type of PostgreSQL's own that can be sorted, and if no user has defined an = for it.
# Columns that the user may not read are left out, since no query with them could run.
COLUMNS = """
SELECT a.attname, format_type(a.atttypid, a.atttypmod),
       CASE WHEN ((t.typnamespace = 'pg_catalog'::regnamespace AND EXISTS (
                SELECT FROM pg_opclass o JOIN pg_am m ON m.oid = o.opcmethod AND m.amname = 'btree'
                WHERE o.opcdefault AND (o.opcintype = t.oid OR EXISTS (
                    SELECT FROM pg_cast c WHERE c.castsource = t.oid AND c.casttarget = o.opcintype
                    AND c.castmethod = 'b' AND c.castcontext = 'i'))))
            OR t.typtype = 'e') AND NOT EXISTS (
                SELECT FROM pg_operator o WHERE o.oprname = '=' AND o.oprnamespace <> 'pg_catalog'::regnamespace
                AND pg_operator_is_visible(o.oid) AND EXISTS (
                    SELECT FROM pg_type p WHERE p.oid IN (o.oprleft, o.oprright) AND (p.oid IN (t.oid, d.oid)
                        OR p.typtype = 'p')))
            THEN t.oid::text || ' ' || a.attcollation::text END
FROM pg_attribute a JOIN pg_type d ON d.oid = a.atttypid
JOIN pg_type t ON t.oid = CASE d.typtype WHEN 'd' THEN d.typbasetype ELSE d.oid END
WHERE a.attrelid = %s AND a.attnum > 0 AND NOT a.attisdropped AND has_column_privilege(a.attrelid, a.attnum, 'SELECT')
ORDER BY a.attnum
"""

# The functions that calls may mean. A bare name means visible ones; a name with a schema may mean all of that name. A
# column may be a function of a row.
FUNCTIONS = """
WITH named AS (
    SELECT 'bare' AS how, proname::text AS name, p.* FROM pg_proc p
    WHERE proname = ANY(%(bare)s) AND pg_function_is_visible(oid)
    UNION ALL SELECT 'qualified', proname, p.* FROM pg_proc p WHERE proname = ANY(%(qualified)s)
    UNION ALL SELECT 'attribute', proname, p.* FROM pg_proc p
    WHERE proname = ANY(%(attribute)s) AND pronargs = 1
        AND EXISTS (SELECT FROM pg_type t WHERE t.oid = proargtypes[0] AND (typtype = 'c' OR typname IN (
            'record', 'any', 'anyelement', 'anynonarray', 'anycompatible', 'anycompatiblenonarray')))
    UNION ALL SELECT 'bare', oprname, p.* FROM pg_operator o JOIN pg_proc p ON p.oid = o.oprcode
    WHERE oprname = ANY(%(bare)s) AND pg_operator_is_visible(o.oid)
    UNION ALL SELECT 'qualified', oprname, p.* FROM pg_operator o JOIN pg_proc p ON p.oid = o.oprcode
    WHERE oprname = ANY(%(qualified)s)
    UNION ALL SELECT 'cast', oid::text, p.* FROM pg_proc p WHERE oid::text = ANY(%(cast)s))
SELECT how, name, oid, proname, pronamespace IN ('pg_catalog'::regnamespace, 'information_schema'::regnamespace),
    provolatile = 'v', proretset, prokind = 'a', pronargs - pronargdefaults,
    CASE WHEN provariadic = 0 THEN pronargs ELSE 100 END
FROM named
"""

# The casts that users made. PostgreSQL's own answer alike at each call.
CASTS = """
SELECT castfunc, casttarget, castcontext = 'i' FROM pg_cast JOIN pg_proc p ON p.oid = castfunc
WHERE pronamespace <> 'pg_catalog'::regnamespace
"""

# The types whose casts may call those of a type: its domains, its arrays, and rows with it.
TYPES_ABOVE = """
SELECT oid FROM pg_type WHERE %(type)s IN (typbasetype, typelem)
UNION SELECT t.oid FROM pg_attribute JOIN pg_type t ON typrelid = attrelid WHERE atttypid = %(type)s AND attnum > 0
"""

# The words that SQL has for some types.
WORDS_OF_TYPES = {
    "int4": ("int", "integer"), "int8": ("bigint",), "int2": ("smallint",), "float4": ("real", "float"),
    "float8": ("float", "double"), "numeric": ("decimal", "dec"), "bool": ("boolean",),
    "bpchar": ("char", "character", "nchar", "national"), "varchar": ("char", "character", "nchar", "national"),
    "timestamptz": ("timestamp",), "timetz": ("time",), "varbit": ("bit",),
}

# Functions that are marked STABLE, but depend on the session, on current activity or on the statement.
SETTINGS = "current_setting|pg_settings|pg_show_all_settings"
ACTIVITY = "statement_timestamp|pg_stat_|pg_show_|pg_cursor|pg_prepared_|pg_ls_|pg_read_|pg_get_.*memory"

# The users' own functions whose text has such a name, or the name of such a function.
UNSTABLE = """
WITH RECURSIVE own AS (
    SELECT oid, proname::text AS name, lower(prosrc || {}) AS text FROM pg_proc
    WHERE pronamespace NOT IN ('pg_catalog'::regnamespace, 'information_schema'::regnamespace)),
unstable AS (
    SELECT oid, name, text ~ '{}' AS settings FROM own WHERE text ~ '{}'
    UNION SELECT own.oid, own.name, settings FROM unstable JOIN own ON strpos(text, lower(unstable.name)) > 0)
SELECT oid, bool_or(settings) FROM unstable GROUP BY oid
"""

# A row policy may hide rows of its table from a query, as the conditions of a view may.
VIEWS = """
SELECT name, 'the view', pg_get_viewdef(oid) FROM unnest(%(names)s::text[]) AS name
    JOIN pg_class ON oid = to_regclass(name)
WHERE relkind = 'v'
UNION ALL SELECT name, 'a row policy', pg_get_expr(polqual, polrelid)
FROM unnest(%(names)s::text[]) AS name JOIN pg_policy ON polrelid = to_regclass(name)
    JOIN pg_class c ON c.oid = polrelid
WHERE relrowsecurity AND polqual IS NOT NULL AND polcmd IN ('r', '*')
"""

WITHOUT_SNAPSHOT = """
WITH RECURSIVE below AS (
    SELECT name, to_regclass(name)::oid AS oid FROM unnest(%s::text[]) AS name WHERE to_regclass(name) IS NOT NULL
    UNION SELECT name, inhrelid FROM below JOIN pg_inherits ON inhparent = below.oid)
SELECT DISTINCT name, fdwname FROM below JOIN pg_foreign_table ON ftrelid = below.oid
    JOIN pg_foreign_server s ON s.oid = ftserver
JOIN pg_foreign_data_wrapper w ON w.oid = srvfdw LEFT JOIN pg_proc h ON h.oid = fdwhandler
WHERE h.proname IS DISTINCT FROM 'postgres_fdw_handler'
"""

# A schema whose functions and operators hide PostgreSQL's own ones of the same names.
BEFORE_CATALOG = """
WITH path AS (SELECT schema, at, quote_ident(schema)::regnamespace AS oid
    FROM unnest(current_schemas(true)) WITH ORDINALITY AS p(schema, at))
SELECT schema FROM path WHERE at < (SELECT at FROM path WHERE schema = 'pg_catalog') AND schema !~ '^pg_temp_' AND (
    EXISTS (SELECT FROM pg_operator o JOIN pg_operator c USING (oprname) WHERE o.oprnamespace = path.oid
        AND c.oprnamespace = 'pg_catalog'::regnamespace)
    OR EXISTS (SELECT FROM pg_proc o JOIN pg_proc c USING (proname) WHERE o.pronamespace = path.oid
        AND c.pronamespace = 'pg_catalog'::regnamespace))
ORDER BY at
"""

# The leaves of a partitioned table, if at least one of them is a foreign table; or a foreign table itself. The result
# is empty if the leaves could have other rows than the table: the user may not read a leaf, or a row policy hides rows.
# The column is the partition key, if PostgreSQL sends each leaf a complete GROUP BY of it.
SPREAD = """
WITH leaves AS (
    SELECT relid, level FROM pg_partition_tree(%(table)s) WHERE isleaf
    UNION SELECT oid, 0 FROM pg_class WHERE oid = %(table)s AND relkind = 'f' AND NOT relhassubclass)
SELECT array_agg(format('%%I.%%I', nspname, relname) ORDER BY relid),
       (SELECT attname FROM pg_partitioned_table p JOIN pg_attribute a ON a.attrelid = partrelid
           AND a.attnum = partattrs[0]
        WHERE partrelid = %(table)s AND partnatts = 1 AND max(level) = 1 AND partcollation[0] = attcollation
        AND current_setting('enable_partitionwise_aggregate')::boolean)
FROM leaves JOIN pg_class c ON c.oid = relid JOIN pg_namespace n ON n.oid = relnamespace
HAVING bool_or(relkind = 'f') AND bool_and(has_table_privilege(relid, 'SELECT')) AND NOT bool_or(relrowsecurity)
    AND NOT (SELECT relrowsecurity FROM pg_class WHERE oid = %(table)s)
"""

KINDS = """
SELECT t.oid, t.oid::text || ' 0' FROM pg_type t JOIN pg_opclass o ON o.opcintype = t.oid AND opcdefault
JOIN pg_am m ON m.oid = opcmethod AND amname = 'btree'
WHERE t.oid = ANY(%s::oid[]) AND typnamespace = 'pg_catalog'::regnamespace AND typcollation = 0 AND typtype = 'b'
"""

# The planned query runs with a setting of its own, but the counting statement runs without it.
WHY_SETTINGS = (
    "it tells the session's settings, which aren't the same while the query is counted and while it is joined"
)

# The operators that keywords stand for.
OPERATORS_OF_WORDS = {
    "LIKE": ("~~", "!~~"), "ILIKE": ("~~*", "!~~*"), "BETWEEN": (">=", "<=", "<", ">"), "IN": ("=", "<>"),
    "DISTINCT": ("=",), "WHEN": ("=",), "NULLIF": ("=",), "SIMILAR": ("~", "!~"),
}

WHY_ACTIVITY = "it tells of what goes on now, and not of the snapshot"

TYPES = "SELECT t, format_type(t, NULL) FROM unnest(%s::oid[]) AS t"

COMMON = """
SELECT pg_typeof(coalesce(CAST(NULL AS {0}), CAST(NULL AS {1}))),
       pg_typeof(CAST(NULL AS {0})), pg_typeof(CAST(NULL AS {1}))
"""

TABLE = """
SELECT c.oid, format('%%I %%I.%%I#%%s', current_database(), nspname, relname, c.oid),
    ARRAY(SELECT attname::text FROM pg_index i JOIN pg_attribute a ON a.attrelid = indrelid AND a.attnum = ANY(indkey)
          WHERE indrelid = c.oid AND indisprimary AND indimmediate)
FROM pg_class c JOIN pg_namespace n ON n.oid = relnamespace WHERE c.oid = to_regclass(%s)
    AND relkind = ANY('{r,p,m,f,v}')
"""


# PostgreSQL expects ten values in an array that is a parameter. So it expects few rows, and would join them by nested
# loops. With enable_nestloop off it still uses nested loops if there is no other way. Their cost is then so high that
# it would compile the statement.
NO_NESTED_LOOPS, NO_COMPILING = "enable_nestloop = off", "jit = off"
FOR_SEVERAL_SERVERS = (NO_NESTED_LOOPS, NO_COMPILING)
IN_ORDER = ("join_collapse_limit = 1",)

# Functions can't distinguish equal values of these types: "char", bigint, boolean, bytea, date, integer, name, oid,
# smallint, text, time and timestamp with and without a zone, uuid, varchar. Equal values of numeric may differ: 1.0 and
# 1.00 have different texts. They don't differ if the scale is declared, and values of CHAR don't if the length is.
SAME_WHEN_EQUAL = (18, 20, 16, 17, 1082, 23, 19, 26, 21, 25, 1083, 1266, 1114, 1184, 2950, 1043)


# An ASCII name that is shorter isn't cut: a name has 63 bytes, or more in a server that is built so.
SURELY_WHOLE = 32


@dataclass(frozen=True)
class PostgresDialect(Dialect):
    """`asked` gives a name, as written, in the form that the server compares."""

    asked: Callable[[str], str] | None = None

    def settings_for(self, tables: Iterable[Table]) -> tuple[str, ...]:
        more = FOR_SEVERAL_SERVERS if any(table.spread for table in tables) else ()
        return self.settings + tuple(f"SET {setting}" for setting in more)

    def operators_of_words(self, token: Token) -> tuple[str, ...]:
        return OPERATORS_OF_WORDS.get(token.text.upper(), ()) if token.kind == "word" else ()

    def normalized(self, name: str, quoted: bool) -> str:
        """PostgreSQL cuts long names, and folds and cuts them by the encoding of the database."""
        if self.asked is None or (name.isascii() and len(name) < SURELY_WHOLE):
            return super().normalized(name, quoted)
        return self.asked(self.quote(name) if quoted else name)

    def reads_clock(self, pieces: list[Token], at: int, in_view: bool = False) -> bool:
        """now() has one value in the whole transaction. statement_timestamp() is marked STABLE too, but changes from
        statement to statement.
        """
        return pieces[at].is_name and self.normalized_name(pieces[at]) == "statement_timestamp"

    def remote_in(self, value: str, column: Column, rows: str) -> str:
        """Casts values of VARCHAR to TEXT one by one. They are compared as TEXT, and postgres_fdw doesn't send a cast
        of the whole array.
        """
        name = self.quote(column.name)
        values = f"CAST({name} AS TEXT)" if column.type.startswith("character varying") else name
        return f"{value} = ANY(ARRAY(SELECT {values} FROM {rows}))"


DIALECT = PostgresDialect(
    name="postgres",
    title="PostgreSQL",
    rules=POSTGRES,
    keeps_using=True,
    columns_may_be_calls=True,
    casts_are_calls=True,
    counts_exactly=True,
    settings=tuple(f"SET {setting}" for setting in IN_ORDER),
)


class PostgresConnection(Connection):
    def __init__(self, url: str, timeout: int | None) -> None:
        if psycopg is None:
            raise Missing("PostgreSQL is asked through psycopg 3: run engines/setup, or install python3-psycopg")
        with as_faults():
            self.connection = psycopg.connect(url, client_encoding="utf8")
            self.connection.isolation_level = psycopg.IsolationLevel.REPEATABLE_READ
            self.connection.read_only = True
            if timeout:
                self.connection.execute(f"SET LOCAL statement_timeout = {timeout * 1000}")

    def value(self, sql: str, given: Sequence[object] | None = None) -> Any:
        """The only value of a result."""
        [[value]] = self.rows(sql, given)
        return value

    def rows(self, sql: str, given: Sequence[object] | Mapping[str, object] | None = None) -> list[Row]:
        with as_faults():
            return self.connection.execute(sql, given).fetchall()

    def counted(self, sql: str, large: bool) -> list[Row]:
        """Large parts are joined by hashing, even if PostgreSQL expects few rows in them. Nothing is compiled."""
        with as_faults(), self.connection.transaction(force_rollback=True):
            self._set((NO_NESTED_LOOPS, NO_COMPILING) if large else (NO_COMPILING,))
            return self.connection.execute(sql).fetchall()

    def stream(self, sql: str) -> Iterator[Row]:
        with as_faults(), self.connection.cursor("safebound") as cursor:
            cursor.execute(sql)
            yield from with_names(cursor, [column.name for column in cursor.description or ()])

    def csv(self, sql: str, null: str = "") -> Iterator[str]:
        decoder = codecs.getincrementaldecoder(self.connection.info.encoding)()
        with as_faults(), self.connection.cursor() as cursor:
            with cursor.copy(f"COPY ({sql}) TO STDOUT (FORMAT csv, HEADER, NULL {written_text(null)})") as answer:
                for block in answer:
                    yield decoder.decode(bytes(block))

    def prepare_joins(self, tables: Iterable[Table]) -> None:
        if any(table.spread for table in tables):
            self._set(FOR_SEVERAL_SERVERS)

    def keep_order(self) -> None:
        self._set(IN_ORDER)

    def _set(self, settings: tuple[str, ...]) -> None:
        """Makes settings that last until the end of the transaction."""
        with as_faults():
            self.connection.execute("; ".join(f"SET LOCAL {setting}" for setting in settings))

    def close(self) -> None:
        if self.connection.info.transaction_status == psycopg.pq.TransactionStatus.ACTIVE:
            self.connection.cancel()
        self.connection.close()


class PostgresCatalog(Catalog):
    def __init__(self, connection: PostgresConnection, dialect: Dialect) -> None:
        self.connection, self.dialect = connection, dialect

    @contextlib.contextmanager
    def _apart(self) -> Iterator[psycopg.Connection[Row]]:
        """The connection within a savepoint, so that the transaction survives a statement that fails."""
        with as_faults(), self.connection.connection.transaction():
            yield self.connection.connection

    def table(self, name: list[Token]) -> Table | None:
        with self._apart() as connection:
            found = connection.execute(TABLE, [written(name)]).fetchone()
            if found is None:
                return None
            columns = tuple(Column(*row) for row in connection.execute(COLUMNS, found[:1]))
            spread = connection.execute(SPREAD, {"table": found[0]}).fetchone()
        return Table(
            columns, {column.name: column for column in columns}, f"{self.cluster} {found[1]}",
            Spread(tuple(spread[0]), spread[1]) if spread else None, tuple(found[2]),
        )

    def described(self, sql: str) -> list[Column]:
        """Asks only for the query's columns, with a query that returns no row. The answer doesn't include the
        collations of texts, so texts have no kind.
        """
        with self._apart() as connection:
            answer = connection.execute(f"SELECT q.* FROM (SELECT 1) AS one LEFT JOIN ({sql}\n) AS q ON false")
            columns = [(column.name, column.type_code) for column in answer.description or ()]
            codes = [[code for _, code in columns]]
            kinds = {code: kind for code, kind in connection.execute(KINDS, codes)}
            types = {code: name for code, name in connection.execute(TYPES, codes)}
        return [Column(name, types[code], kinds.get(code)) for name, code in columns]

    def merged_side(self, left: Column, right: Column) -> int | None:
        """Takes the column that isn't converted to the common type, or the left column if neither is converted."""
        if left.type == right.type:
            return 0
        common, *own = self.connection.rows(COMMON.format(left.type, right.type))[0]
        plain = [common == mine and "(" not in column.type for mine, column in zip(own, (left, right))]
        return 0 if plain[0] else 1 if plain[1] else 0 if common == own[0] else None

    @functools.cached_property
    def cluster(self) -> str:
        """An identifier of this server's data, if the user may ask for it."""
        may = "SELECT has_function_privilege('pg_control_system()', 'execute')"
        ask = "SELECT system_identifier::text FROM pg_control_system()"
        return str(self.connection.value(ask)) if self.connection.value(may) else "a server"

    def functions(self, asked: set[Call]) -> dict[Call, list[Function]]:
        """The functions that take this number of arguments."""
        if not asked:
            return {}
        casts = {call: self._casts_of(call) for call in asked}
        given = {how: [call.name for call in asked if call.how == how] for how in ("bare", "qualified", "attribute")}
        given["cast"] = [oid for some in casts.values() for oid in some]
        by_name: dict[tuple[str, str], list[Row]] = {}
        for row in self.connection.rows(FUNCTIONS, given):
            by_name.setdefault((row[0], row[1]), []).append(row)
        return {
            call: [
                self._function(row)
                for key in [(call.how, call.name), *(("cast", oid) for oid in casts[call])]
                for row in by_name.get(key, ())
                if call.arguments is None or row[8] <= call.arguments <= row[9]
            ]
            for call in asked
        }

    def _function(self, row: Row) -> Function:
        _, _, oid, name, is_system, volatile, returns_set, is_aggregate, _, _ = row
        why = self.dialect.why_volatile if volatile else self._why_unstable(oid, name, is_system)
        return Function(why, returns_set, is_aggregate)

    def _casts_of(self, call: Call) -> list[str]:
        """The users' casts that the call may use. PostgreSQL adds implicit casts by itself."""
        if call.how not in ("type", "implicit"):
            return []
        if call.how == "implicit":
            return [oid for oid, _, implicit in self.casts if implicit]
        return [oid for oid, names, _ in self.casts if call.name in names]

    @functools.cached_property
    def casts(self) -> list[tuple[str, set[str], bool]]:
        """The functions of the users' casts, the names of the types by which they may be called, and whether PostgreSQL
        adds them by itself.
        """
        return [
            (str(function), self._names_above(target), implicit)
            for function, target, implicit in self.connection.rows(CASTS)
        ]

    def _names_above(self, target: int) -> set[str]:
        types = [target]
        for one in types:
            types += [oid for (oid,) in self.connection.rows(TYPES_ABOVE, {"type": one}) if oid not in types]
        names = {name for (name,) in self.connection.rows("SELECT typname FROM pg_type WHERE oid = ANY(%s)", [types])}
        return names.union(*(WORDS_OF_TYPES.get(name, ()) for name in names))

    def _why_unstable(self, oid: int, name: str, is_system: bool) -> str | None:
        """Why a function that isn't volatile may give another result in another statement."""
        if not is_system:
            settings = self.unstable.get(oid)
            return None if settings is None else WHY_SETTINGS if settings else WHY_ACTIVITY
        if re.fullmatch(SETTINGS, name):
            return WHY_SETTINGS
        return WHY_ACTIVITY if re.match(rf"({ACTIVITY})", name) and name != "statement_timestamp" else None

    @functools.cached_property
    def unstable(self) -> dict[int, bool]:
        """The users' own functions that depend on settings (True) or on what goes on (False)."""
        body = "coalesce(pg_get_function_sqlbody(oid), '')"
        since_14 = self.connection.connection.info.server_version >= 140000
        asked = UNSTABLE.format(body if since_14 else "''", SETTINGS, f"{SETTINGS}|{ACTIVITY}")
        return {oid: settings for oid, settings in self.connection.rows(asked)}

    def view_texts(self, names: set[str]) -> list[tuple[str, str, str]]:
        found = self.connection.rows(VIEWS, {"names": sorted(names)})
        return [(name, what, text) for name, what, text in found]

    def without_snapshot(self, names: set[str]) -> dict[str, str]:
        found = self.connection.rows(WITHOUT_SNAPSHOT, [sorted(names)])
        why = "whose rows may be others in each statement; make a table of it, and name that"
        return {name: f"it has rows of {wrapper}, {why}" for name, wrapper in found}

    def check(self, sql: str) -> None:
        self._explain(sql)

    def expected(self, sql: str) -> int | None:
        return int(self._explain(sql)["Plan Rows"])

    def _explain(self, sql: str) -> dict[str, Any]:
        with self._apart():
            answer = self.connection.value(f"EXPLAIN (FORMAT JSON) {sql}")
        told: dict[str, Any] = (answer if isinstance(answer, list) else json.loads(answer))[0]["Plan"]
        return told

    def same_when_equal(self, column: Column) -> bool:
        if column.kind is None or (_collation(column) and self._folds(column)):
            return False
        number = int(str(column.kind).split()[0])
        return number in SAME_WHEN_EQUAL or column.type.startswith(("numeric(", "character("))

    def can_export(self, column: Column) -> bool:
        return self.whole_numbers(column) or (self._is_text(column) and not self._folds(column))

    def whole_numbers(self, column: Column) -> bool:
        return column.type in ("smallint", "integer", "bigint")

    def _is_text(self, column: Column) -> bool:
        return column.type == "text" or column.type.startswith("character varying")

    def _folds(self, column: Column) -> bool:
        exact = f"SELECT collisdeterministic FROM pg_collation WHERE oid = {_collation(column)}"
        return not self.connection.value(exact)

    def plain_order(self, column: Column) -> bool:
        plain = f"SELECT FROM pg_collation WHERE oid = {_collation(column)} AND collname IN ('C', 'POSIX')"
        return bool(self.connection.rows(plain))


@contextlib.contextmanager
def as_faults() -> Iterator[None]:
    """Turns exceptions of psycopg into faults."""
    try:
        yield
    except psycopg.Error as error:
        of_data = isinstance(error, (psycopg.DataError, psycopg.errors.IndeterminateCollation))
        raise EngineFault(one_line(error), of_data) from None


def _collation(column: Column) -> int:
    """The number of a column's collation, which is the second word of its kind."""
    return int(str(column.kind).split()[1])


def open_engine(url: str, timeout: int | None) -> Engine:
    """Connects to a server. Refuses a server that reads texts or names differently from this package."""
    connection = PostgresConnection(url, timeout)
    try:
        _refuse_other_readings(connection)
        words = connection.rows("SELECT word FROM pg_get_keywords() WHERE catcode IN ('R', 'T')")
    except Fault:
        connection.close()
        raise

    @functools.lru_cache(None)
    def asked(name: str) -> str:
        return str(connection.value("SELECT (parse_ident(%s))[1]::name::text", [name]))

    dialect = replace(DIALECT, reserved=frozenset(word for (word,) in words), asked=asked)
    return Engine(dialect, PostgresCatalog(connection, dialect), connection)


def _refuse_other_readings(connection: PostgresConnection) -> None:
    if connection.value("SHOW standard_conforming_strings") != "on":
        raise EngineFault("standard_conforming_strings is off, so texts are read in another way than here")
    if connection.value("SHOW server_encoding") == "SQL_ASCII":
        raise Refused("the database's encoding is SQL_ASCII, in which texts are bytes of no known characters")
    before = connection.rows(BEFORE_CATALOG)
    if before:
        why = "has functions or operators that are found before PostgreSQL's own; set search_path with pg_catalog first"
        raise Refused(f"the schema {before[0][0]} {why}")
