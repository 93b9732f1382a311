-- complain if script is sourced in psql, rather than via CREATE EXTENSION
\echo Use "CREATE EXTENSION safebound" to load this file. \quit

-- The schema is a member of the extension, so DROP EXTENSION drops it. A schema that exists isn't taken: it may have others' objects.
CREATE SCHEMA safebound;

-- The statistics of tables: kept_table has a row for each kept table, and kept_lists a row for each pair of a joined column and a filter column.
-- Statistics contain values of the tables, so only the extension's owner may read them.
-- accuracy, common and ranges are the arguments of `keep`.
-- joined and filters are the numbers of the table's own columns that were counted as joined columns and as filter columns.
-- version is a new number each time the table is counted.
-- sources are the tables on which a statement may bring rows to this table; NULL if the table isn't watched.
-- referred has three numbers for each watched table to which this one refers: its oid, its version, and a number for
-- the state of its deltas, both as they were when this table was counted.
-- Deltas below first_delta are merged, or never came. merged_delta and merged_xid are the next delta's and transaction's numbers of the last merge.
CREATE SEQUENCE safebound.versions;
CREATE TABLE safebound.kept_table (
    relation regclass PRIMARY KEY,
    rows bigint NOT NULL,
    accuracy smallint NOT NULL,
    common smallint NOT NULL,
    ranges smallint NOT NULL,
    made timestamptz NOT NULL,
    version bigint NOT NULL DEFAULT nextval('safebound.versions'),
    sources oid[],
    joined smallint[],
    filters smallint[],
    referred bigint[],
    first_delta bigint NOT NULL DEFAULT 0,
    merged_delta bigint NOT NULL DEFAULT 0,
    merged_xid bigint NOT NULL DEFAULT 0
);
REVOKE ALL ON safebound.kept_table FROM PUBLIC;

-- A row has the degree lists of one joined column by the values of one filter column. Columns are given by their numbers.
-- If joined is 0, the row has only the number of rows of each value of the filter column. If filter is 0, it has only the list of all rows.
-- If along is 0, the filter column belongs to the table itself. Otherwise it belongs to the table `referred`. The column `along` is then a
-- foreign key to the column `key` of that table.
CREATE TABLE safebound.kept_lists (
    relation regclass NOT NULL,
    joined smallint NOT NULL,
    filter smallint NOT NULL,
    along smallint NOT NULL,
    referred oid NOT NULL,
    key smallint NOT NULL,
    joined_type regtype NOT NULL,
    filter_type regtype NOT NULL,
    joined_collation oid NOT NULL,
    filter_collation oid NOT NULL,
    lists bytea NOT NULL,
    PRIMARY KEY (relation, joined, filter, along, referred, key)
);
REVOKE ALL ON safebound.kept_lists FROM PUBLIC;

-- Deltas: the rows that came after a table was counted, one delta for each statement. If rows is -1, some rows came without being counted.
CREATE TABLE safebound.kept_delta (
    relation oid NOT NULL,
    id bigint NOT NULL,
    rows bigint NOT NULL,
    lists bytea NOT NULL,
    PRIMARY KEY (relation, id)
);
REVOKE ALL ON safebound.kept_delta FROM PUBLIC;

-- The sources of watched tables again, to find by an index the tables that a statement on `source` may write to.
CREATE TABLE safebound.kept_source (
    source oid NOT NULL,
    relation oid NOT NULL,
    PRIMARY KEY (source, relation)
);
REVOKE ALL ON safebound.kept_source FROM PUBLIC;

CREATE FUNCTION safebound.keep(relation regclass, columns name[] DEFAULT NULL, filters name[] DEFAULT NULL,
                     common integer DEFAULT 100, ranges integer DEFAULT 64, accuracy integer DEFAULT 8) RETURNS bigint
AS 'MODULE_PATHNAME', 'safebound_keep' LANGUAGE C VOLATILE CALLED ON NULL INPUT;
COMMENT ON FUNCTION safebound.keep(regclass, name[], name[], integer, integer, integer)
IS 'makes the statistics of a table anew, and answers how many lists they are';

CREATE FUNCTION safebound.forget(relation regclass) RETURNS boolean
AS 'MODULE_PATHNAME', 'safebound_forget' LANGUAGE C VOLATILE STRICT;
COMMENT ON FUNCTION safebound.forget(regclass) IS 'takes the statistics of a table away; false where there are none';

CREATE VIEW safebound.kept AS
    SELECT t.relation AS "table",
           ARRAY(SELECT a.attname FROM pg_catalog.pg_attribute a
                 WHERE a.attrelid = t.relation AND a.attnum IN (SELECT l.joined FROM safebound.kept_lists l WHERE l.relation = t.relation)
                 ORDER BY a.attnum) AS columns,
           t.rows,
           (SELECT sum(pg_catalog.pg_column_size(l.lists))::bigint FROM safebound.kept_lists l WHERE l.relation = t.relation) AS bytes,
           pg_catalog.now() - t.made AS age,
           t.sources IS NOT NULL AS watched,
           (SELECT count(*) FROM safebound.kept_delta d WHERE d.relation = t.relation) AS deltas,
           NOT EXISTS (SELECT FROM safebound.kept_delta d WHERE d.relation = t.relation AND d.rows < 0) AS known
    FROM safebound.kept_table t;

CREATE FUNCTION safebound.bounds(query text) RETURNS TABLE (relations text[], bound bigint, estimate bigint, statistics text[])
AS 'MODULE_PATHNAME', 'safebound_bounds_of' LANGUAGE C VOLATILE STRICT;
COMMENT ON FUNCTION safebound.bounds(text)
IS 'the joins of a query''s plan: their relations, bounds, PostgreSQL''s estimates, and the columns whose statistics were used';

CREATE FUNCTION safebound.watch(relation regclass) RETURNS bigint
AS 'MODULE_PATHNAME', 'safebound_watch' LANGUAGE C VOLATILE STRICT;
COMMENT ON FUNCTION safebound.watch(regclass) IS 'makes the statistics of a table anew, and follows the rows that come from now on';

CREATE FUNCTION safebound.unwatch(relation regclass) RETURNS boolean
AS 'MODULE_PATHNAME', 'safebound_unwatch' LANGUAGE C VOLATILE STRICT;
COMMENT ON FUNCTION safebound.unwatch(regclass) IS 'follows a table no more; false where nobody did';

CREATE FUNCTION safebound.fold(relation regclass) RETURNS bigint
AS 'MODULE_PATHNAME', 'safebound_fold' LANGUAGE C VOLATILE STRICT;
COMMENT ON FUNCTION safebound.fold(regclass) IS 'counts a table anew, with the rows that came';

CREATE FUNCTION safebound.follow() RETURNS trigger AS 'MODULE_PATHNAME', 'safebound_follow' LANGUAGE C;
CREATE FUNCTION safebound.on_change() RETURNS event_trigger AS 'MODULE_PATHNAME', 'safebound_on_change' LANGUAGE C;
-- Only the extension calls these two, and PostgreSQL asks for no right then.
REVOKE EXECUTE ON FUNCTION safebound.follow(), safebound.on_change() FROM PUBLIC;
CREATE EVENT TRIGGER safebound_change ON ddl_command_end EXECUTE FUNCTION safebound.on_change();
CREATE EVENT TRIGGER safebound_drop ON sql_drop EXECUTE FUNCTION safebound.on_change();
CREATE EVENT TRIGGER safebound_rewrite ON table_rewrite EXECUTE FUNCTION safebound.on_change();
ALTER EVENT TRIGGER safebound_change ENABLE ALWAYS;
ALTER EVENT TRIGGER safebound_drop ENABLE ALWAYS;
ALTER EVENT TRIGGER safebound_rewrite ENABLE ALWAYS;

-- What a value of safebound.budget means; 0 is no budget.
CREATE FUNCTION safebound.budget_of(setting text) RETURNS integer
AS 'MODULE_PATHNAME', 'safebound_budget_of' LANGUAGE C STABLE STRICT;
-- Whether a list of libraries has this extension's.
CREATE FUNCTION safebound.loads(libraries text) RETURNS boolean
AS 'MODULE_PATHNAME', 'safebound_loads' LANGUAGE C STABLE STRICT;
-- A setting as the server has it for all sessions; NULL if the asking session has another one from its role or database.
CREATE FUNCTION safebound.server_setting(name text) RETURNS text
AS 'MODULE_PATHNAME', 'safebound_server_setting' LANGUAGE C STABLE STRICT;
REVOKE ALL ON FUNCTION safebound.server_setting(text) FROM PUBLIC;

-- For each role that may log in, and each database to which it may connect: its budget, whether the library is loaded where a session begins,
-- and whether the budget therefore binds. A setting for a role in a database comes before one for the role, then one for the database, then
-- one for all, then the server's.
CREATE VIEW safebound.admission AS
    WITH said AS (
        SELECT s.setrole AS role, s.setdatabase AS database, pg_catalog.lower(pg_catalog.split_part(e, '=', 1)) AS name,
               pg_catalog.substr(e, pg_catalog.strpos(e, '=') + 1) AS value
        FROM pg_catalog.pg_db_role_setting s, pg_catalog.unnest(s.setconfig) e
    ), server AS (
        SELECT n AS name, coalesce(safebound.server_setting(n), (
                   SELECT f.setting FROM pg_catalog.pg_file_settings f
                   WHERE f.name OPERATOR(pg_catalog.=) n AND f.error IS NULL ORDER BY f.seqno DESC LIMIT 1), '') AS value
        FROM pg_catalog.unnest('{safebound.budget,session_preload_libraries,shared_preload_libraries}'::text[]) n
    ), session AS (
        SELECT r.rolname AS role, d.datname AS database, n.name, coalesce((
                   SELECT said.value FROM said
                   WHERE said.name = n.name AND said.role IN (0, r.oid) AND said.database IN (0, d.oid)
                   ORDER BY said.role DESC, said.database DESC LIMIT 1), n.value) AS value
        FROM pg_catalog.pg_roles r, pg_catalog.pg_database d, server n
        WHERE r.rolcanlogin AND d.datallowconn AND pg_catalog.has_database_privilege(r.oid, d.oid, 'CONNECT')
    ), whole AS (
        SELECT s.role, s.database, max(safebound.budget_of(s.value)) FILTER (WHERE s.name = 'safebound.budget') AS budget,
               pg_catalog.bool_or(safebound.loads(s.value)) FILTER (WHERE s.name <> 'safebound.budget') AS loaded
        FROM session s GROUP BY s.role, s.database
    )
    SELECT w.role, w.database, w.budget, w.loaded, w.budget > 0 AND w.loaded AS binds FROM whole w;
REVOKE ALL ON safebound.admission FROM PUBLIC;
