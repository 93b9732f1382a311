-- complain if script is sourced in psql, rather than via ALTER EXTENSION
\echo Use "ALTER EXTENSION safebound UPDATE" to load this file. \quit

-- From 0.1. Statistics stay. Tables that were watched are unknown until they are watched again, since the new library didn't count the rows
-- that came before this update:  SELECT safebound.watch("table") FROM safebound.kept WHERE NOT known
LOCK TABLE safebound.kept_table, safebound.kept_delta IN EXCLUSIVE MODE;
INSERT INTO safebound.kept_delta (relation, id, rows, lists)
    SELECT t.relation, pg_catalog.nextval('safebound.versions'), -1, '' FROM safebound.kept_table t WHERE t.sources IS NOT NULL;

ALTER TABLE safebound.kept_table ADD first_delta bigint NOT NULL DEFAULT 0, ADD merged_delta bigint NOT NULL DEFAULT 0,
    ADD merged_xid bigint NOT NULL DEFAULT 0;
UPDATE safebound.kept_table SET referred = '{}';

-- The triggers of tables that are watched are internal from now on: watch makes them.
DO $$
DECLARE of record;
BEGIN
    FOR of IN SELECT t.tgname, t.tgrelid FROM pg_catalog.pg_trigger t
              WHERE t.tgfoid = 'safebound.follow'::pg_catalog.regproc AND t.tgname LIKE 'safebound\_%' LOOP
        EXECUTE pg_catalog.format('DROP TRIGGER %I ON %s', of.tgname, of.tgrelid::pg_catalog.regclass);
    END LOOP;
END $$;

-- The sources of watched tables again, to find by an index the tables that a statement on `source` may write to.
CREATE TABLE safebound.kept_source (
    source oid NOT NULL,
    relation oid NOT NULL,
    PRIMARY KEY (source, relation)
);
REVOKE ALL ON safebound.kept_source FROM PUBLIC;
INSERT INTO safebound.kept_source (source, relation)
    SELECT s, t.relation FROM safebound.kept_table t, pg_catalog.unnest(t.sources) s;

-- Only the extension calls these two, and PostgreSQL asks for no right then.
REVOKE EXECUTE ON FUNCTION safebound.follow(), safebound.on_change() FROM PUBLIC;

-- The schema belongs to the extension from now on, and no more the extension to the schema.
DO $$
BEGIN
    IF (SELECT n.nspowner <> e.extowner FROM pg_catalog.pg_namespace n, pg_catalog.pg_extension e
        WHERE n.nspname = 'safebound' AND e.extname = 'safebound') THEN
        RAISE EXCEPTION 'the schema safebound has another owner than the extension';
    END IF;
    UPDATE pg_catalog.pg_depend d SET refobjid = 'pg_catalog'::regnamespace
    WHERE d.classid = 'pg_catalog.pg_extension'::regclass AND d.refclassid = 'pg_catalog.pg_namespace'::regclass
      AND d.objid = (SELECT e.oid FROM pg_catalog.pg_extension e WHERE e.extname = 'safebound');
    UPDATE pg_catalog.pg_extension SET extnamespace = 'pg_catalog'::regnamespace WHERE extname = 'safebound';
END $$;
ALTER EXTENSION safebound ADD SCHEMA safebound;

-- What a value of safebound.budget means; 0 is no budget.
CREATE FUNCTION safebound.budget_of(setting text) RETURNS integer
AS 'MODULE_PATHNAME', 'safebound_budget_of' LANGUAGE C STABLE STRICT;
-- Whether a list of libraries has this extension's.
CREATE FUNCTION safebound.loads(libraries text) RETURNS boolean
AS 'MODULE_PATHNAME', 'safebound_loads' LANGUAGE C STABLE STRICT;
-- A setting as the server has it for all sessions; NULL if the asking session has another one from its role or database.
CREATE FUNCTION safebound.server_setting(name text) RETURNS text
AS 'MODULE_PATHNAME', 'safebound_server_setting' LANGUAGE C STABLE STRICT;
REVOKE ALL ON FUNCTION safebound.server_setting(text) FROM PUBLIC;

-- For each role that may log in, and each database to which it may connect: its budget, whether the library is loaded where a session begins,
-- and whether the budget therefore binds. A setting for a role in a database comes before one for the role, then one for the database, then
-- one for all, then the server's.
CREATE VIEW safebound.admission AS
    WITH said AS (
        SELECT s.setrole AS role, s.setdatabase AS database, pg_catalog.lower(pg_catalog.split_part(e, '=', 1)) AS name,
               pg_catalog.substr(e, pg_catalog.strpos(e, '=') + 1) AS value
        FROM pg_catalog.pg_db_role_setting s, pg_catalog.unnest(s.setconfig) e
    ), server AS (
        SELECT n AS name, coalesce(safebound.server_setting(n), (
                   SELECT f.setting FROM pg_catalog.pg_file_settings f
                   WHERE f.name OPERATOR(pg_catalog.=) n AND f.error IS NULL ORDER BY f.seqno DESC LIMIT 1), '') AS value
        FROM pg_catalog.unnest('{safebound.budget,session_preload_libraries,shared_preload_libraries}'::text[]) n
    ), session AS (
        SELECT r.rolname AS role, d.datname AS database, n.name, coalesce((
                   SELECT said.value FROM said
                   WHERE said.name = n.name AND said.role IN (0, r.oid) AND said.database IN (0, d.oid)
                   ORDER BY said.role DESC, said.database DESC LIMIT 1), n.value) AS value
        FROM pg_catalog.pg_roles r, pg_catalog.pg_database d, server n
        WHERE r.rolcanlogin AND d.datallowconn AND pg_catalog.has_database_privilege(r.oid, d.oid, 'CONNECT')
    ), whole AS (
        SELECT s.role, s.database, max(safebound.budget_of(s.value)) FILTER (WHERE s.name = 'safebound.budget') AS budget,
               pg_catalog.bool_or(safebound.loads(s.value)) FILTER (WHERE s.name <> 'safebound.budget') AS loaded
        FROM session s GROUP BY s.role, s.database
    )
    SELECT w.role, w.database, w.budget, w.loaded, w.budget > 0 AND w.loaded AS binds FROM whole w;
REVOKE ALL ON safebound.admission FROM PUBLIC;
