-- complain if script is sourced in psql, rather than via CREATE EXTENSION
\echo Use "CREATE EXTENSION safebound" to load this file. \quit

-- The statistics of tables: kept_table has a row for each kept table, and kept_lists a row for each pair of a joined column and a filter column.
-- Statistics contain values of the tables, so only the extension's owner may read them.
-- accuracy, common and ranges are the arguments of `keep`.
-- joined and filters are the numbers of the table's own columns that were counted as joined columns and as filter columns.
-- version is a new number each time the table is counted.
-- sources are the tables on which a statement may bring rows to this table; NULL if the table isn't watched.
-- referred has three numbers for each watched table to which this one refers: its oid, its version, and its number of deltas, both as they
-- were when this table was counted.
CREATE SEQUENCE versions;
CREATE TABLE kept_table (
    relation regclass PRIMARY KEY,
    rows bigint NOT NULL,
    accuracy smallint NOT NULL,
    common smallint NOT NULL,
    ranges smallint NOT NULL,
    made timestamptz NOT NULL,
    version bigint NOT NULL DEFAULT nextval('versions'),
    sources oid[],
    joined smallint[],
    filters smallint[],
    referred bigint[]
);
REVOKE ALL ON kept_table FROM PUBLIC;

-- A row has the degree lists of one joined column by the values of one filter column. Columns are given by their numbers.
-- If joined is 0, the row has only the number of rows of each value of the filter column. If filter is 0, it has only the list of all rows.
-- If along is 0, the filter column belongs to the table itself. Otherwise it belongs to the table `referred`. The column `along` is then a
-- foreign key to the column `key` of that table.
CREATE TABLE kept_lists (
    relation regclass NOT NULL,
    joined smallint NOT NULL,
    filter smallint NOT NULL,
    along smallint NOT NULL,
    referred oid NOT NULL,
    key smallint NOT NULL,
    joined_type regtype NOT NULL,
    filter_type regtype NOT NULL,
    joined_collation oid NOT NULL,
    filter_collation oid NOT NULL,
    lists bytea NOT NULL,
    PRIMARY KEY (relation, joined, filter, along, referred, key)
);
REVOKE ALL ON kept_lists FROM PUBLIC;

-- Deltas: the rows that came after a table was counted, one delta for each statement. If rows is -1, some rows came without being counted.
CREATE TABLE kept_delta (
    relation oid NOT NULL,
    id bigint NOT NULL,
    rows bigint NOT NULL,
    lists bytea NOT NULL,
    PRIMARY KEY (relation, id)
);
REVOKE ALL ON kept_delta FROM PUBLIC;

CREATE FUNCTION keep(relation regclass, columns name[] DEFAULT NULL, filters name[] DEFAULT NULL,
                     common integer DEFAULT 100, ranges integer DEFAULT 64, accuracy integer DEFAULT 8) RETURNS bigint
AS 'MODULE_PATHNAME', 'safebound_keep' LANGUAGE C VOLATILE CALLED ON NULL INPUT;
COMMENT ON FUNCTION keep(regclass, name[], name[], integer, integer, integer)
IS 'makes the statistics of a table anew, and answers how many lists they are';

CREATE FUNCTION forget(relation regclass) RETURNS boolean
AS 'MODULE_PATHNAME', 'safebound_forget' LANGUAGE C VOLATILE STRICT;
COMMENT ON FUNCTION forget(regclass) IS 'takes the statistics of a table away; false where there are none';

CREATE VIEW kept AS
    SELECT t.relation AS "table",
           ARRAY(SELECT a.attname FROM pg_catalog.pg_attribute a
                 WHERE a.attrelid = t.relation AND a.attnum IN (SELECT l.joined FROM @extschema@.kept_lists l WHERE l.relation = t.relation)
                 ORDER BY a.attnum) AS columns,
           t.rows,
           (SELECT sum(pg_catalog.pg_column_size(l.lists))::bigint FROM @extschema@.kept_lists l WHERE l.relation = t.relation) AS bytes,
           pg_catalog.now() - t.made AS age,
           t.sources IS NOT NULL AS watched,
           (SELECT count(*) FROM @extschema@.kept_delta d WHERE d.relation = t.relation) AS deltas,
           NOT EXISTS (SELECT FROM @extschema@.kept_delta d WHERE d.relation = t.relation AND d.rows < 0) AS known
    FROM @extschema@.kept_table t;

CREATE FUNCTION bounds(query text) RETURNS TABLE (relations text[], bound bigint, estimate bigint, statistics text[])
AS 'MODULE_PATHNAME', 'safebound_bounds_of' LANGUAGE C VOLATILE STRICT;
COMMENT ON FUNCTION bounds(text)
IS 'the joins of a query''s plan: their relations, bounds, PostgreSQL''s estimates, and the columns whose statistics were used';

CREATE FUNCTION watch(relation regclass) RETURNS bigint
AS 'MODULE_PATHNAME', 'safebound_watch' LANGUAGE C VOLATILE STRICT;
COMMENT ON FUNCTION watch(regclass) IS 'makes the statistics of a table anew, and follows the rows that come from now on';

CREATE FUNCTION unwatch(relation regclass) RETURNS boolean
AS 'MODULE_PATHNAME', 'safebound_unwatch' LANGUAGE C VOLATILE STRICT;
COMMENT ON FUNCTION unwatch(regclass) IS 'follows a table no more; false where nobody did';

CREATE FUNCTION fold(relation regclass) RETURNS bigint
AS 'MODULE_PATHNAME', 'safebound_fold' LANGUAGE C VOLATILE STRICT;
COMMENT ON FUNCTION fold(regclass) IS 'counts a table anew, with the rows that came';

CREATE FUNCTION follow() RETURNS trigger AS 'MODULE_PATHNAME', 'safebound_follow' LANGUAGE C;
CREATE FUNCTION on_change() RETURNS event_trigger AS 'MODULE_PATHNAME', 'safebound_on_change' LANGUAGE C;
CREATE EVENT TRIGGER safebound_change ON ddl_command_end EXECUTE FUNCTION on_change();
CREATE EVENT TRIGGER safebound_drop ON sql_drop EXECUTE FUNCTION on_change();
CREATE EVENT TRIGGER safebound_rewrite ON table_rewrite EXECUTE FUNCTION on_change();
ALTER EVENT TRIGGER safebound_change ENABLE ALWAYS;
ALTER EVENT TRIGGER safebound_drop ENABLE ALWAYS;
ALTER EVENT TRIGGER safebound_rewrite ENABLE ALWAYS;
