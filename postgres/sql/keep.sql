CREATE EXTENSION safebound;
CREATE TABLE r (x integer, c text);
INSERT INTO r VALUES (8, 'a'), (8, 'a'), (8, 'a'), (8, 'b'), (8, 'b'), (2, 'a'), (2, NULL), (2, 'a'), (5, 'b'), (NULL, 'b');
SELECT safebound.keep('r') > 0 AS made;
SELECT "table", columns, rows, bytes > 0 AS bytes FROM safebound.kept;
SELECT safebound.keep('r', '{y}');
SELECT safebound.keep('r', accuracy => 65);
SELECT safebound.forget('r'), safebound.forget('r');
SELECT count(*) FROM safebound.kept;
DROP TABLE r;
-- Numbers that don't fit into the memory are sorted by PostgreSQL, and the lists are the same.
CREATE TABLE wide AS SELECT i % 40000 AS x, i * 7 % 1009 AS c, CASE WHEN i % 50 > 0 THEN i % 300 END AS n FROM generate_series(1, 50000) i;
SELECT safebound.keep('wide') > 0 AS wide;
CREATE TEMP TABLE in_memory AS SELECT * FROM safebound.kept_lists;
SET maintenance_work_mem = '1MB';
SELECT safebound.keep('wide') > 0 AS spilled;
RESET maintenance_work_mem;
SELECT count(*), bool_and(l.lists = m.lists) AS same FROM safebound.kept_lists l FULL JOIN in_memory m USING (relation, joined, filter, along);
DROP TABLE wide, in_memory;
-- Without names, the columns in a key, a foreign key or an index are joined columns, or all if there are none. All columns are filter columns.
CREATE TABLE d (k integer PRIMARY KEY, c text, i integer, e integer, UNIQUE (i, e));
CREATE TABLE f (k integer REFERENCES d, c text, n integer);
CREATE INDEX ON f (lower(c));
CREATE TABLE g (x integer, c text, p point);
SELECT safebound.keep('d') > 0 AS d, safebound.keep('f') > 0 AS f, safebound.keep('g') > 0 AS g;
SELECT "table", columns FROM safebound.kept ORDER BY "table"::text;
SELECT relation::regclass, array_agg(filter ORDER BY filter) AS filters FROM safebound.kept_lists WHERE joined = 0 AND filter > 0 AND along = 0
    GROUP BY relation ORDER BY relation::regclass::text;
-- A table of many columns without a key has too many pairs of columns, until some are named.
SELECT format('CREATE TABLE wide (%s)', string_agg(format('c%s integer', i), ', ')) AS make FROM generate_series(1, 100) i \gset
:make;
SELECT safebound.keep('wide');
SELECT safebound.keep('wide', '{c1,c2}') > 0 AS named;
DROP TABLE f, d, g, wide;
-- A value of more than 2 KB isn't stored. It counts as one that isn't common. A column whose greatest value is long has no ranges.
CREATE TABLE long (x integer, c text COLLATE "C");
INSERT INTO long SELECT i, CASE WHEN i % 2 = 0 THEN repeat('m', 3000) ELSE 'z' END FROM generate_series(1, 100) i;
INSERT INTO long VALUES (1, 'a'), (1, 'b'), (1, 'c');
INSERT INTO long SELECT 1, 'd' FROM generate_series(1, 31);
SELECT safebound.keep('long', common => 2, ranges => 4) > 0 AS long;
SELECT max(octet_length(lists)) < 1000 AS short FROM safebound.kept_lists;
CREATE FUNCTION rows_of(query text) RETURNS integer LANGUAGE plpgsql SET safebound.estimates = bound AS $$
DECLARE told json;
BEGIN
    EXECUTE 'EXPLAIN (FORMAT JSON) ' || query INTO told;
    RETURN told->0->'Plan'->>'Plan Rows';
END $$;
SELECT rows_of('SELECT FROM long WHERE c = ''z''') AS z, rows_of('SELECT FROM long WHERE c = repeat(''m'', 3000)') AS m,
       rows_of('SELECT FROM long WHERE c <= ''d''') AS range;
INSERT INTO long VALUES (1, repeat('zz', 3000));
SELECT safebound.keep('long', common => 2, ranges => 4) > 0 AS long;
SELECT rows_of('SELECT FROM long WHERE c = ''z''') AS z, rows_of('SELECT FROM long WHERE c <= ''d''') AS "no ranges";
DROP TABLE long;
DROP FUNCTION rows_of;
