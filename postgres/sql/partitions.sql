-- Partitioned tables as a whole: `most` says how many rows the bound allows, `known` whether the table is known.
CREATE FUNCTION most(query text) RETURNS integer LANGUAGE plpgsql SET safebound.estimates = bound AS $$
DECLARE told json;
BEGIN
    EXECUTE 'EXPLAIN (FORMAT JSON) ' || query INTO told;
    RETURN told->0->'Plan'->>'Plan Rows';
END $$;
CREATE FUNCTION known(of regclass) RETURNS boolean LANGUAGE sql AS $$ SELECT k.known AND k.watched FROM safebound.kept k WHERE k."table" = of $$;
CREATE FUNCTION deltas(of regclass) RETURNS bigint LANGUAGE sql AS $$ SELECT k.deltas FROM safebound.kept k WHERE k."table" = of $$;
CREATE FUNCTION triggers(of regclass) RETURNS bigint LANGUAGE sql AS $$ SELECT count(*) FROM pg_trigger WHERE tgrelid = of AND tgname LIKE 'safebound%' $$;
-- Parts with their columns in another order, with a column that was dropped, and with parts of their own.
CREATE TABLE parts (x integer, c text, k integer) PARTITION BY LIST (k);
CREATE TABLE part_1 PARTITION OF parts FOR VALUES IN (1);
CREATE TABLE part_2 (k integer, gone text, c text, x integer);
ALTER TABLE part_2 DROP COLUMN gone;
ALTER TABLE parts ATTACH PARTITION part_2 FOR VALUES IN (2);
CREATE TABLE part_3 PARTITION OF parts FOR VALUES IN (3, 4) PARTITION BY LIST (k);
CREATE TABLE part_3a PARTITION OF part_3 FOR VALUES IN (3);
CREATE TABLE part_3b PARTITION OF part_3 FOR VALUES IN (4);
-- The values of x occur 4 times (in three parts), 2 times and once; NULL occurs once. 'a' is in 5 of 8 rows.
INSERT INTO parts VALUES (8, 'a', 1), (8, 'a', 2), (8, 'b', 2), (8, 'a', 3), (2, 'a', 4), (2, 'b', 4), (NULL, 'b', 1), (5, 'a', 1);
CREATE TABLE s (x integer);
INSERT INTO s VALUES (8), (8), (8), (2), (5), (1);
SELECT safebound.keep('parts', accuracy => 64) > 0 AS parts, safebound.keep('s', accuracy => 64) > 0 AS s;
SELECT rows, columns, watched FROM safebound.kept WHERE "table" = 'parts'::regclass;
SELECT most('SELECT FROM parts') = 8 AS whole, most('SELECT FROM parts WHERE c = ''a''') = 5 AS a, most('SELECT FROM parts WHERE x IS NULL') = 1 AS none,
       most('SELECT FROM parts JOIN s USING (x)') = 4 * 3 + 2 * 1 + 1 * 1 AS joined, most('SELECT FROM parts WHERE k = 2') = 2 AS one_part,
       most('SELECT FROM parts JOIN s USING (x) WHERE k = 4') = 2 * 3 AS one_part_joined, most('SELECT FROM parts WHERE k > 2') = 3 AS parts_of_its_own,
       most('SELECT FROM parts p LEFT JOIN s USING (x)') = 15 + 8 AS left_join, most('SELECT FROM parts p JOIN parts q USING (x)') = 4 * 4 + 2 * 2 + 1 AS self;
SELECT count(*) FROM parts JOIN s USING (x);
-- A part that a query names has statistics of its own, or none.
SELECT relations, statistics FROM safebound.bounds('SELECT FROM part_2 JOIN s USING (x)');
SELECT relations, bound, statistics FROM safebound.bounds('SELECT FROM parts JOIN s USING (x) WHERE k = 4');
-- An index scan for each row of another table: the plan has no fewer rows than the join.
CREATE INDEX ON parts (x);
SET enable_hashjoin = off; SET enable_mergejoin = off; SET enable_seqscan = off;
SELECT most('SELECT FROM parts JOIN s USING (x)') = 15 AS indexed;
RESET enable_hashjoin; RESET enable_mergejoin; RESET enable_seqscan;

-- Rows that come through the whole, through a part, through a part of a part, and from one part to another.
SELECT safebound.watch('parts') > 0 AS parts, safebound.watch('s') > 0 AS s, known('parts');
SELECT triggers('parts') AS parts, triggers('part_1') AS part_1, triggers('part_3') AS part_3, triggers('part_3a') AS part_3a;
INSERT INTO parts VALUES (8, 'a', 1), (9, 'a', 4);
SELECT most('SELECT FROM parts') = 10 AS whole, most('SELECT FROM parts JOIN s USING (x)') = 5 * 3 + 3 * 1 + 1 * 1 AS joined, deltas('parts');
INSERT INTO part_2 (x, c, k) VALUES (7, 'a', 2), (7, 'a', 2);
SELECT most('SELECT FROM parts') = 12 AS by_part, most('SELECT FROM parts JOIN s USING (x)') = 7 * 3 + 3 * 1 + 1 * 1 AS joined, deltas('parts');
BEGIN;
INSERT INTO part_2 (x, c, k) VALUES (10, 'a', 2), (11, 'a', 2);
SELECT most('SELECT FROM parts JOIN s USING (x)') = 8 * 3 + 4 * 1 + 1 * 1 AS joined;
ROLLBACK;
INSERT INTO part_3 VALUES (7, 'a', 3);
COPY part_3b (x, c, k) FROM stdin;
6	a	4
\.
SELECT most('SELECT FROM parts') = 14 AS by_parts_of_its_own, deltas('parts');
SELECT safebound.fold('parts') > 0 AS folded, deltas('parts');
UPDATE parts SET c = c;
UPDATE part_2 SET c = c;
SELECT deltas('parts') AS "nothing changed";
UPDATE parts SET k = 2 WHERE k = 1;
SELECT most('SELECT FROM parts') = 14 + 4 AS moved, (SELECT count(*) FROM part_1) AS left;
UPDATE part_2 SET c = 'z' WHERE x = 7;
SELECT most('SELECT FROM parts') = 14 + 4 + 2 AS changed;
MERGE INTO parts USING (VALUES (4)) AS n (k) ON parts.k = n.k WHEN MATCHED THEN UPDATE SET x = 100;
SELECT most('SELECT FROM parts') = 14 + 4 + 2 + 4 AS merged, (SELECT count(*) FROM parts WHERE x = 100);
DELETE FROM part_2;
TRUNCATE part_3a;
SELECT safebound.fold('parts') > 0 AS folded, most('SELECT FROM parts') = (SELECT count(*) FROM parts) AS exact;
SET safebound.budget = 1;
\set VERBOSITY terse
SELECT count(*) FROM parts JOIN s USING (x);
SET safebound.budget = 1000;
SELECT count(*) FROM parts JOIN s USING (x);
-- Queries within a statement on a part.
CREATE FUNCTION asks() RETURNS trigger LANGUAGE plpgsql AS $$ BEGIN PERFORM count(*) FROM parts JOIN s USING (x); RETURN NEW; END $$;
CREATE TRIGGER asks AFTER INSERT ON part_2 FOR EACH ROW EXECUTE FUNCTION asks();
\set SHOW_CONTEXT never
INSERT INTO part_2 (x, k) VALUES (1, 2);
INSERT INTO part_1 (x, k) VALUES (1, 1);
DROP TRIGGER asks ON part_2;
RESET safebound.budget;

-- If a part comes or goes, the whole is unknown until it is watched anew.
CREATE TABLE part_5 PARTITION OF parts FOR VALUES IN (5);
SELECT known('parts'), safebound.watch('parts') > 0 AS watched, known('parts'), triggers('part_5') AS part_5;
DROP TABLE part_5;
SELECT known('parts'), safebound.watch('parts') > 0 AS watched, known('parts');
ALTER TABLE parts DETACH PARTITION part_2;
SELECT known('parts'), safebound.watch('parts') > 0 AS watched, known('parts');
INSERT INTO part_2 (x, c, k) SELECT 1, 'late', 2 FROM generate_series(1, 50);
SELECT deltas('parts') AS "of a part that is gone";
ALTER TABLE parts ATTACH PARTITION part_2 FOR VALUES IN (2);
SET safebound.budget = 1000000;
SELECT count(*) FROM parts JOIN s USING (x);
RESET safebound.budget;
SELECT known('parts'), safebound.watch('parts') > 0 AS watched, known('parts'), most('SELECT FROM parts') = (SELECT count(*) FROM parts) AS exact;
-- The same for a part of a part.
ALTER TABLE part_3 DETACH PARTITION part_3b;
SELECT known('parts'), safebound.watch('parts') > 0 AS watched, known('parts');
ALTER TABLE part_3 ATTACH PARTITION part_3b FOR VALUES IN (4);
SELECT known('parts'), safebound.watch('parts') > 0 AS watched, known('parts');
-- The same if a trigger of a part is dropped, or if ALTER TABLE on the whole writes rows anew.
SELECT tgname AS ours FROM pg_trigger WHERE tgrelid = 'part_3a'::regclass AND tgname LIKE 'safebound_insert%' \gset
DROP TRIGGER :"ours" ON part_3a;
SELECT known('parts'), safebound.watch('parts') > 0 AS watched, known('parts');
SELECT tgname AS ours FROM pg_trigger WHERE tgrelid = 'part_3a'::regclass AND tgname LIKE 'safebound_applied%' \gset
DROP TRIGGER :"ours" ON part_3a;
SELECT known('parts'), safebound.watch('parts') > 0 AS watched, known('parts');
ALTER TABLE parts ALTER x TYPE bigint USING x % 2;
SELECT known('parts'), safebound.watch('parts') > 0 AS watched, known('parts');
-- The whole and a part are watched at the same time, and then one of them no longer.
SELECT safebound.watch('part_3') > 0 AS part_3, safebound.watch('part_3a') > 0 AS part_3a, known('parts');
INSERT INTO part_3a VALUES (1, 'n', 3);
SELECT deltas('parts') AS parts, deltas('part_3') AS part_3, deltas('part_3a') AS part_3a;
SELECT safebound.unwatch('parts'), triggers('part_1') AS part_1, triggers('part_3') AS part_3, triggers('part_3a') AS part_3a, triggers('part_3b') AS part_3b;
SELECT known('part_3'), known('part_3a'), safebound.unwatch('part_3'), triggers('part_3a') AS part_3a, triggers('part_3b') AS part_3b, known('part_3a');
-- A part that is a foreign table isn't followed.
CREATE FOREIGN DATA WRAPPER nothing;
CREATE SERVER nowhere FOREIGN DATA WRAPPER nothing;
CREATE FOREIGN TABLE part_6 PARTITION OF parts FOR VALUES IN (6) SERVER nowhere;
SELECT safebound.keep('parts');
SELECT safebound.watch('parts');
DROP FOREIGN DATA WRAPPER nothing CASCADE;
-- Lists along a foreign key: of 60 rows two refer to rare kinds.
CREATE TABLE kinds (id integer PRIMARY KEY, kind text);
INSERT INTO kinds VALUES (1, 'rare'), (2, 'usual'), (3, 'usual');
CREATE TABLE things (kind integer REFERENCES kinds, k integer) PARTITION BY HASH (k);
CREATE TABLE things_0 PARTITION OF things FOR VALUES WITH (MODULUS 2, REMAINDER 0);
CREATE TABLE things_1 PARTITION OF things FOR VALUES WITH (MODULUS 2, REMAINDER 1);
INSERT INTO things SELECT CASE WHEN i IN (7, 8) THEN 1 ELSE 2 + i % 2 END, i FROM generate_series(1, 60) AS i;
SELECT safebound.watch('kinds') > 0 AS kinds, safebound.watch('things') > 0 AS things;
SELECT most('SELECT FROM things t JOIN kinds ON t.kind = id WHERE kinds.kind = ''rare''') = 2 AS rare;
DROP TABLE things, kinds;
-- The counted number of distinct values is used, though ANALYZE has a lower one for the whole.
CREATE TABLE many (k integer, x integer) PARTITION BY HASH (k);
CREATE TABLE many_0 PARTITION OF many FOR VALUES WITH (MODULUS 2, REMAINDER 0);
CREATE TABLE many_1 PARTITION OF many FOR VALUES WITH (MODULUS 2, REMAINDER 1);
INSERT INTO many SELECT i, i FROM generate_series(1, 1000) AS i;
ALTER TABLE many ALTER x SET (n_distinct_inherited = 10);
ANALYZE many;
SELECT safebound.keep('many') > 0 AS many, most('SELECT x FROM many GROUP BY x') = 1000 AS groups;
DROP TABLE many;
SELECT safebound.forget('parts');
DROP TABLE parts, s;
DROP FUNCTION most, known, deltas, triggers, asks;
