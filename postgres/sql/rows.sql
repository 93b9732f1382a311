-- Rows that come: `most` says how many rows the bound allows, `known` whether the table is known.
CREATE FUNCTION most(query text) RETURNS integer LANGUAGE plpgsql SET safebound.estimates = bound AS $$
DECLARE told json;
BEGIN
    EXECUTE 'EXPLAIN (FORMAT JSON) ' || query INTO told;
    RETURN told->0->'Plan'->>'Plan Rows';
END $$;
CREATE FUNCTION known(of regclass) RETURNS boolean LANGUAGE sql AS $$ SELECT k.known AND k.watched FROM safebound.kept k WHERE k."table" = of $$;
CREATE FUNCTION deltas(of regclass) RETURNS bigint LANGUAGE sql AS $$ SELECT k.deltas FROM safebound.kept k WHERE k."table" = of $$;
CREATE TABLE r (x integer, c text, other text);
INSERT INTO r VALUES (8, 'a'), (8, 'a'), (8, 'b'), (2, 'a'), (NULL, 'b');
CREATE TABLE s (x bigint PRIMARY KEY, note text);
INSERT INTO s VALUES (8), (2), (1);
SELECT safebound.keep('r', '{x}', '{c}') > 0 AS r, safebound.keep('s', '{x}', '{}') > 0 AS s;
SELECT known('r');
SELECT safebound.watch('r') > 0 AS r, safebound.watch('s') > 0 AS s;
SELECT known('r'), most('SELECT FROM r'), most('SELECT FROM r JOIN s USING (x)'), most('SELECT FROM r WHERE c = ''a''');

-- INSERT: two of the three new rows have one value. The values of x occurred 3 and 1 times, now at most 5 and 2 times.
INSERT INTO r VALUES (1, 'a'), (1, 'b'), (8, 'c');
SELECT most('SELECT FROM r') = 8 AS r, most('SELECT FROM r JOIN s USING (x)') = 7 AS joined, most('SELECT FROM r WHERE c = ''a''') = 6 AS a, deltas('r');
-- UPDATE of a column that isn't kept brings nothing, and of a kept one brings the row under its new values.
UPDATE r SET other = 'o', c = c;
SELECT most('SELECT FROM r') = 8 AS unchanged;
UPDATE r SET c = 'd' WHERE c = 'c';
SELECT most('SELECT FROM r') = 9 AS changed, deltas('r');
SELECT safebound.fold('r') > 0 AS folded;
SELECT most('SELECT FROM r') = 8 AS r, most('SELECT FROM r WHERE c = ''d''') = 1 AS d, deltas('r'), known('r');
-- COPY, ON CONFLICT, MERGE, a CTE that writes, ON UPDATE CASCADE.
COPY r (x, c) FROM stdin;
7	a
7	b
\.
SELECT most('SELECT FROM r') = 10 AS copied;
INSERT INTO s VALUES (8, 'again'), (9, 'new') ON CONFLICT (x) DO UPDATE SET x = s.x + 100;
SELECT most('SELECT FROM s') = 3 + 1 + 1 AS on_conflict, deltas('s') = 2 AS both;
MERGE INTO s USING (VALUES (9), (10)) AS n (x) ON s.x = n.x WHEN MATCHED THEN UPDATE SET x = 11 WHEN NOT MATCHED THEN INSERT (x) VALUES (n.x);
SELECT most('SELECT FROM s') = 5 + 2 AS merged;
WITH w AS (INSERT INTO r VALUES (3, 'w') RETURNING x) SELECT count(*) FROM w;
SELECT most('SELECT FROM r') = 11 AS by_cte;
CREATE TABLE child (x bigint REFERENCES s ON UPDATE CASCADE);
INSERT INTO child VALUES (2), (2);
SELECT safebound.watch('child') > 0 AS child;
UPDATE s SET x = 200 WHERE x = 2;
SELECT most('SELECT FROM child') = 2 + 2 AS cascaded;
-- A statement that cascades to several rows writes one delta. After it the table is known.
INSERT INTO child VALUES (1);
SELECT safebound.fold('child') > 0 AS folded;
UPDATE s SET x = x + 5000 WHERE x IN (1, 200);
SELECT most('SELECT FROM child') = 3 + 3 AS cascaded, deltas('child');
UPDATE s SET x = x - 5000 WHERE x IN (5001);
SELECT most('SELECT FROM child') = 3 + 3 + 1 AS cascaded, deltas('child');
-- DELETE and TRUNCATE write no delta.
DELETE FROM r WHERE x = 7;
SELECT most('SELECT FROM r') = 11 AS r;
TRUNCATE child;
SELECT most('SELECT FROM child') = 7 AS child;
-- A rollback takes the deltas back too.
BEGIN;
INSERT INTO r VALUES (6, 'z');
SAVEPOINT one;
INSERT INTO r VALUES (6, 'z');
ROLLBACK TO one;
SELECT most('SELECT FROM r') = 12 AS within;
ROLLBACK;
SELECT most('SELECT FROM r') = 11 AS after;
-- Triggers that fire in a session of a replica.
SET session_replication_role = replica;
INSERT INTO r VALUES (6, 'z');
RESET session_replication_role;
SELECT most('SELECT FROM r') = 12 AS replica;

-- Lists along a foreign key are used while the referred table is unchanged. Rows that came to the referring table are added to them.
CREATE TABLE kinds (id integer PRIMARY KEY, kind text, note text);
INSERT INTO kinds VALUES (1, 'rare'), (2, 'usual'), (3, 'usual');
CREATE TABLE things (kind integer REFERENCES kinds);
INSERT INTO things SELECT 2 FROM generate_series(1, 50);
INSERT INTO things VALUES (1), (3);
SELECT safebound.keep('things', filters => '{}') > 0 AS things;
SELECT safebound.watch('kinds') > 0 AS kinds, safebound.watch('things') > 0 AS things;
SELECT filters FROM safebound.kept_table WHERE relation = 'things'::regclass;
CREATE VIEW rare AS SELECT FROM things t JOIN kinds k ON t.kind = k.id WHERE k.kind = 'rare';
SELECT most('SELECT FROM rare') = 1 AS one;
INSERT INTO things VALUES (1), (2);
-- One kind is rare, and occurred once. It now occurs at most twice.
SELECT most('SELECT FROM rare') = 2 AS twice;
-- Another kind is rare now, without a statement on things: the lists along the reference aren't taken until things is counted.
UPDATE kinds SET kind = 'rare' WHERE id = 2;
SELECT count(*), most('SELECT FROM rare') >= count(*) AS enough FROM rare;
SELECT safebound.fold('kinds') > 0 AS kinds;
SELECT count(*), most('SELECT FROM rare') >= count(*) AS enough FROM rare;
SET safebound.budget = 100;
SELECT safebound.fold('things') > 0 AS things;
SELECT count(*), most('SELECT FROM rare') = count(*) AS exact FROM rare;
RESET safebound.budget;

-- Queries within a statement: the table isn't known to them, since they see rows that aren't counted yet.
SELECT safebound.fold('r') > 0 AS folded;
CREATE FUNCTION asks() RETURNS trigger LANGUAGE plpgsql AS $$ BEGIN PERFORM count(*) FROM r JOIN s USING (x); RETURN NEW; END $$;
CREATE TRIGGER asks AFTER INSERT ON r FOR EACH ROW EXECUTE FUNCTION asks();
SET safebound.budget = 1000000;
\set SHOW_CONTEXT never
INSERT INTO r VALUES (6, 'z');
SELECT count(*) FROM r JOIN s USING (x);
DROP TRIGGER asks ON r;
-- A trigger that asks after all rows are counted gets an answer.
CREATE TRIGGER z_asks AFTER INSERT ON r FOR EACH STATEMENT EXECUTE FUNCTION asks();
INSERT INTO r VALUES (6, 'z');
DROP TRIGGER z_asks ON r;
RESET safebound.budget;
SELECT known('r'), deltas('r');

-- What no trigger sees makes the table unknown until it is watched anew. So does a trigger that is disabled, even if it is enabled again.
SELECT tgname AS ours FROM pg_trigger WHERE tgrelid = 'r'::regclass AND tgname LIKE 'safebound_insert%' \gset
ALTER TABLE r DISABLE TRIGGER :"ours";
SELECT known('r');
SET safebound.budget = 1000000;
SELECT count(*) FROM r JOIN s USING (x);
RESET safebound.budget;
ALTER TABLE r ENABLE ALWAYS TRIGGER :"ours";
SELECT known('r');
SELECT safebound.watch('r') > 0 AS watched, known('r');
SELECT tgname AS ours FROM pg_trigger WHERE tgrelid = 'r'::regclass AND tgname LIKE 'safebound_insert%' \gset
ALTER TABLE r ENABLE TRIGGER :"ours";
SELECT known('r');
-- If the table is counted anew without its triggers, it isn't watched.
SELECT safebound.keep('r') > 0 AS kept, known('r');
SELECT safebound.watch('r') > 0 AS watched, known('r');
SELECT tgname AS ours FROM pg_trigger WHERE tgrelid = 'r'::regclass AND tgname LIKE 'safebound_update%' \gset
DROP TRIGGER :"ours" ON r;
SELECT known('r'), safebound.watch('r') > 0 AS watched, known('r');
-- ALTER TABLE writes rows anew, with the same type or with another one.
ALTER TABLE r ALTER x TYPE integer USING x % 2;
SELECT known('r'), safebound.watch('r') > 0 AS watched, known('r');
ALTER TABLE r ALTER x TYPE bigint;
SELECT known('r'), safebound.watch('r') > 0 AS watched, known('r');
ALTER TABLE r ADD more integer;
SELECT known('r') AS "a new column changes nothing";
-- A column gets another collation and its old one back, both without a rewrite. Rows that came meanwhile were counted by another equality.
CREATE COLLATION caseless (provider = icu, locale = 'und-u-ks-level2', deterministic = false);
CREATE TABLE word (w text COLLATE caseless, v varchar(5));
SELECT safebound.watch('word') > 0 AS watched;
ALTER TABLE word ALTER v TYPE varchar(9);
SELECT known('word') AS "a longer varchar changes nothing";
ALTER TABLE word ALTER w TYPE text COLLATE "C";
INSERT INTO word SELECT CASE i % 2 WHEN 0 THEN 'q' ELSE 'Q' END FROM generate_series(1, 20) AS i;
ALTER TABLE word ALTER w TYPE text COLLATE caseless;
SELECT known('word'), safebound.watch('word') > 0 AS watched, known('word');
SELECT bound >= (SELECT count(*) FROM word a JOIN word b ON a.w = b.w) AS "not too low"
    FROM safebound.bounds('SELECT FROM word a JOIN word b ON a.w = b.w');
DROP TABLE word;
DROP COLLATION caseless;
-- The table inherits from another one, through which rows may come.
CREATE TABLE above (LIKE r);
ALTER TABLE r INHERIT above;
SELECT known('r'), safebound.watch('r') > 0 AS watched, known('r');
SELECT safebound.fold('r') > 0 AS folded, deltas('r');
-- The table above may be watched itself, and then no longer: the table below it stays known.
SELECT safebound.watch('above') > 0 AS watched, known('above'), known('r');
SELECT safebound.unwatch('above'), known('above'), known('r'), safebound.forget('above');
UPDATE above SET c = 'from above';
SELECT deltas('r'), most('SELECT FROM r') = 2 * (SELECT count(*) FROM r) AS twice;
-- The delta of rows that come through the table above has no values, so all of them may have one value.
CREATE TABLE one (x integer);
INSERT INTO one VALUES (1), (2), (3), (4);
SELECT safebound.watch('one') > 0 AS watched, most('SELECT FROM r JOIN one USING (x)') = (SELECT count(x) + count(*) FROM r) AS all_of_one;
ALTER TABLE r NO INHERIT above;
SELECT known('r'), safebound.watch('r') > 0 AS watched, known('r');
-- Partitions: rows that are inserted into the table above, and straight into a partition.
CREATE TABLE parts (x integer, c text) PARTITION BY RANGE (x);
CREATE TABLE part_a PARTITION OF parts FOR VALUES FROM (0) TO (100);
INSERT INTO parts VALUES (1), (2);
SELECT safebound.watch('part_a') > 0 AS watched;
INSERT INTO parts VALUES (3);
INSERT INTO part_a VALUES (4);
SELECT most('SELECT FROM part_a') = 4 AS part_a;
CREATE TABLE part_b (x integer, c text);
SELECT safebound.watch('part_b') > 0 AS watched;
ALTER TABLE parts ATTACH PARTITION part_b FOR VALUES FROM (100) TO (200);
SELECT known('part_b'), known('part_a');
ALTER TABLE parts DETACH PARTITION part_a;
SELECT known('part_a');
-- A materialized view, which is refreshed.
CREATE MATERIALIZED VIEW m AS SELECT * FROM r;
SELECT safebound.watch('m') > 0 AS watched, known('m');
REFRESH MATERIALIZED VIEW m;
SELECT known('m'), safebound.watch('m') > 0 AS watched, known('m');
-- No statistics are left of a table that is dropped.
CREATE TABLE gone (x integer);
SELECT safebound.watch('gone') > 0 AS watched;
SELECT 'gone'::regclass::oid AS gone \gset
DROP TABLE gone;
SELECT count(*) FROM safebound.kept_table WHERE relation = :gone;
SELECT count(*) FROM safebound.kept_lists WHERE relation = :gone;
-- A temporary table is dropped without an event, so it can't be watched.
CREATE TEMPORARY TABLE passing (x integer);
SELECT safebound.watch('passing');
DROP TABLE passing;
-- ANALYZE folds the deltas of a table that has a hundred of them.
SELECT safebound.fold('s') > 0 AS folded;
DO $$ BEGIN FOR i IN 1..99 LOOP INSERT INTO s VALUES (1000 + i); END LOOP; END $$;
ANALYZE s;
SELECT deltas('s');
INSERT INTO s VALUES (2000);
ANALYZE r;
SELECT deltas('s');
VACUUM (ANALYZE) s;
SELECT deltas('s'), most('SELECT FROM s') = (SELECT count(*) FROM s) AS exact;
-- Deltas and lists that can't be read are an error each time, which leaves no memory behind.
CREATE TABLE torn (x integer);
SELECT safebound.watch('torn') > 0 AS watched;
CREATE VIEW memory AS SELECT count(*) AS contexts FROM pg_backend_memory_contexts WHERE name LIKE 'safebound %';
INSERT INTO torn VALUES (1);
UPDATE safebound.kept_delta SET lists = '\x01' WHERE relation = 'torn'::regclass;
SELECT most('SELECT FROM torn');
SELECT contexts AS before FROM memory \gset
SELECT most('SELECT FROM torn');
SELECT most('SELECT FROM torn');
SELECT contexts - :before AS more FROM memory;
SELECT safebound.fold('torn') > 0 AS folded;
UPDATE safebound.kept_lists SET lists = '\x77' WHERE relation = 'torn'::regclass;
SELECT most('SELECT FROM torn');
SELECT contexts AS before FROM memory \gset
SELECT most('SELECT FROM torn');
SELECT most('SELECT FROM torn');
SELECT contexts - :before AS more FROM memory;
DROP VIEW memory;
DROP TABLE torn;
-- Only its owner counts and watches a table; a user who writes to it needs no right on the extension's tables.
CREATE ROLE rows_user;
GRANT USAGE ON SCHEMA safebound TO rows_user;
GRANT INSERT ON r TO rows_user;
SET ROLE rows_user;
SELECT safebound.watch('r');
SELECT safebound.unwatch('r');
SELECT safebound.fold('r');
INSERT INTO r VALUES (6, 'z');
SELECT * FROM safebound.kept_delta;
RESET ROLE;
SELECT deltas('r');
-- If no new snapshot can be taken, a watched table isn't counted.
BEGIN ISOLATION LEVEL REPEATABLE READ;
SELECT safebound.fold('r');
ROLLBACK;
BEGIN ISOLATION LEVEL SERIALIZABLE;
SELECT safebound.watch('child');
ROLLBACK;
SELECT safebound.unwatch('r'), safebound.unwatch('r');
INSERT INTO r VALUES (6, 'z');
SELECT known('r'), deltas('r');
REVOKE ALL ON SCHEMA safebound FROM rows_user;
DROP VIEW rare;
DROP TABLE things, kinds;
DROP TABLE r, s, one, child, above, parts, part_a CASCADE;
DROP ROLE rows_user;
DROP FUNCTION most, known, deltas, asks;
