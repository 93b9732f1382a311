\set VERBOSITY terse
\set SHOW_CONTEXT never
SET client_min_messages = warning;
-- Set operations at the top have no input relation. The server lives, in all modes and with a budget.
SET safebound.estimates = mean;
SELECT 1 UNION SELECT 2 ORDER BY 1;
SELECT 1 INTERSECT SELECT 2;
SELECT 1 EXCEPT ALL SELECT 2;
SET safebound.estimates = bound;
SELECT 1 UNION ALL SELECT 1 UNION SELECT 3 ORDER BY 1;
SELECT 1 INTERSECT ALL SELECT 1;
SELECT 2 EXCEPT SELECT 1;
WITH RECURSIVE n AS (SELECT 1 AS i UNION SELECT i + 1 FROM n WHERE i < 3) SELECT i FROM n EXCEPT SELECT 2 ORDER BY 1;
RESET safebound.estimates;

-- A side that the planner finds empty is part of its join: by its partitions, by WHERE false, by a contradiction, by a constraint.
CREATE TABLE none (c integer);
CREATE TABLE many (c integer);
INSERT INTO many SELECT i FROM generate_series(1, 1000) AS i;
CREATE TABLE parts (k integer, c integer) PARTITION BY LIST (k);
CREATE TABLE parts_1 PARTITION OF parts FOR VALUES IN (1);
CREATE TABLE limited (c integer CHECK (c < 10));
SELECT safebound.watch('none') > 0 AS none, safebound.watch('many') > 0 AS many, safebound.watch('parts') > 0 AS parts, safebound.watch('limited') > 0 AS limited;
SET constraint_exclusion = on;
SET safebound.budget = 999;
SELECT count(*) FROM (none LEFT JOIN parts ON none.c = parts.c AND parts.k = 99) FULL JOIN many ON parts.c = many.c;
SELECT count(*) FROM many LEFT JOIN (none LEFT JOIN parts ON none.c = parts.c AND parts.k = 99) ON parts.c IS NULL;
SELECT count(*) FROM (none LEFT JOIN limited ON none.c = limited.c AND limited.c > 20) FULL JOIN many ON limited.c = many.c;
SELECT count(*) FROM many LEFT JOIN (none LEFT JOIN limited ON none.c = limited.c AND false) ON limited.c IS NULL;
SELECT count(*) FROM many LEFT JOIN (none LEFT JOIN limited ON none.c = limited.c AND limited.c = 1 AND limited.c = 2) ON limited.c IS NULL;
SELECT count(*) FROM many a FULL JOIN (SELECT * FROM many WHERE false) b USING (c);
SET safebound.budget = 1000;
SELECT count(*) FROM (none LEFT JOIN parts ON none.c = parts.c AND parts.k = 99) FULL JOIN many ON parts.c = many.c;
SELECT count(*) FROM many a FULL JOIN (SELECT * FROM many WHERE false) b USING (c);
SELECT relations FROM safebound.bounds('SELECT FROM (none LEFT JOIN parts ON none.c = parts.c AND parts.k = 99) FULL JOIN many ON parts.c = many.c');
-- Joins of set operations, at the top and below.
SET safebound.budget = 999;
SELECT a.c FROM many a JOIN many b USING (c) UNION SELECT 1;
SELECT 1 INTERSECT SELECT a.c FROM many a JOIN many b USING (c);
SELECT a.c FROM many a JOIN many b USING (c) EXCEPT ALL SELECT 1;
WITH RECURSIVE n AS (SELECT a.c FROM many a JOIN many b USING (c) UNION SELECT n.c FROM n WHERE false) SELECT count(*) FROM n;
-- The least value of a UNION ALL comes from paths of their own, which the result's paths don't lead to: its joins are unknown.
CREATE INDEX ON many (c);
ANALYZE many;
SET enable_hashjoin = off;
SELECT min(c) FROM (SELECT a.c FROM many a JOIN many b USING (c) UNION ALL SELECT c FROM many) q;
SELECT relations, bound FROM safebound.bounds('SELECT min(c) FROM (SELECT a.c FROM many a JOIN many b USING (c) UNION ALL SELECT c FROM many) q');
RESET enable_hashjoin;
-- A plan that was made before there was a budget has no bounds: SQL functions are planned as a whole.
SET safebound.budget = 0;
CREATE FUNCTION sets_budget() RETURNS bigint LANGUAGE sql VOLATILE AS $$ SELECT set_config('safebound.budget', '10', false); SELECT count(*) FROM many a, many b $$;
SELECT sets_budget();
DROP FUNCTION sets_budget;
RESET constraint_exclusion;
RESET safebound.budget;

-- timestamp = timestamptz depends on the time zone: where summer time begins two timestamps are one instant.
SET TimeZone = 'America/New_York';
CREATE TABLE local_time (ts timestamp);
INSERT INTO local_time SELECT timestamp '2021-03-14 02:30' + i % 2 * interval '1 hour' FROM generate_series(1, 200) AS i;
CREATE TABLE instant (tz timestamptz);
INSERT INTO instant SELECT '2021-03-14 03:30-04' FROM generate_series(1, 100);
SELECT safebound.watch('local_time') > 0 AS local_time, safebound.watch('instant') > 0 AS instant;
SET safebound.budget = 19999;
SELECT count(*) FROM local_time a JOIN instant b ON a.ts = b.tz;
SELECT count(*) FROM local_time a, instant b WHERE a.ts = timestamptz '2021-03-14 03:30-04';
SELECT count(*) FROM local_time a, instant b WHERE a.ts IN (timestamptz '2021-03-14 03:30-04');
SELECT count(*) FROM local_time a, instant b WHERE a.ts >= timestamptz '2021-03-14 03:06-04';
SELECT count(*) FROM local_time a LEFT JOIN instant b ON a.ts = b.tz AND b.tz IS NOT NULL;
PREPARE at_instant(timestamptz) AS SELECT count(*) FROM local_time a, instant b WHERE a.ts = $1;
EXECUTE at_instant('2021-03-14 03:30-04');
SET plan_cache_mode = force_generic_plan;
EXECUTE at_instant('2021-03-14 03:30-04');
RESET plan_cache_mode;
DEALLOCATE at_instant;
-- Those of one type don't.
SELECT count(*) FROM local_time a, instant b WHERE a.ts = timestamp '2021-03-14 03:30';
RESET safebound.budget;
RESET TimeZone;
DROP TABLE local_time, instant;

-- A referred column gets another type: the lists along the reference aren't used any more, also by a backend that has them in memory.
CREATE TABLE referred (id integer PRIMARY KEY, c integer);
INSERT INTO referred SELECT i, i % 5 FROM generate_series(1, 100) AS i;
CREATE TABLE referring (r integer REFERENCES referred, y integer);
INSERT INTO referring SELECT 1 + i % 100, i FROM generate_series(1, 1000) AS i;
SELECT safebound.keep('referred') > 0 AS referred, safebound.keep('referring') > 0 AS referring;
SET safebound.estimates = mean;
SELECT count(*) FROM referring f JOIN referred r ON f.r = r.id WHERE r.c = 3;
ALTER TABLE referred ALTER c TYPE text;
SELECT count(*) FROM referring f JOIN referred r ON f.r = r.id WHERE r.c = '3';
RESET safebound.estimates;
DROP TABLE referring, referred;

-- A refusal tells how many rows there are. So the rights on tables, columns and views come first.
CREATE TABLE secret (name text, salary integer);
INSERT INTO secret SELECT 'n' || i, CASE WHEN i <= 7 THEN 123456 ELSE i END FROM generate_series(1, 100) AS i;
CREATE VIEW secret_view AS SELECT * FROM secret;
SELECT safebound.watch('secret') > 0 AS secret;
CREATE ROLE spy;
GRANT SELECT (name) ON secret TO spy;
SET safebound.budget = 10;
SET ROLE spy;
SELECT count(*) FROM secret a, secret b WHERE a.salary = 123456;
SELECT count(*) FROM secret_view a, secret_view b;
SELECT count(*) FROM secret a, unwatched_and_absent b;
SELECT count(*) FROM secret a, generate_series(1, 2) WHERE a.salary = 123456;
SELECT count(*) FROM secret a JOIN secret b USING (name);
RESET ROLE;
GRANT SELECT ON secret_view TO spy;
SET ROLE spy;
SELECT count(*) FROM secret_view a, secret_view b WHERE a.salary = 123456;
RESET ROLE;
RESET safebound.budget;
DROP VIEW secret_view;
DROP TABLE secret;
DROP ROLE spy;

-- Catalogs alone: with VALUES, subqueries and system views, and with what psql asks. Not beside a function.
SET safebound.budget = 100;
SELECT count(*) > 0 AS some FROM pg_class c JOIN (SELECT oid FROM pg_namespace OFFSET 0) n ON n.oid = c.relnamespace, (VALUES (1), (2)) AS v;
SELECT count(*) > 0 AS some FROM information_schema.columns JOIN pg_stat_activity ON true;
SELECT count(*) >= 0 AS some FROM safebound.admission, safebound.kept;
SELECT count(*) FROM generate_series(1, 1000) a, pg_am m WHERE m.amname = 'heap';
SELECT count(*) FROM (SELECT generate_series(1, 1000)) a, pg_am m WHERE m.amname = 'heap';
SELECT count(*) FROM unnest(xpath('/table/row/c/text()', query_to_xml('SELECT c FROM many', false, false, ''))) a, pg_am m WHERE m.amname = 'heap';
SELECT count(*) FROM (SELECT array_agg(x) AS x FROM pg_am, unnest(ARRAY[1, 2]) x) a, unnest(a.x);
WITH RECURSIVE n AS (SELECT 1 AS i UNION ALL SELECT i + 1 FROM n WHERE i < 1000) SELECT count(*) FROM n, pg_am m WHERE m.amname = 'heap';
CREATE TABLE keys (c integer PRIMARY KEY) PARTITION BY RANGE (c);
CREATE TABLE keys_1 PARTITION OF keys FOR VALUES FROM (0) TO (2000);
SELECT count(*) FROM many, pg_am m WHERE m.amname = 'heap';
\d keys_1
RESET safebound.budget;

-- A parallel worker skips its part of the leader's query, and no other query. Where the transaction writes, it can't tell what is counted.
CREATE FUNCTION in_worker() RETURNS bigint LANGUAGE plpgsql PARALLEL SAFE AS $$ BEGIN RETURN (SELECT count(*) FROM many a JOIN many b USING (c)); END $$;
SET force_parallel_mode = on;
SET safebound.budget = 999;
SELECT in_worker();
SET safebound.budget = 1000;
SELECT in_worker();
SELECT count(*) FROM many a JOIN many b USING (c);
BEGIN;
CREATE TABLE written ();
SELECT in_worker();
ROLLBACK;
RESET force_parallel_mode;
RESET safebound.budget;

-- PostgreSQL's own joins aren't refused: the check of a foreign key, and the comparison of a refreshed view. A function that runs meanwhile is.
CREATE FUNCTION joins_many() RETURNS integer LANGUAGE plpgsql IMMUTABLE AS $$ BEGIN RETURN (SELECT count(*) FROM many a, many b); END $$;
INSERT INTO keys SELECT c FROM many;
CREATE MATERIALIZED VIEW viewed AS SELECT c FROM many;
CREATE UNIQUE INDEX ON viewed (c);
SET safebound.budget = 10;
ALTER TABLE many ADD FOREIGN KEY (c) REFERENCES keys;
SELECT count(*) FROM ONLY many fk LEFT OUTER JOIN ONLY keys pk ON pk.c = fk.c WHERE pk.c IS NULL;
REFRESH MATERIALIZED VIEW CONCURRENTLY viewed;
ALTER TABLE many ALTER c TYPE bigint USING joins_many(), ADD FOREIGN KEY (c) REFERENCES keys;
DO $$ BEGIN ALTER TABLE many ADD CHECK (joins_many() > 0); EXCEPTION WHEN sqlstate 'SB001' THEN RAISE WARNING 'refused'; END $$;
-- A part to which a foreign key refers is detached.
ALTER TABLE keys DETACH PARTITION keys_1;
CREATE TABLE keys_2 PARTITION OF keys FOR VALUES FROM (2000) TO (3000);
ALTER TABLE keys DETACH PARTITION keys_2;
-- The check fails while it is planned. The next query isn't taken for it.
CREATE FUNCTION fails_if(i integer) RETURNS integer LANGUAGE plpgsql IMMUTABLE AS $$ BEGIN IF current_setting('fails.now', true) = 'yes' THEN RAISE undefined_column; END IF; RETURN i; END $$;
ALTER TABLE many DROP CONSTRAINT many_c_fkey;
RESET safebound.budget;
CREATE INDEX ON keys ((c + fails_if(1)));
SET safebound.budget = 10;
SET fails.now = yes;
DO $$ BEGIN ALTER TABLE many ADD FOREIGN KEY (c) REFERENCES keys; EXCEPTION WHEN undefined_column THEN RAISE WARNING 'failed'; SET fails.now = no; PERFORM count(*) FROM many fk, keys pk; END $$;
CREATE FUNCTION joins_if(i integer) RETURNS integer LANGUAGE plpgsql STABLE AS $$ BEGIN RETURN CASE WHEN current_setting('safebound.budget') = '10' THEN (SELECT count(*) FROM passing a, passing b) ELSE i END; END $$;
RESET safebound.budget;
CREATE TEMPORARY TABLE passing AS SELECT generate_series(1, 10);
CREATE MATERIALIZED VIEW calling AS SELECT joins_if(c) AS c FROM many WHERE c < 3;
CREATE UNIQUE INDEX ON calling (c);
CREATE MATERIALIZED VIEW pruning AS SELECT c FROM parts WHERE k = joins_if(1);
CREATE UNIQUE INDEX ON pruning (c);
SET safebound.budget = 10;
REFRESH MATERIALIZED VIEW CONCURRENTLY calling;
REFRESH MATERIALIZED VIEW CONCURRENTLY pruning;
RESET safebound.budget;
-- Expressions of an index may be evaluated outside of any query: no query is PostgreSQL's own then.
CREATE FUNCTION joins_passing(i integer) RETURNS integer LANGUAGE plpgsql IMMUTABLE AS $$ BEGIN IF current_setting('safebound.budget') = '10' THEN BEGIN PERFORM count(*) FROM passing a, passing b; RAISE WARNING 'joined'; EXCEPTION WHEN OTHERS THEN NULL; END; END IF; RETURN i; END $$;
CREATE INDEX ON viewed ((c + joins_passing(1)));
SET safebound.budget = 10;
REFRESH MATERIALIZED VIEW CONCURRENTLY viewed;
RESET safebound.budget;
DROP MATERIALIZED VIEW viewed, calling, pruning;
DROP TABLE none, many, parts, limited, keys, keys_2, passing;
DROP FUNCTION in_worker, joins_many, joins_if, joins_passing, fails_if;
