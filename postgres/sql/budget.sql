-- The values of x occur 5, 3 and 1 times in r, and 3, 2, 2 and 1 times in s: at most 5 * 3 + 3 * 2 + 1 * 2 rows join.
CREATE TABLE r (x integer, c text);
INSERT INTO r VALUES (8, 'a'), (8, 'a'), (8, 'a'), (8, 'b'), (8, 'b'), (2, 'a'), (2, NULL), (2, 'a'), (5, 'b'), (NULL, 'b');
CREATE TABLE s (x bigint);
INSERT INTO s VALUES (8), (8), (8), (2), (2), (5), (5), (1);
CREATE TABLE unknown (x integer);
SELECT safebound.keep('r', accuracy => 64) > 0 AS r, safebound.keep('s', accuracy => 64) > 0 AS s;
-- A budget takes no bounds from tables that aren't watched.
SET safebound.budget = 1000;
SELECT count(*) FROM r JOIN s USING (x);
RESET safebound.budget;
SELECT safebound.watch('r') > 0 AS r, safebound.watch('s') > 0 AS s;
\set SHOW_CONTEXT never
SET safebound.budget = 23;
SELECT count(*) FROM r JOIN s USING (x);
SET safebound.budget = 22;
SELECT count(*) FROM r AS one JOIN s USING (x);
\echo :LAST_ERROR_SQLSTATE
\set VERBOSITY terse
-- A scan is no join.
SELECT count(*) FROM r;
-- EXPLAIN runs nothing, so it isn't refused. EXPLAIN ANALYZE is.
EXPLAIN (COSTS OFF) SELECT FROM r JOIN s USING (x);
EXPLAIN (ANALYZE, COSTS OFF) SELECT FROM r JOIN s USING (x);
-- With a condition: in the rows with a the values of x occur 3 and 2 times, in those with b 2, 1 and 0 times.
SET safebound.budget = 12;
SELECT count(*) FROM r JOIN s USING (x) WHERE c = 'b';
SELECT count(*) FROM r JOIN s USING (x) WHERE c = 'a';
-- A prepared query is bounded with its parameters, in a custom plan and in a generic one.
PREPARE with_value(text) AS SELECT count(*) FROM r JOIN s USING (x) WHERE c = $1;
SET plan_cache_mode = force_custom_plan;
EXECUTE with_value('b');
EXECUTE with_value('a');
SET plan_cache_mode = force_generic_plan;
EXECUTE with_value('b');
EXECUTE with_value('a');
EXECUTE with_value('b');
EXPLAIN (COSTS OFF) EXECUTE with_value('a');
-- A plan that was kept without a budget is made anew.
SET safebound.budget = 0;
PREPARE without_budget(text) AS SELECT count(*) FROM r JOIN s USING (x) WHERE c = $1;
EXECUTE without_budget('a');
SET safebound.budget = 12;
EXECUTE without_budget('a');
RESET plan_cache_mode;
-- Cursors, queries within functions, and statements that write.
BEGIN;
DECLARE c CURSOR FOR SELECT FROM r JOIN s USING (x);
ROLLBACK;
CREATE FUNCTION inner_query(of text) RETURNS bigint LANGUAGE plpgsql AS $$ BEGIN RETURN (SELECT count(*) FROM r JOIN s USING (x) WHERE c = of); END $$;
SELECT inner_query('b');
SELECT inner_query('a');
CREATE FUNCTION in_sql() RETURNS bigint LANGUAGE sql VOLATILE AS $$ SELECT count(*) FROM r JOIN s USING (x) $$;
SELECT in_sql();
CREATE TABLE made AS SELECT FROM r JOIN s USING (x);
CREATE TABLE made AS SELECT FROM r JOIN s USING (x) WITH NO DATA;
DELETE FROM r USING s WHERE r.x = s.x;
-- Joins in subqueries, WITH and UNION.
SELECT (SELECT count(*) FROM r JOIN s USING (x));
WITH w AS MATERIALIZED (SELECT FROM r JOIN s USING (x)) SELECT count(*) FROM w;
SELECT count(*) FROM (SELECT x FROM r JOIN s USING (x) OFFSET 0) AS o;
SELECT count(*) FROM (SELECT x FROM r JOIN s USING (x) UNION ALL SELECT 1) AS o;
SELECT 1 WHERE EXISTS (SELECT FROM r JOIN s USING (x) OFFSET 1);
-- 10 rows of r with each of the 8 of s.
SET safebound.budget = 79;
SELECT count(*) FROM r, s;
SET safebound.budget = 80;
SELECT count(*) FROM r, s;
-- What has no bound: a table without statistics, a function, a query in FROM, more than 16 entries.
SET safebound.budget = 1000000000;
\set VERBOSITY default
SELECT count(*) FROM r JOIN unknown USING (x);
\echo :LAST_ERROR_SQLSTATE
SELECT count(*) FROM r JOIN generate_series(1, 9) AS x USING (x);
SELECT count(*) FROM r JOIN (SELECT 1 AS x UNION ALL SELECT 2) AS o USING (x);
SELECT count(*) FROM r JOIN (SELECT DISTINCT x FROM s) AS o USING (x);
SELECT count(*) FROM r JOIN s TABLESAMPLE system (50) USING (x);
CREATE TABLE whole (x integer);
CREATE TABLE child () INHERITS (whole);
SELECT count(*) FROM r JOIN whole USING (x);
DROP TABLE whole CASCADE;
CREATE VIEW pairs AS SELECT a.x FROM r a LEFT JOIN s b USING (x) LEFT JOIN s c USING (x);
SELECT count(*) FROM pairs JOIN pairs p2 USING (x) JOIN pairs p3 USING (x) JOIN pairs p4 USING (x) WHERE x = 5;
DROP VIEW pairs;
SET join_collapse_limit = 1;
SELECT count(*) FROM s t1 JOIN s t2 USING (x) JOIN s t3 USING (x) JOIN s t4 USING (x) JOIN s t5 USING (x) JOIN s t6 USING (x) JOIN s t7 USING (x)
    JOIN s t8 USING (x) JOIN s t9 USING (x) JOIN s t10 USING (x) JOIN s t11 USING (x) JOIN s t12 USING (x) JOIN s t13 USING (x) JOIN s t14 USING (x)
    JOIN s t15 USING (x) JOIN s t16 USING (x) JOIN s t17 USING (x) WHERE x = 1;
\set VERBOSITY terse
RESET join_collapse_limit;
SET safebound.unbounded = admit;
SELECT count(*) FROM r JOIN unknown USING (x);
SELECT count(*) FROM r JOIN generate_series(1, 9) AS x USING (x);
RESET safebound.unbounded;
-- Queries over the system's own tables alone are always admitted.
SELECT count(*) > 0 AS some FROM pg_class JOIN pg_namespace n ON n.oid = relnamespace;
\d unknown
SELECT "table", rows FROM safebound.kept WHERE "table" IN ('r'::regclass, 's'::regclass) ORDER BY rows;
-- Only a superuser changes the budget.
CREATE ROLE budget_user;
SET ROLE budget_user;
SET safebound.budget = 0;
SET safebound.unbounded = admit;
RESET ROLE;
DROP ROLE budget_user;
RESET safebound.budget;
DROP FUNCTION inner_query, in_sql;
DROP TABLE r, s, unknown, made;
