-- The values of x occur 5, 3 and 1 times in r, and 3, 2, 2 and 1 times in s. So the join has at most 5 * 3 + 3 * 2 + 1 * 2 rows.
CREATE TABLE r (x integer, c text);
INSERT INTO r VALUES (8, 'a'), (8, 'a'), (8, 'a'), (8, 'b'), (8, 'b'), (2, 'a'), (2, NULL), (2, 'a'), (5, 'b'), (NULL, 'b');
CREATE TABLE s (x bigint);
INSERT INTO s VALUES (8), (8), (8), (2), (2), (5), (5), (1);
SELECT safebound.keep('r', accuracy => 64) > 0 AS r, safebound.keep('s', accuracy => 64) > 0 AS s;
CREATE FUNCTION rows_of(query text) RETURNS integer LANGUAGE plpgsql AS $$
DECLARE told json;
BEGIN
    EXECUTE 'EXPLAIN (FORMAT JSON) ' || query INTO told;
    RETURN told->0->'Plan'->>'Plan Rows';
END $$;
SET safebound.estimates = bound;
SELECT rows_of('SELECT FROM r JOIN s USING (x)') = 23 AS joined;
SELECT rows_of('SELECT FROM r LEFT JOIN s USING (x)') = 23 + 10 AS left_join;
SELECT rows_of('SELECT FROM r FULL JOIN s USING (x)') = 23 + 10 + 8 AS full_join;
SELECT rows_of('SELECT FROM r WHERE NOT EXISTS (SELECT FROM s WHERE r.x = s.x)') = 10 AS anti_join;
SELECT rows_of('SELECT FROM r WHERE c = ''a''') = 5 AS one_value, rows_of('SELECT FROM r WHERE c IS NULL') = 1 AS no_value;
SELECT rows_of('SELECT FROM r WHERE c IN (''a'', ''b'')') = 9 AS two_values, rows_of('SELECT FROM r WHERE c IS NULL OR c = ''b''') = 5 AS either;
-- In the rows of r with c = 'a', the values of x occur 3 and 2 times.
SELECT rows_of('SELECT FROM r JOIN s USING (x) WHERE c = ''a''') = 3 * 3 + 2 * 2 AS filtered;
-- The one row of the table `one` matches five rows of r.
CREATE TABLE one (x integer);
INSERT INTO one VALUES (8);
SELECT safebound.keep('one') > 0 AS one;
SELECT rows_of('SELECT FROM r WHERE EXISTS (SELECT FROM one WHERE r.x = one.x)') = 5 AS semi_join,
       rows_of('SELECT FROM r WHERE r.x IN (SELECT x FROM s)') BETWEEN 8 AND 10 AS within;
-- A condition above an outer join doesn't filter the scan below it. A condition in its ON does.
CREATE FUNCTION scanned(query text, alias text) RETURNS integer LANGUAGE plpgsql AS $$
DECLARE told jsonb;
BEGIN
    EXECUTE 'EXPLAIN (FORMAT JSON) ' || query INTO told;
    RETURN jsonb_path_query_first(told, '$.**{2 to last} ? (@.Alias == $alias)."Plan Rows"', jsonb_build_object('alias', alias));
END $$;
SELECT scanned('SELECT FROM r FULL JOIN s USING (x) WHERE c IS NULL', 'r') = 10 AS above_full,
       scanned('SELECT FROM s LEFT JOIN r USING (x) WHERE c IS NULL', 'r') = 10 AS above_left,
       scanned('SELECT FROM s LEFT JOIN r ON r.x = s.x AND c IS NULL', 'r') = 1 AS within;
-- The view has three rows. The 1 of s has no match, so c is NULL there. The row of r in which c is NULL matches two rows of s.
CREATE VIEW apart AS SELECT s.x FROM (one RIGHT JOIN r ON one.x = r.x) FULL JOIN s ON r.x = s.x
    WHERE NOT EXISTS (SELECT FROM one e WHERE r.x = e.x) AND r.c IS NULL;
SELECT count(*), rows_of('SELECT FROM apart') >= count(*) AS enough FROM apart;
DROP VIEW apart;
DROP FUNCTION scanned;
-- A parameter may have any value, so the bound holds for each.
PREPARE with_parameter(text) AS SELECT FROM r WHERE c = $1;
SET plan_cache_mode = force_generic_plan;
SELECT rows_of('EXECUTE with_parameter(''b'')') = 5 AS parameter;
RESET plan_cache_mode;
-- Under another collation more values may be equal to a given one.
CREATE COLLATION caseless (provider = icu, locale = 'und-u-ks-level2', deterministic = false);
CREATE TABLE cases (c text, d text COLLATE caseless);
INSERT INTO cases VALUES ('a', 'a'), ('A', 'A'), ('A', 'A'), ('b', 'B');
SELECT safebound.keep('cases') > 0 AS cases;
SELECT rows_of('SELECT FROM cases WHERE c = ''a''') = 1 AS own, rows_of('SELECT FROM cases WHERE c = ''a'' COLLATE caseless') = 4 AS other,
       rows_of('SELECT FROM cases WHERE d = ''a''') = 3 AS caseless, rows_of('SELECT FROM cases WHERE d = ''a'' COLLATE "C"') = 4 AS bytes,
       rows_of('SELECT FROM cases JOIN cases o ON cases.c = o.d') = 4 * 4 AS mixed, rows_of('SELECT FROM cases JOIN cases o USING (d)') = 3 * 3 + 1 AS joined;
DROP TABLE one, cases;
DROP COLLATION caseless;
-- The 1000 values of k are cut into 64 parts. One part ends at 250, one at 500 and one at 750.
CREATE TABLE n (k integer, x integer, c text COLLATE "C");
INSERT INTO n SELECT i, i % 10, CASE WHEN i <= 300 THEN 'aa' WHEN i <= 500 THEN 'ab' ELSE 'b_' END || i % 3 FROM generate_series(1, 1000) i;
INSERT INTO n VALUES (NULL, 1, NULL);
CREATE TABLE m (x integer, k smallint);
INSERT INTO m SELECT i, i FROM generate_series(0, 9) i;
SELECT safebound.keep('n', accuracy => 64) > 0 AS n, safebound.keep('m') > 0 AS m;
SELECT rows_of('SELECT FROM n WHERE k <= 250') = 250 AS up_to, rows_of('SELECT FROM n WHERE 250::bigint >= k') = 250 AS turned,
       rows_of('SELECT FROM n WHERE k > 250') = 750 AS above, rows_of('SELECT FROM n WHERE k >= 250') BETWEEN 751 AND 766 AS from_there;
SELECT rows_of('SELECT FROM n WHERE k > 250 AND k <= 500') = 250 AS both_ends, rows_of('SELECT FROM n WHERE k <= 250 OR k > 750') = 500 AS either_end,
       rows_of('SELECT FROM n WHERE k BETWEEN 300 AND 305') BETWEEN 6 AND 32 AS few, rows_of('SELECT FROM n WHERE k > 1000') = 1 AS none;
SELECT rows_of('SELECT FROM n JOIN m USING (x) WHERE n.k > 250 AND n.k <= 500') = 250 AS joined;
-- Each of the nine texts is a part: aa0 to aa2 occur 100 times each, ab0 to ab2 66 or 67 times. A bound may also count the part after its range.
SELECT rows_of('SELECT FROM n WHERE c LIKE ''a%''') BETWEEN 500 AND 667 AS front, rows_of('SELECT FROM n WHERE c LIKE ''b\_1''') = 500 AS escaped,
       rows_of('SELECT FROM n WHERE c LIKE ''%a''') = 1000 AS no_front, rows_of('SELECT FROM n WHERE c LIKE ''aa_''') BETWEEN 300 AND 367 AS longer;
DROP TABLE n, m;
-- Of the 158 rows of f that refer to d, two refer to rows with c = 'a'. The most frequent key occurs 100 times.
CREATE TABLE d (k integer PRIMARY KEY, c text, n integer);
INSERT INTO d SELECT i, CASE WHEN i IN (3, 4) THEN 'a' ELSE 'b' END, i FROM generate_series(1, 10) i;
CREATE TABLE f (k integer REFERENCES d, x integer);
INSERT INTO f SELECT k, i % 7 FROM d, generate_series(1, CASE k WHEN 1 THEN 100 WHEN 2 THEN 50 ELSE 1 END) i;
INSERT INTO f VALUES (NULL, 5);
SELECT safebound.keep('d', '{k,c,n}', accuracy => 64) > 0 AS d, safebound.keep('f', '{k,x}', accuracy => 64) > 0 AS f;
SELECT rows_of('SELECT FROM f JOIN d USING (k) WHERE c = ''a''') = 2 AS along, rows_of('SELECT FROM f JOIN d USING (k) WHERE c IN (''a'', ''b'')') = 158 AS both,
       rows_of('SELECT FROM f JOIN d USING (k) WHERE n > 2') = 8 AS part, rows_of('SELECT FROM f JOIN d USING (k) WHERE n = 1') = 100 AS one,
       rows_of('SELECT d.c FROM f LEFT JOIN d ON f.k = d.k AND c = ''a''') = 159 + 2 AS left_join;
SELECT rows_of('SELECT FROM f JOIN d USING (k) JOIN f g USING (x) WHERE c = ''a''') = 2 * 31 AS further;
SELECT relations, bound, estimate > 0 AS estimate, statistics FROM safebound.bounds('SELECT FROM f JOIN d USING (k) JOIN f g USING (x) WHERE c = ''a'' AND g.k > 2') WHERE cardinality(relations) = 3;
SET join_collapse_limit = 1;
SELECT relations, bound >= (SELECT count(*) FROM f JOIN f g USING (x)) AS whole FROM safebound.bounds('SELECT FROM (f JOIN f g USING (x)) JOIN d ON f.k = d.k WHERE c = ''a''') WHERE 'd' <> ALL (relations);
RESET join_collapse_limit;
SELECT safebound.bounds('VACUUM');
-- Estimates by mean use the lists along a reference, and the counted distinct values. Where a condition has no lists, PostgreSQL estimates it.
CREATE TABLE g (k integer);
INSERT INTO g SELECT generate_series(1, 1000);
ALTER TABLE g ALTER k SET (n_distinct = 10);
ANALYZE d, f, g;
SELECT safebound.keep('g') > 0 AS g, rows_of('SELECT k FROM g GROUP BY k') = 1000 AS bound_groups;
SET safebound.estimates = mean;
SELECT rows_of('SELECT FROM f JOIN d USING (k) WHERE n = 1') BETWEEN 95 AND 100 AS expected, rows_of('SELECT k FROM g GROUP BY k') = 1000 AS groups,
       rows_of('SELECT FROM d WHERE c <> ''a''') = 8 AS no_list;
SET safebound.estimates = off;
SELECT rows_of('SELECT FROM f JOIN d USING (k) WHERE n = 1') < 20 AS own, rows_of('SELECT k FROM g GROUP BY k') = 10 AS own_groups;
DROP TABLE f, d, g;
-- A partial index finds fewer rows for a value than the column has. Its cost stays what PostgreSQL expects.
CREATE FUNCTION cost_by(mode text) RETURNS float8 LANGUAGE plpgsql AS $$
DECLARE told json;
BEGIN
    PERFORM set_config('safebound.estimates', mode, true);
    EXECUTE 'EXPLAIN (FORMAT JSON) SELECT FROM q LEFT JOIN p ON p.k = q.k AND p.c = ''x''' INTO told;
    RETURN told->0->'Plan'->>'Total Cost';
END $$;
CREATE TABLE p (k integer, c text);
INSERT INTO p SELECT i % 100, CASE WHEN i <= 1000 THEN 'x' ELSE 'y' END FROM generate_series(1, 20000) i;
CREATE INDEX ON p (k) WHERE c = 'x';
CREATE TABLE q (k integer PRIMARY KEY);
INSERT INTO q SELECT generate_series(0, 99);
ANALYZE p, q;
SET enable_hashjoin = off; SET enable_mergejoin = off; SET enable_material = off;
SELECT safebound.keep('p') > 0 AS p, safebound.keep('q') > 0 AS q, cost_by('mean') < 2 * cost_by('off') AS cost;
RESET enable_hashjoin; RESET enable_mergejoin; RESET enable_material;
DROP TABLE p, q;
DROP FUNCTION cost_by;
-- When a second referenced table is joined, another list of f is used. It gives 14 rows here; the list of the join before would give 50.
CREATE TABLE d (k integer PRIMARY KEY, c text);
CREATE TABLE e (j integer PRIMARY KEY, c text);
INSERT INTO d VALUES (1, 'a'), (2, 'b');
INSERT INTO e VALUES (1, 'a'), (2, 'b');
CREATE TABLE f (k integer REFERENCES d, j integer REFERENCES e, x integer);
INSERT INTO f SELECT 1, 2, 0 FROM generate_series(1, 10);
INSERT INTO f SELECT 2, 1, i FROM generate_series(1, 10) i;
CREATE TABLE g (x integer);
INSERT INTO g SELECT greatest(i - 5, 0) FROM generate_series(1, 15) i;
SELECT safebound.keep('d') > 0 AS d, safebound.keep('e') > 0 AS e, safebound.keep('f', '{k,j,x}', accuracy => 64) > 0 AS f, safebound.keep('g', accuracy => 64) > 0 AS g;
SET safebound.estimates = bound;
SET join_collapse_limit = 1;
SELECT rows_of('SELECT FROM f JOIN d USING (k) JOIN g USING (x) WHERE d.c = ''a''') = 10 * 5 AS one,
       rows_of('SELECT FROM f JOIN d USING (k) JOIN g USING (x) JOIN e USING (j) WHERE d.c = ''a'' AND e.c = ''a''') = 5 + 9 AS both;
RESET join_collapse_limit;
DROP TABLE f, d, e, g;
-- A nested loop repeats its inner scan for each outer row. The scan's rows are the bound of the join, divided by that of the outer rows.
CREATE FUNCTION repeated(query text) RETURNS integer LANGUAGE plpgsql AS $$
DECLARE told json;
BEGIN
    EXECUTE 'EXPLAIN (FORMAT JSON) ' || query INTO told;
    RETURN told->0->'Plan'->'Plans'->1->>'Plan Rows';
END $$;
CREATE TABLE q (k integer PRIMARY KEY, n integer);
INSERT INTO q SELECT i, i FROM generate_series(0, 99) i;
CREATE TABLE p (k integer);
INSERT INTO p SELECT greatest(i - 1000, 0) FROM generate_series(1, 1099) i;
CREATE INDEX ON p (k);
ANALYZE p, q;
SET enable_hashjoin = off; SET enable_mergejoin = off; SET enable_material = off;
SELECT safebound.keep('p', accuracy => 64) > 0 AS p, safebound.keep('q') > 0 AS q, repeated('SELECT FROM q JOIN p USING (k) WHERE n = 7') = 1000 AS repeated;
RESET enable_hashjoin; RESET enable_mergejoin; RESET enable_material;
SET safebound.estimates = off;
DROP TABLE p, q;
DROP FUNCTION repeated;
DROP TABLE r, s;
DROP FUNCTION rows_of;
