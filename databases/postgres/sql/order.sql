-- Order and hashes: operators, indexes, joins, groups.
SELECT a, b, a < b AS lt, a <= b AS le, a = b AS eq, a <> b AS ne, a >= b AS ge, a > b AS gt, ratio_cmp(a, b)
FROM (VALUES ('1/2'::ratio, '1/3'::ratio), (1 / (-3)::ratio, 0), ('2/4', '1/2'), ('9223372036854775806/9223372036854775807', '9223372036854775805/9223372036854775806'),
    ('-9223372036854775808', '-9223372036854775807')) rows(a, b);
-- beside numeric
SELECT count(*), count(*) FILTER (WHERE ratio_cmp(a.r, b.r) <> sign(left_product - right_product) OR (a.r < b.r) <> (left_product < right_product)
    OR (a.r <= b.r) <> (left_product <= right_product) OR (a.r = b.r) <> (left_product = right_product) OR (a.r <> b.r) <> (left_product <> right_product)
    OR (a.r >= b.r) <> (left_product >= right_product) OR (a.r > b.r) <> (left_product > right_product)) AS wrong
FROM hard a, hard b, LATERAL (SELECT numerator(a.r)::numeric * denominator(b.r) AS left_product, numerator(b.r)::numeric * denominator(a.r) AS right_product) products
WHERE one_in(a.r, 2) AND one_in(b.r, 3);
-- NOT takes the negated operator
SELECT count(*), count(*) FILTER (WHERE (NOT (a.r < b.r)) = (a.r < b.r) OR (NOT (a.r <= b.r)) = (a.r <= b.r) OR (NOT (a.r = b.r)) = (a.r = b.r)
    OR (NOT (a.r <> b.r)) = (a.r <> b.r) OR (NOT (a.r >= b.r)) = (a.r >= b.r) OR (NOT (a.r > b.r)) = (a.r > b.r)) AS wrong
FROM hard a, hard b WHERE one_in(a.r, 5) AND one_in(b.r, 5);
-- an index and a scan agree on rows with each hard fraction, on small ones, and on NULL
CREATE TABLE t (r ratio);
INSERT INTO t SELECT r FROM hard UNION ALL SELECT ratio(i - 5000, 7) FROM generate_series(0, 10000) i UNION ALL SELECT NULL FROM generate_series(1, 10);
INSERT INTO t SELECT r FROM t WHERE one_in(r, 2);
CREATE INDEX t_btree ON t (r);
CREATE INDEX t_hash ON t USING hash (r);
ANALYZE t;
-- (the index takes the commuted operator here)
CREATE VIEW counts AS SELECT r, (SELECT count(*) FROM t WHERE p.r > t.r) AS lt, (SELECT count(*) FROM t WHERE p.r >= t.r) AS le,
    (SELECT count(*) FROM t WHERE p.r = t.r) AS eq, (SELECT count(*) FROM t WHERE p.r <= t.r) AS ge, (SELECT count(*) FROM t WHERE p.r < t.r) AS gt FROM hard p WHERE one_in(r, 5);
SET enable_seqscan = off;
EXPLAIN (COSTS OFF) SELECT count(*) FROM t WHERE r < '1/7';
-- it serves integers and decimals without a written cast, also those of another table
SELECT q, plan_has('SELECT count(*) FROM t WHERE ' || q, 'Cond: \(' || condition || '\)') AS by_index
FROM (VALUES ('r = 3::bigint', $$r = '3'::ratio$$), ('r < 10', $$r < '10'::ratio$$), ('10 >= r', $$r <= '10'::ratio$$), ('r > 0.5', $$r > '1/2'::ratio$$), ('0.5 <> r AND r = 2::smallint', $$r = '2'::ratio$$),
    ('r IN (0.5, 3)', $$r = ANY \('\{1/2,3\}'::ratio\[\]\)$$)) rows(q, condition);
SELECT plan_has('SELECT count(*) FROM numbers JOIN t ON r = n', 'Index Cond: \(r = \(numbers.n\)::ratio\)') AS by_index, (SELECT count(*) FROM numbers JOIN t ON r = n) AS joined,
    (SELECT count(*) FROM t JOIN numbers ON numerator(r) = n AND denominator(r) = 1) AS wanted;
CREATE TABLE by_index AS TABLE counts;
RESET enable_seqscan; SET enable_indexscan = off; SET enable_bitmapscan = off; SET enable_indexonlyscan = off;
CREATE TABLE by_scan AS TABLE counts;
RESET ALL;
SELECT count(*) > 50 AS are_many FROM by_index;
TABLE by_index EXCEPT TABLE by_scan;
SELECT count(*) FROM by_scan WHERE lt + eq <> le OR ge - eq <> gt OR lt + ge <> (SELECT count(r) FROM t);
-- the hash index alone
DROP INDEX t_btree;
SET enable_seqscan = off;
EXPLAIN (COSTS OFF) SELECT count(*) FROM t WHERE r = '1/7';
SELECT count(*) FROM by_scan p WHERE eq <> (SELECT count(*) FROM t WHERE t.r = p.r);
RESET ALL;
CREATE INDEX t_btree ON t (r DESC NULLS FIRST);
-- PostgreSQL's own check of the index
CREATE EXTENSION amcheck;
SELECT bt_index_check('t_btree', true), bt_index_parent_check('t_btree', true, true);
DROP EXTENSION amcheck;
-- sorted rows are in order by numeric, too
SELECT count(*) AS wrong FROM (SELECT r, lag(r) OVER (ORDER BY r) AS before FROM t WHERE r IS NOT NULL) sorted
WHERE numerator(before)::numeric * denominator(r) > numerator(r)::numeric * denominator(before);
SELECT count(*) AS wrong FROM (SELECT r, lag(r) OVER (ORDER BY r DESC NULLS LAST) AS before FROM t) sorted
WHERE numerator(before)::numeric * denominator(r) < numerator(r)::numeric * denominator(before);
-- so are those of a sort that goes to disk
SET work_mem = '64kB'; SET enable_indexscan = off; SET enable_indexonlyscan = off;
SELECT plan_has('SELECT r FROM t ORDER BY r', 'Sort Method: external merge') AS on_disk;
SELECT count(*), count(*) FILTER (WHERE numerator(before)::numeric * denominator(r) > numerator(r)::numeric * denominator(before)) AS wrong
FROM (SELECT r, lag(r) OVER () AS before FROM (SELECT r FROM t ORDER BY r) s) sorted;
RESET ALL;
-- fractions so near to one another that the first 56 digits of their values are the same
SELECT count(*), count(*) FILTER (WHERE i <> place) AS wrong FROM (SELECT i, row_number() OVER (ORDER BY ratio(9223372036854775807 - 1000 + i, 9223372036854775807 - 999 + i)) AS place
    FROM generate_series(1, 999) i) sorted;
SELECT min(r), max(r), count(r), count(DISTINCT r) FROM t;
SELECT min(r), max(r) FROM t WHERE r IS NULL;
-- a unique column takes one value once
CREATE TABLE only_once (r ratio PRIMARY KEY);
INSERT INTO only_once VALUES ('1/2'), ('-3');
SELECT q, refusal('INSERT INTO only_once VALUES ' || q) FROM unnest('{"(''2/4'')","(''3/-1'')","(ratio(5, 10))"}'::text[]) q;
DROP TABLE only_once;
-- joins and groups in each way
CREATE VIEW joined AS SELECT count(*) AS pairs, min(a.r) AS least, max(a.r) AS greatest FROM t a JOIN t b USING (r);
SET enable_hashjoin = off; SET enable_nestloop = off; SET enable_mergejoin = on;
EXPLAIN (COSTS OFF) TABLE joined;
TABLE joined;
SET enable_hashjoin = on; SET enable_mergejoin = off;
EXPLAIN (COSTS OFF) TABLE joined;
TABLE joined;
RESET ALL;
SELECT sum(n * n)::int8 AS pairs FROM (SELECT count(*) AS n FROM t WHERE r IS NOT NULL GROUP BY numerator(r), denominator(r)) g;
SET enable_sort = off; SET enable_indexscan = off; SET enable_indexonlyscan = off;
EXPLAIN (COSTS OFF) SELECT r, count(*) FROM t GROUP BY r;
CREATE TABLE by_hash AS SELECT r, count(*) FROM t GROUP BY r;
RESET ALL; SET enable_hashagg = off;
CREATE TABLE by_sort AS SELECT r, count(*) FROM t GROUP BY r;
RESET ALL;
TABLE by_hash EXCEPT TABLE by_sort;
SELECT (SELECT count(*) FROM by_hash) = (SELECT count(*) FROM by_sort) AS as_many;
-- the short hash is the lower half of the long one with the seed 0, and seeds give other hashes
SELECT count(*) FROM hard WHERE ratio_hash_extended(r, 0) & 4294967295 <> ratio_hash(r)::int8 & 4294967295 OR ratio_hash_extended(r, 1) = ratio_hash_extended(r, 0);
SELECT ratio_hash('2/4') = ratio_hash('1/2'), ratio_hash('-2/4') = ratio_hash(ratio(1, -2)), ratio_hash(0) = ratio_hash('0/9');
-- of 10,001 fractions over 7, tables of 2^14 places get as many as good hashes would: about 7500
SELECT count(DISTINCT ratio_hash(ratio(i - 5000, 7)) & 16383) BETWEEN 7300 AND 10001 AS is_spread FROM generate_series(0, 10000) i;
DROP VIEW counts, joined;
DROP TABLE t, by_index, by_scan, by_hash, by_sort;
