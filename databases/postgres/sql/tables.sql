-- Plans: parallel workers, the JIT compiler, and a statement that is cancelled.
CREATE TABLE big AS SELECT i, ratio(i % 1999 - 999, 1 + i % 12) AS r FROM generate_series(1, 100000) i;
ANALYZE big;
CREATE VIEW answers AS SELECT count(*), min(r), max(r), bool_and(r + 1 > r) AS grows FROM big WHERE r % 2 < 1;
CREATE VIEW floors AS SELECT count(DISTINCT floor(r)) AS floors FROM big;
SET parallel_setup_cost = 0; SET parallel_tuple_cost = 0; SET min_parallel_table_scan_size = 0; SET max_parallel_workers_per_gather = 2;
EXPLAIN (COSTS OFF) TABLE answers;
CREATE TABLE by_workers AS TABLE answers;
TABLE floors;
SET max_parallel_workers_per_gather = 0;
CREATE TABLE by_one AS TABLE answers;
TABLE floors;
SET jit = on; SET jit_above_cost = 0; SET jit_inline_above_cost = 0; SET jit_optimize_above_cost = 0;
SELECT pg_jit_available(), plan_has('TABLE answers', '^JIT:') AS by_jit;
CREATE TABLE by_jit AS TABLE answers;
TABLE floors;
RESET ALL;
TABLE by_workers UNION TABLE by_one UNION TABLE by_jit;
-- a statement that takes long can be cancelled
SET statement_timeout = '200ms';
\set VERBOSITY sqlstate
SELECT count(*) FROM big a, big b WHERE a.r + b.r = '1/7';
SELECT r FROM (SELECT a.r FROM big a, big b LIMIT 100000000) many ORDER BY r LIMIT 1;
\set VERBOSITY default
RESET statement_timeout;
DROP VIEW answers, floors;
DROP TABLE big, by_workers, by_one, by_jit;
-- Indexes with many duplicates. Equal values have equal bytes, so a btree keeps each value once, with the places of its rows.
CREATE TABLE often AS SELECT i, ratio(i * 7919 % 100 - 50, 1 + i * 7919 % 100 % 7) AS r FROM generate_series(1, 60000) i;
CREATE INDEX often_once ON often (r);
CREATE INDEX often_each ON often (r) WITH (deduplicate_items = off);
SELECT pg_relation_size('often_once') < pg_relation_size('often_each') / 2 AS is_smaller;
-- rows come and go in the middle of what is kept once
INSERT INTO often SELECT i, ratio(i % 97, 7) FROM generate_series(1, 20000) i;
DELETE FROM often WHERE i % 3 = 0;
VACUUM often;
INSERT INTO often SELECT i, ratio(i % 101 - 50, 7) FROM generate_series(1, 20000) i;
SELECT pg_relation_size('often_once') < pg_relation_size('often_each') / 2 AS is_smaller;
CREATE EXTENSION amcheck;
SELECT bt_index_parent_check('often_once', true, true), bt_index_parent_check('often_each', true, true);
DROP EXTENSION amcheck;
DROP INDEX often_each;
-- by the index, and by the numerators and denominators alone
VACUUM ANALYZE often;
SET enable_seqscan = off; SET enable_sort = off; SET enable_hashagg = off;
EXPLAIN (COSTS OFF) SELECT r, count(*) FROM often GROUP BY r;
CREATE TABLE by_index AS SELECT r, count(*) FROM often GROUP BY r;
RESET ALL;
CREATE TABLE by_numbers AS SELECT numerator(r) AS n, denominator(r) AS d, count(*) FROM often GROUP BY 1, 2;
SELECT count(*) AS wrong FROM by_index i FULL JOIN by_numbers b ON numerator(i.r) = b.n AND denominator(i.r) = b.d WHERE i.count IS DISTINCT FROM b.count;
SELECT count(*) > 100 AS are_many, sum(count) FROM by_index;
DROP TABLE often, by_index, by_numbers;
-- Partitions by hash and by range.
CREATE TABLE by_hash (r ratio) PARTITION BY HASH (r);
CREATE TABLE by_hash0 PARTITION OF by_hash FOR VALUES WITH (MODULUS 4, REMAINDER 0);
CREATE TABLE by_hash1 PARTITION OF by_hash FOR VALUES WITH (MODULUS 4, REMAINDER 1);
CREATE TABLE by_hash2 PARTITION OF by_hash FOR VALUES WITH (MODULUS 4, REMAINDER 2);
CREATE TABLE by_hash3 PARTITION OF by_hash FOR VALUES WITH (MODULUS 4, REMAINDER 3);
INSERT INTO by_hash SELECT r FROM hard UNION ALL SELECT ratio(i, 10) FROM generate_series(1, 4000) i;
SELECT bool_and(n BETWEEN 900 AND 1500) AS is_spread, count(*) FROM (SELECT count(*) AS n FROM by_hash GROUP BY tableoid) parts;
SELECT count(*) AS lost FROM hard h WHERE NOT EXISTS (SELECT 1 FROM by_hash b WHERE b.r = h.r);
EXPLAIN (COSTS OFF) SELECT count(*) FROM by_hash WHERE r = '6/20';
SELECT count(*) FROM by_hash WHERE r = '6/20';
CREATE TABLE by_range (r ratio) PARTITION BY RANGE (r);
CREATE TABLE below PARTITION OF by_range FOR VALUES FROM (MINVALUE) TO ('1/3');
CREATE TABLE above PARTITION OF by_range FOR VALUES FROM ('1/3') TO (MAXVALUE);
INSERT INTO by_range SELECT r FROM hard;
SELECT (SELECT count(*) FROM below) = (SELECT count(*) FROM hard WHERE 3 * numerator(r)::numeric < denominator(r)) AS as_numeric, (SELECT max(r) < '1/3' FROM below) AS below,
    (SELECT min(r) = '1/3' FROM above) AS from_on;
EXPLAIN (COSTS OFF) SELECT count(*) FROM by_range WHERE r < '1/4';
DROP TABLE by_hash, by_range;
-- a million rows, in partitions and by workers. The sums of groups are those of whole numbers over 27720, which each denominator up to 12 divides.
CREATE TABLE many (i int, r ratio) PARTITION BY HASH (r);
CREATE TABLE many0 PARTITION OF many FOR VALUES WITH (MODULUS 2, REMAINDER 0) PARTITION BY RANGE (i);
CREATE TABLE many00 PARTITION OF many0 FOR VALUES FROM (MINVALUE) TO (500000);
CREATE TABLE many01 PARTITION OF many0 FOR VALUES FROM (500000) TO (MAXVALUE);
CREATE TABLE many1 PARTITION OF many FOR VALUES WITH (MODULUS 2, REMAINDER 1);
INSERT INTO many SELECT i, ratio(i % 2001 - 1000, 1 + i % 12) FROM generate_series(1, 1000000) i;
ANALYZE many;
SET parallel_setup_cost = 0; SET parallel_tuple_cost = 0; SET min_parallel_table_scan_size = 0; SET enable_partitionwise_aggregate = on;
EXPLAIN (COSTS OFF) SELECT sum(r) FROM many;
SELECT count(*), sum(r), sum(r) = ratio((SELECT sum((i % 2001 - 1000) * (27720 / (1 + i % 12))::int8) FROM generate_series(1, 1000000) i)::int8, 27720) AS is_right, min(r), max(r), count(DISTINCT r) FROM many;
SELECT plan_has('SELECT r, count(*), sum(r) FROM many GROUP BY r', 'Parallel Append') AS by_workers;
CREATE TABLE by_value AS SELECT r, count(*), sum(r) FROM many GROUP BY r;
SELECT count(*), sum(count) AS rows, count(*) FILTER (WHERE sum <> r * count) AS wrong FROM by_value;
SELECT count(*) AS wrong FROM by_value FULL JOIN (SELECT numerator(r) AS n, denominator(r) AS d, count(*) AS rows FROM many GROUP BY 1, 2) numbers ON (numerator(r), denominator(r)) = (n, d) WHERE count IS DISTINCT FROM rows;
RESET ALL;
DROP TABLE many, by_value;
