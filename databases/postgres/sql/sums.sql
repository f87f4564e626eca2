-- The aggregates sum and avg.
SELECT sum(r), avg(r) FROM unnest('{1/2,NULL,1/3,1/6}'::ratio[]) r;
SELECT sum(r), avg(r) FROM unnest('{NULL,NULL}'::ratio[]) r;
SELECT sum(r), avg(r) FROM hard WHERE false;
SELECT sum(ratio(1, i)), avg(ratio(1, i)) FROM generate_series(1, 40) i;
SELECT sum(DISTINCT r), avg(r) FILTER (WHERE r > 1), sum(r ORDER BY r DESC) FROM unnest('{1/2,1/2,5/3,7/3}'::ratio[]) r;
-- a result that fits is given, whatever the sums on the way are
SELECT sum(r), avg(r) FROM unnest('{9223372036854775807,1/3,-9223372036854775807,9223372036854775807,-9223372036854775807}'::ratio[]) r;
SELECT avg(r) FROM unnest('{9223372036854775807,9223372036854775805}'::ratio[]) r;
SELECT avg(r) FROM unnest('{-9223372036854775808,-9223372036854775808}'::ratio[]) r;
SELECT refusal('SELECT sum(r) FROM unnest(''{9223372036854775807,1}''::ratio[]) r'), refusal('SELECT avg(r) FROM unnest(''{9223372036854775807,9223372036854775804}''::ratio[]) r');
SELECT refusal('SELECT sum(ratio(1, i)) FROM generate_series(1, 47) i'), refusal('SELECT sum(ratio(1, i)) FROM generate_series(1, 1000) i');
-- beside numeric, which is exact over one denominator: 840 is a multiple of 1 to 8
CREATE TABLE big AS SELECT i, i % 100 AS part, ratio(i * 7919 % 100003 - 50000, 1 + i % 8) AS r FROM generate_series(1, 100000) i;
ANALYZE big;
CREATE VIEW answers AS SELECT part, sum(r), avg(r), count(r) FROM big GROUP BY part;
SET max_parallel_workers_per_gather = 0;
CREATE TABLE by_one AS TABLE answers;
SELECT count(*), count(*) FILTER (WHERE a.sum::text <> lowest(n.n, 840) OR a.avg::text <> lowest(n.n, 840 * a.count)) AS wrong
FROM by_one a JOIN (SELECT part, sum(numerator(r)::numeric * (840 / denominator(r))) AS n FROM big GROUP BY part) n USING (part);
SELECT sum(r), avg(r), sum(r) = 100000 * avg(r) AS agree FROM big;
-- parallel workers give the same
SET parallel_setup_cost = 0; SET parallel_tuple_cost = 0; SET min_parallel_table_scan_size = 0; SET max_parallel_workers_per_gather = 2;
EXPLAIN (COSTS OFF) SELECT sum(r), avg(r) FROM big;
SELECT sum(r), avg(r) FROM big;
CREATE TABLE by_workers AS TABLE answers;
SELECT count(*) FROM (TABLE by_one EXCEPT TABLE by_workers) other;
SELECT refusal('SELECT sum(ratio(1, i)) FROM big WHERE i <= 1000');
-- so does the JIT compiler, in each worker
SET jit = on; SET jit_above_cost = 0; SET jit_inline_above_cost = 0; SET jit_optimize_above_cost = 0;
SELECT plan_has('TABLE answers', '^JIT:') AS by_jit, plan_has('TABLE answers', 'Partial .*Aggregate') AS by_workers;
CREATE TABLE by_jit AS TABLE answers;
SELECT count(*) FROM (TABLE by_one EXCEPT TABLE by_jit) other;
RESET ALL;
-- so do partial sums of partitions
SET max_parallel_workers_per_gather = 0; SET enable_partitionwise_aggregate = on;
CREATE TABLE parted (i int, part int, r ratio) PARTITION BY HASH (r);
CREATE TABLE parted0 PARTITION OF parted FOR VALUES WITH (MODULUS 2, REMAINDER 0);
CREATE TABLE parted1 PARTITION OF parted FOR VALUES WITH (MODULUS 2, REMAINDER 1);
INSERT INTO parted TABLE big;
ANALYZE parted;
EXPLAIN (COSTS OFF) SELECT sum(r), avg(r) FROM parted;
SELECT sum(r), avg(r) FROM parted;
RESET ALL;
-- windows that move: each gives the sum and the mean of its rows
SELECT i, sum(ratio(1, i)) OVER w, avg(ratio(1, i)) OVER w FROM generate_series(1, 6) i WINDOW w AS (ORDER BY i ROWS 1 PRECEDING);
SELECT i, sum(CASE WHEN i % 3 > 0 THEN ratio(1, i) END) OVER w FROM generate_series(1, 7) i WINDOW w AS (ORDER BY i ROWS BETWEEN CURRENT ROW AND 1 FOLLOWING);
-- a window whose rows are all NULL, once its value has left, and a window that gets a value again
SELECT i, sum(r) OVER w, avg(r) OVER w FROM (VALUES (1, '1/2'::ratio), (2, NULL), (3, NULL), (4, '1/3')) rows(i, r) WINDOW w AS (ORDER BY i ROWS BETWEEN CURRENT ROW AND 1 FOLLOWING);
SELECT count(*), count(*) FILTER (WHERE moving <> (SELECT sum(b.r) FROM big b WHERE b.i BETWEEN m.i - 9 AND m.i)
    OR mean <> (SELECT avg(b.r) FROM big b WHERE b.i BETWEEN m.i - 9 AND m.i)) AS wrong
FROM (SELECT i, sum(r) OVER w AS moving, avg(r) OVER w AS mean FROM big WHERE i <= 300 WINDOW w AS (ORDER BY i ROWS 9 PRECEDING)) m;
-- by a number of groups
SELECT r, sum(r) OVER (ORDER BY r GROUPS 1 PRECEDING) FROM unnest('{1/2,1/3,1/2,1/6}'::ratio[]) r;
-- No order of the rows loses a sum. The fractions below are 1/p for large primes p, and their negatives. In pairs each sum on the way is
-- small. In the other order it has a denominator of 252 bits.
CREATE TABLE pairs AS SELECT p, s, ratio(s, p) AS r FROM unnest('{9223372036854775783,9223372036854775643,9223372036854775549,9223372036854775507}'::int8[]) p, unnest('{1,-1}'::int[]) s;
SELECT sum(r ORDER BY p, s), sum(r ORDER BY s, p), sum(r ORDER BY s DESC, p) FROM pairs;
-- so it is in windows, whole and moving
SELECT DISTINCT sum(r) OVER (ORDER BY s, p ROWS BETWEEN UNBOUNDED PRECEDING AND UNBOUNDED FOLLOWING) FROM pairs;
SELECT count(*), bool_and(falls = grows) AS same FROM (SELECT total(r) OVER (ORDER BY s, p ROWS BETWEEN CURRENT ROW AND 7 FOLLOWING) AS falls,
    total(r) OVER (ORDER BY s DESC, p DESC) AS grows FROM pairs) both_ways;
-- a window where the rest of its rows needs three large denominators on the way
SELECT i, sum(r) OVER w, avg(r) OVER w FROM (VALUES (1, '1/9223372036854775783'::ratio), (2, '1/9223372036854775643'),
    (3, '-1/9223372036854775783'), (4, '-1/9223372036854775643'), (10, '30/9223372036854775549'), (56, '30/9223372036854775549')) rows(i, r)
WINDOW w AS (ORDER BY i RANGE BETWEEN 46 PRECEDING AND 46 FOLLOWING);
-- a ledger: a million shares add up to the whole, account by account
CREATE TABLE ledger AS
SELECT account, ratio(account + 1, 100) * part / 1000 AS share FROM generate_series(0, 999) account, (SELECT i AS k, ratio(2 * i, 1001) AS part FROM generate_series(1, 1000) i) parts;
SELECT count(*), sum(share) FROM ledger;
SELECT count(*) AS accounts, bool_and(total = ratio(account + 1, 100)) AS each_is_whole FROM (SELECT account, sum(share) AS total FROM ledger GROUP BY account) sums;
DROP VIEW answers;
DROP TABLE big, by_one, by_workers, by_jit, parted, pairs, ledger;
