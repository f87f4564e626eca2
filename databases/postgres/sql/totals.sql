-- Totals that no order, no plan and no worker can change. The values are those that Python's fractions give.
-- 300,000 entries: 150,000 fractions over 2999 denominators, and then the reversal of each
CREATE TABLE entries AS SELECT i, s, ratio(s * (1 - 2 * (i % 2)) * (1 + i % 9), 1000 + i % 2999) AS r FROM generate_series(0, 149999) i, (VALUES (1), (-1)) signs(s) ORDER BY s DESC, i;
ALTER TABLE entries SET (parallel_workers = 4);
ANALYZE entries;
CREATE VIEW answers AS SELECT sum(r), avg(r), total(r), ratio_count(total(r)) FROM entries;
SET parallel_setup_cost = 0; SET parallel_tuple_cost = 0; SET min_parallel_table_scan_size = 0;
SET max_parallel_workers_per_gather = 0; TABLE answers;
SET max_parallel_workers_per_gather = 1; SELECT plan_has('TABLE answers', 'Workers Planned: 1'); TABLE answers;
SET max_parallel_workers_per_gather = 2; SELECT plan_has('TABLE answers', 'Workers Planned: 2'); TABLE answers;
SET max_parallel_workers_per_gather = 4; SELECT plan_has('TABLE answers', 'Workers Planned: 4'); TABLE answers;
-- the first half alone does not fit, and is rounded: the same with any number of workers
CREATE VIEW half AS SELECT ratio_round(total(r), 20), ratio_round(total(r), 20) = -0.00424483170109447753 AS is_right, md5(total(r)::text) FROM entries WHERE s = 1;
CREATE TABLE halves AS TABLE half;
SET max_parallel_workers_per_gather = 2; INSERT INTO halves TABLE half;
SET max_parallel_workers_per_gather = 1; INSERT INTO halves TABLE half;
SET max_parallel_workers_per_gather = 0; INSERT INTO halves TABLE half;
SELECT count(*), count(DISTINCT md5), min(ratio_round), bool_and(is_right) AS are_right FROM halves;
SELECT refusal('SELECT sum(r) FROM entries WHERE s = 1');
-- sorted, and at random
SELECT sum(r ORDER BY r), sum(r ORDER BY r DESC), sum(r ORDER BY md5(i || ' ' || s)), sum(r ORDER BY i) FROM entries;
SELECT sum(r), count(*) FROM (SELECT sum(r) AS r FROM entries GROUP BY i) by_pair;
-- partition by partition: here the entries, there the reversals
CREATE TABLE parted (i int, s int, r ratio) PARTITION BY LIST (s);
CREATE TABLE parted1 PARTITION OF parted FOR VALUES IN (1);
CREATE TABLE parted2 PARTITION OF parted FOR VALUES IN (-1);
INSERT INTO parted TABLE entries;
ANALYZE parted;
SET enable_partitionwise_aggregate = on;
SELECT plan_has('SELECT sum(r) FROM parted', 'Append') AND plan_has('SELECT sum(r) FROM parted', 'Partial Aggregate') AS by_parts;
SELECT sum(r), avg(r), total(r) FROM parted;
RESET enable_partitionwise_aggregate;
-- A window that moves over all of it, by blocks of 5000 fractions, their reversals and one more fraction. A read of so many denominators takes
-- long, so that each block is read once: all its rows have the same frame.
CREATE VIEW moving AS SELECT block, count(*), min(sum), max(sum), min(fraction) AS wanted FROM (
    SELECT block, sum(r) OVER w, ratio(2 * block - 1, 7) AS fraction
    FROM (SELECT i / 5000 AS block, s, i, r FROM entries UNION ALL SELECT b, 0, 0, ratio(b, 7) FROM generate_series(0, 29) b) blocks
    WINDOW w AS (ORDER BY block GROUPS BETWEEN 1 PRECEDING AND CURRENT ROW)) sums GROUP BY block;
SELECT count(*), sum(count) AS rows, count(*) FILTER (WHERE min <> max OR min <> wanted) AS wrong FROM moving WHERE block > 0;
-- a window whose rows come and go one by one, over a denominator for each
SELECT count(*), count(*) FILTER (WHERE sum <> ratio(1, i) + ratio(1, i + 1) AND i < 20000) AS wrong
FROM (SELECT i, sum(ratio(1, i)) OVER (ORDER BY i ROWS BETWEEN CURRENT ROW AND 1 FOLLOWING) FROM generate_series(1, 20000) i) sums;
RESET ALL;
DROP VIEW answers, half, moving;
DROP TABLE entries, halves, parted;
-- 1/1 + 1/2 + .. + 1/1000 has numbers of 1441 bits
SELECT refusal('SELECT sum(ratio(1, i)) FROM generate_series(1, 1000) i'), refusal('SELECT avg(ratio(1, i)) FROM generate_series(1, 1000) i');
SELECT refusal('SELECT total(ratio(1, i))::ratio FROM generate_series(1, 1000) i');
CREATE TABLE harmonic AS SELECT total(ratio(1, i)) AS t FROM generate_series(1, 1000) i;
SELECT ratio_round(t, 20), ratio_round(t, 0), t::numeric, t::numeric(10, 5), t::numeric(3, -1), ratio_count(t) FROM harmonic;
SELECT ratio_round(t, 100) = 7.4854708605503449126565182043339001765216791697088036657736267499576993491652024409599344374118450814 AS is_right,
    length(ratio_round(t, 16383)::text), round(ratio_round(t, 16383), 100) = ratio_round(t, 100) AS agree FROM harmonic;
SELECT ratio_round(total(r), 30) = -13988921672567883922.037532104500503016527987971675 AS is_right,
    ratio_round(total(r) FILTER (WHERE r > 0), 38) = 77502532105522579752.53812012635364995106823871430867672402 AS is_right_too FROM hard;
SELECT ratio_round(total(ratio(1, i)), 40) = 10.4807282172293275728144600302160318614309 AS is_right, ratio_count(total(ratio(1, i))) FROM generate_series(1, 20000) i;
-- more than 1000 denominators are read in steps, as few are at once: 1/(1 * 2) + 1/(2 * 3) + .. + 1/(n * (n + 1)) is n/(n + 1)
CREATE TABLE chains AS SELECT n, (SELECT total(ratio(1, i * (i + 1))) FROM generate_series(1, n) i) AS t FROM unnest('{1000,1001,1500,20000}'::int[]) n;
SELECT n, t::ratio, ('0' - t)::ratio AS negative, (SELECT avg(t) FROM (VALUES (t)) one(t)) AS mean, t::float8 = n / (n + 1::float8) AS is_nearest,
    t = ratio(n, n + 1) AS eq, t < ratio(n, n + 1)::ratio_total + '1/9223372036854775783' AS lt FROM chains;
SELECT n, ratio_round(t + ratio(1, n + 1) + '1/200', 2) AS tie, ratio_round('0' - t - ratio(1, n + 1) - '1/200', 2) AS negative, (t + ratio(1, n + 1) + '4')::numeric(3, -1) AS tens,
    ratio_round(t, 16383) = ratio_round(ratio(n, n + 1)::ratio_total, 16383) AS is_right FROM chains;
SELECT n, refusal(format('SELECT (t + ''1/9223372036854775783'')::ratio FROM chains WHERE n = %s', n)) FROM chains WHERE n > 1500;
DROP TABLE chains;
-- a common denominator of more than 2^20 bits: the total is kept, its decimal needs no common denominator, and a difference is read
CREATE TABLE long AS SELECT total(ratio(1, 9223372036854775807 - i)) AS t FROM generate_series(1, 25000) i;
SELECT refusal('SELECT t::ratio FROM long'), ratio_round(t, 38) = 0.00000000000000271050543121376475887929 AS is_right FROM long;
SELECT t = t AS same, (t - (SELECT total(ratio(1, 9223372036854775807 - i)) FROM generate_series(1, 24999) i))::ratio, ratio_count(t) FROM long;
SELECT refusal('SELECT t::float8 FROM long');
DROP TABLE long;
-- totals that leave 64 bits: stored, compared, added again
CREATE TABLE days AS SELECT i % 10 AS day, total(ratio(1, i)) AS t FROM generate_series(1, 1000) i GROUP BY 1;
SELECT count(*) FILTER (WHERE refusal(format('SELECT t::ratio FROM days WHERE day = %s', day)) LIKE '22003%') AS too_long FROM days;
SELECT array_agg(day ORDER BY t) = '{0,9,8,7,6,5,4,3,2,1}' AS by_value, array_agg(ratio_round(t, 20) ORDER BY t) = '{0.51873775176396202608,0.53640932906651943663,0.55731784033807022397,
    0.58271958923262335977,0.61467930584875600966,0.65686843786032686913,0.71655584051789354708,0.81056965888275192424,0.98912097652658049470,1.50249213051286102140}' AS are_right FROM days;
SELECT sum(t) = (TABLE harmonic) AS same, sum(t)::text = (TABLE harmonic)::text AS same_slots, ratio_round(sum(t), 20), ratio_count(sum(t)) FROM days;
SELECT t - (SELECT sum(t) FROM days WHERE day > 0) = (SELECT t FROM days WHERE day = 0) AS same, t - t AS none, t - t = '0' AS is_zero, ratio_count(t + t) FROM harmonic;
SELECT (t - (SELECT total(ratio(1, i)) FROM generate_series(1, 999) i))::ratio, t - '1/2' < t AS lt, '1/2'::ratio + t > t AS gt, t + '1/3'::ratio - '1/3' = t AS eq FROM harmonic;
SELECT count(*), count(*) FILTER (WHERE (a.t < b.t) <> (a.place < b.place) OR (a.t <= b.t) <> (a.place <= b.place) OR (a.t = b.t) <> (a.place = b.place)
    OR (a.t <> b.t) <> (a.place <> b.place) OR (a.t >= b.t) <> (a.place >= b.place) OR (a.t > b.t) <> (a.place > b.place)) AS wrong
FROM (SELECT t, (10 - day) % 10 AS place FROM days) a, (SELECT t, (10 - day) % 10 AS place FROM days) b;
-- a difference of 1/9223372036854775783 - 1/9223372036854775643 counts
SELECT t + '1/9223372036854775783' < t + '1/9223372036854775643' AS lt, t + '1/9223372036854775783' = t + '1/9223372036854775643' AS eq FROM harmonic;
-- an index, a merge join, and one value in unlike slots
CREATE TABLE parts AS SELECT k, total(ratio(1 + i % 7, 1 + i % 11)) AS t FROM generate_series(1, 500) k, generate_series(1, 20) i WHERE i <= 5 + k % 13 GROUP BY k;
INSERT INTO parts VALUES (0, '{2; 2/4, 4/8}'), (-1, '{1; 1}'), (-2, '{3; 1/3, 1/9, 5/9}');
CREATE INDEX ON parts (t);
ANALYZE parts;
SET enable_seqscan = off;
SELECT count(*) FROM parts WHERE t = '1';
SELECT plan_has('SELECT count(*) FROM parts WHERE t = ''1''', 'Index') AS by_index;
SET enable_hashjoin = off; SET enable_nestloop = off;
SELECT plan_has('SELECT count(*) FROM parts a JOIN parts b USING (t)', 'Merge Join') AS by_merge;
SELECT count(*), (SELECT count(*) FROM parts a, parts b WHERE a.t::ratio = b.t::ratio) AS wanted FROM parts a JOIN parts b USING (t);
RESET ALL;
SELECT count(*) AS wrong FROM parts a, parts b WHERE (a.t < b.t) <> (a.t::ratio < b.t::ratio);
SELECT count(*) AS wrong FROM (SELECT t::ratio AS r, lag(t::ratio) OVER (ORDER BY t) AS before FROM parts) sorted WHERE before > r;
-- sums of totals: the mean counts the fractions, in workers and in windows
ALTER TABLE parts SET (parallel_workers = 2);
CREATE VIEW answers AS SELECT sum(t)::text, sum(t)::ratio AS ratio, avg(t), ratio_count(sum(t)) FROM parts;
SET parallel_setup_cost = 0; SET parallel_tuple_cost = 0; SET min_parallel_table_scan_size = 0;
SELECT plan_has('TABLE answers', 'Workers Planned: 2') AS by_workers;
CREATE TABLE by_workers AS TABLE answers;
-- totals of no fraction are totals, too
CREATE TABLE empty AS SELECT '{0; 1/2}'::ratio_total AS t FROM generate_series(1, 10000);
ALTER TABLE empty SET (parallel_workers = 2);
SELECT plan_has('SELECT sum(t) FROM empty', 'Workers Planned: 2') AS by_workers;
SELECT sum(t), avg(t) FROM empty;
DROP TABLE empty;
SET max_parallel_workers_per_gather = 0;
SELECT count(*) AS same, bool_and(avg * ratio_count = ratio) AS agree FROM (TABLE by_workers INTERSECT TABLE answers) both_ways;
SELECT (SELECT sum(t::ratio) FROM parts) = ratio AS agree, (SELECT sum(ratio_count(t)) FROM parts) = ratio_count AS as_many FROM by_workers;
RESET ALL;
SELECT k, sum(t) OVER w, avg(t) OVER w FROM (VALUES (1, '{2; 1/2, 1/3}'::ratio_total), (2, NULL), (3, NULL), (4, '{0}'), (5, '{3; 9/4}')) rows(k, t)
WINDOW w AS (ORDER BY k ROWS BETWEEN CURRENT ROW AND 1 FOLLOWING);
SELECT total(r), sum(r::ratio_total), avg(r::ratio_total) FROM unnest('{1/2,NULL,1/3,1/2,-7}'::ratio[]) r;
SELECT total(r), sum(r::ratio_total), avg(r::ratio_total) FROM hard WHERE false;
DROP VIEW answers;
DROP TABLE parts, by_workers;
-- the nearest float, and of two that are as near the even one. The values are those that Python's fractions give.
SELECT t::float8 = 7.485470860550345 AS is_right, ('0' - t)::float8 = -7.485470860550345 AS is_right_too, (t - 7.485470860550345::float8::ratio)::float8 = -1.387086659858835e-16 AS the_rest FROM harmonic;
SELECT total(ratio(1, i))::float8 = 10.480728217229327 AS is_right FROM generate_series(1, 20000) i;
SELECT count(*), count(*) FILTER (WHERE t::float8 IS DISTINCT FROM wanted) AS wrong FROM (VALUES ('{0}'::ratio_total, 0::float8), ('{1; 170141183460469231731687303715884105727/3}', 5.671372782015641e+37),
    ('{1; -170141183460469231731687303715884105728}', -1.7014118346046923e+38), ('{1; 1/9223372036854775807}', 1.0842021724855044e-19),
    ('{2; 1/9223372036854775783, -1/9223372036854775643}', -1.6456920911512025e-36), ('{1; 9007199254740993}', 9007199254740992), ('{1; 9007199254740995}', 9007199254740996),
    ('{2; 9007199254740993, 1/3}', 9007199254740994), ('{2; 1/2, -1/2}', 0)) rows(t, wanted);
-- each ratio as a total has the float of the ratio
SELECT count(*), count(*) FILTER (WHERE r::ratio_total::float8 <> r::float8) AS wrong FROM hard;
-- text: {count; numerator/denominator, ..}
SELECT t, t::ratio_total FROM unnest(ARRAY['{0}', '{0;0}', '{3; 5, 1/2}', ' { 2 ;-1/3,2/3 , 4/2,0/7} ', '{-1; 1/9223372036854775807}', '{9223372036854775807; 170141183460469231731687303715884105727/3}',
    '{1;-170141183460469231731687303715884105728}', '1/2', ' 1 1/2 ', '0', '-0.25']) t;
SELECT t, refusal(format('SELECT %L::ratio_total', t)) FROM unnest(ARRAY['', '{', '{}', '{;1}', '{1', '{1;}', '{1; 1/}', '{1; /2}', '{1; 1/0}', '{1; 1/-2}', '{1; 1,}', '{1; 1} x', '{1 2}', '{1; +1}', '{1; 1.5}', 'x',
    '{9223372036854775808}', '{1; 1/9223372036854775808}', '{1; 170141183460469231731687303715884105728}', '{1; 170141183460469231731687303715884105727/2, 1/2}',
    '{1; 99999999999999999999999999999999999999999999999999}', '1/0']) t;
SELECT refusal('SELECT ''{1; 170141183460469231731687303715884105727}''::ratio_total + ''1'''), refusal('SELECT ''{1; -170141183460469231731687303715884105728}''::ratio_total - ''1'''),
    refusal('SELECT ''{9223372036854775807}''::ratio_total + ''1'''), refusal('SELECT sum(t) FROM unnest(''{"{1; 170141183460469231731687303715884105727}","{1; 1}"}''::ratio_total[]) t');
SELECT ratio_round('{1; 170141183460469231731687303715884105727/3}'::ratio_total, 2), ratio_round('{1; -1/200}'::ratio_total, 2), ratio_round('{1; -1/300}'::ratio_total, 2),
    '{2; 9223372036854775807, 1}'::ratio_total::numeric, refusal('SELECT ''{2; 9223372036854775807, 1}''::ratio_total::ratio'), '{1; -9223372036854775808}'::ratio_total::ratio;
SELECT places, refusal(format('SELECT ratio_round(''{1; 1/3}''::ratio_total, %s)', places)) FROM unnest('{-1,16384}'::int[]) places;
SELECT '{2; 1/3, -1/2}'::ratio_total::ratio, '{2; 1/3, -1/3}'::ratio_total::ratio, '{0}'::ratio_total::ratio, ratio_total('6/4'), ratio_count('{7; 1/2}');
SELECT refusal('SELECT avg(t) FROM unnest(''{"{0; 1/2}"}''::ratio_total[]) t'), refusal('SELECT avg(t) FROM unnest(''{"{-2; 1/2}"}''::ratio_total[]) t'), refusal('SELECT DISTINCT ''{1}''::ratio_total');
-- an expression takes the ratio that it names, and a total takes a ratio
SELECT pg_typeof('1/2' + '1/2'::ratio), pg_typeof('1/2'::ratio + '{1; 1/2}'::ratio_total), pg_typeof(ratio_round('2/3', 2)), '{1; 1/2}'::ratio_total = '1/2'::ratio AS eq,
    pg_typeof((SELECT sum(x) FROM (VALUES (1), (2)) v(x))), pg_typeof((SELECT sum(t) FROM days));
DROP TABLE harmonic, days;
-- Denominators that someone chose so that they have one place in a table take no longer than others. Those of the first list are multiples of
-- one number: they have one place in each table, if its length does not matter. Those of the second list have one in a table of 87,381 slots,
-- which each had that holds so many, before the length was random. Each list has 60,000, and each of them 30 rows.
CREATE FUNCTION chosen(start numeric, step numeric) RETURNS SETOF ratio LANGUAGE sql AS $$
SELECT ratio(1, d::int8) FROM (SELECT mod((start + n) * step, 18446744073709551616) AS d FROM generate_series(1, 120200) n) multiples WHERE d < 9223372036854775808 LIMIT 60000
$$;
CREATE TABLE lists AS SELECT 1 AS list, chosen(0, 17428512612931826493) AS r UNION ALL SELECT 2, chosen(4294967296, 7756457516036793539);
SELECT list, count(DISTINCT r) FROM lists GROUP BY list ORDER BY list;
SET statement_timeout = '10s';
SELECT ratio_count(total(r)) FROM lists, generate_series(1, 30) WHERE list = 1;
SELECT ratio_count(total(r)) FROM lists, generate_series(1, 30) WHERE list = 2;
-- nor does the whole of two halves, by workers
ALTER TABLE lists SET (parallel_workers = 2);
SET parallel_setup_cost = 0; SET parallel_tuple_cost = 0; SET min_parallel_table_scan_size = 0;
SELECT plan_has('SELECT total(r) FROM lists', 'Workers Planned: 2') AS by_workers;
SELECT ratio_count(total(r)) FROM lists;
RESET ALL;
DROP TABLE lists;
DROP FUNCTION chosen;
