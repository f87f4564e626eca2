-- Any two totals are ordered by their values, whatever their counts and numerators are. What Python is said to give, its fractions gave for the same totals.
CREATE TABLE ends AS SELECT t, place FROM (VALUES (1, '{1; -170141183460469231731687303715884105728}'::ratio_total), (1, '{-9223372036854775808; -170141183460469231731687303715884105728}'),
    (2, '{0; -170141183460469231731687303715884105728, 1/9223372036854775807}'), (3, '{9223372036854775807; -170141183460469231731687303715884105727}'),
    (4, '{1; -170141183460469231731687303715884105728/3}'), (5, '{1; -1/9223372036854775807}'), (6, '{0}'), (6, '{-9223372036854775808; 1/2, -2/4}'), (6, '{9223372036854775807}'),
    (7, '{-9223372036854775808; 1}'), (7, '{1; 1}'), (8, '{1; 170141183460469231731687303715884105727/3}'), (9, '{1; 170141183460469231731687303715884105727}'),
    (10, '{-1; 170141183460469231731687303715884105727, 170141183460469231731687303715884105727/2}'),
    (10, '{-1; 170141183460469231731687303715884105726, 170141183460469231731687303715884105727/2, 3/3}')) rows(place, t);
SELECT count(*), count(*) FILTER (WHERE ratio_total_cmp(a.t, b.t) <> sign(a.place - b.place) OR (a.t < b.t) <> (a.place < b.place) OR (a.t <= b.t) <> (a.place <= b.place) OR (a.t = b.t) <> (a.place = b.place)
    OR (a.t <> b.t) <> (a.place <> b.place) OR (a.t >= b.t) <> (a.place >= b.place) OR (a.t > b.t) <> (a.place > b.place)) AS wrong FROM ends a, ends b;
-- 100,000 totals: each of 20,000 values in five ways, with other denominators and another count. `model` is the value by their common denominator.
CREATE TABLE hostile AS
SELECT i, b, (CASE i / 20000 WHEN 0 THEN format('{9223372036854775807; %s/%s, %s/%s}', n, d, e, q)
    WHEN 1 THEN format('{-9223372036854775808; %s/%s, %s/%s, %s/%s}', n - s, d, 2 * s, 2 * d, e, q)
    WHEN 2 THEN format('{0; %s/%s, %s/%s, %s/%s}', n - s, d, 3 * s, 3 * d, e, q)
    WHEN 3 THEN format('{1; %s/%s, %s/%s, -5/5}', n, d, e + q, q)
    ELSE format('{-1; %s/%s, %s/%s, %s/%s, %s/%s, 7/7}', n - 2 * s, d, 2 * s, 2 * d, 3 * s, 3 * d, e - q, q) END)::ratio_total AS t,
    n * div(common, d) + e * div(common, q) AS model
FROM (SELECT i, i % 20000 AS b, numers[1 + i % 20000 % 12]::numeric AS n, sign(numers[1 + i % 20000 % 12])::numeric AS s, denoms[1 + i % 20000 / 12 % 8] AS d, primes[1 + i % 20000 / 96 % 4] AS q,
        i % 20000 / 384 - 26 AS e, denoms[6] * denoms[7] * 288230376151711744 * 3000 * primes[1] * primes[2] * primes[3] * primes[4] AS common
    FROM generate_series(0, 99999) i, (VALUES ('{-170141183460469231731687303715884105728,-170141183460469231731687303715884105727,-170141183460469231731687303715884105726,-85070591730234615865843651857942052864,
        -18446744073709551617,-1,1,18446744073709551616,85070591730234615865843651857942052864,170141183460469231731687303715884105725,170141183460469231731687303715884105726,170141183460469231731687303715884105727}'::numeric[],
        '{1,2,3,4,1000,2147483647,2305843009213693951,2305843009213693952}'::numeric[],
        '{9223372036854775783,9223372036854775643,9223372036854775549,9223372036854775507}'::numeric[])) ends(numers, denoms, primes)) parts;
ANALYZE hostile;
-- sorted, by an index, and by a merge join
SELECT md5(string_agg(i::text, ',' ORDER BY t, i)) = 'bb0180ccc1860c6ccfded5996d2ca83f' AS as_python, md5(string_agg(i::text, ',' ORDER BY model, i)) = 'bb0180ccc1860c6ccfded5996d2ca83f' AS model_too FROM hostile;
CREATE INDEX ON hostile (t, i);
SET enable_seqscan = off; SET enable_bitmapscan = off; SET enable_sort = off;
SELECT plan_has('SELECT i FROM hostile ORDER BY t, i', 'Index .*Scan using hostile_t_i_idx') AS by_index;
SELECT md5(string_agg(i::text, ',')) = 'bb0180ccc1860c6ccfded5996d2ca83f' AS as_python FROM (SELECT i FROM hostile ORDER BY t, i) sorted;
RESET ALL;
SELECT sum(a * b) AS wanted FROM (SELECT count(*) FILTER (WHERE i < 20000) AS a, count(*) FILTER (WHERE i >= 80000) AS b FROM hostile GROUP BY model) ways;
SET enable_hashjoin = off; SET enable_nestloop = off;
SELECT plan_has('SELECT FROM hostile a JOIN hostile b USING (t) WHERE a.i < 20000 AND b.i >= 80000', 'Merge Join') AS by_merge;
SELECT count(*), count(*) FILTER (WHERE a.model <> b.model) AS wrong FROM hostile a JOIN hostile b USING (t) WHERE a.i < 20000 AND b.i >= 80000;
RESET ALL;
-- groups, windows, and a primary key
SELECT count(*) FROM (SELECT FROM hostile GROUP BY t HAVING min(model) = max(model)) groups;
SELECT count(DISTINCT t) = count(DISTINCT model) AS as_many, (SELECT count(*) FROM (SELECT DISTINCT t FROM hostile WHERE i % 8 = 3) kept) = count(DISTINCT model) AS as_many_kept FROM hostile WHERE i % 8 = 3;
SELECT count(*) FILTER (WHERE by_total <> by_model) AS wrong FROM (SELECT rank() OVER (ORDER BY t) AS by_total, rank() OVER (ORDER BY model) AS by_model FROM hostile) ranks;
CREATE TABLE kept (t ratio_total PRIMARY KEY, i int);
INSERT INTO kept SELECT t, i FROM hostile WHERE i % 10 = 3 ORDER BY i ON CONFLICT DO NOTHING;
SELECT count(*), count(*) FILTER (WHERE i >= 20000) AS of_other_ways FROM kept;
SELECT left(refusal('INSERT INTO kept SELECT t, i FROM hostile WHERE i = 80003'), 5) AS code;
ANALYZE kept;
-- in binary
\copy hostile (i, t) TO 'hostile.copied' (FORMAT binary)
CREATE TABLE received (i int, t ratio_total);
\copy received FROM 'hostile.copied' (FORMAT binary)
\! rm -f hostile.copied
SELECT count(*), count(*) FILTER (WHERE r.t <> h.t OR r.t::text <> h.t::text) AS wrong FROM received r JOIN hostile h USING (i);
DROP TABLE ends, hostile, kept, received;
-- 120 totals of 1100 to 2200 denominators: 20 sums of small, great and greatest numerators, each with two others that are near to it, and all in two ways
CREATE TABLE longs AS
SELECT k, format('{%s; %s%s}', k, slots, CASE k % 6 / 2 WHEN 1 THEN ', 1/9223372036854775783, -1/9223372036854775643' WHEN 2 THEN ', -1/9223372036854775783' END)::ratio_total AS t
FROM (SELECT k, string_agg(CASE k % 2 WHEN 0 THEN format('%s/%s', n, j) ELSE format('%s/%s, %s/%s', n - s, j, 10000 * s, 10000 * j) END, ', ') AS slots
    FROM (SELECT k, j, n, CASE WHEN n < 0 THEN -1 ELSE 1 END AS s
        FROM (SELECT k, j, CASE WHEN k / 6 % 3 = 2 THEN numers[1 + (j * (k / 6 % 7 + 1) + j / 12 * (k / 6 / 7)) % 12]
                WHEN k / 6 % 3 = 1 AND j = 1 THEN (k / 6 - 10) * 300 * 18446744073709551616 ELSE (j * 7919 + k / 6) % 2001 - 1000 END AS n
            FROM generate_series(0, 119) k, generate_series(1, 1100) j,
                (VALUES ('{-170141183460469231731687303715884105728,-170141183460469231731687303715884105727,-170141183460469231731687303715884105726,-85070591730234615865843651857942052864,
        -18446744073709551617,-1,1,18446744073709551616,85070591730234615865843651857942052864,170141183460469231731687303715884105725,170141183460469231731687303715884105726,170141183460469231731687303715884105727}'::numeric[])) ends(numers)) rows) numbers GROUP BY k) totals;
SELECT md5(string_agg(k::text, ',' ORDER BY t, k)) = '0b7e80dfe17feb3b254c6407e4b08ee5' AS as_python, count(DISTINCT t) FROM longs;
SELECT count(*) AS wrong FROM longs a JOIN longs b ON a.k / 6 = b.k / 6 WHERE (a.t = b.t) <> (a.k / 2 = b.k / 2) OR ratio_total_cmp(a.t, b.t) <> - ratio_total_cmp(b.t, a.t);
DROP TABLE longs;
-- 2000 slots that are nearly 1, or a little more than 1
SELECT ratio_total_cmp(t, '1999') AS above, ratio_total_cmp(t, '2000') AS below, ratio_total_cmp('0'::ratio_total - t, '-1999') AS negative_below, ratio_total_cmp('0'::ratio_total - t, '-2000') AS negative_above,
    ratio_total_cmp(more, '2000') AS more, ratio_total_cmp('0'::ratio_total - more, '-2000') AS negative_more
FROM (SELECT total(1 - r) AS t, total(1 + r) AS more FROM (SELECT ratio(1, 2147483647 - 2 * i) AS r FROM generate_series(1, 2000) i) odd) ones;
-- A difference of some 2^-849 over a common denominator of more than 2^20 bits. (p + 1)/2p - (p + 3)/(2p + 4) is 1/(p * (p + 2)), and 16,384 of these go to
-- one side or the other so that nearly all is cancelled: as the count of ones in the number is even or odd.
CREATE TABLE near AS SELECT side, total(r) AS t FROM (SELECT length(replace(i::bit(14)::text, '0', '')) % 2 AS side, p, i FROM (SELECT i, 9223372036854775805 - 4 * i AS p FROM generate_series(0::int8, 16383) i) odd) sides,
    LATERAL (VALUES (ratio(p / 2 + 1, p)), (- ratio(p / 2 + 2, p + 2))) pair(r) GROUP BY side;
SELECT ratio_round(a.t - b.t, 255) = 0 AS is_near, ratio_total_cmp(a.t, b.t) AS cmp FROM near a, near b WHERE a.side = 0 AND b.side = 1;
DROP TABLE near;
