-- Windows by RANGE, ranges, exclusion constraints, block ranges and series.
-- Whether a value lies within an offset of another one, beside numeric, which is exact for whole numbers. The sums here need not fit 64 bits.
SELECT count(*), count(*) FILTER (WHERE ratio_in_range(x.r, base.r, off.r, is_less, at_most) <> CASE WHEN at_most THEN order_of <= 0 ELSE order_of >= 0 END) AS wrong,
    count(*) FILTER (WHERE denominator(base.r)::numeric * denominator(off.r) / gcd(denominator(base.r), denominator(off.r)) > 9223372036854775807) > 1000 AS many_do_not_fit
FROM hard x, hard base, hard off, (VALUES (true), (false)) one(is_less), (VALUES (true), (false)) two(at_most),
    LATERAL (SELECT sign(numerator(x.r)::numeric * denominator(base.r) * denominator(off.r)
        - (numerator(base.r)::numeric * denominator(off.r) + CASE WHEN is_less THEN -1 ELSE 1 END * numerator(off.r)::numeric * denominator(base.r)) * denominator(x.r)) AS order_of) truth
WHERE one_in(x.r, 20) AND one_in(base.r, 21) AND one_in(off.r, 22) AND off.r >= 0;
-- the edges, by hand
SELECT ratio_in_range('1/6', '1/2', '1/3', true, true) AS at_edge, ratio_in_range('5/6', '1/2', '1/3', false, false) AS at_upper_edge,
    ratio_in_range('1000000000/6000000001', '1/2', '1/3', true, false) AS below, ratio_in_range('9223372036854775807', '9223372036854775807', '9223372036854775807', false, true) AS past_the_end,
    ratio_in_range('-9223372036854775808', '-9223372036854775808', '1/9223372036854775807', true, true) AS past_the_start;
SELECT refusal('SELECT ratio_in_range(1, 1, ''-1/2'', true, true)');
SELECT refusal('SELECT sum(r) OVER (ORDER BY r RANGE ''-1/2'' PRECEDING) FROM hard');
-- windows over small fractions and over hard ones, beside a count by numeric
CREATE TABLE points AS SELECT i, ratio(i * 7919 % 300 - 150, 1 + i % 12) AS r FROM generate_series(1, 300) i;
CREATE FUNCTION near(x ratio, base ratio, low ratio, high ratio) RETURNS boolean LANGUAGE sql IMMUTABLE AS $$
SELECT (numerator(x)::numeric * denominator(base) - numerator(base)::numeric * denominator(x)) * denominator(low) >= -numerator(low)::numeric * denominator(x) * denominator(base)
    AND (numerator(x)::numeric * denominator(base) - numerator(base)::numeric * denominator(x)) * denominator(high) <= numerator(high)::numeric * denominator(x) * denominator(base)
$$;
SELECT count(*), count(*) FILTER (WHERE n <> (SELECT count(*) FROM points p WHERE near(p.r, w.r, '5/2', '1/3'))) AS wrong, min(n), max(n)
FROM (SELECT r, count(*) OVER (ORDER BY r RANGE BETWEEN '5/2' PRECEDING AND '1/3' FOLLOWING) AS n FROM points) w;
SELECT count(*), count(*) FILTER (WHERE n <> (SELECT count(*) FROM points p WHERE near(p.r, w.r, '1/3', '5/2'))) AS wrong
FROM (SELECT r, count(*) OVER (ORDER BY r DESC RANGE BETWEEN '5/2' PRECEDING AND '1/3' FOLLOWING) AS n FROM points) w;
SELECT count(*), count(*) FILTER (WHERE n <> (SELECT count(*) FROM hard h WHERE near(h.r, w.r, '9223372036854775807/2', '1/4294967296'))) AS wrong
FROM (SELECT r, count(*) OVER (ORDER BY r RANGE BETWEEN '9223372036854775807/2' PRECEDING AND '1/4294967296' FOLLOWING) AS n FROM hard) w;
SELECT r, sum(r) OVER (ORDER BY r RANGE '1/2' PRECEDING), count(*) OVER (ORDER BY r RANGE 1 PRECEDING) FROM unnest('{0, 1/3, 1/2, 5/6, 4/3, NULL}'::ratio[]) r;
-- ranges: between any two fractions there are others, so no bound changes
SELECT ratiorange('1/3', '1/2'), ratiorange(0, 1, '(]'), '[2/4, 3)'::ratiorange, ratiorange('1/2', '1/2'), '(1/2,1/2]'::ratiorange, '(,1/3]'::ratiorange;
SELECT ratiorange(0, 1) @> '1/3'::ratio AS has, ratiorange(0, 1) @> 1::ratio AS has_its_end, ratiorange(0, '1/3') && ratiorange('1/3', 1) AS meet, ratiorange(0, '1/3') -|- ratiorange('1/3', 1) AS touch,
    ratiorange(0, '1/2') * ratiorange('1/3', 1) AS common, ratiorange(0, '1/2') + ratiorange('1/3', 1) AS both, upper(ratiorange(0, '2/4')), ratiorange(0, '1/3') < ratiorange(0, '1/2') AS less;
SELECT range_agg(s) FROM unnest('{"[0,1/3)", "[1/2,1)", "[1/3,2/5]"}'::ratiorange[]) s;
SELECT refusal('SELECT ratiorange(1, 0)'), refusal('SELECT ''[1/0,2)''::ratiorange');
-- the distance, as Python's fractions give it, is rounded once, and no difference is refused
SELECT a, b, ratio_distance(a::ratio, b::ratio) = distance AS is_right FROM (VALUES ('1/2', '1/3', 0.16666666666666666), ('1/3', '1/2', -0.16666666666666666), ('9223372036854775807', '-9223372036854775808', 1.8446744073709552e19),
    ('1/9223372036854775806', '1/9223372036854775807', 1.1754943508222875e-38), ('9223372036854775807/2', '9223372036854775807/3', 1.5372286728091292e18), ('5', '5', 0)) rows(a, b, distance);
-- an index of ranges beside a scan
CREATE TABLE spans AS SELECT i, ratiorange(r, r + ratio(1 + i % 5, 3)) AS s FROM points;
CREATE INDEX spans_gist ON spans USING gist (s);
ANALYZE spans;
SET enable_seqscan = off;
EXPLAIN (COSTS OFF) SELECT count(*) FROM spans WHERE s @> '1/7'::ratio;
CREATE TABLE by_index AS SELECT p.r, (SELECT count(*) FROM spans WHERE s @> p.r) AS has, (SELECT count(*) FROM spans WHERE s && ratiorange(p.r, p.r + '1/2')) AS meets FROM points p;
RESET enable_seqscan; SET enable_indexscan = off; SET enable_bitmapscan = off; SET enable_indexonlyscan = off;
SELECT count(*), count(*) FILTER (WHERE has <> (SELECT count(*) FROM spans WHERE lower(s) <= r AND r < upper(s)) OR meets <> (SELECT count(*) FROM spans WHERE lower(s) < r + '1/2' AND r < upper(s))) AS wrong FROM by_index;
RESET ALL;
-- block ranges: pages that cannot have a value are left out, and what comes later is found, too
CREATE TABLE log AS SELECT i, ratio(i, 7) AS r FROM generate_series(1, 50000) i;
CREATE INDEX log_brin ON log USING brin (r) WITH (pages_per_range = 4);
INSERT INTO log VALUES (0, '-9223372036854775808'), (0, '1/9223372036854775807'), (0, NULL);
ANALYZE log;
SET enable_seqscan = off;
EXPLAIN (COSTS OFF) SELECT count(*) FROM log WHERE r > '100' AND r < '101';
SELECT plan_has('SELECT FROM log WHERE r > ''100'' AND r < ''101''', 'Heap Blocks: lossy=[1-8]$') AS few_pages, pg_relation_size('log_brin') < pg_relation_size('log') / 20 AS is_small;
SELECT count(*) FILTER (WHERE r > '100' AND r < '101') AS within, count(*) FILTER (WHERE r <= '1/7') AS at_most, count(*) FILTER (WHERE r = '1/7') AS equal, count(*) FILTER (WHERE r >= '50000/7') AS at_least FROM log;
SELECT (SELECT count(*) FROM log WHERE r > '100' AND r < '101') AS within, (SELECT count(*) FROM log WHERE r <= '1/7') AS at_most, (SELECT count(*) FROM log WHERE r = '1/7') AS equal,
    (SELECT count(*) FROM log WHERE r >= '50000/7') AS at_least;
RESET ALL;
-- series: beside that of numeric, and at the ends of 64 bits
SET statement_timeout = '60s';
SELECT array_agg(x) FROM generate_series(0::ratio, 1, '1/3') x;
SELECT array_agg(x) FROM generate_series('1/2'::ratio, '-1/2', '-1/4') x;
SELECT count(*), count(*) FILTER (WHERE x.n IS DISTINCT FROM y.n) AS wrong FROM (SELECT i, r::numeric AS n FROM generate_series('-2'::ratio, 3, '1/64') WITH ORDINALITY s(r, i)) x
    FULL JOIN (SELECT i, trim_scale(n) AS n FROM generate_series(-2, 3, 0.015625) WITH ORDINALITY s(n, i)) y USING (i);
SELECT count(*) FROM (SELECT generate_series(1::ratio, 0, 1) UNION ALL SELECT generate_series(0::ratio, 1, -1) UNION ALL SELECT generate_series(0::ratio, NULL, 1)) none;
SELECT refusal('SELECT generate_series(0::ratio, 1, 0)');
SELECT start, stop, step, (SELECT string_agg(x::text, ' ') FROM generate_series(start, stop, step) x) AS series FROM (VALUES
    ('9223372036854775805'::ratio, '9223372036854775807'::ratio, '1'::ratio), ('-9223372036854775807', '-9223372036854775808', '-1'), ('9223372036854775800', '9223372036854775807', '4'),
    ('1/9223372036854775807', '1/3', '1/2'), ('-9223372036854775808', '9223372036854775807', '9223372036854775807'), ('0', '0', '1/7')) rows(start, stop, step);
-- a value before the end that does not fit is refused once it is its turn
SELECT x FROM (SELECT generate_series('1/9223372036854775807'::ratio, 1, '1/2') AS x) s LIMIT 1;
SELECT refusal('SELECT count(*) FROM generate_series(''1/9223372036854775807''::ratio, 1, ''1/2'')');
RESET statement_timeout;
-- damaged values end in an error here, too
CREATE CAST (point AS ratio) WITHOUT FUNCTION;
CREATE TABLE damaged (name text, r ratio);
INSERT INTO damaged VALUES ('0/0', point(0, 0)::ratio), ('below 0', point(0, -1)::ratio);
SELECT name, call, left(refusal(format('SELECT %s FROM damaged WHERE name = %L', call, name)), 5) AS code FROM damaged,
    unnest('{"ratio_in_range(1, r, 1, true, true)","ratio_in_range(1, 1, r, true, true)","ratio_distance(r, 1)","ratio_distance(1, r)","generate_series(r, 5, 1)","generate_series(1, 5, r)"}'::text[]) call ORDER BY name, call;
SELECT refusal('SELECT ratio_in_range(r, 1, 1, true, true) FROM damaged'), refusal('SELECT generate_series(1, r, 1) FROM damaged');
DROP TABLE damaged;
DROP CAST (point AS ratio);
DROP TABLE points, spans, by_index, log;
DROP FUNCTION near;
