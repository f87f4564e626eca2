-- Casts: from the three whole types and numeric by themselves, to these and to float8 by assignment, from float8 where it is asked for.
CREATE TABLE kept (r ratio, whole bigint);
INSERT INTO kept (r) VALUES (1::int2), (2::int4), (3::int8), (-9223372036854775808), (9223372036854775807);
SELECT r FROM kept ORDER BY r;
SELECT pg_typeof(1::int2 + r), pg_typeof(1 + r), pg_typeof(r + 1::int8) FROM kept LIMIT 1;
TRUNCATE kept;
INSERT INTO kept (r, whole) SELECT r, r FROM unnest('{7/2,-7/2,5/2,-5/2,1/2,-1/2,1/3,-2/3,4611686018427387903/9223372036854775807,
    -9223372036854775808,9223372036854775807,-9223372036854775807/2}'::ratio[]) r;
SELECT r, whole, r::int8 = whole AS same FROM kept;
-- as numeric rounds
SELECT count(*) AS wrong FROM hard
WHERE r::int8 <> sign(numerator(r)) * div(2 * abs(numerator(r)::numeric) + denominator(r), 2 * denominator(r)::numeric);
-- to integer and smallint, the same number, or an error
CREATE TABLE whole (i int, s smallint);
INSERT INTO whole SELECT r, r FROM unnest('{7/2,-7/2,1/2,-1/2,1/3,-2/3,65533/2,-65535/2,32767,-32768}'::ratio[]) r RETURNING i, s;
UPDATE whole SET i = '4294967293/2'::ratio, s = '-1/2'::ratio WHERE i = 4 RETURNING i, s;
SELECT '-4294967295/2'::ratio::int, int4('5/2'::ratio), int2('5/2'::ratio), '{1/2,-5/2}'::ratio[]::int[], NULL::ratio::int;
SELECT count(*), count(*) FILTER (WHERE r::int <> r::int8 OR r::smallint <> r::int8) AS wrong FROM (SELECT ratio(i, 6) AS r FROM generate_series(-196610, 196604) i) f;
SELECT q, refusal('SELECT ' || q) FROM unnest(ARRAY['''4294967295/2''::ratio::int', '''-4294967297/2''::ratio::int', '9223372036854775807::ratio::int', '''65535/2''::ratio::smallint',
    '''-65537/2''::ratio::smallint', '''-9223372036854775808''::ratio::smallint', 'substr(''ab'', 1::ratio)']) q;
SELECT refusal('INSERT INTO whole (i) VALUES (3000000000::ratio)');
DROP TABLE whole;
-- from numeric, exactly or not at all
TRUNCATE kept;
INSERT INTO kept (r) VALUES (0.75), (-2.50), (0.000), (1e18), (-9223372036854775808.000), (9223372036854775807.0), (0.00000000000000000000000000000000001000e20),
    (0.0000000000000000001e19), (1234567.125), (922337203685477580.7), (0.9223372036854775807e1);
SELECT r FROM kept;
SELECT count(*) AS wrong FROM (SELECT (i * 7919 % 100003 - 50000) / 10.0 ^ (i % 9) AS x, i FROM generate_series(1, 2000) i) n
WHERE round(x, 9)::ratio::text <> lowest(round(x, 9) * 1000000000, 1000000000);
SELECT x, refusal(format('SELECT (%s)::numeric::ratio', x)) FROM unnest(ARRAY['9223372036854775808', '-9223372036854775809', '1e-19', '1e-40', '1e40', '''NaN''',
    '''Infinity''', '''-Infinity''', '0.1234567890123456789']) x;
-- the error shows at most 60 characters
SELECT x, refusal(format('SELECT (%s)::ratio', x)) FROM unnest(ARRAY['1e59', '1e60', '-1e100000']) x;
-- as many digits as there are: 5/2^52, and 1/2^62
SELECT 0.0000000000000011102230246251565404236316680908203125::ratio, 0.00000000000000000021684043449710088680149056017398834228515625::ratio;
-- from float8, exactly or not at all, and the simplest fraction that rounds to one
SELECT x, x::ratio, ratio_rationalize(x) FROM unnest('{0.1,-0.75,0.3333333333333333,3.141592653589793,1e16,-9223372036854775808,-0,0.30000000000000004}'::float8[]) x;
SELECT q, refusal(format(q, '''1e-5''')), refusal(format(q, 9223372036854775808)), refusal(format(q, '''NaN''')), refusal(format(q, '''Infinity''')), refusal(format(q, '''-Infinity''')),
    refusal(format(q, '''5e-324''')) FROM unnest('{SELECT (%s)::float8::ratio,SELECT ratio_rationalize(%s)}'::text[]) q;
SELECT refusal('INSERT INTO kept (r) VALUES (0.5::float8)'), ratio_rationalize(NULL), NULL::float8::ratio;
-- to float8, the nearest
SELECT r, r::float8 FROM unnest('{1/3,-1/10,0,9007199254740993,9007199254740995,-9223372036854775808,1/9223372036854775807}'::ratio[]) r;
SELECT count(*) AS wrong FROM hard WHERE r::float8 <> (numerator(r)::numeric / denominator(r)::numeric(60, 40))::float8 AND abs(numerator(r)::numeric) < 2 ^ 53 AND denominator(r) < 2 ^ 53;
SELECT count(*) AS wrong FROM generate_series(1, 200) n, generate_series(1, 200) d WHERE ratio_rationalize(n / d::float8) <> ratio(n, d) OR ratio(n, d)::float8 <> n / d::float8;
-- to numeric, with the places of numeric's own division, but at least 16, a half away from zero, without zeros at the end
SELECT r, r::numeric FROM unnest('{3/4,-1/3,2/3,10/3,100001/100000,1/1000000000000000000,-1/9223372036854775807,1/20000000000000001,100,0,-9223372036854775808,100000/3,
    123456789012345678/100,-9223372036854775807/3,9223372036854775807/2,20000000000000003/40000}'::ratio[]) r;
-- the cast of version 0.1 is still there, with 16 places
SELECT r, ratio_to_numeric(r, -1) FROM unnest('{3/4,-1/3,2/3,1/20000000000000000,-1/20000000000000000,1/20000000000000001,100,0,-9223372036854775808,9223372036854775807/2}'::ratio[]) r;
SELECT count(*) AS wrong FROM hard WHERE ratio_to_numeric(r, -1) <> round(numerator(r)::numeric / denominator(r)::numeric(60, 40), 16);
-- to numeric(p, s), rounded once, to s places. Rounded to 16 places first, 0.004999999999999999 would become 0.01
SELECT '4999999999999999/1000000000000000000'::ratio::numeric(5,2), '-4999999999999999/1000000000000000000'::ratio::numeric(5,2), '1/200'::ratio::numeric(5,2), '-1/200'::ratio::numeric(5,2);
SELECT r::numeric(3,0), ratio_round(r, 0), r::int8 FROM (SELECT '99999999999999999/200000000000000000'::ratio) x(r);
SELECT r, r::numeric(3,-2) FROM unnest('{9223372036854775799/184467440737095516,50,-9223372036854775799/184467440737095516,-50,299/2,150}'::ratio[]) r;
SELECT '1/3'::ratio::numeric(30,20), '2/3'::ratio::numeric(38,38), '1/3'::ratio::numeric(3), '3/4'::ratio::numeric(5,4), '{1/3,-2/3}'::ratio[]::numeric(5,2)[];
SELECT q, refusal('SELECT ' || q) FROM unnest(ARRAY['''1999/2''::ratio::numeric(3,0)', '''9994/10''::ratio::numeric(3,0)', '1000::ratio::numeric(5,2)', '''1/3''::ratio::numeric(50,39)',
    '''1/3''::ratio::numeric(50,38)']) q;
CREATE TABLE prices (price numeric(5,2));
INSERT INTO prices VALUES ('4999999999999999/1000000000000000000'::ratio), ('2/3'::ratio), (5::ratio);
UPDATE prices SET price = '-1/3'::ratio WHERE price = 5;
TABLE prices;
DROP TABLE prices;
-- a numeric becomes a ratio by itself, a float8 does not
SELECT pg_typeof(0.5 + 1), 0.5 + '1/2'::ratio, '1/3'::ratio * 1.5, refusal('SELECT 0.5::float8 + ''1/2''::ratio');
SELECT '1/2'::ratio > '0.5' AS text_gt, '1/2'::ratio > 0.5 AS gt, 0.333 < '1/3'::ratio AS lt, '1/4'::ratio = 0.25 AS eq, '1/3'::ratio BETWEEN 0.3 AND 0.4 AS is_between, '1/2'::ratio IN (0.5, 1) AS is_in,
    ratio_between(0.5, 1), numerator(0.75), coalesce(NULL::ratio, 0.5), greatest('1/3'::ratio, 0.3), pg_typeof(CASE WHEN true THEN 0.5 ELSE '1/3'::ratio END);
SELECT q, refusal('SELECT ''1/2''::ratio ' || q) FROM unnest(ARRAY['< 1e30', '= 0.1234567890123456789', '> ''NaN''::numeric', '> 0.5::float8']) q;
SELECT castsource::regtype, casttarget::regtype, castcontext, castmethod FROM pg_cast WHERE 'ratio'::regtype IN (castsource, casttarget) ORDER BY 1, 2;
-- rounded to places, a half away from zero
SELECT ratio_round('2/3', 2), ratio_round('-1/200', 2), ratio_round('1/8', 2), ratio_round('1/2', 0), ratio_round('1/2', 3), ratio_round('1/3', 18), ratio_round(5, 2),
    ratio_round('922337203685477580/7', 1), ratio_round('-9223372036854775808', 18), ratio_round('9223372036854775807/2', 1), ratio_round('1000/3', 38);
SELECT ratio_trunc('2/3', 2), ratio_trunc('-2/3', 2), ratio_trunc('-1/200', 2), ratio_trunc('1/8', 2), ratio_trunc('-5/2', 0), ratio_trunc(5, 2), ratio_trunc(-0.125, 3), ratio_trunc('2/3', 38);
SELECT ratio_decimal('2/3', 2), ratio_decimal('-1/200', 2), ratio_decimal('-1/300', 2), ratio_decimal(5, 0), ratio_decimal('1/3', 38), ratio_decimal(NULL, 1), ratio_decimal(1, NULL);
SELECT q, refusal('SELECT ratio_round' || q), refusal('SELECT ratio_decimal' || q), refusal('SELECT ratio_trunc' || q) FROM unnest(ARRAY['(''1/3'', -1)', '(''1/3'', 39)']) q;
-- just below 1/200, numeric rounds twice
SELECT round(r::numeric, 2), ratio_round(r, 2), r::numeric(20, 2) FROM (SELECT '46116860184273879/9223372036854775801'::ratio) f(r);
-- as numeric does: over hard fractions and over multiples of 1/2000
CREATE FUNCTION numeric_rounded(n numeric, d numeric, places int) RETURNS text LANGUAGE SQL AS $$
    SELECT round(sign(n) * div(2 * abs(n) * ('1e' || places)::numeric + d, 2 * d) * ('1e' || -places)::numeric, places)::text;
$$;
SELECT count(*), count(*) FILTER (WHERE ratio_round(r, places)::text <> wanted) AS wrong, count(*) FILTER (WHERE ratio_decimal(r, places)::numeric <> wanted::numeric) AS other
FROM (SELECT r, places, numeric_rounded(numerator(r), denominator(r), places) AS wanted
    FROM (TABLE hard UNION ALL SELECT ratio(i, 2000) FROM generate_series(-300, 300) i) f(r), unnest('{0,1,2,3,9,17,18,38}'::int[]) places) compared;
SELECT count(*), count(*) FILTER (WHERE ratio_to_numeric(r, typmod)::text <> numeric_rounded(numerator(r), denominator(r), places)) AS wrong
FROM (TABLE hard UNION ALL SELECT ratio(i, 2) FROM generate_series(-300, 300) i) f(r), unnest('{-20,-18,-2,-1,0,1,2,3,9,17,18,38}'::int[]) places,
    LATERAL (SELECT (60 << 16) + (places & 2047) + 4) t(typmod);
SELECT count(*), count(*) FILTER (WHERE ratio_trunc(r, places)::text <> trunc(numerator(r)::numeric / denominator(r)::numeric(200, 100), places)::text) AS wrong
FROM (TABLE hard UNION ALL SELECT ratio(i, 2000) FROM generate_series(-300, 300) i) f(r), unnest('{0,1,2,3,9,17,18,38}'::int[]) places;
-- the cast without a scale is numeric's own quotient, wherever that has 16 places or more, and the nearest decimal with 16 places elsewhere
SELECT count(*), count(*) FILTER (WHERE scale(q) >= 16) AS own, count(*) FILTER (WHERE r::numeric <> q AND scale(q) >= 16
    OR r::numeric::text <> trim_scale(numeric_rounded(numerator(r), denominator(r), greatest(scale(q), 16))::numeric)::text) AS wrong
FROM (SELECT r, numerator(r)::numeric / denominator(r) AS q FROM (TABLE hard UNION ALL SELECT ratio(i * i, i + 10007 * (i % 17)) FROM generate_series(1, 300) i) f(r)) quotients;
DROP FUNCTION numeric_rounded;
DROP TABLE kept;
