-- Arithmetic at its ends.
SELECT '1/2'::ratio + '1/3', '1/2'::ratio - '1/3', '1/2'::ratio * '2/3', '1/2'::ratio / '-1/3', '-7/2'::ratio % '4/3', 1 / 3::ratio, 2 * '1/4'::ratio;
SELECT '1/65536'::ratio + '1/65536', '9223372036854775807'::ratio - '1/2'::ratio * 2 + 1, -'1/2'::ratio,
    '9223372036854775806/9223372036854775807'::ratio * '9223372036854775807/9223372036854775806';
SELECT r, abs(r), sign(r), floor(r), ceil(r), round(r), trunc(r) FROM unnest('{7/2,-7/2,5/3,-5/3,1/2,-1/2,0,-9223372036854775807/2,4}'::ratio[]) r;
SELECT floor(r), ceil(r), round(r), trunc(r), sign(r) FROM (SELECT '-9223372036854775808'::ratio) least(r);
SELECT ratio_power('-2/3', 3), ratio_power('-2/3', -3), ratio_power(5, 0), ratio_power(0, 0), ratio_power(-1, -2147483648), ratio_power(-1, 2147483647),
    ratio_power(2, 62), ratio_power(-2, 63), ratio_power('-1/2', -62);
-- to an exponent below 0, also where the least number is the result
SELECT ratio_power('-1/512', -7), ratio_power('-1/2', -63), ratio_power('-1/8', -21), ratio_power('-1/9223372036854775807', -1), ratio_power('-9223372036854775808/3', 1), ratio_power('-2/3', -2),
    ratio_power('3037000499/3037000498', -2), ratio_power(1, -2147483648), ratio_power(-1, -2147483647);
SELECT ratio_nearest('355/113', 10), ratio_nearest('355/113', 112), ratio_nearest('-355/113', 113), ratio_nearest('9223372036854775806/9223372036854775807', 1000),
    ratio_nearest('1/3', 9223372036854775807), ratio_nearest('1/2', 1), ratio_nearest('-1/2', 1);
-- divisors, multiples and rounded products
SELECT gcd('1/4'::ratio, '1/6'), lcm('1/4'::ratio, '1/6'), gcd('3/2'::ratio, '-1/4'), lcm('3/2'::ratio, '-1/4'), gcd(0, '-3/4'::ratio), lcm(0, '-3/4'::ratio),
    gcd('9223372036854775807/3'::ratio, '9223372036854775807/2'), pg_typeof(gcd(4, 6)), pg_typeof(gcd(4, 6::bigint)), pg_typeof(gcd(4, 1.5)), pg_typeof(gcd(4, '1/2'::ratio));
SELECT ratio_mul_round('7/3', '5/2'), ratio_mul_round('-5/2', 1), ratio_mul_round('9223372036854775807/3', '2/5'), ratio_mul_round(-9223372036854775808, '1/3'),
    ratio_mul_round('9223372036854775807/2', '9223372036854775806/9223372036854775807');
-- the same with places: neither a product nor a quotient has to fit, and a half goes away from zero
SELECT ratio_mul_round('19.99', '2.25', 2), ratio_mul_round('-1/8', '1', 2), ratio_mul_round('9223372036854775807/3', '2/5', 2), ratio_div_round(100, 3, 2),
    ratio_div_round('-7/2', '4/3', 0), ratio_div_round('9223372036854775807', '-1/9223372036854775807', 1), ratio_mul_round('1/3', '1/3', 38);
SELECT bool_and(ratio_mul_round(a, b, 2) = round(a::numeric * b::numeric, 2)), bool_and(ratio_div_round(a, b, 3) = round(a::numeric / b::numeric, 3)), count(*)
    FROM (SELECT (i * 37 % 997 - 500)::ratio / 8, (i * 101 % 991 - 470)::ratio / 4 FROM generate_series(1, 1000) i) pairs(a, b) WHERE b <> 0;
-- each error has its code, and names the operands
SELECT q, refusal('SELECT ' || q) FROM unnest(ARRAY['9223372036854775807::ratio + 1', '''-9223372036854775808''::ratio - ''1/2''', '''1/4294967296''::ratio * ''1/4294967296''',
    '9223372036854775807::ratio / ''1/2''', '''1/2''::ratio / 0', '0::ratio / 0', '''1/2''::ratio % 0', '- ''-9223372036854775808''::ratio', 'abs(''-9223372036854775808''::ratio)',
    'gcd(''-9223372036854775808''::ratio, 0)', 'lcm(''9223372036854775807/2''::ratio, 9223372036854775806)', 'ratio_mul_round(9223372036854775807, ''3/2'')', 'ratio_mul_round(''1/2'', 3, 39)', 'ratio_mul_round(''1/2'', 3, -1)', 'ratio_div_round(''1/2'', 0, 2)', 'ratio_power(0, -1)', 'ratio_power(0, -2147483648)', 'ratio_power(3, 40)', 'ratio_power(''1/2'', 64)', 'ratio_power(''1/2'', -63)', 'ratio_power(-2, -63)', 'ratio_power(''-9223372036854775808'', -1)', 'ratio_power(2, -2147483648)', 'ratio_nearest(''1/2'', 0)', 'ratio_nearest(''1/2'', -1)', 'ceiling(''1/2''::ratio)']) q;
-- beside numeric: each operator over pairs of hard fractions gives the lowest terms, and refuses only what does not fit
CREATE FUNCTION got(operator text, a ratio, b ratio) RETURNS text LANGUAGE plpgsql AS $$
BEGIN
    RETURN CASE operator WHEN '+' THEN a + b WHEN '-' THEN a - b WHEN '*' THEN a * b WHEN '/' THEN a / b ELSE a % b END;
EXCEPTION WHEN OTHERS THEN
    RETURN SQLSTATE;
END $$;
CREATE FUNCTION wanted(operator text, a numeric, b numeric, c numeric, d numeric) RETURNS text LANGUAGE sql AS $$
SELECT CASE operator WHEN '+' THEN lowest(a * d + c * b, b * d) WHEN '-' THEN lowest(a * d - c * b, b * d) WHEN '*' THEN lowest(a * c, b * d)
    WHEN '/' THEN lowest(a * d, b * c) ELSE CASE WHEN c = 0 THEN '22012' ELSE lowest(a * d - c * b * div(a * d, b * c), b * d) END END $$;
CREATE TABLE compared AS
SELECT operator, x.r AS x, y.r AS y, got(operator, x.r, y.r), wanted(operator, numerator(x.r), denominator(x.r), numerator(y.r), denominator(y.r))
FROM hard x, hard y, unnest('{+,-,*,/,%}'::text[]) operator WHERE one_in(x.r, 7) AND one_in(y.r, 8);
SELECT operator, count(*), count(*) FILTER (WHERE wanted = '22003') AS refused, count(*) FILTER (WHERE got <> wanted) AS wrong FROM compared GROUP BY 1 ORDER BY 1;
SELECT * FROM compared WHERE got <> wanted LIMIT 5;
SELECT count(*) AS wrong FROM (SELECT r, numerator(r)::numeric AS n, denominator(r)::numeric AS d FROM hard) h
WHERE floor(r)::text <> (div(n, d) - (n < 0 AND mod(n, d) <> 0)::int)::text OR ceil(r)::text <> (div(n, d) + (n > 0 AND mod(n, d) <> 0)::int)::text
    OR trunc(r)::text <> div(n, d)::text OR round(r)::text <> (sign(n) * div(2 * abs(n) + d, 2 * d))::text OR sign(r)::text <> sign(n)::text;
DROP TABLE compared;
DROP FUNCTION got, wanted;
-- Products of many: the whole must fit, and no step. Python's fractions computed the products.
SELECT ratio_product('{2/3, 3/7, 5/2}'), ratio_product('{}'), ratio_product('{5/7}'), ratio_product(NULL), ratio_product('{9223372036854775807/3, 3, 1/9223372036854775807}'),
    ratio_product('{9223372036854775807/3, 9223372036854775806/5, 3/9223372036854775806, 5/9223372036854775807}'), ratio_product('{-9223372036854775808, -1/2, 0}');
SELECT ratio_product('[0:1]={2/3,3/4}'), ratio_product(array_agg(ratio(i, i + 1) ORDER BY i)) FROM generate_series(1, 1000) i;
-- in each order of the same numbers, the product is the same
SELECT DISTINCT ratio_product(array_agg(r ORDER BY md5(seed || r::text)))
FROM generate_series(1, 40) seed, unnest('{9223372036854775807/2,4294967296,1/4294967296,2/3,9223372036854775806,1/9223372036854775806,-3/9223372036854775807}'::ratio[]) r GROUP BY seed;
SELECT q, refusal('SELECT ' || q) FROM unnest(ARRAY['ratio_product(''{9223372036854775807, 2}'')', 'ratio_product(''{1/4294967296, 1/4294967296, 3}'')', 'ratio_product(''{1, NULL}'')',
    'ratio_product(''{{1, 2}, {3, 4}}'')', 'ratio_product(array_fill(1::ratio, ''{10001}''))']) q;
SELECT ratio_product(array_fill(1::ratio, '{10000}'));
-- an amount split by shares: the parts add up to it. Python's fractions computed the parts
SELECT ratio_split(100, '{1/3, 1/3, 1/3}'), ratio_split(-100, '{1/3, 1/3, 1/3}'), ratio_split(9223372036854775807, '{1/2, 0, 1/2}'), ratio_split(7, '{1}'),
    ratio_split(10000000000, '{3333333333/9999999999, 6666666666/9999999999}'), ratio_split(NULL, '{1}'), ratio_split(1, '[5:6]={1/2, 1/2}');
SELECT ratio_split_by_weights(100, '{1, 1, 1}'), ratio_split_by_weights(1000, '{12, 0, 7}'), ratio_split_by_weights(-9223372036854775808, '{12, 0, 7}'),
    ratio_split_by_weights(0, '{9223372036854775807}'), ratio_split_by_weights(5, NULL);
-- each part is less than 1 away from the amount times its share, for many amounts and shares
SELECT count(*), count(*) FILTER (WHERE (SELECT sum(p) FROM unnest(parts) p) <> amount) AS lost,
    count(*) FILTER (WHERE EXISTS (SELECT FROM unnest(parts, weights) u(p, w) WHERE abs(p::numeric * total - amount::numeric * w) >= total)) AS far,
    count(*) FILTER (WHERE parts <> ratio_split(amount, (SELECT array_agg(ratio(w, total) ORDER BY o) FROM unnest(weights) WITH ORDINALITY u(w, o)))) AS unlike
FROM (SELECT amount, weights, ratio_split_by_weights(amount, weights) AS parts, (SELECT sum(w) FROM unnest(weights) w)::int8 AS total
    FROM unnest('{0, 1, -1, 99, 100, -12345, 1000003, 9223372036854775807, -9223372036854775808}'::int8[]) amount,
        (SELECT ARRAY[i % 7, i * i % 11, i * 5 % 13, 1, i] FROM generate_series(1::int8, 60) i) w(weights)) splits;
SELECT q, refusal('SELECT ' || q) FROM unnest(ARRAY['ratio_split(100, ''{1/3, 1/3}'')', 'ratio_split(100, ''{}'')', 'ratio_split(100, ''{4/3, -1/3}'')',
    'ratio_split(100, ''{1/9223372036854775807, 1/4294967291, 1/2}'')', 'ratio_split(9223372036854775807, ''{3/2, 0}'')', 'ratio_split(100, ''{1, NULL}'')', 'ratio_split(100, ''{{1}}'')',
    'ratio_split_by_weights(100, ''{0, 0}'')', 'ratio_split_by_weights(100, ''{}'')', 'ratio_split_by_weights(100, ''{2, -1}'')',
    'ratio_split_by_weights(100, ''{9223372036854775807, 1}'')', 'ratio_split_by_weights(100, ''{1, NULL}'')']) q;
