-- Texts in and out.
SELECT t, t::ratio AS r FROM unnest('{1/2,-6/4,6/-4,-6/-4,0/-5,7,+1/3,010/020,-0,9223372036854775807,-9223372036854775808,
    1/9223372036854775807,-9223372036854775808/9223372036854775807,-9223372036854775808/-9223372036854775808}'::text[]) t;
SELECT E' \t\n\x0b\f\r1/2\r\f\x0b\n\t '::ratio;
-- decimals, mixed numbers and percentages
SELECT t, t::ratio AS r FROM unnest('{0.75,-.5,5.,1.5e-3,1E3,1 1/2,-1 1/2,-0 1/2,1 3/2,12.5%,1/2%,1e2%,0e999999999999999999999,9223372036854775808/2,
    200000000000000000000/400000000000000000000,340282366920938463463374607431768211455/340282366920938463463374607431768211455}'::text[]) t;
-- what is no fraction, what has a denominator 0, and what does not fit
SELECT t, refusal(format('SELECT %L::ratio', t)) FROM unnest(ARRAY['', ' ', '/', '1/', '/2', '1 /2', '1/ 2', '1/2/3', '--1', '1-', '0x10', 'NaN', 'one', '½', '1/2 x', '1.2.3', '1.5/2', '1  1/2', '1 -1/2', '50 %', '1 1/2%', '1_0', 'e5',
    '1 1/0', '1/0%', 'x/0', '1e400', '1e-400', '0.0000000000000000001', '340282366920938463463374607431768211456/340282366920938463463374607431768211456',
    '1/0', '0/0', '-9223372036854775808/0', '9223372036854775808', '-9223372036854775809', '1/9223372036854775808', '1/-9223372036854775808',
    '-9223372036854775808/-1', '9223372036854775808/2', '170141183460469231731687303715884105727/2', '170141183460469231731687303715884105728']) t;
-- each hard fraction is read as it was printed
SELECT count(*) FROM hard WHERE r::text::ratio <> r OR r::text <> lowest(numerator(r), denominator(r));
SELECT numerator(r), denominator(r), pg_column_size(r) FROM unnest('{-6/4,0/7,5}'::ratio[]) r;
-- from two bigints
SELECT ratio(6, -4), ratio(0, -9223372036854775808), ratio(-9223372036854775808, -9223372036854775808), ratio(NULL, 1), ratio(1, NULL);
SELECT q, refusal('SELECT ' || q) FROM unnest('{"ratio(1, 0)","ratio(0, 0)","ratio(1, -9223372036854775808)","ratio(-9223372036854775808, -1)"}'::text[]) q;
SELECT count(*) AS wrong FROM numbers a, numbers b, unnest('{1,-1}'::int[]) s, unnest('{1,-1}'::int[]) t
WHERE b.n > 0 AND ratio(s * a.n, t * b.n)::text <> lowest(s * a.n, t * b.n);
-- NULL in, NULL out, but for the functions that take NULL for a bound
SELECT p.oid::regprocedure FROM pg_proc p JOIN pg_depend d ON d.classid = 'pg_proc'::regclass AND d.objid = p.oid AND d.deptype = 'e'
JOIN pg_extension e ON e.oid = d.refobjid AND e.extname = 'ratio' WHERE NOT p.proisstrict AND p.prokind = 'f' AND NOT 'internal'::regtype = ANY (p.proargtypes);
