-- What the tests below share.
CREATE EXTENSION ratio;
-- what a query refuses: the code, the message and the detail
CREATE FUNCTION refusal(query text) RETURNS text LANGUAGE plpgsql AS $$
DECLARE message text; detail text;
BEGIN
    EXECUTE query;
    RETURN 'no error';
EXCEPTION WHEN OTHERS THEN
    GET STACKED DIAGNOSTICS message = MESSAGE_TEXT, detail = PG_EXCEPTION_DETAIL;
    RETURN concat_ws(' | ', SQLSTATE, message, NULLIF(detail, ''));
END $$;
-- what numeric, which is exact for whole numbers, says of the fraction n/d: its lowest terms, or the code of the error
CREATE FUNCTION lowest(n numeric, d numeric) RETURNS text LANGUAGE plpgsql IMMUTABLE AS $$
DECLARE divisor numeric; low numeric; high numeric;
BEGIN
    IF d = 0 THEN RETURN '22012'; END IF;
    divisor := sign(d) * gcd(n, d);
    low := div(n, divisor);
    high := div(d, divisor);
    IF low NOT BETWEEN -9223372036854775808 AND 9223372036854775807 OR high > 9223372036854775807 THEN RETURN '22003'; END IF;
    RETURN CASE WHEN high = 1 THEN low::text ELSE low || '/' || high END;
END $$;
-- hard fractions: their numbers are small, at the ends of bigint, at the ends of half its width, or random
CREATE TABLE numbers AS SELECT unnest('{0, 1, 2, 3, 10, 12, 65536, 2147483647, 2147483648, 4294967295, 4294967296, 3037000499, 3037000500,
    4611686018427387904, 6148914691236517205, 9223372036854775783, 9223372036854775806, 9223372036854775807}'::int8[]) AS n;
CREATE TABLE hard AS
SELECT DISTINCT ratio(s * a.n, b.n) AS r FROM numbers a, numbers b, (VALUES (1), (-1)) signs(s) WHERE b.n > 0
UNION SELECT ratio(-9223372036854775808, n) FROM numbers WHERE n > 0;
SELECT count(*) FROM hard;
-- one of so many, the same ones in each run
CREATE FUNCTION one_in(r ratio, many int) RETURNS boolean LANGUAGE sql IMMUTABLE AS $$ SELECT ('x' || substr(md5(r::text), 1, 7))::bit(28)::int % many = 0 $$;
-- whether a plan has such a line, once its query has run
CREATE FUNCTION plan_has(query text, such text) RETURNS boolean LANGUAGE plpgsql AS $$
DECLARE line text;
BEGIN
    FOR line IN EXECUTE 'EXPLAIN ANALYZE ' || query LOOP
        IF line ~ such THEN RETURN true; END IF;
    END LOOP;
    RETURN false;
END $$;
