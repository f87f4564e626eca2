-- Long totals: a statement that joins two of them ends soon after it is cancelled, and workers hand over many denominators.
CREATE TABLE odds AS SELECT total(r) FILTER (WHERE i % 4 IN (0, 3)) AS t, total(r) FILTER (WHERE i % 4 IN (1, 2)) AS u FROM (SELECT i, ratio(1, 2147483647 - 2 * i) AS r FROM generate_series(0, 3999999) i) odd;
-- how long a statement takes until it ends or is cancelled, in milliseconds
CREATE FUNCTION spent(query text) RETURNS float8 LANGUAGE plpgsql AS $$
DECLARE start timestamptz := clock_timestamp();
BEGIN
    BEGIN
        EXECUTE query;
    EXCEPTION WHEN query_canceled THEN
    END;
    RETURN 1000 * extract(epoch FROM clock_timestamp() - start);
END $$;
-- with a tenth of its time as the limit, the statement must end before half of its time
SELECT spent('SELECT t + u FROM odds') AS whole \gset
SELECT :whole::int / 10 AS limit \gset
SET statement_timeout = :limit;
SELECT spent('SELECT t + u FROM odds') < :whole / 2 AS is_soon;
RESET statement_timeout;
-- 4,000,000 quotients decide the order of these two
SELECT spent('SELECT t < u FROM odds') AS whole \gset
SELECT :whole::int / 3 AS limit \gset
SET statement_timeout = :limit;
SELECT spent('SELECT t < u FROM odds') < :whole * 2 / 3 AS is_soon;
RESET statement_timeout;
-- In one call, a read of 200,000 denominators takes seconds until error 54000. In steps, it ends less than half a second after it is cancelled.
CREATE TABLE longs AS SELECT total(r) AS t, total(r) + total(1 - r) + '1/200' AS tie FROM (SELECT ratio(1, 2147483647 - 2 * i) AS r FROM generate_series(1, 200000) i) odd;
-- equal totals: 1/a - 1/(a - 2) is -2/(a * (a - 2))
CREATE TABLE ties AS SELECT total(ratio(-2, a * (a - 2))) AS t, ratio(1, max(a))::ratio_total - ratio(1, min(a) - 2) AS u FROM (SELECT 3037000499 - 2 * i AS a FROM generate_series(0::int8, 99999) i) odd;
CREATE FUNCTION ending(query text) RETURNS text LANGUAGE plpgsql AS $$
DECLARE start timestamptz := clock_timestamp(); code text := 'none';
BEGIN
    BEGIN
        EXECUTE query;
    EXCEPTION WHEN query_canceled OR program_limit_exceeded THEN
        code := sqlstate;
    END;
    RETURN code || CASE WHEN clock_timestamp() < start + interval '1 second' THEN ', soon' ELSE ', late' END;
END $$;
SET statement_timeout = '500ms';
SELECT ending('SELECT t::ratio FROM longs') AS sum;
SELECT ending('SELECT avg(t) FROM longs') AS mean;
SELECT ending('SELECT t = u FROM ties') AS comparison;
SELECT ending('SELECT t::float8 FROM longs') AS float;
-- the bounds of the sum say what 200000.005 is with one place, but not with two
SELECT ending('SELECT ratio_round(tie, 2) FROM longs') AS decimal;
SELECT ratio_round(tie, 1), ratio_round(t, 20) = 0.00009314093224288864 AS is_right FROM longs;
RESET statement_timeout;
-- bounds decide an order long before it is known that the common denominator is too long
SELECT t < tie AS lt, t = tie - t AS eq FROM longs;
SELECT 4 * spent('SELECT t < tie FROM longs') < spent($$SELECT ending('SELECT t::float8 FROM longs')$$) AS is_quick;
-- Two workers each hand over some 150,000 denominators, in seconds.
CREATE TABLE shared AS SELECT ratio(1, i) AS r FROM generate_series(1, 300000) i;
ALTER TABLE shared SET (parallel_workers = 2);
SET parallel_setup_cost = 0; SET parallel_tuple_cost = 0; SET min_parallel_table_scan_size = 0;
SET statement_timeout = '5s';
SELECT plan_has('SELECT total(r) FROM shared', 'Workers Planned: 2') AS by_workers;
SELECT ratio_count(total(r)), ratio_round(total(r), 20) = 13.18875508520561171283 AS is_right FROM shared;
RESET ALL;
DROP TABLE odds, longs, ties, shared;
DROP FUNCTION spent, ending;
