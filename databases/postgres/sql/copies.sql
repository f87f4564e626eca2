-- Copies: in text, in binary, by dump and restore. Bytes that are no value are refused.
CREATE TABLE taken (r ratio);
\copy hard TO 'hard.copied'
\copy taken FROM 'hard.copied'
SELECT count(*) FROM (TABLE hard EXCEPT ALL TABLE taken) lost;
TRUNCATE taken;
\copy hard TO 'hard.copied' (FORMAT binary)
\copy taken FROM 'hard.copied' (FORMAT binary)
SELECT count(*) FROM (TABLE hard EXCEPT ALL TABLE taken) lost;
SELECT ratio_send('-3/4');
-- a uuid has as many bytes, and any bytes
CREATE TABLE bytes (b uuid);
CREATE TABLE more (b bytea);
\set SHOW_CONTEXT never
INSERT INTO bytes VALUES ('00000000-0000-0001-0000-000000000000');
\copy bytes TO 'bytes.copied' (FORMAT binary)
\set VERBOSITY sqlstate
\copy taken FROM 'bytes.copied' (FORMAT binary)
UPDATE bytes SET b = '00000000-0000-0002-0000-000000000004';
\copy bytes TO 'bytes.copied' (FORMAT binary)
\copy taken FROM 'bytes.copied' (FORMAT binary)
UPDATE bytes SET b = '00000000-0000-0001-ffff-fffffffffffe';
\copy bytes TO 'bytes.copied' (FORMAT binary)
\copy taken FROM 'bytes.copied' (FORMAT binary)
UPDATE bytes SET b = '00000000-0000-0000-0000-000000000000';
\copy bytes TO 'bytes.copied' (FORMAT binary)
\copy taken FROM 'bytes.copied' (FORMAT binary)
UPDATE bytes SET b = '80000000-0000-0000-8000-000000000000';
\copy bytes TO 'bytes.copied' (FORMAT binary)
\copy taken FROM 'bytes.copied' (FORMAT binary)
-- too few bytes, and too many
INSERT INTO more VALUES ('\x0000000000000001');
\copy more TO 'bytes.copied' (FORMAT binary)
\copy taken FROM 'bytes.copied' (FORMAT binary)
UPDATE more SET b = '\x0000000000000001000000000000000100';
\copy more TO 'bytes.copied' (FORMAT binary)
\copy taken FROM 'bytes.copied' (FORMAT binary)
\set VERBOSITY terse
UPDATE bytes SET b = '00000000-0000-0002-0000-000000000004';
\copy bytes TO 'bytes.copied' (FORMAT binary)
\copy taken FROM 'bytes.copied' (FORMAT binary)
UPDATE bytes SET b = 'ffffffff-ffff-fffd-0000-000000000004';
\copy bytes TO 'bytes.copied' (FORMAT binary)
\copy taken FROM 'bytes.copied' (FORMAT binary)
SELECT r FROM taken EXCEPT ALL TABLE hard;
-- each pair of these numbers is taken in binary exactly if `ratio(n, d)` has these two numbers
CREATE FUNCTION received(n int8, d int8) RETURNS text LANGUAGE plpgsql AS $$
DECLARE path text := current_setting('data_directory') || '/pair.copied'; r ratio;
BEGIN
    EXECUTE format('COPY (SELECT int8send(%L) || int8send(%L)) TO %L (FORMAT binary)', n, d, path);
    TRUNCATE taken;
    EXECUTE format('COPY taken FROM %L (FORMAT binary)', path);
    SELECT taken.r INTO STRICT r FROM taken;
    RETURN numerator(r) || '/' || denominator(r);
EXCEPTION WHEN OTHERS THEN
    RETURN SQLSTATE;
END $$;
CREATE FUNCTION made(n int8, d int8) RETURNS text LANGUAGE plpgsql AS $$
BEGIN
    RETURN CASE WHEN (numerator(ratio(n, d)), denominator(ratio(n, d))) = (n, d) THEN n || '/' || d ELSE '22P03' END;
EXCEPTION WHEN OTHERS THEN
    RETURN '22P03';
END $$;
CREATE TABLE pairs AS SELECT n, d, received(n, d), made(n, d) FROM
    unnest('{-9223372036854775808,-9223372036854775807,-6,-5,-1,0,1,2,5,6,4294967296,9223372036854775806,9223372036854775807}'::int8[]) n,
    unnest('{-9223372036854775808,-9223372036854775807,-6,-5,-1,0,1,2,5,6,4294967296,9223372036854775806,9223372036854775807}'::int8[]) d;
SELECT count(*), count(*) FILTER (WHERE made <> '22P03') AS taken, count(*) FILTER (WHERE received <> made) AS wrong FROM pairs;
SELECT * FROM pairs WHERE received <> made ORDER BY n, d LIMIT 5;
-- by hand: what has a value, but not in lowest terms, and what has none
SELECT n, d, received(n, d) FROM (VALUES (1, 0, 1), (2, 0, 5), (3, 5, 0), (4, 2, 4), (5, 1, -2), (6, -1, -2), (7, -1, 2), (8, 0, -1)) rows(i, n, d) ORDER BY i;
DROP TABLE pairs;
DROP FUNCTION received, made;
\! rm -f hard.copied bytes.copied
DROP TABLE taken, bytes, more;
-- totals, in both ways
CREATE TABLE totals AS SELECT numerator(r) % 7 AS k, total(r) AS t FROM hard GROUP BY 1;
CREATE TABLE totals_taken (k int8, t ratio_total);
\copy totals TO 'totals.copied'
\copy totals_taken FROM 'totals.copied'
\copy totals TO 'totals.copied' (FORMAT binary)
\copy totals_taken FROM 'totals.copied' (FORMAT binary)
SELECT count(DISTINCT t::text) = count(DISTINCT k) AS same, count(*) = 2 * count(DISTINCT k) AS as_many, count(DISTINCT k) FROM (TABLE totals_taken UNION ALL SELECT * FROM totals WHERE false) all_of_them;
SELECT count(*) FROM totals a JOIN totals_taken b USING (k) WHERE a.t::text <> b.t::text;
SELECT ratio_total_send('{3; 5, -1/2}');
-- bytes that are no total: a denominator 0, one that comes again, one that falls, a numerator 0, too few slots and too many, a number of slots below 0
CREATE FUNCTION total_received(bytes bytea) RETURNS text LANGUAGE plpgsql AS $$
DECLARE path text := current_setting('data_directory') || '/total.copied'; t ratio_total;
BEGIN
    EXECUTE format('COPY (SELECT %L::bytea) TO %L (FORMAT binary)', bytes, path);
    CREATE TEMP TABLE received (t ratio_total) ON COMMIT DROP;
    EXECUTE format('COPY received FROM %L (FORMAT binary)', path);
    SELECT received.t INTO STRICT t FROM received;
    DROP TABLE received;
    RETURN t;
EXCEPTION WHEN OTHERS THEN
    RETURN SQLSTATE;
END $$;
CREATE FUNCTION numbers(VARIADIC n int8[]) RETURNS bytea LANGUAGE sql AS $$ SELECT string_agg(int8send(x), '' ORDER BY i) FROM unnest(n) WITH ORDINALITY u(x, i) $$;
SELECT n, total_received(b) FROM (VALUES (1, numbers(3, 0)), (2, numbers(-3, 2, 1, 0, 5, 2, -1, -1)), (3, numbers(1, 1, 0, 0, 5)), (4, numbers(1, 2, 2, 0, 5, 2, 0, 5)),
    (5, numbers(1, 2, 2, 0, 5, 1, 0, 5)), (6, numbers(1, 1, 2, 0, 0)), (7, numbers(1, 2, 2, 0, 5)), (8, numbers(1, 1, 2, 0, 5, 3)), (9, numbers(1, -1)),
    (10, numbers(1, 9223372036854775807)), (11, numbers(1, 1, -9223372036854775808, 0, 1)), (12, numbers(1)), (13, ''::bytea)) rows(n, b) ORDER BY n;
DROP FUNCTION total_received, numbers;
\! rm -f totals.copied
DROP TABLE totals, totals_taken;
-- dump and restore
CREATE TABLE dumped (r ratio PRIMARY KEY, t ratio_total, CHECK (r <> '1/7'));
INSERT INTO dumped SELECT r, r + ratio_total('2/3') FROM hard;
CREATE INDEX ON dumped USING hash (r);
CREATE DATABASE restored;
\setenv PGDATABASE :DBNAME
\! pg_dump --table=dumped --extension=ratio | psql -q -v ON_ERROR_STOP=1 restored >restored.said 2>&1 || cat restored.said
\! psql -At -c 'SELECT r, t FROM dumped ORDER BY r' restored >restored.rows; psql -At -c 'SELECT r, t FROM dumped ORDER BY r' | diff - restored.rows && echo the same rows
\! psql -At -v VERBOSITY=sqlstate -c "INSERT INTO dumped VALUES ('1/7')" restored
\! rm -f restored.said restored.rows
DROP DATABASE restored;
DROP TABLE dumped;
