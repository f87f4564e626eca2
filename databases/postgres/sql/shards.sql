-- Sums over two servers: each adds up its rows, sends a ratio_total, and these are added here. Both servers are this one, through its socket.
CREATE EXTENSION postgres_fdw;
DO $$
DECLARE place text := format('host %L, port %L, dbname %L, extensions %L', current_setting('unix_socket_directories'), current_setting('port'), current_database(), 'ratio');
BEGIN
    EXECUTE format('CREATE SERVER north FOREIGN DATA WRAPPER postgres_fdw OPTIONS (%s)', place);
    EXECUTE format('CREATE SERVER south FOREIGN DATA WRAPPER postgres_fdw OPTIONS (%s)', place);
END $$;
CREATE USER MAPPING FOR CURRENT_USER SERVER north;
CREATE USER MAPPING FOR CURRENT_USER SERVER south;
-- 1/1 to 1/1000 in the north, and -1/2 to -1/1000 in the south. Neither sum fits a ratio. Both together are 1.
CREATE TABLE north_rows AS SELECT 1 AS shard, i, ratio(1, i) AS r FROM generate_series(1, 1000) i;
CREATE TABLE south_rows AS SELECT 2 AS shard, i, ratio(-1, i) AS r FROM generate_series(2, 1000) i;
CREATE TABLE entries (shard int, i int, r ratio) PARTITION BY LIST (shard);
CREATE FOREIGN TABLE north PARTITION OF entries FOR VALUES IN (1) SERVER north OPTIONS (table_name 'north_rows');
CREATE FOREIGN TABLE south PARTITION OF entries FOR VALUES IN (2) SERVER south OPTIONS (table_name 'south_rows');
-- each server adds up its rows, and sends one total
CREATE VIEW parts AS SELECT 'north' AS shard, total(r) AS t FROM north UNION ALL SELECT 'south', total(r) FROM south;
EXPLAIN (VERBOSE, COSTS OFF) SELECT sum(t) FROM parts;
SELECT sum(t), sum(t)::ratio AS ratio, avg(t), ratio_count(sum(t)) FROM parts;
SELECT sum(t)::ratio FROM (SELECT total(r) AS t FROM north UNION ALL SELECT total(r) FROM south) parts;
SELECT refusal('SELECT sum(r) FROM north'), refusal('SELECT sum(r) FROM south');
-- the decimals are those that Python's fractions give, and nothing is lost on the way
SELECT shard, ratio_round(t, 20), ratio_round(t, 20) = CASE shard WHEN 'north' THEN 7.48547086055034491266 ELSE -6.48547086055034491266 END AS is_right FROM parts;
SELECT t::text = CASE shard WHEN 'north' THEN (SELECT total(r)::text FROM north_rows) ELSE (SELECT total(r)::text FROM south_rows) END AS same FROM parts;
-- the ends of 128 bits and of bigint arrive as they are
CREATE TABLE wide_rows AS SELECT t FROM unnest(ARRAY['{7; -170141183460469231731687303715884105728/3, 170141183460469231731687303715884105727/9223372036854775807}',
    '{0}', '{-9223372036854775808; 1}']::ratio_total[]) t;
CREATE FOREIGN TABLE wide (t ratio_total) SERVER south OPTIONS (table_name 'wide_rows');
SELECT t, t::text IN (SELECT t::text FROM wide_rows) AS same FROM wide;
-- the planner does the same, partition by partition: whole groups there, and parts of one group here
SET enable_partitionwise_aggregate = on;
EXPLAIN (VERBOSE, COSTS OFF) SELECT sum(t) FROM (SELECT shard, total(r) AS t FROM entries GROUP BY shard) by_shard;
SELECT sum(t)::ratio, count(*) FROM (SELECT shard, total(r) AS t FROM entries GROUP BY shard) by_shard;
SELECT shard, sum(r) FROM entries WHERE i <= 10 GROUP BY shard ORDER BY shard;
EXPLAIN (COSTS OFF) SELECT sum(r), avg(r) FROM entries;
SELECT sum(r), avg(r), total(r) FROM entries;
RESET enable_partitionwise_aggregate;
SELECT sum(r), avg(r), total(r) FROM entries;
-- a condition on fractions is asked there
EXPLAIN (VERBOSE, COSTS OFF) SELECT total(r) FROM north WHERE r > '1/4';
SELECT total(r) FROM north WHERE r > '1/4';
-- without the option, all rows are sent
ALTER SERVER north OPTIONS (DROP extensions);
EXPLAIN (VERBOSE, COSTS OFF) SELECT total(r) FROM north;
SELECT sum(t)::ratio FROM (SELECT total(r) AS t FROM north UNION ALL SELECT total(r) FROM south) parts;
DROP VIEW parts;
DROP TABLE entries, north_rows, south_rows, wide_rows;
DROP FOREIGN TABLE wide;
DROP USER MAPPING FOR CURRENT_USER SERVER north;
DROP USER MAPPING FOR CURRENT_USER SERVER south;
DROP SERVER north, south;
DROP EXTENSION postgres_fdw;
