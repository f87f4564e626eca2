-- Columns of fractions as people have them, in each plan. loads.csv has their formulas, and the sums that Python computes. The variable LOADS of
-- the shell says which rows: short, or long, for up to a million.
\set form short
\getenv form LOADS
CREATE TABLE loads (name text, form text, rows int8, numer text, denom text, sum text, avg text, rounded text, slots text, groups text);
\copy loads FROM loads.csv (FORMAT csv, HEADER)
DELETE FROM loads WHERE form <> :'form';
SELECT count(*), count(*) FILTER (WHERE sum = '22003') AS too_long FROM loads;
-- the whole part of a square root, as the formulas have it
CREATE FUNCTION isqrt(n int8) RETURNS int8 LANGUAGE sql IMMUTABLE AS $$ SELECT floor(sqrt(n::float8))::int8 $$;
-- the one value of a query, or the code of its error
CREATE FUNCTION said(query text) RETURNS text LANGUAGE plpgsql AS $$
DECLARE answer text;
BEGIN
    EXECUTE query INTO answer;
    RETURN answer;
EXCEPTION WHEN OTHERS THEN RETURN SQLSTATE;
END $$;
-- whether a plan has such a line. The query does not run.
CREATE FUNCTION is_planned(query text, such text) RETURNS boolean LANGUAGE plpgsql AS $$
DECLARE line text;
BEGIN
    FOR line IN EXECUTE 'EXPLAIN ' || query LOOP
        IF line ~ such THEN RETURN true; END IF;
    END LOOP;
    RETURN false;
END $$;
-- what each plan gave: whether it was the plan that was asked for, whether values were wrong, and whether an error came for values that fit
CREATE TABLE answers (name text, plan text, as_asked boolean, wrong int, refused int);
-- The sum, the mean, the decimal and the slots of a load by one plan. Those that fit are in one query, since one that does not refuses it.
CREATE PROCEDURE try_sums(load loads, plan text, source text, argument text, such text) LANGUAGE plpgsql AS $$
DECLARE sum text := format('sum(%s)', argument);
    avg text := format('avg(%s)', argument);
    all_that_fit text := format('SELECT concat_ws('' '', %s) FROM %s', concat_ws(', ', CASE WHEN load.sum <> '22003' THEN sum END, CASE WHEN load.avg <> '22003' THEN avg END,
        format('ratio_round(total(%s), 30)', argument), format('md5(total(%s)::text)', argument)), source);
    answer text := said(all_that_fit);
    wrong int := (answer IS DISTINCT FROM concat_ws(' ', NULLIF(load.sum, '22003'), NULLIF(load.avg, '22003'), load.rounded, load.slots))::int;
BEGIN
    IF load.sum = '22003' AND said(format('SELECT %s FROM %s', sum, source)) <> '22003' THEN wrong := wrong + 1; END IF;
    IF load.avg = '22003' AND said(format('SELECT %s FROM %s', avg, source)) <> '22003' THEN wrong := wrong + 1; END IF;
    INSERT INTO answers VALUES (load.name, plan, is_planned(all_that_fit, such), wrong, (answer ~ '^[0-9A-Z]{5}$')::int);
END $$;
-- the slots that one query gives: of all groups, or of a window
CREATE PROCEDURE try_slots(load loads, plan text, query text, wanted text, such text) LANGUAGE plpgsql AS $$
BEGIN
    INSERT INTO answers SELECT load.name, plan, is_planned(query, such), (said(query) IS DISTINCT FROM wanted)::int, 0;
END $$;
-- a column in two tables, one with partitions
CREATE PROCEDURE make_tables(load loads) LANGUAGE plpgsql AS $$
BEGIN
    DROP TABLE IF EXISTS plain, parted;
    CREATE TABLE plain (i int8, v ratio) WITH (parallel_workers = 4);
    EXECUTE format('INSERT INTO plain SELECT i, ratio(%s, %s) FROM generate_series(0, %s::int8 - 1) i, (VALUES (%s::int8)) rows(n)', load.numer, load.denom, load.rows, load.rows);
    CREATE TABLE parted (i int8, v ratio) PARTITION BY HASH (i);
    CREATE TABLE parted0 PARTITION OF parted FOR VALUES WITH (MODULUS 3, REMAINDER 0);
    CREATE TABLE parted1 PARTITION OF parted FOR VALUES WITH (MODULUS 3, REMAINDER 1);
    CREATE TABLE parted2 PARTITION OF parted FOR VALUES WITH (MODULUS 3, REMAINDER 2);
    INSERT INTO parted SELECT i, v FROM plain;
    ANALYZE plain, parted;
END $$;
CREATE FUNCTION by_groups() RETURNS text LANGUAGE sql AS $$ SELECT 'SELECT md5(string_agg(t::text, '' '' ORDER BY g)) FROM (SELECT i % 100 AS g, total(v) AS t FROM plain GROUP BY 1) groups' $$;
-- A window that moves over all rows, and then over all rows again, in ten blocks each. So each of the last eleven windows has all rows.
CREATE FUNCTION by_windows(rows int8) RETURNS text LANGUAGE sql AS $$ SELECT format('SELECT string_agg(DISTINCT md5(t::text), '' '') FROM (
    SELECT i, block, total(v) OVER (ORDER BY block GROUPS BETWEEN 9 PRECEDING AND CURRENT ROW) AS t
    FROM (SELECT i, i * 10 / %1$s AS block, v FROM plain UNION ALL SELECT i, 10 + i * 10 / %1$s, v FROM plain) twice) windows WHERE i %% (%1$s / 10) = 0 AND block >= 9', rows) $$;
CREATE PROCEDURE try_plans(load loads) LANGUAGE plpgsql AS $$
DECLARE workers text;
BEGIN
    CALL make_tables(load);
    FOREACH workers IN ARRAY '{0,1,2,4}'::text[] LOOP
        PERFORM set_config('max_parallel_workers_per_gather', workers, false);
        CALL try_sums(load, workers || ' workers', 'plain', 'v', CASE workers WHEN '0' THEN '^Aggregate' ELSE 'Workers Planned: ' || workers END);
    END LOOP;
    CALL try_slots(load, 'groups, 4 workers', by_groups(), load.groups, 'Workers Planned: 4');
    SET enable_partitionwise_aggregate = on;
    SET max_parallel_workers_per_gather = 2;
    CALL try_sums(load, 'partitions, 2 workers', 'parted', 'v', 'Parallel Append');
    SET max_parallel_workers_per_gather = 0;
    CALL try_sums(load, 'partitions', 'parted', 'v', 'Partial Aggregate');
    RESET enable_partitionwise_aggregate;
    CALL try_sums(load, 'sorted', 'plain', 'v ORDER BY v', '^Aggregate');
    CALL try_sums(load, 'at random', 'plain', 'v ORDER BY hashint8(i)', '^Aggregate');
    CALL try_slots(load, 'windows', by_windows(load.rows), load.slots, 'WindowAgg');
    SET enable_sort = off;
    CALL try_slots(load, 'groups by hash', by_groups(), load.groups, 'HashAggregate');
    RESET enable_sort;
    SET enable_hashagg = off;
    CALL try_slots(load, 'groups by sort', by_groups(), load.groups, 'GroupAggregate');
    RESET enable_hashagg;
END $$;
SET parallel_setup_cost = 0; SET parallel_tuple_cost = 0; SET min_parallel_table_scan_size = 0;
DO $$
DECLARE load loads;
BEGIN
    SET client_min_messages = warning;
    FOR load IN SELECT * FROM loads LOOP CALL try_plans(load); END LOOP;
END $$;
SELECT plan, count(*) AS loads, bool_and(as_asked) AS as_asked, sum(wrong) AS wrong, sum(refused) AS refused FROM answers GROUP BY plan ORDER BY plan;
SELECT * FROM answers WHERE wrong > 0 OR refused > 0 OR NOT as_asked;
RESET ALL;
DROP PROCEDURE try_plans, make_tables, try_sums, try_slots;
DROP FUNCTION isqrt, said, is_planned, by_groups, by_windows;
DROP TABLE loads, answers, plain, parted;
