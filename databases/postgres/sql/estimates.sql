-- Estimates of rows for bounds and ranges, beside those of numeric over the same values. ANALYZE reads all of these rows, so that each run estimates the same.
CREATE TABLE spread AS SELECT ratio(i, 100) AS even, i * 0.01 AS even_n,
    ratio(i * (i + 1000::int8), 100) AS skewed, i * (i + 1000::int8) * 0.01 AS skewed_n,
    ratio(often, 100) AS common, often * 0.01 AS common_n, ratio(seldom, 64) AS sparse, seldom::numeric / 64 AS sparse_n, ratio(i % 150, 8) AS few, (i % 150)::numeric / 8 AS few_n
FROM generate_series(1, 30000) i, LATERAL (SELECT CASE WHEN i % 3 = 0 THEN 7 WHEN i % 7 = 0 THEN 12000 ELSE i END AS often, CASE WHEN i % 4 > 0 THEN i - 15000 END AS seldom) x;
ANALYZE spread;
CREATE FUNCTION planned(query text) RETURNS float8 LANGUAGE plpgsql AS $$
DECLARE plan json;
BEGIN
    EXECUTE 'EXPLAIN (FORMAT JSON) ' || query INTO plan;
    RETURN plan->0->'Plan'->>'Plan Rows';
END $$;
CREATE FUNCTION counted(query text) RETURNS float8 LANGUAGE plpgsql AS $$
DECLARE n float8;
BEGIN
    EXECUTE 'SELECT count(*) FROM (' || query || ') rows' INTO n;
    RETURN n;
END $$;
CREATE FUNCTION is_near(estimate float8, truth float8) RETURNS boolean LANGUAGE sql AS $$ SELECT CASE WHEN truth < 10 THEN estimate <= 10 ELSE estimate BETWEEN truth / 2 AND truth * 2 END $$;
-- values of each column at its ends, past them and between: some in one bucket of its histogram, some in others
CREATE TABLE marks (name text, place int, mark text);
DO $$
DECLARE name text;
BEGIN
    FOREACH name IN ARRAY '{even, skewed, common, sparse, few}'::text[] LOOP
        EXECUTE format('INSERT INTO marks SELECT %1$L, place, ratio_decimal(%1$I, 6) FROM (SELECT %1$I, row_number() OVER (ORDER BY %1$I) AS place FROM spread) sorted WHERE place IN (1, 140, 7000, 7100, 20050, 22000)
            UNION ALL SELECT %1$L, 0, ratio_decimal(min(%1$I) - ''1/2'', 6) FROM spread UNION ALL SELECT %1$L, 30001, ratio_decimal(max(%1$I) + ''1/2'', 6) FROM spread', name);
    END LOOP;
END $$;
CREATE TABLE tried AS SELECT name, format(form, low.mark, high.mark) AS condition FROM marks low JOIN marks high USING (name),
    unnest('{"%%1$I > %L AND %%1$I < %L", "%%1$I >= %L AND %%1$I <= %L", "%2$L >= %%1$I AND %1$L < %%1$I AND %%1$I > %1$L"}'::text[]) form WHERE low.place <= high.place;
INSERT INTO tried SELECT name, format(form, mark) FROM marks, unnest('{"%%1$I < %L", "%%1$I <= %L", "%%1$I > %L", "%%1$I >= %L", "%L < %%1$I", "NOT %%1$I < %1$L AND NOT %%1$I < %1$L"}'::text[]) form;
INSERT INTO tried SELECT DISTINCT name, format(form, mark) FROM marks, unnest('{"%%1$I = %L", "%%1$I <> %L", "%%1$I IN (%L, ''3'')"}'::text[]) form WHERE place BETWEEN 1 AND 30000;
INSERT INTO tried SELECT name, format('%%1$I BETWEEN %L AND %L OR %%1$I BETWEEN %L AND %L', a.mark, b.mark, c.mark, d.mark) FROM marks a JOIN marks b USING (name) JOIN marks c USING (name) JOIN marks d USING (name)
WHERE a.place = 1 AND b.place = 140 AND c.place = 7000 AND d.place = 22000;
CREATE VIEW estimates AS SELECT name, condition, counted(format('SELECT FROM spread WHERE ' || condition, name)) AS truth, planned(format('SELECT FROM spread WHERE ' || condition, name)) AS estimate,
    planned(format('SELECT FROM spread WHERE ' || condition, name || '_n')) AS of_numeric FROM tried;
CREATE TABLE estimated AS TABLE estimates;
SELECT name, count(*), count(*) FILTER (WHERE NOT is_near(estimate, truth)) AS wrong, count(*) FILTER (WHERE truth > 0 AND estimate NOT BETWEEN of_numeric * 0.99 - 1 AND of_numeric * 1.01 + 1) AS unlike FROM estimated GROUP BY 1 ORDER BY 1;
SELECT * FROM estimated WHERE NOT is_near(estimate, truth) ORDER BY 1, 2;
-- an index knows the ends, also of rows that ANALYZE has not seen
CREATE INDEX ON spread (even);
CREATE INDEX ON spread (even_n);
TRUNCATE tried;
INSERT INTO tried SELECT 'even', format(form, mark) FROM unnest('{-3, -2.97, -1, 0.001, 0.011, 299.999, 301, 302.97, 303}'::numeric[]) mark, unnest('{"%%1$I < %L", "%%1$I > %L", "%%1$I > %L AND %%1$I < ''1000''"}'::text[]) form;
SELECT count(*), count(*) FILTER (WHERE estimate NOT BETWEEN of_numeric * 0.99 - 1 AND of_numeric * 1.01 + 1) AS unlike FROM estimates;
INSERT INTO spread (even, even_n) SELECT ratio(i, 100), i * 0.01 FROM generate_series(-299, 30300) i WHERE i NOT BETWEEN 1 AND 30000;
SELECT count(*), count(*) FILTER (WHERE estimate NOT BETWEEN of_numeric * 0.99 - 1 AND of_numeric * 1.01 + 1) AS unlike FROM estimates;
-- parameters, subqueries, joins, and what has no statistics: as numeric. A bound that is NULL and a range without values leave no row
PREPARE of_ratio AS SELECT FROM spread WHERE even BETWEEN $1 AND $2;
PREPARE of_numeric AS SELECT FROM spread WHERE even_n BETWEEN $1 AND $2;
SET plan_cache_mode = force_generic_plan;
SELECT planned('EXECUTE of_ratio(1, 2)') AS of_ratio, planned('EXECUTE of_numeric(1, 2)') AS of_numeric;
RESET plan_cache_mode;
SELECT planned('EXECUTE of_ratio(1, 2)') AS of_ratio, planned('EXECUTE of_numeric(1, 2)') AS of_numeric;
CREATE FUNCTION no_ratio() RETURNS ratio LANGUAGE plpgsql STABLE AS 'BEGIN RETURN NULL; END';
CREATE FUNCTION no_numeric() RETURNS numeric LANGUAGE plpgsql STABLE AS 'BEGIN RETURN NULL; END';
CREATE TABLE unread (even ratio, even_n numeric);
SELECT query, planned(format(query, 'even', 'ratio')) AS of_ratio, planned(format(query, 'even_n', 'numeric')) AS of_numeric FROM unnest('{
    SELECT FROM spread WHERE %1$I > (SELECT min(%1$I) FROM spread),
    SELECT FROM spread WHERE %1$I + 1 < ''3'' AND %1$I > ''2'',
    SELECT FROM spread a JOIN spread b USING (%1$I) WHERE a.%1$I BETWEEN ''10'' AND ''15'',
    SELECT FROM spread a LEFT JOIN spread b ON a.%1$I > ''10'' AND a.%1$I < ''15'',
    SELECT FROM spread a LEFT JOIN spread b ON a.%1$I > ''150'' LEFT JOIN spread c ON a.%1$I < ''100'' AND c.%1$I = a.%1$I,
    SELECT FROM spread a JOIN spread b ON a.%1$I < b.%1$I,
    SELECT FROM spread WHERE (%1$I > ''10'' AND %1$I < ''15'') IS TRUE,
    SELECT FROM spread WHERE %1$I < ''10'' OR %1$I < ''15'',
    SELECT FROM spread WHERE (%1$I > ''10'') IS NOT TRUE AND %1$I < ''15'',
    SELECT few FROM spread GROUP BY few HAVING sum(%1$I) > ''10'' AND sum(%1$I) < ''15'',
    SELECT FROM spread WHERE %1$I > ''15'' AND %1$I < ''10'',
    SELECT FROM spread WHERE %1$I BETWEEN ''10'' AND NULL,
    SELECT FROM spread WHERE %1$I > no_%2$s() AND %1$I < ''10'',
    SELECT FROM unread WHERE %1$I > ''10'',
    SELECT FROM unread WHERE %1$I BETWEEN ''10'' AND ''15'',
    SELECT FROM unread WHERE %1$I < no_%2$s() AND %1$I > no_%2$s(),
    SELECT FROM unread WHERE %1$I < ''10'' AND %1$I > no_%2$s()
}'::text[]) query;
-- ranges with skewed bounds and lengths: PostgreSQL's own estimator takes lengths as floats, and says the same for fractions and for numeric
CREATE TABLE spans AS SELECT ratiorange(low, low + ratio(x, 4)) AS s, numrange(low_n, low_n + x / 4.0) AS n FROM (SELECT skewed, skewed_n, 1 + numerator(even) % 100 FROM spread) lows(low, low_n, x);
ANALYZE spans;
SELECT condition, planned('SELECT FROM spans WHERE s ' || condition) / planned('SELECT FROM spans WHERE n ' || replace(condition, 'ratio', 'num')) BETWEEN 0.99 AND 1.01 AS as_numeric,
    is_near(planned('SELECT FROM spans WHERE s ' || condition), counted('SELECT FROM spans WHERE n ' || replace(condition, 'ratio', 'num'))) AS is_near
FROM unnest(ARRAY['<< ratiorange(1000, 1001)', '>> ratiorange(5000000, 5000001)', '&& ratiorange(1000, 100000)', '<@ ratiorange(0, 2000000)', '<@ ratiorange(5000, 5100)']) condition;
-- operators of another type, and one without a commutator, with the same estimator: a third of the rows by default
CREATE TABLE whole AS SELECT i, ratio(i) AS r FROM generate_series(1, 9000) i;
ANALYZE whole;
CREATE FUNCTION is_below(int, int) RETURNS boolean LANGUAGE plpgsql AS 'BEGIN RETURN $1 < $2; END';
CREATE OPERATOR <<<< (LEFTARG = int, RIGHTARG = int, FUNCTION = is_below, RESTRICT = ratio_bound_sel);
CREATE OPERATOR <<<@ (LEFTARG = int, RIGHTARG = int, FUNCTION = is_below, RESTRICT = ratio_bound_sel, COMMUTATOR = @>>>);
CREATE OPERATOR <<<< (LEFTARG = ratio, RIGHTARG = ratio, FUNCTION = ratio_lt, RESTRICT = ratio_bound_sel);
SELECT condition, planned('SELECT FROM whole WHERE ' || condition) FROM unnest('{i <<<< 5, 5 <<<< i, i <<<@ 5, 5 <<<@ i, i <<<< 5 AND 5 <<<@ i, 5::ratio <<<< r}'::text[]) condition;
DROP OPERATOR <<<<(int, int), <<<@(int, int), @>>>(int, int), <<<<(ratio, ratio);
-- the costs of indexes, in a join by ranges and with predicates
CREATE FUNCTION costed(query text) RETURNS float8 LANGUAGE plpgsql AS $$
DECLARE plan json;
BEGIN
    EXECUTE 'EXPLAIN (FORMAT JSON) ' || query INTO plan;
    RETURN plan->0->'Plan'->>'Total Cost';
END $$;
CREATE INDEX ON spread (skewed);
CREATE INDEX ON spread (skewed_n);
CREATE INDEX ON spread (common) WHERE common > '100';
CREATE INDEX ON spread (common_n) WHERE common_n > '100';
CREATE INDEX ON spread (few) WHERE sparse > '50' AND sparse < '60';
CREATE INDEX ON spread (few_n) WHERE sparse_n > '50' AND sparse_n < '60';
SELECT query, costed(replace(query, '_x', '')) / costed(replace(query, '_x', '_n')) BETWEEN 0.8 AND 1.25 AS as_dear FROM unnest('{
    SELECT FROM (SELECT skewed_x AS low FROM spread LIMIT 10) lows JOIN spread ON skewed_x > low AND skewed_x < low + 1,
    SELECT FROM spread WHERE common_x > ''100'' AND common_x < ''101'',
    SELECT FROM spread WHERE few_x < ''10'' AND sparse_x > ''50'' AND sparse_x < ''51'' AND sparse_x < ''60'',
    SELECT FROM spread WHERE few_x < ''10'' AND sparse_x > ''50'' AND sparse_x < ''60''
}'::text[]) query;
-- planning long conditions takes about as much memory as with numeric, and no long time. A new process has its own peak of memory, in MB
CREATE FUNCTION peak() RETURNS int LANGUAGE sql AS $$ SELECT substring(pg_read_file('/proc/self/status', 0, 10000) FROM 'VmHWM:\s+(\d+)')::int / 1024 $$;
CREATE TABLE long AS SELECT name, 'SELECT FROM spread WHERE ' || unnest(ARRAY[string_agg(low || ' AND ' || high, ' OR '), string_agg(low, ' AND ') || ' AND ' || string_agg(high, ' AND ')]) AS query
FROM unnest('{even, even_n}'::text[]) name, generate_series(1, 1000) i, LATERAL (SELECT format('%I > %L', name, i * 0.1) AS low, format('%I < %L', name, i * 0.1 + 150) AS high) bounds GROUP BY name;
\set SHOW_CONTEXT never
\c -
SELECT sum(planned(query)) AS rows_of_numeric, peak() AS peak_of_numeric FROM long WHERE name = 'even_n' \gset
\c -
SET statement_timeout = '4s';
SELECT sum(planned(query)) BETWEEN :rows_of_numeric * 0.99 AND :rows_of_numeric * 1.01 AS as_many, peak() BETWEEN 10 AND :peak_of_numeric * 1.5 AS as_small FROM long WHERE name = 'even';
RESET statement_timeout;
DROP VIEW estimates;
DROP TABLE spread, spans, marks, tried, estimated, unread, whole, long;
DROP FUNCTION planned, counted, is_near, no_ratio, no_numeric, is_below, costed, peak;
