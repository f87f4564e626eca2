-- The simplest fraction strictly between two, for orders that users arrange.
SELECT ratio_between(1, 2), ratio_between('1/3', '1/2'), ratio_between('15/16', 1), ratio_between('-1/2', '-1/3'), ratio_between(-1, '1/9'), ratio_between(0, '1/2147483647'),
    ratio_between('9223372036854775805/9223372036854775806', 1), ratio_between(-9223372036854775808, 9223372036854775807);
SELECT q, refusal('SELECT ratio_between' || q) FROM unnest(ARRAY['(1, 1)', '(2, 1)', '(''9223372036854775806/9223372036854775807'', 1)',
    '(0, ''1/9223372036854775807'')', '(NULL, -9223372036854775808)', '(9223372036854775807, NULL)']) q;
-- NULL is no bound
SELECT ratio_between(NULL, 1), ratio_between(NULL, 0), ratio_between(NULL, '-5/2'), ratio_between(1, NULL), ratio_between('5/2', NULL), ratio_between(-1, NULL),
    ratio_between(NULL, NULL), ratio_between(NULL, -9223372036854775807), ratio_between(9223372036854775806, NULL);
-- beside a search for the smallest denominator
CREATE TABLE small AS SELECT DISTINCT ratio(n, d) AS r FROM generate_series(1, 6) d, generate_series(-9, 9) n;
SELECT count(*), count(*) FILTER (WHERE ratio_between(a.r, b.r) <> found.r) AS wrong FROM small a JOIN small b ON a.r < b.r, LATERAL
    (SELECT ratio(n, d) AS r FROM generate_series(1, 11) d, generate_series(-40, 40) n
     WHERE n * denominator(a.r) > numerator(a.r) * d AND n * denominator(b.r) < numerator(b.r) * d ORDER BY d, abs(n) LIMIT 1) found;
-- a list by drag and drop: a row gets a place between its neighbours, and no other row changes
CREATE TABLE tasks (name text, place ratio PRIMARY KEY);
INSERT INTO tasks VALUES ('plan', 1), ('build', 2), ('ship', 3);
INSERT INTO tasks VALUES ('test', ratio_between(2, 3));
UPDATE tasks SET place = ratio_between(1, 2) WHERE name = 'ship';
INSERT INTO tasks SELECT 'read', ratio_between(NULL, min(place)) FROM tasks;
INSERT INTO tasks SELECT 'rest', ratio_between(max(place), NULL) FROM tasks;
SELECT name, place FROM tasks ORDER BY place;
-- 10,000 insertions at one end
CREATE TABLE at_end (i int, place ratio PRIMARY KEY);
INSERT INTO at_end VALUES (0, 0), (1, 1);
DO $$ BEGIN
    FOR k IN 2 .. 10001 LOOP
        INSERT INTO at_end SELECT k, ratio_between(0, min(place)) FROM at_end WHERE place > 0;
    END LOOP;
END $$;
SELECT count(*), min(place) FILTER (WHERE place > 0), bool_and(place = ratio(1, i)) FILTER (WHERE i > 0) AS as_simple FROM at_end;
-- PostgreSQL's own check of an index that grew row by row
CREATE EXTENSION amcheck;
SELECT bt_index_parent_check('at_end_pkey', true, true);
DROP EXTENSION amcheck;
-- always between the last two: each place is the simplest one, and at last none fits
CREATE FUNCTION zigzag() RETURNS text LANGUAGE plpgsql AS $$
DECLARE low ratio := 0; high ratio := 1; middle ratio; steps int := 0;
BEGIN
    LOOP
        middle := ratio_between(low, high);
        steps := steps + 1;
        IF steps % 2 = 0 THEN low := middle; ELSE high := middle; END IF;
    END LOOP;
EXCEPTION WHEN numeric_value_out_of_range THEN
    RETURN format('%s places, the last one %s', steps, middle);
END $$;
SELECT zigzag();
DROP FUNCTION zigzag;
DROP TABLE small, tasks, at_end;
