-- The examples of README.md. The sums are those that Python's fractions give.
SELECT '1/2'::ratio + '1/3', 1 / 3::ratio, '6/-4'::ratio;
SELECT '9223372036854775807'::ratio + 1;
-- a ledger of shares
CREATE TABLE shares (owner text PRIMARY KEY, share ratio NOT NULL CHECK (share >= 0));
INSERT INTO shares VALUES ('Ana', '1/3'), ('Ben', '1/3'), ('Cleo', '1/3');
SELECT sum(share) FROM shares;
BEGIN;   -- Ana sells two fifths of her share to Dora
INSERT INTO shares SELECT 'Dora', share * '2/5' FROM shares WHERE owner = 'Ana';
UPDATE shares SET share = share * '3/5' WHERE owner = 'Ana';
COMMIT;
SELECT owner, share FROM shares ORDER BY share DESC, owner;
SELECT sum(share) FROM shares;
DROP TABLE shares;
-- a table of rates, summed by parallel workers
CREATE TABLE readings AS
SELECT i % 1000 AS meter, i % 24 AS units, ratio(i % 7 + 1, 12) AS rate FROM generate_series(1, 1000000) i;
ANALYZE readings;
EXPLAIN (COSTS OFF) SELECT sum(units * rate) FROM readings;
SELECT sum(units * rate), avg(rate) FROM readings;
SELECT meter, sum(units * rate) FROM readings WHERE meter < 3 GROUP BY meter ORDER BY meter;
DROP TABLE readings;
-- a bill split to the cent, a chain of rates, and bars that meet
SELECT ratio_split(10000, '{1/2, 1/3, 1/6}'), ratio_split_by_weights(10000, '{31, 28, 14}');
SELECT ratio_product('{254/100, 12, 3, 1760, 1/100000}'), ratio_mul_round(123456, '1.0825'), ratio_mul_round('19.99', '2.25', 2), lcm('1/4'::ratio, '1/6'), gcd('1/4'::ratio, '1/6');
-- totals that do not fit 64 bits
SELECT ratio_round(total(ratio(1, i)), 20) FROM generate_series(1, 1000) i;
CREATE TABLE months AS
SELECT i % 12 + 1 AS month, total(ratio(1, i)) AS costs FROM generate_series(1, 1000) i GROUP BY 1;
SELECT ratio_round(sum(costs), 20), ratio_count(sum(costs)) FROM months;
SELECT month, costs::numeric(10, 4) FROM months ORDER BY costs DESC LIMIT 2;
UPDATE months SET costs = costs + '1/3' WHERE month = 1;
SELECT ratio_round(costs, 10), ratio_count(costs) FROM months WHERE month = 1;
DROP TABLE months;
SELECT '{2; 2/2}'::ratio_total = '{1; 1}', '{3; 5, 1/2}'::ratio_total::ratio, total(r) FROM unnest('{1/2,1/2}'::ratio[]) r;
-- a place of one owner, and steps of a tariff
CREATE TABLE parts (estate int, owner text, part ratiorange, EXCLUDE USING gist (int4range(estate, estate, '[]') WITH =, part WITH &&));
INSERT INTO parts VALUES (1, 'Ana', '[0,1/3)'), (1, 'Ben', '[1/3,1)'), (2, 'Ana', '[0,1)');
SELECT refusal('INSERT INTO parts VALUES (1, ''Cleo'', ''[1/4,1/2)'')');
SELECT owner FROM parts WHERE estate = 1 AND part @> '2/5'::ratio;
SELECT estate, range_agg(part) FROM parts GROUP BY estate ORDER BY estate;
CREATE TABLE tariffs (meter int, used ratiorange, price ratio, EXCLUDE USING gist (int4range(meter, meter, '[]') WITH =, used WITH &&));
INSERT INTO tariffs VALUES (7, '[0,100)', '1/3'), (7, '[100,)', '1/4');
SELECT sum((upper(u) - lower(u)) * price) FROM tariffs, LATERAL (SELECT used * ratiorange(0, 125) AS u) part WHERE meter = 7 AND NOT isempty(u);
DROP TABLE parts, tariffs;
-- windows and series
SELECT beat, count(*) OVER (ORDER BY beat RANGE '1/6' PRECEDING) FROM unnest('{0, 1/6, 1/4, 1/2, 7/12}'::ratio[]) beat;
SELECT array_agg(beat) FROM generate_series(0::ratio, 1, '1/6') beat;
-- The statements of the section "Coming from pg_rational and numeric" of README.md. databases/postgres/test compares its tables with the rows here.
CREATE TEMP TABLE sales (amount bigint, rate ratio);
INSERT INTO sales VALUES (100, '1/3'), (200, 0.5), (300, '2/3');
CREATE TEMP TABLE counts (n int, s smallint);
\pset format unaligned
\pset tuples_only
\pset fieldsep ', '
-- the rows
SELECT ratio(3, 4);
SELECT 2::ratio / 5;
SELECT '5/6'::ratio + '3/4';
SELECT 2 - '3/4'::ratio;
SELECT - '3/4'::ratio;
SELECT '21/28'::ratio;
SELECT '21/28'::ratio = '3/4';
SELECT ratio_rationalize(0.35);
SELECT '3/8'::ratio::float8;
SELECT ratio_between('2/5', '3/5');
SELECT ratio_between('2/5', NULL);
SELECT sum(rate), min(rate), max(rate) FROM sales;
SELECT amount FROM sales WHERE rate > 0.5;
SELECT amount FROM sales WHERE rate IN (0.5, 1);
SELECT count(*) FROM sales WHERE rate BETWEEN 0.25 AND 0.6;
SELECT sum(amount * rate) / sum(amount) FROM sales;
SELECT avg(rate) * 1.5 FROM sales;
SELECT 0.5 + '1/3'::ratio;
SELECT 7 % '3/2'::ratio;
SELECT coalesce(NULL::ratio, 0.5);
SELECT greatest('1/3'::ratio, 0.3);
SELECT abs('-1/3'::ratio), sign('-1/3'::ratio);
SELECT round('5/2'::ratio), trunc('-7/2'::ratio);
SELECT ratio_round('2/3', 2), ratio_trunc('2/3', 2);
SELECT ratio_power('2/3', -3);
SELECT '2/3'::ratio::numeric;
SELECT '2/3'::ratio::numeric(5, 2);
SELECT '7/2'::ratio::int, '-7/2'::ratio::smallint;
INSERT INTO counts VALUES ('7/2'::ratio, 0.4::ratio) RETURNING n, s;
SELECT to_char('2/3'::ratio::numeric, 'FM0.000');
