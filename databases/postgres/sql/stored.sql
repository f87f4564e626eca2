-- What lies on disks does not change: the bytes of a value, its hashes, and the bytes of a total. README.md says what they are. A model in Python wrote
-- the numbers here from that description, for a machine with the lower byte first.
CREATE EXTENSION pageinspect;
CREATE TABLE pinned (value ratio, sent bytea, kept bytea, hash int4, with_seed_0 int8, with_seed_1 int8, with_seed_below_0 int8);
INSERT INTO pinned VALUES
    ('0', '\x00000000000000000000000000000001', '\x00000000000000000100000000000000', -1640531527, 9172280023384029625, -4065072879906754962, -4065072879906754964),
    ('1', '\x00000000000000010000000000000001', '\x01000000000000000100000000000000', -1635137217, 5712556928702990655, -2974461222584617655, -2974461222584617653),
    ('-1', '\xffffffffffffffff0000000000000001', '\xffffffffffffffff0100000000000000', 2130193551, 3459723096816626831, 6756415938517251506, 6756415938517251508),
    ('1/2', '\x00000000000000010000000000000002', '\x01000000000000000200000000000000', 1019298552, -3561907125917498632, -4057875570852206191, -4057875570852206177),
    ('-3/4', '\xfffffffffffffffd0000000000000004', '\xfdffffffffffffff0400000000000000', 973929739, -8169758820926685941, 279536122815922133, 279536122815922135),
    ('355/113', '\x00000000000001630000000000000071', '\x63010000000000007100000000000000', 705465089, 2187933702238800641, 1459365348388457211, 1459365348388457209),
    ('9223372036854775807', '\x7fffffffffffffff0000000000000001', '\xffffffffffffff7f0100000000000000', 1050503833, -5763648941117838695, 4702774507377494304, 4702774507377494318),
    ('-9223372036854775808', '\x80000000000000000000000000000001', '\x00000000000000800100000000000000', 1574746051, -51092014550435901, -4389332056325368432, -4389332056325368430),
    ('1/9223372036854775807', '\x00000000000000017fffffffffffffff', '\x0100000000000000ffffffffffffff7f', -501557812, 5814740962086933964, -1301464367393207485, -1301464367393207487),
    ('-9223372036854775808/9223372036854775807', '\x80000000000000007fffffffffffffff', '\x0000000000000080ffffffffffffff7f', -1586641839, 51092018833507409, 6726086526763352125, 6726086526763352123);
CREATE TABLE kept AS SELECT value FROM pinned;
SELECT value, ratio_send(value) = sent AS sent, item.t_data = kept AS kept, ratio_hash(value) = hash AS hash,
    ratio_hash_extended(value, 0) = with_seed_0 AND ratio_hash_extended(value, 1) = with_seed_1 AND ratio_hash_extended(value, -1) = with_seed_below_0 AS with_seeds
FROM (SELECT *, row_number() OVER () FROM pinned) p JOIN heap_page_items(get_raw_page('kept', 0)) item ON item.lp = p.row_number ORDER BY lp;
-- totals: up to 126 bytes PostgreSQL writes one byte before them, and else four. It may compress those of more than 2000 bytes.
CREATE TABLE pinned_totals (value ratio_total, sent bytea, kept bytea);
INSERT INTO pinned_totals VALUES
    ('{0}', '\x00000000000000000000000000000000', '\x1b000000000000000000000000'),
    ('{3; 5, -1/2}', '\x000000000000000300000000000000020000000000000001000000000000000000000000000000050000000000000002ffffffffffffffffffffffffffffffff', '\x7b0000000003000000000000000100000000000000050000000000000000000000000000000200000000000000ffffffffffffffffffffffffffffffff'),
    ('{-1; -170141183460469231731687303715884105728/9223372036854775807}', '\xffffffffffffffff00000000000000017fffffffffffffff80000000000000000000000000000000', '\x4b00000000ffffffffffffffffffffffffffffff7f00000000000000000000000000000080'),
    ('{5; 1/2, 1/3, 1/4, 1/5, 1/6}', '\x00000000000000050000000000000005000000000000000200000000000000000000000000000001000000000000000300000000000000000000000000000001000000000000000400000000000000000000000000000001000000000000000500000000000000000000000000000001000000000000000600000000000000000000000000000001', '\x20020000000000000500000000000000020000000000000001000000000000000000000000000000030000000000000001000000000000000000000000000000040000000000000001000000000000000000000000000000050000000000000001000000000000000000000000000000060000000000000001000000000000000000000000000000');
CREATE TABLE kept_totals AS SELECT value FROM pinned_totals;
SELECT value, ratio_total_send(value) = sent AS sent, item.t_data = kept AS kept
FROM (SELECT *, row_number() OVER () FROM pinned_totals) p JOIN heap_page_items(get_raw_page('kept_totals', 0)) item ON item.lp = p.row_number ORDER BY lp;
DROP TABLE pinned, kept, pinned_totals, kept_totals;
DROP EXTENSION pageinspect;
-- A stored value with a denominator below 1 ends in an error, or in an answer: never in a crash, never in a call without end. Only a damaged
-- disk has one. Here a point lends its bytes. The library compares and prints fractions with a denominator below 0 by their value.
CREATE CAST (point AS ratio) WITHOUT FUNCTION;
CREATE TABLE damaged (name text, r ratio);
INSERT INTO damaged VALUES ('0/0', point(0, 0)::ratio), ('below 0', point(0, -1)::ratio), ('both', point(-1, -1)::ratio);
SELECT name, call, refusal(format('SELECT %s FROM damaged WHERE name = %L', replace(call, 'r', 'damaged.r'), name)) FROM damaged,
    unnest('{r + 1,r - 1,r * 2,r / 2,1 / r,r % 2,1 % r,- r,r < 1,r >= 1,1 > r,r = 1,r <> 1}'::text[]) call ORDER BY name, call;
SELECT name, call, refusal(format('SELECT %s(r) FROM damaged WHERE name = %L', call, name)) FROM damaged,
    unnest('{abs,sign,floor,ceil,round,trunc,int8,int4,int2,float8,ratio_hash,numerator,denominator,ratio_send}'::text[]) call ORDER BY name, call;
SELECT name, refusal(format('SELECT r::text FROM damaged WHERE name = %L', name)) FROM damaged ORDER BY name;
SELECT refusal('SELECT ratio_power(r, 2) FROM damaged'), refusal('SELECT ratio_power(r, -2) FROM damaged'), refusal('SELECT ratio_trunc(r, 2) FROM damaged'), refusal('SELECT ratio_nearest(r, 2) FROM damaged'), refusal('SELECT r FROM damaged ORDER BY r');
SELECT refusal('SELECT sum(r) FROM damaged'), refusal('SELECT avg(r) FROM damaged');
SELECT refusal('SELECT ratio_decimal(r, 2) FROM damaged'), refusal('SELECT ratio_round(r, 2) FROM damaged'), refusal('SELECT r::numeric FROM damaged'), refusal('SELECT r::numeric FROM damaged WHERE name <> ''0/0'''),
    refusal('SELECT ratio_between(r, NULL) FROM damaged');
-- A stored total whose denominators do not grow, or with a numerator 0, ends in an error in each call. Here a path lends its bytes: each three
-- numbers are a denominator and the halves of a numerator. The number 5e-324 has the bytes of 1.
CREATE CAST (path AS ratio_total) WITHOUT FUNCTION;
CREATE TABLE totals (name text, t ratio_total);
INSERT INTO totals VALUES ('no whole slot', path '((5e-324,5e-324))'::ratio_total), ('empty slots', path '((0,0),(0,0),(0,0))'::ratio_total),
    ('a numerator over 0', path '((0,5e-324),(0,0),(0,0))'::ratio_total), ('a denominator twice', path '((5e-324,5e-324),(0,5e-324),(5e-324,0))'::ratio_total),
    ('a denominator of 2^63', path '((5e-324,5e-324),(0,-0),(5e-324,0))'::ratio_total),
    ('denominators that fall', path '((1e-323,5e-324),(0,5e-324),(5e-324,0))'::ratio_total), ('in order', path '((5e-324,5e-324),(0,1e-323),(5e-324,0))'::ratio_total);
SELECT name, left(refusal(format('SELECT %s FROM totals WHERE name = %L', call, name)), 5) AS code, count(*) FROM totals,
    unnest('{t::ratio,t::text,t::numeric,"t + t","t - t","t < t","t = t",sum(t),avg(t),"ratio_round(t, 2)",ratio_count(t),ratio_total_send(t)}'::text[]) call GROUP BY 1, 2 ORDER BY 1;
SELECT t::ratio FROM totals WHERE name = 'in order';
DROP TABLE totals;
DROP CAST (path AS ratio_total);
SELECT refusal('SELECT total(r) FROM damaged'), refusal('SELECT r::ratio_total FROM damaged');
DROP TABLE damaged;
DROP CAST (point AS ratio);
