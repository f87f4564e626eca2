-- Beside the extension, each call and each operator over the types that are there without it means the same.
\set QUIET on
CREATE EXTENSION ratio;
-- the names that the extension adds to: those of its functions and operators which exist without it, too
CREATE TABLE shared_calls AS
SELECT DISTINCT p.proname AS name FROM pg_proc p
WHERE p.pronamespace = 'pg_catalog'::regnamespace AND p.proname IN (
    SELECT o.proname FROM pg_proc o JOIN pg_depend d ON d.classid = 'pg_proc'::regclass AND d.objid = o.oid AND d.deptype = 'e'
    JOIN pg_extension e ON d.refobjid = e.oid AND e.extname = 'ratio');
CREATE TABLE shared_operators AS
SELECT DISTINCT p.oprname AS name FROM pg_operator p
WHERE p.oprnamespace = 'pg_catalog'::regnamespace AND p.oprname IN (
    SELECT o.oprname FROM pg_operator o JOIN pg_depend d ON d.classid = 'pg_operator'::regclass AND d.objid = o.oid AND d.deptype = 'e'
    JOIN pg_extension e ON d.refobjid = e.oid AND e.extname = 'ratio');
DROP EXTENSION ratio;
\set QUIET off
SELECT name FROM shared_calls ORDER BY name COLLATE "C";
SELECT name FROM shared_operators ORDER BY name COLLATE "C";
-- operands: numbers and literals without a type, which meet all others, and the other types, each of which meets its own kind
CREATE TABLE operands AS
SELECT 'NULL::' || oid::regtype AS operand, CASE typcategory::text WHEN 'T' THEN 'D' WHEN 'U' THEN typname ELSE typcategory::text END AS kind FROM pg_type
WHERE typnamespace = 'pg_catalog'::regnamespace AND (typcategory IN ('N', 'S', 'T', 'D', 'B', 'V', 'I') AND typname !~ '^reg|^name$' OR typname IN ('bytea', 'jsonb', 'macaddr',
    'pg_lsn', 'uuid', 'xid', 'point', 'daterange', 'int4range', 'int8range', 'numrange', 'int8multirange', '_int4', '_int8', '_numeric', '_text'))
UNION ALL VALUES ('NULL', 'N'), ('''1''', 'N');
CREATE VIEW pairs AS SELECT a.operand AS a, b.operand AS b FROM operands a, operands b WHERE a.kind = b.kind OR 'N' IN (a.kind, b.kind);
CREATE VIEW calls AS
SELECT a || ' ' || name || ' ' || b AS call FROM pairs, shared_operators
UNION ALL SELECT name || ' ' || operand FROM operands, shared_operators WHERE name IN ('+', '-')
UNION ALL SELECT format('%I(%s)', name, operand) FROM operands, shared_calls
UNION ALL SELECT format('%I(%s, %s)', name, a, b) FROM pairs, shared_calls
UNION ALL SELECT format(f, operand) FROM operands, (VALUES ('power(%s, 2)'), ('power(2, %s)'), ('%s ^ 2'), ('2 ^ %s'), ('mod(%s, 2)'),
    ('greatest(%s, 1.5)'), ('coalesce(%s, 2)'), ('%s BETWEEN 0 AND 2'), ('%s IN (1, 2)'), ('ARRAY[%s, 1.5]'), ('sum(%s) OVER ()'),
    ('generate_series(1, %s)'), ('generate_series(1, 2, %s)'), ('generate_series(%1$s, 5, %1$s)'), ('CASE WHEN true THEN %s ELSE 2 END'), ('to_char(%s, ''9'')'), ('sqrt(%s)')) other(f);
-- what PostgreSQL takes a call for, as a view keeps it: with the numbers of its operators, functions and types. Or the code of its error
CREATE FUNCTION meaning(call text) RETURNS text LANGUAGE plpgsql AS $$
DECLARE kept text;
BEGIN
    EXECUTE 'CREATE TEMP VIEW meant AS SELECT ' || call || ' AS result';
    SELECT regexp_replace(ev_action, ':relid \d+', '', 'g') INTO kept FROM pg_rewrite WHERE ev_class = to_regclass('meant');
    RAISE 'drop the view';
EXCEPTION WHEN raise_exception THEN
    RETURN kept;
WHEN OTHERS THEN
    RETURN SQLSTATE;
END $$;
SELECT meaning('2 + 3') = meaning('2 + 3') AS same, meaning('2 + 3') ~ 'opno 551 :opfuncid 177 ' AS is_int4pl, meaning('2 + date ''today''') ~ 'opno 2555 ' AS is_integer_pl_date,
    meaning('2 + true');
CREATE TABLE without AS SELECT call, meaning(call) FROM calls;
CREATE EXTENSION ratio;
CREATE TABLE beside AS SELECT call, meaning(call) FROM calls;
SELECT count(*) > 15000 AS are_many, count(*) FILTER (WHERE length(meaning) > 5) > 1500 AS many_have_a_meaning FROM without;
SELECT call FROM without w FULL JOIN beside b USING (call) WHERE w.meaning IS DISTINCT FROM b.meaning ORDER BY call LIMIT 20;
-- This sees what the extension lacks. With round(ratio, int), PostgreSQL would not know which round(2, 1) is meant. With < of a ratio and a bigint, it would not for 1.5 < 2::bigint
SELECT meaning('round(2, 1)') ~ 'funcid 1707 ' AS is_numeric, meaning('1.5 < 2::bigint') ~ 'opno 1754 ' AS is_numeric_lt;
CREATE FUNCTION round(ratio, int4) RETURNS numeric LANGUAGE sql AS 'SELECT ratio_round($1, $2)';
CREATE FUNCTION with_bigint(ratio, int8) RETURNS boolean LANGUAGE sql AS 'SELECT $1 < ratio($2)';
CREATE OPERATOR < (LEFTARG = ratio, RIGHTARG = int8, FUNCTION = with_bigint);
SELECT meaning('round(2, 1)'), meaning('1.5 < 2::bigint');
DROP OPERATOR < (ratio, int8);
DROP FUNCTION with_bigint(ratio, int8), round(ratio, int4);
-- every function of the extension is immutable, but the one that reads statistics, and safe for parallel workers, and its classes of operators are whole
SELECT p.oid::regprocedure FROM pg_proc p JOIN pg_depend d ON d.classid = 'pg_proc'::regclass AND d.objid = p.oid AND d.deptype = 'e'
JOIN pg_extension e ON e.oid = d.refobjid AND e.extname = 'ratio' WHERE p.provolatile <> CASE p.proname WHEN 'ratio_bound_sel' THEN 's' ELSE 'i' END OR p.proparallel <> 's';
SELECT opcname, amname, amvalidate(c.oid) FROM pg_opclass c JOIN pg_am m ON m.oid = opcmethod WHERE opcname IN ('ratio_ops', 'ratio_total_ops', 'ratio_minmax_ops') ORDER BY 1, 2;
-- each type, cast and operator has a comment, and so has each function that no other object of the extension calls
SELECT pg_describe_object(d.classid, d.objid, 0) FROM pg_depend d JOIN pg_extension e ON e.oid = d.refobjid AND d.deptype = 'e' AND e.extname = 'ratio'
WHERE d.classid IN ('pg_cast'::regclass, 'pg_operator'::regclass, 'pg_proc'::regclass, 'pg_type'::regclass)
    AND NOT EXISTS (SELECT FROM pg_depend o WHERE (o.refclassid, o.refobjid) = (d.classid, d.objid) AND d.classid = 'pg_proc'::regclass)
    AND NOT EXISTS (SELECT FROM pg_depend o WHERE (o.classid, o.objid, o.deptype) = (d.classid, d.objid, 'i'))
    AND obj_description(d.objid, d.classid::regclass::name) IS NULL ORDER BY 1;
-- a view of version 0.1 keeps its cast to numeric
DROP EXTENSION ratio;
CREATE EXTENSION ratio VERSION '0.1';
CREATE VIEW old AS SELECT '2/3'::ratio::numeric AS kept;
ALTER EXTENSION ratio UPDATE;
SELECT kept, '2/3'::ratio::numeric AS changed FROM old;
DROP VIEW old;
-- and it goes away without a trace
DROP EXTENSION ratio;
DROP VIEW calls, pairs;
DROP TABLE operands, shared_calls, shared_operators, without, beside;
DROP FUNCTION meaning;
SELECT count(*) FROM pg_type WHERE typname ~ '^_?ratio';
