-- A database with version 0.1, from a dump that pg_dump made of one, and its update: values, indexes, partitions and views stay as they were.
\set new :DBNAME
CREATE DATABASE old;
\! psql -q -v ON_ERROR_STOP=1 -c "CREATE EXTENSION ratio VERSION '0.1'" -f dump-0.1.sql old >old.said 2>&1 || cat old.said
\! rm -f old.said
\c old
SELECT extversion FROM pg_extension WHERE extname = 'ratio';
CREATE VIEW answers AS SELECT 'prices' AS name, p::text AS answer FROM prices p UNION ALL SELECT 'months', m::text FROM months m UNION ALL SELECT 'parts', tableoid::regclass || p::text FROM parts p
UNION ALL SELECT 'sums', s::text FROM sums s UNION ALL SELECT 'reads', r::text FROM reads r UNION ALL SELECT 'whole', w::text FROM whole w UNION ALL SELECT 'dearest', dearest()::text;
CREATE TABLE before AS TABLE answers;
SELECT name, count(*) FROM before GROUP BY name ORDER BY name;
ALTER EXTENSION ratio UPDATE TO '0.2';
SELECT extversion FROM pg_extension WHERE extname = 'ratio';
REFRESH MATERIALIZED VIEW whole;
SELECT (SELECT count(*) FROM (TABLE before EXCEPT ALL TABLE answers) lost) AS lost, (SELECT count(*) FROM (TABLE answers EXCEPT ALL TABLE before) added) AS added;
-- these sums are those that Python's fractions give
SELECT * FROM sums ORDER BY third;
SELECT ratio_round(costs, 30) FROM whole;
-- each index has each row in its place, and each row lies in its partition
CREATE EXTENSION amcheck;
SELECT i.indexrelid::regclass, bt_index_parent_check(i.indexrelid, true, true) FROM pg_index i JOIN pg_class c ON c.oid = i.indexrelid JOIN pg_am a ON a.oid = c.relam
WHERE a.amname = 'btree' AND i.indrelid IN ('prices'::regclass, 'months'::regclass) ORDER BY 1::text;
SET enable_seqscan = off;
BEGIN;
DROP INDEX prices_btree, prices_down;
EXPLAIN (COSTS OFF) SELECT count(*) FROM prices WHERE price = '1/2';
SELECT count(*) FROM parts p WHERE 1 <> (SELECT count(DISTINCT price) FROM prices WHERE price = p.r);
ROLLBACK;
RESET enable_seqscan;
SELECT count(*) FROM parts WHERE NOT satisfies_hash_partition('parts'::regclass, 3, right(tableoid::regclass::text, 1)::int, r);
-- what is new works with tables that are old
SELECT id, price, count(*) OVER (ORDER BY price RANGE '1/12' PRECEDING) FROM prices WHERE id > 56 ORDER BY price;
CREATE INDEX prices_brin ON prices USING brin (price);
INSERT INTO prices SELECT 100 + i, ratio(i) FROM generate_series(1, 3) i;
SELECT id, ratiorange(price, price + 1, '[]') FROM prices WHERE id > 100 ORDER BY id;
-- the update brings to 0.1 what a new database has
SELECT $$SELECT pg_describe_object(d.classid, d.objid, 0) AS member, obj_description(d.objid, d.classid::regclass::name) AS comment,
    (SELECT CASE WHEN prokind = 'f' THEN pg_get_functiondef(p.oid) END FROM pg_proc p WHERE (p.oid, d.classid) = (d.objid, 'pg_proc'::regclass)) AS function,
    (SELECT concat_ws(' ', oprcode, oprcom::regoperator, oprnegate::regoperator, oprrest, oprjoin, oprcanmerge, oprcanhash) FROM pg_operator o WHERE (o.oid, d.classid) = (d.objid, 'pg_operator'::regclass)) AS operator,
    (SELECT concat_ws(' ', castfunc::regprocedure, castcontext, castmethod) FROM pg_cast c WHERE (c.oid, d.classid) = (d.objid, 'pg_cast'::regclass)) AS of_cast,
    (SELECT concat_ws(' ', typlen, typtype, typcategory, typinput, typsend, typalign, typstorage) FROM pg_type t WHERE (t.oid, d.classid) = (d.objid, 'pg_type'::regclass)) AS type
FROM pg_depend d JOIN pg_extension e ON e.oid = d.refobjid AND d.refclassid = 'pg_extension'::regclass AND d.deptype = 'e' AND e.extname = 'ratio'
UNION ALL SELECT pg_describe_object('pg_amproc'::regclass, p.oid, 0), NULL, NULL, NULL, NULL, NULL FROM pg_amproc p JOIN pg_opfamily f ON f.oid = amprocfamily WHERE opfname ~ '^ratio'
UNION ALL SELECT pg_describe_object('pg_amop'::regclass, p.oid, 0), NULL, NULL, NULL, NULL, NULL FROM pg_amop p JOIN pg_opfamily f ON f.oid = amopfamily WHERE opfname ~ '^ratio' ORDER BY 1$$ AS members \gset
\o old.members
:members;
\o
-- a user who may create objects may create the extension in a schema, and update it
SET client_min_messages = warning;
DROP EXTENSION ratio CASCADE;
CREATE ROLE regress_plain;
GRANT CREATE ON DATABASE old TO regress_plain;
SET ROLE regress_plain;
CREATE SCHEMA mine;
CREATE EXTENSION ratio VERSION '0.1' SCHEMA mine;
ALTER EXTENSION ratio UPDATE;
SELECT rolname, rolsuper, extversion FROM pg_extension JOIN pg_roles r ON r.oid = extowner WHERE extname = 'ratio';
SELECT '1/2'::mine.ratio OPERATOR(mine.+) '1/3', mine.ratiorange(0, 1) @> '1/2'::mine.ratio, array_agg(x) FROM mine.generate_series(0::mine.ratio, 1, '1/2') x;
DROP EXTENSION ratio;
DROP SCHEMA mine;
RESET ROLE;
REVOKE CREATE ON DATABASE old FROM regress_plain;
DROP ROLE regress_plain;
\c :new
\o new.members
:members;
\o
\! cmp old.members new.members && test $(wc -l <new.members) -gt 300 && echo the same members
\! rm -f old.members new.members
-- META.json names the same version
\set meta `cat META.json`
SELECT meta->>'version' = default_version || '.0' AS same, meta->'provides'->name->>'version' = meta->>'version' AS same_there FROM pg_available_extensions, (SELECT :'meta'::json AS meta) file WHERE name = 'ratio';
DROP DATABASE old;
