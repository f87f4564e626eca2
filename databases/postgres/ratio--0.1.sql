\echo Use "CREATE EXTENSION ratio" to load this file. \quit

-- the type: two bigints
CREATE TYPE ratio;
CREATE FUNCTION ratio_in(cstring) RETURNS ratio AS 'MODULE_PATHNAME' LANGUAGE C IMMUTABLE STRICT PARALLEL SAFE;
CREATE FUNCTION ratio_out(ratio) RETURNS cstring AS 'MODULE_PATHNAME' LANGUAGE C IMMUTABLE STRICT PARALLEL SAFE;
CREATE FUNCTION ratio_recv(internal) RETURNS ratio AS 'MODULE_PATHNAME' LANGUAGE C IMMUTABLE STRICT PARALLEL SAFE;
CREATE FUNCTION ratio_send(ratio) RETURNS bytea AS 'MODULE_PATHNAME' LANGUAGE C IMMUTABLE STRICT PARALLEL SAFE;
CREATE TYPE ratio (
    INPUT = ratio_in, OUTPUT = ratio_out, RECEIVE = ratio_recv, SEND = ratio_send,
    INTERNALLENGTH = 16, ALIGNMENT = double, STORAGE = plain, CATEGORY = 'N'
);

-- from numbers, and back
CREATE FUNCTION ratio(int8, int8) RETURNS ratio AS 'MODULE_PATHNAME', 'ratio_from_two' LANGUAGE C IMMUTABLE STRICT PARALLEL SAFE;
CREATE FUNCTION ratio(int2) RETURNS ratio AS 'MODULE_PATHNAME', 'ratio_from_int2' LANGUAGE C IMMUTABLE STRICT PARALLEL SAFE;
CREATE CAST (int2 AS ratio) WITH FUNCTION ratio(int2) AS IMPLICIT;
CREATE FUNCTION ratio(int4) RETURNS ratio AS 'MODULE_PATHNAME', 'ratio_from_int4' LANGUAGE C IMMUTABLE STRICT PARALLEL SAFE;
CREATE CAST (int4 AS ratio) WITH FUNCTION ratio(int4) AS IMPLICIT;
CREATE FUNCTION ratio(int8) RETURNS ratio AS 'MODULE_PATHNAME', 'ratio_from_int8' LANGUAGE C IMMUTABLE STRICT PARALLEL SAFE;
CREATE CAST (int8 AS ratio) WITH FUNCTION ratio(int8) AS IMPLICIT;
CREATE FUNCTION ratio(numeric) RETURNS ratio AS 'MODULE_PATHNAME', 'ratio_from_numeric' LANGUAGE C IMMUTABLE STRICT PARALLEL SAFE;
CREATE CAST (numeric AS ratio) WITH FUNCTION ratio(numeric) AS ASSIGNMENT;
-- PostgreSQL hands over the typmod, so that numeric(p, s) rounds once. Not "numeric", which takes (numeric, int4): "numeric"(1, 2) would be ambiguous.
CREATE FUNCTION ratio_to_numeric(ratio, int4) RETURNS numeric AS 'MODULE_PATHNAME' LANGUAGE C IMMUTABLE STRICT PARALLEL SAFE;
CREATE CAST (ratio AS numeric) WITH FUNCTION ratio_to_numeric(ratio, int4) AS ASSIGNMENT;
CREATE FUNCTION ratio(float8) RETURNS ratio AS 'MODULE_PATHNAME', 'ratio_from_float8' LANGUAGE C IMMUTABLE STRICT PARALLEL SAFE;
CREATE CAST (float8 AS ratio) WITH FUNCTION ratio(float8);
CREATE FUNCTION float8(ratio) RETURNS float8 AS 'MODULE_PATHNAME', 'ratio_to_float8' LANGUAGE C IMMUTABLE STRICT PARALLEL SAFE;
CREATE CAST (ratio AS float8) WITH FUNCTION float8(ratio) AS ASSIGNMENT;
CREATE FUNCTION int8(ratio) RETURNS int8 AS 'MODULE_PATHNAME', 'ratio_to_int8' LANGUAGE C IMMUTABLE STRICT PARALLEL SAFE;
CREATE CAST (ratio AS int8) WITH FUNCTION int8(ratio) AS ASSIGNMENT;
CREATE FUNCTION ratio_rationalize(float8) RETURNS ratio AS 'MODULE_PATHNAME' LANGUAGE C IMMUTABLE STRICT PARALLEL SAFE;
CREATE FUNCTION ratio_decimal(ratio, int4) RETURNS text AS 'MODULE_PATHNAME' LANGUAGE C IMMUTABLE STRICT PARALLEL SAFE;
CREATE FUNCTION ratio_round(ratio, int4) RETURNS numeric AS 'MODULE_PATHNAME', 'ratio_round_places' LANGUAGE C IMMUTABLE STRICT PARALLEL SAFE;

-- arithmetic
CREATE FUNCTION ratio_add(ratio, ratio) RETURNS ratio AS 'MODULE_PATHNAME' LANGUAGE C IMMUTABLE STRICT PARALLEL SAFE;
CREATE OPERATOR + (LEFTARG = ratio, RIGHTARG = ratio, FUNCTION = ratio_add, COMMUTATOR = +);
CREATE FUNCTION ratio_sub(ratio, ratio) RETURNS ratio AS 'MODULE_PATHNAME' LANGUAGE C IMMUTABLE STRICT PARALLEL SAFE;
CREATE OPERATOR - (LEFTARG = ratio, RIGHTARG = ratio, FUNCTION = ratio_sub);
CREATE FUNCTION ratio_mul(ratio, ratio) RETURNS ratio AS 'MODULE_PATHNAME' LANGUAGE C IMMUTABLE STRICT PARALLEL SAFE;
CREATE OPERATOR * (LEFTARG = ratio, RIGHTARG = ratio, FUNCTION = ratio_mul, COMMUTATOR = *);
CREATE FUNCTION ratio_div(ratio, ratio) RETURNS ratio AS 'MODULE_PATHNAME' LANGUAGE C IMMUTABLE STRICT PARALLEL SAFE;
CREATE OPERATOR / (LEFTARG = ratio, RIGHTARG = ratio, FUNCTION = ratio_div);
CREATE FUNCTION ratio_rem(ratio, ratio) RETURNS ratio AS 'MODULE_PATHNAME' LANGUAGE C IMMUTABLE STRICT PARALLEL SAFE;
CREATE OPERATOR % (LEFTARG = ratio, RIGHTARG = ratio, FUNCTION = ratio_rem);
CREATE FUNCTION gcd(ratio, ratio) RETURNS ratio AS 'MODULE_PATHNAME', 'ratio_gcd' LANGUAGE C IMMUTABLE STRICT PARALLEL SAFE;
CREATE FUNCTION lcm(ratio, ratio) RETURNS ratio AS 'MODULE_PATHNAME', 'ratio_lcm' LANGUAGE C IMMUTABLE STRICT PARALLEL SAFE;
CREATE FUNCTION ratio_mul_round(ratio, ratio) RETURNS int8 AS 'MODULE_PATHNAME' LANGUAGE C IMMUTABLE STRICT PARALLEL SAFE;
CREATE FUNCTION ratio_mul_round(ratio, ratio, int4) RETURNS numeric AS 'MODULE_PATHNAME', 'ratio_mul_round_places' LANGUAGE C IMMUTABLE STRICT PARALLEL SAFE;
CREATE FUNCTION ratio_div_round(ratio, ratio, int4) RETURNS numeric AS 'MODULE_PATHNAME' LANGUAGE C IMMUTABLE STRICT PARALLEL SAFE;
CREATE FUNCTION ratio_neg(ratio) RETURNS ratio AS 'MODULE_PATHNAME' LANGUAGE C IMMUTABLE STRICT PARALLEL SAFE;
CREATE OPERATOR - (RIGHTARG = ratio, FUNCTION = ratio_neg);
CREATE FUNCTION abs(ratio) RETURNS ratio AS 'MODULE_PATHNAME', 'ratio_abs' LANGUAGE C IMMUTABLE STRICT PARALLEL SAFE;
CREATE FUNCTION sign(ratio) RETURNS ratio AS 'MODULE_PATHNAME', 'ratio_sign' LANGUAGE C IMMUTABLE STRICT PARALLEL SAFE;
CREATE FUNCTION floor(ratio) RETURNS ratio AS 'MODULE_PATHNAME', 'ratio_floor' LANGUAGE C IMMUTABLE STRICT PARALLEL SAFE;
CREATE FUNCTION ceil(ratio) RETURNS ratio AS 'MODULE_PATHNAME', 'ratio_ceil' LANGUAGE C IMMUTABLE STRICT PARALLEL SAFE;
CREATE FUNCTION round(ratio) RETURNS ratio AS 'MODULE_PATHNAME', 'ratio_round' LANGUAGE C IMMUTABLE STRICT PARALLEL SAFE;
CREATE FUNCTION trunc(ratio) RETURNS ratio AS 'MODULE_PATHNAME', 'ratio_trunc' LANGUAGE C IMMUTABLE STRICT PARALLEL SAFE;
CREATE FUNCTION numerator(ratio) RETURNS int8 AS 'MODULE_PATHNAME', 'ratio_numerator' LANGUAGE C IMMUTABLE STRICT PARALLEL SAFE;
CREATE FUNCTION denominator(ratio) RETURNS int8 AS 'MODULE_PATHNAME', 'ratio_denominator' LANGUAGE C IMMUTABLE STRICT PARALLEL SAFE;
-- Not power or ^, which exist for other types: ratio is reached from int4 by itself, and power(2, 3) would become a ratio.
CREATE FUNCTION ratio_power(ratio, int4) RETURNS ratio AS 'MODULE_PATHNAME' LANGUAGE C IMMUTABLE STRICT PARALLEL SAFE;
CREATE FUNCTION ratio_nearest(ratio, int8) RETURNS ratio AS 'MODULE_PATHNAME' LANGUAGE C IMMUTABLE STRICT PARALLEL SAFE;
-- Not strict: NULL is no bound.
CREATE FUNCTION ratio_between(ratio, ratio) RETURNS ratio AS 'MODULE_PATHNAME' LANGUAGE C IMMUTABLE PARALLEL SAFE;

-- lists: the product of many, and an amount split so that nothing is lost
CREATE FUNCTION ratio_product(ratio[]) RETURNS ratio AS 'MODULE_PATHNAME' LANGUAGE C IMMUTABLE STRICT PARALLEL SAFE;
CREATE FUNCTION ratio_split(int8, ratio[]) RETURNS int8[] AS 'MODULE_PATHNAME' LANGUAGE C IMMUTABLE STRICT PARALLEL SAFE;
CREATE FUNCTION ratio_split_by_weights(int8, int8[]) RETURNS int8[] AS 'MODULE_PATHNAME' LANGUAGE C IMMUTABLE STRICT PARALLEL SAFE;

-- order
CREATE FUNCTION ratio_eq(ratio, ratio) RETURNS boolean AS 'MODULE_PATHNAME' LANGUAGE C IMMUTABLE STRICT LEAKPROOF PARALLEL SAFE;
CREATE OPERATOR = (
    LEFTARG = ratio, RIGHTARG = ratio, FUNCTION = ratio_eq, COMMUTATOR = =, NEGATOR = <>,
    RESTRICT = eqsel, JOIN = eqjoinsel, HASHES, MERGES
);
CREATE FUNCTION ratio_ne(ratio, ratio) RETURNS boolean AS 'MODULE_PATHNAME' LANGUAGE C IMMUTABLE STRICT LEAKPROOF PARALLEL SAFE;
CREATE OPERATOR <> (
    LEFTARG = ratio, RIGHTARG = ratio, FUNCTION = ratio_ne, COMMUTATOR = <>, NEGATOR = =,
    RESTRICT = neqsel, JOIN = neqjoinsel
);
CREATE FUNCTION ratio_bound_sel(internal, oid, internal, int4) RETURNS float8 AS 'MODULE_PATHNAME' LANGUAGE C STABLE STRICT PARALLEL SAFE;
CREATE FUNCTION ratio_lt(ratio, ratio) RETURNS boolean AS 'MODULE_PATHNAME' LANGUAGE C IMMUTABLE STRICT LEAKPROOF PARALLEL SAFE;
CREATE OPERATOR < (
    LEFTARG = ratio, RIGHTARG = ratio, FUNCTION = ratio_lt, COMMUTATOR = >, NEGATOR = >=,
    RESTRICT = ratio_bound_sel, JOIN = scalarltjoinsel
);
CREATE FUNCTION ratio_le(ratio, ratio) RETURNS boolean AS 'MODULE_PATHNAME' LANGUAGE C IMMUTABLE STRICT LEAKPROOF PARALLEL SAFE;
CREATE OPERATOR <= (
    LEFTARG = ratio, RIGHTARG = ratio, FUNCTION = ratio_le, COMMUTATOR = >=, NEGATOR = >,
    RESTRICT = ratio_bound_sel, JOIN = scalarlejoinsel
);
CREATE FUNCTION ratio_gt(ratio, ratio) RETURNS boolean AS 'MODULE_PATHNAME' LANGUAGE C IMMUTABLE STRICT LEAKPROOF PARALLEL SAFE;
CREATE OPERATOR > (
    LEFTARG = ratio, RIGHTARG = ratio, FUNCTION = ratio_gt, COMMUTATOR = <, NEGATOR = <=,
    RESTRICT = ratio_bound_sel, JOIN = scalargtjoinsel
);
CREATE FUNCTION ratio_ge(ratio, ratio) RETURNS boolean AS 'MODULE_PATHNAME' LANGUAGE C IMMUTABLE STRICT LEAKPROOF PARALLEL SAFE;
CREATE OPERATOR >= (
    LEFTARG = ratio, RIGHTARG = ratio, FUNCTION = ratio_ge, COMMUTATOR = <=, NEGATOR = <,
    RESTRICT = ratio_bound_sel, JOIN = scalargejoinsel
);
CREATE FUNCTION ratio_cmp(ratio, ratio) RETURNS int4 AS 'MODULE_PATHNAME' LANGUAGE C IMMUTABLE STRICT LEAKPROOF PARALLEL SAFE;
CREATE FUNCTION ratio_sortsupport(internal) RETURNS void AS 'MODULE_PATHNAME' LANGUAGE C IMMUTABLE STRICT PARALLEL SAFE;
CREATE OPERATOR CLASS ratio_ops DEFAULT FOR TYPE ratio USING btree AS
    OPERATOR 1 <, OPERATOR 2 <=, OPERATOR 3 =, OPERATOR 4 >=, OPERATOR 5 >,
    FUNCTION 1 ratio_cmp(ratio, ratio), FUNCTION 2 ratio_sortsupport(internal), FUNCTION 4 btequalimage(oid);
CREATE FUNCTION ratio_hash(ratio) RETURNS int4 AS 'MODULE_PATHNAME', 'ratio_hash_plain' LANGUAGE C IMMUTABLE STRICT LEAKPROOF PARALLEL SAFE;
CREATE FUNCTION ratio_hash_extended(ratio, int8) RETURNS int8 AS 'MODULE_PATHNAME' LANGUAGE C IMMUTABLE STRICT LEAKPROOF PARALLEL SAFE;
CREATE OPERATOR CLASS ratio_ops DEFAULT FOR TYPE ratio USING hash AS
    OPERATOR 1 =, FUNCTION 1 ratio_hash(ratio), FUNCTION 2 ratio_hash_extended(ratio, int8);
CREATE FUNCTION ratio_smaller(ratio, ratio) RETURNS ratio AS 'MODULE_PATHNAME' LANGUAGE C IMMUTABLE STRICT PARALLEL SAFE;
CREATE AGGREGATE min(ratio) (SFUNC = ratio_smaller, STYPE = ratio, COMBINEFUNC = ratio_smaller, SORTOP = <, PARALLEL = SAFE);
CREATE FUNCTION ratio_larger(ratio, ratio) RETURNS ratio AS 'MODULE_PATHNAME' LANGUAGE C IMMUTABLE STRICT PARALLEL SAFE;
CREATE AGGREGATE max(ratio) (SFUNC = ratio_larger, STYPE = ratio, COMBINEFUNC = ratio_larger, SORTOP = >, PARALLEL = SAFE);

-- totals: a count, and an exact numerator for each denominator
CREATE TYPE ratio_total;
CREATE FUNCTION ratio_total_in(cstring) RETURNS ratio_total AS 'MODULE_PATHNAME' LANGUAGE C IMMUTABLE STRICT PARALLEL SAFE;
CREATE FUNCTION ratio_total_out(ratio_total) RETURNS cstring AS 'MODULE_PATHNAME' LANGUAGE C IMMUTABLE STRICT PARALLEL SAFE;
CREATE FUNCTION ratio_total_recv(internal) RETURNS ratio_total AS 'MODULE_PATHNAME' LANGUAGE C IMMUTABLE STRICT PARALLEL SAFE;
CREATE FUNCTION ratio_total_send(ratio_total) RETURNS bytea AS 'MODULE_PATHNAME' LANGUAGE C IMMUTABLE STRICT PARALLEL SAFE;
CREATE TYPE ratio_total (
    INPUT = ratio_total_in, OUTPUT = ratio_total_out, RECEIVE = ratio_total_recv, SEND = ratio_total_send,
    INTERNALLENGTH = VARIABLE, ALIGNMENT = double, STORAGE = extended
);
-- from fractions, and back
CREATE FUNCTION ratio_total(ratio) RETURNS ratio_total AS 'MODULE_PATHNAME', 'ratio_total_from_ratio' LANGUAGE C IMMUTABLE STRICT PARALLEL SAFE;
CREATE CAST (ratio AS ratio_total) WITH FUNCTION ratio_total(ratio) AS IMPLICIT;
CREATE FUNCTION ratio(ratio_total) RETURNS ratio AS 'MODULE_PATHNAME', 'ratio_from_total' LANGUAGE C IMMUTABLE STRICT PARALLEL SAFE;
CREATE CAST (ratio_total AS ratio) WITH FUNCTION ratio(ratio_total) AS ASSIGNMENT;
CREATE FUNCTION ratio_to_numeric(ratio_total, int4) RETURNS numeric AS 'MODULE_PATHNAME', 'ratio_total_to_numeric' LANGUAGE C IMMUTABLE STRICT PARALLEL SAFE;
CREATE CAST (ratio_total AS numeric) WITH FUNCTION ratio_to_numeric(ratio_total, int4) AS ASSIGNMENT;
CREATE FUNCTION float8(ratio_total) RETURNS float8 AS 'MODULE_PATHNAME', 'ratio_total_to_float8' LANGUAGE C IMMUTABLE STRICT PARALLEL SAFE;
CREATE CAST (ratio_total AS float8) WITH FUNCTION float8(ratio_total) AS ASSIGNMENT;
CREATE FUNCTION ratio_round(ratio_total, int4) RETURNS numeric AS 'MODULE_PATHNAME', 'ratio_total_round' LANGUAGE C IMMUTABLE STRICT PARALLEL SAFE;
CREATE FUNCTION ratio_count(ratio_total) RETURNS int8 AS 'MODULE_PATHNAME', 'ratio_total_count' LANGUAGE C IMMUTABLE STRICT PARALLEL SAFE;
CREATE FUNCTION ratio_total_add(ratio_total, ratio_total) RETURNS ratio_total AS 'MODULE_PATHNAME' LANGUAGE C IMMUTABLE STRICT PARALLEL SAFE;
CREATE OPERATOR + (LEFTARG = ratio_total, RIGHTARG = ratio_total, FUNCTION = ratio_total_add, COMMUTATOR = +);
CREATE FUNCTION ratio_total_sub(ratio_total, ratio_total) RETURNS ratio_total AS 'MODULE_PATHNAME' LANGUAGE C IMMUTABLE STRICT PARALLEL SAFE;
CREATE OPERATOR - (LEFTARG = ratio_total, RIGHTARG = ratio_total, FUNCTION = ratio_total_sub);
-- order by value. Equal totals may have unlike slots, so there is no hash.
CREATE FUNCTION ratio_total_eq(ratio_total, ratio_total) RETURNS boolean AS 'MODULE_PATHNAME' LANGUAGE C IMMUTABLE STRICT PARALLEL SAFE;
CREATE OPERATOR = (
    LEFTARG = ratio_total, RIGHTARG = ratio_total, FUNCTION = ratio_total_eq, COMMUTATOR = =, NEGATOR = <>,
    RESTRICT = eqsel, JOIN = eqjoinsel, MERGES
);
CREATE FUNCTION ratio_total_ne(ratio_total, ratio_total) RETURNS boolean AS 'MODULE_PATHNAME' LANGUAGE C IMMUTABLE STRICT PARALLEL SAFE;
CREATE OPERATOR <> (
    LEFTARG = ratio_total, RIGHTARG = ratio_total, FUNCTION = ratio_total_ne, COMMUTATOR = <>, NEGATOR = =,
    RESTRICT = neqsel, JOIN = neqjoinsel
);
CREATE FUNCTION ratio_total_lt(ratio_total, ratio_total) RETURNS boolean AS 'MODULE_PATHNAME' LANGUAGE C IMMUTABLE STRICT PARALLEL SAFE;
CREATE OPERATOR < (
    LEFTARG = ratio_total, RIGHTARG = ratio_total, FUNCTION = ratio_total_lt, COMMUTATOR = >, NEGATOR = >=,
    RESTRICT = scalarltsel, JOIN = scalarltjoinsel
);
CREATE FUNCTION ratio_total_le(ratio_total, ratio_total) RETURNS boolean AS 'MODULE_PATHNAME' LANGUAGE C IMMUTABLE STRICT PARALLEL SAFE;
CREATE OPERATOR <= (
    LEFTARG = ratio_total, RIGHTARG = ratio_total, FUNCTION = ratio_total_le, COMMUTATOR = >=, NEGATOR = >,
    RESTRICT = scalarlesel, JOIN = scalarlejoinsel
);
CREATE FUNCTION ratio_total_gt(ratio_total, ratio_total) RETURNS boolean AS 'MODULE_PATHNAME' LANGUAGE C IMMUTABLE STRICT PARALLEL SAFE;
CREATE OPERATOR > (
    LEFTARG = ratio_total, RIGHTARG = ratio_total, FUNCTION = ratio_total_gt, COMMUTATOR = <, NEGATOR = <=,
    RESTRICT = scalargtsel, JOIN = scalargtjoinsel
);
CREATE FUNCTION ratio_total_ge(ratio_total, ratio_total) RETURNS boolean AS 'MODULE_PATHNAME' LANGUAGE C IMMUTABLE STRICT PARALLEL SAFE;
CREATE OPERATOR >= (
    LEFTARG = ratio_total, RIGHTARG = ratio_total, FUNCTION = ratio_total_ge, COMMUTATOR = <=, NEGATOR = <,
    RESTRICT = scalargesel, JOIN = scalargejoinsel
);
CREATE FUNCTION ratio_total_cmp(ratio_total, ratio_total) RETURNS int4 AS 'MODULE_PATHNAME' LANGUAGE C IMMUTABLE STRICT PARALLEL SAFE;
CREATE OPERATOR CLASS ratio_total_ops DEFAULT FOR TYPE ratio_total USING btree AS
    OPERATOR 1 <, OPERATOR 2 <=, OPERATOR 3 =, OPERATOR 4 >=, OPERATOR 5 >, FUNCTION 1 ratio_total_cmp(ratio_total, ratio_total);

-- sum, avg and total
CREATE FUNCTION ratio_accum(internal, ratio) RETURNS internal AS 'MODULE_PATHNAME' LANGUAGE C IMMUTABLE PARALLEL SAFE;
CREATE FUNCTION ratio_unaccum(internal, ratio) RETURNS internal AS 'MODULE_PATHNAME' LANGUAGE C IMMUTABLE PARALLEL SAFE;
CREATE FUNCTION ratio_combine(internal, internal) RETURNS internal AS 'MODULE_PATHNAME' LANGUAGE C IMMUTABLE PARALLEL SAFE;
CREATE FUNCTION ratio_serialize(internal) RETURNS bytea AS 'MODULE_PATHNAME' LANGUAGE C IMMUTABLE STRICT PARALLEL SAFE;
CREATE FUNCTION ratio_deserialize(bytea, internal) RETURNS internal AS 'MODULE_PATHNAME' LANGUAGE C IMMUTABLE STRICT PARALLEL SAFE;
CREATE FUNCTION ratio_sum_final(internal) RETURNS ratio AS 'MODULE_PATHNAME' LANGUAGE C IMMUTABLE PARALLEL SAFE;
CREATE AGGREGATE sum(ratio) (
    SFUNC = ratio_accum, STYPE = internal, SSPACE = 256, FINALFUNC = ratio_sum_final,
    COMBINEFUNC = ratio_combine, SERIALFUNC = ratio_serialize, DESERIALFUNC = ratio_deserialize, PARALLEL = SAFE,
    MSFUNC = ratio_accum, MINVFUNC = ratio_unaccum, MSTYPE = internal, MSSPACE = 256, MFINALFUNC = ratio_sum_final
);
CREATE FUNCTION ratio_avg_final(internal) RETURNS ratio AS 'MODULE_PATHNAME' LANGUAGE C IMMUTABLE PARALLEL SAFE;
CREATE AGGREGATE avg(ratio) (
    SFUNC = ratio_accum, STYPE = internal, SSPACE = 256, FINALFUNC = ratio_avg_final,
    COMBINEFUNC = ratio_combine, SERIALFUNC = ratio_serialize, DESERIALFUNC = ratio_deserialize, PARALLEL = SAFE,
    MSFUNC = ratio_accum, MINVFUNC = ratio_unaccum, MSTYPE = internal, MSSPACE = 256, MFINALFUNC = ratio_avg_final
);
CREATE FUNCTION ratio_total_final(internal) RETURNS ratio_total AS 'MODULE_PATHNAME' LANGUAGE C IMMUTABLE PARALLEL SAFE;
CREATE AGGREGATE total(ratio) (
    SFUNC = ratio_accum, STYPE = internal, SSPACE = 256, FINALFUNC = ratio_total_final,
    COMBINEFUNC = ratio_combine, SERIALFUNC = ratio_serialize, DESERIALFUNC = ratio_deserialize, PARALLEL = SAFE,
    MSFUNC = ratio_accum, MINVFUNC = ratio_unaccum, MSTYPE = internal, MSSPACE = 256, MFINALFUNC = ratio_total_final
);
CREATE FUNCTION ratio_total_accum(internal, ratio_total) RETURNS internal AS 'MODULE_PATHNAME' LANGUAGE C IMMUTABLE PARALLEL SAFE;
CREATE FUNCTION ratio_total_unaccum(internal, ratio_total) RETURNS internal AS 'MODULE_PATHNAME' LANGUAGE C IMMUTABLE PARALLEL SAFE;
CREATE AGGREGATE sum(ratio_total) (
    SFUNC = ratio_total_accum, STYPE = internal, SSPACE = 256, FINALFUNC = ratio_total_final,
    COMBINEFUNC = ratio_combine, SERIALFUNC = ratio_serialize, DESERIALFUNC = ratio_deserialize, PARALLEL = SAFE,
    MSFUNC = ratio_total_accum, MINVFUNC = ratio_total_unaccum, MSTYPE = internal, MSSPACE = 256, MFINALFUNC = ratio_total_final
);
CREATE FUNCTION ratio_total_avg_final(internal) RETURNS ratio AS 'MODULE_PATHNAME' LANGUAGE C IMMUTABLE PARALLEL SAFE;
CREATE AGGREGATE avg(ratio_total) (
    SFUNC = ratio_total_accum, STYPE = internal, SSPACE = 256, FINALFUNC = ratio_total_avg_final,
    COMBINEFUNC = ratio_combine, SERIALFUNC = ratio_serialize, DESERIALFUNC = ratio_deserialize, PARALLEL = SAFE,
    MSFUNC = ratio_total_accum, MINVFUNC = ratio_total_unaccum, MSTYPE = internal, MSSPACE = 256, MFINALFUNC = ratio_total_avg_final
);
