\echo Use "ALTER EXTENSION ratio UPDATE TO '0.2'" to load this file. \quit

-- casts and operators, as users type them
DROP CAST (numeric AS ratio);
CREATE CAST (numeric AS ratio) WITH FUNCTION ratio(numeric) AS IMPLICIT;
CREATE FUNCTION int4(ratio) RETURNS int4 AS 'MODULE_PATHNAME', 'ratio_to_int4' LANGUAGE C IMMUTABLE STRICT PARALLEL SAFE;
CREATE CAST (ratio AS int4) WITH FUNCTION int4(ratio) AS ASSIGNMENT;
CREATE FUNCTION int2(ratio) RETURNS int2 AS 'MODULE_PATHNAME', 'ratio_to_int2' LANGUAGE C IMMUTABLE STRICT PARALLEL SAFE;
CREATE CAST (ratio AS int2) WITH FUNCTION int2(ratio) AS ASSIGNMENT;
-- A new function, since an index over the cast of 0.1 keeps that one.
CREATE FUNCTION ratio_numeric(ratio, int4) RETURNS numeric AS 'MODULE_PATHNAME' LANGUAGE C IMMUTABLE STRICT PARALLEL SAFE;
DROP CAST (ratio AS numeric);
CREATE CAST (ratio AS numeric) WITH FUNCTION ratio_numeric(ratio, int4) AS ASSIGNMENT;
-- Not round or trunc with places: round(2, 1) would be ambiguous, since an integer becomes a numeric or a ratio by itself. For the same reason there are
-- no comparisons of a ratio with a bigint: 1.5 < 2::bigint would be ambiguous.
CREATE FUNCTION ratio_trunc(ratio, int4) RETURNS numeric AS 'MODULE_PATHNAME', 'ratio_trunc_places' LANGUAGE C IMMUTABLE STRICT PARALLEL SAFE;

-- windows by RANGE, ranges, block ranges and series
CREATE FUNCTION ratio_in_range(ratio, ratio, ratio, boolean, boolean) RETURNS boolean AS 'MODULE_PATHNAME' LANGUAGE C IMMUTABLE STRICT PARALLEL SAFE;
ALTER OPERATOR FAMILY ratio_ops USING btree ADD FUNCTION 3 (ratio, ratio) ratio_in_range(ratio, ratio, ratio, boolean, boolean);
CREATE FUNCTION ratio_distance(ratio, ratio) RETURNS float8 AS 'MODULE_PATHNAME' LANGUAGE C IMMUTABLE STRICT PARALLEL SAFE;
CREATE TYPE ratiorange AS RANGE (SUBTYPE = ratio, SUBTYPE_DIFF = ratio_distance);
CREATE OPERATOR CLASS ratio_minmax_ops DEFAULT FOR TYPE ratio USING brin AS
    OPERATOR 1 <, OPERATOR 2 <=, OPERATOR 3 =, OPERATOR 4 >=, OPERATOR 5 >,
    FUNCTION 1 brin_minmax_opcinfo(internal), FUNCTION 2 brin_minmax_add_value(internal, internal, internal, internal),
    FUNCTION 3 brin_minmax_consistent(internal, internal, internal), FUNCTION 4 brin_minmax_union(internal, internal, internal);
CREATE FUNCTION generate_series(ratio, ratio, ratio) RETURNS SETOF ratio AS 'MODULE_PATHNAME', 'ratio_series' LANGUAGE C IMMUTABLE STRICT PARALLEL SAFE;

-- what \dd and \df+ show
COMMENT ON TYPE ratio IS 'exact fraction of two bigints, in lowest terms';
COMMENT ON TYPE ratio_total IS 'exact sum of any number of fractions';
COMMENT ON TYPE ratiorange IS 'range of fractions';
COMMENT ON CAST (int2 AS ratio) IS 'exact, by itself';
COMMENT ON CAST (int4 AS ratio) IS 'exact, by itself';
COMMENT ON CAST (int8 AS ratio) IS 'exact, by itself';
COMMENT ON CAST (numeric AS ratio) IS 'exact, by itself';
COMMENT ON CAST (float8 AS ratio) IS 'exact, where you write it';
COMMENT ON CAST (ratio AS numeric) IS 'rounded to the places of a quotient of numeric, at least 16, or to those of numeric(p, s), a half away from zero, by assignment';
COMMENT ON CAST (ratio AS float8) IS 'the nearest float, by assignment';
COMMENT ON CAST (ratio AS int2) IS 'rounded, a half away from zero, by assignment';
COMMENT ON CAST (ratio AS int4) IS 'rounded, a half away from zero, by assignment';
COMMENT ON CAST (ratio AS int8) IS 'rounded, a half away from zero, by assignment';
COMMENT ON CAST (ratio AS ratio_total) IS 'exact, by itself';
COMMENT ON CAST (ratio_total AS ratio) IS 'exact, or error 22003, by assignment';
COMMENT ON CAST (ratio_total AS numeric) IS 'rounded to 16 places or those of numeric(p, s), a half away from zero, by assignment';
COMMENT ON CAST (ratio_total AS float8) IS 'the nearest float, by assignment';
COMMENT ON OPERATOR + (ratio, ratio) IS 'add';
COMMENT ON OPERATOR - (ratio, ratio) IS 'subtract';
COMMENT ON OPERATOR * (ratio, ratio) IS 'multiply';
COMMENT ON OPERATOR / (ratio, ratio) IS 'divide';
COMMENT ON OPERATOR % (ratio, ratio) IS 'remainder, with the sign of the left side';
COMMENT ON OPERATOR - (NONE, ratio) IS 'negate';
COMMENT ON OPERATOR = (ratio, ratio) IS 'equal';
COMMENT ON OPERATOR <> (ratio, ratio) IS 'not equal';
COMMENT ON OPERATOR < (ratio, ratio) IS 'less than';
COMMENT ON OPERATOR <= (ratio, ratio) IS 'less than or equal';
COMMENT ON OPERATOR > (ratio, ratio) IS 'greater than';
COMMENT ON OPERATOR >= (ratio, ratio) IS 'greater than or equal';
COMMENT ON OPERATOR + (ratio_total, ratio_total) IS 'add';
COMMENT ON OPERATOR - (ratio_total, ratio_total) IS 'subtract';
COMMENT ON OPERATOR = (ratio_total, ratio_total) IS 'equal by value';
COMMENT ON OPERATOR <> (ratio_total, ratio_total) IS 'not equal by value';
COMMENT ON OPERATOR < (ratio_total, ratio_total) IS 'less than';
COMMENT ON OPERATOR <= (ratio_total, ratio_total) IS 'less than or equal';
COMMENT ON OPERATOR > (ratio_total, ratio_total) IS 'greater than';
COMMENT ON OPERATOR >= (ratio_total, ratio_total) IS 'greater than or equal';
COMMENT ON FUNCTION ratio(int8, int8) IS 'the fraction of two whole numbers, in lowest terms';
COMMENT ON FUNCTION numerator(ratio) IS 'numerator of the lowest terms';
COMMENT ON FUNCTION denominator(ratio) IS 'denominator of the lowest terms, above 0';
COMMENT ON FUNCTION abs(ratio) IS 'absolute value';
COMMENT ON FUNCTION sign(ratio) IS '-1, 0 or 1';
COMMENT ON FUNCTION floor(ratio) IS 'greatest whole number that is not above';
COMMENT ON FUNCTION ceil(ratio) IS 'least whole number that is not below';
COMMENT ON FUNCTION round(ratio) IS 'nearest whole number, a half away from zero';
COMMENT ON FUNCTION trunc(ratio) IS 'whole number, cut towards zero';
COMMENT ON FUNCTION gcd(ratio, ratio) IS 'greatest fraction that divides both';
COMMENT ON FUNCTION lcm(ratio, ratio) IS 'least fraction above 0 that both divide';
COMMENT ON FUNCTION ratio_power(ratio, int4) IS 'power to a whole exponent';
COMMENT ON FUNCTION ratio_round(ratio, int4) IS 'numeric with 0 to 38 places, a half away from zero';
COMMENT ON FUNCTION ratio_to_numeric(ratio, int4) IS 'the cast to numeric of version 0.1, to 16 places, for what was made with it';
COMMENT ON FUNCTION ratio_trunc(ratio, int4) IS 'numeric with 0 to 38 places, cut towards zero';
COMMENT ON FUNCTION ratio_round(ratio_total, int4) IS 'numeric with 0 to 16383 places, a half away from zero';
COMMENT ON FUNCTION ratio_decimal(ratio, int4) IS 'text of a decimal with 0 to 38 places, a half away from zero';
COMMENT ON FUNCTION ratio_rationalize(float8) IS 'simplest fraction that rounds to the float';
COMMENT ON FUNCTION ratio_nearest(ratio, int8) IS 'nearest fraction with a denominator up to a bound';
COMMENT ON FUNCTION ratio_between(ratio, ratio) IS 'simplest fraction strictly between; NULL is no bound';
COMMENT ON FUNCTION ratio_mul_round(ratio, ratio) IS 'product as a whole number, a half away from zero';
COMMENT ON FUNCTION ratio_mul_round(ratio, ratio, int4) IS 'product as a numeric with 0 to 38 places, a half away from zero';
COMMENT ON FUNCTION ratio_div_round(ratio, ratio, int4) IS 'quotient as a numeric with 0 to 38 places, a half away from zero';
COMMENT ON FUNCTION ratio_product(ratio[]) IS 'product of an array; only the whole has to fit';
COMMENT ON FUNCTION ratio_split(int8, ratio[]) IS 'whole parts of an amount by shares that add up to 1';
COMMENT ON FUNCTION ratio_split_by_weights(int8, int8[]) IS 'whole parts of an amount by weights';
COMMENT ON FUNCTION ratio_count(ratio_total) IS 'how many fractions went in, less those that went out';
COMMENT ON FUNCTION generate_series(ratio, ratio, ratio) IS 'the values from the first one by steps, up to the second one';
COMMENT ON AGGREGATE min(ratio) IS 'least value';
COMMENT ON AGGREGATE max(ratio) IS 'greatest value';
COMMENT ON AGGREGATE sum(ratio) IS 'exact sum, or error 22003';
COMMENT ON AGGREGATE avg(ratio) IS 'exact mean, or error 22003';
COMMENT ON AGGREGATE total(ratio) IS 'exact sum of any size';
COMMENT ON AGGREGATE sum(ratio_total) IS 'exact sum of any size';
COMMENT ON AGGREGATE avg(ratio_total) IS 'exact sum by its count, or error 22003';
