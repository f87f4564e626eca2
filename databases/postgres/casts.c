/* Casts, and values from numbers of other types. */
#include "glue.h"

#include "utils/builtins.h"
#include "utils/float.h"

static Datum
whole(int64 n)
{
	return new_value((Ratio) {n, 1});
}

CALL(ratio_from_int2) { return whole(PG_GETARG_INT16(0)); }
CALL(ratio_from_int4) { return whole(PG_GETARG_INT32(0)); }
CALL(ratio_from_int8) { return whole(PG_GETARG_INT64(0)); }

CALL(ratio_from_two)
{
	Ratio		x = {PG_GETARG_INT64(0), PG_GETARG_INT64(1)};

	GIVE(ratio_reduce_i64, x, "ratio(" INT64_FORMAT ", " INT64_FORMAT ")", x.numer, x.denom);
}

/* The nearest whole number, a half away from zero, as the cast of numeric. */
CALL(ratio_to_int8)
{
	ratio_answer_i64 answer;

	ratio_round_i64(ARG(0), 1, &answer, 1);
	if (unlikely(answer.code != RATIO_ANSWERED))
		refuse(answer.code, psprintf("int8(%s)", quoted(*ARG(0))));
	PG_RETURN_INT64(answer.value.numer);
}

/* The same number, which PostgreSQL narrows or refuses. */
CALL(ratio_to_int4) { return DirectFunctionCall1(int84, ratio_to_int8(fcinfo)); }
CALL(ratio_to_int2) { return DirectFunctionCall1(int82, ratio_to_int8(fcinfo)); }

/* Exactly the value of a float, and the simplest fraction that rounds to it. */
CALL(ratio_from_float8)
{
	float8		x = PG_GETARG_FLOAT8(0);

	GIVE(ratio_from_f64_i64, x, "ratio(%s)", float8out_internal(x));
}

CALL(ratio_rationalize)
{
	float8		x = PG_GETARG_FLOAT8(0);

	GIVE(ratio_rationalize_i64, x, "ratio_rationalize(%s)", float8out_internal(x));
}

/* The nearest float. */
CALL(ratio_to_float8)
{
	ratio_float answer;

	ratio_to_f64_i64(ARG(0), 1, &answer, 1);
	if (unlikely(answer.code != RATIO_ANSWERED))
		refuse(answer.code, psprintf("float8(%s)", quoted(*ARG(0))));
	PG_RETURN_FLOAT8(answer.value);
}

/* Exactly, or not at all: a text of numeric that is no decimal is NaN or an infinity. */
CALL(ratio_from_numeric)
{
	const char *text = DatumGetCString(DirectFunctionCall1(numeric_out, PG_GETARG_DATUM(0)));
	ratio_span	span = {0, strlen(text)};
	ratio_answer_i64 answer;

	ratio_read_decimal_i64((const uint8_t *) text, span.end, &span, 1, &answer, 1);
	if (unlikely(answer.code != RATIO_ANSWERED))
		refuse(RATIO_NOT_HELD, psprintf("ratio(%.60s%s)", text, strlen(text) > 60 ? ".." : ""));
	return new_value(answer.value);
}

/* The text of a decimal with so many places. */
static char *
decimal(FunctionCallInfo fcinfo, int32 places, uint32 rule, const char *name)
{
	ratio_decimal_i64 asked = {*ARG(0), places, rule};
	char	   *text = palloc(RATIO_DECIMAL_ROOM_I64 + 1);
	ratio_text	place;

	ratio_print_decimal_i64(&asked, 1, (uint8_t *) text, RATIO_DECIMAL_ROOM_I64, &place, 1);
	if (unlikely(place.code != RATIO_ANSWERED))
		refuse(place.code, psprintf("%s(%s, %d)", name, quoted(asked.value), places));
	text[place.span.end] = '\0';
	return text;
}

/* The numeric that a text writes. The typmod of numeric(p, s) rounds it to s places and refuses more than p digits; with -1 it stays as it is. */
Datum
number(const char *text, int32 typmod)
{
	return DirectFunctionCall3(numeric_in, CStringGetDatum(text), ObjectIdGetDatum(InvalidOid), Int32GetDatum(typmod));
}

/* A half away from zero, as numeric rounds. */
CALL(ratio_decimal) { PG_RETURN_TEXT_P(cstring_to_text(decimal(fcinfo, PG_GETARG_INT32(1), RATIO_RULE_HALF_AWAY, "ratio_decimal"))); }
CALL(ratio_round_places) { return number(decimal(fcinfo, PG_GETARG_INT32(1), RATIO_RULE_HALF_AWAY, "ratio_round"), -1); }
CALL(ratio_trunc_places) { return number(decimal(fcinfo, PG_GETARG_INT32(1), RATIO_RULE_DOWN, "ratio_trunc"), -1); }

/* The cast to numeric, to LEAST_PLACES or more, and to numeric(p, s), rounded once, to s places: the lower 11 bits of the typmod. If s is below 0, the
 * library cuts to a whole number, and numeric_in rounds that. To tens, 14.9 is cut to 14 and gives 10, and 15.2 is cut to 15 and gives 20. */
enum { LEAST_PLACES = 16 };

static bool
is_plain(int32 typmod)
{
	return typmod < VARHDRSZ;
}

int32
places_of(int32 typmod)
{
	return is_plain(typmod) ? LEAST_PLACES : (((typmod - VARHDRSZ) & 0x7ff) ^ 1024) - 1024;
}

Datum
cast_number(const char *text, int32 typmod)
{
	return is_plain(typmod) ? DirectFunctionCall1(numeric_trim_scale, number(text, -1)) : number(text, typmod);
}

static Datum
to_numeric(FunctionCallInfo fcinfo, int32 places)
{
	return cast_number(decimal(fcinfo, Max(places, 0), places < 0 ? RATIO_RULE_DOWN : RATIO_RULE_HALF_AWAY, "numeric"), PG_GETARG_INT32(1));
}

/* As many places as numeric keeps when it divides the two numbers: at most 36. For a large quotient it keeps fewer than LEAST_PLACES. */
static int32
places_of_quotient(const Ratio *x)
{
	Datum		quotient;

	if (unlikely(x->denom == 0))
		return LEAST_PLACES;
	quotient = DirectFunctionCall2(numeric_div, DirectFunctionCall1(int8_numeric, Int64GetDatum(x->numer)),
								   DirectFunctionCall1(int8_numeric, Int64GetDatum(x->denom)));
	return Max(DatumGetInt32(DirectFunctionCall1(numeric_scale, quotient)), LEAST_PLACES);
}

/* The cast of version 0.1, for what was made over it: an index over such a cast may not change. */
CALL(ratio_to_numeric) { return to_numeric(fcinfo, places_of(PG_GETARG_INT32(1))); }
CALL(ratio_numeric) { return to_numeric(fcinfo, is_plain(PG_GETARG_INT32(1)) ? places_of_quotient(ARG(0)) : places_of(PG_GETARG_INT32(1))); }
