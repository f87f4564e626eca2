/* Arithmetic: each function of SQL is one call of the library. */
#include "glue.h"

PG_MODULE_MAGIC;

/* The function and the call have one name. The form is how SQL writes the call, for errors. */
#define OF_ONE(call, form) CALL(ratio_##call) { GIVE(ratio_##call##_i64, *ARG(0), form, quoted(*ARG(0))); }

#define OF_TWO(call, form) \
	CALL(ratio_##call) \
	{ \
		ratio_pair_i64 pair = {*ARG(0), *ARG(1)}; \
		GIVE(ratio_##call##_i64, pair, form, quoted(pair.left), quoted(pair.right)); \
	}

OF_TWO(add, "%s + %s")
OF_TWO(sub, "%s - %s")
OF_TWO(mul, "%s * %s")
OF_TWO(div, "%s / %s")
OF_TWO(rem, "%s %% %s")
OF_TWO(gcd, "gcd(%s, %s)")
OF_TWO(lcm, "lcm(%s, %s)")
OF_ONE(neg, "- %s")
OF_ONE(abs, "abs(%s)")
OF_ONE(floor, "floor(%s)")
OF_ONE(ceil, "ceil(%s)")
OF_ONE(round, "round(%s)")
OF_ONE(trunc, "trunc(%s)")

/* Below 0, the reciprocal to the positive power: -1/2 to -63 is -2^63, and 2^63 does not fit. Without a reciprocal no power below 0 fits, and of
 * those to the least exponent only that of 1 and of -1. */
CALL(ratio_power)
{
	ratio_power_i64 power = {*ARG(0), PG_GETARG_INT32(1)};
	ratio_pair_i64 pair = {{1, 1}, power.base};
	ratio_answer_i64 reciprocal;

	if (power.exponent < 0 && power.exponent > PG_INT32_MIN)
	{
		ratio_div_i64(&pair, 1, &reciprocal, 1);
		if (likely(reciprocal.code == RATIO_ANSWERED))
			power = (ratio_power_i64) {reciprocal.value, -power.exponent};
	}
	GIVE(ratio_pow_i64, power, "ratio_power(%s, %d)", quoted(*ARG(0)), PG_GETARG_INT32(1));
}

/* The product rounded to a whole number, a half away from zero, as numeric rounds. */
CALL(ratio_mul_round)
{
	ratio_factors_i64 factors = {*ARG(0), *ARG(1), RATIO_RULE_HALF_AWAY};
	ratio_answer_i64 answer;

	ratio_mul_round_i64(&factors, 1, &answer, 1);
	if (unlikely(answer.code != RATIO_ANSWERED))
		refuse(answer.code, psprintf("ratio_mul_round(%s, %s)", quoted(factors.left), quoted(factors.right)));
	PG_RETURN_INT64(answer.value.numer);
}

/* A product or a quotient with so many places. In 128 bits each fits, so only the numeric rounds. */
static Datum
to_places(FunctionCallInfo fcinfo, uint32_t (*call) (const ratio_pair_i128 *, size_t, ratio_answer_i128 *, size_t), const char *name)
{
	ratio_pair_i128 pair = {widened(ARG(0)), widened(ARG(1))};
	ratio_decimal_i128 asked = {.places = PG_GETARG_INT32(2), .rule = RATIO_RULE_HALF_AWAY};
	ratio_answer_i128 answer;
	char	   *text = palloc(RATIO_DECIMAL_ROOM_I128 + 1);
	ratio_text	place;

	call(&pair, 1, &answer, 1);
	asked.value = answer.value;
	place.code = answer.code;
	if (likely(answer.code == RATIO_ANSWERED))
		ratio_print_decimal_i128(&asked, 1, (uint8_t *) text, RATIO_DECIMAL_ROOM_I128, &place, 1);
	if (unlikely(place.code != RATIO_ANSWERED))
		refuse(place.code, psprintf("%s(%s, %s, %d)", name, quoted(*ARG(0)), quoted(*ARG(1)), PG_GETARG_INT32(2)));
	text[place.span.end] = '\0';
	return number(text, -1);
}

CALL(ratio_mul_round_places) { return to_places(fcinfo, ratio_mul_i128, "ratio_mul_round"); }
CALL(ratio_div_round) { return to_places(fcinfo, ratio_div_i128, "ratio_div_round"); }

CALL(ratio_nearest)
{
	ratio_bounded_i64 bounded = {*ARG(0), PG_GETARG_INT64(1)};

	GIVE(ratio_nearest_i64, bounded, "ratio_nearest(%s, " INT64_FORMAT ")", quoted(bounded.value), bounded.most);
}

/* The simplest fraction strictly between two. NULL is no bound. */
CALL(ratio_between)
{
	ratio_bounds_i64 bounds = {{0}};

	if (PG_ARGISNULL(0))
		bounds.flags |= RATIO_LOW_OPEN;
	else
		bounds.low = *ARG(0);
	if (PG_ARGISNULL(1))
		bounds.flags |= RATIO_HIGH_OPEN;
	else
		bounds.high = *ARG(1);
	GIVE(ratio_between_i64, bounds, "ratio_between(%s, %s)", PG_ARGISNULL(0) ? "NULL" : quoted(bounds.low),
		 PG_ARGISNULL(1) ? "NULL" : quoted(bounds.high));
}

CALL(ratio_numerator) { PG_RETURN_INT64(ARG(0)->numer); }
CALL(ratio_denominator) { PG_RETURN_INT64(ARG(0)->denom); }
