/* Text and binary, in and out. What comes in is not trusted. */
#include "glue.h"

#include "libpq/pqformat.h"

static bool
is_space(char c)
{
	return c == ' ' || (c >= '\t' && c <= '\r');
}

/* The bytes of a text without the spaces around it. */
static ratio_span
trimmed(const char *text)
{
	ratio_span	span = {0, strlen(text)};

	while (is_space(text[span.start]))
		span.start++;
	while (span.end > span.start && is_space(text[span.end - 1]))
		span.end--;
	return span;
}

static pg_noinline void
refuse_text(uint32 code, const char *text)
{
	switch (code)
	{
		case RATIO_NOT_HELD:
			ereport(ERROR, errcode(ERRCODE_NUMERIC_VALUE_OUT_OF_RANGE), errmsg("value \"%s\" is out of range for type %s", text, "ratio"));
			break;
		case RATIO_ZERO_DENOMINATOR:
			ereport(ERROR, errcode(ERRCODE_DIVISION_BY_ZERO), errmsg("division by zero in the ratio \"%s\"", text));
			break;
		default:
			ereport(ERROR, errcode(ERRCODE_INVALID_TEXT_REPRESENTATION), errmsg("invalid input syntax for type %s: \"%s\"", "ratio", text));
	}
}

CALL(ratio_in)
{
	const char *text = PG_GETARG_CSTRING(0);
	ratio_span	span = trimmed(text);
	ratio_answer_i64 answer;

	ratio_read_text_i64((const uint8_t *) text, span.end, &span, 1, &answer, 1);
	if (unlikely(answer.code != RATIO_ANSWERED))
		refuse_text(answer.code, text);
	return new_value(answer.value);
}

CALL(ratio_out)
{
	char	   *text = palloc(RATIO_ROOM_I64 + 1);
	ratio_text	place;

	ratio_print_i64(ARG(0), 1, (uint8_t *) text, RATIO_ROOM_I64, &place, 1);
	if (unlikely(place.code != RATIO_ANSWERED))
		refuse(RATIO_DENOMINATOR_NOT_POSITIVE, quoted(*ARG(0)));
	text[place.span.end] = '\0';
	PG_RETURN_CSTRING(text);
}

/* Two numbers of 64 bits, which must be in lowest terms, the denominator positive. */
CALL(ratio_recv)
{
	StringInfo	bytes = (StringInfo) PG_GETARG_POINTER(0);
	Ratio		x;
	ratio_answer_i64 lowest;

	x.numer = pq_getmsgint64(bytes);
	x.denom = pq_getmsgint64(bytes);
	ratio_reduce_i64(&x, 1, &lowest, 1);
	if (lowest.code != RATIO_ANSWERED || lowest.value.numer != x.numer || lowest.value.denom != x.denom)
		ereport(ERROR, errcode(ERRCODE_INVALID_BINARY_REPRESENTATION), errmsg("invalid binary ratio: " INT64_FORMAT "/" INT64_FORMAT, x.numer, x.denom),
				errdetail("It must be in lowest terms, and its denominator above 0."));
	return new_value(x);
}

CALL(ratio_send)
{
	StringInfoData bytes;

	pq_begintypsend(&bytes);
	pq_sendint64(&bytes, ARG(0)->numer);
	pq_sendint64(&bytes, ARG(0)->denom);
	PG_RETURN_BYTEA_P(pq_endtypsend(&bytes));
}
