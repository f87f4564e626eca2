/* The type ratio_total: totals in tables, in text and binary, compared, added and read. */
#include "totals.h"

#include "lib/stringinfo.h"
#include "libpq/pqformat.h"
#include "miscadmin.h"
#include "utils/builtins.h"

/* Sorts slots, the smaller denominator first, and looks for interrupts. */
#define ST_SORT sort_slots
#define ST_ELEMENT_TYPE ratio_slot_i64
#define ST_COMPARE(x, y) (((x)->denom > (y)->denom) - ((x)->denom < (y)->denom))
#define ST_SCOPE static
#define ST_CHECK_FOR_INTERRUPTS
#define ST_DEFINE
#include SORT_TEMPLATE

extern Datum ratio_in(PG_FUNCTION_ARGS);

static pg_noinline void
refuse_stored(void)
{
	ereport(ERROR, errcode(ERRCODE_DATA_CORRUPTED), errmsg("a stored ratio_total is damaged"));
}

/* Whether the denominators are above 0 and grow, and no numerator is 0. */
static bool
are_ordered(const ratio_slot_i64 *slots, size_t many)
{
	int64		before = 0;

	for (size_t i = 0; i < many; i++)
	{
		if ((int64) slots[i].denom <= before || (slots[i].numer.low == 0 && slots[i].numer.high == 0))
			return false;
		before = slots[i].denom;
	}
	return true;
}

Stored *
stored_argument(FunctionCallInfo fcinfo, int n, size_t *many)
{
	Stored	   *stored = (Stored *) PG_GETARG_VARLENA_P(n);
	size_t		size = VARSIZE(stored) - sizeof(Stored);

	*many = size / sizeof(ratio_slot_i64);
	if (VARSIZE(stored) < sizeof(Stored) || size % sizeof(ratio_slot_i64) != 0 || !are_ordered(stored->slots, *many))
		refuse_stored();
	return stored;
}

Datum
new_stored(State *state)
{
	size_t		many;
	ratio_slot_i64 *slots = packed(state, &many);
	size_t		size = many * sizeof(*slots);
	Stored	   *stored = palloc(sizeof(Stored) + size);

	sort_slots(slots, many);
	SET_VARSIZE(stored, sizeof(Stored) + size);
	stored->unused = 0;
	stored->count = state->count;
	memcpy(stored->slots, slots, size);
	pfree(slots);
	return PointerGetDatum(stored);
}

/* The value of a state that is not needed afterwards. */
static Datum
finished(State *state)
{
	Datum		value = new_stored(state);

	discard(state);
	return value;
}

CALL(ratio_total_from_ratio)
{
	State	   *state = new_state(CurrentMemoryContext);

	put_early(state, ARG(0));
	return finished(state);
}

/* The text: {count; numerator/denominator, ..}, as {3; 5, 1/2}. A whole numerator has no denominator. */
static void
append_slot(StringInfo text, const ratio_slot_i64 *slot)
{
	ratio_i128	fraction = {slot->numer, {slot->denom, 0}};
	ratio_text	place;

	enlargeStringInfo(text, RATIO_ROOM_I128);
	ratio_print_i128(&fraction, 1, (uint8_t *) text->data + text->len, RATIO_ROOM_I128, &place, 1);
	text->len += place.span.end;
	text->data[text->len] = '\0';
}

CALL(ratio_total_out)
{
	size_t		many;
	const Stored *stored = stored_argument(fcinfo, 0, &many);
	StringInfoData text;

	initStringInfo(&text);
	appendStringInfo(&text, "{" INT64_FORMAT, stored->count);
	for (size_t i = 0; i < many; i++)
	{
		CHECK_FOR_INTERRUPTS();
		appendStringInfoString(&text, i == 0 ? "; " : ", ");
		append_slot(&text, &stored->slots[i]);
	}
	appendStringInfoChar(&text, '}');
	PG_RETURN_CSTRING(text.data);
}

static void
refuse_text(const char *text)
{
	ereport(ERROR, errcode(ERRCODE_INVALID_TEXT_REPRESENTATION), errmsg("invalid input syntax for type %s: \"%.200s\"", "ratio_total", text));
}

static void
refuse_size(const char *text)
{
	ereport(ERROR, errcode(ERRCODE_NUMERIC_VALUE_OUT_OF_RANGE), errmsg("value \"%.200s\" is out of range for type %s", text, "ratio_total"));
}

/* Where a text is read. */
typedef struct { const char *text, *next; } Reader;

static void
skip_spaces(Reader *reader)
{
	while (*reader->next == ' ' || (*reader->next >= '\t' && *reader->next <= '\r'))
		reader->next++;
}

static bool
takes(Reader *reader, char c)
{
	skip_spaces(reader);
	if (*reader->next != c)
		return false;
	reader->next++;
	return true;
}

/* The whole number that comes next: digits, perhaps after a minus. */
static ratio_wide
read_number(Reader *reader)
{
	ratio_span	span = {0, 0};
	ratio_answer_i128 answer;
	const char *from;

	skip_spaces(reader);
	from = reader->next;
	if (from[span.end] == '-')
		span.end++;
	if (from[span.end] < '0' || from[span.end] > '9')
		refuse_text(reader->text);
	while (from[span.end] >= '0' && from[span.end] <= '9')
		span.end++;
	ratio_read_i128((const uint8_t *) from, span.end, &span, 1, &answer, 1);
	if (answer.code != RATIO_ANSWERED)
		refuse_size(reader->text);
	reader->next += span.end;
	return answer.value.numer;
}

/* A number of 64 bits. */
static int64
read_short(Reader *reader)
{
	ratio_wide	number = read_number(reader);

	if (number.high != ((int64) number.low < 0 ? -1 : 0))
		refuse_size(reader->text);
	return (int64) number.low;
}

static ratio_slot_i64
read_slot(Reader *reader)
{
	ratio_slot_i64 slot = {1, read_number(reader)};

	if (takes(reader, '/'))
	{
		int64		denom = read_short(reader);

		if (denom <= 0)
			refuse_text(reader->text);
		slot.denom = denom;
	}
	return slot;
}

/* The slots may come in any order, and a denominator may come again. The text of a ratio is the total of this one fraction. */
CALL(ratio_total_in)
{
	Reader		reader = {PG_GETARG_CSTRING(0), PG_GETARG_CSTRING(0)};
	State	   *state;
	ratio_slot_i64 slot = {0};

	if (!takes(&reader, '{'))
		return DirectFunctionCall1(ratio_total_from_ratio, DirectFunctionCall1(ratio_in, CStringGetDatum(reader.text)));
	state = new_state(CurrentMemoryContext);
	pour_in(state, &slot, 0, read_short(&reader));
	if (takes(&reader, ';'))
		do
		{
			slot = read_slot(&reader);
			pour_in(state, &slot, 1, 0);
		} while (takes(&reader, ','));
	if (!takes(&reader, '}'))
		refuse_text(reader.text);
	skip_spaces(&reader);
	if (*reader.next != '\0')
		refuse_text(reader.text);
	return finished(state);
}

/* Binary: the count and the number of slots, then the denominator and the numerator of each, all of 64 bits but the numerator of 128. */
CALL(ratio_total_send)
{
	size_t		many;
	const Stored *stored = stored_argument(fcinfo, 0, &many);
	StringInfoData bytes;

	pq_begintypsend(&bytes);
	pq_sendint64(&bytes, stored->count);
	pq_sendint64(&bytes, many);
	for (size_t i = 0; i < many; i++)
	{
		CHECK_FOR_INTERRUPTS();
		pq_sendint64(&bytes, stored->slots[i].denom);
		pq_sendint64(&bytes, stored->slots[i].numer.high);
		pq_sendint64(&bytes, stored->slots[i].numer.low);
	}
	PG_RETURN_BYTEA_P(pq_endtypsend(&bytes));
}

static pg_noinline void
refuse_bytes(void)
{
	ereport(ERROR, errcode(ERRCODE_INVALID_BINARY_REPRESENTATION), errmsg("invalid binary ratio_total"),
			errdetail("The denominators must be above 0 and grow, and no numerator may be 0."));
}

CALL(ratio_total_recv)
{
	StringInfo	bytes = (StringInfo) PG_GETARG_POINTER(0);
	int64		count = pq_getmsgint64(bytes),
				many = pq_getmsgint64(bytes);
	Stored	   *stored;

	if (many < 0 || many > (bytes->len - bytes->cursor) / (int64) sizeof(ratio_slot_i64))
		refuse_bytes();
	stored = palloc0(sizeof(Stored) + many * sizeof(ratio_slot_i64));
	SET_VARSIZE(stored, sizeof(Stored) + many * sizeof(ratio_slot_i64));
	stored->count = count;
	for (int64 i = 0; i < many; i++)
	{
		ratio_slot_i64 *slot = &stored->slots[i];

		CHECK_FOR_INTERRUPTS();
		slot->denom = pq_getmsgint64(bytes);
		slot->numer.high = pq_getmsgint64(bytes);
		slot->numer.low = pq_getmsgint64(bytes);
	}
	if (!are_ordered(stored->slots, many))
		refuse_bytes();
	PG_RETURN_POINTER(stored);
}

/* Two totals as one: the second goes in or out. */
static State *
joined(FunctionCallInfo fcinfo, bool out)
{
	size_t		left_many,
				right_many;
	Stored	   *left = stored_argument(fcinfo, 0, &left_many),
			   *right = stored_argument(fcinfo, 1, &right_many);
	State	   *state = new_state(CurrentMemoryContext);

	pour_in(state, left->slots, left_many, left->count);
	(out ? pour_out : pour_in) (state, right->slots, right_many, right->count);
	PG_FREE_IF_COPY(left, 0);
	PG_FREE_IF_COPY(right, 1);
	return state;
}

CALL(ratio_total_add) { return finished(joined(fcinfo, false)); }
CALL(ratio_total_sub) { return finished(joined(fcinfo, true)); }

static int
order_of(FunctionCallInfo fcinfo)
{
	size_t		left_many,
				right_many;
	Stored	   *left = stored_argument(fcinfo, 0, &left_many),
			   *right = stored_argument(fcinfo, 1, &right_many);
	int			order = order_of_totals(left->slots, left_many, right->slots, right_many);

	PG_FREE_IF_COPY(left, 0);
	PG_FREE_IF_COPY(right, 1);
	return order;
}

CALL(ratio_total_cmp) { PG_RETURN_INT32(order_of(fcinfo)); }
CALL(ratio_total_eq) { PG_RETURN_BOOL(order_of(fcinfo) == 0); }
CALL(ratio_total_ne) { PG_RETURN_BOOL(order_of(fcinfo) != 0); }
CALL(ratio_total_lt) { PG_RETURN_BOOL(order_of(fcinfo) < 0); }
CALL(ratio_total_le) { PG_RETURN_BOOL(order_of(fcinfo) <= 0); }
CALL(ratio_total_gt) { PG_RETURN_BOOL(order_of(fcinfo) > 0); }
CALL(ratio_total_ge) { PG_RETURN_BOOL(order_of(fcinfo) >= 0); }

CALL(ratio_from_total)
{
	size_t		many;
	const Stored *stored = stored_argument(fcinfo, 0, &many);

	return sum_of(stored->slots, many, stored->count, "ratio(ratio_total)");
}

CALL(ratio_total_to_float8)
{
	size_t		many;
	const Stored *stored = stored_argument(fcinfo, 0, &many);

	PG_RETURN_FLOAT8(float_of(stored->slots, many));
}

CALL(ratio_total_count)
{
	size_t		many;

	PG_RETURN_INT64(stored_argument(fcinfo, 0, &many)->count);
}

/* PostgreSQL's numeric has at most so many places. */
enum { MOST_PLACES = 16383 };

static char *
rounded(FunctionCallInfo fcinfo, int32 places, uint32 rule, const char *name)
{
	size_t		many;
	const Stored *stored = stored_argument(fcinfo, 0, &many);

	if (places < 0 || places > MOST_PLACES)
		ereport(ERROR, errcode(ERRCODE_INVALID_PARAMETER_VALUE), errmsg("there may be 0 to %d places", MOST_PLACES),
				errdetail("The call was %s(ratio_total, %d).", name, places));
	return decimal_of(stored->slots, many, places, rule, name);
}

CALL(ratio_total_round) { return number(rounded(fcinfo, PG_GETARG_INT32(1), RATIO_RULE_HALF_AWAY, "ratio_round"), -1); }

/* As the cast of ratio to numeric. */
CALL(ratio_total_to_numeric)
{
	int32		typmod = PG_GETARG_INT32(1),
				places = places_of(typmod);

	return cast_number(rounded(fcinfo, Max(places, 0), places < 0 ? RATIO_RULE_DOWN : RATIO_RULE_HALF_AWAY, "numeric"), typmod);
}
