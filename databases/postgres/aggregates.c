/* The aggregates: sum, avg and total of ratio, sum and avg of ratio_total; for groups, for windows, and for parallel workers. */
#include "totals.h"

#include "libpq/pqformat.h"
#include "utils/memutils.h"

static pg_noinline State *
first_state(FunctionCallInfo fcinfo)
{
	MemoryContext context;

	if (!AggCheckCallContext(fcinfo, &context))
		elog(ERROR, "a call for aggregates alone");
	return new_state(context);
}

/* The state of the first argument, or a new one. */
static inline State *
state_of(FunctionCallInfo fcinfo)
{
	return unlikely(PG_ARGISNULL(0)) ? first_state(fcinfo) : (State *) PG_GETARG_POINTER(0);
}

CALL(ratio_accum)
{
	State	   *state = state_of(fcinfo);

	if (PG_ARGISNULL(1))
		PG_RETURN_POINTER(state);
	if (state->table == NULL)
		put_early(state, ARG(1));
	else
	{
		state->values[state->waiting++] = *ARG(1);
		if (state->waiting == MOST)
			settle(state);
	}
	PG_RETURN_POINTER(state);
}

/* A value leaves a window. */
CALL(ratio_unaccum)
{
	State	   *state = state_of(fcinfo);

	if (!PG_ARGISNULL(1))
		take_out(state, ARG(1));
	PG_RETURN_POINTER(state);
}

CALL(ratio_total_accum)
{
	State	   *state = state_of(fcinfo);

	if (!PG_ARGISNULL(1))
	{
		size_t		many;
		const Stored *stored = stored_argument(fcinfo, 1, &many);

		pour_in(state, stored->slots, many, stored->count);
		state->totals++;
	}
	PG_RETURN_POINTER(state);
}

CALL(ratio_total_unaccum)
{
	State	   *state = state_of(fcinfo);

	if (!PG_ARGISNULL(1))
	{
		size_t		many;
		const Stored *stored = stored_argument(fcinfo, 1, &many);

		pour_out(state, stored->slots, many, stored->count);
		state->totals--;
	}
	PG_RETURN_POINTER(state);
}

CALL(ratio_combine)
{
	State	   *state = state_of(fcinfo);

	if (!PG_ARGISNULL(1))
	{
		State	   *other = (State *) PG_GETARG_POINTER(1);

		settle(other);
		pour_in_whole(state, slots_of(other), pack(slots_of(other), slots_of(other), other->length), other->count);
		state->totals += other->totals;
	}
	PG_RETURN_POINTER(state);
}

/* A worker hands its total to another process of the same server: two counts, and the slots byte by byte. PostgreSQL counts their bytes by an int,
 * and a value has less than a gigabyte. */
CALL(ratio_serialize)
{
	State	   *state = (State *) PG_GETARG_POINTER(0);
	ratio_slot_i64 *slots;
	size_t		many;
	StringInfoData bytes;

	settle(state);
	slots = packed(state, &many);
	if (many >= MaxAllocSize / sizeof(*slots))
		ereport(ERROR, errcode(ERRCODE_PROGRAM_LIMIT_EXCEEDED), errmsg("a total has too many denominators for a parallel worker"));
	pq_begintypsend(&bytes);
	pq_sendint64(&bytes, state->count);
	pq_sendint64(&bytes, state->totals);
	pq_sendbytes(&bytes, (const char *) slots, many * sizeof(*slots));
	pfree(slots);
	PG_RETURN_BYTEA_P(pq_endtypsend(&bytes));
}

/* The state is for ratio_combine, which only reads it: its slots are in the order that the worker sent. */
CALL(ratio_deserialize)
{
	bytea	   *sent = PG_GETARG_BYTEA_PP(0);
	StringInfoData bytes;
	State	   *state = new_state(CurrentMemoryContext);
	size_t		size;

	initStringInfo(&bytes);
	appendBinaryStringInfo(&bytes, VARDATA_ANY(sent), VARSIZE_ANY_EXHDR(sent));
	state->count = pq_getmsgint64(&bytes);
	state->totals = pq_getmsgint64(&bytes);
	size = bytes.len - bytes.cursor;
	state->length = size / sizeof(ratio_slot_i64);
	state->table = palloc(offsetof(Table, slots) + size);
	state->table->due = state->table->interval = PG_UINT32_MAX;
	pq_copymsgbytes(&bytes, (char *) state->table->slots, size);
	pfree(bytes.data);
	PG_RETURN_POINTER(state);
}

typedef Datum Read(const ratio_slot_i64 *, size_t, int64, const char *);

/* Reads a state. It stays as it is, since a window goes on. */
static Datum
read_state(State *state, Read *read_slots, const char *call)
{
	ratio_slot_i64 *slots,
				few[FEW];
	size_t		many;
	Datum		answer;

	if (state->table == NULL)
		return read_slots(few, pack(few, state->few, FEW), state->count, call);
	slots = packed(state, &many);
	answer = read_slots(slots, many, state->count, call);
	pfree(slots);
	return answer;
}

/* The state with the values that wait, or NULL if no value went in. */
static State *
whole(FunctionCallInfo fcinfo)
{
	State	   *state = PG_ARGISNULL(0) ? NULL : (State *) PG_GETARG_POINTER(0);

	if (state == NULL)
		return NULL;
	settle(state);
	return state->count == 0 && state->totals == 0 ? NULL : state;
}

static Datum
final(FunctionCallInfo fcinfo, Read *read_slots, const char *call)
{
	State	   *state = whole(fcinfo);

	if (state == NULL)
		PG_RETURN_NULL();
	return read_state(state, read_slots, call);
}

CALL(ratio_sum_final) { return final(fcinfo, sum_of, "sum(ratio)"); }
CALL(ratio_avg_final) { return final(fcinfo, mean_of, "avg(ratio)"); }

CALL(ratio_total_final)
{
	State	   *state = whole(fcinfo);

	if (state == NULL)
		PG_RETURN_NULL();
	return new_stored(state);
}

/* The mean of all fractions in totals. Totals of no fraction have none. */
CALL(ratio_total_avg_final)
{
	State	   *state = whole(fcinfo);

	if (state == NULL || state->count == 0)
		PG_RETURN_NULL();
	return read_state(state, mean_of, "avg(ratio_total)");
}
