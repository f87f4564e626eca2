/* Totals that grow: fractions go in and out of slots, one for each denominator. The library adds; this file finds the memory. */
#include "totals.h"

#include "miscadmin.h"
#include "port/pg_bitutils.h"
#include "utils/memutils.h"

/* So many slots at a time take a few milliseconds. Between them, a long work looks for interrupts. So few slots go in without a look at the room.
 * PostgreSQL rounds memory of so many bytes at most up to a power of 2. */
enum { PIECE = 1 << 16, HANDFUL = 64, ROUNDED = 8192 };

typedef uint32_t Put(const ratio_i64 *, size_t, ratio_total_i64 *, size_t, ratio_slot_i64 *, size_t);
typedef uint32_t Pour(const ratio_slot_i64 *, size_t, int64_t, ratio_total_i64 *, size_t, ratio_slot_i64 *, size_t);

State *
new_state(MemoryContext context)
{
	State	   *state = MemoryContextAllocZero(context, sizeof(State));

	state->length = FEW;
	return state;
}

void
discard(State *state)
{
	if (state->table != NULL)
		pfree(state->table);
	pfree(state);
}

static pg_noinline void
refuse_change(uint32 code)
{
	if (code == RATIO_NOT_HELD)
		ereport(ERROR, errcode(ERRCODE_NUMERIC_VALUE_OUT_OF_RANGE), errmsg("ratio_total out of range"),
				errdetail("A numerator of the total does not fit 128 bits, or its count 64 bits."));
	refuse(code, "a total");
}

size_t
pack(ratio_slot_i64 *to, const ratio_slot_i64 *from, size_t length)
{
	size_t		many = 0;

	for (size_t i = 0; i < length; i += PIECE)
	{
		size_t		piece = Min(length - i, PIECE);

		CHECK_FOR_INTERRUPTS();
		memmove(to + many, from + i, piece * sizeof(*to));
		many += ratio_total_leave_zeros_i64(to + many, piece);
	}
	return many;
}

/* The limit is three quarters. */
static inline size_t
limit_of(size_t length)
{
	return length - length / 4;
}

/* How many slots a table has for the denominators in it and so many more. A short one has all that fit its memory: 10, 21, 42, .. slots. */
static size_t
length_for(size_t many, size_t more)
{
	size_t		length = ratio_total_next_length_i64(many, more, random_up_to(PG_UINT32_MAX), PG_UINT32_MAX),
				bytes = offsetof(Table, slots) + length * sizeof(ratio_slot_i64);

	if (length == 0)
		ereport(ERROR, errcode(ERRCODE_PROGRAM_LIMIT_EXCEEDED), errmsg("a total has too many denominators"));
	if (bytes > ROUNDED)
		return length;
	return (pg_nextpower2_64(bytes) - offsetof(Table, slots)) / sizeof(ratio_slot_i64);
}

/* A table with these slots, which must have unlike denominators, and with so many in all. */
static Table *
new_table(MemoryContext context, const ratio_slot_i64 *slots, size_t many, size_t length)
{
	Table	   *table = MemoryContextAllocHuge(context, offsetof(Table, slots) + length * sizeof(ratio_slot_i64));
	ratio_total_i64 total = {0};

	for (size_t i = 0; i < length; i += PIECE)
	{
		CHECK_FOR_INTERRUPTS();
		memset(table->slots + i, 0, Min(length - i, PIECE) * sizeof(*slots));
	}
	for (size_t i = 0; i < many; i += PIECE)
	{
		CHECK_FOR_INTERRUPTS();
		ratio_total_merge_i64(slots + i, Min(many - i, PIECE), 0, &total, 1, table->slots, length);
		if (total.code != RATIO_ANSWERED)
			refuse_change(total.code);
	}
	table->due = table->interval = limit_of(length) - many;
	return table;
}

/* Moves the slots that are not 0 to a table, which they and so many more fill by half, or a little less. With a third more, a table that was
 * full to its limit doubles. */
static pg_noinline void
move(State *state, size_t more)
{
	size_t		many = pack(slots_of(state), slots_of(state), state->length);
	size_t		length = length_for(many, Max(more, many / 3));
	Table	   *table = new_table(GetMemoryChunkContext(state), slots_of(state), many, length);

	if (state->table != NULL)
		pfree(state->table);
	state->table = table;
	state->length = length;
}

static size_t
count_free(const ratio_slot_i64 *slots, size_t length)
{
	size_t		many = 0;

	for (size_t i = 0; i < length; i += PIECE)
	{
		CHECK_FOR_INTERRUPTS();
		many += ratio_total_free_i64(slots + i, Min(length - i, PIECE));
	}
	return many;
}

/* Counts the empty slots. If few new denominators come, it does so ever more rarely, so that it costs a row nothing. A table may become
 * fuller than its limit meanwhile. If it becomes full, the library says RATIO_MORE_ROOM. */
static pg_noinline void
count_empty(State *state)
{
	Table	   *table = state->table;
	size_t		taken = state->length - count_free(table->slots, state->length),
				limit = limit_of(state->length);
	uint64		longer = Min(2 * (uint64) table->interval, 16 * (uint64) state->length);

	if (taken > limit)
		move(state, 0);
	else
		table->due = table->interval = Max(limit - taken, Min(longer, PG_UINT32_MAX));
}

static inline void
count_if_due(State *state, uint32 done)
{
	if (state->table == NULL)
		return;
	if (likely(state->table->due > done))
		state->table->due -= done;
	else
		count_empty(state);
}

/* The fractions go in or out. */
static inline void
put(State *state, Put *call, const Ratio *values, uint32 many)
{
	ratio_total_i64 total = {.count = state->count};
	uint32		done = 0;

	for (;;)
	{
		call(values + done, many - done, &total, 1, slots_of(state), state->length);
		if (likely(total.code == RATIO_ANSWERED))
			break;
		if (total.code != RATIO_MORE_ROOM)
			refuse_change(total.code);
		done += total.done;
		move(state, 0);
	}
	state->count = total.count;
	count_if_due(state, many);
}

void
put_early(State *state, const Ratio *value)
{
	put(state, ratio_total_add_i64, value, 1);
	if (state->count >= EARLY && state->table == NULL)
		move(state, 0);
}

void
settle(State *state)
{
	put(state, ratio_total_add_i64, state->values, state->waiting);
	state->waiting = 0;
}

void
take_out(State *state, const Ratio *value)
{
	put(state, ratio_total_subtract_i64, value, 1);
}

/* Slots go in or out, as many at a time as there is surely room for. The count comes with the last ones. */
static void
pour(State *state, Pour *call, const ratio_slot_i64 *slots, size_t many, int64 count)
{
	ratio_total_i64 total = {.count = state->count};

	for (;;)
	{
		size_t		piece = Min(many, state->table == NULL ? PIECE : Min(state->table->due, PIECE));

		CHECK_FOR_INTERRUPTS();
		call(slots, piece, piece == many ? count : 0, &total, 1, slots_of(state), state->length);
		if (total.code != RATIO_ANSWERED && total.code != RATIO_MORE_ROOM)
			refuse_change(total.code);
		slots += total.done;
		many -= total.done;
		if (total.code == RATIO_MORE_ROOM)
			move(state, 0);
		else if (many == 0)
			break;
		else
			count_if_due(state, total.done);
	}
	state->count = total.count;
	count_if_due(state, total.done);
}

void
pour_in(State *state, const ratio_slot_i64 *slots, size_t many, int64 count)
{
	pour(state, ratio_total_merge_i64, slots, many, count);
}

/* As if no denominator were in both, there is room for all of them first. Growth on the way would take longer. */
void
pour_in_whole(State *state, const ratio_slot_i64 *slots, size_t many, int64 count)
{
	if (many > HANDFUL && limit_of(state->length) < state->length - count_free(slots_of(state), state->length) + many)
		move(state, many);
	pour_in(state, slots, many, count);
}

void
pour_out(State *state, const ratio_slot_i64 *slots, size_t many, int64 count)
{
	pour(state, ratio_total_unmerge_i64, slots, many, count);
}

ratio_slot_i64 *
packed(State *state, size_t *many)
{
	ratio_slot_i64 *slots = MemoryContextAllocHuge(CurrentMemoryContext, state->length * sizeof(ratio_slot_i64));

	*many = pack(slots, slots_of(state), state->length);
	return slots;
}
