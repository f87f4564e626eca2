/* A total while it grows: what the aggregates and the type ratio_total share. */
#ifndef TOTALS_H
#define TOTALS_H

#include "glue.h"

/* How many slots a total has without a table, how many fractions go in before it gets one, and how many values wait for a table, so that one
 * call of the library takes all of them. */
enum { FEW = 4, EARLY = 32, MOST = 6 };

/* Slots in memory of their own. */
typedef struct
{
	uint32		due;			/* so many fractions may go in before the empty slots are counted */
	uint32		interval;		/* what `due` was at the last count */
	ratio_slot_i64 slots[FLEXIBLE_ARRAY_MEMBER];
} Table;

/* A total, in 128 bytes. The first fractions go straight into its few slots. Once it has a table, values wait in the place of these. */
typedef struct
{
	uint32		waiting;		/* of `values` */
	uint32		length;			/* of the slots */
	Table	   *table;			/* NULL if the slots are `few` */
	int64		count;			/* of the fractions in the slots */
	int64		totals;			/* how many values of the type ratio_total went in */
	union
	{
		ratio_slot_i64 few[FEW];
		Ratio		values[MOST];
	};
} State;

/* A value of the type ratio_total: a varlena with the slots that are not 0, the smaller denominator first. `unused` is 0. So equal contents
 * have equal bytes. */
typedef struct
{
	int32		size;
	int32		unused;
	int64		count;
	ratio_slot_i64 slots[FLEXIBLE_ARRAY_MEMBER];
} Stored;

static inline ratio_slot_i64 *
slots_of(State *state)
{
	return state->table == NULL ? state->few : state->table->slots;
}

#pragma GCC visibility push(hidden)

/* A state of no fraction. Its table comes from the same context. */
extern State *new_state(MemoryContext context);
extern void discard(State *state);

/* A fraction goes into a state without a table, where none waits. */
extern void put_early(State *state, const Ratio *value);

/* The values that wait go in. */
extern void settle(State *state);

/* A fraction goes out. */
extern void take_out(State *state, const Ratio *value);

/* The slots of another total go in, or out. Those of a worker go in by `pour_in_whole`. */
extern void pour_in(State *state, const ratio_slot_i64 *slots, size_t many, int64 count);
extern void pour_in_whole(State *state, const ratio_slot_i64 *slots, size_t many, int64 count);
extern void pour_out(State *state, const ratio_slot_i64 *slots, size_t many, int64 count);

/* Copies the slots that are not 0, and says how many they are. */
extern size_t pack(ratio_slot_i64 *to, const ratio_slot_i64 *from, size_t length);

/* The slots of a state that are not 0, in new memory. */
extern ratio_slot_i64 *packed(State *state, size_t *many);

/* A total of more slots is read in steps, and looks for interrupts between them. */
enum { LONG_TOTAL = 1000 };

/* Reads. `call` is what SQL asked for. */
extern Datum sum_of(const ratio_slot_i64 *slots, size_t many, int64 count, const char *call);
extern Datum mean_of(const ratio_slot_i64 *slots, size_t many, int64 count, const char *call);
extern float8 float_of(const ratio_slot_i64 *slots, size_t many);
extern char *decimal_of(const ratio_slot_i64 *slots, size_t many, int32 places, uint32 rule, const char *call);

/* -1, 0 or 1: the order of the sum and 0. False if the common denominator of more than LONG_TOTAL slots is too long. A denominator may come again. */
extern bool sign_of(const ratio_slot_i64 *slots, size_t many, int *sign);

/* -1, 0 or 1: the order of the sums of two totals, whose denominators grow. */
extern int order_of_totals(const ratio_slot_i64 *left, size_t left_many, const ratio_slot_i64 *right, size_t right_many);

/* The argument of a function, checked, and how many slots it has. */
extern Stored *stored_argument(FunctionCallInfo fcinfo, int n, size_t *many);
extern Datum new_stored(State *state);

#pragma GCC visibility pop

#endif
