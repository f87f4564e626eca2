/* What all files of the extension use. */
#ifndef GLUE_H
#define GLUE_H

#include "postgres.h"

#include "fmgr.h"

#define RATIO_CHECKED /* the calls here always get arrays of the lengths that they require */
#include "ratio.h"

/* What the releases from 13 to 17 name otherwise. The other files have none of it. */
#if PG_VERSION_NUM >= 160000
#include "varatt.h"
#define nullable_relids incompatible_relids
#endif
#if PG_VERSION_NUM >= 150000
#include "common/pg_prng.h"
#define compare_keys ssup_datum_signed_cmp
#define random_up_to(most) pg_prng_uint64_range(&pg_global_prng_state, 0, most)
#else
#include "utils/sortsupport.h"
#define random_up_to(most) ((uint64) random() % ((uint64) (most) + 1))
static inline int
compare_keys(Datum x, Datum y, SortSupport sort)
{
	return (DatumGetInt64(x) > DatumGetInt64(y)) - (DatumGetInt64(x) < DatumGetInt64(y));
}
#endif
#if PG_VERSION_NUM >= 140000
#define SORT_TEMPLATE "lib/sort_template.h"
#else
#define SORT_TEMPLATE "sort_template_13.h"
#endif

/* A value of the type: 16 bytes, in lowest terms, the denominator positive. */
typedef ratio_i64 Ratio;

/* The same value in 128 bits. There the sum, the difference and the product of any two values fit. */
static inline ratio_wide
wide(int64 n)
{
	return (ratio_wide) {n, n < 0 ? -1 : 0};
}

static inline ratio_i128
widened(const Ratio *x)
{
	return (ratio_i128) {wide(x->numer), wide(x->denom)};
}

/* The head of a function that SQL calls, and one of its arguments. */
#define CALL(name) PG_FUNCTION_INFO_V1(name); Datum name(PG_FUNCTION_ARGS)
#define ARG(n) ((const Ratio *) PG_GETARG_POINTER(n))

/* Other modules must not see these names: PostgreSQL loads each module with RTLD_GLOBAL. */
#pragma GCC visibility push(hidden)

/* Ends the statement with the error of a code that is not RATIO_ANSWERED. `call` is what SQL asked for, with its operands. */
extern void refuse(uint32 code, const char *call) pg_attribute_noreturn();

/* The text of a value, as in SQL: '3/4'. For errors. */
extern char *quoted(Ratio x);

/* The numeric that a text writes, one for a cast with this typmod, and how many places that cast needs. */
extern Datum number(const char *text, int32 typmod);
extern Datum cast_number(const char *text, int32 typmod);
extern int32 places_of(int32 typmod);

#pragma GCC visibility pop

static inline Datum
new_value(Ratio x)
{
	Ratio	   *kept = palloc(sizeof(Ratio));

	*kept = x;
	return PointerGetDatum(kept);
}

/* The rest of a function: one call of the library over one input, and its value or its error. What follows the input is how SQL writes
 * the call, a format and the operands. */
#define GIVE(call, asked, ...) \
	do { \
		ratio_answer_i64 answer; \
		call(&(asked), 1, &answer, 1); \
		if (unlikely(answer.code != RATIO_ANSWERED)) \
			refuse(answer.code, psprintf(__VA_ARGS__)); \
		return new_value(answer.value); \
	} while (0)

#endif
