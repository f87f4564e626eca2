/* Calls on arrays: the product of many, and an amount split by shares or by weights. */
#include "glue.h"

#include "catalog/pg_type.h"
#include "miscadmin.h"
#include "utils/array.h"
#include "utils/builtins.h"
#include "utils/fmgroids.h"

/* The items of an array without NULL. They lie one after another, as the library takes them. */
static const void *
items_of(ArrayType *array, size_t *many)
{
	if (ARR_NDIM(array) > 1)
		ereport(ERROR, errcode(ERRCODE_ARRAY_SUBSCRIPT_ERROR), errmsg("the array must have one dimension"));
	if (array_contains_nulls(array))
		ereport(ERROR, errcode(ERRCODE_NULL_VALUE_NOT_ALLOWED), errmsg("the array must not have a NULL"));
	*many = ArrayGetNItems(ARR_NDIM(array), ARR_DIMS(array));
	return ARR_DATA_PTR(array);
}

/* The text of an array, for errors. A long one is cut. */
static char *
quoted_array(ArrayType *array)
{
	char	   *text = OidOutputFunctionCall(F_ARRAY_OUT, PointerGetDatum(array));

	return psprintf("'%.200s%s'", text, strlen(text) > 200 ? ".." : "");
}

/* The time grows with the square of the number of items, and the call cannot be cancelled. So there is a limit, which takes about a second. */
enum { MOST_FACTORS = 10000 };

CALL(ratio_product)
{
	ArrayType  *array = PG_GETARG_ARRAYTYPE_P(0);
	size_t		many;
	const Ratio *items = items_of(array, &many);
	int64	   *room;
	ratio_answer_i64 answer;

	if (many > MOST_FACTORS)
		ereport(ERROR, errcode(ERRCODE_PROGRAM_LIMIT_EXCEEDED), errmsg("ratio_product takes at most %d values", MOST_FACTORS));
	CHECK_FOR_INTERRUPTS();
	room = palloc(Max(many, 1) * 2 * sizeof(int64));
	ratio_quotient_of_i64(items, many, items, 0, room, 2 * many, &answer, 1);
	if (unlikely(answer.code != RATIO_ANSWERED))
		refuse(answer.code, psprintf("ratio_product(%s)", quoted_array(array)));
	pfree(room);
	return new_value(answer.value);
}

/* The array of whole numbers. */
static Datum
whole_numbers(const int64 *numbers, size_t many)
{
	Datum	   *items = palloc(Max(many, 1) * sizeof(Datum));

	for (size_t i = 0; i < many; i++)
		items[i] = Int64GetDatum(numbers[i]);
	return PointerGetDatum(construct_array(items, many, INT8OID, sizeof(int64), FLOAT8PASSBYVAL, TYPALIGN_DOUBLE));
}

/* The parts of an amount, by what is in the second argument. */
#define SPLIT(name, call, item) \
	CALL(name) \
	{ \
		int64		amount = PG_GETARG_INT64(0); \
		ArrayType  *array = PG_GETARG_ARRAYTYPE_P(1); \
		size_t		many; \
		const item *items = items_of(array, &many); \
		int64	   *parts = palloc(Max(many, 1) * sizeof(int64)); \
		uint32		code = call(amount, items, many, parts, many); \
\
		if (unlikely(code != RATIO_ANSWERED)) \
			refuse(code, psprintf(#name "(" INT64_FORMAT ", %s)", amount, quoted_array(array))); \
		return whole_numbers(parts, many); \
	}

SPLIT(ratio_split, ratio_split_i64, Ratio)
SPLIT(ratio_split_by_weights, ratio_split_by_weights_i64, int64)
