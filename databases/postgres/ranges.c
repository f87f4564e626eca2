/* Sums and differences beside a third value: for windows by RANGE, for ranges and for series. They are exact in 128 bits, where each fits. */
#include "glue.h"

#include "funcapi.h"

/* The sum of two values, or their difference. Only a damaged value is refused. */
static ratio_i128
moved(const Ratio *base, const Ratio *offset, bool is_less)
{
	ratio_pair_i128 pair = {widened(base), widened(offset)};
	ratio_answer_i128 answer;

	(is_less ? ratio_sub_i128 : ratio_add_i128) (&pair, 1, &answer, 1);
	if (unlikely(answer.code != RATIO_ANSWERED))
		refuse(answer.code, psprintf("%s %c %s", quoted(*base), is_less ? '-' : '+', quoted(*offset)));
	return answer.value;
}

/* How a value compares to such a sum. */
static int
order_beside(const Ratio *x, ratio_i128 bound)
{
	ratio_pair_i128 pair = {widened(x), bound};
	ratio_order order;

	ratio_compare_i128(&pair, 1, &order, 1);
	if (unlikely(order.code != RATIO_ANSWERED))
		refuse(RATIO_DENOMINATOR_NOT_POSITIVE, "a comparison");
	return order.order;
}

/* For RANGE .. PRECEDING and FOLLOWING: whether a value is at most, or at least, the base with the offset added or taken off. */
CALL(ratio_in_range)
{
	bool		is_less = PG_GETARG_BOOL(3),
				at_most = PG_GETARG_BOOL(4);
	int			order;

	if (ARG(2)->numer < 0)
		ereport(ERROR, errcode(ERRCODE_INVALID_PRECEDING_OR_FOLLOWING_SIZE), errmsg("invalid preceding or following size in window function"),
				errdetail("The size is %s.", quoted(*ARG(2))));
	order = order_beside(ARG(0), moved(ARG(1), ARG(2), is_less));
	PG_RETURN_BOOL(at_most ? order <= 0 : order >= 0);
}

/* The difference as the nearest float, for the indexes of ranges. */
CALL(ratio_distance)
{
	ratio_i128	difference = moved(ARG(0), ARG(1), true);
	ratio_float answer;

	ratio_to_f64_i128(&difference, 1, &answer, 1);
	PG_RETURN_FLOAT8(answer.value);
}

/* Where a series is. */
typedef struct { Ratio next, stop, step; bool is_over; } Series;

/* Whether a value, which may have 128 bits, lies past the end. */
static bool
is_past(const Series *series, ratio_i128 value)
{
	int			order = order_beside(&series->stop, value);

	return series->step.numer > 0 ? order < 0 : order > 0;
}

static Series *
new_series(FunctionCallInfo fcinfo)
{
	Series	   *series = palloc(sizeof(Series));

	*series = (Series) {*ARG(0), *ARG(1), *ARG(2)};
	if (series->step.numer == 0)
		ereport(ERROR, errcode(ERRCODE_INVALID_PARAMETER_VALUE), errmsg("the step of a series must not be 0"));
	series->is_over = is_past(series, widened(&series->next));
	return series;
}

/* Goes one step on. A value past the end need not fit. */
static void
go_on(Series *series)
{
	ratio_pair_i64 pair = {series->next, series->step};
	ratio_answer_i64 answer;

	series->is_over = is_past(series, moved(&series->next, &series->step, false));
	if (series->is_over)
		return;
	ratio_add_i64(&pair, 1, &answer, 1);
	if (unlikely(answer.code != RATIO_ANSWERED))
		refuse(answer.code, psprintf("%s + %s in a series", quoted(pair.left), quoted(pair.right)));
	series->next = answer.value;
}

CALL(ratio_series)
{
	FuncCallContext *call;
	Series	   *series;

	if (SRF_IS_FIRSTCALL())
	{
		MemoryContext before;

		call = SRF_FIRSTCALL_INIT();
		before = MemoryContextSwitchTo(call->multi_call_memory_ctx);
		call->user_fctx = new_series(fcinfo);
		MemoryContextSwitchTo(before);
	}
	call = SRF_PERCALL_SETUP();
	series = call->user_fctx;
	if (call->call_cntr > 0)
		go_on(series);
	if (series->is_over)
		SRF_RETURN_DONE(call);
	SRF_RETURN_NEXT(call, new_value(series->next));
}
