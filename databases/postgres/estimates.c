/* The share of rows that a bound such as r < '1/2' leaves, for the planner. PostgreSQL's own estimators cannot turn a ratio into a number, so
 * they take each constant for the middle of its bucket of the histogram. And PostgreSQL pairs the two bounds of a range only if both have its
 * own estimators. So this file does both. */
#include "glue.h"

#include <math.h>

#include "access/htup_details.h"
#include "catalog/pg_statistic.h"
#include "nodes/nodeFuncs.h"
#include "optimizer/clauses.h"
#include "optimizer/paths.h"
#include "utils/lsyscache.h"
#include "utils/selfuncs.h"

extern Datum ratio_lt(PG_FUNCTION_ARGS);
extern Datum ratio_le(PG_FUNCTION_ARGS);
extern Datum ratio_gt(PG_FUNCTION_ARGS);
extern Datum ratio_ge(PG_FUNCTION_ARGS);

/* A clause that bounds a variable, as r < '1/2' does. */
typedef struct
{
	VariableStatData variable;
	Node	   *side;			/* the variable, as it is in the clause */
	Node	   *limit;			/* what it is compared with */
	Oid			operator;		/* as with the variable on the left */
	FmgrInfo	compare;		/* its function */
	bool		is_upper;		/* < or <= */
	bool		is_closed;		/* <= or >= */
} Bound;

/* Reads an operator, if its function is one of those of <, <=, > and >=. Operators of other types may name this estimator, too. An operator without
 * a commutator gives 0 here, and one that is only named gives one without a function. */
static bool
read_operator(Oid operator, Bound *bound)
{
	Oid			compare = get_opcode(operator);
	PGFunction	function;

	if (!OidIsValid(compare))
		return false;
	bound->operator = operator;
	fmgr_info(compare, &bound->compare);
	function = bound->compare.fn_addr;
	bound->is_upper = function == ratio_lt || function == ratio_le;
	bound->is_closed = function == ratio_le || function == ratio_ge;
	return bound->is_upper || bound->is_closed || function == ratio_gt;
}

/* The bound that a clause is, if it is one: of a variable, by what no row changes. Its statistics must be released. */
static bool
read_bound(PlannerInfo *root, Oid operator, List *args, int varRelid, Bound *bound)
{
	bool		on_left;

	if (!get_restriction_variable(root, args, varRelid, &bound->variable, &bound->limit, &on_left))
		return false;
	bound->side = on_left ? linitial(args) : lsecond(args);
	if (is_pseudo_constant_clause(bound->limit) && read_operator(on_left ? operator : get_commutator(operator), bound))
		return true;
	ReleaseVariableStats(bound->variable);
	return false;
}

/* The values of the histogram next to a constant, first the one below. PostgreSQL compares them with it last, while it searches. An end may come
 * from an index. Then it does not lie beside the other one in memory. */
typedef struct
{
	const Bound *bound;
	const Ratio *place[2];
	Ratio		value[2];
	bool		are_stored;		/* neither came from an index */
} Search;

static Datum
watched(PG_FUNCTION_ARGS)
{
	Search	   *search = fcinfo->flinfo->fn_extra;
	bool		answer = DatumGetBool(search->bound->compare.fn_addr(fcinfo)),
				is_above = answer != search->bound->is_upper;

	search->place[is_above] = ARG(0);
	search->value[is_above] = *ARG(0);
	search->are_stored = search->place[0] != NULL && search->place[1] == search->place[0] + 1;
	return BoolGetDatum(answer);
}

static double
float_near(const Ratio *x)
{
	ratio_float answer;

	ratio_to_f64_i64(x, 1, &answer, 1);
	return answer.code == RATIO_ANSWERED ? answer.value : NAN;
}

/* Where a value lies in its bucket, from 0 to 1. */
static double
place_in(const Search *search, const Ratio *value)
{
	double		low = float_near(&search->value[0]),
				place = (float_near(value) - low) / (float_near(&search->value[1]) - low);

	return isnan(place) ? 0.5 : Min(Max(place, 0), 1);
}

/* The share of one of the values that are not most common ones. */
static double
share_of_one(VariableStatData *variable)
{
	bool		is_default;
	double		distinct = get_variable_numdistinct(variable, &is_default);
	AttStatsSlot common;

	if (get_attstatsslot(&common, variable->statsTuple, STATISTIC_KIND_MCV, InvalidOid, ATTSTATSSLOT_NUMBERS))
	{
		distinct -= common.nnumbers;
		free_attstatsslot(&common);
	}
	return distinct > 1 ? 1 / distinct : 0;
}

/* How much of the histogram lies between the start of a bucket and its end. In the first bucket, PostgreSQL counts the rows that have the least
 * value already at the start. */
static double
height_of(Bound *bound, const Search *search, AttStatsSlot *histogram)
{
	double		height = 1.0 / (histogram->nvalues - 1);
	ratio_pair_i64 pair = {search->value[0], *(const Ratio *) DatumGetPointer(histogram->values[1])};
	ratio_order order;

	ratio_compare_i64(&pair, 1, &order, 1);
	return order.order < 0 ? height - share_of_one(&bound->variable) : height;
}

/* Moves a share of the histogram from the middle of a bucket, where PostgreSQL took it, to the place of the constant. As PostgreSQL's own, the
 * result keeps off 0 and 1 by a hundredth of a bucket, unless an end came from an index. */
static double
moved(double share, Bound *bound, const Search *search, const Ratio *value)
{
	AttStatsSlot histogram;
	double		move,
				margin;

	if (!get_attstatsslot(&histogram, bound->variable.statsTuple, STATISTIC_KIND_HISTOGRAM, InvalidOid, ATTSTATSSLOT_VALUES))
		return share;
	move = (place_in(search, value) - 0.5) * height_of(bound, search, &histogram);
	margin = search->are_stored ? 0.01 / (histogram.nvalues - 1) : 0;
	free_attstatsslot(&histogram);
	return Min(Max(bound->is_upper ? share + move : share - move, margin), 1 - margin);
}

/* The share of the histogram that a bound leaves. It is below 0 if there is no histogram. */
static double
share_of_histogram(PlannerInfo *root, Bound *bound, const Const *limit, Oid collation)
{
	Search		search = {.bound = bound};
	FmgrInfo	compare = bound->compare;
	double		share;

	compare.fn_addr = watched;
	compare.fn_extra = &search;
	share = ineq_histogram_selectivity(root, &bound->variable, bound->operator, &compare, !bound->is_upper, bound->is_closed, collation,
									   limit->constvalue, limit->consttype);
	if (share < 0 || search.place[0] == NULL || search.place[1] == NULL)
		return share;
	return moved(share, bound, &search, (const Ratio *) DatumGetPointer(limit->constvalue));
}

/* The share of all rows that a bound leaves by itself. */
static double
share_of_rows(PlannerInfo *root, Bound *bound, Oid collation)
{
	const Const *limit = (const Const *) bound->limit;
	HeapTuple	statistics = bound->variable.statsTuple;
	double		common,
				share,
				others;

	if (!IsA(limit, Const))
		return DEFAULT_INEQ_SEL;
	if (limit->constisnull)
		return 0;
	if (!HeapTupleIsValid(statistics))
		return DEFAULT_INEQ_SEL;
	share = mcv_selectivity(&bound->variable, &bound->compare, collation, limit->constvalue, true, &common);
	others = share_of_histogram(root, bound, limit, collation);
	if (others < 0)
		others = 0.5;
	share += others * (1 - ((Form_pg_statistic) GETSTRUCT(statistics))->stanullfrac - common);
	CLAMP_PROBABILITY(share);
	return share;
}

static Node *
clause_in(ListCell *cell)
{
	Node	   *clause = lfirst(cell);

	return IsA(clause, RestrictInfo) ? (Node *) ((RestrictInfo *) clause)->clause : clause;
}

static bool
has_args(Node *clause, const List *args)
{
	return is_opclause(clause) && ((OpExpr *) clause)->args == args;
}

/* The clauses of which all must hold, among them the one with these arguments. Of those in an OR or a NOT, each is alone. */
static List *
clauses_beside(List *clauses, bool all_hold, const List *args)
{
	ListCell   *cell;
	List	   *found = NIL;

	foreach(cell, clauses)
	{
		Node	   *clause = clause_in(cell);

		if (has_args(clause, args))
			return all_hold ? clauses : list_make1(clause);
		if (IsA(clause, BooleanTest))
			clause = (Node *) ((BooleanTest *) clause)->arg;
		if (IsA(clause, BoolExpr))
			found = clauses_beside(((BoolExpr *) clause)->args, is_andclause(clause), args);
		if (found != NIL)
			break;
	}
	return found;
}

/* Whether PostgreSQL applies two clauses of joins in the same one. */
static bool
are_of_one_join(const RestrictInfo *one, const RestrictInfo *other)
{
	return one->is_pushed_down == other->is_pushed_down && bms_equal(one->required_relids, other->required_relids)
		&& bms_equal(one->outer_relids, other->outer_relids) && bms_equal(one->nullable_relids, other->nullable_relids);
}

/* The same among the clauses of joins, and of one join only. */
static List *
clauses_of_join(List *clauses, const List *args)
{
	List	   *found = clauses_beside(clauses, true, args),
			   *same = NIL;
	const RestrictInfo *own = NULL;
	ListCell   *cell;

	if (found != clauses)
		return found;
	foreach(cell, clauses)
		if (has_args(clause_in(cell), args))
			own = lfirst(cell);
	foreach(cell, clauses)
		if (are_of_one_join(own, lfirst(cell)))
			same = lappend(same, lfirst(cell));
	if (list_length(same) < list_length(clauses))
		return same;
	list_free(same);
	return clauses;
}

/* The clauses of which PostgreSQL multiplies the shares, among them the one with these arguments. In LEFT JOIN .. ON, a bound of the left side
 * belongs to the join. With the predicate of an index goes what the query says of the columns of the index. */
static List *
clauses_with(PlannerInfo *root, const Bound *bound, const List *args)
{
	RelOptInfo *rel = bound->variable.rel;
	List	   *found = clauses_beside(rel->baserestrictinfo, true, args);

	if (found == NIL)
		found = clauses_of_join(rel->joininfo, args);
	if (found == NIL)
		found = clauses_beside((List *) root->parse->havingQual, true, args);
	for (int i = 0; i < list_length(rel->indexlist) && found == NIL; i++)
	{
		IndexOptInfo *index = list_nth(rel->indexlist, i);

		found = clauses_beside(index->indpred, true, args);
		for (int column = 0; column < index->nkeycolumns && found != NIL; column++)
			if (match_index_to_operand(bound->side, column, index))
				return list_concat_copy(index->indrestrictinfo, found);
	}
	return found;
}

/* Reads a clause, if it bounds the variable of another one. Its statistics must be released. */
static bool
read_beside(PlannerInfo *root, Node *clause, int varRelid, const Bound *other, Bound *bound)
{
	const OpExpr *comparison = (const OpExpr *) clause;

	return is_opclause(clause) && (equal(linitial(comparison->args), other->side) || equal(llast(comparison->args), other->side))
		&& get_oprrest(comparison->opno) == get_oprrest(other->operator)
		&& read_bound(root, comparison->opno, comparison->args, varRelid, bound);
}

/* Whether a clause after the one with these arguments bounds the variable on the same side. */
static bool
is_followed(PlannerInfo *root, List *clauses, const List *args, int varRelid, const Bound *own)
{
	ListCell   *cell;
	Bound		bound;
	bool		is_after = false;

	foreach(cell, clauses)
	{
		Node	   *clause = clause_in(cell);

		if (is_after && read_beside(root, clause, varRelid, own, &bound))
		{
			ReleaseVariableStats(bound.variable);
			if (bound.is_upper == own->is_upper)
				return true;
		}
		is_after |= has_args(clause, args);
	}
	return false;
}

/* The share of all rows that the tightest bound of one side leaves, or NO_BOUND. */
#define NO_BOUND 2

static double
least_share(PlannerInfo *root, List *clauses, int varRelid, const Bound *own, bool is_upper, Oid collation)
{
	ListCell   *cell;
	Bound		bound;
	double		least = NO_BOUND;

	foreach(cell, clauses)
	{
		if (!read_beside(root, clause_in(cell), varRelid, own, &bound))
			continue;
		if (bound.is_upper == is_upper)
			least = Min(least, share_of_rows(root, &bound, collation));
		ReleaseVariableStats(bound.variable);
	}
	return least;
}

/* The share of all rows within both bounds of a variable. */
static double
share_within(double above_lower, double below_upper, const VariableStatData *variable)
{
	double		nulls;

	if (above_lower == DEFAULT_INEQ_SEL || below_upper == DEFAULT_INEQ_SEL || !HeapTupleIsValid(variable->statsTuple))
		return DEFAULT_RANGE_INEQ_SEL;
	nulls = ((Form_pg_statistic) GETSTRUCT(variable->statsTuple))->stanullfrac;
	return Max(above_lower + below_upper - 1 + nulls, 1.0e-10);
}

/* PostgreSQL multiplies the shares of clauses of which all must hold. So the last upper bound has the share of the tightest one, the last lower
 * bound has the part of these rows that both sides leave, and the others have 1. */
static double
share_beside_others(PlannerInfo *root, const List *args, int varRelid, Bound *bound, Oid collation)
{
	List	   *clauses = clauses_with(root, bound, args);
	double		below_upper,
				above_lower;

	if (clauses == NIL)
		return share_of_rows(root, bound, collation);
	if (is_followed(root, clauses, args, varRelid, bound))
		return 1;
	below_upper = least_share(root, clauses, varRelid, bound, true, collation);
	if (bound->is_upper)
		return below_upper;
	above_lower = least_share(root, clauses, varRelid, bound, false, collation);
	if (below_upper == NO_BOUND)
		return above_lower;
	return below_upper > 0 ? Min(share_within(above_lower, below_upper, &bound->variable) / below_upper, 1) : 1;
}

CALL(ratio_bound_sel)
{
	PlannerInfo *root = (PlannerInfo *) PG_GETARG_POINTER(0);
	Oid			operator = PG_GETARG_OID(1);
	List	   *args = (List *) PG_GETARG_POINTER(2);
	int			varRelid = PG_GETARG_INT32(3);
	Bound		bound;
	double		share;

	if (!read_bound(root, operator, args, varRelid, &bound))
		PG_RETURN_FLOAT8(DEFAULT_INEQ_SEL);
	share = share_beside_others(root, args, varRelid, &bound, PG_GET_COLLATION());
	ReleaseVariableStats(bound.variable);
	PG_RETURN_FLOAT8(share);
}
