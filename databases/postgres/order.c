/* Order, equality and hashes: for operators, indexes, joins and partitions. Only a damaged value is refused here. The error names no
 * value, since these functions are leakproof. */
#include "glue.h"

#include "common/hashfn.h"
#include "utils/sortsupport.h"

static inline int
order_of(const Ratio *x, const Ratio *y)
{
	ratio_pair_i64 pair = {*x, *y};
	ratio_order order;

	ratio_compare_i64(&pair, 1, &order, 1);
	if (unlikely(order.code != RATIO_ANSWERED))
		refuse(RATIO_DENOMINATOR_NOT_POSITIVE, "a comparison");
	return order.order;
}

/* In lowest terms, two values are equal if their numbers are. */
static inline bool
are_equal(const Ratio *x, const Ratio *y)
{
	return x->numer == y->numer && x->denom == y->denom;
}

CALL(ratio_cmp) { PG_RETURN_INT32(order_of(ARG(0), ARG(1))); }
CALL(ratio_eq) { PG_RETURN_BOOL(are_equal(ARG(0), ARG(1))); }
CALL(ratio_ne) { PG_RETURN_BOOL(!are_equal(ARG(0), ARG(1))); }
CALL(ratio_lt) { PG_RETURN_BOOL(order_of(ARG(0), ARG(1)) < 0); }
CALL(ratio_le) { PG_RETURN_BOOL(order_of(ARG(0), ARG(1)) <= 0); }
CALL(ratio_gt) { PG_RETURN_BOOL(order_of(ARG(0), ARG(1)) > 0); }
CALL(ratio_ge) { PG_RETURN_BOOL(order_of(ARG(0), ARG(1)) >= 0); }
CALL(ratio_smaller) { PG_RETURN_DATUM(PG_GETARG_DATUM(order_of(ARG(0), ARG(1)) <= 0 ? 0 : 1)); }
CALL(ratio_larger) { PG_RETURN_DATUM(PG_GETARG_DATUM(order_of(ARG(0), ARG(1)) >= 0 ? 0 : 1)); }

CALL(ratio_sign)
{
	Ratio		sign = {0, 1};

	sign.numer = order_of(ARG(0), &sign);
	return new_value(sign);
}

static int
compare(Datum x, Datum y, SortSupport sort)
{
	return order_of((const Ratio *) DatumGetPointer(x), (const Ratio *) DatumGetPointer(y));
}

/* The order of keys never contradicts that of values. Values with one key are compared themselves. */
static Datum
short_key(Datum x, SortSupport sort)
{
	ratio_key	key;

	ratio_key_i64((const Ratio *) DatumGetPointer(x), 1, &key, 1);
	if (unlikely(key.code != RATIO_ANSWERED))
		refuse(RATIO_DENOMINATOR_NOT_POSITIVE, "a key");
	return Int64GetDatum(key.key);
}

static bool
give_up_keys(int count, SortSupport sort)
{
	return false;
}

CALL(ratio_sortsupport)
{
	SortSupport sort = (SortSupport) PG_GETARG_POINTER(0);

	sort->comparator = compare;
#if SIZEOF_DATUM >= 8
	if (sort->abbreviate)
	{
		sort->comparator = compare_keys;
		sort->abbrev_converter = short_key;
		sort->abbrev_abort = give_up_keys;
		sort->abbrev_full_comparator = compare;
	}
#endif
	PG_RETURN_VOID();
}

static inline uint64
hash_of(const Ratio *x)
{
	ratio_hash	hash;

	ratio_hash_lowest_i64(x, 1, &hash, 1);
	if (unlikely(hash.code != RATIO_ANSWERED))
		refuse(RATIO_DENOMINATOR_NOT_POSITIVE, "a hash");
	return hash.hash;
}

/* The lower half is the better one for tables. PostgreSQL asks that the extended hash with the seed 0 has the same lower half. */
CALL(ratio_hash_plain) { PG_RETURN_UINT32((uint32) hash_of(ARG(0))); }
CALL(ratio_hash_extended)
{
	uint64		seed = PG_GETARG_INT64(1),
				hash = hash_of(ARG(0));

	PG_RETURN_UINT64(seed == 0 ? hash : hash_combine64(hash, seed));
}
