/* The order of two totals: the sign of their difference. It is exact for any numerators, and no count matters. */
#include "totals.h"

#include "miscadmin.h"

/* The bounds have so many digits of 64 bits behind the point. Then a common denominator is looked for. */
enum { QUICK = 2 };

/* Takes a slot out of one that has its denominator or is empty. False if the difference does not fit: then nothing changes. */
static bool
take(ratio_slot_i64 *from, const ratio_slot_i64 *slot)
{
	ratio_total_i64 total = {0};

	ratio_total_unmerge_i64(slot, 1, 0, &total, 1, from, 1);
	return total.code == RATIO_ANSWERED;
}

/* Writes the negative of a slot, in two halves if it is that of -2^127, and returns how many slots it took. */
static size_t
put_negative(ratio_slot_i64 *to, const ratio_slot_i64 *slot)
{
	to[0] = (ratio_slot_i64) {0};
	if (take(to, slot))
		return 1;
	to[0] = to[1] = (ratio_slot_i64) {slot->denom, {0, INT64CONST(1) << 62}};
	return 2;
}

/* Writes the difference of two slots over one denominator, and returns how many slots it took: none for 0, and more than one if it does not fit. */
static size_t
put_difference(ratio_slot_i64 *to, const ratio_slot_i64 *left, const ratio_slot_i64 *right)
{
	to[0] = *left;
	if (take(to, right))
		return to[0].numer.low != 0 || to[0].numer.high != 0;
	return 1 + put_negative(to + 1, right);
}

/* Writes the difference of two totals, whose denominators grow, and returns how many slots it took: at most those of the left one and two for
 * each of the right one. A denominator may be in three of them. */
static size_t
put_differences(ratio_slot_i64 *to, const ratio_slot_i64 *left, size_t left_many, const ratio_slot_i64 *right, size_t right_many)
{
	const ratio_slot_i64 *left_end = left + left_many,
			   *right_end = right + right_many;
	ratio_slot_i64 *next = to;

	while (left < left_end || right < right_end)
	{
		CHECK_FOR_INTERRUPTS();
		if (right == right_end || (left < left_end && left->denom < right->denom))
			*next++ = *left++;
		else if (left == left_end || right->denom < left->denom)
			next += put_negative(next, right++);
		else
			next += put_difference(next, left++, right++);
	}
	return next - to;
}

/* A sum by long division with digits of 64 bits: 2^64 times `whole`, and the slots, each of which is between -2^64 and 2^64 after the first
 * digit. Each next digit makes the sum 2^64 times as great. */
typedef struct
{
	ratio_slot_i64 *slots;
	size_t		many;
	ratio_slot_i64 whole;
} Sum;

/* Divides a numerator, adds the quotient to the whole number, and returns the rest, which is nearer to 0 than the denominator. */
static int64
divide_slot(ratio_wide numer, uint64 denom, ratio_slot_i64 *whole)
{
	ratio_i128	fraction = {numer, {denom, 0}};
	ratio_answer_i128 answer;
	ratio_slot_i64 quotient = {1};
	ratio_total_i64 total = {0};
	int64		low = numer.low;

	if (numer.high == wide(low).high && low < (int64) denom && low > -(int64) denom)
		return low;
	ratio_trunc_i128(&fraction, 1, &answer, 1);
	quotient.numer = answer.value.numer;
	ratio_total_merge_i64(&quotient, 1, 0, &total, 1, whole, 1);
	if (answer.code != RATIO_ANSWERED || total.code != RATIO_ANSWERED)
		refuse(RATIO_NO_TOTAL, "a comparison");
	return numer.low - quotient.numer.low * denom;
}

/* One more digit: first the upper halves of the numerators are divided, then the rests with the lower halves, and then with digits 0. Slots that
 * become 0 are left out. Before a further digit, the whole number is less than the number of slots, so that 2^64 times it fits. */
static void
divide(Sum *sum, bool is_first)
{
	size_t		kept = 0;

	sum->whole.numer = (ratio_wide) {0, sum->whole.numer.low};
	for (size_t i = 0; i < sum->many; i++)
	{
		ratio_slot_i64 *slot = &sum->slots[i];
		uint64		next = is_first ? slot->numer.low : 0;
		int64		rest = divide_slot(is_first ? wide(slot->numer.high) : slot->numer, slot->denom, &sum->whole);

		CHECK_FOR_INTERRUPTS();
		if (rest != 0 || next != 0)
			sum->slots[kept++] = (ratio_slot_i64) {slot->denom, {next, rest}};
	}
	sum->many = kept;
}

/* Whether the whole number has the sign of the sum: 2^64 times it is further from 0 than all slots together, or there are none. */
static bool
is_decided(const Sum *sum)
{
	ratio_wide	whole = sum->whole.numer;
	int64		low = whole.low;

	return whole.high != wide(low).high || low >= (int64) sum->many || low <= -(int64) sum->many;
}

static bool
is_decided_in(Sum *sum, size_t digits)
{
	for (size_t i = 0; i < digits && !is_decided(sum); i++)
		divide(sum, false);
	return is_decided(sum);
}

/* The sign of a number. */
static int
sign_of_whole(ratio_wide n)
{
	return n.high < 0 ? -1 : n.high > 0 || n.low > 0;
}

/* The sign of a sum of many slots, with room for one more. First come bounds of the sum, since they are quick, then the common denominator.
 * If it is too long, the sum has its sign as soon as more digits say so. No sum but 0 is nearer to 0 than 1 by the product of the denominators,
 * each of which is below 2^63: so many digits always say it. */
static int
sign_of_long(ratio_slot_i64 *slots, size_t many)
{
	Sum			sum = {slots, many, {1, {0, 0}}};
	int			sign;

	divide(&sum, true);
	if (!is_decided_in(&sum, 1 + QUICK))
	{
		slots[sum.many] = (ratio_slot_i64) {1, {0, sum.whole.numer.low}};
		if (sign_of(slots, sum.many + 1, &sign))
			return sign;
		if (!is_decided_in(&sum, sum.many + 2))
			return 0;
	}
	return sign_of_whole(sum.whole.numer);
}

int
order_of_totals(const ratio_slot_i64 *left, size_t left_many, const ratio_slot_i64 *right, size_t right_many)
{
	ratio_slot_i64 *slots = MemoryContextAllocHuge(CurrentMemoryContext, (left_many + 2 * right_many + 1) * sizeof(*slots));
	size_t		many = put_differences(slots, left, left_many, right, right_many);
	int			order = 0;

	if (many > LONG_TOTAL)
		order = sign_of_long(slots, many);
	else
		sign_of(slots, many, &order);
	pfree(slots);
	return order;
}
