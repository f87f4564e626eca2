/* The order of two texts where 64 bits are not enough. A collation cannot fail, so nothing here allocates: the digits stay where they lie in the texts.
 *
 * A number is (whole * denom + numer) / denom * 10^(tens + exponent). Two of them are multiplied by both denominators. A column is the sum of the
 * products of digits that count for one power of 10, and the columns are compared from the greatest power on, until the rest does not matter.
 *
 * No sum overflows, for texts of up to 2^31-1 bytes. The whole and the denominator of a mixed number lie in one text, so the shorter one has less
 * than 2^30 digits: `crossed` is below 81 * 2^30 + 10 < 10^11, and `carried` below 10^8 + 10^3. A column is below 9 * 2^31 times this, so below
 * 2 * 10^18. The columns behind another add up to less than a ninth of that, beside it: DECIDED is more. 10 * DECIDED + 2 * 10^18 is below 2^63.
 */
#include "operands.h"

#include <string.h>

/* How many columns are summed at once. The digits of whole * denom + numer are computed anew for each such block. */
enum { FIRST_COLUMNS = 32, MOST_COLUMNS = FIRST_COLUMNS << 5 };

static const int64_t NO_POINT = INT64_MAX, DECIDED = 300000000000000000;

/* Digits that end before `end`. The count leaves out leading zeros. So many places are behind a point, if there is one. */
typedef struct {
    const unsigned char *end;
    int64_t count;
    int64_t places;
} digits;

/* The parts of a text. `top` is the highest place of whole * denom + numer that is not 0. */
typedef struct {
    int sign;
    int is_exponent_negative;
    digits whole, numer, denom, exponent;
    int64_t tens;
    int64_t top;
} number;

/* The digit at a place, counted from the last one. */
static int64_t digit(const digits *all, int64_t place) {
    return place < all->count ? all->end[-1 - place - (place >= all->places)] - '0' : 0;
}

/* ---- reading a text that ratio_read_text_i64 has found to be a number */

/* The digits here, which may have a point. */
static digits digits_at(const unsigned char **at, const unsigned char *end) {
    digits found = {NULL, 0, NO_POINT};
    const unsigned char *point = NULL;
    for (; *at < end && (**at == '.' || (**at >= '0' && **at <= '9')); ++*at) {
        if (**at == '.') point = *at;
        else if (found.count > 0 || **at != '0') found.count++;
    }
    found.end = *at;
    if (point) found.places = *at - point - 1;
    return found;
}

/* Whether one of these two bytes is here, which is then passed. */
static int is_at(const unsigned char **at, const unsigned char *end, char byte, char other) {
    if (*at == end || (**at != byte && **at != other)) return 0;
    ++*at;
    return 1;
}

/* Whether a minus is here. A sign is passed. */
static int is_negative_at(const unsigned char **at, const unsigned char *end) {
    const int is_minus = is_at(at, end, '-', '-');
    if (!is_minus) is_at(at, end, '+', '+');
    return is_minus;
}

static number number_of(const unsigned char *at, const unsigned char *end) {
    static const unsigned char one[] = "1";
    number x = {0, 0, {end, 0, NO_POINT}, {end, 0, NO_POINT}, {one + 1, 1, NO_POINT}, {end, 0, NO_POINT}, 0, 0};
    int is_negative = is_negative_at(&at, end);
    x.numer = digits_at(&at, end);
    if (is_at(&at, end, ' ', ' ')) {
        x.whole = x.numer;
        x.numer = digits_at(&at, end);
    }
    if (is_at(&at, end, '/', '/')) {
        is_negative ^= is_negative_at(&at, end);
        x.denom = digits_at(&at, end);
    } else if (is_at(&at, end, 'e', 'E')) {
        x.is_exponent_negative = is_negative_at(&at, end);
        x.exponent = digits_at(&at, end);
    }
    if (x.numer.places != NO_POINT) x.tens -= x.numer.places;
    if (is_at(&at, end, '%', '%')) x.tens -= 2;
    if (x.whole.count + x.numer.count > 0) x.sign = is_negative ? -1 : 1;
    x.top = x.whole.count ? x.whole.count + x.denom.count - 2 : 0;
    if (x.top < x.numer.count - 1) x.top = x.numer.count - 1;
    return x;
}

/* ---- comparing */

/* By how many places the last digit of x lies above that of y. Exponents that differ by more than 10^15 differ by this much here: no later digit of
 * theirs changes which one is greater, and no text is as long.
 */
static int64_t places_above(const number *x, const number *y) {
    const int64_t most = 1000000000000000;
    int64_t place = x->exponent.count > y->exponent.count ? x->exponent.count : y->exponent.count, difference = 0;
    while (place-- > 0) {
        const int64_t left = digit(&x->exponent, place), right = digit(&y->exponent, place);
        difference = 10 * difference + (x->is_exponent_negative ? -left : left) - (y->is_exponent_negative ? -right : right);
        if (difference > most) difference = most;
        if (difference < -most) difference = -most;
    }
    return difference + x->tens - y->tens;
}

/* The sum of whole * denom + numer at a place. */
static int64_t crossed(const number *x, int64_t place) {
    int64_t sum = digit(&x->numer, place), i = place < x->denom.count ? 0 : place - x->denom.count + 1;
    for (; i <= place && i < x->whole.count; i++) sum += digit(&x->whole, i) * digit(&x->denom, place - i);
    return sum;
}

/* The same, but from 1000 on it is carried three places up. Near the top no sum is as great. */
static int64_t carried(const number *x, int64_t place) {
    if (x->whole.count == 0) return digit(&x->numer, place);
    return crossed(x, place) % 1000 + (place < 3 ? 0 : crossed(x, place - 3) / 1000);
}

/* Adds so many columns of (whole * denom + numer) * by, from a place on, or takes them away. Nothing is below place 0. */
static void add_columns(int64_t *columns, int64_t count, int64_t place, const number *x, const digits *by, int sign) {
    int64_t i, from = place < by->count ? 0 : place - by->count + 1;
    for (; from <= x->top && from < place + count; from++) {
        const int64_t factor = sign * carried(x, from);
        for (i = from < place ? 0 : from - place; i < count && place + i - from < by->count; i++) columns[i] += factor * (by->end[from - place - i - 1] - '0');
    }
}

/* -1, 0 or 1: the order of two numbers. */
static int order_of_numbers(number x, number y) {
    int64_t columns[MOST_COLUMNS], count = FIRST_COLUMNS, difference = 0, above, place, i;
    if (x.sign != y.sign) return x.sign < y.sign ? -1 : 1;
    if (x.sign == 0) return 0;
    above = places_above(&x, &y);
    place = x.top + y.denom.count + above > y.top + x.denom.count ? x.top + y.denom.count + above : y.top + x.denom.count;
    while ((place > 0 || place > above) && difference <= DECIDED && difference >= -DECIDED) {
        place -= count;
        memset(columns, 0, (size_t) count * sizeof *columns);
        add_columns(columns, count, place - above, &x, &y.denom, 1);
        add_columns(columns, count, place, &y, &x.denom, -1);
        for (i = count; i-- > 0 && difference <= DECIDED && difference >= -DECIDED;) difference = 10 * difference + columns[i];
        if (count < MOST_COLUMNS) count *= 2;
    }
    return difference == 0 ? 0 : (difference < 0) == (x.sign < 0) ? 1 : -1;
}

int ratio_order_of_texts(int is_left_number, const void *left, int left_length, int is_right_number, const void *right, int right_length) {
    int bytes;
    if (is_left_number != is_right_number) return is_left_number ? -1 : 1;
    bytes = memcmp(left_length ? left : "", right_length ? right : "", (size_t) (left_length < right_length ? left_length : right_length));
    if (bytes == 0) bytes = left_length - right_length;
    if (bytes == 0 || !is_left_number) return bytes;
    return order_of_numbers(number_of(left, (const unsigned char *) left + left_length), number_of(right, (const unsigned char *) right + right_length));
}
