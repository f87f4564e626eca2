/* Prints a page of sums: two fractions, how they compare, and what the calls return. */
#include "shared.h"

enum { PAIRS = 5, CALLS = 5 };

typedef uint32_t call(const ratio_pair_i64 *, size_t, ratio_answer_i64 *, size_t);

static const struct { char sign; call *of; } calls[CALLS] = {
    {'+', ratio_add_i64}, {'-', ratio_sub_i64}, {'*', ratio_mul_i64}, {'/', ratio_div_i64}, {'%', ratio_rem_i64},
};

static const ratio_pair_i64 pairs[PAIRS] = {
    {.left = {.numer = 1, .denom = 2}, .right = {.numer = 1, .denom = 3}},
    {.left = {.numer = -3, .denom = 4}, .right = {.numer = 6, .denom = 8}},
    {.left = {.numer = 7, .denom = 2}, .right = {.numer = 0, .denom = 5}},
    {.left = {.numer = INT64_MAX, .denom = 1}, .right = {.numer = 1, .denom = 2}},
    {.left = {.numer = 1, .denom = -2}, .right = {.numer = 1, .denom = 2}},
};

int main(void) {
    ratio_order orders[PAIRS];
    ratio_answer_i64 answers[PAIRS];
    done(ratio_compare_i64(pairs, PAIRS, orders, PAIRS));
    for (int i = 0; i < PAIRS; i++) {
        print(pairs[i].left);
        printf(" %c ", orders[i].order < 0 ? '<' : orders[i].order == 0 ? '=' : '>');
        print(pairs[i].right);
        printf("\n");
    }
    for (int c = 0; c < CALLS; c++) {
        done(calls[c].of(pairs, PAIRS, answers, PAIRS));
        for (int i = 0; i < PAIRS; i++) {
            print(pairs[i].left);
            printf(" %c ", calls[c].sign);
            print(pairs[i].right);
            printf(" = ");
            print_answer(answers[i]);
            printf("\n");
        }
    }
    return ratio_add_i64(pairs, PAIRS, answers, 1) == RATIO_BAD_LENGTH ? 0 : 1;
}

/* It prints:
1/2 > 1/3
-3/4 < 6/8
7/2 > 0/5
9223372036854775807 > 1/2
1/-2 < 1/2
1/2 + 1/3 = 5/6
-3/4 + 6/8 = 0
7/2 + 0/5 = 7/2
9223372036854775807 + 1/2 = out of range
1/-2 + 1/2 = denominator not positive
1/2 - 1/3 = 1/6
-3/4 - 6/8 = -3/2
7/2 - 0/5 = 7/2
9223372036854775807 - 1/2 = out of range
1/-2 - 1/2 = denominator not positive
1/2 * 1/3 = 1/6
-3/4 * 6/8 = -9/16
7/2 * 0/5 = 0
9223372036854775807 * 1/2 = 9223372036854775807/2
1/-2 * 1/2 = denominator not positive
1/2 / 1/3 = 3/2
-3/4 / 6/8 = -1
7/2 / 0/5 = division by zero
9223372036854775807 / 1/2 = out of range
1/-2 / 1/2 = denominator not positive
1/2 % 1/3 = 1/6
-3/4 % 6/8 = 0
7/2 % 0/5 = division by zero
9223372036854775807 % 1/2 = 0
1/-2 % 1/2 = denominator not positive
*/
