/* The example of README.md, line for line, and a test of its results. */
#include "ratio.h"

#include <stdio.h>

/* Whether the call returned this fraction. */
static int is_fraction(ratio_answer_i64 answer, int64_t numer, int64_t denom) {
    return answer.code == RATIO_ANSWERED && answer.value.numer == numer && answer.value.denom == denom;
}

int main(void) {
    ratio_pair_i64 pairs[2] = {{{1, 2}, {1, 3}}, {{7, 2}, {0, 5}}};
    ratio_answer_i64 answers[2];
    if (ratio_div_i64(pairs, 2, answers, 2) != RATIO_DONE) return 1;   /* 3/2, and RATIO_DIVISION_BY_ZERO */

    if (is_fraction(answers[0], 3, 2) && answers[1].code == RATIO_DIVISION_BY_ZERO) return 0;
    printf("wrong: the example of README.md\n");
    return 1;
}
