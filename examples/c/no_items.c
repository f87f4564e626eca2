/* Calls each function of the header with null pointers in place of arrays without items. It ends with status 1 if an answer is wrong. */
#include "ratio.h"
#include "calls.h"

#include <stdio.h>
#include <string.h>

static int wrong;

static void expect(int holds, const char *what) {
    if (!holds) {
        printf("wrong: %s\n", what);
        wrong = 1;
    }
}

/* A call on no items that writes no answers. */
#define NO_ITEMS(name, item, count, number, answer) expect(ratio_##name(NULL, 0, NULL, 0) == RATIO_DONE, #name);
#define NO_TEXTS(name, item, count, number, answer) expect(ratio_##name(NULL, 0, NULL, 0, NULL, 0) == RATIO_DONE, #name);
#define NO_PAIRS(name) expect(ratio_##name(NULL, 0, 0, NULL, 0, 0, NULL, 0) == RATIO_DONE, #name);

/* The calls that have an answer for each item. */
static void each_item(void) {
    static const uint8_t before[sizeof(ratio_answer_i64)] = {7};
    ratio_answer_i64 answer;
    CALLS_I32(NO_ITEMS) CALLS_I64(NO_ITEMS) CALLS_I128(NO_ITEMS)
    READS_I32(NO_TEXTS) READS_I64(NO_TEXTS) READS_I128(NO_TEXTS)
    PRINTS_I32(NO_TEXTS) PRINTS_I64(NO_TEXTS) PRINTS_I128(NO_TEXTS)
    NO_PAIRS(add_strided_i64) NO_PAIRS(sub_strided_i64) NO_PAIRS(mul_strided_i64) NO_PAIRS(div_strided_i64) NO_PAIRS(compare_strided_i64)
    memcpy(&answer, before, sizeof answer);
    expect(ratio_add_i64(NULL, 0, &answer, 1) == RATIO_BAD_LENGTH && memcmp(&answer, before, sizeof answer) == 0, "no items and one answer");
}

/* The calls with one answer for a whole list. */
static void lists(void) {
    ratio_answer_i64 answer;
    expect(ratio_split_i64(100, NULL, 0, NULL, 0) == RATIO_NOT_ONE && ratio_split_by_weights_i64(100, NULL, 0, NULL, 0) == RATIO_ALL_ZERO, "no parts");
    expect(ratio_quotient_of_i64(NULL, 0, NULL, 0, NULL, 0, &answer, 1) == RATIO_DONE, "a product of none");
    expect(answer.code == RATIO_ANSWERED && answer.value.numer == 1 && answer.value.denom == 1, "a product of none");
}

/* The call returns RATIO_DONE, and the code of its answer is this one. */
#define SAYS(call, answer, wanted) expect(ratio_##call == RATIO_DONE && (answer).code == RATIO_##wanted, #call)

/* No fractions go into a total without slots, and one has no place there. */
static void changes_of_totals(void) {
    static const ratio_i64 third = {1, 3};
    ratio_total_i64 total = {9, 9, 5};
    SAYS(total_add_i64(NULL, 0, &total, 1, NULL, 0), total, ANSWERED);
    expect(total.done == 0 && total.count == 5, "nothing went in");
    SAYS(total_subtract_i64(NULL, 0, &total, 1, NULL, 0), total, ANSWERED);
    SAYS(total_merge_i64(NULL, 0, 2, &total, 1, NULL, 0), total, ANSWERED);
    expect(total.done == 0 && total.count == 7, "only the count went in");
    SAYS(total_unmerge_i64(NULL, 0, 3, &total, 1, NULL, 0), total, ANSWERED);
    expect(total.done == 0 && total.count == 4, "only the count went out");
    SAYS(total_add_i64(&third, 1, &total, 1, NULL, 0), total, MORE_ROOM);
    expect(total.done == 0 && total.count == 4, "one fraction and no slot");
    expect(ratio_total_add_i64(NULL, 0, NULL, 0, NULL, 0) == RATIO_BAD_LENGTH, "no header");
}

/* The reads of a total without slots need room, as others do. Its sum is 0. */
static void reads_of_totals(void) {
    enum { DIGITS = 99, BYTES = 299 };
    uint64_t room[DIGITS];
    uint8_t texts[BYTES];
    ratio_answer_i64 answer;
    ratio_order order;
    ratio_float nearest;
    ratio_text text;
    expect(ratio_total_free_i64(NULL, 0) == 0 && ratio_total_leave_zeros_i64(NULL, 0) == 0, "no slots");
    expect(ratio_total_next_length_i64(0, 0, 0, 8) == 8 && ratio_total_next_length_i64(0, 0, 0, 0) == 0, "the first slots");
    expect(ratio_total_digits_i64(NULL, 0) <= DIGITS && ratio_total_round_to_digits_i64(NULL, 0) <= DIGITS, "the room of reads");
    expect(ratio_total_compare_digits_i64(NULL, 0, NULL, 0) <= DIGITS && ratio_total_print_digits_i64(NULL, 0, 2) <= DIGITS && ratio_total_print_bytes_i64(NULL, 0, 2) <= BYTES, "the room of others");
    SAYS(total_sum_i64(NULL, 0, NULL, 0, &answer, 1), answer, MORE_ROOM);
    SAYS(total_sum_i64(NULL, 0, room, DIGITS, &answer, 1), answer, ANSWERED);
    expect(answer.value.numer == 0 && answer.value.denom == 1, "the sum is 0");
    SAYS(total_mean_i64(NULL, 0, 3, NULL, 0, &answer, 1), answer, MORE_ROOM);
    SAYS(total_mean_i64(NULL, 0, 3, room, DIGITS, &answer, 1), answer, ANSWERED);
    SAYS(total_sign_i64(NULL, 0, NULL, 0, &order, 1), order, MORE_ROOM);
    SAYS(total_sign_i64(NULL, 0, room, DIGITS, &order, 1), order, ANSWERED);
    SAYS(total_to_f64_i64(NULL, 0, NULL, 0, &nearest, 1), nearest, MORE_ROOM);
    SAYS(total_to_f64_i64(NULL, 0, room, DIGITS, &nearest, 1), nearest, ANSWERED);
    SAYS(total_round_to_i64(NULL, 0, 100, RATIO_RULE_FLOOR, NULL, 0, &answer, 1), answer, MORE_ROOM);
    SAYS(total_round_to_i64(NULL, 0, 100, RATIO_RULE_FLOOR, room, DIGITS, &answer, 1), answer, ANSWERED);
    SAYS(total_compare_i64(NULL, 0, NULL, 0, NULL, 0, NULL, 0, &order, 1), order, MORE_ROOM);
    SAYS(total_compare_i64(NULL, 0, NULL, 0, NULL, 0, room, DIGITS, &order, 1), order, ANSWERED);
    SAYS(total_print_i64(NULL, 0, 2, RATIO_RULE_FLOOR, NULL, 0, NULL, 0, &text, 1), text, MORE_ROOM);
    SAYS(total_print_i64(NULL, 0, 2, RATIO_RULE_FLOOR, room, DIGITS, texts, BYTES, &text, 1), text, ANSWERED);
    expect(text.span.end == BYTES && text.span.start == BYTES - 4 && memcmp(texts + text.span.start, "0.00", 4) == 0, "the decimal is 0.00");
    SAYS(total_print_bounded_i64(NULL, 0, 2, RATIO_RULE_FLOOR, NULL, 0, NULL, 0, &text, 1), text, MORE_ROOM);
    SAYS(total_print_bounded_i64(NULL, 0, 2, RATIO_RULE_FLOOR, room, DIGITS, texts, BYTES, &text, 1), text, ANSWERED);
}

/* A read in steps of a total without slots, and answers without its room. */
static void joined_totals(void) {
    enum { DIGITS = 99 };
    uint64_t room[DIGITS];
    ratio_joined_i64 joined = {0, 0, 0};
    ratio_answer_i64 answer;
    ratio_order order;
    ratio_float nearest;
    ratio_text text;
    SAYS(total_join_i64(NULL, 0, 64, &joined, 1, NULL, 0), joined, MORE_ROOM);
    SAYS(total_join_i64(NULL, 0, 64, &joined, 1, room, DIGITS), joined, ANSWERED);
    expect(joined.done == 0 && joined.digits > 0, "no slots are joined");
    SAYS(joined_sum_i64(joined.digits, NULL, 0, &answer, 1), answer, NO_TOTAL);
    SAYS(joined_sum_i64(joined.digits, room, DIGITS, &answer, 1), answer, ANSWERED);
    expect(answer.value.numer == 0 && answer.value.denom == 1, "the joined sum is 0");
    SAYS(joined_mean_i64(joined.digits, 3, NULL, 0, &answer, 1), answer, NO_TOTAL);
    SAYS(joined_sign_i64(joined.digits, NULL, 0, &order, 1), order, NO_TOTAL);
    SAYS(joined_to_f64_i64(joined.digits, NULL, 0, &nearest, 1), nearest, NO_TOTAL);
    SAYS(joined_print_i64(joined.digits, 2, RATIO_RULE_FLOOR, NULL, 0, NULL, 0, &text, 1), text, NO_TOTAL);
}

int main(void) {
    each_item();
    lists();
    changes_of_totals();
    reads_of_totals();
    joined_totals();
    return wrong;
}
