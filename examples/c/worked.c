/* Tests of calls on fractions of 64 bits and on totals. Their answers come from outside the library. The program names each test whose answer is
 * wrong, and then ends with status 1. */
#include "ratio.h"

#include <stdio.h>
#include <string.h>

static int wrong;

static void say_wrong(const char *test, const char *what) {
    printf("wrong: %s: %s\n", test, what);
    wrong = 1;
}

/* Names the function, and the condition that does not hold there. */
#define EXPECT(holds) ((holds) ? (void) 0 : say_wrong(__func__, #holds))
#define DONE(call) EXPECT((call) == RATIO_DONE)
#define GIVES(call, holds) EXPECT((call) == RATIO_DONE && (holds))

#define COUNT(array) (sizeof(array) / sizeof *(array))
#define FILL(bytes, byte) memset(bytes, byte, sizeof(bytes))

/* Makes a call for each item of an array, or for each span of a text. The answers are filled before, so one that is not written is wrong. */
#define EACH(call, asked, answers) (FILL(answers, 9), DONE(ratio_##call(asked, COUNT(asked), answers, COUNT(answers))))
#define READ(call, text, spans, answers) \
    (FILL(answers, 9), DONE(ratio_##call((const uint8_t *) (text), strlen(text), spans, COUNT(spans), answers, COUNT(answers))))

/* Whether an answer is this fraction, or has none and this code. */
static int is_fraction(ratio_answer_i64 answer, int64_t numer, int64_t denom) {
    return answer.code == RATIO_ANSWERED && answer.value.numer == numer && answer.value.denom == denom;
}

static int is_refused(ratio_answer_i64 answer, uint32_t code) {
    return answer.code == code && answer.value.numer == 0 && answer.value.denom == 0;
}

static int is_order(ratio_order answer, uint32_t code, int32_t order) { return answer.code == code && answer.order == order; }

static int is_text(ratio_text answer, uint32_t code, size_t start, size_t end) {
    return answer.code == code && answer.span.start == start && answer.span.end == end;
}

static int is_total(ratio_total_i64 total, uint32_t code, uint64_t done, int64_t count) {
    return total.code == code && total.done == done && total.count == count;
}

static int is_step(ratio_joined_i64 joined, uint32_t code, uint64_t done, uint64_t digits) {
    return joined.code == code && joined.done == done && joined.digits == digits;
}

static int begins(const uint8_t *bytes, const char *text) { return memcmp(bytes, text, strlen(text)) == 0; }

static void fill(uint64_t *room, size_t digits) {
    while (digits > 0) room[--digits] = 7;
}

static void sums(void) {
    static const ratio_pair_i64 asked[2] = {{{1, 2}, {1, 3}}, {{INT64_MAX, 1}, {1, 2}}};
    ratio_answer_i64 answers[2];
    EACH(add_i64, asked, answers);
    EXPECT(is_fraction(answers[0], 5, 6));
    EXPECT(is_refused(answers[1], RATIO_NOT_HELD));
    EXPECT(ratio_add_i64(asked, 2, answers, 1) == RATIO_BAD_LENGTH);
}

static void equal_values(void) {
    static const ratio_pair_i64 asked[2] = {{{1, 2}, {-2, -4}}, {{1, 2}, {1, 3}}};
    ratio_truth answers[2];
    EACH(equal_i64, asked, answers);
    EXPECT(answers[0].holds == 1);
    EXPECT(answers[1].holds == 0);
}

static void whole_numbers(void) {
    static const ratio_i64 asked[2] = {{-7, 2}, {7, 2}};
    ratio_answer_i64 answers[2];
    EACH(ceil_i64, asked, answers);
    EXPECT(is_fraction(answers[0], -3, 1));
    EXPECT(is_fraction(answers[1], 4, 1));
    EACH(trunc_i64, asked, answers);
    EXPECT(is_fraction(answers[0], -3, 1));
    EXPECT(is_fraction(answers[1], 3, 1));
}

static void signs(void) {
    static const ratio_i64 asked[2] = {{-2, 4}, {INT64_MIN, 4}};
    ratio_answer_i64 answers[2];
    EACH(neg_i64, asked, answers);
    EXPECT(is_fraction(answers[0], 2, 4));
    EXPECT(is_refused(answers[1], RATIO_NOT_HELD));
    EACH(abs_i64, asked, answers);
    EXPECT(is_fraction(answers[0], 2, 4));
    EXPECT(is_refused(answers[1], RATIO_NOT_HELD));
}

static void nearest_fractions(void) {
    static const ratio_bounded_i64 asked[2] = {{{355, 113}, 100}, {{355, 113}, 0}};
    ratio_answer_i64 answers[2];
    EACH(nearest_i64, asked, answers);
    EXPECT(is_fraction(answers[0], 311, 99));
    EXPECT(is_refused(answers[1], RATIO_BOUND_NOT_POSITIVE));
}

static void simplest_fractions(void) {
    static const ratio_bounds_i64 asked[5] = {
        {{1, 3}, {1, 2}, 0}, {{1, 3}, {1, 2}, RATIO_LOW_INCLUDED}, {{1, 3}, {1, 2}, RATIO_HIGH_OPEN},
        {{1, 3}, {1, 2}, RATIO_LOW_INCLUDED + RATIO_LOW_OPEN}, {{1, 3}, {1, 2}, 16},
    };
    ratio_answer_i64 answers[5];
    EACH(between_i64, asked, answers);
    EXPECT(is_fraction(answers[0], 2, 5));
    EXPECT(is_fraction(answers[1], 1, 3));
    EXPECT(is_fraction(answers[2], 1, 1));
    EXPECT(is_refused(answers[3], RATIO_BAD_OPTION));
    EXPECT(is_refused(answers[4], RATIO_BAD_OPTION));
}

static void convergents(void) {
    static const ratio_place_i64 asked[2] = {{{830, 186}, 2}, {{830, 186}, 4}};
    ratio_answer_i64 answers[2];
    EACH(convergent_i64, asked, answers);
    EXPECT(is_fraction(answers[0], 58, 13));
    EXPECT(is_refused(answers[1], RATIO_NOT_HELD));
}

static void floats(void) {
    static const double exact[2] = {-0.75, 1e300}, near[2] = {0.1, 1e300};
    static const ratio_i64 asked[2] = {{1, 3}, {1, 0}};
    ratio_answer_i64 answers[2];
    ratio_float reals[2];
    EACH(from_f64_i64, exact, answers);
    EXPECT(is_fraction(answers[0], -3, 4));
    EXPECT(is_refused(answers[1], RATIO_NOT_HELD));
    EACH(rationalize_i64, near, answers);
    EXPECT(is_fraction(answers[0], 1, 10));
    EXPECT(is_refused(answers[1], RATIO_NOT_HELD));
    EACH(to_f64_i64, asked, reals);
    EXPECT(reals[0].code == RATIO_ANSWERED && reals[0].value == 0.3333333333333333);
    EXPECT(reals[1].code == RATIO_DENOMINATOR_NOT_POSITIVE);
}

static void multiples(void) {
    static const ratio_multiple_i64 asked[2] = {{{2, 3}, 100, RATIO_RULE_HALF_EVEN}, {{2, 3}, 100, 6}};
    ratio_answer_i64 answers[2];
    EACH(round_to_i64, asked, answers);
    EXPECT(is_fraction(answers[0], 67, 100));
    EXPECT(is_refused(answers[1], RATIO_BAD_OPTION));
}

static void decimals(void) {
    static const ratio_scaled asked[2] = {{{(uint64_t) -1250, -1}, 2}, {{5, 0}, -1}};
    ratio_answer_i64 answers[2];
    EACH(from_scaled_i64, asked, answers);
    EXPECT(is_fraction(answers[0], -25, 2));
    EXPECT(is_refused(answers[1], RATIO_BAD_OPTION));
}

static void casts(void) {
    static const ratio_i64 asked[2] = {{-2, 4}, {INT64_C(1) << 31, 4}};
    ratio_answer_i32 answers[2];
    EACH(cast_i64_to_i32, asked, answers);
    EXPECT(answers[0].code == RATIO_ANSWERED && answers[0].value.numer == -2 && answers[0].value.denom == 4);
    EXPECT(answers[1].code == RATIO_NOT_HELD);
}

static void powers_of_zero(void) {
    static const ratio_power_i64 asked[2] = {{{0, 1}, -1}, {{0, 1}, 0}};
    ratio_answer_i64 answers[2];
    EACH(pow_i64, asked, answers);
    EXPECT(is_refused(answers[0], RATIO_DIVISION_BY_ZERO));
    EXPECT(is_fraction(answers[1], 1, 1));
}

static void lowest_hashes(void) {
    static const ratio_i64 asked[2] = {{1, 2}, {1, 0}};
    ratio_hash answers[2];
    EACH(hash_lowest_i64, asked, answers);
    EXPECT(answers[0].hash == UINT64_C(0xce9190573cc142f8));
    EXPECT(answers[1].code == RATIO_DENOMINATOR_NOT_POSITIVE && answers[1].hash == 0);
}

static void keys(void) {
    static const ratio_i64 asked[3] = {{-1, 3}, {2, 4}, {1, 0}};
    ratio_key answers[3];
    EACH(key_i64, asked, answers);
    EXPECT(answers[0].key == -INT64_C(4599676419421066581));
    EXPECT(answers[1].key == INT64_C(4602678819172646912));
    EXPECT(answers[2].code == RATIO_DENOMINATOR_NOT_POSITIVE && answers[2].key == 0);
}

static void python_hashes(void) {
    static const ratio_i64 asked[3] = {{-2, 4}, {-3, 3}, {1, 0}};
    ratio_residue answers[3];
    EACH(hash_mod61_i64, asked, answers);
    EXPECT(answers[0].hash == -INT64_C(1152921504606846976));
    EXPECT(answers[1].hash == -2);
    EXPECT(answers[2].code == RATIO_DENOMINATOR_NOT_POSITIVE && answers[2].hash == 0);
}

static void bytes_for_sorting(void) {
    static const ratio_i64 asked[2] = {{-1, 2}, {1, 0}};
    static const uint8_t bytes[24] = {0x7f, 0xff, 0xff, 0xff, 0xff, 0xff, 0xff, 0xff, 0x80};
    ratio_sortable answers[2];
    EACH(sortable_i64, asked, answers);
    EXPECT(memcmp(answers[0].bytes, bytes, 24) == 0);
    EXPECT(answers[1].code == RATIO_DENOMINATOR_NOT_POSITIVE);
}

static void fractions_apart(void) {
    static const int64_t left[5] = {1, 2, 9, 1, 3}, right[2] = {1, 6};
    ratio_answer_i64 answers[2];
    FILL(answers, 9);
    DONE(ratio_add_strided_i64(left, 5, 3, right, 2, 0, answers, 2));
    EXPECT(is_fraction(answers[0], 2, 3));
    EXPECT(is_fraction(answers[1], 1, 2));
}

static void readings(void) {
    static const ratio_span spans[2] = {{0, 4}, {3, 5}};
    ratio_answer_i64 answers[2];
    READ(read_i64, "-2/4x", spans, answers);
    EXPECT(is_fraction(answers[0], -1, 2));
    EXPECT(is_refused(answers[1], RATIO_PARSE_ERROR));
}

static void refusals_apart(void) {
    static const ratio_span spans[2] = {{0, 19}, {19, 20}};
    ratio_answer_i64 answers[2];
    READ(read_i64, "9223372036854775808x", spans, answers);
    EXPECT(is_refused(answers[0], RATIO_NOT_HELD));
    EXPECT(is_refused(answers[1], RATIO_PARSE_ERROR));
}

static void texts(void) {
    static const ratio_i64 asked[3] = {{6, -4}, {3, 0}, {INT64_MIN, 1}};
    uint8_t bytes[3 * RATIO_ROOM_I64];
    ratio_text answers[3];
    FILL(bytes, 'x'), FILL(answers, 9);
    EXPECT(ratio_print_i64(asked, 3, bytes + 1, sizeof bytes - 1, answers, 3) == RATIO_BAD_LENGTH && bytes[1] == 'x');
    DONE(ratio_print_i64(asked, 3, bytes, sizeof bytes, answers, 3));
    EXPECT(begins(bytes, "6/-4-9223372036854775808xx"));
    EXPECT(is_text(answers[0], RATIO_ANSWERED, 0, 4));
    EXPECT(is_text(answers[1], RATIO_ZERO_DENOMINATOR, 4, 4));
    EXPECT(is_text(answers[2], RATIO_ANSWERED, 4, 24));
}

static void decimal_texts(void) {
    static const ratio_decimal_i64 asked[2] = {{{2, 3}, 2, RATIO_RULE_HALF_EVEN}, {{2, 3}, 39, RATIO_RULE_HALF_EVEN}};
    uint8_t bytes[2 * RATIO_DECIMAL_ROOM_I64];
    ratio_text answers[2];
    FILL(bytes, 'x'), FILL(answers, 9);
    EXPECT(ratio_print_decimal_i64(asked, 2, bytes + 1, sizeof bytes - 1, answers, 2) == RATIO_BAD_LENGTH);
    DONE(ratio_print_decimal_i64(asked, 2, bytes, sizeof bytes, answers, 2));
    EXPECT(begins(bytes, "0.67x"));
    EXPECT(is_text(answers[0], RATIO_ANSWERED, 0, 4));
    EXPECT(is_text(answers[1], RATIO_BAD_OPTION, 4, 4));
}

static void decimal_readings(void) {
    static const ratio_span spans[3] = {{0, 7}, {4, 8}, {8, 12}};
    ratio_answer_i64 answers[3];
    READ(read_decimal_i64, "-1.5e-3x1e99", spans, answers);
    EXPECT(is_fraction(answers[0], -3, 2000));
    EXPECT(is_refused(answers[1], RATIO_PARSE_ERROR));
    EXPECT(is_refused(answers[2], RATIO_NOT_HELD));
}

static void typed_texts(void) {
    static const ratio_span spans[3] = {{0, 6}, {6, 11}, {11, 14}};
    ratio_answer_i64 answers[3];
    READ(read_text_i64, "-1 1/212.5%1/0", spans, answers);
    EXPECT(is_fraction(answers[0], -3, 2));
    EXPECT(is_fraction(answers[1], 1, 8));
    EXPECT(is_refused(answers[2], RATIO_ZERO_DENOMINATOR));
}

/* Slots that tests share: 1/36 and 1/28, 1/36 and -1/28, and one whose numerator does not fit 64 bits. */
static const ratio_slot_i64 plus[2] = {{36, {1, 0}}, {28, {1, 0}}}, minus[2] = {{36, {1, 0}}, {28, {UINT64_MAX, -1}}},
    most[1] = {{1, {UINT64_C(1) << 63, 0}}};

static void totals(void) {
    static const ratio_i64 shares[3] = {{1, 2}, {2, 6}, {1, 6}};
    ratio_slot_i64 slots[4] = {{0}}, others[2] = {{0}};
    ratio_total_i64 total = {0}, other = {0};
    uint64_t room[32];
    ratio_answer_i64 answer = {9, {9, 9}};
    fill(room, 32);
    DONE(ratio_total_add_i64(shares, 2, &total, 1, slots, 4));
    DONE(ratio_total_add_i64(shares + 2, 1, &other, 1, others, 2));
    EXPECT(total.done == 2 && total.count == 2);
    DONE(ratio_total_merge_i64(others, 2, 1, &total, 1, slots, 4));
    EXPECT(is_total(total, RATIO_ANSWERED, 2, 3));
    EXPECT(ratio_total_free_i64(slots, 4) == 2);
    EXPECT(ratio_total_digits_i64(slots, 4) == 14);
    GIVES(ratio_total_mean_i64(slots, 4, 3, room, 32, &answer, 1), is_fraction(answer, 1, 3));
    DONE(ratio_total_unmerge_i64(others, 2, 1, &total, 1, slots, 4));
    GIVES(ratio_total_sum_i64(slots, 4, room, 32, &answer, 1), is_fraction(answer, 5, 6));
    EXPECT(total.count == 2);
    DONE(ratio_total_subtract_i64(shares, 1, &total, 1, slots, 4));
    GIVES(ratio_total_sum_i64(slots, 4, room, 32, &answer, 1), is_fraction(answer, 1, 3));
    GIVES(ratio_total_mean_i64(slots, 4, 0, room, 32, &answer, 1), is_refused(answer, RATIO_DIVISION_BY_ZERO));
    GIVES(ratio_total_sum_i64(slots, 4, room, 4, &answer, 1), is_refused(answer, RATIO_MORE_ROOM));
}

static void signs_of_totals(void) {
    uint64_t room[14];
    ratio_order answer = {9, 9};
    fill(room, 14);
    GIVES(ratio_total_sign_i64(minus, 2, room, 14, &answer, 1), is_order(answer, RATIO_ANSWERED, -1));
    GIVES(ratio_total_sign_i64(minus, 1, room, 14, &answer, 1), is_order(answer, RATIO_ANSWERED, 1));
    GIVES(ratio_total_sign_i64(minus, 2, room + 1, 13, &answer, 1), is_order(answer, RATIO_MORE_ROOM, 0));
}

/* 4/63 in hundredths is 6/100. */
static void multiples_of_totals(void) {
    uint64_t room[20], less[19];
    ratio_answer_i64 answer = {9, {9, 9}};
    fill(room, 20), fill(less, 19);
    EXPECT(ratio_total_round_to_digits_i64(plus, 2) == 20);
    GIVES(ratio_total_round_to_i64(plus, 2, 100, RATIO_RULE_HALF_EVEN, room, 20, &answer, 1), is_fraction(answer, 3, 50));
    GIVES(ratio_total_round_to_i64(plus, 2, 0, RATIO_RULE_HALF_EVEN, room, 20, &answer, 1), is_refused(answer, RATIO_BAD_OPTION));
    GIVES(ratio_total_round_to_i64(plus, 2, 100, 6, room, 20, &answer, 1), is_refused(answer, RATIO_BAD_OPTION));
    GIVES(ratio_total_round_to_i64(plus, 2, 100, 0, less, 19, &answer, 1), is_refused(answer, RATIO_MORE_ROOM));
    GIVES(ratio_total_round_to_i64(most, 1, 1, 0, room, 20, &answer, 1), is_refused(answer, RATIO_NOT_HELD));
}

/* 4/63 and 1/15. */
static void orders_of_totals(void) {
    static const ratio_slot_i64 other[1] = {{15, {1, 0}}}, least[1] = {{15, {0, INT64_MIN}}};
    ratio_slot_i64 slots[3] = {{0}};
    uint64_t room[18];
    ratio_order answer = {9, 9};
    fill(room, 18);
    EXPECT(ratio_total_compare_digits_i64(plus, 2, other, 1) == 18);
    GIVES(ratio_total_compare_i64(plus, 2, other, 1, slots, 3, room, 18, &answer, 1), is_order(answer, RATIO_ANSWERED, -1));
    GIVES(ratio_total_compare_i64(other, 1, plus, 2, slots, 3, room, 18, &answer, 1), is_order(answer, RATIO_ANSWERED, 1));
    GIVES(ratio_total_compare_i64(plus, 2, plus, 2, slots, 3, room, 18, &answer, 1), is_order(answer, RATIO_MORE_ROOM, 0));
    GIVES(ratio_total_compare_i64(plus, 2, least, 1, slots, 3, room, 18, &answer, 1), is_order(answer, RATIO_NOT_HELD, 0));
    EXPECT(ratio_total_compare_i64(plus, 2, other, 1, slots, 3, room, 18, &answer, 0) == RATIO_BAD_LENGTH);
}

static void totals_stop(void) {
    static const ratio_i64 asked[4] = {{1, 2}, {1, 3}, {1, 5}, {1, 0}};
    ratio_slot_i64 slots[2] = {{0}}, larger[4] = {{0}}, greatest[1] = {{2, {UINT64_MAX, INT64_MAX}}}, dirty[1] = {{0, {1, 0}}};
    ratio_total_i64 total = {0}, moved = {0}, full = {RATIO_ANSWERED, 0, INT64_MAX}, two[2] = {{0}};
    DONE(ratio_total_add_i64(asked, 4, &total, 1, slots, 2));
    EXPECT(is_total(total, RATIO_MORE_ROOM, 2, 2));
    DONE(ratio_total_merge_i64(slots, 2, 2, &moved, 1, larger, 4));
    EXPECT(moved.code == RATIO_ANSWERED && moved.count == 2);
    DONE(ratio_total_add_i64(asked + 2, 2, &moved, 1, larger, 4));
    EXPECT(is_total(moved, RATIO_DENOMINATOR_NOT_POSITIVE, 1, 3));
    DONE(ratio_total_add_i64(asked, 4, &total, 1, greatest, 1));
    EXPECT(is_total(total, RATIO_NOT_HELD, 0, 2));
    DONE(ratio_total_add_i64(asked, 4, &total, 1, dirty, 1));
    EXPECT(is_total(total, RATIO_NO_TOTAL, 0, 2));
    DONE(ratio_total_merge_i64(slots, 2, 1, &full, 1, larger, 4));
    EXPECT(is_total(full, RATIO_NOT_HELD, 2, INT64_MAX));
    EXPECT(ratio_total_add_i64(asked, 4, two, 2, larger, 4) == RATIO_BAD_LENGTH);
}

static void decimals_of_totals(void) {
    uint64_t room[20];
    uint8_t bytes[147];
    ratio_text answer = {9, {9, 9}};
    fill(room, 20), FILL(bytes, 'x');
    EXPECT(ratio_total_print_digits_i64(plus, 2, 4) == 20);
    EXPECT(ratio_total_print_bytes_i64(plus, 2, 4) == 147);
    DONE(ratio_total_print_i64(plus, 2, 4, RATIO_RULE_HALF_EVEN, room, 20, bytes, 147, &answer, 1));
    EXPECT(is_text(answer, RATIO_ANSWERED, 141, 147) && begins(bytes + 141, "0.0635"));
    GIVES(ratio_total_print_i64(plus, 2, 4, 6, room, 20, bytes, 147, &answer, 1), is_text(answer, RATIO_BAD_OPTION, 147, 147));
    GIVES(ratio_total_print_i64(plus, 2, 4, 0, room + 1, 19, bytes, 147, &answer, 1), answer.code == RATIO_MORE_ROOM);
}

/* Joins all slots, one in each step, and returns the digits for the common denominator. */
static uint64_t join_all(const ratio_slot_i64 *slots, size_t count, uint64_t *room, size_t digits) {
    ratio_joined_i64 joined = {9, 0, 0};
    for (size_t i = 0; i < count; i++) DONE(ratio_total_join_i64(slots, count, 1, &joined, 1, room, digits));
    return joined.digits;
}

static void totals_in_steps(void) {
    static const ratio_slot_i64 slots[3] = {{36, {1, 0}}, {0, {0, 0}}, {28, {1, 0}}};
    ratio_joined_i64 joined = {9, 0, 0};
    uint64_t room[14];
    fill(room, 14);
    GIVES(ratio_total_join_i64(slots, 3, 1, &joined, 1, room + 1, 13), is_step(joined, RATIO_MORE_ROOM, 0, 0));
    GIVES(ratio_total_join_i64(slots, 3, 0, &joined, 1, room, 14), is_step(joined, RATIO_ANSWERED, 0, 2));
    GIVES(ratio_total_join_i64(slots, 3, 1, &joined, 1, room, 14), is_step(joined, RATIO_ANSWERED, 1, 2));
    GIVES(ratio_total_join_i64(slots, 3, 1, &joined, 1, room + 1, 13), is_step(joined, RATIO_NO_TOTAL, 1, 2));
    GIVES(ratio_total_join_i64(slots, 3, UINT64_MAX, &joined, 1, room, 14), is_step(joined, RATIO_ANSWERED, 3, 2));
    GIVES(ratio_total_join_i64(slots, 2, 1, &joined, 1, room, 14), is_step(joined, RATIO_NO_TOTAL, 3, 2));
    EXPECT(ratio_total_join_i64(slots, 3, 1, &joined, 0, room, 14) == RATIO_BAD_LENGTH);
}

static void numbers_of_joined_totals(void) {
    uint64_t room[14], digits;
    ratio_answer_i64 answer = {9, {9, 9}};
    fill(room, 14);
    digits = join_all(plus, 2, room, 14);
    GIVES(ratio_joined_sum_i64(digits, room, 14, &answer, 1), is_fraction(answer, 4, 63));
    digits = join_all(plus, 2, room, 14);
    GIVES(ratio_joined_mean_i64(digits, 2, room, 14, &answer, 1), is_fraction(answer, 2, 63));
    GIVES(ratio_joined_mean_i64(digits, 0, room, 14, &answer, 1), is_refused(answer, RATIO_DIVISION_BY_ZERO));
    digits = join_all(most, 1, room, 14);
    GIVES(ratio_joined_sum_i64(digits, room, 14, &answer, 1), is_refused(answer, RATIO_NOT_HELD));
}

/* -1/126. */
static void other_reads_of_joined_totals(void) {
    uint64_t room[20], digits;
    uint8_t bytes[147];
    ratio_order order = {9, 9};
    ratio_float value = {9, 9};
    ratio_text answer = {9, {9, 9}};
    fill(room, 20), FILL(bytes, 'x');
    digits = join_all(minus, 2, room, 20);
    GIVES(ratio_joined_sign_i64(digits, room, 20, &order, 1), is_order(order, RATIO_ANSWERED, -1));
    digits = join_all(minus, 2, room, 20);
    DONE(ratio_joined_to_f64_i64(digits, room, 20, &value, 1));
    EXPECT(value.code == RATIO_ANSWERED && value.value == -0.007936507936507936);
    digits = join_all(minus, 2, room, 20);
    DONE(ratio_joined_print_i64(digits, 4, 1, room, 20, bytes, 147, &answer, 1));
    EXPECT(is_text(answer, RATIO_ANSWERED, 140, 147) && begins(bytes + 140, "-0.0079"));
    GIVES(ratio_joined_print_i64(digits, 4, 6, room, 20, bytes, 147, &answer, 1), is_text(answer, RATIO_BAD_OPTION, 147, 147));
    digits = join_all(minus, 2, room, 20);
    GIVES(ratio_joined_print_i64(digits, 4, 1, room + 1, 19, bytes, 147, &answer, 1), is_text(answer, RATIO_NO_TOTAL, 147, 147));
}

static void rooms_without_a_total(void) {
    uint64_t room[14], digits;
    ratio_answer_i64 answer = {9, {9, 9}};
    fill(room, 14);
    digits = join_all(plus, 2, room, 14);
    GIVES(ratio_joined_sum_i64(digits, room + 1, 13, &answer, 1), is_refused(answer, RATIO_NO_TOTAL));
    GIVES(ratio_joined_sum_i64(0, room, 14, &answer, 1), is_refused(answer, RATIO_NO_TOTAL));
    GIVES(ratio_joined_mean_i64(UINT64_MAX, 2, room, 14, &answer, 1), is_refused(answer, RATIO_NO_TOTAL));
}

static void rooms_of_zeros(void) {
    uint64_t room[20] = {0};
    ratio_order order = {9, 9};
    ratio_float value = {9, 9};
    GIVES(ratio_joined_sign_i64(2, room, 20, &order, 1), is_order(order, RATIO_NO_TOTAL, 0));
    GIVES(ratio_joined_to_f64_i64(2, room, 20, &value, 1), value.code == RATIO_NO_TOTAL && value.value == 0);
}

static void decimals_from_bounds(void) {
    static const ratio_slot_i64 tie[2] = {{3, {1, 0}}, {6, {1, 0}}};
    uint64_t room[35];
    uint8_t bytes[167];
    ratio_text answer = {9, {9, 9}};
    fill(room, 35), FILL(bytes, 'x');
    DONE(ratio_total_print_bounded_i64(plus, 2, 4, 1, room, 35, bytes, 167, &answer, 1));
    EXPECT(is_text(answer, RATIO_ANSWERED, 161, 167) && begins(bytes + 161, "0.0635"));
    GIVES(ratio_total_print_bounded_i64(tie, 2, 0, 1, room, 35, bytes, 167, &answer, 1), is_text(answer, RATIO_NOT_HELD, 167, 167));
    GIVES(ratio_total_print_bounded_i64(plus, 2, 4, 6, room, 35, bytes, 167, &answer, 1), is_text(answer, RATIO_BAD_OPTION, 167, 167));
    GIVES(ratio_total_print_bounded_i64(plus, 2, 4, 1, room + 1, 34, bytes, 167, &answer, 1), is_text(answer, RATIO_MORE_ROOM, 167, 167));
}

static void (*const tests[])(void) = {
    sums, equal_values, whole_numbers, signs, nearest_fractions, simplest_fractions, convergents, floats, multiples, decimals, casts,
    powers_of_zero, lowest_hashes, keys, python_hashes, bytes_for_sorting, fractions_apart, readings, refusals_apart, texts,
    decimal_texts, decimal_readings, typed_texts, totals, signs_of_totals, multiples_of_totals, orders_of_totals, totals_stop,
    decimals_of_totals, totals_in_steps, numbers_of_joined_totals, other_reads_of_joined_totals, rooms_without_a_total, rooms_of_zeros,
    decimals_from_bounds,
};

int main(void) {
    for (size_t i = 0; i < COUNT(tests); i++) tests[i]();
    return wrong;
}
