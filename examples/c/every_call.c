/* Calls each function of the header. It ends with status 1 if an answer is wrong. Of the calls of templates/calls.list, examples/c/rows compares more. */
#include "ratio.h"
#include "calls.h"

#include <stdio.h>
#include <string.h>

static int wrong;

/* 2/4, x and 3/0, and a span that goes on after them. */
static const uint8_t texts[8] = {'2', '/', '4', 'x', '3', '/', '0', '1'};
static const ratio_span spans[4] = {
    {.start = 0, .end = 3}, {.start = 3, .end = 4}, {.start = 4, .end = 7}, {.start = 7, .end = 9},
};

static void expect(int holds, const char *what) {
    if (!holds) {
        printf("wrong: %s\n", what);
        wrong = 1;
    }
}

/* A number of each type, and whether it is below 0. If the header drops a sign, no number is below 0. */
#define PLAIN(n) n
#define WIDE(n) {.low = (uint64_t) (int64_t) (n), .high = (n) < 0 ? -1 : 0}
#define IS_PLAIN_BELOW_0(x) ((double) (x) < 0)
#define IS_WIDE_BELOW_0(x) ((double) (x).high < 0)

#define FRACTION(N, n, d) {.numer = N(n), .denom = N(d)}
#define PAIR(N, n, d, m, e) {.left = FRACTION(N, n, d), .right = FRACTION(N, m, e)}
#define ANSWER(N, n, d) {.code = RATIO_ANSWERED, .value = FRACTION(N, n, d)}

/* A call that refuses two answers to one item, a read of a span behind the texts, and a print that has too few bytes and writes nothing. */
#define BAD_LENGTH(name, item, count, number, answer)                                                \
    {                                                                                                \
        static const item asked = {0};                                                               \
        answer answers[2];                                                                           \
        expect(ratio_##name(&asked, 1, answers, 2) == RATIO_BAD_LENGTH, #name " length");            \
    }
#define NO_TEXT(name, item, count, number, answer)                                                   \
    {                                                                                                \
        answer read;                                                                                 \
        expect(ratio_##name(texts, 8, spans + 3, 1, &read, 1) == RATIO_DONE, #name);                 \
        expect(read.code == RATIO_NO_TEXT, #name " behind the texts");                               \
    }
#define NO_ROOM(name, item, count, number, room)                                                     \
    {                                                                                                \
        static const item asked[3] = {0};                                                            \
        uint8_t bytes[3 * (room)] = {'x'};                                                           \
        ratio_text text[3];                                                                          \
        expect(ratio_##name(asked, 3, bytes, 3 * (room) - 1, text, 3) == RATIO_BAD_LENGTH, #name " room");\
        expect(ratio_##name(asked, 3, bytes, 3 * (room), text, 2) == RATIO_BAD_LENGTH, #name " places");\
        expect(bytes[0] == 'x', #name " without room");                                              \
    }

static void lengths(void) {
    CALLS_I32(BAD_LENGTH) CALLS_I64(BAD_LENGTH) CALLS_I128(BAD_LENGTH)
    READS_I32(NO_TEXT) READS_I64(NO_TEXT) READS_I128(NO_TEXT)
    PRINTS_I32(NO_ROOM) PRINTS_I64(NO_ROOM) PRINTS_I128(NO_ROOM)
}

/* An order and a product below 0, equal hashes, and texts one after another. */
#define EACH_TYPE(suffix, N, IS_BELOW_0, room, decimal_room)                                         \
    static void each_type_##suffix(void) {                                                           \
        static const ratio_pair_##suffix pair = PAIR(N, 3, 2, -1, 4), turned = PAIR(N, -1, 4, 3, 2);\
        static const ratio_##suffix loose[2] = {FRACTION(N, 6, -4), FRACTION(N, -3, 2)};             \
        static const ratio_##suffix shown[3] = {FRACTION(N, 6, -4), FRACTION(N, 3, 0), FRACTION(N, -5, 1)};\
        static const ratio_decimal_##suffix prices[5] = {{.value = FRACTION(N, 2, 3), .places = 2, .rule = RATIO_RULE_HALF_EVEN},\
            {.value = FRACTION(N, 1, -2), .places = 2, .rule = RATIO_RULE_UP},                       \
            {.value = FRACTION(N, -1, 8), .places = 1, .rule = RATIO_RULE_DOWN},                     \
            {.value = FRACTION(N, 1, 8), .places = 39, .rule = RATIO_RULE_DOWN},                     \
            {.value = FRACTION(N, 1, 8), .places = 1, .rule = 6}};                                   \
        static const ratio_answer_##suffix half = ANSWER(N, 1, 2), product = ANSWER(N, -3, 8);       \
        ratio_answer_##suffix answer[1], read[4];                                                    \
        uint8_t written[5 * RATIO_DECIMAL_ROOM_I128];                                                \
        ratio_text price_at[5];                                                                      \
        uint8_t bytes[3 * 81];                                                                       \
        ratio_text text[3];                                                                          \
        ratio_order order = {.code = 9, .order = 9};                                                 \
        ratio_hash hash[2];                                                                          \
        expect(ratio_compare_##suffix(&turned, 1, &order, 1) == RATIO_DONE, "compare " #suffix);     \
        expect(order.code == RATIO_ANSWERED && (int64_t) order.order == -1, "order below 0 " #suffix);\
        expect(ratio_hash_##suffix(loose, 2, hash, 2) == RATIO_DONE, "hash " #suffix);               \
        expect(hash[0].code == RATIO_ANSWERED && hash[0].hash == hash[1].hash, "hashes " #suffix);   \
        GIVES(suffix, mul, pair, product)                                                            \
        expect(IS_BELOW_0(answer[0].value.numer), "mul below 0 " #suffix);                           \
        expect(!IS_BELOW_0(answer[0].value.denom), "mul above 0 " #suffix);                          \
        expect(ratio_read_##suffix(texts, 8, spans, 4, read, 4) == RATIO_DONE, "read " #suffix);     \
        expect(SAME(read[0], half) && read[1].code == RATIO_PARSE_ERROR, "text " #suffix);           \
        expect(read[2].code == RATIO_ZERO_DENOMINATOR && read[3].code == RATIO_NO_TEXT, "texts " #suffix);\
        memset(bytes, 'x', sizeof bytes);                                                            \
        expect(ratio_print_##suffix(shown, 3, bytes, 3 * room, text, 3) == RATIO_DONE, "print " #suffix);\
        expect(memcmp(bytes, "6/-4-5xx", 8) == 0, "printed " #suffix);                               \
        expect(text[0].code == RATIO_ANSWERED && text[0].span.start == 0 && text[0].span.end == 4, "first " #suffix);\
        expect(text[1].code == RATIO_ZERO_DENOMINATOR && text[1].span.start == text[1].span.end, "second " #suffix);\
        expect(text[2].code == RATIO_ANSWERED && text[2].span.start == 4 && text[2].span.end == 6, "third " #suffix);\
        expect(ratio_print_decimal_##suffix(prices, 5, written, 5 * (decimal_room), price_at, 5) == RATIO_DONE, "print_decimal " #suffix);\
        expect(memcmp(written, "0.67-0.1", 8) == 0, "printed decimals " #suffix);                    \
        expect(price_at[0].code == RATIO_ANSWERED && price_at[0].span.end == 4, "first decimal " #suffix);\
        expect(price_at[1].code == RATIO_DENOMINATOR_NOT_POSITIVE && price_at[1].span.end == 4, "second decimal " #suffix);\
        expect(price_at[2].code == RATIO_ANSWERED && price_at[2].span.start == 4 && price_at[2].span.end == 8, "third decimal " #suffix);\
        expect(price_at[3].code == RATIO_BAD_OPTION && price_at[3].span.start == 8, "fourth decimal " #suffix);\
        expect(price_at[4].code == RATIO_BAD_OPTION && price_at[4].span.end == 8, "fifth decimal " #suffix);\
    }

/* This compares the fields of structs, since there may be padding between them. */
#define SAME(a, b)                                                                                   \
    ((a).code == (b).code && memcmp(&(a).value.numer, &(b).value.numer, sizeof (a).value.numer) == 0 \
     && memcmp(&(a).value.denom, &(b).value.denom, sizeof (a).value.denom) == 0)

#define GIVES(suffix, name, asked, wanted)                                                           \
    expect(ratio_##name##_##suffix(&asked, 1, answer, 1) == RATIO_DONE, #name " " #suffix);          \
    expect(SAME(answer[0], wanted), #name " answer " #suffix);

EACH_TYPE(i32, PLAIN, IS_PLAIN_BELOW_0, RATIO_ROOM_I32, RATIO_DECIMAL_ROOM_I32)
EACH_TYPE(i64, PLAIN, IS_PLAIN_BELOW_0, RATIO_ROOM_I64, RATIO_DECIMAL_ROOM_I64)
EACH_TYPE(i128, WIDE, IS_WIDE_BELOW_0, RATIO_ROOM_I128, RATIO_DECIMAL_ROOM_I128)

/* The numerator is -2^64-1: the upper half is -2, and the lower half 2^64-1. */
static void wide_halves(void) {
    static const char text[] = "-18446744073709551617/3";
    const ratio_span all = {.start = 0, .end = sizeof text - 1};
    ratio_answer_i128 read;
    uint8_t bytes[RATIO_ROOM_I128];
    ratio_text shown;
    expect(ratio_read_i128((const uint8_t *) text, sizeof text - 1, &all, 1, &read, 1) == RATIO_DONE, "read halves");
    expect(read.code == RATIO_ANSWERED && (double) read.value.numer.high == -2, "upper half below 0");
    expect(read.value.numer.low == UINT64_MAX, "lower half");
    expect(read.value.denom.high == 0 && read.value.denom.low == 3, "denominator");
    expect(ratio_print_i128(&read.value, 1, bytes, sizeof bytes, &shown, 1) == RATIO_DONE, "print halves");
    expect(shown.span.end == sizeof text - 1 && memcmp(bytes, text, sizeof text - 1) == 0, "printed halves");
}

/* Products and quotients whose steps do not fit. Python's `fractions` computed them. */
static void quotients_of_many(void) {
    static const ratio_i64 above[3] = {{INT64_MAX, 3}, {6, 2}, {1, INT64_MAX}}, below[2] = {{5, 2}, {0, 3}}, loose[1] = {{1, -2}};
    int64_t room[10];
    ratio_answer_i64 answer[1];
    expect(ratio_quotient_of_i64(above, 3, below, 1, room, 8, answer, 1) == RATIO_DONE && answer->code == RATIO_ANSWERED, "quotient of many");
    expect(answer->value.numer == 2 && answer->value.denom == 5, "quotient of many");
    expect(ratio_quotient_of_i64(above, 3, below, 0, room, 6, answer, 1) == RATIO_DONE && answer->value.numer == 1 && answer->value.denom == 1, "product of many");
    expect(ratio_quotient_of_i64(above, 0, above, 1, room, 2, answer, 1) == RATIO_DONE && answer->value.numer == 3 && answer->value.denom == INT64_MAX, "quotient of one");
    expect(ratio_quotient_of_i64(above, 2, above, 2, room, 8, answer, 1) == RATIO_DONE && answer->value.numer == 1 && answer->value.denom == 1, "quotient of the same");
    expect(ratio_quotient_of_i64(above, 3, below, 1, room, 7, answer, 1) == RATIO_DONE && answer->code == RATIO_MORE_ROOM, "no room for a quotient");
    expect(ratio_quotient_of_i64(above, 1, above + 2, 1, room, 4, answer, 1) == RATIO_DONE && answer->code == RATIO_NOT_HELD, "a quotient above 64 bits");
    expect(ratio_quotient_of_i64(above, 3, below, 2, room, 10, answer, 1) == RATIO_DONE && answer->code == RATIO_DIVISION_BY_ZERO, "a quotient by 0");
    expect(ratio_quotient_of_i64(above, 3, loose, 1, room, 10, answer, 1) == RATIO_DONE && answer->code == RATIO_DENOMINATOR_NOT_POSITIVE, "a loose factor");
    expect(ratio_quotient_of_i64(above, 3, below, 1, room, 10, answer, 0) == RATIO_BAD_LENGTH, "no quotient");
}

/* Whether three parts are these. */
#define ARE_PARTS(x, a, b, c) ((x)[0] == (a) && (x)[1] == (b) && (x)[2] == (c))

/* Amounts split by shares. Python's `fractions` computed the parts. */
static void splits(void) {
    static const ratio_i64 thirds[3] = {{1, 3}, {2, 6}, {1, 3}}, most[3] = {{1, 2}, {0, 9}, {1, 2}}, two[3] = {{1, 3}, {1, 3}, {0, 1}},
        below[3] = {{4, 3}, {0, 1}, {-1, 3}}, loose[3] = {{1, 3}, {1, 3}, {-1, -3}}, primes[3] = {{1, INT64_MAX}, {1, 4294967291}, {1, 2}};
    int64_t parts[3] = {7, 7, 7};
    expect(ratio_split_i64(100, two, 3, parts, 3) == RATIO_NOT_ONE && ARE_PARTS(parts, 7, 7, 7), "shares that are not 1");
    expect(ratio_split_i64(100, below, 3, parts, 3) == RATIO_BELOW_ZERO && ARE_PARTS(parts, 7, 7, 7), "a share below 0");
    expect(ratio_split_i64(100, loose, 3, parts, 3) == RATIO_DENOMINATOR_NOT_POSITIVE && ARE_PARTS(parts, 7, 7, 7), "a loose share");
    expect(ratio_split_i64(100, primes, 3, parts, 3) == RATIO_NOT_HELD && ARE_PARTS(parts, 7, 7, 7), "shares that do not fit");
    expect(ratio_split_i64(100, thirds, 3, parts, 2) == RATIO_UNLIKE_LENGTHS && ARE_PARTS(parts, 7, 7, 7), "two parts for three shares");
    expect(ratio_split_i64(100, thirds, 0, parts, 0) == RATIO_NOT_ONE, "no shares");
    expect(ratio_split_i64(100, thirds, 3, parts, 3) == RATIO_ANSWERED && ARE_PARTS(parts, 33, 34, 33), "thirds of 100");
    expect(ratio_split_i64(-100, thirds, 3, parts, 3) == RATIO_ANSWERED && ARE_PARTS(parts, -33, -34, -33), "thirds of -100");
    expect(ratio_split_i64(INT64_MAX, most, 3, parts, 3) == RATIO_ANSWERED, "halves of 2^63-1");
    expect(ARE_PARTS(parts, INT64_C(4611686018427387904), 0, INT64_C(4611686018427387903)), "halves of 2^63-1");
}

/* The same by weights. */
static void splits_by_weights(void) {
    static const int64_t equal[3] = {1, 1, 1}, units[3] = {12, 0, 7}, none[3] = {0, 0, 0}, below[3] = {2, 0, -1}, most[3] = {INT64_MAX, 1, 0};
    int64_t parts[3] = {7, 7, 7};
    expect(ratio_split_by_weights_i64(100, none, 3, parts, 3) == RATIO_ALL_ZERO && ARE_PARTS(parts, 7, 7, 7), "weights that are 0");
    expect(ratio_split_by_weights_i64(100, below, 3, parts, 3) == RATIO_BELOW_ZERO && ARE_PARTS(parts, 7, 7, 7), "a weight below 0");
    expect(ratio_split_by_weights_i64(100, most, 3, parts, 3) == RATIO_NOT_HELD && ARE_PARTS(parts, 7, 7, 7), "weights that do not fit");
    expect(ratio_split_by_weights_i64(100, equal, 3, parts, 2) == RATIO_UNLIKE_LENGTHS && ARE_PARTS(parts, 7, 7, 7), "two parts for three weights");
    expect(ratio_split_by_weights_i64(100, none, 0, parts, 0) == RATIO_ALL_ZERO, "no weights");
    expect(ratio_split_by_weights_i64(100, equal, 3, parts, 3) == RATIO_ANSWERED && ARE_PARTS(parts, 33, 34, 33), "100 by equal weights");
    expect(ratio_split_by_weights_i64(1000, units, 3, parts, 3) == RATIO_ANSWERED && ARE_PARTS(parts, 632, 0, 368), "1000 by 12, 0 and 7");
    expect(ratio_split_by_weights_i64(INT64_MIN, units, 3, parts, 3) == RATIO_ANSWERED, "the least amount");
    expect(ARE_PARTS(parts, -INT64_C(5825287602224068931), 0, -INT64_C(3398084434630706877)), "the least amount");
}

/* A script of Python computed the hash of 1/2, by the definition. */
static void lowest_hashes(void) {
    const ratio_i64 x[4] = {{1, 2}, {-1, 2}, {1, 3}, {1, 0}};
    const ratio_i32 narrow[2] = {{1, 2}, {-1, 2}};
    ratio_hash hash[4], narrow_hash[2];
    expect(ratio_hash_lowest_i64(x, 4, hash, 4) == RATIO_DONE, "lowest hash");
    expect(ratio_hash_lowest_i32(narrow, 2, narrow_hash, 2) == RATIO_DONE, "lowest hash of 32 bits");
    expect(hash[0].code == RATIO_ANSWERED && hash[0].hash == UINT64_C(0xce9190573cc142f8), "lowest hash of 1/2");
    expect(hash[0].hash == narrow_hash[0].hash && hash[1].hash == narrow_hash[1].hash, "lowest hash of each width");
    expect(hash[0].hash != hash[1].hash && hash[0].hash != hash[2].hash, "unlike lowest hashes");
    expect(hash[3].code == RATIO_DENOMINATOR_NOT_POSITIVE && hash[3].hash == 0, "no lowest hash");
}

/* The least number has no negative, and fits no narrower type. */
static void casts(void) {
    const ratio_i64 least = {.numer = INT64_MIN, .denom = 1}, half = {.numer = -1, .denom = 2};
    const ratio_i32 narrow = {.numer = -1, .denom = 2};
    const ratio_i128 wide = {.numer = {.low = UINT64_MAX, .high = -1}, .denom = {.low = 2}};
    const ratio_answer_i64 low = {RATIO_ANSWERED, {-1, 2}};
    const ratio_answer_i32 narrow_low = {RATIO_ANSWERED, {-1, 2}};
    const ratio_answer_i128 wide_low = {RATIO_ANSWERED, {{UINT64_MAX, -1}, {2, 0}}};
    ratio_answer_i64 answer[1];
    ratio_answer_i32 narrowed[1];
    ratio_answer_i128 widened[1];
    expect(ratio_cast_i64_to_i32(&least, 1, narrowed, 1) == RATIO_DONE && narrowed[0].code == RATIO_NOT_HELD, "cast of the least");
    expect(ratio_cast_i64_to_i32(&half, 1, narrowed, 1) == RATIO_DONE && SAME(narrowed[0], narrow_low), "cast to 32 bits");
    expect(ratio_cast_i128_to_i32(&wide, 1, narrowed, 1) == RATIO_DONE && SAME(narrowed[0], narrow_low), "cast 128 to 32 bits");
    expect(ratio_cast_i32_to_i64(&narrow, 1, answer, 1) == RATIO_DONE && SAME(answer[0], low), "cast to 64 bits");
    expect(ratio_cast_i128_to_i64(&wide, 1, answer, 1) == RATIO_DONE && SAME(answer[0], low), "cast 128 to 64 bits");
    expect(ratio_cast_i32_to_i128(&narrow, 1, widened, 1) == RATIO_DONE && SAME(widened[0], wide_low), "cast 32 to 128 bits");
    expect(ratio_cast_i64_to_i128(&half, 1, widened, 1) == RATIO_DONE && SAME(widened[0], wide_low), "cast 64 to 128 bits");
}

/* Whether the last call on a total ended with this code, after so many items. */
#define STOPPED(total, why, items) ((total).code == (why) && (total).done == (items))

/* Three shares of a whole: in two parts, merged, and without the last one again. */
static void totals(void) {
    static const ratio_i64 shares[3] = {{1, 2}, {2, 6}, {1, 6}};
    ratio_total_i64 total = {0}, other = {0}, pair[2] = {{0}, {0}};
    ratio_slot_i64 slots[4] = {{0}}, others[2] = {{0}};
    uint64_t room[64];
    ratio_answer_i64 answer[1];
    expect(ratio_total_add_i64(shares, 2, &total, 1, slots, 4) == RATIO_DONE && STOPPED(total, RATIO_ANSWERED, 2), "add to a total");
    expect(ratio_total_add_i64(shares + 2, 1, &other, 1, others, 2) == RATIO_DONE && other.count == 1, "add to another total");
    expect(ratio_total_merge_i64(others, 2, other.count, &total, 1, slots, 4) == RATIO_DONE && STOPPED(total, RATIO_ANSWERED, 2), "merge of totals");
    expect(total.count == 3 && ratio_total_free_i64(slots, 4) == 2 && ratio_total_digits_i64(slots, 4) == 14, "room of a total");
    expect(ratio_total_sum_i64(slots, 4, room, 14, answer, 1) == RATIO_DONE && answer->code == RATIO_ANSWERED, "sum of a total");
    expect(answer->value.numer == 1 && answer->value.denom == 1, "sum of a total");
    expect(ratio_total_mean_i64(slots, 4, total.count, room, 14, answer, 1) == RATIO_DONE && answer->code == RATIO_ANSWERED, "mean of a total");
    expect(answer->value.numer == 1 && answer->value.denom == 3, "mean of a total");
    expect(ratio_total_mean_i64(slots, 4, 0, room, 14, answer, 1) == RATIO_DONE && answer->code == RATIO_DIVISION_BY_ZERO, "mean of no fraction");
    expect(ratio_total_unmerge_i64(others, 2, other.count, &total, 1, slots, 4) == RATIO_DONE && total.count == 2, "unmerge of a total");
    expect(ratio_total_subtract_i64(shares, 1, &total, 1, slots, 4) == RATIO_DONE && total.count == 1, "subtract from a total");
    expect(ratio_total_sum_i64(slots, 4, room, 64, answer, 1) == RATIO_DONE && answer->value.numer == 1 && answer->value.denom == 3, "sum of the rest");
    expect(ratio_total_add_i64(shares, 1, pair, 2, slots, 4) == RATIO_BAD_LENGTH && pair[0].count == 0, "two totals");
    expect(ratio_total_sum_i64(slots, 4, room, 64, answer, 0) == RATIO_BAD_LENGTH, "no answer");
}

/* A total that grows: 1/36 and -5/12 move to the next table, and 0/28 does not. */
static void growing_totals(void) {
    ratio_slot_i64 slots[4] = {{28, {0, 0}}, {36, {1, 0}}, {0, {0, 0}}, {12, {UINT64_MAX - 4, -1}}}, next[8] = {{0}};
    ratio_total_i64 moved = {0};
    uint64_t room[14];
    ratio_answer_i64 answer[1];
    expect(ratio_total_leave_zeros_i64(slots, 4) == 2 && slots[0].denom == 36 && slots[0].numer.low == 1, "the first fraction that is left");
    expect(slots[1].denom == 12 && slots[1].numer.low == UINT64_MAX - 4 && slots[1].numer.high == -1, "the second fraction that is left");
    expect(ratio_total_free_i64(slots, 4) == 2 && slots[3].numer.low == 0 && slots[3].numer.high == 0, "the slots behind");
    expect(ratio_total_next_length_i64(2, 0, 0, 8) == 8 && ratio_total_next_length_i64(12, 0, 6, 100) == 26, "the next length");
    expect(ratio_total_next_length_i64(8, 4, 0, 24) == 24 && ratio_total_next_length_i64(8, 4, 0, 23) == 0, "the greatest length");
    expect(ratio_total_merge_i64(slots, 2, 7, &moved, 1, next, 8) == RATIO_DONE && STOPPED(moved, RATIO_ANSWERED, 2) && moved.count == 7, "the move");
    expect(ratio_total_sum_i64(next, 8, room, 14, answer, 1) == RATIO_DONE && answer->value.numer == -7 && answer->value.denom == 18, "the sum after the move");
}

/* Items that are refused, and a total that moves to more slots. */
static void stops_of_totals(void) {
    static const ratio_i64 asked[4] = {{1, 2}, {1, 3}, {1, 5}, {1, 0}};
    static const ratio_slot_i64 great[1] = {{2, {UINT64_MAX, INT64_MAX}}}, unclean[1] = {{0, {1, 0}}};
    ratio_total_i64 total = {0}, moved = {0}, full = {0};
    ratio_slot_i64 slots[2] = {{0}}, more[4] = {{0}}, one[1];
    expect(ratio_total_add_i64(asked, 4, &total, 1, slots, 2) == RATIO_DONE && STOPPED(total, RATIO_MORE_ROOM, 2), "a third denominator");
    expect(ratio_total_merge_i64(slots, 2, total.count, &moved, 1, more, 4) == RATIO_DONE && moved.count == 2, "move of a total");
    expect(ratio_total_add_i64(asked + 2, 2, &moved, 1, more, 4) == RATIO_DONE, "add to a total that moved");
    expect(STOPPED(moved, RATIO_DENOMINATOR_NOT_POSITIVE, 1) && moved.count == 3, "a denominator of 0");
    *one = *great;
    expect(ratio_total_add_i64(asked, 1, &total, 1, one, 1) == RATIO_DONE && STOPPED(total, RATIO_NOT_HELD, 0), "a numerator above 128 bits");
    *one = *unclean;
    expect(ratio_total_add_i64(asked, 1, &total, 1, one, 1) == RATIO_DONE && STOPPED(total, RATIO_NO_TOTAL, 0), "an empty slot with a numerator");
    full.count = INT64_MAX;
    expect(ratio_total_merge_i64(slots, 2, 1, &full, 1, more, 4) == RATIO_DONE && STOPPED(full, RATIO_NOT_HELD, 2), "a count above 64 bits");
    expect(full.count == INT64_MAX, "a count that stays");
}

/* The sign of 1/36 - 1/28, and the float and the decimal of 1/36 + 1/28. Python's `fractions` computed them. */
static void reads_of_totals(void) {
    static const ratio_slot_i64 unlike[2] = {{36, {1, 0}}, {28, {UINT64_MAX, -1}}}, like[2] = {{36, {1, 0}}, {28, {1, 0}}};
    uint64_t room[64];
    uint8_t bytes[256];
    ratio_order order[1];
    ratio_float value[1];
    ratio_text text[1];
    const uint64_t digits = ratio_total_print_digits_i64(like, 2, 4), size = ratio_total_print_bytes_i64(like, 2, 4);
    expect(ratio_total_sign_i64(unlike, 2, room, 64, order, 1) == RATIO_DONE && order->code == RATIO_ANSWERED && order->order == -1, "sign of a total");
    expect(ratio_total_sign_i64(unlike, 2, room, 13, order, 1) == RATIO_DONE && order->code == RATIO_MORE_ROOM, "sign without room");
    expect(ratio_total_to_f64_i64(like, 2, room, 64, value, 1) == RATIO_DONE && value->code == RATIO_ANSWERED && value->value == 0.06349206349206349, "float of a total");
    expect(ratio_total_to_f64_i64(like, 2, room, 13, value, 1) == RATIO_DONE && value->code == RATIO_MORE_ROOM && value->value == 0, "float without room");
    expect(digits == 20 && size == 147, "room for a decimal of a total");
    expect(ratio_total_print_i64(like, 2, 4, RATIO_RULE_HALF_EVEN, room, digits, bytes, size, text, 1) == RATIO_DONE, "decimal of a total");
    expect(text->code == RATIO_ANSWERED && text->span.end == size && text->span.start == size - 6, "place of a decimal of a total");
    expect(memcmp(bytes + text->span.start, "0.0635", 6) == 0, "text of a decimal of a total");
    expect(ratio_total_print_i64(like, 2, 4, 6, room, digits, bytes, size, text, 1) == RATIO_DONE && text->code == RATIO_BAD_OPTION, "no rule");
    expect(ratio_total_print_i64(like, 2, 4, 0, room, digits, bytes, size - 1, text, 1) == RATIO_DONE && text->code == RATIO_MORE_ROOM, "no room");
    expect(text->span.start == text->span.end, "span of no text");
}

/* Decimals in one pass. Python's `fractions` computed them. */
static void bounded_decimals(void) {
    static const ratio_slot_i64 sum[2] = {{36, {1, 0}}, {28, {1, 0}}}, half[2] = {{3, {1, 0}}, {6, {1, 0}}};
    uint64_t room[35];
    uint8_t bytes[167];
    ratio_text text[1];
    expect(ratio_total_print_bounded_i64(sum, 2, 4, RATIO_RULE_HALF_EVEN, room, 35, bytes, 167, text, 1) == RATIO_DONE, "decimal in one pass");
    expect(text->code == RATIO_ANSWERED && text->span.end == 167 && text->span.start == 161, "place of a decimal in one pass");
    expect(memcmp(bytes + 161, "0.0635", 6) == 0, "text of a decimal in one pass");
    expect(ratio_total_print_bounded_i64(half, 2, 1, RATIO_RULE_HALF_EVEN, room, 35, bytes, 167, text, 1) == RATIO_DONE && text->code == RATIO_ANSWERED, "a half with a place");
    expect(ratio_total_print_bounded_i64(half, 2, 0, RATIO_RULE_HALF_EVEN, room, 35, bytes, 167, text, 1) == RATIO_DONE && text->code == RATIO_NOT_HELD, "a half without places");
    expect(text->span.start == text->span.end, "span of no text in one pass");
    expect(ratio_total_print_bounded_i64(sum, 2, 4, 6, room, 35, bytes, 167, text, 1) == RATIO_DONE && text->code == RATIO_BAD_OPTION, "no rule in one pass");
    expect(ratio_total_print_bounded_i64(sum, 2, 4, 0, room, 34, bytes, 167, text, 1) == RATIO_DONE && text->code == RATIO_MORE_ROOM, "no digits in one pass");
    expect(ratio_total_print_bounded_i64(sum, 2, 4, 0, room, 35, bytes, 166, text, 1) == RATIO_DONE && text->code == RATIO_MORE_ROOM, "no bytes in one pass");
    expect(ratio_total_print_bounded_i64(sum, 2, 4, 0, room, 35, bytes, 167, text, 0) == RATIO_BAD_LENGTH, "no answer in one pass");
}

/* Joins all slots, so many in each step, or stops where a step is refused. */
static ratio_joined_i64 join_all(const ratio_slot_i64 *slots, size_t many, uint64_t most, uint64_t *room, size_t digits) {
    ratio_joined_i64 joined = {0};
    do {
        expect(ratio_total_join_i64(slots, many, most, &joined, 1, room, digits) == RATIO_DONE, "a step");
    } while (joined.code == RATIO_ANSWERED && joined.done < many);
    return joined;
}

#define IS_STEP(joined, why, slots, size) ((joined).code == (why) && (joined).done == (slots) && (joined).digits == (size))

/* The steps of 1/36 + 1/28, and those that are refused. */
static void steps_of_totals(void) {
    static const ratio_slot_i64 slots[2] = {{36, {1, 0}}, {28, {1, 0}}};
    uint64_t room[14];
    ratio_joined_i64 joined[2] = {{0}}, far = {RATIO_ANSWERED, 3, 2}, wide = {RATIO_ANSWERED, 1, 20000};
    ratio_answer_i64 answer[1];
    expect(ratio_total_join_i64(slots, 2, 1, joined, 2, room, 14) == RATIO_BAD_LENGTH && IS_STEP(*joined, 0, 0, 0), "two headers");
    expect(ratio_total_join_i64(slots, 2, 1, joined, 1, room, 13) == RATIO_DONE && IS_STEP(*joined, RATIO_MORE_ROOM, 0, 0), "a step without room");
    expect(ratio_total_join_i64(slots, 2, 0, joined, 1, room, 14) == RATIO_DONE && IS_STEP(*joined, RATIO_ANSWERED, 0, 2), "a step of no slot");
    expect(ratio_total_join_i64(slots, 2, 1, joined, 1, room, 14) == RATIO_DONE && IS_STEP(*joined, RATIO_ANSWERED, 1, 2), "a step of one slot");
    expect(ratio_total_join_i64(slots, 2, 9, joined, 1, room, 14) == RATIO_DONE && IS_STEP(*joined, RATIO_ANSWERED, 2, 2), "the last step");
    expect(ratio_total_join_i64(slots, 2, 9, joined, 1, room, 14) == RATIO_DONE && IS_STEP(*joined, RATIO_ANSWERED, 2, 2), "a step behind the last");
    expect(ratio_joined_sum_i64(joined->digits, room, 14, answer, 1) == RATIO_DONE && answer->code == RATIO_ANSWERED, "sum of a room");
    expect(answer->value.numer == 4 && answer->value.denom == 63, "sum of a room");
    expect(ratio_total_join_i64(slots, 2, 1, &far, 1, room, 14) == RATIO_DONE && IS_STEP(far, RATIO_NO_TOTAL, 3, 2), "more slots than there are");
    expect(ratio_total_join_i64(slots, 2, 1, &wide, 1, room, 14) == RATIO_DONE && IS_STEP(wide, RATIO_NO_TOTAL, 1, 20000), "more digits than there are");
    memset(room, 0, sizeof room);
    joined->done = 1;
    expect(ratio_total_join_i64(slots, 2, 1, joined, 1, room, 14) == RATIO_DONE && IS_STEP(*joined, RATIO_NO_TOTAL, 1, 2), "a room that changed");
    joined->done = 0;
    expect(ratio_total_join_i64(slots, 2, 1, joined, 1, room, 14) == RATIO_DONE && IS_STEP(*joined, RATIO_NO_TOTAL, 0, 2), "a room that changed at the start");
}

/* What the room gives once all is joined. Python's `fractions` computed the answers. */
static void joined_totals(void) {
    static const ratio_slot_i64 sum[2] = {{36, {1, 0}}, {28, {1, 0}}}, less[2] = {{36, {1, 0}}, {28, {UINT64_MAX, -1}}};
    static const ratio_slot_i64 primes[2] = {{4294967291, {1, 0}}, {4294967279, {1, 0}}};
    const size_t digits = ratio_total_print_digits_i64(sum, 2, 4), size = ratio_total_print_bytes_i64(sum, 2, 4);
    uint64_t room[20];
    uint8_t bytes[147];
    ratio_answer_i64 answer[1];
    ratio_order order[1];
    ratio_float value[1];
    ratio_text text[1];
    const ratio_joined_i64 none = join_all(sum, 0, 1, room, 14);
    expect(digits == 20 && size == 147, "room for a decimal of a room");
    expect(IS_STEP(none, RATIO_ANSWERED, 0, 1) && ratio_joined_sum_i64(1, room, 14, answer, 1) == RATIO_DONE, "no slot");
    expect(answer->code == RATIO_ANSWERED && answer->value.numer == 0 && answer->value.denom == 1, "sum of no slot");
    (void) join_all(sum, 2, 1, room, 14);
    expect(ratio_joined_mean_i64(2, 2, room, 14, answer, 1) == RATIO_DONE && answer->code == RATIO_ANSWERED, "mean of a room");
    expect(answer->value.numer == 2 && answer->value.denom == 63, "mean of a room");
    expect(ratio_joined_mean_i64(2, 0, room, 14, answer, 1) == RATIO_DONE && answer->code == RATIO_DIVISION_BY_ZERO, "mean of no fraction in a room");
    (void) join_all(less, 2, 1, room, 14);
    expect(ratio_joined_sign_i64(2, room, 14, order, 1) == RATIO_DONE && order->code == RATIO_ANSWERED && order->order == -1, "sign of a room");
    (void) join_all(sum, 2, 2, room, 14);
    expect(ratio_joined_to_f64_i64(2, room, 14, value, 1) == RATIO_DONE && value->code == RATIO_ANSWERED && value->value == 0.06349206349206349, "float of a room");
    (void) join_all(sum, 2, 1, room, digits);
    expect(ratio_joined_print_i64(2, 4, 6, room, digits, bytes, size, text, 1) == RATIO_DONE && text->code == RATIO_BAD_OPTION, "no rule in a room");
    (void) join_all(sum, 2, 1, room, digits);
    expect(ratio_joined_print_i64(2, 4, RATIO_RULE_HALF_EVEN, room, digits, bytes, size, text, 1) == RATIO_DONE && text->code == RATIO_ANSWERED, "decimal of a room");
    expect(text->span.end == size && text->span.start == size - 6 && memcmp(bytes + size - 6, "0.0635", 6) == 0, "text of a decimal of a room");
    (void) join_all(primes, 2, 1, room, 14);
    expect(ratio_joined_sum_i64(2, room, 14, answer, 1) == RATIO_DONE && answer->code == RATIO_NOT_HELD, "a sum above 64 bits in a room");
}

/* Fills a room of 20 digits: 0 over a common denominator of 2 digits, whose lower digit is given. A read uses the room up, so each one gets it anew. */
static uint64_t *zero_over(uint64_t common, uint64_t room[20]) {
    memset(room, 0, 20 * sizeof *room);
    room[5] = common;
    return room;
}

/* Rooms that have no total. */
static void rooms_of_no_total(void) {
    uint64_t room[20];
    uint8_t bytes[147];
    ratio_answer_i64 answer[1];
    ratio_order order[1];
    ratio_float value[1];
    ratio_text text[1];
    expect(ratio_joined_sum_i64(2, zero_over(1, room), 14, answer, 0) == RATIO_BAD_LENGTH && room[5] == 1, "no answer from a room");
    expect(ratio_joined_print_i64(2, 4, 0, zero_over(1, room), 20, bytes, 146, text, 1) == RATIO_DONE && text->code == RATIO_NO_TOTAL, "no bytes for a room");
    expect(ratio_joined_print_i64(2, 4, 0, zero_over(1, room), 19, bytes, 147, text, 1) == RATIO_DONE && text->code == RATIO_NO_TOTAL, "no digits for a decimal of a room");
    expect(text->span.start == text->span.end, "span of no text of a room");
    expect(ratio_joined_sign_i64(0, zero_over(1, room), 14, order, 1) == RATIO_DONE && order->code == RATIO_NO_TOTAL && order->order == 0, "a room without digits");
    expect(ratio_joined_sign_i64(2, zero_over(1, room), 13, order, 1) == RATIO_DONE && order->code == RATIO_NO_TOTAL, "a room that is too short");
    expect(ratio_joined_sign_i64(UINT64_MAX, zero_over(1, room), 20, order, 1) == RATIO_DONE && order->code == RATIO_NO_TOTAL, "a room with too many digits");
    expect(ratio_joined_sum_i64(2, zero_over(0, room), 14, answer, 1) == RATIO_DONE && answer->code == RATIO_NO_TOTAL, "a sum over 0");
    expect(ratio_joined_mean_i64(2, 1, zero_over(0, room), 14, answer, 1) == RATIO_DONE && answer->code == RATIO_NO_TOTAL, "a mean over 0");
    expect(ratio_joined_to_f64_i64(2, zero_over(0, room), 14, value, 1) == RATIO_DONE && value->code == RATIO_NO_TOTAL && value->value == 0, "a float over 0");
}

/* The multiples of 1/36 + 1/28, and its order beside 1/15. Python's `fractions` computed them. */
static void multiples_and_orders_of_totals(void) {
    static const ratio_slot_i64 sum[2] = {{36, {1, 0}}, {28, {1, 0}}}, fifteenth[1] = {{15, {1, 0}}}, least[1] = {{15, {0, INT64_MIN}}};
    ratio_slot_i64 slots[3];
    uint64_t room[64];
    ratio_answer_i64 answer[1];
    ratio_order order[1];
    expect(ratio_total_round_to_digits_i64(sum, 2) == 20 && ratio_total_compare_digits_i64(sum, 2, fifteenth, 1) == 18, "room for reads of a total");
    expect(ratio_total_round_to_i64(sum, 2, 100, RATIO_RULE_HALF_EVEN, room, 20, answer, 1) == RATIO_DONE && answer->code == RATIO_ANSWERED, "cents of a total");
    expect(answer->value.numer == 3 && answer->value.denom == 50, "cents of a total");
    expect(ratio_total_round_to_i64(sum, 2, 1, RATIO_RULE_CEIL, room, 20, answer, 1) == RATIO_DONE && answer->value.numer == 1 && answer->value.denom == 1, "ceiling of a total");
    expect(ratio_total_round_to_i64(sum, 2, 0, RATIO_RULE_CEIL, room, 20, answer, 1) == RATIO_DONE && answer->code == RATIO_BAD_OPTION, "no parts");
    expect(ratio_total_round_to_i64(sum, 2, 100, 6, room, 20, answer, 1) == RATIO_DONE && answer->code == RATIO_BAD_OPTION, "no rule of a multiple");
    expect(ratio_total_round_to_i64(sum, 2, 100, 0, room, 19, answer, 1) == RATIO_DONE && answer->code == RATIO_MORE_ROOM, "no room for a multiple");
    expect(ratio_total_round_to_i64(least, 1, 1, 0, room, 64, answer, 1) == RATIO_DONE && answer->code == RATIO_NOT_HELD, "a multiple above 64 bits");
    expect(ratio_total_compare_i64(sum, 2, fifteenth, 1, slots, 3, room, 18, order, 1) == RATIO_DONE && order->code == RATIO_ANSWERED && order->order == -1, "order of totals");
    expect(ratio_total_compare_i64(fifteenth, 1, sum, 2, slots, 3, room, 18, order, 1) == RATIO_DONE && order->code == RATIO_ANSWERED && order->order == 1, "order of totals");
    expect(ratio_total_compare_i64(sum, 2, sum, 2, slots, 3, room, 64, order, 1) == RATIO_DONE && order->code == RATIO_MORE_ROOM, "no slots for an order");
    expect(ratio_total_compare_i64(sum, 2, fifteenth, 1, slots, 3, room, 17, order, 1) == RATIO_DONE && order->code == RATIO_MORE_ROOM, "no digits for an order");
    expect(ratio_total_compare_i64(sum, 2, least, 1, slots, 3, room, 18, order, 1) == RATIO_DONE && order->code == RATIO_NOT_HELD, "a negative above 128 bits");
    expect(ratio_total_compare_i64(sum, 2, least, 1, slots, 3, room, 18, order, 0) == RATIO_BAD_LENGTH, "no order");
}

/* A total whose common denominator, the product of all primes below 730000, has more than 2^20 bits. Three primes make a denominator. */
static void long_total(void) {
    enum { PRIMES = 730000, SLOTS = 20000, DIGITS = 4 * 16384 + 6 };
    static uint8_t is_composite[PRIMES];
    static ratio_slot_i64 slots[SLOTS], both[SLOTS];
    static uint64_t room[DIGITS];
    uint64_t product = 1;
    size_t slot = 0;
    int factors = 0;
    ratio_answer_i64 answer[1];
    ratio_order order[1];
    ratio_joined_i64 joined;
    for (uint64_t p = 2; p < PRIMES; p++) {
        if (is_composite[p]) continue;
        for (uint64_t multiple = p * p; multiple < PRIMES; multiple += p) is_composite[multiple] = 1;
        product *= p;
        if (++factors % 3 != 0) continue;
        slots[slot].denom = product, slots[slot].numer.low = 1;
        slot++, product = 1;
    }
    expect(slot > 16384 && slot < SLOTS && ratio_total_digits_i64(slots, slot) == DIGITS, "digits of a long total");
    expect(ratio_total_sum_i64(slots, slot, room, DIGITS, answer, 1) == RATIO_DONE && answer->code == RATIO_TOO_LONG, "sum of a long total");
    expect(ratio_total_mean_i64(slots, slot, 1, room, DIGITS - 1, answer, 1) == RATIO_DONE && answer->code == RATIO_MORE_ROOM, "room of a long total");
    expect(ratio_total_compare_i64(slots, slot, slots, 1, both, SLOTS, room, DIGITS, order, 1) == RATIO_DONE && order->code == RATIO_TOO_LONG, "order of a long total");
    joined = join_all(slots, slot, 64, room, DIGITS);
    expect(joined.code == RATIO_TOO_LONG && joined.done < slot && joined.done % 64 == 0 && joined.digits == 16384, "steps of a long total");
    const size_t before = joined.done;
    joined = join_all(slots, before, 1000, room, DIGITS);
    expect(IS_STEP(joined, RATIO_ANSWERED, before, 16384) && ratio_joined_sum_i64(16384, room, DIGITS, answer, 1) == RATIO_DONE, "steps before that");
    expect(answer->code == RATIO_NOT_HELD, "sum of the steps before that");
}

/* Python's division, which gives the nearest float, computed the keys. */
static void keys(void) {
    static const ratio_i64 x[6] = {{INT64_MIN, 1}, {-1, 3}, {0, 7}, {2, 4}, {INT64_MAX, 1}, {1, 0}};
    ratio_key key[6];
    int i;
    expect(ratio_key_i64(x, 6, key, 6) == RATIO_DONE, "keys");
    expect(key[0].key == -INT64_C(4890909195324358656) && key[1].key == -INT64_C(4599676419421066581), "keys below 0");
    expect(key[2].code == RATIO_ANSWERED && key[2].key == 0 && key[3].key == INT64_C(4602678819172646912), "keys of 0 and 1/2");
    for (i = 0; i < 4; i++) expect(key[i].key < key[i + 1].key, "order of keys");
    expect(key[5].code == RATIO_DENOMINATOR_NOT_POSITIVE && key[5].key == 0, "no key");
}

/* Python gave the hashes: hash(Fraction(numer, denom)). 2^61 - 1, the modulus, is 2305843009213693951. */
static void python_hashes(void) {
    static const struct { ratio_i64 x; int64_t hash; } rows[] = {
        {{0, 7}, 0}, {{1, 1}, 1}, {{-1, 1}, -2}, {{-3, 3}, -2}, {{2, 4}, INT64_C(1152921504606846976)}, {{-1, 2}, -INT64_C(1152921504606846976)},
        {{127, 50}, INT64_C(1060687784238299220)}, {{INT64_MAX, 1}, 3}, {{INT64_MIN, 1}, -4},
        {{INT64_MIN, INT64_MAX}, -INT64_C(1537228672809129302)}, {{INT64_MAX, INT64_MAX - 1}, INT64_C(1152921504606846977)},
        {{INT64_C(2305843009213693951), 1}, 0}, {{-INT64_C(2305843009213693952), 1}, -2}, {{1, INT64_C(2305843009213693951)}, 314159},
        {{-1, INT64_C(2305843009213693951)}, -314159}, {{3, INT64_C(9223372036854775804)}, 314159}, {{0, INT64_C(2305843009213693951)}, 0},
        {{INT64_C(2305843009213693951), INT64_C(4611686018427387902)}, INT64_C(1152921504606846976)},
        {{-INT64_C(2305843009213693951), INT64_C(2305843009213693951)}, -2},
    };
    static const ratio_i64 none[2] = {{1, 0}, {1, -1}};
    ratio_residue hash[2];
    for (size_t i = 0; i < sizeof rows / sizeof rows[0]; i++) {
        expect(ratio_hash_mod61_i64(&rows[i].x, 1, hash, 1) == RATIO_DONE, "hash of Python");
        expect(hash[0].code == RATIO_ANSWERED && hash[0].hash == rows[i].hash, "the hash that Python gives");
    }
    expect(ratio_hash_mod61_i64(none, 2, hash, 2) == RATIO_DONE, "no hash of Python");
    for (size_t i = 0; i < 2; i++) expect(hash[i].code == RATIO_DENOMINATOR_NOT_POSITIVE && hash[i].hash == 0, "no hash of Python");
}

/* Python's whole numbers gave the bytes: (x + 2^63) * 2^128, rounded down. The fractions rise. */
static void sortable_bytes(void) {
    static const struct { ratio_i64 x; uint8_t bytes[24]; } rows[] = {
        {{INT64_MIN, 1}, {0}},
        {{-1, 1}, {0x7f, 0xff, 0xff, 0xff, 0xff, 0xff, 0xff, 0xff}},
        {{-1, 3}, {0x7f, 0xff, 0xff, 0xff, 0xff, 0xff, 0xff, 0xff, 0xaa, 0xaa, 0xaa, 0xaa, 0xaa, 0xaa, 0xaa, 0xaa, 0xaa, 0xaa, 0xaa, 0xaa, 0xaa, 0xaa, 0xaa, 0xaa}},
        {{-1, INT64_MAX}, {0x7f, 0xff, 0xff, 0xff, 0xff, 0xff, 0xff, 0xff, 0xff, 0xff, 0xff, 0xff, 0xff, 0xff, 0xff, 0xfd, 0xff, 0xff, 0xff, 0xff, 0xff, 0xff, 0xff, 0xfb}},
        {{0, 5}, {0x80}},
        {{2, 4}, {0x80, 0, 0, 0, 0, 0, 0, 0, 0x80}},
        {{INT64_MAX - 1, INT64_MAX}, {0x80, 0, 0, 0, 0, 0, 0, 0, 0xff, 0xff, 0xff, 0xff, 0xff, 0xff, 0xff, 0xfd, 0xff, 0xff, 0xff, 0xff, 0xff, 0xff, 0xff, 0xfb}},
        {{INT64_MAX, 1}, {0xff, 0xff, 0xff, 0xff, 0xff, 0xff, 0xff, 0xff}},
    };
    static const uint8_t zeros[24] = {0};
    static const ratio_i64 half = {1, 2}, none = {1, 0};
    ratio_sortable key, again;
    for (size_t i = 0; i < sizeof rows / sizeof rows[0]; i++) {
        expect(ratio_sortable_i64(&rows[i].x, 1, &key, 1) == RATIO_DONE && key.code == RATIO_ANSWERED, "bytes for sorting");
        expect(memcmp(key.bytes, rows[i].bytes, 24) == 0, "the bytes for sorting");
    }
    expect(ratio_sortable_i64(&rows[5].x, 1, &key, 1) == RATIO_DONE && ratio_sortable_i64(&half, 1, &again, 1) == RATIO_DONE, "bytes of equal values");
    expect(memcmp(key.bytes, again.bytes, 24) == 0, "bytes of equal values");
    expect(ratio_sortable_i64(&none, 1, &key, 1) == RATIO_DONE && key.code == RATIO_DENOMINATOR_NOT_POSITIVE, "no bytes for sorting");
    expect(memcmp(key.bytes, zeros, 24) == 0, "no bytes for sorting");
}

/* The answers of one call, and one fraction for all, as operands of the next: 1/2 + 1/3 and 1/2 - 1/3, times 6/5, by 1/2, and so on. */
static void chained_calls(void) {
    static const ratio_pair_i64 pairs[3] = {{{1, 2}, {1, 3}}, {{1, 2}, {-1, 3}}, {{INT64_MAX, 1}, {1, 1}}};
    static const ratio_i64 halves[3] = {{1, 2}, {1, 2}, {1, 2}}, rate = {6, 5};
    static const uint8_t untouched[sizeof(ratio_answer_i64)] = {9};
    ratio_answer_i64 sums[3], products[3], quotients[3], rests[3], again[3], kept;
    ratio_order orders[3];
    const int64_t *sum = &sums->value.numer, *product = &products->value.numer, *quotient = &quotients->value.numer, *half = &halves->numer;
    expect(ratio_add_i64(pairs, 3, sums, 3) == RATIO_DONE && sums[2].code == RATIO_NOT_HELD, "the first sums");
    expect(ratio_mul_strided_i64(sum, 8, 3, &rate.numer, 2, 0, products, 3) == RATIO_DONE, "answers times one rate");
    expect(products[0].value.numer == 1 && products[0].value.denom == 1 && products[1].value.numer == 1 && products[1].value.denom == 5, "answers times one rate");
    expect(products[2].code == RATIO_DENOMINATOR_NOT_POSITIVE && products[2].value.denom == 0, "an answer without a value");
    expect(ratio_div_strided_i64(product, 8, 3, half, 6, 2, quotients, 3) == RATIO_DONE, "answers by an array");
    expect(quotients[0].value.numer == 2 && quotients[0].value.denom == 1 && quotients[1].value.numer == 2 && quotients[1].value.denom == 5, "answers by an array");
    expect(ratio_sub_strided_i64(half, 6, 2, quotient, 5, 3, rests, 2) == RATIO_DONE, "an array less answers");
    expect(rests[0].value.numer == -3 && rests[0].value.denom == 2 && rests[1].value.numer == 1 && rests[1].value.denom == 10, "an array less answers");
    expect(ratio_add_strided_i64(quotient, 5, 3, product, 5, 3, again, 2) == RATIO_DONE, "answers and answers");
    expect(again[0].value.numer == 3 && again[0].value.denom == 1 && again[1].value.numer == 3 && again[1].value.denom == 5, "answers and answers");
    expect(ratio_compare_strided_i64(quotient, 8, 3, half, 2, 0, orders, 3) == RATIO_DONE, "orders of answers");
    expect(orders[0].order == 1 && orders[1].order == -1 && orders[2].code == RATIO_ZERO_DENOMINATOR, "orders of answers");
    memcpy(&kept, untouched, sizeof kept);
    expect(ratio_add_strided_i64(half, 1, 0, half, 2, 0, &kept, 1) == RATIO_BAD_LENGTH, "half a fraction");
    expect(ratio_add_strided_i64(half, 6, 0, half, 0, 2, &kept, 1) == RATIO_BAD_LENGTH, "no fraction");
    expect(memcmp(&kept, untouched, sizeof kept) == 0, "nothing is written");
    expect(ratio_add_strided_i64(half, 6, UINT64_MAX, half, 6, 2, &kept, 1) == RATIO_DONE && kept.value.numer == 1, "a stride that is not taken");
    expect(ratio_add_strided_i64(half, 4, 2, half, 3, 2, again, 2) == RATIO_BAD_LENGTH && ratio_add_strided_i64(half, 4, UINT64_MAX, half, 4, 2, again, 2) == RATIO_BAD_LENGTH, "too few fractions");
    expect(again[0].value.numer == 3 && again[1].value.denom == 5, "nothing is written here");
}

int main(void) {
    lengths();
    each_type_i32();
    each_type_i64();
    each_type_i128();
    wide_halves();
    quotients_of_many();
    splits();
    splits_by_weights();
    casts();
    lowest_hashes();
    totals();
    growing_totals();
    stops_of_totals();
    reads_of_totals();
    bounded_decimals();
    steps_of_totals();
    joined_totals();
    rooms_of_no_total();
    multiples_and_orders_of_totals();
    long_total();
    keys();
    python_hashes();
    sortable_bytes();
    chained_calls();
    return wrong;
}
