/* Times each call for C over fractions of 64 bits, on arrays of 1000. It prints a line for each: its name, the kind of its input and the
 * nanoseconds of one fraction, or of one read of a total or call on a list, with tabs between. With an argument it prints the names alone.
 */
#define _POSIX_C_SOURCE 199309L
#include "ratio.h"
#include "../examples/c/calls.h"

#include <stdio.h>
#include <stdlib.h>
#include <string.h>
#include <time.h>

/* Each call is timed so often, for so many nanoseconds at least, and the median is printed. */
enum { LEN = 1000, ROUNDS = 101, LEAST = 100000 };

/* The slots of the total of small fractions, which have as many denominators. A read is of this total. */
enum { SLOTS = 16 };

/* The fractions, shares and weights of a list. */
enum { ITEMS = 8 };

/* The arrays of items and of answers: `of_TYPE` is that of its type. */
static ratio_i64 halves[LEN], *const of_ratio_i64 = halves, smalls[LEN];
static ratio_pair_i64 pairs[LEN], *const of_ratio_pair_i64 = pairs;
static ratio_factors_i64 factors[LEN], *const of_ratio_factors_i64 = factors;
static ratio_operands_i64 operands[LEN], *const of_ratio_operands_i64 = operands;
static ratio_power_i64 powers[LEN], *const of_ratio_power_i64 = powers;
static ratio_bounded_i64 bounded[LEN], *const of_ratio_bounded_i64 = bounded;
static ratio_bounds_i64 bounds[LEN], *const of_ratio_bounds_i64 = bounds;
static ratio_multiple_i64 multiples[LEN], *const of_ratio_multiple_i64 = multiples;
static ratio_scaled scaled[LEN], *const of_ratio_scaled = scaled;
static ratio_place_i64 steps[LEN], *const of_ratio_place_i64 = steps;
static ratio_decimal_i64 decimals[LEN];
static double doubles[LEN], *const of_double = doubles;
static ratio_i64 chain[ITEMS], shares[ITEMS];
static int64_t weights[ITEMS], cents[ITEMS], chain_room[2 * ITEMS];
static ratio_total_i64 total;
static ratio_slot_i64 slots[SLOTS], both[2 * SLOTS], parts[LEN];
static uint64_t room[8 * SLOTS + 6], kept[8 * SLOTS + 6], sizes[LEN];
static ratio_joined_i64 joined;
static uint8_t texts[LEN * RATIO_ROOM_I64], decimal_texts[LEN * RATIO_DECIMAL_ROOM_I64], printed[LEN * RATIO_DECIMAL_ROOM_I64];
static size_t texts_len, decimal_texts_len;
static ratio_span spans[LEN], decimal_spans[LEN];

static ratio_answer_i64 answers[LEN], *const of_ratio_answer_i64 = answers;
static ratio_answer_i32 narrow[LEN], *const of_ratio_answer_i32 = narrow;
static ratio_answer_i128 wide[LEN], *const of_ratio_answer_i128 = wide;
static ratio_order orders[LEN], *const of_ratio_order = orders;
static ratio_truth truths[LEN], *const of_ratio_truth = truths;
static ratio_hash hashes[LEN], *const of_ratio_hash = hashes;
static ratio_key keys[LEN], *const of_ratio_key = keys;
static ratio_sortable sortables[LEN], *const of_ratio_sortable = sortables;
static ratio_residue residues[LEN], *const of_ratio_residue = residues;
static ratio_float floats[LEN], *const of_ratio_float = floats;
static ratio_text places[LEN];

static void done(uint32_t returned) {
    if (returned != RATIO_DONE) {
        fputs("bench: a call got arrays of other lengths than it requires\n", stderr);
        exit(1);
    }
}

/* The header of a read in steps that has not begun. */
static ratio_joined_i64 *new_read(void) {
    memset(&joined, 0, sizeof joined);
    return &joined;
}

/* The room where all slots are joined. A read uses it up, so each one gets a copy. */
static uint64_t *joined_room(void) {
    memcpy(room, kept, sizeof room);
    return room;
}

/* The two sides of the pairs, for the calls on two arrays. */
#define SIDES &pairs->left.numer, 4 * LEN - 2, 4, &pairs->right.numer, 4 * LEN - 2, 4

/* Those with two arrays, with texts or with one total: those with an answer for each item are in CALLS_I64. Each has the kind of its input. */
#define OTHERS(X)                                                                                           \
    X(add_strided_i64, (SIDES, answers, LEN), "half") X(sub_strided_i64, (SIDES, answers, LEN), "half")     \
    X(mul_strided_i64, (SIDES, answers, LEN), "half") X(div_strided_i64, (SIDES, answers, LEN), "half")     \
    X(compare_strided_i64, (SIDES, orders, LEN), "half")                                                    \
    X(read_i64, (texts, texts_len, spans, LEN, answers, LEN), "half")                                       \
    X(print_i64, (halves, LEN, printed, sizeof printed, places, LEN), "half")                               \
    X(read_text_i64, (decimal_texts, decimal_texts_len, decimal_spans, LEN, answers, LEN), "half")          \
    X(read_decimal_i64, (decimal_texts, decimal_texts_len, decimal_spans, LEN, answers, LEN), "half")       \
    X(print_decimal_i64, (decimals, LEN, printed, sizeof printed, places, LEN), "half")                     \
    X(total_add_i64, (smalls, LEN, &total, 1, slots, SLOTS), "small")                                       \
    X(total_subtract_i64, (smalls, LEN, &total, 1, slots, SLOTS), "small")                                  \
    X(total_merge_i64, (parts, LEN, 0, &total, 1, slots, SLOTS), "small")                                   \
    X(total_unmerge_i64, (parts, LEN, 0, &total, 1, slots, SLOTS), "small")

/* Those that read a total, each with one answer. */
#define ROOM room, sizeof room / sizeof *room
#define READS(X)                                                                                            \
    X(total_sum_i64, (slots, SLOTS, ROOM, answers, 1)) X(total_mean_i64, (slots, SLOTS, LEN, ROOM, answers, 1)) \
    X(total_sign_i64, (slots, SLOTS, ROOM, orders, 1)) X(total_to_f64_i64, (slots, SLOTS, ROOM, floats, 1))   \
    X(total_round_to_i64, (slots, SLOTS, 100, RATIO_RULE_HALF_EVEN, ROOM, answers, 1))                      \
    X(total_compare_i64, (slots, SLOTS, slots, SLOTS, both, 2 * SLOTS, ROOM, orders, 1))                    \
    X(total_print_i64, (slots, SLOTS, 2, RATIO_RULE_HALF_EVEN, ROOM, printed, sizeof printed, places, 1))   \
    X(total_print_bounded_i64, (slots, SLOTS, 2, RATIO_RULE_HALF_EVEN, ROOM, printed, sizeof printed, places, 1))

/* Those of a read in steps: all slots in one step, and what the room gives then. Each of these reads also copies the room. */
#define JOINED SLOTS, joined_room(), sizeof room / sizeof *room
#define STEPS(X)                                                                                            \
    X(total_join_i64, (slots, SLOTS, SLOTS, new_read(), 1, ROOM))                                           \
    X(joined_sum_i64, (JOINED, answers, 1)) X(joined_sign_i64, (JOINED, orders, 1)) X(joined_to_f64_i64, (JOINED, floats, 1)) \
    X(joined_mean_i64, (SLOTS, LEN, joined_room(), sizeof room / sizeof *room, answers, 1))                 \
    X(joined_print_i64, (SLOTS, 2, RATIO_RULE_HALF_EVEN, joined_room(), sizeof room / sizeof *room, printed, sizeof printed, places, 1))

/* Those on a list of ITEMS: fractions whose product is 1, shares that add up to 1, or weights. */
#define LISTS(X)                                                                                            \
    X(quotient_of_i64, (chain, ITEMS, chain, 0, chain_room, 2 * ITEMS, answers, 1), "list")                 \
    X(split_i64, (1000000, shares, ITEMS, cents, ITEMS), "list")                                            \
    X(split_by_weights_i64, (1000000, weights, ITEMS, cents, ITEMS), "list")

/* Those that say how much room a total has or needs. */
#define SIZES(X)                                                                                            \
    X(total_free_i64, (slots, SLOTS)) X(total_digits_i64, (slots, SLOTS))                                   \
    X(total_print_digits_i64, (slots, SLOTS, 2)) X(total_print_bytes_i64, (slots, SLOTS, 2))                \
    X(total_round_to_digits_i64, (slots, SLOTS)) X(total_compare_digits_i64, (slots, SLOTS, slots, SLOTS))     \
    X(total_next_length_i64, (SLOTS, SLOTS, (uint64_t) i, UINT64_MAX)) X(total_leave_zeros_i64, (both, SLOTS))

#define DEFINE(name, item, count, number, answer) static void name(void) { done(ratio_##name(of_##item, LEN, of_##answer, LEN)); }
#define DEFINE_OTHER(name, arguments, kind) static void name(void) { done(ratio_##name arguments); }
#define DEFINE_READ(name, arguments) static void name(void) { for (int i = 0; i < LEN; i++) done(ratio_##name arguments); }
#define DEFINE_LIST(name, arguments, kind) DEFINE_READ(name, arguments)
#define DEFINE_SIZE(name, arguments) static void name(void) { for (int i = 0; i < LEN; i++) sizes[i] = ratio_##name arguments; }
CALLS_I64(DEFINE)
OTHERS(DEFINE_OTHER)
READS(DEFINE_READ)
STEPS(DEFINE_READ)
LISTS(DEFINE_LIST)
SIZES(DEFINE_SIZE)

#define ROW(name, item, count, number, answer) {"ratio_" #name, "half", name},
#define ROW_OTHER(name, arguments, kind) {"ratio_" #name, kind, name},
#define ROW_READ(name, arguments) {"ratio_" #name, "total", name},
static const struct { const char *name, *kind; void (*run)(void); } calls[] = {CALLS_I64(ROW) OTHERS(ROW_OTHER) READS(ROW_READ) STEPS(ROW_READ) LISTS(ROW_OTHER) SIZES(ROW_READ)};

static uint64_t state = 1;

static int64_t random_below(int64_t most) {
    state = state * UINT64_C(6364136223846793005) + UINT64_C(1442695040888963407);
    return (int64_t) ((state >> 33) % (uint64_t) most);
}

/* A fraction in lowest terms whose numbers are below a bound. */
static ratio_i64 fraction(int64_t most_numer, int64_t most_denom) {
    const ratio_i64 x = {random_below(2 * most_numer) - most_numer, random_below(most_denom) + 1};
    ratio_answer_i64 answer;
    done(ratio_reduce_i64(&x, 1, &answer, 1));
    return answer.value;
}

/* Half inputs have numbers of 31 bits. Small ones have denominators up to 16, so that 16 slots take them. */
static void fill(void) {
    for (int i = 0; i < LEN; i++) {
        const int64_t half = INT64_C(1) << 31;
        const ratio_i64 x = fraction(half, half), y = fraction(half, half);
        const ratio_pair_i64 pair = {x, y};
        ratio_order order;
        done(ratio_compare_i64(&pair, 1, &order, 1));
        halves[i] = x;
        pairs[i] = pair;
        if (y.numer == 0) pairs[i].right.numer = 1;
        factors[i].left = x;
        factors[i].right = y;
        factors[i].rule = RATIO_RULE_HALF_EVEN;
        operands[i].left = x;
        operands[i].right = y;
        operands[i].parts = 100;
        operands[i].rule = RATIO_RULE_HALF_EVEN;
        smalls[i] = fraction(1000000, 16);
        powers[i].base = fraction(1 << 15, 1 << 15);
        powers[i].exponent = (int32_t) random_below(4) - 1;
        if (powers[i].base.numer == 0) powers[i].base.numer = 1;
        bounded[i].value = x;
        bounded[i].most = 1000;
        bounds[i].low = order.order < 0 ? x : y;
        bounds[i].high = order.order < 0 ? y : x;
        multiples[i].value = x;
        multiples[i].parts = 100;
        multiples[i].rule = RATIO_RULE_HALF_EVEN;
        scaled[i].number.low = (uint64_t) random_below(half);
        scaled[i].scale = (int32_t) random_below(5);
        steps[i].value = x;
        steps[i].place = 4;
        decimals[i].value = x;
        decimals[i].places = 2;
        decimals[i].rule = RATIO_RULE_HALF_EVEN;
        doubles[i] = (double) random_below(half) / 256;
        parts[i].denom = (uint64_t) smalls[i].denom;
        parts[i].numer.low = (uint64_t) smalls[i].numer;
        parts[i].numer.high = smalls[i].numer < 0 ? -1 : 0;
    }
    for (int i = 0; i < ITEMS; i++) {
        const int64_t prime = 1000003;
        chain[i].numer = i % 2 == 0 ? prime : i;
        chain[i].denom = i % 2 == 0 ? i + 1 : prime;
        shares[i].numer = 1;
        shares[i].denom = ITEMS;
        weights[i] = i + 1;
    }
    done(ratio_total_add_i64(smalls, LEN, &total, 1, slots, SLOTS));
    done(ratio_total_join_i64(slots, SLOTS, SLOTS, &joined, 1, kept, sizeof kept / sizeof *kept));
    done(ratio_print_i64(halves, LEN, texts, sizeof texts, places, LEN));
    for (int i = 0; i < LEN; i++) spans[i] = places[i].span;
    texts_len = spans[LEN - 1].end;
    done(ratio_print_decimal_i64(decimals, LEN, decimal_texts, sizeof decimal_texts, places, LEN));
    for (int i = 0; i < LEN; i++) decimal_spans[i] = places[i].span;
    decimal_texts_len = decimal_spans[LEN - 1].end;
}

static double now(void) {
    struct timespec time;
    clock_gettime(CLOCK_MONOTONIC, &time);
    return (double) time.tv_sec * 1e9 + (double) time.tv_nsec;
}

static double of_turns(void (*run)(void), int turns) {
    const double start = now();
    for (int i = 0; i < turns; i++) run();
    return (now() - start) / turns / LEN;
}

static int order_of_times(const void *left, const void *right) {
    const double x = *(const double *) left, y = *(const double *) right;
    return x < y ? -1 : x > y;
}

static double median_time(void (*run)(void)) {
    double times[ROUNDS];
    run();
    const int turns = (int) (LEAST / LEN / (of_turns(run, 1) + 1e-9)) + 1;
    for (int round = 0; round < ROUNDS; round++) times[round] = of_turns(run, turns);
    qsort(times, ROUNDS, sizeof *times, order_of_times);
    return times[ROUNDS / 2];
}

int main(int argc, char **argv) {
    (void) argv;
    fill();
    for (size_t i = 0; i < sizeof calls / sizeof *calls; i++) {
        if (argc > 1) printf("%s\n", calls[i].name);
        else printf("%s\t%s\t%.1f\n", calls[i].name, calls[i].kind, median_time(calls[i].run));
    }
    return total.code == RATIO_ANSWERED && joined.code == RATIO_ANSWERED ? 0 : 1;
}
