/* Calls the library with random bytes, numbers, texts, spans and lengths, and prints a checksum of all that it wrote. Two libraries that
 * return the same print the same. `examples/c/test fuzz` compares the proved library with the one by cargo.
 *
 *   fuzz SEED CALLS EVERY    prints the checksum each EVERY calls, and at the end how many answers had each code
 *
 * Each array ends where a page without access begins, so the program stops if a call reads or writes behind it. It also stops if a call
 * writes before an array that it gets.
 */
#define _DEFAULT_SOURCE
#include "ratio.h"
#include "calls.h"

#include <inttypes.h>
#include <stddef.h>
#include <stdio.h>
#include <stdlib.h>
#include <string.h>
#include <sys/mman.h>
#include <unistd.h>

enum { MOST = 6, BEFORE = 64, CODES = 16, TEXT = 200, SLOTS = 5, ROOM = 40 };
enum { ASKED, TEXTS, ANSWERS, SLOTS_OF_TOTAL, ROOM_OF_TOTAL, ARRAYS };

typedef uint32_t plain(const void *asked, size_t asked_len, void *answers, size_t answers_len);
typedef uint32_t with_texts(const void *asked, size_t asked_len, uint8_t *texts, size_t texts_len, void *answers, size_t answers_len);

/* A call: the bytes of what it is asked, how many numbers of how many bytes begin it, the bytes of an answer and those of a printed text. */
typedef struct { plain *plain; with_texts *reads, *prints; size_t asked, numbers, number, answer, room; } call;

/* The calls of calls.h. Those on totals are in `one_total` and `one_read_in_steps`, those on lists in `one_list`, and those on fractions apart in
 * `one_chained_call`.
 */
#define ALL_PLAIN(X) CALLS_I32(X) CALLS_I64(X) CALLS_I128(X)
#define ALL_READS(X) READS_I32(X) READS_I64(X) READS_I128(X)
#define ALL_PRINTS(X) PRINTS_I32(X) PRINTS_I64(X) PRINTS_I128(X)

#define DEFINE_PLAIN(name, item, count, number, answer)                                                       \
    static uint32_t name(const void *asked, size_t asked_len, void *answers, size_t answers_len) {            \
        return ratio_##name(asked, asked_len, answers, answers_len);                                          \
    }
#define DEFINE_READS(name, item, count, number, answer)                                                       \
    static uint32_t name(const void *asked, size_t n, uint8_t *texts, size_t len, void *answers, size_t m) {  \
        return ratio_##name(texts, len, asked, n, answers, m);                                                \
    }
#define DEFINE_PRINTS(name, item, count, number, room)                                                        \
    static uint32_t name(const void *asked, size_t n, uint8_t *texts, size_t len, void *answers, size_t m) {  \
        return ratio_##name(asked, n, texts, len, answers, m);                                                \
    }
ALL_PLAIN(DEFINE_PLAIN)
ALL_READS(DEFINE_READS)
ALL_PRINTS(DEFINE_PRINTS)

#define ROW_PLAIN(name, item, count, number, answer) {name, NULL, NULL, sizeof(item), count, sizeof(number), sizeof(answer), 0},
#define ROW_READS(name, item, count, number, answer) {NULL, name, NULL, sizeof(item), count, sizeof(number), sizeof(answer), 0},
#define ROW_PRINTS(name, item, count, number, room) {NULL, NULL, name, sizeof(item), count, sizeof(number), sizeof(ratio_text), room},
static const call calls[] = {ALL_PLAIN(ROW_PLAIN) ALL_READS(ROW_READS) ALL_PRINTS(ROW_PRINTS)};

static uint64_t state, checksum, codes[CODES];
static uint8_t *arrays[ARRAYS];
static struct { ratio_total_i64 header; ratio_slot_i64 slots[SLOTS]; } totals[MOST];
static int is_short; /* whether the numbers of a call are short, so that more sums fit */

/* The next random number, by the generator splitmix64. */
static uint64_t next(void) {
    uint64_t z = state += UINT64_C(0x9e3779b97f4a7c15);
    z = (z ^ (z >> 30)) * UINT64_C(0xbf58476d1ce4e5b9);
    z = (z ^ (z >> 27)) * UINT64_C(0x94d049bb133111eb);
    return z ^ (z >> 31);
}

static size_t below(size_t n) {
    return (size_t) (next() % n);
}

/* Two pages between pages without access. */
static uint8_t *reserve(void) {
    const size_t page = (size_t) sysconf(_SC_PAGESIZE);
    uint8_t *start = mmap(NULL, 3 * page, PROT_READ | PROT_WRITE, MAP_PRIVATE | MAP_ANONYMOUS, -1, 0);
    if (start == MAP_FAILED || mprotect(start, page, PROT_NONE) != 0 || mprotect(start + 2 * page, page, PROT_NONE) != 0) {
        perror("fuzz");
        exit(2);
    }
    return start + 2 * page;
}

/* An array of so many bytes before a page without access, with bytes before it that no call may write. */
static uint8_t *place(int array, size_t size) {
    memset(arrays[array] - size - BEFORE, 0x5a, BEFORE + size);
    return arrays[array] - size;
}

static void mix(const uint8_t *bytes, size_t size) {
    for (size_t i = 0; i < size; i++) checksum = (checksum ^ bytes[i]) * UINT64_C(0x100000001b3);
}

/* Writes a number of so many bytes: small, an end of the type, near a power of 2, or with random bits. */
static void put_number(uint8_t *at, size_t size, int is_positive) {
    const size_t bits = below(is_short ? 12 : 8 * size - 1);
    uint64_t half[2] = {0, 0};
    switch (below(8)) {
    case 0: half[0] = below(10); break;
    case 1: half[0] = half[1] = UINT64_MAX, half[size / 16] ^= UINT64_C(1) << (8 * size - 1) % 64; break;
    case 2: half[bits / 64] = UINT64_C(1) << bits % 64, half[0] += below(3) - 1; break;
    default: half[0] = next(), half[1] = next(), half[bits / 64] &= (UINT64_C(2) << bits % 64) - 1;
        if (bits < 64) half[1] = 0;
    }
    if (below(is_positive ? 32 : 2) == 0) half[0] = ~half[0], half[1] = ~half[1];
    memcpy(at, half, size);
}

/* Writes a float that fits or nearly fits the types. */
static void put_double(uint8_t *at) {
    const double x = (double) (int64_t) (next() >> below(64)) / (double) (UINT64_C(1) << below(64));
    memcpy(at, &x, sizeof x);
}

/* Writes what a call is asked: random bytes, a float, or numbers and options. Each second number is a denominator, and mostly above 0. */
static void put_item(uint8_t *at, const call *c) {
    const size_t size = c->number;
    if (below(16) == 0) {
        for (size_t i = 0; i < c->asked; i++) at[i] = (uint8_t) next();
        return;
    }
    if (c->numbers == 1 && size == sizeof(double)) {
        put_double(at);
        return;
    }
    for (size_t i = 0; i < c->numbers; i++) put_number(at + i * size, size, i % 2 == 1 || below(2));
    if (c->numbers == 4 && below(8) == 0) memcpy(at + 2 * size, at, 2 * size);
    for (size_t i = c->numbers * size; i < c->asked; i += sizeof(int32_t)) {
        const int32_t option = (int32_t) below(below(6) == 0 ? 80 : 8) * (below(6) == 0 ? -1 : 1);
        memcpy(at + i, &option, sizeof option);
    }
}

/* Writes numbers, slashes, signs and other characters, one after another. */
static void put_texts(uint8_t *at, size_t size) {
    static const char marks[] = "//////--+  ..eE%_x";
    for (size_t i = 0; i < size; i++) {
        if (below(5) > 0) at[i] = (uint8_t) ('0' + below(10));
        else at[i] = below(20) > 0 ? (uint8_t) marks[below(sizeof marks - 1)] : (uint8_t) next();
    }
}

static void put_span(uint8_t *at, size_t size) {
    ratio_span span;
    span.start = below(size + 1);
    span.end = span.start + below(below(4) > 0 ? 12 : 60);
    if (span.end > size && below(8) > 0) span.end = size;
    if (below(32) == 0) span.start = below(2) ? size + below(3) : (size_t) next();
    if (below(32) == 0) span.end = below(2) ? size + below(3) : (size_t) next();
    memcpy(at, &span, sizeof span);
}

/* Takes the bytes that a call wrote into the checksum. Those between a code and a number of 64 bits have no meaning. */
static void take(uint8_t *answers, size_t size, size_t count) {
    for (size_t i = 0; i < count; i++) {
        uint8_t *answer = answers + i * size;
        uint32_t code;
        memcpy(&code, answer, sizeof code);
        codes[code < CODES ? code : CODES - 1]++;
        if (size % 8 == 0 && size > 8) memset(answer + 4, 0, 4);
        mix(answer, size);
    }
}

/* Stops if a call wrote before an array. */
static void test_before(const uint8_t *array) {
    for (int i = 1; i <= BEFORE; i++) {
        if (array[-i] != 0x5a) {
            fputs("fuzz: a call wrote before an array\n", stderr);
            exit(1);
        }
    }
}

static void one_call(const call *c) {
    const size_t n = below(MOST + 1), m = below(8) > 0 ? n : below(MOST + 1);
    const size_t size = c->prints != NULL ? n * c->room + below(3) - (n > 0 && below(4) == 0) : below(TEXT);
    uint8_t *asked = place(ASKED, n * c->asked), *texts = place(TEXTS, size), *answers = place(ANSWERS, m * c->answer);
    uint32_t returned;
    is_short = below(2) == 0;
    put_texts(texts, c->reads != NULL ? size : 0);
    for (size_t i = 0; i < n; i++) {
        if (c->reads != NULL) put_span(asked + i * c->asked, size);
        else put_item(asked + i * c->asked, c);
    }
    if (c->plain != NULL) returned = c->plain(asked, n, answers, m);
    else returned = (c->reads != NULL ? c->reads : c->prints)(asked, n, texts, size, answers, m);
    test_before(asked), test_before(texts), test_before(answers);
    if (returned == RATIO_DONE) take(answers, c->answer, m);
    else mix(answers, m * c->answer);
    mix((const uint8_t *) &returned, sizeof returned);
    mix(texts, size);
}

/* Writes a fraction with one of few denominators, so that a table has slots for most of them. */
static void put_share(uint8_t *at) {
    ratio_i64 x;
    put_number((uint8_t *) &x.numer, sizeof x.numer, 0);
    x.denom = (int64_t) below(below(8) == 0 ? 40 : 6) - (below(16) == 0);
    if (below(64) == 0) put_number((uint8_t *) &x.denom, sizeof x.denom, 0);
    memcpy(at, &x, sizeof x);
}

/* Stops if a call that has the place for one answer returns that it wrote none. */
static void done(enum ratio_return returned) {
    if (returned != RATIO_DONE) {
        fputs("fuzz: a call with the place for one answer wrote none\n", stderr);
        exit(1);
    }
}

/* Stops if a decimal in one pass is not the one of the other call. */
static void compare_with_bounded(const ratio_slot_i64 *slots, size_t len, uint32_t places, uint32_t rule, ratio_text text, const uint8_t *texts) {
    static uint64_t room[4 * SLOTS + 64];
    static uint8_t other[2 * TEXT + 200];
    ratio_text whole = {0};
    if (text.code != RATIO_ANSWERED) return;
    done(ratio_total_print_i64(slots, len, places, rule, room, sizeof room / sizeof *room, other, sizeof other, &whole, 1));
    if (whole.code != RATIO_ANSWERED || whole.span.end - whole.span.start != text.span.end - text.span.start
        || memcmp(texts + text.span.start, other + whole.span.start, text.span.end - text.span.start) != 0) {
        fputs("fuzz: a decimal in one pass is not the one of the other call\n", stderr);
        exit(1);
    }
}

/* Changes a total or reads it, over its slots or some of them, which now and then have random bytes. */
static void one_total(void) {
    const size_t chosen = below(MOST), len = below(4) > 0 ? SLOTS : below(SLOTS + 1), n = below(MOST), m = 1 + (below(16) == 0);
    const size_t digits = below(ROOM), size = below(TEXT), kind = below(17);
    const int64_t count = below(32) == 0 ? (int64_t) next() : (int64_t) below(9) - 2;
    const uint32_t places = (uint32_t) below(below(8) == 0 ? 200 : 12), rule = (uint32_t) below(7);
    uint8_t *slots = place(SLOTS_OF_TOTAL, len * sizeof(ratio_slot_i64)), *room = place(ROOM_OF_TOTAL, digits * sizeof(uint64_t));
    uint8_t *texts = place(TEXTS, size), *header = place(ANSWERS, m * sizeof(ratio_total_i64)), *asked;
    const ratio_slot_i64 *from = (const ratio_slot_i64 *) slots;
    static ratio_slot_i64 difference[2 * SLOTS];
    ratio_slot_i64 *to = (ratio_slot_i64 *) slots;
    ratio_total_i64 *total = (ratio_total_i64 *) header;
    ratio_answer_i64 answer = {0};
    ratio_order order = {0};
    ratio_float value = {0};
    ratio_text text = {0};
    uint64_t returned = RATIO_DONE;
    is_short = below(2) == 0;
    if (below(48) == 0) memset(&totals[chosen], 0, sizeof totals[chosen]);
    if (below(64) == 0) put_number((uint8_t *) &totals[chosen].slots[below(SLOTS)].numer, sizeof(ratio_wide), 0);
    memcpy(slots, totals[chosen].slots, len * sizeof(ratio_slot_i64));
    for (size_t i = 0; i < m; i++) memcpy(header + i * sizeof(ratio_total_i64), &totals[chosen].header, sizeof(ratio_total_i64));
    if (kind < 6) {
        asked = place(ASKED, n * sizeof(ratio_i64));
        for (size_t i = 0; i < n; i++) put_share(asked + i * sizeof(ratio_i64));
    } else {
        asked = place(ASKED, SLOTS * sizeof(ratio_slot_i64));
        memcpy(asked, totals[below(MOST)].slots, SLOTS * sizeof(ratio_slot_i64));
    }
    switch (kind) {
    case 0: case 1: case 2: returned = ratio_total_add_i64((const ratio_i64 *) asked, n, total, m, to, len); break;
    case 3: returned = ratio_total_subtract_i64((const ratio_i64 *) asked, n, total, m, to, len); break;
    case 4: returned = ratio_total_free_i64(from, len) + ratio_total_next_length_i64(len, n, (uint64_t) count, below(64)); break;
    case 5: returned = ratio_total_digits_i64(from, len) + ratio_total_print_digits_i64(from, len, places) + ratio_total_print_bytes_i64(from, len, places); break;
    case 6: returned = ratio_total_merge_i64((const ratio_slot_i64 *) asked, SLOTS, count, total, m, to, len); break;
    case 7: returned = ratio_total_unmerge_i64((const ratio_slot_i64 *) asked, SLOTS, count, total, m, to, len); break;
    case 8: returned = ratio_total_sum_i64(from, len, (uint64_t *) room, digits, &answer, 1); break;
    case 9: returned = ratio_total_mean_i64(from, len, count, (uint64_t *) room, digits, &answer, 1); break;
    case 10: returned = ratio_total_sign_i64(from, len, (uint64_t *) room, digits, &order, 1); break;
    case 11: returned = ratio_total_print_i64(from, len, places, rule, (uint64_t *) room, digits, texts, size, &text, 1); break;
    case 12: returned = ratio_total_round_to_i64(from, len, count, rule, (uint64_t *) room, digits, &answer, 1) + ratio_total_round_to_digits_i64(from, len); break;
    case 13: returned = ratio_total_compare_i64(from, len, (const ratio_slot_i64 *) asked, SLOTS, difference, below(2 * SLOTS + 1), (uint64_t *) room, digits, &order, 1)
                        + ratio_total_compare_digits_i64(from, len, (const ratio_slot_i64 *) asked, SLOTS); break;
    case 14: returned = ratio_total_to_f64_i64(from, len, (uint64_t *) room, digits, &value, 1); break;
    case 15: returned = ratio_total_print_bounded_i64(from, len, places, rule, (uint64_t *) room, digits, texts, size, &text, 1);
        compare_with_bounded(from, len, places, rule, text, texts);
        break;
    default: returned = ratio_total_leave_zeros_i64(to, len);
    }
    test_before(slots), test_before(room), test_before(texts), test_before(header), test_before(asked);
    if (m == 1) memcpy(&totals[chosen].header, header, sizeof(ratio_total_i64));
    memcpy(totals[chosen].slots, slots, len * sizeof(ratio_slot_i64));
    mix(slots, len * sizeof(ratio_slot_i64));
    if (kind < 4 || kind == 6 || kind == 7) {
        if (m == 1) take(header, sizeof(ratio_total_i64), m);
    } else if (kind == 8 || kind == 9 || kind == 12) {
        take((uint8_t *) &answer, sizeof answer, 1);
    } else if (kind == 10 || kind == 13) {
        take((uint8_t *) &order, sizeof order, 1);
    } else if (kind == 14) {
        take((uint8_t *) &value, sizeof value, 1);
    } else if (kind == 11 || kind == 15) {
        take((uint8_t *) &text, sizeof text, 1);
        mix(texts + text.span.start, text.span.end - text.span.start);
    }
    mix((const uint8_t *) &returned, sizeof returned);
}

/* A read of a total: which one, what it is asked, and its room. */
typedef struct { size_t kind; int64_t count; uint32_t places, rule; uint64_t *room; size_t digits; uint8_t *texts; size_t size; } read_of_total;

/* What a read says: a fraction, an order, the bits of a float, or the span of a text. */
typedef struct { uint32_t code; uint64_t first, second; } said;

static said said_of(size_t kind, ratio_answer_i64 fraction, ratio_order order, ratio_float value, ratio_text text) {
    said x = {0, 0, 0};
    switch (kind) {
    case 0: case 1: x.code = fraction.code, x.first = (uint64_t) fraction.value.numer, x.second = (uint64_t) fraction.value.denom; break;
    case 2: x.code = order.code, x.first = (uint64_t) (int64_t) order.order; break;
    case 3: x.code = value.code, memcpy(&x.first, &value.value, sizeof x.first); break;
    default: x.code = text.code, x.first = text.span.start, x.second = text.span.end;
    }
    return x;
}

static said at_once(const read_of_total *r, const ratio_slot_i64 *slots, size_t len) {
    ratio_answer_i64 fraction = {0};
    ratio_order order = {0};
    ratio_float value = {0};
    ratio_text text = {0};
    switch (r->kind) {
    case 0: done(ratio_total_sum_i64(slots, len, r->room, r->digits, &fraction, 1)); break;
    case 1: done(ratio_total_mean_i64(slots, len, r->count, r->room, r->digits, &fraction, 1)); break;
    case 2: done(ratio_total_sign_i64(slots, len, r->room, r->digits, &order, 1)); break;
    case 3: done(ratio_total_to_f64_i64(slots, len, r->room, r->digits, &value, 1)); break;
    default: done(ratio_total_print_i64(slots, len, r->places, r->rule, r->room, r->digits, r->texts, r->size, &text, 1));
    }
    return said_of(r->kind, fraction, order, value, text);
}

static said from_room(const read_of_total *r, uint64_t digits) {
    ratio_answer_i64 fraction = {0};
    ratio_order order = {0};
    ratio_float value = {0};
    ratio_text text = {0};
    switch (r->kind) {
    case 0: done(ratio_joined_sum_i64(digits, r->room, r->digits, &fraction, 1)); break;
    case 1: done(ratio_joined_mean_i64(digits, r->count, r->room, r->digits, &fraction, 1)); break;
    case 2: done(ratio_joined_sign_i64(digits, r->room, r->digits, &order, 1)); break;
    case 3: done(ratio_joined_to_f64_i64(digits, r->room, r->digits, &value, 1)); break;
    default: done(ratio_joined_print_i64(digits, r->places, r->rule, r->room, r->digits, r->texts, r->size, &text, 1));
    }
    return said_of(r->kind, fraction, order, value, text);
}

/* Whether both reads say the same. If the read at once lacks room, so do the steps, or what comes behind them. A count and a rule are tested first. */
static int are_alike(const read_of_total *r, said whole, const uint8_t *text, uint32_t step, said parts) {
    if (whole.code == RATIO_MORE_ROOM) return step == RATIO_MORE_ROOM || (r->kind == 4 && parts.code == RATIO_NO_TOTAL);
    if (step == RATIO_MORE_ROOM) return whole.code == RATIO_DIVISION_BY_ZERO || whole.code == RATIO_BAD_OPTION;
    return step == RATIO_ANSWERED && whole.code == parts.code && whole.first == parts.first && whole.second == parts.second
           && (r->kind < 4 || memcmp(text + whole.first, r->texts + parts.first, whole.second - whole.first) == 0);
}

/* Writes random bytes into the room or the header of a read in steps. */
static void spoil(ratio_joined_i64 *joined, uint8_t *room, size_t size) {
    const size_t first = below(size + 1), count = below(size + 1 - first);
    switch (below(4)) {
    case 0: joined->done = below(2) ? below(SLOTS + 2) : next(); break;
    case 1: joined->digits = below(2) ? below(ROOM) : next(); break;
    case 2: memset(room + first, below(2) ? 0 : 0xff, count); break;
    default: for (size_t i = 0; i < count; i++) room[first + i] = (uint8_t) next();
    }
}

/* Reads a total in steps of random sizes, and stops if the answer is not that of the read at once. Now and then the room or the header is
 * spoiled between two steps. Then any answer will do, but both libraries give the same one. */
static void one_read_in_steps(void) {
    const size_t len = below(4) > 0 ? SLOTS : below(SLOTS + 1), digits = below(ROOM), size = below(TEXT), m = 1 + (below(32) == 0);
    const int is_spoiled = below(4) == 0;
    uint8_t *slots = place(SLOTS_OF_TOTAL, len * sizeof(ratio_slot_i64)), *room = place(ROOM_OF_TOTAL, digits * sizeof(uint64_t));
    uint8_t *texts = place(TEXTS, size), *header = place(ANSWERS, m * sizeof(ratio_joined_i64));
    static uint64_t other_room[ROOM];
    static uint8_t other_texts[TEXT];
    const ratio_slot_i64 *from = (const ratio_slot_i64 *) slots;
    ratio_joined_i64 *joined = (ratio_joined_i64 *) header;
    read_of_total r = {below(5), (int64_t) below(9) - 2, (uint32_t) below(below(8) == 0 ? 200 : 12), (uint32_t) below(7), other_room, digits, other_texts, size};
    said whole, parts = {0, 0, 0};
    memcpy(slots, totals[below(MOST)].slots, len * sizeof(ratio_slot_i64));
    memset(header, 0, m * sizeof(ratio_joined_i64));
    whole = at_once(&r, from, len);
    r.room = (uint64_t *) room, r.texts = texts;
    for (int steps = 0; steps < 40; steps++) {
        const uint64_t most = below(16) == 0 ? next() : below(4);
        const uint32_t returned = ratio_total_join_i64(from, len, most, joined, m, (uint64_t *) room, digits);
        mix((const uint8_t *) &returned, sizeof returned);
        if (returned != RATIO_DONE || joined->code != RATIO_ANSWERED || joined->done >= len) break;
        if (is_spoiled && below(2)) spoil(joined, room, digits * sizeof(uint64_t));
    }
    if (is_spoiled && below(2)) spoil(joined, room, digits * sizeof(uint64_t));
    if (joined->code == RATIO_ANSWERED || is_spoiled) parts = from_room(&r, joined->digits);
    test_before(slots), test_before(room), test_before(texts), test_before(header);
    if (m == 1 && !is_spoiled && (joined->code != RATIO_ANSWERED || joined->done >= len) && !are_alike(&r, whole, other_texts, joined->code, parts)) {
        fputs("fuzz: a read in steps does not give what the read at once gives\n", stderr);
        exit(1);
    }
    if (m == 1) take(header, sizeof(ratio_joined_i64), 1);
    codes[parts.code < CODES ? parts.code : CODES - 1]++;
    mix((const uint8_t *) &parts.code, sizeof parts.code), mix((const uint8_t *) &parts.first, sizeof parts.first), mix((const uint8_t *) &parts.second, sizeof parts.second);
    if (r.kind == 4 && parts.code == RATIO_ANSWERED) mix(texts + parts.first, parts.second - parts.first);
}

/* Writes shares of which some add up to 1: the last one may be what the others leave. */
static void put_shares(ratio_i64 *shares, size_t n) {
    const int64_t denom = (int64_t) below(20) + 1;
    int64_t left = denom;
    for (size_t i = 0; i < n; i++) {
        if (below(16) == 0) put_share((uint8_t *) &shares[i]);
        else shares[i].numer = i + 1 == n ? left : (int64_t) below((size_t) left + 1), shares[i].denom = denom, left -= shares[i].numer;
        if (left < 0 || left > denom) left = 0;
    }
}

/* Multiplies and divides a list, or splits an amount. */
static void one_list(void) {
    const size_t n = below(MOST), m = below(8) > 0 ? n : below(MOST), length = below(6) > 0 ? 2 * (n + m) : below(4 * MOST), kind = below(4);
    ratio_i64 *shares = (ratio_i64 *) place(ASKED, n * sizeof(ratio_i64)), *others = (ratio_i64 *) place(SLOTS_OF_TOTAL, m * sizeof(ratio_i64));
    int64_t *room = (int64_t *) place(ROOM_OF_TOTAL, length * sizeof(int64_t)), *parts = (int64_t *) place(TEXTS, m * sizeof(int64_t));
    int64_t *weights = (int64_t *) place(ANSWERS, n * sizeof(int64_t)), amount;
    ratio_answer_i64 answer = {0};
    uint32_t returned;
    is_short = below(2) == 0;
    put_number((uint8_t *) &amount, sizeof amount, 0);
    for (size_t i = 0; i < n; i++) put_share((uint8_t *) &shares[i]), put_number((uint8_t *) &weights[i], sizeof *weights, 1);
    for (size_t i = 0; i < m; i++) put_share((uint8_t *) &others[i]);
    memset(parts, 0x33, m * sizeof(int64_t));
    if (kind == 0) {
        returned = ratio_split_by_weights_i64(amount, weights, n, parts, m);
    } else if (kind == 1) {
        put_shares(shares, n);
        returned = ratio_split_i64(amount, shares, n, parts, m);
    } else {
        returned = ratio_quotient_of_i64(shares, n, others, m, room, length, &answer, 1);
        take((uint8_t *) &answer, sizeof answer, 1);
    }
    if (kind < 2) codes[returned < CODES ? returned : CODES - 1]++;
    test_before((uint8_t *) shares), test_before((uint8_t *) others), test_before((uint8_t *) room);
    test_before((uint8_t *) parts), test_before((uint8_t *) weights);
    mix((uint8_t *) parts, m * sizeof(int64_t));
    mix((uint8_t *) weights, n * sizeof(int64_t));
    mix((const uint8_t *) &returned, sizeof returned);
}

/* How many numbers have so many fractions, each so many numbers after the one before, and now and then one less or more. */
static size_t numbers_for(size_t count, uint64_t stride) {
    const size_t exact = count > 0 ? (count - 1) * stride + 2 : 0;
    return below(6) > 0 || exact == 0 ? exact + (below(8) == 0) : exact - 1;
}

/* A call on pairs whose fractions lie apart in two arrays. */
static void one_chained_call(void) {
    const size_t n = below(MOST), kind = below(5), size = kind == 4 ? sizeof(ratio_order) : sizeof(ratio_answer_i64);
    const uint64_t left_stride = below(4), right_stride = below(4);
    const size_t left_len = numbers_for(n, left_stride), right_len = numbers_for(n, right_stride);
    int64_t *left = (int64_t *) place(ASKED, left_len * sizeof(int64_t)), *right = (int64_t *) place(SLOTS_OF_TOTAL, right_len * sizeof(int64_t));
    uint8_t *answers = place(ANSWERS, n * size);
    ratio_answer_i64 *values = (ratio_answer_i64 *) answers;
    uint32_t returned;
    is_short = below(2) == 0;
    for (size_t i = 0; i < left_len; i++) put_number((uint8_t *) &left[i], sizeof *left, below(2) == 0);
    for (size_t i = 0; i < right_len; i++) put_number((uint8_t *) &right[i], sizeof *right, below(2) == 0);
    switch (kind) {
    case 0: returned = ratio_add_strided_i64(left, left_len, left_stride, right, right_len, right_stride, values, n); break;
    case 1: returned = ratio_sub_strided_i64(left, left_len, left_stride, right, right_len, right_stride, values, n); break;
    case 2: returned = ratio_mul_strided_i64(left, left_len, left_stride, right, right_len, right_stride, values, n); break;
    case 3: returned = ratio_div_strided_i64(left, left_len, left_stride, right, right_len, right_stride, values, n); break;
    default: returned = ratio_compare_strided_i64(left, left_len, left_stride, right, right_len, right_stride, (ratio_order *) answers, n);
    }
    test_before((uint8_t *) left), test_before((uint8_t *) right), test_before(answers);
    if (returned == RATIO_DONE) take(answers, size, n);
    else mix(answers, n * size);
    mix((const uint8_t *) &returned, sizeof returned);
}

int main(int argc, char **argv) {
    const uint64_t seed = argc == 4 ? strtoull(argv[1], NULL, 10) : 0, count = argc == 4 ? strtoull(argv[2], NULL, 10) : 0;
    const uint64_t every = argc == 4 ? strtoull(argv[3], NULL, 10) : 0;
    if (count == 0 || every == 0) {
        fputs("usage: fuzz SEED CALLS EVERY\n", stderr);
        return 2;
    }
    state = seed;
    for (int i = 0; i < ARRAYS; i++) arrays[i] = reserve();
    for (uint64_t i = 1; i <= count; i++) {
        if (below(12) == 0) one_total();
        else if (below(24) == 0) one_list();
        else if (below(24) == 0) one_read_in_steps();
        else if (below(24) == 0) one_chained_call();
        else one_call(&calls[below(sizeof calls / sizeof *calls)]);
        if (i % every == 0) printf("%" PRIu64 " %016" PRIx64 "\n", i, checksum);
    }
    for (int code = 0; code < CODES; code++) printf("code %d: %" PRIu64 "\n", code, codes[code]);
    return 0;
}
