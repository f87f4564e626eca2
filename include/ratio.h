/* Written by templates/write from templates/ratio.h.txt: change that file, and write this one anew. */
/* Exact fractions of machine integers: calls over arrays of fractions, proved.
 *
 * Each call takes an array of inputs and an array for the answers, and the length of each. It returns RATIO_DONE, and each answer has
 * a code. If the lengths differ, or if there is too little room for texts, it returns RATIO_BAD_LENGTH and writes nothing. The calls on
 * totals, near the end, take one total or give one answer, and those that split an amount return a code.
 *
 * No call overflows, stops the program or allocates memory, whatever the numbers are. The arrays that a call writes may not overlap any
 * other array. A pointer may be null only where its length is 0: then there are no items, as in an empty std::vector.
 *
 * Threads: the library keeps no state, so all calls may run at once, if none writes an array that another one uses.
 *
 * Signals: a handler may make each call with arrays of its own, since none takes a lock, sets errno or allocates memory.
 *
 * Stability: no call, struct or number of this header changes or goes while the shared library is libratio_c.so.0. New ones may come.
 *
 * From C (C99) and from C++ (C++11), once include/install has installed the library:
 *
 *   cc program.c $(pkg-config --cflags --libs ratio_c) -o program
 *
 * Or over libratio_c.a as it was built: `rt lib` makes it in crates/ratio_c/out, and without rt, rust/c/build in rust/c/target/release:
 *
 *   cc -I include program.c crates/ratio_c/out/libratio_c.a -o program
 */
#ifndef RATIO_H
#define RATIO_H

#include <stddef.h>
#include <stdint.h>

#if SIZE_MAX != UINT64_MAX
#error "ratio.h: the library is proved for targets of 64 bits alone"
#endif

/* The compiler warns where a program does not look at what a call returns. Define this as nothing before the include, and it does not. */
#ifndef RATIO_CHECKED
#ifdef __GNUC__
#define RATIO_CHECKED __attribute__((warn_unused_result))
#else
#define RATIO_CHECKED
#endif
#endif

#ifdef __cplusplus
extern "C" {
#endif

/* The version of this header. */
#define RATIO_VERSION "0.1.0"

/* The version of the library that the program runs with. Only the libraries that include/install installs have it. */
const char *ratio_version(void);

/* What a call returns. The calls ratio_split_i64 and ratio_split_by_weights_i64 return a code. */
enum ratio_return {
    RATIO_DONE = 0,      /* each answer is written */
    RATIO_BAD_LENGTH = 1 /* the lengths do not fit: nothing is written */
};

/* The code of an answer. If it is not RATIO_ANSWERED, the numbers are 0, but for the headers of totals and of reads in steps, and the span
 * of a text is empty. The number of a code never changes: a new code gets a new number.
 */
enum ratio_code {
    RATIO_ANSWERED = 0,                 /* the answer is there */
    RATIO_NOT_HELD = 1,                 /* the answer does not fit in the type, or there is none: no fraction within the bounds of
                                           between, or no convergent at the place. Of total_print_bounded: it needs more than
                                           one pass */
    RATIO_DIVISION_BY_ZERO = 2,         /* of div, rem, div_round_to and quotient_of, and of pow for 0 to an exponent below 0 */
    RATIO_DENOMINATOR_NOT_POSITIVE = 3, /* of all others */
    RATIO_ZERO_DENOMINATOR = 4,         /* of compare, equal, hash, reduce and print, which take negative ones, and of read and
                                           read_text */
    RATIO_PARSE_ERROR = 5,              /* of read: no fraction, or not even 128 bits are enough for it. If 128 bits are enough, but
                                           not those of the type, the code is RATIO_NOT_HELD. Of read_decimal and read_text:
                                           no such text */
    RATIO_NO_TEXT = 6,                  /* of read, read_decimal and read_text: the span does not lie in the texts */
    RATIO_BOUND_NOT_POSITIVE = 7,       /* of nearest: no denominator lies from 1 to the bound */
    RATIO_NO_TOTAL = 8,                 /* of totals: an empty slot has a numerator that is not 0. Of reads in steps: the room does
                                           not hold what the last step left there. Of joined_print: also too few digits or bytes */
    RATIO_BAD_OPTION = 9,               /* of between, from_scaled, round_to, mul_round, mul_round_to, div_round_to, print_decimal,
                                           total_print, total_print_bounded, joined_print and total_round_to: the call has no such
                                           flags, scale, parts, places or rule */
    RATIO_MORE_ROOM = 10,               /* of totals: each slot holds another denominator, or a read has too little room. Of
                                           quotient_of: too little room */
    RATIO_TOO_LONG = 11,                /* of reads of totals: the common denominator is not below 2^(2^20) */
    RATIO_BELOW_ZERO = 12,              /* of split and split_by_weights: a share or a weight is below 0 */
    RATIO_NOT_ONE = 13,                 /* of split: the shares do not add up to 1 */
    RATIO_ALL_ZERO = 14,                /* of split_by_weights: the weights add up to 0 */
    RATIO_UNLIKE_LENGTHS = 15           /* of split and split_by_weights: there are not as many parts as shares or weights */
};

/* A code in words, such as "division by zero", and "unknown code" for any other number. It is compiled with the program, not in the
 * library. */
static inline const char *ratio_code_text(uint32_t code) {
    switch (code) {
    case RATIO_ANSWERED: return "answered";
    case RATIO_NOT_HELD: return "out of range";
    case RATIO_DIVISION_BY_ZERO: return "division by zero";
    case RATIO_DENOMINATOR_NOT_POSITIVE: return "denominator not positive";
    case RATIO_ZERO_DENOMINATOR: return "zero denominator";
    case RATIO_PARSE_ERROR: return "no fraction";
    case RATIO_NO_TEXT: return "span outside of the texts";
    case RATIO_BOUND_NOT_POSITIVE: return "bound not positive";
    case RATIO_NO_TOTAL: return "no total";
    case RATIO_BAD_OPTION: return "no such option";
    case RATIO_MORE_ROOM: return "more room needed";
    case RATIO_TOO_LONG: return "common denominator too long";
    case RATIO_BELOW_ZERO: return "share or weight below zero";
    case RATIO_NOT_ONE: return "shares do not add up to 1";
    case RATIO_ALL_ZERO: return "weights add up to 0";
    case RATIO_UNLIKE_LENGTHS: return "not as many parts as shares or weights";
    default: return "unknown code";
    }
}

/* The flags of between, which are added. Without flags both bounds are excluded. */
enum ratio_flag {
    RATIO_LOW_INCLUDED = 1,  /* the lower bound may be the answer */
    RATIO_HIGH_INCLUDED = 2, /* the upper bound may be the answer */
    RATIO_LOW_OPEN = 4,      /* there is no lower bound: its fields are not read */
    RATIO_HIGH_OPEN = 8      /* there is no upper bound: its fields are not read */
};

/* The rules of round_to, mul_round, mul_round_to, div_round_to, print_decimal, total_print, total_print_bounded, joined_print and
 * total_round_to.
 */
enum ratio_rule {
    RATIO_RULE_HALF_AWAY = 0, /* to the nearer multiple, and a half away from zero: 5/2 to 3 */
    RATIO_RULE_HALF_EVEN = 1, /* to the nearer one, and a half to the even one: 5/2 to 2 */
    RATIO_RULE_DOWN = 2,      /* towards zero */
    RATIO_RULE_UP = 3,        /* away from zero */
    RATIO_RULE_FLOOR = 4,     /* to the one below */
    RATIO_RULE_CEIL = 5       /* to the one above */
};

/* How many bytes a call requires for each fraction that it prints. A decimal has a number, a point and 38 places. */
enum ratio_room {
    RATIO_ROOM_I32 = 23,         /* of ratio_print_i32 */
    RATIO_ROOM_I64 = 41,         /* of ratio_print_i64 */
    RATIO_ROOM_I128 = 81,        /* of ratio_print_i128 */
    RATIO_DECIMAL_ROOM_I32 = 50, /* of ratio_print_decimal_i32 */
    RATIO_DECIMAL_ROOM_I64 = 59, /* of ratio_print_decimal_i64 */
    RATIO_DECIMAL_ROOM_I128 = 79 /* of ratio_print_decimal_i128 */
};

/* A number of 128 bits: high times 2^64, and low. */
typedef struct ratio_wide { uint64_t low; int64_t high; } ratio_wide;

/* A decimal as databases keep it: the value is the number by 10^scale. 1250 with the scale 2 is 12.50. */
typedef struct ratio_scaled { ratio_wide number; int32_t scale; } ratio_scaled;

/* An order, which is -1, 0 or 1. */
typedef struct ratio_order { uint32_t code; int32_t order; } ratio_order;

/* Whether something holds: 1 if it does, and 0 if it does not. */
typedef struct ratio_truth { uint32_t code; uint32_t holds; } ratio_truth;

/* A hash: the same for fractions of one value. */
typedef struct ratio_hash { uint32_t code; uint64_t hash; } ratio_hash;

/* A float. */
typedef struct ratio_float { uint32_t code; double value; } ratio_float;

/* A hash that may be below 0, as in Python. */
typedef struct ratio_residue { uint32_t code; int64_t hash; } ratio_residue;

/* A key for sorting: 64 bits. */
typedef struct ratio_key { uint32_t code; int64_t key; } ratio_key;

/* Bytes for sorting. */
typedef struct ratio_sortable { uint32_t code; uint8_t bytes[24]; } ratio_sortable;

/* The bytes of a text: from start on, and before end. */
typedef struct ratio_span { size_t start, end; } ratio_span;

/* Where the text of a fraction is. The span is empty if the code is not RATIO_ANSWERED. */
typedef struct ratio_text { uint32_t code; ratio_span span; } ratio_text;

/* A fraction of numbers of 32 bits. */
typedef struct ratio_i32 { int32_t numer, denom; } ratio_i32;

/* Two fractions. */
typedef struct ratio_pair_i32 { ratio_i32 left, right; } ratio_pair_i32;

/* Two fractions, and the rule by which their product is rounded. */
typedef struct ratio_factors_i32 { ratio_i32 left, right; uint32_t rule; } ratio_factors_i32;

/* A fraction, and the exponent of its power. */
typedef struct ratio_power_i32 { ratio_i32 base; int32_t exponent; } ratio_power_i32;

/* A fraction, and the greatest denominator of the one near it. */
typedef struct ratio_bounded_i32 { ratio_i32 value; int32_t most; } ratio_bounded_i32;

/* A fraction, and the place of its convergent. */
typedef struct ratio_place_i32 { ratio_i32 value; uint32_t place; } ratio_place_i32;

/* The bounds of a fraction, and their flags. */
typedef struct ratio_bounds_i32 { ratio_i32 low, high; uint32_t flags; } ratio_bounds_i32;

/* A fraction that is rounded to a multiple of 1/parts, and the rule. */
typedef struct ratio_multiple_i32 { ratio_i32 value; int32_t parts; uint32_t rule; } ratio_multiple_i32;

/* Two fractions whose product or quotient is rounded to a multiple of 1/parts, and the rule. */
typedef struct ratio_operands_i32 { ratio_i32 left, right; int32_t parts; uint32_t rule; } ratio_operands_i32;

/* A fraction that is printed with so many places, and the rule. */
typedef struct ratio_decimal_i32 { ratio_i32 value; uint32_t places, rule; } ratio_decimal_i32;

/* The fraction that a call gives. */
typedef struct ratio_answer_i32 { uint32_t code; ratio_i32 value; } ratio_answer_i32;

/* A fraction of numbers of 64 bits. */
typedef struct ratio_i64 { int64_t numer, denom; } ratio_i64;

/* Two fractions. */
typedef struct ratio_pair_i64 { ratio_i64 left, right; } ratio_pair_i64;

/* Two fractions, and the rule by which their product is rounded. */
typedef struct ratio_factors_i64 { ratio_i64 left, right; uint32_t rule; } ratio_factors_i64;

/* A fraction, and the exponent of its power. */
typedef struct ratio_power_i64 { ratio_i64 base; int32_t exponent; } ratio_power_i64;

/* A fraction, and the greatest denominator of the one near it. */
typedef struct ratio_bounded_i64 { ratio_i64 value; int64_t most; } ratio_bounded_i64;

/* A fraction, and the place of its convergent. */
typedef struct ratio_place_i64 { ratio_i64 value; uint32_t place; } ratio_place_i64;

/* The bounds of a fraction, and their flags. */
typedef struct ratio_bounds_i64 { ratio_i64 low, high; uint32_t flags; } ratio_bounds_i64;

/* A fraction that is rounded to a multiple of 1/parts, and the rule. */
typedef struct ratio_multiple_i64 { ratio_i64 value; int64_t parts; uint32_t rule; } ratio_multiple_i64;

/* Two fractions whose product or quotient is rounded to a multiple of 1/parts, and the rule. */
typedef struct ratio_operands_i64 { ratio_i64 left, right; int64_t parts; uint32_t rule; } ratio_operands_i64;

/* A fraction that is printed with so many places, and the rule. */
typedef struct ratio_decimal_i64 { ratio_i64 value; uint32_t places, rule; } ratio_decimal_i64;

/* The fraction that a call gives. */
typedef struct ratio_answer_i64 { uint32_t code; ratio_i64 value; } ratio_answer_i64;

/* A fraction of numbers of 128 bits. */
typedef struct ratio_i128 { ratio_wide numer, denom; } ratio_i128;

/* Two fractions. */
typedef struct ratio_pair_i128 { ratio_i128 left, right; } ratio_pair_i128;

/* Two fractions, and the rule by which their product is rounded. */
typedef struct ratio_factors_i128 { ratio_i128 left, right; uint32_t rule; } ratio_factors_i128;

/* A fraction, and the exponent of its power. */
typedef struct ratio_power_i128 { ratio_i128 base; int32_t exponent; } ratio_power_i128;

/* A fraction, and the greatest denominator of the one near it. */
typedef struct ratio_bounded_i128 { ratio_i128 value; ratio_wide most; } ratio_bounded_i128;

/* A fraction, and the place of its convergent. */
typedef struct ratio_place_i128 { ratio_i128 value; uint32_t place; } ratio_place_i128;

/* The bounds of a fraction, and their flags. */
typedef struct ratio_bounds_i128 { ratio_i128 low, high; uint32_t flags; } ratio_bounds_i128;

/* A fraction that is rounded to a multiple of 1/parts, and the rule. */
typedef struct ratio_multiple_i128 { ratio_i128 value; ratio_wide parts; uint32_t rule; } ratio_multiple_i128;

/* Two fractions whose product or quotient is rounded to a multiple of 1/parts, and the rule. */
typedef struct ratio_operands_i128 { ratio_i128 left, right; ratio_wide parts; uint32_t rule; } ratio_operands_i128;

/* A fraction that is printed with so many places, and the rule. */
typedef struct ratio_decimal_i128 { ratio_i128 value; uint32_t places, rule; } ratio_decimal_i128;

/* The fraction that a call gives. */
typedef struct ratio_answer_i128 { uint32_t code; ratio_i128 value; } ratio_answer_i128;

/* How the left fraction of each pair compares to the right one, by their values, reduced or not: -1 for 1/3 and 2/4. */
RATIO_CHECKED enum ratio_return ratio_compare_i32(const ratio_pair_i32 *asked, size_t asked_len,
    ratio_order *answers, size_t answers_len);

/* Whether both fractions of each pair have the same value, reduced or not: 1/2 and -2/-4 have. */
RATIO_CHECKED enum ratio_return ratio_equal_i32(const ratio_pair_i32 *asked, size_t asked_len,
    ratio_truth *answers, size_t answers_len);

/* A hash of each fraction, by its value: the same for 1/2, 2/4 and -1/-2. It keeps no secret. */
RATIO_CHECKED enum ratio_return ratio_hash_i32(const ratio_i32 *asked, size_t asked_len,
    ratio_hash *answers, size_t answers_len);

/* The sum of each pair, in lowest terms: 5/6 for 1/2 and 1/3. RATIO_NOT_HELD only if these do not fit. */
RATIO_CHECKED enum ratio_return ratio_add_i32(const ratio_pair_i32 *asked, size_t asked_len,
    ratio_answer_i32 *answers, size_t answers_len);

/* The difference of each pair, in lowest terms: 1/6 for 1/2 and 1/3. RATIO_NOT_HELD only if these do not fit. */
RATIO_CHECKED enum ratio_return ratio_sub_i32(const ratio_pair_i32 *asked, size_t asked_len,
    ratio_answer_i32 *answers, size_t answers_len);

/* The product of each pair, in lowest terms: 1/6 for 1/2 and 1/3. RATIO_NOT_HELD only if these do not fit. */
RATIO_CHECKED enum ratio_return ratio_mul_i32(const ratio_pair_i32 *asked, size_t asked_len,
    ratio_answer_i32 *answers, size_t answers_len);

/* The quotient of each pair, in lowest terms: 3/2 for 1/2 and 1/3. RATIO_NOT_HELD only if these do not fit. A divisor 0 gives
 * RATIO_DIVISION_BY_ZERO. */
RATIO_CHECKED enum ratio_return ratio_div_i32(const ratio_pair_i32 *asked, size_t asked_len,
    ratio_answer_i32 *answers, size_t answers_len);

/* The remainder of each pair, in lowest terms: left - right * t, where t is the quotient cut towards zero. 7/2 and 1/3 give 1/6.
 * RATIO_NOT_HELD only if these do not fit. A divisor 0 gives RATIO_DIVISION_BY_ZERO. */
RATIO_CHECKED enum ratio_return ratio_rem_i32(const ratio_pair_i32 *asked, size_t asked_len,
    ratio_answer_i32 *answers, size_t answers_len);

/* The greatest common divisor of each pair, in lowest terms: the greatest fraction that divides both. One fraction divides another if the
 * quotient is a whole number. 1/4 and 1/6 give 1/12. It is never negative, and for a fraction and 0 it is the fraction's absolute value.
 * RATIO_NOT_HELD only if it does not fit. */
RATIO_CHECKED enum ratio_return ratio_gcd_i32(const ratio_pair_i32 *asked, size_t asked_len,
    ratio_answer_i32 *answers, size_t answers_len);

/* The least common multiple of each pair, in lowest terms: the least fraction above 0 that both divide. 1/4 and 1/6 give 1/2. It is 0/1 if
 * one of them is 0. RATIO_NOT_HELD only if it does not fit. */
RATIO_CHECKED enum ratio_return ratio_lcm_i32(const ratio_pair_i32 *asked, size_t asked_len,
    ratio_answer_i32 *answers, size_t answers_len);

/* The product of each pair, rounded to a whole number by a rule, over 1: 6/1 for 7/3 and 5/2 by RATIO_RULE_HALF_EVEN. RATIO_NOT_HELD only
 * if that number does not fit: the product itself need not. A rule that is none gives RATIO_BAD_OPTION. */
RATIO_CHECKED enum ratio_return ratio_mul_round_i32(const ratio_factors_i32 *asked, size_t asked_len,
    ratio_answer_i32 *answers, size_t answers_len);

/* The product of each pair, rounded by a rule to a multiple of 1/parts, in lowest terms: 2249/50, which is 44.98, for 1999/100 and 9/4 with
 * 100 parts. RATIO_NOT_HELD only if these terms do not fit: the product itself need not. Parts that are not above 0, and a rule that is
 * none, give RATIO_BAD_OPTION. */
RATIO_CHECKED enum ratio_return ratio_mul_round_to_i32(const ratio_operands_i32 *asked, size_t asked_len,
    ratio_answer_i32 *answers, size_t answers_len);

/* The quotient of each pair, rounded as by ratio_mul_round_to_i32. A divisor 0 gives RATIO_DIVISION_BY_ZERO. */
RATIO_CHECKED enum ratio_return ratio_div_round_to_i32(const ratio_operands_i32 *asked, size_t asked_len,
    ratio_answer_i32 *answers, size_t answers_len);

/* The lowest terms of each fraction, with the sign in the numerator: -1/2 for 2/-4. */
RATIO_CHECKED enum ratio_return ratio_reduce_i32(const ratio_i32 *asked, size_t asked_len,
    ratio_answer_i32 *answers, size_t answers_len);

/* The negative of each fraction, over the same denominator, not reduced. If the numerator is the least number of the type, it gives
 * RATIO_NOT_HELD. */
RATIO_CHECKED enum ratio_return ratio_neg_i32(const ratio_i32 *asked, size_t asked_len,
    ratio_answer_i32 *answers, size_t answers_len);

/* The absolute value of each fraction, over the same denominator, not reduced. If the numerator is the least number of the type, it gives
 * RATIO_NOT_HELD. */
RATIO_CHECKED enum ratio_return ratio_abs_i32(const ratio_i32 *asked, size_t asked_len,
    ratio_answer_i32 *answers, size_t answers_len);

/* The greatest whole number that is not above each fraction, over 1: -4/1 for -7/2. */
RATIO_CHECKED enum ratio_return ratio_floor_i32(const ratio_i32 *asked, size_t asked_len,
    ratio_answer_i32 *answers, size_t answers_len);

/* The least whole number that is not below each fraction, over 1: -3/1 for -7/2. */
RATIO_CHECKED enum ratio_return ratio_ceil_i32(const ratio_i32 *asked, size_t asked_len,
    ratio_answer_i32 *answers, size_t answers_len);

/* Each fraction cut towards zero, over 1: -3/1 for -7/2. */
RATIO_CHECKED enum ratio_return ratio_trunc_i32(const ratio_i32 *asked, size_t asked_len,
    ratio_answer_i32 *answers, size_t answers_len);

/* The whole number nearest to each fraction, a half away from zero, over 1: -4/1 for -7/2. */
RATIO_CHECKED enum ratio_return ratio_round_i32(const ratio_i32 *asked, size_t asked_len,
    ratio_answer_i32 *answers, size_t answers_len);

/* Each fraction to its exponent, not reduced: -8/27 for -3/2 and -3. 0 to an exponent below 0 gives RATIO_DIVISION_BY_ZERO. */
RATIO_CHECKED enum ratio_return ratio_pow_i32(const ratio_power_i32 *asked, size_t asked_len,
    ratio_answer_i32 *answers, size_t answers_len);

/* The fraction nearest to each one, with a denominator from 1 to the bound `most`, in lowest terms: 22/7 for 355/113 within 10. Of two that
 * are as near, it is the one with the smaller denominator, and of two whole numbers the smaller one. A bound below 1 gives
 * RATIO_BOUND_NOT_POSITIVE. */
RATIO_CHECKED enum ratio_return ratio_nearest_i32(const ratio_bounded_i32 *asked, size_t asked_len,
    ratio_answer_i32 *answers, size_t answers_len);

/* The simplest fraction between two bounds: of all fractions there, the one with the smallest denominator, and of these the one whose
 * numerator is nearest to 0. 1/3 and 1/2 give 2/5. A bound may be included or open, by a flag: with RATIO_HIGH_INCLUDED they give 1/2, and
 * from 1/3 with RATIO_HIGH_OPEN it is 1/1. If the type has no fraction there, as between 1/2 and 1/2, it gives RATIO_NOT_HELD. A bound that
 * is both included and open, or any other flag, gives RATIO_BAD_OPTION. */
RATIO_CHECKED enum ratio_return ratio_between_i32(const ratio_bounds_i32 *asked, size_t asked_len,
    ratio_answer_i32 *answers, size_t answers_len);

/* The multiple of 1/parts that a rule says, in lowest terms, or RATIO_NOT_HELD if they do not fit: 67/100 for 2/3 and 100 parts by
 * RATIO_RULE_HALF_EVEN. Parts below 1, or a rule that is none, give RATIO_BAD_OPTION. */
RATIO_CHECKED enum ratio_return ratio_round_to_i32(const ratio_multiple_i32 *asked, size_t asked_len,
    ratio_answer_i32 *answers, size_t answers_len);

/* The lowest terms of each decimal, or RATIO_NOT_HELD if they do not fit: 25/2 for 1250 with the scale 2. A scale below 0 or above 38 gives
 * RATIO_BAD_OPTION. */
RATIO_CHECKED enum ratio_return ratio_from_scaled_i32(const ratio_scaled *asked, size_t asked_len,
    ratio_answer_i32 *answers, size_t answers_len);

/* The convergent of each fraction at a place: the fraction of the first quotients of the continued fraction, one at place 0. 415/93 has
 * 4/1, 9/2, 58/13 and 415/93. At place 4 and above it gives RATIO_NOT_HELD. */
RATIO_CHECKED enum ratio_return ratio_convergent_i32(const ratio_place_i32 *asked, size_t asked_len,
    ratio_answer_i32 *answers, size_t answers_len);

/* The lowest terms of exactly the value of each float: 3/4 for 0.75. It gives RATIO_NOT_HELD if they do not fit, and for an infinity or a
 * NaN. */
RATIO_CHECKED enum ratio_return ratio_from_f64_i32(const double *asked, size_t asked_len,
    ratio_answer_i32 *answers, size_t answers_len);

/* The simplest fraction that rounds to each float: 1/10 for 0.1, and 1/3 for 0.3333333333333333. A whole float gives itself. It gives
 * RATIO_NOT_HELD if the fraction does not fit, and for an infinity or a NaN. */
RATIO_CHECKED enum ratio_return ratio_rationalize_i32(const double *asked, size_t asked_len,
    ratio_answer_i32 *answers, size_t answers_len);

/* The float nearest to each fraction: 0.3333333333333333 for 1/3. Of two that are as near, it is the one whose last bit is 0. */
RATIO_CHECKED enum ratio_return ratio_to_f64_i32(const ratio_i32 *asked, size_t asked_len,
    ratio_float *answers, size_t answers_len);

/* The fraction of each text of the bytes that a span names: N/D or N in decimal, in lowest terms. `x` gives RATIO_PARSE_ERROR, and
 * 2147483648/3, which needs more than 32 bits, RATIO_NOT_HELD. */
RATIO_CHECKED enum ratio_return ratio_read_i32(const uint8_t *texts, size_t texts_len, const ratio_span *spans, size_t spans_len,
    ratio_answer_i32 *answers, size_t answers_len);

/* The fraction of each decimal of the bytes that a span names, in lowest terms: 99/8 for 12.375, and -3/2000 for -1.5e-3. 1.2.3 gives
 * RATIO_PARSE_ERROR, and 1e40, which needs more than 32 bits, RATIO_NOT_HELD. */
RATIO_CHECKED enum ratio_return ratio_read_decimal_i32(const uint8_t *texts, size_t texts_len, const ratio_span *spans, size_t spans_len,
    ratio_answer_i32 *answers, size_t answers_len);

/* The fraction of what a person types: a decimal, a fraction, a mixed number such as -1 1/2 for -3/2, or a decimal or a fraction with a
 * percent sign, such as 12.5% for 1/8. 1/0 gives RATIO_ZERO_DENOMINATOR, any other text RATIO_PARSE_ERROR, and what does not fit
 * RATIO_NOT_HELD. */
RATIO_CHECKED enum ratio_return ratio_read_text_i32(const uint8_t *texts, size_t texts_len, const ratio_span *spans, size_t spans_len,
    ratio_answer_i32 *answers, size_t answers_len);

/* Each fraction as it is, N/D, or N if D is 1, one text after another. With fewer than RATIO_ROOM_I32 bytes for each fraction it returns
 * RATIO_BAD_LENGTH. Nothing is written behind the last text. */
RATIO_CHECKED enum ratio_return ratio_print_i32(const ratio_i32 *asked, size_t asked_len, uint8_t *texts, size_t texts_len,
    ratio_text *answers, size_t answers_len);

/* Each fraction as a decimal with exactly so many places, rounded by a rule, one text after another: 0.67 for 2/3 with 2 places by
 * RATIO_RULE_HALF_EVEN. More than 38 places, or a rule that is none, give RATIO_BAD_OPTION. With fewer than RATIO_DECIMAL_ROOM_I32 bytes
 * for each fraction the call returns RATIO_BAD_LENGTH. Nothing is written behind the last text. */
RATIO_CHECKED enum ratio_return ratio_print_decimal_i32(const ratio_decimal_i32 *asked, size_t asked_len, uint8_t *texts, size_t texts_len,
    ratio_text *answers, size_t answers_len);

/* How the left fraction of each pair compares to the right one, by their values, reduced or not: -1 for 1/3 and 2/4. */
RATIO_CHECKED enum ratio_return ratio_compare_i64(const ratio_pair_i64 *asked, size_t asked_len,
    ratio_order *answers, size_t answers_len);

/* Whether both fractions of each pair have the same value, reduced or not: 1/2 and -2/-4 have. */
RATIO_CHECKED enum ratio_return ratio_equal_i64(const ratio_pair_i64 *asked, size_t asked_len,
    ratio_truth *answers, size_t answers_len);

/* A hash of each fraction, by its value: the same for 1/2, 2/4 and -1/-2. It keeps no secret. */
RATIO_CHECKED enum ratio_return ratio_hash_i64(const ratio_i64 *asked, size_t asked_len,
    ratio_hash *answers, size_t answers_len);

/* The sum of each pair, in lowest terms: 5/6 for 1/2 and 1/3. RATIO_NOT_HELD only if these do not fit. */
RATIO_CHECKED enum ratio_return ratio_add_i64(const ratio_pair_i64 *asked, size_t asked_len,
    ratio_answer_i64 *answers, size_t answers_len);

/* The difference of each pair, in lowest terms: 1/6 for 1/2 and 1/3. RATIO_NOT_HELD only if these do not fit. */
RATIO_CHECKED enum ratio_return ratio_sub_i64(const ratio_pair_i64 *asked, size_t asked_len,
    ratio_answer_i64 *answers, size_t answers_len);

/* The product of each pair, in lowest terms: 1/6 for 1/2 and 1/3. RATIO_NOT_HELD only if these do not fit. */
RATIO_CHECKED enum ratio_return ratio_mul_i64(const ratio_pair_i64 *asked, size_t asked_len,
    ratio_answer_i64 *answers, size_t answers_len);

/* The quotient of each pair, in lowest terms: 3/2 for 1/2 and 1/3. RATIO_NOT_HELD only if these do not fit. A divisor 0 gives
 * RATIO_DIVISION_BY_ZERO. */
RATIO_CHECKED enum ratio_return ratio_div_i64(const ratio_pair_i64 *asked, size_t asked_len,
    ratio_answer_i64 *answers, size_t answers_len);

/* The remainder of each pair, in lowest terms: left - right * t, where t is the quotient cut towards zero. 7/2 and 1/3 give 1/6.
 * RATIO_NOT_HELD only if these do not fit. A divisor 0 gives RATIO_DIVISION_BY_ZERO. */
RATIO_CHECKED enum ratio_return ratio_rem_i64(const ratio_pair_i64 *asked, size_t asked_len,
    ratio_answer_i64 *answers, size_t answers_len);

/* The greatest common divisor of each pair, in lowest terms: the greatest fraction that divides both. One fraction divides another if the
 * quotient is a whole number. 1/4 and 1/6 give 1/12. It is never negative, and for a fraction and 0 it is the fraction's absolute value.
 * RATIO_NOT_HELD only if it does not fit. */
RATIO_CHECKED enum ratio_return ratio_gcd_i64(const ratio_pair_i64 *asked, size_t asked_len,
    ratio_answer_i64 *answers, size_t answers_len);

/* The least common multiple of each pair, in lowest terms: the least fraction above 0 that both divide. 1/4 and 1/6 give 1/2. It is 0/1 if
 * one of them is 0. RATIO_NOT_HELD only if it does not fit. */
RATIO_CHECKED enum ratio_return ratio_lcm_i64(const ratio_pair_i64 *asked, size_t asked_len,
    ratio_answer_i64 *answers, size_t answers_len);

/* The product of each pair, rounded to a whole number by a rule, over 1: 6/1 for 7/3 and 5/2 by RATIO_RULE_HALF_EVEN. RATIO_NOT_HELD only
 * if that number does not fit: the product itself need not. A rule that is none gives RATIO_BAD_OPTION. */
RATIO_CHECKED enum ratio_return ratio_mul_round_i64(const ratio_factors_i64 *asked, size_t asked_len,
    ratio_answer_i64 *answers, size_t answers_len);

/* The product of each pair, rounded by a rule to a multiple of 1/parts, in lowest terms: 2249/50, which is 44.98, for 1999/100 and 9/4 with
 * 100 parts. RATIO_NOT_HELD only if these terms do not fit: the product itself need not. Parts that are not above 0, and a rule that is
 * none, give RATIO_BAD_OPTION. */
RATIO_CHECKED enum ratio_return ratio_mul_round_to_i64(const ratio_operands_i64 *asked, size_t asked_len,
    ratio_answer_i64 *answers, size_t answers_len);

/* The quotient of each pair, rounded as by ratio_mul_round_to_i64. A divisor 0 gives RATIO_DIVISION_BY_ZERO. */
RATIO_CHECKED enum ratio_return ratio_div_round_to_i64(const ratio_operands_i64 *asked, size_t asked_len,
    ratio_answer_i64 *answers, size_t answers_len);

/* The lowest terms of each fraction, with the sign in the numerator: -1/2 for 2/-4. */
RATIO_CHECKED enum ratio_return ratio_reduce_i64(const ratio_i64 *asked, size_t asked_len,
    ratio_answer_i64 *answers, size_t answers_len);

/* The negative of each fraction, over the same denominator, not reduced. If the numerator is the least number of the type, it gives
 * RATIO_NOT_HELD. */
RATIO_CHECKED enum ratio_return ratio_neg_i64(const ratio_i64 *asked, size_t asked_len,
    ratio_answer_i64 *answers, size_t answers_len);

/* The absolute value of each fraction, over the same denominator, not reduced. If the numerator is the least number of the type, it gives
 * RATIO_NOT_HELD. */
RATIO_CHECKED enum ratio_return ratio_abs_i64(const ratio_i64 *asked, size_t asked_len,
    ratio_answer_i64 *answers, size_t answers_len);

/* The greatest whole number that is not above each fraction, over 1: -4/1 for -7/2. */
RATIO_CHECKED enum ratio_return ratio_floor_i64(const ratio_i64 *asked, size_t asked_len,
    ratio_answer_i64 *answers, size_t answers_len);

/* The least whole number that is not below each fraction, over 1: -3/1 for -7/2. */
RATIO_CHECKED enum ratio_return ratio_ceil_i64(const ratio_i64 *asked, size_t asked_len,
    ratio_answer_i64 *answers, size_t answers_len);

/* Each fraction cut towards zero, over 1: -3/1 for -7/2. */
RATIO_CHECKED enum ratio_return ratio_trunc_i64(const ratio_i64 *asked, size_t asked_len,
    ratio_answer_i64 *answers, size_t answers_len);

/* The whole number nearest to each fraction, a half away from zero, over 1: -4/1 for -7/2. */
RATIO_CHECKED enum ratio_return ratio_round_i64(const ratio_i64 *asked, size_t asked_len,
    ratio_answer_i64 *answers, size_t answers_len);

/* Each fraction to its exponent, not reduced: -8/27 for -3/2 and -3. 0 to an exponent below 0 gives RATIO_DIVISION_BY_ZERO. */
RATIO_CHECKED enum ratio_return ratio_pow_i64(const ratio_power_i64 *asked, size_t asked_len,
    ratio_answer_i64 *answers, size_t answers_len);

/* The fraction nearest to each one, with a denominator from 1 to the bound `most`, in lowest terms: 22/7 for 355/113 within 10. Of two that
 * are as near, it is the one with the smaller denominator, and of two whole numbers the smaller one. A bound below 1 gives
 * RATIO_BOUND_NOT_POSITIVE. */
RATIO_CHECKED enum ratio_return ratio_nearest_i64(const ratio_bounded_i64 *asked, size_t asked_len,
    ratio_answer_i64 *answers, size_t answers_len);

/* The simplest fraction between two bounds: of all fractions there, the one with the smallest denominator, and of these the one whose
 * numerator is nearest to 0. 1/3 and 1/2 give 2/5. A bound may be included or open, by a flag: with RATIO_HIGH_INCLUDED they give 1/2, and
 * from 1/3 with RATIO_HIGH_OPEN it is 1/1. If the type has no fraction there, as between 1/2 and 1/2, it gives RATIO_NOT_HELD. A bound that
 * is both included and open, or any other flag, gives RATIO_BAD_OPTION. */
RATIO_CHECKED enum ratio_return ratio_between_i64(const ratio_bounds_i64 *asked, size_t asked_len,
    ratio_answer_i64 *answers, size_t answers_len);

/* The multiple of 1/parts that a rule says, in lowest terms, or RATIO_NOT_HELD if they do not fit: 67/100 for 2/3 and 100 parts by
 * RATIO_RULE_HALF_EVEN. Parts below 1, or a rule that is none, give RATIO_BAD_OPTION. */
RATIO_CHECKED enum ratio_return ratio_round_to_i64(const ratio_multiple_i64 *asked, size_t asked_len,
    ratio_answer_i64 *answers, size_t answers_len);

/* The lowest terms of each decimal, or RATIO_NOT_HELD if they do not fit: 25/2 for 1250 with the scale 2. A scale below 0 or above 38 gives
 * RATIO_BAD_OPTION. */
RATIO_CHECKED enum ratio_return ratio_from_scaled_i64(const ratio_scaled *asked, size_t asked_len,
    ratio_answer_i64 *answers, size_t answers_len);

/* The convergent of each fraction at a place: the fraction of the first quotients of the continued fraction, one at place 0. 415/93 has
 * 4/1, 9/2, 58/13 and 415/93. At place 4 and above it gives RATIO_NOT_HELD. */
RATIO_CHECKED enum ratio_return ratio_convergent_i64(const ratio_place_i64 *asked, size_t asked_len,
    ratio_answer_i64 *answers, size_t answers_len);

/* The lowest terms of exactly the value of each float: 3/4 for 0.75. It gives RATIO_NOT_HELD if they do not fit, and for an infinity or a
 * NaN. */
RATIO_CHECKED enum ratio_return ratio_from_f64_i64(const double *asked, size_t asked_len,
    ratio_answer_i64 *answers, size_t answers_len);

/* The simplest fraction that rounds to each float: 1/10 for 0.1, and 1/3 for 0.3333333333333333. A whole float gives itself. It gives
 * RATIO_NOT_HELD if the fraction does not fit, and for an infinity or a NaN. */
RATIO_CHECKED enum ratio_return ratio_rationalize_i64(const double *asked, size_t asked_len,
    ratio_answer_i64 *answers, size_t answers_len);

/* The float nearest to each fraction: 0.3333333333333333 for 1/3. Of two that are as near, it is the one whose last bit is 0. */
RATIO_CHECKED enum ratio_return ratio_to_f64_i64(const ratio_i64 *asked, size_t asked_len,
    ratio_float *answers, size_t answers_len);

/* The fraction of each text of the bytes that a span names: N/D or N in decimal, in lowest terms. `x` gives RATIO_PARSE_ERROR, and
 * 9223372036854775808/3, which needs more than 64 bits, RATIO_NOT_HELD. */
RATIO_CHECKED enum ratio_return ratio_read_i64(const uint8_t *texts, size_t texts_len, const ratio_span *spans, size_t spans_len,
    ratio_answer_i64 *answers, size_t answers_len);

/* The fraction of each decimal of the bytes that a span names, in lowest terms: 99/8 for 12.375, and -3/2000 for -1.5e-3. 1.2.3 gives
 * RATIO_PARSE_ERROR, and 1e40, which needs more than 64 bits, RATIO_NOT_HELD. */
RATIO_CHECKED enum ratio_return ratio_read_decimal_i64(const uint8_t *texts, size_t texts_len, const ratio_span *spans, size_t spans_len,
    ratio_answer_i64 *answers, size_t answers_len);

/* The fraction of what a person types: a decimal, a fraction, a mixed number such as -1 1/2 for -3/2, or a decimal or a fraction with a
 * percent sign, such as 12.5% for 1/8. 1/0 gives RATIO_ZERO_DENOMINATOR, any other text RATIO_PARSE_ERROR, and what does not fit
 * RATIO_NOT_HELD. */
RATIO_CHECKED enum ratio_return ratio_read_text_i64(const uint8_t *texts, size_t texts_len, const ratio_span *spans, size_t spans_len,
    ratio_answer_i64 *answers, size_t answers_len);

/* Each fraction as it is, N/D, or N if D is 1, one text after another. With fewer than RATIO_ROOM_I64 bytes for each fraction it returns
 * RATIO_BAD_LENGTH. Nothing is written behind the last text. */
RATIO_CHECKED enum ratio_return ratio_print_i64(const ratio_i64 *asked, size_t asked_len, uint8_t *texts, size_t texts_len,
    ratio_text *answers, size_t answers_len);

/* Each fraction as a decimal with exactly so many places, rounded by a rule, one text after another: 0.67 for 2/3 with 2 places by
 * RATIO_RULE_HALF_EVEN. More than 38 places, or a rule that is none, give RATIO_BAD_OPTION. With fewer than RATIO_DECIMAL_ROOM_I64 bytes
 * for each fraction the call returns RATIO_BAD_LENGTH. Nothing is written behind the last text. */
RATIO_CHECKED enum ratio_return ratio_print_decimal_i64(const ratio_decimal_i64 *asked, size_t asked_len, uint8_t *texts, size_t texts_len,
    ratio_text *answers, size_t answers_len);

/* How the left fraction of each pair compares to the right one, by their values, reduced or not: -1 for 1/3 and 2/4. */
RATIO_CHECKED enum ratio_return ratio_compare_i128(const ratio_pair_i128 *asked, size_t asked_len,
    ratio_order *answers, size_t answers_len);

/* Whether both fractions of each pair have the same value, reduced or not: 1/2 and -2/-4 have. */
RATIO_CHECKED enum ratio_return ratio_equal_i128(const ratio_pair_i128 *asked, size_t asked_len,
    ratio_truth *answers, size_t answers_len);

/* A hash of each fraction, by its value: the same for 1/2, 2/4 and -1/-2. It keeps no secret. */
RATIO_CHECKED enum ratio_return ratio_hash_i128(const ratio_i128 *asked, size_t asked_len,
    ratio_hash *answers, size_t answers_len);

/* The sum of each pair, in lowest terms: 5/6 for 1/2 and 1/3. RATIO_NOT_HELD only if these do not fit. */
RATIO_CHECKED enum ratio_return ratio_add_i128(const ratio_pair_i128 *asked, size_t asked_len,
    ratio_answer_i128 *answers, size_t answers_len);

/* The difference of each pair, in lowest terms: 1/6 for 1/2 and 1/3. RATIO_NOT_HELD only if these do not fit. */
RATIO_CHECKED enum ratio_return ratio_sub_i128(const ratio_pair_i128 *asked, size_t asked_len,
    ratio_answer_i128 *answers, size_t answers_len);

/* The product of each pair, in lowest terms: 1/6 for 1/2 and 1/3. RATIO_NOT_HELD only if these do not fit. */
RATIO_CHECKED enum ratio_return ratio_mul_i128(const ratio_pair_i128 *asked, size_t asked_len,
    ratio_answer_i128 *answers, size_t answers_len);

/* The quotient of each pair, in lowest terms: 3/2 for 1/2 and 1/3. RATIO_NOT_HELD only if these do not fit. A divisor 0 gives
 * RATIO_DIVISION_BY_ZERO. */
RATIO_CHECKED enum ratio_return ratio_div_i128(const ratio_pair_i128 *asked, size_t asked_len,
    ratio_answer_i128 *answers, size_t answers_len);

/* The remainder of each pair, in lowest terms: left - right * t, where t is the quotient cut towards zero. 7/2 and 1/3 give 1/6.
 * RATIO_NOT_HELD only if these do not fit. A divisor 0 gives RATIO_DIVISION_BY_ZERO. */
RATIO_CHECKED enum ratio_return ratio_rem_i128(const ratio_pair_i128 *asked, size_t asked_len,
    ratio_answer_i128 *answers, size_t answers_len);

/* The greatest common divisor of each pair, in lowest terms: the greatest fraction that divides both. One fraction divides another if the
 * quotient is a whole number. 1/4 and 1/6 give 1/12. It is never negative, and for a fraction and 0 it is the fraction's absolute value.
 * RATIO_NOT_HELD only if it does not fit. */
RATIO_CHECKED enum ratio_return ratio_gcd_i128(const ratio_pair_i128 *asked, size_t asked_len,
    ratio_answer_i128 *answers, size_t answers_len);

/* The least common multiple of each pair, in lowest terms: the least fraction above 0 that both divide. 1/4 and 1/6 give 1/2. It is 0/1 if
 * one of them is 0. RATIO_NOT_HELD only if it does not fit. */
RATIO_CHECKED enum ratio_return ratio_lcm_i128(const ratio_pair_i128 *asked, size_t asked_len,
    ratio_answer_i128 *answers, size_t answers_len);

/* The product of each pair, rounded to a whole number by a rule, over 1: 6/1 for 7/3 and 5/2 by RATIO_RULE_HALF_EVEN. RATIO_NOT_HELD only
 * if that number does not fit: the product itself need not. A rule that is none gives RATIO_BAD_OPTION. */
RATIO_CHECKED enum ratio_return ratio_mul_round_i128(const ratio_factors_i128 *asked, size_t asked_len,
    ratio_answer_i128 *answers, size_t answers_len);

/* The product of each pair, rounded by a rule to a multiple of 1/parts, in lowest terms: 2249/50, which is 44.98, for 1999/100 and 9/4 with
 * 100 parts. RATIO_NOT_HELD only if these terms do not fit: the product itself need not. Parts that are not above 0, and a rule that is
 * none, give RATIO_BAD_OPTION. */
RATIO_CHECKED enum ratio_return ratio_mul_round_to_i128(const ratio_operands_i128 *asked, size_t asked_len,
    ratio_answer_i128 *answers, size_t answers_len);

/* The quotient of each pair, rounded as by ratio_mul_round_to_i128. A divisor 0 gives RATIO_DIVISION_BY_ZERO. */
RATIO_CHECKED enum ratio_return ratio_div_round_to_i128(const ratio_operands_i128 *asked, size_t asked_len,
    ratio_answer_i128 *answers, size_t answers_len);

/* The lowest terms of each fraction, with the sign in the numerator: -1/2 for 2/-4. */
RATIO_CHECKED enum ratio_return ratio_reduce_i128(const ratio_i128 *asked, size_t asked_len,
    ratio_answer_i128 *answers, size_t answers_len);

/* The negative of each fraction, over the same denominator, not reduced. If the numerator is the least number of the type, it gives
 * RATIO_NOT_HELD. */
RATIO_CHECKED enum ratio_return ratio_neg_i128(const ratio_i128 *asked, size_t asked_len,
    ratio_answer_i128 *answers, size_t answers_len);

/* The absolute value of each fraction, over the same denominator, not reduced. If the numerator is the least number of the type, it gives
 * RATIO_NOT_HELD. */
RATIO_CHECKED enum ratio_return ratio_abs_i128(const ratio_i128 *asked, size_t asked_len,
    ratio_answer_i128 *answers, size_t answers_len);

/* The greatest whole number that is not above each fraction, over 1: -4/1 for -7/2. */
RATIO_CHECKED enum ratio_return ratio_floor_i128(const ratio_i128 *asked, size_t asked_len,
    ratio_answer_i128 *answers, size_t answers_len);

/* The least whole number that is not below each fraction, over 1: -3/1 for -7/2. */
RATIO_CHECKED enum ratio_return ratio_ceil_i128(const ratio_i128 *asked, size_t asked_len,
    ratio_answer_i128 *answers, size_t answers_len);

/* Each fraction cut towards zero, over 1: -3/1 for -7/2. */
RATIO_CHECKED enum ratio_return ratio_trunc_i128(const ratio_i128 *asked, size_t asked_len,
    ratio_answer_i128 *answers, size_t answers_len);

/* The whole number nearest to each fraction, a half away from zero, over 1: -4/1 for -7/2. */
RATIO_CHECKED enum ratio_return ratio_round_i128(const ratio_i128 *asked, size_t asked_len,
    ratio_answer_i128 *answers, size_t answers_len);

/* Each fraction to its exponent, not reduced: -8/27 for -3/2 and -3. 0 to an exponent below 0 gives RATIO_DIVISION_BY_ZERO. */
RATIO_CHECKED enum ratio_return ratio_pow_i128(const ratio_power_i128 *asked, size_t asked_len,
    ratio_answer_i128 *answers, size_t answers_len);

/* The fraction nearest to each one, with a denominator from 1 to the bound `most`, in lowest terms: 22/7 for 355/113 within 10. Of two that
 * are as near, it is the one with the smaller denominator, and of two whole numbers the smaller one. A bound below 1 gives
 * RATIO_BOUND_NOT_POSITIVE. */
RATIO_CHECKED enum ratio_return ratio_nearest_i128(const ratio_bounded_i128 *asked, size_t asked_len,
    ratio_answer_i128 *answers, size_t answers_len);

/* The simplest fraction between two bounds: of all fractions there, the one with the smallest denominator, and of these the one whose
 * numerator is nearest to 0. 1/3 and 1/2 give 2/5. A bound may be included or open, by a flag: with RATIO_HIGH_INCLUDED they give 1/2, and
 * from 1/3 with RATIO_HIGH_OPEN it is 1/1. If the type has no fraction there, as between 1/2 and 1/2, it gives RATIO_NOT_HELD. A bound that
 * is both included and open, or any other flag, gives RATIO_BAD_OPTION. */
RATIO_CHECKED enum ratio_return ratio_between_i128(const ratio_bounds_i128 *asked, size_t asked_len,
    ratio_answer_i128 *answers, size_t answers_len);

/* The multiple of 1/parts that a rule says, in lowest terms, or RATIO_NOT_HELD if they do not fit: 67/100 for 2/3 and 100 parts by
 * RATIO_RULE_HALF_EVEN. Parts below 1, or a rule that is none, give RATIO_BAD_OPTION. */
RATIO_CHECKED enum ratio_return ratio_round_to_i128(const ratio_multiple_i128 *asked, size_t asked_len,
    ratio_answer_i128 *answers, size_t answers_len);

/* The lowest terms of each decimal, or RATIO_NOT_HELD if they do not fit: 25/2 for 1250 with the scale 2. A scale below 0 or above 38 gives
 * RATIO_BAD_OPTION. */
RATIO_CHECKED enum ratio_return ratio_from_scaled_i128(const ratio_scaled *asked, size_t asked_len,
    ratio_answer_i128 *answers, size_t answers_len);

/* The convergent of each fraction at a place: the fraction of the first quotients of the continued fraction, one at place 0. 415/93 has
 * 4/1, 9/2, 58/13 and 415/93. At place 4 and above it gives RATIO_NOT_HELD. */
RATIO_CHECKED enum ratio_return ratio_convergent_i128(const ratio_place_i128 *asked, size_t asked_len,
    ratio_answer_i128 *answers, size_t answers_len);

/* The lowest terms of exactly the value of each float: 3/4 for 0.75. It gives RATIO_NOT_HELD if they do not fit, and for an infinity or a
 * NaN. */
RATIO_CHECKED enum ratio_return ratio_from_f64_i128(const double *asked, size_t asked_len,
    ratio_answer_i128 *answers, size_t answers_len);

/* The simplest fraction that rounds to each float: 1/10 for 0.1, and 1/3 for 0.3333333333333333. A whole float gives itself. It gives
 * RATIO_NOT_HELD if the fraction does not fit, and for an infinity or a NaN. */
RATIO_CHECKED enum ratio_return ratio_rationalize_i128(const double *asked, size_t asked_len,
    ratio_answer_i128 *answers, size_t answers_len);

/* The float nearest to each fraction: 0.3333333333333333 for 1/3. Of two that are as near, it is the one whose last bit is 0. */
RATIO_CHECKED enum ratio_return ratio_to_f64_i128(const ratio_i128 *asked, size_t asked_len,
    ratio_float *answers, size_t answers_len);

/* The fraction of each text of the bytes that a span names: N/D or N in decimal, in lowest terms. `x` gives RATIO_PARSE_ERROR, and
 * 170141183460469231731687303715884105728/3, which needs more than 128 bits, RATIO_PARSE_ERROR. */
RATIO_CHECKED enum ratio_return ratio_read_i128(const uint8_t *texts, size_t texts_len, const ratio_span *spans, size_t spans_len,
    ratio_answer_i128 *answers, size_t answers_len);

/* The fraction of each decimal of the bytes that a span names, in lowest terms: 99/8 for 12.375, and -3/2000 for -1.5e-3. 1.2.3 gives
 * RATIO_PARSE_ERROR, and 1e40, which needs more than 128 bits, RATIO_NOT_HELD. */
RATIO_CHECKED enum ratio_return ratio_read_decimal_i128(const uint8_t *texts, size_t texts_len, const ratio_span *spans, size_t spans_len,
    ratio_answer_i128 *answers, size_t answers_len);

/* The fraction of what a person types: a decimal, a fraction, a mixed number such as -1 1/2 for -3/2, or a decimal or a fraction with a
 * percent sign, such as 12.5% for 1/8. 1/0 gives RATIO_ZERO_DENOMINATOR, any other text RATIO_PARSE_ERROR, and what does not fit
 * RATIO_NOT_HELD. */
RATIO_CHECKED enum ratio_return ratio_read_text_i128(const uint8_t *texts, size_t texts_len, const ratio_span *spans, size_t spans_len,
    ratio_answer_i128 *answers, size_t answers_len);

/* Each fraction as it is, N/D, or N if D is 1, one text after another. With fewer than RATIO_ROOM_I128 bytes for each fraction it returns
 * RATIO_BAD_LENGTH. Nothing is written behind the last text. */
RATIO_CHECKED enum ratio_return ratio_print_i128(const ratio_i128 *asked, size_t asked_len, uint8_t *texts, size_t texts_len,
    ratio_text *answers, size_t answers_len);

/* Each fraction as a decimal with exactly so many places, rounded by a rule, one text after another: 0.67 for 2/3 with 2 places by
 * RATIO_RULE_HALF_EVEN. More than 38 places, or a rule that is none, give RATIO_BAD_OPTION. With fewer than RATIO_DECIMAL_ROOM_I128 bytes
 * for each fraction the call returns RATIO_BAD_LENGTH. Nothing is written behind the last text. */
RATIO_CHECKED enum ratio_return ratio_print_decimal_i128(const ratio_decimal_i128 *asked, size_t asked_len, uint8_t *texts, size_t texts_len,
    ratio_text *answers, size_t answers_len);

/* The same fractions over 64 bits, not reduced. A number that does not fit gives RATIO_NOT_HELD: reduce the fraction before, if it is not
 * in lowest terms. */
RATIO_CHECKED enum ratio_return ratio_cast_i32_to_i64(const ratio_i32 *asked, size_t asked_len,
    ratio_answer_i64 *answers, size_t answers_len);

/* The same fractions over 128 bits, not reduced. A number that does not fit gives RATIO_NOT_HELD: reduce the fraction before, if it is not
 * in lowest terms. */
RATIO_CHECKED enum ratio_return ratio_cast_i32_to_i128(const ratio_i32 *asked, size_t asked_len,
    ratio_answer_i128 *answers, size_t answers_len);

/* The same fractions over 32 bits, not reduced. A number that does not fit gives RATIO_NOT_HELD: reduce the fraction before, if it is not
 * in lowest terms. */
RATIO_CHECKED enum ratio_return ratio_cast_i64_to_i32(const ratio_i64 *asked, size_t asked_len,
    ratio_answer_i32 *answers, size_t answers_len);

/* The same fractions over 128 bits, not reduced. A number that does not fit gives RATIO_NOT_HELD: reduce the fraction before, if it is not
 * in lowest terms. */
RATIO_CHECKED enum ratio_return ratio_cast_i64_to_i128(const ratio_i64 *asked, size_t asked_len,
    ratio_answer_i128 *answers, size_t answers_len);

/* The same fractions over 32 bits, not reduced. A number that does not fit gives RATIO_NOT_HELD: reduce the fraction before, if it is not
 * in lowest terms. */
RATIO_CHECKED enum ratio_return ratio_cast_i128_to_i32(const ratio_i128 *asked, size_t asked_len,
    ratio_answer_i32 *answers, size_t answers_len);

/* The same fractions over 64 bits, not reduced. A number that does not fit gives RATIO_NOT_HELD: reduce the fraction before, if it is not
 * in lowest terms. */
RATIO_CHECKED enum ratio_return ratio_cast_i128_to_i64(const ratio_i128 *asked, size_t asked_len,
    ratio_answer_i64 *answers, size_t answers_len);

/* A hash of fractions in lowest terms, which takes a few nanoseconds: two products. The call does not test that they are in lowest terms:
 * 1/2 and 2/4 have unlike hashes. Fractions with the same denominator and unlike numerators have unlike hashes, and so have fractions with
 * the same numerator and unlike denominators. It keeps no secret. */
RATIO_CHECKED enum ratio_return ratio_hash_lowest_i32(const ratio_i32 *asked, size_t asked_len,
    ratio_hash *answers, size_t answers_len);

/* The same hash over 64 bits. */
RATIO_CHECKED enum ratio_return ratio_hash_lowest_i64(const ratio_i64 *asked, size_t asked_len,
    ratio_hash *answers, size_t answers_len);

/* The key of each fraction, for sorting by short keys: if one value is at most another, so is its key. So equal values have equal keys. If
 * the nearest `double` of one value is below that of another, so is its key. A key is the bits of the `double` nearest to the size of the
 * fraction, with its sign: -1/3 has the key -4599676419421066581, and 1/2 has 4602678819172646912. Values with the same key can be unlike:
 * `ratio_compare_i64` tells which is greater. */
RATIO_CHECKED enum ratio_return ratio_key_i64(const ratio_i64 *asked, size_t asked_len,
    ratio_key *answers, size_t answers_len);

/* The bytes of each fraction, for sorting: memcmp of two gives the order of the values, and equal values have the same bytes. They are the
 * number (value + 2^63) * 2^128, rounded down, with the highest byte first: those of 1/2 are 80 00 00 00 00 00 00 00, then 80, and then 0.
 * So a file or a database that orders bytes keeps fractions in their order. */
RATIO_CHECKED enum ratio_return ratio_sortable_i64(const ratio_i64 *asked, size_t asked_len,
    ratio_sortable *answers, size_t answers_len);

/* The hash of each fraction in a 64-bit Python: hash(Fraction(numer, denom)). A whole number has that of its int, and a float's exact value
 * that of the float. It is the numerator of the lowest terms times the inverse of the denominator modulo 2^61 - 1, with the sign of the
 * fraction, and -2 in place of -1: 1/2 has 1152921504606846976, and -1/1 has -2. A denominator without an inverse gives 314159. */
RATIO_CHECKED enum ratio_return ratio_hash_mod61_i64(const ratio_i64 *asked, size_t asked_len,
    ratio_residue *answers, size_t answers_len);

/* The sum of each pair, whose two fractions lie in two arrays, as for `ratio_add_i64`. So the answers of one call are operands of the next, without a copy.
 *
 * `left` points to the numerator of the first fraction, and `left_len` is how many numbers of 64 bits there are from it on. Each further numerator is `left_stride` numbers after the one before: 2 in an array of ratio_i64, and 3 in an array of ratio_answer_i64. With the stride 0 it is the same fraction each time. The numbers between the fractions are not read, so the code and the padding of an answer may be anything. So `&answers->value.numer, 3 * n - 1, 3` stands for the values of n answers, and `&rate.numer, 2, 0` for one rate. The same holds of `right`.
 *
 * If the numbers of a side have fewer fractions than there are answers, the call returns RATIO_BAD_LENGTH and writes nothing. An answer without a value has the denominator 0, so the next call refuses it: RATIO_DENOMINATOR_NOT_POSITIVE, or from a comparison RATIO_ZERO_DENOMINATOR.
 */
RATIO_CHECKED enum ratio_return ratio_add_strided_i64(const int64_t *left, size_t left_len, uint64_t left_stride,
    const int64_t *right, size_t right_len, uint64_t right_stride, ratio_answer_i64 *answers, size_t answers_len);

/* The difference of each pair, whose two fractions lie in two arrays: see `ratio_add_strided_i64`. */
RATIO_CHECKED enum ratio_return ratio_sub_strided_i64(const int64_t *left, size_t left_len, uint64_t left_stride,
    const int64_t *right, size_t right_len, uint64_t right_stride, ratio_answer_i64 *answers, size_t answers_len);

/* The product of each pair, whose two fractions lie in two arrays: see `ratio_add_strided_i64`. */
RATIO_CHECKED enum ratio_return ratio_mul_strided_i64(const int64_t *left, size_t left_len, uint64_t left_stride,
    const int64_t *right, size_t right_len, uint64_t right_stride, ratio_answer_i64 *answers, size_t answers_len);

/* The quotient of each pair, whose two fractions lie in two arrays: see `ratio_add_strided_i64`. */
RATIO_CHECKED enum ratio_return ratio_div_strided_i64(const int64_t *left, size_t left_len, uint64_t left_stride,
    const int64_t *right, size_t right_len, uint64_t right_stride, ratio_answer_i64 *answers, size_t answers_len);

/* The order of each pair, whose two fractions lie in two arrays: see `ratio_add_strided_i64`. */
RATIO_CHECKED enum ratio_return ratio_compare_strided_i64(const int64_t *left, size_t left_len, uint64_t left_stride,
    const int64_t *right, size_t right_len, uint64_t right_stride, ratio_order *answers, size_t answers_len);

/* The product of the fractions `above` divided by each fraction `below`, in lowest terms: 4/35 for 2/3 and 3/7 above and 5/2 below. No
 * number on the way has to fit: 9223372036854775807/3, 3/1 and 1/9223372036854775807 give 1/1 in each order. Without fractions above, it
 * is 1 divided by those below. The two lists are not changed.
 *
 * You give room: an array of at least two numbers for each fraction of both lists, which may have anything before the call and after it.
 * With less room the code is RATIO_MORE_ROOM. So RATIO_NOT_HELD always means that the lowest terms do not fit 64 bits. A denominator that
 * is not positive gives RATIO_DENOMINATOR_NOT_POSITIVE, and then a fraction below that is 0 gives RATIO_DIVISION_BY_ZERO. If `answers_len`
 * is not 1, the call returns RATIO_BAD_LENGTH and writes nothing. The time grows with the product of both numbers of fractions.
 */
RATIO_CHECKED enum ratio_return ratio_quotient_of_i64(const ratio_i64 *above, size_t above_len, const ratio_i64 *below, size_t below_len,
    int64_t *room, size_t room_len, ratio_answer_i64 *answers, size_t answers_len);

/* An amount of whole units, such as cents, split so that nothing is lost: the parts add up to it exactly. The shares are fractions that
 * add up to 1. 100 by 1/3, 1/3 and 1/3 gives 33, 34 and 33. Each part is less than 1 away from the amount times its share. The first k
 * parts add up to the amount times the sum of their shares, rounded, a half away from zero. No product has to fit.
 *
 * The call returns a code. RATIO_ANSWERED: the parts are written. After any other code no part has changed. It is the first that applies:
 *
 *   RATIO_DENOMINATOR_NOT_POSITIVE   the denominator of a share is 0 or below it
 *   RATIO_UNLIKE_LENGTHS             there are not as many parts as shares
 *   RATIO_BELOW_ZERO                 a share is below 0
 *   RATIO_NOT_HELD                   the first shares, added up, do not fit 64 bits in lowest terms, or the amount times that sum, rounded
 *   RATIO_NOT_ONE                    the shares do not add up to 1, or there are none
 */
RATIO_CHECKED enum ratio_code ratio_split_i64(int64_t amount, const ratio_i64 *shares, size_t shares_len,
    int64_t *parts, size_t parts_len);

/* The same with weights: the share of a weight is the weight over the sum of all. 100 by 1, 1 and 1 gives 33, 34 and 33. The codes, of
 * which it is the first that applies:
 *
 *   RATIO_UNLIKE_LENGTHS   there are not as many parts as weights
 *   RATIO_BELOW_ZERO       a weight is below 0
 *   RATIO_NOT_HELD         the sum of the weights does not fit
 *   RATIO_ALL_ZERO         the weights add up to 0, or there are none
 */
RATIO_CHECKED enum ratio_code ratio_split_by_weights_i64(int64_t amount, const int64_t *weights, size_t weights_len,
    int64_t *parts, size_t parts_len);

/* A total adds fractions and loses nothing on the way, however many there are. It has a slot for each denominator, with the sum of the
 * numerators over it: 1/36, 1/28 and 5/36 take two slots, 6/36 and 1/28. So adding a fraction is one addition of 128 bits, without a
 * greatest common divisor. You give the slots:
 *
 *   ratio_total_i64 total = {0};
 *   ratio_slot_i64 slots[8] = {{0}};
 *   if (ratio_total_add_i64(prices, 3, &total, 1, slots, 8) != RATIO_DONE) ..
 *   if (total.code != RATIO_ANSWERED) ..         prices[total.done] did not go in
 *
 * Made all zero, as here, it is the total of no fraction. As many slots as unlike denominators are enough. With twice as many, a slot is
 * found sooner. Denominators that another party chose may collide in a table whose length this party knows, and then a search takes long:
 * choose the length by chance, as ratio_total_next_length_i64 does. A slot whose numerator falls to 0 stays taken until
 * ratio_total_leave_zeros_i64 leaves it out. To copy a total, copy its header and its slots.
 *
 * In the calls that change a total, the items go one after another, until one is refused. `done` says how many went, and `code` why the
 * next one did not:
 *
 *   RATIO_ANSWERED                   all went
 *   RATIO_MORE_ROOM                  each slot holds another denominator
 *   RATIO_DENOMINATOR_NOT_POSITIVE   the fraction's denominator is 0 or below it
 *   RATIO_NOT_HELD                   a numerator would not fit 128 bits, or the count 64
 *   RATIO_NO_TOTAL                   the slot where it goes is empty, and has a numerator that is not 0
 *
 * What went stays: to go on, hand in the items from `done` on. If `total_len` is not 1, a call returns RATIO_BAD_LENGTH and writes nothing.
 *
 * For more slots, merge the total into slots that are all zero, with a header that is all zero: that moves it. Then go on there. Two calls
 * say which slots move, and how many the next table has:
 *
 *   left = ratio_total_leave_zeros_i64(slots, slots_len);
 *   next_len = ratio_total_next_length_i64(left, 0, chance, SIZE_MAX / sizeof *next);
 *   next = next_len ? calloc(next_len, sizeof *next) : NULL;
 *   if (next && ratio_total_merge_i64(slots, left, total.count, &moved, 1, next, next_len) != RATIO_DONE) ..
 *
 * To merge a total into itself, merge a copy of its slots.
 *
 * The order of the fractions and how they are cut into calls and parts do not matter: if all went, each denominator has the same
 * numerator. Which slot it has may differ.
 */

/* A slot: the fraction numer/denom. It is empty if denom is 0. */
typedef struct ratio_slot_i64 { uint64_t denom; ratio_wide numer; } ratio_slot_i64;

/* The header of a total: how many fractions are in it, and what the last call did. The calls read only the count. */
typedef struct ratio_total_i64 { uint32_t code; uint64_t done; int64_t count; } ratio_total_i64;

/* The fractions go into the total, and each makes the count 1 greater. */
RATIO_CHECKED enum ratio_return ratio_total_add_i64(const ratio_i64 *asked, size_t asked_len, ratio_total_i64 *total, size_t total_len,
    ratio_slot_i64 *slots, size_t slots_len);

/* The fractions go out of the total, as from a window that moves, and each makes the count 1 less. */
RATIO_CHECKED enum ratio_return ratio_total_subtract_i64(const ratio_i64 *asked, size_t asked_len, ratio_total_i64 *total, size_t total_len,
    ratio_slot_i64 *slots, size_t slots_len);

/* The slots of another total go into this one, as those of workers. An empty slot is done and changes nothing. Once all are done, that
 * total's count is added. If `done` is `asked_len` and the code is RATIO_NOT_HELD, only the count did not fit. */
RATIO_CHECKED enum ratio_return ratio_total_merge_i64(const ratio_slot_i64 *asked, size_t asked_len, int64_t count,
    ratio_total_i64 *total, size_t total_len, ratio_slot_i64 *slots, size_t slots_len);

/* The slots of another total go out of this one, and once all are done, so does that total's count. A slot with the numerator -2^127 cannot
 * go out, unless it is empty: the code is RATIO_NOT_HELD, though the difference may fit. */
RATIO_CHECKED enum ratio_return ratio_total_unmerge_i64(const ratio_slot_i64 *asked, size_t asked_len, int64_t count,
    ratio_total_i64 *total, size_t total_len, ratio_slot_i64 *slots, size_t slots_len);

/* How many slots the next table of a total has, where so many slots are taken and so many more denominators will come: twice as many, and
 * at least 8. By `chance`, any number that others cannot know, it has up to an eighth more. It returns 0 where that would be more than
 * `most`. For 12 and 0 it is from 24 to 27. */
RATIO_CHECKED uint64_t ratio_total_next_length_i64(uint64_t taken, uint64_t more, uint64_t chance, uint64_t most);

/* Leaves out the fractions that are 0, such as those that went in and out again, and returns how many are left. These move to the front, in
 * the order that they had, and the slots behind them become empty. The sum stays. A search may miss a denominator in these slots
 * afterwards: merge those that are left into other slots. */
RATIO_CHECKED uint64_t ratio_total_leave_zeros_i64(ratio_slot_i64 *slots, size_t slots_len);

/* The calls that read a total. They read any slots, and an empty one counts nothing, whatever its numerator is. The numbers on the way may
 * be much longer than 64 bits, so you give room: an array of digits of 64 bits, which may have anything before the call and after it.
 *
 * With too little room they give RATIO_MORE_ROOM. They give RATIO_TOO_LONG if the common denominator, which is the least common multiple
 * of the denominators, is not below 2^(2^20). The time of a read grows with the square of the number of denominators. A decimal over many
 * of them takes one pass and needs no common denominator, unless the sum is a tie or very near to one. If `answers_len` is not 1, a call
 * returns RATIO_BAD_LENGTH and writes nothing.
 */

/* How many slots are empty. */
RATIO_CHECKED uint64_t ratio_total_free_i64(const ratio_slot_i64 *slots, size_t slots_len);

/* How many digits of room the sum, the mean, the sign and the float need. */
RATIO_CHECKED uint64_t ratio_total_digits_i64(const ratio_slot_i64 *slots, size_t slots_len);

/* The sum in lowest terms, or RATIO_NOT_HELD if they do not fit 64 bits: 4/63 for 1/36 and 1/28. */
RATIO_CHECKED enum ratio_return ratio_total_sum_i64(const ratio_slot_i64 *slots, size_t slots_len, uint64_t *room, size_t room_len,
    ratio_answer_i64 *answers, size_t answers_len);

/* The sum divided by the count, in lowest terms, or RATIO_NOT_HELD if they do not fit 64 bits. If the count is 0 or less, it gives
 * RATIO_DIVISION_BY_ZERO. */
RATIO_CHECKED enum ratio_return ratio_total_mean_i64(const ratio_slot_i64 *slots, size_t slots_len, int64_t count,
    uint64_t *room, size_t room_len, ratio_answer_i64 *answers, size_t answers_len);

/* -1, 0 or 1: the order of the sum and 0. */
RATIO_CHECKED enum ratio_return ratio_total_sign_i64(const ratio_slot_i64 *slots, size_t slots_len, uint64_t *room, size_t room_len,
    ratio_order *answers, size_t answers_len);

/* The float nearest to the sum, rounded once: 0.06349206349206349 for 1/36 and 1/28. Of two that are as near, it is the one whose last bit
 * is 0. If there is none, the value is 0. */
RATIO_CHECKED enum ratio_return ratio_total_to_f64_i64(const ratio_slot_i64 *slots, size_t slots_len, uint64_t *room, size_t room_len,
    ratio_float *answers, size_t answers_len);

/* How many digits of room the decimal with so many places needs. */
RATIO_CHECKED uint64_t ratio_total_print_digits_i64(const ratio_slot_i64 *slots, size_t slots_len, uint32_t places);

/* How many bytes the decimal with so many places needs. */
RATIO_CHECKED uint64_t ratio_total_print_bytes_i64(const ratio_slot_i64 *slots, size_t slots_len, uint32_t places);

/* The sum as a decimal with exactly so many places, rounded by a rule, however long it is: 0.0635 for 1/36 and 1/28 with 4 places by
 * RATIO_RULE_HALF_EVEN. It ends where `texts` ends, and the answer's span says where it starts. The bytes before it may change. A rule that
 * is none gives RATIO_BAD_OPTION. */
RATIO_CHECKED enum ratio_return ratio_total_print_i64(const ratio_slot_i64 *slots, size_t slots_len, uint32_t places, uint32_t rule,
    uint64_t *room, size_t room_len, uint8_t *texts, size_t texts_len, ratio_text *answers, size_t answers_len);

/* The same in one pass over the slots, however long the common denominator is. It takes a lower and an upper bound of the sum, and gives
 * RATIO_NOT_HELD if the rule makes two numbers of them: of 1/3 and 1/6 without places by RATIO_RULE_HALF_EVEN. It does so only at a tie or
 * another sum where the rule's result changes, or within 1/2^64 of the last place of such a sum. It never gives RATIO_TOO_LONG. It needs
 * places / 19 * 9 + 35 digits of room, and (places / 19 * 2 + 8) * 20 + places + 3 bytes, both computed in size_t. Up to 177839 places,
 * what ratio_total_print_i64 needs is enough if there are 6 denominators and two more for each 19 places. The pass cannot be stopped: over
 * a million denominators it took 0.1 seconds with 20 places, and 8 seconds with 16383. */
RATIO_CHECKED enum ratio_return ratio_total_print_bounded_i64(const ratio_slot_i64 *slots, size_t slots_len, uint32_t places, uint32_t rule,
    uint64_t *room, size_t room_len, uint8_t *texts, size_t texts_len, ratio_text *answers, size_t answers_len);

/* How many digits of room ratio_total_round_to_i64 needs. */
RATIO_CHECKED uint64_t ratio_total_round_to_digits_i64(const ratio_slot_i64 *slots, size_t slots_len);

/* The multiple of 1/parts that a rule says of the sum, rounded once, in lowest terms: 3/50 for 1/36 and 1/28 with 100 parts by
 * RATIO_RULE_HALF_EVEN. With 1 part it is a whole number over 1. It is RATIO_NOT_HELD if the lowest terms do not fit 64 bits. If `parts` is
 * 0 or below it, or the rule is none, it gives RATIO_BAD_OPTION. */
RATIO_CHECKED enum ratio_return ratio_total_round_to_i64(const ratio_slot_i64 *slots, size_t slots_len, int64_t parts, uint32_t rule,
    uint64_t *room, size_t room_len, ratio_answer_i64 *answers, size_t answers_len);

/* How many digits of room ratio_total_compare_i64 needs. */
RATIO_CHECKED uint64_t ratio_total_compare_digits_i64(const ratio_slot_i64 *left, size_t left_len, const ratio_slot_i64 *right, size_t right_len);

/* -1, 0 or 1: the order of the sums of two totals, `left` first, as of what was spent and a budget. The slots are for their difference, and
 * may have anything before the call and after it. They are at least as many as those of both totals. If a numerator of `right` is -2^127,
 * it gives RATIO_NOT_HELD. To compare with a fraction, give a slot with it. */
RATIO_CHECKED enum ratio_return ratio_total_compare_i64(const ratio_slot_i64 *left, size_t left_len, const ratio_slot_i64 *right, size_t right_len,
    ratio_slot_i64 *slots, size_t slots_len, uint64_t *room, size_t room_len, ratio_order *answers, size_t answers_len);

/* A read in steps, for a program that must be able to stop. A read of hundreds of thousands of denominators takes seconds. In steps, you
 * join a few slots in each call, and look for a deadline or a cancel between two calls. The answers are the same:
 *
 *   ratio_joined_i64 joined = {0};
 *   do if (ratio_total_join_i64(slots, slots_len, 64, &joined, 1, room, room_len) != RATIO_DONE) ..
 *   while (joined.code == RATIO_ANSWERED && joined.done < slots_len && !is_cancelled());
 *   if (joined.code == RATIO_ANSWERED && joined.done == slots_len
 *       && ratio_joined_sum_i64(joined.digits, room, room_len, &answer, 1) == RATIO_DONE) ..
 *
 * The room keeps what the steps have joined. Do not change the slots or the room until the answer is read. To stop, make no further call.
 * To begin again, make the header all zero. `most` is at least 1, else this loop does not end.
 */

/* How far a read in steps has come, and what the last step did. Made all zero, it begins. */
typedef struct ratio_joined_i64 { uint32_t code; uint64_t done; uint64_t digits; } ratio_joined_i64;

/* A step joins at most `most` further slots, and `done` says how many are joined. The read has ended once these are all slots. The first
 * step also begins the read: `digits` becomes how many digits the room keeps for the common denominator. With the longest one, a step of
 * 64 slots takes some 7 milliseconds. A step also tests the whole room, so many short steps take longer than few long ones. The code is
 * one of these:
 *
 *   RATIO_ANSWERED    the slots are joined
 *   RATIO_MORE_ROOM   the read has not begun, since the room has fewer digits than ratio_total_digits_i64 says
 *   RATIO_TOO_LONG    the common denominator is not below 2^(2^20), or the room was changed in a way that a step does not see
 *   RATIO_NO_TOTAL    the room does not look as the last step left it: it has too few digits, the common denominator in it is 0, or the
 *                     sums are too great for so many slots; or `done` is more than there are slots
 *
 * After any code but RATIO_ANSWERED, `done` and `digits` are as they were, and the room may have anything. If `joined_len` is not 1, the
 * call returns RATIO_BAD_LENGTH and writes nothing.
 */
RATIO_CHECKED enum ratio_return ratio_total_join_i64(const ratio_slot_i64 *slots, size_t slots_len, uint64_t most,
    ratio_joined_i64 *joined, size_t joined_len, uint64_t *room, size_t room_len);

/* The calls that give the answer from the room, once all slots are joined. Each gives what the call of the same name on the total gives,
 * but RATIO_NO_TOTAL where the room holds no sum, is too short, or there are too few bytes. It takes the `digits` of the steps. Before all
 * slots are joined, the sum is that of the joined ones.
 *
 * Each call uses the room up: afterwards it may have anything. For a second answer, copy the first 3 * digits + 6 digits of the room
 * before, or join again. If `answers_len` is not 1, a call returns RATIO_BAD_LENGTH and writes nothing.
 */

/* The sum of the joined slots in lowest terms. */
RATIO_CHECKED enum ratio_return ratio_joined_sum_i64(uint64_t digits, uint64_t *room, size_t room_len,
    ratio_answer_i64 *answers, size_t answers_len);

/* The sum of the joined slots divided by the count, in lowest terms. */
RATIO_CHECKED enum ratio_return ratio_joined_mean_i64(uint64_t digits, int64_t count, uint64_t *room, size_t room_len,
    ratio_answer_i64 *answers, size_t answers_len);

/* The order of the sum of the joined slots and 0. */
RATIO_CHECKED enum ratio_return ratio_joined_sign_i64(uint64_t digits, uint64_t *room, size_t room_len,
    ratio_order *answers, size_t answers_len);

/* The float nearest to the sum of the joined slots. */
RATIO_CHECKED enum ratio_return ratio_joined_to_f64_i64(uint64_t digits, uint64_t *room, size_t room_len,
    ratio_float *answers, size_t answers_len);

/* The sum of the joined slots as a decimal. The room has as many digits as ratio_total_print_digits_i64 says, and is given to
 * ratio_total_join_i64 as a whole. ratio_total_print_bytes_i64 says how many bytes there are. Call ratio_total_print_bounded_i64 first, in
 * the same room, before the first step: if it gives a text, you need no steps. */
RATIO_CHECKED enum ratio_return ratio_joined_print_i64(uint64_t digits, uint32_t places, uint32_t rule, uint64_t *room, size_t room_len,
    uint8_t *texts, size_t texts_len, ratio_text *answers, size_t answers_len);

#ifdef __cplusplus
}
#endif

/* The sizes of the structs in the library. C++11 and C11 compare them. */
#ifdef __cplusplus
#define RATIO_SIZE(type, bytes) static_assert(sizeof(type) == bytes, "the size of " #type)
#elif defined(__STDC_VERSION__) && __STDC_VERSION__ >= 201112L
#define RATIO_SIZE(type, bytes) _Static_assert(sizeof(type) == bytes, "the size of " #type)
#endif
#ifdef RATIO_SIZE
RATIO_SIZE(ratio_wide, 16);
RATIO_SIZE(ratio_order, 8);
RATIO_SIZE(ratio_truth, 8);
RATIO_SIZE(ratio_hash, 16);
RATIO_SIZE(ratio_float, 16);
RATIO_SIZE(ratio_residue, 16);
RATIO_SIZE(ratio_key, 16);
RATIO_SIZE(ratio_sortable, 28);
RATIO_SIZE(ratio_span, 16);
RATIO_SIZE(ratio_text, 24);
RATIO_SIZE(ratio_scaled, 24);
RATIO_SIZE(ratio_i32, 8);
RATIO_SIZE(ratio_pair_i32, 16);
RATIO_SIZE(ratio_factors_i32, 20);
RATIO_SIZE(ratio_power_i32, 12);
RATIO_SIZE(ratio_bounded_i32, 12);
RATIO_SIZE(ratio_multiple_i32, 16);
RATIO_SIZE(ratio_operands_i32, 24);
RATIO_SIZE(ratio_decimal_i32, 16);
RATIO_SIZE(ratio_place_i32, 12);
RATIO_SIZE(ratio_bounds_i32, 20);
RATIO_SIZE(ratio_answer_i32, 12);
RATIO_SIZE(ratio_i64, 16);
RATIO_SIZE(ratio_pair_i64, 32);
RATIO_SIZE(ratio_factors_i64, 40);
RATIO_SIZE(ratio_power_i64, 24);
RATIO_SIZE(ratio_bounded_i64, 24);
RATIO_SIZE(ratio_multiple_i64, 32);
RATIO_SIZE(ratio_operands_i64, 48);
RATIO_SIZE(ratio_decimal_i64, 24);
RATIO_SIZE(ratio_place_i64, 24);
RATIO_SIZE(ratio_bounds_i64, 40);
RATIO_SIZE(ratio_answer_i64, 24);
RATIO_SIZE(ratio_i128, 32);
RATIO_SIZE(ratio_pair_i128, 64);
RATIO_SIZE(ratio_factors_i128, 72);
RATIO_SIZE(ratio_power_i128, 40);
RATIO_SIZE(ratio_bounded_i128, 48);
RATIO_SIZE(ratio_multiple_i128, 56);
RATIO_SIZE(ratio_operands_i128, 88);
RATIO_SIZE(ratio_decimal_i128, 40);
RATIO_SIZE(ratio_place_i128, 40);
RATIO_SIZE(ratio_bounds_i128, 72);
RATIO_SIZE(ratio_answer_i128, 40);
RATIO_SIZE(ratio_slot_i64, 24);
RATIO_SIZE(ratio_total_i64, 24);
RATIO_SIZE(ratio_joined_i64, 24);
#endif
#undef RATIO_SIZE

#endif
