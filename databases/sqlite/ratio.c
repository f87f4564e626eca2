/* Exact fractions for SQLite, over the proved calls of ratio.h. README.md says what each function gives.
 *
 * A fraction is a text such as 3/4, -2 or 0.75, or an integer. What a function gives is a text in lowest terms, so that a column of fractions
 * has one type: SQLite compares by a collation only texts with texts.
 */
#include "operands.h"
SQLITE_EXTENSION_INIT1

#include <string.h>

/* ---- errors */

char *ratio_refusal(sqlite3 *database, const char *name, int count, sqlite3_value **operands, const char *reason) {
    sqlite3_str *text = sqlite3_str_new(database);
    int i;
    sqlite3_str_appendf(text, "%s(", name);
    for (i = 0; i < count; i++) {
        if (i > 0) sqlite3_str_appendall(text, ", ");
        switch (sqlite3_value_type(operands[i])) {
        case SQLITE_NULL: sqlite3_str_appendall(text, "NULL"); break;
        case SQLITE_BLOB: sqlite3_str_appendall(text, "a blob"); break;
        case SQLITE_TEXT: sqlite3_str_appendf(text, "%!.100Q", sqlite3_value_text(operands[i])); break;
        default: sqlite3_str_appendf(text, "%s", sqlite3_value_text(operands[i]));
        }
    }
    sqlite3_str_appendf(text, "): %s", reason);
    return sqlite3_str_finish(text);
}

/* Ends the statement with a reason. */
static void refuse(sqlite3_context *call, const char *name, int count, sqlite3_value **operands, const char *reason) {
    char *whole = ratio_refusal(sqlite3_context_db_handle(call), name, count, operands, reason);
    if (whole) sqlite3_result_error(call, whole, -1);
    else sqlite3_result_error_nomem(call);
    sqlite3_free(whole);
}

/* ---- operands and results */

ratio_answer_i64 ratio_of_value(sqlite3_value *operand) {
    ratio_answer_i64 answer = {RATIO_PARSE_ERROR, {0, 0}};
    ratio_span all = {0, 0};
    const unsigned char *text;
    double number;
    switch (sqlite3_value_type(operand)) {
    case SQLITE_INTEGER:
        answer.code = RATIO_ANSWERED;
        answer.value.numer = sqlite3_value_int64(operand);
        answer.value.denom = 1;
        break;
    case SQLITE_FLOAT:
        number = sqlite3_value_double(operand);
        ratio_rationalize_i64(&number, 1, &answer, 1);
        break;
    case SQLITE_TEXT:
        text = sqlite3_value_text(operand);
        all.end = (size_t) sqlite3_value_bytes(operand);
        if (text) ratio_read_text_i64(text, all.end, &all, 1, &answer, 1);
        else answer.code = RATIO_NO_TEXT;
    }
    return answer;
}

/* Reads an operand. It says whether the operand is a fraction. Else the result is an error, or NULL for NULL. */
static int is_read(sqlite3_context *call, const char *name, int count, sqlite3_value **operands, int which, ratio_i64 *fraction) {
    const ratio_answer_i64 answer = ratio_of_value(operands[which]);
    *fraction = answer.value;
    if (sqlite3_value_type(operands[which]) == SQLITE_NULL) sqlite3_result_null(call);
    else if (answer.code == RATIO_NO_TEXT) sqlite3_result_error_nomem(call);
    else if (answer.code != RATIO_ANSWERED) refuse(call, name, count, operands, ratio_code_text(answer.code));
    return answer.code == RATIO_ANSWERED;
}

/* Gives a fraction as a text. */
static void give(sqlite3_context *call, ratio_i64 fraction) {
    uint8_t bytes[RATIO_ROOM_I64];
    ratio_text place;
    ratio_print_i64(&fraction, 1, bytes, sizeof bytes, &place, 1);
    sqlite3_result_text(call, (const char *) bytes, (int) place.span.end, SQLITE_TRANSIENT);
}

/* Gives the fraction of an answer, or why there is none. */
static void give_answer(sqlite3_context *call, const char *name, int count, sqlite3_value **operands, ratio_answer_i64 answer) {
    if (answer.code == RATIO_ANSWERED) give(call, answer.value);
    else refuse(call, name, count, operands, ratio_code_text(answer.code));
}

/* Reads the rule of rounding, an operand that may be missing: then a half goes to the even neighbour. */
static int is_rule(sqlite3_context *call, const char *name, int count, sqlite3_value **operands, int which, uint32_t *rule) {
    static const char *const names[] = {"half_away", "half_even", "down", "up", "floor", "ceil"};
    *rule = RATIO_RULE_HALF_EVEN;
    if (which >= count) return 1;
    if (sqlite3_value_type(operands[which]) == SQLITE_NULL) {
        sqlite3_result_null(call);
        return 0;
    }
    if (sqlite3_value_type(operands[which]) == SQLITE_TEXT) {
        for (*rule = 0; *rule < sizeof names / sizeof *names; ++*rule) {
            if (strcmp((const char *) sqlite3_value_text(operands[which]), names[*rule]) == 0) return 1;
        }
    }
    refuse(call, name, count, operands, "no such rule: half_away, half_even, down, up, floor or ceil");
    return 0;
}

/* Reads a whole number from the least to the greatest one. */
static int is_whole(sqlite3_context *call, const char *name, int count, sqlite3_value **operands, int which, sqlite3_int64 least, sqlite3_int64 greatest, sqlite3_int64 *number) {
    const int type = sqlite3_value_numeric_type(operands[which]);
    if (type == SQLITE_NULL) {
        sqlite3_result_null(call);
        return 0;
    }
    *number = sqlite3_value_int64(operands[which]);
    if (type == SQLITE_INTEGER && *number >= least && *number <= greatest) return 1;
    refuse(call, name, count, operands, type == SQLITE_INTEGER ? "out of range" : "no whole number");
    return 0;
}

/* ---- functions of one fraction */

typedef enum ratio_return fraction_call(const ratio_i64 *asked, size_t asked_len, ratio_answer_i64 *answers, size_t answers_len);

/* What a function is called, and the call of the library that it makes. */
typedef struct {
    const char *name;
    int operands;
    fraction_call *of_one;
    enum ratio_return (*of_two)(const ratio_pair_i64 *asked, size_t asked_len, ratio_answer_i64 *answers, size_t answers_len);
    enum ratio_return (*to_multiple)(const ratio_operands_i64 *asked, size_t asked_len, ratio_answer_i64 *answers, size_t answers_len);
} function;

#define SELF ((const function *) sqlite3_user_data(call))->name, count, operands
#define CALL(word) static void word(sqlite3_context *call, int count, sqlite3_value **operands)

/* ratio(x) in lowest terms, ratio_neg(x), ratio_abs(x) */
CALL(of_one) {
    ratio_i64 x;
    ratio_answer_i64 answer;
    if (!is_read(call, SELF, 0, &x)) return;
    ((const function *) sqlite3_user_data(call))->of_one(&x, 1, &answer, 1);
    give_answer(call, SELF, answer);
}

/* ratio_floor(x), ratio_ceil(x), ratio_trunc(x), ratio_round(x): integers */
CALL(to_integer) {
    ratio_i64 x;
    ratio_answer_i64 answer;
    if (!is_read(call, SELF, 0, &x)) return;
    ((const function *) sqlite3_user_data(call))->of_one(&x, 1, &answer, 1);
    if (answer.code == RATIO_ANSWERED) sqlite3_result_int64(call, answer.value.numer);
    else refuse(call, SELF, ratio_code_text(answer.code));
}

/* ratio_numer(x) and ratio_denom(x), in lowest terms */
CALL(numer) {
    ratio_i64 x;
    if (is_read(call, SELF, 0, &x)) sqlite3_result_int64(call, x.numer);
}

CALL(denom) {
    ratio_i64 x;
    if (is_read(call, SELF, 0, &x)) sqlite3_result_int64(call, x.denom);
}

/* ratio_float(x) */
CALL(to_float) {
    ratio_i64 x;
    ratio_float answer;
    if (!is_read(call, SELF, 0, &x)) return;
    ratio_to_f64_i64(&x, 1, &answer, 1);
    sqlite3_result_double(call, answer.value);
}

/* ratio_sortable(x): a text in the order of the values. It has a letter from ':' to 'y' for each 6 bits of the sortable bytes. SQLite sorts texts
 * faster than blobs, and none of these looks like a number.
 */
CALL(to_sortable) {
    ratio_i64 x;
    ratio_sortable answer;
    char text[sizeof answer.bytes / 3 * 4];
    size_t i;
    if (!is_read(call, SELF, 0, &x)) return;
    ratio_sortable_i64(&x, 1, &answer, 1);
    for (i = 0; i < sizeof answer.bytes / 3; i++) {
        const uint32_t bits = (uint32_t) answer.bytes[3 * i] << 16 | (uint32_t) answer.bytes[3 * i + 1] << 8 | answer.bytes[3 * i + 2];
        text[4 * i] = (char) (':' + (bits >> 18));
        text[4 * i + 1] = (char) (':' + (bits >> 12 & 63));
        text[4 * i + 2] = (char) (':' + (bits >> 6 & 63));
        text[4 * i + 3] = (char) (':' + (bits & 63));
    }
    sqlite3_result_text(call, text, sizeof text, SQLITE_TRANSIENT);
}

/* ratio_decimal(x, places [, rule]) */
CALL(to_decimal) {
    ratio_decimal_i64 asked;
    ratio_text place;
    uint8_t bytes[RATIO_DECIMAL_ROOM_I64];
    sqlite3_int64 places;
    if (!is_read(call, SELF, 0, &asked.value) || !is_whole(call, SELF, 1, 0, 38, &places) || !is_rule(call, SELF, 2, &asked.rule)) return;
    asked.places = (uint32_t) places;
    ratio_print_decimal_i64(&asked, 1, bytes, sizeof bytes, &place, 1);
    sqlite3_result_text(call, (const char *) bytes, (int) place.span.end, SQLITE_TRANSIENT);
}

/* ratio_round_to(x, parts [, rule]): a multiple of 1/parts */
CALL(round_to) {
    ratio_multiple_i64 asked;
    ratio_answer_i64 answer;
    sqlite3_int64 parts;
    if (!is_read(call, SELF, 0, &asked.value) || !is_whole(call, SELF, 1, 1, INT64_MAX, &parts) || !is_rule(call, SELF, 2, &asked.rule)) return;
    asked.parts = parts;
    ratio_round_to_i64(&asked, 1, &answer, 1);
    give_answer(call, SELF, answer);
}

/* ratio_nearest(x, most): with a denominator from 1 to most */
CALL(nearest) {
    ratio_bounded_i64 asked;
    ratio_answer_i64 answer;
    sqlite3_int64 most;
    if (!is_read(call, SELF, 0, &asked.value) || !is_whole(call, SELF, 1, 1, INT64_MAX, &most)) return;
    asked.most = most;
    ratio_nearest_i64(&asked, 1, &answer, 1);
    give_answer(call, SELF, answer);
}

/* ratio_pow(x, exponent) */
CALL(to_power) {
    ratio_power_i64 asked;
    ratio_answer_i64 answer;
    sqlite3_int64 exponent;
    if (!is_read(call, SELF, 0, &asked.base) || !is_whole(call, SELF, 1, INT32_MIN, INT32_MAX, &exponent)) return;
    asked.exponent = (int32_t) exponent;
    ratio_pow_i64(&asked, 1, &answer, 1);
    give_answer(call, SELF, answer);
}

/* ---- functions of two fractions */

/* ratio(x, y), which is x / y, and ratio_add(x, y) .. ratio_lcm(x, y) */
CALL(of_two) {
    ratio_pair_i64 pair;
    ratio_answer_i64 answer;
    if (!is_read(call, SELF, 0, &pair.left) || !is_read(call, SELF, 1, &pair.right)) return;
    ((const function *) sqlite3_user_data(call))->of_two(&pair, 1, &answer, 1);
    give_answer(call, SELF, answer);
}

/* ratio_mul_round_to(x, y, parts [, rule]), ratio_div_round_to(x, y, parts [, rule]) */
CALL(to_multiple) {
    ratio_operands_i64 asked;
    ratio_answer_i64 answer;
    sqlite3_int64 parts;
    if (!is_read(call, SELF, 0, &asked.left) || !is_read(call, SELF, 1, &asked.right)) return;
    if (!is_whole(call, SELF, 2, 1, INT64_MAX, &parts) || !is_rule(call, SELF, 3, &asked.rule)) return;
    asked.parts = parts;
    ((const function *) sqlite3_user_data(call))->to_multiple(&asked, 1, &answer, 1);
    give_answer(call, SELF, answer);
}

/* ratio_cmp(x, y): -1, 0 or 1 */
CALL(compare) {
    ratio_pair_i64 pair;
    ratio_order order;
    if (!is_read(call, SELF, 0, &pair.left) || !is_read(call, SELF, 1, &pair.right)) return;
    ratio_compare_i64(&pair, 1, &order, 1);
    sqlite3_result_int(call, order.order);
}

/* ratio_between(low, high): the simplest fraction between them */
CALL(between) {
    ratio_bounds_i64 asked;
    ratio_answer_i64 answer;
    if (!is_read(call, SELF, 0, &asked.low) || !is_read(call, SELF, 1, &asked.high)) return;
    asked.flags = 0;
    ratio_between_i64(&asked, 1, &answer, 1);
    give_answer(call, SELF, answer);
}

/* ---- sums and means, also over windows */

/* What PostgreSQL allows for a numeric. */
enum { MOST_PLACES = 16383 };

/* The total of an aggregate, and the places of ratio_sum_decimal. SQLite makes it all zero. */
typedef struct {
    ratio_total_i64 header;
    ratio_slot_i64 *slots;
    size_t length;
    sqlite3_int64 places;
} aggregate;

/* Moves the fractions of a total that are not 0 into other slots, and says whether there was memory. */
static int is_moved(aggregate *total) {
    ratio_total_i64 header = {0, 0, 0};
    ratio_slot_i64 *slots;
    uint64_t left, length, chance;
    sqlite3_randomness(sizeof chance, &chance);
    left = ratio_total_leave_zeros_i64(total->slots, total->length);
    length = ratio_total_next_length_i64(left, 0, chance, SIZE_MAX / sizeof *slots);
    slots = length ? sqlite3_malloc64(length * sizeof *slots) : NULL;
    if (!slots) return 0;
    memset(slots, 0, length * sizeof *slots);
    ratio_total_merge_i64(total->slots, left, total->header.count, &header, 1, slots, length);
    sqlite3_free(total->slots);
    total->header = header;
    total->slots = slots;
    total->length = length;
    return 1;
}

/* Puts the operand into the total, or takes it out. NULL does neither. */
static void change(sqlite3_context *call, int count, sqlite3_value **operands, int is_added) {
    aggregate *total = sqlite3_aggregate_context(call, sizeof *total);
    ratio_i64 x;
    if (!total) {
        sqlite3_result_error_nomem(call);
        return;
    }
    if (sqlite3_value_type(operands[0]) == SQLITE_NULL || !is_read(call, SELF, 0, &x)) return;
    if (count > 1 && !is_whole(call, SELF, 1, 0, MOST_PLACES, &total->places)) return;
    for (;;) {
        if (total->length == 0) total->header.code = RATIO_MORE_ROOM;
        else if (is_added) ratio_total_add_i64(&x, 1, &total->header, 1, total->slots, total->length);
        else ratio_total_subtract_i64(&x, 1, &total->header, 1, total->slots, total->length);
        if (total->header.code != RATIO_MORE_ROOM) break;
        if (!is_moved(total)) {
            sqlite3_result_error_nomem(call);
            return;
        }
    }
    if (total->header.code != RATIO_ANSWERED) refuse(call, SELF, ratio_code_text(total->header.code));
}

CALL(put_in) {
    change(call, count, operands, 1);
}

CALL(take_out) {
    change(call, count, operands, 0);
}

/* Gives the sum of a total as a decimal, which may be longer than 64 bits. */
static void give_decimal(sqlite3_context *call, const char *name, const aggregate *total) {
    const uint32_t places = (uint32_t) total->places;
    const uint64_t digits = ratio_total_print_digits_i64(total->slots, total->length, places);
    const uint64_t length = ratio_total_print_bytes_i64(total->slots, total->length, places);
    uint64_t *room = sqlite3_malloc64(digits * sizeof *room);
    uint8_t *bytes = sqlite3_malloc64(length);
    ratio_text place;
    if (room && bytes) {
        ratio_total_print_i64(total->slots, total->length, places, RATIO_RULE_HALF_EVEN, room, digits, bytes, length, &place, 1);
        if (place.code == RATIO_ANSWERED) sqlite3_result_text(call, (char *) bytes + place.span.start, (int) (place.span.end - place.span.start), SQLITE_TRANSIENT);
        else refuse(call, name, 0, NULL, ratio_code_text(place.code));
    } else {
        sqlite3_result_error_nomem(call);
    }
    sqlite3_free(room);
    sqlite3_free(bytes);
}

/* Gives the sum or the mean of a total in lowest terms. */
static void give_fraction(sqlite3_context *call, const char *name, const aggregate *total, int is_mean) {
    const uint64_t digits = ratio_total_digits_i64(total->slots, total->length);
    uint64_t *room = sqlite3_malloc64(digits * sizeof *room);
    ratio_answer_i64 answer;
    if (!room) {
        sqlite3_result_error_nomem(call);
        return;
    }
    if (is_mean) ratio_total_mean_i64(total->slots, total->length, total->header.count, room, digits, &answer, 1);
    else ratio_total_sum_i64(total->slots, total->length, room, digits, &answer, 1);
    sqlite3_free(room);
    give_answer(call, name, 0, NULL, answer);
}

/* Gives what the function says of a total. Of no fraction it is NULL. */
static void read_total(sqlite3_context *call, const aggregate *total) {
    const char *name = ((const function *) sqlite3_user_data(call))->name;
    if (!total || total->header.count == 0) sqlite3_result_null(call);
    else if (strcmp(name, "ratio_sum_decimal") == 0) give_decimal(call, name, total);
    else give_fraction(call, name, total, strcmp(name, "ratio_avg") == 0);
}

static void value(sqlite3_context *call) {
    read_total(call, sqlite3_aggregate_context(call, 0));
}

static void end(sqlite3_context *call) {
    aggregate *total = sqlite3_aggregate_context(call, 0);
    read_total(call, total);
    if (total) {
        sqlite3_free(total->slots);
        total->slots = NULL;
        total->length = 0;
    }
}

/* ---- the collation */

/* Whether a text is a number, perhaps one beyond 64 bits. */
static int is_number(ratio_answer_i64 read) {
    return read.code == RATIO_ANSWERED || read.code == RATIO_NOT_HELD;
}

/* The order of two texts by their values. */
static int collate(void *unused, int left_length, const void *left, int right_length, const void *right) {
    const ratio_span left_all = {0, (size_t) left_length}, right_all = {0, (size_t) right_length};
    ratio_answer_i64 x, y;
    ratio_pair_i64 pair;
    ratio_order order;
    (void) unused;
    ratio_read_text_i64(left_length ? left : "", left_all.end, &left_all, 1, &x, 1);
    ratio_read_text_i64(right_length ? right : "", right_all.end, &right_all, 1, &y, 1);
    if (x.code == RATIO_ANSWERED && y.code == RATIO_ANSWERED) {
        pair.left = x.value;
        pair.right = y.value;
        ratio_compare_i64(&pair, 1, &order, 1);
        return order.order;
    }
    return ratio_order_of_texts(is_number(x), left, left_length, is_number(y), right, right_length);
}

/* ---- their names */

typedef struct {
    function self;
    void (*body)(sqlite3_context *, int, sqlite3_value **);
} row;

/* A function with the name of the call that it makes, with that of its body, or with that of a call and a rule that may be missing. */
#define OF_ONE(call, body) {{"ratio_" #call, 1, ratio_##call##_i64, 0, 0}, body}
#define OF_TWO(call) {{"ratio_" #call, 2, 0, ratio_##call##_i64, 0}, of_two}
#define OTHER(name, operands, body) {{"ratio_" #name, operands, 0, 0, 0}, body}
#define TO_MULTIPLE(call) {{"ratio_" #call, 3, 0, 0, ratio_##call##_i64}, to_multiple}, {{"ratio_" #call, 4, 0, 0, ratio_##call##_i64}, to_multiple}

static const row rows[] = {
    {{"ratio", 1, ratio_reduce_i64, 0, 0}, of_one}, {{"ratio", 2, 0, ratio_div_i64, 0}, of_two}, {{"ratio_mod", 2, 0, ratio_rem_i64, 0}, of_two},
    OF_TWO(add), OF_TWO(sub), OF_TWO(mul), OF_TWO(div), OF_TWO(gcd), OF_TWO(lcm), TO_MULTIPLE(mul_round_to), TO_MULTIPLE(div_round_to),
    OF_ONE(neg, of_one), OF_ONE(abs, of_one), OF_ONE(floor, to_integer), OF_ONE(ceil, to_integer), OF_ONE(trunc, to_integer), OF_ONE(round, to_integer),
    OTHER(cmp, 2, compare), OTHER(between, 2, between), OTHER(numer, 1, numer), OTHER(denom, 1, denom), OTHER(float, 1, to_float), OTHER(sortable, 1, to_sortable),
    OTHER(decimal, 2, to_decimal), OTHER(decimal, 3, to_decimal), OTHER(round_to, 2, round_to), OTHER(round_to, 3, round_to), OTHER(nearest, 2, nearest),
    OTHER(pow, 2, to_power),
};

static const function sums[] = {{"ratio_sum", 1, 0, 0, 0}, {"ratio_sum_decimal", 2, 0, 0, 0}, {"ratio_avg", 1, 0, 0, 0}};

int sqlite3_ratio_init(sqlite3 *database, char **message, const sqlite3_api_routines *api) {
    const int flags = SQLITE_UTF8 | SQLITE_DETERMINISTIC | SQLITE_INNOCUOUS;
    int status = SQLITE_OK;
    size_t i;
    SQLITE_EXTENSION_INIT2(api);
    (void) message;
    for (i = 0; status == SQLITE_OK && i < sizeof rows / sizeof *rows; i++) {
        status = sqlite3_create_function(database, rows[i].self.name, rows[i].self.operands, flags, (void *) &rows[i].self, rows[i].body, NULL, NULL);
    }
    for (i = 0; status == SQLITE_OK && i < sizeof sums / sizeof *sums; i++) {
        status = sqlite3_create_window_function(database, sums[i].name, sums[i].operands, flags, (void *) &sums[i], put_in, end, value, take_out, NULL);
    }
    if (status == SQLITE_OK) status = sqlite3_create_collation(database, "ratio", SQLITE_UTF8, NULL, collate);
    return status == SQLITE_OK ? ratio_splits_init(database) : status;
}
