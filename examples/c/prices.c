/* Reads prices and amounts, and prints what each line of a bill costs, exactly and in cents. The sum is rounded once, at its end. */
#include "shared.h"

enum { LINES = 5 };

/* For each line its name, the price of one unit, and how many units. */
static const char *const bill[LINES][3] = {
    {"flour", "0.89", "1.5"}, {"rice", "2.10", "0.333"}, {"deposit", "-0.25", "6"}, {"salt", "0.50", "two"}, {"gold", "9223372036854775807", "2"},
};

/* The fraction of a decimal. */
static ratio_answer_i64 number_of(const char *text) {
    const ratio_span span = {0, strlen(text)};
    ratio_answer_i64 answer;
    done(ratio_read_decimal_i64((const uint8_t *) text, strlen(text), &span, 1, &answer, 1));
    return answer;
}

/* The price times the amount, or why there is none. */
static ratio_answer_i64 cost(const char *price, const char *amount) {
    const ratio_answer_i64 factors[2] = {number_of(price), number_of(amount)};
    ratio_answer_i64 answer;
    if (factors[0].code != RATIO_ANSWERED) return factors[0];
    if (factors[1].code != RATIO_ANSWERED) return factors[1];
    const ratio_pair_i64 pair = {factors[0].value, factors[1].value};
    done(ratio_mul_i64(&pair, 1, &answer, 1));
    return answer;
}

/* Prints a sum of money as a fraction, and with two places. */
static void print_money(ratio_i64 money) {
    const ratio_decimal_i64 cents = {money, 2, RATIO_RULE_HALF_EVEN};
    uint8_t bytes[RATIO_DECIMAL_ROOM_I64];
    ratio_text text;
    done(ratio_print_decimal_i64(&cents, 1, bytes, sizeof bytes, &text, 1));
    print(money);
    printf(", in cents %.*s\n", (int) text.span.end, (const char *) bytes);
}
int main(void) {
    ratio_total_i64 total = {0};
    ratio_slot_i64 slots[LINES] = {{0}};
    uint64_t room[4 * LINES + 6];
    ratio_answer_i64 sum;
    for (int i = 0; i < LINES; i++) {
        const ratio_answer_i64 answer = cost(bill[i][1], bill[i][2]);
        printf("%s %s * %s: ", bill[i][0], bill[i][1], bill[i][2]);
        if (answer.code == RATIO_ANSWERED) {
            print_money(answer.value);
            done(ratio_total_add_i64(&answer.value, 1, &total, 1, slots, LINES));
        } else {
            printf("%s\n", ratio_code_text(answer.code));
        }
    }
    done(ratio_total_sum_i64(slots, LINES, room, 4 * LINES + 6, &sum, 1));
    printf("sum: ");
    if (sum.code != RATIO_ANSWERED) {
        printf("%s\n", ratio_code_text(sum.code));
        return 1;
    }
    print_money(sum.value);
    return 0;
}

/* It prints:
flour 0.89 * 1.5: 267/200, in cents 1.34
rice 2.10 * 0.333: 6993/10000, in cents 0.70
deposit -0.25 * 6: -3/2, in cents -1.50
salt 0.50 * two: no fraction
gold 9223372036854775807 * 2: out of range
sum: 5343/10000, in cents 0.53
*/
