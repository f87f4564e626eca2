/* Keeps the totals of two shops, joins them, and takes a refund out. A total is exact, and an entry that is refused changes nothing. */
#include "shared.h"

/* Each shop has few denominators, so a few slots are enough for its total. */
enum { SLOTS = 8 };
typedef struct { ratio_total_i64 header; ratio_slot_i64 slots[SLOTS]; } shop;

static const ratio_i64 north[3] = {{1999, 100}, {5, 2}, {1, 3}};
static const ratio_i64 south[2] = {{9, 2}, {7, 4}};
static const ratio_i64 refund[1] = {{5, 2}};
static const ratio_i64 damaged[2] = {{1, 2}, {3, 0}};

/* Prints a line of the ledger: the count, the sum and the mean. */
static void show(const char *name, const shop *total) {
    uint64_t room[4 * SLOTS + 6];
    ratio_answer_i64 sum, mean;
    done(ratio_total_sum_i64(total->slots, SLOTS, room, 4 * SLOTS + 6, &sum, 1));
    done(ratio_total_mean_i64(total->slots, SLOTS, total->header.count, room, 4 * SLOTS + 6, &mean, 1));
    printf("%-12s%2" PRId64 "  sum ", name, total->header.count);
    print_answer(sum);
    printf(", mean ");
    print_answer(mean);
    printf("\n");
}

static void add(shop *total, const ratio_i64 *entries, size_t count) {
    done(ratio_total_add_i64(entries, count, &total->header, 1, total->slots, SLOTS));
    if (total->header.code == RATIO_ANSWERED) return;
    printf("entry %" PRIu64 " not added: %s\n", total->header.done + 1, ratio_code_text(total->header.code));
}

static void join(shop *total, const shop *other) {
    done(ratio_total_merge_i64(other->slots, SLOTS, other->header.count, &total->header, 1, total->slots, SLOTS));
}

int main(void) {
    shop shops[2] = {0}, both = {0};
    show("empty", &both);

    add(&shops[0], north, 3);
    add(&shops[1], south, 2);
    join(&both, &shops[0]);
    join(&both, &shops[1]);
    show("north", &shops[0]);
    show("south", &shops[1]);
    show("both", &both);

    done(ratio_total_subtract_i64(refund, 1, &both.header, 1, both.slots, SLOTS));
    show("less refund", &both);

    /* The entries before a refused one stay. Keep a copy of the total if you want all of them or none. */
    shop next = both;
    add(&next, damaged, 2);
    if (next.header.code == RATIO_ANSWERED) both = next;
    show("at the end", &both);
    return 0;
}

/* It prints:
empty        0  sum 0, mean division by zero
north        3  sum 6847/300, mean 6847/900
south        2  sum 25/4, mean 25/8
both         5  sum 4361/150, mean 4361/750
less refund  4  sum 1993/75, mean 1993/300
entry 2 not added: denominator not positive
at the end   4  sum 1993/75, mean 1993/300
*/
