/* Makes calls in several threads at once, while a signal interrupts them whose handler makes calls, too. All must say what they say alone. */
#define _XOPEN_SOURCE 700
#include "ratio.h"

#include <errno.h>
#include <pthread.h>
#include <signal.h>
#include <stdio.h>
#include <string.h>
#include <sys/time.h>
#include <unistd.h>

enum { THREADS = 4, PAIRS = 200, ROUNDS = 400, SLOTS = 64, ROOM = 4 * SLOTS + 6 };

/* What some calls say of the pairs. */
typedef struct {
    ratio_answer_i64 sums[PAIRS], quotients[PAIRS], mean;
    ratio_order orders[PAIRS];
    ratio_text places[PAIRS];
    uint8_t texts[PAIRS * RATIO_DECIMAL_ROOM_I64];
} said;

static ratio_pair_i64 pairs[PAIRS];
static ratio_decimal_i64 decimals[PAIRS];
static ratio_i64 shares[PAIRS];
static said alone;
static volatile sig_atomic_t wrong, signals;

/* Makes the calls, with arrays of its own. It says whether each one was done. */
static int say(said *x) {
    ratio_total_i64 total = {0};
    ratio_slot_i64 slots[SLOTS];
    uint64_t room[ROOM];
    memset(x, 0, sizeof *x);
    memset(slots, 0, sizeof slots);
    return ratio_add_i64(pairs, PAIRS, x->sums, PAIRS) == RATIO_DONE && ratio_div_i64(pairs, PAIRS, x->quotients, PAIRS) == RATIO_DONE
        && ratio_compare_i64(pairs, PAIRS, x->orders, PAIRS) == RATIO_DONE
        && ratio_print_decimal_i64(decimals, PAIRS, x->texts, sizeof x->texts, x->places, PAIRS) == RATIO_DONE
        && ratio_total_add_i64(shares, PAIRS, &total, 1, slots, SLOTS) == RATIO_DONE && total.done == PAIRS
        && ratio_total_mean_i64(slots, SLOTS, total.count, room, ROOM, &x->mean, 1) == RATIO_DONE;
}

/* A call has padding between its fields, which the same call fills in the same way or not at all: the arrays were all zero before. */
static void compare(void) {
    said x;
    errno = 77;
    if (!say(&x) || memcmp(&x, &alone, sizeof x) != 0 || errno != 77) wrong = 1;
}

static void *work(void *unused) {
    (void) unused;
    for (int i = 0; i < ROUNDS; i++) compare();
    return NULL;
}

static void handle(int number) {
    const int kept = errno;
    (void) number;
    signals = signals + 1;
    compare();
    errno = kept;
}

int main(void) {
    const struct itimerval often = {{0, 500}, {0, 500}};
    struct sigaction action;
    pthread_t threads[THREADS];
    uint64_t state = 1;
    for (int i = 0; i < PAIRS; i++) {
        int64_t numbers[4];
        for (int k = 0; k < 4; k++) {
            state = state * UINT64_C(6364136223846793005) + UINT64_C(1442695040888963407);
            numbers[k] = (int64_t) (state >> (1 + i % 62));
        }
        pairs[i].left.numer = numbers[0] - numbers[1];
        pairs[i].left.denom = numbers[1];
        pairs[i].right.numer = numbers[2] - numbers[3];
        pairs[i].right.denom = numbers[3];
        decimals[i].value = pairs[i].left;
        decimals[i].places = (uint32_t) (i % 40);
        shares[i].numer = numbers[0] >> 1;
        shares[i].denom = 1 + i % (SLOTS / 2);
    }
    if (!say(&alone)) return 1;
    memset(&action, 0, sizeof action);
    action.sa_handler = handle;
    action.sa_flags = SA_RESTART;
    if (sigaction(SIGALRM, &action, NULL) != 0 || setitimer(ITIMER_REAL, &often, NULL) != 0) return 1;
    for (int i = 0; i < THREADS; i++) {
        if (pthread_create(&threads[i], NULL, work, NULL) != 0) return 1;
    }
    for (int i = 0; i < THREADS; i++) pthread_join(threads[i], NULL);
    if (wrong || signals == 0) {
        printf("at once: %s\n", wrong ? "a call says something else than alone" : "no signal came");
        return 1;
    }
    return 0;
}
