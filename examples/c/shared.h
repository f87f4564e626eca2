/* What the programs here share: a call that must be done, and the text of a fraction. */
#ifndef SHARED_H
#define SHARED_H

#include "ratio.h"

#include <inttypes.h>
#include <stdio.h>
#include <stdlib.h>
#include <string.h>

/* Ends the program if a call wrote nothing, since the lengths of its arrays do not fit. That is a fault of the program. */
static inline void done(enum ratio_return returned) {
    if (returned != RATIO_DONE) {
        fputs("a call got arrays of other lengths than it requires\n", stderr);
        exit(1);
    }
}

static inline void print(ratio_i64 x) {
    uint8_t bytes[RATIO_ROOM_I64];
    ratio_text text;
    done(ratio_print_i64(&x, 1, bytes, sizeof bytes, &text, 1));
    fwrite(bytes, 1, text.span.end, stdout);
}

/* Prints the fraction of an answer, or why there is none. */
static inline void print_answer(ratio_answer_i64 answer) {
    if (answer.code == RATIO_ANSWERED) print(answer.value);
    else fputs(ratio_code_text(answer.code), stdout);
}

#endif
