/* Reads a table of rates, sorts it by keys and prints it. Keys are numbers of 64 bits, so most rates are ordered without a call. */
#include "shared.h"

enum { MOST = 16 };

static const char table[] =
    "harbour 1/24\n"
    "mill 17/400\n"
    "north -1/8\n"
    "bridge 2/48\n"
    "market 1/0\n"
    "forest 9007199254740993/9007199254740992\n"
    "castle 1\n"
    "tower five\n"
    "garden 0/7\n";

/* A name and the place of its rate in the table, and then the rate with its key. */
typedef struct { int name_length; const char *name; ratio_i64 rate; int64_t key; } row;

/* Cuts the table into lines NAME RATE, and returns how many it has. */
static size_t cut(row *rows, ratio_span *rates) {
    size_t count = 0;
    const char *line = table;
    while (*line != '\0' && count < MOST) {
        const char *space = strchr(line, ' '), *end = strchr(line, '\n');
        rows[count].name = line;
        rows[count].name_length = (int) (space - line);
        rates[count].start = (size_t) (space + 1 - table);
        rates[count].end = (size_t) (end - table);
        line = end + 1;
        count++;
    }
    return count;
}

/* For qsort. Rates with the same key may be unlike, so they are compared themselves. Equal ones stay in the order of the table. */
static int order(const void *left, const void *right) {
    const row *x = left, *y = right;
    const ratio_pair_i64 pair = {x->rate, y->rate};
    ratio_order compared;
    if (x->key != y->key) return x->key < y->key ? -1 : 1;
    done(ratio_compare_i64(&pair, 1, &compared, 1));
    return compared.order != 0 ? compared.order : x->name < y->name ? -1 : 1;
}

int main(void) {
    row rows[MOST];
    ratio_span rates[MOST];
    ratio_answer_i64 answers[MOST];
    size_t count = cut(rows, rates), kept = 0;
    done(ratio_read_i64((const uint8_t *) table, strlen(table), rates, count, answers, count));
    for (size_t i = 0; i < count; i++) {
        ratio_key key;
        if (answers[i].code != RATIO_ANSWERED) {
            printf("%.*s: %s\n", rows[i].name_length, rows[i].name, ratio_code_text(answers[i].code));
            continue;
        }
        done(ratio_key_i64(&answers[i].value, 1, &key, 1));
        rows[kept] = rows[i];
        rows[kept].rate = answers[i].value;
        rows[kept].key = key.key;
        kept++;
    }
    qsort(rows, kept, sizeof *rows, order);
    for (size_t i = 0; i < kept; i++) {
        printf("%20" PRId64 " %-8.*s", rows[i].key, rows[i].name_length, rows[i].name);
        print(rows[i].rate);
        printf("\n");
    }
    return 0;
}

/* It prints:
market: zero denominator
tower: no fraction
-4593671619917905920 north   -1/8
                   0 garden  0
 4586165620538955093 harbour 1/24
 4586165620538955093 bridge  1/24
 4586285716529018307 mill    17/400
 4607182418800017408 castle  1
 4607182418800017408 forest  9007199254740993/9007199254740992
*/
