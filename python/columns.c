/* Calls over columns: arrays of numerators and of denominators, each of 64 bits, over the calls on arrays of ratio.h.
 *
 * A column has its numerators and its denominators in two arrays, and the library takes them in pairs. So the items are copied in blocks that
 * stay in the nearest memory. No call here holds Python's lock while it computes.
 */
#include "glue.h"

enum { BLOCK = 32, MOST_ARRAYS = 7 };

/* ---- arrays */

/* The arrays that a call has opened. */
typedef struct {
    Py_buffer views[MOST_ARRAYS];
    int count;
} arrays;

static void close_all(arrays *opened) {
    while (opened->count > 0) PyBuffer_Release(&opened->views[--opened->count]);
}

/* Whether the format is one of signed integers of 64 bits ('q'), or of bytes, signed ('b') or not ('B'). */
static int is_format(const Py_buffer *view, char wanted) {
    const char *format = view->format ? view->format : "B";
    if (*format == '@' || *format == '=' || (PY_LITTLE_ENDIAN && *format == '<')) format++;
    if (format[0] == '\0' || format[1] != '\0') return 0;
    return view->itemsize == (wanted == 'q' ? 8 : 1) && (*format == wanted || (wanted == 'q' && *format == 'l'));
}

/* Opens an array of one dimension, as long as the first one that was opened, or says what is wrong with it. */
static int is_opened(arrays *opened, PyObject *object, const char *name, char format, int is_written) {
    Py_buffer *view = &opened->views[opened->count];
    if (PyObject_GetBuffer(object, view, PyBUF_ND | PyBUF_FORMAT | (is_written ? PyBUF_WRITABLE : 0)) < 0) return 0;
    opened->count++;
    if (view->ndim != 1 || !is_format(view, format)) {
        PyErr_Format(PyExc_TypeError, "%s: an array of one dimension with the format '%c' is needed", name, format);
        return 0;
    }
    if (view->len > 0 && (uintptr_t) view->buf % (size_t) view->itemsize != 0) {
        PyErr_Format(PyExc_ValueError, "%s: the array is not aligned", name);
        return 0;
    }
    if (view->shape[0] == opened->views[0].shape[0]) return 1;
    PyErr_Format(PyExc_ValueError, "%s: %zd items are needed, as in the first array, not %zd", name, opened->views[0].shape[0], view->shape[0]);
    return 0;
}

/* Whether no array that is written shares memory with another one. */
static int is_apart(const arrays *opened, int written_from) {
    int i, j;
    for (i = written_from; i < opened->count; i++) {
        for (j = 0; j < i; j++) {
            const char *x = opened->views[i].buf, *y = opened->views[j].buf;
            if (x < y + opened->views[j].len && y < x + opened->views[i].len) {
                PyErr_SetString(PyExc_ValueError, "an array that is written shares memory with another one");
                return 0;
            }
        }
    }
    return 1;
}

static size_t length_of(const arrays *opened) {
    return (size_t) opened->views[0].shape[0];
}

/* ---- operators over two columns */

typedef enum ratio_return pairs_call(const ratio_pair_i64 *asked, size_t asked_len, ratio_answer_i64 *answers, size_t answers_len);

/* The operands of a block. */
static void take_pairs(const arrays *opened, size_t from, size_t count, ratio_pair_i64 *pairs) {
    const int64_t *const numers = opened->views[0].buf, *const denoms = opened->views[1].buf, *const other_numers = opened->views[2].buf, *const other_denoms = opened->views[3].buf;
    size_t i;
    for (i = 0; i < count; i++) {
        pairs[i].left.numer = numers[from + i];
        pairs[i].left.denom = denoms[from + i];
        pairs[i].right.numer = other_numers[from + i];
        pairs[i].right.denom = other_denoms[from + i];
    }
}

/* Writes the results and the codes, and gives how many have no result. */
static size_t of_blocks(const arrays *opened, pairs_call *call) {
    int64_t *const numers = opened->views[4].buf, *const denoms = opened->views[5].buf;
    uint8_t *const codes = opened->views[6].buf;
    const size_t length = length_of(opened);
    ratio_pair_i64 pairs[BLOCK];
    ratio_answer_i64 answers[BLOCK];
    size_t from, i, failed = 0;
    for (from = 0; from < length; from += BLOCK) {
        const size_t count = length - from < BLOCK ? length - from : BLOCK;
        take_pairs(opened, from, count, pairs);
        call(pairs, count, answers, count);
        for (i = 0; i < count; i++) {
            numers[from + i] = answers[i].value.numer;
            denoms[from + i] = answers[i].value.denom;
            codes[from + i] = (uint8_t) answers[i].code;
            failed += answers[i].code != RATIO_ANSWERED;
        }
    }
    return failed;
}

/* Opens the arrays of both columns, which come first in each call over two columns. */
static int is_both_opened(arrays *opened, PyObject *const *given) {
    return is_opened(opened, given[0], "numerators", 'q', 0) && is_opened(opened, given[1], "denominators", 'q', 0)
        && is_opened(opened, given[2], "other_numerators", 'q', 0) && is_opened(opened, given[3], "other_denominators", 'q', 0);
}

static int is_count(Py_ssize_t count, Py_ssize_t wanted) {
    if (count == wanted) return 1;
    PyErr_Format(PyExc_TypeError, "%zd arrays are needed, not %zd", wanted, count);
    return 0;
}

static PyObject *of_columns(pairs_call *call, PyObject *const *given, Py_ssize_t count) {
    arrays opened = {.count = 0};
    PyObject *answer = NULL;
    size_t failed;
    if (is_count(count, 7) && is_both_opened(&opened, given) && is_opened(&opened, given[4], "out_numerators", 'q', 1)
        && is_opened(&opened, given[5], "out_denominators", 'q', 1) && is_opened(&opened, given[6], "codes", 'B', 1) && is_apart(&opened, 4)) {
        Py_BEGIN_ALLOW_THREADS
        failed = of_blocks(&opened, call);
        Py_END_ALLOW_THREADS
        answer = PyLong_FromSize_t(failed);
    }
    close_all(&opened);
    return answer;
}

#define COLUMNS(name) static PyObject *name(PyObject *Py_UNUSED(module), PyObject *const *given, Py_ssize_t count)

COLUMNS(add) { return of_columns(ratio_add_i64, given, count); }
COLUMNS(subtract) { return of_columns(ratio_sub_i64, given, count); }
COLUMNS(multiply) { return of_columns(ratio_mul_i64, given, count); }
COLUMNS(divide) { return of_columns(ratio_div_i64, given, count); }

static size_t orders_of_blocks(const arrays *opened) {
    int8_t *const orders = opened->views[4].buf;
    uint8_t *const codes = opened->views[5].buf;
    const size_t length = length_of(opened);
    ratio_pair_i64 pairs[BLOCK];
    ratio_order answers[BLOCK];
    size_t from, i, failed = 0;
    for (from = 0; from < length; from += BLOCK) {
        const size_t count = length - from < BLOCK ? length - from : BLOCK;
        take_pairs(opened, from, count, pairs);
        ratio_compare_i64(pairs, count, answers, count);
        for (i = 0; i < count; i++) {
            orders[from + i] = (int8_t) answers[i].order;
            codes[from + i] = (uint8_t) answers[i].code;
            failed += answers[i].code != RATIO_ANSWERED;
        }
    }
    return failed;
}

COLUMNS(compare) {
    arrays opened = {.count = 0};
    PyObject *answer = NULL;
    size_t failed;
    if (is_count(count, 6) && is_both_opened(&opened, given) && is_opened(&opened, given[4], "orders", 'b', 1) && is_opened(&opened, given[5], "codes", 'B', 1) && is_apart(&opened, 4)) {
        Py_BEGIN_ALLOW_THREADS
        failed = orders_of_blocks(&opened);
        Py_END_ALLOW_THREADS
        answer = PyLong_FromSize_t(failed);
    }
    close_all(&opened);
    return answer;
}

/* ---- the order of one column */

/* An item to sort: its key, its value and its place. */
typedef struct {
    int64_t key;
    ratio_i64 value;
    int64_t place;
} item;

static PyObject *refused(size_t place, uint32_t code) {
    return PyErr_Format(PyExc_ValueError, "item %zu: %s", place, ratio_code_text(code));
}

/* Reads the items with their keys. It gives the code of the first one without a key, with its place, or RATIO_ANSWERED. */
static uint32_t read_items(const arrays *opened, item *items, size_t *place) {
    const int64_t *const numers = opened->views[0].buf, *const denoms = opened->views[1].buf;
    const size_t length = length_of(opened);
    ratio_i64 values[BLOCK];
    ratio_key keys[BLOCK];
    size_t from, i;
    for (from = 0; from < length; from += BLOCK) {
        const size_t count = length - from < BLOCK ? length - from : BLOCK;
        for (i = 0; i < count; i++) {
            values[i].numer = numers[from + i];
            values[i].denom = denoms[from + i];
        }
        ratio_key_i64(values, count, keys, count);
        for (i = 0; i < count; i++) {
            *place = from + i;
            if (keys[i].code != RATIO_ANSWERED) return keys[i].code;
            items[*place] = (item) {keys[i].key, values[i], (int64_t) *place};
        }
    }
    return RATIO_ANSWERED;
}

/* By the keys, then by the values, then by the places, so that equal values stay in their order. */
static int in_order(const void *left, const void *right) {
    const item *x = left, *y = right;
    if (x->key != y->key) return x->key < y->key ? -1 : 1;
    if (x->value.numer != y->value.numer || x->value.denom != y->value.denom) {
        const ratio_pair_i64 pair = {x->value, y->value};
        ratio_order answer;
        ratio_compare_i64(&pair, 1, &answer, 1);
        if (answer.order != 0) return answer.order;
    }
    return x->place < y->place ? -1 : x->place > y->place;
}

static uint32_t sort_items(const arrays *opened, item *items, size_t *place) {
    const size_t length = length_of(opened);
    const uint32_t code = read_items(opened, items, place);
    size_t i;
    if (code != RATIO_ANSWERED) return code;
    qsort(items, length, sizeof *items, in_order);
    for (i = 0; i < length; i++) ((int64_t *) opened->views[2].buf)[i] = items[i].place;
    return code;
}

COLUMNS(sort_order) {
    arrays opened = {.count = 0};
    item *items = NULL;
    size_t place;
    uint32_t code;
    if (is_count(count, 3) && is_opened(&opened, given[0], "numerators", 'q', 0) && is_opened(&opened, given[1], "denominators", 'q', 0)
        && is_opened(&opened, given[2], "places", 'q', 1) && is_apart(&opened, 2)) {
        items = PyMem_RawMalloc((length_of(&opened) + 1) * sizeof *items);
        if (items) {
            Py_BEGIN_ALLOW_THREADS
            code = sort_items(&opened, items, &place);
            Py_END_ALLOW_THREADS
            if (code != RATIO_ANSWERED) refused(place, code);
        } else {
            PyErr_NoMemory();
        }
    }
    PyMem_RawFree(items);
    close_all(&opened);
    if (PyErr_Occurred()) return NULL;
    Py_RETURN_NONE;
}

/* ---- the total of one column */

COLUMNS(total_of) {
    arrays opened = {.count = 0};
    PyObject *total = NULL;
    size_t place = 0;
    uint32_t code;
    if (is_count(count, 2) && is_opened(&opened, given[0], "numerators", 'q', 0) && is_opened(&opened, given[1], "denominators", 'q', 0)) {
        total = made_total(&total_type);
        if (total) {
            Py_BEGIN_ALLOW_THREADS
            code = add_column(total, opened.views[0].buf, opened.views[1].buf, length_of(&opened), &place);
            Py_END_ALLOW_THREADS
            if (code == RATIO_MORE_ROOM) PyErr_NoMemory();
            else if (code != RATIO_ANSWERED) refused(place, code);
            if (code != RATIO_ANSWERED) Py_CLEAR(total);
        }
    }
    close_all(&opened);
    return total;
}

/* ---- their names */

#define ROW(name, about) {#name, (PyCFunction) (void (*)(void)) name, METH_FASTCALL, about}

PyMethodDef column_methods[] = {
    ROW(add, "Writes the sums of two columns, and gives how many have a code other than 0."),
    ROW(subtract, "Writes the differences of two columns, and gives how many have a code other than 0."),
    ROW(multiply, "Writes the products of two columns, and gives how many have a code other than 0."),
    ROW(divide, "Writes the quotients of two columns, and gives how many have a code other than 0."),
    ROW(compare, "Writes -1, 0 or 1 for each two items, and gives how many have a code other than 0."),
    ROW(sort_order, "Writes the places of the items in the order of their values. Equal values stay in their order."),
    ROW(total_of, "A Total of all items."),
    {NULL, NULL, 0, NULL},
};
