/* A sum of fractions that loses nothing, over the calls on totals of ratio.h.
 *
 * What the slots of those calls do not take, such as a Fraction that does not fit 64 bits, goes into a Fraction beside them. Where the sum or
 * the mean does not fit 64 bits, exact.py computes it from the slots.
 */
#include "glue.h"

#include <sys/random.h>

typedef struct {
    PyObject_HEAD
    ratio_total_i64 header;
    ratio_slot_i64 *slots;
    size_t length;
    PyObject *wide; /* the sum of what is not in the slots, or NULL for none */
    int64_t wide_count;
} total_object;

enum { FIRST_LENGTH = 8, MOST_PLACES = 16383 };

/* ---- the slots */

static ratio_slot_i64 *new_slots(size_t length) {
    return PyMem_RawCalloc(length, sizeof(ratio_slot_i64));
}

static uint64_t number_by_chance(void) {
    uint64_t chance = 0;
    return getentropy(&chance, sizeof chance) == 0 ? chance : 0;
}

/* A copy of the slots, so that other threads may go on while the library reads them. */
static ratio_slot_i64 *copied(const total_object *self) {
    ratio_slot_i64 *slots = PyMem_RawMalloc(self->length * sizeof *slots);
    return slots ? memcpy(slots, self->slots, self->length * sizeof *slots) : NULL;
}

static uint64_t taken(const total_object *self) {
    return self->length - ratio_total_free_i64(self->slots, self->length);
}

/* Moves the fractions that are not 0 into slots for them and so many more denominators, and says whether there was memory. */
static int is_moved(total_object *self, uint64_t more) {
    ratio_total_i64 header = {0, 0, 0};
    const uint64_t left = ratio_total_leave_zeros_i64(self->slots, self->length);
    const uint64_t length = ratio_total_next_length_i64(left, more, number_by_chance(), PY_SSIZE_T_MAX / sizeof(ratio_slot_i64));
    ratio_slot_i64 *const slots = length ? new_slots(length) : NULL;
    if (!slots) return 0;
    ratio_total_merge_i64(self->slots, left, self->header.count, &header, 1, slots, length);
    PyMem_RawFree(self->slots);
    self->header = header;
    self->slots = slots;
    self->length = length;
    return 1;
}

PyObject *made_total(PyTypeObject *type) {
    total_object *self = (total_object *) type->tp_alloc(type, 0);
    if (!self) return NULL;
    self->length = FIRST_LENGTH;
    self->slots = new_slots(self->length);
    if (self->slots) return (PyObject *) self;
    Py_DECREF(self);
    return PyErr_NoMemory();
}

static void end(PyObject *object) {
    total_object *self = (total_object *) object;
    PyMem_RawFree(self->slots);
    Py_XDECREF(self->wide);
    Py_TYPE(object)->tp_free(object);
}

/* ---- putting in and taking out */

/* The Fraction of a number, or a TypeError. */
static PyObject *fraction_of(PyObject *operand) {
    PyObject *type = own(FRACTION), *number = type ? indexed(operand) : NULL, *fraction = NULL;
    if (number && (PyLong_Check(number) || IS_RATIO(number) || is_fraction(number))) fraction = PyObject_CallFunctionObjArgs(type, number, NULL);
    else if (number) PyErr_Format(PyExc_TypeError, "a Total takes a Ratio, an int or a Fraction, not '%.200s'", Py_TYPE(number)->tp_name);
    Py_XDECREF(number);
    return fraction;
}

/* Adds a number to the Fraction beside the slots, or subtracts it. */
static int is_changed_beside(total_object *self, PyObject *number, int is_added) {
    PyObject *fraction = fraction_of(number), *before, *after;
    if (fraction && !self->wide) self->wide = PyObject_CallNoArgs((PyObject *) Py_TYPE(fraction));
    before = self->wide;
    Py_XINCREF(before);
    after = !fraction || !before ? NULL : is_added ? PyNumber_Add(before, fraction) : PyNumber_Subtract(before, fraction);
    Py_XDECREF(fraction);
    Py_XDECREF(before);
    if (!after) return 0;
    Py_SETREF(self->wide, after);
    self->wide_count += is_added ? 1 : -1;
    return 1;
}

/* Puts the number into the total, or takes it out, and says whether it is a fraction. */
static int is_changed(total_object *self, PyObject *number, int is_added) {
    ratio_i64 value;
    if (!is_read(number, &value)) return is_changed_beside(self, number, is_added);
    do {
        if (is_added) ratio_total_add_i64(&value, 1, &self->header, 1, self->slots, self->length);
        else ratio_total_subtract_i64(&value, 1, &self->header, 1, self->slots, self->length);
        if (self->header.code == RATIO_ANSWERED) return 1;
    } while (self->header.code == RATIO_MORE_ROOM && is_moved(self, 0));
    if (self->header.code == RATIO_MORE_ROOM) PyErr_NoMemory();
    return self->header.code == RATIO_NOT_HELD && is_changed_beside(self, number, is_added);
}

enum { BLOCK = 512 };

uint32_t add_column(PyObject *total, const int64_t *numers, const int64_t *denoms, size_t length, size_t *place) {
    total_object *self = (total_object *) total;
    ratio_i64 values[BLOCK];
    *place = 0;
    while (*place < length) {
        const size_t count = length - *place < BLOCK ? length - *place : BLOCK;
        size_t i;
        for (i = 0; i < count; i++) {
            values[i].numer = numers[*place + i];
            values[i].denom = denoms[*place + i];
        }
        ratio_total_add_i64(values, count, &self->header, 1, self->slots, self->length);
        *place += self->header.done;
        if (self->header.code != RATIO_ANSWERED && !(self->header.code == RATIO_MORE_ROOM && is_moved(self, 0))) return self->header.code;
    }
    return RATIO_ANSWERED;
}

static PyObject *add(PyObject *self, PyObject *number) {
    if (!is_changed((total_object *) self, number, 1)) return NULL;
    Py_RETURN_NONE;
}

static PyObject *take_out(PyObject *self, PyObject *number) {
    if (!is_changed((total_object *) self, number, 0)) return NULL;
    Py_RETURN_NONE;
}

static PyObject *new(PyTypeObject *type, PyObject *operands, PyObject *names) {
    static char *words[] = {"iterable", NULL};
    PyObject *iterable = NULL, *iterator, *number, *total;
    if (!PyArg_ParseTupleAndKeywords(operands, names, "|O:Total", words, &iterable)) return NULL;
    total = made_total(type);
    if (!total || !iterable) return total;
    iterator = PyObject_GetIter(iterable);
    while (iterator && (number = PyIter_Next(iterator))) {
        is_changed((total_object *) total, number, 1);
        Py_DECREF(number);
        if (PyErr_Occurred()) break;
    }
    Py_XDECREF(iterator);
    if (PyErr_Occurred()) Py_CLEAR(total);
    return total;
}

/* ---- merging */

/* The slots of the total, with those of another one put in or taken out, and the Fraction beside them. NULL is an error. */
static total_object *merged(const total_object *self, const total_object *other, int is_added) {
    total_object *both = (total_object *) made_total(&total_type);
    if (!both) return NULL;
    if (!is_moved(both, taken(self) + taken(other))) {
        PyErr_NoMemory();
        goto fails;
    }
    ratio_total_merge_i64(self->slots, self->length, self->header.count, &both->header, 1, both->slots, both->length);
    if (is_added) ratio_total_merge_i64(other->slots, other->length, other->header.count, &both->header, 1, both->slots, both->length);
    else ratio_total_unmerge_i64(other->slots, other->length, other->header.count, &both->header, 1, both->slots, both->length);
    if (both->header.code != RATIO_ANSWERED) {
        PyErr_SetString(PyExc_OverflowError, "the merged total has a numerator or a count that is too great");
        goto fails;
    }
    Py_XINCREF(self->wide);
    both->wide = self->wide;
    both->wide_count = self->wide_count;
    if (other->wide && !is_changed_beside(both, other->wide, is_added)) goto fails;
    both->wide_count = self->wide_count + (is_added ? other->wide_count : -other->wide_count);
    return both;
fails:
    Py_DECREF(both);
    return NULL;
}

/* Gives the total what is in the other one, which then ends. */
static void take_over(total_object *self, total_object *other) {
    ratio_slot_i64 *const slots = self->slots;
    PyObject *const wide = self->wide;
    self->header = other->header;
    self->slots = other->slots;
    self->length = other->length;
    self->wide = other->wide;
    self->wide_count = other->wide_count;
    other->slots = slots;
    other->wide = wide;
    Py_DECREF(other);
}

static PyObject *merge_in_place(PyObject *self, PyObject *other, int is_added) {
    total_object *both;
    if (!PyObject_TypeCheck(other, &total_type)) Py_RETURN_NOTIMPLEMENTED;
    both = merged((total_object *) self, (total_object *) other, is_added);
    if (!both) return NULL;
    take_over((total_object *) self, both);
    Py_INCREF(self);
    return self;
}

static PyObject *put_in_total(PyObject *self, PyObject *other) {
    return merge_in_place(self, other, 1);
}

static PyObject *take_out_total(PyObject *self, PyObject *other) {
    return merge_in_place(self, other, 0);
}

/* ---- reading */

/* The numerators and denominators of the slots and of the Fraction beside them, summed by exact.py. */
static PyObject *sum_of_parts(const total_object *self) {
    PyObject *summed = own(EXACT_SUM), *parts = PyList_New(0), *bits = PyLong_FromLong(64), *answer = NULL;
    size_t i;
    int is_whole = summed && parts && bits;
    for (i = 0; is_whole && i < self->length; i++) {
        const ratio_slot_i64 *slot = &self->slots[i];
        PyObject *high, *low, *shifted, *numer, *part;
        if (slot->denom == 0) continue;
        high = PyLong_FromLongLong(slot->numer.high);
        low = PyLong_FromUnsignedLongLong(slot->numer.low);
        shifted = high && low ? PyNumber_Lshift(high, bits) : NULL;
        numer = shifted ? PyNumber_Or(shifted, low) : NULL;
        part = numer ? Py_BuildValue("(OK)", numer, (unsigned long long) slot->denom) : NULL;
        is_whole = part && PyList_Append(parts, part) == 0;
        Py_XDECREF(high);
        Py_XDECREF(low);
        Py_XDECREF(shifted);
        Py_XDECREF(numer);
        Py_XDECREF(part);
    }
    if (is_whole) answer = PyObject_CallFunctionObjArgs(summed, parts, self->wide ? self->wide : Py_None, NULL);
    Py_XDECREF(parts);
    Py_XDECREF(bits);
    return answer;
}

/* The sum divided by a count above 0, by the library, or a code if it has no answer. */
static ratio_answer_i64 quotient_in_slots(const total_object *self, int64_t count) {
    const size_t length = self->length;
    const uint64_t digits = ratio_total_digits_i64(self->slots, length);
    ratio_answer_i64 answer = {RATIO_MORE_ROOM, {0, 0}};
    uint64_t *room = PyMem_RawMalloc(digits * sizeof *room);
    ratio_slot_i64 *slots = copied(self);
    if (room && slots) {
        Py_BEGIN_ALLOW_THREADS
        ratio_total_mean_i64(slots, length, count, room, digits, &answer, 1);
        Py_END_ALLOW_THREADS
    }
    PyMem_RawFree(room);
    PyMem_RawFree(slots);
    return answer;
}

static PyObject *quotient(const total_object *self, int64_t count) {
    PyObject *sum, *divisor, *answer;
    if (!self->wide) {
        const ratio_answer_i64 quick = quotient_in_slots(self, count);
        if (quick.code == RATIO_ANSWERED) return made(&ratio_type, quick.value);
    }
    sum = sum_of_parts(self);
    divisor = PyLong_FromLongLong(count);
    answer = sum && divisor ? PyNumber_TrueDivide(sum, divisor) : NULL;
    Py_XDECREF(sum);
    Py_XDECREF(divisor);
    return narrowed(&ratio_type, answer);
}

static int64_t count_of(const total_object *self) {
    return self->header.count + self->wide_count;
}

METHOD(sum) {
    return quotient((total_object *) self, 1);
}

METHOD(mean) {
    const int64_t count = count_of((total_object *) self);
    if (count > 0) return quotient((total_object *) self, count);
    PyErr_SetString(PyExc_ZeroDivisionError, "the mean of a Total whose count is not above 0");
    return NULL;
}

PROPERTY(count) {
    return PyLong_FromLongLong(count_of((total_object *) self));
}

static uint64_t greater(uint64_t x, uint64_t y) {
    return x > y ? x : y;
}

/* The sum as a decimal, by the library, or NULL if it has no answer. It first tries the pass that needs no common denominator. */
static PyObject *decimal_in_slots(const total_object *self, uint32_t places) {
    const size_t length = self->length;
    const uint64_t digits = greater(ratio_total_print_digits_i64(self->slots, length, places), places / 19 * 9 + 35);
    const uint64_t most = greater(ratio_total_print_bytes_i64(self->slots, length, places), (places / 19 * 2 + 8) * 20 + places + 3);
    uint64_t *room = PyMem_RawMalloc(digits * sizeof *room);
    uint8_t *bytes = PyMem_RawMalloc(most);
    ratio_slot_i64 *slots = copied(self);
    ratio_text place = {RATIO_MORE_ROOM, {0, 0}};
    PyObject *text = NULL;
    if (room && bytes && slots) {
        Py_BEGIN_ALLOW_THREADS
        ratio_total_print_bounded_i64(slots, length, places, RATIO_RULE_HALF_EVEN, room, digits, bytes, most, &place, 1);
        if (place.code == RATIO_NOT_HELD) ratio_total_print_i64(slots, length, places, RATIO_RULE_HALF_EVEN, room, digits, bytes, most, &place, 1);
        Py_END_ALLOW_THREADS
        if (place.code == RATIO_ANSWERED) text = PyUnicode_FromStringAndSize((const char *) bytes + place.span.start, (Py_ssize_t) (place.span.end - place.span.start));
    }
    PyMem_RawFree(room);
    PyMem_RawFree(bytes);
    PyMem_RawFree(slots);
    return text;
}

static PyObject *decimal(PyObject *self, PyObject *operand) {
    PyObject *number = PyNumber_Index(operand), *text = NULL, *sum, *rounded;
    const long places = number ? PyLong_AsLong(number) : 0;
    Py_XDECREF(number);
    if (PyErr_Occurred() && !PyErr_ExceptionMatches(PyExc_OverflowError)) return NULL;
    if (places < 0 || places > MOST_PLACES) {
        PyErr_Format(PyExc_ValueError, "places must be from 0 to %d", MOST_PLACES);
        return NULL;
    }
    if (!((total_object *) self)->wide) text = decimal_in_slots((total_object *) self, (uint32_t) places);
    if (text || PyErr_Occurred()) return text;
    sum = sum_of_parts((total_object *) self);
    rounded = sum ? own(EXACT_DECIMAL) : NULL;
    text = rounded ? PyObject_CallFunction(rounded, "Ol", sum, places) : NULL;
    Py_XDECREF(sum);
    return text;
}

static PyObject *as_source(PyObject *self) {
    return PyUnicode_FromFormat("<%s of %lld fractions>", Py_TYPE(self)->tp_name, (long long) count_of((total_object *) self));
}

/* ---- their names */

static PyNumberMethods operators = {.nb_inplace_add = put_in_total, .nb_inplace_subtract = take_out_total};

static PyMethodDef methods[] = {
    {"add", add, METH_O, "Puts a Ratio, an int or a Fraction in."},
    {"take_out", take_out, METH_O, "Takes a Ratio, an int or a Fraction out, as from a window that moves."},
    {"sum", sum, METH_NOARGS, "The sum in lowest terms: a Ratio, or a Fraction if it does not fit 64 bits."},
    {"mean", mean, METH_NOARGS, "The sum divided by the count. ZeroDivisionError if the count is not above 0."},
    {"decimal", decimal, METH_O, "The sum as a decimal with 0 to 16383 places, rounded once. A half goes to the even neighbour."},
    {NULL, NULL, 0, NULL},
};

static PyGetSetDef properties[] = {
    {"count", count, NULL, "How many fractions were put in, less those taken out.", NULL},
    {NULL, NULL, NULL, NULL, NULL},
};

PyTypeObject total_type = {
    PyVarObject_HEAD_INIT(NULL, 0)
    .tp_name = "bakhsney.Total",
    .tp_doc = "Total(iterable=())\n--\n\nA sum of fractions that loses nothing. `+=` puts another Total in, and `-=` takes it out.",
    .tp_basicsize = sizeof(total_object),
    .tp_flags = Py_TPFLAGS_DEFAULT,
    .tp_new = new,
    .tp_dealloc = end,
    .tp_repr = as_source,
    .tp_as_number = &operators,
    .tp_methods = methods,
    .tp_getset = properties,
};
