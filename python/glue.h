/* What the files of the extension share. */
#ifndef BAKHSNEY_GLUE_H
#define BAKHSNEY_GLUE_H

#define PY_SSIZE_T_CLEAN
#include <Python.h>

#define RATIO_CHECKED /* the calls here always get arrays of the lengths that they require */
#include "ratio.h"

#include <string.h>

typedef struct {
    PyObject_HEAD
    ratio_i64 value;
} ratio_object;

extern PyTypeObject ratio_type, total_type;
extern PyMethodDef column_methods[];

/* The objects of Python that the extension uses. A process may have several interpreters, and each has its own ones. */
enum own_object { FRACTION, RATIONAL, EXACT_SUM, EXACT_DECIMAL, NUMERATOR, DENOMINATOR, OWN_OBJECTS };

/* The object of the interpreter that runs, without a new reference. NULL is an error, as where the interpreter ends. */
PyObject *own(enum own_object which);

/* Whether it is a Fraction of this interpreter. */
int is_fraction(PyObject *object);

#define IS_RATIO(object) PyObject_TypeCheck(object, &ratio_type)
#define VALUE(object) (((ratio_object *) (object))->value)

#define METHOD(name) static PyObject *name(PyObject *self, PyObject *Py_UNUSED(unused))
#define WITH_NAMES(name) static PyObject *name(PyObject *self, PyObject *operands, PyObject *names)
#define PROPERTY(name) static PyObject *name(PyObject *self, void *Py_UNUSED(unused))

/* A new Ratio. */
PyObject *made(PyTypeObject *type, ratio_i64 value);

/* Reads an integer, a Fraction, a Ratio of a subclass, or a Rational of another type that has __index__, and says whether it fits 64 bits. */
int is_other_read(PyObject *object, ratio_i64 *value);

/* The same, also for a Ratio. */
static inline int is_read(PyObject *object, ratio_i64 *value) {
    if (Py_TYPE(object) != &ratio_type) return is_other_read(object, value);
    *value = VALUE(object);
    return 1;
}

/* The object, or the int that its __index__ gives: the arithmetic of another type may overflow. Where that is a TypeError, as of an array of
 * numpy, the object stays; where it is another error, the result is NULL. */
PyObject *indexed(PyObject *object);

/* The operand, with a Fraction in place of a Ratio, and an int in place of a Rational that has __index__. */
PyObject *widened(PyObject *object);

/* The answer, with a Ratio in place of a Fraction that fits. It takes the reference, which may be NULL for an error. */
PyObject *narrowed(PyTypeObject *type, PyObject *answer);

/* A new Total, which is empty. */
PyObject *made_total(PyTypeObject *type);

/* Puts a column into a Total that no other thread has. Python's lock need not be held. It gives RATIO_ANSWERED, RATIO_MORE_ROOM where memory
 * is wanting, or why the item at `place` did not go in. */
uint32_t add_column(PyObject *total, const int64_t *numers, const int64_t *denoms, size_t length, size_t *place);

#endif
