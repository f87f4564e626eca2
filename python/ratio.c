/* Exact fractions for Python, over the proved calls of ratio.h. README.md says what the package gives.
 *
 * A Ratio is a fraction in lowest terms whose numbers fit 64 bits. Where an operand or a result does not fit, or an operand is no fraction,
 * Python's own Fraction answers, and its answer becomes a Ratio where it fits. So each value is Fraction's, and no number is refused.
 */
#include "glue.h"

/* ---- the objects of an interpreter */

static struct PyModuleDef module;

/* A member of a module, which __init__.py has imported, or a name alone. */
static PyObject *found(enum own_object which) {
    static const struct { const char *module, *name; } places[] = {
        [FRACTION] = {"fractions", "Fraction"}, [RATIONAL] = {"numbers", "Rational"}, [EXACT_SUM] = {"bakhsney.exact", "total"},
        [EXACT_DECIMAL] = {"bakhsney.exact", "decimal"}, [NUMERATOR] = {NULL, "numerator"}, [DENOMINATOR] = {NULL, "denominator"},
    };
    PyObject *origin, *object;
    if (!places[which].module) return PyUnicode_InternFromString(places[which].name);
    origin = PyImport_ImportModule(places[which].module);
    object = origin ? PyObject_GetAttrString(origin, places[which].name) : NULL;
    Py_XDECREF(origin);
    return object;
}

PyObject *own(enum own_object which) {
    PyObject *self = PyState_FindModule(&module), **objects = self ? PyModule_GetState(self) : NULL;
    if (objects && !objects[which]) objects[which] = found(which);
    if (objects) return objects[which];
    PyErr_SetString(PyExc_RuntimeError, "bakhsney has ended with this interpreter");
    return NULL;
}

int is_fraction(PyObject *object) {
    PyObject *fraction = own(FRACTION);
    if (fraction) return PyObject_TypeCheck(object, (PyTypeObject *) fraction);
    PyErr_Clear();
    return 0;
}

/* Whether another type than Python's and ours gives an integer by __index__. */
static int has_index(PyObject *object) {
    return !PyLong_Check(object) && PyIndex_Check(object) && !IS_RATIO(object) && !is_fraction(object);
}

/* The same for a numbers.Rational, such as an integer of numpy, which equals the int and has its hash. */
static int is_other_whole(PyObject *object) {
    PyObject *rational;
    int is_rational;
    if (!has_index(object)) return 0;
    rational = own(RATIONAL);
    is_rational = rational && PyObject_IsInstance(object, rational) > 0;
    PyErr_Clear();
    return is_rational;
}

PyObject *indexed(PyObject *object) {
    if (has_index(object)) {
        PyObject *whole = PyNumber_Index(object);
        if (whole || !PyErr_ExceptionMatches(PyExc_TypeError)) return whole;
        PyErr_Clear();
    }
    Py_INCREF(object);
    return object;
}

/* ---- reading and making */

/* Memory of Ratios that have ended, which the next ones get. Python's lock guards it. */
enum { MOST_KEPT = 32 };
static PyObject *kept[MOST_KEPT];
static int kept_count;

PyObject *made(PyTypeObject *type, ratio_i64 value) {
    PyObject *self;
    if (type != &ratio_type) self = type->tp_alloc(type, 0);
    else if (kept_count > 0) self = PyObject_Init(kept[--kept_count], type);
    else self = (PyObject *) PyObject_New(ratio_object, type);
    if (self) VALUE(self) = value;
    return self;
}

static void end(PyObject *self) {
    if (Py_TYPE(self) == &ratio_type && kept_count < MOST_KEPT) kept[kept_count++] = self;
    else Py_TYPE(self)->tp_free(self);
}

/* Reads an integer, and says whether it is one of 64 bits. */
static int is_whole_read(PyObject *object, int64_t *number) {
    int overflow;
    *number = PyLong_AsLongLongAndOverflow(object, &overflow);
    if (*number != -1 || !PyErr_Occurred()) return !overflow;
    PyErr_Clear();
    return 0;
}

/* Reads one of the two numbers of a Fraction. */
static int is_part_read(PyObject *fraction, enum own_object which, int64_t *number) {
    PyObject *name = own(which), *part = name ? PyObject_GetAttr(fraction, name) : NULL;
    const int is_read = part && is_whole_read(part, number);
    PyErr_Clear();
    Py_XDECREF(part);
    return is_read;
}

/* Reads the integer that __index__ gives. */
static int is_index_read(PyObject *object, ratio_i64 *value) {
    PyObject *whole = PyNumber_Index(object);
    const int is_read = whole && is_whole_read(whole, &value->numer);
    value->denom = 1;
    PyErr_Clear();
    Py_XDECREF(whole);
    return is_read;
}

int is_other_read(PyObject *object, ratio_i64 *value) {
    ratio_answer_i64 answer;
    if (PyLong_Check(object)) {
        value->denom = 1;
        return is_whole_read(object, &value->numer);
    }
    if (IS_RATIO(object)) {
        *value = VALUE(object);
        return 1;
    }
    if (PyFloat_CheckExact(object) || PyUnicode_CheckExact(object)) return 0;
    if (is_other_whole(object)) return is_index_read(object, value);
    if (!is_fraction(object)) return 0;
    if (!is_part_read(object, NUMERATOR, &value->numer) || !is_part_read(object, DENOMINATOR, &value->denom)) return 0;
    ratio_reduce_i64(value, 1, &answer, 1);
    *value = answer.value;
    return answer.code == RATIO_ANSWERED;
}

/* Reads exactly the value of a float. */
static int is_float_read(PyObject *object, ratio_i64 *value) {
    ratio_answer_i64 answer;
    double number;
    if (!PyFloat_Check(object)) return 0;
    number = PyFloat_AS_DOUBLE(object);
    ratio_from_f64_i64(&number, 1, &answer, 1);
    *value = answer.value;
    return answer.code == RATIO_ANSWERED;
}

/* Reads a text of digits, signs, a slash, a point and an exponent. Other texts, such as 1_000 and those with spaces, are left to Fraction. */
static int is_text_read(PyObject *object, ratio_i64 *value) {
    ratio_answer_i64 answer;
    ratio_span all = {0, 0};
    Py_ssize_t length;
    const char *text;
    size_t sign;
    int is_decimal;
    if (!PyUnicode_Check(object)) return 0;
    text = PyUnicode_AsUTF8AndSize(object, &length);
    if (!text) {
        PyErr_Clear();
        return 0;
    }
    sign = *text == '-' || *text == '+';
    is_decimal = strpbrk(text, ".eE") != NULL;
    if (sign + strspn(text + sign, is_decimal ? "0123456789+-.eE" : "0123456789/") != (size_t) length) return 0;
    all.end = (size_t) length;
    if (is_decimal) ratio_read_decimal_i64((const uint8_t *) text, all.end, &all, 1, &answer, 1);
    else ratio_read_i64((const uint8_t *) text, all.end, &all, 1, &answer, 1);
    *value = answer.value;
    return answer.code == RATIO_ANSWERED;
}

static PyObject *nearest_float(PyObject *self) {
    ratio_float answer;
    ratio_to_f64_i64(&VALUE(self), 1, &answer, 1);
    return PyFloat_FromDouble(answer.value);
}

/* ---- what Fraction does */

PyObject *widened(PyObject *object) {
    PyObject *fraction;
    if (is_other_whole(object)) return indexed(object);
    if (IS_RATIO(object)) {
        fraction = own(FRACTION);
        return fraction ? PyObject_CallFunction(fraction, "LL", (long long) VALUE(object).numer, (long long) VALUE(object).denom) : NULL;
    }
    Py_INCREF(object);
    return object;
}

PyObject *narrowed(PyTypeObject *type, PyObject *answer) {
    ratio_i64 value;
    if (!answer || !is_fraction(answer) || !is_read(answer, &value)) return answer;
    Py_DECREF(answer);
    return made(type, value);
}

/* What a method of Fraction says of the Ratio and the operands. */
static PyObject *by_fraction(PyObject *self, const char *method, PyObject *operands) {
    PyObject *fraction = widened(self), *bound = fraction ? PyObject_GetAttrString(fraction, method) : NULL;
    PyObject *answer = bound ? PyObject_Call(bound, operands, NULL) : NULL;
    Py_XDECREF(fraction);
    Py_XDECREF(bound);
    return narrowed(&ratio_type, answer);
}

static PyObject *alone_by_fraction(PyObject *self, const char *method) {
    PyObject *none = PyTuple_New(0), *answer = none ? by_fraction(self, method, none) : NULL;
    Py_XDECREF(none);
    return answer;
}

static PyObject *with_by_fraction(PyObject *self, const char *method, PyObject *operand) {
    PyObject *wide = widened(operand), *one = wide ? PyTuple_Pack(1, wide) : NULL;
    PyObject *answer = one ? by_fraction(self, method, one) : NULL;
    Py_XDECREF(wide);
    Py_XDECREF(one);
    return answer;
}

/* ---- operators */

/* An operator: the call of the library where there is one, what does it for floats, and Fraction's methods. */
typedef struct {
    enum ratio_return (*call)(const ratio_pair_i64 *asked, size_t asked_len, ratio_answer_i64 *answers, size_t answers_len);
    binaryfunc of_floats;
    const char *method, *reflected;
} operation;

/* The operator where the library has no answer. A float makes both operands floats. */
static PyObject *otherwise(const operation *self, PyObject *left, PyObject *right) {
    PyObject *ratio = IS_RATIO(left) ? left : right, *other = ratio == left ? right : left, *number, *answer;
    if (!self->of_floats || !PyFloat_CheckExact(other)) return with_by_fraction(ratio, ratio == left ? self->method : self->reflected, other);
    number = nearest_float(ratio);
    answer = !number ? NULL : ratio == left ? self->of_floats(number, right) : self->of_floats(left, number);
    Py_XDECREF(number);
    return answer;
}

static PyObject *of_two(const operation *self, PyObject *left, PyObject *right) {
    ratio_pair_i64 pair;
    ratio_answer_i64 answer;
    if (is_read(left, &pair.left) && is_read(right, &pair.right)) {
        self->call(&pair, 1, &answer, 1);
        if (answer.code == RATIO_ANSWERED) return made(&ratio_type, answer.value);
    }
    return otherwise(self, left, right);
}

/* The remainder of the library has the sign of the left operand, and Python's that of the right one. */
static enum ratio_return floor_remainder(const ratio_pair_i64 *asked, size_t asked_len, ratio_answer_i64 *answers, size_t answers_len) {
    const enum ratio_return returned = ratio_rem_i64(asked, asked_len, answers, answers_len);
    if (answers->code == RATIO_ANSWERED && answers->value.numer != 0 && (answers->value.numer < 0) != (asked->right.numer < 0)) {
        const ratio_pair_i64 pair = {answers->value, asked->right};
        return ratio_add_i64(&pair, 1, answers, 1);
    }
    return returned;
}

static PyObject *add(PyObject *left, PyObject *right) {
    static const operation self = {ratio_add_i64, PyNumber_Add, "__add__", "__radd__"};
    return of_two(&self, left, right);
}

static PyObject *subtract(PyObject *left, PyObject *right) {
    static const operation self = {ratio_sub_i64, PyNumber_Subtract, "__sub__", "__rsub__"};
    return of_two(&self, left, right);
}

static PyObject *multiply(PyObject *left, PyObject *right) {
    static const operation self = {ratio_mul_i64, PyNumber_Multiply, "__mul__", "__rmul__"};
    return of_two(&self, left, right);
}

static PyObject *divide(PyObject *left, PyObject *right) {
    static const operation self = {ratio_div_i64, PyNumber_TrueDivide, "__truediv__", "__rtruediv__"};
    return of_two(&self, left, right);
}

static PyObject *remainder_of(PyObject *left, PyObject *right) {
    static const operation self = {floor_remainder, PyNumber_Remainder, "__mod__", "__rmod__"};
    return of_two(&self, left, right);
}

/* The quotient need not fit before it is rounded down. */
static PyObject *floor_divide(PyObject *left, PyObject *right) {
    static const operation self = {NULL, PyNumber_FloorDivide, "__floordiv__", "__rfloordiv__"};
    ratio_operands_i64 asked;
    ratio_answer_i64 answer;
    if (is_read(left, &asked.left) && is_read(right, &asked.right)) {
        asked.parts = 1;
        asked.rule = RATIO_RULE_FLOOR;
        ratio_div_round_to_i64(&asked, 1, &answer, 1);
        if (answer.code == RATIO_ANSWERED) return PyLong_FromLongLong(answer.value.numer);
    }
    return otherwise(&self, left, right);
}

static int is_inexact(PyObject *object) {
    return PyFloat_Check(object) || PyComplex_Check(object);
}

static PyObject *divide_with_rest(PyObject *left, PyObject *right) {
    static const operation self = {NULL, PyNumber_Divmod, "__divmod__", "__rdivmod__"};
    PyObject *quotient, *rest, *both;
    if (is_inexact(left) || is_inexact(right)) return otherwise(&self, left, right);
    quotient = floor_divide(left, right);
    if (!quotient || quotient == Py_NotImplemented) return quotient;
    rest = remainder_of(left, right);
    both = rest ? PyTuple_Pack(2, quotient, rest) : NULL;
    Py_DECREF(quotient);
    Py_XDECREF(rest);
    return both;
}

static PyObject *power(PyObject *base, PyObject *exponent, PyObject *modulus) {
    static const operation self = {NULL, NULL, "__pow__", "__rpow__"};
    ratio_power_i64 asked;
    ratio_answer_i64 answer;
    ratio_i64 whole;
    if (modulus != Py_None) Py_RETURN_NOTIMPLEMENTED;
    if (IS_RATIO(base) && is_read(exponent, &whole) && whole.denom == 1 && whole.numer >= INT32_MIN && whole.numer <= INT32_MAX) {
        asked.base = VALUE(base);
        asked.exponent = (int32_t) whole.numer;
        ratio_pow_i64(&asked, 1, &answer, 1);
        if (answer.code == RATIO_ANSWERED) return made(&ratio_type, answer.value);
    }
    return otherwise(&self, base, exponent);
}

static PyObject *negative(PyObject *self) {
    ratio_answer_i64 answer;
    ratio_neg_i64(&VALUE(self), 1, &answer, 1);
    return answer.code == RATIO_ANSWERED ? made(&ratio_type, answer.value) : alone_by_fraction(self, "__neg__");
}

static PyObject *absolute(PyObject *self) {
    ratio_answer_i64 answer;
    ratio_abs_i64(&VALUE(self), 1, &answer, 1);
    return answer.code == RATIO_ANSWERED ? made(&ratio_type, answer.value) : alone_by_fraction(self, "__abs__");
}

static PyObject *positive(PyObject *self) {
    return made(&ratio_type, VALUE(self));
}

static int is_not_zero(PyObject *self) {
    return VALUE(self).numer != 0;
}

static PyObject *compare(PyObject *self, PyObject *other, int order) {
    static const char *const methods[] = {"__lt__", "__le__", "__eq__", "__ne__", "__gt__", "__ge__"};
    ratio_pair_i64 pair;
    ratio_order answer;
    pair.left = VALUE(self);
    if (!is_read(other, &pair.right) && !is_float_read(other, &pair.right)) return with_by_fraction(self, methods[order], other);
    ratio_compare_i64(&pair, 1, &answer, 1);
    Py_RETURN_RICHCOMPARE(answer.order, 0, order);
}

/* ---- the hash, which is the same for equal numbers of all of Python's types */

static Py_hash_t hash(PyObject *self) {
    ratio_residue answer;
    ratio_hash_mod61_i64(&VALUE(self), 1, &answer, 1);
    return (Py_hash_t) answer.hash;
}

/* ---- texts */

static PyObject *as_text(PyObject *self) {
    uint8_t bytes[RATIO_ROOM_I64];
    ratio_text place;
    ratio_print_i64(&VALUE(self), 1, bytes, sizeof bytes, &place, 1);
    return PyUnicode_FromStringAndSize((const char *) bytes, (Py_ssize_t) place.span.end);
}

static PyObject *as_source(PyObject *self) {
    const char *point = strrchr(Py_TYPE(self)->tp_name, '.');
    return PyUnicode_FromFormat("%s(%lld, %lld)", point ? point + 1 : Py_TYPE(self)->tp_name, (long long) VALUE(self).numer, (long long) VALUE(self).denom);
}

/* Reads .0f to .38f. */
static int is_places_read(PyObject *format, uint32_t *places) {
    Py_ssize_t length;
    const char *text = PyUnicode_AsUTF8AndSize(format, &length);
    PyErr_Clear();
    if (!text || length < 3 || length > 4 || text[0] != '.' || text[length - 1] != 'f' || strspn(text + 1, "0123456789") != (size_t) length - 2) return 0;
    *places = (uint32_t) (length == 3 ? text[1] - '0' : 10 * (text[1] - '0') + text[2] - '0');
    return *places <= 38 && (length == 3 || text[1] != '0');
}

/* As Fraction does, a number below 0 that is rounded to 0 keeps its sign. */
static PyObject *decimal(ratio_i64 value, uint32_t places) {
    const ratio_decimal_i64 asked = {value, places, RATIO_RULE_HALF_EVEN};
    uint8_t bytes[1 + RATIO_DECIMAL_ROOM_I64] = "-";
    ratio_text place;
    int from;
    ratio_print_decimal_i64(&asked, 1, bytes + 1, sizeof bytes - 1, &place, 1);
    from = !(value.numer < 0 && bytes[1] != '-');
    return PyUnicode_FromStringAndSize((const char *) bytes + from, (Py_ssize_t) place.span.end + 1 - from);
}

static PyObject *format(PyObject *self, PyObject *operand) {
    uint32_t places;
    if (!PyUnicode_Check(operand)) return with_by_fraction(self, "__format__", operand);
    if (PyUnicode_GET_LENGTH(operand) == 0) return PyObject_Str(self);
    return is_places_read(operand, &places) ? decimal(VALUE(self), places) : with_by_fraction(self, "__format__", operand);
}

/* ---- other methods */

typedef enum ratio_return one_call(const ratio_i64 *asked, size_t asked_len, ratio_answer_i64 *answers, size_t answers_len);

/* A whole number beside a fraction of 64 bits always fits. */
static PyObject *whole_of(PyObject *self, one_call *call) {
    ratio_answer_i64 answer;
    call(&VALUE(self), 1, &answer, 1);
    return PyLong_FromLongLong(answer.value.numer);
}

static PyObject *truncated(PyObject *self) {
    return whole_of(self, ratio_trunc_i64);
}

METHOD(to_trunc) { return truncated(self); }
METHOD(to_floor) { return whole_of(self, ratio_floor_i64); }
METHOD(to_ceil) { return whole_of(self, ratio_ceil_i64); }
METHOD(to_complex) { return PyObject_CallFunction((PyObject *) &PyComplex_Type, "N", nearest_float(self)); }
METHOD(conjugate) { return positive(self); }
METHOD(is_integer) { return PyBool_FromLong(VALUE(self).denom == 1); }
METHOD(as_integer_ratio) { return Py_BuildValue("(LL)", (long long) VALUE(self).numer, (long long) VALUE(self).denom); }
METHOD(reduce) { return Py_BuildValue("O(LL)", Py_TYPE(self), (long long) VALUE(self).numer, (long long) VALUE(self).denom); }

static PyObject *copy(PyObject *self, PyObject *Py_UNUSED(memory)) {
    if (Py_TYPE(self) != &ratio_type) return PyObject_CallFunction((PyObject *) Py_TYPE(self), "LL", (long long) VALUE(self).numer, (long long) VALUE(self).denom);
    Py_INCREF(self);
    return self;
}

/* round(x) is an int, and round(x, places) a Ratio. */
static PyObject *rounded_to(PyObject *self, PyObject *operand) {
    ratio_multiple_i64 asked = {VALUE(self), 1, RATIO_RULE_HALF_EVEN};
    ratio_answer_i64 answer;
    int64_t places = 0;
    if (operand != Py_None && !(PyLong_Check(operand) && is_whole_read(operand, &places) && places >= 0 && places <= 18)) return with_by_fraction(self, "__round__", operand);
    for (; places > 0; places--) asked.parts *= 10;
    ratio_round_to_i64(&asked, 1, &answer, 1);
    if (answer.code != RATIO_ANSWERED) return with_by_fraction(self, "__round__", operand);
    return operand == Py_None ? PyLong_FromLongLong(answer.value.numer) : made(&ratio_type, answer.value);
}

static PyObject *limited_to(PyObject *self, PyObject *operand) {
    ratio_bounded_i64 asked = {VALUE(self), 0};
    ratio_answer_i64 answer = {RATIO_NOT_HELD, {0, 0}};
    if (PyLong_Check(operand) && is_whole_read(operand, &asked.most)) ratio_nearest_i64(&asked, 1, &answer, 1);
    return answer.code == RATIO_ANSWERED ? made(&ratio_type, answer.value) : with_by_fraction(self, "limit_denominator", operand);
}

WITH_NAMES(rounded) {
    static char *words[] = {"ndigits", NULL};
    PyObject *operand = Py_None, *number, *answer;
    if (!PyArg_ParseTupleAndKeywords(operands, names, "|O:__round__", words, &operand)) return NULL;
    number = indexed(operand);
    answer = number ? rounded_to(self, number) : NULL;
    Py_XDECREF(number);
    return answer;
}

WITH_NAMES(limit_denominator) {
    static char *words[] = {"max_denominator", NULL};
    PyObject *operand = NULL, *number, *answer;
    if (!PyArg_ParseTupleAndKeywords(operands, names, "|O:limit_denominator", words, &operand)) return NULL;
    number = operand ? indexed(operand) : PyLong_FromLong(1000000);
    answer = number ? limited_to(self, number) : NULL;
    Py_XDECREF(number);
    return answer;
}

static PyObject *from_other(PyObject *type, const char *method, PyObject *operand) {
    PyObject *fraction = own(FRACTION), *number = fraction ? indexed(operand) : NULL;
    return narrowed((PyTypeObject *) type, number ? PyObject_CallMethod(fraction, method, "(N)", number) : NULL);
}

static PyObject *from_float(PyObject *type, PyObject *operand) {
    return from_other(type, "from_float", operand);
}

static PyObject *from_decimal(PyObject *type, PyObject *operand) {
    return from_other(type, "from_decimal", operand);
}

PROPERTY(numerator) { return PyLong_FromLongLong(VALUE(self).numer); }
PROPERTY(denominator) { return PyLong_FromLongLong(VALUE(self).denom); }
PROPERTY(real) { return positive(self); }
PROPERTY(imaginary) { (void) self; return PyLong_FromLong(0); }

/* ---- the constructor */

/* Reads what the constructor gets, and says whether the fraction fits. */
static int is_made(size_t count, PyObject *const *operands, ratio_i64 *value) {
    ratio_pair_i64 pair = {{0, 1}, {1, 1}};
    ratio_answer_i64 answer;
    if (count == 1) return is_read(operands[0], value) || is_float_read(operands[0], value) || is_text_read(operands[0], value);
    if (count == 2 && !(is_read(operands[0], &pair.left) && is_read(operands[1], &pair.right))) return 0;
    if (pair.left.denom == 1 && pair.right.denom == 1) {
        pair.left.denom = pair.right.numer;
        ratio_reduce_i64(&pair.left, 1, &answer, 1);
    } else {
        ratio_div_i64(&pair, 1, &answer, 1);
    }
    *value = answer.value;
    return count <= 2 && answer.code == RATIO_ANSWERED;
}

/* What Fraction makes of the operands, indexed, of which the last ones may have names. */
static PyObject *new_by_fraction(PyObject *const *operands, Py_ssize_t count, PyObject *names) {
    const Py_ssize_t all = count + (names ? PyTuple_GET_SIZE(names) : 0);
    PyObject *fraction = own(FRACTION), *numbers = fraction ? PyTuple_New(all) : NULL, *number, *answer;
    Py_ssize_t i;
    for (i = 0; numbers && i < all; i++) {
        number = indexed(operands[i]);
        if (number) PyTuple_SET_ITEM(numbers, i, number);
        else Py_CLEAR(numbers);
    }
    answer = numbers ? PyObject_Vectorcall(fraction, PySequence_Fast_ITEMS(numbers), (size_t) count, names) : NULL;
    Py_XDECREF(numbers);
    return narrowed(&ratio_type, answer);
}

/* The constructor of Ratio itself, without a tuple of the operands. */
static PyObject *new_quick(PyObject *Py_UNUSED(type), PyObject *const *operands, size_t count, PyObject *names) {
    ratio_i64 value;
    if (!names && is_made((size_t) PyVectorcall_NARGS(count), operands, &value)) return made(&ratio_type, value);
    return new_by_fraction(operands, PyVectorcall_NARGS(count), names);
}

static PyObject *new(PyTypeObject *type, PyObject *operands, PyObject *names) {
    PyObject *answer, *self;
    ratio_i64 value;
    if ((!names || PyDict_Size(names) == 0) && is_made((size_t) PyTuple_GET_SIZE(operands), PySequence_Fast_ITEMS(operands), &value)) return made(type, value);
    answer = PyObject_Call((PyObject *) &ratio_type, operands, names);
    if (!answer || type == &ratio_type || !IS_RATIO(answer)) return answer;
    self = made(type, VALUE(answer));
    Py_DECREF(answer);
    return self;
}

/* ---- their names */

static PyNumberMethods operators = {
    .nb_add = add, .nb_subtract = subtract, .nb_multiply = multiply, .nb_true_divide = divide, .nb_floor_divide = floor_divide, .nb_remainder = remainder_of,
    .nb_divmod = divide_with_rest, .nb_power = power, .nb_negative = negative, .nb_positive = positive, .nb_absolute = absolute, .nb_bool = is_not_zero,
    .nb_int = truncated, .nb_float = nearest_float,
};

static PyMethodDef methods[] = {
    {"limit_denominator", (PyCFunction) (void (*)(void)) limit_denominator, METH_VARARGS | METH_KEYWORDS, "The nearest fraction with a denominator of at most max_denominator."},
    {"as_integer_ratio", as_integer_ratio, METH_NOARGS, "The numerator and the denominator."},
    {"is_integer", is_integer, METH_NOARGS, "Whether the denominator is 1."},
    {"conjugate", conjugate, METH_NOARGS, "The number itself."},
    {"from_float", from_float, METH_O | METH_CLASS, "Exactly the value of a finite float."},
    {"from_decimal", from_decimal, METH_O | METH_CLASS, "Exactly the value of a finite Decimal."},
    {"__round__", (PyCFunction) (void (*)(void)) rounded, METH_VARARGS | METH_KEYWORDS, NULL},
    {"__trunc__", to_trunc, METH_NOARGS, NULL},
    {"__floor__", to_floor, METH_NOARGS, NULL},
    {"__ceil__", to_ceil, METH_NOARGS, NULL},
    {"__complex__", to_complex, METH_NOARGS, NULL},
    {"__format__", format, METH_O, NULL},
    {"__reduce__", reduce, METH_NOARGS, NULL},
    {"__copy__", copy, METH_NOARGS, NULL},
    {"__deepcopy__", copy, METH_O, NULL},
    {NULL, NULL, 0, NULL},
};

static PyGetSetDef properties[] = {
    {"numerator", numerator, NULL, "The numerator in lowest terms.", NULL},
    {"denominator", denominator, NULL, "The denominator in lowest terms, which is above 0.", NULL},
    {"real", real, NULL, "The number itself.", NULL},
    {"imag", imaginary, NULL, "0.", NULL},
    {NULL, NULL, NULL, NULL, NULL},
};

PyTypeObject ratio_type = {
    PyVarObject_HEAD_INIT(NULL, 0)
    .tp_name = "bakhsney.Ratio",
    .tp_doc = "Ratio(numerator=0, denominator=None)\n--\n\nAn exact fraction, made as fractions.Fraction is. What does not fit 64 bits becomes such a Fraction.",
    .tp_basicsize = sizeof(ratio_object),
    .tp_flags = Py_TPFLAGS_DEFAULT | Py_TPFLAGS_BASETYPE,
    .tp_new = new,
    .tp_dealloc = end,
    .tp_vectorcall = new_quick,
    .tp_as_number = &operators,
    .tp_richcompare = compare,
    .tp_hash = hash,
    .tp_str = as_text,
    .tp_repr = as_source,
    .tp_methods = methods,
    .tp_getset = properties,
};

/* ---- the module. Each interpreter has its own, and all share the types, which nothing changes. */

static int visit_own(PyObject *self, visitproc visit, void *arg) {
    PyObject **objects = PyModule_GetState(self);
    int which;
    for (which = 0; which < OWN_OBJECTS; which++) Py_VISIT(objects[which]);
    return 0;
}

static int let_go(PyObject *self) {
    PyObject **objects = PyModule_GetState(self);
    int which;
    for (which = 0; which < OWN_OBJECTS; which++) Py_CLEAR(objects[which]);
    return 0;
}

static void end_module(void *self) {
    let_go(self);
}

static struct PyModuleDef module = {PyModuleDef_HEAD_INIT, "bakhsney._ratio", NULL, OWN_OBJECTS * sizeof(PyObject *), column_methods, NULL, visit_own, let_go, end_module};

/* Each interpreter runs it, since the module has a size. Python 3.13 first runs it in the main one, so it imports nothing. */
PyMODINIT_FUNC PyInit__ratio(void) {
    PyObject *self = PyModule_Create(&module);
    if (self && (PyModule_AddType(self, &ratio_type) < 0 || PyModule_AddType(self, &total_type) < 0)) Py_CLEAR(self);
    return self;
}
