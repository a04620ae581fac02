/* num_format._native: the calls of num_format.h for Python, each over plain texts, numbers and addresses.
 *
 * A format is the `bytes` of a struct num_format, which each call of the library tests. A call that the library refuses
 * returns its status, an int below 0, in place of the result; the parsing of a text, whose result may be such an int,
 * returns a pair of the status and the position. Arrays are passed by their addresses and sizes, as NumPy has them, and
 * whoever passes them keeps them alive: such calls release the GIL.
 *
 * The public functions for one number are here too, for what most calls pass: a Format or the name of a locale, and an
 * int, a Decimal or a text. For all else they call those of _numbers.py, in whose place `quick` puts them.
 *
 * Columns are given to others and taken from them by Arrow's C data interface, in capsules:
 * https://arrow.apache.org/docs/format/CDataInterface/PyCapsuleInterface.html
 */
#define PY_SSIZE_T_CLEAN
#include <Python.h>
#include <num_format.h>
#include <stdlib.h>

typedef unsigned __int128 wide;

/* The most digits that a signed number of 128 bits always has room for, and the most decimals. */
#define MOST_DIGITS 38

/* What a Python call gets: its arguments, which _native.pyi lists. */
#define CALL(name) static PyObject *name(PyObject *module, PyObject *const *args, Py_ssize_t count)
#define TAKES(expected) \
    (void)module; \
    if (count != (expected)) \
        return PyErr_Format(PyExc_TypeError, "%s takes %d arguments, not %zd", __func__, (expected), count)

static PyObject *status_of(int32_t status) { return PyLong_FromLong(status); }

static PyObject *text_of(const char *text, int32_t length) {
    return length < 0 ? status_of(length) : PyUnicode_DecodeUTF8(text, length, NULL);
}

/* Returns the struct of a format, or NULL with a TypeError. */
static const num_format *format_of(PyObject *given) {
    if (PyBytes_Check(given) && PyBytes_Size(given) == sizeof(num_format))
        return (const num_format *)PyBytes_AsString(given);
    PyErr_SetString(PyExc_TypeError, "the bytes of a format are needed");
    return NULL;
}

/* Returns a text in UTF-8, or NULL with a TypeError. One with a lone surrogate becomes a byte that is not UTF-8. */
static const char *utf8_of(PyObject *given, Py_ssize_t *length) {
    if (!PyUnicode_Check(given)) {
        PyErr_Format(PyExc_TypeError, "the text must be a str, not %R", Py_TYPE(given));
        return NULL;
    }
    const char *text = PyUnicode_AsUTF8AndSize(given, length);
    if (text || !PyErr_ExceptionMatches(PyExc_UnicodeEncodeError))
        return text;
    PyErr_Clear();
    *length = 1;
    return "\xff";
}

/* ---- Formats ---- */

/* Writes the ten digits of a format, and returns their length. */
static int32_t write_digits(const num_format *format, char text[NUM_FORMAT_DIGITS_MAX]) {
    const num_format bare = {.grouping = NUM_FORMAT_POSIX, .digits = format->digits};
    return num_format_print_decimal(&bare, 123456789, 0, 9, text, NUM_FORMAT_DIGITS_MAX);
}

/* Sets the digits to those of a set, by its name or by all ten. */
static int32_t set_digits(num_format *format, const char *given, Py_ssize_t length) {
    int32_t status = num_format_set_digits(format, given, length);
    char text[NUM_FORMAT_DIGITS_MAX];
    for (int number = 0; status == NUM_FORMAT_UNKNOWN_DIGITS && number <= UINT8_MAX; number++) {
        format->digits = (uint8_t)number;
        if (write_digits(format, text) == length && memcmp(text, given, length) == 0)
            return 0;
    }
    return status;
}

CALL(custom) {
    TAKES(5);
    const char *texts[4];
    Py_ssize_t lengths[4];
    for (int part = 0; part < 4; part++)
        if (!(texts[part] = utf8_of(args[part + 1], &lengths[part])))
            return NULL;
    unsigned long grouping = PyLong_AsUnsignedLong(args[0]);
    if (PyErr_Occurred())
        return NULL;
    num_format format;
    int32_t status = num_format_custom_decimal(&format, texts[0], lengths[0], (uint32_t)grouping, texts[1], lengths[1],
                                               texts[2], lengths[2]);
    if (status == 0)
        status = set_digits(&format, texts[3], lengths[3]);
    return status < 0 ? status_of(status) : PyBytes_FromStringAndSize((const char *)&format, sizeof format);
}

CALL(locale) {
    TAKES(1);
    Py_ssize_t length;
    const char *tag = utf8_of(args[0], &length);
    if (!tag)
        return NULL;
    num_format format;
    int32_t status = num_format_lookup(&format, tag, length);
    return status < 0 ? status_of(status) : PyBytes_FromStringAndSize((const char *)&format, sizeof format);
}

CALL(parts) {
    TAKES(1);
    const num_format *format = format_of(args[0]);
    if (!format)
        return NULL;
    char digits[NUM_FORMAT_DIGITS_MAX];
    Py_ssize_t length = write_digits(format, digits);
    return Py_BuildValue("s#s#s#s#i", format->separator, (Py_ssize_t)format->separator_length, format->minus_sign,
                         (Py_ssize_t)format->minus_sign_length, format->decimal_mark,
                         (Py_ssize_t)format->decimal_mark_length, digits, length, format->grouping);
}

CALL(name) {
    TAKES(1);
    char text[NUM_FORMAT_MAX];
    size_t place = PyLong_AsSize_t(args[0]);
    return PyErr_Occurred() ? NULL : text_of(text, num_format_names(place, text, sizeof text));
}

CALL(lookup_name) {
    TAKES(1);
    char text[NUM_FORMAT_MAX];
    Py_ssize_t length;
    const char *tag = utf8_of(args[0], &length);
    return tag ? text_of(text, num_format_lookup_name(tag, length, text, sizeof text)) : NULL;
}

CALL(reads_back) {
    TAKES(1);
    const num_format *format = format_of(args[0]);
    if (!format)
        return NULL;
    // A text in any digits is parsed back where that in 0 to 9 is.
    num_format latin = *format;
    latin.digits = 0;
    return PyBool_FromLong(num_format_reads_back(&latin) > 0);
}

CALL(prints_alike) {
    TAKES(2);
    const num_format *first = format_of(args[0]), *second = first ? format_of(args[1]) : NULL;
    return second ? PyBool_FromLong(num_format_prints_alike(first, second) > 0) : NULL;
}

/* ---- One number ---- */

/* Takes the halves of an int, as a signed number of 128 bits or else an unsigned one, and returns 1 for the first, 0
 * for the second, and -1 with an exception for a number that is neither. */
static int take_halves(PyObject *number, uint64_t *low, uint64_t *high) {
    PyObject *bits = PyLong_FromLong(64), *shifted = bits ? PyNumber_Rshift(number, bits) : NULL;
    int overflow = 0, is_signed = 1;
    Py_XDECREF(bits);
    if (!shifted)
        return -1;
    *low = PyLong_AsUnsignedLongLongMask(number);
    *high = (uint64_t)PyLong_AsLongLongAndOverflow(shifted, &overflow);
    if (overflow) {
        *high = PyLong_AsUnsignedLongLong(shifted);
        is_signed = 0;
    }
    Py_DECREF(shifted);
    if (!PyErr_Occurred())
        return is_signed;
    PyErr_SetString(PyExc_OverflowError, "the number is not in the range from -2**127 to 2**128 - 1");
    return -1;
}

static PyObject *from_halves(uint64_t low, uint64_t high, int is_signed) {
    PyObject *upper = is_signed ? PyLong_FromLongLong((int64_t)high) : PyLong_FromUnsignedLongLong(high);
    PyObject *lower = PyLong_FromUnsignedLongLong(low), *bits = PyLong_FromLong(64), *shifted = NULL, *number = NULL;
    if (upper && lower && bits && (shifted = PyNumber_Lshift(upper, bits)))
        number = PyNumber_Or(shifted, lower);
    Py_XDECREF(upper), Py_XDECREF(lower), Py_XDECREF(bits), Py_XDECREF(shifted);
    return number;
}

static PyObject *int_text(const num_format *format, PyObject *given) {
    char text[NUM_FORMAT_DIGITS_MAX];
    int overflow;
    long long number = PyLong_AsLongLongAndOverflow(given, &overflow);
    if (number == -1 && PyErr_Occurred())
        return NULL;
    if (!overflow)
        return text_of(text, num_format_print_i64(format, number, text, sizeof text));
    uint64_t low, high;
    int is_signed = take_halves(given, &low, &high);
    if (is_signed < 0)
        return NULL;
    return text_of(text, is_signed ? num_format_print_i128(format, low, high, text, sizeof text)
                                   : num_format_print_u128(format, low, high, text, sizeof text));
}

CALL(print_int) {
    TAKES(2);
    const num_format *format = format_of(args[0]);
    return format ? int_text(format, args[1]) : NULL;
}

/* What the library says of a text: 0, or why it is refused, and where. */
typedef struct {
    int32_t status;
    size_t at;
} verdict;

static PyObject *made_or_pair(PyObject *made, verdict said) {
    return said.status < 0 ? Py_BuildValue("in", (int)said.status, (Py_ssize_t)said.at) : made;
}

/* Parses a text as a number of 64 bits, or of 128 with a sign or without, in a way of num_format_parsing. */
static int32_t parse_64(const num_format *format, long way, const char *text, size_t length, int64_t *number,
                        size_t *at) {
    switch (way) {
    case NUM_FORMAT_STRICT: return num_format_parse_strict_i64(format, 64, text, length, number, at);
    case NUM_FORMAT_TYPED:
        return num_format_parse_typed(format, NUM_FORMAT_I64, text, length, number, sizeof *number, at);
    default: return num_format_parse_i64(format, 64, text, length, number);
    }
}

static int32_t parse_128(const num_format *format, long way, int is_signed, const char *text, size_t length,
                         uint64_t halves[2], size_t *at) {
    switch (way) {
    case NUM_FORMAT_STRICT:
        return (is_signed ? num_format_parse_strict_i128 : num_format_parse_strict_u128)(format, text, length, halves,
                                                                                        halves + 1, at);
    case NUM_FORMAT_TYPED:
        return num_format_parse_typed(format, is_signed ? NUM_FORMAT_I128 : NUM_FORMAT_U128, text, length, halves,
                                      2 * sizeof *halves, at);
    default:
        return (is_signed ? num_format_parse_i128 : num_format_parse_u128)(format, text, length, halves, halves + 1);
    }
}

static PyObject *wide_int_of(const num_format *format, long way, const char *text, size_t length, verdict *said) {
    uint64_t halves[2];
    for (int is_signed = 1; is_signed >= 0; is_signed--) {
        said->status = parse_128(format, way, is_signed, text, length, halves, &said->at);
        if (said->status == 0)
            return from_halves(halves[0], halves[1], is_signed);
    }
    return NULL;
}

/* Returns the number of a text, or NULL, with an exception or where it is refused. */
static PyObject *int_of(const num_format *format, PyObject *given, long way, verdict *said) {
    Py_ssize_t length;
    const char *text = utf8_of(given, &length);
    int64_t number;
    if (!text)
        return NULL;
    said->status = parse_64(format, way, text, length, &number, &said->at);
    if (said->status == 0)
        return PyLong_FromLongLong(number);
    // One of 64 bits is refused, and one of 128 may be not.
    if (said->status == NUM_FORMAT_OUT_OF_RANGE || said->status == NUM_FORMAT_NOT_A_NUMBER)
        return wide_int_of(format, way, text, length, said);
    return NULL;
}

CALL(parse_int) {
    TAKES(3);
    const num_format *format = format_of(args[0]);
    long way = format ? PyLong_AsLong(args[2]) : -1;
    verdict said = {0, 0};
    return way < 0 ? NULL : made_or_pair(int_of(format, args[1], way, &said), said);
}

/* ---- Decimals ---- */

typedef struct {
    wide units; /* in two's complement */
    int scale, digits;
} decimal;

/* Takes a decimal of at most 38 digits and decimals, as Python writes one that has no exponent. Returns whether it is
 * so. */
static int take_plain(const char *text, Py_ssize_t length, decimal *taken) {
    const char *end = text + length, *digits = text + (length > 0 && *text == '-');
    int after_mark = 0;
    *taken = (decimal){0, 0, 0};
    for (const char *at = digits; at < end; at++) {
        unsigned digit = (unsigned char)*at - (unsigned)'0';
        if (*at == '.' && !after_mark) {
            after_mark = 1;
            continue;
        }
        if (digit > 9)
            return 0;
        taken->digits += taken->digits > 0 || digit > 0;
        taken->scale += after_mark;
        if (taken->digits > MOST_DIGITS || taken->scale > MOST_DIGITS)
            return 0;
        taken->units = taken->units * 10 + digit;
    }
    if (digits != text)
        taken->units = -taken->units;
    return end - digits > after_mark;
}

/* Changes the units to those of the scale. Returns whether the decimal has the same value and at most 38 digits. */
static int rescale(decimal *taken, int scale) {
    int negative = (taken->units >> 127) != 0;
    wide units = negative ? -taken->units : taken->units;
    for (; taken->scale > scale && units % 10 == 0; taken->scale--)
        units /= 10;
    if (taken->scale > scale || (units && taken->digits + scale - taken->scale > MOST_DIGITS))
        return 0;
    for (; taken->scale < scale; taken->scale++)
        units *= 10;
    taken->units = negative ? -units : units;
    return 1;
}

/* Writes a decimal as Python reads one, in up to 41 characters before the end, and returns where it begins. */
static char *write_plain(wide units, int scale, char *end) {
    int negative = (units >> 127) != 0;
    wide rest = negative ? -units : units;
    for (int place = 0; rest || place <= scale; place++) {
        if (place == scale && scale > 0)
            *--end = '.';
        // Division of 64 bits is fast.
        int digit = rest >> 64 ? (int)(rest % 10) : (int)((uint64_t)rest % 10);
        rest = rest >> 64 ? rest / 10 : (uint64_t)rest / 10;
        *--end = (char)('0' + digit);
    }
    if (negative)
        *--end = '-';
    return end;
}

static PyObject *plain_of(wide units, int scale) {
    char text[48], *end = text + sizeof text, *start = write_plain(units, scale, end);
    return PyUnicode_FromStringAndSize(start, end - start);
}

/* Returns the text of a decimal that Python wrote, or NULL, with an exception or where take_plain does not take it. */
static PyObject *decimal_text(const num_format *format, PyObject *given) {
    char text[NUM_FORMAT_DIGITS_MAX];
    Py_ssize_t length;
    const char *plain = utf8_of(given, &length);
    decimal taken;
    if (!plain || !take_plain(plain, length, &taken))
        return NULL;
    return text_of(text, num_format_print_decimal(format, (uint64_t)taken.units, (uint64_t)(taken.units >> 64),
                                                  (uint32_t)taken.scale, text, sizeof text));
}

CALL(print_plain) {
    TAKES(2);
    const num_format *format = format_of(args[0]);
    PyObject *text = format ? decimal_text(format, args[1]) : NULL;
    return text || PyErr_Occurred() ? text : Py_NewRef(Py_None);
}

CALL(print_units) {
    TAKES(3);
    const num_format *format = format_of(args[0]);
    char text[NUM_FORMAT_DIGITS_MAX];
    uint64_t low, high;
    unsigned long scale = format ? PyLong_AsUnsignedLong(args[2]) : 0;
    if (!format || PyErr_Occurred() || take_halves(args[1], &low, &high) < 0)
        return NULL;
    return text_of(text, num_format_print_decimal(format, low, high, (uint32_t)scale, text, sizeof text));
}

/* Returns a text that was parsed, in the digits 0 to 9, as Python writes the decimal. */
static PyObject *plain_of_text(const char *text, Py_ssize_t length, int scale, int is_negative) {
    char plain[NUM_FORMAT_DECIMAL_MAX + 3], *end = plain;
    if (is_negative)
        *end++ = '-';
    for (Py_ssize_t k = 0; k < length; k++) {
        *end = text[k];
        end += text[k] >= '0' && text[k] <= '9';
    }
    if (scale > 0) {
        memmove(end - scale + 1, end - scale, scale);
        end[-scale] = '.';
        end++;
    }
    return PyUnicode_FromStringAndSize(plain, end - plain);
}

/* Returns what `make` returns for the decimal of a text, or NULL, with an exception or where it is refused. */
static PyObject *decimal_of(const num_format *format, PyObject *given, PyObject *make, long way, verdict *said) {
    Py_ssize_t length;
    const char *text = utf8_of(given, &length);
    uint64_t low, high;
    uint32_t scale;
    if (!text)
        return NULL;
    said->status = (way == NUM_FORMAT_TYPED ? num_format_parse_typed_decimal : num_format_parse_decimal)(
        format, text, length, &low, &high, &scale, &said->at);
    if (said->status < 0)
        return NULL;
    // The digits of a text are those of its number.
    int has_digits = format->digits == 0 && length <= NUM_FORMAT_DECIMAL_MAX;
    PyObject *plain = has_digits ? plain_of_text(text, length, (int)scale, (high >> 63) != 0)
                                 : plain_of((wide)high << 64 | low, (int)scale);
    PyObject *passed = plain ? PyTuple_Pack(1, plain) : NULL;
    PyObject *made = passed ? PyObject_Call(make, passed, NULL) : NULL;
    Py_XDECREF(plain), Py_XDECREF(passed);
    return made;
}

CALL(parse_decimal) {
    TAKES(4);
    const num_format *format = format_of(args[0]);
    long way = format ? PyLong_AsLong(args[3]) : -1;
    verdict said = {0, 0};
    return way < 0 ? NULL : made_or_pair(decimal_of(format, args[1], args[2], way, &said), said);
}

CALL(take_units) {
    TAKES(4);
    wide *units = PyLong_AsVoidPtr(args[1]);
    Py_ssize_t row = PyLong_AsSsize_t(args[2]);
    long scale = PyLong_AsLong(args[3]);
    if (PyErr_Occurred())
        return NULL;
    for (Py_ssize_t rows = PyList_Size(args[0]); row < rows; row++) {
        decimal taken;
        Py_ssize_t length;
        PyObject *plain = PyObject_Str(PyList_GetItem(args[0], row));
        const char *text = plain ? PyUnicode_AsUTF8AndSize(plain, &length) : NULL;
        int is_taken = text && take_plain(text, length, &taken) && rescale(&taken, (int)scale);
        Py_XDECREF(plain);
        if (!text)
            return NULL;
        if (!is_taken)
            break;
        memcpy(units + row, &taken.units, sizeof taken.units);
    }
    return PyErr_Occurred() ? NULL : PyLong_FromSsize_t(row);
}

CALL(plains) {
    TAKES(3);
    const wide *units = PyLong_AsVoidPtr(args[0]);
    Py_ssize_t rows = PyLong_AsSsize_t(args[1]);
    long scale = PyLong_AsLong(args[2]);
    PyObject *texts = PyErr_Occurred() ? NULL : PyList_New(rows);
    for (Py_ssize_t row = 0; texts && row < rows; row++) {
        wide each;
        memcpy(&each, units + row, sizeof each);
        PyObject *text = plain_of(each, (int)scale);
        if (!text || PyList_SetItem(texts, row, text))
            Py_CLEAR(texts);
    }
    return texts;
}

/* ---- The public functions for one number ---- */

/* What the module keeps for them: what `know` is passed, and the functions that they call for all else. */
enum { FORMAT, BYTES, LOCALE, DECIMAL, EXACT, ROUNDED, REFUSAL, FORMAT_ANY, PARSE_ANY, PARSE_DECIMAL_ANY, KNOWN };

#define QUICK(name) \
    static PyObject *quick_##name(PyObject *module, PyObject *const *args, Py_ssize_t count, PyObject *names)

static int is_named(PyObject *name, const char *wanted) { return PyUnicode_CompareWithASCIIString(name, wanted) == 0; }

/* Returns the name of the one argument that has one, or NULL. */
static PyObject *one_name(PyObject *names) {
    return names && PyTuple_Size(names) == 1 ? PyTuple_GetItem(names, 0) : NULL;
}

/* Returns the way to parse that is asked for, or -1 for other arguments than a number or a text, a format, which may be
 * named, and `typed` if it is True. */
static long way_of(PyObject *const *args, Py_ssize_t count, PyObject *names) {
    PyObject *name = one_name(names);
    if (names ? name && count == 1 && is_named(name, "format") : count == 2)
        return NUM_FORMAT_STRICT;
    return name && count == 2 && args[2] == Py_True && is_named(name, "typed") ? NUM_FORMAT_TYPED : -1;
}

/* Takes the struct of a Format or of a locale's name, the second argument. Returns whether it did, or -1 with an
 * exception. */
static int take_format(PyObject *const *known, PyObject *const *args, num_format *format) {
    int is_name = PyUnicode_CheckExact(args[1]);
    if (!is_name && !Py_IS_TYPE(args[1], (PyTypeObject *)known[FORMAT]))
        return 0;
    PyObject *form = is_name ? PyObject_CallFunctionObjArgs(known[LOCALE], args[1], NULL) : Py_NewRef(args[1]);
    PyObject *bytes = form ? PyObject_GetAttr(form, known[BYTES]) : NULL;
    const num_format *found = bytes ? format_of(bytes) : NULL;
    if (found)
        *format = *found;
    Py_XDECREF(form), Py_XDECREF(bytes);
    return found ? 1 : -1;
}

/* Calls a Python function with the same arguments. */
static PyObject *call_any(PyObject *function, PyObject *const *args, Py_ssize_t count, PyObject *names) {
    PyObject *given = PyTuple_New(count), *named = names ? PyDict_New() : NULL;
    int failed = !given || (names && !named);
    for (Py_ssize_t k = 0; !failed && k < count; k++)
        failed = PyTuple_SetItem(given, k, Py_NewRef(args[k]));
    for (Py_ssize_t k = 0; !failed && names && k < PyTuple_Size(names); k++)
        failed = PyDict_SetItem(named, PyTuple_GetItem(names, k), args[count + k]);
    PyObject *made = failed ? NULL : PyObject_Call(function, given, named);
    Py_XDECREF(given), Py_XDECREF(named);
    return made;
}

/* Raises the error of a text that is refused. */
static PyObject *refuse(PyObject *const *known, PyObject *const *args, const num_format *format, long way,
                        verdict said, int is_whole) {
    PyObject *strictly = way == NUM_FORMAT_STRICT ? Py_BuildValue("y#O", format, (Py_ssize_t)sizeof *format,
                                                                  is_whole ? Py_True : Py_False)
                                                  : Py_NewRef(Py_None);
    PyObject *error = PyObject_CallFunction(known[REFUSAL], "OOinN", args[0], args[1], (int)said.status,
                                            (Py_ssize_t)said.at, strictly);
    if (error)
        PyErr_SetObject((PyObject *)Py_TYPE(error), error);
    Py_XDECREF(error);
    return NULL;
}

QUICK(format) {
    PyObject *const *known = PyModule_GetState(module);
    PyObject *text = NULL;
    num_format format;
    int taken = way_of(args, count, names) == NUM_FORMAT_STRICT ? take_format(known, args, &format) : 0;
    if (taken > 0 && PyLong_CheckExact(args[0]))
        return int_text(&format, args[0]);
    if (taken > 0 && Py_IS_TYPE(args[0], (PyTypeObject *)known[DECIMAL])) {
        PyObject *plain = PyObject_Str(args[0]);
        text = plain ? decimal_text(&format, plain) : NULL;
        Py_XDECREF(plain);
    }
    if (text || PyErr_Occurred())
        return text;
    PyObject *name = one_name(names);
    if (name && count == 2 && is_named(name, "decimals") && args[2] != Py_None)
        return PyObject_CallFunctionObjArgs(known[ROUNDED], args[0], args[1], args[2], NULL);
    return call_any(known[FORMAT_ANY], args, count, names);
}

/* Parses a text as an int, or else as a decimal. */
static PyObject *parse_quickly(PyObject *module, PyObject *const *args, Py_ssize_t count, PyObject *names,
                               int is_whole) {
    PyObject *const *known = PyModule_GetState(module);
    long way = way_of(args, count, names);
    num_format format;
    verdict said = {0, 0};
    int taken = way < 0 ? 0 : take_format(known, args, &format);
    if (taken == 0)
        return call_any(known[is_whole ? PARSE_ANY : PARSE_DECIMAL_ANY], args, count, names);
    if (taken < 0)
        return NULL;
    PyObject *made = is_whole ? int_of(&format, args[0], way, &said)
                              : decimal_of(&format, args[0], known[EXACT], way, &said);
    return said.status < 0 ? refuse(known, args, &format, way, said, is_whole) : made;
}

QUICK(parse) { return parse_quickly(module, args, count, names, 1); }

QUICK(parse_decimal) { return parse_quickly(module, args, count, names, 0); }

#define QUICK_METHOD(name) {#name, (PyCFunction)(void (*)(void))quick_##name, METH_FASTCALL | METH_KEYWORDS, NULL}

/* In the order of the functions that they call. */
static PyMethodDef quick_methods[KNOWN - FORMAT_ANY] = {
    QUICK_METHOD(format), QUICK_METHOD(parse), QUICK_METHOD(parse_decimal)};

CALL(quick) {
    TAKES(3);
    PyMethodDef *method = quick_methods;
    PyObject **function = (PyObject **)PyModule_GetState(module) + FORMAT_ANY;
    for (; !is_named(args[0], method->ml_name); method++, function++)
        if (method + 1 == quick_methods + KNOWN - FORMAT_ANY)
            return PyErr_Format(PyExc_NameError, "no function is called %R", args[0]);
    // It is there as long as the method, which all interpreters of a process have.
    const char *doc = PyUnicode_AsUTF8AndSize(args[2], NULL);
    if (!doc || (!method->ml_doc && !(method->ml_doc = strdup(doc))))
        return PyErr_Occurred() ? NULL : PyErr_NoMemory();
    Py_XDECREF(*function);
    *function = Py_NewRef(args[1]);
    return PyCFunction_NewEx(method, module, NULL);
}

CALL(know) {
    TAKES(FORMAT_ANY);
    PyObject **known = PyModule_GetState(module);
    for (int k = 0; k < FORMAT_ANY; k++) {
        Py_XDECREF(known[k]);
        known[k] = Py_NewRef(args[k]);
    }
    Py_RETURN_NONE;
}

static int visit_known(PyObject *module, visitproc visit, void *arg) {
    PyObject **known = PyModule_GetState(module);
    for (int k = 0; k < KNOWN; k++)
        Py_VISIT(known[k]);
    return 0;
}

static int clear_known(PyObject *module) {
    PyObject **known = PyModule_GetState(module);
    for (int k = 0; k < KNOWN; k++)
        Py_CLEAR(known[k]);
    return 0;
}

static void free_known(void *module) { clear_known(module); }

/* ---- Columns: `scale` is below 0 for a column of integers ---- */

CALL(texts) {
    TAKES(4);
    const int64_t *offsets = PyLong_AsVoidPtr(args[0]);
    const char *bytes = PyLong_AsVoidPtr(args[1]), *valid = PyLong_AsVoidPtr(args[2]);
    Py_ssize_t rows = PyLong_AsSsize_t(args[3]);
    PyObject *texts = PyErr_Occurred() ? NULL : PyList_New(rows);
    for (Py_ssize_t row = 0; texts && row < rows; row++) {
        Py_ssize_t start = (Py_ssize_t)offsets[row], length = (Py_ssize_t)offsets[row + 1] - start;
        PyObject *text = valid[row] ? PyUnicode_DecodeUTF8(bytes + start, length, NULL) : Py_NewRef(Py_None);
        if (!text || PyList_SetItem(texts, row, text))
            Py_CLEAR(texts);
    }
    return texts;
}

/* The addresses and sizes that a call is passed. */
typedef unsigned long long number;

static void *at_address(number address) { return (void *)(uintptr_t)address; }

CALL(print_column_len) {
    TAKES(5);
    const num_format *format = format_of(args[0]);
    long type = PyLong_AsLong(args[1]), scale = PyLong_AsLong(args[2]);
    number values = PyLong_AsUnsignedLongLong(args[3]), size = PyLong_AsUnsignedLongLong(args[4]);
    if (!format || PyErr_Occurred())
        return NULL;
    size_t length = 0;
    int32_t status;
    Py_BEGIN_ALLOW_THREADS
    status = scale < 0
                 ? num_format_print_column_len(format, (uint32_t)type, at_address(values), size, NULL, 0, 0, &length)
                 : num_format_print_decimal_column_len(format, at_address(values), size, (uint32_t)scale, NULL, 0, 0,
                                                       &length);
    Py_END_ALLOW_THREADS
    return status < 0 ? status_of(status) : PyLong_FromSize_t(length);
}

CALL(print_column) {
    TAKES(10);
    const num_format *format = format_of(args[0]);
    long type = PyLong_AsLong(args[1]), scale = PyLong_AsLong(args[2]), offset_type = PyLong_AsLong(args[7]);
    number values = PyLong_AsUnsignedLongLong(args[3]), size = PyLong_AsUnsignedLongLong(args[4]);
    number offsets = PyLong_AsUnsignedLongLong(args[5]), offsets_size = PyLong_AsUnsignedLongLong(args[6]);
    number bytes = PyLong_AsUnsignedLongLong(args[8]), capacity = PyLong_AsUnsignedLongLong(args[9]);
    if (!format || PyErr_Occurred())
        return NULL;
    size_t length = 0;
    int32_t status;
    Py_BEGIN_ALLOW_THREADS
    status = scale < 0
                 ? num_format_print_column(format, (uint32_t)type, at_address(values), size, NULL, 0, 0,
                                           at_address(offsets), offsets_size, (uint32_t)offset_type, at_address(bytes),
                                           capacity, &length)
                 : num_format_print_decimal_column(format, at_address(values), size, (uint32_t)scale, NULL, 0, 0,
                                                   at_address(offsets), offsets_size, (uint32_t)offset_type,
                                                   at_address(bytes), capacity, &length);
    Py_END_ALLOW_THREADS
    return status < 0 ? status_of(status) : PyLong_FromSize_t(length);
}

CALL(parse_column) {
    TAKES(15);
    const num_format *format = format_of(args[0]);
    long type = PyLong_AsLong(args[1]), scale = PyLong_AsLong(args[2]), way = PyLong_AsLong(args[3]);
    long offset_type = PyLong_AsLong(args[6]);
    number passed[15];
    for (int k = 4; k < 15; k++)
        passed[k] = PyLong_AsUnsignedLongLong(args[k]);
    if (!format || PyErr_Occurred())
        return NULL;
    const void *offsets = at_address(passed[4]), *validity = at_address(passed[11]);
    const char *bytes = at_address(passed[7]);
    void *values = at_address(passed[9]);
    int32_t *statuses = at_address(passed[13]), status;
    Py_BEGIN_ALLOW_THREADS
    status = scale < 0
                 ? num_format_parse_column(format, (uint32_t)type, (uint32_t)way, offsets, passed[5],
                                           (uint32_t)offset_type, bytes, passed[8], values, passed[10], validity,
                                           passed[12], 0, statuses, passed[14])
                 : (way == NUM_FORMAT_TYPED ? num_format_parse_typed_decimal_column : num_format_parse_decimal_column)(
                       format, (uint32_t)scale, offsets, passed[5], (uint32_t)offset_type, bytes, passed[8], values,
                       passed[10], validity, passed[12], 0, statuses, passed[14]);
    Py_END_ALLOW_THREADS
    return status_of(status);
}

/* ---- Arrow's C data interface, whose structs are fixed ---- */

struct ArrowSchema {
    const char *format, *name, *metadata;
    int64_t flags, n_children;
    struct ArrowSchema **children, *dictionary;
    void (*release)(struct ArrowSchema *);
    void *private_data;
};

struct ArrowArray {
    int64_t length, null_count, offset, n_buffers, n_children;
    const void **buffers;
    struct ArrowArray **children, *dictionary;
    void (*release)(struct ArrowArray *);
    void *private_data;
};

#define ARROW_FLAG_NULLABLE 2

/* What an exported array keeps. */
typedef struct {
    const void *buffers[3];
    PyObject *owner;
} kept;

static void release_schema(struct ArrowSchema *schema) { schema->release = NULL; }

/* Whoever took the array may call this from any thread. */
static void release_array(struct ArrowArray *array) {
    kept *held = array->private_data;
    if (Py_IsInitialized()) {
        PyGILState_STATE state = PyGILState_Ensure();
        Py_DECREF(held->owner);
        PyGILState_Release(state);
    }
    free(held);
    array->release = NULL;
}

static void drop_schema(PyObject *capsule) {
    struct ArrowSchema *schema = PyCapsule_GetPointer(capsule, "arrow_schema");
    if (schema->release)
        schema->release(schema);
    free(schema);
}

static void drop_array(PyObject *capsule) {
    struct ArrowArray *array = PyCapsule_GetPointer(capsule, "arrow_array");
    if (array->release)
        array->release(array);
    free(array);
}

CALL(export_schema) {
    TAKES(1);
    int is_large = PyObject_IsTrue(args[0]);
    struct ArrowSchema *schema = calloc(1, sizeof *schema);
    if (!schema)
        return PyErr_NoMemory();
    *schema = (struct ArrowSchema){.format = is_large ? "U" : "u", .name = "", .flags = ARROW_FLAG_NULLABLE,
                                   .release = release_schema};
    PyObject *capsule = PyCapsule_New(schema, "arrow_schema", drop_schema);
    if (!capsule)
        free(schema);
    return capsule;
}

CALL(export_array) {
    TAKES(6);
    struct ArrowArray *array = calloc(1, sizeof *array);
    kept *held = calloc(1, sizeof *held);
    long long rows = PyLong_AsLongLong(args[1]), nulls = PyLong_AsLongLong(args[2]);
    for (int k = 0; held && k < 3; k++)
        held->buffers[k] = PyLong_AsVoidPtr(args[3 + k]);
    PyObject *capsule = array && held && !PyErr_Occurred() ? PyCapsule_New(array, "arrow_array", drop_array) : NULL;
    if (!capsule) {
        free(array), free(held);
        return PyErr_Occurred() ? NULL : PyErr_NoMemory();
    }
    Py_INCREF(args[0]);
    held->owner = args[0];
    *array = (struct ArrowArray){.length = rows, .null_count = nulls, .n_buffers = 3, .buffers = held->buffers,
                                 .release = release_array, .private_data = held};
    return capsule;
}

/* Moves an array out of its capsule into one that is returned, with its format, length, offset, number of nulls, and
 * the addresses of its buffers. */
CALL(import_array) {
    TAKES(2);
    struct ArrowSchema *schema = PyCapsule_GetPointer(args[0], "arrow_schema");
    struct ArrowArray *given = schema ? PyCapsule_GetPointer(args[1], "arrow_array") : NULL;
    if (!given)
        return NULL;
    if (!schema->release || !given->release)
        return PyErr_Format(PyExc_ValueError, "the Arrow array was released, or taken by another");
    if (given->dictionary || given->n_buffers < 1 || given->n_buffers > 3)
        return PyErr_Format(PyExc_TypeError, "the Arrow array has a dictionary, or buffers of another layout");
    number buffers[3] = {0, 0, 0};
    for (int64_t k = 0; k < given->n_buffers; k++)
        buffers[k] = (number)(uintptr_t)given->buffers[k];
    struct ArrowArray *array = malloc(sizeof *array);
    PyObject *capsule = array ? PyCapsule_New(array, "arrow_array", drop_array) : PyErr_NoMemory();
    if (!capsule) {
        free(array);
        return NULL;
    }
    *array = *given;
    given->release = NULL;
    return Py_BuildValue("NsLLL(KKK)", capsule, schema->format, array->length, array->offset, array->null_count,
                         buffers[0], buffers[1], buffers[2]);
}

/* ---- The module ---- */

#define METHOD(name) {#name, (PyCFunction)(void (*)(void))name, METH_FASTCALL, NULL}

static PyMethodDef methods[] = {
    METHOD(custom), METHOD(locale), METHOD(parts), METHOD(name), METHOD(lookup_name), METHOD(reads_back),
    METHOD(prints_alike), METHOD(print_int), METHOD(parse_int), METHOD(print_plain), METHOD(print_units),
    METHOD(parse_decimal), METHOD(take_units), METHOD(plains), METHOD(quick), METHOD(know), METHOD(texts),
    METHOD(print_column_len), METHOD(print_column), METHOD(parse_column), METHOD(export_schema), METHOD(export_array),
    METHOD(import_array), {NULL, NULL, 0, NULL},
};

#define NUMBER(name) {#name, NUM_FORMAT_##name}

static const struct { const char *name; long value; } numbers[] = {
    NUMBER(LOCALES), NUMBER(STANDARD), NUMBER(INDIAN), NUMBER(POSIX), NUMBER(MYRIAD), NUMBER(SPARSE),
    NUMBER(I8), NUMBER(U8), NUMBER(I16), NUMBER(U16), NUMBER(I32), NUMBER(U32), NUMBER(I64), NUMBER(U64),
    NUMBER(I128), NUMBER(U128), NUMBER(NOT_UTF8), NUMBER(NOT_A_NUMBER), NUMBER(UNKNOWN_LOCALE), NUMBER(TOO_LONG),
    NUMBER(BAD_GROUPING), NUMBER(UNEXPECTED), NUMBER(NO_DIGIT), NUMBER(MISSPELLED), NUMBER(OUT_OF_RANGE),
    NUMBER(TOO_MANY_DECIMALS), NUMBER(DIGITS_LOST), NUMBER(AMBIGUOUS_FORMAT), NUMBER(TOO_MANY_BYTES), NUMBER(BAD_FORMAT),
    NUMBER(TOO_SMALL), NUMBER(BAD_OFFSETS), NUMBER(TEXT_TOO_LONG), NUMBER(UNKNOWN_DIGITS), NUMBER(OTHER_NUMERAL),
    NUMBER(STRICT), NUMBER(LENIENT), NUMBER(TYPED),
};

static int add_numbers(PyObject *module) {
    for (size_t k = 0; k < sizeof numbers / sizeof *numbers; k++)
        if (PyModule_AddIntConstant(module, numbers[k].name, numbers[k].value))
            return -1;
    return PyModule_AddIntConstant(module, "VERSION", num_format_version());
}

static PyModuleDef_Slot slots[] = {{Py_mod_exec, add_numbers}, {0, NULL}};

static struct PyModuleDef definition = {
    PyModuleDef_HEAD_INIT, .m_name = "num_format._native", .m_size = sizeof(PyObject *[KNOWN]), .m_methods = methods,
    .m_slots = slots, .m_traverse = visit_known, .m_clear = clear_known, .m_free = free_known};

PyMODINIT_FUNC PyInit__native(void) { return PyModuleDef_Init(&definition); }
