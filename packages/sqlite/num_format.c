/* num-format in SQLite: numbers as a locale prints them, and back.
 *
 *     .load ./num_format
 *     SELECT num_format(1234567, 'de');                 1.234.567
 *     SELECT num_format(1234.5, 'de', 2);               1.234,50
 *     SELECT num_format_units(123450, 'de', 2);         1.234,50
 *     SELECT num_parse('1.234.567', 'de');              1234567
 *     SELECT num_parse_units('1.234,50', 'de', 2);      123450
 *     SELECT num_parse_decimal('1.234,50', 'de');       1234.50
 *     .. ORDER BY text COLLATE num_decimal              9.00 before 10.00
 *     SELECT num_parse_typed(' 1 234', 'fr');           1234, as a person types it
 *     SELECT num_try_parse('1.5', 'de');                NULL
 *     SELECT num_format(1234, 'fa-u-nu-arabext');       ۱٬۲۳۴, the digits that the tag names
 *     SELECT num_locale('de_DE.UTF-8');                 de
 *
 * The calls of num_format.h print and parse. This file converts values, rounds them, compares decimals, keeps the
 * format of a constant locale as long as a statement runs, and words the errors.
 */
#include <sqlite3ext.h>
SQLITE_EXTENSION_INIT1

#include "num_format.h"

#include <stdarg.h>
#include <stdio.h>
#include <string.h>

/* The most digits after the decimal mark. */
#define MAX_SCALE 38

/* The most characters of a text that a message shows. */
#define SHOWN 64

/* Numbers as SQL writes them, as -1234.50. */
static const num_format plain = {
    .minus_sign = "-",
    .decimal_mark = ".",
    .minus_sign_length = 1,
    .decimal_mark_length = 1,
    .grouping = NUM_FORMAT_POSIX,
};

/* A function of SQL, whether it returns NULL for a text that is refused, and whether it parses texts as people type
 * them. */
typedef struct function {
    const char *name;
    int arguments;
    void (*call)(sqlite3_context *, int, sqlite3_value **);
    int is_try, is_typed;
} function;

/* A value of type TEXT, in UTF-8. */
typedef struct text {
    const char *bytes;
    size_t length;
} text;

/* Units of 128 bits, by their halves, divided by 10 to the power of the scale. */
typedef struct decimal {
    uint64_t low, high;
    uint32_t scale;
} decimal;

/* The start of a text as a message shows it. */
typedef struct excerpt {
    char bytes[4 * SHOWN + 4];
} excerpt;

/* Returns the first characters of a text, with U+2400 in place of each zero byte. */
static excerpt shown(text given) {
    excerpt start;
    size_t length = 0;
    for (size_t i = 0, characters = 0; i < given.length && length < sizeof start.bytes - 3; i++) {
        characters += (given.bytes[i] & 0xc0) != 0x80;
        if (characters > SHOWN)
            break;
        if (given.bytes[i])
            start.bytes[length++] = given.bytes[i];
        else
            for (const char *byte = "\xe2\x90\x80"; *byte; byte++)
                start.bytes[length++] = *byte;
    }
    start.bytes[length] = '\0';
    return start;
}

static int is_typed(sqlite3_context *context) {
    const function *called = sqlite3_user_data(context);
    return called->is_typed;
}

/* Makes the result an error: the name of the function that was called, and what printf makes of the rest. */
static void fail(sqlite3_context *context, const char *message, ...) {
    const function *called = sqlite3_user_data(context);
    va_list arguments;
    va_start(arguments, message);
    char *cause = sqlite3_vmprintf(message, arguments);
    va_end(arguments);
    char *error = cause ? sqlite3_mprintf("%s: %s", called->name, cause) : NULL;
    if (error)
        sqlite3_result_error(context, error, -1);
    else
        sqlite3_result_error_nomem(context);
    sqlite3_free(error);
    sqlite3_free(cause);
}

/* Returns whether an argument is of a type, or else makes the result an error. `role` names the argument there. */
static int has_type(sqlite3_context *context, sqlite3_value *value, const char *role, int type) {
    static const char *const names[] = {
        [SQLITE_INTEGER] = "INTEGER", [SQLITE_FLOAT] = "REAL", [SQLITE_TEXT] = "TEXT", [SQLITE_BLOB] = "BLOB"};
    int found = sqlite3_value_type(value);
    if (found != type)
        fail(context, "the %s is of type %s, not %s", role, names[found], names[type]);
    return found == type;
}

/* Reads the text of a value, and returns whether there is memory for it. */
static int text_of(sqlite3_context *context, sqlite3_value *value, text *read) {
    read->bytes = (const char *)sqlite3_value_text(value);
    read->length = (size_t)sqlite3_value_bytes(value);
    if (!read->bytes)
        sqlite3_result_error_nomem(context);
    return read->bytes != NULL;
}

/* Reads an argument of type TEXT, and returns whether it is one. */
static int read_text(sqlite3_context *context, sqlite3_value *value, const char *role, text *read) {
    return has_type(context, value, role, SQLITE_TEXT) && text_of(context, value, read);
}

/* The same for the text that is parsed. Where a function returns NULL for what is rejected, so it does for a value of
 * another type. */
static int read_given(sqlite3_context *context, sqlite3_value *value, text *given) {
    const function *called = sqlite3_user_data(context);
    if (called->is_try && sqlite3_value_type(value) != SQLITE_TEXT)
        return 0;
    return read_text(context, value, "text", given);
}

/* Reads a number of decimals, and returns whether a decimal may have so many. */
static int read_scale(sqlite3_context *context, sqlite3_value *value, uint32_t *scale) {
    if (!has_type(context, value, "number of decimals", SQLITE_INTEGER))
        return 0;
    sqlite3_int64 number = sqlite3_value_int64(value);
    *scale = (uint32_t)number;
    if (number >= 0 && number <= MAX_SCALE)
        return 1;
    fail(context, "the number of decimals is %lld, not 0 to %d", number, MAX_SCALE);
    return 0;
}

/* Finds the format of the locale for the name or tag in argument 1, and returns whether there is one. */
static int find_format(sqlite3_context *context, sqlite3_value *value, num_format *format) {
    /* SQLite keeps this with an argument that is constant in the statement, and drops it with any other. */
    const num_format *kept = sqlite3_get_auxdata(context, 1);
    if (kept) {
        *format = *kept;
        return 1;
    }
    text name;
    if (!read_text(context, value, "locale", &name))
        return 0;
    int32_t status = num_format_lookup(format, name.bytes, name.length);
    if (status != 0) {
        if (status == NUM_FORMAT_NOT_UTF8)
            fail(context, "the locale is not UTF-8");
        else if (status == NUM_FORMAT_UNKNOWN_DIGITS)
            fail(context, "no digit set is named by the language tag '%q'", shown(name).bytes);
        else
            fail(context, "no locale has the name or language tag '%q'", shown(name).bytes);
        return 0;
    }
    num_format *copy = sqlite3_malloc(sizeof *copy);
    if (copy) {
        *copy = *format;
        sqlite3_set_auxdata(context, 1, copy, sqlite3_free);
    }
    return 1;
}

/* The place of the character that begins after so many bytes, counted from 1 as substr does. */
static int place_of(const char *bytes, size_t at) {
    int place = 1;
    for (size_t i = 0; i < at; i++)
        place += (bytes[i] & 0xc0) != 0x80;
    return place;
}

/* The code point of the character at the start of a text in UTF-8. */
static unsigned code_point(const char *bytes) {
    const unsigned char *byte = (const unsigned char *)bytes;
    if (byte[0] < 0x80)
        return byte[0];
    if (byte[0] < 0xe0)
        return (byte[0] & 0x1fu) << 6 | (byte[1] & 0x3fu);
    if (byte[0] < 0xf0)
        return (byte[0] & 0x0fu) << 12 | (byte[1] & 0x3fu) << 6 | (byte[2] & 0x3fu);
    return (byte[0] & 0x07u) << 18 | (byte[1] & 0x3fu) << 12 | (byte[2] & 0x3fu) << 6 | (byte[3] & 0x3fu);
}

/* Parses a text as a decimal, strictly or as a person types it, and returns the status. */
static int32_t parse_by(int typed, const num_format *format, text given, decimal *parsed, size_t *at) {
    return (typed ? num_format_parse_typed_decimal : num_format_parse_decimal)(
        format, given.bytes, given.length, &parsed->low, &parsed->high, &parsed->scale, at);
}

/* Whether the character at a place of a printed text is a digit, which is a number by itself. */
static int is_digit_at(const num_format *format, const char *printed, size_t length, size_t at) {
    size_t end = at + 1, unused;
    int64_t number;
    while (end < length && (printed[end] & 0xc0) == 0x80)
        end++;
    return num_format_parse_strict_i64(format, 64, printed + at, end - at, &number, &unused) == 0;
}

static void call_parse(sqlite3_context *context, int count, sqlite3_value **values);

/* What a message about a text that was parsed strictly says of parsing it as a person types it. */
typedef struct advice {
    char text[96];
} advice;

/* Says which call parses the text, if one does, and which character of the locale stands where one is unexpected. */
static advice advise(sqlite3_context *context, text given, sqlite3_value *locale, int32_t status, size_t at) {
    const function *called = sqlite3_user_data(context);
    advice said = {""};
    num_format format;
    decimal number;
    size_t end, strict = sizeof "num_parse" - 1;
    char printed[NUM_FORMAT_DIGITS_MAX], wanted[24] = "";
    if (!locale || called->is_typed || !find_format(context, locale, &format) ||
        parse_by(1, &format, given, &number, &end) != 0 || (called->call == call_parse && number.scale > 0))
        return said;
    int length = num_format_print_decimal(&format, number.low, number.high, number.scale, printed, sizeof printed);
    if (status == NUM_FORMAT_UNEXPECTED && (size_t)length > at && memcmp(printed, given.bytes, at) == 0 &&
        !is_digit_at(&format, printed, (size_t)length, at))
        sqlite3_snprintf(sizeof wanted, wanted, ", in place of U+%04X", code_point(printed + at));
    sqlite3_snprintf(sizeof said.text, said.text, "%s: num_parse_typed%s reads it", wanted, called->name + strict);
    return said;
}

/* Makes the result the error for which a text was refused as a number of so many bits and a sign, written as the
 * locale writes it, or as SQL does where there is none; or leaves it NULL. */
static void refuse(sqlite3_context *context, text given, sqlite3_value *locale, int bits, int32_t status, size_t at) {
    text name = {"SQL", 3};
    const char *cause = "it is not as the number is printed";
    if (((const function *)sqlite3_user_data(context))->is_try ||
        (locale && !read_text(context, locale, "locale", &name)))
        return;
    excerpt start = shown(given);
    switch (status) {
    case NUM_FORMAT_NOT_UTF8:
        fail(context, "the text is not UTF-8");
        return;
    case NUM_FORMAT_UNEXPECTED:
        fail(context, "'%q' is no number in %s: character %d, U+%04X, is unexpected%s", start.bytes, shown(name).bytes,
             place_of(given.bytes, at), code_point(given.bytes + at), advise(context, given, locale, status, at).text);
        return;
    case NUM_FORMAT_OTHER_NUMERAL:
        fail(context, "'%q' is no number in %s: character %d, U+%04X, is a numeral of another digit set", start.bytes,
             shown(name).bytes, place_of(given.bytes, at), code_point(given.bytes + at));
        return;
    case NUM_FORMAT_OUT_OF_RANGE:
        fail(context, "'%q' is out of range: it needs more than %d bits", start.bytes, bits);
        return;
    case NUM_FORMAT_TOO_MANY_DECIMALS:
        fail(context, "'%q' is out of range: it has more than %d decimals", start.bytes, MAX_SCALE);
        return;
    case NUM_FORMAT_DIGITS_LOST:
        fail(context, "'%q' has digits after the last decimal that is asked for", start.bytes);
        return;
    case NUM_FORMAT_TEXT_TOO_LONG:
        fail(context, "'%q' is longer than any number's text", start.bytes);
        return;
    case NUM_FORMAT_NO_DIGIT:
        cause = "it has no digit";
    }
    fail(context, "'%q' is no number in %s: %s%s", start.bytes, shown(name).bytes, cause,
         advise(context, given, locale, status, at).text);
}

/* Parses a text as a decimal, as the function that was called does, and returns whether it is one. */
static int parse_decimal(sqlite3_context *context, text given, const num_format *format, sqlite3_value *locale,
                         decimal *parsed) {
    size_t at = 0;
    int32_t status = parse_by(is_typed(context), format, given, parsed, &at);
    if (status != 0)
        refuse(context, given, locale, 127, status, at);
    return status == 0;
}

/* Makes the text of a decimal the result. */
static void return_decimal(sqlite3_context *context, const num_format *format, decimal number) {
    char printed[NUM_FORMAT_DIGITS_MAX];
    int length = num_format_print_decimal(format, number.low, number.high, number.scale, printed, sizeof printed);
    sqlite3_result_text(context, printed, length, SQLITE_TRANSIENT);
}

static int has_null(int count, sqlite3_value **values) {
    while (count > 0)
        if (sqlite3_value_type(values[--count]) == SQLITE_NULL)
            return 1;
    return 0;
}

/* Brings a decimal to a scale, rounded half to even, and returns whether its units still fit 127 bits and a sign. */
static int rescale(decimal *number, uint32_t scale) {
    __int128 units = (__int128)((unsigned __int128)number->high << 64 | number->low), power = 1;
    for (; number->scale < scale; number->scale++)
        if (__builtin_mul_overflow(units, 10, &units))
            return 0;
    for (; number->scale > scale; number->scale--)
        power *= 10;
    __int128 lost = units % power, distance = lost < 0 ? -lost : lost;
    units /= power;
    if (distance > power - distance || (distance == power - distance && units % 2 != 0))
        units += lost < 0 ? -1 : 1;
    number->low = (uint64_t)units;
    number->high = (uint64_t)(units >> 64);
    return 1;
}

/* Writes a REAL as SQL writes decimals, and returns its length. C's printf rounds its exact value half to even. */
static int write_real(double value, int scale, char *digits, size_t capacity) {
    int is_negative = value < 0;
    int length = snprintf(digits, capacity, "%.*f", scale, value > 0 ? value : 0 - value);
    if (length < 0 || (size_t)length >= capacity)
        return -1;
    if (scale > 0) {
        /* The decimal mark is that of the process's locale, and of any length. */
        char *mark = digits + strspn(digits, "0123456789");
        memmove(mark + 1, digits + length - scale, (size_t)scale + 1);
        *mark = '.';
    }
    if (is_negative && strspn(digits, "0.") < strlen(digits)) {
        memmove(digits + 1, digits, strlen(digits) + 1);
        *digits = '-';
    }
    return (int)strlen(digits);
}

/* Reads a REAL, rounded to the scale, and returns whether it is a decimal. */
static int read_real(sqlite3_context *context, double value, uint32_t scale, decimal *number) {
    /* A REAL has at most 309 digits before the mark. */
    char digits[400];
    if (value - value != 0) {
        fail(context, "an infinite REAL is no number");
        return 0;
    }
    int length = write_real(value, (int)scale, digits, sizeof digits - 1);
    if (length < 0) {
        sqlite3_result_error_nomem(context);
        return 0;
    }
    return parse_decimal(context, (text){digits, (size_t)length}, &plain, NULL, number);
}

/* Reads a value as a decimal, of the scale if there is one, and returns whether it is one. */
static int read_decimal(sqlite3_context *context, sqlite3_value *value, const uint32_t *scale, decimal *number) {
    text given;
    switch (sqlite3_value_type(value)) {
    case SQLITE_BLOB:
        fail(context, "the value is of type BLOB, not a number");
        return 0;
    case SQLITE_FLOAT:
        if (scale)
            return read_real(context, sqlite3_value_double(value), *scale, number);
        fail(context, "a REAL needs a number of decimals, as num_format(value, locale, 2)");
        return 0;
    case SQLITE_INTEGER:
        number->low = (uint64_t)sqlite3_value_int64(value);
        number->high = number->low >> 63 ? UINT64_MAX : 0;
        number->scale = 0;
        break;
    default:
        if (!read_text(context, value, "value", &given) || !parse_decimal(context, given, &plain, NULL, number))
            return 0;
    }
    if (!scale || rescale(number, *scale))
        return 1;
    if (text_of(context, value, &given))
        refuse(context, given, NULL, 127, NUM_FORMAT_OUT_OF_RANGE, 0);
    return 0;
}

/* num_format(value, locale): the text of an INTEGER, or of the number that a TEXT writes as SQL does.
 * num_format(value, locale, decimals): the same of any number, rounded half to even. */
static void call_format(sqlite3_context *context, int count, sqlite3_value **values) {
    num_format format;
    decimal number;
    uint32_t scale;
    if (has_null(count, values) || !find_format(context, values[1], &format) ||
        (count == 3 && !read_scale(context, values[2], &scale)))
        return;
    if (count == 2 && sqlite3_value_type(values[0]) == SQLITE_INTEGER) {
        char printed[NUM_FORMAT_DIGITS_MAX];
        int length = num_format_print_i64(&format, sqlite3_value_int64(values[0]), printed, sizeof printed);
        sqlite3_result_text(context, printed, length, SQLITE_TRANSIENT);
    } else if (read_decimal(context, values[0], count == 3 ? &scale : NULL, &number))
        return_decimal(context, &format, number);
}

/* num_format_units(units, locale, scale): the text of the INTEGER divided by 10 to the power of the scale. */
static void call_format_units(sqlite3_context *context, int count, sqlite3_value **values) {
    num_format format;
    decimal number;
    if (has_null(count, values) || !find_format(context, values[1], &format) ||
        !has_type(context, values[0], "number of units", SQLITE_INTEGER) ||
        !read_decimal(context, values[0], NULL, &number) || !read_scale(context, values[2], &number.scale))
        return;
    return_decimal(context, &format, number);
}

/* num_parse(text, locale): the INTEGER for which the text is canonical. num_parse_typed: the same of a text as a person
 * types it. */
static void call_parse(sqlite3_context *context, int count, sqlite3_value **values) {
    num_format format;
    text given;
    if (has_null(count, values) || !find_format(context, values[1], &format) ||
        !read_given(context, values[0], &given))
        return;
    int64_t number;
    size_t at = 0;
    int32_t status =
        is_typed(context)
            ? num_format_parse_typed(&format, NUM_FORMAT_I64, given.bytes, given.length, &number, sizeof number, &at)
            : num_format_parse_strict_i64(&format, 64, given.bytes, given.length, &number, &at);
    if (status == 0)
        sqlite3_result_int64(context, number);
    else
        refuse(context, given, values[1], 63, status, at);
}

/* num_parse_units(text, locale, scale): the number for which the text is canonical, times 10 to the power of the
 * scale, as an INTEGER. */
static void call_parse_units(sqlite3_context *context, int count, sqlite3_value **values) {
    num_format format;
    text given;
    uint32_t scale;
    if (has_null(count, values) || !find_format(context, values[1], &format) ||
        !read_scale(context, values[2], &scale) || !read_given(context, values[0], &given))
        return;
    decimal parsed;
    size_t at = 0;
    int32_t status = parse_by(is_typed(context), &format, given, &parsed, &at);
    if (status == 0)
        status = num_format_decimal_rescale(&parsed.low, &parsed.high, &parsed.scale, scale, NUM_FORMAT_EXACT);
    if (status == 0 && parsed.high != (parsed.low >> 63 ? UINT64_MAX : 0))
        status = NUM_FORMAT_OUT_OF_RANGE;
    if (status == 0)
        sqlite3_result_int64(context, (sqlite3_int64)parsed.low);
    else
        refuse(context, given, values[1], 63, status, at);
}

/* num_parse_decimal(text, locale): the number for which the text is canonical, as a TEXT that SQL can read. */
static void call_parse_decimal(sqlite3_context *context, int count, sqlite3_value **values) {
    num_format format;
    text given;
    decimal number;
    if (has_null(count, values) || !find_format(context, values[1], &format) ||
        !read_given(context, values[0], &given))
        return;
    if (parse_decimal(context, given, &format, values[1], &number))
        return_decimal(context, &plain, number);
}

/* num_locale(tag): the name of the locale for a language tag, or NULL where there is none. Unknown digits are refused. */
static void call_locale(sqlite3_context *context, int count, sqlite3_value **values) {
    text tag;
    if (has_null(count, values) || !read_text(context, values[0], "tag", &tag))
        return;
    char name[NUM_FORMAT_MAX];
    int32_t length = num_format_lookup_name(tag.bytes, tag.length, name, sizeof name);
    if (length == NUM_FORMAT_NOT_UTF8)
        fail(context, "the tag is not UTF-8");
    else if (length == NUM_FORMAT_UNKNOWN_DIGITS)
        fail(context, "no digit set is named by the language tag '%q'", shown(tag).bytes);
    else if (length >= 0)
        sqlite3_result_text(context, name, length, SQLITE_TRANSIENT);
}

/* num_format_version(): the version of the library, as 0.1.0. */
static void call_version(sqlite3_context *context, int count, sqlite3_value **values) {
    (void)count, (void)values;
    uint32_t version = num_format_version();
    char shown[40];
    sqlite3_snprintf(sizeof shown, shown, "%u.%u.%u", version / 10000, version / 100 % 100, version % 100);
    sqlite3_result_text(context, shown, -1, SQLITE_TRANSIENT);
}

/* The digits of a decimal on each side of its mark, without zeros at the ends, and its sign: -1, 0 or 1. */
typedef struct digits {
    const char *whole, *fraction;
    int whole_length, fraction_length, sign;
} digits;

/* Returns the first byte from here on that is no digit. */
static const char *digits_end(const char *from, const char *end) {
    while (from < end && *from >= '0' && *from <= '9')
        from++;
    return from;
}

/* Finds the digits of a text, and returns whether it is a decimal as SQL writes it. */
static int find_digits(const char *bytes, int length, digits *found) {
    const char *end = bytes + length;
    int is_negative = length > 0 && *bytes == '-';
    const char *whole = bytes + is_negative, *mark = digits_end(whole, end);
    const char *fraction = mark + (mark < end && *mark == '.');
    if (mark == whole || digits_end(fraction, end) != end || (fraction > mark && fraction == end))
        return 0;
    while (whole < mark && *whole == '0')
        whole++;
    while (end > fraction && end[-1] == '0')
        end--;
    int sign = whole == mark && fraction == end ? 0 : is_negative ? -1 : 1;
    *found = (digits){whole, fraction, (int)(mark - whole), (int)(end - fraction), sign};
    return 1;
}

/* Compares two texts as memcmp, and the shorter one is less where it is how the other begins. */
static int compare_bytes(const char *first, int first_length, const char *second, int second_length) {
    int length = first_length < second_length ? first_length : second_length;
    int order = length > 0 ? memcmp(first, second, (size_t)length) : 0;
    return order ? order : first_length - second_length;
}

/* The collation num_decimal: decimals by their numbers, and after them other texts by their bytes. */
static int compare_decimals(void *none, int length1, const void *text1, int length2, const void *text2) {
    digits first, second;
    int is_first = find_digits(text1, length1, &first), is_second = find_digits(text2, length2, &second);
    (void)none;
    if (is_first != is_second)
        return is_second - is_first;
    if (!is_first)
        return compare_bytes(text1, length1, text2, length2);
    if (first.sign != second.sign)
        return first.sign - second.sign;
    int order = first.whole_length - second.whole_length;
    if (order == 0)
        order = compare_bytes(first.whole, first.whole_length, second.whole, second.whole_length);
    if (order == 0)
        order = compare_bytes(first.fraction, first.fraction_length, second.fraction, second.fraction_length);
    return first.sign * ((order > 0) - (order < 0));
}

static const function functions[] = {
    {"num_format", 2, call_format, 0, 0},
    {"num_format", 3, call_format, 0, 0},
    {"num_format_units", 3, call_format_units, 0, 0},
    {"num_parse", 2, call_parse, 0, 0},
    {"num_parse_units", 3, call_parse_units, 0, 0},
    {"num_parse_decimal", 2, call_parse_decimal, 0, 0},
    {"num_parse_typed", 2, call_parse, 0, 1},
    {"num_parse_typed_units", 3, call_parse_units, 0, 1},
    {"num_parse_typed_decimal", 2, call_parse_decimal, 0, 1},
    {"num_try_parse", 2, call_parse, 1, 0},
    {"num_try_parse_units", 3, call_parse_units, 1, 0},
    {"num_try_parse_decimal", 2, call_parse_decimal, 1, 0},
    {"num_try_parse_typed", 2, call_parse, 1, 1},
    {"num_try_parse_typed_units", 3, call_parse_units, 1, 1},
    {"num_try_parse_typed_decimal", 2, call_parse_decimal, 1, 1},
    {"num_locale", 1, call_locale, 0, 0},
    {"num_format_version", 0, call_version, 0, 0},
};

/* Adds or removes a function. */
static int register_function(sqlite3 *database, size_t i, void (*call)(sqlite3_context *, int, sqlite3_value **)) {
    const int flags = SQLITE_UTF8 | SQLITE_DETERMINISTIC | SQLITE_INNOCUOUS;
    const function *added = &functions[i];
    return sqlite3_create_function(database, added->name, added->arguments, flags, (void *)added, call, NULL, NULL);
}

/* Where SQLite begins: it makes this name of the letters of the file's name. */
__attribute__((visibility("default"))) int
sqlite3_numformat_init(sqlite3 *database, char **error, const sqlite3_api_routines *api) {
    (void)error;
    SQLITE_EXTENSION_INIT2(api);
    size_t i = 0, count = sizeof functions / sizeof *functions;
    int status = SQLITE_OK;
    while (i < count && status == SQLITE_OK)
        status = register_function(database, i, functions[i].call), i++;
    if (status == SQLITE_OK)
        status = sqlite3_create_collation(database, "num_decimal", SQLITE_UTF8, NULL, compare_decimals);
    /* Where one fails SQLite unloads this file, so nothing may be left that calls it. */
    while (status != SQLITE_OK && i-- > 0)
        register_function(database, i, NULL);
    return status;
}
