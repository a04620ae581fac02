/* Times the library for C beside a copy of itself, printf and scanf, strtoll, and ICU where it is there.
 *
 *     ./a.out FOLDER SECONDS    # cells that cells.py writes, and how long each call is measured in a cell
 *
 * cells.h says how it is built, and what is printed. -DHAS_ICU says that ICU is there. */
#include "cells.h"

#include <num_format.h>

static num_format format;

/* A function that prints each number into an array, by an expression that gives the length of the text. */
#define PRINTS(name, expected, length) \
    static bool name(bool checks) { \
        char text[NUM_FORMAT_DECIMAL_MAX]; \
        for (size_t k = 0; k < now.count; k++) { \
            long found = (length); \
            use(text); \
            if (checks && !is_word(now.expected[k], text, found)) \
                return false; \
        } \
        return true; \
    }

/* A function that parses each text, by an expression that gives whether it is one of a number, as it is expected to. */
#define PARSES(name, is_expected, is_parsed) \
    static bool name(bool checks) { \
        for (size_t k = 0; k < now.count; k++) { \
            int64_t number = 0; \
            bool parsed = (is_parsed); \
            use(&number); \
            if (checks && (parsed ? number != now.numbers[k] : is_expected)) \
                return false; \
            if (checks && parsed != is_expected) \
                return false; \
        } \
        return true; \
    }

/* The column that is parsed, that which is printed, and the numbers that are parsed. */
static int64_t *offsets, *printed_offsets, *parsed_numbers;
static char *bytes, *printed;
static size_t size;
static int32_t *statuses;

#define GIVEN(word) (word).text, (word).length
#define NO_NULLS NULL, 0, 0
#define TEXTS(offsets, bytes) offsets, (now.count + 1) * 8, NUM_FORMAT_I64, bytes, size

static bool is_strict(word text, int64_t *number) {
    size_t at;
    return num_format_parse_strict_i64(&format, 64, GIVEN(text), number, &at) == 0;
}
static bool is_decimal(word text, int64_t *units) {
    uint32_t scale;
    size_t at;
    return num_format_parse_decimal_i64(&format, GIVEN(text), units, &scale, &at) == 0 && scale == 2;
}
PRINTS(print, texts, num_format_print_i64(&format, now.numbers[k], text, sizeof text))
PARSES(strict, true, is_strict(now.texts[k], &number))
PARSES(lenient, true, num_format_parse_i64(&format, 64, GIVEN(now.texts[k]), &number) == 0)
PARSES(refused, false, is_strict(now.with_letter[k], &number))
PRINTS(print_decimal, decimals, num_format_print_decimal_i64(&format, now.numbers[k], 2, text, sizeof text))
PARSES(parse_decimal, true, is_decimal(now.decimals[k], &number))

static bool print_column(bool checks) {
    size_t length;
    if (num_format_print_column(&format, NUM_FORMAT_I64, now.numbers, now.count * 8, NO_NULLS,
                                TEXTS(printed_offsets, printed), &length))
        return false;
    for (size_t k = 0; checks && k < now.count; k++)
        if (!is_word(now.texts[k], printed + printed_offsets[k], printed_offsets[k + 1] - printed_offsets[k]))
            return false;
    return true;
}
static bool parse_column(bool checks) {
    return num_format_parse_column(&format, NUM_FORMAT_I64, 0, TEXTS(offsets, bytes), parsed_numbers, now.count * 8,
                                   NO_NULLS, statuses, now.count) == 0 &&
           (!checks || !memcmp(parsed_numbers, now.numbers, now.count * 8));
}

const way OF_LIBRARY()[] = {
    {"print", "`num_format_print_i64`", print, NULL},
    {"parse, strict", "`num_format_parse_strict_i64`", strict, NULL},
    {"parse, lenient", "`num_format_parse_i64`", lenient, NULL},
    {"parse, refused", "`num_format_parse_strict_i64`", refused, NULL},
    {"decimal, print", "`num_format_print_decimal`", print_decimal, NULL},
    {"decimal, parse", "`num_format_parse_decimal`", parse_decimal, NULL},
    {"column, print", "`num_format_print_column`", print_column, NULL},
    {"column, parse", "`num_format_parse_column`", parse_column, NULL},
    {NULL, NULL, NULL, NULL},
};

/* Makes the format of the cell, and the column of its texts, which differs from each number until it is parsed. */
void OF_LIBRARY(prepare_)(void) {
    bool is_own = !strcmp(now.format, "own");
    int status = is_own ? num_format_custom_decimal(&format, "’", 3, NUM_FORMAT_INDIAN, "−", 3, ",", 1)
                        : num_format_locale_str(&format, now.format);
    if (status)
        exit(3);
    size = now.count * NUM_FORMAT_MAX;
    offsets = need(calloc(now.count + 1, sizeof *offsets));
    printed_offsets = need(calloc(now.count + 1, sizeof *offsets));
    parsed_numbers = need(calloc(now.count, sizeof *parsed_numbers));
    statuses = need(calloc(now.count, sizeof *statuses));
    bytes = need(calloc(size, 1));
    printed = need(calloc(size, 1));
    char *end = bytes;
    for (size_t k = 0; k < now.count; k++) {
        memcpy(end, now.texts[k].text, now.texts[k].length);
        end += now.texts[k].length;
        offsets[k + 1] = end - bytes;
    }
}

#ifndef IS_COPY
#include <inttypes.h>
#include <locale.h>

/* Whether the C library has a locale for the format of the cell, and whether ICU has. */
static bool has_locale, has_icu;

static bool is_all(word text, int64_t *number) {
    char *end;
    *number = strtoll(text.text, &end, 10);
    return !*end;
}
PRINTS(by_printf, texts, snprintf(text, sizeof text, "%'" PRId64, now.numbers[k]))
PARSES(by_scanf, true, sscanf(now.texts[k].text, "%'" SCNd64, &number) == 1)
PRINTS(digits_by_printf, digits, snprintf(text, sizeof text, "%" PRId64, now.numbers[k]))
PARSES(digits_by_strtoll, true, is_all(now.digits[k], &number))
PARSES(refused_by_strtoll, false, is_all(now.with_letter[k], &number))

#ifdef HAS_ICU
#include <unicode/unum.h>
#include <unicode/ustring.h>

/* What prints and parses whole numbers, and two decimals, in UTF-16. */
static UNumberFormat *whole, *with_decimals;

static long utf8(char *text, const UChar *wide, int32_t length) {
    UErrorCode error = U_ZERO_ERROR;
    int32_t written = 0;
    u_strToUTF8(text, NUM_FORMAT_DECIMAL_MAX, &written, wide, length, &error);
    return U_SUCCESS(error) ? written : -1;
}
static long icu_print(char *text, int64_t number) {
    UChar wide[NUM_FORMAT_DECIMAL_MAX];
    UErrorCode error = U_ZERO_ERROR;
    return utf8(text, wide, unum_formatInt64(whole, number, wide, NUM_FORMAT_DECIMAL_MAX, NULL, &error));
}
static long icu_print_decimal(char *text, word digits) {
    UChar wide[NUM_FORMAT_DECIMAL_MAX];
    UErrorCode error = U_ZERO_ERROR;
    const int32_t length = (int32_t)digits.length, most = NUM_FORMAT_DECIMAL_MAX;
    return utf8(text, wide, unum_formatDecimal(with_decimals, digits.text, length, wide, most, NULL, &error));
}
static bool icu_parse(word text, int64_t *number) {
    UChar wide[NUM_FORMAT_DECIMAL_MAX];
    UErrorCode error = U_ZERO_ERROR;
    int32_t length = 0;
    u_strFromUTF8(wide, NUM_FORMAT_DECIMAL_MAX, &length, text.text, (int32_t)text.length, &error);
    *number = unum_parseInt64(whole, wide, length, NULL, &error);
    return U_SUCCESS(error);
}
PRINTS(by_icu, texts, icu_print(text, now.numbers[k]))
PARSES(parsed_by_icu, true, icu_parse(now.texts[k], &number))
PRINTS(decimal_by_icu, decimals, icu_print_decimal(text, now.decimal_digits[k]))
#endif

static const way others[] = {
    {"print", "`snprintf` of `%'ld`", by_printf, &has_locale},
    {"print", "`snprintf` of `%ld`, digits", digits_by_printf, NULL},
    {"parse, strict", "`sscanf` of `%'ld`", by_scanf, &has_locale},
    {"parse, strict", "`strtoll` of digits", digits_by_strtoll, NULL},
    {"parse, refused", "`strtoll`, and its end", refused_by_strtoll, NULL},
    {"column, print", "`snprintf` of `%'ld`", by_printf, &has_locale},
    {"column, parse", "`sscanf` of `%'ld`", by_scanf, &has_locale},
#ifdef HAS_ICU
    {"print", "ICU", by_icu, &has_icu},
    {"parse, strict", "ICU", parsed_by_icu, &has_icu},
    {"decimal, print", "ICU", decimal_by_icu, &has_icu},
#endif
    {NULL, NULL, NULL, NULL},
};

/* Both libraries' locale of each format. The C library's hi_IN groups in another way. */
static void prepare_others(void) {
    static const char *const names[][2] = {
        {"en", "en_US.UTF-8"}, {"fr", "fr_FR.UTF-8"}, {"hi", NULL}, {"en-US-POSIX", "C"}};
    has_locale = has_icu = false;
    for (size_t k = 0; k < sizeof names / sizeof *names; k++)
        if (!strcmp(names[k][0], now.format)) {
            has_locale = names[k][1] && setlocale(LC_NUMERIC, names[k][1]);
#ifdef HAS_ICU
            UErrorCode error = U_ZERO_ERROR;
            whole = unum_open(UNUM_DEFAULT, NULL, 0, now.format, NULL, &error);
            with_decimals = unum_clone(whole, &error);
            unum_setAttribute(with_decimals, UNUM_FRACTION_DIGITS, 2);
            has_icu = U_SUCCESS(error);
#endif
        }
}

int main(int argc, char **argv) {
    if (argc != 3)
        return 3;
    measure_cells(argv[1], prepare_others, others, atof(argv[2]));
    return 0;
}
#endif
