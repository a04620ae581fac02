/* Makes each call at least once, also with structs that no call filled, and prints what it returns. */
#include "num_format.h"

#include <stdio.h>
#include <string.h>

static num_format en, de, format;
static char text[NUM_FORMAT_MAX];

static void show(const char *call, int result) {
    printf("%s: %d", call, result);
    printf(result > 0 ? " %.*s\n" : "\n", result, text);
}

static void show_number(const char *call, int result, const void *number) {
    printf("%s: %d, %lld\n", call, result, (long long)*(const int64_t *)number);
}

static void show_strict(const char *text) {
    int64_t number = 5;
    size_t at = 7;
    int result = num_format_parse_strict_i64(&en, 64, text, strlen(text), &number, &at);
    printf("parse strictly \"%s\": %d, %lld, at %zu\n", text, result, (long long)number, at);
}

/* Three numbers, of which the second is null, and two decimals with units of 128 bits. */
static void show_columns(void) {
    const int16_t values[] = {1000, 7, -5};
    const uint64_t units[] = {123450, 0, UINT64_MAX - 4, UINT64_MAX};
    const uint8_t valid[] = {5};
    int16_t parsed[3] = {0, 0, 0};
    uint64_t parsed_units[4];
    int32_t offsets[4], statuses[3];
    size_t length = 0;
    int result = num_format_print_column_len(&de, NUM_FORMAT_I16, values, sizeof values, valid, 1, 0, &length);
    printf("length of a column: %d, %zu\n", result, length);
    result = num_format_print_column(&de, NUM_FORMAT_I16, values, sizeof values, valid, 1, 0, offsets, sizeof offsets,
                                     NUM_FORMAT_I32, text, sizeof text, &length);
    printf("column: %d, %.*s, %d %d %d %d\n", result, (int)length, text, offsets[0], offsets[1], offsets[2], offsets[3]);
    text[0] = 'x';
    result = num_format_parse_column(&de, NUM_FORMAT_I16, 0, offsets, sizeof offsets, NUM_FORMAT_I32, text, length, parsed,
                                     sizeof parsed, valid, 1, 0, statuses, 3);
    printf("parse a column: %d, %d %d %d, %d %d %d\n", result, statuses[0], statuses[1], statuses[2], parsed[0], parsed[1], parsed[2]);
    result = num_format_print_decimal_column_len(&de, units, sizeof units, 2, NULL, 0, 0, &length);
    printf("length of decimals: %d, %zu\n", result, length);
    result = num_format_print_decimal_column(&de, units, sizeof units, 2, NULL, 0, 0, offsets, 12, NUM_FORMAT_I32, text,
                                             sizeof text, &length);
    printf("decimals: %d, %.*s, %d %d %d\n", result, (int)length, text, offsets[0], offsets[1], offsets[2]);
    result = num_format_parse_decimal_column(&de, 3, offsets, 12, NUM_FORMAT_I32, text, length, parsed_units,
                                             sizeof parsed_units, NULL, 0, 0, statuses, 2);
    printf("parse decimals: %d, %lld %lld\n", result, (long long)parsed_units[0], (long long)parsed_units[2]);
    result = num_format_parse_typed_decimal_column(&de, 4, offsets, 12, NUM_FORMAT_I32, text, length, parsed_units,
                                                   sizeof parsed_units, NULL, 0, 0, statuses, 2);
    printf("parse typed decimals: %d, %lld %lld\n", result, (long long)parsed_units[0], (long long)parsed_units[2]);
}

/* A decimal becomes its sum with another one, the difference, and the nearest with two decimals, which is below 0. */
static void show_arithmetic(void) {
    uint64_t low = 12345, high = 0;
    uint32_t scale = 2;
    int32_t order = 7;
    show_number("add", num_format_decimal_add(&low, &high, &scale, 5, 0, 3), &low);
    printf("scale: %u\n", (unsigned)scale);
    show_number("subtract", num_format_decimal_subtract(&low, &high, &scale, 200, 0, 0), &low);
    show_number("rescale, exact", num_format_decimal_rescale(&low, &high, &scale, 2, NUM_FORMAT_EXACT), &low);
    show_number("rescale, half to even", num_format_decimal_rescale(&low, &high, &scale, 2, NUM_FORMAT_HALF_EVEN), &low);
    show("compare", num_format_decimal_compare(low, high, scale, 0, 0, 0, &order));
    printf("order: %d\n", (int)order);
    show_number("add, scale 39", num_format_decimal_add(&low, &high, &scale, 1, 0, 39), &low);
}

int main(void) {
    uint64_t low = 7, high = 9, unsigned_number = 5;
    int64_t number = 5;
    show("locale en", num_format_locale(&en, "en", 2));
    show("locale de", num_format_locale(&de, "de", 2));
    show("locale en_US_POSIX", num_format_locale(&format, "en_US_POSIX", 11));
    show("print, Posix", num_format_print_i64(&format, -1000, text, sizeof text));
    memset(&format, 0, sizeof format);
    show("locale en-us", num_format_locale(&format, "en-us", 5));
    show("custom, separator too long", num_format_custom(&format, "123456789", 9, 1, "-", 1));
    show("custom, grouping 6", num_format_custom(&format, ",", 1, 6, "-", 1));
    show("custom, not UTF-8", num_format_custom(&format, "\xff", 1, 1, "-", 1));
    show("print, zeros", num_format_print_i64(&format, 1000, text, sizeof text));
    memset(&format, 0xff, sizeof format);
    show("print, ones", num_format_print_i64(&format, 1000, text, sizeof text));
    show("print decimal", num_format_print_decimal(&de, 123450, 0, 2, text, sizeof text));
    printf("length of a decimal: %d\n", num_format_print_decimal_len(&de, 123450, 0, 2));
    show("print decimal, scale 39", num_format_print_decimal(&de, 123450, 0, 39, text, sizeof text));
    show("custom, decimal mark", num_format_custom_decimal(&format, "'", 1, 1, "-", 1, "\xc2\xb7", 2));
    show("print decimal, Standard", num_format_print_decimal(&format, UINT64_MAX - 1234566, UINT64_MAX, 3, text, sizeof text));
    uint32_t scale = 3;
    size_t place = 4;
    show_number("parse decimal, low", num_format_parse_decimal(&de, "-1.234,5", 8, &low, &high, &scale, &place), &low);
    printf("scale: %u\n", (unsigned)scale);
    show_number("parse decimal with a mark too many", num_format_parse_decimal(&de, "1,2,3", 5, &low, &high, &scale, &place), &low);
    printf("at: %zu\n", place);
    show("custom, Myriad", num_format_custom(&format, "'", 1, NUM_FORMAT_MYRIAD, "\xe2\x88\x92", 3));
    show("print, Myriad", num_format_print_i64(&format, -123456789, text, sizeof text));
    format.minus_sign[2] = '-';
    show("print, not UTF-8", num_format_print_i64(&format, 1000, text, sizeof text));
    show("print into 4 bytes", num_format_print_i64(&en, 1000, text, 4));
    show("print into 5 bytes", num_format_print_i64(&en, 1000, text, 5));
    printf("lengths: %d, %d, %d, %d\n", num_format_print_i64_len(&en, INT64_MIN), num_format_print_u64_len(&en, 1000),
           num_format_print_u128_len(&en, 0, 1), num_format_print_i128_len(&de, UINT64_MAX - 999, UINT64_MAX));
    show("print u64", num_format_print_u64(&en, UINT64_MAX, text, sizeof text));
    show("print u128", num_format_print_u128(&en, UINT64_MAX, 1, text, sizeof text));
    show("print i128", num_format_print_i128(&de, UINT64_MAX - 999, UINT64_MAX, text, sizeof text));
    show_number("parse 8 bits", num_format_parse_i64(&en, 8, "-128", 4, &number), &number);
    show_number("parse past 8 bits", num_format_parse_i64(&en, 8, "128", 3, &number), &number);
    show_number("parse 7 bits", num_format_parse_i64(&en, 7, "1", 1, &number), &number);
    show_number("parse, not UTF-8", num_format_parse_i64(&en, 64, "1\xff", 2, &number), &number);
    show_number("parse u64", num_format_parse_u64(&en, 16, "65,535", 6, &unsigned_number), &unsigned_number);
    show_number("parse u128, low", num_format_parse_u128(&de, "18.446.744.073.709.551.617", 26, &low, &high), &low);
    show_number("parse u128, high", 0, &high);
    show_number("parse i128, low", num_format_parse_i128(&en, "-2", 2, &low, &high), &low);
    show_number("parse i128, high", 0, &high);
    show_strict("-1,234");
    show_strict("12.50");
    show_strict("-");
    show_strict("1,23");
    show_strict("9,223,372,036,854,775,808");
    size_t at = 7;
    show_number("parse strictly, u64", num_format_parse_strict_u64(&en, 16, "65,535", 6, &unsigned_number, &at), &unsigned_number);
    show_number("parse strictly, u128, low", num_format_parse_strict_u128(&de, "18.446.744.073.709.551.618", 26, &low, &high, &at), &low);
    show_number("parse strictly, u128, high", 0, &high);
    show_number("parse strictly, i128, low", num_format_parse_strict_i128(&en, "-3", 2, &low, &high, &at), &low);
    show_number("parse strictly, i128, high", 0, &high);
    show_number("parse strictly, i128 with a point", num_format_parse_strict_i128(&en, "-3.5", 4, &low, &high, &at), &low);
    printf("at: %zu\n", at);
    printf("reads back: %d, %d\n", num_format_reads_back(&en), num_format_reads_back(&format));
    show("custom, separator 7", num_format_custom(&format, "7", 1, NUM_FORMAT_STANDARD, "-", 1));
    show_number("parse strictly, separator 7", num_format_parse_strict_i64(&format, 64, "5", 1, &number, &at), &number);
    printf("prints alike: %d, %d\n", num_format_prints_alike(&en, &de), num_format_prints_alike(&en, &en));
    show("name 90", num_format_names(90, text, sizeof text));
    show("name for de_AT.UTF-8", num_format_lookup_name("de_AT.UTF-8", 11, text, sizeof text));
    show("lookup en-us", num_format_lookup(&format, "en-us", 5));
    show("lookup english", num_format_lookup(&format, "english", 7));
    show("lookup en-u-nu-deva", num_format_lookup(&format, "en-u-nu-deva", 12));
    show("digits roman", num_format_set_digits(&format, "roman", 5));
    show("digits fullwide", num_format_set_digits(&format, "fullwide", 8));
    show("print in digits", num_format_print_i64(&format, -1234, text, sizeof text));
    show("name 542", num_format_names(NUM_FORMAT_LOCALES, text, sizeof text));
    show("locale_str en-IN", num_format_locale_str(&format, "en-IN"));
    show("format", num_format_format_i64(&format, -12345678, text, sizeof text));
    show("lookup_str fr_FR.UTF-8", num_format_lookup_str(&format, "fr_FR.UTF-8"));
    show("format u64", num_format_format_u64(&de, 1000, text, sizeof text));
    show("format u128", num_format_format_u128(&de, 0, 1, text, sizeof text));
    show("format i128", num_format_format_i128(&de, UINT64_MAX, UINT64_MAX, text, sizeof text));
    show("format decimal", num_format_format_decimal(&de, 123450, 0, 2, text, sizeof text));
    show("print decimal, 64 bits", num_format_print_decimal_i64(&de, -5, 2, text, sizeof text));
    show_number("parse typed", num_format_parse_typed(&de, NUM_FORMAT_I64, " -1.234", 7, &number, sizeof number, &at), &number);
    show_number("parse typed decimal, low", num_format_parse_typed_decimal(&de, "+1.234,5", 8, &low, &high, &scale, &place), &low);
    show_number("parse typed decimal, 64 bits", num_format_parse_typed_decimal_i64(&de, "-0,0", 4, &number, &scale, NULL), &number);
    show_number("parse decimal, 64 bits", num_format_parse_decimal_i64(&de, "-0,50", 5, &number, &scale, NULL), &number);
    show_arithmetic();
    show_columns();
    printf("width: %zu\n", num_format_text_width("1\u202f234", 7));
    printf("version: %u\n", (unsigned)num_format_version());
    printf("-20: %s\n", num_format_strerror(-20));
    return 0;
}
