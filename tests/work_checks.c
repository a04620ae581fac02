/* Makes one call of the library for C, for tests/work_checks.py, which counts the instructions of the call.
 *
 *     cc -O2 -I crates/num_format_c tests/work_checks.c crates/num_format_c/out/libnum_format_c.a -o work
 *     ./work                prints the names of the calls, one a line
 *     ./work NAME TIMES     makes that call so many times
 *
 * The exit status is 1 where a call returned something else than it has to, and 2 for other words.
 */
#include "num_format.h"

#include <stdio.h>
#include <stdlib.h>
#include <string.h>

/* What the library copies and fills bytes by, for x86-64: eight at an instruction, and then the rest. Those of the
 * C library have other code for each kind of processor. */
void *memcpy(void *to, const void *from, size_t length) {
    void *next = to;
    size_t words = length / 8, rest = length % 8;
    __asm__ volatile("rep movsq" : "+D"(next), "+S"(from), "+c"(words) : : "memory");
    __asm__ volatile("rep movsb" : "+D"(next), "+S"(from), "+c"(rest) : : "memory");
    return to;
}

void *memmove(void *to, const void *from, size_t length) {
    if ((uintptr_t)to - (uintptr_t)from >= length)
        return memcpy(to, from, length);
    volatile char *bytes = to;
    while (length-- > 0)
        bytes[length] = ((const char *)from)[length];
    return to;
}

void *memset(void *to, int byte, size_t length) {
    void *next = to;
    size_t words = length / 8, rest = length % 8;
    uint64_t word = (uint8_t)byte * UINT64_C(0x0101010101010101);
    __asm__ volatile("rep stosq" : "+D"(next), "+c"(words) : "a"(word) : "memory");
    __asm__ volatile("rep stosb" : "+D"(next), "+c"(rest) : "a"(word) : "memory");
    return to;
}

/* A text and its length. */
#define TEXT(text) text, sizeof text - 1

/* The text of INT64_MIN. */
#define LONG TEXT("-9,223,372,036,854,775,808")

/* Numbers as fr, de-CH, pl and sv print them, with U+202F, U+2019, U+00A0 and U+2212. */
#define FRENCH "-1\u202f" "234"
#define SWISS "1\u2019" "234"
#define POLISH "12\u00a0" "345,67"
#define SWEDISH "\u2212" "5,50"

/* Of fa, where U+066C separates. */
#define MINUS "\u200e\u2212"
#define PERSIAN TEXT(MINUS "9\u066c" "223\u066c" "372\u066c" "036\u066c" "854\u066c" "775\u066c" "808")
#define ARABEXT TEXT(MINUS "۹\u066c" "۲۲۳\u066c" "۳۷۲\u066c" "۰۳۶\u066c" "۸۵۴\u066c" "۷۷۵\u066c" "۸۰۸")
#define PERSIAN_DECIMAL TEXT(MINUS "1\u066c" "234\u066b" "50")
#define PERSIAN_DIGITS TEXT(MINUS "1\u066c" "234\u066c" "567\u066c" "890\u066b" "12")
#define ARABEXT_DIGITS TEXT(MINUS "۱\u066c" "۲۳۴\u066c" "۵۶۷\u066c" "۸۹۰\u066b" "۱۲")
#define DEVA_DIGITS TEXT(MINUS "१\u066c" "२३४\u066c" "५६७\u066c" "८९०\u066b" "१२")
#define ADLM_DIGITS TEXT(MINUS "𞥑\u066c" "𞥒𞥓𞥔\u066c" "𞥕𞥖𞥗\u066c" "𞥘𞥙𞥐\u066b" "𞥑𞥒")
#define ARABEXT_DECIMAL TEXT(MINUS "۱\u066c" "۲۳۴\u066b" "۵۰")

static num_format en, fr, de_CH, pl, sv, fa, arabext, deva, adlm, built, filled;
static char text[NUM_FORMAT_DECIMAL_MAX];
static int64_t number;
static uint64_t low, high;
static uint32_t scale;
static size_t at;

/* A column. */
enum { ROWS = 4 };
static const int64_t values[ROWS] = {0, -234, 1234567, INT64_MIN};
static int64_t parsed[ROWS];
static int32_t offsets[ROWS + 1], statuses[ROWS];
static char texts[64];
static size_t texts_length;

#define NO_NULLS NULL, 0, 0
#define TEXTS offsets, sizeof offsets, NUM_FORMAT_I32, texts, sizeof texts

/* A column of numbers of 19 digits, printed under a format as numbers, or as decimals with two of them after the mark. */
typedef struct column {
    num_format *format;
    int32_t offsets[ROWS + 1];
    char texts[512];
    size_t length;
} column;
static column in_fa = {.format = &fa}, in_arabext = {.format = &arabext};
static column in_deva = {.format = &deva}, in_adlm = {.format = &adlm};
static column prices_in_fa = {.format = &fa}, prices_in_arabext = {.format = &arabext};
static column prices_in_deva = {.format = &deva}, prices_in_adlm = {.format = &adlm};
static const int64_t longest[ROWS] = {INT64_MIN, INT64_MAX, INT64_MIN, INT64_MAX};
static uint64_t units[2 * ROWS], parsed_units[2 * ROWS];

#define PRINTED(column) (column)->offsets, sizeof (column)->offsets, NUM_FORMAT_I32, (column)->texts, sizeof (column)->texts
#define TO(values) values, sizeof values, NO_NULLS

static int print_longest(column *to) {
    return num_format_print_column(to->format, NUM_FORMAT_I64, TO(longest), PRINTED(to), &to->length);
}
static int print_prices(column *to) {
    return num_format_print_decimal_column(to->format, units, sizeof units, 2, NO_NULLS, PRINTED(to), &to->length);
}
static int parse_longest(column *from) {
    return num_format_parse_column(from->format, NUM_FORMAT_I64, 0, PRINTED(from), TO(parsed), statuses, ROWS);
}
static int parse_longest_typed(column *from) {
    return num_format_parse_column(from->format, NUM_FORMAT_I64, NUM_FORMAT_TYPED, PRINTED(from), TO(parsed), statuses, ROWS);
}
static int parse_prices(column *from) {
    return num_format_parse_decimal_column(from->format, 2, PRINTED(from), TO(parsed_units), statuses, ROWS);
}
static int parse_prices_typed(column *from) {
    return num_format_parse_typed_decimal_column(from->format, 2, PRINTED(from), TO(parsed_units), statuses, ROWS);
}

/* Prints the columns to parse, and returns 0. */
static int print_columns(void) {
    for (size_t i = 0; i < ROWS; i++) {
        units[2 * i] = (uint64_t)longest[i];
        units[2 * i + 1] = longest[i] < 0 ? UINT64_MAX : 0;
    }
    return print_longest(&in_fa) | print_longest(&in_arabext) | print_longest(&in_deva) | print_longest(&in_adlm) |
           print_prices(&prices_in_fa) | print_prices(&prices_in_arabext) | print_prices(&prices_in_deva) |
           print_prices(&prices_in_adlm);
}

/* A call of a function with each of four columns. */
#define COLUMNS(call, prefix)                                                \
    static int call##_fa(void) { return call(&prefix##in_fa); }              \
    static int call##_arabext(void) { return call(&prefix##in_arabext); }    \
    static int call##_deva(void) { return call(&prefix##in_deva); }          \
    static int call##_adlm(void) { return call(&prefix##in_adlm); }
COLUMNS(print_longest, )
COLUMNS(parse_longest, )
COLUMNS(parse_longest_typed, )
COLUMNS(parse_prices, prices_)
COLUMNS(parse_prices_typed, prices_)

/* What a format prints of three numbers and a decimal, to be parsed. */
enum { LONGEST, FEW, SHORT, PRICE, PRINTS };
typedef struct printed {
    const char *tag;
    num_format format;
    char texts[PRINTS][NUM_FORMAT_DECIMAL_MAX];
    int lengths[PRINTS];
} printed;
static printed in_en = {.tag = "en"}, in_en_deva = {.tag = "en-u-nu-deva"};
static printed in_hi = {.tag = "hi"}, in_hi_deva = {.tag = "hi-u-nu-deva"};

#define ROOM(which) to->texts[which], sizeof to->texts[which]

/* Prints a number, and returns 0 where the text is as long as the one that was printed before. */
static const int64_t numbers[] = {[LONGEST] = INT64_MIN, [FEW] = 1234, [SHORT] = -234};
static int print(const printed *from, int which) {
    return num_format_print_i64(&from->format, numbers[which], text, sizeof text) != from->lengths[which];
}

/* Prints them, and returns 0. */
static int print_texts(printed *to) {
    if (num_format_lookup(&to->format, to->tag, strlen(to->tag)) != 0)
        return 1;
    for (size_t i = LONGEST; i <= SHORT; i++)
        to->lengths[i] = num_format_print_i64(&to->format, numbers[i], ROOM(i));
    to->lengths[PRICE] = num_format_print_decimal(&to->format, (uint64_t)-123450, UINT64_MAX, 2, ROOM(PRICE));
    for (size_t i = 0; i < PRINTS; i++)
        if (to->lengths[i] < 0)
            return 1;
    return 0;
}

#define PRINT(which) from->texts[which], (size_t)from->lengths[which]

static int strictly(const printed *from, int which) {
    return num_format_parse_strict_i64(&from->format, 64, PRINT(which), &number, &at);
}
static int typed(const printed *from, int which) {
    return num_format_parse_typed(&from->format, NUM_FORMAT_I64, PRINT(which), &number, sizeof number, &at);
}
static int price(const printed *from, int which) {
    return num_format_parse_decimal(&from->format, PRINT(which), &low, &high, &scale, &at);
}
static int typed_price(const printed *from, int which) {
    return num_format_parse_typed_decimal(&from->format, PRINT(which), &low, &high, &scale, &at);
}

/* A call of a function with what each of four formats prints. */
#define TEXTS_OF(call, which)                                                         \
    static int call##_##which##_en(void) { return call(&in_en, which); }              \
    static int call##_##which##_en_deva(void) { return call(&in_en_deva, which); }    \
    static int call##_##which##_hi(void) { return call(&in_hi, which); }              \
    static int call##_##which##_hi_deva(void) { return call(&in_hi_deva, which); }
TEXTS_OF(print, LONGEST)
TEXTS_OF(print, FEW)
TEXTS_OF(print, SHORT)
TEXTS_OF(strictly, LONGEST)
TEXTS_OF(strictly, FEW)
TEXTS_OF(strictly, SHORT)
TEXTS_OF(typed, LONGEST)
TEXTS_OF(typed, FEW)
TEXTS_OF(typed, SHORT)
TEXTS_OF(price, PRICE)
TEXTS_OF(typed_price, PRICE)

static int print_short(void) { return num_format_print_i64(&en, -234, text, sizeof text); }
static int print_long(void) { return num_format_print_i64(&en, INT64_MIN, text, sizeof text); }
static int print_built(void) { return num_format_print_i64(&built, INT64_MIN, text, sizeof text); }
static int print_wide(void) { return num_format_print_u128(&en, UINT64_MAX, UINT64_MAX, text, sizeof text); }
static int print_persian(void) { return num_format_print_i64(&fa, INT64_MIN, text, sizeof text); }
static int print_arabext(void) { return num_format_print_i64(&arabext, INT64_MIN, text, sizeof text); }
static int print_decimal(void) { return num_format_print_decimal(&en, (uint64_t)-5, UINT64_MAX, 2, text, sizeof text); }
static int measure_decimal(void) { return num_format_print_decimal_len(&en, (uint64_t)-5, UINT64_MAX, 2); }
static int parse_short(void) { return num_format_parse_i64(&en, 64, TEXT("-234"), &number); }
static int parse_long(void) { return num_format_parse_i64(&en, 64, LONG, &number); }
static int parse_refused(void) { return num_format_parse_i64(&en, 64, TEXT("one"), &number); }
static int strict_short(void) { return num_format_parse_strict_i64(&en, 64, TEXT("-234"), &number, &at); }
static int strict_long(void) { return num_format_parse_strict_i64(&en, 64, LONG, &number, &at); }
static int strict_refused(void) { return num_format_parse_strict_i64(&en, 64, TEXT("1,23"), &number, &at); }
static int strict_few(void) { return num_format_parse_strict_i64(&en, 64, TEXT("1,234"), &number, &at); }
static int strict_french(void) { return num_format_parse_strict_i64(&fr, 64, TEXT(FRENCH), &number, &at); }
static int strict_minus(void) { return num_format_parse_strict_i64(&en, 64, TEXT("-1,234"), &number, &at); }
static int strict_swiss(void) { return num_format_parse_strict_i64(&de_CH, 64, TEXT(SWISS), &number, &at); }
static int strict_persian(void) { return num_format_parse_strict_i64(&fa, 64, PERSIAN, &number, &at); }
static int strict_arabext(void) { return num_format_parse_strict_i64(&arabext, 64, ARABEXT, &number, &at); }
static int decimal(void) { return num_format_parse_decimal(&en, TEXT("1,234.50"), &low, &high, &scale, &at); }
static int decimal_french(void) { return num_format_parse_decimal(&fr, TEXT(FRENCH ",50"), &low, &high, &scale, &at); }
static int decimal_polish(void) { return num_format_parse_decimal(&pl, TEXT(POLISH), &low, &high, &scale, &at); }
static int decimal_swedish(void) { return num_format_parse_decimal(&sv, TEXT(SWEDISH), &low, &high, &scale, &at); }
static int typed_short(void) { return num_format_parse_typed(&en, NUM_FORMAT_I64, TEXT("-234"), &number, sizeof number, &at); }
static int decimal_persian(void) { return num_format_parse_decimal(&fa, PERSIAN_DECIMAL, &low, &high, &scale, &at); }
static int digits_fa(void) { return num_format_parse_decimal(&fa, PERSIAN_DIGITS, &low, &high, &scale, &at); }
static int digits_arabext(void) { return num_format_parse_decimal(&arabext, ARABEXT_DIGITS, &low, &high, &scale, &at); }
static int digits_deva(void) { return num_format_parse_decimal(&deva, DEVA_DIGITS, &low, &high, &scale, &at); }
static int digits_adlm(void) { return num_format_parse_decimal(&adlm, ADLM_DIGITS, &low, &high, &scale, &at); }
static int decimal_arabext(void) { return num_format_parse_decimal(&arabext, ARABEXT_DECIMAL, &low, &high, &scale, &at); }
static int typed_long(void) { return num_format_parse_typed(&en, NUM_FORMAT_I64, LONG, &number, sizeof number, &at); }
static int typed_plus(void) { return num_format_parse_typed(&en, NUM_FORMAT_I64, TEXT(" +1,234"), &number, sizeof number, &at); }
static int typed_newline(void) { return num_format_parse_typed(&en, NUM_FORMAT_I64, TEXT("1,234\n"), &number, sizeof number, &at); }
static int typed_french(void) { return num_format_parse_typed(&fr, NUM_FORMAT_I64, TEXT("-1 234"), &number, sizeof number, &at); }
static int typed_minus(void) { return num_format_parse_typed(&en, NUM_FORMAT_I64, TEXT("\u2212" "1,234"), &number, sizeof number, &at); }
static int typed_swiss(void) { return num_format_parse_typed(&de_CH, NUM_FORMAT_I64, TEXT("1'234"), &number, sizeof number, &at); }
static int typed_no_break(void) { return num_format_parse_typed(&fr, NUM_FORMAT_I64, TEXT("-1\u00a0" "234"), &number, sizeof number, &at); }
static int typed_persian(void) { return num_format_parse_typed(&fa, NUM_FORMAT_I64, PERSIAN, &number, sizeof number, &at); }
static int typed_arabext(void) { return num_format_parse_typed(&arabext, NUM_FORMAT_I64, ARABEXT, &number, sizeof number, &at); }
static int typed_persian_plus(void) { return num_format_parse_typed(&fa, NUM_FORMAT_I64, TEXT("+1\u066c" "234"), &number, sizeof number, &at); }
static int typed_arabext_plus(void) { return num_format_parse_typed(&arabext, NUM_FORMAT_I64, TEXT("+۱\u066c" "۲۳۴"), &number, sizeof number, &at); }
static int typed_decimal(void) { return num_format_parse_typed_decimal(&en, TEXT("1,234.50"), &low, &high, &scale, &at); }
static int typed_decimal_plus(void) { return num_format_parse_typed_decimal(&en, TEXT(" +1,234.50"), &low, &high, &scale, &at); }
static int typed_decimal_french(void) { return num_format_parse_typed_decimal(&fr, TEXT("-1 234,50"), &low, &high, &scale, &at); }
static int typed_decimal_no_break(void) { return num_format_parse_typed_decimal(&fr, TEXT("-1\u00a0" "234,50"), &low, &high, &scale, &at); }
static int typed_decimal_polish(void) { return num_format_parse_typed_decimal(&pl, TEXT("12 345,67"), &low, &high, &scale, &at); }
static int typed_decimal_swedish(void) { return num_format_parse_typed_decimal(&sv, TEXT("-5,50"), &low, &high, &scale, &at); }
static int typed_decimal_persian(void) { return num_format_parse_typed_decimal(&fa, PERSIAN_DECIMAL, &low, &high, &scale, &at); }
static int typed_decimal_arabext(void) { return num_format_parse_typed_decimal(&arabext, ARABEXT_DECIMAL, &low, &high, &scale, &at); }
static int typed_column(void) {
    return num_format_parse_column(&en, NUM_FORMAT_I64, NUM_FORMAT_TYPED, TEXTS, parsed, sizeof parsed, NO_NULLS, statuses, ROWS);
}
static int print_column(void) {
    return num_format_print_column(&en, NUM_FORMAT_I64, values, sizeof values, NO_NULLS, TEXTS, &texts_length);
}
static int measure_column(void) {
    return num_format_print_column_len(&en, NUM_FORMAT_I64, values, sizeof values, NO_NULLS, &texts_length);
}
static int parse_column(void) {
    return num_format_parse_column(&en, NUM_FORMAT_I64, 0, TEXTS, parsed, sizeof parsed, NO_NULLS, statuses, ROWS);
}
static int locale(void) { return num_format_locale(&filled, TEXT("de-AT")); }
static int custom(void) { return num_format_custom(&filled, TEXT("'"), NUM_FORMAT_INDIAN, TEXT("-")); }

#define FOUR(name, call)                                  \
    {name, call##_fa, 0},                                 \
    {name ", digits arabext", call##_arabext, 0},         \
    {name ", digits deva", call##_deva, 0},               \
    {name ", digits adlm", call##_adlm, 0}

#define DEVA(name, call)                              \
    {name ", en", call##_en, 0},                      \
    {name ", en, digits deva", call##_en_deva, 0},    \
    {name ", hi", call##_hi, 0},                      \
    {name ", hi, digits deva", call##_hi_deva, 0}

/* The calls, and what each returns. */
static const struct {
    const char *name;
    int (*call)(void);
    int returned;
} calls[] = {
    {"print i64 -234", print_short, 4},
    {"print i64 INT64_MIN", print_long, 26},
    {"print i64 INT64_MIN, Indian, separators of 8 bytes", print_built, 86},
    {"print u128 UINT128_MAX", print_wide, 51},
    {"print i64 INT64_MIN, fa", print_persian, 37},
    {"print i64 INT64_MIN, fa, digits arabext", print_arabext, 56},
    {"print decimal -0.05", print_decimal, 5},
    {"measure decimal -0.05", measure_decimal, 5},
    {"parse i64 -234", parse_short, 0},
    {"parse i64 INT64_MIN", parse_long, 0},
    {"parse i64 one, refused", parse_refused, NUM_FORMAT_NOT_A_NUMBER},
    {"parse strictly i64 -234", strict_short, 0},
    {"parse strictly i64 INT64_MIN", strict_long, 0},
    {"parse strictly i64 1,23, refused", strict_refused, NUM_FORMAT_MISSPELLED},
    {"parse strictly i64 1,234", strict_few, 0},
    {"parse strictly i64 -1,234", strict_minus, 0},
    {"parse strictly i64 -1 234, fr", strict_french, 0},
    {"parse strictly i64 1'234, de-CH", strict_swiss, 0},
    {"parse strictly i64 INT64_MIN, fa", strict_persian, 0},
    {"parse strictly i64 INT64_MIN, fa, digits arabext", strict_arabext, 0},
    {"parse decimal 1,234.50", decimal, 0},
    {"parse decimal -1 234,50, fr", decimal_french, 0},
    {"parse decimal 12 345,67, pl", decimal_polish, 0},
    {"parse decimal -5,50, sv", decimal_swedish, 0},
    {"parse decimal -1,234.50, fa", decimal_persian, 0},
    {"parse decimal -1,234.50, fa, digits arabext", decimal_arabext, 0},
    FOUR("parse decimal of 12 digits, fa", digits),
    {"print a column, i64, 4 rows", print_column, 0},
    {"measure a column, i64, 4 rows", measure_column, 0},
    {"parse a column strictly, i64, 4 rows", parse_column, 0},
    {"parse typed i64 -234", typed_short, 0},
    {"parse typed i64 INT64_MIN", typed_long, 0},
    {"parse typed i64 +1,234 after a space", typed_plus, 0},
    {"parse typed i64 1,234 and a newline", typed_newline, 0},
    {"parse typed i64 -1,234 with U+2212", typed_minus, 0},
    {"parse typed i64 -1 234, fr", typed_french, 0},
    {"parse typed i64 -1 234 with U+00A0, fr", typed_no_break, 0},
    {"parse typed i64 1'234, de-CH", typed_swiss, 0},
    {"parse typed i64 INT64_MIN, fa", typed_persian, 0},
    {"parse typed i64 INT64_MIN, fa, digits arabext", typed_arabext, 0},
    {"parse typed i64 +1,234, fa", typed_persian_plus, 0},
    {"parse typed i64 +1,234, fa, digits arabext", typed_arabext_plus, 0},
    {"parse typed decimal 1,234.50", typed_decimal, 0},
    {"parse typed decimal +1,234.50 after a space", typed_decimal_plus, 0},
    {"parse typed decimal -1 234,50, fr", typed_decimal_french, 0},
    {"parse typed decimal -1 234,50 with U+00A0, fr", typed_decimal_no_break, 0},
    {"parse typed decimal 12 345,67, pl", typed_decimal_polish, 0},
    {"parse typed decimal -5,50, sv", typed_decimal_swedish, 0},
    {"parse typed decimal -1,234.50, fa", typed_decimal_persian, 0},
    {"parse typed decimal -1,234.50, fa, digits arabext", typed_decimal_arabext, 0},
    {"parse a column as typed, i64, 4 rows", typed_column, 0},
    FOUR("print a column, 19 digits, fa", print_longest),
    FOUR("parse a column strictly, 19 digits, fa", parse_longest),
    FOUR("parse a column as typed, 19 digits, fa", parse_longest_typed),
    FOUR("parse a decimal column, 19 digits, fa", parse_prices),
    FOUR("parse a typed decimal column, 19 digits, fa", parse_prices_typed),
    DEVA("print i64 INT64_MIN", print_LONGEST),
    DEVA("print i64 1,234", print_FEW),
    DEVA("print i64 -234", print_SHORT),
    DEVA("parse strictly i64 INT64_MIN", strictly_LONGEST),
    DEVA("parse strictly i64 1,234", strictly_FEW),
    DEVA("parse strictly i64 -234", strictly_SHORT),
    DEVA("parse typed i64 INT64_MIN", typed_LONGEST),
    DEVA("parse typed i64 1,234", typed_FEW),
    DEVA("parse typed i64 -234", typed_SHORT),
    DEVA("parse decimal -1,234.50", price_PRICE),
    DEVA("parse typed decimal -1,234.50", typed_price_PRICE),
    {"fill with the locale de-AT", locale, 0},
    {"fill with a custom format", custom, 0},
};

/* Makes a call so many times. */
static int make(int (*call)(void), long times, int returned) {
    int as_expected = 1;
    for (long i = 0; i < times; i++)
        as_expected &= call() == returned;
    return as_expected ? 0 : 1;
}

int main(int count, char **words) {
    if (num_format_locale(&en, TEXT("en")) != 0 || num_format_locale(&fr, TEXT("fr")) != 0 ||
        num_format_locale(&de_CH, TEXT("de-CH")) != 0 || num_format_locale(&pl, TEXT("pl")) != 0 ||
        num_format_locale(&sv, TEXT("sv")) != 0 || num_format_locale(&fa, TEXT("fa")) != 0 ||
        num_format_lookup(&arabext, TEXT("fa-u-nu-arabext")) != 0 ||
        num_format_lookup(&deva, TEXT("fa-u-nu-deva")) != 0 || num_format_lookup(&adlm, TEXT("fa-u-nu-adlm")) != 0 ||
        num_format_custom(&built, TEXT("’’·"), NUM_FORMAT_INDIAN, TEXT("−")) != 0 || print_column() != 0 ||
        print_columns() != 0 || print_texts(&in_en) != 0 || print_texts(&in_en_deva) != 0 || print_texts(&in_hi) != 0 ||
        print_texts(&in_hi_deva) != 0)
        return 1;
    for (size_t i = 0; i < sizeof calls / sizeof *calls; i++) {
        if (count == 1)
            puts(calls[i].name);
        else if (count == 3 && strcmp(words[1], calls[i].name) == 0)
            return make(calls[i].call, atol(words[2]), calls[i].returned);
    }
    return count == 1 ? 0 : 2;
}
