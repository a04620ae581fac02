/* The calls for columns, by every type of values and of offsets. What is printed is compared with digits by long
 * division, and parsed again. Each error of each call comes in its order, with nothing written. Prints what is wrong,
 * and ends with status 1 where something is. */
#include <num_format.h>
#include <stdio.h>
#include <string.h>

enum { ROWS = 40, MOST_SHIFT = 3, MOST_BITS = 13, TRIED = 10, ROOM = ROWS * NUM_FORMAT_DIGITS_MAX };

/* A type of values; decimals are of one more. */
typedef struct kind {
    uint32_t type;
    size_t size;
    int is_signed, is_decimal;
} kind;

static const kind kinds[] = {
    {NUM_FORMAT_I8, 1, 1, 0},   {NUM_FORMAT_U8, 1, 0, 0},   {NUM_FORMAT_I16, 2, 1, 0},   {NUM_FORMAT_U16, 2, 0, 0},
    {NUM_FORMAT_I32, 4, 1, 0},  {NUM_FORMAT_U32, 4, 0, 0},  {NUM_FORMAT_I64, 8, 1, 0},   {NUM_FORMAT_U64, 8, 0, 0},
    {NUM_FORMAT_I128, 16, 1, 0}, {NUM_FORMAT_U128, 16, 0, 0}, {NUM_FORMAT_I128, 16, 1, 1},
};
enum { KINDS = sizeof kinds / sizeof *kinds };

/* What calls are passed. Values and offsets begin `shift` bytes after what is aligned. */
typedef struct column {
    uint64_t values[2 * ROWS + 1], offsets[ROWS + 2];
    uint8_t validity[ROWS];
    char bytes[ROOM + 1];
    int32_t statuses[ROWS];
    num_format format;
    uint32_t type, offset_type, scale, way;
    size_t shift, values_size, validity_size, bit_offset, offsets_size, bytes_size, statuses_length, length;
} column;

static column now, before;
static int status;

static void check(const char *what, size_t row, long long found, long long expected) {
    if (found == expected) return;
    fprintf(stderr, "%s, row %zu: %lld in place of %lld\n", what, row, found, expected);
    status = 1;
}

#define CHECK(what, row, found, expected) check(what, row, (long long)(found), (long long)(expected))

static uint8_t *values(void) { return (uint8_t *)now.values + now.shift; }
static uint8_t *offsets(void) { return (uint8_t *)now.offsets + now.shift; }

#define FORMAT &now.format
#define VALUES values(), now.values_size
#define NULLS now.validity, now.validity_size, now.bit_offset
#define TEXTS offsets(), now.offsets_size, now.offset_type, now.bytes, now.bytes_size
#define STATUSES now.statuses, now.statuses_length
static int32_t print(void) { return num_format_print_column(FORMAT, now.type, VALUES, NULLS, TEXTS, &now.length); }
static int32_t measure(void) { return num_format_print_column_len(FORMAT, now.type, VALUES, NULLS, &now.length); }
static int32_t parse(void) { return num_format_parse_column(FORMAT, now.type, now.way, TEXTS, VALUES, NULLS, STATUSES); }
static int32_t print_decimals(void) { return num_format_print_decimal_column(FORMAT, VALUES, now.scale, NULLS, TEXTS, &now.length); }
static int32_t measure_decimals(void) { return num_format_print_decimal_column_len(FORMAT, VALUES, now.scale, NULLS, &now.length); }
static int32_t parse_decimals(void) {
    return now.way == NUM_FORMAT_TYPED ? num_format_parse_typed_decimal_column(FORMAT, now.scale, TEXTS, VALUES, NULLS, STATUSES)
                                       : num_format_parse_decimal_column(FORMAT, now.scale, TEXTS, VALUES, NULLS, STATUSES);
}

/* The calls for numbers, and for decimals. */
static int32_t (*const calls[][3])(void) = {{print, measure, parse}, {print_decimals, measure_decimals, parse_decimals}};

/* A call returns that, and all is as it was. */
static void check_unchanged(const char *what, size_t row, int32_t (*call)(void), int32_t expected) {
    memcpy(&before, &now, sizeof now);
    CHECK(what, row, call(), expected);
    CHECK("as it was", row, memcmp(&before, &now, sizeof now), 0);
}

static size_t width(void) { return now.offset_type == NUM_FORMAT_I32 ? 4 : 8; }

static void set_offset(size_t row, int64_t offset) { memcpy(offsets() + row * width(), &offset, width()); }

static int is_null(size_t row) {
    size_t bit = now.bit_offset + row;
    return now.validity_size > 0 && !(now.validity[bit / 8] >> bit % 8 & 1);
}

/* A column of n rows under "de", of which no arrays are filled. */
static void begin(const kind *kind, uint32_t offset_type, size_t n) {
    memset(&now, 'x', sizeof now);
    CHECK("locale", 0, num_format_locale(&now.format, "de", 2), 0);
    now.type = kind->type, now.offset_type = offset_type, now.scale = 0, now.way = 0, now.shift = 0;
    now.values_size = n * kind->size, now.validity_size = 0, now.bit_offset = 0, now.offsets_size = (n + 1) * width();
    now.bytes_size = ROOM, now.statuses_length = n;
}

static uint32_t random_bits(void) {
    static uint64_t state = 35;
    state = state * 6364136223846793005u + 1442695040888963407u;
    return (uint32_t)(state >> 32);
}

/* Makes a value one of any length, of either sign. */
static void fill(const kind *kind, uint8_t *value) {
    size_t used = random_bits() % (kind->size + 1);
    memset(value, kind->is_signed && random_bits() % 2 ? 0xff : 0, kind->size);
    for (size_t k = 0; k < used; k++) value[k] = (uint8_t)random_bits();
}

/* Writes the text of a value at a scale under "de" by long division, and returns its length. */
static size_t model(const kind *kind, const uint8_t *value, uint32_t scale, char *text) {
    uint8_t left[16], digits[40], any;
    unsigned carry = kind->is_signed && value[kind->size - 1] >= 128;
    size_t count = 0, length = 0;
    if (carry) text[length++] = '-';
    for (size_t k = 0, is_negative = carry; k < kind->size; k++, carry >>= 8)
        left[k] = (uint8_t)(carry += is_negative ? 255u - value[k] : value[k]);
    do {
        unsigned rest = any = 0;
        for (size_t k = kind->size; k-- > 0; any |= left[k], rest %= 10)
            left[k] = (uint8_t)((rest = rest << 8 | left[k]) / 10);
        digits[count++] = (uint8_t)('0' + rest);
    } while (any || count <= scale);
    for (size_t k = count; k-- > 0;) {
        text[length++] = (char)digits[k];
        if (k > scale && (k - scale) % 3 == 0) text[length++] = '.';
        if (k == scale && scale > 0) text[length++] = ',';
    }
    return length;
}

/* Parses what was printed in each way, and finds the values again, but for those of nulls. Decimals are not parsed
 * leniently, and numbers only in 0 to 9. */
static void check_parsed(const kind *kind, size_t n) {
    uint8_t printed[sizeof now.values], kept[16];
    memcpy(printed, values(), now.values_size);
    memset(kept, 'x', sizeof kept);
    for (now.way = 0; now.way <= NUM_FORMAT_TYPED; now.way += 1 + (uint32_t)kind->is_decimal) {
        memset(values(), 'x', now.values_size);
        memset(now.statuses, 'x', sizeof now.statuses);
        if (now.way == NUM_FORMAT_LENIENT && now.format.digits > 0) {
            check_unchanged("lenient in digits", n, parse, NUM_FORMAT_BAD_FORMAT);
            continue;
        }
        CHECK("parsed", n, calls[kind->is_decimal][2](), 0);
        for (size_t k = 0; k < n; k++) {
            const uint8_t *expected = is_null(k) ? kept : printed + k * kind->size;
            CHECK("status", k, now.statuses[k], 0);
            CHECK("value", k, memcmp(values() + k * kind->size, expected, kind->size), 0);
        }
    }
}

/* Prints n rows in digits of two, three and four bytes, where their texts in 0 to 9 and the ends of these are given, and
 * parses them. */
static void check_digits(const kind *kind, size_t n, const char *texts, const size_t *ends) {
    static const char *const sets[][2] = {{"arab", "\u0660"}, {"deva", "\u0966"}, {"adlm", "\U0001e950"}};
    for (size_t set = 0; set < 3; set++) {
        static char shown[ROOM];
        size_t length = 0, shown_ends[ROWS + 1] = {0}, size = strlen(sets[set][1]);
        for (size_t k = 0; k < n; shown_ends[++k] = length)
            for (size_t at = ends[k]; at < ends[k + 1]; at++) {
                int is_digit = '0' <= texts[at] && texts[at] <= '9';
                memcpy(shown + length, is_digit ? sets[set][1] : texts + at, is_digit ? size : 1);
                length += is_digit ? size : 1;
                if (is_digit) shown[length - 1] = (char)(shown[length - 1] + texts[at] - '0');
            }
        CHECK("digits", n, num_format_set_digits(&now.format, sets[set][0], strlen(sets[set][0])), 0);
        CHECK("measured in digits", n, calls[kind->is_decimal][1](), 0);
        CHECK("length in digits", n, now.length, length);
        now.bytes_size = length;
        CHECK("printed in digits", n, calls[kind->is_decimal][0](), 0);
        CHECK("texts in digits", n, memcmp(now.bytes, shown, length), 0);
        for (size_t k = 0; k <= n; k++) CHECK("offset in digits", k, memcmp(offsets() + k * width(), &shown_ends[k], width()), 0);
        check_parsed(kind, n);
        now.bytes_size = length - 1;
        if (length > 0) check_unchanged("too small in digits", n, calls[kind->is_decimal][0], NUM_FORMAT_TOO_SMALL);
    }
}

/* Prints a column of n rows, with nulls or without, and parses it. */
static void check_rows(const kind *kind, uint32_t offset_type, size_t n, size_t bit_offset, int has_nulls) {
    char texts[ROOM];
    size_t ends[ROWS + 1] = {0};
    begin(kind, offset_type, n);
    now.shift = bit_offset % (MOST_SHIFT + 1);
    now.scale = (uint32_t)kind->is_decimal * (uint32_t)bit_offset * 38 / MOST_BITS;
    now.bit_offset = has_nulls ? bit_offset : 0;
    now.validity_size = has_nulls ? (bit_offset + n + 7) / 8 : 0;
    for (size_t k = 0; k < now.validity_size; k++) now.validity[k] = (uint8_t)random_bits();
    for (size_t k = 0; k < n; k++) {
        uint8_t *value = values() + k * kind->size;
        fill(kind, value);
        ends[k + 1] = ends[k] + (is_null(k) ? 0 : model(kind, value, now.scale, texts + ends[k]));
    }
    CHECK("measured", n, calls[kind->is_decimal][1](), 0);
    CHECK("length", n, now.length, ends[n]);
    now.bytes_size = ends[n] - 1, now.length = 7;
    if (ends[n] > 0) check_unchanged("too small", n, calls[kind->is_decimal][0], NUM_FORMAT_TOO_SMALL);
    now.bytes_size = ends[n];
    CHECK("printed", n, calls[kind->is_decimal][0](), 0);
    CHECK("printed: length", n, now.length, ends[n]);
    CHECK("texts", n, memcmp(now.bytes, texts, ends[n]), 0);
    CHECK("past the texts", n, now.bytes[ends[n]], 'x');
    for (size_t k = 0; k <= n; k++) CHECK("offset", k, memcmp(offsets() + k * width(), &ends[k], width()), 0);
    CHECK("past the offsets", n, offsets()[now.offsets_size], 'x');
    check_parsed(kind, n);
    check_digits(kind, n, texts, ends);
}

/* What can be wrong of a column of five: a byte of what calls are passed, what it becomes, the error, and the calls that
 * see it, a bit each for those that print, measure and parse numbers and decimals. */
enum { NUMBERS = 7, DECIMALS = 56, PRINT = 9, PARSE = 36 };
#define BYTE(field, index) offsetof(column, field) + (index)
static const struct {
    const char *name;
    size_t place;
    uint8_t byte;
    int32_t error;
    int seen;
} wrongs[] = {
    {"scale", BYTE(scale, 0), 39, NUM_FORMAT_BAD_SCALE, DECIMALS},
    {"type", BYTE(type, 0), 'x', NUM_FORMAT_BAD_TYPE, NUMBERS},
    {"type of offsets", BYTE(offset_type, 0), 'I', NUM_FORMAT_BAD_TYPE, PRINT | PARSE},
    {"format", BYTE(format.grouping, 0), 0, NUM_FORMAT_BAD_FORMAT, NUMBERS | DECIMALS},
    {"digits", BYTE(format.digits, 0), 77, NUM_FORMAT_BAD_FORMAT, NUMBERS | DECIMALS},
    {"no minus sign", BYTE(format.minus_sign_length, 0), 0, NUM_FORMAT_AMBIGUOUS_FORMAT, PARSE},
    {"part of a value", BYTE(values_size, 0), 81, NUM_FORMAT_BAD_LENGTH, NUMBERS | DECIMALS},
    {"fewer values", BYTE(values_size, 0), 64, NUM_FORMAT_BAD_LENGTH, PRINT | PARSE},
    {"part of an offset", BYTE(offsets_size, 0), 25, NUM_FORMAT_BAD_LENGTH, PRINT | PARSE},
    {"fewer bits", BYTE(bit_offset, 0), 4, NUM_FORMAT_BAD_LENGTH, NUMBERS | DECIMALS},
    {"many fewer bits", BYTE(bit_offset, 7), 255, NUM_FORMAT_BAD_LENGTH, NUMBERS | DECIMALS},
    {"fewer statuses", BYTE(statuses_length, 0), 4, NUM_FORMAT_BAD_LENGTH, PARSE},
    {"offset below 0", BYTE(offsets, 7), 128, NUM_FORMAT_BAD_OFFSETS, PARSE},
    {"falling offset", BYTE(offsets, 16), 0, NUM_FORMAT_BAD_OFFSETS, PARSE},
    {"bytes before the last offset", BYTE(bytes_size, 0), 4, NUM_FORMAT_BAD_OFFSETS, PARSE},
    {"capacity", BYTE(bytes_size, 0), 4, NUM_FORMAT_TOO_SMALL, PRINT},
};
enum { WRONGS = sizeof wrongs / sizeof *wrongs };

/* A column of five zeros of 128 bits, or of the texts 1 to 5. */
static void begin_five(uint32_t offset_type) {
    begin(&kinds[KINDS - 1], offset_type, 5);
    memset(now.values, 0, sizeof now.values);
    memset(now.validity, 0xff, sizeof now.validity);
    memcpy(now.bytes, "12345", 5);
    now.bytes_size = 5, now.validity_size = 1;
    for (size_t k = 0; k <= 5; k++) set_offset(k, (int64_t)k);
}

/* Each thing that is wrong, alone and with each later one, which does not count. */
static void check_wrong(int is_decimal, int call, uint32_t offset_type) {
    begin_five(offset_type);
    CHECK("nothing wrong", (size_t)call, calls[is_decimal][call](), 0);
    now.bit_offset = SIZE_MAX;
    check_unchanged("largest bit", (size_t)call, calls[is_decimal][call], NUM_FORMAT_BAD_LENGTH);
    for (size_t first = 0; first < WRONGS; first++)
        for (size_t second = first; wrongs[first].seen >> (3 * is_decimal + call) & 1 && second < WRONGS; second++) {
            begin_five(offset_type);
            ((uint8_t *)&now)[wrongs[second].place] = wrongs[second].byte;
            ((uint8_t *)&now)[wrongs[first].place] = wrongs[first].byte;
            check_unchanged(wrongs[first].name, second, calls[is_decimal][call], wrongs[first].error);
        }
}

/* The numbers of no type. */
static void check_types(void) {
    for (uint32_t number = 1; number < 600; number++) {
        int is_type = number < 128 && strchr("cCsSiIlLqQ", (int)number), is_offset = number == 'i' || number == 'l';
        for (int call = 0; call < 4; call++) {
            const kind tried = {number, 1, 1, 0};
            begin(&tried, NUM_FORMAT_I32, 0), set_offset(0, 0);
            CHECK("type", number, calls[0][call % 3](), is_type ? 0 : NUM_FORMAT_BAD_TYPE);
            begin(&kinds[0], number, 0), set_offset(0, 0);
            CHECK("type of offsets", number, calls[call / 2][call % 2 * 2](), is_offset ? 0 : NUM_FORMAT_BAD_TYPE);
        }
    }
}

#define NINES "999.999.999.999.999.999.999.999.999.999.999.999.999"
#define ZEROS "0,000000000000000000000000000000000000000"
#define LONG ZEROS ZEROS ZEROS ZEROS ZEROS
#define TEN_ONES "\u0661\u0661\u0661\u0661\u0661\u0661\u0661\u0661\u0661\u0661"
#define ONES TEN_ONES TEN_ONES TEN_ONES TEN_ONES
#define LONG_ONES ONES ONES ONES ONES ONES

/* Texts as numbers, strictly, leniently and as people type them, and as decimals at scale 2, strictly and as people type
 * them, and the same in the digits "arab", but leniently: the status of each, and what is written with 0. A row without a
 * text is null. */
static const struct {
    const char *text;
    int32_t status, value;
} texts[][TRIED] = {
    {{"7", 0, 7}, {"12x", -9, 0}, {"", -10, 0}, {"1.23", -11, 0}, {NINES, -12, 0}, {"\xff", -3, 0}, {"126", 0, 126}},
    {{"7", 0, 7}, {"12x", 0, 12}, {"", -4, 0}, {"1.23", 0, 123}, {NINES, -4, 0}, {"\xff", -3, 0}, {"(0)", 0, 0}},
    {{" 7\t", 0, 7}, {"12x", -9, 0}, {"-", -10, 0}, {"1.23", -11, 0}, {NINES, -12, 0}, {"\xff", -3, 0}, {"+126", 0, 126},
     {LONG, -21, 0}, {"-0", 0, 0}},
    {{"7", 0, 700}, {"1,5,", -9, 0}, {",", -10, 0}, {"-0,0", -11, 0}, {NINES, -12, 0}, {"\xff", -3, 0}, {"-1,500", 0, -150},
     {"1,505", -18, 0}, {ZEROS, -14, 0}},
    {{" 7", 0, 700}, {"1,5,", -9, 0}, {",", -10, 0}, {"-0,0", 0, 0}, {NINES, -12, 0}, {"\xff", -3, 0},
     {"\u2212" "1,500", 0, -150}, {"1,505", -18, 0}, {ZEROS, -14, 0}, {LONG, -21, 0}},
    {{"\u0667", 0, 7}, {"\u0661\u0662x", -9, 0}, {"", -10, 0}, {"\u0661.\u0662\u0663", -11, 0}, {ONES, -12, 0},
     {"\u0661\xff", -3, 0}, {"5", -23, 0}, {"\u0661\u00b2", -23, 0}, {LONG_ONES, -21, 0}},
    {{0}},
    {{" \u0667\t", 0, 7}, {"\u0661\u0662x", -9, 0}, {"-", -10, 0}, {"\u0661.\u0662\u0663", -11, 0}, {ONES, -12, 0},
     {"\xff\u0661", -3, 0}, {"\u0661" "5", -23, 0}, {"\u06f1", -23, 0}, {LONG_ONES, -21, 0}, {"-\u0660", 0, 0}},
    {{"\u0667", 0, 700}, {"\u0661,\u0665,", -9, 0}, {",", -10, 0}, {"-\u0660,\u0660", -11, 0}, {ONES, -12, 0}, {"\xff", -3, 0},
     {"-\u0661,\u0665\u0660\u0660", 0, -150}, {"\u0661,\u0665\u0660\u0665", -18, 0}, {"\u0661,5", -23, 0}, {LONG_ONES, -21, 0}},
    {{" \u0667", 0, 700}, {"\u0661,\u0665,", -9, 0}, {",", -10, 0}, {"-\u0660,\u0660", 0, 0}, {ONES, -12, 0}, {"\xff", -3, 0},
     {"\u2212\u0661,\u0665\u0660\u0660", 0, -150}, {"\u0661,\u0665\u0660\u0665", -18, 0}, {"+1", -23, 0}, {LONG_ONES, -21, 0}},
};

/* Each status of a row, in a column that begins and ends within the bytes. */
static void check_statuses(const kind *kind, uint32_t offset_type, uint32_t tried, size_t is_arab) {
    size_t way = (kind->is_decimal ? 3 + tried / 2 : tried) + 5 * is_arab, end = 2;
    begin(kind, offset_type, TRIED);
    if (is_arab) CHECK("digits", way, num_format_set_digits(&now.format, "arab", 4), 0);
    now.way = tried, now.scale = 2, now.validity_size = 2, now.bit_offset = 5;
    memset(now.validity, 0, sizeof now.validity);
    for (size_t k = 0; k < TRIED; k++) {
        const char *text = texts[way][k].text ? texts[way][k].text : "any";
        if (texts[way][k].text) now.validity[(5 + k) / 8] |= (uint8_t)(1 << (5 + k) % 8);
        set_offset(k, (int64_t)end);
        memcpy(now.bytes + end, text, strlen(text));
        end += strlen(text);
    }
    set_offset(TRIED, (int64_t)end);
    CHECK("statuses", way, calls[kind->is_decimal][2](), 0);
    for (size_t k = 0; k < TRIED; k++) {
        int32_t value = texts[way][k].value;
        int is_written = texts[way][k].text && texts[way][k].status == 0;
        uint8_t expected[16];
        memset(expected, is_written ? -(value < 0) : 'x', sizeof expected);
        if (is_written) memcpy(expected, &value, kind->size < sizeof value ? kind->size : sizeof value);
        CHECK("status", k, now.statuses[k], texts[way][k].status);
        CHECK("value", k, memcmp(values() + k * kind->size, expected, kind->size), 0);
    }
}

/* A column of no rows has one offset, which is tested. */
static void check_empty(int is_decimal, uint32_t offset_type) {
    static const struct { int64_t offset; int32_t status; } cases[] = {{0, 0}, {5, 0}, {6, -16}, {-1, -16}, {INT32_MIN, -16}};
    for (size_t k = 0; k < sizeof cases / sizeof *cases; k++) {
        begin(&kinds[KINDS - 1], offset_type, 0);
        now.bytes_size = 5;
        set_offset(0, cases[k].offset);
        check_unchanged("one offset", k, calls[is_decimal][2], cases[k].status);
    }
}

/* A pointer may be null where its length is 0. Calls by a pointer to a function are passed none. */
static void check_null(void) {
    num_format filled, *format = &now.format;
    int64_t number = 7, offset = -1;
    uint64_t low = 7, high = 7;
    uint32_t scale = 7;
    size_t at = 7, size = 7;
    begin(&kinds[0], NUM_FORMAT_I64, 0);
    CHECK("null name", 0, num_format_locale(&filled, NULL, 0), NUM_FORMAT_UNKNOWN_LOCALE);
    CHECK("null tag", 0, num_format_lookup(&filled, NULL, 0), NUM_FORMAT_UNKNOWN_LOCALE);
    CHECK("null tag and array of a name", 0, num_format_lookup_name(NULL, 0, NULL, 0), NUM_FORMAT_UNKNOWN_LOCALE);
    CHECK("null separator and minus sign", 0, num_format_custom(&filled, NULL, 0, 1, NULL, 0), 0);
    CHECK("null name of digits", 0, num_format_set_digits(&filled, NULL, 0), NUM_FORMAT_UNKNOWN_DIGITS);
    CHECK("null decimal mark", 0, num_format_custom_decimal(&filled, NULL, 0, 1, NULL, 0, NULL, 0), 0);
    CHECK("null array", 0, num_format_print_i64(format, 1, NULL, 0), NUM_FORMAT_TOO_SMALL);
    CHECK("null array of a name", 0, num_format_names(0, NULL, 0), NUM_FORMAT_TOO_SMALL);
    CHECK("null array of a decimal", 0, num_format_print_decimal(format, 1, 0, 2, NULL, 0), NUM_FORMAT_TOO_SMALL);
    CHECK("null text", 0, num_format_parse_i64(format, 64, NULL, 0, &number), NUM_FORMAT_NOT_A_NUMBER);
    CHECK("null text, 128 bits", 0, num_format_parse_i128(format, NULL, 0, &low, &high), NUM_FORMAT_NOT_A_NUMBER);
    CHECK("null text, strict", 0, num_format_parse_strict_i64(format, 64, NULL, 0, &number, &at), NUM_FORMAT_NO_DIGIT);
    CHECK("null text, strict, 128 bits", 0, num_format_parse_strict_u128(format, NULL, 0, &low, &high, &at), NUM_FORMAT_NO_DIGIT);
    CHECK("null text of a decimal", 0, num_format_parse_decimal(format, NULL, 0, &low, &high, &scale, &at), NUM_FORMAT_NO_DIGIT);
    CHECK("null text, typed", 0, num_format_parse_typed(format, 'l', NULL, 0, &number, sizeof number, &at), NUM_FORMAT_NO_DIGIT);
    CHECK("null value, typed", 0, num_format_parse_typed(format, 'l', "1", 1, NULL, 0, &at), NUM_FORMAT_BAD_LENGTH);
    CHECK("null text of a typed decimal", 0, num_format_parse_typed_decimal(format, NULL, 0, &low, &high, &scale, &at), NUM_FORMAT_NO_DIGIT);
    CHECK("null column's length", 0, num_format_print_column_len(format, 'c', NULL, 0, NULL, 0, 0, &size), 0);
    CHECK("null decimals' length", 0, num_format_print_decimal_column_len(format, NULL, 0, 2, NULL, 0, 0, &size), 0);
    CHECK("null column", 0, num_format_print_column(format, 'c', NULL, 0, NULL, 0, 0, &offset, 8, 'l', NULL, 0, &size), 0);
    CHECK("null decimals", 0, num_format_print_decimal_column(format, NULL, 0, 2, NULL, 0, 0, &offset, 8, 'l', NULL, 0, &size), 0);
    CHECK("null column parsed", 0, num_format_parse_column(format, 'c', 0, &offset, 8, 'l', NULL, 0, NULL, 0, NULL, 0, 0, NULL, 0), 0);
    CHECK("null decimals parsed", 0, num_format_parse_decimal_column(format, 2, &offset, 8, 'l', NULL, 0, NULL, 0, NULL, 0, 0, NULL, 0), 0);
    CHECK("null typed decimals", 0, num_format_parse_typed_decimal_column(format, 2, &offset, 8, 'l', NULL, 0, NULL, 0, NULL, 0, 0, NULL, 0), 0);
    CHECK("null offsets", 0, num_format_parse_column(format, 'c', 0, NULL, 0, 'l', NULL, 0, NULL, 0, NULL, 0, 0, NULL, 0), NUM_FORMAT_BAD_LENGTH);
    CHECK("written", 0, number == 7 && low == 7 && high == 7 && scale == 7 && at == 7 && offset == 0 && size == 0, 1);
    int32_t (*volatile by_pointer)(const num_format *, int64_t, char *, size_t) = num_format_print_i64;
    CHECK("by a pointer", 0, by_pointer(format, -1234, now.bytes, sizeof now.bytes), 6);
}

int main(void) {
    static const uint32_t offset_types[] = {NUM_FORMAT_I32, NUM_FORMAT_I64};
    static const size_t counts[] = {0, 1, 2, 7, 8, 9, ROWS}, bits[] = {0, 1, 7, 8, MOST_BITS};
    for (size_t large = 0; large < 2; large++) {
        for (size_t k = 0; k < KINDS * 7 * 5 * 2; k++)
            check_rows(&kinds[k % KINDS], offset_types[large], counts[k / KINDS % 7], bits[k / KINDS / 7 % 5], k / KINDS / 7 / 5 == 1);
        for (uint32_t k = 0; k < 3 * KINDS; k++) {
            check_statuses(&kinds[k / 3], offset_types[large], k % 3, 0);
            if (k % 3 != NUM_FORMAT_LENIENT) check_statuses(&kinds[k / 3], offset_types[large], k % 3, 1);
        }
        for (int k = 0; k < 6; k++) check_wrong(k / 3, k % 3, offset_types[large]);
        for (int is_decimal = 0; is_decimal < 2; is_decimal++) check_empty(is_decimal, offset_types[large]);
    }
    check_types();
    check_null();
    return status;
}
