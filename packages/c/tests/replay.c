/* Replays the tables of tests/cases by the library for C: replay.h has what it shares with C++. */
#include "replay.h"

static num_format format_of(const char *field) {
    num_format format;
    struct text texts[4];
    if (strncmp(field, "locale:", 7) == 0) {
        num_format_lookup_str(&format, field + 7);
        return format;
    }
    uint32_t grouping = parts_of(field, texts);
    num_format_custom_decimal(&format, texts[0].bytes, texts[0].length, grouping, texts[2].bytes, texts[2].length,
                              texts[3].bytes, texts[3].length);
    return format;
}

/* An integer type by its name: NonZero, then i or u, then the bits. */
struct type {
    int is_signed, has_zero;
    uint32_t bits;
};

static struct type type_of(const char *name) {
    struct type type = {0, strncmp(name, "NonZero", 7) != 0, 64};
    name += type.has_zero ? 0 : strlen("NonZero");
    type.is_signed = *name == 'i' || *name == 'I';
    if (strcmp(name + 1, "size") != 0)
        type.bits = (uint32_t)atoi(name + 1);
    return type;
}

static void printing(char **fields) {
    struct type type = type_of(fields[0]);
    num_format format = format_of(fields[1]);
    wide number = number_of(fields[2]);
    uint64_t low = (uint64_t)number, high = (uint64_t)(number >> 64);
    char bytes[NUM_FORMAT_DIGITS_MAX];
    int length;
#define PRINTS(kind, ...) \
    (length = num_format_print_##kind(&format, __VA_ARGS__, bytes, sizeof bytes), \
     length == num_format_print_##kind##_len(&format, __VA_ARGS__))
    if (!(type.bits == 128 ? type.is_signed ? PRINTS(i128, low, high) : PRINTS(u128, low, high)
          : type.is_signed ? PRINTS(i64, (int64_t)low) : PRINTS(u64, low)))
        printf("another length than ");
    write_text(bytes, length < 0 ? 0 : (size_t)length);
}

static void parsed(char **fields, int is_strict) {
    struct type type = type_of(fields[0]);
    num_format format = format_of(fields[1]);
    struct text text = decoded(fields[2], 0);
    uint64_t low = 7, high = 8;
    int64_t number = 9;
    size_t at = 10;
#define PARSED(kind, ...) \
    (is_strict ? num_format_parse_strict_##kind(&format, __VA_ARGS__, &at) : num_format_parse_##kind(&format, __VA_ARGS__))
    int status = type.bits == 128 ? type.is_signed ? PARSED(i128, text.bytes, text.length, &low, &high)
                                                   : PARSED(u128, text.bytes, text.length, &low, &high)
                 : type.is_signed ? PARSED(i64, type.bits, text.bytes, text.length, &number)
                                  : PARSED(u64, type.bits, text.bytes, text.length, &low);
    wide value = type.bits == 128 ? (wide)high << 64 | low : type.is_signed ? (wide)number : low;
    if (status != 0 && !(low == 7 && high == 8 && number == 9 && (at == 10 || is_placed(status))))
        printf("something is written for ");
    /* C has no type without zero, so whoever needs one tests that. */
    if (status == 0 && !type.has_zero && value == 0)
        status = is_strict ? NUM_FORMAT_OUT_OF_RANGE : NUM_FORMAT_NOT_A_NUMBER;
    if (status == 0)
        write_number("ok ", value, type.is_signed);
    else
        write_error(status, at);
}

static void lenient(char **fields) { parsed(fields, 0); }

static void strict(char **fields) { parsed(fields, 1); }

/* The value is written as the machine has it, which is the low byte first here. */
static void typed(char **fields) {
    struct type type = type_of(fields[0]);
    num_format format = format_of(fields[1]);
    struct text text = decoded(fields[2], 0);
    wide value = 0;
    size_t at = 10, size = type.bits / 8;
    uint32_t code = (uint32_t)"CSILQcsilq"[5 * type.is_signed + __builtin_ctzl(size)];
    int status = num_format_parse_typed(&format, code, text.bytes, text.length, &value, size, &at);
    if (status != 0 && !(value == 0 && (at == 10 || is_placed(status))))
        printf("something is written for ");
    if (status == 0 && !type.has_zero && value == 0)
        status = NUM_FORMAT_OUT_OF_RANGE;
    if (status == 0)
        write_number("ok ", type.is_signed && value >> (type.bits - 1) ? value - ((wide)1 << (type.bits - 1) << 1) : value,
                     type.is_signed);
    else
        write_error(status, at);
}

static struct text decimal_text(char **fields) {
    num_format format = format_of(fields[0]);
    wide number = number_of(fields[1]);
    uint64_t low = (uint64_t)number, high = (uint64_t)(number >> 64);
    uint32_t scale = (uint32_t)atoi(fields[2]);
    struct text text = {"", 0}, again;
    int length = num_format_print_decimal(&format, low, high, scale, text.bytes, NUM_FORMAT_DIGITS_MAX);
    text.length = length < 0 ? 0 : (size_t)length;
    if (num_format_print_decimal_len(&format, low, high, scale) != length || text.bytes[text.length])
        printf("another length than ");
    if ((wide)(int64_t)low == number
        && (num_format_print_decimal_i64(&format, (int64_t)low, scale, again.bytes, NUM_FORMAT_DIGITS_MAX) != length
            || memcmp(again.bytes, text.bytes, text.length) != 0))
        printf("of 64 bits not ");
    return text;
}

static void decimals_printed(char **fields) {
    struct text text = decimal_text(fields);
    write_text(text.bytes, text.length);
}

static void decimals_parsed(char **fields) {
    num_format format = format_of(fields[0]);
    struct text text = decoded(fields[1], 0);
    uint64_t low = 7, high = 8;
    uint32_t scale = 9, scale_of_64_bits = 9;
    int64_t units = 7;
    size_t at = 10, at_of_64_bits = 10;
    int status = num_format_parse_decimal(&format, text.bytes, text.length, &low, &high, &scale, &at);
    int is_short = status == 0 && (wide)(int64_t)low == ((wide)high << 64 | low);
    int of_64_bits = num_format_parse_decimal_i64(&format, text.bytes, text.length, &units, &scale_of_64_bits, &at_of_64_bits);
    if (status != 0 && !(low == 7 && high == 8 && scale == 9 && (at == 10 || is_placed(status))))
        printf("something is written for ");
    if (of_64_bits != (status == 0 && !is_short ? NUM_FORMAT_OUT_OF_RANGE : status) || at_of_64_bits != at
        || units != (is_short ? (int64_t)low : 7) || scale_of_64_bits != (is_short ? scale : 9))
        printf("of 64 bits not ");
    if (status == 0) {
        write_number("ok ", (wide)high << 64 | low, 1);
        write_number("/", scale, 0);
    } else
        write_error(status, at);
}

/* By a column of one row, which tests the scale first and tells no position: both are by parsing the text before. */
static void decimals_at_scale(char **fields) {
    num_format format = format_of(fields[0]);
    struct text text = decoded(fields[1], 0);
    wide units = 0;
    uint64_t low, high;
    uint32_t found, scale = (uint32_t)atoi(fields[2]);
    size_t at = 0;
    int32_t row = 0, offsets[] = {0, (int32_t)text.length};
    int parsed = num_format_parse_decimal(&format, text.bytes, text.length, &low, &high, &found, &at);
    int status = num_format_parse_decimal_column(&format, scale, offsets, sizeof offsets, NUM_FORMAT_I32, text.bytes,
                                                 text.length, &units, sizeof units, NULL, 0, 0, &row, 1);
    status = status == NUM_FORMAT_BAD_SCALE && parsed < 0 ? parsed : status < 0 ? status : row;
    if (status == 0)
        write_number("ok ", units, 1);
    else
        write_error(status, at);
}

struct decimal {
    uint64_t low, high;
    uint32_t scale;
};

static struct decimal decimal_of(const char *field) {
    wide units = number_of(field);
    return (struct decimal){(uint64_t)units, (uint64_t)(units >> 64), (uint32_t)atoi(strchr(field, '/') + 1)};
}

/* Writes what a call made of a decimal, or if it has another status than 0 the words for that. */
static void write_decimal(int status, struct decimal made, struct decimal was, const char *words) {
    if (status == 0) {
        write_number("", (wide)made.high << 64 | made.low, 1);
        write_number("/", made.scale, 0);
    } else if (made.low != was.low || made.high != was.high || made.scale != was.scale)
        printf("something is written");
    else if (words)
        printf("%s", words);
    else
        write_error(status, 0);
}

static void write_sum(int32_t (*call)(uint64_t *, uint64_t *, uint32_t *, uint64_t, uint64_t, uint32_t),
                      struct decimal number, struct decimal other) {
    struct decimal made = number;
    int status = call(&made.low, &made.high, &made.scale, other.low, other.high, other.scale);
    putchar('\t');
    write_decimal(status, made, number, status == NUM_FORMAT_OUT_OF_RANGE ? "none" : NULL);
}

/* A decimal is negated by subtracting it from 0 at its scale. */
static void decimals_computed(char **fields) {
    static const uint32_t roundings[] = {NUM_FORMAT_HALF_EVEN, NUM_FORMAT_HALF_AWAY_FROM_ZERO, NUM_FORMAT_TOWARD_ZERO,
                                         NUM_FORMAT_EXACT};
    static const char *const orders[] = {"less\tfalse", "equal\ttrue", "greater\tfalse"};
    struct decimal first = decimal_of(fields[0]), second = decimal_of(fields[1]), zero = {0, 0, first.scale};
    int32_t order = 2;
    for (int k = 0; k < 4; k++) {
        struct decimal made = first;
        int status = num_format_decimal_rescale(&made.low, &made.high, &made.scale, (uint32_t)atoi(fields[2]), roundings[k]);
        write_decimal(status, made, first, NULL);
        putchar('\t');
    }
    num_format_decimal_compare(first.low, first.high, first.scale, second.low, second.high, second.scale, &order);
    printf("%s", orders[order + 1]);
    write_sum(num_format_decimal_add, first, second);
    write_sum(num_format_decimal_subtract, first, second);
    write_sum(num_format_decimal_subtract, zero, first);
}

static void tags(char **fields) {
    struct text tag = decoded(fields[0], 0);
    char name[NUM_FORMAT_MAX];
    num_format format, named;
    memset(&format, 'x', sizeof format);
    named = format;
    int length = num_format_lookup_name(tag.bytes, tag.length, name, sizeof name);
    if (num_format_lookup(&format, tag.bytes, tag.length) != (length < 0 ? length : 0)
        || (length > 0 && num_format_locale(&named, name, (size_t)length) != 0) || memcmp(&format, &named, sizeof format) != 0)
        printf("as a format not ");
    if (length < 0)
        write_error(length, 0);
    else
        printf("ok %.*s", length, name);
}

/* The name of the format that a name gives is that of the same tag. */
static void names(char **fields) {
    struct text name = decoded(fields[0], 0);
    num_format format;
    int status = num_format_locale(&format, name.bytes, name.length);
    if (status < 0)
        write_error(status, 0);
    else
        tags(fields);
}

static void locales(char **fields) {
    static size_t place;
    char name[NUM_FORMAT_MAX];
    num_format format;
    int length = num_format_names(place++ % NUM_FORMAT_LOCALES, name, sizeof name);
    int status = num_format_locale_str(&format, fields[0]);
    if (status < 0 || length != (int)strlen(fields[0]) || memcmp(name, fields[0], (size_t)length) != 0)
        printf("another name");
    printf("%s\t", groupings[format.grouping]);
    write_text((char *)format.decimal_mark, format.decimal_mark_length);
    printf("\t?\t");
    write_text((char *)format.minus_sign, format.minus_sign_length);
    printf("\t?\t?\t");
    write_text((char *)format.separator, format.separator_length);
}

static void reads_back(char **fields) {
    num_format format = format_of(fields[0]);
    printf("%s", num_format_reads_back(&format) == 1 ? "true" : "false");
}

static void alike(char **fields) {
    num_format first = format_of(fields[0]), second = format_of(fields[1]);
    printf("%s", num_format_prints_alike(&first, &second) == 1 ? "true" : "false");
}

/* Fills a text up to the width, by the width of the text that is printed. */
static void padded(char **fields) {
    struct text text = decimal_text(fields), fill = decoded(fields[3], 0);
    size_t columns = num_format_text_width(text.bytes, text.length), width = (size_t)atoi(fields[5]);
    size_t missing = width < columns ? 0 : width - columns;
    size_t before = *fields[4] == '<' ? 0 : *fields[4] == '^' ? missing / 2 : missing;
    for (size_t k = 0; k <= missing; k++) {
        if (k == before)
            write_text(text.bytes, text.length);
        if (k < missing)
            write_text(fill.bytes, fill.length);
    }
}

static void typed_decimals(char **fields) {
    num_format format = format_of(fields[0]);
    struct text text = decoded(fields[1], 0);
    uint64_t low = 7, high = 8;
    uint32_t scale = 9;
    size_t at = 10;
    int status = num_format_parse_typed_decimal(&format, text.bytes, text.length, &low, &high, &scale, &at);
    if (status != 0)
        return write_error(status, at);
    write_number("ok ", (wide)high << 64 | low, 1);
    write_number("/", scale, 0);
}

#define CALL(table) {#table, table, NULL}
#define DIGITS(table) CALL(table), {#table "_digits", table, NULL}

int main(void) {
    static const struct table tables[] = {
        CALL(alike), DIGITS(decimals_at_scale), CALL(decimals_computed), DIGITS(decimals_parsed), DIGITS(decimals_printed),
        CALL(lenient), CALL(locales), CALL(names), CALL(padded), DIGITS(printing), CALL(reads_back), DIGITS(strict),
        CALL(tags), DIGITS(typed), DIGITS(typed_decimals),
        {"builders", NULL, "no builder"}, {"json", NULL, "no JSON"},
    };
    return replay(tables);
}
