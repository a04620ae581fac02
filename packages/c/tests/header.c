/* Holds the library for C to its header: constants, types, layout, and what no table of cases says of calls, against values
 * written by hand. replay.c makes the calls of the tables.
 *
 *     cc -I crates/num_format_c packages/c/tests/header.c crates/num_format_c/out/libnum_format_c.a
 *
 * The program prints each check that fails. The exit status is 1 where one failed.
 */
#include "num_format.h"

#include <stdio.h>
#include <string.h>

/* The longest text: -2^127 under Indian, with a separator and a minus sign of 8 bytes. */
static const char longest[] =
    "abcdefgh17" "1234567801" "1234567841" "1234567818" "1234567834" "1234567860" "1234567846"
    "1234567892" "1234567831" "1234567873" "1234567816" "1234567887" "1234567830" "1234567837"
    "1234567815" "1234567888" "1234567841" "1234567805" "12345678728";

/* The longest decimal: -2^127 at scale 1 under the same, with a decimal mark of 8 bytes. */
static const char longest_decimal[] =
    "abcdefgh11" "2345678701" "2345678141" "2345678111" "2345678831" "2345678461" "2345678041"
    "2345678691" "2345678231" "2345678171" "2345678311" "2345678681" "2345678731" "2345678031"
    "2345678711" "2345678581" "2345678841" "2345678101" "2345678572" "ABCDEFGH8";

static int status;

/* Shows a value that is not the one written by hand. */
static void compare(const char *name, long long found, long long expected) {
    if (found != expected) {
        printf("%s: %lld in place of %lld\n", name, found, expected);
        status = 1;
    }
}

#define CHECK(value, expected) compare(#value, (long long)(value), expected)

/* Shows bytes that are not those written by hand. */
static void check_bytes(const char *name, const void *found, const char *expected) {
    compare(name, memcmp(found, expected, strlen(expected)), 0);
}

/* Prints a number, and compares its text. */
static void check_text(const num_format *format, int64_t number, const char *expected) {
    char text[NUM_FORMAT_MAX];
    compare(expected, num_format_print_i64(format, number, text, sizeof text), (int)strlen(expected));
    compare(expected, num_format_print_i64_len(format, number), (int)strlen(expected));
    check_bytes(expected, text, expected);
}

static void check_constants(void) {
    CHECK(NUM_FORMAT_MAX, 191);
    CHECK(NUM_FORMAT_DECIMAL_MAX, 199);
    CHECK(NUM_FORMAT_DIGITS_MAX, 796);
    CHECK(NUM_FORMAT_LOCALES, 542);
    static const struct {
        int status, number;
        const char *text;
    } statuses[] = {
        {NUM_FORMAT_OK, 0, "ok"},
        {NUM_FORMAT_BAD_FORMAT, -1, "the struct has no format, or one in digits that the call does not take"},
        {NUM_FORMAT_TOO_SMALL, -2, "the array is shorter than the text"},
        {NUM_FORMAT_NOT_UTF8, -3, "the text is not UTF-8"},
        {NUM_FORMAT_NOT_A_NUMBER, -4, "the text is refused as a number"},
        {NUM_FORMAT_UNKNOWN_LOCALE, -5, "no such locale"},
        {NUM_FORMAT_TOO_LONG, -6, "a text of the format has more than 8 bytes"},
        {NUM_FORMAT_BAD_GROUPING, -7, "no such grouping"},
        {NUM_FORMAT_BAD_BITS, -8, "the number of bits is not 8, 16, 32 or 64"},
        {NUM_FORMAT_UNEXPECTED, -9, "unexpected byte"},
        {NUM_FORMAT_NO_DIGIT, -10, "the text has no digit"},
        {NUM_FORMAT_MISSPELLED, -11, "the text is not as its number is printed"},
        {NUM_FORMAT_OUT_OF_RANGE, -12, "the number is out of range"},
        {NUM_FORMAT_BAD_SCALE, -13, "the scale is above 38"},
        {NUM_FORMAT_TOO_MANY_DECIMALS, -14, "more than 38 digits follow the decimal mark"},
        {NUM_FORMAT_BAD_LENGTH, -15, "sizes of a column do not fit one another, or that of a value its type"},
        {NUM_FORMAT_BAD_OFFSETS, -16, "an offset is below 0 or the one before it, or past the bytes"},
        {NUM_FORMAT_TOO_MANY_BYTES, -17, "the texts have more bytes than an offset can say"},
        {NUM_FORMAT_DIGITS_LOST, -18, "the decimal has digits other than 0 that the scale has not"},
        {NUM_FORMAT_AMBIGUOUS_FORMAT, -19, "the format is ambiguous"},
        {NUM_FORMAT_BAD_TYPE, -20, "no such type"},
        {NUM_FORMAT_TEXT_TOO_LONG, -21, "the text is longer than that of any number"},
        {NUM_FORMAT_UNKNOWN_DIGITS, -22, "no such digit set, or two in a tag"},
        {NUM_FORMAT_OTHER_NUMERAL, -23, "a numeric character of no digit of the set"},
        {-24, -24, "unknown status"},
        {INT32_MIN, INT32_MIN, "unknown status"},
        {1, 1, "ok"},
        {INT32_MAX, INT32_MAX, "ok"},
    };
    for (size_t i = 0; i < sizeof statuses / sizeof *statuses; i++) {
        compare(statuses[i].text, statuses[i].status, statuses[i].number);
        compare(statuses[i].text, strcmp(num_format_strerror(statuses[i].number), statuses[i].text), 0);
    }
    CHECK(num_format_version(), NUM_FORMAT_VERSION);
    static const int groupings[] = {
        NUM_FORMAT_STANDARD, NUM_FORMAT_INDIAN, NUM_FORMAT_POSIX, NUM_FORMAT_MYRIAD, NUM_FORMAT_SPARSE,
    };
    for (int i = 0; i < 5; i++)
        CHECK(groupings[i], i + 1);
    static const num_format_type types[] = {
        NUM_FORMAT_I8,  NUM_FORMAT_U8,  NUM_FORMAT_I16, NUM_FORMAT_U16,  NUM_FORMAT_I32,
        NUM_FORMAT_U32, NUM_FORMAT_I64, NUM_FORMAT_U64, NUM_FORMAT_I128, NUM_FORMAT_U128,
    };
    for (int i = 0; i < 10; i++)
        CHECK(types[i], "cCsSiIlLqQ"[i]);
}

static void check_layout(void) {
    CHECK(sizeof(num_format), 32);
    CHECK(_Alignof(num_format), 1);
    CHECK(offsetof(num_format, separator), 0);
    CHECK(offsetof(num_format, minus_sign), 8);
    CHECK(offsetof(num_format, decimal_mark), 16);
    CHECK(offsetof(num_format, separator_length), 24);
    CHECK(offsetof(num_format, minus_sign_length), 25);
    CHECK(offsetof(num_format, decimal_mark_length), 26);
    CHECK(offsetof(num_format, grouping), 27);
    CHECK(offsetof(num_format, digits), 28);
    CHECK(offsetof(num_format, reserved), 29);
}

/* What a call writes into a struct, and nothing past it. */
static void check_filled(void) {
    struct {
        uint8_t before[8];
        num_format format;
        uint8_t after[8];
    } held;
    memset(&held, 'x', sizeof held);
    CHECK(num_format_custom(&held.format, "'", 1, 4, "\xe2\x88\x92", 3), 0);
    check_bytes("separator", held.format.separator, "'");
    check_bytes("minus_sign", held.format.minus_sign, "\xe2\x88\x92");
    check_bytes("decimal_mark", held.format.decimal_mark, ".");
    CHECK(held.format.separator_length, 1);
    CHECK(held.format.minus_sign_length, 3);
    CHECK(held.format.decimal_mark_length, 1);
    CHECK(held.format.grouping, 4);
    CHECK(held.format.digits, 0);
    CHECK(memcmp(held.format.reserved, "\0\0", 3), 0);
    check_text(&held.format, -12345678, "\xe2\x88\x92" "1234'5678");
    CHECK(num_format_locale(&held.format, "en-IN", 5), 0);
    check_bytes("separator of en-IN", held.format.separator, ",");
    check_bytes("minus_sign of en-IN", held.format.minus_sign, "-");
    CHECK(held.format.separator_length, 1);
    CHECK(held.format.minus_sign_length, 1);
    CHECK(held.format.grouping, 2);
    check_text(&held.format, -1234567, "-12,34,567");
    CHECK(num_format_locale(&held.format, "ar-EG", 5), 0);
    check_bytes("decimal_mark of ar-EG", held.format.decimal_mark, "\xd9\xab");
    CHECK(held.format.decimal_mark_length, 2);
    CHECK(num_format_custom_decimal(&held.format, ",", 1, 1, "-", 1, "::", 2), 0);
    check_bytes("decimal_mark of its own", held.format.decimal_mark, "::");
    CHECK(held.format.decimal_mark_length, 2);
    check_bytes("before the struct", held.before, "xxxxxxxx");
    check_bytes("after the struct", held.after, "xxxxxxxx");
}

/* How a call reads a struct whose fields were written here. */
static void check_read(void) {
    num_format format = {"::", "~~~", "..", 2, 3, 2, 1, 0, "an"};
    static const struct {
        const char *four_digits, *seven_digits;
    } texts[] = {
        {"~~~1::234", "1::234::567"}, {"~~~1::234", "12::34::567"}, {"~~~1234", "1234567"},
        {"~~~1234", "123::4567"},     {"~~~1234", "1::234::567"},
    };
    for (int grouping = 1; grouping <= 5; grouping++) {
        format.grouping = (uint8_t)grouping;
        check_text(&format, -1234, texts[grouping - 1].four_digits);
        check_text(&format, 1234567, texts[grouping - 1].seven_digits);
    }
    CHECK(num_format_reads_back(&format), 1);
    CHECK(num_format_prints_alike(&format, &format), 1);
    format.separator_length = 9;
    CHECK(num_format_reads_back(&format), -1);
    format.separator_length = 8;
    format.minus_sign_length = 9;
    CHECK(num_format_reads_back(&format), -1);
    format.minus_sign_length = 8;
    format.decimal_mark_length = 9;
    CHECK(num_format_reads_back(&format), -1);
    format.decimal_mark_length = 8;
    CHECK(num_format_reads_back(&format), 1);
}

/* Numbers whose low byte alone would be taken. */
static void check_groupings(void) {
    static const uint32_t refused[] = {0, 6, 255, 256, 257, 258, 261, 65537, 0x80000001, UINT32_MAX};
    num_format format;
    CHECK(num_format_custom(&format, ",", 1, 1, "-", 1), 0);
    for (size_t i = 0; i < sizeof refused / sizeof *refused; i++) {
        char name[32];
        snprintf(name, sizeof name, "grouping %lu", (unsigned long)refused[i]);
        compare(name, num_format_custom(&format, ".", 1, refused[i], "-", 1), -7);
        check_text(&format, 1000, "1,000");
        format.grouping = (uint8_t)refused[i];
        int is_read = 1 <= format.grouping && format.grouping <= 5;
        CHECK(num_format_reads_back(&format), is_read ? 1 : -1);
        format.grouping = 1;
    }
}

/* Each error, by its number. */
static void check_errors(void) {
    const num_format zeros = {0};
    num_format en;
    char text[NUM_FORMAT_MAX];
    int64_t number;
    CHECK(num_format_locale(&en, "en", 2), 0);
    CHECK(num_format_print_i64(&zeros, 1, text, sizeof text), -1);
    CHECK(num_format_prints_alike(&en, &zeros), -1);
    CHECK(num_format_print_i64(&en, 1000, text, 4), -2);
    CHECK(num_format_locale(&en, "\xff", 1), -3);
    CHECK(num_format_parse_i64(&en, 64, "\xff", 1, &number), -3);
    CHECK(num_format_parse_i64(&en, 64, "x", 1, &number), -4);
    CHECK(num_format_locale(&en, "xx", 2), -5);
    CHECK(num_format_custom(&en, "123456789", 9, 1, "-", 1), -6);
    CHECK(num_format_custom(&en, ",", 1, 1, "123456789", 9), -6);
    CHECK(num_format_custom_decimal(&en, ",", 1, 1, "-", 1, "123456789", 9), -6);
    CHECK(num_format_custom_decimal(&en, ",", 1, 1, "-", 1, "\xff", 1), -3);
    CHECK(num_format_custom(&en, ",", 1, 6, "-", 1), -7);
    CHECK(num_format_parse_i64(&en, 7, "1", 1, &number), -8);
    CHECK(num_format_parse_i64(&en, 256 + 64, "1", 1, &number), -8);
    CHECK(num_format_parse_i64(&en, 65536 + 8, "1", 1, &number), -8);
    CHECK(num_format_print_decimal(&en, 1, 0, 39, text, sizeof text), -13);
    CHECK(num_format_print_decimal(&zeros, 1, 0, 256 + 2, text, sizeof text), -13);
    CHECK(num_format_print_decimal(&zeros, 1, 0, 38, text, sizeof text), -1);
    CHECK(num_format_print_decimal(&en, 1, 0, 2, text, 3), -2);
    CHECK(num_format_print_i64_len(&zeros, 1), -1);
    CHECK(num_format_print_decimal_len(&zeros, 1, 0, 39), -13);
    CHECK(num_format_print_decimal_len(&zeros, 1, 0, 38), -1);
}

/* What is parsed of no text, by no format or for no type: nothing is written. */
static void check_strict(void) {
    num_format format = {0};
    int64_t number = 7;
    uint64_t low = 7, high = 8;
    uint32_t scale = 8;
    size_t at = 9;
    CHECK(num_format_parse_strict_i64(&format, 64, "1", 1, &number, &at), -1);
    CHECK(num_format_parse_decimal(&format, "1", 1, &low, &high, &scale, &at), -1);
    CHECK(num_format_locale(&format, "en", 2), 0);
    CHECK(num_format_parse_strict_i64(&format, 256 + 64, "1", 1, &number, &at), -8);
    CHECK(num_format_parse_strict_u64(&format, 7, "1", 1, &low, &at), -8);
    CHECK(num_format_parse_strict_i64(&format, 16, "1\xff", 2, &number, &at), -3);
    CHECK(num_format_parse_strict_u128(&format, "1\xff", 2, &low, &high, &at), -3);
    CHECK(num_format_parse_decimal(&format, "1\xff", 2, &low, &high, &scale, &at), -3);
    CHECK(number == 7 && low == 7 && high == 8 && scale == 8 && at == 9, 1);
}

/* Formats by their texts: whether whole numbers can be misread, and decimals. */
static void check_ambiguous(void) {
    static const struct {
        const char *separator, *minus_sign, *decimal_mark;
        uint32_t grouping;
        int number, decimal;
    } cases[] = {
        {",", "-", ".", 1, 0, 0}, {",", "", ".", 1, -19, -19}, {",", "-", ",", 1, 0, -19},
    };
    static const int32_t offsets[] = {0, 1, 2};
    for (size_t i = 0; i < sizeof cases / sizeof *cases; i++) {
        const char *separator = cases[i].separator, *minus_sign = cases[i].minus_sign, *mark = cases[i].decimal_mark;
        num_format format = {0};
        uint64_t units[4] = {7, 0, 7, 0};
        int64_t number = 7, numbers[2] = {7, 7};
        uint64_t low = 7;
        int32_t statuses[2] = {7, 7};
        size_t at = 7;
        CHECK(num_format_custom_decimal(&format, separator, strlen(separator), cases[i].grouping, minus_sign,
                                        strlen(minus_sign), mark, strlen(mark)), 0);
        CHECK(num_format_parse_strict_u64(&format, 8, "\xff", 1, &low, &at), cases[i].number ? -19 : -3);
        CHECK(num_format_parse_strict_i64(&format, 7, "5", 1, &number, &at), -8);
        CHECK(num_format_parse_column(&format, NUM_FORMAT_I64, 0, offsets, sizeof offsets, NUM_FORMAT_I32, "56", 2,
                                      numbers, sizeof numbers, NULL, 0, 0, statuses, 2), cases[i].number);
        CHECK(numbers[1] == (cases[i].number ? 7 : 6) && statuses[1] == (cases[i].number ? 7 : 0), 1);
        CHECK(num_format_parse_column(&format, NUM_FORMAT_I64, 1, offsets, sizeof offsets, NUM_FORMAT_I32, "56", 2,
                                      numbers, sizeof numbers, NULL, 0, 0, statuses, 2), 0);
        statuses[1] = 7;
        CHECK(num_format_parse_decimal_column(&format, 0, offsets, sizeof offsets, NUM_FORMAT_I32, "56", 2, units,
                                              sizeof units, NULL, 0, 0, statuses, 2), cases[i].decimal);
        CHECK(units[2] == (cases[i].decimal ? 7 : 6) && statuses[1] == (cases[i].decimal ? 7 : 0), 1);
    }
}

/* An array of exactly as many bytes as the longest text, and of one less. */
static void check_longest(void) {
    num_format format;
    char text[NUM_FORMAT_MAX];
    memset(text, '.', sizeof text);
    CHECK(num_format_custom(&format, "12345678", 8, 2, "abcdefgh", 8), 0);
    CHECK(num_format_print_i128(&format, 0, (uint64_t)1 << 63, text, NUM_FORMAT_MAX - 1), -2);
    for (int i = 0; i < NUM_FORMAT_MAX; i++)
        CHECK(text[i], '.');
    CHECK(num_format_print_i128_len(&format, 0, (uint64_t)1 << 63), NUM_FORMAT_MAX);
    CHECK(strlen(longest), NUM_FORMAT_MAX);
    CHECK(num_format_print_i128(&format, 0, (uint64_t)1 << 63, text, NUM_FORMAT_MAX), NUM_FORMAT_MAX);
    check_bytes("the longest text", text, longest);
    char decimal[NUM_FORMAT_DECIMAL_MAX];
    CHECK(num_format_custom_decimal(&format, "12345678", 8, 2, "abcdefgh", 8, "ABCDEFGH", 8), 0);
    CHECK(num_format_print_decimal(&format, 0, (uint64_t)1 << 63, 1, decimal, NUM_FORMAT_DECIMAL_MAX - 1), -2);
    CHECK(num_format_print_decimal_len(&format, 0, (uint64_t)1 << 63, 1), NUM_FORMAT_DECIMAL_MAX);
    CHECK(strlen(longest_decimal), NUM_FORMAT_DECIMAL_MAX);
    CHECK(num_format_print_decimal(&format, 0, (uint64_t)1 << 63, 1, decimal, NUM_FORMAT_DECIMAL_MAX),
          NUM_FORMAT_DECIMAL_MAX);
    check_bytes("the longest decimal", decimal, longest_decimal);
}

/* Digits that tags and names choose: the number of the set in the struct, and -1234 in it. */
static void check_digits(void) {
    static const struct {
        const char *tag;
        int digits;
        const char *text;
    } tags[] = {
        {"fa", 0, "\u200e\u22121\u066c234"},
        {"fa-u-nu-arabext", 4, "\u200e\u2212\u06f1\u066c\u06f2\u06f3\u06f4"},
        {"fa_IR-U-CA-persian-NU-native", 4, "\u200e\u2212\u06f1\u066c\u06f2\u06f3\u06f4"},
        {"fa_IR_u_nu_ARABEXT.UTF-8", 4, "\u200e\u2212\u06f1\u066c\u06f2\u06f3\u06f4"},
        {"de-u-nu-native", 0, "-1.234"},
        {"en-u-nu-latn", 0, "-1,234"},
        {"en-u-nu-fullwide", 13, "-\uff11,\uff12\uff13\uff14"},
        {"en-u-nu-wcho", 76, "-\U0001e2f1,\U0001e2f2\U0001e2f3\U0001e2f4"},
    };
    static const char *const refused[] = {
        "roman", "traditio", "finance", "", "arab-nu-arab",
    };
    num_format format, other;
    char tag[32];
    for (size_t i = 0; i < sizeof tags / sizeof *tags; i++) {
        CHECK(num_format_lookup_str(&format, tags[i].tag), 0);
        compare(tags[i].tag, format.digits, tags[i].digits);
        check_text(&format, -1234, tags[i].text);
    }
    memcpy(&other, &format, sizeof other);
    for (size_t i = 0; i < sizeof refused / sizeof *refused; i++) {
        snprintf(tag, sizeof tag, "en-u-nu-%s", refused[i]);
        compare(tag, num_format_lookup_str(&format, tag), -22);
        compare(tag, num_format_lookup_name(tag, strlen(tag), NULL, 0), -22);
        compare(tag, num_format_set_digits(&format, refused[i], strlen(refused[i])), -22);
    }
    CHECK(num_format_lookup_str(&format, "english-u-nu-roman"), -5);
    CHECK(num_format_lookup_str(&format, "de-u-nu"), -22);
    CHECK(num_format_set_digits(&format, "Arab", 4), -22);
    CHECK(num_format_set_digits(&format, "arab\xff", 5), -3);
    CHECK(num_format_set_digits(&format, NULL, 0), -22);
    CHECK(memcmp(&format, &other, sizeof other), 0);
    CHECK(num_format_prints_alike(&format, &other), 1);
    CHECK(num_format_set_digits(&format, "deva", 4), 0);
    CHECK(format.digits, 11);
    CHECK(num_format_prints_alike(&format, &other), 0);
    format.digits = other.digits;
    CHECK(memcmp(&format, &other, sizeof other), 0);
    memset(&format, 'x', sizeof format);
    CHECK(num_format_set_digits(&format, "latn", 4), 0);
    CHECK(format.digits == 0 && format.grouping == 'x' && format.reserved[0] == 'x', 1);
}

/* The longest text in a set, which has its digits for those of the format too, and numbers of no set. */
static void check_longest_digits(void) {
    num_format format;
    char text[NUM_FORMAT_DIGITS_MAX + 1];
    uint64_t high = (uint64_t)1 << 63;
    CHECK(num_format_custom_decimal(&format, "12345678", 8, 2, "12345678", 8, "12345678", 8), 0);
    CHECK(num_format_set_digits(&format, "adlm", 4), 0);
    CHECK(num_format_print_decimal(&format, 0, high, 1, text, NUM_FORMAT_DIGITS_MAX - 1), -2);
    CHECK(num_format_print_decimal_len(&format, 0, high, 1), NUM_FORMAT_DIGITS_MAX);
    CHECK(num_format_format_decimal(&format, 0, high, 1, text, sizeof text), NUM_FORMAT_DIGITS_MAX);
    CHECK(strlen(text), NUM_FORMAT_DIGITS_MAX);
    for (int i = 0; i < NUM_FORMAT_DECIMAL_MAX; i++) {
        char c = longest_decimal[i], digit[] = "\U0001e950";
        digit[3] += (char)(c < 'A' ? c - '0' : 1 + (c - 'A') % 32);
        CHECK(memcmp(text + 4 * i, digit, 4), 0);
    }
    CHECK(num_format_print_i128_len(&format, 0, high), 4 * NUM_FORMAT_MAX);
    CHECK(num_format_format_i128(&format, 0, high, text, sizeof text), 4 * NUM_FORMAT_MAX);
    for (int digits = 77; digits <= 255; digits++) {
        format.digits = (uint8_t)digits;
        CHECK(num_format_print_i64(&format, 1, text, sizeof text), -1);
        CHECK(num_format_print_i64_len(&format, 1), -1);
        CHECK(num_format_print_decimal(&format, 1, 0, 0, text, sizeof text), -1);
        CHECK(num_format_prints_alike(&format, &format), -1);
    }
}

/* Texts in other digits: the numbers, what each error leaves as it was, and its place. */
static void check_parsed_digits(void) {
    num_format format;
    int64_t number = 7, units = 7;
    uint64_t low = 7, high = 7;
    int16_t typed = 7;
    uint32_t scale = 7;
    size_t at = 9;
    char text[NUM_FORMAT_DIGITS_MAX + 4];
    CHECK(num_format_lookup_str(&format, "en-u-nu-fullwide"), 0);
    CHECK(num_format_parse_strict_i64(&format, 64, "-\uff11,234", 8, &number, &at), -23);
    CHECK(number == 7 && at == 5, 1);
    CHECK(num_format_parse_strict_i64(&format, 64, "\uff11\u00b2", 5, &number, &at), -23);
    CHECK(at, 3);
    CHECK(num_format_parse_strict_u64(&format, 64, "1", 1, &low, &at), -23);
    CHECK(at, 0);
    CHECK(num_format_parse_strict_u64(&format, 64, "\uff11.", 4, &low, &at), -9);
    CHECK(at, 3);
    CHECK(num_format_parse_strict_i128(&format, "\uff11\uff12\uff13", 8, &low, &high, &at), -3);
    CHECK(num_format_parse_strict_u128(&format, "\uff10\uff11", 6, &low, &high, &at), -11);
    CHECK(num_format_parse_decimal(&format, "\uff11.\u0665", 6, &low, &high, &scale, &at), -23);
    CHECK(low == 7 && high == 7 && scale == 7 && at == 4, 1);
    CHECK(num_format_parse_typed(&format, 's', " \uff11x", 5, &typed, 2, &at), -9);
    CHECK(typed == 7 && at == 4, 1);
    CHECK(num_format_parse_typed(&format, 's', " \uff11", 4, &typed, 3, &at), -15);
    CHECK(num_format_parse_typed_decimal_i64(&format, "\uff11\uff0e5", 7, &units, &scale, &at), -23);
    CHECK(units == 7 && scale == 7 && at == 6, 1);
    CHECK(num_format_parse_strict_i64(&format, 64, "-\uff11,\uff12\uff13\uff14", 14, &number, NULL), 0);
    CHECK(num_format_parse_strict_u64(&format, 8, "\uff12\uff15\uff16", 9, &low, NULL), -12);
    CHECK(num_format_parse_strict_u128(&format, "\uff12", 3, &low, &high, NULL), 0);
    CHECK(number == -1234 && low == 2 && high == 0, 1);
    CHECK(num_format_parse_strict_i128(&format, "-\uff12", 4, &low, &high, NULL), 0);
    CHECK(low == UINT64_MAX - 1 && high == UINT64_MAX, 1);
    CHECK(num_format_parse_decimal_i64(&format, "\uff11.\uff15\uff10", 10, &units, &scale, NULL), 0);
    CHECK(units == 150 && scale == 2, 1);
    CHECK(num_format_parse_typed(&format, 's', " +\uff11,\uff12\uff13\uff14\n", 16, &typed, 2, NULL), 0);
    CHECK(num_format_parse_typed_decimal_i64(&format, "\u2212\uff10.\uff15 ", 11, &units, &scale, NULL), 0);
    CHECK(typed == 1234 && units == -5 && scale == 1, 1);
    for (size_t i = 0; i < 200; i++)
        memcpy(text + 4 * i, "\U0001e951", 4);
    CHECK(num_format_set_digits(&format, "adlm", 4), 0);
    CHECK(num_format_parse_strict_i64(&format, 64, text, 796, &number, NULL), -12);
    CHECK(num_format_parse_strict_i64(&format, 64, text, 800, &number, NULL), -21);
    CHECK(num_format_custom(&format, ",", 1, 1, "", 0), 0);
    CHECK(num_format_set_digits(&format, "adlm", 4), 0);
    CHECK(num_format_parse_strict_i64(&format, 64, "\xff", 1, &number, NULL), -19);
    CHECK(num_format_parse_strict_i64(&format, 64, "5", 1, &number, NULL), -19);
    CHECK(num_format_parse_typed_decimal_i64(&format, "5", 1, &units, &scale, NULL), -19);
}

/* What is parsed in no other digits than 0 to 9. */
static void check_latin(void) {
    num_format format;
    int64_t number = 7;
    uint64_t low = 7, high = 7;
    CHECK(num_format_lookup_str(&format, "en-u-nu-fullwide"), 0);
    CHECK(num_format_reads_back(&format), -1);
    CHECK(num_format_parse_i64(&format, 64, "5", 1, &number), -1);
    CHECK(num_format_parse_u64(&format, 64, "5", 1, &low), -1);
    CHECK(num_format_parse_i128(&format, "5", 1, &low, &high), -1);
    CHECK(number == 7 && low == 7 && high == 7, 1);
}

static void check_names(void) {
    char name[NUM_FORMAT_MAX];
    CHECK(num_format_names(0, name, sizeof name), 2);
    check_bytes("the first name", name, "af");
    CHECK(num_format_names(NUM_FORMAT_LOCALES - 1, name, sizeof name), 2);
    check_bytes("the last name", name, "zu");
    CHECK(num_format_names(NUM_FORMAT_LOCALES, name, sizeof name), -5);
    CHECK(num_format_names((size_t)1 << 32, name, sizeof name), -5);
    CHECK(num_format_names(0, name, 1), -2);
}

/* Tags that are no text, and a name that does not fit. */
static void check_lookup(void) {
    num_format format;
    char name[2];
    CHECK(num_format_lookup(&format, "de\xff", 3), -3);
    CHECK(num_format_lookup_name("de\xff", 3, name, sizeof name), -3);
    CHECK(num_format_lookup_name("de_DE.UTF-8", 11, name, 2), 2);
    CHECK(num_format_lookup_name("de_DE.UTF-8", 11, name, 1), -2);
}

/* Characters of one to four bytes. */
static void check_width(void) {
    static const struct {
        const char *text;
        size_t width;
    } cases[] = {
        {"", 0}, {"-1,234", 6}, {"1\u202f234\u202f567", 9}, {"\u2212\u00e9\U0001d7d9x", 4}, {"\xff\x80x", 2},
        {"\u200d\u2010\u061b\u061d\u071c\u208e", 6}, {"\xe2\x80", 1}, {"\xe2", 1}, {"\xd8", 1}, {"\xe2\x80\x8d", 1},
        {"\x9c\x8e\x80", 0}, {"\u200e-1,234", 6}, {"\u061c-\u200f1", 2}, {"\u200e\xff", 1},
    };
    for (size_t i = 0; i < sizeof cases / sizeof *cases; i++)
        compare(cases[i].text, (int)num_format_text_width(cases[i].text, strlen(cases[i].text)), (int)cases[i].width);
    CHECK(num_format_text_width("\u200e", 2), 1);
    CHECK(num_format_text_width(NULL, 0), 0);
}

/* Texts as people type them, as numbers of 16 bits under "fr": what typed.tsv and typed_decimals.tsv do not say. */
static void check_typed(void) {
    num_format format = {0};
    int16_t number[2] = {7, 8};
    int64_t units = 7;
    uint32_t scale = 8;
    size_t at = 9;
    char text[201];
    CHECK(num_format_parse_typed(&format, 'x', "1", 1, number, 3, &at), -20);
    CHECK(num_format_parse_typed(&format, 's', "1", 1, number, 3, &at), -1);
    CHECK(num_format_locale(&format, "fr", 2), 0);
    CHECK(num_format_parse_typed(&format, 's', "\xff", 1, number, 3, &at), -15);
    CHECK(num_format_parse_typed(&format, 's', "\xff", 1, number, 4, &at), -15);
    CHECK(num_format_parse_typed(&format, 's', "\u22121.5", 6, number, 2, &at), -9);
    CHECK(number[0] == 7 && at == 4, 1);
    CHECK(num_format_parse_typed(&format, 's', " +1 234\n", 8, number, 2, &at), 0);
    CHECK(number[0] == 1234 && number[1] == 8 && at == 4, 1);
    memset(text, '1', sizeof text);
    CHECK(num_format_parse_typed(&format, 's', text, 199, number, 2, NULL), -12);
    CHECK(num_format_parse_typed(&format, 's', text, 200, number, 2, NULL), -21);
    CHECK(num_format_parse_typed_decimal_i64(&format, text, 200, &units, &scale, NULL), -21);
    CHECK(num_format_parse_typed_decimal_i64(&format, text, 20, &units, &scale, NULL), -12);
    CHECK(num_format_parse_typed_decimal_i64(&format, "1.5", 3, &units, &scale, &at), -9);
    CHECK(units == 7 && scale == 8 && at == 1, 1);
    CHECK(num_format_parse_typed_decimal_i64(&format, " -1 234,50", 10, &units, &scale, NULL), 0);
    CHECK(units == -123450 && scale == 2, 1);
    CHECK(num_format_custom_decimal(&format, "'", 1, 1, "-", 1, "\u2019", 3), 0);
    CHECK(num_format_parse_typed(&format, 's', "\xff", 1, number, 2, NULL), -19);
}

/* Names that end at a zero byte, or are none, and places of unexpected bytes that are not wanted. */
static void check_null(void) {
    num_format format;
    int64_t number = 7;
    uint64_t low = 7, high = 7;
    uint32_t scale = 7;
    CHECK(num_format_locale_str(&format, "xx"), -5);
    CHECK(num_format_locale_str(&format, ""), -5);
    CHECK(num_format_locale_str(&format, "de_DE.UTF-8"), -5);
    CHECK(num_format_lookup_str(&format, "fr_FR.UTF-8"), 0);
    check_text(&format, 1000, "1\u202f000");
    CHECK(num_format_locale_str(&format, "de"), 0);
    CHECK(num_format_locale_str(&format, NULL), -5);
    CHECK(num_format_lookup_str(&format, NULL), -5);
    check_text(&format, 1000, "1.000");
    CHECK(num_format_parse_strict_i64(&format, 64, "1x", 2, &number, NULL), -9);
    CHECK(num_format_parse_strict_u64(&format, 64, "1x", 2, &low, NULL), -9);
    CHECK(num_format_parse_strict_i128(&format, "1x", 2, &low, &high, NULL), -9);
    CHECK(num_format_parse_strict_u128(&format, "1x", 2, &low, &high, NULL), -9);
    CHECK(num_format_parse_decimal(&format, "1x", 2, &low, &high, &scale, NULL), -9);
    CHECK(num_format_parse_decimal_i64(&format, "1x", 2, &number, &scale, NULL), -9);
    CHECK(number == 7 && low == 7 && high == 7 && scale == 7, 1);
    CHECK(num_format_parse_decimal_i64(&format, "1,5", 3, &number, &scale, NULL), 0);
    CHECK(number == 15 && scale == 1, 1);
}

/* Scales of which the low byte alone would be taken, and an array that is too short. */
static void check_decimals_i64(void) {
    static const uint32_t scales[] = {39, 256 + 2, 65536, UINT32_MAX};
    num_format de;
    char text[NUM_FORMAT_DECIMAL_MAX];
    CHECK(num_format_locale_str(&de, "de"), 0);
    for (size_t i = 0; i < sizeof scales / sizeof *scales; i++)
        CHECK(num_format_print_decimal_i64(&de, 1, scales[i], text, sizeof text), -13);
    CHECK(num_format_print_decimal_i64(&de, 100000, 2, text, 7), -2);
}

/* Texts with a zero byte in arrays of each size up to 4 bytes more than they need: whole, or empty. */
static void check_format(void) {
    enum { I64, U64, I128, U128, DECIMAL };
    static const struct {
        int call;
        uint64_t low, high;
        uint32_t scale;
        const char *locale, *text;
    } cases[] = {
        {I64, (uint64_t)-1234567, 0, 0, "de", "-1.234.567"},
        {I64, 7, 0, 0, "de", "7"},
        {I64, (uint64_t)1 << 63, 0, 0, "en", "-9,223,372,036,854,775,808"},
        {U64, UINT64_MAX, 0, 0, "en", "18,446,744,073,709,551,615"},
        {I128, UINT64_MAX - 1233, UINT64_MAX, 0, "fr", "-1\u202f234"},
        {I128, 0, (uint64_t)1 << 63, 0, "en", "-170,141,183,460,469,231,731,687,303,715,884,105,728"},
        {U128, UINT64_MAX, UINT64_MAX, 0, "en", "340,282,366,920,938,463,463,374,607,431,768,211,455"},
        {DECIMAL, UINT64_MAX - 123449, UINT64_MAX, 2, "de", "-1.234,50"},
        {DECIMAL, 0, 1, 2, "de", "184.467.440.737.095.516,16"},
    };
    for (size_t i = 0; i < sizeof cases / sizeof *cases; i++) {
        const char *expected = cases[i].text;
        const uint64_t low = cases[i].low, high = cases[i].high;
        const size_t length = strlen(expected);
        num_format format;
        compare(expected, num_format_locale_str(&format, cases[i].locale), 0);
        for (size_t size = 0; size < length + 5; size++) {
            char text[80];
            memset(text, 'x', sizeof text);
            compare(expected, cases[i].call == I64    ? num_format_format_i64(&format, (int64_t)low, text, size)
                              : cases[i].call == U64  ? num_format_format_u64(&format, low, text, size)
                              : cases[i].call == I128 ? num_format_format_i128(&format, low, high, text, size)
                              : cases[i].call == U128 ? num_format_format_u128(&format, low, high, text, size)
                              : num_format_format_decimal(&format, low, high, cases[i].scale, text, size), (int)length);
            const size_t kept = length < size ? length : 0, written = size > 0 ? kept + 1 : 0;
            if (size > 0)
                compare(expected, strcmp(text, kept ? expected : ""), 0);
            for (size_t k = written; k < sizeof text; k++)
                compare(expected, text[k], 'x');
        }
    }
    const num_format zeros = {0};
    num_format en;
    char text[4] = "xyz";
    CHECK(num_format_locale_str(&en, "en"), 0);
    CHECK(num_format_format_i64(&en, 12345, NULL, 0), 6);
    CHECK(num_format_format_i64(&zeros, 1, text, 0), -1);
    check_bytes("nothing is written", text, "xyz");
    CHECK(num_format_format_u64(&zeros, 1, text, sizeof text), -1);
    CHECK(memcmp(text, "\0yz", 4), 0);
    CHECK(num_format_format_decimal(&en, 1, 0, 39, text, sizeof text), -13);
    CHECK(memcmp(text, "\0yz", 4), 0);
    num_format longest_format;
    char all[NUM_FORMAT_MAX + 1];
    CHECK(num_format_custom(&longest_format, "12345678", 8, 2, "abcdefgh", 8), 0);
    CHECK(num_format_format_i128(&longest_format, 0, (uint64_t)1 << 63, all, sizeof all), NUM_FORMAT_MAX);
    CHECK(strcmp(all, longest), 0);
    char decimal[NUM_FORMAT_DECIMAL_MAX + 1];
    CHECK(num_format_custom_decimal(&longest_format, "12345678", 8, 2, "abcdefgh", 8, "ABCDEFGH", 8), 0);
    CHECK(num_format_format_decimal(&longest_format, 0, (uint64_t)1 << 63, 1, decimal, sizeof decimal), NUM_FORMAT_DECIMAL_MAX);
    CHECK(strcmp(decimal, longest_decimal), 0);
}

/* A decimal, by the halves of its units and its scale. */
struct decimal {
    uint64_t low, high;
    uint32_t scale;
};

/* Shows a decimal that is not the one written by hand, or after an error not the one as it was. */
static void compare_decimal(const char *name, size_t row, int result, struct decimal found, int expected,
                            struct decimal wanted) {
    compare(name, result, expected);
    if (found.low != wanted.low || found.high != wanted.high || found.scale != wanted.scale) {
        printf("%s: row %d\n", name, (int)row);
        status = 1;
    }
}

/* Sums and differences, in which -2^127 and 2^127 - 1 are the ends, what the ends become at other scales, and orders. */
static void check_arithmetic(void) {
#define TOP ((uint64_t)1 << 63)
    enum { ADD, SUBTRACT };
    static const struct {
        int call;
        struct decimal number, other;
        int status;
        struct decimal result;
    } sums[] = {
        {ADD, {150, 0, 2}, {25, 0, 1}, 0, {400, 0, 2}},
        {ADD, {UINT64_MAX - 14, UINT64_MAX, 1}, {2, 0, 0}, 0, {5, 0, 1}},
        {SUBTRACT, {150, 0, 2}, {125, 0, 3}, 0, {1375, 0, 3}},
        {ADD, {UINT64_MAX, TOP - 1, 0}, {0, 0, 0}, 0, {UINT64_MAX, TOP - 1, 0}},
        {ADD, {UINT64_MAX, TOP - 1, 0}, {1, 0, 0}, -12, {UINT64_MAX, TOP - 1, 0}},
        {SUBTRACT, {0, TOP, 38}, {1, 0, 38}, -12, {0, TOP, 38}},
        {ADD, {0, TOP, 38}, {UINT64_MAX, TOP - 1, 38}, 0, {UINT64_MAX, UINT64_MAX, 38}},
        {SUBTRACT, {0, TOP, 0}, {0, TOP, 0}, 0, {0, 0, 0}},
        {SUBTRACT, {0, 0, 0}, {0, TOP, 0}, -12, {0, 0, 0}},
        {SUBTRACT, {0x9999999999999999, 0x1999999999999999, 0}, {UINT64_MAX, TOP - 1, 1}, 0, {UINT64_MAX - 4, TOP - 1, 1}},
        {ADD, {1, 0, 38}, {1, 0, 0}, 0, {0x98A224000000001, 0x4B3B4CA85A86C47A, 38}},
        {ADD, {2, 0, 0}, {1, 0, 38}, -12, {2, 0, 0}},
        {ADD, {0, 0, 39}, {0, 0, 0}, -13, {0, 0, 39}},
        {ADD, {UINT64_MAX, TOP - 1, 0}, {UINT64_MAX, TOP - 1, 39}, -13, {UINT64_MAX, TOP - 1, 0}},
        {SUBTRACT, {1, 0, 2}, {1, 0, 258}, -13, {1, 0, 2}},
    };
    for (size_t i = 0; i < sizeof sums / sizeof *sums; i++) {
        struct decimal made = sums[i].number, other = sums[i].other;
        int result = (sums[i].call == ADD ? num_format_decimal_add : num_format_decimal_subtract)(
            &made.low, &made.high, &made.scale, other.low, other.high, other.scale);
        compare_decimal("sums", i, result, made, sums[i].status, sums[i].result);
    }
    static const struct {
        struct decimal number;
        uint32_t scale, rounding;
        int status;
        struct decimal result;
    } rescaled[] = {
        {{25, 0, 1}, 0, NUM_FORMAT_HALF_EVEN, 0, {2, 0, 0}},
        {{35, 0, 1}, 0, NUM_FORMAT_HALF_EVEN, 0, {4, 0, 0}},
        {{UINT64_MAX - 25, UINT64_MAX, 1}, 0, NUM_FORMAT_HALF_EVEN, 0, {UINT64_MAX - 2, UINT64_MAX, 0}},
        {{25, 0, 1}, 0, NUM_FORMAT_HALF_AWAY_FROM_ZERO, 0, {3, 0, 0}},
        {{UINT64_MAX - 24, UINT64_MAX, 1}, 0, NUM_FORMAT_HALF_AWAY_FROM_ZERO, 0, {UINT64_MAX - 2, UINT64_MAX, 0}},
        {{24, 0, 1}, 0, NUM_FORMAT_HALF_AWAY_FROM_ZERO, 0, {2, 0, 0}},
        {{29, 0, 1}, 0, NUM_FORMAT_TOWARD_ZERO, 0, {2, 0, 0}},
        {{UINT64_MAX - 28, UINT64_MAX, 1}, 0, NUM_FORMAT_TOWARD_ZERO, 0, {UINT64_MAX - 1, UINT64_MAX, 0}},
        {{20, 0, 1}, 0, NUM_FORMAT_EXACT, 0, {2, 0, 0}},
        {{25, 0, 1}, 0, NUM_FORMAT_EXACT, -18, {25, 0, 1}},
        {{25, 0, 1}, 0, 4, -18, {25, 0, 1}},
        {{25, 0, 1}, 0, 257, -18, {25, 0, 1}},
        {{UINT64_MAX, TOP - 1, 38}, 37, NUM_FORMAT_HALF_AWAY_FROM_ZERO, 0, {0xCCCCCCCCCCCCCCCD, 0xCCCCCCCCCCCCCCC, 37}},
        {{0, TOP, 38}, 0, NUM_FORMAT_HALF_EVEN, 0, {UINT64_MAX - 1, UINT64_MAX, 0}},
        {{0, TOP, 1}, 1, NUM_FORMAT_EXACT, 0, {0, TOP, 1}},
        {{1, 0, 0}, 38, NUM_FORMAT_HALF_EVEN, 0, {0x98A224000000000, 0x4B3B4CA85A86C47A, 38}},
        {{2, 0, 0}, 38, NUM_FORMAT_HALF_EVEN, -12, {2, 0, 0}},
        {{0, TOP, 0}, 1, NUM_FORMAT_EXACT, -12, {0, TOP, 0}},
        {{0, 0, 0}, 38, NUM_FORMAT_EXACT, 0, {0, 0, 38}},
        {{0, 0, 0}, 39, NUM_FORMAT_HALF_EVEN, -13, {0, 0, 0}},
        {{1, 0, 39}, 0, NUM_FORMAT_HALF_EVEN, -13, {1, 0, 39}},
        {{1, 0, 0}, 256, NUM_FORMAT_EXACT, -13, {1, 0, 0}},
    };
    for (size_t i = 0; i < sizeof rescaled / sizeof *rescaled; i++) {
        struct decimal made = rescaled[i].number;
        int result = num_format_decimal_rescale(&made.low, &made.high, &made.scale, rescaled[i].scale, rescaled[i].rounding);
        compare_decimal("rescaled", i, result, made, rescaled[i].status, rescaled[i].result);
    }
    static const struct {
        struct decimal number, other;
        int status, order;
    } orders[] = {
        {{150, 0, 2}, {15, 0, 1}, 0, 0},
        {{0, TOP, 0}, {UINT64_MAX, TOP - 1, 38}, 0, -1},
        {{UINT64_MAX, TOP - 1, 38}, {0, TOP, 38}, 0, 1},
        {{UINT64_MAX, UINT64_MAX, 38}, {0, 0, 0}, 0, -1},
        {{UINT64_MAX, TOP - 1, 1}, {UINT64_MAX, TOP - 1, 0}, 0, -1},
        {{0, TOP, 0}, {0, TOP, 38}, 0, -1},
        {{1, 0, 39}, {1, 0, 0}, -13, 7},
        {{1, 0, 0}, {1, 0, 294}, -13, 7},
    };
    for (size_t i = 0; i < sizeof orders / sizeof *orders; i++) {
        struct decimal number = orders[i].number, other = orders[i].other;
        int32_t order = 7;
        CHECK(num_format_decimal_compare(number.low, number.high, number.scale, other.low, other.high, other.scale, &order),
              orders[i].status);
        CHECK(order, orders[i].order);
    }
#undef TOP
}

int main(void) {
    check_width();
    check_arithmetic();
    check_null();
    check_decimals_i64();
    check_format();
    check_constants();
    check_layout();
    check_filled();
    check_read();
    check_groupings();
    check_errors();
    check_strict();
    check_ambiguous();
    check_typed();
    check_longest();
    check_digits();
    check_longest_digits();
    check_parsed_digits();
    check_latin();
    check_names();
    check_lookup();
    return status;
}
