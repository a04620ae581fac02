/* num-format for C99 and later: numbers with separators between groups of digits, and back.
 *
 *     num_format format;
 *     char text[NUM_FORMAT_MAX + 1];
 *     if (num_format_locale_str(&format, "de") == 0) {
 *         num_format_format_i64(&format, -1234567, text, sizeof text);
 *         puts(text);                                              -1.234.567
 *     }
 *
 * Below are formats, one number, the width of a text, decimals, columns and errors. Parse what people typed by
 * num_format_parse_typed, what programs wrote strictly by num_format_parse_strict_i64 and the like, and leniently by
 * num_format_parse_i64 and the like only where you need what num-format does.
 *
 * Lengths, capacities and sizes are in bytes, but for statuses_length. Texts are UTF-8, with a zero byte after them
 * only by the calls num_format_format_.. and in what the calls .._str take. No call allocates, and none keeps a
 * pointer or has a state, so calls may be made from any thread.
 *
 * A call that fails returns a negative number, one of the errors below, and everything that it would
 * have written is as it was, but for `at` with NUM_FORMAT_UNEXPECTED and NUM_FORMAT_OTHER_NUMERAL, and the text of
 * num_format_format_.., which is then empty. Where several errors apply, each call says which one it returns.
 *
 * The contracts of the library's functions are proved. They hold for any bytes of a struct `num_format` and of a
 * text. What is inline here is tested. What a caller must ensure, since no call can test it:
 *
 * - No pointer is null, but for a text or an array of length 0, and `at`, where the place is not wanted. GCC and Clang
 *   see to these where a call is written by its name, as num_format_locale(..). Through a pointer to a function, from
 *   another language and with other compilers those are not to be null either.
 * - A pointer to a text or an array points to as many bytes as the length, size or capacity beside it
 *   says, which is at most PTRDIFF_MAX.
 * - What a call writes overlaps nothing else that is passed to it, and no other thread reads or
 *   writes it meanwhile. No other thread writes what a call reads.
 */
#ifndef NUM_FORMAT_H
#define NUM_FORMAT_H

#include <stddef.h>
#include <stdint.h>
#include <string.h>

#ifdef __cplusplus
extern "C" {
#endif

/* The version of this header: 10,000 times the first number, plus 100 times the second, plus the third. It is
 * 100 for 0.1.0. */
#define NUM_FORMAT_VERSION 100

/* Returns the version of the library. */
uint32_t num_format_version(void);

/* ---- Formats ---- */

/* The groupings: where separators stand among the digits. */
typedef enum num_format_grouping {
    NUM_FORMAT_STANDARD = 1, /* 1,000,000 */
    NUM_FORMAT_INDIAN = 2,   /* 10,00,000 */
    NUM_FORMAT_POSIX = 3,    /* 1000000 */
    NUM_FORMAT_MYRIAD = 4,   /* 100,0000 */
    NUM_FORMAT_SPARSE = 5    /* 1000 and 10,000 */
} num_format_grouping;

/* A format. Fill it by num_format_locale, num_format_lookup, num_format_custom or num_format_custom_decimal,
 * and copy it as you like.
 *
 * Each call that is given a format, but num_format_set_digits, tests it, and rejects with
 * NUM_FORMAT_BAD_FORMAT one that cannot be a format: a length above 8, a text that is not UTF-8, a number
 * of no grouping or of no digit set. A struct of zeros is rejected.
 *
 * The calls that fill a struct set the bytes after each text, and those that are reserved, to zero. So the
 * formats of two filled structs have the same texts, grouping and digits exactly if memcmp finds the structs equal. */
typedef struct num_format {
    uint8_t separator[8];
    uint8_t minus_sign[8];
    uint8_t decimal_mark[8];
    uint8_t separator_length;
    uint8_t minus_sign_length;
    uint8_t decimal_mark_length;
    uint8_t grouping;
    uint8_t digits; /* 0 for 0 to 9, else the number of a digit set, as num_format_set_digits sets it */
    uint8_t reserved[3];
} num_format;

/* Fills the struct with the format of a locale, and returns 0.
 *
 * The name has hyphens, or an underscore for every hyphen: "en-US-POSIX" or "en_US_POSIX".
 *
 * Errors: NUM_FORMAT_NOT_UTF8, else NUM_FORMAT_UNKNOWN_LOCALE. */
int32_t num_format_locale(num_format *format, const char *name, size_t length);

/* Fills the struct with the format of the locale for a language tag, as an environment or a browser gives one,
 * and returns 0. A name of a locale is such a tag too.
 *
 * What follows the first "." or "@" does not count, nor does the case of ASCII letters, and an underscore counts
 * as a hyphen. From what is left, subtags are taken away at the end until it is a name: "de_DE.UTF-8" is "de",
 * "en-us" is "en", "zh-hant-TW" is "zh-Hant", "sr_RS@latin" is "sr". "C" and "POSIX" are "en-US-POSIX".
 *
 * The digits are those that the tag names after "-u-" and "-nu-", as num_format_set_digits takes their name, and else
 * 0 to 9: "fa-u-nu-arabext". "native" is the default set of the locale, as CLDR 42 has it: "fa-u-nu-native". For these
 * the tag counts up to "-x-".
 *
 * Errors: NUM_FORMAT_NOT_UTF8, else NUM_FORMAT_UNKNOWN_LOCALE: no name is left, as of "english", else
 * NUM_FORMAT_UNKNOWN_DIGITS, as of "zh-u-nu-traditio" and "zh-u-nu-finance", and of "de-u-nu", which names none. */
int32_t num_format_lookup(num_format *format, const char *tag, size_t length);

/* The same for a name and a tag that end at a zero byte. A null pointer, as getenv returns one, is
 * NUM_FORMAT_UNKNOWN_LOCALE. These are inline. */
static inline int32_t num_format_locale_str(num_format *format, const char *name);
static inline int32_t num_format_lookup_str(num_format *format, const char *tag);

/* Fills the struct with a separator of at most 8 bytes, a grouping, a minus sign of at most 8 bytes and the
 * decimal mark ".", and returns 0. Either text may be empty.
 *
 * Errors: NUM_FORMAT_NOT_UTF8, else NUM_FORMAT_TOO_LONG, else NUM_FORMAT_BAD_GROUPING. */
int32_t num_format_custom(num_format *format, const char *separator, size_t separator_length,
                          uint32_t grouping, const char *minus_sign, size_t minus_sign_length);

/* The same with a decimal mark of at most 8 bytes, which may be empty too. */
int32_t num_format_custom_decimal(num_format *format, const char *separator, size_t separator_length,
                                  uint32_t grouping, const char *minus_sign, size_t minus_sign_length,
                                  const char *decimal_mark, size_t decimal_mark_length);

/* Sets the digits of the struct to a set by its name in the CLDR, in lower case, changes nothing else, and returns 0:
 * "arab", "arabext", "deva", "beng", "mymr", "fullwide" and 70 others, which are all the decimal digits of Unicode, and
 * "latn" for 0 to 9. The calls that fill a struct, but num_format_lookup, set it to "latn".
 *
 * A text in another set than "latn" is the text in 0 to 9 with the digits of the set for them, which no symbol
 * of a locale has: 1234 in "fullwide" under "en" is U+FF11, a comma, and U+FF12 to U+FF14. Texts are printed,
 * measured, parsed strictly and as people type them in each set. What parses leniently, and num_format_reads_back,
 * rejects a struct with another set than "latn" by NUM_FORMAT_BAD_FORMAT.
 *
 * Errors: NUM_FORMAT_NOT_UTF8, else NUM_FORMAT_UNKNOWN_DIGITS: no set has the name, as "roman" and "Arab". */
int32_t num_format_set_digits(num_format *format, const char *name, size_t length);

/* The number of locales. Their places are the numbers below it. */
#define NUM_FORMAT_LOCALES 542

/* Writes the name of the locale at a place at the start of the array, and returns its length. Names
 * are in rising byte order, and have hyphens. NUM_FORMAT_MAX bytes suffice for each. The other
 * bytes of the array are as they were.
 *
 * Errors: NUM_FORMAT_UNKNOWN_LOCALE, else NUM_FORMAT_TOO_SMALL. */
int32_t num_format_names(size_t place, char *name, size_t capacity);

/* Writes the name of the locale for a language tag, as num_format_lookup finds it, at the start of the array,
 * and returns its length. The other bytes of the array are as they were.
 *
 * Errors: those of num_format_lookup, else NUM_FORMAT_TOO_SMALL. */
int32_t num_format_lookup_name(const char *tag, size_t tag_length, char *name, size_t capacity);

/* Returns 1 if every number, printed under the format, parses as the same number again, as any type
 * that has it; else 0. It is 1 for each locale, and 0 for an empty minus sign, for example, or for the
 * separator "0" under a grouping that prints one.
 *
 * Error: NUM_FORMAT_BAD_FORMAT. */
int32_t num_format_reads_back(const num_format *format);

/* Returns 1 if both formats have the same digits and each number has the same text under both in 0 to 9, else 0.
 *
 * Error: NUM_FORMAT_BAD_FORMAT, if either struct has no format. */
int32_t num_format_prints_alike(const num_format *first, const num_format *second);

/* ---- One number ---- */

/* The size of an array that the text of any number fits, under any format, in the digits 0 to 9. */
#define NUM_FORMAT_MAX 191

/* The size of one that the text of any number or decimal fits in each digit set. */
#define NUM_FORMAT_DIGITS_MAX 796

/* Print a number at the start of the array, and return the length of its text, from 1 to NUM_FORMAT_MAX, or to
 * NUM_FORMAT_DIGITS_MAX in other digits. The other bytes of the array are as they were.
 *
 * Numbers of narrower types have the same text, converted to 64 bits. One of 128 bits is passed by its low and its
 * high half: of an unsigned __int128 n, or of an __int128 in two's complement, (uint64_t)n and (uint64_t)(n >> 64).
 *
 * Errors: NUM_FORMAT_BAD_FORMAT, else NUM_FORMAT_TOO_SMALL. */
int32_t num_format_print_i64(const num_format *format, int64_t number, char *text, size_t capacity);
int32_t num_format_print_u64(const num_format *format, uint64_t number, char *text, size_t capacity);
int32_t num_format_print_i128(const num_format *format, uint64_t low, uint64_t high, char *text,
                              size_t capacity);
int32_t num_format_print_u128(const num_format *format, uint64_t low, uint64_t high, char *text,
                              size_t capacity);

/* Write the text of a number and a zero byte, as snprintf does, and return the length of the text. NUM_FORMAT_MAX + 1
 * bytes suffice, or NUM_FORMAT_DIGITS_MAX + 1 in other digits. Where the size is not above the length, and after an
 * error, the text is empty: no part of a number is written. With size 0 nothing is written, and text may be null. These
 * are inline.
 *
 * Error: NUM_FORMAT_BAD_FORMAT. */
static inline int32_t num_format_format_i64(const num_format *format, int64_t number, char *text, size_t size);
static inline int32_t num_format_format_u64(const num_format *format, uint64_t number, char *text, size_t size);
static inline int32_t num_format_format_i128(const num_format *format, uint64_t low, uint64_t high, char *text,
                                             size_t size);
static inline int32_t num_format_format_u128(const num_format *format, uint64_t low, uint64_t high, char *text,
                                             size_t size);

/* Return the length of that text: the capacity that is needed.
 *
 * Error: NUM_FORMAT_BAD_FORMAT. */
int32_t num_format_print_i64_len(const num_format *format, int64_t number);
int32_t num_format_print_u64_len(const num_format *format, uint64_t number);
int32_t num_format_print_i128_len(const num_format *format, uint64_t low, uint64_t high);
int32_t num_format_print_u128_len(const num_format *format, uint64_t low, uint64_t high);

/* Parse a text that is exactly as a number is printed, with its separators or without any, as a number
 * of 8, 16, 32 or 64 bits, or of 128 bits, write the number, and return 0.
 *
 * Under the locale "en" the texts "-1,234" and "-1234" are -1234, and all of "1,23", "01", "-0", "+1",
 * " 1" and "12.50" are rejected.
 *
 * In other digits than 0 to 9, each numeric character has to be a digit of the set, and the text with 0 to 9 for these
 * is the one that is parsed. `at` counts the bytes of the text as given.
 *
 * `at` is written with NUM_FORMAT_UNEXPECTED and NUM_FORMAT_OTHER_NUMERAL alone, and the number with 0 alone. Each is
 * as it was with any other result.
 *
 * Errors, in this order:
 * - NUM_FORMAT_BAD_BITS, where the number of bits is passed.
 * - NUM_FORMAT_BAD_FORMAT.
 * - NUM_FORMAT_AMBIGUOUS_FORMAT: in 0 to 9 num_format_reads_back returns 0, as it does for no locale. The minus
 *   sign is empty, or it or a separator that is printed has a numeric character, as "7".
 * - NUM_FORMAT_NOT_UTF8.
 * - NUM_FORMAT_OTHER_NUMERAL, in other digits than 0 to 9: a numeric character is none of the set, as "3" and U+00B2 in
 *   "arab". `at` is then the number of bytes before the first such character.
 * - NUM_FORMAT_TEXT_TOO_LONG, in these too: with 0 to 9 for them it has more than NUM_FORMAT_DECIMAL_MAX bytes.
 * - NUM_FORMAT_UNEXPECTED: a byte is none of the minus sign, if the text begins with it, of a digit 0
 *   to 9, or of a whole separator. `at` is then the number of bytes before the first such byte: under
 *   "en" 0 for " 1", 2 for "12.50" and 5 for "1,234 2". Under NUM_FORMAT_POSIX no byte is of a
 *   separator.
 * - NUM_FORMAT_NO_DIGIT: the text has no digit, as the empty one, "-" and ",".
 * - NUM_FORMAT_MISSPELLED: the text is not as the number that its digits and its minus sign denote is
 *   printed, grouped or not: under "en" as "01", "1,23", "1234,567" and "-0".
 * - NUM_FORMAT_OUT_OF_RANGE: the text is as that number is printed, however many digits it has, and the
 *   number is not in the range of the type. */
int32_t num_format_parse_strict_i64(const num_format *format, uint32_t bits, const char *text,
                                    size_t length, int64_t *number, size_t *at);
int32_t num_format_parse_strict_u64(const num_format *format, uint32_t bits, const char *text,
                                    size_t length, uint64_t *number, size_t *at);
int32_t num_format_parse_strict_i128(const num_format *format, const char *text, size_t length,
                                     uint64_t *low, uint64_t *high, size_t *at);
int32_t num_format_parse_strict_u128(const num_format *format, const char *text, size_t length,
                                     uint64_t *low, uint64_t *high, size_t *at);

/* Parses a text as a person types it (no data type is meant) as a number of a type of num_format_type, below, writes
 * the number, which has value_size bytes at any address, and returns 0.
 *
 * The text stands for one that is parsed strictly, and the number is of that. Blanks, line ends and marks of the
 * direction of writing but overrides count for nothing at both ends, and such marks after the sign. A hyphen, a minus
 * sign or a dash no wider than a digit at the start stands for the minus sign of the format, which counts for nothing
 * before zero; a plus sign there counts for nothing. Then each space, apostrophe, comma or point stands for the one of
 * its kind that the format has. So a text that is parsed strictly is parsed as the same number, "1 234" with the space
 * of a keyboard is 1234 under "fr", which prints U+202F, and "-5" is -5 under "sv", which prints U+2212. Nothing else
 * is mended: under "en" all of "1,23", "01", "1.234,5", "(5)", "5-" and "- 5" are rejected. "1,234" is 1234 under "en",
 * and as a decimal 1.234 under "de".
 *
 * Errors, in this order: NUM_FORMAT_BAD_TYPE, NUM_FORMAT_BAD_FORMAT, and
 * - NUM_FORMAT_BAD_LENGTH: value_size is not the size of the type.
 * - NUM_FORMAT_AMBIGUOUS_FORMAT: as by num_format_parse_strict_i64; or the decimal mark and a separator that is printed
 *   have two unlike spaces, apostrophes, commas or points, as "'" and U+2019; or the minus sign has one of the kinds
 *   that these two have, or without marks of the direction of writing at its ends is empty or begins with a blank, a
 *   line end or a plus sign. This holds for no locale.
 * - NUM_FORMAT_NOT_UTF8.
 * - In other digits than 0 to 9 NUM_FORMAT_OTHER_NUMERAL or NUM_FORMAT_TEXT_TOO_LONG, as num_format_parse_strict_i64.
 * - NUM_FORMAT_TEXT_TOO_LONG: the text that it stands for has more than NUM_FORMAT_DECIMAL_MAX bytes.
 * - Those of num_format_parse_strict_i64 of the text that it stands for. `at` counts the bytes of the text as given. */
int32_t num_format_parse_typed(const num_format *format, uint32_t type, const char *text, size_t length, void *value,
                               size_t value_size, size_t *at);

/* Parse a text leniently, write the number, and return 0.
 *
 * The number is that of the digits 0 to 9 of the text in order, negated if the text begins with the
 * format's minus sign. Each character that is not numeric is ignored: under "en" the text "12.50" is
 * 1250, and "(7)" is 7.
 *
 * Errors, in this order:
 * - NUM_FORMAT_BAD_BITS, where the number of bits is passed.
 * - NUM_FORMAT_BAD_FORMAT.
 * - NUM_FORMAT_NOT_UTF8.
 * - NUM_FORMAT_NOT_A_NUMBER: the text has no digit; it has a numeric character other than 0 to 9; it
 *   has more digits, a minus sign counted as one, than the longest number of that many bits; or
 *   its number is not in the range of the type. */
int32_t num_format_parse_i64(const num_format *format, uint32_t bits, const char *text, size_t length,
                             int64_t *number);
int32_t num_format_parse_u64(const num_format *format, uint32_t bits, const char *text, size_t length,
                             uint64_t *number);
int32_t num_format_parse_i128(const num_format *format, const char *text, size_t length, uint64_t *low,
                              uint64_t *high);
int32_t num_format_parse_u128(const num_format *format, const char *text, size_t length, uint64_t *low,
                              uint64_t *high);

/* ---- The width of a text ---- */

/* Returns how many columns a text takes, such as one that was printed, where each character takes one, but U+061C,
 * U+200E and U+200F, which mark the direction of writing, none: "-1,234" under "he", which begins with U+200E, takes 6.
 * So each byte counts that is not 0x80 to 0xBF and begins none of the three, also where the text is not UTF-8. */
size_t num_format_text_width(const char *text, size_t length);

/* ---- Decimals ---- */

/* The size of an array that the text of any decimal fits, under any format, in the digits 0 to 9. */
#define NUM_FORMAT_DECIMAL_MAX 199

/* Prints a decimal at the start of the array, and returns the length of its text, from 1 to NUM_FORMAT_DECIMAL_MAX, or
 * to NUM_FORMAT_DIGITS_MAX in other digits. The other bytes of the array are as they were.
 *
 * The decimal is its units divided by 10 to the power of the scale, which is at most 38. The units are
 * signed, of 128 bits, by their halves: 123450 at scale 2 is "1,234.50" under "en", and -5 at scale 2 is
 * "-0.05". The digits before the decimal mark are grouped as the format says, and as many digits as the
 * scale come after it. At scale 0 there is no decimal mark.
 *
 * Errors: NUM_FORMAT_BAD_SCALE, else NUM_FORMAT_BAD_FORMAT, else NUM_FORMAT_TOO_SMALL. */
int32_t num_format_print_decimal(const num_format *format, uint64_t low, uint64_t high, uint32_t scale,
                                 char *text, size_t capacity);

/* Writes that text and a zero byte, as num_format_format_i64 does a number's. NUM_FORMAT_DECIMAL_MAX + 1 bytes suffice,
 * or NUM_FORMAT_DIGITS_MAX + 1 in other digits. This is inline.
 *
 * Errors: NUM_FORMAT_BAD_SCALE, else NUM_FORMAT_BAD_FORMAT. */
static inline int32_t num_format_format_decimal(const num_format *format, uint64_t low, uint64_t high, uint32_t scale,
                                                char *text, size_t size);

/* Returns the length of that text.
 *
 * Errors: NUM_FORMAT_BAD_SCALE, else NUM_FORMAT_BAD_FORMAT. */
int32_t num_format_print_decimal_len(const num_format *format, uint64_t low, uint64_t high, uint32_t scale);

/* Parses a text that is exactly as a decimal is printed, with its separators or without any, writes the
 * halves of its units and its scale, which is the number of digits after the decimal mark, and returns 0.
 *
 * Under the locale "en" the text "1,234.50" is 123450 at scale 2, "-1234.5" is -12345 at scale 1 and
 * "7" is 7 at scale 0. All of ".5", "1.", "1,23.4", "-0.00" and "1e3" are rejected.
 *
 * `at` is written with NUM_FORMAT_UNEXPECTED and NUM_FORMAT_OTHER_NUMERAL alone, and the decimal with 0 alone. Each is
 * as it was with any other result.
 *
 * Errors, in this order. Of a text that is as a decimal is printed are only the first two, the last
 * and, in other digits than 0 to 9, NUM_FORMAT_TEXT_TOO_LONG.
 * - NUM_FORMAT_BAD_FORMAT.
 * - NUM_FORMAT_AMBIGUOUS_FORMAT: in 0 to 9 num_format_reads_back returns 0, or the decimal mark is empty, has a
 *   numeric character, or is a separator that is printed. This holds for no locale either.
 * - NUM_FORMAT_NOT_UTF8.
 * - In other digits than 0 to 9 NUM_FORMAT_OTHER_NUMERAL or NUM_FORMAT_TEXT_TOO_LONG, as num_format_parse_strict_i64.
 * - NUM_FORMAT_UNEXPECTED: a byte is none of those of num_format_parse_strict_i64, of one decimal mark, or
 *   of a digit after it. `at` is then the number of bytes before the first such byte: under "en" 5 for
 *   "1.234.5", and 1 for "1e3".
 * - NUM_FORMAT_NO_DIGIT.
 * - NUM_FORMAT_TOO_MANY_DECIMALS.
 * - NUM_FORMAT_MISSPELLED.
 * - NUM_FORMAT_OUT_OF_RANGE: the units are no signed number of 128 bits. */
int32_t num_format_parse_decimal(const num_format *format, const char *text, size_t length, uint64_t *low,
                                 uint64_t *high, uint32_t *scale, size_t *at);

/* Parses a text as a person types it (no data type is meant) as a decimal: what it stands for, as by
 * num_format_parse_typed, is parsed as by num_format_parse_decimal. "1 234,50" is 123450 at scale 2 under "fr", and
 * ".5" and "5." are rejected.
 *
 * Errors, in this order: NUM_FORMAT_BAD_FORMAT; NUM_FORMAT_AMBIGUOUS_FORMAT, as by these two; NUM_FORMAT_NOT_UTF8;
 * NUM_FORMAT_OTHER_NUMERAL; NUM_FORMAT_TEXT_TOO_LONG; and those of num_format_parse_decimal of what the text stands
 * for. */
int32_t num_format_parse_typed_decimal(const num_format *format, const char *text, size_t length, uint64_t *low,
                                       uint64_t *high, uint32_t *scale, size_t *at);

/* The same with units of 64 bits. Where the units of a text need more bits, parsing returns NUM_FORMAT_OUT_OF_RANGE.
 * These are inline. */
static inline int32_t num_format_print_decimal_i64(const num_format *format, int64_t units, uint32_t scale,
                                                   char *text, size_t capacity);
static inline int32_t num_format_parse_decimal_i64(const num_format *format, const char *text, size_t length,
                                                   int64_t *units, uint32_t *scale, size_t *at);
static inline int32_t num_format_parse_typed_decimal_i64(const num_format *format, const char *text, size_t length,
                                                         int64_t *units, uint32_t *scale, size_t *at);

/* Add a decimal to the one whose halves and scale these are, or subtract it from that, write the result in its place,
 * and return 0. The result is exact, at the larger of both scales: 1.50 less 0.125 is 1.375.
 *
 * Errors: NUM_FORMAT_BAD_SCALE, else NUM_FORMAT_OUT_OF_RANGE: the units are no signed number of 128 bits. */
int32_t num_format_decimal_add(uint64_t *low, uint64_t *high, uint32_t *scale, uint64_t other_low,
                               uint64_t other_high, uint32_t other_scale);
int32_t num_format_decimal_subtract(uint64_t *low, uint64_t *high, uint32_t *scale, uint64_t other_low,
                                    uint64_t other_high, uint32_t other_scale);

/* What becomes of a decimal that has more decimals than a scale. Any other number is as the first. */
typedef enum num_format_rounding {
    NUM_FORMAT_EXACT = 0,               /* the same number, or NUM_FORMAT_DIGITS_LOST */
    NUM_FORMAT_HALF_EVEN = 1,           /* the nearest, and of two the even one: of 2.5 it is 2, and of 3.5 it is 4 */
    NUM_FORMAT_HALF_AWAY_FROM_ZERO = 2, /* the nearest, and of two the one farther from 0: of 2.5 it is 3 */
    NUM_FORMAT_TOWARD_ZERO = 3          /* the digits that are left: of 2.9 it is 2, and of -2.9 it is -2 */
} num_format_rounding;

/* Writes the decimal at a new scale in its place, as one of num_format_rounding says, and returns 0.
 *
 * Errors: NUM_FORMAT_BAD_SCALE of either scale, else NUM_FORMAT_DIGITS_LOST, of NUM_FORMAT_EXACT alone, else
 * NUM_FORMAT_OUT_OF_RANGE: the units at the scale are no signed number of 128 bits. */
int32_t num_format_decimal_rescale(uint64_t *low, uint64_t *high, uint32_t *scale, uint32_t new_scale,
                                   uint32_t rounding);

/* Writes -1, 0 or 1 as the decimal is below, at or above the value of another one, and returns 0. 1.50 and 1.5 are of
 * one value.
 *
 * Error: NUM_FORMAT_BAD_SCALE. */
int32_t num_format_decimal_compare(uint64_t low, uint64_t high, uint32_t scale, uint64_t other_low,
                                   uint64_t other_high, uint32_t other_scale, int32_t *order);

/* ---- Columns: many numbers at once, their texts in the layout of a column of strings of Apache Arrow ---- */

/* The types of values and offsets, as Arrow's C data interface names them, which has no integers of 128 bits. */
typedef enum num_format_type {
    NUM_FORMAT_I8 = 'c', NUM_FORMAT_U8 = 'C', NUM_FORMAT_I16 = 's', NUM_FORMAT_U16 = 'S',
    NUM_FORMAT_I32 = 'i', NUM_FORMAT_U32 = 'I', NUM_FORMAT_I64 = 'l', NUM_FORMAT_U64 = 'L',
    NUM_FORMAT_I128 = 'q', NUM_FORMAT_U128 = 'Q'
} num_format_type;

/* A column of n rows, in the layout of Arrow:
 *
 * - Values are of one of the types, at any address, and values_size is n times the size of one. Those of 128 bits lie
 *   as __int128 or Arrow's decimal128, the low byte first.
 * - Texts are one after another in the bytes, and n + 1 offsets say where: text k begins at offset k and ends where
 *   offset k + 1 says. Offsets are of NUM_FORMAT_I32 or NUM_FORMAT_I64, at any address, and none is below 0.
 * - Row k is null if bit bit_offset + k of the validity bitmap is 0. Bit b is bit b % 8, from the lowest, of byte
 *   b / 8. If validity_size is 0, there is no bitmap, and no row is null.
 * - Statuses are aligned as C aligns them, and statuses_length is how many there are, and no size in bytes.
 *
 * After any error all is as it was. What two of the errors are in each call:
 *
 * - NUM_FORMAT_BAD_TYPE: the type of the values is none of those above, or that of the offsets none of their two.
 * - NUM_FORMAT_BAD_LENGTH: values_size is no multiple of the size of a value, offsets_size is not n + 1 times that of
 *   an offset, there are not n statuses, or there is a bitmap and it has fewer than bit_offset + n bits. */

/* Prints the values, writes their offsets, the first of which is 0, and how many bytes the texts have together, and
 * returns 0. Text k is as by num_format_print_i64 and the like, or empty where row k is null. The bytes after the
 * last text are as they were.
 *
 * Errors, in this order: NUM_FORMAT_BAD_TYPE, NUM_FORMAT_BAD_FORMAT, NUM_FORMAT_BAD_LENGTH, and
 * - NUM_FORMAT_TOO_MANY_BYTES: the texts have more bytes than the largest offset, 2^31 - 1 or 2^63 - 1.
 * - NUM_FORMAT_TOO_SMALL: the texts have more bytes than the capacity. */
int32_t num_format_print_column(const num_format *format, uint32_t type, const void *values, size_t values_size,
                                const uint8_t *validity, size_t validity_size, size_t bit_offset, void *offsets,
                                size_t offsets_size, uint32_t offset_type, char *bytes, size_t capacity,
                                size_t *length);

/* Writes how many bytes these texts have together, and returns 0.
 *
 * Errors, in this order: NUM_FORMAT_BAD_TYPE, NUM_FORMAT_BAD_FORMAT, NUM_FORMAT_BAD_LENGTH,
 * NUM_FORMAT_TOO_MANY_BYTES: more than SIZE_MAX. */
int32_t num_format_print_column_len(const num_format *format, uint32_t type, const void *values,
                                    size_t values_size, const uint8_t *validity, size_t validity_size,
                                    size_t bit_offset, size_t *length);

/* How the texts of a column are parsed: as by num_format_parse_strict_i64, num_format_parse_i64 or
 * num_format_parse_typed. Any other number is lenient too. */
typedef enum num_format_parsing {
    NUM_FORMAT_STRICT = 0,
    NUM_FORMAT_LENIENT = 1,
    NUM_FORMAT_TYPED = 2
} num_format_parsing;

/* Parses the texts in a way of num_format_parsing, writes a status for each row, and returns 0. Status k is what the
 * call for one text returns for text k and the type, and value k is written where it is 0, and else as it was. A null
 * row has status 0, and its value is as it was. A text that is rejected stops nothing. The first offset may be above 0,
 * and the last one below bytes_size.
 *
 * Statuses: 0, NUM_FORMAT_NOT_UTF8, and leniently NUM_FORMAT_NOT_A_NUMBER, or else NUM_FORMAT_UNEXPECTED,
 * NUM_FORMAT_NO_DIGIT, NUM_FORMAT_MISSPELLED, NUM_FORMAT_OUT_OF_RANGE, of typed texts NUM_FORMAT_TEXT_TOO_LONG, and in
 * other digits than 0 to 9 this and NUM_FORMAT_OTHER_NUMERAL.
 *
 * Errors, in this order: NUM_FORMAT_BAD_TYPE, NUM_FORMAT_BAD_FORMAT, unless it parses leniently
 * NUM_FORMAT_AMBIGUOUS_FORMAT, NUM_FORMAT_BAD_LENGTH, and
 * - NUM_FORMAT_BAD_OFFSETS: an offset is below 0 or the one before it, or the last is above bytes_size. With no row
 *   the one offset is tested too. */
int32_t num_format_parse_column(const num_format *format, uint32_t type, uint32_t parsing, const void *offsets,
                                size_t offsets_size, uint32_t offset_type, const char *bytes, size_t bytes_size,
                                void *values, size_t values_size, const uint8_t *validity, size_t validity_size,
                                size_t bit_offset, int32_t *statuses, size_t statuses_length);

/* The same for decimals of one scale, whose units are of NUM_FORMAT_I128. Text k is as by num_format_print_decimal.
 *
 * Errors: NUM_FORMAT_BAD_SCALE, else those of the calls for numbers. */
int32_t num_format_print_decimal_column(const num_format *format, const void *units, size_t units_size,
                                        uint32_t scale, const uint8_t *validity, size_t validity_size,
                                        size_t bit_offset, void *offsets, size_t offsets_size,
                                        uint32_t offset_type, char *bytes, size_t capacity, size_t *length);
int32_t num_format_print_decimal_column_len(const num_format *format, const void *units, size_t units_size,
                                            uint32_t scale, const uint8_t *validity, size_t validity_size,
                                            size_t bit_offset, size_t *length);

/* Parses the texts as num_format_parse_decimal does, and writes the units of each decimal at the scale of the column:
 * "1.5" and "1.500" are 150 at scale 2. All else is as by num_format_parse_column.
 *
 * Statuses: 0, those of strict parsing, NUM_FORMAT_TOO_MANY_DECIMALS, and NUM_FORMAT_DIGITS_LOST, as of "1.505" at
 * scale 2. NUM_FORMAT_OUT_OF_RANGE: the units, in the text or at the scale, are no signed number of 128 bits.
 *
 * Errors: NUM_FORMAT_BAD_SCALE, else those of num_format_parse_column where it parses strictly, but that
 * NUM_FORMAT_AMBIGUOUS_FORMAT is as for num_format_parse_decimal. */
int32_t num_format_parse_decimal_column(const num_format *format, uint32_t scale, const void *offsets,
                                        size_t offsets_size, uint32_t offset_type, const char *bytes,
                                        size_t bytes_size, void *units, size_t units_size,
                                        const uint8_t *validity, size_t validity_size, size_t bit_offset,
                                        int32_t *statuses, size_t statuses_length);

/* The same of texts as a person types them (no data type is meant), as num_format_parse_typed_decimal does. A status
 * may be NUM_FORMAT_TEXT_TOO_LONG too. */
int32_t num_format_parse_typed_decimal_column(const num_format *format, uint32_t scale, const void *offsets,
                                              size_t offsets_size, uint32_t offset_type, const char *bytes,
                                              size_t bytes_size, void *units, size_t units_size,
                                              const uint8_t *validity, size_t validity_size, size_t bit_offset,
                                              int32_t *statuses, size_t statuses_length);

/* ---- Errors ---- */

/* The statuses that calls return. */
typedef enum num_format_status {
    NUM_FORMAT_OK = 0,
    NUM_FORMAT_BAD_FORMAT = -1,       /* the struct has no format, or one in digits that the call does not take */
    NUM_FORMAT_TOO_SMALL = -2,        /* the array is shorter than the text */
    NUM_FORMAT_NOT_UTF8 = -3,         /* a text is not UTF-8 */
    NUM_FORMAT_NOT_A_NUMBER = -4,     /* lenient parsing rejects the text */
    NUM_FORMAT_UNKNOWN_LOCALE = -5,   /* there is no locale of the name, for the tag or at the place */
    NUM_FORMAT_TOO_LONG = -6,         /* a text of the format has more than 8 bytes */
    NUM_FORMAT_BAD_GROUPING = -7,     /* the number stands for no grouping */
    NUM_FORMAT_BAD_BITS = -8,         /* the number of bits is not 8, 16, 32 or 64 */
    NUM_FORMAT_UNEXPECTED = -9,       /* a byte belongs to no minus sign, digit, separator or decimal mark */
    NUM_FORMAT_NO_DIGIT = -10,        /* the text has no digit */
    NUM_FORMAT_MISSPELLED = -11,      /* the text is not as its number is printed */
    NUM_FORMAT_OUT_OF_RANGE = -12,    /* the number is not in the range of the type */
    NUM_FORMAT_BAD_SCALE = -13,       /* the scale of a decimal is above 38 */
    NUM_FORMAT_TOO_MANY_DECIMALS = -14, /* more than 38 digits follow the decimal mark */
    NUM_FORMAT_BAD_LENGTH = -15,      /* sizes of a column do not fit one another, or that of a value its type */
    NUM_FORMAT_BAD_OFFSETS = -16,     /* an offset is below 0 or the one before it, or past the bytes */
    NUM_FORMAT_TOO_MANY_BYTES = -17,  /* the texts have more bytes than an offset can say */
    NUM_FORMAT_DIGITS_LOST = -18,     /* a decimal has digits other than 0 that the scale has not */
    NUM_FORMAT_AMBIGUOUS_FORMAT = -19, /* a text can be misread under the format, which parses none strictly */
    NUM_FORMAT_BAD_TYPE = -20,        /* no type of values or offsets has this number */
    NUM_FORMAT_TEXT_TOO_LONG = -21,   /* a text as a person types it, or in a digit set, is longer than any number's */
    NUM_FORMAT_UNKNOWN_DIGITS = -22,  /* no digit set has the name, or that in the tag, or the tag has two */
    NUM_FORMAT_OTHER_NUMERAL = -23    /* a numeric character is no digit of the set, which is not 0 to 9 */
} num_format_status;

/* Returns what a status means, as a text that ends at a zero byte and is never freed: "ok" for 0 and above. This is
 * inline. */
static inline const char *num_format_strerror(int32_t status);

/* ---- What is inline ---- */

/* The casts of C are meant in C++ too. */
#if defined(__cplusplus) && defined(__GNUC__)
#pragma GCC diagnostic push
#pragma GCC diagnostic ignored "-Wold-style-cast"
#endif

/* In place of a null pointer a call passes on one that is not null, to where nothing is read or written, and for the
 * place of an unexpected byte one to a variable that is dropped. */
#ifdef __GNUC__
#define NUM_FORMAT_SOME(pointer) ((pointer) ? (pointer) : (__typeof__(pointer))8)
#define NUM_FORMAT_AT ((at) ? (at) : &dropped)

/* The name of a function of the library. Clang would take a function of this name for the inline one that calls it, and
 * leave that one's body out, if the byte 1 did not say that it stands for a symbol as it is. */
#ifdef __clang__
#define NUM_FORMAT_SYMBOL(name) "\1num_format_" #name
#else
#define NUM_FORMAT_SYMBOL(name) "num_format_" #name
#endif

/* The function that is called num_format_X in C, inline in place of that of the library, which it calls. */
#define NUM_FORMAT_INLINE(type, name, parameters, arguments) \
    NUM_FORMAT_INLINE_WITH(type, name, parameters, arguments, )
#define NUM_FORMAT_INLINE_AT(name, parameters, arguments) \
    NUM_FORMAT_INLINE_WITH(int32_t, name, parameters, arguments, size_t dropped = 0;)
#define NUM_FORMAT_INLINE_WITH(type, name, parameters, arguments, variable) \
    type num_format_call_##name parameters __asm__(NUM_FORMAT_SYMBOL(name)); \
    extern __inline__ __attribute__((__gnu_inline__, __always_inline__)) type num_format_##name parameters { \
        variable return num_format_call_##name arguments; \
    }
#define NUM_FORMAT_NUMBER(name, type) \
    NUM_FORMAT_INLINE(int32_t, print_##name, (const num_format *format, type number, char *text, size_t capacity), \
                      (format, number, NUM_FORMAT_SOME(text), capacity)) \
    NUM_FORMAT_INLINE_AT(parse_strict_##name, \
                         (const num_format *format, uint32_t bits, const char *text, size_t length, type *number, \
                          size_t *at), \
                         (format, bits, NUM_FORMAT_SOME(text), length, number, NUM_FORMAT_AT)) \
    NUM_FORMAT_INLINE(int32_t, parse_##name, \
                      (const num_format *format, uint32_t bits, const char *text, size_t length, type *number), \
                      (format, bits, NUM_FORMAT_SOME(text), length, number))
#define NUM_FORMAT_WIDE_NUMBER(name) \
    NUM_FORMAT_INLINE(int32_t, print_##name, \
                      (const num_format *format, uint64_t low, uint64_t high, char *text, size_t capacity), \
                      (format, low, high, NUM_FORMAT_SOME(text), capacity)) \
    NUM_FORMAT_INLINE_AT(parse_strict_##name, \
                         (const num_format *format, const char *text, size_t length, uint64_t *low, uint64_t *high, \
                          size_t *at), \
                         (format, NUM_FORMAT_SOME(text), length, low, high, NUM_FORMAT_AT)) \
    NUM_FORMAT_INLINE(int32_t, parse_##name, \
                      (const num_format *format, const char *text, size_t length, uint64_t *low, uint64_t *high), \
                      (format, NUM_FORMAT_SOME(text), length, low, high))

NUM_FORMAT_INLINE(int32_t, locale, (num_format *format, const char *name, size_t length),
                  (format, NUM_FORMAT_SOME(name), length))
NUM_FORMAT_INLINE(int32_t, lookup, (num_format *format, const char *tag, size_t length),
                  (format, NUM_FORMAT_SOME(tag), length))
NUM_FORMAT_INLINE(int32_t, custom,
                  (num_format *format, const char *separator, size_t separator_length, uint32_t grouping,
                   const char *minus_sign, size_t minus_sign_length),
                  (format, NUM_FORMAT_SOME(separator), separator_length, grouping, NUM_FORMAT_SOME(minus_sign),
                   minus_sign_length))
NUM_FORMAT_INLINE(int32_t, custom_decimal,
                  (num_format *format, const char *separator, size_t separator_length, uint32_t grouping,
                   const char *minus_sign, size_t minus_sign_length, const char *decimal_mark,
                   size_t decimal_mark_length),
                  (format, NUM_FORMAT_SOME(separator), separator_length, grouping, NUM_FORMAT_SOME(minus_sign),
                   minus_sign_length, NUM_FORMAT_SOME(decimal_mark), decimal_mark_length))
NUM_FORMAT_INLINE(int32_t, set_digits, (num_format *format, const char *name, size_t length),
                  (format, NUM_FORMAT_SOME(name), length))
NUM_FORMAT_INLINE(int32_t, names, (size_t place, char *name, size_t capacity),
                  (place, NUM_FORMAT_SOME(name), capacity))
NUM_FORMAT_INLINE(int32_t, lookup_name, (const char *tag, size_t tag_length, char *name, size_t capacity),
                  (NUM_FORMAT_SOME(tag), tag_length, NUM_FORMAT_SOME(name), capacity))
NUM_FORMAT_NUMBER(i64, int64_t)
NUM_FORMAT_NUMBER(u64, uint64_t)
NUM_FORMAT_WIDE_NUMBER(i128)
NUM_FORMAT_WIDE_NUMBER(u128)
NUM_FORMAT_INLINE_AT(parse_typed,
                     (const num_format *format, uint32_t type, const char *text, size_t length, void *value,
                      size_t value_size, size_t *at),
                     (format, type, NUM_FORMAT_SOME(text), length, NUM_FORMAT_SOME(value), value_size, NUM_FORMAT_AT))
NUM_FORMAT_INLINE(size_t, text_width, (const char *text, size_t length), (NUM_FORMAT_SOME(text), length))
NUM_FORMAT_INLINE(int32_t, print_decimal,
                  (const num_format *format, uint64_t low, uint64_t high, uint32_t scale, char *text,
                   size_t capacity),
                  (format, low, high, scale, NUM_FORMAT_SOME(text), capacity))
#define NUM_FORMAT_PARSE_DECIMAL(name) \
    NUM_FORMAT_INLINE_AT(name, \
                         (const num_format *format, const char *text, size_t length, uint64_t *low, uint64_t *high, \
                          uint32_t *scale, size_t *at), \
                         (format, NUM_FORMAT_SOME(text), length, low, high, scale, NUM_FORMAT_AT))
NUM_FORMAT_PARSE_DECIMAL(parse_decimal)
NUM_FORMAT_PARSE_DECIMAL(parse_typed_decimal)

/* What calls for columns have in common: parameters, and what is passed on. */
#define NUM_FORMAT_VALIDITY const uint8_t *validity, size_t validity_size, size_t bit_offset
#define NUM_FORMAT_PRINTED void *offsets, size_t offsets_size, uint32_t offset_type, char *bytes, size_t capacity
#define NUM_FORMAT_PARSED \
    const void *offsets, size_t offsets_size, uint32_t offset_type, const char *bytes, size_t bytes_size
#define NUM_FORMAT_SOME_VALIDITY NUM_FORMAT_SOME(validity), validity_size, bit_offset
#define NUM_FORMAT_SOME_TEXTS NUM_FORMAT_SOME(offsets), offsets_size, offset_type, NUM_FORMAT_SOME(bytes)

NUM_FORMAT_INLINE(int32_t, print_column,
                  (const num_format *format, uint32_t type, const void *values, size_t values_size,
                   NUM_FORMAT_VALIDITY, NUM_FORMAT_PRINTED, size_t *length),
                  (format, type, NUM_FORMAT_SOME(values), values_size, NUM_FORMAT_SOME_VALIDITY,
                   NUM_FORMAT_SOME_TEXTS, capacity, length))
NUM_FORMAT_INLINE(int32_t, print_column_len,
                  (const num_format *format, uint32_t type, const void *values, size_t values_size,
                   NUM_FORMAT_VALIDITY, size_t *length),
                  (format, type, NUM_FORMAT_SOME(values), values_size, NUM_FORMAT_SOME_VALIDITY, length))
NUM_FORMAT_INLINE(int32_t, parse_column,
                  (const num_format *format, uint32_t type, uint32_t parsing, NUM_FORMAT_PARSED, void *values,
                   size_t values_size, NUM_FORMAT_VALIDITY, int32_t *statuses, size_t statuses_length),
                  (format, type, parsing, NUM_FORMAT_SOME_TEXTS, bytes_size, NUM_FORMAT_SOME(values), values_size,
                   NUM_FORMAT_SOME_VALIDITY, NUM_FORMAT_SOME(statuses), statuses_length))
NUM_FORMAT_INLINE(int32_t, print_decimal_column,
                  (const num_format *format, const void *units, size_t units_size, uint32_t scale,
                   NUM_FORMAT_VALIDITY, NUM_FORMAT_PRINTED, size_t *length),
                  (format, NUM_FORMAT_SOME(units), units_size, scale, NUM_FORMAT_SOME_VALIDITY,
                   NUM_FORMAT_SOME_TEXTS, capacity, length))
NUM_FORMAT_INLINE(int32_t, print_decimal_column_len,
                  (const num_format *format, const void *units, size_t units_size, uint32_t scale,
                   NUM_FORMAT_VALIDITY, size_t *length),
                  (format, NUM_FORMAT_SOME(units), units_size, scale, NUM_FORMAT_SOME_VALIDITY, length))
#define NUM_FORMAT_PARSE_DECIMALS(name) \
    NUM_FORMAT_INLINE(int32_t, name, \
                      (const num_format *format, uint32_t scale, NUM_FORMAT_PARSED, void *units, size_t units_size, \
                       NUM_FORMAT_VALIDITY, int32_t *statuses, size_t statuses_length), \
                      (format, scale, NUM_FORMAT_SOME_TEXTS, bytes_size, NUM_FORMAT_SOME(units), units_size, \
                       NUM_FORMAT_SOME_VALIDITY, NUM_FORMAT_SOME(statuses), statuses_length))
NUM_FORMAT_PARSE_DECIMALS(parse_decimal_column)
NUM_FORMAT_PARSE_DECIMALS(parse_typed_decimal_column)

#undef NUM_FORMAT_SOME
#undef NUM_FORMAT_AT
#undef NUM_FORMAT_SYMBOL
#undef NUM_FORMAT_INLINE
#undef NUM_FORMAT_INLINE_AT
#undef NUM_FORMAT_INLINE_WITH
#undef NUM_FORMAT_NUMBER
#undef NUM_FORMAT_WIDE_NUMBER
#undef NUM_FORMAT_PARSE_DECIMAL
#undef NUM_FORMAT_PARSE_DECIMALS
#undef NUM_FORMAT_VALIDITY
#undef NUM_FORMAT_PRINTED
#undef NUM_FORMAT_PARSED
#undef NUM_FORMAT_SOME_VALIDITY
#undef NUM_FORMAT_SOME_TEXTS
#endif

static inline const char *num_format_strerror(int32_t status) {
    switch (status) {
    case NUM_FORMAT_BAD_FORMAT: return "the struct has no format, or one in digits that the call does not take";
    case NUM_FORMAT_TOO_SMALL: return "the array is shorter than the text";
    case NUM_FORMAT_NOT_UTF8: return "the text is not UTF-8";
    case NUM_FORMAT_NOT_A_NUMBER: return "the text is refused as a number";
    case NUM_FORMAT_UNKNOWN_LOCALE: return "no such locale";
    case NUM_FORMAT_TOO_LONG: return "a text of the format has more than 8 bytes";
    case NUM_FORMAT_BAD_GROUPING: return "no such grouping";
    case NUM_FORMAT_BAD_BITS: return "the number of bits is not 8, 16, 32 or 64";
    case NUM_FORMAT_UNEXPECTED: return "unexpected byte";
    case NUM_FORMAT_NO_DIGIT: return "the text has no digit";
    case NUM_FORMAT_MISSPELLED: return "the text is not as its number is printed";
    case NUM_FORMAT_OUT_OF_RANGE: return "the number is out of range";
    case NUM_FORMAT_BAD_SCALE: return "the scale is above 38";
    case NUM_FORMAT_TOO_MANY_DECIMALS: return "more than 38 digits follow the decimal mark";
    case NUM_FORMAT_BAD_LENGTH: return "sizes of a column do not fit one another, or that of a value its type";
    case NUM_FORMAT_BAD_OFFSETS: return "an offset is below 0 or the one before it, or past the bytes";
    case NUM_FORMAT_TOO_MANY_BYTES: return "the texts have more bytes than an offset can say";
    case NUM_FORMAT_DIGITS_LOST: return "the decimal has digits other than 0 that the scale has not";
    case NUM_FORMAT_AMBIGUOUS_FORMAT: return "the format is ambiguous";
    case NUM_FORMAT_BAD_TYPE: return "no such type";
    case NUM_FORMAT_TEXT_TOO_LONG: return "the text is longer than that of any number";
    case NUM_FORMAT_UNKNOWN_DIGITS: return "no such digit set, or two in a tag";
    case NUM_FORMAT_OTHER_NUMERAL: return "a numeric character of no digit of the set";
    default: return status < 0 ? "unknown status" : "ok";
    }
}
static inline int32_t num_format_locale_str(num_format *format, const char *name) {
    return name ? num_format_locale(format, name, strlen(name)) : NUM_FORMAT_UNKNOWN_LOCALE;
}
static inline int32_t num_format_lookup_str(num_format *format, const char *tag) {
    return tag ? num_format_lookup(format, tag, strlen(tag)) : NUM_FORMAT_UNKNOWN_LOCALE;
}

/* Writes a text of the length that printing returned, and a zero byte, or where they do not fit the zero byte alone.
 * Returns the length. */
static inline int32_t num_format_end_text(int32_t length, const char *from, char *text, size_t size) {
    size_t kept = length > 0 && (size_t)length < size ? (size_t)length : 0;
    if (size > 0) {
        memcpy(text, from, kept);
        text[kept] = 0;
    }
    return length;
}
static inline int32_t num_format_format_i64(const num_format *format, int64_t number, char *text, size_t size) {
    char from[NUM_FORMAT_DIGITS_MAX];
    return num_format_end_text(num_format_print_i64(format, number, from, sizeof from), from, text, size);
}
static inline int32_t num_format_format_u64(const num_format *format, uint64_t number, char *text, size_t size) {
    char from[NUM_FORMAT_DIGITS_MAX];
    return num_format_end_text(num_format_print_u64(format, number, from, sizeof from), from, text, size);
}
static inline int32_t num_format_format_i128(const num_format *format, uint64_t low, uint64_t high, char *text,
                                             size_t size) {
    char from[NUM_FORMAT_DIGITS_MAX];
    return num_format_end_text(num_format_print_i128(format, low, high, from, sizeof from), from, text, size);
}
static inline int32_t num_format_format_u128(const num_format *format, uint64_t low, uint64_t high, char *text,
                                             size_t size) {
    char from[NUM_FORMAT_DIGITS_MAX];
    return num_format_end_text(num_format_print_u128(format, low, high, from, sizeof from), from, text, size);
}
static inline int32_t num_format_format_decimal(const num_format *format, uint64_t low, uint64_t high, uint32_t scale,
                                                char *text, size_t size) {
    char from[NUM_FORMAT_DIGITS_MAX];
    return num_format_end_text(num_format_print_decimal(format, low, high, scale, from, sizeof from), from, text, size);
}

/* The high half of a number of 64 bits in 128. */
static inline uint64_t num_format_high_half(int64_t low) { return low < 0 ? UINT64_MAX : 0; }
static inline int32_t num_format_print_decimal_i64(const num_format *format, int64_t units, uint32_t scale,
                                                   char *text, size_t capacity) {
    return num_format_print_decimal(format, (uint64_t)units, num_format_high_half(units), scale, text, capacity);
}

/* Writes the decimal that a call parsed, where its units have 64 bits. Returns its status. */
static inline int32_t num_format_narrow_decimal(int32_t status, uint64_t low, uint64_t high, uint32_t decimals,
                                                int64_t *units, uint32_t *scale) {
    if (status != 0) return status;
    if (high != num_format_high_half((int64_t)low)) return NUM_FORMAT_OUT_OF_RANGE;
    *units = (int64_t)low;
    *scale = decimals;
    return 0;
}
static inline int32_t num_format_parse_decimal_i64(const num_format *format, const char *text, size_t length,
                                                   int64_t *units, uint32_t *scale, size_t *at) {
    uint64_t low = 0, high = 0;
    uint32_t decimals = 0;
    int32_t status = num_format_parse_decimal(format, text, length, &low, &high, &decimals, at);
    return num_format_narrow_decimal(status, low, high, decimals, units, scale);
}
static inline int32_t num_format_parse_typed_decimal_i64(const num_format *format, const char *text, size_t length,
                                                         int64_t *units, uint32_t *scale, size_t *at) {
    uint64_t low = 0, high = 0;
    uint32_t decimals = 0;
    int32_t status = num_format_parse_typed_decimal(format, text, length, &low, &high, &decimals, at);
    return num_format_narrow_decimal(status, low, high, decimals, units, scale);
}

#if defined(__cplusplus) && defined(__GNUC__)
#pragma GCC diagnostic pop
#endif

#ifdef __cplusplus
}
#endif

#endif
