/* What replay.c and replay.cpp share: they read the arguments of cases, a line each, and write what the library returns, as
 * tests/README.md says. They need the type __int128 of GCC and Clang. */
#include <ctype.h>
#include <stdio.h>
#include <stdlib.h>
#include <string.h>

#include "num_format.h"

__extension__ typedef unsigned __int128 wide;

struct text {
    char bytes[8192];
    size_t length;
};

/* The text of a field that ends at this byte or at its end: a byte is itself, or %XX. */
static struct text decoded(const char *field, char end) {
    struct text text;
    for (text.length = 0; *field && *field != end; field++) {
        unsigned byte = (unsigned char)*field;
        if (byte == '%')
            field += 2 * sscanf(field + 1, "%2x", &byte);
        text.bytes[text.length++] = (char)byte;
    }
    return text;
}

static void write_text(const char *bytes, size_t length) {
    for (const char *end = bytes + length; bytes < end; bytes++)
        printf(isalnum((unsigned char)*bytes) ? "%c" : "%%%02X", (unsigned char)*bytes);
}

static wide number_of(const char *decimal) {
    int is_negative = *decimal == '-';
    wide number = 0;
    for (decimal += is_negative; *decimal >= '0' && *decimal <= '9'; decimal++)
        number = number * 10 + (wide)(*decimal - '0');
    return is_negative ? -number : number;
}

/* Writes the number, of two's complement if it is signed, after some words. */
static void write_number(const char *words, wide number, int is_signed) {
    char digits[41], *first = digits + sizeof digits - 1;
    int is_negative = is_signed && number >> 127;
    *first = 0;
    number = is_negative ? -number : number;
    do
        *--first = (char)('0' + (int)(number % 10));
    while (number /= 10);
    printf("%s%s%s", words, is_negative ? "-" : "", first);
}

/* Whether a cause is at a place in the text. */
static int is_placed(int status) { return status == NUM_FORMAT_UNEXPECTED || status == NUM_FORMAT_OTHER_NUMERAL; }

/* Writes the cause of a status below 0. An error keeps no text, whose length the tables have. */
static void write_error(int status, size_t at) {
    static const char *const causes[] = {
        "", "BadFormat", "TooSmall", "NotUtf8", "ParseNumber?", "ParseLocale?", "TooLong", "BadGrouping", "BadBits",
        "Unexpected", "NoDigit", "Misspelled", "OutOfRange", "ScaleTooLarge", "TooManyDecimals", "BadLength",
        "BadOffsets", "TooManyBytes", "DigitsLost", "AmbiguousFormat", "BadType", "TooLong", "UnknownDigits", "OtherNumeral",
    };
    printf("err %s", causes[-status]);
    if (is_placed(status))
        printf(" %zu", at);
}

static const char *const groupings[] = {"", "Standard", "Indian", "Posix", "Myriad", "Sparse"};

/* The fields of `custom:SEPARATOR:GROUPING:MINUS_SIGN:MARK`: the texts, and returns the number of the grouping. */
static uint32_t parts_of(const char *field, struct text texts[4]) {
    uint32_t grouping = 1;
    for (int k = 0; k < 4; k++) {
        field = strchr(field, ':') + 1;
        texts[k] = decoded(field, ':');
    }
    while (strncmp(texts[1].bytes, groupings[grouping], texts[1].length) != 0)
        grouping++;
    return grouping;
}

/* A table, and the call of a case, or why there is none. */
struct table {
    const char *name;
    void (*call)(char **fields);
    const char *reason;
};

static int replay(const struct table *table) {
    static char line[16384];
    while (fgets(line, sizeof line, stdin)) {
        char *fields[16] = {line};
        const struct table *found = table;
        int count = 0;
        line[strcspn(line, "\n")] = 0;
        while (count < 15 && fields[count] && (fields[count + 1] = strchr(fields[count], '\t')))
            *fields[++count]++ = 0;
        while (strcmp(found->name, *fields) != 0)
            found++;
        if (found->call)
            found->call(fields + 1);
        else
            printf("! %s", found->reason);
        putchar('\n');
    }
    return 0;
}
