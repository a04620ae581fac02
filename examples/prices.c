/* Prints a price list under three locales. */
#include "num_format.h"

#include <stdio.h>
#include <string.h>

struct item {
    const char *name;
    int64_t price;
};

static const struct item items[] = {
    {"bicycle", 949}, {"piano", 18500}, {"house", 1234567}, {"discount", -25000}};

static int print_prices(const char *locale) {
    num_format format = {0};
    if (num_format_locale(&format, locale, strlen(locale)) != 0) {
        fprintf(stderr, "no such locale: %s\n", locale);
        return 1;
    }
    printf("%s\n", locale);
    for (size_t i = 0; i < sizeof items / sizeof items[0]; i++) {
        char text[NUM_FORMAT_MAX];
        int length = num_format_print_i64(&format, items[i].price, text, sizeof text);
        if (length < 0) {
            fprintf(stderr, "error %d\n", length);
            return 1;
        }
        printf("  %-10s%.*s\n", items[i].name, length, text);
    }
    return 0;
}

int main(void) {
    const char *locales[] = {"en", "de", "hi"};
    for (size_t i = 0; i < sizeof locales / sizeof locales[0]; i++) {
        if (print_prices(locales[i]) != 0) {
            return 1;
        }
    }
    return 0;
}
