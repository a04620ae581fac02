// Times the header for C++ beside a copy of the library, a locale's num_put and num_get, std::format where the compiler has
// it, and std::to_string and std::from_chars.
//
//     ./a.out FOLDER SECONDS    # cells that cells.py writes, and how long each call is measured in a cell
//
// cells.h says how it is built, and what is printed.
#include "cells.h"

#ifdef IS_COPY
#define numfmt numfmt_copy
#endif
#include <num_format.hpp>

namespace {

std::optional<numfmt::format> form;
numfmt::column column;
std::vector<std::int64_t> values;

// Prints each number by a call that returns its text.
template <class Print> bool prints(const word *expected, bool checks, Print print) {
    for (std::size_t k = 0; k < now.count; k++) {
        const auto text = print(k);
        use(text.data());
        if (checks && !is_word(expected[k], text.data(), long(text.size()))) return false;
    }
    return true;
}

// Parses each text by a call that returns its number, or 0 where it is none.
template <class Parse> bool parses(bool checks, Parse parse) {
    for (std::size_t k = 0; k < now.count; k++) {
        const std::int64_t number = parse(k);
        use(&number);
        if (checks && number != now.numbers[k]) return false;
    }
    return true;
}

std::string_view view(word text) { return {text.text, text.length}; }

bool print(bool checks) {
    return prints(now.texts, checks, [](std::size_t k) { return form->print(now.numbers[k]); });
}
bool strict(bool checks) {
    return parses(checks, [](std::size_t k) { return form->parse<std::int64_t>(view(now.texts[k])); });
}
bool print_decimal(bool checks) {
    return prints(now.decimals, checks, [](std::size_t k) { return form->print_decimal({now.numbers[k], 2}); });
}
bool parse_decimal(bool checks) {
    return parses(checks, [](std::size_t k) { return form->parse_decimal(view(now.decimals[k])).units; });
}
bool print_column(bool checks) {
    const numfmt::column found = form->print_column(values);
    use(found.bytes.data());
    return !checks || prints(now.texts, true, [&](std::size_t k) { return found[k]; });
}
bool parse_column(bool checks) {
    const std::vector<std::int64_t> found = form->parse_column(column);
    use(found.data());
    return !checks || parses(true, [&](std::size_t k) { return found[k]; });
}

} // namespace

const way OF_LIBRARY()[] = {
    {"print", "`format.print(n)`", print, nullptr},
    {"parse, strict", "`format.parse<int64_t>(text)`", strict, nullptr},
    {"decimal, print", "`format.print_decimal(d)`", print_decimal, nullptr},
    {"decimal, parse", "`format.parse_decimal(text)`", parse_decimal, nullptr},
    {"column, print", "`format.print_column(values)`", print_column, nullptr},
    {"column, parse", "`format.parse_column(texts)`", parse_column, nullptr},
    {nullptr, nullptr, nullptr, nullptr},
};

// Makes the format of the cell, and the column of its texts.
void OF_LIBRARY(prepare_)() {
    const std::string name = now.format;
    form = name == "own" ? numfmt::format::custom("’", NUM_FORMAT_INDIAN, "−", ",") : numfmt::format::locale(name);
    values.assign(now.numbers, now.numbers + now.count);
    column = {};
    for (std::size_t k = 0; k < now.count; k++) {
        column.bytes += view(now.texts[k]);
        column.offsets.push_back(std::int64_t(column.bytes.size()));
    }
}

#ifndef IS_COPY
#include <charconv>
#include <locale>
#include <map>
#include <sstream>
#if __has_include(<format>)
#include <format>
#endif

namespace {

// The locale of the cell, if there is one, and the streams that have it.
bool has_locale;
std::locale place;
std::ostringstream out;
std::istringstream in;

bool num_put(bool checks) {
    return prints(now.texts, checks, [](std::size_t k) {
        out.str({});
        out << now.numbers[k];
        return out.str();
    });
}
bool num_get(bool checks) {
    return parses(checks, [](std::size_t k) {
        std::int64_t number = 0;
        in.clear();
        in.str(now.texts[k].text);
        in >> number;
        return in.fail() ? 0 : number;
    });
}
bool to_string(bool checks) {
    return prints(now.digits, checks, [](std::size_t k) { return std::to_string(now.numbers[k]); });
}
bool from_chars(bool checks) {
    return parses(checks, [](std::size_t k) {
        std::int64_t number = 0;
        std::from_chars(now.digits[k].text, now.digits[k].text + now.digits[k].length, number);
        return number;
    });
}
#ifdef __cpp_lib_format
bool std_format(bool checks) {
    return prints(now.texts, checks, [](std::size_t k) { return std::format(place, "{:L}", now.numbers[k]); });
}
#endif

const way others[] = {
    {"print", "`out << n`, by `num_put`", num_put, &has_locale},
    {"print", "`std::to_string(n)`, digits", to_string, nullptr},
#ifdef __cpp_lib_format
    {"print", "`std::format(locale, \"{:L}\", n)`", std_format, &has_locale},
#endif
    {"parse, strict", "`in >> n`, by `num_get`", num_get, &has_locale},
    {"parse, strict", "`std::from_chars` of digits", from_chars, nullptr},
    {"column, print", "`out << n`, by `num_put`", num_put, &has_locale},
    {"column, parse", "`in >> n`, by `num_get`", num_get, &has_locale},
    {nullptr, nullptr, nullptr, nullptr},
};

// The locale of each format whose separator is one byte: others a `numpunct<char>` has not, and hi_IN groups in another way.
void prepare_others() {
    const std::map<std::string, const char *> names{{"en", "en_US.UTF-8"}, {"en-US-POSIX", "C"}};
    const auto found = names.find(now.format);
    has_locale = found != names.end();
    try {
        place = std::locale(has_locale ? found->second : "C");
    } catch (const std::runtime_error &) {
        has_locale = false;
    }
    out.imbue(place);
    in.imbue(place);
}

} // namespace

int main(int argc, char **argv) {
    if (argc != 3) return 3;
#ifndef __cpp_lib_format
    std::puts("skipped: std::format: the compiler has none");
#endif
    measure_cells(argv[1], prepare_others, others, std::atof(argv[2]));
}
#endif
