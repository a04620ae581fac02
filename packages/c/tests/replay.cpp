// Replays the tables of tests/cases by the C++ wrapper: replay.h has what it shares with C.
#include "replay.h"

#include "num_format.hpp"
#include <iomanip>
#include <sstream>

static std::string string_of(const char *field, char end = 0) {
    const text from = decoded(field, end);
    return {from.bytes, from.length};
}

static void write(std::string_view found) { write_text(found.data(), found.size()); }

static numfmt::format format_of(const char *field) {
    if (std::strncmp(field, "locale:", 7) == 0) return numfmt::format::lookup(field + 7);
    text parts[4];
    const auto grouping = parts_of(field, parts);
    const auto part = [&](int k) { return std::string_view(parts[k].bytes, parts[k].length); };
    return numfmt::format::custom(part(0), grouping, part(2), part(3));
}

// Calls a function with a number of the type of this name.
template <class Call> static void with_type(std::string_view name, Call call) {
    name.remove_prefix(name.substr(0, 7) == "NonZero" ? 7 : 0);
    const bool is_signed = name[0] == 'i';
    name.remove_prefix(1);
    const auto either = [&](auto with_sign, auto without) { is_signed ? call(with_sign) : call(without); };
    if (name == "8") either(std::int8_t(), std::uint8_t());
    else if (name == "16") either(std::int16_t(), std::uint16_t());
    else if (name == "32") either(std::int32_t(), std::uint32_t());
    else if (name == "128") either(numfmt::int128(), numfmt::uint128());
    else either(std::int64_t(), std::uint64_t());
}

// Each call has to return the same text.
static void write_same(std::initializer_list<std::string> found) {
    for (const std::string &one : found)
        if (one != *found.begin()) write(one + " is other than ");
    write(*found.begin());
}

static void printing(char **fields) {
    const auto format = format_of(fields[1]);
    with_type(fields[0], [&](auto type) {
        const auto number = decltype(type)(number_of(fields[2]));
        const auto text = format.text(number);
        std::string appended, of_column = format.print_column(std::vector<decltype(type)>{number}).bytes;
        format.append(appended, number);
        if (format.print_len(number) != text.size()) write("another length ");
        const std::string by_pointer(text.c_str(), text.size());
        write_same({format.print(number), std::string(text.view()), by_pointer, appended, of_column});
    });
}

template <class Call> static void write_parsed(char **fields, int status_of_zero, Call parse) {
    with_type(fields[0], [&](auto type) {
        auto found = parse(format_of(fields[1]), type);
        if (found && !found.value && fields[0][0] == 'N') found.status = status_of_zero;
        if (found) write_number("ok ", wide(found.value), numfmt::detail::is_signed<decltype(type)>);
        else write_error(found.status, found.at);
    });
}

static void lenient(char **fields) {
    write_parsed(fields, NUM_FORMAT_NOT_A_NUMBER, [=](const auto &format, auto type) {
        return format.template try_parse_lenient<decltype(type)>(string_of(fields[2]));
    });
}

// What is thrown is what is returned.
static void strict(char **fields) {
    write_parsed(fields, NUM_FORMAT_OUT_OF_RANGE, [=](const auto &format, auto type) {
        using number = decltype(type);
        const std::string from = string_of(fields[2]);
        const auto found = format.template try_parse<number>(from);
        numfmt::result<number> again;
        try {
            again.value = format.template parse<number>(from);
            if (format.template parse_column<number>(std::vector{from})[0] != again.value) write("of a column not ");
        } catch (const numfmt::error &error) {
            again.status = error.status, again.at = error.at;
        }
        if (again.value != found.value || again.status != found.status || again.at != found.at) write("thrown, not ");
        return found;
    });
}

static void typed(char **fields) {
    write_parsed(fields, NUM_FORMAT_OUT_OF_RANGE, [=](const auto &format, auto type) {
        return format.template try_parse_typed<decltype(type)>(string_of(fields[2]));
    });
}

static numfmt::basic_decimal<numfmt::int128> decimal_of(char **fields) {
    return {numfmt::int128(number_of(fields[1])), std::uint32_t(std::atoi(fields[2]))};
}

static void decimals_printed(char **fields) {
    const auto format = format_of(fields[0]);
    const auto number = decimal_of(fields);
    write_same({format.print_decimal(number), format.print_decimal_column(std::vector{number.units}, number.scale).bytes});
}

static void write_decimal(const numfmt::result<numfmt::basic_decimal<numfmt::int128>> &found) {
    if (!found) return write_error(found.status, found.at);
    write_number("ok ", wide(found.value.units), true);
    write_number("/", found.value.scale, false);
}

static void decimals_parsed(char **fields) {
    write_decimal(format_of(fields[0]).try_parse_decimal<numfmt::int128>(string_of(fields[1])));
}

static void typed_decimals(char **fields) {
    write_decimal(format_of(fields[0]).try_parse_typed_decimal<numfmt::int128>(string_of(fields[1])));
}

static void decimals_at_scale(char **fields) {
    try {
        const std::vector<std::string> texts{string_of(fields[1])};
        const auto scale = std::uint32_t(std::atoi(fields[2]));
        write_number("ok ", wide(format_of(fields[0]).parse_decimal_column<numfmt::int128>(texts, scale)[0]), true);
    } catch (const numfmt::error &error) {
        // A column tests the scale first.
        const auto found = format_of(fields[0]).try_parse_decimal<numfmt::int128>(string_of(fields[1]));
        const bool is_of_text = error.status == NUM_FORMAT_BAD_SCALE && !found;
        write_error(is_of_text ? found.status : error.status, is_of_text ? found.at : error.at);
    }
}

static numfmt::basic_decimal<numfmt::int128> decimal_of(const char *field) {
    return {numfmt::int128(number_of(field)), std::uint32_t(std::atoi(std::strchr(field, '/') + 1))};
}

/// Writes what was computed, or for a status the words for that.
static void write_computed(const numfmt::result<numfmt::basic_decimal<numfmt::int128>> &found, const char *words = nullptr) {
    if (!found && words && found.status == NUM_FORMAT_OUT_OF_RANGE) return void(std::printf("\t%s", words));
    if (!found) return write_error(found.status, 0);
    write_number(words ? "\t" : "", wide(found.value.units), true);
    write_number("/", found.value.scale, false);
}

// A decimal is negated by subtracting it from 0 at its scale.
static void decimals_computed(char **fields) {
    const auto first = decimal_of(fields[0]), second = decimal_of(fields[1]);
    for (auto rounding : {NUM_FORMAT_HALF_EVEN, NUM_FORMAT_HALF_AWAY_FROM_ZERO, NUM_FORMAT_TOWARD_ZERO, NUM_FORMAT_EXACT}) {
        write_computed(numfmt::try_rescale(first, std::uint32_t(std::atoi(fields[2])), rounding));
        std::putchar('\t');
    }
    const std::int32_t order = numfmt::compare(first, second);
    std::printf("%s", order < 0 ? "less\tfalse" : order > 0 ? "greater\tfalse" : "equal\ttrue");
    write_computed(numfmt::try_add(first, second), "none");
    write_computed(numfmt::try_subtract(first, second), "none");
    write_computed(numfmt::try_subtract({0, first.scale}, first), "none");
}

static void tags(char **fields) {
    const std::string tag = string_of(fields[0]);
    const auto found = numfmt::format::try_lookup(tag);
    if (!found) return write_error(NUM_FORMAT_UNKNOWN_LOCALE, 0);
    const std::string name = numfmt::format::lookup_name(tag);
    std::printf(*found == numfmt::format::locale(name) ? "ok " : "another format than ");
    write(name);
}

static void names(char **fields) {
    if (numfmt::format::try_locale(string_of(fields[0]))) tags(fields);
    else write_error(NUM_FORMAT_UNKNOWN_LOCALE, 0);
}

static void reads_back(char **fields) { write(format_of(fields[0]).reads_back() ? "true" : "false"); }

static void alike(char **fields) { write(format_of(fields[0]).prints_alike(format_of(fields[1])) ? "true" : "false"); }

#define CALL(table) {#table, table, nullptr}
#define DIGITS(table) CALL(table), {#table "_digits", table, nullptr}

int main() {
    static const table tables[] = {
        CALL(alike), DIGITS(decimals_at_scale), CALL(decimals_computed), DIGITS(decimals_parsed), DIGITS(decimals_printed),
        CALL(lenient), CALL(names),
        DIGITS(printing), CALL(reads_back), DIGITS(strict), CALL(tags), DIGITS(typed),
        DIGITS(typed_decimals), {"builders", nullptr, "no builder"},
        {"json", nullptr, "no JSON"},
        {"locales", nullptr, "no parts of a format"}, {"padded", nullptr, "streams and std::format pad"},
    };
    return replay(tables);
}
