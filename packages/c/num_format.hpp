// num-format for C++17: formats, numbers and decimals of up to 128 bits, and columns of them, with strings, views, vectors
// and exceptions.
//
//     numfmt::format de = numfmt::format::locale("de");
//     std::string text = de.print(-1234567);                                        // -1.234.567
//     auto number = de.parse<std::int32_t>("1.234");                                // 1234, and else an exception
//     auto found = de.try_parse<std::int32_t>("1,5");                               // found.status is NUM_FORMAT_UNEXPECTED
//     auto typed = numfmt::format::locale("fr").parse_typed<int>("1 234");          // 1234, with the space of a keyboard
//     std::string farsi = numfmt::format::lookup("fa-u-nu-arabext").print(1234);    // ۱٬۲۳۴
//     numfmt::column texts = de.print_column(std::vector<std::optional<int>>{1000, std::nullopt});
//     auto numbers = de.parse_column<std::optional<int>>(texts);                    // the same again
//
// Each failure is an exception below numfmt::error, named as its status is, but for std::bad_alloc. num_format.h says when
// each comes. A call whose name begins with try_ returns the status in place of it. Without exceptions (-fno-exceptions) the
// calls that have some to throw, and columns, are left out. `get` returns a format for the calls of num_format.h.
#ifndef NUM_FORMAT_HPP
#define NUM_FORMAT_HPP

#if __cplusplus < 201703L
#error "num_format.hpp needs C++17: -std=c++17"
#endif
#include "num_format.h"
#include <cstddef>
#include <cstdint>
#include <cstring>
#include <iosfwd>
#include <optional>
#include <stdexcept>
#include <string>
#include <string_view>
#include <type_traits>
#include <utility>
#include <vector>
#if __has_include(<version>)
#include <version>
#endif
#ifdef __cpp_lib_format
#include <format>
#endif

namespace numfmt {

#ifdef __cpp_exceptions
/// A call failed: why, as a status of num_format.h, at which byte of a text with `unexpected` and `other_numeral`, else 0, and
/// at which row of a column, else 0.
struct error : std::runtime_error {
    explicit error(std::int32_t code, std::size_t place = 0, std::size_t row_of_column = 0)
        : std::runtime_error(num_format_strerror(code)), status(code), at(place), row(row_of_column) {}
    std::int32_t status;
    std::size_t at;
    std::size_t row;
};
/// The errors, and the status of each.
#define NUMFMT_ERRORS(each) \
    each(not_utf8, NOT_UTF8) each(not_a_number, NOT_A_NUMBER) each(unknown_locale, UNKNOWN_LOCALE) \
    each(too_long, TOO_LONG) each(bad_grouping, BAD_GROUPING) each(unexpected, UNEXPECTED) each(no_digit, NO_DIGIT) \
    each(misspelled, MISSPELLED) each(out_of_range, OUT_OF_RANGE) each(bad_scale, BAD_SCALE) \
    each(too_many_decimals, TOO_MANY_DECIMALS) each(bad_length, BAD_LENGTH) each(bad_offsets, BAD_OFFSETS) \
    each(too_many_bytes, TOO_MANY_BYTES) each(digits_lost, DIGITS_LOST) each(ambiguous_format, AMBIGUOUS_FORMAT) \
    each(text_too_long, TEXT_TOO_LONG) each(unknown_digits, UNKNOWN_DIGITS) each(other_numeral, OTHER_NUMERAL)
#define NUMFMT_STRUCT(name, code) struct name : error { using error::error; };
#define NUMFMT_CASE(name, code) case NUM_FORMAT_##code: throw name(status, at, row);
NUMFMT_ERRORS(NUMFMT_STRUCT)
#endif

#ifdef __SIZEOF_INT128__
__extension__ typedef __int128 int128;
__extension__ typedef unsigned __int128 uint128;
#endif

/// A number that was parsed, or the status for which there is none, and at which byte with NUM_FORMAT_UNEXPECTED and
/// NUM_FORMAT_OTHER_NUMERAL.
template <class T> struct result {
    T value{};
    std::int32_t status = 0;
    std::size_t at = 0;
    explicit operator bool() const { return status == 0; }
};

/// A decimal: its units divided by 10 to the power of the scale, which is at most 38.
template <class T> struct basic_decimal {
    T units;
    std::uint32_t scale;
};
using decimal = basic_decimal<std::int64_t>;

/// What the calls below stand on, and no part of what users call.
namespace detail {
#ifdef __cpp_exceptions
/// Throws the exception of a status below 0, and else returns it.
inline std::int32_t check(std::int32_t status, std::size_t at = 0, std::size_t row = 0) {
    switch (status) {
        NUMFMT_ERRORS(NUMFMT_CASE)
    default: return status < 0 ? throw error(status) : status;
    }
}
/// The number that was parsed. Throws the exception of the status if there is none.
template <class T> T accepted(const result<T> &found) { return check(found.status, found.at), found.value; }
#undef NUMFMT_CASE
#undef NUMFMT_STRUCT
#undef NUMFMT_ERRORS
#endif

#ifdef __SIZEOF_INT128__
template <class T> constexpr bool is_signed = std::is_signed_v<T> || std::is_same_v<T, int128>;
template <class T> constexpr bool is_wide = std::is_same_v<T, int128> || std::is_same_v<T, uint128>;
#else
template <class T> constexpr bool is_signed = std::is_signed_v<T>;
template <class T> constexpr bool is_wide = false;
#endif
/// Whether a type is one of the numbers that are printed and parsed, which characters and `bool` are not.
template <class T> constexpr bool is_number = is_wide<T> || (std::is_integral_v<T> && sizeof(T) <= 8 && !std::is_same_v<T, bool>
    && !std::is_same_v<T, char> && !std::is_same_v<T, wchar_t> && !std::is_same_v<T, char16_t>
#ifdef __cpp_char8_t
    && !std::is_same_v<T, char8_t>
#endif
    && !std::is_same_v<T, char32_t>);
/// Whether a type is one of the numbers that are units of a decimal, which are signed where they have 128 bits.
template <class T> constexpr bool is_units = is_number<T> && (is_signed<T> || !is_wide<T>);

/// The number of a type for columns.
template <class T> constexpr num_format_type type() {
    static_assert(is_number<T>, "an integer, and no character");
    switch (sizeof(T)) {
    case 1: return is_signed<T> ? NUM_FORMAT_I8 : NUM_FORMAT_U8;
    case 2: return is_signed<T> ? NUM_FORMAT_I16 : NUM_FORMAT_U16;
    case 4: return is_signed<T> ? NUM_FORMAT_I32 : NUM_FORMAT_U32;
    case 8: return is_signed<T> ? NUM_FORMAT_I64 : NUM_FORMAT_U64;
    default: return is_signed<T> ? NUM_FORMAT_I128 : NUM_FORMAT_U128;
    }
}

/// A number of 128 bits by its halves, in two's complement.
struct halves {
    std::uint64_t low = 0, high = 0;
    halves() = default;
    template <class T> explicit halves(T number) : low(std::uint64_t(number)) {
        if constexpr (is_wide<T>) high = std::uint64_t(number >> 64);
        else if constexpr (is_signed<T>) high = number < 0 ? UINT64_MAX : 0;
    }
    template <class T> T as() const {
        if constexpr (is_wide<T>) return T(T(high) << 64 | low);
        else return T(low);
    }
    /// Makes it a number of the type, and returns whether it is one.
    template <class T> bool to(T &number) const {
        const halves again(number = as<T>());
        return again.low == low && again.high == high;
    }
};

/// The decimal that a call writes, which may be in the place of one.
template <class T, class Call> result<basic_decimal<T>> decimal_by(Call call, basic_decimal<T> number = {}) {
    static_assert(is_units<T>, "units of at most 128 bits with a sign");
    result<basic_decimal<T>> found;
    halves of(number.units);
    found.status = call(&of.low, &of.high, &number.scale, &found.at);
    if (found.status == 0 && !of.to(number.units)) found.status = NUM_FORMAT_OUT_OF_RANGE;
    if (found.status == 0) found.value = number;
    return found;
}

/// The number of what a column has: of T, and of std::optional<T>, which may be null.
template <class T> struct element { using number = T; };
template <class T> struct element<std::optional<T>> { using number = T; };
template <class T> using number_of = typename element<T>::number;

/// The validity bitmap of what a column has, which is empty where nothing can be null.
template <class T> std::vector<std::uint8_t> validity_of(const std::vector<T> &) { return {}; }
template <class T> std::vector<std::uint8_t> validity_of(const std::vector<std::optional<T>> &values) {
    std::vector<std::uint8_t> validity((values.size() + 7) / 8);
    for (std::size_t k = 0; k < values.size(); k++) validity[k / 8] |= std::uint8_t(values[k].has_value() << k % 8);
    return validity;
}
} // namespace detail

/// The sum and the difference of two decimals, at the larger of both scales, and a decimal at another scale, or the status for
/// which there is none: that of num_format.h, and NUM_FORMAT_OUT_OF_RANGE where T has not the units.
template <class T> result<basic_decimal<T>> try_add(const basic_decimal<T> &a, const basic_decimal<T> &b) {
    const detail::halves of(b.units);
    return detail::decimal_by<T>([&](auto low, auto high, auto scale, auto) {
        return num_format_decimal_add(low, high, scale, of.low, of.high, b.scale);
    }, a);
}
template <class T> result<basic_decimal<T>> try_subtract(const basic_decimal<T> &a, const basic_decimal<T> &b) {
    const detail::halves of(b.units);
    return detail::decimal_by<T>([&](auto low, auto high, auto scale, auto) {
        return num_format_decimal_subtract(low, high, scale, of.low, of.high, b.scale);
    }, a);
}
template <class T>
result<basic_decimal<T>> try_rescale(const basic_decimal<T> &a, std::uint32_t to, num_format_rounding rounding = NUM_FORMAT_EXACT) {
    return detail::decimal_by<T>([&](auto low, auto high, auto scale, auto) {
        return num_format_decimal_rescale(low, high, scale, to, std::uint32_t(rounding));
    }, a);
}

/// -1, 0 or 1 as a decimal is below, at or above the value of another, or NUM_FORMAT_BAD_SCALE.
template <class T> result<std::int32_t> try_compare(const basic_decimal<T> &a, const basic_decimal<T> &b) {
    const detail::halves x(a.units), y(b.units);
    result<std::int32_t> found;
    found.status = num_format_decimal_compare(x.low, x.high, a.scale, y.low, y.high, b.scale, &found.value);
    return found;
}

#ifdef __cpp_exceptions
/// The same. Throws bad_scale, digits_lost or out_of_range.
template <class T> basic_decimal<T> operator+(const basic_decimal<T> &a, const basic_decimal<T> &b) {
    return detail::accepted(try_add(a, b));
}
template <class T> basic_decimal<T> operator-(const basic_decimal<T> &a, const basic_decimal<T> &b) {
    return detail::accepted(try_subtract(a, b));
}
template <class T>
basic_decimal<T> rescale(const basic_decimal<T> &a, std::uint32_t to, num_format_rounding rounding = NUM_FORMAT_EXACT) {
    return detail::accepted(try_rescale(a, to, rounding));
}
template <class T> std::int32_t compare(const basic_decimal<T> &a, const basic_decimal<T> &b) {
    return detail::accepted(try_compare(a, b));
}
#endif

/// A text that was printed, in an array of its own: no memory is requested for it. It has a zero byte after it.
class text {
public:
    std::string_view view() const { return {bytes, std::size_t(length)}; }
    operator std::string_view() const { return view(); }
    const char *c_str() const { return bytes; }
    std::size_t size() const { return std::size_t(length); }
private:
    friend class format;
    std::int32_t length = 0;
    char bytes[NUM_FORMAT_DIGITS_MAX + 1];
};

/// Writes a text to a stream, filled up to its width.
template <class Traits> std::basic_ostream<char, Traits> &operator<<(std::basic_ostream<char, Traits> &out, const text &printed) {
    return out << printed.view();
}

/// The columns that a text takes where each character takes one, but a mark of the direction of writing none.
inline std::size_t text_width(std::string_view text) { return num_format_text_width(text.data(), text.size()); }

#ifdef __cpp_exceptions
/// Texts, one after another: text k is between offset k and offset k + 1. Row k is null if there is a validity bitmap and
/// its bit k % 8, from the lowest, of byte k / 8 is 0.
struct column {
    std::vector<std::int64_t> offsets{0};
    std::string bytes;
    std::vector<std::uint8_t> validity;

    /// A column of texts: of std::string, std::string_view and the like, or of std::optional of it, whose std::nullopt is
    /// null.
    template <class Text> static column of(const std::vector<Text> &texts) {
        column made;
        made.validity = detail::validity_of(texts);
        made.offsets.reserve(texts.size() + 1);
        for (const std::optional<std::string_view> text : texts) {
            made.bytes += text.value_or(std::string_view());
            made.offsets.push_back(std::int64_t(made.bytes.size()));
        }
        return made;
    }

    /// Its texts, as std::string or, with nulls, std::optional<std::string>, or as views of its bytes. A null is an empty
    /// text where there are no nulls. Throws bad_offsets or bad_length.
    template <class Text = std::string> std::vector<Text> texts() const {
        std::vector<Text> made(size());
        for (std::size_t k = 0; k < made.size(); k++)
            if (!is_null(k)) made[k] = detail::number_of<Text>((*this)[k]);
        return made;
    }

    /// The number of rows. Throws bad_offsets if there is no offset.
    std::size_t size() const { return offsets.empty() ? throw bad_offsets(NUM_FORMAT_BAD_OFFSETS) : offsets.size() - 1; }
    /// Whether a row is null. Throws bad_length if it is past the bitmap.
    bool is_null(std::size_t k) const {
        if (!validity.empty() && k / 8 >= validity.size()) throw bad_length(NUM_FORMAT_BAD_LENGTH, 0, k);
        return !validity.empty() && !(validity[k / 8] >> k % 8 & 1);
    }
    /// The text at a row. Throws bad_offsets if it is not within the bytes.
    std::string_view operator[](std::size_t k) const {
        if (k >= size() || offsets[k] < 0 || offsets[k] > offsets[k + 1] || std::size_t(offsets[k + 1]) > bytes.size())
            throw bad_offsets(NUM_FORMAT_BAD_OFFSETS, 0, k);
        return std::string_view(bytes).substr(std::size_t(offsets[k]), std::size_t(offsets[k + 1] - offsets[k]));
    }
};

/// The numbers of a column, and for each row 0, or as a status of num_format.h why it is rejected. A row that is null or
/// rejected has 0, or std::nullopt where T is a std::optional.
template <class T> struct parsed_column {
    std::vector<T> values;
    std::vector<std::int32_t> statuses;
};
#endif

/// A format. Two are equal if they have the same texts, grouping and digits.
class format {
    /// What fills a struct with a format of your own.
    static auto custom_of(std::string_view separator, std::uint32_t grouping, std::string_view minus_sign,
                          std::string_view decimal_mark) {
        return [=](num_format *to) {
            return num_format_custom_decimal(to, separator.data(), separator.size(), grouping, minus_sign.data(),
                                             minus_sign.size(), decimal_mark.data(), decimal_mark.size());
        };
    }
    /// What fills a struct with this format in the digits of a set.
    auto digits_of(std::string_view name) const {
        return [this, name](num_format *to) { return *to = held, num_format_set_digits(to, name.data(), name.size()); };
    }
public:
    /// The format of a locale, or none.
    static std::optional<format> try_locale(std::string_view name) {
        return made([=](num_format *to) { return num_format_locale(to, name.data(), name.size()); }).second;
    }

    /// The format of the locale for a language tag, such as "de_DE.UTF-8", in the digits that it names, or none.
    static std::optional<format> try_lookup(std::string_view tag) {
        return made([=](num_format *to) { return num_format_lookup(to, tag.data(), tag.size()); }).second;
    }

    /// A format of your own, or none if a text is no UTF-8 of at most 8 bytes, or no grouping has the number.
    static std::optional<format> try_custom(std::string_view separator, std::uint32_t grouping,
                                            std::string_view minus_sign = "-", std::string_view decimal_mark = ".") {
        return made(custom_of(separator, grouping, minus_sign, decimal_mark)).second;
    }

    /// The same format in the digits of a set, by the name that the CLDR has for it, as "deva", or none.
    std::optional<format> try_digits(std::string_view name) const { return made(digits_of(name)).second; }

    /// The text of a number.
    template <class T> numfmt::text text(T number) const {
        static_assert(detail::is_number<T>, "an integer, and no character");
        numfmt::text to;
        const detail::halves of(number);
        if constexpr (detail::is_wide<T> && detail::is_signed<T>)
            to.length = num_format_format_i128(&held, of.low, of.high, to.bytes, sizeof to.bytes);
        else if constexpr (detail::is_wide<T>)
            to.length = num_format_format_u128(&held, of.low, of.high, to.bytes, sizeof to.bytes);
        else if constexpr (detail::is_signed<T>) to.length = num_format_format_i64(&held, number, to.bytes, sizeof to.bytes);
        else to.length = num_format_format_u64(&held, number, to.bytes, sizeof to.bytes);
        return to;
    }

    /// The same as a string, and appended to one.
    template <class T> std::string print(T number) const { return std::string(text(number).view()); }
    template <class T> void append(std::string &to, T number) const { to += text(number).view(); }

    /// The length of that text, which is not printed.
    template <class T> std::size_t print_len(T number) const {
        static_assert(detail::is_number<T>, "an integer, and no character");
        const detail::halves of(number);
        if constexpr (detail::is_signed<T>) return std::size_t(num_format_print_i128_len(&held, of.low, of.high));
        else return std::size_t(num_format_print_u128_len(&held, of.low, of.high));
    }

    /// The number for which a text is canonical, with its separators or without, or the status for which there is none.
    template <class T> result<T> try_parse(std::string_view text) const {
        static_assert(detail::is_number<T>, "an integer, and no character");
        result<T> found;
        const char *from = text.data();
        const std::size_t length = text.size();
        if constexpr (detail::is_wide<T>) {
            detail::halves of;
            if constexpr (detail::is_signed<T>)
                found.status = num_format_parse_strict_i128(&held, from, length, &of.low, &of.high, &found.at);
            else found.status = num_format_parse_strict_u128(&held, from, length, &of.low, &of.high, &found.at);
            found.value = of.as<T>();
        } else if constexpr (detail::is_signed<T>) {
            std::int64_t number = 0;
            found.status = num_format_parse_strict_i64(&held, 8 * sizeof(T), from, length, &number, &found.at);
            found.value = T(number);
        } else {
            std::uint64_t number = 0;
            found.status = num_format_parse_strict_u64(&held, 8 * sizeof(T), from, length, &number, &found.at);
            found.value = T(number);
        }
        return found;
    }

    /// The number that a text is as a person types it (no data type is meant), or a status: `try_parse` takes what programs
    /// wrote, and this what people typed.
    template <class T> result<T> try_parse_typed(std::string_view text) const {
        result<T> found;
        found.status = num_format_parse_typed(&held, detail::type<T>(), text.data(), text.size(), &found.value,
                                              sizeof found.value, &found.at);
        return found;
    }

    /// The number of the digits of a text, whose other characters are ignored, or a status.
    template <class T> result<T> try_parse_lenient(std::string_view text) const {
        static_assert(detail::is_number<T>, "an integer, and no character");
        result<T> found;
        const char *from = text.data();
        const std::size_t length = text.size();
        if constexpr (detail::is_wide<T>) {
            detail::halves of;
            if constexpr (detail::is_signed<T>) found.status = num_format_parse_i128(&held, from, length, &of.low, &of.high);
            else found.status = num_format_parse_u128(&held, from, length, &of.low, &of.high);
            found.value = of.as<T>();
        } else if constexpr (detail::is_signed<T>) {
            std::int64_t number = 0;
            found.status = num_format_parse_i64(&held, 8 * sizeof(T), from, length, &number);
            found.value = T(number);
        } else {
            std::uint64_t number = 0;
            found.status = num_format_parse_u64(&held, 8 * sizeof(T), from, length, &number);
            found.value = T(number);
        }
        return found;
    }

    /// The decimal for which a text is canonical, with as many decimals, or a status.
    template <class T = std::int64_t> result<basic_decimal<T>> try_parse_decimal(std::string_view text) const {
        return detail::decimal_by<T>([&](auto... to) { return num_format_parse_decimal(&held, text.data(), text.size(), to...); });
    }

    /// The decimal that a text is as a person types it (no data type is meant), or a status.
    template <class T = std::int64_t> result<basic_decimal<T>> try_parse_typed_decimal(std::string_view text) const {
        return detail::decimal_by<T>([&](auto... to) {
            return num_format_parse_typed_decimal(&held, text.data(), text.size(), to...);
        });
    }

    /// Whether every number reads back from its text, which in other digits it does where it does in 0 to 9.
    bool reads_back() const {
        num_format latin = held;
        latin.digits = 0;
        return num_format_reads_back(&latin) == 1;
    }

    /// Whether each number has the same text under both formats.
    bool prints_alike(const format &other) const { return num_format_prints_alike(&held, &other.held) == 1; }

    /// The format, for the calls of num_format.h.
    const num_format &get() const { return held; }

    bool operator==(const format &other) const { return std::memcmp(&held, &other.held, sizeof held) == 0; }
    bool operator!=(const format &other) const { return !(*this == other); }

#ifdef __cpp_exceptions
    /// The format of a locale. Throws not_utf8 or unknown_locale.
    static format locale(std::string_view name) {
        return accepted([=](num_format *to) { return num_format_locale(to, name.data(), name.size()); });
    }

    /// The format of the locale for a language tag, in the digits that it names. Throws not_utf8, unknown_locale or
    /// unknown_digits.
    static format lookup(std::string_view tag) {
        return accepted([=](num_format *to) { return num_format_lookup(to, tag.data(), tag.size()); });
    }

    /// The name of that locale. Throws what lookup does.
    static std::string lookup_name(std::string_view tag) {
        char name[NUM_FORMAT_MAX];
        return {name, std::size_t(detail::check(num_format_lookup_name(tag.data(), tag.size(), name, sizeof name)))};
    }

    /// A format of your own. Throws not_utf8, too_long or bad_grouping.
    static format custom(std::string_view separator, std::uint32_t grouping, std::string_view minus_sign = "-",
                         std::string_view decimal_mark = ".") {
        return accepted(custom_of(separator, grouping, minus_sign, decimal_mark));
    }

    /// The same format in the digits of a set, by the name that the CLDR has for it, as "deva". Throws not_utf8 or
    /// unknown_digits.
    format digits(std::string_view name) const { return accepted(digits_of(name)); }

    /// The number for which a text is canonical, with its separators or without. Throws ambiguous_format where
    /// reads_back is false, and else not_utf8, unexpected, no_digit, misspelled or out_of_range; in other digits than 0
    /// to 9 also other_numeral or text_too_long.
    template <class T> T parse(std::string_view text) const { return detail::accepted(try_parse<T>(text)); }

    /// The number that a text is as a person types it (no data type is meant). Throws what `parse` throws, and text_too_long.
    template <class T> T parse_typed(std::string_view text) const { return detail::accepted(try_parse_typed<T>(text)); }

    /// The number of the digits of a text, whose other characters are ignored. Throws not_utf8 or not_a_number, and under a
    /// format in other digits than 0 to 9 an error of NUM_FORMAT_BAD_FORMAT.
    template <class T> T parse_lenient(std::string_view text) const { return detail::accepted(try_parse_lenient<T>(text)); }

    /// The decimal for which a text is canonical, with as many decimals. Throws what `parse` throws, too_many_decimals,
    /// and out_of_range where the type has not the units.
    template <class T = std::int64_t> basic_decimal<T> parse_decimal(std::string_view text) const {
        return detail::accepted(try_parse_decimal<T>(text));
    }

    /// The same of a text as a person types it (no data type is meant). Throws text_too_long too.
    template <class T = std::int64_t> basic_decimal<T> parse_typed_decimal(std::string_view text) const {
        return detail::accepted(try_parse_typed_decimal<T>(text));
    }

    /// The text of a decimal, also of a basic_decimal<int128>. Throws bad_scale.
    numfmt::text decimal_text(decimal number) const { return decimal_text<std::int64_t>(number); }
    template <class T> numfmt::text decimal_text(basic_decimal<T> number) const {
        static_assert(detail::is_units<T>, "units of at most 128 bits with a sign");
        numfmt::text to;
        const detail::halves of(number.units);
        to.length = num_format_format_decimal(&held, of.low, of.high, number.scale, to.bytes, sizeof to.bytes);
        return detail::check(to.length), to;
    }

    /// The same as a string.
    std::string print_decimal(decimal number) const { return print_decimal<std::int64_t>(number); }
    template <class T> std::string print_decimal(basic_decimal<T> number) const {
        return std::string(decimal_text(number).view());
    }

    /// The texts of many numbers of a type that `print` takes, or of std::optional of it, whose std::nullopt is null. Throws
    /// too_many_bytes.
    template <class T> column print_column(const std::vector<T> &values) const {
        constexpr auto number = detail::type<detail::number_of<T>>();
        return printed(given<detail::number_of<T>>(values), detail::validity_of(values),
                       [&](auto... to) { return num_format_print_column_len(&held, number, to...); },
                       [&](auto... to) { return num_format_print_column(&held, number, to...); });
    }

    /// The same of decimals of one scale, by their units. Throws bad_scale too.
    template <class T> column print_decimal_column(const std::vector<T> &values, std::uint32_t scale) const {
        static_assert(detail::is_units<detail::number_of<T>>, "units of at most 128 bits with a sign");
        return printed(
            given<detail::halves>(values), detail::validity_of(values),
            [&](auto units, auto size, auto... to) {
                return num_format_print_decimal_column_len(&held, units, size, scale, to...);
            },
            [&](auto units, auto size, auto... to) {
                return num_format_print_decimal_column(&held, units, size, scale, to...);
            });
    }

    /// The numbers of many texts, each as by `parse`, `parse_typed` or `parse_lenient`. Throws ambiguous_format, bad_offsets
    /// or bad_length, and leniently under a format in other digits than 0 to 9 an error of NUM_FORMAT_BAD_FORMAT.
    template <class T = std::int64_t>
    parsed_column<T> try_parse_column(const column &texts, num_format_parsing way = NUM_FORMAT_STRICT) const {
        return parsed<T, detail::number_of<T>>(texts, [&](auto... from) {
            return num_format_parse_column(&held, detail::type<detail::number_of<T>>(), std::uint32_t(way), from...);
        });
    }

    /// The units of many decimals at one scale, each text parsed as by `parse_decimal`, or by `parse_typed_decimal` where the
    /// way is NUM_FORMAT_TYPED. Throws bad_scale too. A text that has more decimals, which are not 0, has the status of
    /// digits_lost.
    template <class T = std::int64_t>
    parsed_column<T> try_parse_decimal_column(const column &texts, std::uint32_t scale,
                                              num_format_parsing way = NUM_FORMAT_STRICT) const {
        static_assert(detail::is_units<detail::number_of<T>>, "units of at most 128 bits with a sign");
        return parsed<T, detail::halves>(texts, [&](auto... from) {
            return way == NUM_FORMAT_TYPED ? num_format_parse_typed_decimal_column(&held, scale, from...)
                                           : num_format_parse_decimal_column(&held, scale, from...);
        });
    }

    /// The numbers of many texts. Throws what try_parse_column throws, or the exception of the first text that is rejected,
    /// which has its row.
    template <class T = std::int64_t>
    std::vector<T> parse_column(const column &texts, num_format_parsing way = NUM_FORMAT_STRICT) const {
        return accepted(try_parse_column<T>(texts, way), texts, [&](std::string_view text) {
            return (way == NUM_FORMAT_TYPED ? try_parse_typed<std::uint64_t>(text) : try_parse<std::uint64_t>(text)).at;
        });
    }

    /// The units of many texts. Throws what try_parse_decimal_column throws, or the exception of the first text that is
    /// rejected, which has its row.
    template <class T = std::int64_t>
    std::vector<T> parse_decimal_column(const column &texts, std::uint32_t scale,
                                        num_format_parsing way = NUM_FORMAT_STRICT) const {
        return accepted(try_parse_decimal_column<T>(texts, scale, way), texts, [&](std::string_view text) {
            return (way == NUM_FORMAT_TYPED ? try_parse_typed_decimal(text) : try_parse_decimal(text)).at;
        });
    }

    /// The same of the texts that column::of takes.
    template <class T = std::int64_t, class Text>
    std::vector<T> parse_column(const std::vector<Text> &texts, num_format_parsing way = NUM_FORMAT_STRICT) const {
        return parse_column<T>(column::of(texts), way);
    }
    template <class T = std::int64_t, class Text>
    std::vector<T> parse_decimal_column(const std::vector<Text> &texts, std::uint32_t scale,
                                        num_format_parsing way = NUM_FORMAT_STRICT) const {
        return parse_decimal_column<T>(column::of(texts), scale, way);
    }
#endif
private:
    format() : held() {}

    /// What a call that fills a struct returns, and the format if it is 0.
    template <class Fill> static std::pair<std::int32_t, std::optional<format>> made(Fill fill) {
        format filled;
        const std::int32_t status = fill(&filled.held);
        return {status, status == 0 ? std::optional(filled) : std::nullopt};
    }

#ifdef __cpp_exceptions
    template <class Fill> static format accepted(Fill fill) {
        const auto filled = made(fill);
        return detail::check(filled.first), *filled.second;
    }

    /// The values as numbers of type N, where a null is 0.
    template <class N, class T> static std::vector<N> given(const std::vector<T> &values) {
        std::vector<N> numbers(values.size());
        for (std::size_t k = 0; k < values.size(); k++)
            numbers[k] = N(std::optional<detail::number_of<T>>(values[k]).value_or(0));
        return numbers;
    }

    /// Prints a column by a call that measures it and one that prints it.
    template <class N, class Measure, class Print>
    static column printed(const std::vector<N> &numbers, std::vector<std::uint8_t> validity, Measure measure, Print print) {
        const std::size_t size = numbers.size() * sizeof(N), bits = validity.size(), first = 0;
        std::size_t length = 0;
        detail::check(measure(numbers.data(), size, validity.data(), bits, first, &length));
        std::vector<std::int64_t> offsets(numbers.size() + 1);
        std::string bytes(length, '0');
        detail::check(print(numbers.data(), size, validity.data(), bits, first, offsets.data(),
                            offsets.size() * sizeof(std::int64_t), NUM_FORMAT_I64, bytes.data(), length, &length));
        return {std::move(offsets), std::move(bytes), std::move(validity)};
    }

    /// Parses a column as numbers of type N by a call, and makes them values of type T.
    template <class T, class N, class Parse> static parsed_column<T> parsed(const column &texts, Parse parse) {
        const std::size_t n = texts.size(), size = (n + 1) * sizeof(std::int64_t), first = 0;
        std::vector<N> numbers(n);
        parsed_column<T> made{std::vector<T>(n), std::vector<std::int32_t>(n)};
        detail::check(parse(texts.offsets.data(), size, NUM_FORMAT_I64, texts.bytes.data(), texts.bytes.size(),
                            numbers.data(), n * sizeof(N), texts.validity.data(), texts.validity.size(), first,
                            made.statuses.data(), n));
        for (std::size_t k = 0; k < n; k++) {
            detail::number_of<T> number{};
            if (!detail::halves(numbers[k]).to(number)) made.statuses[k] = NUM_FORMAT_OUT_OF_RANGE;
            if (made.statuses[k] == 0 && !texts.is_null(k)) made.values[k] = number;
        }
        return made;
    }

    /// The values of a column. Throws the exception of its first row that is rejected, with the place in its text.
    template <class T, class Place> static std::vector<T> accepted(parsed_column<T> found, const column &texts, Place place) {
        for (std::size_t k = 0; k < found.statuses.size(); k++)
            if (found.statuses[k] == NUM_FORMAT_UNEXPECTED || found.statuses[k] == NUM_FORMAT_OTHER_NUMERAL)
                detail::check(found.statuses[k], place(texts[k]), k);
            else detail::check(found.statuses[k], 0, k);
        return std::move(found.values);
    }
#endif

    num_format held;
};
} // namespace numfmt

#ifdef __cpp_lib_format
/// A text as an argument of std::format, with the fill, side and width of a string. A precision, by which a string is cut, is
/// rejected.
template <> struct std::formatter<numfmt::text> : std::formatter<std::string_view> {
    constexpr auto parse(std::format_parse_context &context) {
        auto at = context.begin();
        const auto end = std::formatter<std::string_view>::parse(context);
        for (; at != end; ++at)
            if (*at == '.' && std::string_view("<^>").find(at[1]) == std::string_view::npos)
#ifdef __cpp_exceptions
                throw std::format_error("the text of a number has no precision");
#else
                return at;
#endif
        return end;
    }
    template <class Context> auto format(const numfmt::text &printed, Context &context) const {
        return std::formatter<std::string_view>::format(printed.view(), context);
    }
};
#endif

#endif
