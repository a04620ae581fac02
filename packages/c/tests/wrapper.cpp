// The C++ wrapper, against values written by hand. Prints what is wrong, and ends with status 1 where something is.
#include <num_format.hpp>

#include <cstdio>
#include <iomanip>
#include <limits>
#include <sstream>

static int status;

static void check(const char *what, bool holds) {
    if (!holds) {
        std::fprintf(stderr, "%s\n", what);
        status = 1;
    }
}

// Whether a call throws that exception, with that status and place.
template <class Error, class Call> static bool throws(Call call, int expected, std::size_t at = 0, std::size_t row = 0) {
    try {
        call();
    } catch (const Error &error) {
        const bool is_there = error.at == at && error.row == row;
        return error.status == expected && is_there && error.what() == std::string(num_format_strerror(expected));
    }
    return false;
}

// A column of 7, a null and a number at an end of a type, and the same as units of decimals.
template <class T> static void check_type(const char *name, T end, const std::string &text, const std::string &decimal) {
    const auto de = numfmt::format::locale("de");
    const std::vector<std::optional<T>> values{T(7), std::nullopt, end};
    const auto texts = de.print_column(values);
    check(name, texts.bytes == "7" + text && texts.size() == 3 && texts.is_null(1) && !texts.is_null(2) && texts[1].empty());
    check(name, de.parse_column<std::optional<T>>(texts) == values && de.parse_column<T>(texts) == std::vector<T>{7, 0, end});
    check(name, de.print_column(std::vector<T>{end, 7}).bytes == text + "7");
    if constexpr (numfmt::detail::is_units<T>) {
        const auto decimals = de.print_decimal_column(values, 2);
        check(name, decimals.bytes == "0,07" + decimal && decimals.is_null(1));
        check(name, de.parse_decimal_column<std::optional<T>>(decimals, 2) == values);
        check(name, de.print_decimal_column(std::vector<T>{end}, 2).bytes == decimal);
        check(name, throws<numfmt::out_of_range>([&] { de.parse_decimal_column<T>(decimals, 3); }, -12, 0, 2));
    }
}

// Columns of every type.
static void check_types() {
    using std::numeric_limits;
    check_type<std::int8_t>("int8_t", -128, "-128", "-1,28");
    check_type<std::uint8_t>("uint8_t", 255, "255", "2,55");
    check_type<std::int16_t>("int16_t", -32768, "-32.768", "-327,68");
    check_type<std::uint16_t>("uint16_t", 65535, "65.535", "655,35");
    check_type("int", numeric_limits<int>::min(), "-2.147.483.648", "-21.474.836,48");
    check_type("unsigned", numeric_limits<unsigned>::max(), "4.294.967.295", "42.949.672,95");
    check_type("long", numeric_limits<long>::min(), "-9.223.372.036.854.775.808", "-92.233.720.368.547.758,08");
    check_type("long long", numeric_limits<long long>::max(), "9.223.372.036.854.775.807", "92.233.720.368.547.758,07");
    check_type("unsigned long", numeric_limits<unsigned long>::max(), "18.446.744.073.709.551.615", "184.467.440.737.095.516,15");
    const auto least = numfmt::int128(1) << 126;
    check_type("int128", -least - least, "-170.141.183.460.469.231.731.687.303.715.884.105.728",
               "-1.701.411.834.604.692.317.316.873.037.158.841.057,28");
    check_type("uint128", ~numfmt::uint128(0), "340.282.366.920.938.463.463.374.607.431.768.211.455", "");
}

// Columns that are refused, and rows.
static void check_columns(const numfmt::format &de, const numfmt::format &sevens) {
    const std::vector<std::int64_t> numbers{0, -1234, 1234567};
    auto texts = de.print_column(numbers);
    check("column", texts.bytes == "0-1.2341.234.567" && texts[1] == "-1.234" && de.parse_column(texts) == numbers);
    check("ambiguous column", throws<numfmt::ambiguous_format>([&] { sevens.parse_column(texts); }, -19));
    check("empty column", de.parse_column(de.print_column(std::vector<int>{})).empty() && de.parse_column({}).empty());
    const auto small = de.try_parse_column<std::optional<std::int8_t>>(texts);
    check("statuses", small.statuses == std::vector<std::int32_t>{0, -12, -12} && small.values[0] == 0 && !small.values[1]);
    check("row out of range", throws<numfmt::out_of_range>([&] { de.parse_column<std::uint64_t>(texts); }, -12, 0, 1));
    check("digits_lost", throws<numfmt::digits_lost>([&] { de.parse_decimal_column({{0, 3}, "0,5", {}}, 0); }, -18));
    check("bad_scale, column", throws<numfmt::bad_scale>([&] { de.print_decimal_column(numbers, 39); }, -13)
          && throws<numfmt::bad_scale>([&] { de.parse_decimal_column(texts, 39); }, -13));
    check("unexpected decimal", throws<numfmt::unexpected>([&] { de.parse_decimal_column({{0, 1, 5}, "1,2,3", {}}, 0); }, -9, 2, 1));
    texts.bytes[5] = 'x';
    check("refused column", throws<numfmt::unexpected>([&] { de.parse_column(texts); }, -9, 4, 1));
    texts.validity = {5};
    check("refused null", de.parse_column<int>(texts) == std::vector<int>{0, 0, 1234567});
    texts.validity.resize(1), texts.offsets.resize(10, 16);
    check("bad_length", throws<numfmt::bad_length>([&] { de.parse_column(texts); }, -15));
    check("bad_length, row", throws<numfmt::bad_length>([&] { texts.is_null(8); }, -15, 0, 8));
    texts.validity = {}, texts.offsets[1] = 9;
    check("bad_offsets", throws<numfmt::bad_offsets>([&] { de.parse_column(texts); }, -16));
    check("bad_offsets, row", throws<numfmt::bad_offsets>([&] { texts[1]; }, -16, 0, 1));
    const numfmt::column one{{0, 1}, "1", {}};
    check("bad_offsets, past the rows", throws<numfmt::bad_offsets>([&] { one[1]; }, -16, 0, 1));
    texts.offsets[0] = -1;
    check("bad_offsets, below 0", throws<numfmt::bad_offsets>([&] { texts[0]; }, -16));
    texts.offsets.clear();
    check("bad_offsets, none", throws<numfmt::bad_offsets>([&] { de.parse_column(texts); }, -16));
}

// A text that takes no memory, in a string, a stream and C.
static void check_texts(const numfmt::format &de) {
    std::string prices = "from ";
    de.append(prices, -1234), prices += " to ", de.append(prices, numfmt::uint128(1000000));
    check("append", prices == "from -1.234 to 1.000.000");
    const auto text = de.text(std::uint8_t(255));
    check("text", text.view() == "255" && text.size() == 3 && std::strcmp(text.c_str(), "255") == 0);
    check("decimal_text", de.decimal_text({-123450, 2}).view() == "-1.234,50" && numfmt::text().view().empty());
    check("decimal_text, bad_scale", throws<numfmt::bad_scale>([&] { de.decimal_text({1, 256 + 2}); }, -13));
    std::ostringstream stream;
    stream << std::setw(9) << std::setfill('.') << de.text(-1234) << '|' << de.decimal_text({5, 1});
    check("<<", stream.str() == "...-1.234|0,5");
    char longest[NUM_FORMAT_MAX];
    const auto wide = numfmt::format::custom("12345678", NUM_FORMAT_INDIAN, "abcdefgh");
    check("get", num_format_print_i64(&wide.get(), -1000, longest, sizeof longest) == 20 && wide.print(-1000) == std::string(longest, 20));
    const auto commas = numfmt::format::custom(",", NUM_FORMAT_POSIX), points = numfmt::format::custom(".", NUM_FORMAT_POSIX);
    check("prints_alike, not equal", commas.prints_alike(points) && commas != points);
    check("equal, minus sign", commas != numfmt::format::custom(",", NUM_FORMAT_POSIX, "~"));
    check("prints_alike", de.prints_alike(numfmt::format::locale("id")) && !de.prints_alike(wide));
}

#ifdef __cpp_lib_format
// A text by a format string, with 8 for a field in it, or the error.
static std::string formatted(std::string_view format, const numfmt::text &text) {
    const int number = 8;
    try {
        return std::vformat(format, std::make_format_args(text, number));
    } catch (const std::format_error &error) {
        return error.what();
    }
}

// A text in std::format and the like.
static void check_formatter(const numfmt::format &de) {
    const auto text = de.text(-1234), five = de.decimal_text({5, 1});
    check("std::format", std::format("{:*>9}|{}", text, five) == "***-1.234|0,5");
    const std::pair<const char *, const char *> sides[] = {
        {"{}", "-1.234"}, {"{:s}", "-1.234"}, {"{:1}", "-1.234"}, {"{:6}", "-1.234"}, {"{:7}", "-1.234 "}, {"{:<8}", "-1.234  "},
        {"{:^9}", " -1.234  "}, {"{:>9s}", "   -1.234"}, {"{:.<8}", "-1.234.."}, {"{:.^8}", ".-1.234."}, {"{:.>{}}", "..-1.234"},
        {"{0:\u00e9>{1}}{0}", "\u00e9\u00e9-1.234-1.234"},
    };
    for (const auto &[format, expected] : sides) check(format, formatted(format, text) == expected);
    for (const auto format : {"{:.3}", "{:9.3}", "{:>9.0s}", "{:.>9.3}", "{:<.3}", "{:.{}}", "{0:>{1}.{1}}"})
        check(format, formatted(format, text) == "the text of a number has no precision");
    std::string to = "from ";
    std::format_to(std::back_inserter(to), "{1:>7} to {0:_<4}", five, text);
    check("std::format_to", to == "from  -1.234 to 0,5_");
    char bytes[4];
    check("std::format_to_n", std::format_to_n(bytes, 4, "{:>7}", text).size == 7 && std::string_view(bytes, 4) == " -1.");
    check("std::formatted_size", std::formatted_size("{:>7}{}", text, five) == 10);
}
#endif

// Sums and orders of decimals of up to 64 bits, whose results may need more.
static void check_arithmetic() {
    using numfmt::decimal;
    constexpr std::int64_t most = std::numeric_limits<std::int64_t>::max();
    const decimal sum = decimal{150, 2} + decimal{-5, 3}, less = decimal{150, 2} - decimal{2, 0};
    check("sums", sum.units == 1495 && sum.scale == 3 && less.units == -50 && less.scale == 2);
    check("rescale", rescale(sum, 1, NUM_FORMAT_HALF_EVEN).units == 15 && numfmt::try_rescale(sum, 1).status == -18
          && rescale(decimal{-25, 1}, 0, NUM_FORMAT_HALF_AWAY_FROM_ZERO).units == -3);
    check("compare", compare(decimal{150, 2}, {15, 1}) == 0 && compare(decimal{-1, 38}, {0, 0}) == -1 && compare(decimal{most, 0}, less) == 1);
    check("sum of 65 bits", throws<numfmt::out_of_range>([] { decimal{most, 0} + decimal{1, 0}; }, -12)
          && throws<numfmt::out_of_range>([] { decimal{-most, 0} - decimal{2, 0}; }, -12)
          && (decimal{-most, 0} - decimal{1, 0}).units == -most - 1);
    check("digits_lost, decimal", throws<numfmt::digits_lost>([&] { rescale(sum, 2); }, -18));
    check("bad_scale, decimals", throws<numfmt::bad_scale>([&] { compare(sum, {1, 39}); }, -13) && numfmt::try_add(sum, {1, 39}).status == -13);
    check("unsigned units", numfmt::try_subtract(numfmt::basic_decimal<unsigned>{1, 0}, {2, 0}).status == -12);
}

// What try_parse and the like return, beside what the calls that throw do.
static void check_tries(const numfmt::format &de) {
    check("try_parse, empty", de.try_parse<numfmt::uint128>({}).status == -10 && de.try_parse<int>({}).status == -10);
    check("try_parse_decimal", de.try_parse_decimal("-1.234,50").value.units == -123450 && de.try_parse_decimal("1,2,3").at == 3);
    check("try_parse_decimal, 64 bits", de.try_parse_decimal("-9223372036854775808").value.units == std::numeric_limits<std::int64_t>::min()
          && de.try_parse_decimal("-9223372036854775809").status == -12 && de.try_parse_decimal("9223372036854775808").status == -12
          && de.try_parse_decimal<std::uint64_t>("18446744073709551615").value.units == UINT64_MAX
          && de.try_parse_decimal<std::uint64_t>("18446744073709551616").status == -12
          && de.try_parse_decimal<std::uint8_t>("2,56").status == -12 && de.try_parse_decimal<std::int8_t>("-1,28").value.scale == 2);
    check("try_locale", numfmt::format::try_locale("de") == de && !numfmt::format::try_locale("xx"));
    check("try_lookup", numfmt::format::try_lookup("de_DE.UTF-8") == de && !numfmt::format::try_lookup({}));
    check("try_custom", numfmt::format::try_custom("'", 1)->print(1000) == "1'000" && !numfmt::format::try_custom("'", 6));
}

// Texts as people type them.
static void check_typed(const numfmt::format &de) {
    const auto fr = numfmt::format::locale("fr");
    check("parse_typed", fr.parse_typed<std::int16_t>(" -1 234") == -1234 && fr.parse_typed<numfmt::uint128>("+1 234") == 1234);
    check("try_parse_typed", fr.try_parse_typed<std::uint8_t>("256").status == -12 && fr.try_parse_typed<int>("1.5").at == 1);
    check("text_too_long", throws<numfmt::text_too_long>([&] { fr.parse_typed<int>(std::string(200, '1')); }, -21));
    check("parse_typed_decimal", fr.parse_typed_decimal("-1 234,50").units == -123450 && fr.try_parse_typed_decimal(".").at == 0);
    using texts = std::vector<std::string>;
    const texts wrong{"1", "1 2.3"};
    check("typed columns", fr.parse_column(texts{"1 234", " 7"}, NUM_FORMAT_TYPED) == std::vector<std::int64_t>{1234, 7}
          && fr.parse_decimal_column(texts{"1 234,5", "-0,10"}, 2, NUM_FORMAT_TYPED) == std::vector<std::int64_t>{123450, -10}
          && de.parse_column(texts{"(1.5)"}, NUM_FORMAT_LENIENT) == std::vector<std::int64_t>{15});
    check("typed column, refused", throws<numfmt::unexpected>([&] { fr.parse_column(wrong, NUM_FORMAT_TYPED); }, -9, 3, 1)
          && throws<numfmt::unexpected>([&] { fr.parse_decimal_column(wrong, 2, NUM_FORMAT_TYPED); }, -9, 3, 1)
          && throws<numfmt::not_a_number>([&] { fr.parse_column(texts{"x"}, NUM_FORMAT_LENIENT); }, -4));
}

// Digits of other scripts.
static void check_digits(const numfmt::format &de) {
    const auto farsi = numfmt::format::lookup("fa-u-nu-arabext");
    const auto arabic = numfmt::format::locale("ar-EG").digits("arab");
    check("digits", farsi == numfmt::format::locale("fa").digits("arabext") && farsi == numfmt::format::lookup("fa-u-nu-native")
          && farsi != numfmt::format::locale("fa") && farsi.digits("latn") == numfmt::format::locale("fa"));
    check("print in digits", farsi.print(1234) == "۱٬۲۳۴" && farsi.print_decimal({12345, 1}) == "۱٬۲۳۴٫۵" && farsi.print_len(1234) == 10
          && de.digits("mathbold").print(std::int8_t(-7)) == "-𝟕" && farsi.text(0).size() == 2);
    check("longest text in digits", numfmt::format::custom("12345678", NUM_FORMAT_INDIAN, "12345678").digits("adlm")
          .text(-(numfmt::int128(1) << 126)).size() == 4 * (8 + 38 + 8 * 18));
    check("parse in digits", farsi.parse<std::uint8_t>("۲۵۵") == 255 && farsi.parse_decimal("۱٬۲۳۴٫۵").units == 12345
          && arabic.parse_typed<numfmt::int128>(" +١٬٢٣٤") == 1234 && arabic.parse_typed_decimal("١٫٥").units == 15);
    check("other_numeral", throws<numfmt::other_numeral>([&] { arabic.parse<int>("١٬٢3٤"); }, -23, 6)
          && throws<numfmt::other_numeral>([&] { arabic.parse_typed<int>("1"); }, -23)
          && throws<numfmt::other_numeral>([&] { arabic.parse_decimal("١²"); }, -23, 2));
    check("unexpected in digits", throws<numfmt::unexpected>([&] { arabic.parse<int>("١\u0301"); }, -9, 2)
          && throws<numfmt::unexpected>([&] { arabic.parse<int>("١😀"); }, -9, 2));
    check("not_utf8 in digits", throws<numfmt::not_utf8>([&] { arabic.parse<int>("١\xd9"); }, -3));
    check("text_too_long in digits", throws<numfmt::text_too_long>([&] { de.digits("thai").parse<int>(std::string(200, '.')); }, -21));
    check("unknown_digits", throws<numfmt::unknown_digits>([&] { de.digits("roman"); }, -22) && !de.try_digits("Arab")
          && throws<numfmt::unknown_digits>([] { numfmt::format::lookup("fa-u-nu-deva-nu-deva"); }, -22)
          && throws<numfmt::unknown_digits>([] { numfmt::format::lookup("zh-u-nu-traditio"); }, -22)
          && throws<numfmt::unknown_digits>([] { numfmt::format::lookup_name("fa-u-nu-roman"); }, -22)
          && throws<numfmt::not_utf8>([&] { de.digits("\xff"); }, -3) && !numfmt::format::try_lookup("fa-u-nu-"));
    check("lenient in digits", throws<numfmt::error>([&] { arabic.parse_lenient<int>("١"); }, -1));
    check("reads_back in digits", arabic.reads_back() && !arabic.prints_alike(numfmt::format::locale("ar-EG"))
          && !numfmt::format::custom(",", 1, "").digits("arab").reads_back());
    const auto column = arabic.print_column(std::vector<int>{1234, -5});
    check("columns in digits", column.texts() == std::vector<std::string>{arabic.print(1234), arabic.print(-5)}
          && arabic.parse_column(column) == std::vector<std::int64_t>{1234, -5}
          && arabic.parse_decimal_column(column, 2) == std::vector<std::int64_t>{123400, -500}
          && throws<numfmt::error>([&] { arabic.parse_column(column, NUM_FORMAT_LENIENT); }, -1));
    using texts = std::vector<std::string>;
    const texts typed{"١٬٢٣٤", "+٥ "}, mixed{"٥", "١٬٢3٤"};
    check("typed columns in digits", arabic.parse_column(typed, NUM_FORMAT_TYPED) == std::vector<std::int64_t>{1234, 5}
          && arabic.parse_decimal_column(typed, 2, NUM_FORMAT_TYPED) == std::vector<std::int64_t>{123400, 500});
    check("other_numeral in columns", throws<numfmt::other_numeral>([&] { arabic.parse_column(mixed); }, -23, 6, 1)
          && throws<numfmt::other_numeral>([&] { arabic.parse_column(mixed, NUM_FORMAT_TYPED); }, -23, 6, 1)
          && throws<numfmt::other_numeral>([&] { arabic.parse_decimal_column(mixed, 2); }, -23, 6, 1)
          && throws<numfmt::other_numeral>([&] { arabic.parse_decimal_column(mixed, 2, NUM_FORMAT_TYPED); }, -23, 6, 1));
}

// Columns from texts, and back.
static void check_text_columns(const numfmt::format &de) {
    using texts = std::vector<std::string>;
    using nullable = std::vector<std::optional<std::string>>;
    check("column of texts", de.parse_column<int>(texts{"1.234", "-5"}) == std::vector<int>{1234, -5});
    check("column of views", de.parse_column(std::vector<std::string_view>{"1", "22"}) == std::vector<std::int64_t>{1, 22});
    check("column of char *", de.parse_decimal_column(std::vector<const char *>{"1,5", "2"}, 2) == std::vector<std::int64_t>{150, 200});
    check("row of a text", throws<numfmt::unexpected>([&] { de.parse_column(texts{"1", "2x"}); }, -9, 1, 1));
    const nullable some{"1.000", std::nullopt, ""};
    const auto column = numfmt::column::of(some);
    check("column::of", column.size() == 3 && column.is_null(1) && !column.is_null(2) && column.bytes == "1.000");
    check("texts", column.texts<std::optional<std::string>>() == some && column.texts() == texts{"1.000", "", ""});
    check("texts, printed", de.print_column(std::vector<int>{1000, 7}).texts() == texts{"1.000", "7"});
    check("texts, none", numfmt::column::of(texts{}).size() == 0 && numfmt::column().texts().empty());
    check("nulls", de.parse_column<std::optional<int>>(std::vector<std::optional<std::string>>{std::nullopt, "7"})
          == std::vector<std::optional<int>>{std::nullopt, 7});
}

int main() {
    const auto de = numfmt::format::locale("de");
    const auto own = numfmt::format::custom("'", NUM_FORMAT_INDIAN, "~");
    check("empty texts", numfmt::format::custom({}, 1, {}, {}).print(-1234) == "1234");
    check("equal", de == numfmt::format::locale("de") && de != own);
    check("unexpected", throws<numfmt::unexpected>([&] { de.parse<int>("12x"); }, -9, 2));
    check("no_digit", throws<numfmt::no_digit>([&] { de.parse<int>({}); }, -10));
    check("misspelled", throws<numfmt::misspelled>([&] { de.parse<int>("1.23"); }, -11));
    check("out_of_range", throws<numfmt::out_of_range>([&] { de.parse<std::uint8_t>("256"); }, -12));
    check("not_utf8", throws<numfmt::not_utf8>([&] { de.parse<int>("\xff"); }, -3));
    const auto sevens = numfmt::format::custom("7", NUM_FORMAT_STANDARD);
    check("ambiguous_format", throws<numfmt::ambiguous_format>([&] { sevens.parse<int>("1"); }, -19));
    check_columns(de, sevens);
    check_types();
    check("unknown_locale", throws<numfmt::unknown_locale>([] { numfmt::format::locale("xx"); }, -5));
    check("unknown_locale, empty", throws<numfmt::unknown_locale>([] { numfmt::format::locale({}); }, -5));
    check("unknown_locale, tag", throws<numfmt::unknown_locale>([] { numfmt::format::lookup({}); }, -5));
    check("unknown_locale, name", throws<numfmt::unknown_locale>([] { numfmt::format::lookup_name({}); }, -5));
    check("not_utf8, tag", throws<numfmt::not_utf8>([] { numfmt::format::lookup("de\xff"); }, -3));
    check("too_long", throws<numfmt::too_long>([] { numfmt::format::custom("123456789", 1); }, -6));
    check("bad_grouping", throws<numfmt::bad_grouping>([] { numfmt::format::custom(",", 6); }, -7));
    check("error", throws<numfmt::error>([] { numfmt::format::locale("xx"); }, -5));
    check("bad_scale", throws<numfmt::bad_scale>([&] { de.print_decimal({1, 39}); }, -13));
    check("decimal, unexpected", throws<numfmt::unexpected>([&] { de.parse_decimal("1,2,3"); }, -9, 3));
    check("decimal of 65 bits", throws<numfmt::out_of_range>([&] { de.parse_decimal("9223372036854775808"); }, -12));
    check("too_many_decimals", throws<numfmt::too_many_decimals>([&] { de.parse_decimal("0," + std::string(39, '1')); }, -14));
    check("text_width", numfmt::text_width(numfmt::format::locale("fr").print(1234567)) == 9 && numfmt::text_width({}) == 0);
    check("128 bits, empty", throws<numfmt::no_digit>([&] { de.parse<numfmt::int128>({}); }, -10));
    using numfmt::detail::is_number;
    check("characters", !is_number<char> && !is_number<char32_t> && is_number<signed char>);
    check_texts(de);
#ifdef __cpp_lib_format
    check_formatter(de);
#endif
    check_arithmetic();
    check_tries(de);
    check_typed(de);
    check_text_columns(de);
    check_digits(de);
    return status;
}
