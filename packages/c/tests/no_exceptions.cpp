// What the C++ wrapper has without exceptions. The exit status is 1 where something is wrong.
#include <num_format.hpp>

#ifdef __cpp_exceptions
#error "this is to be compiled by -fno-exceptions"
#endif

int main() {
    const auto de = numfmt::format::try_locale("de");
    if (!de || numfmt::format::try_locale("xx") || numfmt::format::try_lookup("de_DE.UTF-8") != de) return 1;
    const auto own = numfmt::format::try_custom("'", NUM_FORMAT_STANDARD);
    if (!own || own->print(1000) != "1'000" || own->prints_alike(*de) || !own->reads_back()) return 1;
    std::string to;
    de->append(to, -1234567);
    if (to != "-1.234.567" || de->text(7).view() != "7" || de->print_len(1000) != 5) return 1;
    if (de->try_parse<int>("1.234").value != 1234 || de->try_parse<int>("1,5").at != 1) return 1;
#ifdef __cpp_lib_format
    if (std::format("{:>7}", de->text(-1234)) != " -1.234") return 1;
#endif
    return de->try_parse_lenient<int>("1,5").value == 15 && de->try_parse_decimal("1,5").value.scale == 1 ? 0 : 1;
}
