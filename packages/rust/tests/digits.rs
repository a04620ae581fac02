//! Digits of other scripts.

use std::num::NonZeroU8;

use num_format::parsing::{ParseAtScaleError, StrictError, TypedError};
use num_format::{CustomFormat, Decimal, DecimalError, DigitText, Digits, DigitsError, Grouping, Locale};

#[test]
fn sets_are_found_by_name_tag_and_locale() {
    let zeros =
        [("latn", '0'), ("arab", '\u{660}'), ("deva", '\u{966}'), ("mathbold", '\u{1d7ce}'), ("adlm", '\u{1e950}')];
    for (name, zero) in zeros {
        let digits = Digits::from_name(name).unwrap();
        assert_eq!(digits.zero(), zero);
        assert_eq!(Digits::of_tag(format!("de-u-ca-buddhist-nu-{name}-co-phonebk")), Some(digits));
        assert_eq!(Digits::of_tag(format!("de_DE_u_nu_{}.UTF-8@euro", name.to_uppercase())), Some(digits));
    }
    for name in ["", "Arab", "roman", "native", "hanidec", "\u{301}", "arab\0"] {
        assert_eq!(Digits::from_name(name), None);
    }
    for tag in ["", "xx", "xx-u-nu-arab", "fa-u-nu-", "fa-u-nu-DEVAX", "fa-u-nu-deva-nu-deva", "zh-u-nu-finance"] {
        assert_eq!(Digits::of_tag(tag), None);
    }
    let natives = Locale::available_names().iter().map(|name| Locale::from_name(name).unwrap());
    assert_eq!(natives.filter(|locale| Digits::of_locale(*locale) != Digits::LATIN).count(), 46);
}

#[test]
fn the_longest_text_fits() {
    let format = CustomFormat::builder().separator("12345678").minus_sign("12345678").grouping(Grouping::Indian);
    let text = DigitText::of(&i128::MIN, &format.build().unwrap(), Digits::from_name("adlm").unwrap());
    assert_eq!(text.len(), 4 * (8 + 39 + 18 * 8));
}

#[test]
fn texts_are_refused_for_their_cause() {
    let (arab, eg) = (Digits::from_name("arab").unwrap(), &Locale::ar_EG);
    let strict = |text| arab.parse_strict::<u8, _>(text, eg);
    assert_eq!(strict("٢٥٥"), Ok(255));
    for (text, error) in [
        ("٢٥3", DigitsError::OtherNumeral { at: 4 }),
        ("x۱", DigitsError::OtherNumeral { at: 1 }),
        ("٢²", DigitsError::OtherNumeral { at: 2 }),
        ("٢\u{301}", DigitsError::Number(StrictError::Unexpected { at: 2 })),
        ("٢😀", DigitsError::Number(StrictError::Unexpected { at: 2 })),
        ("", DigitsError::Number(StrictError::NoDigit)),
        ("٠١", DigitsError::Number(StrictError::Misspelled)),
        ("٢٥٦", DigitsError::Number(StrictError::OutOfRange)),
        (&"٢".repeat(200), DigitsError::TooLong),
    ] {
        assert_eq!(strict(text), Err(error));
        assert_eq!(arab.parse_typed::<u8, _>(text, eg).map_err(|error| error.to_string()), Err(error.to_string()));
    }
    assert_eq!(arab.parse_strict::<NonZeroU8, _>("٠", eg), Err(DigitsError::Number(StrictError::OutOfRange)));
    assert_eq!(
        DigitsError::<StrictError>::OtherNumeral { at: 4 }.to_string(),
        "The text has a numeral of another digit set at 4."
    );
}

#[test]
fn decimals_are_typed_at_a_scale() {
    let (arab, eg) = (Digits::from_name("arab").unwrap(), &Locale::ar_EG);
    let of_number = |error| DigitsError::Number(TypedError::Number(error));
    for (text, result) in [
        (" +١٬٢٣٤٫٥", Ok(123450)),
        ("١٫٠٠٥", Err(of_number(ParseAtScaleError::Rescale(DecimalError::DigitsLost)))),
        ("١٫٥ x", Err(of_number(ParseAtScaleError::Parse(StrictError::Unexpected { at: 6 })))),
        ("١٫5", Err(DigitsError::OtherNumeral { at: 4 })),
        (&"١".repeat(200), Err(DigitsError::TooLong)),
    ] {
        assert_eq!(arab.parse_typed_at_scale(text, 2, eg).map(|found| found.units()), result);
    }
}

#[test]
fn an_ambiguous_format_comes_first() {
    let (arab, format) = (Digits::from_name("arab").unwrap(), CustomFormat::builder().minus_sign("").build().unwrap());
    let strict = StrictError::AmbiguousFormat;
    let decimal = StrictError::AmbiguousFormat;
    for text in ["1", "٢", "x"] {
        assert_eq!(arab.parse_strict::<i8, _>(text, &format), Err(DigitsError::Number(strict)));
        assert_eq!(arab.parse_typed::<i8, _>(text, &format), Err(DigitsError::Number(TypedError::Number(strict))));
        assert_eq!(arab.parse_decimal(text, &format), Err(DigitsError::Number(decimal)));
        assert_eq!(arab.parse_typed_decimal(text, &format), Err(DigitsError::Number(TypedError::Number(decimal))));
    }
}

#[test]
fn texts_are_parsed_back() {
    for name in ["latn", "arab", "deva", "fullwide", "mathbold"] {
        let digits = Digits::from_name(name).unwrap();
        for locale in [Locale::en, Locale::fr, Locale::hi, Locale::ar_EG, Locale::he, Locale::en_US_POSIX] {
            for number in [0, -7, 1234567, i128::MIN, i128::MAX] {
                let text = DigitText::of(&number, &locale, digits);
                assert_eq!(digits.parse_strict(&text, &locale), Ok(number));
                assert_eq!(digits.parse_typed(&text, &locale), Ok(number));
                let decimal = Decimal::new(number, 2).unwrap();
                let text = DigitText::of_decimal(&decimal, &locale, digits);
                assert_eq!(digits.parse_decimal(&text, &locale), Ok(decimal));
                assert_eq!(digits.parse_typed_decimal(&text, &locale), Ok(decimal));
            }
        }
    }
}
