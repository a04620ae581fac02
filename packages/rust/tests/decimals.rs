//! Decimals: what the tables of cases do not say of them. `replay.rs` prints, parses, rescales, compares, adds and
//! subtracts them.

use std::collections::HashSet;

use num_format::{
    CustomFormat, Decimal, DecimalError, Locale, ParseAtScaleError, ParseDecimal, Rounding, StrictError, MAX_SCALE,
};

fn decimal(units: i128, scale: u8) -> Decimal {
    Decimal::new(units, scale).unwrap()
}

fn parts(d: Decimal) -> (i128, u8) {
    (d.units(), d.scale())
}

#[test]
fn scales() {
    assert_eq!(parts(decimal(5, MAX_SCALE)), (5, 38));
    let refused = Decimal::new(1, MAX_SCALE + 1);
    assert_eq!(refused, Err(DecimalError::ScaleTooLarge));
    assert_eq!(parts(Decimal::default()), (0, 0));
    assert!(decimal(-1, 38).is_negative() && !decimal(0, 0).is_negative());
}

#[cfg(feature = "std")]
#[test]
fn writers() {
    use num_format::WriteFormatted;

    let price = decimal(123_450, 2);
    let (mut text, mut bytes) = (String::new(), Vec::new());
    assert_eq!(text.write_formatted(&price, &Locale::en).unwrap(), 8);
    assert_eq!(bytes.write_formatted(&price, &Locale::en).unwrap(), 8);
    assert_eq!((&*text, &*bytes), ("1,234.50", &b"1,234.50"[..]));
}

/// As `{:.2}` of a float: to the nearest, and of two the even one.
#[test]
fn a_precision_rounds() {
    for (units, scale, text) in [
        (125, 2, "1.2"),
        (135, 2, "1.4"),
        (-125, 2, "-1.2"),
        (-4, 2, "0.0"),
        (7, 0, "7.0"),
        (99_951, 3, "100.0"),
        (i128::MAX, 0, "170141183460469231731687303715884105727"),
        (i128::MIN, 38, "-1.7"),
    ] {
        let number = decimal(units, scale);
        assert_eq!(format!("{number:.1}"), text);
        assert_eq!(format!("{number:.1}"), format!("{:.1}", parse(text)));
        let shown = text.replace('.', ",");
        let format = CustomFormat::from(Locale::en_US_POSIX);
        let format = format.into_builder().decimal(",").build().unwrap();
        assert_eq!(format!("{:.1}", number.formatted(&format)), shown);
    }
    assert_eq!(format!("[{:8.2}]", decimal(-12_345, 3)), "[  -12.34]");
    assert_eq!(format!("{:.0}", decimal(25, 1)), "2");
    assert_eq!(format!("{:.400}", decimal(15, 1)).len(), 40);
    assert_eq!(format!("{:.400}", decimal(12_345, 0)), format!("12345.{}", "0".repeat(34)));
    let text = format!("[{:>9.1}]", decimal(123_456, 2).formatted(&Locale::de));
    assert_eq!(text, "[  1.234,6]");
}

#[test]
fn equal_decimals_have_one_hash() {
    let found: HashSet<Decimal> =
        [(15, 1), (150, 2), (-15, 1), (15, 0)].map(|(units, scale)| decimal(units, scale)).into();
    assert_eq!(found.len(), 3);
}

fn parse(text: &str) -> Decimal {
    text.parse().unwrap()
}

#[test]
fn errors_as_texts() {
    use DecimalError::{DigitsLost, OutOfRange, ScaleTooLarge};
    for (error, text) in [
        (ScaleTooLarge, "The scale is larger than 38."),
        (DigitsLost, "Digits would be lost at that scale."),
        (OutOfRange, "The units are out of range."),
    ] {
        assert_eq!(error.to_string(), text);
        assert_eq!(ParseAtScaleError::Rescale(error).to_string(), text);
    }
    for (text, message) in [
        (".5", "The text is not as the number is printed."),
        ("1 5", "The text has an unexpected byte at 1."),
        ("", "The text has no digit."),
        ("170141183460469231731687303715884105.728", "The number is no value of the type."),
    ] {
        let error = text.parse_decimal(&Locale::en).unwrap_err();
        assert_eq!(error.to_string(), message);
        assert_eq!(ParseAtScaleError::Parse(error).to_string(), message);
    }
}

#[test]
fn integers() {
    macro_rules! check {
        ($($type:ty),*) => {$(
            for n in [<$type>::MIN, 0, 1, <$type>::MAX] {
                let number = Decimal::from(n);
                assert_eq!((number.to_string(), number.scale()), (n.to_string(), 0));
                assert_eq!(<$type>::try_from(number), Ok(n));
                assert!(number == n && number <= n && !(number < n));
            }
            let above = Decimal::try_from(<$type>::MAX).unwrap().checked_add(decimal(1, 1));
            if let Some(above) = above {
                assert!(above > <$type>::MAX && above != <$type>::MAX);
                assert_eq!(<$type>::try_from(above), Err(DecimalError::DigitsLost));
                let next = above + decimal(9, 1);
                assert_eq!(<$type>::try_from(next), Err(DecimalError::OutOfRange));
            }
        )*};
    }
    check!(i8, i16, i32, i64, i128, isize, u8, u16, u32, u64, usize);
    assert_eq!(u8::try_from(decimal(-1, 0)), Err(DecimalError::OutOfRange));
    assert_eq!(i32::try_from(decimal(-700, 2)), Ok(-7));
    let first_too_large = i128::MAX as u128 + 1;
    assert_eq!(Decimal::try_from(first_too_large), Err(DecimalError::OutOfRange));
    assert_eq!(Decimal::try_from(first_too_large - 1), Ok(decimal(i128::MAX, 0)));
    assert!(decimal(i128::MAX, 0) < first_too_large);
    assert_eq!(u128::try_from(decimal(50, 1)), Ok(5));
    assert!(decimal(-5, 1) < 0 && decimal(5, 1) > 0 && decimal(50, 1) == 5u128);
}

#[test]
fn plain_texts() {
    let price = decimal(-123_450, 2);
    assert_eq!(
        format!("[{price:10}|{price:<10}|{price:010}|{:+}]", decimal(5, 1)),
        "[  -1234.50|-1234.50  |-001234.50|+0.5]"
    );
    let smallest = decimal(i128::MIN, 38);
    let text = "-1.70141183460469231731687303715884105728";
    assert_eq!((&*smallest.to_string(), parse(text)), (text, smallest));
    use StrictError::{Misspelled, Unexpected};
    for (text, cause) in [
        ("1,234.50", Unexpected { at: 1 }),
        ("+5", Unexpected { at: 0 }),
        ("1e3", Unexpected { at: 1 }),
        ("01", Misspelled),
        (".5", Misspelled),
    ] {
        assert_eq!(text.parse::<Decimal>(), Err(cause));
    }
}

/// One that has no result in 128 bits at a scale on the way, and is a sum or difference of them all the same.
#[test]
fn exact_where_the_result_fits() {
    let (fifth, whole) = (decimal(i128::MAX / 5, 0), decimal(i128::MAX, 1));
    assert_eq!(fifth.checked_sub(whole), Some(decimal(i128::MAX - 4, 1)));
    assert_eq!(parts(whole - fifth), (4 - i128::MAX, 1));
    assert_eq!(parts(-whole + fifth), (i128::MAX - 4, 1));
}

#[test]
fn operators() {
    let mut sum = decimal(150, 2);
    sum += 2.into();
    sum -= decimal(5, 3);
    assert_eq!(parts(sum), (3_495, 3));
    sum *= decimal(-20, 1);
    assert_eq!(parts(sum), (-69_900, 4));
    assert_eq!(parts(-sum), (69_900, 4));
    let prices = [decimal(150, 2), decimal(2_005, 3), decimal(-1, 0)];
    assert_eq!(parts(prices.iter().sum()), (2_505, 3));
    assert_eq!(parts(prices.into_iter().sum()), (2_505, 3));
    assert_eq!(parts([].iter().sum::<Decimal>()), (0, 0));
}

#[test]
fn products() {
    let (x, y) = (decimal(-123, 2), decimal(45, 1));
    assert_eq!(x.checked_mul(y).map(parts), Some((-5_535, 3)));
    let (half, two) = (decimal(i128::MIN / 2, 19), decimal(2, 19));
    assert_eq!(half.checked_mul(two).map(parts), Some((i128::MIN, 38)));
    assert_eq!(half.checked_mul(decimal(-2, 19)), None);
    assert_eq!(decimal(0, 19).checked_mul(decimal(0, 20)), None);
}

#[test]
fn results_that_do_not_fit() {
    let largest = decimal(i128::MAX, 0);
    let panics = |what: &str, operate: fn(Decimal) -> Decimal| {
        let panic = std::panic::catch_unwind(|| operate(largest)).unwrap_err();
        let text = panic.downcast_ref::<String>().map(String::as_str);
        let text = text.or_else(|| panic.downcast_ref().copied()).unwrap();
        assert_eq!(text, format!("the {what} is too large"));
    };
    panics("sum", |d| d + 1.into());
    panics("difference", |d| -d - 2.into());
    panics("product", |d| d * 2.into());
    panics("negated number", |d| -(-d - 1.into()));
    let rescaled = largest.rescale(1, Rounding::HalfEven);
    assert_eq!(rescaled, Err(DecimalError::OutOfRange));
}
