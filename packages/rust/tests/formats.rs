//! Formats: the builder, its errors, and formats of one's own. `replay.rs` has what builders return, and which print
//! alike.

use std::cell::Cell;

use num_format::parsing::parse_typed;
use num_format::utils::{DecimalStr, InfinityStr, MinusSignStr, NanStr, PlusSignStr, SeparatorStr};
use num_format::{
    Buffer, CustomFormat, CustomFormatBuilder, Decimal, DecimalBuffer, Error, ErrorKind, Format, Grouping, Locale,
    ParseDecimal,
};

#[test]
fn a_builder_begins_with_en() {
    let format = CustomFormat::builder().build().unwrap();
    assert_eq!(format, CustomFormat::default());
    assert_eq!(format, CustomFormat::from(Locale::en));
    assert_eq!(CustomFormatBuilder::from(Locale::en), CustomFormat::builder());
}

fn capacity(len: usize, cap: usize) -> Error {
    ErrorKind::Capacity { len, cap }.into()
}

#[test]
fn bounded_texts() {
    assert_eq!(SeparatorStr::new("12345678").unwrap().into_str(), "12345678");
    assert_eq!(SeparatorStr::new("123456789"), Err(capacity(9, 8)));
    assert_eq!(DecimalStr::new("éééé€").map(DecimalStr::into_str), Err(capacity(11, 8)));
    assert!(InfinityStr::new(&"x".repeat(128)).is_ok());
    assert!(NanStr::new(&"x".repeat(65)).is_err());
    let plus = PlusSignStr::new("+").unwrap();
    assert_eq!((plus.as_ref(), plus.to_string()), ("+", "+".into()));
    assert_eq!(format!("{:?}", MinusSignStr::new("-").unwrap()), r#""-""#);
    assert!(plus < PlusSignStr::new("-").unwrap());
}

#[test]
fn errors() {
    let error = SeparatorStr::new("123456789").unwrap_err();
    assert_eq!(error.kind(), &ErrorKind::Capacity { len: 9, cap: 8 });
    assert_eq!(error.to_string(), "Attempted to write input of length 9 bytes into a buffer with capacity 8 bytes.");
    let error = Locale::from_name("123456789").unwrap_err();
    assert_eq!(error.to_string(), "Failed to parse 123456789 into a valid locale.");
    let error = Error::from(ErrorKind::ParseNumber("1e3".into()));
    assert_eq!(error.to_string(), "Failed to parse 1e3 into a number.");
    assert_eq!(Error::new("no such currency").to_string(), "no such currency");
    #[cfg(feature = "std")]
    assert!(std::error::Error::source(&error).is_none());
}

/// A `match` that names each kind of num-format's, and each grouping, needs no other arm.
#[test]
fn kinds_of_errors_are_those_of_num_format() {
    let name = |error: Error| match error.kind() {
        ErrorKind::Capacity { .. } => "capacity",
        ErrorKind::Other(_) => "other",
        ErrorKind::ParseLocale(_) => "locale",
        ErrorKind::ParseNumber(_) => "number",
    };
    assert_eq!(name(Error::new("")), "other");
    assert_eq!(name(capacity(9, 8)), "capacity");
}

#[cfg(not(feature = "with-more-groupings"))]
#[test]
fn groupings_are_those_of_num_format() {
    let size = |grouping| match grouping {
        Grouping::Standard => Some(3),
        Grouping::Indian => Some(2),
        Grouping::Posix => None,
    };
    assert_eq!(size(Locale::hi.grouping()), Some(2));
}

/// Without std an error keeps whole characters of a text within 256 bytes; with std, all of it.
#[test]
fn errors_of_long_texts() {
    for (text, len) in [("a".repeat(255) + "é", 255), ("a".repeat(254) + "éa", 256)] {
        let kept = if cfg!(feature = "std") { &*text } else { &text[..len] };
        assert_eq!(Error::new(&text).to_string(), kept);
        let error = Locale::from_name(&text).unwrap_err();
        assert!(matches!(error.kind(), ErrorKind::ParseLocale(name) if name.as_str() == kept));
    }
}

#[test]
fn debug_shows_the_fields_of_num_format() {
    assert_eq!(
        format!("{:?}", CustomFormat::default()),
        "CustomFormat { dec: DecString(\".\"), grp: Standard, inf: InfString(\"∞\"), \
         min: MinString(\"-\"), nan: NanString(\"NaN\"), plus: PlusString(\"+\"), sep: SepString(\",\") }"
    );
}

/// A format of one's own. Texts that are not needed are never asked for, and the decimal mark once at most.
struct Dotted {
    mark: Cell<Option<&'static str>>,
}

fn dotted(mark: Option<&'static str>) -> Dotted {
    Dotted { mark: Cell::new(mark) }
}

impl Format for Dotted {
    fn decimal(&self) -> DecimalStr<'_> {
        DecimalStr::new(self.mark.take().unwrap()).unwrap()
    }

    fn grouping(&self) -> Grouping {
        Grouping::Standard
    }

    fn infinity(&self) -> InfinityStr<'_> {
        unreachable!()
    }

    fn minus_sign(&self) -> MinusSignStr<'_> {
        MinusSignStr::new("minus ").unwrap()
    }

    fn nan(&self) -> NanStr<'_> {
        unreachable!()
    }

    fn plus_sign(&self) -> PlusSignStr<'_> {
        unreachable!()
    }

    fn separator(&self) -> SeparatorStr<'_> {
        SeparatorStr::new("·").unwrap()
    }
}

#[test]
fn formats_of_ones_own() {
    let mut buffer = Buffer::new();
    buffer.write_formatted(&-1_234_567, &dotted(None));
    assert_eq!(buffer.as_str(), "minus 1·234·567");
    let price = Decimal::new(-123_450, 2).unwrap();
    let mut buffer = DecimalBuffer::new();
    buffer.write_formatted(&price, &dotted(Some("::")));
    assert_eq!(buffer.as_str(), "minus 1·234::50");
    assert_eq!(buffer.parse_decimal(&dotted(Some("::"))), Ok(price));
    assert_eq!(parse_typed(" -5", &dotted(Some("é"))), Ok(-5));
}
