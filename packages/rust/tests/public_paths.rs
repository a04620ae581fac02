//! Each public path of num-format 0.4.4, with its signature and its traits, but those of system locales and of big
//! integers. What is missing or has another type does not compile.
#![cfg(feature = "std")]

use std::borrow::Borrow;
use std::fmt::{self, Debug, Display};
use std::fs::File;
use std::hash::Hash;
use std::io::{self, BufWriter, Cursor, LineWriter};
use std::net::TcpStream;
use std::num::{NonZeroU128, NonZeroU16, NonZeroU32, NonZeroU64, NonZeroU8, NonZeroUsize};
use std::ops::Deref;
use std::process::ChildStdin;
use std::str::FromStr;

use num_format::parsing::{FromFormattedStr, ParseFormatted};
use num_format::utils::{DecimalStr, InfinityStr, MinusSignStr, NanStr, PlusSignStr, SeparatorStr};
use num_format::{
    Buffer, CustomFormat, CustomFormatBuilder, Error, ErrorKind, Format, Grouping, Locale, ToFormattedStr,
    ToFormattedString, WriteFormatted,
};
use num_format::{Decimal, DecimalBuffer, DecimalParser, Formatted, StrictParser};

/// Compiles if the type has the traits.
macro_rules! has {
    ($type:ty: $($bounds:tt)+) => {{
        fn has<T: $($bounds)+>() {}
        has::<$type>();
    }};
}

#[test]
fn buffer() {
    has!(Buffer: Copy + Debug + Default + Display + AsRef<str> + Borrow<str> + Deref<Target = str>);
    let _: fn() -> Buffer = Buffer::new;
    let _: fn(&Buffer) -> &[u8] = Buffer::as_bytes;
    let _: fn(&Buffer) -> &str = Buffer::as_str;
    let _: fn(&Buffer) -> bool = Buffer::is_empty;
    let _: fn(&Buffer) -> usize = Buffer::len;
    let _: fn(&mut Buffer, &u8, &Locale) -> usize = Buffer::write_formatted;
}

#[test]
fn custom_format() {
    has!(CustomFormat: Clone + Debug + Default + Eq + Hash + Format + From<Locale>);
    let _: fn() -> CustomFormatBuilder = CustomFormat::builder;
    let _: fn(CustomFormat) -> CustomFormatBuilder = CustomFormat::into_builder;
    let _: fn(&CustomFormat) -> Grouping = CustomFormat::grouping;
    let _: [fn(&CustomFormat) -> &str; 6] = [
        CustomFormat::decimal,
        CustomFormat::infinity,
        CustomFormat::minus_sign,
        CustomFormat::nan,
        CustomFormat::plus_sign,
        CustomFormat::separator,
    ];
}

#[test]
fn custom_format_builder() {
    has!(CustomFormatBuilder: Clone + Debug + Eq + Hash + From<Locale> + From<CustomFormat>);
    type Builder = CustomFormatBuilder;
    let _: fn(Builder) -> Result<CustomFormat, Error> = Builder::build;
    let _: fn(Builder, &Locale) -> Builder = Builder::format;
    let _: fn(Builder, Grouping) -> Builder = Builder::grouping;
    let _: [fn(Builder, &'static str) -> Builder; 6] = [
        Builder::decimal,
        Builder::infinity,
        Builder::minus_sign,
        Builder::nan,
        Builder::plus_sign,
        Builder::separator,
    ];
    let _: fn(Builder, String) -> Builder = Builder::separator;
}

#[test]
fn errors() {
    has!(Error: Clone + Debug + Display + Eq + Hash + std::error::Error + From<ErrorKind>);
    has!(ErrorKind: Clone + Debug + Display + Eq + Hash);
    let _: fn(&'static str) -> Error = Error::new;
    let _: fn(&Error) -> &ErrorKind = Error::kind;
    let _: [fn(String) -> ErrorKind; 3] = [ErrorKind::Other, ErrorKind::ParseLocale, ErrorKind::ParseNumber];
    let _ = ErrorKind::Capacity { len: 9, cap: 8 };
}

/// `Formatted` is where its format is.
#[test]
fn types_are_sent_and_shared() {
    macro_rules! check {
        ($($type:ty),*) => {$( has!($type: Send + Sync); )*};
    }
    check!(Buffer, CustomFormat, CustomFormatBuilder, Error, Locale, SeparatorStr<'static>);
    check!(Decimal, DecimalBuffer, DecimalParser, StrictParser);
    check!(Formatted<'static, i32, Locale>);
}

#[test]
fn grouping() {
    has!(Grouping: Copy + Debug + Eq + Hash);
    let _ = [Grouping::Standard, Grouping::Indian, Grouping::Posix];
}

#[test]
fn locale() {
    has!(Locale: Copy + Debug + Eq + Hash + Ord + Format + FromStr<Err = Error>);
    let _: fn() -> &'static [&'static str] = Locale::available_names;
    let _: fn(&'static str) -> Result<Locale, Error> = Locale::from_name;
    let _: fn(&Locale) -> Grouping = Locale::grouping;
    let _: [fn(&Locale) -> &'static str; 7] = [
        Locale::decimal,
        Locale::infinity,
        Locale::minus_sign,
        Locale::name,
        Locale::nan,
        Locale::plus_sign,
        Locale::separator,
    ];
}

#[test]
fn texts_of_formats() {
    macro_rules! check {
        ($($text:ident),*) => {$(
            has!($text<'static>: Clone + Debug + Display + Ord + Hash + AsRef<str>);
            let _: fn(&'static str) -> Result<$text<'static>, Error> = $text::new;
            let _: fn($text<'static>) -> &'static str = $text::into_str;
        )*};
    }
    check!(DecimalStr, InfinityStr, MinusSignStr, NanStr, PlusSignStr, SeparatorStr);
}

#[test]
fn methods_of_format() {
    let _: fn(&Locale) -> DecimalStr<'_> = Format::decimal;
    let _: fn(&Locale) -> Grouping = Format::grouping;
    let _: fn(&Locale) -> InfinityStr<'_> = Format::infinity;
    let _: fn(&Locale) -> MinusSignStr<'_> = Format::minus_sign;
    let _: fn(&Locale) -> NanStr<'_> = Format::nan;
    let _: fn(&Locale) -> PlusSignStr<'_> = Format::plus_sign;
    let _: fn(&Locale) -> SeparatorStr<'_> = Format::separator;
    // A format may be behind a pointer.
    let _: &dyn Format = &Locale::en;
}

#[test]
fn numbers() {
    macro_rules! check {
        ($($number:ty),*) => {$(
            has!($number: ToFormattedStr + ToFormattedString + FromFormattedStr);
        )*};
    }
    check!(u8, u16, u32, u64, u128, usize, i8, i16, i32, i64, i128, isize);
    check!(NonZeroU8, NonZeroU16, NonZeroU32, NonZeroU64, NonZeroU128, NonZeroUsize);
    let _: fn(&u8, &mut Buffer, &Locale) -> usize = ToFormattedStr::read_to_buffer;
    let _: fn(&u8, String, &Locale) -> Result<usize, fmt::Error> = ToFormattedString::read_to_fmt_writer;
    let _: fn(&u8, Vec<u8>, &Locale) -> Result<usize, io::Error> = ToFormattedString::read_to_io_writer;
    let _: fn(&u8, &Locale) -> String = ToFormattedString::to_formatted_string;
    let _: fn(&str, &Locale) -> Result<u8, Error> = FromFormattedStr::from_formatted_str;
    let _: fn(&&'static str, &Locale) -> Result<u8, Error> = ParseFormatted::parse_formatted;
    has!(String: ParseFormatted);
}

/// What num-format's trait needs is enough for a type of a user's own.
struct Cell(&'static str);

impl ParseFormatted for Cell {
    fn parse_formatted<F: Format, N: FromFormattedStr>(&self, format: &F) -> Result<N, Error> {
        self.0.trim().parse_formatted(format)
    }
}

#[test]
fn a_text_of_ones_own() {
    assert_eq!(Cell(" 1,000 ").parse_formatted(&Locale::en), Ok(1000));
}

#[test]
fn writers() {
    macro_rules! check {
        ($($writer:ty),* $(,)?) => {$( has!($writer: WriteFormatted); )*};
    }
    /// Writers, and mutable references to them.
    macro_rules! check_both {
        ($($writer:ty),* $(,)?) => { check!($($writer, &'static mut $writer,)*); };
    }
    type Bytes = Cursor<Box<[u8]>>;
    check_both!(
        Box<dyn io::Write>,
        BufWriter<File>,
        ChildStdin,
        Bytes,
        Cursor<Vec<u8>>,
        Cursor<&'static mut [u8]>,
        Cursor<&'static mut Vec<u8>>,
        File,
        LineWriter<File>,
        io::Sink,
        io::Stderr,
        io::Stdout,
        String,
        TcpStream,
        Vec<u8>,
        io::StderrLock<'static>,
        io::StdoutLock<'static>,
    );
    check!(&'static mut [u8], &'static File, &'static TcpStream, &'static mut fmt::Formatter<'static>);
    #[cfg(unix)]
    {
        use std::os::unix::net::UnixStream;
        check_both!(UnixStream);
        check!(&'static UnixStream);
    }
    let _: fn(&mut String, &u8, &Locale) -> Result<usize, io::Error> = WriteFormatted::write_formatted;
}
