#![cfg_attr(not(feature = "std"), no_std)]
#![cfg_attr(feature = "std", doc = include_str!("../README.md"))]
#![cfg_attr(
    feature = "std",
    doc = "
## In this documentation

Numbers are printed by [`Buffer`], [`ToFormattedString`] and [`WriteFormatted`], and parsed by [`parsing`], under a
[`Format`]: a [`Locale`] or a [`CustomFormat`]. New are [`Decimal`], [`Digits`], [`StrictParser`] and
[`TypedParser`](parsing::TypedParser)."
)]
#![cfg_attr(not(feature = "std"), doc = "Numbers with separators between groups of digits, and back, without std.")]
#![deny(
    future_incompatible,
    missing_copy_implementations,
    missing_debug_implementations,
    missing_docs,
    nonstandard_style,
    rust_2018_idioms,
    rustdoc::broken_intra_doc_links,
    unsafe_code,
    unsafe_op_in_unsafe_fn,
    unused
)]
// Without std an error keeps up to 256 bytes in place, as num-format's does.
#![cfg_attr(not(feature = "std"), allow(clippy::result_large_err))]

#[cfg(all(test, not(feature = "std")))]
extern crate std;

mod buffer;
mod custom_format;
mod custom_format_builder;
mod decimal;
mod digits;
mod error;
mod error_kind;
mod ffi;
mod format;
mod formatted;
mod grouping;
mod impls;
mod locale;
pub mod parsing;
mod strings;
mod to_formatted_str;
#[cfg(feature = "std")]
mod to_formatted_string;
mod typed;
#[cfg(feature = "std")]
mod write_formatted;

pub use self::buffer::{Buffer, DecimalBuffer};
pub use self::custom_format::CustomFormat;
pub use self::custom_format_builder::CustomFormatBuilder;
pub use self::decimal::{Decimal, DecimalError, DecimalParser, Rounding, MAX_SCALE};
pub use self::digits::{DigitText, Digits, DigitsError};
pub use self::error::Error;
pub use self::error_kind::ErrorKind;
pub use self::format::{prints_alike, reads_back, Format};
pub use self::formatted::{text_width, Formatted};
pub use self::grouping::Grouping;
pub use self::locale::Locale;
pub use self::parsing::{ParseAtScaleError, ParseDecimal, StrictError, StrictParser};
pub use self::to_formatted_str::ToFormattedStr;
#[cfg(feature = "std")]
pub use self::to_formatted_string::ToFormattedString;
#[cfg(feature = "std")]
pub use self::write_formatted::WriteFormatted;

mod sealed {
    /// Keeps the traits of numbers to the types of this crate and of std.
    pub trait Sealed {}
}

/// The types of a format's texts, which implementations of [`Format`] return.
pub mod utils {
    #[cfg(not(feature = "std"))]
    pub use crate::strings::ErrString;
    pub use crate::strings::{DecimalStr, InfinityStr, MinusSignStr, NanStr, PlusSignStr, SeparatorStr};
}
