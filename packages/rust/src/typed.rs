//! Numbers as people type them.

use core::fmt;

use crate::decimal::{Decimal, ParseAtScaleError, Rounding};
use crate::ffi::{RawFormat, Refusal};
use crate::format::Format;
use crate::parsing::{FromFormattedStr, StrictError};

/// Returns the number of a text as a person types it; no data type is meant.
///
/// A space, an apostrophe, a comma or a point stands for the character of its kind that the format has, and a hyphen
/// for its minus sign; blanks at the ends, a plus sign and a minus sign before zero are dropped. What is left is parsed
/// strictly, so no digits or groups are mended. Use this for what people typed, and
/// [`from_strict_str`](FromFormattedStr::from_strict_str) for what programs wrote. num-format has no such function.
///
/// ```
/// use num_format::parsing::{parse_typed, StrictError, TypedError};
/// use num_format::Locale;
///
/// assert_eq!(parse_typed("-1 234", &Locale::fr), Ok(-1234)); // fr prints U+202F
/// assert_eq!(parse_typed("-5", &Locale::sv), Ok(-5)); // sv prints U+2212
/// assert_eq!(parse_typed::<u8, _>("1,23", &Locale::en), Err(TypedError::Number(StrictError::Misspelled)));
/// ```
///
/// # Errors
///
/// The first of the causes of [`TypedError`] that holds. No locale is ambiguous.
pub fn parse_typed<N: FromFormattedStr, F: Format>(text: &str, format: &F) -> Result<N, TypedError<StrictError>> {
    Ok(N::from_raw_typed_str(text, &RawFormat::with_decimal_mark(format))?)
}

/// Returns the decimal of a text as a person types it, as [`parse_typed`] does.
///
/// ```
/// use num_format::parsing::parse_typed_decimal;
/// use num_format::{Decimal, Locale};
///
/// assert_eq!(parse_typed_decimal(" +1'234.50 ", &Locale::de_CH), Ok(Decimal::new(123450, 2).unwrap()));
/// ```
///
/// # Errors
///
/// The first of the causes of [`TypedError`] that holds. No locale is ambiguous.
pub fn parse_typed_decimal<F: Format>(text: &str, format: &F) -> Result<Decimal, TypedError<StrictError>> {
    TypedParser { format: RawFormat::with_decimal_mark(format) }.parse_decimal(text)
}

/// Returns the decimal of a text as a person types it at another scale, as
/// [`parse_at_scale`](Decimal::parse_at_scale) does of one that a program wrote.
///
/// # Errors
///
/// That of [`parse_typed_decimal`], or that of [`rescale`](Decimal::rescale) under [`Rounding::Exact`].
pub fn parse_typed_at_scale<F: Format>(
    text: &str,
    scale: u8,
    format: &F,
) -> Result<Decimal, TypedError<ParseAtScaleError>> {
    TypedParser { format: RawFormat::with_decimal_mark(format) }.parse_at_scale(text, scale)
}

/// A parser of texts as people type them under one format, which is not ambiguous. It asks the format for its texts once.
///
/// ```
/// use num_format::parsing::TypedParser;
/// use num_format::Locale;
///
/// let parser = TypedParser::new(&Locale::fr)?;
/// assert_eq!(parser.parse("1 234"), Ok(1234));
/// assert_eq!(parser.parse_decimal("1 234,50").unwrap().units(), 123450);
/// # Ok::<(), num_format::StrictError>(())
/// ```
#[derive(Clone, Copy, Debug)]
pub struct TypedParser {
    format: RawFormat,
}

impl TypedParser {
    /// Returns a parser of texts under the format.
    ///
    /// # Errors
    ///
    /// [`StrictError::AmbiguousFormat`]. No locale is ambiguous.
    pub fn new<F: Format>(format: &F) -> Result<TypedParser, StrictError> {
        let parser = TypedParser { format: RawFormat::with_decimal_mark(format) };
        match parser.parse::<u8>("0") {
            Err(TypedError::Number(error)) => Err(error),
            _ => Ok(parser),
        }
    }

    /// Returns the number of the text, as [`parse_typed`] does.
    ///
    /// # Errors
    ///
    /// A [`TypedError`], but not `AmbiguousFormat`.
    pub fn parse<N: FromFormattedStr>(&self, text: &str) -> Result<N, TypedError<StrictError>> {
        Ok(N::from_raw_typed_str(text, &self.format)?)
    }

    /// Returns the decimal of the text, as [`parse_typed_decimal`] does.
    ///
    /// # Errors
    ///
    /// A [`TypedError`]. It is `AmbiguousFormat` where the decimal mark can be misread.
    pub fn parse_decimal(&self, text: &str) -> Result<Decimal, TypedError<StrictError>> {
        Ok(Decimal::from_raw_typed_str(text, &self.format)?)
    }

    /// Returns the decimal of the text at another scale, as [`parse_typed_at_scale`] does.
    ///
    /// # Errors
    ///
    /// A [`TypedError`], as of [`parse_decimal`](TypedParser::parse_decimal).
    pub fn parse_at_scale(&self, text: &str, scale: u8) -> Result<Decimal, TypedError<ParseAtScaleError>> {
        let decimal = self.parse_decimal(text).map_err(|error| error.map(ParseAtScaleError::Parse))?;
        let rescaled = decimal.rescale(scale, Rounding::Exact);
        rescaled.map_err(|error| TypedError::Number(ParseAtScaleError::Rescale(error)))
    }
}

/// Why a text as a person types it was refused.
#[derive(Clone, Copy, Debug, PartialEq, Eq, Hash)]
#[non_exhaustive]
pub enum TypedError<E> {
    /// With the characters of the format in it, the text has more bytes than the text of any number.
    TooLong,
    /// The cause of strict parsing, which `AmbiguousFormat` is also where a separator that is printed and the mark have
    /// two unlike spaces, apostrophes, commas or points, as `'` and U+2019, or the minus sign has one of the kinds that
    /// these two have. Also where the minus sign, without marks of the direction of writing at its ends, is empty or
    /// begins with a blank, a line end or a plus sign. A position counts the bytes of the text that was given.
    Number(E),
}

impl<E> TypedError<E> {
    pub(crate) fn map<T>(self, change: impl FnOnce(E) -> T) -> TypedError<T> {
        match self {
            TypedError::TooLong => TypedError::TooLong,
            TypedError::Number(error) => TypedError::Number(change(error)),
        }
    }
}

impl<E: From<Refusal>> From<Refusal> for TypedError<E> {
    fn from(refusal: Refusal) -> TypedError<E> {
        match refusal {
            Refusal::TextTooLong => TypedError::TooLong,
            other => TypedError::Number(other.into()),
        }
    }
}

impl<E: fmt::Display> fmt::Display for TypedError<E> {
    fn fmt(&self, f: &mut fmt::Formatter<'_>) -> fmt::Result {
        match self {
            TypedError::TooLong => f.write_str("The text is too long."),
            TypedError::Number(error) => error.fmt(f),
        }
    }
}

#[cfg(feature = "std")]
impl<E: fmt::Debug + fmt::Display> std::error::Error for TypedError<E> {}
