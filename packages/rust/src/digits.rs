use core::fmt;

use crate::buffer::impl_text;
use crate::decimal::{Decimal, ParseAtScaleError, Rounding};
use crate::ffi::{self, RawFormat, Refusal, Text, MAX_DIGITS_LEN};
use crate::format::Format;
use crate::locale::Locale;
use crate::parsing::{FromFormattedStr, StrictError, TypedError};
use crate::to_formatted_str::ToFormattedStr;

/// A digit set: the ten decimal digits of a script, or of a style, as fullwidth ones. num-format has no such type.
///
/// A text in a set is that of the number with the digits of the set for `0` to `9`, and only such texts are parsed in it.
/// Separators, the minus sign and the decimal mark are those of the format.
///
/// ```
/// use num_format::{Digits, DigitText, DigitsError, Locale};
///
/// let arab = Digits::of_locale(Locale::ar_EG);
/// assert_eq!(DigitText::of(&1234567, &Locale::ar_EG, arab).as_str(), "١٬٢٣٤٬٥٦٧");
/// assert_eq!(arab.parse_strict("١٬٢٣٤", &Locale::ar_EG), Ok(1234));
/// let refused = arab.parse_strict::<i32, _>("١٬٢3٤", &Locale::ar_EG);
/// assert_eq!(refused, Err(DigitsError::OtherNumeral { at: 6 }));
/// ```
#[derive(Clone, Copy, Debug, PartialEq, Eq, Hash)]
pub struct Digits {
    number: u8,
}

impl Digits {
    /// The digits `0` to `9`, which the CLDR names `latn`.
    pub const LATIN: Digits = Digits { number: 0 };

    /// Returns the digit set of a name of the CLDR, in lower case, or `None` if no set has it.
    ///
    /// ```
    /// use num_format::Digits;
    ///
    /// assert_eq!(Digits::from_name("fullwide").unwrap().zero(), '０');
    /// assert_eq!(Digits::from_name("roman"), None);
    /// ```
    pub fn from_name<S: AsRef<str>>(name: S) -> Option<Digits> {
        ffi::digits_of_name(name.as_ref()).map(|number| Digits { number })
    }

    /// Returns the default digit set of a locale, as CLDR 42 has it: `0` to `9` for all but 46 locales.
    pub fn of_locale(locale: Locale) -> Digits {
        const NATIVE: &[u8] = b"-u-nu-native";
        let (name, mut tag) = (locale.name(), [0; 64]);
        let len = name.len() + NATIVE.len();
        tag[..name.len()].copy_from_slice(name.as_bytes());
        tag[name.len()..len].copy_from_slice(NATIVE);
        let tag = core::str::from_utf8(&tag[..len]);
        tag.ok().and_then(Digits::of_tag).expect("each locale has a default set")
    }

    /// Returns the digit set that a language tag names after `-u-` and `-nu-`, and `0` to `9` if it names none, or `None`
    /// if it names no set, or twice one, or is the tag of no locale. `native` is the default set of its locale.
    ///
    /// ```
    /// use num_format::{Digits, Locale};
    ///
    /// assert_eq!(Digits::of_tag("fa-u-nu-native"), Some(Digits::of_locale(Locale::fa)));
    /// assert_eq!(Digits::of_tag("fa"), Some(Digits::LATIN));
    /// assert_eq!(Digits::of_tag("zh-u-nu-traditio"), None);
    /// ```
    pub fn of_tag<S: AsRef<str>>(tag: S) -> Option<Digits> {
        ffi::digits_of_tag(tag.as_ref()).map(|number| Digits { number })
    }

    /// Returns the digit zero of the set.
    pub fn zero(self) -> char {
        0.with_raw_text(&RawFormat::PLAIN.in_digits(self.number), |text| text.chars().next())
            .expect("a number has a digit")
    }

    /// Returns the number for which the text is canonical in the digits of the set, as
    /// [`from_strict_str`](FromFormattedStr::from_strict_str) does in `0` to `9`.
    ///
    /// # Errors
    ///
    /// [`DigitsError::Number`] with `AmbiguousFormat`, else the first of the causes of [`DigitsError`] that holds.
    pub fn parse_strict<N: FromFormattedStr, F: Format>(
        self,
        text: &str,
        format: &F,
    ) -> Result<N, DigitsError<StrictError>> {
        Ok(N::from_raw_str(text, &RawFormat::of(format).in_digits(self.number))?)
    }

    /// Returns the decimal for which the text is canonical in the digits of the set, as
    /// [`from_strict_str`](Decimal::from_strict_str) does in `0` to `9`.
    ///
    /// ```
    /// use num_format::{Digits, Locale};
    ///
    /// let arabext = Digits::of_locale(Locale::fa);
    /// assert_eq!(arabext.parse_decimal("۱٬۲۳۴٫۵۰", &Locale::fa).unwrap().units(), 123450);
    /// ```
    ///
    /// # Errors
    ///
    /// As of [`parse_strict`](Digits::parse_strict).
    pub fn parse_decimal<F: Format>(self, text: &str, format: &F) -> Result<Decimal, DigitsError<StrictError>> {
        Ok(Decimal::from_raw_str(text, &self.raw(format))?)
    }

    /// Returns the decimal for which the text is canonical in the digits of the set at another scale, as
    /// [`parse_at_scale`](Decimal::parse_at_scale) does in `0` to `9`.
    ///
    /// # Errors
    ///
    /// As of [`parse_strict`](Digits::parse_strict), or that of [`rescale`](Decimal::rescale) under [`Rounding::Exact`].
    pub fn parse_at_scale<F: Format>(
        self,
        text: &str,
        scale: u8,
        format: &F,
    ) -> Result<Decimal, DigitsError<ParseAtScaleError>> {
        let decimal = self.parse_decimal(text, format).map_err(|error| error.map(ParseAtScaleError::Parse))?;
        let rescaled = decimal.rescale(scale, Rounding::Exact);
        rescaled.map_err(|error| DigitsError::Number(ParseAtScaleError::Rescale(error)))
    }

    /// Returns the number of a text as a person types it in the digits of the set, as
    /// [`parse_typed`](crate::parsing::parse_typed) does in `0` to `9`; no data type is meant.
    ///
    /// # Errors
    ///
    /// As of [`parse_strict`](Digits::parse_strict).
    pub fn parse_typed<N: FromFormattedStr, F: Format>(
        self,
        text: &str,
        format: &F,
    ) -> Result<N, DigitsError<TypedError<StrictError>>> {
        Ok(N::from_raw_typed_str(text, &self.raw(format))?)
    }

    /// Returns the decimal of a text as a person types it in the digits of the set.
    ///
    /// # Errors
    ///
    /// As of [`parse_strict`](Digits::parse_strict).
    pub fn parse_typed_decimal<F: Format>(
        self,
        text: &str,
        format: &F,
    ) -> Result<Decimal, DigitsError<TypedError<StrictError>>> {
        Ok(Decimal::from_raw_typed_str(text, &self.raw(format))?)
    }

    /// Returns the decimal of a text as a person types it in the digits of the set at another scale.
    ///
    /// # Errors
    ///
    /// As of [`parse_at_scale`](Digits::parse_at_scale).
    pub fn parse_typed_at_scale<F: Format>(
        self,
        text: &str,
        scale: u8,
        format: &F,
    ) -> Result<Decimal, DigitsError<TypedError<ParseAtScaleError>>> {
        let decimal = self.parse_typed_decimal(text, format);
        let rescaled =
            decimal.map_err(|error| error.map(|e| e.map(ParseAtScaleError::Parse)))?.rescale(scale, Rounding::Exact);
        rescaled.map_err(|error| DigitsError::Number(TypedError::Number(ParseAtScaleError::Rescale(error))))
    }

    fn raw<F: Format>(self, format: &F) -> RawFormat {
        RawFormat::with_decimal_mark(format).in_digits(self.number)
    }
}

/// The text of a number in a digit set, in place: this allocates nothing and cannot fail. num-format has no such type.
///
/// ```
/// use num_format::{Decimal, Digits, DigitText, Locale};
///
/// let deva = Digits::of_locale(Locale::ne);
/// assert_eq!(DigitText::of(&-1234567, &Locale::ne, deva).as_str(), "-१२,३४,५६७");
/// let price = Decimal::new(123450, 2)?;
/// assert_eq!(DigitText::of_decimal(&price, &Locale::de, deva).as_str(), "१.२३४,५०");
/// # Ok::<(), num_format::DecimalError>(())
/// ```
#[derive(Clone, Copy)]
pub struct DigitText {
    text: Text<MAX_DIGITS_LEN>,
}

impl_text!(DigitText);

impl DigitText {
    /// Returns the text of a whole number.
    pub fn of<F: Format, N: ToFormattedStr>(n: &N, format: &F, digits: Digits) -> DigitText {
        n.with_raw_text(&RawFormat::of(format).in_digits(digits.number), DigitText::copied)
    }

    /// Returns the text of a decimal.
    pub fn of_decimal<F: Format>(n: &Decimal, format: &F, digits: Digits) -> DigitText {
        n.with_raw_text(&digits.raw(format), DigitText::copied)
    }

    fn copied(text: &str) -> DigitText {
        DigitText { text: Text::copied(text).expect("a text in digits fits") }
    }
}

/// Why a text was refused as a number in a digit set. `E` is the error of strict or of typed parsing.
#[derive(Clone, Copy, Debug, PartialEq, Eq, Hash)]
#[non_exhaustive]
pub enum DigitsError<E> {
    /// A numeric character is no digit of the set: a digit of another set, as `3` in a text of Arabic-Indic digits, or
    /// any other numeral, as `²`.
    OtherNumeral {
        /// The number of bytes before the first such character.
        at: usize,
    },
    /// With `0` to `9` for its digits the text has more bytes than the text of any number.
    TooLong,
    /// The cause of that parsing. A position counts the bytes of the text that was given.
    Number(E),
}

impl<E> DigitsError<E> {
    fn map<T>(self, change: impl FnOnce(E) -> T) -> DigitsError<T> {
        match self {
            DigitsError::OtherNumeral { at } => DigitsError::OtherNumeral { at },
            DigitsError::TooLong => DigitsError::TooLong,
            DigitsError::Number(error) => DigitsError::Number(change(error)),
        }
    }
}

impl<E: From<Refusal>> From<Refusal> for DigitsError<E> {
    fn from(refusal: Refusal) -> DigitsError<E> {
        match refusal {
            Refusal::OtherNumeral { at } => DigitsError::OtherNumeral { at },
            Refusal::TextTooLong => DigitsError::TooLong,
            other => DigitsError::Number(other.into()),
        }
    }
}

impl<E: fmt::Display> fmt::Display for DigitsError<E> {
    fn fmt(&self, f: &mut fmt::Formatter<'_>) -> fmt::Result {
        match self {
            DigitsError::OtherNumeral { at } => write!(f, "The text has a numeral of another digit set at {at}."),
            DigitsError::TooLong => f.write_str("The text is too long."),
            DigitsError::Number(error) => error.fmt(f),
        }
    }
}

#[cfg(feature = "std")]
impl<E: fmt::Debug + fmt::Display> std::error::Error for DigitsError<E> {}
