use crate::custom_format_builder::CustomFormatBuilder;
use crate::ffi::RawFormat;
use crate::format::Format;
use crate::grouping::Grouping;
use crate::locale::Locale;
use crate::strings::{
    DecString, DecimalStr, InfString, InfinityStr, MinString, MinusSignStr, NanStr, NanString, PlusSignStr, PlusString,
    SepString, SeparatorStr,
};

/// A format of your own. Implements [`Format`].
///
/// ```
/// use num_format::{Buffer, CustomFormat, Grouping};
///
/// let format = CustomFormat::builder()
///     .grouping(Grouping::Indian)
///     .minus_sign("~")
///     .separator("'")
///     .build()?;
/// let mut buffer = Buffer::new();
/// buffer.write_formatted(&-1000000, &format);
/// assert_eq!(buffer.as_str(), "~10'00'000");
/// # Ok::<(), num_format::Error>(())
/// ```
#[derive(Clone, Debug, PartialEq, Eq, Hash)]
#[cfg_attr(feature = "with-serde", derive(serde::Serialize, serde::Deserialize))]
pub struct CustomFormat {
    pub(crate) dec: DecString,
    pub(crate) grp: Grouping,
    pub(crate) inf: InfString,
    pub(crate) min: MinString,
    pub(crate) nan: NanString,
    pub(crate) plus: PlusString,
    pub(crate) sep: SepString,
}

impl CustomFormat {
    /// Returns a builder, which begins with the format of [`Locale::en`].
    pub fn builder() -> CustomFormatBuilder {
        CustomFormatBuilder::from(Locale::en)
    }

    /// Returns a builder, which begins with this format.
    pub fn into_builder(self) -> CustomFormatBuilder {
        self.into()
    }

    /// Returns the decimal mark.
    pub fn decimal(&self) -> &str {
        &self.dec
    }

    /// Returns where separators are put between digits.
    pub fn grouping(&self) -> Grouping {
        self.grp
    }

    /// Returns the text for infinity.
    pub fn infinity(&self) -> &str {
        &self.inf
    }

    /// Returns the minus sign.
    pub fn minus_sign(&self) -> &str {
        &self.min
    }

    /// Returns the text for a value that is not a number.
    pub fn nan(&self) -> &str {
        &self.nan
    }

    /// Returns the plus sign.
    pub fn plus_sign(&self) -> &str {
        &self.plus
    }

    /// Returns the separator between groups of digits.
    pub fn separator(&self) -> &str {
        &self.sep
    }
}

impl Default for CustomFormat {
    /// Returns the format of [`Locale::en`].
    fn default() -> CustomFormat {
        CustomFormat::from(Locale::en)
    }
}

impl Format for CustomFormat {
    #[inline]
    fn decimal(&self) -> DecimalStr<'_> {
        self.dec.as_borrowed()
    }

    #[inline]
    fn grouping(&self) -> Grouping {
        self.grp
    }

    #[inline]
    fn infinity(&self) -> InfinityStr<'_> {
        self.inf.as_borrowed()
    }

    #[inline]
    fn minus_sign(&self) -> MinusSignStr<'_> {
        self.min.as_borrowed()
    }

    #[inline]
    fn nan(&self) -> NanStr<'_> {
        self.nan.as_borrowed()
    }

    #[inline]
    fn plus_sign(&self) -> PlusSignStr<'_> {
        self.plus.as_borrowed()
    }

    #[inline]
    fn separator(&self) -> SeparatorStr<'_> {
        self.sep.as_borrowed()
    }

    #[inline]
    fn raw(&self) -> Option<RawFormat> {
        let (SepString(separator), MinString(minus_sign), DecString(mark)) = (&self.sep, &self.min, &self.dec);
        Some(RawFormat::of_texts(&separator.0, self.grp, &minus_sign.0, &mark.0))
    }
}

impl From<Locale> for CustomFormat {
    fn from(locale: Locale) -> CustomFormat {
        CustomFormat {
            dec: Format::decimal(&locale).into(),
            grp: locale.grouping(),
            inf: Format::infinity(&locale).into(),
            min: Format::minus_sign(&locale).into(),
            nan: Format::nan(&locale).into(),
            plus: Format::plus_sign(&locale).into(),
            sep: Format::separator(&locale).into(),
        }
    }
}
