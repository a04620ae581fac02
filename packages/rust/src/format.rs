use crate::ffi::RawFormat;
use crate::grouping::Grouping;
use crate::strings::{DecimalStr, InfinityStr, MinusSignStr, NanStr, PlusSignStr, SeparatorStr};

/// How numbers are written: the separator between groups of digits, the minus sign and the like.
///
/// [`Locale`](crate::Locale) and [`CustomFormat`](crate::CustomFormat) implement it, and so can a type of your
/// own. The types of the texts bound their lengths, so no number under any format is longer than a
/// [`Buffer`](crate::Buffer) has space for.
///
/// Whole numbers are printed by the grouping, the separator and the minus sign, and parsed by the minus sign;
/// strict parsing goes by all three. A [`Decimal`](crate::Decimal) has the decimal mark too. The texts for
/// infinity, NaN and the plus sign are kept for callers alone.
///
/// ```
/// use num_format::utils::{
///     DecimalStr, InfinityStr, MinusSignStr, NanStr, PlusSignStr, SeparatorStr,
/// };
/// use num_format::{Buffer, Format, Grouping};
///
/// /// Digits in groups of three, by a separator that is chosen at run time.
/// struct Grouped<'a>(SeparatorStr<'a>);
///
/// impl Format for Grouped<'_> {
///     fn decimal(&self) -> DecimalStr<'_> {
///         DecimalStr::new(".").unwrap()
///     }
///     fn grouping(&self) -> Grouping {
///         Grouping::Standard
///     }
///     fn infinity(&self) -> InfinityStr<'_> {
///         InfinityStr::new("inf").unwrap()
///     }
///     fn minus_sign(&self) -> MinusSignStr<'_> {
///         MinusSignStr::new("-").unwrap()
///     }
///     fn nan(&self) -> NanStr<'_> {
///         NanStr::new("NaN").unwrap()
///     }
///     fn plus_sign(&self) -> PlusSignStr<'_> {
///         PlusSignStr::new("+").unwrap()
///     }
///     fn separator(&self) -> SeparatorStr<'_> {
///         self.0.clone()
///     }
/// }
///
/// let mut buffer = Buffer::new();
/// buffer.write_formatted(&-1234567, &Grouped(SeparatorStr::new("_")?));
/// assert_eq!(buffer.as_str(), "-1_234_567");
/// # Ok::<(), num_format::Error>(())
/// ```
pub trait Format {
    /// Returns the decimal mark, such as `.`.
    fn decimal(&self) -> DecimalStr<'_>;

    /// Returns where separators are put between digits.
    fn grouping(&self) -> Grouping;

    /// Returns the text for infinity, such as `∞`.
    fn infinity(&self) -> InfinityStr<'_>;

    /// Returns the minus sign, such as `-`.
    fn minus_sign(&self) -> MinusSignStr<'_>;

    /// Returns the text for a value that is not a number, such as `NaN`.
    fn nan(&self) -> NanStr<'_>;

    /// Returns the plus sign, such as `+`.
    fn plus_sign(&self) -> PlusSignStr<'_>;

    /// Returns the separator between groups of digits, such as `,`.
    fn separator(&self) -> SeparatorStr<'_>;

    /// Returns the struct that the library takes, where it is at hand. It says what the other methods say.
    #[doc(hidden)]
    #[inline]
    fn raw(&self) -> Option<RawFormat> {
        None
    }
}

/// Returns whether every number, printed under the format, parses as the same number again, as any type that
/// has it.
///
/// That is so for each locale. It is not so where the minus sign is empty, or where it or a separator that is printed has
/// digits of its own. num-format has no such function.
///
/// ```
/// use num_format::{reads_back, CustomFormat, Locale};
///
/// assert!(reads_back(&Locale::ar));
/// assert!(!reads_back(&CustomFormat::builder().separator("0").build()?));
/// # Ok::<(), num_format::Error>(())
/// ```
pub fn reads_back<F: Format>(format: &F) -> bool {
    RawFormat::of(format).reads_back()
}

/// Returns whether each whole number has the same text under both formats.
///
/// num-format has no such function.
///
/// ```
/// use num_format::{prints_alike, Locale};
///
/// assert!(prints_alike(&Locale::en, &Locale::ja));
/// assert!(!prints_alike(&Locale::en, &Locale::en_IN));
/// ```
pub fn prints_alike<F: Format, G: Format>(first: &F, second: &G) -> bool {
    RawFormat::of(first).prints_alike(&RawFormat::of(second))
}
