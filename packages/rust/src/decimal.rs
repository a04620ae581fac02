use core::cmp::Ordering;
use core::fmt;
use core::hash::{Hash, Hasher};

use crate::ffi::{self, RawFormat};
use crate::format::Format;
use crate::formatted::Formatted;
use crate::sealed::Sealed;

mod arithmetic;
mod integers;
mod parsing;
mod rounding;

pub use self::parsing::{DecimalParser, ParseAtScaleError, ParseDecimal};
pub use self::rounding::Rounding;

/// The largest scale: the most decimals that a [`Decimal`] has.
pub const MAX_SCALE: u8 = 38;

/// A number with a fixed number of decimals: `units` divided by 10 to the power of `scale`, which is at most
/// [`MAX_SCALE`]. num-format has no such type.
///
/// The scale is a part of a decimal: 1.50 is printed with two decimals, and 1.5 with one. They compare as equal,
/// since the order, `==` and `Hash` go by the value. `Display` writes a plain text as `-1234.50`, by a width, a fill
/// and `+` as std's integers have them, `FromStr` parses it, and serde has it as a string. A precision, as `{:.2}`,
/// rounds half to even, as that of a float does, or adds zeros, as many as there is space for among the units.
///
/// ```
/// use num_format::{Decimal, Locale, ParseDecimal, Rounding};
///
/// let price = "1.234,50".parse_decimal(&Locale::de).unwrap();
/// assert_eq!((price.units(), price.scale()), (123450, 2));
/// assert_eq!(price, Decimal::new(12345, 1)?);
/// # #[cfg(feature = "std")]
/// assert_eq!(price.formatted(&Locale::en).to_string(), "1,234.50");
/// let sum = price + "0.005".parse().unwrap();
/// assert_eq!((sum.units(), sum.scale()), (1234505, 3));
/// assert_eq!(sum.rescale(2, Rounding::HalfEven)?, price);
/// # Ok::<(), num_format::DecimalError>(())
/// ```
#[derive(Clone, Copy, Debug, Default)]
pub struct Decimal {
    units: i128,
    scale: u8,
}

impl Decimal {
    /// Returns `units` divided by 10 to the power of `scale`.
    ///
    /// # Errors
    ///
    /// [`DecimalError::ScaleTooLarge`] if the scale is larger than [`MAX_SCALE`].
    pub const fn new(units: i128, scale: u8) -> Result<Decimal, DecimalError> {
        if scale > MAX_SCALE {
            return Err(DecimalError::ScaleTooLarge);
        }
        Ok(Decimal { units, scale })
    }

    /// Returns how many units the number is, of 10 to the power of minus the scale.
    pub const fn units(&self) -> i128 {
        self.units
    }

    /// Returns the number of decimals, at most [`MAX_SCALE`].
    pub const fn scale(&self) -> u8 {
        self.scale
    }

    /// Returns whether the number is below zero.
    pub const fn is_negative(&self) -> bool {
        self.units < 0
    }

    /// Returns the number, to be displayed under the format. It allocates nothing, and a width and a precision count:
    /// see [`Formatted`].
    pub fn formatted<'a, F: Format>(&'a self, format: &'a F) -> Formatted<'a, Decimal, F> {
        Formatted::new(self, format)
    }

    /// Calls a function with the text of the number.
    #[inline]
    pub(crate) fn with_text<F: Format, R>(&self, format: &F, then: impl FnOnce(&str) -> R) -> R {
        self.with_raw_text(&RawFormat::with_decimal_mark(format), then)
    }

    #[inline]
    pub(crate) fn with_raw_text<R>(&self, format: &RawFormat, then: impl FnOnce(&str) -> R) -> R {
        ffi::with_text(self.parts(), format, then)
    }

    /// Returns the units and the scale.
    const fn parts(&self) -> (i128, u8) {
        (self.units, self.scale)
    }

    /// Returns the decimal of these units and this scale, which is at most [`MAX_SCALE`].
    const fn of((units, scale): (i128, u8)) -> Decimal {
        Decimal { units, scale }
    }
}

impl Sealed for Decimal {}

impl fmt::Display for Decimal {
    fn fmt(&self, f: &mut fmt::Formatter<'_>) -> fmt::Result {
        let number = self.at_precision(f.precision());
        number.with_raw_text(&RawFormat::PLAIN, |text| {
            let digits = text.strip_prefix('-').unwrap_or(text);
            f.pad_integral(!number.is_negative(), "", digits)
        })
    }
}

impl PartialEq for Decimal {
    fn eq(&self, other: &Decimal) -> bool {
        self.cmp(other).is_eq()
    }
}

impl Eq for Decimal {}

impl PartialOrd for Decimal {
    fn partial_cmp(&self, other: &Decimal) -> Option<Ordering> {
        Some(self.cmp(other))
    }
}

impl Ord for Decimal {
    fn cmp(&self, other: &Decimal) -> Ordering {
        ffi::compare(self.parts(), other.parts())
    }
}

impl Hash for Decimal {
    /// Hashes the whole number at or below the value, and by how many units of the largest scale it is above.
    fn hash<H: Hasher>(&self, state: &mut H) {
        let one = 10_i128.pow(u32::from(self.scale));
        let unit = 10_i128.pow(u32::from(MAX_SCALE - self.scale));
        (self.units.div_euclid(one), self.units.rem_euclid(one) * unit).hash(state);
    }
}

/// Why there is no such decimal.
#[derive(Clone, Copy, Debug, PartialEq, Eq, Hash)]
#[non_exhaustive]
pub enum DecimalError {
    /// The scale is larger than [`MAX_SCALE`].
    ScaleTooLarge,
    /// Digits other than zero would be lost, where they were not to be rounded.
    DigitsLost,
    /// The units, or the integer, are out of range.
    OutOfRange,
}

impl fmt::Display for DecimalError {
    fn fmt(&self, f: &mut fmt::Formatter<'_>) -> fmt::Result {
        f.write_str(match self {
            DecimalError::ScaleTooLarge => "The scale is larger than 38.",
            DecimalError::DigitsLost => "Digits would be lost at that scale.",
            DecimalError::OutOfRange => "The units are out of range.",
        })
    }
}

#[cfg(feature = "std")]
impl std::error::Error for DecimalError {}

#[cfg(feature = "with-serde")]
mod serialization {
    use serde::de::{self, Deserialize, Deserializer};
    use serde::ser::{Serialize, Serializer};

    use super::Decimal;
    use crate::ffi::MAX_DECIMAL_LEN;
    use crate::strings::Inline;

    impl Serialize for Decimal {
        fn serialize<S: Serializer>(&self, serializer: S) -> Result<S::Ok, S::Error> {
            serializer.collect_str(self)
        }
    }

    impl<'de> Deserialize<'de> for Decimal {
        fn deserialize<D: Deserializer<'de>>(deserializer: D) -> Result<Decimal, D::Error> {
            let text = Inline::<MAX_DECIMAL_LEN>::deserialize(deserializer)?;
            text.parse().map_err(de::Error::custom)
        }
    }
}
