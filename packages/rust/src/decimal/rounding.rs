use super::{Decimal, DecimalError, MAX_SCALE};
use crate::ffi;

/// What becomes of a number that has more decimals than there is space for. Their numbers are those of the header.
#[derive(Clone, Copy, Debug, PartialEq, Eq, Hash)]
pub enum Rounding {
    /// The nearest number, and of two that are equally near the one whose last digit is even, as in
    /// accounts: 2.5 becomes 2, and 3.5 becomes 4.
    HalfEven = 1,
    /// The nearest number, and of two that are equally near the one farther from zero, as in commerce:
    /// 2.5 becomes 3, and -2.5 becomes -3.
    HalfAwayFromZero = 2,
    /// The digits that are left, whatever follows them: 2.9 becomes 2, and -2.9 becomes -2.
    TowardZero = 3,
    /// The same number, or an error.
    Exact = 0,
}

impl Decimal {
    /// Returns the number at another scale, rounded where that has fewer decimals.
    ///
    /// ```
    /// use num_format::{Decimal, DecimalError, Rounding};
    ///
    /// let number = Decimal::new(2345, 3)?;
    /// assert_eq!(number.rescale(2, Rounding::HalfEven)?.units(), 234);
    /// assert_eq!(number.rescale(2, Rounding::HalfAwayFromZero)?.units(), 235);
    /// assert_eq!(number.rescale(4, Rounding::Exact)?.units(), 23450);
    /// assert_eq!(number.rescale(2, Rounding::Exact), Err(DecimalError::DigitsLost));
    /// # Ok::<(), DecimalError>(())
    /// ```
    ///
    /// # Errors
    ///
    /// The first of these that holds:
    ///
    /// - [`DecimalError::ScaleTooLarge`]: the scale is larger than [`MAX_SCALE`].
    /// - [`DecimalError::DigitsLost`]: digits other than zero would be lost under [`Rounding::Exact`].
    /// - [`DecimalError::OutOfRange`]: the units at the scale are no `i128`.
    pub fn rescale(self, scale: u8, rounding: Rounding) -> Result<Decimal, DecimalError> {
        ffi::rescale(self.parts(), scale, rounding).map(Decimal::of)
    }

    /// Returns the number with as many decimals as a precision asks for, rounded half to even. If the units have no
    /// space for so many, it has as many as they have space for.
    pub(crate) fn at_precision(self, precision: Option<usize>) -> Decimal {
        precision.map_or(self, |precision| {
            let scale = precision.min(usize::from(MAX_SCALE)) as u8;
            (0..=scale).rev().find_map(|scale| self.rescale(scale, Rounding::HalfEven).ok()).unwrap_or(self)
        })
    }
}
