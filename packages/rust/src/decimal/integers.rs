//! What decimals and integers have to do with one another: conversions both ways, and comparisons of a decimal with an
//! integer. An integer is not compared with a decimal: programs in which the type of `n` of `1 == n` is found by there
//! being one such comparison alone would not compile.

use core::cmp::Ordering;

use super::{Decimal, DecimalError, Rounding};

macro_rules! impl_from_integers {
    ($($type:ty),*) => {$(
        impl From<$type> for Decimal {
            /// Returns the number at scale 0.
            fn from(n: $type) -> Decimal {
                let units = n as i128;
                Decimal { units, scale: 0 }
            }
        }
    )*};
}

impl_from_integers!(i8, i16, i32, i64, i128, isize, u8, u16, u32, u64, usize);

impl TryFrom<u128> for Decimal {
    type Error = DecimalError;

    /// Returns the number at scale 0, or [`DecimalError::OutOfRange`] if it is no `i128`.
    fn try_from(n: u128) -> Result<Decimal, DecimalError> {
        let units = i128::try_from(n).map_err(|_| DecimalError::OutOfRange)?;
        Ok(Decimal { units, scale: 0 })
    }
}

macro_rules! impl_for_integers {
    ($($type:ty),*) => {$(
        impl TryFrom<Decimal> for $type {
            type Error = DecimalError;

            /// Returns the same number, [`DecimalError::DigitsLost`] if it is no whole one, or
            /// [`DecimalError::OutOfRange`] if the type does not have it.
            fn try_from(number: Decimal) -> Result<$type, DecimalError> {
                let whole = number.rescale(0, Rounding::Exact)?;
                whole.units.try_into().map_err(|_| DecimalError::OutOfRange)
            }
        }

        impl PartialEq<$type> for Decimal {
            fn eq(&self, other: &$type) -> bool {
                self.partial_cmp(other) == Some(Ordering::Equal)
            }
        }

        impl PartialOrd<$type> for Decimal {
            fn partial_cmp(&self, other: &$type) -> Option<Ordering> {
                // A number that is none of these is larger than each of them.
                let other = Decimal::try_from(*other);
                Some(other.map_or(Ordering::Less, |other| self.cmp(&other)))
            }
        }
    )*};
}

impl_for_integers!(i8, i16, i32, i64, i128, isize, u8, u16, u32, u64, u128, usize);
