//! Sums, differences and products: exact wherever the result fits. Sums and differences are the library's, which is
//! proved. It has no products and no negated numbers: those are computed here, and only tested.

use core::iter::Sum;
use core::ops::{Add, AddAssign, Mul, MulAssign, Neg, Sub, SubAssign};

use super::{Decimal, MAX_SCALE};
use crate::ffi;

impl Decimal {
    /// Returns the sum at the larger of both scales, or `None` if its units there are no `i128`.
    pub fn checked_add(self, other: Decimal) -> Option<Decimal> {
        ffi::add(self.parts(), other.parts()).ok().map(Decimal::of)
    }

    /// Returns the difference at the larger of both scales, or `None` if its units there are no `i128`.
    pub fn checked_sub(self, other: Decimal) -> Option<Decimal> {
        ffi::subtract(self.parts(), other.parts()).ok().map(Decimal::of)
    }

    /// Returns the product at the sum of both scales, or `None` if that is above [`MAX_SCALE`] or its units there are
    /// no `i128`.
    pub fn checked_mul(self, other: Decimal) -> Option<Decimal> {
        let units = self.units.checked_mul(other.units)?;
        let scale = self.scale + other.scale;
        (scale <= MAX_SCALE).then_some(Decimal { units, scale })
    }

    /// Returns the negated number at the same scale, or `None` if its units are no `i128`: those of `i128::MIN`.
    pub fn checked_neg(self) -> Option<Decimal> {
        let (units, scale) = (self.units.checked_neg()?, self.scale);
        Some(Decimal { units, scale })
    }
}

macro_rules! impl_operators {
    ($($operator:ident $method:ident $assign:ident $assign_method:ident $checked:ident $result:literal),*) => {$(
        impl $operator for Decimal {
            type Output = Decimal;

            /// Panics where the checked method returns `None`.
            fn $method(self, other: Decimal) -> Decimal {
                self.$checked(other).expect(concat!("the ", $result, " is too large"))
            }
        }

        impl $assign for Decimal {
            /// Panics where the checked method returns `None`.
            fn $assign_method(&mut self, other: Decimal) {
                *self = self.$method(other);
            }
        }
    )*};
}

impl_operators!(
    Add add AddAssign add_assign checked_add "sum",
    Sub sub SubAssign sub_assign checked_sub "difference",
    Mul mul MulAssign mul_assign checked_mul "product"
);

impl Neg for Decimal {
    type Output = Decimal;

    /// Panics where [`checked_neg`](Decimal::checked_neg) returns `None`.
    fn neg(self) -> Decimal {
        self.checked_neg().expect("the negated number is too large")
    }
}

impl Sum for Decimal {
    /// Adds one after another, from 0 at scale 0. Panics where [`checked_add`](Decimal::checked_add) returns `None`.
    fn sum<I: Iterator<Item = Decimal>>(numbers: I) -> Decimal {
        numbers.fold(Decimal::default(), Add::add)
    }
}

impl<'a> Sum<&'a Decimal> for Decimal {
    fn sum<I: Iterator<Item = &'a Decimal>>(numbers: I) -> Decimal {
        numbers.copied().sum()
    }
}
