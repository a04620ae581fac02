use std::fmt;
use std::io;

use crate::decimal::Decimal;
use crate::format::Format;
use crate::sealed::Sealed;
use crate::to_formatted_str::ToFormattedStr;

/// A number that can be printed as a new string: each type that is [`ToFormattedStr`], and [`Decimal`].
///
/// ```
/// use num_format::{Locale, ToFormattedString};
///
/// assert_eq!(1000000.to_formatted_string(&Locale::en), "1,000,000");
/// ```
pub trait ToFormattedString: Sealed + Sized {
    #[doc(hidden)]
    fn read_to_fmt_writer<F, W>(&self, w: W, format: &F) -> Result<usize, fmt::Error>
    where
        F: Format,
        W: fmt::Write;

    #[doc(hidden)]
    fn read_to_io_writer<F, W>(&self, w: W, format: &F) -> Result<usize, io::Error>
    where
        F: Format,
        W: io::Write;

    /// Returns the text of the number.
    fn to_formatted_string<F>(&self, format: &F) -> String
    where
        F: Format;
}

/// Implements the trait by `with_text`. The generics are in brackets.
macro_rules! impl_to_formatted_string {
    ([$($generics:tt)*] $type:ty) => {
        impl<$($generics)*> ToFormattedString for $type {
            fn read_to_fmt_writer<F, W>(&self, mut w: W, format: &F) -> Result<usize, fmt::Error>
            where
                F: Format,
                W: fmt::Write,
            {
                self.with_text(format, |text| w.write_str(text).map(|()| text.len()))
            }

            fn read_to_io_writer<F, W>(&self, mut w: W, format: &F) -> Result<usize, io::Error>
            where
                F: Format,
                W: io::Write,
            {
                self.with_text(format, |text| w.write_all(text.as_bytes()).map(|()| text.len()))
            }

            #[inline]
            fn to_formatted_string<F>(&self, format: &F) -> String
            where
                F: Format,
            {
                self.with_text(format, str::to_owned)
            }
        }
    };
}

impl_to_formatted_string!([N: ToFormattedStr] N);
impl_to_formatted_string!([] Decimal);
