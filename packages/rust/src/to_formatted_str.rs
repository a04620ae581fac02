use crate::buffer::Buffer;
use crate::ffi::RawFormat;
use crate::format::Format;
use crate::formatted::Formatted;
use crate::sealed::Sealed;

/// A number that can be printed into a [`Buffer`]: each integer type of std, and the unsigned ones that are not
/// zero.
pub trait ToFormattedStr: Sealed + Sized {
    #[doc(hidden)]
    fn read_to_buffer<F>(&self, buf: &mut Buffer, format: &F) -> usize
    where
        F: Format;

    /// Calls a function with the text of the number.
    #[doc(hidden)]
    #[inline]
    fn with_text<F, R>(&self, format: &F, then: impl FnOnce(&str) -> R) -> R
    where
        F: Format,
    {
        self.with_raw_text(&RawFormat::of(format), then)
    }

    /// Calls a function with the text of the number under the struct of a format.
    #[doc(hidden)]
    fn with_raw_text<R>(&self, format: &RawFormat, then: impl FnOnce(&str) -> R) -> R;

    /// Returns the number, to be displayed under the format. It allocates nothing, and a width counts: see
    /// [`Formatted`]. num-format has no such method.
    ///
    /// ```
    /// use num_format::{Locale, ToFormattedStr};
    ///
    /// # #[cfg(feature = "std")]
    /// assert_eq!(format!("{:>12}", 1000000.formatted(&Locale::en)), "   1,000,000");
    /// ```
    fn formatted<'a, F>(&'a self, format: &'a F) -> Formatted<'a, Self, F>
    where
        F: Format,
    {
        Formatted::new(self, format)
    }
}
