use core::fmt::{self, Write};

use crate::decimal::Decimal;
use crate::ffi;
use crate::format::Format;
use crate::to_formatted_str::ToFormattedStr;

/// A number to be displayed under a format, as [`formatted`](ToFormattedStr::formatted) returns it.
///
/// Width, fill and alignment count, as for std's numbers: the width is that of [`text_width`], and the text is to the
/// right where no side is asked for. A precision rounds a [`Decimal`], as its `Display` does. Else it is ignored, as
/// `+`, `#` and `0` are. The text is never cut.
#[derive(Clone, Copy)]
pub struct Formatted<'a, N, F> {
    number: &'a N,
    format: &'a F,
}

impl<'a, N, F> Formatted<'a, N, F> {
    pub(crate) fn new(number: &'a N, format: &'a F) -> Self {
        Formatted { number, format }
    }
}

impl<N: ToFormattedStr, F: Format> fmt::Display for Formatted<'_, N, F> {
    fn fmt(&self, f: &mut fmt::Formatter<'_>) -> fmt::Result {
        self.number.with_text(self.format, |text| write_filled(text, f))
    }
}

impl<F: Format> fmt::Display for Formatted<'_, Decimal, F> {
    fn fmt(&self, f: &mut fmt::Formatter<'_>) -> fmt::Result {
        let number = self.number.at_precision(f.precision());
        number.with_text(self.format, |text| write_filled(text, f))
    }
}

impl<N, F> fmt::Debug for Formatted<'_, N, F>
where
    Self: fmt::Display,
{
    /// Writes what is displayed.
    fn fmt(&self, f: &mut fmt::Formatter<'_>) -> fmt::Result {
        fmt::Display::fmt(self, f)
    }
}

/// Returns how many columns a text takes, as one that was printed, where each character takes one, but U+061C, U+200E and
/// U+200F, which mark the direction of writing, none. num-format has no such function.
///
/// ```
/// use num_format::{text_width, Buffer, Locale};
///
/// let mut buffer = Buffer::new();
/// buffer.write_formatted(&1234567, &Locale::fr);
/// assert_eq!((text_width(&buffer), buffer.len()), (9, 13));
/// ```
pub fn text_width(text: &str) -> usize {
    ffi::text_width(text)
}

/// Writes a text, filled up to the width that is asked for.
fn write_filled(text: &str, f: &mut fmt::Formatter<'_>) -> fmt::Result {
    // `pad` would cut the text to the precision, and `pad_integral` counts the bytes of separators.
    let missing = f.width().unwrap_or(0).saturating_sub(text_width(text));
    let before = match f.align() {
        Some(fmt::Alignment::Left) => 0,
        Some(fmt::Alignment::Center) => missing / 2,
        Some(fmt::Alignment::Right) | None => missing,
    };
    let fill = f.fill();
    (0..before).try_for_each(|_| f.write_char(fill))?;
    f.write_str(text)?;
    (before..missing).try_for_each(|_| f.write_char(fill))
}
