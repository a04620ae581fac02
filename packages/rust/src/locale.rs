use core::str::FromStr;

use crate::error::Error;
use crate::ffi::{RawFormat, Text, MAX_LEN};
use crate::format::Format;
use crate::grouping::Grouping;
use crate::strings::{DecimalStr, InfinityStr, MinusSignStr, NanStr, PlusSignStr, SeparatorStr};

mod table;

pub use self::table::Locale;

/// The names, in rising byte order, which is that of the variants.
static NAMES: [&str; table::LEN] = table::NAMES;

/// The data of a locale.
struct Row {
    locale: Locale,
    grouping: Grouping,
    decimal: DecimalStr<'static>,
    infinity: InfinityStr<'static>,
    minus_sign: MinusSignStr<'static>,
    nan: NanStr<'static>,
    plus_sign: PlusSignStr<'static>,
    separator: SeparatorStr<'static>,
    raw: RawFormat,
}

/// Returns a row. That its texts are short enough is tested where it is compiled.
#[allow(clippy::too_many_arguments)]
const fn row(
    locale: Locale,
    grouping: Grouping,
    decimal: &'static str,
    infinity: &'static str,
    minus_sign: &'static str,
    nan: &'static str,
    plus_sign: &'static str,
    separator: &'static str,
) -> Row {
    Row {
        locale,
        grouping,
        decimal: DecimalStr::constant(decimal),
        infinity: InfinityStr::constant(infinity),
        minus_sign: MinusSignStr::constant(minus_sign),
        nan: NanStr::constant(nan),
        plus_sign: PlusSignStr::constant(plus_sign),
        separator: SeparatorStr::constant(separator),
        raw: RawFormat::new(separator, grouping, minus_sign, decimal),
    }
}

/// A power of two that is larger than the number of names, so that few names share a slot.
const SLOTS: usize = 2048;

/// What a slot has that is free.
const FREE: u16 = u16::MAX;

/// The places of the names: each in the first slot from its hash on that is free.
static PLACES: [u16; SLOTS] = {
    let mut places = [FREE; SLOTS];
    let mut place = 0;
    while place < table::LEN {
        let mut slot = hash(table::NAMES[place]);
        while places[slot] != FREE {
            slot = (slot + 1) % SLOTS;
        }
        places[slot] = place as u16;
        place += 1;
    }
    places
};

/// Returns the slot of a name, in which an underscore counts as a hyphen.
const fn hash(name: &str) -> usize {
    let name = name.as_bytes();
    let mut hash = name.len() as u32;
    let mut i = 0;
    while i < name.len() {
        hash = (hash ^ hyphened(name[i]) as u32).wrapping_mul(0x0100_0193);
        i += 1;
    }
    (hash ^ hash >> 16) as usize % SLOTS
}

const fn hyphened(byte: u8) -> u8 {
    if byte == b'_' {
        b'-'
    } else {
        byte
    }
}

/// Returns the place of a name, which has hyphens, or an underscore for every hyphen.
fn place_of(name: &str) -> Option<usize> {
    let slots = PLACES.iter().cycle().skip(hash(name));
    let mut places = slots.take_while(|place| **place != FREE);
    let place = places.find(|place| {
        let known = NAMES[usize::from(**place)];
        known == name
            || known.len() == name.len() && !name.contains('-') && known.bytes().eq(name.bytes().map(hyphened))
    })?;
    Some(usize::from(*place))
}

impl Locale {
    /// Returns the names of all locales, with hyphens, in rising byte order.
    pub fn available_names() -> &'static [&'static str] {
        &NAMES
    }

    /// Returns the locale of a name, which has hyphens, or an underscore for every hyphen.
    ///
    /// # Errors
    ///
    /// Of kind [`ParseLocale`](crate::ErrorKind::ParseLocale) for any other text. Letters have to be of the right case, and
    /// `de_DE` is no name: [`lookup`](Locale::lookup) finds the locale for a language tag.
    ///
    /// ```
    /// use num_format::Locale;
    ///
    /// assert_eq!(Locale::from_name("en-US-POSIX"), Ok(Locale::en_US_POSIX));
    /// assert_eq!(Locale::from_name("en_US_POSIX"), Ok(Locale::en_US_POSIX));
    /// assert!(Locale::from_name("en-us-posix").is_err());
    /// ```
    pub fn from_name<S: AsRef<str>>(name: S) -> Result<Locale, Error> {
        let name = name.as_ref();
        place_of(name).map(|place| table::ROWS[place].locale).ok_or_else(|| Error::parse_locale(name))
    }

    /// Returns the locale for a language tag, as an environment or a browser gives one. num-format has no such
    /// function.
    ///
    /// What follows the first `.` or `@` does not count, nor does the case of ASCII letters, and an underscore counts as a
    /// hyphen. From what is left, subtags are taken away at the end until it is a name: `de-DE` becomes `de`. `C` and
    /// `POSIX` are the locale en-US-POSIX.
    ///
    /// [`Digits::of_tag`](crate::Digits::of_tag) returns the digits that a tag names, as `fa-u-nu-arabext`. Where it
    /// returns an error, as of `fa-u-nu-roman`, there is no locale for the tag either.
    ///
    /// ```
    /// use num_format::Locale;
    ///
    /// assert_eq!(Locale::lookup("de_DE.UTF-8"), Some(Locale::de));
    /// assert_eq!(Locale::lookup("zh-hant-TW"), Some(Locale::zh_Hant));
    /// assert_eq!(Locale::lookup("english"), None);
    /// assert_eq!(Locale::lookup("fa-u-nu-roman"), None);
    /// ```
    pub fn lookup<S: AsRef<str>>(tag: S) -> Option<Locale> {
        let name = Text::<MAX_LEN>::of_lookup(tag.as_ref())?;
        Locale::from_name(name.as_str()).ok()
    }

    /// Returns the decimal mark.
    pub fn decimal(&self) -> &'static str {
        self.row().decimal.into_str()
    }

    /// Returns where separators are put between digits.
    pub fn grouping(&self) -> Grouping {
        self.row().grouping
    }

    /// Returns the text for infinity.
    pub fn infinity(&self) -> &'static str {
        self.row().infinity.into_str()
    }

    /// Returns the minus sign.
    pub fn minus_sign(&self) -> &'static str {
        self.row().minus_sign.into_str()
    }

    /// Returns the name, with hyphens.
    pub fn name(&self) -> &'static str {
        NAMES[*self as usize]
    }

    /// Returns the text for a value that is not a number.
    pub fn nan(&self) -> &'static str {
        self.row().nan.into_str()
    }

    /// Returns the plus sign.
    pub fn plus_sign(&self) -> &'static str {
        self.row().plus_sign.into_str()
    }

    /// Returns the separator between groups of digits.
    pub fn separator(&self) -> &'static str {
        self.row().separator.into_str()
    }

    #[inline]
    fn row(&self) -> &'static Row {
        &table::ROWS[*self as usize]
    }
}

impl Format for Locale {
    #[inline]
    fn decimal(&self) -> DecimalStr<'_> {
        self.row().decimal
    }

    #[inline]
    fn grouping(&self) -> Grouping {
        self.row().grouping
    }

    #[inline]
    fn infinity(&self) -> InfinityStr<'_> {
        self.row().infinity
    }

    #[inline]
    fn minus_sign(&self) -> MinusSignStr<'_> {
        self.row().minus_sign
    }

    #[inline]
    fn nan(&self) -> NanStr<'_> {
        self.row().nan
    }

    #[inline]
    fn plus_sign(&self) -> PlusSignStr<'_> {
        self.row().plus_sign
    }

    #[inline]
    fn separator(&self) -> SeparatorStr<'_> {
        self.row().separator
    }

    #[inline]
    fn raw(&self) -> Option<RawFormat> {
        Some(self.row().raw)
    }
}

impl FromStr for Locale {
    type Err = Error;

    fn from_str(s: &str) -> Result<Locale, Error> {
        Locale::from_name(s)
    }
}

#[cfg(test)]
mod tests {
    use std::format;

    use super::{table, Locale, RawFormat, Text, MAX_LEN, NAMES};

    #[test]
    fn the_table_is_that_of_the_library() {
        for (place, (row, known)) in table::ROWS.iter().zip(NAMES).enumerate() {
            assert_eq!((row.locale as usize, row.locale.name()), (place, known));
            let mut name = Text::<MAX_LEN>::new();
            name.print_name(place);
            assert_eq!(name.as_str(), known);
            let raw = RawFormat::with_decimal_mark(&row.locale);
            assert_eq!(RawFormat::of_locale(known), Some(raw), "{known}");
        }
    }

    #[test]
    fn the_library_knows_the_same_names() {
        for name in NAMES {
            for text in [
                name.replace('-', "_"),
                name.replacen('-', "_", 1),
                name.to_lowercase(),
                name.to_uppercase(),
                name[1..].into(),
                name[..name.len() - 1].into(),
                format!("{name}-"),
                format!("{name}_US"),
            ] {
                let is_known = RawFormat::of_locale(&text).is_some();
                assert_eq!(Locale::from_name(&text).is_ok(), is_known, "{text}");
            }
        }
    }
}
