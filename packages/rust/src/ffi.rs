//! The calls of the proved library. No other module has `unsafe`.
//!
//! The library's contracts hold for any bytes of a struct and of a text. What a caller must ensure, and each
//! call below does: that pointers point to as many bytes as the lengths beside them say, and that nothing else
//! reads or writes what a call writes. All of them come from references that live through the call.

#![allow(unsafe_code)]

use core::cmp::Ordering;
use core::ffi::c_void;
use core::mem::{self, MaybeUninit};
use core::{slice, str};

use crate::decimal::{DecimalError, Rounding};
use crate::format::Format;
use crate::grouping::Grouping;

/// The most bytes of the text of a number, under any format: `NUM_FORMAT_MAX` of the header.
pub(crate) const MAX_LEN: usize = 191;

/// The most bytes of the text of a decimal, under any format: `NUM_FORMAT_DECIMAL_MAX` of the header.
pub(crate) const MAX_DECIMAL_LEN: usize = 199;

/// The most bytes of the text of a number or a decimal in any digit set: `NUM_FORMAT_DIGITS_MAX` of the header.
pub(crate) const MAX_DIGITS_LEN: usize = 796;

/// The statuses of the header that parsing, looking up and arithmetic return. No other is returned for a struct that
/// has a format, a `str` and a number of bits that a type has.
mod status {
    pub(super) const OK: i32 = 0;
    pub(super) const NOT_A_NUMBER: i32 = -4;
    pub(super) const UNKNOWN_LOCALE: i32 = -5;
    pub(super) const UNEXPECTED: i32 = -9;
    pub(super) const NO_DIGIT: i32 = -10;
    pub(super) const MISSPELLED: i32 = -11;
    pub(super) const OUT_OF_RANGE: i32 = -12;
    pub(super) const BAD_SCALE: i32 = -13;
    pub(super) const TOO_MANY_DECIMALS: i32 = -14;
    pub(super) const DIGITS_LOST: i32 = -18;
    pub(super) const AMBIGUOUS_FORMAT: i32 = -19;
    pub(super) const TEXT_TOO_LONG: i32 = -21;
    pub(super) const UNKNOWN_DIGITS: i32 = -22;
    pub(super) const OTHER_NUMERAL: i32 = -23;
}

/// A status that the proved library does not return.
const OTHER_LIBRARY: &str = "the library that is linked is not the proved one";

/// The struct `num_format` of the header: what the library needs of a format.
#[repr(C)]
#[derive(Clone, Copy, Debug, Default, PartialEq, Eq)]
pub struct RawFormat {
    separator: [u8; 8],
    minus_sign: [u8; 8],
    decimal_mark: [u8; 8],
    separator_length: u8,
    minus_sign_length: u8,
    decimal_mark_length: u8,
    grouping: u8,
    digits: u8,
    reserved: [u8; 3],
}

extern "C" {
    #[cfg(test)]
    fn num_format_custom_decimal(
        format: *mut RawFormat,
        separator: *const u8,
        separator_length: usize,
        grouping: u32,
        minus_sign: *const u8,
        minus_sign_length: usize,
        decimal_mark: *const u8,
        decimal_mark_length: usize,
    ) -> i32;
    #[cfg(test)]
    fn num_format_locale(format: *mut RawFormat, name: *const u8, length: usize) -> i32;
    #[cfg(test)]
    fn num_format_names(place: usize, name: *mut u8, capacity: usize) -> i32;
    fn num_format_lookup(format: *mut RawFormat, tag: *const u8, length: usize) -> i32;
    fn num_format_set_digits(format: *mut RawFormat, name: *const u8, length: usize) -> i32;
    fn num_format_lookup_name(tag: *const u8, tag_length: usize, name: *mut u8, capacity: usize) -> i32;
    fn num_format_print_decimal(
        format: *const RawFormat,
        low: u64,
        high: u64,
        scale: u32,
        text: *mut u8,
        capacity: usize,
    ) -> i32;
    fn num_format_parse_decimal(
        format: *const RawFormat,
        text: *const u8,
        length: usize,
        low: *mut u64,
        high: *mut u64,
        scale: *mut u32,
        at: *mut usize,
    ) -> i32;
    fn num_format_parse_typed(
        format: *const RawFormat,
        type_of: u32,
        text: *const u8,
        length: usize,
        value: *mut c_void,
        value_size: usize,
        at: *mut usize,
    ) -> i32;
    fn num_format_parse_typed_decimal(
        format: *const RawFormat,
        text: *const u8,
        length: usize,
        low: *mut u64,
        high: *mut u64,
        scale: *mut u32,
        at: *mut usize,
    ) -> i32;
    fn num_format_decimal_add(
        low: *mut u64,
        high: *mut u64,
        scale: *mut u32,
        other_low: u64,
        other_high: u64,
        other_scale: u32,
    ) -> i32;
    fn num_format_decimal_subtract(
        low: *mut u64,
        high: *mut u64,
        scale: *mut u32,
        other_low: u64,
        other_high: u64,
        other_scale: u32,
    ) -> i32;
    fn num_format_decimal_rescale(low: *mut u64, high: *mut u64, scale: *mut u32, new_scale: u32, rounding: u32)
        -> i32;
    fn num_format_decimal_compare(
        low: u64,
        high: u64,
        scale: u32,
        other_low: u64,
        other_high: u64,
        other_scale: u32,
        order: *mut i32,
    ) -> i32;
    fn num_format_text_width(text: *const u8, length: usize) -> usize;
    fn num_format_reads_back(format: *const RawFormat) -> i32;
    fn num_format_prints_alike(first: *const RawFormat, second: *const RawFormat) -> i32;
}

impl RawFormat {
    /// The format of plain texts, such as `-1234.50`.
    pub(crate) const PLAIN: RawFormat = RawFormat::new("", Grouping::Posix, "-", ".");

    /// Returns the format of these texts, each of at most 8 bytes, without a call: the bytes are those that
    /// `num_format_custom_decimal` writes, and each call that is given them tests them.
    #[inline]
    pub(crate) const fn new(separator: &str, grouping: Grouping, minus_sign: &str, decimal_mark: &str) -> RawFormat {
        RawFormat {
            separator: padded(separator),
            minus_sign: padded(minus_sign),
            decimal_mark: padded(decimal_mark),
            separator_length: separator.len() as u8,
            minus_sign_length: minus_sign.len() as u8,
            decimal_mark_length: decimal_mark.len() as u8,
            grouping: code(grouping),
            digits: 0,
            reserved: [0; 3],
        }
    }

    /// Returns the format of these texts, whose bytes are padded already.
    #[inline]
    pub(crate) fn of_texts(
        separator: &Text<8>,
        grouping: Grouping,
        minus_sign: &Text<8>,
        decimal_mark: &Text<8>,
    ) -> RawFormat {
        RawFormat {
            separator: separator.bytes,
            minus_sign: minus_sign.bytes,
            decimal_mark: decimal_mark.bytes,
            separator_length: separator.len as u8,
            minus_sign_length: minus_sign.len as u8,
            decimal_mark_length: decimal_mark.len as u8,
            grouping: code(grouping),
            digits: 0,
            reserved: [0; 3],
        }
    }

    /// Returns what whole numbers need of a format. The decimal mark of one that is not of this crate is not asked for.
    #[inline]
    pub(crate) fn of<F: Format>(format: &F) -> RawFormat {
        format.raw().unwrap_or_else(|| {
            let separator = format.separator().into_str();
            let minus_sign = format.minus_sign().into_str();
            RawFormat::new(separator, format.grouping(), minus_sign, ".")
        })
    }

    /// Returns what decimals need of a format.
    #[inline]
    pub(crate) fn with_decimal_mark<F: Format>(format: &F) -> RawFormat {
        format.raw().unwrap_or_else(|| {
            let separator = format.separator().into_str();
            let minus_sign = format.minus_sign().into_str();
            RawFormat::new(separator, format.grouping(), minus_sign, format.decimal().into_str())
        })
    }

    /// Returns the format that the library makes of these.
    #[cfg(test)]
    fn by_library<F: Format>(format: &F) -> RawFormat {
        let separator = format.separator().into_str();
        let minus_sign = format.minus_sign().into_str();
        let decimal_mark = format.decimal().into_str();
        let mut raw = RawFormat::default();
        // SAFETY: each pointer and length are those of one `str`, and `raw` is this function's own.
        let status = unsafe {
            num_format_custom_decimal(
                &mut raw,
                separator.as_ptr(),
                separator.len(),
                u32::from(code(format.grouping())),
                minus_sign.as_ptr(),
                minus_sign.len(),
                decimal_mark.as_ptr(),
                decimal_mark.len(),
            )
        };
        assert_eq!(status, status::OK);
        raw
    }

    /// Returns the format that the library has for the locale of this name.
    #[cfg(test)]
    pub(crate) fn of_locale(name: &str) -> Option<RawFormat> {
        let mut raw = RawFormat::default();
        // SAFETY: the pointer and the length are those of one `str`, and `raw` is this function's own.
        let status = unsafe { num_format_locale(&mut raw, name.as_ptr(), name.len()) };
        (status == status::OK).then_some(raw)
    }

    /// Returns the same format in the digits of a set.
    #[inline]
    pub(crate) fn in_digits(self, digits: u8) -> RawFormat {
        RawFormat { digits, ..self }
    }

    /// Returns whether every number, printed under the format, parses as the same number again.
    pub(crate) fn reads_back(&self) -> bool {
        // SAFETY: the pointer is that of a reference.
        unsafe { num_format_reads_back(self) == 1 }
    }

    /// Returns whether each number has the same text under both formats.
    pub(crate) fn prints_alike(&self, other: &RawFormat) -> bool {
        // SAFETY: the pointers are those of references.
        unsafe { num_format_prints_alike(self, other) == 1 }
    }
}

/// Returns the constant of the header for a grouping.
#[inline]
const fn code(grouping: Grouping) -> u8 {
    match grouping {
        Grouping::Standard => 1,
        Grouping::Indian => 2,
        Grouping::Posix => 3,
        #[cfg(feature = "with-more-groupings")]
        Grouping::Myriad => 4,
        #[cfg(feature = "with-more-groupings")]
        Grouping::Sparse => 5,
    }
}

/// Returns the bytes of a text of at most 8 bytes, with zeros after them.
#[inline]
const fn padded(text: &str) -> [u8; 8] {
    let text = text.as_bytes();
    let mut bytes = [0; 8];
    let mut i = 0;
    while i < text.len() {
        bytes[i] = text[i];
        i += 1;
    }
    bytes
}

/// Returns the number of the digit set that a call writes into a struct, or `None` if it finds none.
fn digits_by(call: unsafe extern "C" fn(*mut RawFormat, *const u8, usize) -> i32, text: &str) -> Option<u8> {
    let mut raw = RawFormat::default();
    // SAFETY: the pointer and the length are those of one `str`, and `raw` is this function's own.
    match unsafe { call(&mut raw, text.as_ptr(), text.len()) } {
        status::OK => Some(raw.digits),
        status::UNKNOWN_DIGITS | status::UNKNOWN_LOCALE => None,
        _ => panic!("{OTHER_LIBRARY}"),
    }
}

/// Returns the number of the digit set of a name.
pub(crate) fn digits_of_name(name: &str) -> Option<u8> {
    digits_by(num_format_set_digits, name)
}

/// Returns the number of the digit set that the tag of a locale names.
pub(crate) fn digits_of_tag(tag: &str) -> Option<u8> {
    digits_by(num_format_lookup, tag)
}

/// Returns how many columns a text takes.
pub(crate) fn text_width(text: &str) -> usize {
    // SAFETY: the pointer and the length are those of one `str`.
    unsafe { num_format_text_width(text.as_ptr(), text.len()) }
}

/// What the library prints.
pub(crate) trait Print {
    /// Writes the text at the start of an array, and returns its length, or a negative number if it is longer than the
    /// capacity.
    ///
    /// # Safety
    ///
    /// The pointer is that of an array of as many bytes as the capacity.
    unsafe fn print(self, format: &RawFormat, text: *mut u8, capacity: usize) -> i32;
}

/// The units and the scale of a decimal. The scale is at most 38.
impl Print for (i128, u8) {
    #[inline]
    unsafe fn print(self, format: &RawFormat, text: *mut u8, capacity: usize) -> i32 {
        let (low, high) = halves(self.0 as u128);
        // SAFETY: the caller ensures it.
        unsafe { num_format_print_decimal(format, low, high, u32::from(self.1), text, capacity) }
    }
}

/// Calls a function with the text of a number, which has at most `MAX_DIGITS_LEN` bytes.
#[inline]
pub(crate) fn with_text<P: Print, R>(number: P, format: &RawFormat, then: impl FnOnce(&str) -> R) -> R {
    let mut bytes = MaybeUninit::<[u8; MAX_DIGITS_LEN]>::uninit();
    let start = bytes.as_mut_ptr().cast::<u8>();
    // SAFETY: the array has as many bytes.
    let len = length(unsafe { number.print(format, start, MAX_DIGITS_LEN) });
    // SAFETY: the library has written these bytes, which are UTF-8 as it is proved.
    then(unsafe { str::from_utf8_unchecked(slice::from_raw_parts(start, len)) })
}

/// Returns the length of a text that fits, for which no call fails.
#[inline]
fn length(status: i32) -> usize {
    usize::try_from(status).expect(OTHER_LIBRARY)
}

/// A text of at most `N` bytes, in place: a copy of a `str`, or what the library printed. Its bytes are UTF-8. Those
/// after a copy are zeros.
#[derive(Clone, Copy)]
pub(crate) struct Text<const N: usize> {
    bytes: [u8; N],
    len: usize,
}

impl<const N: usize> Text<N> {
    /// Returns the empty text.
    #[inline]
    pub(crate) const fn new() -> Self {
        Text { bytes: [0; N], len: 0 }
    }

    /// Returns a copy of a text, or `None` if it has more than `N` bytes.
    #[inline]
    pub(crate) fn copied(text: &str) -> Option<Self> {
        let mut copy = Text::new();
        copy.bytes.get_mut(..text.len())?.copy_from_slice(text.as_bytes());
        copy.len = text.len();
        Some(copy)
    }

    #[inline]
    pub(crate) fn as_str(&self) -> &str {
        // SAFETY: these bytes are those of a `str`, or those that the library wrote, which are UTF-8 as it is
        // proved.
        unsafe { str::from_utf8_unchecked(&self.bytes[..self.len]) }
    }

    /// Becomes the text of a number, and returns its length.
    #[inline]
    pub(crate) fn print<P: Print>(&mut self, number: P, format: &RawFormat) -> usize {
        // SAFETY: the array has as many bytes.
        self.len = length(unsafe { number.print(format, self.bytes.as_mut_ptr(), N) });
        self.len
    }

    /// Becomes the name that the library has for the locale at a place.
    #[cfg(test)]
    pub(crate) fn print_name(&mut self, place: usize) {
        // SAFETY: the array has as many bytes.
        self.len = length(unsafe { num_format_names(place, self.bytes.as_mut_ptr(), N) });
    }

    /// Returns the name that the library has for the locale of a tag, if it has one, and the digits that the tag names.
    pub(crate) fn of_lookup(tag: &str) -> Option<Self> {
        let mut name = Text::new();
        // SAFETY: the pointers and lengths are those of one `str` and of one array.
        let status = unsafe { num_format_lookup_name(tag.as_ptr(), tag.len(), name.bytes.as_mut_ptr(), N) };
        if matches!(status, status::UNKNOWN_LOCALE | status::UNKNOWN_DIGITS) {
            return None;
        }
        name.len = length(status);
        Some(name)
    }
}

/// Why strict parsing refuses a text.
#[derive(Clone, Copy, Debug, PartialEq, Eq)]
pub enum Refusal {
    AmbiguousFormat,
    OtherNumeral { at: usize },
    Unexpected { at: usize },
    NoDigit,
    TooManyDecimals,
    Misspelled,
    OutOfRange,
    TextTooLong,
}

/// Returns whether a call that parses leniently wrote a number, by its status.
#[inline]
fn is_parsed(status: i32) -> bool {
    match status {
        status::OK => true,
        status::NOT_A_NUMBER => false,
        _ => panic!("{OTHER_LIBRARY}"),
    }
}

/// Returns whether a call that parses strictly wrote a number, by its status, or what it refused and the place
/// that it wrote.
#[inline]
fn checked(status: i32, at: usize) -> Result<(), Refusal> {
    match status {
        status::OK => Ok(()),
        status::AMBIGUOUS_FORMAT => Err(Refusal::AmbiguousFormat),
        status::OTHER_NUMERAL => Err(Refusal::OtherNumeral { at }),
        status::UNEXPECTED => Err(Refusal::Unexpected { at }),
        status::NO_DIGIT => Err(Refusal::NoDigit),
        status::TOO_MANY_DECIMALS => Err(Refusal::TooManyDecimals),
        status::MISSPELLED => Err(Refusal::Misspelled),
        status::OUT_OF_RANGE => Err(Refusal::OutOfRange),
        status::TEXT_TOO_LONG => Err(Refusal::TextTooLong),
        _ => panic!("{OTHER_LIBRARY}"),
    }
}

/// A type of number that the library has calls for. Numbers of fewer bits are converted to it and from it.
pub(crate) trait Number: Print + Sized {
    /// Returns the number of at most `bits` bits that the digits and the sign of the text denote.
    fn parse(bits: u32, text: &str, format: &RawFormat) -> Option<Self>;

    /// Returns the number of at most `bits` bits for which the text is canonical.
    fn parse_strict(bits: u32, text: &str, format: &RawFormat) -> Result<Self, Refusal>;
}

macro_rules! impl_number {
    ($type:ty, $print:ident, $parse:ident, $parse_strict:ident) => {
        extern "C" {
            fn $print(format: *const RawFormat, number: $type, text: *mut u8, capacity: usize) -> i32;
            fn $parse(format: *const RawFormat, bits: u32, text: *const u8, length: usize, number: *mut $type) -> i32;
            fn $parse_strict(
                format: *const RawFormat,
                bits: u32,
                text: *const u8,
                length: usize,
                number: *mut $type,
                at: *mut usize,
            ) -> i32;
        }

        impl Print for $type {
            #[inline]
            unsafe fn print(self, format: &RawFormat, text: *mut u8, capacity: usize) -> i32 {
                // SAFETY: the caller ensures it.
                unsafe { $print(format, self, text, capacity) }
            }
        }

        impl Number for $type {
            #[inline]
            fn parse(bits: u32, text: &str, format: &RawFormat) -> Option<Self> {
                let mut number = 0;
                // SAFETY: the pointers are those of a `str` and of references.
                let status = unsafe { $parse(format, bits, text.as_ptr(), text.len(), &mut number) };
                is_parsed(status).then_some(number)
            }

            #[inline]
            fn parse_strict(bits: u32, text: &str, format: &RawFormat) -> Result<Self, Refusal> {
                let (mut number, mut at) = (0, 0);
                // SAFETY: the pointers are those of a `str` and of references.
                let status = unsafe { $parse_strict(format, bits, text.as_ptr(), text.len(), &mut number, &mut at) };
                checked(status, at).map(|()| number)
            }
        }
    };
}

impl_number!(i64, num_format_print_i64, num_format_parse_i64, num_format_parse_strict_i64);
impl_number!(u64, num_format_print_u64, num_format_parse_u64, num_format_parse_strict_u64);

/// Numbers of 128 bits are given and returned by their halves.
macro_rules! impl_wide_number {
    ($type:ty, $print:ident, $parse:ident, $parse_strict:ident) => {
        extern "C" {
            fn $print(format: *const RawFormat, low: u64, high: u64, text: *mut u8, capacity: usize) -> i32;
            fn $parse(format: *const RawFormat, text: *const u8, length: usize, low: *mut u64, high: *mut u64) -> i32;
            fn $parse_strict(
                format: *const RawFormat,
                text: *const u8,
                length: usize,
                low: *mut u64,
                high: *mut u64,
                at: *mut usize,
            ) -> i32;
        }

        impl Print for $type {
            #[inline]
            unsafe fn print(self, format: &RawFormat, text: *mut u8, capacity: usize) -> i32 {
                let (low, high) = halves(self as u128);
                // SAFETY: the caller ensures it.
                unsafe { $print(format, low, high, text, capacity) }
            }
        }

        impl Number for $type {
            #[inline]
            fn parse(_: u32, text: &str, format: &RawFormat) -> Option<Self> {
                let (mut low, mut high) = (0, 0);
                // SAFETY: the pointers are those of a `str` and of references.
                let status = unsafe { $parse(format, text.as_ptr(), text.len(), &mut low, &mut high) };
                is_parsed(status).then(|| whole(low, high) as $type)
            }

            #[inline]
            fn parse_strict(_: u32, text: &str, format: &RawFormat) -> Result<Self, Refusal> {
                let (mut low, mut high, mut at) = (0, 0, 0);
                // SAFETY: the pointers are those of a `str` and of references.
                let status = unsafe { $parse_strict(format, text.as_ptr(), text.len(), &mut low, &mut high, &mut at) };
                checked(status, at).map(|()| whole(low, high) as $type)
            }
        }
    };
}

impl_wide_number!(i128, num_format_print_i128, num_format_parse_i128, num_format_parse_strict_i128);
impl_wide_number!(u128, num_format_print_u128, num_format_parse_u128, num_format_parse_strict_u128);

/// A call of the library that parses a decimal.
type ParseDecimalCall =
    unsafe extern "C" fn(*const RawFormat, *const u8, usize, *mut u64, *mut u64, *mut u32, *mut usize) -> i32;

/// Returns the units and the scale of the decimal that a call finds in a text.
fn parse_decimal_by(call: ParseDecimalCall, text: &str, format: &RawFormat) -> Result<(i128, u8), Refusal> {
    let (mut low, mut high, mut scale, mut at) = (0, 0, 0, 0);
    // SAFETY: the pointers are those of a `str` and of references.
    let status = unsafe { call(format, text.as_ptr(), text.len(), &mut low, &mut high, &mut scale, &mut at) };
    // A scale is at most 38.
    checked(status, at).map(|()| (whole(low, high) as i128, scale as u8))
}

/// Returns the units and the scale of the decimal for which the text is canonical.
pub(crate) fn parse_decimal(text: &str, format: &RawFormat) -> Result<(i128, u8), Refusal> {
    parse_decimal_by(num_format_parse_decimal, text, format)
}

/// The same of a text as a person types it.
pub(crate) fn parse_typed_decimal(text: &str, format: &RawFormat) -> Result<(i128, u8), Refusal> {
    parse_decimal_by(num_format_parse_typed_decimal, text, format)
}

/// Returns the units and the scale of what a call writes in the place of a decimal.
fn computed(
    (units, scale): (i128, u8),
    call: impl FnOnce(&mut u64, &mut u64, &mut u32) -> i32,
) -> Result<(i128, u8), DecimalError> {
    let ((mut low, mut high), mut scale) = (halves(units as u128), scale.into());
    match call(&mut low, &mut high, &mut scale) {
        // A scale is at most 38.
        status::OK => Ok((whole(low, high) as i128, scale as u8)),
        status::BAD_SCALE => Err(DecimalError::ScaleTooLarge),
        status::DIGITS_LOST => Err(DecimalError::DigitsLost),
        status::OUT_OF_RANGE => Err(DecimalError::OutOfRange),
        _ => panic!("{OTHER_LIBRARY}"),
    }
}

/// A call of the library that adds a decimal to another one, or subtracts it.
type SumCall = unsafe extern "C" fn(*mut u64, *mut u64, *mut u32, u64, u64, u32) -> i32;

/// Returns the units and the scale of the sum or difference that a call makes of two decimals.
fn sum_by(call: SumCall, number: (i128, u8), (units, scale): (i128, u8)) -> Result<(i128, u8), DecimalError> {
    let (other_low, other_high) = halves(units as u128);
    // SAFETY: the pointers are those of references.
    computed(number, |low, high, sum_scale| unsafe { call(low, high, sum_scale, other_low, other_high, scale.into()) })
}

/// Returns the sum of two decimals, each by its units and its scale, at the larger of both scales.
pub(crate) fn add(number: (i128, u8), other: (i128, u8)) -> Result<(i128, u8), DecimalError> {
    sum_by(num_format_decimal_add, number, other)
}

/// The same of the difference.
pub(crate) fn subtract(number: (i128, u8), other: (i128, u8)) -> Result<(i128, u8), DecimalError> {
    sum_by(num_format_decimal_subtract, number, other)
}

/// Returns the decimal of these units and this scale at another scale.
pub(crate) fn rescale(number: (i128, u8), new_scale: u8, rounding: Rounding) -> Result<(i128, u8), DecimalError> {
    computed(number, |low, high, scale| {
        // SAFETY: the pointers are those of references.
        unsafe { num_format_decimal_rescale(low, high, scale, new_scale.into(), rounding as u32) }
    })
}

/// Returns the order of two decimals, each by its units and its scale, which is at most 38.
pub(crate) fn compare(number: (i128, u8), other: (i128, u8)) -> Ordering {
    let ((low, high), (other_low, other_high)) = (halves(number.0 as u128), halves(other.0 as u128));
    let mut order = 0;
    // SAFETY: the pointer is that of a reference.
    let status = unsafe {
        num_format_decimal_compare(low, high, number.1.into(), other_low, other_high, other.1.into(), &mut order)
    };
    assert!(status == status::OK, "{OTHER_LIBRARY}");
    order.cmp(&0)
}

/// An integer type, with its `num_format_type` of the header.
pub(crate) trait Integer: Default {
    const TYPE: u8;
}

macro_rules! impl_integer {
    ($($type:ident: $number:literal),*) => {$(
        impl Integer for $type {
            const TYPE: u8 = $number;
        }
    )*};
}

impl_integer!(i8: b'c', i16: b's', i32: b'i', i64: b'l', isize: b'l', i128: b'q');
impl_integer!(u8: b'C', u16: b'S', u32: b'I', u64: b'L', usize: b'L', u128: b'Q');

/// Returns the integer of a text as a person types it.
pub(crate) fn parse_typed<I: Integer>(text: &str, format: &RawFormat) -> Result<I, Refusal> {
    let (mut integer, mut at) = (I::default(), 0);
    // SAFETY: the pointers and sizes are those of a `str` and of references. The library refuses another size than that
    // of the type, and each of its bytes may be any.
    let status = unsafe {
        num_format_parse_typed(
            format,
            I::TYPE.into(),
            text.as_ptr(),
            text.len(),
            (&mut integer as *mut I).cast(),
            mem::size_of::<I>(),
            &mut at,
        )
    };
    checked(status, at).map(|()| integer)
}

/// Returns the low and the high half.
#[inline]
fn halves(number: u128) -> (u64, u64) {
    (number as u64, (number >> 64) as u64)
}

/// Returns the number of these halves.
#[inline]
fn whole(low: u64, high: u64) -> u128 {
    u128::from(high) << 64 | u128::from(low)
}

#[cfg(test)]
mod tests {
    use super::RawFormat;
    use crate::{CustomFormat, Grouping};

    #[test]
    fn formats_are_filled_as_the_library_does() {
        for grouping in [Grouping::Standard, Grouping::Indian, Grouping::Posix] {
            for text in ["", "x", "é", "€", "🙌", "abcde", "€€", "\u{200e}-\u{200e}", "abcdefgh"] {
                let builder = CustomFormat::builder().grouping(grouping);
                for builder in
                    [builder.clone().separator(text), builder.clone().minus_sign(text), builder.decimal(text)]
                {
                    let format = builder.build().unwrap();
                    let raw = RawFormat::with_decimal_mark(&format);
                    assert_eq!(raw, RawFormat::by_library(&format));
                }
            }
        }
    }

    #[cfg(feature = "with-more-groupings")]
    #[test]
    fn the_other_groupings_are_those_of_the_library() {
        for grouping in [Grouping::Myriad, Grouping::Sparse] {
            let format = CustomFormat::builder().grouping(grouping).build().unwrap();
            let raw = RawFormat::with_decimal_mark(&format);
            assert_eq!(raw, RawFormat::by_library(&format));
        }
    }
}
