//! The integer types: which number of the library each is converted to, and back.

use core::num::{NonZeroU128, NonZeroU16, NonZeroU32, NonZeroU64, NonZeroU8, NonZeroUsize};

use crate::buffer::Buffer;
use crate::error::Error;
use crate::ffi::{parse_typed, with_text, Number, RawFormat, Refusal};
use crate::format::Format;
use crate::parsing::FromFormattedStr;
use crate::sealed::Sealed;
use crate::to_formatted_str::ToFormattedStr;

macro_rules! impl_integers {
    ($($type:ident as $number:ident),*) => {$(
        impl Sealed for $type {}

        impl ToFormattedStr for $type {
            #[inline]
            fn read_to_buffer<F: Format>(&self, buf: &mut Buffer, format: &F) -> usize {
                buf.text.print(*self as $number, &RawFormat::of(format))
            }

            #[inline]
            fn with_raw_text<R>(&self, format: &RawFormat, then: impl FnOnce(&str) -> R) -> R {
                with_text(*self as $number, format, then)
            }
        }

        // The library returns a number of as many bits as it is asked for.
        impl FromFormattedStr for $type {
            #[inline]
            fn from_formatted_str<F: Format>(s: &str, format: &F) -> Result<$type, Error> {
                $number::parse($type::BITS, s, &RawFormat::of(format))
                    .map(|n| n as $type)
                    .ok_or_else(|| Error::parse_number(s))
            }

            #[inline]
            fn from_raw_str(s: &str, format: &RawFormat) -> Result<$type, Refusal> {
                let number = $number::parse_strict($type::BITS, s, format)?;
                Ok(number as $type)
            }

            fn from_raw_typed_str(s: &str, format: &RawFormat) -> Result<$type, Refusal> {
                parse_typed(s, format)
            }
        }
    )*};
}

impl_integers!(i8 as i64, i16 as i64, i32 as i64, i64 as i64, isize as i64, i128 as i128);
impl_integers!(u8 as u64, u16 as u64, u32 as u64, u64 as u64, usize as u64, u128 as u128);

macro_rules! impl_non_zero_integers {
    ($($type:ident as $integer:ident),*) => {$(
        impl Sealed for $type {}

        impl ToFormattedStr for $type {
            #[inline]
            fn read_to_buffer<F: Format>(&self, buf: &mut Buffer, format: &F) -> usize {
                self.get().read_to_buffer(buf, format)
            }

            #[inline]
            fn with_raw_text<R>(&self, format: &RawFormat, then: impl FnOnce(&str) -> R) -> R {
                self.get().with_raw_text(format, then)
            }
        }

        impl FromFormattedStr for $type {
            fn from_formatted_str<F: Format>(s: &str, format: &F) -> Result<$type, Error> {
                $type::new($integer::from_formatted_str(s, format)?)
                    .ok_or_else(|| Error::parse_number(s))
            }

            fn from_raw_str(s: &str, format: &RawFormat) -> Result<$type, Refusal> {
                $type::new($integer::from_raw_str(s, format)?).ok_or(Refusal::OutOfRange)
            }

            fn from_raw_typed_str(s: &str, format: &RawFormat) -> Result<$type, Refusal> {
                $type::new($integer::from_raw_typed_str(s, format)?).ok_or(Refusal::OutOfRange)
            }
        }
    )*};
}

impl_non_zero_integers!(
    NonZeroU8 as u8,
    NonZeroU16 as u16,
    NonZeroU32 as u32,
    NonZeroU64 as u64,
    NonZeroUsize as usize,
    NonZeroU128 as u128
);
