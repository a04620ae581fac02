//! The texts of a format: borrowed ones of bounded length, and owned ones in place.

use core::fmt;
use core::hash::{Hash, Hasher};
use core::ops::Deref;

use crate::error::Error;
use crate::ffi::Text;

const MAX_DEC_LEN: usize = 8;
const MAX_INF_LEN: usize = 128;
const MAX_MIN_LEN: usize = 8;
const MAX_NAN_LEN: usize = 64;
const MAX_PLUS_LEN: usize = 8;
const MAX_SEP_LEN: usize = 8;

/// Defines a borrowed text of bounded length, and its owned form with the name that `Debug` shows.
macro_rules! define_text {
    ($(#[$doc:meta])* $borrowed:ident, $owned:ident, $max_len:ident) => {
        $(#[$doc])*
        #[derive(Clone, Copy, PartialEq, Eq, PartialOrd, Ord, Hash)]
        pub struct $borrowed<'a>(&'a str);

        impl<'a> $borrowed<'a> {
            /// Returns the text, or an error of kind [`Capacity`](crate::ErrorKind::Capacity) if it is too long.
            #[inline]
            pub fn new(s: &'a str) -> Result<$borrowed<'a>, Error> {
                if s.len() > $max_len {
                    return Err(Error::capacity(s.len(), $max_len));
                }
                Ok($borrowed(s))
            }

            /// Returns the text, which is known to be short where the program is compiled.
            pub(crate) const fn constant(s: &'a str) -> $borrowed<'a> {
                assert!(s.len() <= $max_len);
                $borrowed(s)
            }

            /// Returns the text.
            #[inline]
            pub fn into_str(self) -> &'a str {
                self.0
            }
        }

        impl AsRef<str> for $borrowed<'_> {
            fn as_ref(&self) -> &str {
                self.0
            }
        }

        impl fmt::Debug for $borrowed<'_> {
            fn fmt(&self, f: &mut fmt::Formatter<'_>) -> fmt::Result {
                write!(f, "{:?}", self.0)
            }
        }

        impl fmt::Display for $borrowed<'_> {
            fn fmt(&self, f: &mut fmt::Formatter<'_>) -> fmt::Result {
                f.write_str(self.0)
            }
        }

        #[derive(Clone, Debug, PartialEq, Eq, Hash)]
        #[cfg_attr(
            feature = "with-serde",
            derive(serde::Serialize, serde::Deserialize),
            serde(transparent)
        )]
        pub(crate) struct $owned(pub(crate) Inline<$max_len>);

        impl $owned {
            pub(crate) fn new<S: AsRef<str>>(s: S) -> Result<$owned, Error> {
                Inline::new(s.as_ref()).map($owned)
            }

            #[inline]
            pub(crate) fn as_borrowed(&self) -> $borrowed<'_> {
                $borrowed(&self.0)
            }
        }

        impl Deref for $owned {
            type Target = str;

            fn deref(&self) -> &str {
                &self.0
            }
        }

        impl From<$borrowed<'_>> for $owned {
            fn from(s: $borrowed<'_>) -> $owned {
                $owned(Inline::new(s.0).expect("both have the same bound"))
            }
        }
    };
}

define_text! {
    /// A decimal mark: a text of at most 8 bytes.
    DecimalStr, DecString, MAX_DEC_LEN
}
define_text! {
    /// A text for infinity, of at most 128 bytes.
    InfinityStr, InfString, MAX_INF_LEN
}
define_text! {
    /// A minus sign: a text of at most 8 bytes.
    MinusSignStr, MinString, MAX_MIN_LEN
}
define_text! {
    /// A text for a value that is not a number, of at most 64 bytes.
    NanStr, NanString, MAX_NAN_LEN
}
define_text! {
    /// A plus sign: a text of at most 8 bytes.
    PlusSignStr, PlusString, MAX_PLUS_LEN
}
define_text! {
    /// A separator between groups of digits: a text of at most 8 bytes.
    SeparatorStr, SepString, MAX_SEP_LEN
}

/// A text of at most `N` bytes, in place. It is compared, hashed and shown as its `str`.
#[derive(Clone)]
pub(crate) struct Inline<const N: usize>(pub(crate) Text<N>);

impl<const N: usize> Inline<N> {
    fn new(s: &str) -> Result<Self, Error> {
        Text::copied(s).map(Inline).ok_or_else(|| Error::capacity(s.len(), N))
    }
}

impl<const N: usize> Deref for Inline<N> {
    type Target = str;

    #[inline]
    fn deref(&self) -> &str {
        self.0.as_str()
    }
}

impl<const N: usize> PartialEq for Inline<N> {
    fn eq(&self, other: &Self) -> bool {
        **self == **other
    }
}

impl<const N: usize> Eq for Inline<N> {}

impl<const N: usize> Hash for Inline<N> {
    fn hash<H: Hasher>(&self, state: &mut H) {
        (**self).hash(state);
    }
}

impl<const N: usize> fmt::Debug for Inline<N> {
    fn fmt(&self, f: &mut fmt::Formatter<'_>) -> fmt::Result {
        fmt::Debug::fmt(&**self, f)
    }
}

/// The text that an error keeps, without std: of a longer one, the longest prefix of whole characters within
/// 256 bytes.
#[cfg(not(feature = "std"))]
#[derive(Clone, Debug, PartialEq, Eq, Hash)]
#[cfg_attr(feature = "with-serde", derive(serde::Serialize, serde::Deserialize), serde(transparent))]
pub struct ErrString(Inline<256>);

#[cfg(not(feature = "std"))]
impl ErrString {
    /// Returns the text.
    pub fn as_str(&self) -> &str {
        &self.0
    }
}

#[cfg(not(feature = "std"))]
impl From<&str> for ErrString {
    fn from(s: &str) -> ErrString {
        let ends = s.char_indices().map(|(start, c)| start + c.len_utf8());
        let end = ends.take_while(|end| *end <= 256).last().unwrap_or(0);
        ErrString(Inline::new(&s[..end]).expect("a prefix within the bound"))
    }
}

#[cfg(not(feature = "std"))]
impl Deref for ErrString {
    type Target = str;

    fn deref(&self) -> &str {
        &self.0
    }
}

#[cfg(not(feature = "std"))]
impl fmt::Display for ErrString {
    fn fmt(&self, f: &mut fmt::Formatter<'_>) -> fmt::Result {
        f.write_str(&self.0)
    }
}

#[cfg(feature = "with-serde")]
mod serialization {
    use core::fmt;

    use serde::de::{self, Deserialize, Deserializer};
    use serde::ser::{Serialize, Serializer};

    use super::Inline;

    impl<const N: usize> Serialize for Inline<N> {
        fn serialize<S: Serializer>(&self, serializer: S) -> Result<S::Ok, S::Error> {
            serializer.serialize_str(self)
        }
    }

    impl<'de, const N: usize> Deserialize<'de> for Inline<N> {
        fn deserialize<D: Deserializer<'de>>(deserializer: D) -> Result<Self, D::Error> {
            deserializer.deserialize_str(InlineVisitor)
        }
    }

    struct InlineVisitor<const N: usize>;

    impl<const N: usize> de::Visitor<'_> for InlineVisitor<N> {
        type Value = Inline<N>;

        fn expecting(&self, f: &mut fmt::Formatter<'_>) -> fmt::Result {
            write!(f, "a string containing at most {N} bytes")
        }

        fn visit_str<E: de::Error>(self, s: &str) -> Result<Inline<N>, E> {
            Inline::new(s).map_err(|_| de::Error::invalid_value(de::Unexpected::Str(s), &self))
        }
    }
}
