use core::fmt;

use crate::error_kind::ErrorKind;

/// The error of a call that refuses its input. [`kind`](Error::kind) says why.
///
/// ```
/// use num_format::{ErrorKind, Locale};
///
/// let error = Locale::from_name("xx-YY").unwrap_err();
/// assert!(matches!(error.kind(), ErrorKind::ParseLocale(name) if &**name == "xx-YY"));
/// ```
#[derive(Clone, Debug, PartialEq, Eq, Hash)]
#[cfg_attr(feature = "with-serde", derive(serde::Serialize, serde::Deserialize))]
pub struct Error {
    kind: ErrorKind,
}

impl Error {
    /// Returns an error of kind [`Other`](ErrorKind::Other) with this message.
    pub fn new<S: AsRef<str>>(message: S) -> Error {
        ErrorKind::Other(message.as_ref().into()).into()
    }

    /// Returns why the input was refused.
    pub fn kind(&self) -> &ErrorKind {
        &self.kind
    }

    pub(crate) fn capacity(len: usize, cap: usize) -> Error {
        ErrorKind::Capacity { len, cap }.into()
    }

    pub(crate) fn parse_locale(input: &str) -> Error {
        ErrorKind::ParseLocale(input.into()).into()
    }

    pub(crate) fn parse_number(input: &str) -> Error {
        ErrorKind::ParseNumber(input.into()).into()
    }
}

impl fmt::Display for Error {
    fn fmt(&self, f: &mut fmt::Formatter<'_>) -> fmt::Result {
        write!(f, "{}", self.kind)
    }
}

impl From<ErrorKind> for Error {
    fn from(kind: ErrorKind) -> Error {
        Error { kind }
    }
}

#[cfg(feature = "std")]
impl std::error::Error for Error {}
