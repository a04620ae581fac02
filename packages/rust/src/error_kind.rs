use core::fmt;

/// A text that an error keeps: whole.
#[cfg(feature = "std")]
type Kept = String;

/// A text that an error keeps: within 256 bytes.
#[cfg(not(feature = "std"))]
type Kept = crate::strings::ErrString;

/// Why an input was refused.
#[derive(Clone, Debug, PartialEq, Eq, Hash)]
#[cfg_attr(feature = "with-serde", derive(serde::Serialize, serde::Deserialize))]
pub enum ErrorKind {
    /// The text has more bytes than fit.
    Capacity {
        /// The length of the text in bytes.
        len: usize,
        /// The capacity in bytes.
        cap: usize,
    },
    /// None of the others. The message says why.
    Other(Kept),
    /// The text is the name of no locale. [`Locale::lookup`](crate::Locale::lookup) finds one for a language tag, such as
    /// `de_DE.UTF-8` or `EN`.
    ParseLocale(Kept),
    /// The text is no number of the type that was asked for.
    ParseNumber(Kept),
}

impl fmt::Display for ErrorKind {
    fn fmt(&self, f: &mut fmt::Formatter<'_>) -> fmt::Result {
        match self {
            ErrorKind::Capacity { len, cap } => {
                write!(f, "Attempted to write input of length {len} bytes into a buffer with capacity {cap} bytes.")
            }
            ErrorKind::Other(message) => f.write_str(message),
            ErrorKind::ParseLocale(input) => {
                write!(f, "Failed to parse {input} into a valid locale.")
            }
            ErrorKind::ParseNumber(input) => write!(f, "Failed to parse {input} into a number."),
        }
    }
}
