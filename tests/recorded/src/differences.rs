//! The classes of differences between recorded results and those of the original crate.

use std::fmt;

/// The most bytes of a text that an error of the port keeps.
const MAX_KEPT: usize = 256;

/// What the original returned.
pub enum Outcome {
    /// A number, or the name of a locale.
    Found(String),
    /// An error of that kind, which keeps that many bytes of the text.
    Refused { kind: &'static str, kept: usize },
    /// It panicked. The text has that many numeric characters, a minus sign counted as one, and the
    /// type that limit.
    Panicked { numerals: usize, limit: usize },
}

impl fmt::Display for Outcome {
    fn fmt(&self, f: &mut fmt::Formatter<'_>) -> fmt::Result {
        match self {
            Outcome::Found(found) => write!(f, "ok {found}"),
            Outcome::Refused { kind, kept } => write!(f, "err {kind} {kept}"),
            Outcome::Panicked { numerals, limit } => {
                write!(f, "panic ({numerals} numerals, limit {limit})")
            }
        }
    }
}

/// Why a result differs. `docs/DIFFERENCES.md` has the name of each class, in bold.
#[derive(Clone, Copy, PartialEq, Eq, PartialOrd, Ord)]
pub enum Class {
    /// The original panics.
    TooManyNumerals,
    /// The original takes the low byte of a character's code point for a digit or a sign.
    OtherNumeral,
    /// The error is of kind `ParseLocale` in the original.
    NoValue,
    /// The original keeps the whole text.
    LongText,
}

impl Class {
    pub fn name(self) -> &'static str {
        match self {
            Class::TooManyNumerals => "more numeric characters than the limit",
            Class::OtherNumeral => "a numeric character that is no digit",
            Class::NoValue => "ParseLocale for a number",
            Class::LongText => "more than 256 bytes in an error",
        }
    }
}

/// Returns the classes to which a difference belongs: none where the results agree, and None where
/// no class explains the recorded result.
pub fn classes_of(recorded: &str, text: &str, original: &Outcome) -> Option<Vec<Class>> {
    if recorded == original.to_string() {
        return Some(Vec::new());
    }
    let (class, kind) = match original {
        Outcome::Panicked { numerals, limit } if numerals > limit => {
            (Some(Class::TooManyNumerals), "ParseNumber")
        }
        Outcome::Found(_) if has_other_numeral(text) => (Some(Class::OtherNumeral), "ParseNumber"),
        Outcome::Refused { kind, .. } if recorded.starts_with(&format!("err {kind} ")) => {
            (None, *kind)
        }
        Outcome::Refused {
            kind: "ParseLocale",
            ..
        } if has_other_numeral(text) => (Some(Class::OtherNumeral), "ParseNumber"),
        Outcome::Refused {
            kind: "ParseLocale",
            ..
        } => (Some(Class::NoValue), "ParseNumber"),
        _ => return None,
    };
    let kept = text.floor_char_boundary(MAX_KEPT);
    if recorded != format!("err {kind} {kept}") {
        return None;
    }
    let long_text = (kept < text.len()).then_some(Class::LongText);
    Some(class.into_iter().chain(long_text).collect())
}

/// Whether the text has a numeric character that is none of the digits 0 to 9.
fn has_other_numeral(text: &str) -> bool {
    text.chars().any(|c| c.is_numeric() && !c.is_ascii_digit())
}
