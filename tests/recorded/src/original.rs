//! The calls of the original crate.

use crate::cases::text_of;
use crate::differences::Outcome;
use num_format::parsing::FromFormattedStr;
use num_format::{
    Buffer, CustomFormat, Error, ErrorKind, Format, Grouping, Locale, ToFormattedStr,
};
use std::fmt::Display;
use std::num::{NonZeroU8, NonZeroU16, NonZeroU32, NonZeroU64, NonZeroU128, NonZeroUsize};
use std::panic;
use std::str::FromStr;

/// Returns the text of a number under a format, as a `Buffer` has it. None where there is no such
/// type, format or number.
pub fn printed(type_name: &str, format: &str, number: &str) -> Option<String> {
    match under_format(type_name, format, Operation::Print(number))? {
        Outcome::Found(text) => Some(text),
        _ => None,
    }
}

/// Returns what a text is parsed to under a format. None where there is no such type or format.
pub fn parsed(type_name: &str, format: &str, text: &str) -> Option<Outcome> {
    under_format(type_name, format, Operation::Parse(text))
}

/// Returns what a text finds as the name of a locale.
pub fn found(text: &str) -> Outcome {
    match Locale::from_name(text) {
        Ok(locale) => Outcome::Found(locale.name().to_string()),
        Err(error) => refused(&error),
    }
}

/// Returns the grouping of a locale and its texts. None where there is no such locale.
pub fn described(name: &str) -> Option<(String, [&'static str; 6])> {
    let locale = Locale::from_name(name).ok()?;
    let texts = [
        locale.decimal(),
        locale.infinity(),
        locale.minus_sign(),
        locale.nan(),
        locale.plus_sign(),
        locale.separator(),
    ];
    Some((format!("{:?}", locale.grouping()), texts))
}

/// What is done with an integer type.
#[derive(Clone, Copy)]
enum Operation<'a> {
    Print(&'a str),
    Parse(&'a str),
}

enum NamedFormat {
    Custom(Box<CustomFormat>),
    Locale(Locale),
}

fn under_format(type_name: &str, format: &str, operation: Operation<'_>) -> Option<Outcome> {
    match format_named(format)? {
        NamedFormat::Custom(format) => of_type(type_name, operation, &*format),
        NamedFormat::Locale(locale) => of_type(type_name, operation, &locale),
    }
}

/// The format that a case names.
fn format_named(format: &str) -> Option<NamedFormat> {
    match format.split(':').collect::<Vec<_>>()[..] {
        ["locale", name] => Some(NamedFormat::Locale(Locale::from_name(name).ok()?)),
        ["custom", separator, grouping, minus_sign, mark] => {
            let builder = CustomFormat::builder()
                .decimal(text_of(mark)?)
                .grouping(grouping_named(grouping)?)
                .minus_sign(text_of(minus_sign)?)
                .separator(text_of(separator)?);
            Some(NamedFormat::Custom(Box::new(builder.build().ok()?)))
        }
        _ => None,
    }
}

fn grouping_named(name: &str) -> Option<Grouping> {
    match name {
        "Standard" => Some(Grouping::Standard),
        "Indian" => Some(Grouping::Indian),
        "Posix" => Some(Grouping::Posix),
        _ => None,
    }
}

/// Does the operation at a type, whose limit on numeric characters is given here.
fn of_type<F: Format>(name: &str, operation: Operation<'_>, format: &F) -> Option<Outcome> {
    match name {
        "u8" => of::<u8, F>(operation, format, 3),
        "u16" => of::<u16, F>(operation, format, 5),
        "u32" => of::<u32, F>(operation, format, 10),
        "u64" => of::<u64, F>(operation, format, 20),
        "u128" => of::<u128, F>(operation, format, 39),
        "usize" => of::<usize, F>(operation, format, 20),
        "i8" => of::<i8, F>(operation, format, 4),
        "i16" => of::<i16, F>(operation, format, 6),
        "i32" => of::<i32, F>(operation, format, 11),
        "i64" => of::<i64, F>(operation, format, 20),
        "i128" => of::<i128, F>(operation, format, 40),
        "isize" => of::<isize, F>(operation, format, 20),
        "NonZeroU8" => of::<NonZeroU8, F>(operation, format, 3),
        "NonZeroU16" => of::<NonZeroU16, F>(operation, format, 5),
        "NonZeroU32" => of::<NonZeroU32, F>(operation, format, 10),
        "NonZeroU64" => of::<NonZeroU64, F>(operation, format, 20),
        "NonZeroU128" => of::<NonZeroU128, F>(operation, format, 39),
        "NonZeroUsize" => of::<NonZeroUsize, F>(operation, format, 20),
        _ => None,
    }
}

fn of<N, F>(operation: Operation<'_>, format: &F, limit: usize) -> Option<Outcome>
where
    N: ToFormattedStr + FromFormattedStr + FromStr + Display,
    F: Format,
{
    match operation {
        Operation::Print(decimal) => {
            let number: N = decimal.parse().ok()?;
            let mut buffer = Buffer::new();
            buffer.write_formatted(&number, format);
            Some(Outcome::Found(buffer.as_str().to_string()))
        }
        Operation::Parse(text) => Some(parsed_as::<N, F>(text, format, limit)),
    }
}

fn parsed_as<N: FromFormattedStr + Display, F: Format>(
    text: &str,
    format: &F,
    limit: usize,
) -> Outcome {
    let parse = panic::AssertUnwindSafe(|| N::from_formatted_str(text, format));
    match without_messages(|| panic::catch_unwind(parse)) {
        Ok(Ok(number)) => Outcome::Found(number.to_string()),
        Ok(Err(error)) => refused(&error),
        Err(_) => {
            let is_negative = text.starts_with(format.minus_sign().into_str());
            let numerals = text.chars().filter(|c| c.is_numeric()).count();
            Outcome::Panicked {
                numerals: numerals + usize::from(is_negative),
                limit,
            }
        }
    }
}

/// Calls the function while a panic prints nothing.
fn without_messages<T>(call: impl FnOnce() -> T) -> T {
    let hook = panic::take_hook();
    panic::set_hook(Box::new(|_| {}));
    let result = call();
    panic::set_hook(hook);
    result
}

fn refused(error: &Error) -> Outcome {
    let (kind, kept) = match error.kind() {
        ErrorKind::ParseLocale(kept) => ("ParseLocale", kept.as_str()),
        ErrorKind::ParseNumber(kept) => ("ParseNumber", kept.as_str()),
        _ => ("of another kind", ""),
    };
    Outcome::Refused {
        kind,
        kept: kept.len(),
    }
}
