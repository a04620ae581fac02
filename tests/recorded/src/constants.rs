//! The test of the constants of `Locale`.

use num_format::Locale;

/// The longest line of names, or of arms but for their indent.
const LINE_LENGTH: usize = 96;

/// The most constants in one function: the checker takes long over more.
const MOST_CONSTANTS: usize = 64;

/// Returns the module of the test: each name of the original, in order, with its variant.
pub fn source() -> String {
    let (names, variants): (Vec<&str>, Vec<String>) = Locale::available_names()
        .iter()
        .filter_map(|name| Some((*name, format!("{:?}", Locale::from_name(*name).ok()?))))
        .unzip();
    let parts: Vec<&[String]> = variants.chunks(MOST_CONSTANTS).collect();
    let functions: String = parts
        .iter()
        .enumerate()
        .map(|(index, part)| function(part, index * MOST_CONSTANTS))
        .collect();
    let calls: Vec<String> = parts
        .iter()
        .map(|part| format!("{}(locale)", function_name(part)))
        .collect();
    format!(
        r#"//! Each constant of `Locale`. Written by the project `recorded`; do not edit.
//!
//! The names, and the constants in their order, are those of the Rust crate `num-format` 0.4.4.

use crate::asserting::assert_equal;
use num_format::Locale;
use std::test::Fail;

/// The names of all locales, in order.
const NAMES: &str = "\
{}";

/// The locale that a name finds is the constant of that place of the table.
#[test]
fn each_name_has_its_constant(rt: HostRuntime) -> Result<(), Fail> {{
    for (place, name) in NAMES.split(' ').enumerate() {{
        assert_equal(&rt, place_of(Locale::from_name(name)?), Some(place));
    }}
    Ok(())
}}

/// The place in the table of the constant that the locale is.
fn place_of(locale: Locale) -> Option<usize> {{
    {}
}}
{functions}"#,
        lines(&names).join("\\\n").trim_end(),
        nested(&calls),
    )
}

/// Returns lines of words with a space after each.
fn lines<W: AsRef<str>>(words: &[W]) -> Vec<String> {
    let mut lines = vec![String::new()];
    for word in words.iter().map(AsRef::as_ref) {
        if lines[lines.len() - 1].len() + word.len() > LINE_LENGTH {
            lines.push(String::new());
        }
        let line = lines.len() - 1;
        lines[line] += word;
        lines[line].push(' ');
    }
    lines
}

/// Returns the first of the calls that has a place.
fn nested(calls: &[String]) -> String {
    let (first, others) = calls.split_first().expect("there are locales");
    let others = others.iter().map(|call| format!("\n        .or({call})"));
    format!("{first}{}", others.collect::<String>())
}

/// Returns the function that knows the places of some constants, whose first place is given.
fn function(variants: &[String], first: usize) -> String {
    let arms: Vec<String> = variants
        .iter()
        .enumerate()
        .map(|(index, variant)| format!("Locale::{variant} => {},", first + index))
        .collect();
    let arms: String = lines(&arms)
        .iter()
        .map(|line| format!("        {}\n", line.trim_end()))
        .collect();
    format!(
        "
#[rattlefmt::skip]
fn {}(locale: Locale) -> Option<usize> {{
    Some(match locale {{
{arms}        _ => return None,
    }})
}}
",
        function_name(variants)
    )
}

/// Returns the name of the function that knows these constants.
fn function_name(variants: &[String]) -> String {
    let word = |variant: &String| variant.to_lowercase().trim_matches('_').to_string();
    let last = &variants[variants.len() - 1];
    format!("from_{}_to_{}", word(&variants[0]), word(last))
}
