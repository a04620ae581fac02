//! The recorded cases, one a line, and how they compare.
//!
//! The head of each table describes the fields. Cases with a grouping that the original does not have are
//! left out.

use crate::differences::{Class, Outcome, classes_of};
use crate::original;
use std::collections::BTreeMap;
use std::fmt;

/// The groupings that the original does not have, as a format names them.
const OWN_GROUPINGS: [&str; 2] = [":Myriad:", ":Sparse:"];

/// The tables that the module [`original`] has calls for.
pub const TABLES: [&str; 4] = ["printing", "lenient", "names", "locales"];

/// The most cases without a named difference that are printed.
const MOST_PRINTED: usize = 20;

/// What came of the cases.
#[derive(Default)]
pub struct Report {
    /// How many cases there are of each table.
    cases: BTreeMap<&'static str, usize>,
    /// How many differ in each class.
    differing: BTreeMap<Class, usize>,
    /// The classes that differ and that the documentation does not name.
    undocumented: Vec<Class>,
    /// The cases whose difference no class explains.
    unexplained: Vec<String>,
    /// The lines that have no case.
    unreadable: Vec<(&'static str, usize)>,
}

impl Report {
    /// Whether there are cases, each line has one, and each difference has a named reason.
    pub fn is_passed(&self) -> bool {
        !self.cases.is_empty()
            && self.undocumented.is_empty()
            && self.unexplained.is_empty()
            && self.unreadable.is_empty()
    }
}

/// Compares the cases of the tables, which are given by their names. A class of differences is
/// documented where the text has its name in bold.
pub fn compare(tables: &[(&'static str, String)], documentation: &str) -> Report {
    let mut report = Report::default();
    for (table, data) in tables {
        for (index, line) in data.lines().enumerate() {
            let is_left_out = line.starts_with('#')
                || OWN_GROUPINGS.iter().any(|grouping| line.contains(grouping));
            if !is_left_out {
                report.add(table, index + 1, line);
            }
        }
    }
    report.undocumented = report
        .differing
        .keys()
        .copied()
        .filter(|class| !documentation.contains(&format!("**{}**", class.name())))
        .collect();
    report
}

impl Report {
    fn add(&mut self, table: &'static str, number: usize, line: &str) {
        let Some(comparison) = comparison(table, line) else {
            self.unreadable.push((table, number));
            return;
        };
        *self.cases.entry(table).or_default() += 1;
        match comparison {
            Comparison::Same => {}
            Comparison::Explained(classes) => {
                for class in classes {
                    *self.differing.entry(class).or_default() += 1;
                }
            }
            Comparison::Unexplained { recorded, original } => self.unexplained.push(format!(
                "{table}.tsv:{number}: recorded {recorded}, original {original}"
            )),
        }
    }
}

/// How the recorded result of a case compares with that of the original.
enum Comparison {
    Same,
    Explained(Vec<Class>),
    Unexplained { recorded: String, original: String },
}

/// Asks the original the call of a line of a table. Returns how the results compare.
fn comparison(table: &str, line: &str) -> Option<Comparison> {
    let fields: Vec<&str> = line.split('\t').collect();
    Some(match (table, &fields[..]) {
        ("printing", [type_name, format, number, recorded]) => exact(
            &text_of(recorded)?,
            &original::printed(type_name, format, number)?,
        ),
        ("lenient", [type_name, format, text, recorded]) => {
            let text = text_of(text)?;
            let parsed = original::parsed(type_name, format, &text)?;
            of_outcome(recorded, &text, &parsed)
        }
        ("names", [text, recorded]) => {
            let text = text_of(text)?;
            of_outcome(recorded, &text, &original::found(&text))
        }
        ("locales", [name, data @ ..]) => {
            let (grouping, texts) = original::described(name)?;
            let recorded = text_of(&data.join("\t"))?;
            exact(&recorded, &format!("{grouping}\t{}", texts.join("\t")))
        }
        _ => return None,
    })
}

/// Compares results that have to be the same.
fn exact(recorded: &str, original: &str) -> Comparison {
    if recorded == original {
        return Comparison::Same;
    }
    Comparison::Unexplained {
        recorded: recorded.to_string(),
        original: original.to_string(),
    }
}

/// Compares results of parsing or of looking up a text.
fn of_outcome(recorded: &str, text: &str, original: &Outcome) -> Comparison {
    match classes_of(recorded, text, original) {
        Some(classes) if classes.is_empty() => Comparison::Same,
        Some(classes) => Comparison::Explained(classes),
        None => Comparison::Unexplained {
            recorded: recorded.to_string(),
            original: original.to_string(),
        },
    }
}

/// The text of a field, in which `%XX` is a byte.
pub fn text_of(field: &str) -> Option<String> {
    let mut parts = field.split('%');
    let mut bytes = parts.next()?.as_bytes().to_vec();
    for part in parts {
        bytes.push(u8::from_str_radix(part.get(..2)?, 16).ok()?);
        bytes.extend_from_slice(part[2..].as_bytes());
    }
    String::from_utf8(bytes).ok()
}

impl fmt::Display for Report {
    fn fmt(&self, f: &mut fmt::Formatter<'_>) -> fmt::Result {
        for (table, count) in &self.cases {
            writeln!(f, "{table}: {count} cases")?;
        }
        for (class, count) in &self.differing {
            writeln!(f, "{count} differ: {}", class.name())?;
        }
        for class in &self.undocumented {
            writeln!(f, "not in docs/DIFFERENCES.md: {}", class.name())?;
        }
        for case in self.unexplained.iter().take(MOST_PRINTED) {
            writeln!(f, "{case}")?;
        }
        writeln!(f, "{} differ for no named reason", self.unexplained.len())?;
        writeln!(f, "{} lines without a case", self.unreadable.len())
    }
}
