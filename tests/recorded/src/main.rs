//! Asks the Rust crate `num-format` 0.4.4 again what the repository has recorded of it.
//!
//! ```text
//! cargo run -- cases        compares the cases of tests/cases
//! cargo run -- constants    writes crates/num_format_vectors/src/constants.rt
//! ```
//!
//! Tables of calls that the Rust crate does not have, those of JSON and builders, and cases with a grouping that
//! it does not have are left out. A case whose result differs has to belong to a class of differences that
//! `docs/DIFFERENCES.md` names, and to have the result that the class prescribes. The exit status is 1
//! where one does not.

mod cases;
mod constants;
mod differences;
mod original;

use std::path::{Path, PathBuf};
use std::process::ExitCode;
use std::{env, fs, io};

const USAGE: &str = "usage: recorded cases|constants";

fn main() -> io::Result<ExitCode> {
    let words: Vec<String> = env::args().skip(1).collect();
    match words.iter().map(String::as_str).collect::<Vec<_>>()[..] {
        ["cases"] => compare(),
        ["constants"] => {
            let path = repository().join("crates/num_format_vectors/src/constants.rt");
            fs::write(path, constants::source())?;
            Ok(ExitCode::SUCCESS)
        }
        _ => {
            eprintln!("{USAGE}");
            Ok(ExitCode::from(2))
        }
    }
}

/// Compares the recorded cases, and prints what differs.
fn compare() -> io::Result<ExitCode> {
    let folder = repository().join("tests/cases");
    let mut tables = Vec::new();
    for table in cases::TABLES {
        tables.push((table, fs::read_to_string(folder.join(format!("{table}.tsv")))?));
    }
    let differences = fs::read_to_string(repository().join("docs/DIFFERENCES.md"))?;
    let report = cases::compare(&tables, &differences);
    print!("{report}");
    Ok(if report.is_passed() {
        ExitCode::SUCCESS
    } else {
        ExitCode::FAILURE
    })
}

/// The folder of the repository.
fn repository() -> PathBuf {
    Path::new(env!("CARGO_MANIFEST_DIR")).join("../..")
}
