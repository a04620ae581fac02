#!/usr/bin/env python3
"""Writes the locales of this crate from crates/num_format_cldr/specs, which tools/locales.py reads.

    python3 packages/rust/write_locales.py            rewrites src/locale/table.rs
    python3 packages/rust/write_locales.py --check    compares it: the exit status is 1 if it is not what would be written
"""
import sys
from pathlib import Path

HERE = Path(__file__).resolve().parent
sys.dont_write_bytecode = True
sys.path.insert(0, str(HERE.parent.parent / "tools"))

from locales import constant_name, filled, literal, rows  # noqa: E402

TABLE = HERE / "src" / "locale" / "table.rs"
GROUPINGS = ["Standard", "Indian", "Posix"]
ONE_MILLION = {"Standard": ["1", "000", "000"], "Indian": ["10", "00", "000"], "Posix": ["1000000"]}


def grouping(row):
    return GROUPINGS[row["group"]]


def million(row):
    """The text of 1,000,000, in Markdown that tells spaces apart."""
    separator = "".join(f"&#x{ord(c):x};" if c.isspace() else c for c in row["sep"])
    return separator.join(ONE_MILLION[grouping(row)])


def variant(row):
    return f"    /// `{row['name']}`: {million(row)}\n    {constant_name(row['name'])},\n"


def table_row(row):
    texts = ", ".join(literal(row[key]) for key in ["dec", "inf", "min", "nan", "plus", "sep"])
    return f"    row(Locale::{constant_name(row['name'])}, Grouping::{grouping(row)}, {texts}),\n"


def source(table):
    return f"""//! The locales, their names and their data.
//!
//! Written by packages/rust/write_locales.py from crates/num_format_cldr/specs; do not edit.

use super::{{row, Row}};
use crate::grouping::Grouping;

/// A locale of the Unicode Common Locale Data Repository. Implements [`Format`](crate::Format).
///
/// Each variant has the name of its locale, with `_` for `-`, and that of `as` is `as_`. They are in the
/// order of their names. Beside each is one million as it is printed under it.
///
/// ```
/// use num_format::{{Grouping, Locale}};
///
/// let locale = Locale::from_name("de-CH")?;
/// assert_eq!(locale, Locale::de_CH);
/// assert_eq!(locale.name(), "de-CH");
/// assert_eq!(locale.separator(), "’");
/// assert_eq!(locale.grouping(), Grouping::Standard);
/// # Ok::<(), num_format::Error>(())
/// ```
#[derive(Clone, Copy, Debug, PartialEq, Eq, PartialOrd, Ord, Hash)]
#[cfg_attr(feature = "with-serde", derive(serde::Serialize, serde::Deserialize))]
#[allow(non_camel_case_types)]
pub enum Locale {{
{"".join(map(variant, table))}}}

pub(super) const LEN: usize = {len(table)};

/// The names, in rising byte order, which is that of the variants.
#[rustfmt::skip]
pub(super) const NAMES: [&str; LEN] = [
{filled((literal(row["name"]) for row in table), " " * 4)}];

/// The data of each locale, in the same order: its variant, grouping, decimal mark, infinity, minus sign,
/// NaN, plus sign and separator.
#[rustfmt::skip]
pub(super) static ROWS: [Row; LEN] = [
{"".join(map(table_row, table))}];
"""


def main():
    text = source(list(rows()))
    if sys.argv[1:] == ["--check"]:
        sys.exit(0 if TABLE.read_text(encoding="utf-8") == text else f"{TABLE.name} is not what this script writes")
    if sys.argv[1:]:
        sys.exit(__doc__.strip())
    TABLE.write_text(text, encoding="utf-8")


if __name__ == "__main__":
    main()
