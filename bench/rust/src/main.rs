//! Times `num-format-proved` beside a copy of itself, `num-format` 0.4.4, `itoa`, std and `rust_decimal`.
//!
//! ```text
//! bench FOLDER SECONDS    # what cells.py writes, and how long each call is measured in a cell
//! ```
//!
//! Prints lines of five fields: what is done, the cell, whose call it is, the call, and the nanoseconds that it takes for
//! a number, by the best batch, or `differs` where a result is not Python's. All calls that do the same take turns.

use std::error::Error;
use std::ffi::{c_int, c_long};
use std::fmt::Write as _;
use std::hint::black_box;
use std::path::Path;
use std::time::Duration;
use std::{env, fs, iter};

/// Whose a call is.
const OURS: &str = "ours";
const COPY: &str = "copy";
const ORIGINAL: &str = "num-format 0.4.4";
const OTHER: &str = "other";

/// The numbers of a cell, their digits, and their texts under the format of the cell.
struct Cell<N> {
    name: String,
    format: String,
    numbers: Vec<N>,
    plain: Vec<String>,
    texts: Vec<String>,
    /// The same with a letter after each, and letters alone.
    with_letter: Vec<String>,
    letters: Vec<String>,
    /// Of numbers of 64 bits, a hundredth: its digits, and its text under the format.
    plain_decimals: Vec<String>,
    decimals: Vec<String>,
}

/// The names of all locales, names of none, language tags, and the locales' separators.
struct Names {
    names: Vec<String>,
    unknown: Vec<String>,
    tags: Vec<String>,
    separators: Vec<String>,
}

/// A call that is measured: what it does and whose it is.
struct Way<'a> {
    operation: &'static str,
    role: &'static str,
    call: &'static str,
    /// Whether each result is the one expected.
    is_right: Box<dyn Fn() -> bool + 'a>,
    /// Makes the call for each number.
    run: Box<dyn Fn() + 'a>,
}

/// Adds a call, by a function that gives each of its results to its last argument, and the results expected.
macro_rules! way {
    ($ways:ident, $role:expr, $operation:expr, $call:expr; $expected:expr => $make:ident($($given:expr),*)) => {
        $ways.push(Way {
            operation: $operation,
            role: $role,
            call: $call,
            is_right: Box::new(move || {
                let (mut expected, mut is_right) = ($expected, true);
                $make($($given,)* |result| is_right &= expected.next() == Some(result));
                is_right && expected.next().is_none()
            }),
            run: Box::new(move || $make($($given,)* |result| _ = black_box(result))),
        })
    };
}

fn strs(texts: &[String]) -> impl Iterator<Item = &str> {
    texts.iter().map(String::as_str)
}

/// The numbers, as parsing returns them.
fn parsed<N: Copy>(numbers: &[N]) -> impl Iterator<Item = Option<N>> + '_ {
    numbers.iter().copied().map(Some)
}

fn refused<T: Clone>(texts: &[String]) -> impl Iterator<Item = Option<T>> {
    iter::repeat_n(None, texts.len())
}

/// Parses each text by the call.
fn parse<N>(texts: &[String], call: impl Fn(&str) -> Option<N>, mut give: impl FnMut(Option<N>)) {
    for text in texts {
        give(call(text));
    }
}

/// The separator, the minus sign and the decimal mark of the format that is no locale.
const OWN: [&str; 3] = ["\u{2019}", "\u{2212}", ","];

/// The calls of a crate that has the API of num-format, and by which method it parses where texts are to be strict.
macro_rules! calls_of {
    ($name:ident, $strict:ident) => {
        pub mod $name {
            use ::$name::parsing::{FromFormattedStr, ParseFormatted};
            use ::$name::{
                Buffer, CustomFormat, Format, Grouping, Locale, ToFormattedStr, ToFormattedString, WriteFormatted,
            };

            use crate::*;

            fn kept_buffer<N: ToFormattedStr>(numbers: &[N], format: &impl Format, mut give: impl FnMut(&str)) {
                let mut buffer = Buffer::new();
                for number in numbers {
                    buffer.write_formatted(number, format);
                    give(buffer.as_str());
                }
            }

            fn new_string<N: ToFormattedString>(numbers: &[N], format: &impl Format, mut give: impl FnMut(&str)) {
                for number in numbers {
                    give(&number.to_formatted_string(format));
                }
            }

            fn onto_string<N: ToFormattedString>(numbers: &[N], format: &impl Format, mut give: impl FnMut(&str)) {
                let mut string = String::new();
                for number in numbers {
                    string.clear();
                    string.write_formatted(number, format).expect("a number");
                    give(&string);
                }
            }

            fn writer<N: ToFormattedString>(numbers: &[N], format: &impl Format, mut give: impl FnMut(&[u8])) {
                let mut vec = Vec::new();
                for number in numbers {
                    vec.clear();
                    vec.write_formatted(number, format).expect("a number");
                    give(&vec);
                }
            }

            fn under<'a, N>(cell: &'a Cell<N>, format: &'a impl Format, role: &'static str, ways: &mut Vec<Way<'a>>)
            where
                N: Copy + PartialEq + ToFormattedStr + ToFormattedString + FromFormattedStr,
            {
                let Cell { numbers, texts, letters, .. } = cell;
                way!(ways, role, "print, kept buffer", "`buffer.write_formatted(&n, &format)`";
                    strs(texts) => kept_buffer(numbers, format));
                way!(ways, role, "print, new string", "`n.to_formatted_string(&format)`";
                    strs(texts) => new_string(numbers, format));
                way!(ways, role, "print, onto a string", "`string.write_formatted(&n, &format)`";
                    strs(texts) => onto_string(numbers, format));
                way!(ways, role, "print, writer", "`vec.write_formatted(&n, &format)`";
                    strs(texts).map(str::as_bytes) => writer(numbers, format));
                way!(ways, role, "parse, strict", concat!("`text.", stringify!($strict), "(&format)`");
                    parsed(numbers) => parse(texts, |text| text.$strict::<_, N>(format).ok()));
                way!(ways, role, "parse, lenient", "`text.parse_formatted(&format)`";
                    parsed(numbers) => parse(texts, |text| text.parse_formatted::<_, N>(format).ok()));
                way!(ways, role, "parse, no digit", "`text.parse_formatted(&format)`";
                    refused::<N>(letters) => parse(letters, |text| text.parse_formatted::<_, N>(format).ok()));
            }

            /// Adds the calls over a cell, under its format.
            pub fn cell<'a, N>(cell: &'a Cell<N>, role: &'static str, ways: &mut Vec<Way<'a>>)
            where
                N: Copy + PartialEq + ToFormattedStr + ToFormattedString + FromFormattedStr,
            {
                let [separator, minus_sign, decimal] = OWN;
                match Locale::from_name(&cell.format) {
                    Ok(locale) => under(cell, Box::leak(Box::new(locale)), role, ways),
                    Err(_) => {
                        let builder = CustomFormat::builder().grouping(Grouping::Indian).decimal(decimal);
                        let format = builder.separator(separator).minus_sign(minus_sign).build();
                        under(cell, Box::leak(Box::new(format.expect("a format"))), role, ways)
                    }
                }
            }

            fn name(names: &[String], mut give: impl FnMut(Option<&str>)) {
                for name in names {
                    give(Locale::from_name(name).ok().map(|locale| locale.separator()));
                }
            }

            /// Adds the calls that look names up.
            pub fn look_up<'a>(given: &'a Names, role: &'static str, ways: &mut Vec<Way<'a>>) {
                let Names { names, unknown, separators, .. } = given;
                way!(ways, role, "look up, a name", "`Locale::from_name(name)`";
                    strs(separators).map(Some) => name(names));
                way!(ways, role, "look up, no name", "`Locale::from_name(name)`";
                    refused::<&str>(unknown) => name(unknown));
            }
        }
    };
}

/// The calls of this library that num-format has none for.
macro_rules! more_calls_of {
    ($name:ident) => {
        pub mod $name {
            use ::$name::parsing::{FromFormattedStr, ParseDecimal, ParseFormatted, StrictParser};
            use ::$name::{Decimal, Locale};

            use crate::*;

            fn tag(tags: &[String], mut give: impl FnMut(Option<&str>)) {
                for tag in tags {
                    give(Locale::lookup(tag).map(|locale| locale.separator()));
                }
            }

            /// Adds the call that looks tags up.
            pub fn look_up<'a>(given: &'a Names, role: &'static str, ways: &mut Vec<Way<'a>>) {
                let Names { tags, separators, .. } = given;
                way!(ways, role, "look up, a tag", "`Locale::lookup(tag)`";
                    strs(separators).map(Some) => tag(tags));
            }

            /// Adds strict parsing of texts with a letter.
            pub fn refusal<'a, N>(cell: &'a Cell<N>, role: &'static str, ways: &mut Vec<Way<'a>>)
            where
                N: FromFormattedStr + Clone + PartialEq,
            {
                let texts = &cell.with_letter;
                way!(ways, role, "parse, refused", "`text.parse_strict(&Locale::en)`";
                    refused::<N>(texts) => parse(texts, |text| text.parse_strict::<_, N>(&Locale::en).ok()));
            }

            /// Adds strict parsing by a kept parser, under a locale.
            pub fn kept<'a, N>(cell: &'a Cell<N>, role: &'static str, ways: &mut Vec<Way<'a>>)
            where
                N: FromFormattedStr + Copy + PartialEq,
            {
                let Ok(locale) = Locale::from_name(&cell.format) else { return };
                let parser = StrictParser::new(&locale).expect("a locale");
                way!(ways, role, "parse, kept parser", "`parser.parse(text)`";
                    parsed(&cell.numbers) => parse(&cell.texts, |text| parser.parse::<N>(text).ok()));
            }

            fn formatted(units: &[i64], locale: Locale, mut give: impl FnMut(&str)) {
                let mut string = String::new();
                for &units in units {
                    string.clear();
                    let decimal = Decimal::new(units.into(), 2).expect("a decimal");
                    write!(string, "{}", decimal.formatted(&locale)).expect("a decimal");
                    give(&string);
                }
            }

            /// Adds the calls over decimals under a locale.
            pub fn decimals<'a>(cell: &'a Cell<i64>, role: &'static str, ways: &mut Vec<Way<'a>>) {
                let locale = Locale::from_name(&cell.format).expect("a locale");
                way!(ways, role, "decimal, print", "`write!(string, \"{}\", d.formatted(&locale))`";
                    strs(&cell.decimals) => formatted(&cell.numbers, locale));
                way!(ways, role, "decimal, parse", "`text.parse_decimal(&locale)`";
                    parsed(&cell.numbers) => parse(&cell.decimals, |text| Some(text.parse_decimal(&locale).ok()?.units() as i64)));
            }
        }
    };
}

mod calls {
    calls_of!(proved, parse_strict);
    calls_of!(copy, parse_strict);
    #[cfg(feature = "original")]
    calls_of!(original, parse_formatted);

    pub mod more {
        more_calls_of!(proved);
        more_calls_of!(copy);
    }
}

/// What prints and parses digits alone: `itoa`, std and `rust_decimal`.
mod plain {
    use std::fmt::Display;
    use std::str::FromStr;

    use rust_decimal::Decimal;

    use crate::*;

    fn kept_buffer<N: itoa::Integer + Copy>(numbers: &[N], mut give: impl FnMut(&str)) {
        let mut buffer = itoa::Buffer::new();
        for &number in numbers {
            give(buffer.format(number));
        }
    }

    fn new_string<N: Display>(numbers: &[N], mut give: impl FnMut(&str)) {
        for number in numbers {
            give(&number.to_string());
        }
    }

    fn onto_string<N: Display>(numbers: &[N], mut give: impl FnMut(&str)) {
        let mut string = String::new();
        for number in numbers {
            string.clear();
            write!(string, "{number}").expect("a number");
            give(&string);
        }
    }

    fn decimal(units: &[i64], mut give: impl FnMut(&str)) {
        let mut string = String::new();
        for &units in units {
            string.clear();
            write!(string, "{}", Decimal::new(units, 2)).expect("a decimal");
            give(&string);
        }
    }

    /// Adds the calls over a cell.
    pub fn cell<'a, N>(cell: &'a Cell<N>, ways: &mut Vec<Way<'a>>)
    where
        N: itoa::Integer + Display + FromStr + Copy + PartialEq,
    {
        let Cell { numbers, plain, with_letter, .. } = cell;
        way!(ways, OTHER, "print, kept buffer", "`itoa`, digits";
            strs(plain) => kept_buffer(numbers));
        way!(ways, OTHER, "print, new string", "`n.to_string()`, digits";
            strs(plain) => new_string(numbers));
        way!(ways, OTHER, "print, onto a string", "`write!(string, \"{n}\")`, digits";
            strs(plain) => onto_string(numbers));
        way!(ways, OTHER, "parse, strict", "`text.parse()` of digits";
            parsed(numbers) => parse(plain, |text| text.parse::<N>().ok()));
        if cell.format != "own" {
            way!(ways, OTHER, "parse, kept parser", "`text.parse()` of digits";
                parsed(numbers) => parse(plain, |text| text.parse::<N>().ok()));
        }
        way!(ways, OTHER, "parse, refused", "`text.parse()` of digits";
            refused::<N>(with_letter) => parse(with_letter, |text| text.parse::<N>().ok()));
    }

    /// Adds the calls over decimals.
    pub fn decimals<'a>(cell: &'a Cell<i64>, ways: &mut Vec<Way<'a>>) {
        let plain = &cell.plain_decimals;
        way!(ways, OTHER, "decimal, print", "`rust_decimal`, digits";
            strs(plain) => decimal(&cell.numbers));
        way!(ways, OTHER, "decimal, parse", "`rust_decimal`, digits";
            parsed(&cell.numbers) => parse(plain, |text| Some(text.parse::<Decimal>().ok()?.mantissa() as i64)));
    }
}

/// `CLOCK_THREAD_CPUTIME_ID` of Linux, and its `struct timespec`.
const OF_THREAD: c_int = 3;

#[repr(C)]
struct Timespec {
    seconds: c_long,
    nanoseconds: c_long,
}

extern "C" {
    fn clock_gettime(clock: c_int, time: *mut Timespec) -> c_int;
}

/// Returns how long the processor has worked for this thread.
fn worked() -> Duration {
    let mut time = Timespec { seconds: 0, nanoseconds: 0 };
    // SAFETY: the call writes that struct, and nothing else.
    unsafe { clock_gettime(OF_THREAD, &mut time) };
    Duration::new(time.seconds as u64, time.nanoseconds as u32)
}

/// Measures the calls of each operation in turn, until each had so many seconds, and prints them.
fn measure(cell: &str, count: usize, mut ways: Vec<Way>, seconds: Duration) {
    ways.sort_by_key(|way| way.operation);
    for group in ways.chunk_by(|first, next| first.operation == next.operation) {
        let mut best = vec![Duration::MAX; group.len()];
        let end = worked() + seconds * group.len() as u32;
        loop {
            for (way, best) in group.iter().zip(&mut best) {
                let start = worked();
                (way.run)();
                *best = (worked() - start).min(*best);
            }
            if worked() >= end {
                break;
            }
        }
        for (way, best) in group.iter().zip(best) {
            let time = best.as_nanos() as f64 / count as f64;
            let shown = if (way.is_right)() { time.to_string() } else { String::from("differs") };
            let (role, call) = if way.role == ORIGINAL { (OTHER, ORIGINAL) } else { (way.role, way.call) };
            println!("{}\t{cell}\t{role}\t{call}\t{shown}", way.operation);
        }
    }
}

/// Reads the columns of a file.
fn columns(path: &Path) -> Result<Vec<Vec<String>>, Box<dyn Error>> {
    let mut columns = Vec::new();
    for line in fs::read_to_string(path)?.lines() {
        for (place, field) in line.split('\t').enumerate() {
            columns.resize(columns.len().max(place + 1), Vec::new());
            columns[place].push(String::from(field));
        }
    }
    Ok(columns)
}

fn read<N: std::str::FromStr>(path: &Path) -> Result<Cell<N>, Box<dyn Error>> {
    let name = path.file_name().and_then(|name| name.to_str()).ok_or("a name")?;
    let mut columns = columns(path)?.into_iter();
    let mut column = || columns.next().unwrap_or_default();
    let numbers = column().iter().map(|number| number.parse().map_err(|_| "a number")).collect::<Result<_, _>>()?;
    Ok(Cell {
        name: String::from(name),
        format: name.split(' ').nth(1).ok_or("a format")?.replace('-', "_"),
        numbers,
        plain: column(),
        texts: column(),
        with_letter: column(),
        letters: column(),
        plain_decimals: column(),
        decimals: column(),
    })
}

/// Measures the calls over a cell of a type, with those that a function adds.
macro_rules! measure_cell {
    ($type:ty, $path:expr, $seconds:expr $(, $decimals:ident)?) => {{
        let cell = read::<$type>($path)?;
        let mut ways = Vec::new();
        calls::proved::cell(&cell, OURS, &mut ways);
        calls::copy::cell(&cell, COPY, &mut ways);
        calls::more::proved::refusal(&cell, OURS, &mut ways);
        calls::more::copy::refusal(&cell, COPY, &mut ways);
        calls::more::proved::kept(&cell, OURS, &mut ways);
        calls::more::copy::kept(&cell, COPY, &mut ways);
        #[cfg(feature = "original")]
        calls::original::cell(&cell, ORIGINAL, &mut ways);
        plain::cell(&cell, &mut ways);
        $($decimals(&cell, &mut ways);)?
        measure(&cell.name, cell.numbers.len(), ways, $seconds);
    }};
}

fn decimals<'a>(cell: &'a Cell<i64>, ways: &mut Vec<Way<'a>>) {
    // Formats that are no locale have none here.
    if cell.format != "own" {
        calls::more::proved::decimals(cell, OURS, ways);
        calls::more::copy::decimals(cell, COPY, ways);
        plain::decimals(cell, ways);
    }
}

fn measure_names(path: &Path, seconds: Duration) -> Result<(), Box<dyn Error>> {
    let [names, unknown, tags, separators] = columns(path)?.try_into().map_err(|_| "four columns")?;
    let (given, mut ways) = (Names { names, unknown, tags, separators }, Vec::new());
    calls::proved::look_up(&given, OURS, &mut ways);
    calls::copy::look_up(&given, COPY, &mut ways);
    #[cfg(feature = "original")]
    calls::original::look_up(&given, ORIGINAL, &mut ways);
    calls::more::proved::look_up(&given, OURS, &mut ways);
    calls::more::copy::look_up(&given, COPY, &mut ways);
    measure("names", given.names.len(), ways, seconds);
    Ok(())
}

fn main() -> Result<(), Box<dyn Error>> {
    let [folder, seconds] =
        <[String; 2]>::try_from(env::args().skip(1).collect::<Vec<_>>()).map_err(|_| "two words")?;
    let (folder, seconds) = (Path::new(&folder), Duration::from_secs_f64(seconds.parse()?));
    for entry in fs::read_dir(folder.join("cells"))? {
        let path = entry?.path();
        match path.file_name().and_then(|name| name.to_str()?.split(' ').next()) {
            Some("i32") => measure_cell!(i32, &path, seconds),
            Some("u64") => measure_cell!(u64, &path, seconds),
            Some("i64") => measure_cell!(i64, &path, seconds, decimals),
            Some("i128") => measure_cell!(i128, &path, seconds),
            _ => return Err("a cell of another type".into()),
        }
    }
    measure_names(&folder.join("names"), seconds)
}
