//! Replays the tables of cases, as `tests/README.md` of the repository says: `cargo test --test replay`.

use std::collections::hash_map::DefaultHasher;
use std::fmt::{Debug, Display};
use std::hash::{Hash, Hasher};
use std::io;
use std::num::{NonZeroU128, NonZeroU16, NonZeroU32, NonZeroU64, NonZeroU8, NonZeroUsize};
use std::str::FromStr;

use num_format::parsing::{
    parse_typed, parse_typed_decimal, FromFormattedStr, ParseFormatted, TypedError, TypedParser,
};
use num_format::*;

/// What was returned, in the words of the tables, or why a case cannot be said here.
type Outcome = Result<String, &'static str>;

/// Calls a function for the type of a name.
macro_rules! for_type {
    ($fields:expr, $call:ident) => {
        for_type!($fields, $call, i8 i16 i32 i64 i128 isize u8 u16 u32 u64 u128 usize
            NonZeroU8 NonZeroU16 NonZeroU32 NonZeroU64 NonZeroU128 NonZeroUsize)
    };
    ($fields:expr, $call:ident, $($type:ident)*) => {
        match $fields[0] {
            $(stringify!($type) => $call::<$type>($fields),)*
            _ => Err("no such type"),
        }
    };
}

/// Evaluates an expression with the format of a field.
macro_rules! under {
    ($field:expr, |$format:ident| $value:expr) => {
        if let Some(name) = $field.strip_prefix("locale:") {
            let $format = &Locale::from_name(name).unwrap();
            $value
        } else {
            let $format = &custom($field)?;
            $value
        }
    };
}

/// The text of a number by each call.
macro_rules! texts {
    ($number:expr, $buffer:ident, $format:expr) => {{
        let (number, mut buffer) = ($number, $buffer::new());
        let len = buffer.write_formatted(&number, $format);
        let shown = number.formatted($format).to_string();
        let text = number.to_formatted_string($format);
        let bytes = String::from_utf8(buffer.as_bytes()[..len].to_vec()).unwrap();
        same([text, shown, buffer.to_string(), bytes].map(encoded))
    }};
}

/// What the calls of a case return.
fn outcome(table: &str, f: &[&str]) -> Outcome {
    match table {
        "alike" => under!(f[0], |a| under!(f[1], |b| Ok(prints_alike(a, b).to_string()))),
        "builders" => built(f),
        "decimals_at_scale" => at_scale(f),
        "decimals_at_scale_digits" => in_digits(f[0], |l, d| {
            let found = d.parse_at_scale(&decoded(f[1]), f[2].parse().unwrap(), &l);
            words(found.map(|d| d.units()), digits_cause)
        }),
        "decimals_computed" => computed(f),
        "decimals_parsed" => decimal_parsed(f),
        "decimals_parsed_digits" => {
            in_digits(f[0], |l, d| words(d.parse_decimal(&decoded(f[1]), &l).map(parts), digits_cause))
        }
        "decimals_printed" => {
            under!(f[0], |format| texts!(decimal(f[1], f[2]), DecimalBuffer, format))
        }
        "decimals_printed_digits" => {
            in_digits(f[0], |l, d| encoded(DigitText::of_decimal(&decimal(f[1], f[2]), &l, d)))
        }
        "json" => json(f),
        "lenient" => for_type!(f, lenient),
        "locales" => Ok(data(&locale(f[0]).into()).map(|(_, text)| text).join("\t")),
        "names" => Ok(words(Locale::from_name(decoded(f[0])).map(|l| l.name()), kept)),
        "padded" => padded(f),
        "printing" => for_type!(f, printed),
        "printing_digits" => for_type!(f, printed_digits),
        "reads_back" => under!(f[0], |format| Ok(reads_back(format).to_string())),
        "strict" => for_type!(f, strict),
        "strict_digits" => for_type!(f, strict_digits),
        "typed" => for_type!(f, typed),
        "typed_digits" => for_type!(f, typed_digits),
        "typed_decimals" => typed_decimal(f),
        "typed_decimals_digits" => {
            in_digits(f[0], |l, d| words(d.parse_typed_decimal(&decoded(f[1]), &l).map(parts), digits_cause))
        }
        "tags" => Ok(Locale::lookup(decoded(f[0])).map_or("err ParseLocale".into(), |l| format!("ok {}", l.name()))),
        _ => Err("no such call"),
    }
}

fn locale(name: &str) -> Locale {
    Locale::from_name(name).unwrap()
}

fn custom(field: &str) -> Result<CustomFormat, &'static str> {
    let texts: Vec<_> = field.split(':').collect();
    let builder = CustomFormat::builder().separator(decoded(texts[1])).grouping(grouping(texts[2])?);
    Ok(builder.minus_sign(decoded(texts[3])).decimal(decoded(texts[4])).build().unwrap())
}

fn grouping(name: &str) -> Result<Grouping, &'static str> {
    match name {
        "Standard" => Ok(Grouping::Standard),
        "Indian" => Ok(Grouping::Indian),
        "Posix" => Ok(Grouping::Posix),
        #[cfg(feature = "with-more-groupings")]
        "Myriad" => Ok(Grouping::Myriad),
        #[cfg(feature = "with-more-groupings")]
        "Sparse" => Ok(Grouping::Sparse),
        _ => Err("no such grouping without its feature"),
    }
}

/// The text of percent-encoded bytes.
fn decoded(field: &str) -> String {
    let mut parts = field.split('%');
    let mut bytes = parts.next().unwrap().as_bytes().to_vec();
    for part in parts {
        bytes.push(u8::from_str_radix(&part[..2], 16).unwrap());
        bytes.extend(part[2..].bytes());
    }
    String::from_utf8(bytes).unwrap()
}

/// The text with all but letters and digits percent-encoded.
fn encoded(text: impl AsRef<str>) -> String {
    let encode = |byte: u8| match byte {
        b'0'..=b'9' | b'A'..=b'Z' | b'a'..=b'z' => (byte as char).to_string(),
        _ => format!("%{byte:02X}"),
    };
    text.as_ref().bytes().map(encode).collect()
}

/// The decimal of units and a scale.
fn decimal(units: &str, scale: &str) -> Decimal {
    Decimal::new(units.parse().unwrap(), scale.parse().unwrap()).unwrap()
}

fn parts(d: Decimal) -> String {
    format!("{}/{}", d.units(), d.scale())
}

fn words<T: Display, E>(result: Result<T, E>, cause: impl FnOnce(E) -> String) -> String {
    result.map_or_else(|e| format!("err {}", cause(e)), |value| format!("ok {value}"))
}

/// The words of a cause and its position.
fn cause(error: impl Debug) -> String {
    format!("{error:?}").replace(" { at: ", " ").replace(" }", "")
}

/// The kind of an error, and the length of the text that it keeps, of which the tables count whole characters within
/// 256 bytes.
fn kept(error: Error) -> String {
    let len = |text: &str| (0..=256).rev().find(|end| text.get(..*end).is_some()).unwrap();
    match error.kind() {
        ErrorKind::Capacity { len, cap } => format!("Capacity {len} {cap}"),
        ErrorKind::Other(text) => format!("Other {}", len(text)),
        ErrorKind::ParseLocale(text) => format!("ParseLocale {}", len(text)),
        ErrorKind::ParseNumber(text) => format!("ParseNumber {}", len(text)),
    }
}

/// What several calls returned, which has to be the same.
fn same<const N: usize>(results: [String; N]) -> Outcome {
    let is_same = results.iter().all(|result| *result == results[0]);
    Ok(if is_same { results[0].clone() } else { format!("{results:?}") })
}

fn printed<N: FromStr + ToFormattedStr>(f: &[&str]) -> Outcome {
    let number = f[2].parse::<N>().ok().unwrap();
    under!(f[1], |format| texts!(number, Buffer, format))
}

fn lenient<N: FromFormattedStr + Display>(f: &[&str]) -> Outcome {
    under!(f[1], |format| Ok(words(decoded(f[2]).parse_formatted::<_, N>(format), kept)))
}

fn strict<N: FromFormattedStr + Display>(f: &[&str]) -> Outcome {
    let text = decoded(f[2]);
    under!(f[1], |format| {
        let by_parser = StrictParser::new(format).and_then(|parser| parser.parse::<N>(&text));
        same([words(text.parse_strict::<_, N>(format), cause), words(by_parser, cause)])
    })
}

fn typed<N: FromFormattedStr + Display>(f: &[&str]) -> Outcome {
    let text = decoded(f[2]);
    under!(f[1], |format| {
        let by_parser =
            TypedParser::new(format).map_err(TypedError::Number).and_then(|parser| parser.parse::<N>(&text));
        same([parse_typed(&text, format), by_parser].map(|result| words(result, typed_cause)))
    })
}

fn typed_decimal(f: &[&str]) -> Outcome {
    let text = decoded(f[1]);
    under!(f[0], |format| {
        let result = parse_typed_decimal(&text, format);
        Ok(words(result.map(parts), typed_cause))
    })
}

fn typed_cause<E: Debug>(error: TypedError<E>) -> String {
    match error {
        TypedError::Number(error) => cause(error),
        other => format!("{other:?}"),
    }
}

/// What a call returns under the locale and the digit set of a field.
fn in_digits(field: &str, call: impl FnOnce(Locale, Digits) -> String) -> Outcome {
    let tag = field.strip_prefix("locale:").unwrap();
    Ok(call(Locale::lookup(tag).unwrap(), Digits::of_tag(tag).unwrap()))
}

fn printed_digits<N: FromStr + ToFormattedStr>(f: &[&str]) -> Outcome {
    in_digits(f[1], |l, d| encoded(DigitText::of(&f[2].parse::<N>().ok().unwrap(), &l, d)))
}

fn strict_digits<N: FromFormattedStr + Display>(f: &[&str]) -> Outcome {
    in_digits(f[1], |l, d| words(d.parse_strict::<N, _>(&decoded(f[2]), &l), digits_cause))
}

fn typed_digits<N: FromFormattedStr + Display>(f: &[&str]) -> Outcome {
    in_digits(f[1], |l, d| words(d.parse_typed::<N, _>(&decoded(f[2]), &l), digits_cause))
}

/// The words of a cause, without those of the errors around it.
fn digits_cause(error: impl Debug) -> String {
    ["Number(", "Parse(", "Rescale(", ")"].iter().fold(cause(error), |words, word| words.replace(word, ""))
}

fn decimal_parsed(f: &[&str]) -> Outcome {
    let text = decoded(f[1]);
    under!(f[0], |format| {
        let by_parser = DecimalParser::new(format).and_then(|parser| parser.parse(&text));
        let results = [text.parse_decimal(format), by_parser];
        same(results.map(|result| words(result.map(parts), cause)))
    })
}

fn at_scale(f: &[&str]) -> Outcome {
    let (text, scale) = (decoded(f[1]), f[2].parse().unwrap());
    let cause = |error| match error {
        ParseAtScaleError::Parse(error) => cause(error),
        ParseAtScaleError::Rescale(error) => cause(error),
        _ => unreachable!(),
    };
    under!(f[0], |format| {
        let result = Decimal::parse_at_scale(&text, scale, format);
        let by_parser = DecimalParser::new(format)
            .map_err(ParseAtScaleError::Parse)
            .and_then(|parser| parser.parse_at_scale(&text, scale));
        same([result, by_parser].map(|found| words(found.map(|d| d.units()), cause)))
    })
}

fn computed(f: &[&str]) -> Outcome {
    use Rounding::{Exact, HalfAwayFromZero, HalfEven, TowardZero};
    let [a, b] = [f[0], f[1]].map(|field| field.split_once('/').unwrap());
    let (a, b, scale) = (decimal(a.0, a.1), decimal(b.0, b.1), f[2].parse().unwrap());
    let hashed = |d: Decimal| {
        let mut hasher = DefaultHasher::new();
        d.hash(&mut hasher);
        hasher.finish()
    };
    let or_none = |d: Option<Decimal>| d.map_or("none".into(), parts);
    let mut results = [HalfEven, HalfAwayFromZero, TowardZero, Exact]
        .map(|rounding| a.rescale(scale, rounding).map_or_else(|e| format!("err {e:?}"), parts))
        .to_vec();
    results.push(format!("{:?}", a.cmp(&b)).to_lowercase());
    results.push((a == b && hashed(a) == hashed(b)).to_string());
    results.extend([a.checked_add(b), a.checked_sub(b), a.checked_neg()].map(or_none));
    Ok(results.join("\t"))
}

fn padded(f: &[&str]) -> Outcome {
    let (number, width) = (decimal(f[1], f[2]), f[5].parse::<usize>().unwrap());
    macro_rules! filled {
        ($($fill:literal)*) => {
            under!(f[0], |format| match (&*decoded(f[3]), f[4]) {
                $(
                    ($fill, "<") => Ok(encoded(format!(concat!("{:", $fill, "<1$}"), number.formatted(format), width))),
                    ($fill, "^") => Ok(encoded(format!(concat!("{:", $fill, "^1$}"), number.formatted(format), width))),
                    ($fill, ">") => Ok(encoded(format!(concat!("{:", $fill, ">1$}"), number.formatted(format), width))),
                )*
                _ => Err("a format string has another fill"),
            })
        };
    }
    filled!(" " "*" "€")
}

/// The data of a format with their names.
fn data(format: &CustomFormat) -> [(&'static str, String); 7] {
    [
        ("grp", format!("{:?}", format.grouping())),
        ("dec", encoded(format.decimal())),
        ("inf", encoded(format.infinity())),
        ("min", encoded(format.minus_sign())),
        ("nan", encoded(format.nan())),
        ("plus", encoded(format.plus_sign())),
        ("sep", encoded(format.separator())),
    ]
}

/// The data in the order of their names.
fn named(format: CustomFormat) -> String {
    let mut fields = data(&format).map(|(name, text)| format!("{name}={text}"));
    fields.sort();
    fields.join(" ")
}

fn built(f: &[&str]) -> Outcome {
    let mut builder = CustomFormat::builder();
    for (setter, text) in f[0].split_terminator(' ').map(|call| call.split_once('=').unwrap()) {
        builder = match setter {
            "from" => locale(&text[7..]).into(),
            "format" => builder.format(&locale(&text[7..])),
            "grouping" => builder.grouping(grouping(text)?),
            "decimal" => builder.decimal(decoded(text)),
            "infinity" => builder.infinity(decoded(text)),
            "minus_sign" => builder.minus_sign(decoded(text)),
            "nan" => builder.nan(decoded(text)),
            "plus_sign" => builder.plus_sign(decoded(text)),
            "separator" => builder.separator(decoded(text)),
            _ => unreachable!(),
        };
    }
    let again = builder.clone().build().and_then(|format| format.into_builder().build());
    same([again, builder.build()].map(|found| words(found.map(named), kept)))
}

#[cfg(not(feature = "with-serde"))]
fn json(_: &[&str]) -> Outcome {
    Err("no feature for serde")
}

#[cfg(feature = "with-serde")]
fn json(f: &[&str]) -> Outcome {
    let text = decoded(f[1]);
    // The table is of one form for each, where serde has two.
    let is_other_form = match f[0] {
        "format" => text.starts_with('[') || text.contains(r#""grp": {""#),
        "locale" => text.starts_with(r#"{""#),
        _ => false,
    };
    if is_other_form {
        return Err("serde takes another form too");
    }
    let result = match f[0] {
        "buffer" => serde_json::from_str(&text).map(|buffer: Buffer| encoded(buffer)),
        "format" => serde_json::from_str(&text).map(named),
        _ => serde_json::from_str(&text).map(|locale: Locale| locale.name().into()),
    };
    // The fault of a JSON text has no name here.
    Ok(result.map_or("err?".into(), |text| format!("ok {text}")))
}

fn main() {
    for line in io::stdin().lines().map(Result::unwrap) {
        let (table, fields) = line.split_once('\t').unwrap();
        match outcome(table, &fields.split('\t').collect::<Vec<_>>()) {
            Ok(returned) => println!("{returned}"),
            Err(reason) => println!("! {reason}"),
        }
    }
}
