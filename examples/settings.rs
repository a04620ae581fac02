//! Reads formats from settings files, and accepts those by which every number reads back.

use std::{env, fs, process};

#[repr(C)]
#[derive(Default)]
struct NumFormat {
    texts: [u8; 24],
    lengths: [u8; 3],
    grouping: u8,
    reserved: [u8; 4],
}

extern "C" {
    fn num_format_custom(
        format: *mut NumFormat, separator: *const u8, separator_length: usize,
        grouping: u32, minus_sign: *const u8, minus_sign_length: usize,
    ) -> i32;
    fn num_format_reads_back(format: *const NumFormat) -> i32;
    fn num_format_print_i64(format: *const NumFormat, number: i64, text: *mut u8, capacity: usize) -> i32;
}

/// The value of a key in lines of `key=value`.
fn value<'a>(settings: &'a str, key: &str) -> &'a str {
    let pairs = settings.lines().filter_map(|line| line.split_once('='));
    pairs.filter(|(k, _)| *k == key).map(|(_, v)| v).last().unwrap_or("")
}

/// The format of a settings file, or why it is refused.
fn read(settings: &str) -> Result<NumFormat, &'static str> {
    let (separator, minus_sign) = (value(settings, "separator"), value(settings, "minus_sign"));
    let grouping = value(settings, "grouping").parse().unwrap_or(0);
    let mut format = NumFormat::default();
    // The texts and the struct live through the call, and the struct is borrowed by nothing else.
    let filled = unsafe {
        num_format_custom(
            &mut format, separator.as_ptr(), separator.len(), grouping, minus_sign.as_ptr(), minus_sign.len(),
        )
    };
    match (filled, unsafe { num_format_reads_back(&format) }) {
        (0, 1) => Ok(format),
        (0, _) => Err("its numbers do not read back"),
        _ => Err("it is no format"),
    }
}

fn main() {
    for path in env::args().skip(1) {
        let settings = fs::read_to_string(&path).unwrap_or_else(|_| process::exit(1));
        match read(&settings) {
            Ok(format) => {
                let mut text = [0; 191];
                let length = unsafe { num_format_print_i64(&format, -1234567, text.as_mut_ptr(), text.len()) };
                println!("{path}: {}", String::from_utf8_lossy(&text[..length as usize]));
            }
            Err(why) => println!("{path}: refused, {why}"),
        }
    }
}
