//! What num-format's documentation shows, by programs written anew.
#![cfg(feature = "std")]

use num_format::{Buffer, CustomFormat, Error, Grouping, Locale, ToFormattedString, WriteFormatted};

#[test]
fn formatted_strings() {
    assert_eq!(1000000.to_formatted_string(&Locale::en), "1,000,000");
    // Its first lines: US English, Indian English and French.
    assert_eq!(1000000.to_formatted_string(&Locale::en_IN), "10,00,000");
    assert_eq!(1000000.to_formatted_string(&Locale::fr), "1\u{202f}000\u{202f}000");
}

#[test]
fn buffers() {
    let mut buffer = Buffer::default();
    buffer.write_formatted(&1000000, &Locale::en);
    let text: &str = buffer.as_str();
    assert_eq!(text, "1,000,000");
}

#[test]
fn writers() {
    let mut writer = String::new();
    let _ = writer.write_formatted(&1000000, &Locale::en);
    assert_eq!(writer, "1,000,000");
}

#[test]
fn a_locale() {
    let locale = Locale::en;
    assert_eq!(locale.grouping(), Grouping::Standard);
    assert_eq!(locale.minus_sign(), "-");
    assert_eq!(locale.name(), "en");
    assert_eq!(locale.separator(), ",");
    assert_eq!(Locale::from_name("en").unwrap(), locale);
    assert!(Locale::available_names().contains(&"en"));
}

#[test]
fn a_custom_format() -> Result<(), Error> {
    let format = CustomFormat::builder().grouping(Grouping::Indian).minus_sign("🙌").separator("😀").build()?;
    let mut buffer = Buffer::new();
    buffer.write_formatted(&(-1000000), &format);
    assert_eq!(buffer.as_str(), "🙌10😀00😀000");
    Ok(())
}

#[test]
fn parsing() {
    use num_format::parsing::ParseFormatted;

    let number = "1,000,000".parse_formatted::<_, u32>(&Locale::en).unwrap();
    assert_eq!(number, 1_000_000);
}
