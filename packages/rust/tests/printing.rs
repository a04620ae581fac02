//! Numbers as texts: what the tables of cases do not say of them. `replay.rs` prints them.

use num_format::{Buffer, Locale, ToFormattedStr};

/// No more memory than its text takes.
#[cfg(feature = "std")]
#[test]
fn a_string_is_as_long_as_its_text() {
    use num_format::ToFormattedString;

    let text = 1_234_567.to_formatted_string(&Locale::en);
    assert_eq!((text.len(), text.capacity()), (9, 9));
}

#[test]
fn a_buffer_is_written_again() {
    let mut buffer = Buffer::default();
    assert!(buffer.is_empty());
    buffer.write_formatted(&-1_000_000, &Locale::en);
    let copy = buffer;
    buffer.write_formatted(&7, &Locale::en);
    assert_eq!((&*copy, &*buffer), ("-1,000,000", "7"));
    assert_eq!(format!("{buffer} {copy:?}"), "7 -1,000,000");
    let borrowed: &str = std::borrow::Borrow::borrow(&copy);
    assert_eq!((borrowed, copy.as_ref()), ("-1,000,000", "-1,000,000"));
    assert!(copy.starts_with("-1"));
}

#[test]
fn formatted_is_filled_up_to_a_width_in_characters() {
    let number = 1_000_000;
    let text = number.formatted(&Locale::fr);
    assert_eq!(format!("[{text:12}]"), "[   1\u{202f}000\u{202f}000]");
    assert_eq!(format!("[{text:<12}]"), "[1\u{202f}000\u{202f}000   ]");
    assert_eq!(format!("[{text:*^12}]"), "[*1\u{202f}000\u{202f}000**]");
    assert_eq!(format!("[{text:3}]"), "[1\u{202f}000\u{202f}000]");
    assert_eq!(format!("[{text:+#012.2}]"), "[   1\u{202f}000\u{202f}000]");
    assert_eq!(format!("[{text:?}]"), "[1\u{202f}000\u{202f}000]");
}
