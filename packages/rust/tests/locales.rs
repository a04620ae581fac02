//! The locales: their names and their data.

use num_format::{Format, Locale};

#[test]
fn names() {
    let names = Locale::available_names();
    assert_eq!(names.len(), 542);
    assert_eq!((names[0], names[541]), ("af", "zu"));
    assert!(names.windows(2).all(|pair| pair[0] < pair[1]));
    for name in names {
        let locale = Locale::from_name(name).unwrap();
        assert_eq!(locale.name(), *name);
        assert_eq!(name.replace('-', "_").parse(), Ok(locale));
        // A variant has the name with underscores, and `as` is a keyword.
        let variant = if *name == "as" { "as_".into() } else { name.replace('-', "_") };
        assert_eq!(format!("{locale:?}"), variant);
    }
}

#[test]
fn the_trait_has_the_same_data() {
    for name in Locale::available_names() {
        let locale = Locale::from_name(name).unwrap();
        assert_eq!(Format::decimal(&locale).into_str(), locale.decimal());
        assert_eq!(Format::grouping(&locale), locale.grouping());
        assert_eq!(Format::infinity(&locale).into_str(), locale.infinity());
        assert_eq!(Format::minus_sign(&locale).into_str(), locale.minus_sign());
        assert_eq!(Format::nan(&locale).into_str(), locale.nan());
        assert_eq!(Format::plus_sign(&locale).into_str(), locale.plus_sign());
        assert_eq!(Format::separator(&locale).into_str(), locale.separator());
    }
}

/// A locale is an enum, so its variants can be imported and matched.
#[test]
fn variants() {
    use Locale::{en, en_GB};
    let region = |locale| match locale {
        en => "the world",
        en_GB => "Great Britain",
        _ => "elsewhere",
    };
    assert_eq!(region("en_GB".parse().unwrap()), "Great Britain");
    assert!(en < en_GB);
}
