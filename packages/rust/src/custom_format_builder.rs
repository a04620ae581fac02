use crate::custom_format::CustomFormat;
use crate::error::Error;
use crate::format::Format;
use crate::grouping::Grouping;
use crate::locale::Locale;
use crate::strings::{DecString, InfString, MinString, NanString, PlusString, SepString};

/// A builder of a [`CustomFormat`]. [`CustomFormat::builder`] and [`CustomFormat::into_builder`] return it.
///
/// A text that is too long is an error of [`build`](CustomFormatBuilder::build), unless it is set again.
#[derive(Clone, Debug, PartialEq, Eq, Hash)]
#[cfg_attr(feature = "with-serde", derive(serde::Serialize, serde::Deserialize))]
pub struct CustomFormatBuilder {
    dec: Result<DecString, Error>,
    grp: Grouping,
    inf: Result<InfString, Error>,
    min: Result<MinString, Error>,
    nan: Result<NanString, Error>,
    plus: Result<PlusString, Error>,
    sep: Result<SepString, Error>,
}

impl CustomFormatBuilder {
    /// Returns the format.
    ///
    /// # Errors
    ///
    /// Of kind [`Capacity`](crate::ErrorKind::Capacity) if a text is too long. Of several it is that of the
    /// decimal mark, else of infinity, of the minus sign, of NaN, of the plus sign, of the separator.
    pub fn build(self) -> Result<CustomFormat, Error> {
        Ok(CustomFormat {
            dec: self.dec?,
            grp: self.grp,
            inf: self.inf?,
            min: self.min?,
            nan: self.nan?,
            plus: self.plus?,
            sep: self.sep?,
        })
    }

    /// Sets the decimal mark, of at most 8 bytes.
    pub fn decimal<S: AsRef<str>>(mut self, s: S) -> Self {
        self.dec = DecString::new(s);
        self
    }

    /// Sets all that a format has.
    pub fn format<F: Format>(mut self, value: &F) -> Self {
        self.dec = Ok(value.decimal().into());
        self.grp = value.grouping();
        self.inf = Ok(value.infinity().into());
        self.min = Ok(value.minus_sign().into());
        self.nan = Ok(value.nan().into());
        self.plus = Ok(value.plus_sign().into());
        self.sep = Ok(value.separator().into());
        self
    }

    /// Sets where separators are put between digits.
    pub fn grouping(mut self, value: Grouping) -> Self {
        self.grp = value;
        self
    }

    /// Sets the text for infinity, of at most 128 bytes.
    pub fn infinity<S: AsRef<str>>(mut self, s: S) -> Self {
        self.inf = InfString::new(s);
        self
    }

    /// Sets the minus sign, of at most 8 bytes.
    pub fn minus_sign<S: AsRef<str>>(mut self, s: S) -> Self {
        self.min = MinString::new(s);
        self
    }

    /// Sets the text for a value that is not a number, of at most 64 bytes.
    pub fn nan<S: AsRef<str>>(mut self, s: S) -> Self {
        self.nan = NanString::new(s);
        self
    }

    /// Sets the plus sign, of at most 8 bytes.
    pub fn plus_sign<S: AsRef<str>>(mut self, s: S) -> Self {
        self.plus = PlusString::new(s);
        self
    }

    /// Sets the separator between groups of digits, of at most 8 bytes.
    pub fn separator<S: AsRef<str>>(mut self, s: S) -> Self {
        self.sep = SepString::new(s);
        self
    }
}

impl From<CustomFormat> for CustomFormatBuilder {
    fn from(format: CustomFormat) -> CustomFormatBuilder {
        CustomFormatBuilder {
            dec: Ok(format.dec),
            grp: format.grp,
            inf: Ok(format.inf),
            min: Ok(format.min),
            nan: Ok(format.nan),
            plus: Ok(format.plus),
            sep: Ok(format.sep),
        }
    }
}

impl From<Locale> for CustomFormatBuilder {
    fn from(locale: Locale) -> CustomFormatBuilder {
        CustomFormat::from(locale).into()
    }
}
