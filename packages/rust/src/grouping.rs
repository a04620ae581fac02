/// Where separators are put between the digits of a number.
///
/// With the feature `with-more-groupings` there are also `Myriad` and `Sparse`, which num-format does not have. A `match`
/// needs an arm for them where any crate in the build asks for that feature.
#[derive(Clone, Copy, Debug, PartialEq, Eq, Hash)]
#[cfg_attr(feature = "with-serde", derive(serde::Serialize, serde::Deserialize))]
pub enum Grouping {
    /// Groups of three digits: `1,000,000`.
    Standard,
    /// A last group of three digits, and groups of two before it: `10,00,000`.
    Indian,
    /// No groups: `1000000`.
    Posix,
    /// Groups of four digits: `100,0000`.
    #[cfg(feature = "with-more-groupings")]
    Myriad,
    /// Groups of three digits, for numbers of five digits and more: `1000` and `10,000`.
    #[cfg(feature = "with-more-groupings")]
    Sparse,
}
