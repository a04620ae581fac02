#![no_std]
#![doc = "`num-format-proved`, by the name of `num-format`, for `[patch.crates-io]`."]

pub use proved::*;
