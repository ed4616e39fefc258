//! The limits, which are constants of the proved crates.
// By tools/library-codes, the limits of library/codes.txt:

/// The most bytes that a text of the sample service may have.
pub const MAX_TEXT: usize = 65_535;
// End of them.
