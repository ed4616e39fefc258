//! The limits, which are constants of the proved crates.
// By tools/library-codes, the limits of library/codes.txt:

/// The most bytes that a key may have.
pub const MAX_KEY: usize = 255;

/// The most bytes that a text of the sample service may have.
pub const MAX_TEXT: usize = 65_535;

/// The greatest number of a shard.
pub const MAX_SHARD: u16 = 4_095;

/// The greatest number of a server.
pub const MAX_SERVER: u16 = 4_095;

/// The greatest ceiling of a board's generations.
pub const MAX_GENERATION: u64 = 68_719_476_735;

/// How many times a request is forwarded at most.
pub const MOST_HOPS: u8 = 4;
// End of them.
