//! The pseudo-random choices that all ways make, as crate/src/full_board.rs makes them.

pub const SHARDS: usize = 4096;

pub const FIRST_CHOICE: u64 = 88_172_645_463_325_252;

/// The next state of a pseudo-random choice (xorshift64).
pub fn next(state: u64) -> u64 {
    let state = state ^ (state << 13);
    let state = state ^ (state >> 7);
    state ^ (state << 17)
}

/// The shard that a choice picks.
pub fn shard_of(choice: u64) -> usize {
    (choice >> 40) as usize & (SHARDS - 1)
}

/// The sum of what the operation tells of shards chosen at random.
pub fn at_random(operations: u64, mut operation: impl FnMut(usize) -> u64) -> u64 {
    let (mut choice, mut told) = (FIRST_CHOICE, 0u64);
    for _ in 0..operations {
        choice = next(choice);
        told = told.wrapping_add(operation(shard_of(choice)));
    }
    told
}

/// The sum of what the operation tells, where each shard depends on what it told before.
pub fn chained(operations: u64, mut operation: impl FnMut(usize) -> u64) -> u64 {
    let (mut choice, mut told) = (FIRST_CHOICE, 0u64);
    for _ in 0..operations {
        choice = next(choice);
        told = told.wrapping_add(operation(shard_of(choice ^ told)));
    }
    told
}
