//! One atomic word for each shard, of the same parts as the board's, written by hand in Rust, with no check of bounds.

use crate::choice::{SHARDS, at_random, chained};
use std::hint::black_box;
use std::sync::atomic::{AtomicU64, Ordering::SeqCst};

// An idle shard that server 1 serves, and where the parts lie.
const SERVED_BY_1: u64 = 0x2001 << 48;
const ADMITTED: u64 = 1 << 60;
const GENERATION: u64 = (1 << 36) - 1;

pub struct AtomicWords(Box<[AtomicU64; SHARDS]>);

impl AtomicWords {
    pub fn new() -> AtomicWords {
        let words: Box<[AtomicU64]> = (0..SHARDS).map(|_| AtomicU64::new(SERVED_BY_1 + 1)).collect();
        black_box(AtomicWords(words.try_into().unwrap()))
    }

    fn look(&self, shard: usize) -> u64 {
        let word = self.0[shard].load(SeqCst);
        if word >> 60 == SERVED_BY_1 >> 60 { (word >> 48 & 4095) + (word & GENERATION) } else { 0 }
    }

    /// Admits server 1 by a load and an exchange; none where the shard isn't its own, is admitted or has spent its generations.
    pub fn admit(&self, shard: usize) -> Option<u64> {
        let word = self.0[shard].load(SeqCst);
        if word & !GENERATION != SERVED_BY_1 || word & GENERATION > GENERATION - 2 {
            return None;
        }
        let admitted = word + ADMITTED + 1;
        self.0[shard].compare_exchange(word, admitted, SeqCst, SeqCst).ok()?;
        Some(admitted)
    }

    /// The generation by which server 2 isn't admitted, as server 1 serves the shard.
    fn refuse(&self, shard: usize) -> u64 {
        let word = self.0[shard].load(SeqCst);
        if word >> 48 & 4095 != 2 { word & GENERATION } else { 0 }
    }

    /// Ends the admission by a store, and gives the shard's generation since then.
    pub fn finish(&self, shard: usize, admitted: u64) -> u64 {
        let word = admitted - ADMITTED + 1;
        self.0[shard].store(word, SeqCst);
        word & GENERATION
    }
}

pub fn looks(operations: u64) -> u64 {
    let words = AtomicWords::new();
    at_random(operations, |shard| words.look(shard))
}

pub fn chained_looks(operations: u64) -> u64 {
    let words = AtomicWords::new();
    chained(operations, |shard| words.look(shard))
}

pub fn admissions(operations: u64) -> u64 {
    let words = AtomicWords::new();
    at_random(operations, |shard| words.admit(shard).map_or(0, |admitted| words.finish(shard, admitted)))
}

pub fn refusals(operations: u64) -> u64 {
    let words = AtomicWords::new();
    at_random(operations, |shard| words.refuse(shard))
}

/// Loads the first word so many times, and counts.
pub fn loads(operations: u64) -> u64 {
    let words = AtomicWords::new();
    let mut made = 0u64;
    for _ in 0..operations {
        black_box(words.0[0].load(SeqCst));
        made = made.wrapping_add(1);
    }
    made
}

/// Loads it twice each time.
pub fn pairs_of_loads(operations: u64) -> u64 {
    let words = AtomicWords::new();
    let mut made = 0u64;
    for _ in 0..operations {
        black_box(words.0[0].load(SeqCst));
        black_box(words.0[0].load(SeqCst));
        made = made.wrapping_add(1);
    }
    made
}
