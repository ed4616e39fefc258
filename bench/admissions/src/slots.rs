//! A body for each shard in a cell beside its atomic word: only who is admitted touches it. A body is a count.

use crate::choice::{SHARDS, at_random};
use crate::words::AtomicWords;
use std::cell::UnsafeCell;
use std::hint::black_box;

struct Slots {
    words: AtomicWords,
    bodies: Box<[UnsafeCell<u64>; SHARDS]>,
}

// SAFETY: a body is reached by `execute` alone, between an admission that was won and its end, of which a word has one at a time.
unsafe impl Sync for Slots {}

impl Slots {
    fn new() -> Slots {
        let bodies: Box<[UnsafeCell<u64>]> = (0..SHARDS).map(|_| UnsafeCell::new(0)).collect();
        black_box(Slots { words: AtomicWords::new(), bodies: bodies.try_into().unwrap() })
    }

    fn execute(&self, shard: usize) -> u64 {
        let Some(admitted) = self.words.admit(shard) else { return 0 };
        // SAFETY: the admission was won, and isn't ended yet.
        let body = unsafe { &mut *self.bodies[shard].get() };
        *body += 1;
        let count = *body;
        self.words.finish(shard, admitted);
        count
    }
}

pub fn executions(operations: u64) -> u64 {
    let slots = Slots::new();
    at_random(operations, |shard| slots.execute(shard))
}
