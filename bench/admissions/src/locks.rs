//! A lock for each shard, round its record. An admission is the lock held.

use crate::choice::{SHARDS, at_random, chained};
use std::hint::black_box;
use std::sync::Mutex;

const CEILING: u64 = (1 << 36) - 1;

struct LockedRecord {
    owner: u16,
    admitted: bool,
    generation: u64,
}

struct RecordLocks(Vec<Mutex<LockedRecord>>);

impl RecordLocks {
    fn new() -> RecordLocks {
        let record = |_| Mutex::new(LockedRecord { owner: 1, admitted: false, generation: 1 });
        black_box(RecordLocks((0..SHARDS).map(record).collect()))
    }

    fn look(&self, shard: usize) -> u64 {
        let record = self.0[shard].lock().unwrap();
        if record.admitted { 0 } else { u64::from(record.owner) + record.generation }
    }

    fn refuse(&self, shard: usize) -> u64 {
        let record = self.0[shard].lock().unwrap();
        if record.owner != 2 { record.generation } else { 0 }
    }

    fn admit_and_finish(&self, shard: usize) -> u64 {
        let mut record = self.0[shard].lock().unwrap();
        if record.owner != 1 || record.admitted || record.generation > CEILING - 2 {
            return 0;
        }
        record.generation += 2;
        record.generation
    }
}

// A record and a body under one lock, of which the body is a count.
struct Bodies(Vec<Mutex<(LockedRecord, u64)>>);

impl Bodies {
    fn new() -> Bodies {
        let record = || LockedRecord { owner: 1, admitted: false, generation: 1 };
        black_box(Bodies((0..SHARDS).map(|_| Mutex::new((record(), 0))).collect()))
    }

    fn execute(&self, shard: usize) -> u64 {
        let mut guard = self.0[shard].lock().unwrap();
        let (record, body) = &mut *guard;
        if record.owner != 1 || record.admitted || record.generation > CEILING - 2 {
            return 0;
        }
        *body += 1;
        record.generation += 2;
        *body
    }
}

pub fn looks(operations: u64) -> u64 {
    let locks = RecordLocks::new();
    at_random(operations, |shard| locks.look(shard))
}

pub fn chained_looks(operations: u64) -> u64 {
    let locks = RecordLocks::new();
    chained(operations, |shard| locks.look(shard))
}

pub fn admissions(operations: u64) -> u64 {
    let locks = RecordLocks::new();
    at_random(operations, |shard| locks.admit_and_finish(shard))
}

pub fn refusals(operations: u64) -> u64 {
    let locks = RecordLocks::new();
    at_random(operations, |shard| locks.refuse(shard))
}

pub fn executions(operations: u64) -> u64 {
    let bodies = Bodies::new();
    at_random(operations, |shard| bodies.execute(shard))
}

/// Takes the first lock so many times, and counts.
pub fn takes(operations: u64) -> u64 {
    let locks = RecordLocks::new();
    let mut made = 0u64;
    for _ in 0..operations {
        black_box(locks.look(0));
        made = made.wrapping_add(1);
    }
    made
}
