//! A shard: who executes its requests, who forwards them, and the counts that it keeps, each behind a lock.

use std::collections::BTreeMap;
use std::sync::{Mutex, RwLock};

/// Who executes, and who forwards to whom.
#[derive(Clone, Copy, Default)]
pub struct Ownership {
    pub executor: Option<usize>,
    pub forwards: Option<(usize, usize)>,
}

#[derive(Default)]
pub struct Shard {
    stand: RwLock<Ownership>,
    body: Mutex<CountedBody>,
}

#[derive(Default)]
struct CountedBody {
    counts: BTreeMap<Vec<u8>, i64>,
    applied: u64,
}

/// What a server does with a request.
pub enum ServeOutcome {
    Answered(i64),
    Forward(usize, Vec<u8>),
    Refused,
}

impl Shard {
    /// Adds 1 to the key's count, if this server executes. The stand can't change meanwhile.
    pub fn serve(&self, server: usize, key: Vec<u8>) -> ServeOutcome {
        let stand = self.stand.read().unwrap();
        match (stand.executor, stand.forwards) {
            (Some(executor), _) if executor == server => ServeOutcome::Answered(self.body.lock().unwrap().add(key)),
            (_, Some((from, to))) if from == server => ServeOutcome::Forward(to, key),
            _ => ServeOutcome::Refused,
        }
    }

    pub fn change(&self, stand: Ownership) {
        *self.stand.write().unwrap() = stand;
    }

    pub fn applied(&self) -> u64 {
        self.body.lock().unwrap().applied
    }
}

impl CountedBody {
    fn add(&mut self, key: Vec<u8>) -> i64 {
        self.applied += 1;
        let count = self.counts.entry(key).or_insert(0);
        *count += 1;
        *count
    }
}
