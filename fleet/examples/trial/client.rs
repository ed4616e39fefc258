//! Clients that count, each with keys of its own, and read the keys of others.
use crate::count_service::began_at;
use crate::key::Key;
use crate::message::{now, Asked, Told};
use crate::permits::Permits;
use crate::tally::Tally;
use durkenzo_fleet::{Answer, CallError, Retry, Router};
use std::sync::atomic::{AtomicBool, AtomicU64, Ordering};
use std::sync::{Arc, Mutex, MutexGuard, PoisonError};
use std::thread;
use std::time::Duration;

/// One in this many calls reads a key of the client, and one in this many reads any key.
const READS: u64 = 8;

/// The state that all clients share.
#[derive(Debug)]
pub struct Shared {
    pub tally: Tally,
    pub permits: Box<[Permits]>,
    /// When the last answered call of each shard began.
    pub answered: Box<[AtomicU64]>,
    /// For each key, the last answer to its client: the beginning of the shard, and how many calls were counted since.
    told: Box<[Mutex<(u64, u64)>]>,
    /// A number that rises when a fault begins or ends. It is odd while there is no fault.
    pub calm: AtomicU64,
    /// When each fault began, and when all shards were answered after it.
    faults: Mutex<Vec<(u64, u64)>>,
    pub is_over: AtomicBool,
    pub patience: Duration,
    pub rest: Duration,
}

/// One of the clients.
pub struct Client {
    pub shared: Arc<Shared>,
    pub routers: [Arc<Router>; 2],
    pub chance: Chance,
    /// The first of its keys.
    pub first: u32,
    pub keys: Box<[Key]>,
}

/// Pseudo-random numbers. The same seed gives the same numbers.
#[derive(Clone, Copy, Debug)]
pub struct Chance(u64);

impl Chance {
    pub fn new(seed: u64) -> Chance {
        Chance(seed.wrapping_mul(0x9e37_79b9_7f4a_7c15) | 1)
    }

    /// Returns a number below this one.
    pub fn below(&mut self, end: u64) -> u64 {
        self.0 ^= self.0 << 13;
        self.0 ^= self.0 >> 7;
        self.0 ^= self.0 << 17;
        (self.0 >> 11) % end
    }
}

/// A call that was answered.
struct Answered {
    shard: u16,
    least: u64,
    answer: Answer,
}

impl Shared {
    pub fn new(shards: u16, keys: u32, (patience, rest): (Duration, Duration)) -> Shared {
        Shared {
            tally: Tally::default(),
            permits: (0..shards).map(|_| Permits::default()).collect(),
            answered: (0..shards).map(|_| AtomicU64::new(0)).collect(),
            told: (0..keys).map(|_| Mutex::default()).collect(),
            calm: AtomicU64::new(0),
            faults: Mutex::default(),
            is_over: AtomicBool::new(false),
            patience,
            rest,
        }
    }

    /// Notes that a fault begins.
    pub fn begin_fault(&self) {
        self.calm.fetch_add(1, Ordering::SeqCst);
        self.faults().push((now(), u64::MAX));
    }

    /// Notes that all is well again.
    pub fn end_fault(&self) {
        if let Some(last) = self.faults().last_mut() {
            last.1 = now();
        }
        self.calm.fetch_add(1, Ordering::SeqCst);
    }

    fn faults(&self) -> MutexGuard<'_, Vec<(u64, u64)>> {
        self.faults.lock().unwrap_or_else(PoisonError::into_inner)
    }

    /// Returns whether there was no fault at this time.
    fn was_calm(&self, time: u64) -> bool {
        let faults = self.faults();
        !faults.iter().any(|it| (it.0..=it.1).contains(&time))
    }

    fn told(&self, key: u32) -> (u64, u64) {
        let told = self.told[key as usize].lock();
        *told.unwrap_or_else(PoisonError::into_inner)
    }

    fn note_told(&self, key: u32, told: (u64, u64)) {
        let mut noted = self.told[key as usize]
            .lock()
            .unwrap_or_else(PoisonError::into_inner);
        *noted = told;
    }
}

impl Client {
    /// Calls until the trial is over.
    pub fn run(mut self) {
        while !self.shared.is_over.load(Ordering::SeqCst) {
            match self.chance.below(READS) {
                0 => self.read_other(),
                kind => self.count(kind == 1),
            }
            thread::sleep(self.shared.rest);
        }
    }

    /// Counts with one of its keys, or reads the key.
    fn count(&mut self, is_read: bool) {
        let index = self.chance.below(self.keys.len() as u64) as usize;
        let key = self.first + index as u32;
        let number = if is_read { 0 } else { self.keys[index].next() };
        match self.call(Asked { key, number }) {
            Ok(Some(answered)) => {
                let Some(told) = self.told_by(&answered) else {
                    return;
                };
                self.shared.note_told(key, (told.origin, told.count));
                let (what, origin) = (
                    format!("key {key} of shard {}", answered.shard),
                    told.origin,
                );
                match self.keys[index].take(told, number) {
                    Ok(0) => {}
                    Ok(_) if self.shared.was_calm(began_at(origin)) => {
                        let why = "the shard began without its counts in calm";
                        let what = format!("{what}: {why}");
                        self.shared.tally.in_calm(began_at(origin), what);
                    }
                    Ok(lost) => self.shared.tally.lost(lost),
                    Err(why) => self.shared.tally.wrong(format!("{what}: {why}")),
                }
            }
            Err(CallError::Unsure(_)) if number > 0 => self.keys[index].unsure(number),
            Ok(None) | Err(CallError::Unsure(_) | CallError::NotMade(_)) => {}
        }
    }

    /// Reads any key. The counts that its client was told before must still be there, unless they were lost since.
    fn read_other(&mut self) {
        let key = self.chance.below(self.shared.told.len() as u64) as u32;
        let (origin, count) = self.shared.told(key);
        let Ok(Some(answered)) = self.call(Asked { key, number: 0 }) else {
            return;
        };
        let Some(told) = self.told_by(&answered) else {
            return;
        };
        if told.origin == origin && told.count < count {
            let what = format!("key {key} of shard {}", answered.shard);
            let why = format!("{count} were counted before a read of {}", told.count);
            self.shared.tally.wrong(format!("{what}: {why}"));
        }
    }

    /// Calls by the map of the store, or by the map of a server.
    fn call(&mut self, asked: Asked) -> Result<Option<Answered>, CallError> {
        let shared = &*self.shared;
        let router = &self.routers[self.chance.below(2) as usize];
        let name = asked.key.to_string();
        let shard = router.sharding().shard_of(name.as_bytes());
        let least = shared.permits[usize::from(shard)].least();
        let (calm, began) = (shared.calm.load(Ordering::SeqCst), now());
        let told = router.call(
            name.as_bytes(),
            &asked.bytes(),
            Retry::Until(shared.patience),
        );
        let is_calm = calm % 2 == 1 && calm == shared.calm.load(Ordering::SeqCst);
        match told {
            Ok(answer) => {
                let took = (now() - began) / 1_000;
                shared.tally.answered(asked.number == 0, answer.hops, took);
                shared.answered[usize::from(shard)].fetch_max(began, Ordering::SeqCst);
                Ok(Some(Answered {
                    shard,
                    least,
                    answer,
                }))
            }
            Err(error) => {
                match &error {
                    CallError::Unsure(_) => shared.tally.unsure(),
                    CallError::NotMade(_) => shared.tally.refused(),
                }
                if is_calm {
                    shared
                        .tally
                        .in_calm(now(), format!("shard {shard}: {error}"));
                }
                Err(error)
            }
        }
    }

    /// Returns the service's answer, after noting which process executed the call.
    fn told_by(&self, answered: &Answered) -> Option<Told> {
        let (tally, shard) = (&self.shared.tally, answered.shard);
        let Some(told) = Told::read(&answered.answer.bytes) else {
            tally.wrong(format!("an answer of shard {shard} can't be read"));
            return None;
        };
        let permits = &self.shared.permits[usize::from(shard)];
        if let Err(why) = permits.note(answered.answer.fence, &told, answered.least) {
            let server = answered.answer.server;
            tally.wrong(format!("shard {shard}, server {server}: {why}"));
        }
        Some(told)
    }
}
