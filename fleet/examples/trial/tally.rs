//! The counts of the outcomes that clients saw.
use crate::message::by_monotonic;
use std::fmt;
use std::sync::atomic::{AtomicU64, Ordering};
use std::sync::{Mutex, PoisonError};

/// The most findings that are printed.
const MOST: usize = 20;

/// The outcomes of all clients' calls so far.
#[derive(Debug, Default)]
pub struct Tally {
    calls: AtomicU64,
    reads: AtomicU64,
    forwarded: AtomicU64,
    unsure: AtomicU64,
    refused: AtomicU64,
    lost: AtomicU64,
    migrations: AtomicU64,
    drains: AtomicU64,
    in_calm: AtomicU64,
    wrong: AtomicU64,
    longest: AtomicU64,
    findings: Mutex<Vec<String>>,
}

/// The numbers of a tally at a moment.
#[derive(Clone, Copy, Debug, Default, PartialEq, Eq)]
pub struct Sums {
    /// Calls that were answered, and how many of them only read.
    pub calls: u64,
    pub reads: u64,
    pub forwarded: u64,
    /// Calls that may have been made, and calls for which nothing was done.
    pub unsure: u64,
    pub refused: u64,
    /// Answered calls that are lost, as the service was told.
    pub lost: u64,
    pub migrations: u64,
    pub drains: u64,
    /// Events that must not happen while there are no faults, and events that must never happen.
    pub in_calm: u64,
    pub wrong: u64,
}

fn one(of: &AtomicU64) {
    of.fetch_add(1, Ordering::Relaxed);
}

impl Tally {
    /// Notes an answer that took this many microseconds.
    pub fn answered(&self, is_read: bool, hops: u8, took: u64) {
        one(&self.calls);
        self.reads.fetch_add(u64::from(is_read), Ordering::Relaxed);
        self.forwarded
            .fetch_add(u64::from(hops > 0), Ordering::Relaxed);
        self.longest.fetch_max(took, Ordering::Relaxed);
    }

    pub fn unsure(&self) {
        one(&self.unsure);
    }

    pub fn refused(&self) {
        one(&self.refused);
    }

    pub fn lost(&self, count: u64) {
        self.lost.fetch_add(count, Ordering::Relaxed);
    }

    pub fn migrated(&self) {
        one(&self.migrations);
    }

    pub fn drained(&self) {
        one(&self.drains);
    }

    /// Notes an event in calm, at this time. It is wrong unless a lease ended by itself.
    pub fn in_calm(&self, time: u64, what: String) {
        one(&self.in_calm);
        println!("calm: {:.3} {what}", by_monotonic(time) as f64 / 1e9);
    }

    /// Notes an event that must never happen.
    pub fn wrong(&self, what: String) {
        one(&self.wrong);
        let mut all = self.findings.lock().unwrap_or_else(PoisonError::into_inner);
        if all.len() < MOST {
            println!("wrong: {what}");
            all.push(what);
        }
    }

    /// Returns how many milliseconds the longest answer took.
    pub fn longest(&self) -> u64 {
        self.longest.load(Ordering::Relaxed) / 1_000
    }

    pub fn sums(&self) -> Sums {
        let of = |it: &AtomicU64| it.load(Ordering::Relaxed);
        Sums {
            calls: of(&self.calls),
            reads: of(&self.reads),
            forwarded: of(&self.forwarded),
            unsure: of(&self.unsure),
            refused: of(&self.refused),
            lost: of(&self.lost),
            migrations: of(&self.migrations),
            drains: of(&self.drains),
            in_calm: of(&self.in_calm),
            wrong: of(&self.wrong),
        }
    }
}

impl Sums {
    /// Returns the difference to these earlier sums.
    pub fn since(self, earlier: Sums) -> Sums {
        Sums {
            calls: self.calls - earlier.calls,
            reads: self.reads - earlier.reads,
            forwarded: self.forwarded - earlier.forwarded,
            unsure: self.unsure - earlier.unsure,
            refused: self.refused - earlier.refused,
            lost: self.lost - earlier.lost,
            migrations: self.migrations - earlier.migrations,
            drains: self.drains - earlier.drains,
            in_calm: self.in_calm - earlier.in_calm,
            wrong: self.wrong - earlier.wrong,
        }
    }
}

impl fmt::Display for Sums {
    fn fmt(&self, f: &mut fmt::Formatter<'_>) -> fmt::Result {
        write!(
            f,
            "{} calls, {} reads, {} forwarded, {} unsure, {} refused, {} lost as told, {} migrations, {} drains, \
             {} in calm, {} wrong",
            self.calls,
            self.reads,
            self.forwarded,
            self.unsure,
            self.refused,
            self.lost,
            self.migrations,
            self.drains,
            self.in_calm,
            self.wrong
        )
    }
}
