//! A latch between the threads of a test, and a gate at which one call stays.
use sm_cluster::Gate;
use sm_ranges::server_id::ServerId;
use std::sync::atomic::{AtomicBool, Ordering};
use std::sync::{Arc, Wait};
use std::thread;

/// How often a thread looks before it gives up.
const LOOKS: u32 = 100_000_000;

/// One thread stays here until another lets it go.
#[derive(Drop)]
pub(crate) struct Latch {
    is_held: AtomicBool,
    may_go: AtomicBool,
    has_given_up: AtomicBool,
}

impl Latch {
    pub(crate) fn new() -> Latch {
        Latch {
            is_held: AtomicBool::new(false),
            may_go: AtomicBool::new(false),
            has_given_up: AtomicBool::new(false),
        }
    }

    /// Stays until another thread lets it go, or all looks are made.
    pub(crate) fn stay(&self) {
        self.is_held.store(true, Ordering::SeqCst);
        if !is_seen(&self.may_go) {
            self.has_given_up.store(true, Ordering::SeqCst);
        }
    }

    /// Whether a thread came to stay before all looks were made.
    pub(crate) fn is_reached(&self) -> bool {
        is_seen(&self.is_held)
    }

    /// Lets the thread that stays go.
    pub(crate) fn release(&self) {
        self.may_go.store(true, Ordering::SeqCst);
    }

    /// Whether a thread stayed until all looks were made.
    pub(crate) fn has_given_up(&self) -> bool {
        self.has_given_up.load(Ordering::SeqCst)
    }
}

// Whether the flag is seen up before all looks are made.
fn is_seen(flag: &AtomicBool) -> bool {
    for _ in 0..LOOKS {
        if flag.load(Ordering::SeqCst) {
            return true;
        }
        thread::yield_now();
    }
    false
}

/// The gate at which the call of this number stays.
#[derive(Drop)]
pub(crate) struct Holds {
    pub(crate) number: u64,
    pub(crate) latch: Arc<Latch>,
}

impl Gate for Holds {
    fn pass<R: Wait>(&self, _rt: &R, _server: ServerId, number: u64) {
        if number == self.number {
            self.latch.stay();
        }
    }
}
