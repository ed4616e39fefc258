use crate::{Outcome, StoreSize, WriteError};
use std::sync::atomic::{AtomicBool, AtomicU64, Ordering};
use std::time::{Duration, Instant};

/// Bounds of the times that transactions take, in microseconds.
pub const TRANSACTION_BOUNDS: [u64; 12] = [
    100, 250, 500, 1_000, 2_500, 5_000, 10_000, 25_000, 100_000, 250_000, 1_000_000, 5_000_000,
];

/// The outcomes of the transactions that a process sent to its store, how long they took, and when the store last
/// answered.
#[derive(Debug)]
pub struct StoreCounts {
    begun: Instant,
    made: AtomicU64,
    lost: AtomicU64,
    unknown: AtomicU64,
    failed: AtomicU64,
    written: AtomicU64,
    times: [AtomicU64; TRANSACTION_BOUNDS.len() + 1],
    micros: AtomicU64,
    /// Microseconds from the beginning to the last answer.
    answered: AtomicU64,
    is_full: AtomicBool,
    /// The compactions of history that were made, and those that failed or may have.
    compacted: AtomicU64,
    uncompacted: AtomicU64,
    /// The size of the store as it was read last.
    file: AtomicU64,
    used: AtomicU64,
    quota: AtomicU64,
}

impl StoreCounts {
    /// Begins to count. The store must not have been asked anything before this moment.
    pub fn new(begun: Instant) -> StoreCounts {
        StoreCounts {
            begun,
            made: AtomicU64::default(),
            lost: AtomicU64::default(),
            unknown: AtomicU64::default(),
            failed: AtomicU64::default(),
            written: AtomicU64::default(),
            times: Default::default(),
            micros: AtomicU64::default(),
            answered: AtomicU64::default(),
            is_full: AtomicBool::default(),
            compacted: AtomicU64::default(),
            uncompacted: AtomicU64::default(),
            file: AtomicU64::default(),
            used: AtomicU64::default(),
            quota: AtomicU64::default(),
        }
    }

    pub(crate) fn note_transaction(&self, outcome: &Result<Outcome, WriteError>, took: Duration) {
        let count = match outcome {
            Ok(Outcome::Made(_)) => &self.made,
            Ok(Outcome::Lost(_)) => &self.lost,
            Err(WriteError::Unknown(_)) => &self.unknown,
            Err(WriteError::Full(_)) => {
                self.is_full.store(true, Ordering::Relaxed);
                &self.failed
            }
            Err(
                WriteError::Unreachable(_)
                | WriteError::Unavailable(_)
                | WriteError::TooLarge(_)
                | WriteError::LeaseEnded
                | WriteError::Damaged(_)
                | WriteError::Denied(_)
                | WriteError::Stopped,
            ) => &self.failed,
        };
        count.fetch_add(1, Ordering::Relaxed);
        let micros = took.as_micros() as u64;
        let place = TRANSACTION_BOUNDS.partition_point(|it| *it < micros);
        self.times[place].fetch_add(1, Ordering::Relaxed);
        self.micros.fetch_add(micros, Ordering::Relaxed);
    }

    /// Notes that a transaction was made that wrote so many bytes.
    pub(crate) fn note_written(&self, bytes: usize) {
        self.written.fetch_add(bytes as u64, Ordering::Relaxed);
        if bytes > 0 {
            self.is_full.store(false, Ordering::Relaxed);
        }
    }

    pub(crate) fn note_answer(&self, now: Instant) {
        let micros = now.saturating_duration_since(self.begun).as_micros() as u64;
        self.answered.fetch_max(micros, Ordering::Relaxed);
    }

    pub(crate) fn note_compaction(&self, is_made: bool) {
        let count = match is_made {
            true => &self.compacted,
            false => &self.uncompacted,
        };
        count.fetch_add(1, Ordering::Relaxed);
    }

    pub(crate) fn note_size(&self, size: StoreSize) {
        self.file.store(size.file, Ordering::Relaxed);
        self.used.store(size.used, Ordering::Relaxed);
        let quota = size.quota.unwrap_or(0);
        self.quota.store(quota, Ordering::Relaxed);
    }

    /// Returns how many compactions of the store's history were made, and how many failed.
    pub fn compactions(&self) -> [(&'static str, u64); 2] {
        let read = |it: &AtomicU64| it.load(Ordering::Relaxed);
        [
            ("made", read(&self.compacted)),
            ("failed", read(&self.uncompacted)),
        ]
    }

    /// Returns the size of the store as it was read last. It is 0 if nobody asked the store.
    pub fn size(&self) -> StoreSize {
        let quota = self.quota.load(Ordering::Relaxed);
        StoreSize {
            file: self.file.load(Ordering::Relaxed),
            used: self.used.load(Ordering::Relaxed),
            quota: Some(quota).filter(|it| *it > 0),
        }
    }

    /// Returns how many transactions were made, were lost because of a compare, have an unknown outcome, and failed.
    pub fn outcomes(&self) -> [(&'static str, u64); 4] {
        let read = |it: &AtomicU64| it.load(Ordering::Relaxed);
        [
            ("made", read(&self.made)),
            ("lost", read(&self.lost)),
            ("unknown", read(&self.unknown)),
            ("failed", read(&self.failed)),
        ]
    }

    /// Returns how many transactions took at most each of [`TRANSACTION_BOUNDS`], each counted once, and last how many
    /// took longer.
    pub fn times(&self) -> [u64; TRANSACTION_BOUNDS.len() + 1] {
        std::array::from_fn(|it| self.times[it].load(Ordering::Relaxed))
    }

    /// Returns the microseconds that all transactions took.
    pub fn micros(&self) -> u64 {
        self.micros.load(Ordering::Relaxed)
    }

    /// Returns the bytes of keys and values that transactions wrote.
    pub fn bytes_written(&self) -> u64 {
        self.written.load(Ordering::Relaxed)
    }

    /// Returns for how long the store hasn't answered anything at this moment.
    pub fn silence(&self, now: Instant) -> Duration {
        let answered = Duration::from_micros(self.answered.load(Ordering::Relaxed));
        now.saturating_duration_since(self.begun + answered)
    }

    /// Returns whether the store had no room for the last write that it judged.
    pub fn is_full(&self) -> bool {
        self.is_full.load(Ordering::Relaxed)
    }
}
