use std::sync::atomic::{AtomicU64, Ordering};

/// The traffic between this process and others.
#[derive(Debug, Default)]
pub struct LinkCounts {
    pub(super) sent: AtomicU64,
    pub(super) came: AtomicU64,
    pub(super) again: AtomicU64,
    pub(super) refused: AtomicU64,
}

impl LinkCounts {
    /// Returns how many requests were sent to other processes.
    pub fn sent(&self) -> u64 {
        self.sent.load(Ordering::Relaxed)
    }

    /// Returns how many requests came from other processes.
    pub fn came(&self) -> u64 {
        self.came.load(Ordering::Relaxed)
    }

    /// Returns how many requests went on here after another process gave them back.
    pub fn again(&self) -> u64 {
        self.again.load(Ordering::Relaxed)
    }

    /// Returns how many requests were refused because a process couldn't be reached.
    pub fn refused(&self) -> u64 {
        self.refused.load(Ordering::Relaxed)
    }
}
