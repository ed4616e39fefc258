use std::sync::atomic::{AtomicU64, Ordering};
use std::sync::Arc;
use std::time::{Duration, Instant};

/// The clock of a schedule. All its processes and its store use it.
#[derive(Clone)]
pub struct Time {
    beginning: Instant,
    milliseconds: Arc<AtomicU64>,
}

impl Time {
    /// Returns a clock at its beginning.
    pub fn new() -> Time {
        Time {
            beginning: Instant::now(),
            milliseconds: Arc::default(),
        }
    }

    /// Returns the time since the beginning.
    pub fn passed(&self) -> Duration {
        Duration::from_millis(self.milliseconds.load(Ordering::Relaxed))
    }

    /// Returns this moment. The seed decides only the time between two moments.
    pub fn now(&self) -> Instant {
        self.moment(self.passed())
    }

    /// Returns the moment at this time.
    pub fn moment(&self, passed: Duration) -> Instant {
        self.beginning + passed
    }

    /// Moves the clock forward.
    pub fn pass(&self, milliseconds: u64) {
        self.milliseconds.fetch_add(milliseconds, Ordering::Relaxed);
    }
}
