use super::{allocator, resident, used};
use std::time::{Duration, Instant};

/// The least time between two checks whether memory can be returned.
const PAUSE: Duration = Duration::from_secs(1);
/// How much must have come since memory was last returned, and how much of it must be free.
const LEAST: u64 = 16 << 20;
/// One part in so many of the used memory must be free, too.
const OF_USED: u64 = 4;
/// A check that took long is followed by a pause of so many times its length.
const REST: u32 = 20;

/// From time to time returns the process' free memory to the system, because the C library keeps most of it.
#[derive(Debug)]
pub struct Trimmer {
    /// How many bytes the process had when memory was last returned, or fewer since.
    least: u64,
    next: Instant,
}

impl Default for Trimmer {
    fn default() -> Trimmer {
        Trimmer {
            least: resident(),
            next: Instant::now() + PAUSE,
        }
    }
}

impl Trimmer {
    /// Returns free memory to the system, if it is much and memory wasn't returned just before.
    pub fn look(&mut self) {
        let began = Instant::now();
        if began < self.next {
            return;
        }
        let resident = resident();
        self.least = self.least.min(resident);
        if resident > self.least + LEAST {
            let used = used();
            if resident > used + LEAST.max(used / OF_USED) {
                allocator::trim();
                self.least = super::resident();
            }
        }
        let now = Instant::now();
        self.next = now + PAUSE.max(now.duration_since(began) * REST);
    }
}
