use std::time::{Duration, Instant};

/// How long a change is tried again while another thread has its shard.
pub(super) const PATIENCE: Duration = Duration::from_secs(2);

/// For how long a change is tried again, from its first refusal on.
#[derive(Debug, Default)]
pub(super) struct Patience {
    end: Option<Instant>,
}

impl Patience {
    /// Returns whether a change that was refused now must be tried again.
    pub(super) fn lasts(&mut self, now: Instant) -> bool {
        now < *self.end.get_or_insert(now + PATIENCE)
    }
}
