use std::time::{Duration, Instant};

/// The first pause after a failed base, and the longest one. Each pause is twice as long as the one before.
const FIRST_PAUSE: Duration = Duration::from_secs(1);
const LAST_PAUSE: Duration = Duration::from_secs(64);

/// When a base may begin by itself.
#[derive(Debug, Default)]
pub(super) struct BasePause {
    end: Option<Instant>,
    last: Duration,
}

impl BasePause {
    /// Returns whether a base may begin.
    pub(super) fn is_over(&self, now: Instant) -> bool {
        self.end.is_none_or(|it| now >= it)
    }

    /// Returns whether the last one failed.
    pub(super) fn is_some(&self) -> bool {
        self.end.is_some()
    }

    /// Notes that a base failed, so none begins for a while.
    pub(super) fn begin(&mut self, now: Instant) {
        self.last = (2 * self.last).clamp(FIRST_PAUSE, LAST_PAUSE);
        self.end = Some(now + self.last);
    }

    /// Notes that a base was made, so the next may begin at once.
    pub(super) fn end(&mut self) {
        *self = BasePause::default();
    }
}
