use std::sync::{Mutex, MutexGuard, PoisonError};
use std::time::{Duration, Instant};

/// Since when a connection has been silent although something was asked on it.
#[derive(Default)]
pub(super) struct Silence(Mutex<Option<Instant>>);

impl Silence {
    fn since(&self) -> MutexGuard<'_, Option<Instant>> {
        self.0.lock().unwrap_or_else(PoisonError::into_inner)
    }

    /// Takes note that something is asked.
    pub(super) fn begin(&self) {
        self.since().get_or_insert_with(Instant::now);
    }

    /// Takes note that something has come.
    pub(super) fn end(&self) {
        *self.since() = None;
    }

    /// Returns whether it has lasted for so long.
    pub(super) fn is_of(&self, length: Duration) -> bool {
        self.since().is_some_and(|it| it.elapsed() >= length)
    }
}

#[cfg(test)]
mod tests {
    use super::Silence;
    use std::time::Duration;

    #[test]
    fn it_lasts_from_a_question_to_the_next_bytes() {
        let silence = Silence::default();
        assert!(!silence.is_of(Duration::ZERO));
        silence.begin();
        assert!(silence.is_of(Duration::ZERO) && !silence.is_of(Duration::from_secs(600)));
        silence.end();
        assert!(!silence.is_of(Duration::ZERO));
    }
}
