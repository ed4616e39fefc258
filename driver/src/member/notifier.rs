use std::sync::{Condvar, Mutex, MutexGuard, PoisonError};

/// Wakes the thread of a server, if it has one, because there may be something to do.
#[derive(Default)]
pub(super) struct Notifier {
    is_notified: Mutex<bool>,
    pub(super) wakes: Condvar,
}

impl Notifier {
    /// Wakes the thread, or makes it not wait next time.
    pub(super) fn notify(&self) {
        *self.is_notified() = true;
        self.wakes.notify_all();
    }

    pub(super) fn is_notified(&self) -> MutexGuard<'_, bool> {
        self.is_notified
            .lock()
            .unwrap_or_else(PoisonError::into_inner)
    }
}
