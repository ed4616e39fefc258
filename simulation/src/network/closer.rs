use durkenzo_control::links::Closer;
use std::sync::atomic::{AtomicBool, Ordering};

/// Ends a side of a connection when its bytes are moved the next time.
#[derive(Default)]
pub struct SimulatedCloser(AtomicBool);

impl SimulatedCloser {
    /// Ends the side.
    pub fn close(&self) {
        self.0.store(true, Ordering::Relaxed);
    }

    /// Returns whether the side was ended.
    pub fn is_ended(&self) -> bool {
        self.0.load(Ordering::Relaxed)
    }
}

impl Closer for SimulatedCloser {
    fn end(&self) {
        self.close();
    }
}
