use super::outbox::Outbox;
use std::fmt;
use std::sync::Arc;

/// Reads the frames that a [`ReplySender`](super::ReplySender) sends, in place of the other process, for tests of a
/// host. Once it is dropped, nobody awaits the answers.
pub struct SentFrames(Arc<Outbox>);

impl SentFrames {
    /// Reads the frames of the outbox.
    pub(super) fn of(outbox: Arc<Outbox>) -> SentFrames {
        SentFrames(outbox)
    }

    /// Waits for frames, and returns their bytes.
    pub fn read(&self) -> Vec<u8> {
        // Only this value ends the outbox.
        self.0.wait_for_answers();
        self.0.take()
    }
}

impl Drop for SentFrames {
    fn drop(&mut self) {
        self.0.end();
    }
}

impl fmt::Debug for SentFrames {
    fn fmt(&self, f: &mut fmt::Formatter<'_>) -> fmt::Result {
        f.debug_struct("SentFrames").finish_non_exhaustive()
    }
}
