use crate::raw::{self, Handle};
use crate::shard_id::ShardId;
use crate::waiters::Waiters;

/// A pass in the library, with the queues of callers that wait for an admission of the pass to end.
pub(crate) struct Seat {
    pub(crate) handle: Handle,
    pub(crate) waiters: Waiters,
}

impl Seat {
    /// Ends the admission to this shard, and wakes the next caller. Returns the shard's generation after that.
    #[inline(always)]
    pub(crate) fn finish(&mut self, shard: ShardId) -> u64 {
        let mut generation = 0;
        // SAFETY: this seat is borrowed exclusively and owns the handle.
        let code = unsafe { raw::durkenzo_finish(&mut self.handle, &mut generation) };
        debug_assert_eq!(code, 0, "the pass of a permit holds it");
        self.waiters.wake(shard);
        generation
    }

    /// Returns the fencing token of the pass's admission, if the pass has one.
    pub(crate) fn token(&mut self) -> Option<u64> {
        let mut token = 0;
        // SAFETY: this seat is borrowed exclusively and owns the handle.
        match unsafe { raw::durkenzo_token(&mut self.handle, &mut token) } {
            0 => Some(token),
            _ => None,
        }
    }
}

impl Drop for Seat {
    fn drop(&mut self) {
        // Closing the handle ends the admission of a permit that was forgotten.
        if self.token().is_some() {
            self.handle = Handle::empty();
            self.waiters.wake_all();
        }
    }
}
