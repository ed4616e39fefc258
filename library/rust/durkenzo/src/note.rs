use crate::board::Shared;
use crate::raw::Handle;
use std::fmt;
use std::sync::Arc;

/// All that a pass has seen, for another pass of its board. Send it along with a message to another thread.
pub struct Note<T> {
    pub(crate) handle: Handle,
    pub(crate) shared: Arc<Shared<T>>,
}

impl<T> fmt::Debug for Note<T> {
    fn fmt(&self, f: &mut fmt::Formatter<'_>) -> fmt::Result {
        f.debug_struct("Note").finish_non_exhaustive()
    }
}
