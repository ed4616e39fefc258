use crate::body::BoxedBody;
use durkenzo::Board;
use std::fmt;

/// A board that isn't in use yet.
pub struct Opened {
    pub(super) board: Board<BoxedBody>,
    pub(super) keys: Vec<u64>,
    /// The shards' generations on the board that was dumped.
    pub(super) generations: Vec<u64>,
}

impl Opened {
    /// Returns how many keys there are.
    pub fn keys(&self) -> u64 {
        self.keys.iter().sum()
    }
}

impl fmt::Debug for Opened {
    fn fmt(&self, f: &mut fmt::Formatter<'_>) -> fmt::Result {
        f.debug_struct("Opened").finish_non_exhaustive()
    }
}
