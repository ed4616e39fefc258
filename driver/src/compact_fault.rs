use durkenzo_store::CompactError;
use thiserror::Error;

/// Why the room of deleted data isn't returned, or not all of it.
#[derive(Clone, Debug, Error)]
pub enum CompactFault {
    /// The store gives this reason.
    #[error("{0}")]
    Store(#[from] CompactError),
    /// This many shards got no base, because the store had no room for it or didn't write it in time. The others got
    /// one.
    #[error("{0} shards got no base: the store has no room for it, or didn't write it in time")]
    NoBase(usize),
}
