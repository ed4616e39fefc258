//! What each way does: it keeps a count for each shard, which threads share.

pub const SHARDS: usize = 4096;

/// A way to keep the counts.
pub trait CountStore: Sync {
    /// What one thread acts with.
    type Worker<'a>: CountWorker
    where
        Self: 'a;

    /// All counts are 0.
    fn new() -> Self;

    fn worker(&self) -> Self::Worker<'_>;
}

pub trait CountWorker {
    /// Reads what the way has of the shard.
    fn look(&mut self, shard: usize) -> u64;

    /// Adds 1 to the shard's count, which this thread has for itself meanwhile, and returns the count.
    fn count(&mut self, shard: usize) -> u64;
}
