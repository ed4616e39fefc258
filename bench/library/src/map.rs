//! A concurrent map of the counts by their shards. It knows no owner.
use crate::count_store::{CountStore, CountWorker, SHARDS};
use dashmap::DashMap;

pub struct Mapped(DashMap<usize, u64>);

impl CountStore for Mapped {
    type Worker<'a> = &'a Mapped;

    fn new() -> Mapped {
        Mapped((0..SHARDS).map(|shard| (shard, 0)).collect())
    }

    fn worker(&self) -> &Mapped {
        self
    }
}

impl CountWorker for &Mapped {
    fn look(&mut self, shard: usize) -> u64 {
        *self.0.get(&shard).expect("a shard")
    }

    fn count(&mut self, shard: usize) -> u64 {
        let mut count = self.0.get_mut(&shard).expect("a shard");
        *count += 1;
        *count
    }
}
