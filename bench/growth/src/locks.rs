//! A lock for each shard in Rust, round the shard's owner and its body. The body is a count or a `BTreeMap`. If a
//! worker finds another owner than it knew, it notes that owner. A migration is one step under the lock.
use crate::keys::{bound_of, key_of};
use crate::shard_store::{KeyRequest, ShardStore, ShardWorker};
use crate::sizes::Sizes;
use std::collections::BTreeMap;
use std::sync::{Mutex, MutexGuard};

/// The value behind a lock.
pub struct OwnedBody<B> {
    owner: u16,
    body: B,
}

pub type Shards<B> = Vec<Mutex<OwnedBody<B>>>;

fn shards_of<B: Default>(count: usize) -> Shards<B> {
    let held = || OwnedBody {
        owner: 1,
        body: B::default(),
    };
    (0..count).map(|_| Mutex::new(held())).collect()
}

/// Locks the shard, and notes its owner if another one was known. Returns the locked shard.
fn locked<'a, B>(
    shards: &'a Shards<B>,
    owners: &mut [u16],
    shard: usize,
) -> MutexGuard<'a, OwnedBody<B>> {
    let held = shards[shard].lock().expect("no thread panics");
    if held.owner != owners[shard] {
        owners[shard] = held.owner;
    }
    held
}

fn move_to<B>(shards: &Shards<B>, shard: usize, to: u16) {
    shards[shard].lock().expect("no thread panics").owner = to;
}

pub struct LockedCounts(Shards<u64>);

impl LockedCounts {
    pub fn new(shards: usize) -> LockedCounts {
        LockedCounts(shards_of(shards))
    }
}

impl ShardStore for LockedCounts {
    type Worker<'a> = (&'a Shards<u64>, Vec<u16>);

    fn worker(&self) -> Self::Worker<'_> {
        (&self.0, vec![1; self.0.len()])
    }

    fn migrate(&self, shard: usize, to: u16) {
        move_to(&self.0, shard, to);
    }
}

impl ShardWorker for (&Shards<u64>, Vec<u16>) {
    fn request(&mut self, asked: KeyRequest) -> u64 {
        let mut held = locked(self.0, &mut self.1, asked.shard);
        held.body += 1;
        held.body
    }
}

pub struct LockedTexts {
    bounds: Vec<Vec<u8>>,
    shards: Shards<BTreeMap<Vec<u8>, Vec<u8>>>,
    text: Vec<u8>,
}

impl LockedTexts {
    pub fn new(sizes: &Sizes) -> LockedTexts {
        LockedTexts {
            bounds: (0..sizes.shards).map(bound_of).collect(),
            shards: shards_of(sizes.shards),
            text: vec![7; sizes.text],
        }
    }
}

impl ShardStore for LockedTexts {
    type Worker<'a> = (&'a LockedTexts, Vec<u16>);

    fn worker(&self) -> Self::Worker<'_> {
        (self, vec![1; self.shards.len()])
    }

    fn migrate(&self, shard: usize, to: u16) {
        move_to(&self.shards, shard, to);
    }
}

impl ShardWorker for (&LockedTexts, Vec<u16>) {
    /// Makes the request with memory of its own, and finds its shard by the key, because the library does so too.
    fn request(&mut self, asked: KeyRequest) -> u64 {
        let (texts, key) = (self.0, key_of(asked.shard, asked.key).to_vec());
        let text = asked.is_write.then(|| texts.text.clone());
        let shard = texts
            .bounds
            .partition_point(|bound| bound.as_slice() <= key.as_slice())
            - 1;
        let mut held = locked(&texts.shards, &mut self.1, shard);
        match text {
            Some(text) => {
                held.body.insert(key, text);
                1
            }
            None => held
                .body
                .get(&key)
                .expect("a key that is there")
                .clone()
                .len() as u64,
        }
    }
}
