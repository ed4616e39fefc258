//! The work of each way. It keeps a body for each shard, which threads share, and moves shards between two servers.
use durkenzo::{ServerId, ShardId};

/// A way to keep the bodies.
pub trait ShardStore: Sync {
    /// The worker by which one thread makes requests.
    type Worker<'a>: ShardWorker
    where
        Self: 'a;

    fn worker(&self) -> Self::Worker<'_>;

    /// Moves the shard to this server, 1 or 2, while workers use it.
    fn migrate(&self, shard: usize, to: u16);
}

pub trait ShardWorker {
    /// Makes a request to the shard, and returns the number in its reply.
    fn request(&mut self, asked: KeyRequest) -> u64;
}

/// A request: the shard, the number of the key in it, and whether the key is written.
#[derive(Clone, Copy)]
pub struct KeyRequest {
    pub shard: usize,
    pub key: u32,
    pub is_write: bool,
}

/// Returns the shard in this place.
pub fn shard_at(place: usize) -> ShardId {
    u16::try_from(place)
        .ok()
        .and_then(|it| ShardId::new(it).ok())
        .expect("a board has few shards")
}

/// Returns the server of this number.
pub fn server(number: u16) -> ServerId {
    ServerId::new(number).expect("a server's number")
}
