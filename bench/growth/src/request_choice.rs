//! Chooses the next request at random (xorshift64). Each thread has a choice of its own.
use crate::shard_store::KeyRequest;
use crate::sizes::Sizes;

pub struct RequestChoice {
    state: u64,
    shards: u64,
    keys: u64,
}

impl RequestChoice {
    pub fn new(sizes: &Sizes, thread: usize) -> RequestChoice {
        RequestChoice {
            state: 88_172_645_463_325_252_u64.wrapping_mul(2 * thread as u64 + 1),
            shards: sizes.shards as u64,
            keys: u64::from(sizes.keys),
        }
    }

    fn number(&mut self) -> u64 {
        self.state ^= self.state << 13;
        self.state ^= self.state >> 7;
        self.state ^= self.state << 17;
        self.state
    }

    /// Returns a random number below this one.
    pub fn below(&mut self, end: u64) -> u64 {
        ((u128::from(self.number()) * u128::from(end)) >> 64) as u64
    }

    pub fn next(&mut self) -> KeyRequest {
        KeyRequest {
            shard: self.below(self.shards) as usize,
            key: self.below(self.keys) as u32,
            is_write: self.number() >> 63 == 1,
        }
    }
}
