//! The pseudo-random choices, which bench/serve makes in Rust in the same way.
ghost use Rattle.std.specs.Prelude.{◌<◌};

use sm_ranges::shard_id::ShardId;

/// How many shards there are.
pub(crate) const SHARDS: u16 = 4096;

/// How many keys each shard has.
pub(crate) const KEYS: u8 = 16;

const FIRST_STATE: u64 = 88_172_645_463_325_252;

/// The shards that a thread chooses of.
#[derive(Clone, Copy)]
pub(crate) enum Reach {
    /// All threads of all shards.
    Spread,
    /// Each of four threads of its own quarter.
    Apart,
    /// All threads of one shard.
    Same,
}

/// A shard, one of its keys, and the bytes of a text.
#[derive(Clone, Copy)]
pub(crate) struct Spot {
    pub(crate) shard: ShardId,
    pub(crate) key: u8,
    pub(crate) text: u8,
}

/// What a thread chooses in turn.
#[derive(Clone, Copy)]
pub(crate) struct Choice {
    state: u64,
    first: u64,
    mask: u64,
}

impl Choice {
    /// The choices of this thread.
    pub(crate) fn new(reach: Reach, thread: usize) -> Choice {
        let thread = thread as u64 & 3;
        let (first, mask) = match reach {
            Reach::Spread => (0, 4095),
            Reach::Apart => (thread << 10, 1023),
            Reach::Same => (0, 0),
        };
        Choice {
            state: FIRST_STATE ^ thread,
            first,
            mask,
        }
    }

    /// The next choice (xorshift64).
    pub(crate) fn next(&mut self) -> Spot {
        let state = self.state ^ (self.state << 13);
        let state = state ^ (state >> 7);
        let state = state ^ (state << 17);
        self.state = state;
        Spot {
            shard: shard_of(self.first | state >> 40 & self.mask),
            key: (state >> 24 & 15) as u8,
            text: (state >> 16 & 255) as u8,
        }
    }
}

fn shard_of(number: u64) -> ShardId
    ensures { result < 4096 }
{
    let Some(k) = ShardId::new((number & 4095) as u16) else {
        unreachable!()
    };
    k
}
