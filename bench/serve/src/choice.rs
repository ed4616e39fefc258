//! The pseudo-random choices, as crate/src/choice.rs makes them.

pub const SHARDS: u16 = 4096;

/// How many keys each shard has.
pub const KEYS: u8 = 16;

const FIRST_STATE: u64 = 88_172_645_463_325_252;

/// The shards that a thread chooses of.
#[derive(Clone, Copy)]
pub enum Reach {
    /// All threads of all shards.
    Spread,
    /// Each of four threads of its own quarter.
    Apart,
    /// All threads of one shard.
    Same,
}

/// A shard, one of its keys, and the bytes of a text.
#[derive(Clone, Copy)]
pub struct Spot {
    pub shard: u16,
    pub key: u8,
    pub text: u8,
}

/// What a thread chooses in turn.
pub struct Choice {
    state: u64,
    first: u64,
    mask: u64,
}

impl Choice {
    /// The choices of this thread.
    pub fn new(reach: Reach, thread: u64) -> Choice {
        let (first, mask) = match reach {
            Reach::Spread => (0, 4095),
            Reach::Apart => (thread << 10, 1023),
            Reach::Same => (0, 0),
        };
        Choice { state: FIRST_STATE ^ thread, first, mask }
    }

    /// The next choice (xorshift64).
    pub fn next(&mut self) -> Spot {
        let state = self.state ^ (self.state << 13);
        let state = state ^ (state >> 7);
        let state = state ^ (state << 17);
        self.state = state;
        Spot {
            shard: ((self.first | state >> 40 & self.mask) & 4095) as u16,
            key: (state >> 24 & 15) as u8,
            text: (state >> 16 & 255) as u8,
        }
    }
}
