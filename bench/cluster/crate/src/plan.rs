//! What a run does.

/// How many nanoseconds a run by chance takes.
const CHANCE: u64 = 500_000_000;

/// How often a call is made anew until it is answered.
const TRIES: u32 = 10_000_000;

/// What is done while clients call.
#[derive(Clone, Copy)]
pub(crate) enum Direction {
    /// Nothing.
    Rest,
    /// Nothing, and `load` makes the calls.
    Load,
    /// So many graceful migrations of shard 0.
    Graceful(u64),
    /// So many migrations of shard 0 by a pause.
    Abrupt(u64),
    /// Commands, holds, checkpoints and publications by chance, from a seed.
    Chance(u64),
}

/// How large the cluster of a run is, and what it does.
#[derive(Clone, Copy)]
pub(crate) struct Plan {
    pub(crate) servers: u16,
    pub(crate) workers: u32,
    pub(crate) shards: u16,
    pub(crate) clients: usize,
    /// How many calls each client makes; 0 where they go on until the direction has ended.
    pub(crate) calls: u32,
    pub(crate) direction: Direction,
}

impl Plan {
    /// Four clients make 25 calls each, beside three migrations.
    pub(crate) fn small() -> Plan {
        Plan {
            servers: 2,
            workers: 1,
            shards: 2,
            clients: 4,
            calls: 25,
            direction: Direction::Graceful(3),
        }
    }

    /// Eight clients call eight shards on three servers while commands are given by chance.
    pub(crate) fn by_chance(seed: u64) -> Plan {
        Plan {
            servers: 3,
            workers: 2,
            shards: 8,
            clients: 8,
            calls: 0,
            direction: Direction::Chance(seed),
        }
    }

    /// After how many nanoseconds no further step is taken.
    pub(crate) fn nanoseconds(&self) -> u64 {
        match self.direction {
            Direction::Chance(_) => CHANCE,
            _ => u64::MAX,
        }
    }

    /// How often a call is tried.
    pub(crate) fn tries(&self) -> u32 {
        match self.direction {
            Direction::Chance(_) => 1,
            _ => TRIES,
        }
    }

    /// Whether each call is timed, and the calls of a client go from shard to shard.
    pub(crate) fn is_directed(&self) -> bool {
        !matches!(self.direction, Direction::Rest | Direction::Load)
    }

    /// The key of this turn of a client: its shard's number, and the client's.
    pub(crate) fn key_at(&self, client: usize, turn: u64) -> [u8; 3] {
        let steps = if self.is_directed() { turn } else { 0 };
        let at = (client as u64).wrapping_add(steps);
        let [_, _, _, _, _, _, high, low] = at
            .checked_rem(u64::from(self.shards))
            .unwrap_or(0)
            .to_be_bytes();
        [high, low, (client & 255) as u8]
    }
}
