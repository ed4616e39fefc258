use super::DumpFault;
use crate::keyspace::Rule;
use durkenzo::{Record, Stand};
use serde::{Deserialize, Serialize};

/// The greatest generation in a dump. More steps can follow it than any server ever makes, without overflow.
pub(super) const MAX_GENERATION: u64 = 1 << 62;

/// The servers and shards of a dump.
#[derive(Clone, Debug, PartialEq, Eq, Serialize, Deserialize)]
#[serde(deny_unknown_fields)]
pub struct DumpHead {
    /// The number of servers, which are numbered from 1 on.
    pub servers: u16,
    /// How many shards there are.
    pub shards: u16,
    /// The bounds at which ranges begin, as bytes; nothing if keys go to shards by hash.
    pub bounds: Option<Vec<Vec<u8>>>,
}

impl DumpHead {
    /// Makes the head of so many servers, and of shards with this rule.
    pub fn new(servers: u16, rule: &Rule) -> DumpHead {
        DumpHead {
            servers,
            shards: rule.shards(),
            bounds: match rule {
                Rule::Hash(_) => None,
                Rule::Bounds(bounds) => Some(bounds.clone()),
            },
        }
    }

    /// Checks that a server with this head can take the other one's shards. It can't if it has fewer servers, or
    /// assigns keys to other shards.
    pub fn takes(&self, other: &DumpHead) -> Result<(), DumpFault> {
        if other.servers <= self.servers
            && (other.shards, &other.bounds) == (self.shards, &self.bounds)
        {
            return Ok(());
        }
        let by = if other.bounds.is_some() {
            "ranges"
        } else {
            "hash"
        };
        let (servers, shards) = (other.servers, other.shards);
        Err(DumpFault::Other(format!(
            "{servers} servers and {shards} shards by {by}"
        )))
    }
}

/// The stand of a shard in a dump.
#[derive(Clone, Copy, Debug, PartialEq, Eq)]
pub struct ShardHead {
    /// Its number.
    pub shard: u16,
    /// The servers that executed it.
    pub stand: Stand,
    /// How many steps its history had.
    pub generation: u64,
    /// How many keys it had.
    pub pairs: u64,
}

impl ShardHead {
    /// Makes the head of a shard whose admission ended with this generation.
    pub fn new(shard: u16, record: Record, generation: u64, pairs: u64) -> ShardHead {
        ShardHead {
            shard,
            stand: record.stand,
            generation,
            pairs,
        }
    }

    /// Returns its line.
    pub(super) fn line(&self) -> String {
        let (name, owner, other) = match self.stand {
            Stand::Vacant => ("Vacant", 0, 0),
            Stand::Serving(owner) => ("Serving", owner, 0),
            Stand::Prepared { owner, next } => ("Prepared", owner, next),
            Stand::Forwarding { owner, next } => ("Forwarding", owner, next),
            Stand::Taken { owner, previous } => ("Taken", owner, previous),
            Stand::Paused(owner) => ("Paused", owner, 0),
        };
        let (shard, generation, pairs) = (self.shard, self.generation, self.pairs);
        format!("shard {shard} {name} {owner} {other} {generation} {pairs}\n")
    }

    /// Parses the line's words behind the first. Returns nothing if they are malformed, or if the generation is too
    /// great.
    pub(super) fn of(words: &[&str]) -> Option<ShardHead> {
        let [shard, name, owner, other, generation, pairs] = words else {
            return None;
        };
        let (owner, other) = (owner.parse().ok()?, other.parse().ok()?);
        let stand = match *name {
            "Vacant" => Stand::Vacant,
            "Serving" => Stand::Serving(owner),
            "Prepared" => Stand::Prepared { owner, next: other },
            "Forwarding" => Stand::Forwarding { owner, next: other },
            "Taken" => Stand::Taken {
                owner,
                previous: other,
            },
            "Paused" => Stand::Paused(owner),
            _ => return None,
        };
        let generation = generation.parse().ok();
        Some(ShardHead {
            shard: shard.parse().ok()?,
            stand,
            generation: generation.filter(|it| *it <= MAX_GENERATION)?,
            pairs: pairs.parse().ok()?,
        })
    }
}
