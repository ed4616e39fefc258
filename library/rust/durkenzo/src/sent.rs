//! How an envelope travels to another process.
use crate::limits::{MAX_SERVER, MAX_SHARD, MOST_HOPS};
use crate::pass::Mode;
use crate::raw::SentParts;
use crate::server_id::ServerId;
use crate::shard_id::ShardId;
use std::error::Error;
use std::fmt;

/// An envelope without its request and its note, as plain fields that can travel as bytes.
#[derive(Clone, Copy, Debug, PartialEq, Eq)]
pub struct Sent {
    /// The number that its sender gave it.
    pub number: u64,
    /// The shard that it is for.
    pub shard: ShardId,
    /// How it came to the server that serves it next.
    pub mode: Mode,
    /// How often it was forwarded: 0 if it came directly, 1 to 4 if it was forwarded.
    pub hops: u8,
}

/// Why these bytes are no envelope.
#[derive(Clone, Copy, Debug, PartialEq, Eq)]
#[non_exhaustive]
pub enum SentFault {
    /// They don't have the length [`Sent::BYTES`].
    Length,
    /// A shard has a number from 0 to 4,095.
    Shard,
    /// A server has a number from 1 to 4,095.
    Server,
    /// An envelope that came directly has 0 hops, and a forwarded one has 1 to 4.
    Hops,
}

impl Sent {
    /// The length of the result of [`Sent::to_bytes`].
    pub const BYTES: usize = 13;

    /// Returns the number, the shard, the server that forwarded it (0 if none did) and the hops, each with its highest
    /// byte first.
    pub fn to_bytes(&self) -> [u8; Sent::BYTES] {
        let (parts, mut bytes) = (self.parts(), [0; Sent::BYTES]);
        bytes[..8].copy_from_slice(&parts.number.to_be_bytes());
        bytes[8..10].copy_from_slice(&parts.shard.to_be_bytes());
        bytes[10..12].copy_from_slice(&parts.from.to_be_bytes());
        bytes[12] = parts.hops;
        bytes
    }

    /// Returns the fields that [`Sent::to_bytes`] wrote.
    ///
    /// # Errors
    ///
    /// Returns the first reason why these bytes are no envelope.
    pub fn from_bytes(bytes: &[u8]) -> Result<Sent, SentFault> {
        let bytes: [u8; Sent::BYTES] = bytes.try_into().map_err(|_| SentFault::Length)?;
        let pair = |at: usize| u16::from_be_bytes([bytes[at], bytes[at + 1]]);
        let parts = SentParts {
            number: bytes[..8]
                .iter()
                .fold(0, |it, byte| it << 8 | u64::from(*byte)),
            shard: pair(8),
            from: pair(10),
            hops: bytes[12],
        };
        match (parts.from, parts.hops) {
            _ if parts.shard > MAX_SHARD => Err(SentFault::Shard),
            (from, _) if from > MAX_SERVER => Err(SentFault::Server),
            (0, 0) | (1.., 1..=MOST_HOPS) => Ok(Sent::of(&parts)),
            _ => Err(SentFault::Hops),
        }
    }

    pub(crate) fn of(parts: &SentParts) -> Sent {
        Sent {
            number: parts.number,
            shard: ShardId::of(parts.shard),
            mode: ServerId::of(parts.from).map_or(Mode::Direct, Mode::Forwarded),
            hops: parts.hops,
        }
    }

    pub(crate) fn parts(&self) -> SentParts {
        SentParts {
            number: self.number,
            shard: self.shard.get(),
            from: match self.mode {
                Mode::Direct => 0,
                Mode::Forwarded(server) => server.get(),
            },
            hops: self.hops,
        }
    }
}

impl fmt::Display for SentFault {
    fn fmt(&self, f: &mut fmt::Formatter<'_>) -> fmt::Result {
        f.write_str(match self {
            SentFault::Length => "they aren't 13 bytes",
            SentFault::Shard => "a shard has a number from 0 to 4,095",
            SentFault::Server => "a server has a number from 1 to 4,095",
            SentFault::Hops => "a direct envelope has no hop, and a forwarded one 1 to 4",
        })
    }
}

impl Error for SentFault {}
