//! Why the proved control refuses a command.
use durkenzo::{ChangeFault, RestartFault};
use std::error::Error;
use std::fmt;

// By tools/library-codes, the codes of library/codes.txt:
/// Why the proved control of a store refuses a command.
#[derive(Clone, Copy, Debug, PartialEq, Eq)]
#[non_exhaustive]
pub enum CommandFault {
    /// There is no such shard.
    UnknownShard,
    /// The change doesn't begin from the shard's stand.
    WrongPhase,
    /// The server owns the shard.
    SameServer,
    /// The shard's generations are spent.
    ChangeSpent,
    /// The record has an admission, or has changed: it must be read again.
    Busy,
    /// There is no such server.
    UnknownServer,
    /// The server is leaving.
    Leaving,
    /// The server has no room.
    NoCapacity,
    /// The server's domain has as many shards of the group as its limit allows.
    DomainLimit,
    /// The server isn't up.
    NotUp,
    /// No restart of the server is asked for.
    NotAsked,
    /// Too many servers would be leaving.
    GlobalCap,
    /// A shard may not be down.
    ShardCap,
    /// Too many shards of a group would be down.
    GroupCap,
    /// Too many servers of a domain would be down.
    DomainCap,
    /// The server's restart isn't approved.
    NotApproved,
    /// A shard that names the server isn't paused.
    StillServing,
    /// The server is up already.
    AlreadyUp,
    /// The server has failed already.
    AlreadyFailed,
    /// A follower hasn't read that the shard is taken.
    NotFollowed,
    /// A server that the command waits for hasn't acked the shard's record.
    NotAcked,
    /// The server's process is the one that was stopped, or isn't known.
    EarlierProcess,
    /// The library answered this code, which this version doesn't know.
    Other(u32),
}

impl CommandFault {
    #[inline]
    pub(crate) fn of(code: u32) -> CommandFault {
        match code {
            10 => CommandFault::UnknownShard,
            11 => CommandFault::WrongPhase,
            12 => CommandFault::SameServer,
            13 => CommandFault::ChangeSpent,
            14 => CommandFault::Busy,
            30 => CommandFault::UnknownServer,
            31 => CommandFault::Leaving,
            32 => CommandFault::NoCapacity,
            33 => CommandFault::DomainLimit,
            40 => CommandFault::NotUp,
            41 => CommandFault::NotAsked,
            42 => CommandFault::GlobalCap,
            43 => CommandFault::ShardCap,
            44 => CommandFault::GroupCap,
            45 => CommandFault::DomainCap,
            46 => CommandFault::NotApproved,
            47 => CommandFault::StillServing,
            48 => CommandFault::AlreadyUp,
            49 => CommandFault::AlreadyFailed,
            96 => CommandFault::NotFollowed,
            97 => CommandFault::NotAcked,
            98 => CommandFault::EarlierProcess,
            code => CommandFault::Other(code),
        }
    }
}

impl fmt::Display for CommandFault {
    fn fmt(&self, f: &mut fmt::Formatter<'_>) -> fmt::Result {
        f.write_str(match self {
            CommandFault::UnknownShard => "there is no such shard",
            CommandFault::WrongPhase => "the change doesn't begin from the shard's stand",
            CommandFault::SameServer => "the server owns the shard",
            CommandFault::ChangeSpent => "the shard's generations are spent",
            CommandFault::Busy => {
                "the record has an admission, or has changed: it must be read again"
            }
            CommandFault::UnknownServer => "there is no such server",
            CommandFault::Leaving => "the server is leaving",
            CommandFault::NoCapacity => "the server has no room",
            CommandFault::DomainLimit => {
                "the server's domain has as many shards of the group as its limit allows"
            }
            CommandFault::NotUp => "the server isn't up",
            CommandFault::NotAsked => "no restart of the server is asked for",
            CommandFault::GlobalCap => "too many servers would be leaving",
            CommandFault::ShardCap => "a shard may not be down",
            CommandFault::GroupCap => "too many shards of a group would be down",
            CommandFault::DomainCap => "too many servers of a domain would be down",
            CommandFault::NotApproved => "the server's restart isn't approved",
            CommandFault::StillServing => "a shard that names the server isn't paused",
            CommandFault::AlreadyUp => "the server is up already",
            CommandFault::AlreadyFailed => "the server has failed already",
            CommandFault::NotFollowed => "a follower hasn't read that the shard is taken",
            CommandFault::NotAcked => {
                "a server that the command waits for hasn't acked the shard's record"
            }
            CommandFault::EarlierProcess => {
                "the server's process is the one that was stopped, or isn't known"
            }
            CommandFault::Other(code) => return write!(f, "the library answered code {code}"),
        })
    }
}

impl Error for CommandFault {}

impl CommandFault {
    /// Returns the fault of a change with the same reason, if that fault has no record.
    pub fn as_change(self) -> Option<ChangeFault> {
        Some(match self {
            CommandFault::UnknownShard => ChangeFault::UnknownShard,
            CommandFault::WrongPhase => ChangeFault::WrongPhase,
            CommandFault::SameServer => ChangeFault::SameServer,
            CommandFault::UnknownServer => ChangeFault::UnknownServer,
            CommandFault::Leaving => ChangeFault::Leaving,
            CommandFault::NoCapacity => ChangeFault::NoCapacity,
            CommandFault::DomainLimit => ChangeFault::DomainLimit,
            CommandFault::ChangeSpent
            | CommandFault::Busy
            | CommandFault::NotUp
            | CommandFault::NotAsked
            | CommandFault::GlobalCap
            | CommandFault::ShardCap
            | CommandFault::GroupCap
            | CommandFault::DomainCap
            | CommandFault::NotApproved
            | CommandFault::StillServing
            | CommandFault::AlreadyUp
            | CommandFault::AlreadyFailed
            | CommandFault::NotFollowed
            | CommandFault::NotAcked
            | CommandFault::EarlierProcess
            | CommandFault::Other(_) => return None,
        })
    }

    /// Returns the fault of a restart's step with the same reason, if that fault has no record.
    pub fn as_restart(self) -> Option<RestartFault> {
        Some(match self {
            CommandFault::UnknownServer => RestartFault::UnknownServer,
            CommandFault::NotUp => RestartFault::NotUp,
            CommandFault::NotAsked => RestartFault::NotAsked,
            CommandFault::GlobalCap => RestartFault::GlobalCap,
            CommandFault::ShardCap => RestartFault::ShardCap,
            CommandFault::GroupCap => RestartFault::GroupCap,
            CommandFault::DomainCap => RestartFault::DomainCap,
            CommandFault::NotApproved => RestartFault::NotApproved,
            CommandFault::StillServing => RestartFault::StillServing,
            CommandFault::AlreadyUp => RestartFault::AlreadyUp,
            CommandFault::AlreadyFailed => RestartFault::AlreadyFailed,
            CommandFault::UnknownShard
            | CommandFault::WrongPhase
            | CommandFault::SameServer
            | CommandFault::ChangeSpent
            | CommandFault::Busy
            | CommandFault::Leaving
            | CommandFault::NoCapacity
            | CommandFault::DomainLimit
            | CommandFault::NotFollowed
            | CommandFault::NotAcked
            | CommandFault::EarlierProcess
            | CommandFault::Other(_) => return None,
        })
    }
}
// End of them.
