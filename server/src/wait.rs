//! Why a thread isn't admitted to a shard, and whether waiting helps.
use durkenzo::AdmitFault;
use std::fmt;

/// Why a command can't be done now. The command waits, and is refused with this if it has waited in vain.
#[derive(Clone, Copy, Debug, PartialEq, Eq)]
pub enum Wait {
    /// Another thread has the shard.
    Busy(u16),
    /// The shard is paused.
    Paused(u16),
    /// The shard has no owner.
    Vacant(u16),
    /// The server that executes the shard is stopped or has failed. These are the shard and the server.
    Unreachable(u16, u16),
}

impl Wait {
    /// Returns the name, as in scripts.
    pub fn name(self) -> &'static str {
        match self {
            Wait::Busy(_) => "Busy",
            Wait::Paused(_) => "Paused",
            Wait::Vacant(_) => "Vacant",
            Wait::Unreachable(..) => "Unreachable",
        }
    }

    /// Returns why the command can't be done now.
    pub fn reason(self) -> String {
        match self {
            Wait::Busy(shard) => format!("shard {shard} was with others all the time"),
            Wait::Paused(shard) => format!("shard {shard} is paused"),
            Wait::Vacant(shard) => format!("nobody owns shard {shard}"),
            Wait::Unreachable(shard, server) => {
                format!("server {server}, which owns shard {shard}, is away")
            }
        }
    }

    /// Returns the advice.
    pub fn advice(self) -> String {
        match self {
            Wait::Busy(_) => "try again".to_owned(),
            Wait::Paused(shard) => format!("SM RESUME {shard} has its owner execute again"),
            Wait::Vacant(_) => "SM PLACE gives it an owner".to_owned(),
            Wait::Unreachable(_, server) => {
                format!("SM BACK {server} brings it back, SM DRAIN {server} moves its shards")
            }
        }
    }
}

impl fmt::Display for Wait {
    fn fmt(&self, f: &mut fmt::Formatter<'_>) -> fmt::Result {
        let name = match self {
            Wait::Busy(_) => "SHARDBUSY",
            Wait::Paused(_) => "SHARDPAUSED",
            Wait::Vacant(_) => "SHARDVACANT",
            Wait::Unreachable(..) => "SERVERDOWN",
        };
        write!(f, "{name} {}: {}", self.reason(), self.advice())
    }
}

/// Why a thread isn't admitted.
#[derive(Clone, Copy, Debug, PartialEq, Eq)]
pub enum NotAdmitted {
    /// Waiting may help.
    Wait(Wait),
    /// The board refuses it.
    Refused(AdmitFault),
}
