use std::error::Error;
use std::fmt;

/// Why a number is no shard's or no server's.
#[derive(Clone, Copy, Debug, PartialEq, Eq)]
#[non_exhaustive]
pub enum IdFault {
    /// A shard has a number from 0 to 4,095.
    Shard,
    /// A server has a number from 1 to 4,095.
    Server,
}

impl fmt::Display for IdFault {
    fn fmt(&self, f: &mut fmt::Formatter<'_>) -> fmt::Result {
        f.write_str(match self {
            IdFault::Shard => "a shard has a number from 0 to 4,095",
            IdFault::Server => "a server has a number from 1 to 4,095",
        })
    }
}

impl Error for IdFault {}
