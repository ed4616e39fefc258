//! Why a call is refused.
use crate::record::Record;
use crate::server_id::ServerId;
use std::error::Error;
use std::fmt;

/// The board has no such shard.
#[derive(Clone, Copy, Debug, PartialEq, Eq)]
pub struct UnknownShard;

impl fmt::Display for UnknownShard {
    fn fmt(&self, f: &mut fmt::Formatter<'_>) -> fmt::Result {
        f.write_str("there is no such shard")
    }
}

impl Error for UnknownShard {}

impl AdmitFault {
    /// Returns the record that was read or found, if there was one.
    pub fn record(&self) -> Option<Record> {
        use AdmitFault::*;
        match *self {
            Vacant(it) | Paused(it) | NotExecutor(it) | NotYet(it) | Admitted(it) | Spent(it)
            | Raced(it) => Some(it),
            UnknownShard | BadServer | Holding | Other(_) => None,
        }
    }

    /// Returns the server to which this one forwards the request, by the proved call [`Record::forward`] on the record
    /// that was read. Returns `None` if this server forwards nothing. The next server admits the request in the mode
    /// [`Forwarded`](crate::Mode::Forwarded) by this one.
    #[must_use]
    pub fn forward(&self, server: ServerId) -> Option<ServerId> {
        ServerId::of(self.record()?.forward(server.get())?)
    }

    /// Returns the shard's owner in the record that was read, if there was one. A client sends its next request there.
    #[must_use]
    pub fn owner(&self) -> Option<ServerId> {
        ServerId::of(self.record()?.owner()?)
    }

    /// Returns whether the same call may succeed if you make it again at once, because another thread had the shard or
    /// was first.
    pub fn is_transient(&self) -> bool {
        matches!(self, AdmitFault::Admitted(_) | AdmitFault::Raced(_))
    }
}

impl ServeFault {
    /// Returns whether the same call may succeed if you make it again at once, because another thread had the shard or
    /// was first.
    #[must_use]
    pub fn is_transient(&self) -> bool {
        matches!(self, ServeFault::Admit(fault) if fault.is_transient())
    }
}

impl ChangeFault {
    /// Returns the record that was read or found, if there was one.
    pub fn record(&self) -> Option<Record> {
        match *self {
            ChangeFault::Spent(it) | ChangeFault::Busy(it) | ChangeFault::Raced(it) => Some(it),
            _ => None,
        }
    }

    /// Returns whether the same change may succeed if you ask for it again at once.
    pub fn is_transient(&self) -> bool {
        matches!(self, ChangeFault::Busy(_) | ChangeFault::Raced(_))
    }
}

// By tools/library-codes, the faults of library/codes.txt:

/// Why a board can't be made.
#[derive(Clone, Copy, Debug, PartialEq, Eq)]
#[non_exhaustive]
pub enum BuildFault {
    /// A board has 1 to 4,095 servers, and at most 4,095 restarts at once.
    BadServers,
    /// Out of memory.
    NoMemory,
    /// The ceiling of generations is 3 to 68,719,476,735.
    BadCeiling,
    /// A board has at least one shard.
    NoShard,
    /// A board has at most 4,096 shards.
    TooMany,
    /// Fencing tokens begin after a number of at most 9,223,371,968,135,299,072.
    BadAfter,
    /// The library answered this code, which this version doesn't know.
    Other(u32),
}

impl BuildFault {
    #[inline]
    pub(crate) fn of(code: u32) -> BuildFault {
        match code {
            2 | 8 => BuildFault::BadServers,
            3 => BuildFault::NoMemory,
            5 => BuildFault::BadCeiling,
            6 => BuildFault::NoShard,
            7 => BuildFault::TooMany,
            16 => BuildFault::BadAfter,
            code => BuildFault::Other(code),
        }
    }
}

impl fmt::Display for BuildFault {
    fn fmt(&self, f: &mut fmt::Formatter<'_>) -> fmt::Result {
        f.write_str(match self {
            BuildFault::BadServers => {
                "a board has 1 to 4,095 servers, and at most 4,095 restarts at once"
            }
            BuildFault::NoMemory => "out of memory",
            BuildFault::BadCeiling => "the ceiling of generations is 3 to 68,719,476,735",
            BuildFault::NoShard => "a board has at least one shard",
            BuildFault::TooMany => "a board has at most 4,096 shards",
            BuildFault::BadAfter => {
                "fencing tokens begin after a number of at most 9,223,371,968,135,299,072"
            }
            BuildFault::Other(code) => return write!(f, "the library answered code {code}"),
        })
    }
}

impl Error for BuildFault {}

/// Why a pass can't be made.
#[derive(Clone, Copy, Debug, PartialEq, Eq)]
#[non_exhaustive]
pub enum PassFault {
    /// The board has no such server.
    BadServer,
    /// Out of memory.
    NoMemory,
    /// The library answered this code, which this version doesn't know.
    Other(u32),
}

impl PassFault {
    #[inline]
    pub(crate) fn of(code: u32) -> PassFault {
        match code {
            2 | 30 => PassFault::BadServer,
            3 => PassFault::NoMemory,
            code => PassFault::Other(code),
        }
    }
}

impl fmt::Display for PassFault {
    fn fmt(&self, f: &mut fmt::Formatter<'_>) -> fmt::Result {
        f.write_str(match self {
            PassFault::BadServer => "the board has no such server",
            PassFault::NoMemory => "out of memory",
            PassFault::Other(code) => return write!(f, "the library answered code {code}"),
        })
    }
}

impl Error for PassFault {}

/// Why a pass isn't admitted to a shard, with the record that was read.
#[derive(Clone, Copy, Debug, PartialEq, Eq)]
#[non_exhaustive]
pub enum AdmitFault {
    /// The pass holds a permit that was forgotten.
    Holding,
    /// A server has a number from 1 to 4,095.
    BadServer,
    /// There is no such shard.
    UnknownShard,
    /// Another thread was first.
    Raced(Record),
    /// Nobody owns the shard.
    Vacant(Record),
    /// The shard is paused.
    Paused(Record),
    /// Another server executes the shard's requests.
    NotExecutor(Record),
    /// The server executes only what the owner forwards.
    NotYet(Record),
    /// The shard is admitted.
    Admitted(Record),
    /// The shard's generations are spent.
    Spent(Record),
    /// The library answered this code, which this version doesn't know.
    Other(u32),
}

impl AdmitFault {
    #[inline]
    pub(crate) fn of(code: u32, read: Record) -> AdmitFault {
        match code {
            1 => AdmitFault::Holding,
            2 => AdmitFault::BadServer,
            10 => AdmitFault::UnknownShard,
            15 => AdmitFault::Raced(read),
            21 => AdmitFault::Vacant(read),
            22 => AdmitFault::Paused(read),
            23 => AdmitFault::NotExecutor(read),
            24 => AdmitFault::NotYet(read),
            25 => AdmitFault::Admitted(read),
            26 => AdmitFault::Spent(read),
            code => AdmitFault::Other(code),
        }
    }
}

impl fmt::Display for AdmitFault {
    fn fmt(&self, f: &mut fmt::Formatter<'_>) -> fmt::Result {
        f.write_str(match self {
            AdmitFault::Holding => "the pass holds a permit that was forgotten",
            AdmitFault::BadServer => "a server has a number from 1 to 4,095",
            AdmitFault::UnknownShard => "there is no such shard",
            AdmitFault::Raced(_) => "another thread was first",
            AdmitFault::Vacant(_) => "nobody owns the shard",
            AdmitFault::Paused(_) => "the shard is paused",
            AdmitFault::NotExecutor(_) => "another server executes the shard's requests",
            AdmitFault::NotYet(_) => "the server executes only what the owner forwards",
            AdmitFault::Admitted(_) => "the shard is admitted",
            AdmitFault::Spent(_) => "the shard's generations are spent",
            AdmitFault::Other(code) => return write!(f, "the library answered code {code}"),
        })
    }
}

impl Error for AdmitFault {}

/// Why a change of a shard isn't made, with the record if one was read.
#[derive(Clone, Copy, Debug, PartialEq, Eq)]
#[non_exhaustive]
pub enum ChangeFault {
    /// There is no such server.
    UnknownServer,
    /// There is no such shard.
    UnknownShard,
    /// The change doesn't begin from the shard's stand.
    WrongPhase,
    /// The server owns the shard.
    SameServer,
    /// The shard's generations are spent.
    Spent(Record),
    /// The shard is admitted.
    Busy(Record),
    /// Another thread was first.
    Raced(Record),
    /// The server is leaving.
    Leaving,
    /// The server has no room.
    NoCapacity,
    /// The server's domain has as many shards of the group as its limit allows.
    DomainLimit,
    /// The library answered this code, which this version doesn't know.
    Other(u32),
}

impl ChangeFault {
    #[inline]
    pub(crate) fn of(code: u32, read: Record) -> ChangeFault {
        match code {
            2 | 30 => ChangeFault::UnknownServer,
            10 => ChangeFault::UnknownShard,
            11 => ChangeFault::WrongPhase,
            12 => ChangeFault::SameServer,
            13 => ChangeFault::Spent(read),
            14 => ChangeFault::Busy(read),
            15 => ChangeFault::Raced(read),
            31 => ChangeFault::Leaving,
            32 => ChangeFault::NoCapacity,
            33 => ChangeFault::DomainLimit,
            code => ChangeFault::Other(code),
        }
    }
}

impl fmt::Display for ChangeFault {
    fn fmt(&self, f: &mut fmt::Formatter<'_>) -> fmt::Result {
        f.write_str(match self {
            ChangeFault::UnknownServer => "there is no such server",
            ChangeFault::UnknownShard => "there is no such shard",
            ChangeFault::WrongPhase => "the change doesn't begin from the shard's stand",
            ChangeFault::SameServer => "the server owns the shard",
            ChangeFault::Spent(_) => "the shard's generations are spent",
            ChangeFault::Busy(_) => "the shard is admitted",
            ChangeFault::Raced(_) => "another thread was first",
            ChangeFault::Leaving => "the server is leaving",
            ChangeFault::NoCapacity => "the server has no room",
            ChangeFault::DomainLimit => {
                "the server's domain has as many shards of the group as its limit allows"
            }
            ChangeFault::Other(code) => return write!(f, "the library answered code {code}"),
        })
    }
}

impl Error for ChangeFault {}

/// Why a step of a server's restart isn't made.
#[derive(Clone, Copy, Debug, PartialEq, Eq)]
#[non_exhaustive]
pub enum RestartFault {
    /// There is no such server.
    UnknownServer,
    /// The server isn't up.
    NotUp,
    /// No restart of the server is asked for.
    NotAsked,
    /// Too many servers would be leaving.
    GlobalCap,
    /// A shard may not be down.
    ShardCap,
    /// Too many shards of a group would be down.
    GroupCap,
    /// Too many servers of a domain would be down.
    DomainCap,
    /// The server's restart isn't approved.
    NotApproved,
    /// A shard that names the server isn't paused.
    StillServing,
    /// The server is up already.
    AlreadyUp,
    /// The server has failed already.
    AlreadyFailed,
    /// The library answered this code, which this version doesn't know.
    Other(u32),
}

impl RestartFault {
    #[inline]
    pub(crate) fn of(code: u32) -> RestartFault {
        match code {
            2 | 30 => RestartFault::UnknownServer,
            40 => RestartFault::NotUp,
            41 => RestartFault::NotAsked,
            42 => RestartFault::GlobalCap,
            43 => RestartFault::ShardCap,
            44 => RestartFault::GroupCap,
            45 => RestartFault::DomainCap,
            46 => RestartFault::NotApproved,
            47 => RestartFault::StillServing,
            48 => RestartFault::AlreadyUp,
            49 => RestartFault::AlreadyFailed,
            code => RestartFault::Other(code),
        }
    }
}

impl fmt::Display for RestartFault {
    fn fmt(&self, f: &mut fmt::Formatter<'_>) -> fmt::Result {
        f.write_str(match self {
            RestartFault::UnknownServer => "there is no such server",
            RestartFault::NotUp => "the server isn't up",
            RestartFault::NotAsked => "no restart of the server is asked for",
            RestartFault::GlobalCap => "too many servers would be leaving",
            RestartFault::ShardCap => "a shard may not be down",
            RestartFault::GroupCap => "too many shards of a group would be down",
            RestartFault::DomainCap => "too many servers of a domain would be down",
            RestartFault::NotApproved => "the server's restart isn't approved",
            RestartFault::StillServing => "a shard that names the server isn't paused",
            RestartFault::AlreadyUp => "the server is up already",
            RestartFault::AlreadyFailed => "the server has failed already",
            RestartFault::Other(code) => return write!(f, "the library answered code {code}"),
        })
    }
}

impl Error for RestartFault {}

/// Why bounds don't make a layout.
#[derive(Clone, Copy, Debug, PartialEq, Eq)]
#[non_exhaustive]
pub enum LayoutFault {
    /// Out of memory.
    NoMemory,
    /// A layout has at most 4,096 bounds.
    TooMany,
    /// A layout has at least one bound.
    Empty,
    /// The first bound is not empty.
    FirstNotEmpty,
    /// A bound is not above the one before it.
    NotRising,
    /// A bound has more than 255 bytes.
    BoundTooLong,
    /// The library answered this code, which this version doesn't know.
    Other(u32),
}

impl LayoutFault {
    #[inline]
    pub(crate) fn of(code: u32) -> LayoutFault {
        match code {
            3 => LayoutFault::NoMemory,
            7 => LayoutFault::TooMany,
            50 => LayoutFault::Empty,
            51 => LayoutFault::FirstNotEmpty,
            52 => LayoutFault::NotRising,
            53 => LayoutFault::BoundTooLong,
            code => LayoutFault::Other(code),
        }
    }
}

impl fmt::Display for LayoutFault {
    fn fmt(&self, f: &mut fmt::Formatter<'_>) -> fmt::Result {
        f.write_str(match self {
            LayoutFault::NoMemory => "out of memory",
            LayoutFault::TooMany => "a layout has at most 4,096 bounds",
            LayoutFault::Empty => "a layout has at least one bound",
            LayoutFault::FirstNotEmpty => "the first bound is not empty",
            LayoutFault::NotRising => "a bound is not above the one before it",
            LayoutFault::BoundTooLong => "a bound has more than 255 bytes",
            LayoutFault::Other(code) => return write!(f, "the library answered code {code}"),
        })
    }
}

impl Error for LayoutFault {}

/// Why a request to a map is refused; the map then stays as it was.
#[derive(Clone, Copy, Debug, PartialEq, Eq)]
#[non_exhaustive]
pub enum MapFault {
    /// Out of memory.
    NoMemory,
    /// A key has at least one byte.
    EmptyKey,
    /// A key has at most 255 bytes.
    KeyTooLong,
    /// The key holds a value of the other kind.
    WrongKind,
    /// The count would have more than 64 bits.
    Overflow,
    /// The text would have more than 65,535 bytes.
    TextTooLong,
    /// The library answered this code, which this version doesn't know.
    Other(u32),
}

impl MapFault {
    #[inline]
    pub(crate) fn of(code: u32) -> MapFault {
        match code {
            3 => MapFault::NoMemory,
            57 => MapFault::EmptyKey,
            58 => MapFault::KeyTooLong,
            code => MapFault::Other(code),
        }
    }
}

impl fmt::Display for MapFault {
    fn fmt(&self, f: &mut fmt::Formatter<'_>) -> fmt::Result {
        f.write_str(match self {
            MapFault::NoMemory => "out of memory",
            MapFault::EmptyKey => "a key has at least one byte",
            MapFault::KeyTooLong => "a key has at most 255 bytes",
            MapFault::WrongKind => "the key holds a value of the other kind",
            MapFault::Overflow => "the count would have more than 64 bits",
            MapFault::TextTooLong => "the text would have more than 65,535 bytes",
            MapFault::Other(code) => return write!(f, "the library answered code {code}"),
        })
    }
}

impl Error for MapFault {}

/// Why an envelope can't be made.
#[derive(Clone, Copy, Debug, PartialEq, Eq)]
#[non_exhaustive]
pub enum SendFault {
    /// No envelope has this mode with this many hops.
    NotSent,
    /// Out of memory.
    NoMemory,
    /// A key has at least one byte.
    EmptyKey,
    /// A key has at most 255 bytes.
    KeyTooLong,
    /// The library answered this code, which this version doesn't know.
    Other(u32),
}

impl SendFault {
    #[inline]
    pub(crate) fn of(code: u32) -> SendFault {
        match code {
            2 => SendFault::NotSent,
            3 => SendFault::NoMemory,
            57 => SendFault::EmptyKey,
            58 => SendFault::KeyTooLong,
            code => SendFault::Other(code),
        }
    }
}

impl fmt::Display for SendFault {
    fn fmt(&self, f: &mut fmt::Formatter<'_>) -> fmt::Result {
        f.write_str(match self {
            SendFault::NotSent => "no envelope has this mode with this many hops",
            SendFault::NoMemory => "out of memory",
            SendFault::EmptyKey => "a key has at least one byte",
            SendFault::KeyTooLong => "a key has at most 255 bytes",
            SendFault::Other(code) => return write!(f, "the library answered code {code}"),
        })
    }
}

impl Error for SendFault {}

/// Why a server refused an envelope.
#[derive(Clone, Copy, Debug, PartialEq, Eq)]
#[non_exhaustive]
pub enum ServeFault {
    /// Out of memory.
    NoMemory,
    /// The request's key is of another shard.
    WrongShard,
    /// The request was forwarded too often.
    TooManyHops,
    /// The shard keeps as many requests as it may: make a checkpoint.
    KeptFull,
    /// The envelope belongs to another board.
    OtherBoard,
    /// The server isn't admitted to the shard.
    Admit(AdmitFault),
}

impl ServeFault {
    #[inline]
    pub(crate) fn of(code: u32, read: Record) -> ServeFault {
        match code {
            3 => ServeFault::NoMemory,
            61 => ServeFault::WrongShard,
            62 => ServeFault::TooManyHops,
            63 => ServeFault::KeptFull,
            code => ServeFault::Admit(AdmitFault::of(code, read)),
        }
    }
}

impl fmt::Display for ServeFault {
    fn fmt(&self, f: &mut fmt::Formatter<'_>) -> fmt::Result {
        f.write_str(match self {
            ServeFault::NoMemory => "out of memory",
            ServeFault::WrongShard => "the request's key is of another shard",
            ServeFault::TooManyHops => "the request was forwarded too often",
            ServeFault::KeptFull => "the shard keeps as many requests as it may: make a checkpoint",
            ServeFault::OtherBoard => "the envelope belongs to another board",
            ServeFault::Admit(fault) => return fault.fmt(f),
        })
    }
}

impl Error for ServeFault {
    fn source(&self) -> Option<&(dyn Error + 'static)> {
        match self {
            ServeFault::Admit(fault) => Some(fault),
            _ => None,
        }
    }
}

/// Why a shard didn't make a checkpoint.
#[derive(Clone, Copy, Debug, PartialEq, Eq)]
#[non_exhaustive]
pub enum CheckpointFault {
    /// Out of memory.
    NoMemory,
    /// The server isn't admitted to the shard.
    Admit(AdmitFault),
}

impl CheckpointFault {
    #[inline]
    pub(crate) fn of(code: u32, read: Record) -> CheckpointFault {
        match code {
            3 => CheckpointFault::NoMemory,
            code => CheckpointFault::Admit(AdmitFault::of(code, read)),
        }
    }
}

impl fmt::Display for CheckpointFault {
    fn fmt(&self, f: &mut fmt::Formatter<'_>) -> fmt::Result {
        f.write_str(match self {
            CheckpointFault::NoMemory => "out of memory",
            CheckpointFault::Admit(fault) => return fault.fmt(f),
        })
    }
}

impl Error for CheckpointFault {
    fn source(&self) -> Option<&(dyn Error + 'static)> {
        match self {
            CheckpointFault::Admit(fault) => Some(fault),
            _ => None,
        }
    }
}

/// Why a plan can't be made.
#[derive(Clone, Copy, Debug, PartialEq, Eq)]
#[non_exhaustive]
pub enum PlanFault {
    /// There is no such server.
    UnknownServer,
    /// Out of memory.
    NoMemory,
    /// The library answered this code, which this version doesn't know.
    Other(u32),
}

impl PlanFault {
    #[inline]
    pub(crate) fn of(code: u32) -> PlanFault {
        match code {
            2 | 30 => PlanFault::UnknownServer,
            3 => PlanFault::NoMemory,
            code => PlanFault::Other(code),
        }
    }
}

impl fmt::Display for PlanFault {
    fn fmt(&self, f: &mut fmt::Formatter<'_>) -> fmt::Result {
        f.write_str(match self {
            PlanFault::UnknownServer => "there is no such server",
            PlanFault::NoMemory => "out of memory",
            PlanFault::Other(code) => return write!(f, "the library answered code {code}"),
        })
    }
}

impl Error for PlanFault {}

/// Why a note isn't made, or a pass doesn't meet it.
#[derive(Clone, Copy, Debug, PartialEq, Eq)]
#[non_exhaustive]
pub enum NoteFault {
    /// The pass holds a permit that was forgotten.
    Holding,
    /// Out of memory.
    NoMemory,
    /// The note belongs to another board.
    OtherBoard,
    /// The library answered this code, which this version doesn't know.
    Other(u32),
}

impl NoteFault {
    #[inline]
    pub(crate) fn of(code: u32) -> NoteFault {
        match code {
            1 => NoteFault::Holding,
            3 => NoteFault::NoMemory,
            code => NoteFault::Other(code),
        }
    }
}

impl fmt::Display for NoteFault {
    fn fmt(&self, f: &mut fmt::Formatter<'_>) -> fmt::Result {
        f.write_str(match self {
            NoteFault::Holding => "the pass holds a permit that was forgotten",
            NoteFault::NoMemory => "out of memory",
            NoteFault::OtherBoard => "the note belongs to another board",
            NoteFault::Other(code) => return write!(f, "the library answered code {code}"),
        })
    }
}

impl Error for NoteFault {}

/// Why a map of routes, or a router of one, can't be made.
#[derive(Clone, Copy, Debug, PartialEq, Eq)]
#[non_exhaustive]
pub enum RoutesFault {
    /// Out of memory.
    NoMemory,
    /// A map of routes has at least one shard.
    NoShard,
    /// A map of routes has at most 4,096 shards.
    TooMany,
    /// The library answered this code, which this version doesn't know.
    Other(u32),
}

impl RoutesFault {
    #[inline]
    pub(crate) fn of(code: u32) -> RoutesFault {
        match code {
            3 => RoutesFault::NoMemory,
            6 => RoutesFault::NoShard,
            7 => RoutesFault::TooMany,
            code => RoutesFault::Other(code),
        }
    }
}

impl fmt::Display for RoutesFault {
    fn fmt(&self, f: &mut fmt::Formatter<'_>) -> fmt::Result {
        f.write_str(match self {
            RoutesFault::NoMemory => "out of memory",
            RoutesFault::NoShard => "a map of routes has at least one shard",
            RoutesFault::TooMany => "a map of routes has at most 4,096 shards",
            RoutesFault::Other(code) => return write!(f, "the library answered code {code}"),
        })
    }
}

impl Error for RoutesFault {}

/// Why a route isn't published.
#[derive(Clone, Copy, Debug, PartialEq, Eq)]
#[non_exhaustive]
pub enum PublishFault {
    /// There is no such shard.
    UnknownShard,
    /// The shard's published route is as new.
    OldRoute,
    /// Nobody owns the shard.
    WrongPhase,
    /// The library answered this code, which this version doesn't know.
    Other(u32),
}

impl PublishFault {
    #[inline]
    pub(crate) fn of(code: u32) -> PublishFault {
        match code {
            10 => PublishFault::UnknownShard,
            64 => PublishFault::OldRoute,
            code => PublishFault::Other(code),
        }
    }
}

impl fmt::Display for PublishFault {
    fn fmt(&self, f: &mut fmt::Formatter<'_>) -> fmt::Result {
        f.write_str(match self {
            PublishFault::UnknownShard => "there is no such shard",
            PublishFault::OldRoute => "the shard's published route is as new",
            PublishFault::WrongPhase => "nobody owns the shard",
            PublishFault::Other(code) => return write!(f, "the library answered code {code}"),
        })
    }
}

impl Error for PublishFault {}
// End of them.

#[cfg(test)]
mod tests {
    use super::{AdmitFault, BuildFault, CheckpointFault, ServeFault};
    use crate::record::Record;
    use crate::settings_fault::SettingsFault;

    #[test]
    fn codes_that_nobody_knows_are_told() {
        let read = Record::of_word(0);
        let fault = AdmitFault::of(9_999, read);
        assert_eq!(fault, AdmitFault::Other(9_999));
        assert_eq!((fault.record(), fault.is_transient()), (None, false));
        assert_eq!(ServeFault::of(9_999, read), ServeFault::Admit(fault));
        let unmade = CheckpointFault::of(9_999, read);
        assert_eq!(unmade.to_string(), "the library answered code 9999");
        assert_eq!(BuildFault::of(9_999), BuildFault::Other(9_999));
        assert_eq!(SettingsFault::of(9_999), SettingsFault::Other(9_999));
    }
}
