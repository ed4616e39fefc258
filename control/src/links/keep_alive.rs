//! How a link finds out that the other machine is gone without a word, for instance because it lost power.
use std::time::Duration;

/// The system's settings by which a connection ends once the other machine is gone.
#[derive(Clone, Copy, Debug, PartialEq, Eq)]
pub struct KeepAlive {
    /// After this long without a byte, the other machine is asked whether it is there.
    pub idle: Duration,
    /// How long until it is asked again.
    pub again: Duration,
    /// How often it is asked in vain.
    pub asked: u32,
    /// How long the other machine may take to acknowledge bytes.
    pub silent: Duration,
}

/// How the system keeps the connections of links. The system of a machine that is there answers, however long its
/// process takes. So no slow shard ends a connection.
pub const KEEP_ALIVE: KeepAlive = KeepAlive {
    idle: Duration::from_secs(5),
    again: Duration::from_secs(2),
    asked: 3,
    silent: Duration::from_secs(10),
};
