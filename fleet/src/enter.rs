use crate::{Permit, Service};
use thiserror::Error;

/// Whether this process may execute a call, or where the call must go.
pub enum Enter<'a, S: Service> {
    /// This process executes the call.
    Here(Permit<'a, S>),
    /// The call goes to this server. That server must be told that this one forwarded the call:
    /// [`Mode::Forwarded`](crate::Mode).
    Forward(Destination),
    /// The call goes to the shard's owner, as if the client had sent it there.
    Elsewhere(Destination),
    /// Nobody executes for the shard now, or this process doesn't know yet who does. The caller may ask again soon.
    Wait(&'static str),
    /// The call is refused, and nothing is done.
    Refused(Refused),
}

/// The server to which a call goes next.
#[derive(Clone, Debug, PartialEq, Eq)]
pub struct Destination {
    /// The number of the server.
    pub server: u16,
    /// The address at which the server takes the frames of a fleet, if the server is there.
    pub address: Option<String>,
    /// The address at which clients reach the server with frames of the service's own, if the server is there. This is
    /// its `--clients`, or else its address.
    pub clients: Option<String>,
    /// The revision of the shard's record that names this server. The other process must read that record first, unless
    /// it may execute under the record that it has read.
    pub revision: u64,
}

/// Why a call is refused.
#[derive(Clone, Copy, Debug, PartialEq, Eq, Error)]
#[non_exhaustive]
pub enum Refused {
    /// The shard doesn't exist.
    #[error("there is no such shard")]
    UnknownShard,
    /// The call says that a server forwarded it, but no server can have that number.
    #[error("no server has the number of the one that forwarded it")]
    UnknownServer,
}
