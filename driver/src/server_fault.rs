use durkenzo_store_sys::Code;
use thiserror::Error;

/// Why a proved server can't go on. It is closed, and another one reads the shard from the beginning.
#[derive(Clone, Debug, PartialEq, Eq, Error)]
pub(crate) enum ServerFault {
    /// The server answered this code.
    #[error("{0}")]
    Code(#[from] Code),
    /// The machine of a user's service can't go on: its function, and why.
    #[error("the service's machine: {0}")]
    Machine(String),
    /// The machine has applied so many requests where the server has made that many.
    #[error("the service's machine is after {0} requests, and the log has {1}")]
    OtherCount(u64, u64),
    /// The log has a request of another service.
    #[error("the log is of another service: take a store, or a prefix, of its own")]
    OtherService,
}

impl ServerFault {
    /// Returns whether the store's content is wrong. Then reading it again doesn't help.
    pub(crate) fn is_damage(&self) -> bool {
        match self {
            ServerFault::Code(code) => matches!(*code, Code::BAD_BYTES | Code::BAD_LOG),
            ServerFault::Machine(_) | ServerFault::OtherCount(..) | ServerFault::OtherService => {
                true
            }
        }
    }
}
