use crate::OpenFault;
use durkenzo_store::{LeaseError, ReadError, WriteError};
use thiserror::Error;

/// Why a server can't join.
#[derive(Debug, Error)]
pub enum JoinFault {
    /// Another process is this server: stop it, or name another server.
    #[error("server {0} is running already at {1}")]
    Running(u16, String),
    /// The process can't begin.
    #[error("{0}")]
    Open(#[from] OpenFault),
    /// No lease was granted.
    #[error("{0}")]
    Lease(#[from] LeaseError),
    /// The store can't be read.
    #[error("{0}")]
    Read(#[from] ReadError),
    /// The store can't be written.
    #[error("{0}")]
    Write(#[from] WriteError),
}

impl JoinFault {
    /// Returns whether the store isn't there, or doesn't answer.
    pub fn is_unanswered(&self) -> bool {
        match self {
            JoinFault::Running(..) => false,
            JoinFault::Open(fault) => fault.is_unanswered(),
            JoinFault::Lease(error) => error.is_unanswered(),
            JoinFault::Read(error) => error.is_unanswered(),
            JoinFault::Write(error) => error.is_unanswered(),
        }
    }
}
