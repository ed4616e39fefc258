use durkenzo_store::{ReadError, WriteError};
use std::io;
use thiserror::Error;

/// Why the shards of a store can't be opened.
#[derive(Debug, Error)]
pub enum OpenFault {
    /// The store can't be read.
    #[error("{0}")]
    Read(#[from] ReadError),
    /// The store can't be written.
    #[error("{0}")]
    Write(#[from] WriteError),
    /// The number of the last process is malformed.
    #[error("at its key `process` lies no number: the store isn't of this program, or is damaged")]
    BadProcess,
    /// A thread can't be started.
    #[error("a thread can't be started: {0}")]
    Thread(#[source] io::Error),
}

impl OpenFault {
    /// Returns whether the store isn't there, or doesn't answer.
    pub fn is_unanswered(&self) -> bool {
        match self {
            OpenFault::Read(error) => error.is_unanswered(),
            OpenFault::Write(error) => error.is_unanswered(),
            OpenFault::BadProcess | OpenFault::Thread(_) => false,
        }
    }
}
