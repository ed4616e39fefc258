use super::MAX_SECRET;
use std::io;
use std::path::PathBuf;
use thiserror::Error;

/// Why there is no secret.
#[derive(Debug, Error)]
pub enum SecretFault {
    /// The file can't be read.
    #[error("{}: {}", .0.display(), .1)]
    Unreadable(PathBuf, io::Error),
    /// The first line of the file is empty.
    #[error("{}: its first line is empty", .0.display())]
    EmptyFile(PathBuf),
    /// The environment variable is empty.
    #[error("{0} is empty: set it, or unset it if none is meant")]
    EmptyVariable(String),
    /// The secret in the file or the variable is too long for a greeting.
    #[error("{0}: a secret of processes has at most {MAX_SECRET} bytes")]
    TooLong(String),
}
