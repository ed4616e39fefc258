use thiserror::Error;

/// Why a transaction has no outcome.
#[derive(Clone, Debug, Error)]
pub enum WriteError {
    /// It may be made, or be made later, or never. Only a later reading shows it.
    #[error("it isn't known whether it was made: {0}")]
    Unknown(String),
    /// It isn't made and never will be, because the store didn't get it, and takes nothing more.
    #[error("the store can't be reached: {0}")]
    Unreachable(String),
    /// It isn't made and never will be, because the store doesn't take it now. The store may take another one soon.
    #[error("the store takes nothing now: {0}")]
    Unavailable(String),
    /// It isn't made, because the disk or the store's quota is full. Reads go on.
    #[error("the store is full: {0}")]
    Full(String),
    /// It isn't made, because it is larger than the store takes.
    #[error("it is larger than the store takes: {0}")]
    TooLarge(String),
    /// It isn't made, because its lease has ended.
    #[error("its lease has ended")]
    LeaseEnded,
    /// It isn't made, because a key that it compares or reads doesn't have the bytes that were written.
    #[error("{0}: restore the folder")]
    Damaged(String),
    /// It isn't made, because the store doesn't let this user write.
    #[error("the store doesn't let this user write: {0}")]
    Denied(String),
    /// It isn't made, because the store has ended.
    #[error("the store has ended")]
    Stopped,
}

impl WriteError {
    /// Returns whether the store isn't there, or doesn't answer.
    pub fn is_unanswered(&self) -> bool {
        match self {
            WriteError::Unknown(_) | WriteError::Unreachable(_) | WriteError::Unavailable(_) => {
                true
            }
            WriteError::Full(_)
            | WriteError::TooLarge(_)
            | WriteError::LeaseEnded
            | WriteError::Damaged(_)
            | WriteError::Denied(_)
            | WriteError::Stopped => false,
        }
    }
}

/// Why a reading fails.
#[derive(Clone, Debug, Error)]
pub enum ReadError {
    /// The store doesn't answer.
    #[error("the store doesn't answer: {0}")]
    Unavailable(String),
    /// The bytes aren't those that were written.
    #[error("{0}: restore the folder")]
    Damaged(String),
    /// The store doesn't let this user read.
    #[error("the store doesn't let this user read: {0}")]
    Denied(String),
    /// The store has ended.
    #[error("the store has ended")]
    Stopped,
}

impl ReadError {
    /// Returns whether the store isn't there, or doesn't answer.
    pub fn is_unanswered(&self) -> bool {
        match self {
            ReadError::Unavailable(_) => true,
            ReadError::Damaged(_) | ReadError::Denied(_) | ReadError::Stopped => false,
        }
    }
}

/// Why a store's room isn't returned.
#[derive(Clone, Debug, Error)]
pub enum CompactError {
    /// The store doesn't answer.
    #[error("the store doesn't answer: {0}")]
    Unavailable(String),
    /// The store doesn't let this user do it.
    #[error("the store doesn't let this user do it: {0}")]
    Denied(String),
    /// The store has ended.
    #[error("the store has ended")]
    Stopped,
}

impl From<ReadError> for CompactError {
    fn from(error: ReadError) -> CompactError {
        match error {
            ReadError::Unavailable(reason) | ReadError::Damaged(reason) => {
                CompactError::Unavailable(reason)
            }
            ReadError::Denied(reason) => CompactError::Denied(reason),
            ReadError::Stopped => CompactError::Stopped,
        }
    }
}
