use std::fmt;
use thiserror::Error;

/// A lease. Keys that were written under it are deleted once it ends.
#[derive(Clone, Copy, Debug, PartialEq, Eq, PartialOrd, Ord, Hash)]
pub struct LeaseId(pub i64);

impl fmt::Display for LeaseId {
    fn fmt(&self, f: &mut fmt::Formatter<'_>) -> fmt::Result {
        write!(f, "{:x}", self.0)
    }
}

/// Why a lease isn't granted or kept.
#[derive(Debug, Error)]
pub enum LeaseError {
    /// It has ended, and its keys are deleted or will be.
    #[error("the lease {0} has ended")]
    Ended(LeaseId),
    /// The store doesn't answer, so it isn't known whether it was kept.
    #[error("the store doesn't answer: {0}")]
    Unavailable(String),
    /// The store has ended.
    #[error("the store has ended")]
    Stopped,
}

impl LeaseError {
    /// Returns whether the store isn't there, or doesn't answer.
    pub fn is_unanswered(&self) -> bool {
        match self {
            LeaseError::Unavailable(_) => true,
            LeaseError::Ended(_) | LeaseError::Stopped => false,
        }
    }
}
