use std::fmt;
use thiserror::Error;

/// Why a call has no answer.
#[derive(Clone, PartialEq, Eq, Error)]
pub enum CallError {
    /// The call may have been made, or may still be made.
    #[error("the call may have been made, or may be made still: {0}")]
    Unsure(String),
    /// The call wasn't made, and won't be.
    #[error("the call wasn't made: {0}")]
    NotMade(String),
}

impl fmt::Debug for CallError {
    /// Writes the sentence here too, because Rust prints an error that `main` returns in this form.
    fn fmt(&self, f: &mut fmt::Formatter<'_>) -> fmt::Result {
        fmt::Display::fmt(self, f)
    }
}
