//! Why a stand can't be restored.
use crate::fault::ChangeFault;
use std::error::Error;
use std::fmt;

/// Why a stand can't be restored.
#[derive(Clone, Copy, Debug, PartialEq, Eq)]
#[non_exhaustive]
pub enum RestoreFault {
    /// A change on the way is refused. The reason is `WrongPhase` also if no changes lead from the shard's stand to the
    /// one asked for.
    Change(ChangeFault),
    /// Memory was refused.
    NoMemory,
}

impl fmt::Display for RestoreFault {
    fn fmt(&self, f: &mut fmt::Formatter<'_>) -> fmt::Result {
        match self {
            RestoreFault::Change(fault) => fault.fmt(f),
            RestoreFault::NoMemory => f.write_str("out of memory"),
        }
    }
}

impl Error for RestoreFault {
    fn source(&self) -> Option<&(dyn Error + 'static)> {
        match self {
            RestoreFault::Change(fault) => Some(fault),
            RestoreFault::NoMemory => None,
        }
    }
}

impl From<ChangeFault> for RestoreFault {
    fn from(fault: ChangeFault) -> RestoreFault {
        RestoreFault::Change(fault)
    }
}
