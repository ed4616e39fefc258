use super::Fault;
use crate::wait::{NotAdmitted, Wait};
use std::time::Duration;

/// Why a command has no answer yet.
#[derive(Clone, Debug, PartialEq, Eq)]
pub enum Unanswered {
    /// It is refused.
    Fault(Fault),
    /// It waits, and is done again later.
    Wait(Wait),
    /// It is looked at again after so long.
    PutOff(Duration),
    /// It was answered, but it took so long that others have their turn before the next command.
    Long,
    /// It was answered, and the connection ends.
    End,
    /// The control answers it.
    Control,
}

impl From<Fault> for Unanswered {
    fn from(fault: Fault) -> Unanswered {
        Unanswered::Fault(fault)
    }
}

impl From<NotAdmitted> for Unanswered {
    fn from(refused: NotAdmitted) -> Unanswered {
        match refused {
            NotAdmitted::Wait(wait) => Unanswered::Wait(wait),
            NotAdmitted::Refused(fault) => Unanswered::Fault(Fault::NotAdmitted(fault)),
        }
    }
}
