//! Refusals of the control in cases that only this server has.
use super::Refusal;
use crate::command::name_of;
use crate::dump::DumpFault;
use crate::wait::NotAdmitted;

impl From<DumpFault> for Refusal {
    fn from(fault: DumpFault) -> Refusal {
        Refusal::new(fault.name(), fault.to_string(), fault.advice())
    }
}

impl From<NotAdmitted> for Refusal {
    fn from(refused: NotAdmitted) -> Refusal {
        match refused {
            NotAdmitted::Wait(wait) => Refusal::new(wait.name(), wait.reason(), wait.advice()),
            NotAdmitted::Refused(fault) => Refusal::new(
                &name_of(&fault),
                fault.to_string(),
                "SM SHARDS tells how all stand",
            ),
        }
    }
}
