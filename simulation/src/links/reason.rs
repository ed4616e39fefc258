use durkenzo_control::links::{put_text, Fields, Reason, WireFault};
use durkenzo_driver::NotDone;
use durkenzo_store::Revision;

/// Why a step isn't done, as one process tells another. If no law tells a reason apart, it is told as not made.
#[derive(Clone, Debug, PartialEq, Eq)]
pub struct SimulatedReason(pub NotDone);

impl Reason for SimulatedReason {
    fn stopped() -> SimulatedReason {
        SimulatedReason(NotDone::Stopped)
    }

    fn moved(revision: Revision) -> SimulatedReason {
        SimulatedReason(NotDone::Moved(revision))
    }

    fn unknown(why: String) -> SimulatedReason {
        SimulatedReason(NotDone::Unknown(why))
    }

    fn looks_again(&self) -> Option<Revision> {
        match self.0 {
            NotDone::Moved(revision) => Some(revision),
            NotDone::Stopped => Some(Revision::NEVER),
            _ => None,
        }
    }

    fn code(&self) -> u8 {
        match self.0 {
            NotDone::Stopped => 1,
            NotDone::Moved(_) => 2,
            NotDone::Unknown(_) => 3,
            NotDone::Passed => 4,
            NotDone::Damaged(_) => 5,
            _ => 6,
        }
    }

    fn write(&self, out: &mut Vec<u8>) {
        match &self.0 {
            NotDone::Stopped | NotDone::Passed => {}
            NotDone::Moved(revision) => out.extend(revision.0.to_be_bytes()),
            NotDone::Unknown(why) | NotDone::Damaged(why) => put_text(out, why),
            other => put_text(out, &other.to_string()),
        }
    }

    fn read(code: u8, mut details: Fields<'_>) -> Result<SimulatedReason, WireFault> {
        let why = match code {
            1 => NotDone::Stopped,
            2 => NotDone::Moved(Revision(details.long()?)),
            3 => NotDone::Unknown(details.text()?),
            4 => NotDone::Passed,
            5 => NotDone::Damaged(details.text()?),
            6 => NotDone::NotMade(details.text()?),
            code => return Err(WireFault::Answer(code)),
        };
        details.end().map(|()| SimulatedReason(why))
    }
}
