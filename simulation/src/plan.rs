//! The plan of a schedule, and its results.
use crate::bug::Bug;
use crate::fault::NumberedFault;
use crate::faults::Kept;
use crate::law::Broken;
use crate::part::Part;
use crate::tally::Tally;

/// The plan of a schedule. Two runs of one plan are the same, byte for byte.
#[derive(Clone, Debug)]
pub struct Plan {
    pub seed: u64,
    /// The part that runs.
    pub part: Part,
    pub bug: Option<Bug>,
    /// Which faults strike, of those that the seed draws.
    pub kept: Kept,
    /// Whether the timeline is kept.
    pub is_shown: bool,
}

impl Plan {
    /// Returns a plan for this part of the seed. All faults strike, and the timeline isn't kept.
    pub fn of_part(seed: u64, part: Part) -> Plan {
        Plan {
            part,
            ..Plan::new(seed, None)
        }
    }

    /// Returns a plan for the part that finds the bug, or for the processes if there is no bug. All faults strike, and
    /// the timeline isn't kept.
    pub fn new(seed: u64, bug: Option<Bug>) -> Plan {
        Plan {
            seed,
            part: bug.map_or(Part::Processes, Bug::part),
            bug,
            kept: Kept::All,
            is_shown: false,
        }
    }
}

/// The results of a schedule.
pub struct Ran {
    pub tally: Tally,
    pub verdict: Result<(), Broken>,
    /// The faults that struck, in their order.
    pub struck: Vec<NumberedFault>,
    /// The timeline, if it is kept.
    pub timeline: Option<String>,
    /// The timeline as a picture in SVG, if it is kept and the part has pictures.
    pub picture: Option<String>,
}
