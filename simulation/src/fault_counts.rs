use crate::fault::{Fault, NumberedFault};

/// How many faults of each kind there were.
#[derive(Clone, Copy, Debug, PartialEq, Eq)]
pub struct FaultCounts([u64; Fault::ALL.len()]);

impl Default for FaultCounts {
    fn default() -> FaultCounts {
        FaultCounts([0; Fault::ALL.len()])
    }
}

impl FaultCounts {
    /// Counts these faults by kind.
    pub fn of(struck: &[NumberedFault]) -> FaultCounts {
        let mut counts = FaultCounts::default();
        struck
            .iter()
            .for_each(|it| counts.0[it.fault as usize] += 1);
        counts
    }

    /// Returns how many faults of this kind there were.
    pub fn count(&self, fault: Fault) -> u64 {
        self.0[fault as usize]
    }

    /// Adds the counts of another schedule.
    pub fn add(&mut self, more: &FaultCounts) {
        let counts = self.0.iter_mut().zip(more.0);
        counts.for_each(|(all, more)| *all += more);
    }
}
