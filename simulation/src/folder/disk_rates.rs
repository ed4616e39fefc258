use crate::chance::Chance;

/// How often a simulated disk fails: once in so many calls. If a number is 0, such calls never fail.
#[derive(Clone, Copy, Debug, Default)]
pub struct DiskRates {
    pub writes: u64,
    pub syncs: u64,
    pub reads: u64,
    /// Calls about folders, about the files in them, and about the room that is kept back.
    pub others: u64,
    /// Whether a sync that fails may lose data for good, though later syncs say that all is kept, as on Linux.
    pub gives_up: bool,
}

impl DiskRates {
    /// Draws how often a disk fails in a schedule.
    pub fn drawn(chance: &mut Chance) -> DiskRates {
        let mut rate = |often: u64| match chance.below(3) {
            0 => 0,
            1 => often,
            _ => 10 * often,
        };
        DiskRates {
            writes: rate(40),
            syncs: rate(10),
            reads: rate(80),
            others: rate(15),
            gives_up: true,
        }
    }
}
