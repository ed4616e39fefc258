use sm_service::Reply;

/// What clients were told.
#[derive(Clone, Copy)]
pub(crate) struct Tally {
    /// How many calls were answered.
    pub(crate) acked: u64,
    /// How many were refused.
    pub(crate) refused: u64,
    /// The nanoseconds of the longest call until it was answered, where calls are timed.
    pub(crate) longest: u64,
    /// The sum of the counts that were told.
    pub(crate) told: u64,
}

impl Tally {
    /// Of no calls.
    pub(crate) fn new() -> Tally {
        Tally {
            acked: 0,
            refused: 0,
            longest: 0,
            told: 0,
        }
    }

    /// Adds an answer.
    pub(crate) fn answered(&mut self, reply: &Reply) {
        self.acked = self.acked.wrapping_add(1);
        if let Reply::Count(count) = reply {
            self.told = self.told.wrapping_add(u64::try_from(*count).unwrap_or(0));
        }
    }

    /// Adds what another client was told.
    pub(crate) fn add(&mut self, other: Tally) {
        self.acked = self.acked.wrapping_add(other.acked);
        self.refused = self.refused.wrapping_add(other.refused);
        self.longest = self.longest.max(other.longest);
        self.told = self.told.wrapping_add(other.told);
    }
}
