use durkenzo_fleet::CallError;
use std::time::Instant;

/// How long the answered calls took, and how many calls weren't answered.
#[derive(Default)]
pub(crate) struct Timed {
    microseconds: Vec<u32>,
    unsure: u64,
    not_made: u64,
}

impl Timed {
    /// Adds a call that was due at `since` and has ended now. If it was answered, its time is kept. If not, it is only
    /// counted.
    pub(crate) fn add(&mut self, since: Instant, answered: Result<(), CallError>) {
        match answered {
            Ok(()) => {
                let took = since.elapsed().as_micros();
                self.microseconds
                    .push(u32::try_from(took).unwrap_or(u32::MAX));
            }
            Err(CallError::Unsure(_)) => self.unsure += 1,
            Err(CallError::NotMade(_)) => self.not_made += 1,
        }
    }

    pub(crate) fn take(&mut self, other: Timed) {
        self.microseconds.extend(other.microseconds);
        self.unsure += other.unsure;
        self.not_made += other.not_made;
    }

    /// Returns seven numbers. The first five are of the calls that were answered: their number, the number a second,
    /// and the median, the 99th percentile and the longest of their times in microseconds. The other two are the number
    /// of calls that may have been made, and the number of calls that weren't made.
    pub(crate) fn told(mut self, seconds: u64) -> String {
        self.microseconds.sort_unstable();
        let (count, last) = (self.microseconds.len(), self.microseconds.last().copied());
        let at = |part: usize| {
            self.microseconds
                .get(count * part / 100)
                .copied()
                .or(last)
                .unwrap_or(0)
        };
        let (middle, slow, longest) = (at(50), at(99), at(100));
        let rate = count as u64 / seconds;
        format!(
            "{count} {rate} {middle} {slow} {longest} {} {}",
            self.unsure, self.not_made
        )
    }
}
