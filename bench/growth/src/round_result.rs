//! The results of a round.
use std::time::Duration;

/// The most requests whose times a thread keeps.
pub const MOST_TIMES: usize = 1 << 16;

pub struct RoundResult {
    pub requests: u64,
    pub migrations: u64,
    pub taken: Duration,
    /// The times of some requests, in nanoseconds.
    pub times: Vec<u64>,
}

impl RoundResult {
    /// Returns the time in which this many of 1,000 requests were made. The times must be sorted.
    fn part(&self, thousandths: usize) -> u64 {
        let last = self.times.len().saturating_sub(1);
        self.times
            .get(last * thousandths / 1000)
            .copied()
            .unwrap_or(0)
    }

    /// Prints a line: the way, the requests a second, the median and the 99th percentile of their times in nanoseconds,
    /// and the migrations a second.
    pub fn print(mut self, way: &str) {
        self.times.sort_unstable();
        let seconds = self.taken.as_secs_f64();
        let (rate, moved) = (
            self.requests as f64 / seconds,
            self.migrations as f64 / seconds,
        );
        println!(
            "{way};{rate:.1};{};{};{moved:.1}",
            self.part(500),
            self.part(990)
        );
    }
}
