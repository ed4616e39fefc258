use std::time::Duration;

/// How long each call took.
#[derive(Default)]
pub(crate) struct Timed {
    microseconds: Vec<u32>,
}

impl Timed {
    pub(crate) fn add(&mut self, took: Duration) {
        self.microseconds
            .push(u32::try_from(took.as_micros()).unwrap_or(u32::MAX));
    }

    pub(crate) fn take(&mut self, other: Timed) {
        self.microseconds.extend(other.microseconds);
    }

    /// Returns four numbers: the calls, the calls a second, and the median and the 99th percentile of their times in
    /// microseconds.
    pub(crate) fn told(mut self, seconds: u64) -> String {
        self.microseconds.sort_unstable();
        let count = self.microseconds.len();
        let at = |part: usize| {
            let found = self.microseconds.get(count * part / 100);
            found.or(self.microseconds.last()).copied().unwrap_or(0)
        };
        format!("{count} {} {} {}", count as u64 / seconds, at(50), at(99))
    }
}
