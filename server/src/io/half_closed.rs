use std::collections::BTreeMap;
use std::time::{Duration, Instant};

/// The most connections of all threads that wait for an answer although their clients send no more.
const MOST: usize = 128;
/// How long such a connection waits.
const WAIT: Duration = Duration::from_secs(1);

/// A thread's connections that wait for an answer although their clients send no more. Such a client may still read, or
/// may have left. The system doesn't tell which until something is sent to the client. So these connections wait only
/// for a short time, and are few.
#[derive(Debug)]
pub(super) struct HalfClosed {
    most: usize,
    /// Until when each connection waits, and its place, by its number.
    waiting: BTreeMap<u64, (Instant, usize)>,
}

impl HalfClosed {
    /// Makes the list of one of so many threads.
    pub(super) fn new(threads: usize) -> HalfClosed {
        HalfClosed {
            most: (MOST / threads.max(1)).max(1),
            waiting: BTreeMap::new(),
        }
    }

    /// Makes the connection with this number, at this place, wait. Returns whether it may.
    pub(super) fn begin(&mut self, id: u64, place: usize, now: Instant) -> bool {
        let may = self.waiting.len() < self.most || self.waiting.contains_key(&id);
        if may {
            self.waiting.entry(id).or_insert((now + WAIT, place));
        }
        may
    }

    /// Notes that the connection waits no more.
    pub(super) fn end(&mut self, id: u64) {
        self.waiting.remove(&id);
    }

    /// Returns how many connections wait.
    #[cfg(feature = "simulated")]
    pub(super) fn len(&self) -> usize {
        self.waiting.len()
    }

    /// Returns when the next connection will have waited long enough, if one waits.
    pub(super) fn next_end(&self) -> Option<Instant> {
        self.waiting.values().map(|it| it.0).min()
    }

    /// Returns the places of the connections that have waited long enough, in the order in which they came.
    pub(super) fn due(&self, now: Instant) -> Vec<usize> {
        let due = self.waiting.values().filter(|it| it.0 <= now);
        due.map(|it| it.1).collect()
    }
}

#[cfg(test)]
mod tests {
    use super::*;

    #[test]
    fn few_wait_and_not_for_long() {
        let (mut half_closed, now) = (HalfClosed::new(MOST / 2), Instant::now());
        assert!(half_closed.begin(7, 1, now) && half_closed.begin(8, 2, now));
        assert!(!half_closed.begin(9, 3, now) && half_closed.begin(8, 2, now + WAIT));
        assert!(half_closed.due(now).is_empty() && half_closed.next_end() == Some(now + WAIT));
        half_closed.end(7);
        assert!(half_closed.begin(9, 3, now + WAIT));
        assert_eq!(half_closed.due(now + WAIT), [2]);
    }
}
