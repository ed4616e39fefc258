use std::sync::atomic::{AtomicU64, Ordering};
use std::time::{Duration, Instant};

/// The beginning of the keys in which clients count.
pub(crate) const COUNT: &str = "count:";
/// After this many calls without an answer, another key takes the place of their key. Each of them may be made at any
/// later moment, so each multiplies the orders that must be tried.
const MOST_OPEN: u64 = 4;

/// The plan that all clients of a trial share.
#[derive(Debug)]
pub struct TrialPlan {
    /// The addresses at which servers listen.
    pub addresses: Vec<String>,
    /// How many keys are called at a time.
    pub keys: u64,
    /// After how long other keys take the place of these, or none if the keys stay.
    pub epoch: Option<Duration>,
    /// How long a client waits for a reply.
    pub patience: Duration,
    /// The moment from which moments are counted.
    pub start: Instant,
    /// Until when clients call.
    pub end: Instant,
    /// The seed of chance.
    pub seed: u64,
    /// How many calls of each key had no answer.
    pub open: Box<[AtomicU64]>,
}

impl TrialPlan {
    /// Returns the moment now.
    pub fn moment(&self) -> u64 {
        u64::try_from(self.start.elapsed().as_nanos()).unwrap_or(u64::MAX)
    }

    /// Returns the key of this number now.
    pub fn key(&self, number: u64) -> String {
        let open = self.open.get(number as usize);
        let turn = open.map_or(0, |it| it.load(Ordering::Relaxed)) / MOST_OPEN;
        match turn {
            0 => format!("{}{number}", self.front()),
            turn => format!("{}turn-{turn}:{number}", self.front()),
        }
    }

    /// Notes that a call of the key has no answer.
    pub(crate) fn note_open(&self, key: &str) {
        let number = key
            .rsplit(':')
            .next()
            .and_then(|it| it.parse::<usize>().ok());
        let open = number
            .filter(|_| !key.contains(COUNT))
            .and_then(|it| self.open.get(it));
        let _ = open.map(|it| it.fetch_add(1, Ordering::Relaxed));
    }

    /// Returns the key in which the client of this name counts its numbered requests now. No other client writes it.
    pub fn count(&self, name: u64) -> String {
        format!("{}{COUNT}{name}", self.front())
    }

    fn front(&self) -> String {
        let epoch = |it: Duration| self.start.elapsed().as_nanos() / it.as_nanos().max(1);
        self.epoch
            .map_or_else(|| "trial:".to_owned(), |it| format!("trial:{}:", epoch(it)))
    }

    /// Returns the address of this turn.
    pub fn address(&self, turn: u64) -> &str {
        let count = self.addresses.len().max(1) as u64;
        self.addresses
            .get((turn % count) as usize)
            .map_or("", |it| it)
    }
}
