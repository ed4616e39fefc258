//! The requests of the trial's clients, and the answers of its service.
use rustix::time::{clock_gettime, ClockId};

/// The most calls of a key whose numbers are in an answer.
pub const LAST: usize = 16;

/// A call of a client.
#[derive(Clone, Copy, Debug, PartialEq, Eq)]
pub struct Asked {
    pub key: u32,
    /// The number of the call among the calls of the key, from 1. If it is 0, the call only reads.
    pub number: u64,
}

/// The service's answer about a key, after the call was made.
#[derive(Clone, Debug, PartialEq, Eq)]
pub struct Told {
    /// When the call was executed, by [`now`].
    pub time: u64,
    /// The process that executed the call.
    pub process: u64,
    /// The beginning of the shard since which it has counted.
    pub origin: u64,
    /// Whether the shard had never begun before.
    pub is_new: bool,
    /// How many calls of the key were counted since then.
    pub count: u64,
    /// The numbers of the last of these calls, in their order.
    pub numbers: Vec<u64>,
}

/// Returns this moment in nanoseconds. All processes of the machine share this clock, and no nemesis turns it.
pub fn now() -> u64 {
    told_by(ClockId::MonotonicRaw)
}

/// Returns the time of CLOCK_MONOTONIC at a moment of that clock, in a process that no nemesis disturbs.
pub fn by_monotonic(moment: u64) -> u64 {
    let monotonic = told_by(ClockId::Monotonic);
    (monotonic + moment).saturating_sub(now())
}

fn told_by(clock: ClockId) -> u64 {
    let time = clock_gettime(clock);
    time.tv_sec as u64 * 1_000_000_000 + time.tv_nsec as u64
}

/// Returns the numbers in these bytes.
pub fn numbers(bytes: &[u8]) -> impl Iterator<Item = u64> + '_ {
    let words = bytes.chunks_exact(8);
    words.map(|it| it.iter().fold(0, |all, byte| all << 8 | u64::from(*byte)))
}

/// Returns the bytes of these numbers.
pub fn spelled(numbers: impl IntoIterator<Item = u64>) -> Vec<u8> {
    numbers.into_iter().flat_map(u64::to_be_bytes).collect()
}

impl Asked {
    pub fn bytes(self) -> Vec<u8> {
        spelled([u64::from(self.key), self.number])
    }

    pub fn read(bytes: &[u8]) -> Option<Asked> {
        let mut read = numbers(bytes);
        let (key, number) = (read.next()?, read.next()?);
        let key = u32::try_from(key).ok()?;
        Some(Asked { key, number })
    }
}

impl Told {
    pub fn bytes(&self) -> Vec<u8> {
        let is_new = u64::from(self.is_new);
        let head = [self.time, self.process, self.origin, is_new, self.count];
        spelled(head.into_iter().chain(self.numbers.iter().copied()))
    }

    pub fn read(bytes: &[u8]) -> Option<Told> {
        let mut read = numbers(bytes);
        Some(Told {
            time: read.next()?,
            process: read.next()?,
            origin: read.next()?,
            is_new: read.next()? == 1,
            count: read.next()?,
            numbers: read.collect(),
        })
    }
}
