//! The counters of a thread, which other threads read.
use crate::metric::{Info, Metric, Section, Source};
use durkenzo_driver::ControlCommand;
use std::collections::BTreeMap;
use std::sync::atomic::{AtomicU64, Ordering};
use std::sync::{Mutex, MutexGuard, PoisonError};
use std::time::Duration;

/// A number that one thread changes and others read.
#[derive(Debug, Default)]
pub struct Counter(AtomicU64);

impl Counter {
    /// Adds to it. Only the thread that owns the counter may call this.
    #[inline]
    pub fn add(&self, more: u64) {
        self.0
            .store(self.get().wrapping_add(more), Ordering::Relaxed);
    }

    /// Returns the number, which may be out of date.
    #[inline]
    pub fn get(&self) -> u64 {
        self.0.load(Ordering::Relaxed)
    }
}

/// An exact number of things, which several threads may change.
#[derive(Debug, Default)]
pub struct Gauge(AtomicU64);

impl Gauge {
    /// Notes that there is one more.
    pub fn note_more(&self) {
        self.0.fetch_add(1, Ordering::Relaxed);
    }

    /// Notes that there is one less.
    pub fn note_less(&self) {
        self.0.fetch_sub(1, Ordering::Relaxed);
    }

    /// Sets the number. Only a thread that is the only one to change it may call this.
    pub fn set(&self, value: u64) {
        self.0.store(value, Ordering::Relaxed);
    }

    /// Returns how many there are.
    pub fn get(&self) -> u64 {
        self.0.load(Ordering::Relaxed)
    }
}

/// Bounds of times, in microseconds.
pub const LATENCY_BOUNDS: [u64; 14] = [
    10, 25, 50, 100, 250, 500, 1_000, 2_500, 5_000, 10_000, 25_000, 100_000, 1_000_000, 10_000_000,
];

/// How long commands took: how many took at most each bound, and last how many took longer than all bounds.
#[derive(Debug, Default)]
pub struct Latency {
    counts: [Counter; LATENCY_BOUNDS.len() + 1],
    sum: Counter,
}

impl Latency {
    /// Notes that so many commands took so long. Only the thread that owns this may call it.
    pub fn note(&self, took: Duration, commands: u64) {
        let micros = took.as_micros() as u64;
        let place = LATENCY_BOUNDS.partition_point(|it| *it < micros);
        self.counts[place].add(commands);
        self.sum.add(micros.saturating_mul(commands));
    }

    /// Returns how many took at most each bound, and how many took longer.
    pub fn counts(&self) -> impl Iterator<Item = u64> + '_ {
        self.counts.iter().map(Counter::get)
    }

    /// Returns the microseconds of all commands.
    pub fn sum(&self) -> u64 {
        self.sum.get()
    }
}

/// The work of a thread as a server.
///
/// Each is a number of its own that only grows. None is the difference of two numbers, which would be read one after
/// the other. So a second read never returns less, because a read never returns an older value than the read before it.
#[derive(Debug, Default)]
pub struct AsServer {
    /// Admissions to shards.
    pub admissions: Counter,
    /// Commands with keys that were done.
    pub done: Counter,
    /// Commands with keys that were answered with an error.
    pub errors: Counter,
}

/// How often this process made each kind of command.
#[derive(Debug)]
pub struct ChangesMade(Mutex<BTreeMap<&'static str, u64>>);

impl Default for ChangesMade {
    /// Makes the counts, all 0, so that `/metrics` has each of them from the start.
    fn default() -> ChangesMade {
        let counts = ControlCommand::words().map(|it| (it, 0));
        ChangesMade(Mutex::new(counts.collect()))
    }
}

impl ChangesMade {
    /// Counts a command of this kind.
    pub fn add(&self, word: &'static str) {
        *self.words().entry(word).or_default() += 1;
    }

    /// Returns how often each kind of command was made.
    pub fn counts(&self) -> BTreeMap<&'static str, u64> {
        self.words().clone()
    }

    fn words(&self) -> MutexGuard<'_, BTreeMap<&'static str, u64>> {
        self.0.lock().unwrap_or_else(PoisonError::into_inner)
    }
}

/// How often clients were answered with each error.
pub type ErrorCounts = BTreeMap<Box<str>, u64>;

/// The work of a thread.
#[derive(Debug, Default)]
pub struct Stats {
    /// Commands that were done, including refused ones.
    pub commands: Counter,
    /// Requests that a server forwarded to the one that executed them.
    pub forwarded: Counter,
    /// Attempts of commands that found their shard with another thread for longer than a short spin.
    pub raced: Counter,
    /// Commands that began to wait for a shard that no server executed.
    pub waited: Counter,
    /// Commands that waited in vain.
    pub refused: Counter,
    /// Connections that were accepted.
    pub accepted: Counter,
    /// Connections that are open, from the moment when the thread gets them.
    pub open: Gauge,
    /// Connections whose next command waits for a shard that no server executes.
    pub waiting: Gauge,
    /// Bytes that were received.
    pub received: Counter,
    /// Bytes that were sent.
    pub sent: Counter,
    /// How long commands took.
    pub latency: Latency,
    /// The work as each server, from server 1 on.
    pub servers: Box<[AsServer]>,
    errors: Mutex<ErrorCounts>,
}

/// The numbers that each thread has.
pub static OF_THREADS: [Metric; 10] = [
    Metric::gauge(
        "connections",
        "Connections that are open",
        Info::Redis(Section::Clients, "connected_clients"),
        Source::Thread(|it| it.open.get()),
    ),
    Metric::gauge(
        "waiting",
        "Connections whose next command waits for a shard",
        Info::Redis(Section::Clients, "blocked_clients"),
        Source::Thread(|it| it.waiting.get()),
    ),
    Metric::counter(
        "accepted",
        "Connections that came",
        Info::Redis(Section::Stats, "total_connections_received"),
        Source::Thread(|it| it.accepted.get()),
    ),
    Metric::counter(
        "commands",
        "Commands that were done, refused ones among them",
        Info::Redis(Section::Stats, "total_commands_processed"),
        Source::Thread(|it| it.commands.get()),
    ),
    Metric::counter(
        "received_bytes",
        "Bytes that came",
        Info::Redis(Section::Stats, "total_net_input_bytes"),
        Source::Thread(|it| it.received.get()),
    ),
    Metric::counter(
        "sent_bytes",
        "Bytes that went",
        Info::Redis(Section::Stats, "total_net_output_bytes"),
        Source::Thread(|it| it.sent.get()),
    ),
    Metric::counter(
        "forwarded_requests",
        "Requests that a server forwarded to the one that executed them",
        Info::Own(Section::Stats),
        Source::Thread(|it| it.forwarded.get()),
    ),
    Metric::counter(
        "raced_tries",
        "Turns of commands that found their shard with another thread, after all --spins",
        Info::Own(Section::Stats),
        Source::Thread(|it| it.raced.get()),
    ),
    Metric::counter(
        "waited_requests",
        "Commands that began to wait for a shard that nobody executes",
        Info::Own(Section::Stats),
        Source::Thread(|it| it.waited.get()),
    ),
    Metric::counter(
        "refused_requests",
        "Commands that waited in vain",
        Info::Own(Section::Stats),
        Source::Thread(|it| it.refused.get()),
    ),
];

impl Stats {
    /// Makes the counters of a thread that has done nothing yet.
    pub fn new(servers: u16) -> Stats {
        Stats {
            servers: (0..servers).map(|_| AsServer::default()).collect(),
            ..Stats::default()
        }
    }

    /// Adds these errors.
    pub fn note_errors(&self, more: ErrorCounts) {
        let mut errors = self.errors.lock().unwrap_or_else(PoisonError::into_inner);
        for (name, count) in more {
            *errors.entry(name).or_default() += count;
        }
    }

    /// Returns the errors with which clients were answered.
    pub fn errors(&self) -> ErrorCounts {
        let errors = self.errors.lock().unwrap_or_else(PoisonError::into_inner);
        errors.clone()
    }
}

#[cfg(test)]
mod tests {
    use super::*;

    #[test]
    fn times_are_counted_by_their_bounds() {
        let latency = Latency::default();
        for (micros, commands) in [(10, 1), (11, 2), (99, 4), (20_000_000, 8)] {
            latency.note(Duration::from_micros(micros), commands);
        }
        let counts: Vec<_> = latency.counts().collect();
        assert_eq!((&counts[..4], counts[14]), (&[1, 2, 0, 4][..], 8));
        assert_eq!(latency.sum(), 10 + 22 + 396 + 160_000_000);
    }
}
