use crate::load_report::LoadReport;
use crate::ShardLoad;
use durkenzo_store::LeaseId;
use std::collections::BTreeMap;
use std::sync::atomic::{AtomicBool, AtomicU64, Ordering};
use std::sync::{Mutex, MutexGuard, PoisonError};
use std::time::{Duration, Instant};

/// How long a measurement takes, and how often a report is written at most.
const PERIOD: Duration = Duration::from_secs(5);

/// Measures how many requests a second this process answers for each shard.
pub(crate) struct LoadMeter {
    /// Whether it measures.
    is_on: AtomicBool,
    /// The requests of each shard since the last measurement.
    counts: Box<[AtomicU64]>,
    measured: Mutex<Measured>,
}

#[derive(Default)]
struct Measured {
    /// When the last measurement was.
    at: Option<Instant>,
    /// The requests a second of the shards that this process executes; nothing for those without a whole measurement.
    requests: BTreeMap<u16, Option<u64>>,
    /// The report that was written last, and the lease under which it lies.
    told: Option<(LeaseId, LoadReport)>,
}

impl LoadMeter {
    /// Makes the meter of so many shards, which is off.
    pub(crate) fn new(shards: u16) -> LoadMeter {
        LoadMeter {
            is_on: AtomicBool::new(false),
            counts: (0..shards).map(|_| AtomicU64::new(0)).collect(),
            measured: Mutex::default(),
        }
    }

    /// Has it measure from now on.
    pub(crate) fn turn_on(&self) {
        self.is_on.store(true, Ordering::Relaxed);
    }

    /// Counts a request of the shard.
    pub(crate) fn count(&self, shard: u16) {
        if let Some(count) = self.counts.get(usize::from(shard)) {
            count.fetch_add(1, Ordering::Relaxed);
        }
    }

    /// Returns whether a measurement is over.
    pub(crate) fn is_due(&self, now: Instant) -> bool {
        let at = self.measured().at;
        let is_over = |it: Instant| now.saturating_duration_since(it) >= PERIOD;
        self.is_on.load(Ordering::Relaxed) && at.is_none_or(is_over)
    }

    /// Ends a measurement of the shards that this process executes, which have so many bytes, and begins the next one.
    /// Returns the report to write under this lease, if it tells something new.
    pub(crate) fn report(
        &self,
        now: Instant,
        lease: LeaseId,
        executed: &BTreeMap<u16, u64>,
    ) -> Option<LoadReport> {
        let mut measured = self.measured();
        let passed = measured.at.map(|it| now.saturating_duration_since(it));
        let requests = self.counted(passed, &measured.requests, executed);
        let loads = requests.iter().filter_map(|(shard, requests)| {
            let load = ShardLoad {
                requests: u32::try_from((*requests)?).unwrap_or(u32::MAX),
                kibibytes: u32::try_from(executed[shard] / 1_024).unwrap_or(u32::MAX),
            };
            Some((*shard, load))
        });
        let report = LoadReport::new(loads.collect());
        (measured.at, measured.requests) = (Some(now), requests);
        let told = measured.told.as_ref().filter(|it| it.0 == lease);
        let is_news = match told {
            Some((_, earlier)) => report.is_news_after(earlier),
            None => !report.0.is_empty(),
        };
        is_news.then(|| {
            measured.told = Some((lease, report.clone()));
            report
        })
    }

    /// Returns the requests a second of these shards in the time that has passed, smoothed by those before.
    fn counted(
        &self,
        passed: Option<Duration>,
        before: &BTreeMap<u16, Option<u64>>,
        executed: &BTreeMap<u16, u64>,
    ) -> BTreeMap<u16, Option<u64>> {
        let millis = passed.map_or(u64::MAX, |it| it.as_millis().max(1) as u64);
        let counts = (0..).zip(&self.counts).map(|(shard, count)| {
            let rate = count.swap(0, Ordering::Relaxed).saturating_mul(1_000) / millis;
            // Before a shard's first whole measurement nothing is known, and then just that one.
            let smoothed = match before.get(&shard) {
                None => None,
                Some(None) => Some(rate),
                Some(Some(before)) => Some(before.saturating_add(rate) / 2),
            };
            (shard, smoothed)
        });
        counts.filter(|it| executed.contains_key(&it.0)).collect()
    }

    /// Forgets what was told, because the store may not have taken it. The next report is written then.
    pub(crate) fn forget_told(&self) {
        self.measured().told = None;
    }

    fn measured(&self) -> MutexGuard<'_, Measured> {
        self.measured.lock().unwrap_or_else(PoisonError::into_inner)
    }
}

#[cfg(test)]
mod tests {
    use super::*;

    const LEASE: LeaseId = LeaseId(1);

    /// A meter of two shards, whose time the test sets.
    struct Metered {
        meter: LoadMeter,
        now: Instant,
    }

    impl Metered {
        fn new() -> Metered {
            let (meter, now) = (LoadMeter::new(2), crate::Clock::default().now());
            meter.turn_on();
            Metered { meter, now }
        }

        /// Counts so many requests a second of shard 0 for a measurement, and returns what is told.
        fn measured(&mut self, rate: u64) -> Option<u32> {
            (0..rate * PERIOD.as_secs()).for_each(|_| self.meter.count(0));
            self.now += PERIOD;
            assert!(self.meter.is_due(self.now));
            let executed = [(0, 2 << 20)].into();
            let report = self.meter.report(self.now, LEASE, &executed)?;
            assert!(!self.meter.is_due(self.now) && report.0[&0].kibibytes == 2_048);
            Some(report.0[&0].requests)
        }
    }

    #[test]
    fn what_is_told_is_smoothed_and_new() {
        let mut metered = Metered::new();
        assert_eq!(metered.measured(1_000), None);
        assert_eq!(metered.measured(100), Some(100));
        assert_eq!(metered.measured(110), None);
        assert_eq!(metered.measured(295), Some(200));
        metered.meter.forget_told();
        assert_eq!(metered.measured(200), Some(200));
        assert_eq!(metered.measured(200), None);
    }

    #[test]
    fn a_shard_that_comes_back_is_measured_anew() {
        let mut metered = Metered::new();
        metered.measured(0);
        assert_eq!(metered.measured(100), Some(100));
        metered.now += PERIOD;
        let none = metered.meter.report(metered.now, LEASE, &BTreeMap::new());
        assert_eq!(none, Some(LoadReport::default()));
        metered.measured(70);
        assert_eq!(metered.measured(500), Some(500));
    }

    #[test]
    fn a_meter_that_is_off_is_never_due() {
        let meter = LoadMeter::new(1);
        assert!(!meter.is_due(crate::Clock::default().now()));
    }
}
