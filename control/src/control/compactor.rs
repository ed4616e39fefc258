use durkenzo_store::{Store, StoreSize};
use std::sync::Arc;
use std::time::{Duration, Instant};

/// How often the leader asks how much room the store's data takes.
const CHECK: Duration = Duration::from_secs(1);
/// The longest pause after a check in vain. Each such pause is twice as long as the one before, because the control
/// answers nobody while it asks a store that hangs.
const LAST_PAUSE: Duration = Duration::from_secs(60);
/// How long after a compaction the next one is made at the earliest. Members discard the values meanwhile.
const PAUSE: Duration = Duration::from_secs(30);
/// How long other work of the control may put off a check.
const MOST_DELAY: Duration = Duration::from_secs(600);
/// The data may grow by as much as the last compaction left, but at least and at most by so many bytes.
const LEAST_GROWTH: u64 = 16 << 20;
const MOST_GROWTH: u64 = 512 << 20;
/// If the quota is known, the data may grow by half of the room that the last compaction left, but at least by so many
/// bytes.
const SCARCE_GROWTH: u64 = 1 << 20;

/// Has a shared store compact its history as the data grows, so that the store's quota lasts. Only the leader does so.
///
/// A compaction that fails is asked for again at the next check, because the data is as large then. So is one that an
/// earlier leader may not have finished: a leader doesn't know what was left before it led.
pub(super) struct Compactor {
    store: Arc<dyn Store>,
    /// When it asks next. That isn't set until the first turn after a check, because the check may have taken long.
    due: Option<Instant>,
    /// The pause between a check and the next one.
    pause: Duration,
    /// Until when it compacts nothing.
    paused_until: Instant,
    /// How many bytes the last compaction left, by the sizes since then.
    left: u64,
    /// The last failure that was logged, if the last check failed.
    failure: Option<String>,
}

impl Compactor {
    /// Makes the compactor of a process that leads from now on.
    pub(super) fn new(store: Arc<dyn Store>, now: Instant) -> Compactor {
        Compactor {
            store,
            due: Some(now + CHECK),
            pause: CHECK,
            paused_until: now,
            left: 0,
            failure: None,
        }
    }

    /// Makes a check, if it is due. While other work is under way the check is put off, so that it delays nobody whose
    /// shard moves.
    pub(super) fn go_on(&mut self, now: Instant, is_busy: bool) {
        let delay = if is_busy { MOST_DELAY } else { Duration::ZERO };
        let due = *self.due.get_or_insert(now + self.pause);
        if now < due + delay {
            return;
        }
        self.due = None;
        match self.check(now) {
            Ok(()) => (self.failure, self.pause) = (None, CHECK),
            Err(why) => self.note_failure(why),
        }
    }

    /// Notes that a check failed, and logs that unless the one before failed for the same reason.
    fn note_failure(&mut self, why: String) {
        self.pause = LAST_PAUSE.min(2 * self.pause);
        if self.failure.as_ref() != Some(&why) {
            tracing::warn!(why, "the store's history isn't compacted for now");
            self.failure = Some(why);
        }
    }

    /// Compacts history if the data has grown enough.
    fn check(&mut self, now: Instant) -> Result<(), String> {
        let size = self.store.size().map_err(|it| it.to_string())?;
        let Some(size) = size else {
            return Ok(());
        };
        self.left = self.left.min(size.used);
        let has_grown = size.used - self.left >= growth(size, self.left);
        if !has_grown || now < self.paused_until {
            return Ok(());
        }
        self.store.compact_history().map_err(|it| it.to_string())?;
        let (used, file) = (size.used, size.file);
        tracing::info!(
            used,
            file,
            "the store's history is compacted, as it has grown"
        );
        (self.left, self.paused_until) = (u64::MAX, now + PAUSE);
        Ok(())
    }
}

/// Returns by how many bytes the data may grow after a compaction that left so many.
fn growth(size: StoreSize, left: u64) -> u64 {
    let grown = left.clamp(LEAST_GROWTH, MOST_GROWTH);
    let room = size.quota.map(|it| it.saturating_sub(left) / 2);
    room.map_or(grown, |it| grown.min(it).max(SCARCE_GROWTH))
}

#[cfg(test)]
mod tests {
    use super::*;
    use durkenzo_driver::Clock;
    use durkenzo_store::{
        CompactError, Done, Embedded, LeaseError, LeaseId, ReadError, Reading, Transaction, Watch,
        Watcher,
    };
    use std::sync::Mutex;

    const MIB: u64 = 1 << 20;

    /// A store that says how much room its data takes, and counts its compactions.
    struct GrownStore {
        store: Embedded,
        state: Mutex<GrownState>,
    }

    #[derive(Default)]
    struct GrownState {
        size: Option<StoreSize>,
        is_away: bool,
        /// How often it was asked for its size, and whether it doesn't tell that.
        asked: u32,
        hangs: bool,
        compactions: u32,
    }

    impl GrownStore {
        fn new() -> Arc<GrownStore> {
            let state = Mutex::default();
            let store = Embedded::in_memory();
            Arc::new(GrownStore { store, state })
        }

        /// Makes its data take so much room, in MiB.
        fn grow(&self, used: u64, quota: Option<u64>) {
            let (used, quota) = (used * MIB, quota.map(|it| it * MIB));
            let file = used + MIB;
            self.state.lock().unwrap().size = Some(StoreSize { file, used, quota });
        }

        fn compactions(&self) -> u32 {
            self.state.lock().unwrap().compactions
        }
    }

    impl Store for GrownStore {
        fn submit(&self, transaction: Transaction, done: Done) {
            self.store.submit(transaction, done);
        }

        fn read(&self, keys: &[&[u8]]) -> Result<Reading, ReadError> {
            self.store.read(keys)
        }

        fn read_all(&self, prefix: &[u8]) -> Result<Reading, ReadError> {
            self.store.read_all(prefix)
        }

        fn read_range(&self, from: &[u8], end: &[u8], most: usize) -> Result<Reading, ReadError> {
            self.store.read_range(from, end, most)
        }

        fn watch(&self, prefix: &[u8], watcher: Watcher) -> Result<Watch, ReadError> {
            self.store.watch(prefix, watcher)
        }

        fn grant(&self, length: Duration) -> Result<LeaseId, LeaseError> {
            self.store.grant(length)
        }

        fn keep(&self, lease: LeaseId) -> Result<(), LeaseError> {
            self.store.keep(lease)
        }

        fn revoke(&self, lease: LeaseId) -> Result<(), LeaseError> {
            self.store.revoke(lease)
        }

        fn size(&self) -> Result<Option<StoreSize>, ReadError> {
            let mut state = self.state.lock().unwrap();
            state.asked += 1;
            match state.hangs {
                true => Err(ReadError::Unavailable("a test".to_owned())),
                false => Ok(state.size),
            }
        }

        fn compact_history(&self) -> Result<(), CompactError> {
            let mut state = self.state.lock().unwrap();
            if state.is_away {
                return Err(CompactError::Unavailable("a test".to_owned()));
            }
            state.compactions += 1;
            Ok(())
        }

        fn compact(&self) -> Result<(), CompactError> {
            panic!("members never pause by themselves")
        }
    }

    /// A compactor whose checks are made one after another.
    struct Checked {
        store: Arc<GrownStore>,
        compactor: Compactor,
        now: Instant,
    }

    impl Checked {
        fn new() -> Checked {
            let (store, now) = (GrownStore::new(), Clock::default().now());
            let compactor = Compactor::new(store.clone(), now);
            Checked {
                store,
                compactor,
                now,
            }
        }

        /// Lets so much time pass, and returns how many compactions the store has made since the beginning. The control
        /// has its next turn at once.
        fn after(&mut self, time: Duration, is_busy: bool) -> u32 {
            self.now += time;
            self.compactor.go_on(self.now, is_busy);
            self.compactor.go_on(self.now, is_busy);
            self.store.compactions()
        }

        /// Grows to so much, and returns how many compactions the next check leads to.
        fn check_at(&mut self, used: u64, quota: Option<u64>) -> u32 {
            let before = self.store.compactions();
            self.store.grow(used, quota);
            self.after(PAUSE, false) - before
        }
    }

    #[test]
    fn history_is_compacted_as_it_grows() {
        let mut checked = Checked::new();
        // A leader compacts first unless the data is small.
        assert_eq!(checked.check_at(15, None), 0);
        assert_eq!(checked.check_at(40, None), 1);
        // 30 are left, so it waits for 30 more.
        for (used, compactions) in [(30, 0), (59, 0), (60, 1), (30, 0), (31, 0), (61, 1)] {
            assert_eq!(checked.check_at(used, None), compactions, "{used}");
        }
        // Growth is bounded, so that a full history doesn't double a large file.
        for (used, compactions) in [(3_000, 0), (3_511, 0), (3_512, 1)] {
            assert_eq!(checked.check_at(used, None), compactions, "{used}");
        }
        // What members discard late is left for no longer.
        for (used, compactions) in [(3_500, 0), (100, 0), (199, 0), (200, 1)] {
            assert_eq!(checked.check_at(used, None), compactions, "{used}");
        }
    }

    #[test]
    fn a_known_quota_makes_it_compact_sooner() {
        let mut checked = Checked::new();
        let quota = Some(100);
        assert_eq!(checked.check_at(60, quota), 1);
        for (used, compactions) in [(60, 0), (79, 0), (80, 1), (99, 0), (99, 0), (100, 1)] {
            assert_eq!(checked.check_at(used, quota), compactions, "{used}");
        }
    }

    #[test]
    fn compactions_follow_each_other_after_a_while() {
        let mut checked = Checked::new();
        assert_eq!(checked.check_at(40, None), 1);
        // What is left is measured soon, so that later values don't count.
        checked.store.grow(5, None);
        assert_eq!(checked.after(CHECK, false), 1);
        checked.store.grow(40, None);
        assert_eq!(checked.after(CHECK, false), 1);
        assert_eq!(checked.after(PAUSE, false), 2);
    }

    #[test]
    fn a_compaction_that_fails_is_asked_for_again() {
        let mut checked = Checked::new();
        checked.store.state.lock().unwrap().is_away = true;
        assert_eq!(checked.check_at(40, None), 0);
        assert_eq!(checked.after(2 * CHECK, false), 0);
        assert!(checked.compactor.failure.is_some());
        checked.store.state.lock().unwrap().is_away = false;
        assert_eq!(checked.after(3 * CHECK, false), 0);
        assert_eq!(checked.after(CHECK, false), 1);
        assert!(checked.compactor.failure.is_none());
    }

    #[test]
    fn a_store_that_hangs_is_seldom_asked() {
        let (mut checked, hang) = (Checked::new(), Duration::from_secs(15));
        checked.store.grow(5, None);
        checked.store.state.lock().unwrap().hangs = true;
        // So long each answer takes, and so long after one turn comes the next one.
        let turns = 3_600 / hang.as_secs() as u32;
        for _ in 0..turns {
            checked.compactor.go_on(checked.now, false);
            checked.now += hang;
        }
        checked.after(Duration::ZERO, false);
        let asked = checked.store.state.lock().unwrap().asked;
        assert!(4 * asked < turns, "{asked} of {turns}");
        checked.store.state.lock().unwrap().hangs = false;
        for (more, pause) in [(1, LAST_PAUSE), (2, CHECK), (3, CHECK)] {
            checked.after(pause, false);
            assert_eq!(checked.store.state.lock().unwrap().asked, asked + more);
        }
    }

    #[test]
    fn no_size_is_too_large() {
        let mut checked = Checked::new();
        let size = |used| StoreSize {
            file: used,
            used,
            quota: None,
        };
        for (used, compactions) in [(u64::MAX, 1), (u64::MAX - 1, 1), (u64::MAX, 1)] {
            checked.store.state.lock().unwrap().size = Some(size(used));
            assert_eq!(checked.after(PAUSE, false), compactions, "{used}");
        }
    }

    #[test]
    fn other_work_puts_it_off_for_a_while() {
        let mut checked = Checked::new();
        checked.store.grow(40, None);
        assert_eq!(checked.after(CHECK, true), 0);
        assert_eq!(checked.after(MOST_DELAY / 2, true), 0);
        assert_eq!(checked.after(MOST_DELAY / 2, true), 1);
        assert_eq!(checked.after(MOST_DELAY, false), 1);
    }

    #[test]
    fn a_store_that_tells_no_size_is_left_alone() {
        let mut checked = Checked::new();
        assert_eq!(checked.after(2 * MOST_DELAY, false), 0);
    }
}
