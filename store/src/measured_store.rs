use crate::{
    CompactError, Done, LeaseError, LeaseId, Outcome, ReadError, Reading, Store, StoreCounts,
    StoreSize, Transaction, Watch, Watcher, WriteError,
};
use std::sync::Arc;
use std::time::{Duration, Instant};

/// A store that counts the outcome of each transaction, how long it took, and the compactions of its history.
pub struct MeasuredStore<S> {
    store: S,
    counts: Arc<StoreCounts>,
}

impl<S: Store> MeasuredStore<S> {
    /// Measures this store.
    pub fn new(store: S) -> MeasuredStore<S> {
        MeasuredStore {
            store,
            counts: Arc::new(StoreCounts::new(Instant::now())),
        }
    }

    /// Returns the counts, which continue to change.
    pub fn counts(&self) -> &Arc<StoreCounts> {
        &self.counts
    }

    fn heard<T, E>(&self, answer: Result<T, E>) -> Result<T, E> {
        if answer.is_ok() {
            self.counts.note_answer(Instant::now());
        }
        answer
    }
}

/// Returns the callback for a transaction that also counts its outcome.
fn counted(counts: Arc<StoreCounts>, transaction: &Transaction, done: Done) -> Done {
    let (begun, bytes) = (Instant::now(), transaction.bytes());
    Box::new(move |outcome: Result<Outcome, WriteError>| {
        let now = Instant::now();
        counts.note_transaction(&outcome, now.saturating_duration_since(begun));
        if let Ok(Outcome::Made(_)) = &outcome {
            counts.note_written(bytes);
        }
        if outcome.is_ok() {
            counts.note_answer(now);
        }
        done(outcome);
    })
}

impl<S: Store> Store for MeasuredStore<S> {
    fn submit(&self, transaction: Transaction, done: Done) {
        let done = counted(self.counts.clone(), &transaction, done);
        self.store.submit(transaction, done);
    }

    fn read(&self, keys: &[&[u8]]) -> Result<Reading, ReadError> {
        self.heard(self.store.read(keys))
    }

    fn read_all(&self, prefix: &[u8]) -> Result<Reading, ReadError> {
        self.heard(self.store.read_all(prefix))
    }

    fn read_range(&self, from: &[u8], end: &[u8], most: usize) -> Result<Reading, ReadError> {
        self.heard(self.store.read_range(from, end, most))
    }

    fn read_keys(&self, from: &[u8], end: &[u8]) -> Result<Vec<Vec<u8>>, ReadError> {
        self.heard(self.store.read_keys(from, end))
    }

    fn watch(&self, prefix: &[u8], watcher: Watcher) -> Result<Watch, ReadError> {
        self.heard(self.store.watch(prefix, watcher))
    }

    fn grant(&self, length: Duration) -> Result<LeaseId, LeaseError> {
        self.heard(self.store.grant(length))
    }

    fn keep(&self, lease: LeaseId) -> Result<(), LeaseError> {
        self.heard(self.store.keep(lease))
    }

    fn revoke(&self, lease: LeaseId) -> Result<(), LeaseError> {
        self.heard(self.store.revoke(lease))
    }

    fn left(&self) -> Option<u64> {
        self.store.left()
    }

    fn size(&self) -> Result<Option<StoreSize>, ReadError> {
        let size = self.heard(self.store.size());
        if let Ok(Some(size)) = size {
            self.counts.note_size(size);
        }
        size
    }

    fn compact_history(&self) -> Result<(), CompactError> {
        let compacted = self.heard(self.store.compact_history());
        self.counts.note_compaction(compacted.is_ok());
        compacted
    }

    fn compact(&self) -> Result<(), CompactError> {
        let compacted = self.heard(self.store.compact());
        self.counts.note_compaction(compacted.is_ok());
        compacted
    }
}

#[cfg(test)]
mod tests {
    use super::*;
    use crate::{Embedded, Revision};

    #[test]
    fn each_transaction_is_counted_by_what_became_of_it() {
        let store = MeasuredStore::new(Embedded::in_memory());
        let first = Transaction::new().put("key", "four");
        store.make(first.clone()).unwrap();
        store.make(first.compare("key", Revision::NEVER)).unwrap();
        let told = store.counts().outcomes();
        assert_eq!(
            told,
            [("made", 1), ("lost", 1), ("unknown", 0), ("failed", 0)]
        );
        assert_eq!(store.counts().bytes_written(), 7);
        assert_eq!(store.counts().times().iter().sum::<u64>(), 2);
        assert!(!store.counts().is_full());
    }

    #[test]
    fn what_is_told_once_the_store_is_full_is_told_until_it_takes_a_write() {
        let counts = StoreCounts::new(Instant::now());
        let full = Err(WriteError::Full("by its quota".to_owned()));
        counts.note_transaction(&full, Duration::ZERO);
        assert!(counts.is_full());
        counts.note_written(0);
        assert!(counts.is_full());
        counts.note_written(1);
        assert!(!counts.is_full());
        assert_eq!(counts.outcomes()[3], ("failed", 1));
    }

    #[test]
    fn compactions_are_counted_and_the_last_size_is_kept() {
        let store = MeasuredStore::new(Embedded::in_memory());
        assert_eq!(store.counts().size(), StoreSize::default());
        store.compact_history().unwrap();
        store.counts().note_compaction(false);
        assert_eq!(store.counts().compactions(), [("made", 1), ("failed", 1)]);
        let (file, used, quota) = (9, 8, Some(10));
        let size = StoreSize { file, used, quota };
        store.counts().note_size(size);
        assert_eq!(store.counts().size(), size);
    }

    #[test]
    fn silence_lasts_since_the_last_answer() {
        let begun = Instant::now();
        let counts = StoreCounts::new(begun);
        counts.note_answer(begun + Duration::from_secs(3));
        assert_eq!(counts.silence(begun + Duration::from_secs(5)).as_secs(), 2);
    }
}
