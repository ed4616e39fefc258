use durkenzo_store::{
    CompactError, Done, Etcd, LeaseError, LeaseId, ReadError, Reading, Seen, Store, Transaction,
    Watch, Watcher,
};
use std::sync::atomic::{AtomicBool, Ordering};
use std::sync::Arc;
use std::time::Duration;

/// A store that tells its watchers no more changes once it is frozen. A router's map of it then grows old.
pub(crate) struct Frozen {
    store: Etcd,
    is_frozen: Arc<AtomicBool>,
}

impl Frozen {
    pub(crate) fn new(store: Etcd) -> Frozen {
        let is_frozen = Arc::default();
        Frozen { store, is_frozen }
    }

    pub(crate) fn freeze(&self) {
        self.is_frozen.store(true, Ordering::SeqCst);
    }
}

impl Store for Frozen {
    fn submit(&self, transaction: Transaction, done: Done) {
        self.store.submit(transaction, done);
    }

    fn read(&self, keys: &[&[u8]]) -> Result<Reading, ReadError> {
        self.store.read(keys)
    }

    fn read_all(&self, prefix: &[u8]) -> Result<Reading, ReadError> {
        self.store.read_all(prefix)
    }

    fn read_range(&self, from: &[u8], end: &[u8], most: usize) -> Result<Reading, ReadError> {
        self.store.read_range(from, end, most)
    }

    fn watch(&self, prefix: &[u8], mut watcher: Watcher) -> Result<Watch, ReadError> {
        let is_frozen = self.is_frozen.clone();
        let tell = move |seen: Seen| {
            if !is_frozen.load(Ordering::SeqCst) {
                watcher(seen);
            }
        };
        self.store.watch(prefix, Box::new(tell))
    }

    fn grant(&self, length: Duration) -> Result<LeaseId, LeaseError> {
        self.store.grant(length)
    }

    fn keep(&self, lease: LeaseId) -> Result<(), LeaseError> {
        self.store.keep(lease)
    }

    fn revoke(&self, lease: LeaseId) -> Result<(), LeaseError> {
        self.store.revoke(lease)
    }

    fn compact(&self) -> Result<(), CompactError> {
        self.store.compact()
    }
}
