//! The common part of tests' stores that pass calls on to another store.
use durkenzo_store::{
    CompactError, Done, LeaseError, LeaseId, ReadError, Reading, Store, Transaction, Watch, Watcher,
};
use std::ops::Deref;
use std::time::Duration;

/// A store that passes all calls on, except for those that it handles itself.
pub trait Handing: Send + Sync {
    fn store(&self) -> &dyn Store;

    fn submit(&self, transaction: Transaction, done: Done) {
        self.store().submit(transaction, done);
    }

    fn read(&self, keys: &[&[u8]]) -> Result<Reading, ReadError> {
        self.store().read(keys)
    }

    fn read_all(&self, prefix: &[u8]) -> Result<Reading, ReadError> {
        self.store().read_all(prefix)
    }

    fn read_range(&self, from: &[u8], end: &[u8], most: usize) -> Result<Reading, ReadError> {
        self.store().read_range(from, end, most)
    }

    fn watch(&self, prefix: &[u8], watcher: Watcher) -> Result<Watch, ReadError> {
        self.store().watch(prefix, watcher)
    }

    fn keep(&self, lease: LeaseId) -> Result<(), LeaseError> {
        self.store().keep(lease)
    }

    fn left(&self) -> Option<u64> {
        self.store().left()
    }

    fn revoke(&self, lease: LeaseId) -> Result<(), LeaseError> {
        self.store().revoke(lease)
    }
}

/// The store made of it.
pub struct Handed<H>(pub H);

impl<H> Deref for Handed<H> {
    type Target = H;

    fn deref(&self) -> &H {
        &self.0
    }
}

impl<H: Handing> Store for Handed<H> {
    fn submit(&self, transaction: Transaction, done: Done) {
        self.0.submit(transaction, done);
    }

    fn read(&self, keys: &[&[u8]]) -> Result<Reading, ReadError> {
        self.0.read(keys)
    }

    fn read_all(&self, prefix: &[u8]) -> Result<Reading, ReadError> {
        self.0.read_all(prefix)
    }

    fn read_range(&self, from: &[u8], end: &[u8], most: usize) -> Result<Reading, ReadError> {
        self.0.read_range(from, end, most)
    }

    fn watch(&self, prefix: &[u8], watcher: Watcher) -> Result<Watch, ReadError> {
        self.0.watch(prefix, watcher)
    }

    fn grant(&self, length: Duration) -> Result<LeaseId, LeaseError> {
        self.0.store().grant(length)
    }

    fn keep(&self, lease: LeaseId) -> Result<(), LeaseError> {
        self.0.keep(lease)
    }

    fn revoke(&self, lease: LeaseId) -> Result<(), LeaseError> {
        self.0.revoke(lease)
    }

    fn left(&self) -> Option<u64> {
        self.0.left()
    }

    fn compact(&self) -> Result<(), CompactError> {
        self.0.store().compact()
    }
}
