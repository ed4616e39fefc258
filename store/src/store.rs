use crate::{
    CompactError, LeaseError, LeaseId, Outcome, ReadError, Reading, StoreSize, Transaction, Watch,
    Watcher, WriteError,
};
use std::sync::mpsc;
use std::time::Duration;

/// The callback for a transaction's outcome. It must not wait for the store.
pub type Done = Box<dyn FnOnce(Result<Outcome, WriteError>) + Send>;

/// How many pairs are read at once to list keys, in a store that can't list keys by themselves.
const PAGE: usize = 64;

/// Keys with revisions, as in etcd.
///
/// All transactions are made one after another, each as a whole or not at all. Each transaction that writes has its own
/// revision, greater than those before it. A reading and a transaction see every transaction whose outcome was told
/// before they began.
pub trait Store: Send + std::marker::Sync {
    /// Sends a transaction, and tells its outcome: on another thread, and exactly once.
    fn submit(&self, transaction: Transaction, done: Done);

    /// Sends a transaction, and waits for its outcome.
    ///
    /// # Errors
    ///
    /// As [`WriteError`] says. It may have been made only after [`WriteError::Unknown`].
    fn make(&self, transaction: Transaction) -> Result<Outcome, WriteError> {
        let (tell, told) = mpsc::sync_channel(1);
        let done = move |outcome| {
            // The caller waits until it is told.
            let _ = tell.send(outcome);
        };
        self.submit(transaction, Box::new(done));
        told.recv().unwrap_or(Err(WriteError::Stopped))
    }

    /// Reads these keys, all at one moment.
    ///
    /// # Errors
    ///
    /// If the store can't be asked, as [`ReadError`] says.
    fn read(&self, keys: &[&[u8]]) -> Result<Reading, ReadError>;

    /// Reads all keys with this prefix, in their order, all at one moment.
    ///
    /// # Errors
    ///
    /// If the store can't be asked, as [`ReadError`] says.
    fn read_all(&self, prefix: &[u8]) -> Result<Reading, ReadError>;

    /// Reads the first keys from this one on and before that end, in their order, all at one moment. It reads at most
    /// so many keys; `most` must be at least one.
    ///
    /// # Errors
    ///
    /// If the store can't be asked, as [`ReadError`] says.
    fn read_range(&self, from: &[u8], end: &[u8], most: usize) -> Result<Reading, ReadError>;

    /// Lists the keys from this one on and before that end, in their order, without their values. Keys that come or go
    /// meanwhile may be among them or not.
    ///
    /// # Errors
    ///
    /// If the store can't be asked, as [`ReadError`] says.
    fn read_keys(&self, from: &[u8], end: &[u8]) -> Result<Vec<Vec<u8>>, ReadError> {
        let (mut keys, mut from) = (Vec::new(), from.to_vec());
        loop {
            let pairs = self.read_range(&from, end, PAGE)?.pairs;
            let is_last = pairs.len() < PAGE;
            keys.extend(pairs.into_iter().map(|it| it.key));
            match keys.last().filter(|_| !is_last) {
                Some(last) => from = [last, &b"\0"[..]].concat(),
                None => return Ok(keys),
            }
        }
    }

    /// Tells all keys with this prefix, and from then on each change of them.
    ///
    /// # Errors
    ///
    /// If the store can't be asked, as [`ReadError`] says. Later it is asked again until it answers.
    fn watch(&self, prefix: &[u8], watcher: Watcher) -> Result<Watch, ReadError>;

    /// Grants a lease, which ends if it isn't kept for this long. The length is counted in whole seconds, at least one.
    ///
    /// # Errors
    ///
    /// If the store can't be asked, as [`LeaseError`] says.
    fn grant(&self, length: Duration) -> Result<LeaseId, LeaseError>;

    /// Keeps a lease for its length from now on.
    ///
    /// # Errors
    ///
    /// `Ended` if it has ended; otherwise if the store can't be asked.
    fn keep(&self, lease: LeaseId) -> Result<(), LeaseError>;

    /// Ends a lease now, and deletes its keys.
    ///
    /// # Errors
    ///
    /// `Ended` if it had ended; otherwise if the store can't be asked.
    fn revoke(&self, lease: LeaseId) -> Result<(), LeaseError>;

    /// Returns how many bytes there is room for, for transactions that may use the store's reserve; nothing if that
    /// isn't known.
    fn left(&self) -> Option<u64> {
        None
    }

    /// Returns how much room the data takes, so that the caller knows when to compact history. Returns nothing if the
    /// store needs nobody for that, or if others share it, who may need its history.
    ///
    /// # Errors
    ///
    /// If the store can't be asked, as [`ReadError`] says.
    fn size(&self) -> Result<Option<StoreSize>, ReadError> {
        Ok(None)
    }

    /// Compacts history up to the present: values that were overwritten or deleted are discarded, and later values take
    /// their room. The call doesn't wait for that, and no member pauses.
    ///
    /// No process needs an earlier revision. A reading whose moment is compacted begins again, and so does a watch
    /// whose next change is compacted.
    ///
    /// # Errors
    ///
    /// If the store can't be asked, as [`CompactError`] says. If it may be done by now, it may be asked again.
    fn compact_history(&self) -> Result<(), CompactError> {
        Ok(())
    }

    /// Compacts history, returns its room to the system, and has the store take writes again if that makes room.
    /// Members may pause in turn.
    ///
    /// # Errors
    ///
    /// If the store can't be asked, as [`CompactError`] says.
    fn compact(&self) -> Result<(), CompactError>;
}
