use super::member_caller::MemberCaller;
use super::{Access, StartError};
use crate::{
    CompactError, Done, LeaseError, LeaseId, ReadError, Reading, Store, StoreSize, Transaction,
    Watch, Watcher,
};
use std::fmt;
use std::sync::Arc;
use std::time::Duration;

/// A store in etcd, of version 3.4 or later.
///
/// If a member can't be reached, or refuses a call for its own reasons, the next one is asked. A transaction that a
/// member may have got is never sent again: its outcome is then [`WriteError::Unknown`](crate::WriteError::Unknown).
pub struct Etcd {
    /// Watches share it, so that they go on without the store.
    caller: Arc<MemberCaller>,
    /// Grants, keeps and ends leases. It is separate because a slow callback on the other one may delay that one longer
    /// than a lease lasts.
    keeper: MemberCaller,
}

impl Etcd {
    /// Makes a store in these members. None is asked yet.
    ///
    /// # Errors
    ///
    /// If an address is malformed, a file of certificates can't be used, or the system refuses a thread.
    pub fn new(access: Access) -> Result<Etcd, StartError> {
        let keeper = MemberCaller::new("leases", access.clone())?;
        let caller = Arc::new(MemberCaller::new("etcd", access)?);
        Ok(Etcd { caller, keeper })
    }
}

impl Store for Etcd {
    fn submit(&self, transaction: Transaction, done: Done) {
        let client = self.caller.client();
        self.caller
            .spawn(async move { done(client.make(&transaction).await) });
    }

    fn read(&self, keys: &[&[u8]]) -> Result<Reading, ReadError> {
        let keys: Vec<_> = keys.iter().map(|it| it.to_vec()).collect();
        let client = self.caller.client();
        self.caller
            .wait_for(async move { client.read(&keys).await })
            .unwrap_or(Err(ReadError::Stopped))
    }

    fn read_all(&self, prefix: &[u8]) -> Result<Reading, ReadError> {
        let (client, prefix) = (self.caller.client(), prefix.to_vec());
        self.caller
            .wait_for(async move { client.read_all(&prefix).await })
            .unwrap_or(Err(ReadError::Stopped))
    }

    fn read_range(&self, from: &[u8], end: &[u8], most: usize) -> Result<Reading, ReadError> {
        let client = self.caller.client();
        let (from, end) = (from.to_vec(), end.to_vec());
        self.caller
            .wait_for(async move { client.read_range(&from, &end, most).await })
            .unwrap_or(Err(ReadError::Stopped))
    }

    fn read_keys(&self, from: &[u8], end: &[u8]) -> Result<Vec<Vec<u8>>, ReadError> {
        let client = self.caller.client();
        let (from, end) = (from.to_vec(), end.to_vec());
        self.caller
            .wait_for(async move { client.read_keys(&from, &end).await })
            .unwrap_or(Err(ReadError::Stopped))
    }

    fn watch(&self, prefix: &[u8], watcher: Watcher) -> Result<Watch, ReadError> {
        let (client, prefix) = (self.caller.client(), prefix.to_vec());
        let reading = self.read_all(&prefix)?;
        let caller = self.caller.clone();
        let task = caller.spawn(client.watch(prefix, reading, watcher));
        Ok(Watch::ended_by(move || {
            task.abort();
            drop(caller);
        }))
    }

    fn grant(&self, length: Duration) -> Result<LeaseId, LeaseError> {
        let client = self.keeper.client();
        self.keeper
            .wait_for(async move { client.grant(length).await })
            .unwrap_or(Err(LeaseError::Stopped))
    }

    fn keep(&self, lease: LeaseId) -> Result<(), LeaseError> {
        let client = self.keeper.client();
        self.keeper
            .wait_for(async move { client.keep(lease).await })
            .unwrap_or(Err(LeaseError::Stopped))
    }

    fn revoke(&self, lease: LeaseId) -> Result<(), LeaseError> {
        let client = self.keeper.client();
        self.keeper
            .wait_for(async move { client.revoke(lease).await })
            .unwrap_or(Err(LeaseError::Stopped))
    }

    fn size(&self) -> Result<Option<StoreSize>, ReadError> {
        let client = self.caller.client();
        let size = self
            .caller
            .wait_for(async move { client.size().await })
            .unwrap_or(Err(ReadError::Stopped));
        size.map(Some)
    }

    fn compact_history(&self) -> Result<(), CompactError> {
        let client = self.caller.client();
        self.caller
            .wait_for(async move { client.compact_history().await })
            .unwrap_or(Err(CompactError::Stopped))
    }

    fn compact(&self) -> Result<(), CompactError> {
        let client = self.caller.client();
        self.caller
            .wait_for(async move { client.compact().await })
            .unwrap_or(Err(CompactError::Stopped))
    }
}

impl fmt::Debug for Etcd {
    fn fmt(&self, f: &mut fmt::Formatter<'_>) -> fmt::Result {
        f.debug_struct("Etcd").finish_non_exhaustive()
    }
}
