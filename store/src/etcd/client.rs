use super::call_error::CallError;
use super::environment::Environment;
use super::gateway::Gateway;
use super::method::Method;
use super::watch_loop;
use super::wire::{
    AlarmRequest, Alarms, Compaction, GrantRequest, Granted, KeepAliveResponse, LeaseRequest,
    MemberStatus, Nothing, RangeRequest, RangeResult, TransactionRequest, TransactionResult,
};
use crate::{
    CompactError, LeaseError, LeaseId, Outcome, Pair, ReadError, Reading, Revision, StoreSize,
    Transaction, Watcher, WriteError,
};
use std::fmt;
use std::future::Future;
use std::num::NonZeroUsize;
use std::sync::Arc;
use std::time::Duration;

/// How many keys one transaction of etcd reads.
const MOST_OPERATIONS: usize = 128;

/// How many pairs are read at a time.
const PAGE: usize = 512;
/// How many keys are read at a time, without values.
const KEYS: usize = 8_192;
/// How often a reading begins again whose moment is compacted before its end.
const BEGINNINGS: usize = 4;

/// The etcd client of a store. It decides which member is asked, how long, and how often. It has no threads, no sockets
/// and no clock. So a caller that gives it an [`Environment`] and polls it can simulate it.
///
/// Each call is like the call of [`Store`](crate::Store) with its name.
#[derive(Clone)]
pub struct EtcdClient {
    gateway: Arc<Gateway>,
}

impl EtcdClient {
    /// Makes a client of so many members, which waits so long for an answer. The user is a name and a password, if etcd
    /// asks for them.
    pub fn new(
        environment: Arc<dyn Environment>,
        members: NonZeroUsize,
        patience: Duration,
        user: Option<(String, String)>,
    ) -> EtcdClient {
        let gateway = Gateway::new(environment, members.get(), patience, user);
        EtcdClient {
            gateway: Arc::new(gateway),
        }
    }

    /// Makes a transaction.
    ///
    /// # Errors
    ///
    /// As [`WriteError`] says. It may have been made only after [`WriteError::Unknown`], and after [`WriteError::Full`]
    /// if it made a new key that was deleted before the client could look.
    pub async fn make(&self, transaction: &Transaction) -> Result<Outcome, WriteError> {
        let request = TransactionRequest::of(transaction);
        let found = self
            .gateway
            .once::<TransactionResult>(Method::Transaction, &request)
            .await;
        let outcome = found
            .map(TransactionResult::outcome)
            .map_err(CallError::of_write);
        match outcome {
            Err(WriteError::Full(why)) if !is_unmade(&self.gateway, transaction).await => {
                Err(WriteError::Unknown(why))
            }
            outcome => outcome,
        }
    }

    /// Reads these keys.
    ///
    /// # Errors
    ///
    /// As [`ReadError`] says.
    pub async fn read(&self, keys: &[Vec<u8>]) -> Result<Reading, ReadError> {
        read(&self.gateway, keys).await
    }

    /// Reads all keys with this prefix.
    ///
    /// # Errors
    ///
    /// As [`ReadError`] says.
    pub async fn read_all(&self, prefix: &[u8]) -> Result<Reading, ReadError> {
        read_all(&self.gateway, prefix).await
    }

    /// Reads the first keys from this one on and before that end, at most so many.
    ///
    /// # Errors
    ///
    /// As [`ReadError`] says.
    pub async fn read_range(
        &self,
        from: &[u8],
        end: &[u8],
        most: usize,
    ) -> Result<Reading, ReadError> {
        read_range(&self.gateway, &RangeRequest::part(from, end, most)).await
    }

    /// Lists the keys from this one on and before that end.
    ///
    /// # Errors
    ///
    /// As [`ReadError`] says.
    pub async fn read_keys(&self, from: &[u8], end: &[u8]) -> Result<Vec<Vec<u8>>, ReadError> {
        read_keys(&self.gateway, from.to_vec(), end).await
    }

    /// Tells this reading of all keys with this prefix, and then each change after it. It goes on until it is dropped.
    pub async fn watch(self, prefix: Vec<u8>, reading: Reading, watcher: Watcher) {
        watch_loop::watch(self.gateway, prefix, reading, watcher).await;
    }

    /// Grants a lease of this length.
    ///
    /// # Errors
    ///
    /// As [`LeaseError`] says.
    pub async fn grant(&self, length: Duration) -> Result<LeaseId, LeaseError> {
        let asked = GrantRequest::of_length(length);
        let granted = self.gateway.again::<Granted>(Method::Grant, &asked);
        let granted = granted.await.map_err(|it| it.of_lease(LeaseId(0)))?;
        Ok(LeaseId(granted.id))
    }

    /// Keeps a lease for its length from now on.
    ///
    /// # Errors
    ///
    /// As [`LeaseError`] says.
    pub async fn keep(&self, lease: LeaseId) -> Result<(), LeaseError> {
        let asked = LeaseRequest::of(lease);
        let kept = self
            .gateway
            .first::<KeepAliveResponse>(Method::KeepAlive, &asked);
        let found = kept.await;
        match found.map_err(|it| it.of_lease(lease))?.length > 0 {
            true => Ok(()),
            false => Err(LeaseError::Ended(lease)),
        }
    }

    /// Ends a lease now.
    ///
    /// # Errors
    ///
    /// As [`LeaseError`] says.
    pub async fn revoke(&self, lease: LeaseId) -> Result<(), LeaseError> {
        let asked = LeaseRequest::of(lease);
        let ended = self.gateway.again::<Nothing>(Method::Revoke, &asked);
        ended.await.map(drop).map_err(|it| it.of_lease(lease))
    }

    /// Returns how much room the data takes, as a member says.
    ///
    /// # Errors
    ///
    /// As [`ReadError`] says.
    pub async fn size(&self) -> Result<StoreSize, ReadError> {
        let told = self
            .gateway
            .again::<MemberStatus>(Method::Status, &Nothing {});
        let found = told.await;
        found.map(StoreSize::from).map_err(CallError::of_read)
    }

    /// Compacts history up to the present.
    ///
    /// # Errors
    ///
    /// As [`CompactError`] says.
    pub async fn compact_history(&self) -> Result<(), CompactError> {
        compact_history(&self.gateway, |it| it).await
    }

    /// Compacts history up to the present, has each member return its room, and ends the alarms of a full quota.
    ///
    /// # Errors
    ///
    /// As [`CompactError`] says.
    pub async fn compact(&self) -> Result<(), CompactError> {
        compact(&self.gateway).await
    }
}

impl fmt::Debug for EtcdClient {
    fn fmt(&self, f: &mut fmt::Formatter<'_>) -> fmt::Result {
        f.debug_struct("EtcdClient").finish_non_exhaustive()
    }
}

/// Returns whether a transaction wasn't made that was refused for lack of room. etcd may make a transaction that takes
/// the last room, and still refuse it. If a key that it compares and writes is as it was, it wasn't made. A new key may
/// also have been made and deleted since, which the client can't see.
async fn is_unmade(gateway: &Gateway, transaction: &Transaction) -> bool {
    let is_written = |key: &[u8]| transaction.puts.iter().any(|it| it.key == key);
    let Some(compared) = transaction.compares.iter().find(|it| is_written(&it.key)) else {
        return false;
    };
    let found = read(gateway, std::slice::from_ref(&compared.key)).await;
    found.is_ok_and(|it| {
        let pair = it.get(&compared.key);
        pair.map_or(Revision::NEVER, |it| it.revision) == compared.revision
    })
}

/// Does a reading of several parts. If the moment of the first part is compacted before the last part is read, begins
/// again.
async fn read_whole<F>(read: impl Fn() -> F) -> Result<Reading, ReadError>
where
    F: Future<Output = Result<Reading, CallError>>,
{
    for _ in 1..BEGINNINGS {
        match read().await {
            Err(CallError::Refused(it)) if it.is_of_compacted() => {}
            found => return found.map_err(CallError::of_read),
        }
    }
    read().await.map_err(CallError::of_read)
}

/// Reads these keys at one moment: the first transaction's, at which later ones read, too.
async fn read(gateway: &Gateway, keys: &[Vec<u8>]) -> Result<Reading, ReadError> {
    read_whole(|| read_parts(gateway, keys)).await
}

async fn read_parts(gateway: &Gateway, keys: &[Vec<u8>]) -> Result<Reading, CallError> {
    let mut found = Reading::default();
    let none: &[Vec<u8>] = &[];
    for part in keys
        .chunks(MOST_OPERATIONS)
        .chain(keys.is_empty().then_some(none))
    {
        let request = TransactionRequest::reading(part, found.revision);
        let result = gateway
            .again::<TransactionResult>(Method::Transaction, &request)
            .await?;
        if found.revision == Revision::NEVER {
            found.revision = result.revision();
        }
        found.pairs.extend(result.pairs());
    }
    Ok(found)
}

/// Reads all keys with this prefix, page by page, at the moment of the first page.
pub(super) async fn read_all(gateway: &Gateway, prefix: &[u8]) -> Result<Reading, ReadError> {
    read_whole(|| read_pages(gateway, prefix)).await
}

async fn read_pages(gateway: &Gateway, prefix: &[u8]) -> Result<Reading, CallError> {
    let mut found = Reading::default();
    let mut from = prefix.to_vec();
    loop {
        let asked = RangeRequest::page(&from, prefix, PAGE, found.revision);
        let page = gateway.again::<RangeResult>(Method::Range, &asked).await?;
        if found.revision == Revision::NEVER {
            found.revision = page.revision();
        }
        let has_more = page.more;
        found.pairs.extend(page.pairs.into_iter().map(Pair::from));
        match found.pairs.last().filter(|_| has_more) {
            Some(last) => from = [&last.key[..], b"\0"].concat(),
            None => return Ok(found),
        }
    }
}

/// Reads this range at the present.
async fn read_range(gateway: &Gateway, asked: &RangeRequest) -> Result<Reading, ReadError> {
    let found = gateway.again::<RangeResult>(Method::Range, asked).await;
    let found = found.map_err(CallError::of_read)?;
    Ok(Reading {
        revision: found.revision(),
        pairs: found.pairs.into_iter().map(Pair::from).collect(),
    })
}

/// Lists the keys in this range, page by page.
async fn read_keys(
    gateway: &Gateway,
    mut from: Vec<u8>,
    end: &[u8],
) -> Result<Vec<Vec<u8>>, ReadError> {
    let mut keys = Vec::new();
    loop {
        let asked = RangeRequest::keys(&from, end, KEYS);
        let page = gateway
            .again::<RangeResult>(Method::Range, &asked)
            .await
            .map_err(CallError::of_read)?;
        let has_more = page.more;
        keys.extend(page.pairs.into_iter().map(|it| Pair::from(it).key));
        match keys.last().filter(|_| has_more) {
            Some(last) => from = [last, &b"\0"[..]].concat(),
            None => return Ok(keys),
        }
    }
}

/// Returns the present revision. For that a member asks its leader, unless the user may not read any key: then the
/// member answers from its own data, which may be out of date.
async fn present(gateway: &Gateway) -> Result<Revision, CompactError> {
    let asked = RangeRequest::counting(b"\0");
    match gateway.again::<RangeResult>(Method::Range, &asked).await {
        Err(CallError::Refused(it)) if it.is_of_user() => Ok(read(gateway, &[]).await?.revision),
        found => found
            .map(|it| it.revision())
            .map_err(CallError::of_compaction),
    }
}

/// Compacts history up to the present, in the way that the request is changed to.
///
/// The request may be made twice, so that it isn't lost if a member that got it hangs: the second time it is refused,
/// because that revision is compacted. A member that is away compacts once it is back.
async fn compact_history(
    gateway: &Gateway,
    changed: impl FnOnce(Compaction) -> Compaction,
) -> Result<(), CompactError> {
    let asked = changed(Compaction::up_to(present(gateway).await?));
    let found = gateway.again::<Nothing>(Method::Compact, &asked).await;
    match found {
        Err(CallError::Refused(it)) if it.is_of_compacted() => Ok(()),
        found => found.map(drop).map_err(CallError::of_compaction),
    }
}

/// Compacts history, has each member return its room, and ends the alarms of a full quota.
async fn compact(gateway: &Gateway) -> Result<(), CompactError> {
    compact_history(gateway, Compaction::awaited).await?;
    let given_back = gateway
        .each::<Nothing>(Method::Defragment, &Nothing {})
        .await;
    let asked = AlarmRequest::all();
    let found = gateway.again::<Alarms>(Method::Alarm, &asked).await;
    for alarm in found.map_err(CallError::of_compaction)?.alarms {
        let ended = AlarmRequest::end(alarm);
        let found = gateway.again::<Nothing>(Method::Alarm, &ended).await;
        found.map_err(CallError::of_compaction)?;
    }
    given_back.map_err(CallError::of_compaction)
}
