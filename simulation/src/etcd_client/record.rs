use crate::told::{became, summary};
use durkenzo_store::{
    EtcdClient, LeaseError, LeaseId, Outcome, ReadError, Reading, Seen, StoreSize, Transaction,
    WriteError,
};
use std::time::Duration;

/// A request to a client.
#[derive(Clone, Debug)]
pub enum Asked {
    Make(Transaction),
    Read(Vec<Vec<u8>>),
    ReadAll(Vec<u8>),
    ReadRange(Vec<u8>, Vec<u8>, usize),
    ReadKeys(Vec<u8>, Vec<u8>),
    Grant,
    Keep(LeaseId),
    Revoke(LeaseId),
    Size,
    CompactHistory,
    Compact,
}

/// An answer of a client.
#[derive(Debug)]
pub enum Told {
    Became(Result<Outcome, WriteError>),
    Read(Result<Reading, ReadError>),
    Keys(Result<Vec<Vec<u8>>, ReadError>),
    Granted(Result<LeaseId, LeaseError>),
    Kept(Result<(), LeaseError>),
    Revoked(Result<(), LeaseError>),
    Sized(Result<StoreSize, ReadError>),
    /// The client has tried to compact history. Whether it also gave room back isn't judged.
    Compacted(bool),
}

/// The length of a lease.
pub const LEASE: Duration = Duration::from_secs(3);

impl Asked {
    /// Asks the client to do this, and returns its answer.
    pub async fn told_by(&self, client: &EtcdClient) -> Told {
        match self {
            Asked::Make(transaction) => Told::Became(client.make(transaction).await),
            Asked::Read(keys) => Told::Read(client.read(keys).await),
            Asked::ReadAll(prefix) => Told::Read(client.read_all(prefix).await),
            Asked::ReadRange(from, end, most) => {
                Told::Read(client.read_range(from, end, *most).await)
            }
            Asked::ReadKeys(from, end) => Told::Keys(client.read_keys(from, end).await),
            Asked::Grant => Told::Granted(client.grant(LEASE).await),
            Asked::Keep(lease) => Told::Kept(client.keep(*lease).await),
            Asked::Revoke(lease) => Told::Revoked(client.revoke(*lease).await),
            Asked::Size => Told::Sized(client.size().await),
            Asked::CompactHistory => Told::Compacted(client.compact_history().await.is_ok()),
            Asked::Compact => Told::Compacted(client.compact().await.is_ok()),
        }
    }
}

impl Asked {
    /// Returns the request as timelines show it.
    pub fn shown(&self) -> String {
        match self {
            Asked::Make(transaction) => summary(transaction),
            Asked::Read(_) => "to read keys".to_owned(),
            Asked::ReadAll(_) => "to read all".to_owned(),
            Asked::ReadRange(..) => "to read a range".to_owned(),
            Asked::ReadKeys(..) => "for keys".to_owned(),
            Asked::Grant => "for a lease".to_owned(),
            Asked::Keep(lease) => format!("to keep {lease}"),
            Asked::Revoke(lease) => format!("to end {lease}"),
            Asked::Size => "for its size".to_owned(),
            Asked::CompactHistory => "to compact history".to_owned(),
            Asked::Compact => "to compact".to_owned(),
        }
    }
}

impl Told {
    /// Returns the answer as timelines show it.
    pub fn shown(&self) -> String {
        match self {
            Told::Became(told) => became(told),
            Told::Read(Ok(reading)) => format!("read at {}", reading.revision.0),
            Told::Keys(Ok(keys)) => format!("{} keys", keys.len()),
            Told::Granted(Ok(lease)) => format!("has {lease}"),
            Told::Kept(Ok(())) => "kept".to_owned(),
            Told::Revoked(Ok(())) => "ended".to_owned(),
            Told::Sized(Ok(size)) => format!("has {} bytes", size.file),
            Told::Compacted(true) => "compacted".to_owned(),
            Told::Compacted(false) => "not known to be compacted".to_owned(),
            Told::Read(Err(error)) | Told::Keys(Err(error)) | Told::Sized(Err(error)) => {
                error.to_string()
            }
            Told::Granted(Err(error)) | Told::Kept(Err(error)) | Told::Revoked(Err(error)) => {
                error.to_string()
            }
        }
    }
}

/// A request to a client, and its answer.
#[derive(Debug)]
pub struct Record {
    pub asked: Asked,
    /// The revision of the store, and the time, at which the client was asked.
    pub begun: u64,
    pub begun_at: Duration,
    /// Whether the lease of the request was there then.
    pub was_there: bool,
    /// The answer, and the revision of the store when it came.
    pub told: Option<(Told, u64)>,
    /// Whether the lease of the request or of the answer was there when the answer came.
    pub is_there: bool,
    /// Whether nothing was wrong for so long that the request must be done.
    pub is_due: bool,
    /// Whether nothing was wrong from the request to the answer.
    pub is_steady: bool,
}

/// The changes that a watch told.
#[derive(Debug)]
pub struct WatchRecord {
    pub prefix: Vec<u8>,
    pub seen: Vec<Seen>,
}
