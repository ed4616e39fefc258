//! The messages of etcd, each in two spellings: the gateway's JSON with keys and values in base64 and numbers as texts,
//! and Protobuf with the numbers of fields that etcd's `rpc.proto` and `kv.proto` have. Fields that aren't needed here
//! are left out.
use crate::{LeaseId, Outcome, Pair, Reading, Revision, StoreSize, Transaction};
use prost::{Enumeration, Message, Oneof};
use serde::de::DeserializeOwned;
use serde::{Deserialize, Deserializer, Serialize, Serializer};
use std::time::Duration;

/// A message to a member.
pub(super) trait Asked: Serialize + Message {}
impl<T: Serialize + Message> Asked for T {}

/// A message of a member.
pub(super) trait Told: DeserializeOwned + Message + Default {}
impl<T: DeserializeOwned + Message + Default> Told for T {}

/// The most bytes of an answer, or of an element of a stream. A gateway takes no more from its member.
pub(super) const LONGEST: usize = 1 << 31;

mod bytes {
    use super::*;

    pub(super) fn serialize<S: Serializer>(bytes: &[u8], to: S) -> Result<S::Ok, S::Error> {
        to.collect_str(&base64::display::Base64Display::with_config(
            bytes,
            base64::STANDARD,
        ))
    }

    pub(super) fn deserialize<'de, D: Deserializer<'de>>(from: D) -> Result<Vec<u8>, D::Error> {
        let text = String::deserialize(from)?;
        base64::decode(text).map_err(serde::de::Error::custom)
    }
}

mod number {
    use super::*;
    use std::fmt::Display;
    use std::str::FromStr;

    pub(super) fn serialize<T: Display, S: Serializer>(
        number: &T,
        to: S,
    ) -> Result<S::Ok, S::Error> {
        to.collect_str(number)
    }

    pub(super) fn deserialize<'de, T, D: Deserializer<'de>>(from: D) -> Result<T, D::Error>
    where
        T: FromStr,
        T::Err: Display,
    {
        let text = String::deserialize(from)?;
        text.parse().map_err(serde::de::Error::custom)
    }
}

/// A numbered value of a field, which has a name in JSON.
mod named {
    use super::*;

    pub(super) trait Named: Into<i32> + Copy + 'static {
        /// All values that are used here, with their names.
        const NAMES: &'static [(Self, &'static str)];
    }

    fn names<T: Named>() -> impl Iterator<Item = (i32, &'static str)> {
        T::NAMES.iter().map(|(it, name)| ((*it).into(), *name))
    }

    pub(super) fn serialize<T: Named, S: Serializer>(
        value: &i32,
        to: S,
    ) -> Result<S::Ok, S::Error> {
        let found = names::<T>().find(|(it, _)| it == value);
        to.serialize_str(found.map_or("", |(_, name)| name))
    }

    /// Reads a name. One that isn't used here has a number that no value has.
    pub(super) fn deserialize<'de, T: Named, D: Deserializer<'de>>(
        from: D,
    ) -> Result<i32, D::Error> {
        let text = String::deserialize(from)?;
        let found = names::<T>().find(|(_, name)| *name == text);
        Ok(found.map_or(-1, |(value, _)| value))
    }
}

/// The part of a key that a transaction compares.
#[derive(Clone, Copy, Debug, PartialEq, Eq, PartialOrd, Ord, Enumeration)]
#[repr(i32)]
enum CompareTarget {
    Version = 0,
    Mod = 2,
}

impl named::Named for CompareTarget {
    const NAMES: &'static [(Self, &'static str)] = &[(CompareTarget::Mod, "MOD")];
}

/// A revision that must be the same. Each field costs etcd time, so default values are left out, here and below.
#[derive(Message, Serialize)]
struct Compared {
    #[prost(bytes = "vec", tag = "3")]
    #[serde(with = "bytes")]
    key: Vec<u8>,
    #[prost(enumeration = "CompareTarget", tag = "2")]
    #[serde(serialize_with = "named::serialize::<CompareTarget, _>")]
    target: i32,
    /// A member takes it as 0 if it is left out.
    #[prost(uint64, tag = "6")]
    #[serde(with = "number")]
    mod_revision: u64,
}

/// A read, a write or a deletion within a transaction.
#[derive(Oneof, Serialize)]
enum Operation {
    #[prost(message, tag = "1")]
    #[serde(rename = "request_range")]
    Read(RangeRequest),
    #[prost(message, tag = "2")]
    #[serde(rename = "request_put")]
    Put(PutRequest),
    #[prost(message, tag = "3")]
    #[serde(rename = "request_delete_range")]
    Delete(DeleteRequest),
}

#[derive(Message, Serialize)]
struct PutRequest {
    #[prost(bytes = "vec", tag = "1")]
    #[serde(with = "bytes")]
    key: Vec<u8>,
    #[prost(bytes = "vec", tag = "2")]
    #[serde(with = "bytes")]
    value: Vec<u8>,
    #[prost(int64, tag = "3")]
    #[serde(with = "number", skip_serializing_if = "is_usual")]
    lease: i64,
}

#[derive(Message, Serialize)]
struct DeleteRequest {
    #[prost(bytes = "vec", tag = "1")]
    #[serde(with = "bytes")]
    key: Vec<u8>,
}

/// The message around an operation.
#[derive(Message, Serialize)]
#[serde(transparent)]
struct OperationRequest {
    #[prost(oneof = "Operation", tags = "1, 2, 3")]
    request: Option<Operation>,
}

impl From<Operation> for OperationRequest {
    fn from(operation: Operation) -> OperationRequest {
        OperationRequest {
            request: Some(operation),
        }
    }
}

impl Operation {
    /// Reads a key at this moment, or at the present if it is `NEVER`.
    fn read(key: &[u8], moment: Revision) -> Operation {
        Operation::Read(RangeRequest {
            revision: moment.0,
            ..RangeRequest::part(key, &[], 0)
        })
    }

    /// Makes a member ask the leader before it answers. Otherwise it answers a transaction that only compares from its
    /// own data, which may be out of date compared with others.
    fn ask(key: &[u8]) -> Operation {
        Operation::Read(RangeRequest::counting(key))
    }
}

/// A range of keys: one key, or all up to an end.
#[derive(Message, Serialize)]
pub(super) struct RangeRequest {
    #[prost(bytes = "vec", tag = "1")]
    #[serde(with = "bytes")]
    key: Vec<u8>,
    #[prost(bytes = "vec", tag = "2")]
    #[serde(with = "bytes", skip_serializing_if = "Vec::is_empty")]
    range_end: Vec<u8>,
    #[prost(uint64, tag = "3")]
    #[serde(with = "number", skip_serializing_if = "is_usual")]
    limit: u64,
    #[prost(uint64, tag = "4")]
    #[serde(with = "number", skip_serializing_if = "is_usual")]
    revision: u64,
    #[prost(bool, tag = "8")]
    #[serde(skip_serializing_if = "is_usual")]
    keys_only: bool,
    #[prost(bool, tag = "9")]
    #[serde(skip_serializing_if = "is_usual")]
    count_only: bool,
}

impl RangeRequest {
    /// Returns the request whether this key is there, at the present.
    pub(super) fn counting(key: &[u8]) -> RangeRequest {
        RangeRequest {
            count_only: true,
            ..RangeRequest::part(key, &[], 0)
        }
    }

    /// Returns the request for the first keys from this one on and before that end, at the present, without their
    /// values.
    pub(super) fn keys(from: &[u8], end: &[u8], limit: usize) -> RangeRequest {
        RangeRequest {
            keys_only: true,
            ..RangeRequest::part(from, end, limit)
        }
    }

    /// Returns the request for the first pairs from this key on and before that end, at the present.
    pub(super) fn part(from: &[u8], end: &[u8], limit: usize) -> RangeRequest {
        RangeRequest {
            key: from.to_vec(),
            range_end: end.to_vec(),
            limit: limit as u64,
            revision: Revision::NEVER.0,
            ..RangeRequest::default()
        }
    }

    /// Returns the request for pairs from this key on with this prefix.
    pub(super) fn page(from: &[u8], prefix: &[u8], limit: usize, moment: Revision) -> RangeRequest {
        RangeRequest {
            key: from.to_vec(),
            range_end: end_of(prefix),
            limit: limit as u64,
            revision: moment.0,
            ..RangeRequest::default()
        }
    }
}

/// Returns the first key after all with this prefix. If there is none, returns a zero byte, as etcd expects.
fn end_of(prefix: &[u8]) -> Vec<u8> {
    match prefix.iter().rposition(|it| *it < u8::MAX) {
        Some(at) => [&prefix[..at], &[prefix[at] + 1]].concat(),
        None => vec![0],
    }
}

/// A transaction.
#[derive(Message, Serialize)]
pub(super) struct TransactionRequest {
    #[prost(message, repeated, tag = "1")]
    #[serde(skip_serializing_if = "Vec::is_empty")]
    compare: Vec<Compared>,
    #[prost(message, repeated, tag = "2")]
    #[serde(skip_serializing_if = "Vec::is_empty")]
    success: Vec<OperationRequest>,
    #[prost(message, repeated, tag = "3")]
    #[serde(skip_serializing_if = "Vec::is_empty")]
    failure: Vec<OperationRequest>,
}

impl TransactionRequest {
    /// Returns the request that reads these keys at this moment, or at the present if it is `NEVER`.
    pub(super) fn reading(keys: &[Vec<u8>], moment: Revision) -> TransactionRequest {
        let reads = keys.iter().map(|key| Operation::read(key, moment));
        TransactionRequest {
            compare: Vec::new(),
            success: reads.map(OperationRequest::from).collect(),
            failure: Vec::new(),
        }
    }

    pub(super) fn of(transaction: &Transaction) -> TransactionRequest {
        let compare = transaction.compares.iter().map(|it| Compared {
            key: it.key.clone(),
            target: CompareTarget::Mod.into(),
            mod_revision: it.revision.0,
        });
        let deletes = transaction
            .deletes
            .iter()
            .map(|key| Operation::Delete(DeleteRequest { key: key.clone() }));
        let puts = transaction.puts.iter().map(|it| {
            Operation::Put(PutRequest {
                key: it.key.clone(),
                value: it.value.clone(),
                lease: it.lease.map_or(0, |id| id.0),
            })
        });
        let reads = transaction
            .reads
            .iter()
            .map(|key| Operation::read(key, Revision::NEVER));
        let is_asked = !transaction.writes() && transaction.reads.is_empty();
        let asked = transaction.compares.first().filter(|_| is_asked);
        let asks = asked.map(|it| Operation::ask(&it.key));
        let success = deletes.chain(puts).chain(asks);
        TransactionRequest {
            compare: compare.collect(),
            success: success.map(OperationRequest::from).collect(),
            failure: reads.map(OperationRequest::from).collect(),
        }
    }
}

/// Returns whether a number has its default value.
fn is_usual<T: Default + PartialEq>(number: &T) -> bool {
    *number == T::default()
}

#[derive(Deserialize, Message)]
#[serde(default)]
pub(super) struct Header {
    #[prost(uint64, tag = "3")]
    #[serde(deserialize_with = "number::deserialize")]
    pub(super) revision: u64,
}

/// A pair in the store.
#[derive(Deserialize, Message)]
#[serde(default)]
pub(super) struct Stored {
    #[prost(bytes = "vec", tag = "1")]
    #[serde(deserialize_with = "bytes::deserialize")]
    key: Vec<u8>,
    #[prost(bytes = "vec", tag = "5")]
    #[serde(deserialize_with = "bytes::deserialize")]
    value: Vec<u8>,
    #[prost(uint64, tag = "3")]
    #[serde(deserialize_with = "number::deserialize")]
    mod_revision: u64,
    #[prost(uint64, tag = "2")]
    #[serde(deserialize_with = "number::deserialize")]
    create_revision: u64,
}

impl From<Stored> for Pair {
    fn from(it: Stored) -> Pair {
        Pair {
            key: it.key,
            value: it.value,
            revision: Revision(it.mod_revision),
            created: Revision(it.create_revision),
        }
    }
}

/// Returns the revision that an answer was given at.
fn revision_of(header: &Option<Header>) -> Revision {
    header
        .as_ref()
        .map_or(Revision::NEVER, |it| Revision(it.revision))
}

#[derive(Deserialize, Message)]
#[serde(default)]
pub(super) struct RangeResult {
    #[prost(message, optional, tag = "1")]
    header: Option<Header>,
    #[prost(message, repeated, tag = "2")]
    #[serde(rename = "kvs")]
    pub(super) pairs: Vec<Stored>,
    #[prost(bool, tag = "3")]
    pub(super) more: bool,
}

impl RangeResult {
    pub(super) fn revision(&self) -> Revision {
        revision_of(&self.header)
    }
}

#[derive(Deserialize, Message)]
#[serde(default)]
struct OperationResult {
    #[prost(message, optional, tag = "1")]
    response_range: Option<RangeResult>,
}

/// The outcome of a transaction.
#[derive(Deserialize, Message)]
#[serde(default)]
pub(super) struct TransactionResult {
    #[prost(message, optional, tag = "1")]
    header: Option<Header>,
    #[prost(bool, tag = "2")]
    succeeded: bool,
    #[prost(message, repeated, tag = "3")]
    responses: Vec<OperationResult>,
}

impl TransactionResult {
    pub(super) fn revision(&self) -> Revision {
        revision_of(&self.header)
    }

    pub(super) fn pairs(self) -> impl Iterator<Item = Pair> {
        self.responses
            .into_iter()
            .filter_map(|it| it.response_range)
            .flat_map(|it| it.pairs)
            .map(Pair::from)
    }

    pub(super) fn outcome(self) -> Outcome {
        let revision = self.revision();
        match self.succeeded {
            true => Outcome::Made(revision),
            false => Outcome::Lost(Reading {
                revision,
                pairs: self.pairs().collect(),
            }),
        }
    }
}

/// The request for a lease.
#[derive(Message, Serialize)]
pub(super) struct GrantRequest {
    #[prost(uint64, tag = "1")]
    #[serde(rename = "TTL", with = "number")]
    length: u64,
}

impl GrantRequest {
    pub(super) fn of_length(length: Duration) -> GrantRequest {
        GrantRequest {
            length: length.as_secs().max(1),
        }
    }
}

/// A lease that is to be kept or ended.
#[derive(Message, Serialize)]
pub(super) struct LeaseRequest {
    #[prost(int64, tag = "1")]
    #[serde(rename = "ID", with = "number")]
    id: i64,
}

impl LeaseRequest {
    pub(super) fn of(lease: LeaseId) -> LeaseRequest {
        LeaseRequest { id: lease.0 }
    }
}

#[derive(Deserialize, Message)]
pub(super) struct Granted {
    #[prost(int64, tag = "2")]
    #[serde(rename = "ID", deserialize_with = "number::deserialize")]
    pub(super) id: i64,
}

#[derive(Deserialize, Message)]
pub(super) struct KeepAliveResponse {
    #[prost(int64, tag = "3")]
    #[serde(rename = "TTL", default, deserialize_with = "number::deserialize")]
    pub(super) length: i64,
}

/// An element of a stream, around which JSON has a message of its own.
#[derive(Deserialize)]
pub(super) struct Streamed<T> {
    pub(super) result: Option<T>,
}

/// The request for a watch.
#[derive(Message, Serialize)]
pub(super) struct WatchRequest {
    #[prost(message, optional, tag = "1")]
    create_request: Option<WatchCreate>,
}

#[derive(Message, Serialize)]
struct WatchCreate {
    #[prost(bytes = "vec", tag = "1")]
    #[serde(with = "bytes")]
    key: Vec<u8>,
    #[prost(bytes = "vec", tag = "2")]
    #[serde(with = "bytes")]
    range_end: Vec<u8>,
    #[prost(uint64, tag = "3")]
    #[serde(with = "number")]
    start_revision: u64,
}

impl WatchRequest {
    /// Returns the request to watch all keys with this prefix, after this moment, up to which everything is known. At
    /// the revision of a compaction etcd keeps no deletions. It tells only those who ask for earlier revisions that
    /// something is gone.
    pub(super) fn from(prefix: &[u8], moment: Revision) -> WatchRequest {
        let (key, range_end) = (prefix.to_vec(), end_of(prefix));
        let create_request = Some(WatchCreate {
            key,
            range_end,
            start_revision: moment.0,
        });
        WatchRequest { create_request }
    }
}

/// An element of a watch's stream.
#[derive(Deserialize, Message)]
#[serde(default)]
pub(super) struct WatchResult {
    #[prost(bool, tag = "4")]
    pub(super) canceled: bool,
    #[prost(message, repeated, tag = "11")]
    pub(super) events: Vec<WatchEvent>,
}

#[derive(Clone, Copy, Debug, PartialEq, Eq, PartialOrd, Ord, Enumeration)]
#[repr(i32)]
enum EventKind {
    Put = 0,
    Delete = 1,
}

impl named::Named for EventKind {
    const NAMES: &'static [(Self, &'static str)] =
        &[(EventKind::Put, "PUT"), (EventKind::Delete, "DELETE")];
}

#[derive(Deserialize, Message)]
#[serde(default)]
pub(super) struct WatchEvent {
    #[prost(enumeration = "EventKind", tag = "1")]
    #[serde(
        rename = "type",
        deserialize_with = "named::deserialize::<EventKind, _>"
    )]
    kind: i32,
    #[prost(message, optional, tag = "2")]
    kv: Option<Stored>,
}

impl From<WatchEvent> for crate::KeyChange {
    fn from(it: WatchEvent) -> crate::KeyChange {
        let is_deletion = it.kind == i32::from(EventKind::Delete);
        let pair = Pair::from(it.kv.unwrap_or_default());
        let value = (!is_deletion).then_some(pair.value);
        crate::KeyChange {
            key: pair.key,
            value,
            revision: pair.revision,
            created: pair.created,
        }
    }
}

/// The request to discard the revisions before this one.
#[derive(Message, Serialize)]
pub(super) struct Compaction {
    #[prost(uint64, tag = "1")]
    #[serde(with = "number")]
    revision: u64,
    #[prost(bool, tag = "2")]
    #[serde(skip_serializing_if = "is_usual")]
    physical: bool,
}

impl Compaction {
    pub(super) fn up_to(revision: Revision) -> Compaction {
        Compaction {
            revision: revision.0,
            physical: false,
        }
    }

    /// Returns the same request, which a member answers only once it has discarded the values, too.
    pub(super) fn awaited(self) -> Compaction {
        Compaction {
            physical: true,
            ..self
        }
    }
}

/// A member's answer about its own data.
#[derive(Deserialize, Message)]
#[serde(default)]
pub(super) struct MemberStatus {
    #[prost(uint64, tag = "3")]
    #[serde(rename = "dbSize", deserialize_with = "number::deserialize")]
    file: u64,
    #[prost(uint64, tag = "9")]
    #[serde(rename = "dbSizeInUse", deserialize_with = "number::deserialize")]
    used: u64,
    /// Members tell it from version 3.6 on.
    #[prost(uint64, tag = "12")]
    #[serde(rename = "dbSizeQuota", deserialize_with = "number::deserialize")]
    quota: u64,
}

impl From<MemberStatus> for StoreSize {
    fn from(it: MemberStatus) -> StoreSize {
        StoreSize {
            file: it.file,
            used: it.used,
            quota: Some(it.quota).filter(|it| *it > 0),
        }
    }
}

/// An empty message, or one whose fields aren't read.
#[derive(Deserialize, Message, Serialize)]
pub(super) struct Nothing {}

/// A user's name and password.
#[derive(Message, Serialize)]
pub(super) struct Credentials {
    #[prost(string, tag = "1")]
    pub(super) name: String,
    #[prost(string, tag = "2")]
    pub(super) password: String,
}

#[derive(Deserialize, Message)]
pub(super) struct Authenticated {
    #[prost(string, tag = "2")]
    pub(super) token: String,
}

#[derive(Clone, Copy, Debug, PartialEq, Eq, PartialOrd, Ord, Enumeration)]
#[repr(i32)]
enum AlarmAction {
    Get = 0,
    Deactivate = 2,
}

impl named::Named for AlarmAction {
    const NAMES: &'static [(Self, &'static str)] = &[
        (AlarmAction::Get, "GET"),
        (AlarmAction::Deactivate, "DEACTIVATE"),
    ];
}

#[derive(Clone, Copy, Debug, PartialEq, Eq, PartialOrd, Ord, Enumeration)]
#[repr(i32)]
enum AlarmKind {
    Any = 0,
    NoSpace = 1,
}

impl named::Named for AlarmKind {
    const NAMES: &'static [(Self, &'static str)] = &[(AlarmKind::NoSpace, "NOSPACE")];
}

/// An alarm of a member, and the action on it.
#[derive(Message, Serialize)]
pub(super) struct AlarmRequest {
    #[prost(enumeration = "AlarmAction", tag = "1")]
    #[serde(serialize_with = "named::serialize::<AlarmAction, _>")]
    action: i32,
    #[prost(uint64, tag = "2")]
    #[serde(rename = "memberID", with = "number")]
    member: u64,
    #[prost(enumeration = "AlarmKind", tag = "3")]
    #[serde(serialize_with = "named::serialize::<AlarmKind, _>")]
    alarm: i32,
}

impl AlarmRequest {
    /// Returns the request for the members whose quota is full.
    pub(super) fn all() -> AlarmRequest {
        AlarmRequest {
            action: AlarmAction::Get.into(),
            member: 0,
            alarm: AlarmKind::NoSpace.into(),
        }
    }

    /// Returns the request to end this alarm.
    pub(super) fn end(alarm: Alarm) -> AlarmRequest {
        AlarmRequest {
            action: AlarmAction::Deactivate.into(),
            member: alarm.member,
            alarm: AlarmKind::NoSpace.into(),
        }
    }
}

#[derive(Deserialize, Message)]
#[serde(default)]
pub(super) struct Alarms {
    #[prost(message, repeated, tag = "2")]
    pub(super) alarms: Vec<Alarm>,
}

#[derive(Deserialize, Message)]
#[serde(default)]
pub(super) struct Alarm {
    #[prost(uint64, tag = "1")]
    #[serde(rename = "memberID", deserialize_with = "number::deserialize")]
    member: u64,
}
