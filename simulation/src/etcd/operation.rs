//! The requests of clients to etcd, and its answers. Only those are here that the store's client uses.
use durkenzo_store::{LeaseId, Pair, Transaction};

/// A range of keys. If the end is empty, the range is one key. If the end is a zero byte, the range has all keys from
/// `key` on. Otherwise it has the keys from `key` on that come before `end`.
#[derive(Clone, Debug, PartialEq, Eq)]
pub struct RangeQuery {
    pub key: Vec<u8>,
    pub end: Vec<u8>,
    /// The greatest number of pairs in the answer. If it is 0, the answer has all pairs.
    pub limit: usize,
    /// The revision at which the range is read. If it is 0, the range is read as it is now.
    pub revision: u64,
}

impl RangeQuery {
    /// Returns a query for one key as it is now.
    pub fn of_key(key: &[u8]) -> RangeQuery {
        RangeQuery {
            key: key.to_vec(),
            end: Vec::new(),
            limit: 0,
            revision: 0,
        }
    }

    /// Returns whether this key is in the range.
    pub fn has(&self, key: &[u8]) -> bool {
        match &self.end[..] {
            b"" => key == self.key,
            b"\0" => key >= &self.key[..],
            end => key >= &self.key[..] && key < end,
        }
    }
}

/// An operation of a transaction.
#[derive(Clone, Debug, PartialEq, Eq)]
pub enum Operation {
    Put {
        key: Vec<u8>,
        value: Vec<u8>,
        lease: Option<LeaseId>,
    },
    /// Deletes one key if the end is empty. Otherwise it deletes all keys of the range, as for a [`RangeQuery`].
    Delete {
        key: Vec<u8>,
        end: Vec<u8>,
    },
    Range(RangeQuery),
}

/// A transaction. If each of the compared keys was last written at its revision, etcd does the operations of `success`.
/// Otherwise it does those of `failure`.
#[derive(Clone, Debug, Default, PartialEq, Eq)]
pub struct EtcdTransaction {
    pub compares: Vec<(Vec<u8>, u64)>,
    pub success: Vec<Operation>,
    pub failure: Vec<Operation>,
}

impl EtcdTransaction {
    /// Returns whether either list puts a key. If etcd is full, it refuses such a transaction.
    pub fn takes_room(&self) -> bool {
        let mut operations = self.success.iter().chain(&self.failure);
        operations.any(|it| matches!(it, Operation::Put { .. }))
    }
}

/// Makes the transaction that the store's client sends to etcd for this one.
impl From<&Transaction> for EtcdTransaction {
    fn from(it: &Transaction) -> EtcdTransaction {
        let compares = it.compares.iter();
        let deletes = it.deletes.iter().map(|key| Operation::Delete {
            key: key.clone(),
            end: Vec::new(),
        });
        let puts = it.puts.iter().map(|it| Operation::Put {
            key: it.key.clone(),
            value: it.value.clone(),
            lease: it.lease,
        });
        let reads = it.reads.iter();
        EtcdTransaction {
            compares: compares.map(|it| (it.key.clone(), it.revision.0)).collect(),
            success: deletes.chain(puts).collect(),
            failure: reads
                .map(|it| Operation::Range(RangeQuery::of_key(it)))
                .collect(),
        }
    }
}

/// The pairs of a range.
#[derive(Clone, Debug, Default, PartialEq, Eq)]
pub struct RangeReply {
    pub pairs: Vec<Pair>,
    /// How many keys the range has, also beyond the limit.
    pub count: usize,
    /// Whether the limit left out some pairs.
    pub more: bool,
}

/// The result of an operation.
#[derive(Clone, Debug, PartialEq, Eq)]
pub enum Response {
    Put,
    Deleted(u64),
    Range(RangeReply),
}

/// The result of a transaction.
#[derive(Clone, Debug, PartialEq, Eq)]
pub struct TransactionReply {
    /// The revision of the store after the transaction.
    pub revision: u64,
    /// Whether all of its compares held.
    pub succeeded: bool,
    pub responses: Vec<Response>,
}

/// Why etcd refuses a request.
#[derive(Clone, Copy, Debug, PartialEq, Eq)]
pub enum EtcdRefusal {
    /// The request is for a revision that was compacted.
    Compacted,
    /// The request is for a revision that doesn't exist yet.
    Future,
    /// The request writes a key twice.
    DuplicateKey,
    /// There is no such lease.
    NoLease,
    /// A lease of this number exists already.
    LeaseExists,
    /// The store has reached its quota, so it has no room.
    NoSpace,
}
