use super::operation::{
    EtcdRefusal, EtcdTransaction, Operation, RangeQuery, RangeReply, Response, TransactionReply,
};
use durkenzo_store::{KeyChange, LeaseId, Pair, Revision};
use std::collections::{BTreeMap, BTreeSet};
use std::time::Duration;

/// The revision of an etcd in which nothing was written yet.
const FIRST: u64 = 1;

/// The value of a key from a revision on. If that revision deleted the key, there is no value.
struct KeyVersion {
    since: u64,
    /// The revision that created the key. It is 0 if the revision `since` deleted the key.
    created: u64,
    value: Option<Vec<u8>>,
    lease: Option<LeaseId>,
}

/// A lease, with its keys. It ends at `end`, unless a client keeps it before.
struct KeptLease {
    length: Duration,
    end: Duration,
    keys: BTreeSet<Vec<u8>>,
}

/// The changes that a watch hears from a revision on.
#[derive(Clone, Debug, PartialEq, Eq)]
pub enum Heard {
    /// The changes, in their order.
    Changes(Vec<KeyChange>),
    /// The watch ends, because the revision that it asked for was let go. History is compacted up to this revision.
    Compacted(u64),
}

/// The state on which all members agree: keys with their revisions, and leases.
///
/// After a compaction, clients aren't told of the compacted changes any more. The changes stay here all the same,
/// because a schedule is judged by them.
pub struct Keyspace {
    revision: u64,
    compacted: u64,
    is_full: bool,
    held: BTreeMap<Vec<u8>, Vec<KeyVersion>>,
    leases: BTreeMap<LeaseId, KeptLease>,
    /// The changes of each revision after the first.
    history: Vec<Vec<KeyChange>>,
}

impl Default for Keyspace {
    fn default() -> Keyspace {
        Keyspace {
            revision: FIRST,
            compacted: 0,
            is_full: false,
            held: BTreeMap::new(),
            leases: BTreeMap::new(),
            history: Vec::new(),
        }
    }
}

impl Keyspace {
    /// Returns the revision of the last change.
    pub fn revision(&self) -> u64 {
        self.revision
    }

    /// Returns the revision up to which history was compacted.
    pub fn compacted(&self) -> u64 {
        self.compacted
    }

    /// Sets whether the store is full. If it is full, it takes no puts and grants no leases.
    pub fn set_full(&mut self, is_full: bool) {
        self.is_full = is_full;
    }

    /// Returns the changes of this revision.
    pub fn changes_of(&self, revision: u64) -> &[KeyChange] {
        let at = revision.checked_sub(FIRST + 1);
        let found = at.and_then(|it| self.history.get(it as usize));
        found.map_or(&[], Vec::as_slice)
    }

    /// Returns the pair of the key at this revision. Returns `None` if the key had no value then.
    pub fn pair_at(&self, key: &[u8], revision: u64) -> Option<Pair> {
        let held = self.held.get(key)?.iter();
        let last = held.rev().find(|it| it.since <= revision)?;
        Some(Pair {
            key: key.to_vec(),
            value: last.value.clone()?,
            revision: Revision(last.since),
            created: Revision(last.created),
        })
    }

    /// Returns the values that the key had from one revision to the other, in their order. `None` stands for no value.
    pub fn between(&self, key: &[u8], since: u64, until: u64) -> Vec<Option<&[u8]>> {
        let versions = self.held.get(key).map_or(&[][..], Vec::as_slice);
        let first = versions.iter().rposition(|it| it.since <= since);
        let mut values = match first {
            Some(_) => Vec::new(),
            None => vec![None],
        };
        let later = versions[first.unwrap_or(0)..].iter();
        let later = later.take_while(|it| it.since <= until);
        values.extend(later.map(|it| it.value.as_deref()));
        values
    }

    /// Returns all keys from this one on that have a value now.
    pub fn keys_from(&self, from: &[u8]) -> impl Iterator<Item = &[u8]> {
        let keys = self.held.range(from.to_vec()..).map(|it| it.0.as_slice());
        keys.filter(|it| self.revision_of(it) > 0)
    }

    /// Returns the last pair of each key with this prefix that has no value any more.
    pub fn gone_of(&self, prefix: &[u8]) -> Vec<Pair> {
        let versions = self.held.iter().filter(|it| it.0.starts_with(prefix));
        let gone = versions.filter(|it| self.revision_of(it.0) == 0);
        let last = gone.filter_map(|it| self.pair_at(it.0, it.1.last()?.since - 1));
        last.collect()
    }

    /// Returns the revision that last wrote the key. Returns 0 if the key has no value.
    pub fn revision_of(&self, key: &[u8]) -> u64 {
        let last = self.held.get(key).and_then(|it| it.last());
        let there = last.filter(|it| it.value.is_some());
        there.map_or(0, |it| it.since)
    }

    /// Returns the pairs of a range.
    ///
    /// # Errors
    ///
    /// Fails if the revision was compacted, or doesn't exist yet.
    pub fn range(&self, asked: &RangeQuery) -> Result<RangeReply, EtcdRefusal> {
        self.may_read(asked)?;
        Ok(self.found(asked))
    }

    fn may_read(&self, asked: &RangeQuery) -> Result<(), EtcdRefusal> {
        match asked.revision {
            0 => Ok(()),
            it if it > self.revision => Err(EtcdRefusal::Future),
            it if it < self.compacted => Err(EtcdRefusal::Compacted),
            _ => Ok(()),
        }
    }

    fn found(&self, asked: &RangeQuery) -> RangeReply {
        let moment = match asked.revision {
            0 => u64::MAX,
            it => it,
        };
        let keys = self.held.range(asked.key.clone()..);
        let keys = keys.map(|it| it.0).take_while(|it| asked.has(it));
        let mut pairs: Vec<Pair> = keys.filter_map(|it| self.pair_at(it, moment)).collect();
        let count = pairs.len();
        if asked.limit > 0 {
            pairs.truncate(asked.limit);
        }
        RangeReply {
            more: pairs.len() < count,
            count,
            pairs,
        }
    }

    /// Makes a transaction, all of it at one revision.
    ///
    /// # Errors
    ///
    /// Fails if the transaction is malformed or has no room. It also fails if it reads a revision that was compacted or
    /// doesn't exist yet, or puts a key under a lease that has ended. Nothing is made then.
    pub fn make(&mut self, asked: &EtcdTransaction) -> Result<TransactionReply, EtcdRefusal> {
        are_written_once(&asked.success)?;
        are_written_once(&asked.failure)?;
        if self.is_full && asked.takes_room() {
            return Err(EtcdRefusal::NoSpace);
        }
        let mut compares = asked.compares.iter();
        let succeeded = compares.all(|(key, revision)| self.revision_of(key) == *revision);
        let operations = match succeeded {
            true => &asked.success,
            false => &asked.failure,
        };
        operations.iter().try_for_each(|it| self.may_put(it))?;
        operations.iter().try_for_each(|it| self.may_do(it))?;
        let mut changes = Vec::new();
        let responses = operations.iter().map(|it| self.done(it, &mut changes));
        let responses = responses.collect();
        self.end_revision(changes);
        Ok(TransactionReply {
            revision: self.revision,
            succeeded,
            responses,
        })
    }

    fn may_put(&self, operation: &Operation) -> Result<(), EtcdRefusal> {
        match operation {
            Operation::Put {
                lease: Some(lease), ..
            } if !self.leases.contains_key(lease) => Err(EtcdRefusal::NoLease),
            Operation::Put { .. } | Operation::Delete { .. } | Operation::Range(_) => Ok(()),
        }
    }

    /// Checks whether an operation may be done. All puts of the transaction must have passed `may_put` before, because
    /// etcd checks them first.
    fn may_do(&self, operation: &Operation) -> Result<(), EtcdRefusal> {
        match operation {
            Operation::Put { .. } | Operation::Delete { .. } => Ok(()),
            Operation::Range(asked) => self.may_read(asked),
        }
    }

    fn done(&mut self, operation: &Operation, changes: &mut Vec<KeyChange>) -> Response {
        match operation {
            Operation::Put { key, value, lease } => {
                self.write(key, Some(value), *lease, changes);
                Response::Put
            }
            Operation::Delete { key, end } => {
                let asked = RangeQuery {
                    end: end.clone(),
                    ..RangeQuery::of_key(key)
                };
                let there: Vec<Pair> = self.found(&asked).pairs;
                for pair in &there {
                    self.write(&pair.key, None, None, changes);
                }
                Response::Deleted(there.len() as u64)
            }
            Operation::Range(asked) => Response::Range(self.found(asked)),
        }
    }

    /// Writes or deletes a key at the next revision.
    fn write(
        &mut self,
        key: &[u8],
        value: Option<&Vec<u8>>,
        lease: Option<LeaseId>,
        changes: &mut Vec<KeyChange>,
    ) {
        let since = self.revision + 1;
        let versions = self.held.entry(key.to_vec()).or_default();
        let before = versions.last().and_then(|it| it.lease);
        let there = versions.last().filter(|it| it.value.is_some());
        let created = match value {
            Some(_) => there.map_or(since, |it| it.created),
            None => Revision::NEVER.0,
        };
        versions.push(KeyVersion {
            since,
            created,
            value: value.cloned(),
            lease,
        });
        if let Some(before) = before.and_then(|it| self.leases.get_mut(&it)) {
            before.keys.remove(key);
        }
        if let Some(lease) = lease.and_then(|it| self.leases.get_mut(&it)) {
            lease.keys.insert(key.to_vec());
        }
        changes.push(KeyChange {
            key: key.to_vec(),
            value: value.cloned(),
            revision: Revision(since),
            created: Revision(created),
        });
    }

    /// Ends the next revision, if anything has changed in it.
    fn end_revision(&mut self, changes: Vec<KeyChange>) {
        if !changes.is_empty() {
            self.revision += 1;
            self.history.push(changes);
        }
    }

    /// Compacts history up to this revision. From then on, clients can't read at an earlier revision.
    ///
    /// # Errors
    ///
    /// Fails if history was compacted that far already, or if the revision doesn't exist yet.
    pub fn compact(&mut self, revision: u64) -> Result<(), EtcdRefusal> {
        match revision {
            it if it <= self.compacted => Err(EtcdRefusal::Compacted),
            it if it > self.revision => Err(EtcdRefusal::Future),
            it => {
                self.compacted = it;
                Ok(())
            }
        }
    }

    /// Returns the changes that a watch of this range hears from this revision on.
    ///
    /// If a watch begins at the revision of the compaction itself, etcd tells it of the keys that were put at that
    /// revision, but not of those that were deleted. So a client that has heard of all changes before must begin one
    /// revision sooner. It is then told that this revision was let go.
    pub fn heard(&self, range: &RangeQuery, from: u64) -> Heard {
        if from < self.compacted {
            return Heard::Compacted(self.compacted);
        }
        let revisions = from.max(FIRST + 1)..=self.revision;
        let changes = revisions.flat_map(|it| self.changes_of(it));
        let heard = changes.filter(|it| range.has(&it.key) && self.is_told(it));
        Heard::Changes(heard.cloned().collect())
    }

    /// Returns whether watches are still told of this change.
    fn is_told(&self, change: &KeyChange) -> bool {
        change.revision.0 > self.compacted || change.value.is_some()
    }

    /// Grants a lease of this number and length.
    ///
    /// # Errors
    ///
    /// Fails if a lease of this number exists, or if there is no room.
    pub fn grant(
        &mut self,
        lease: LeaseId,
        length: Duration,
        now: Duration,
    ) -> Result<(), EtcdRefusal> {
        if self.is_full {
            return Err(EtcdRefusal::NoSpace);
        }
        if self.leases.contains_key(&lease) {
            return Err(EtcdRefusal::LeaseExists);
        }
        let granted = KeptLease {
            length,
            end: now + length,
            keys: BTreeSet::new(),
        };
        self.leases.insert(lease, granted);
        Ok(())
    }

    /// Keeps a lease, so that it goes on for its length from now on. Returns whether there is such a lease.
    pub fn keep(&mut self, lease: LeaseId, now: Duration) -> bool {
        let found = self.leases.get_mut(&lease);
        found.map(|it| it.end = now + it.length).is_some()
    }

    /// Extends each lease, so that it goes on for at least its length from this time on. A new leader does this.
    pub fn extend_leases(&mut self, then: Duration) {
        for lease in self.leases.values_mut() {
            lease.end = lease.end.max(then + lease.length);
        }
    }

    /// Ends a lease, and deletes its keys at one revision.
    ///
    /// # Errors
    ///
    /// Fails if there is no such lease.
    pub fn revoke(&mut self, lease: LeaseId) -> Result<(), EtcdRefusal> {
        let ended = self.leases.remove(&lease).ok_or(EtcdRefusal::NoLease)?;
        let mut changes = Vec::new();
        for key in &ended.keys {
            self.write(key, None, None, &mut changes);
        }
        self.end_revision(changes);
        Ok(())
    }

    /// Returns the leases that are over, because nobody kept them for their length.
    pub fn overdue(&self, now: Duration) -> Vec<LeaseId> {
        let over = self.leases.iter().filter(|it| it.1.end <= now);
        over.map(|it| *it.0).collect()
    }

    /// Returns the keys of a lease. Returns `None` if the lease has ended.
    pub fn keys_of(&self, lease: LeaseId) -> Option<&BTreeSet<Vec<u8>>> {
        self.leases.get(&lease).map(|it| &it.keys)
    }

    /// Returns how many leases there are.
    pub fn leases(&self) -> usize {
        self.leases.len()
    }
}

/// Checks that no key is written twice. A key must not be put twice, and must not be both put and deleted.
fn are_written_once(operations: &[Operation]) -> Result<(), EtcdRefusal> {
    let puts = || {
        operations.iter().filter_map(|it| match it {
            Operation::Put { key, .. } => Some(key),
            Operation::Delete { .. } | Operation::Range(_) => None,
        })
    };
    let mut once = BTreeSet::new();
    let mut deleted = operations.iter().filter_map(|it| match it {
        Operation::Delete { key, end } => Some(RangeQuery {
            end: end.clone(),
            ..RangeQuery::of_key(key)
        }),
        Operation::Put { .. } | Operation::Range(_) => None,
    });
    let is_twice = puts().any(|it| !once.insert(it));
    match is_twice || deleted.any(|range| puts().any(|it| range.has(it))) {
        true => Err(EtcdRefusal::DuplicateKey),
        false => Ok(()),
    }
}
