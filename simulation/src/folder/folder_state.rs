use durkenzo_store::{LeaseId, Outcome, Pair, Reading, Revision, Transaction, WriteError};
use std::collections::{BTreeMap, BTreeSet};
use std::sync::Arc;

/// A pair that the store may have.
#[derive(Clone, Debug, PartialEq, Eq)]
struct HeldPair {
    value: Arc<[u8]>,
    revision: Revision,
    created: Revision,
    lease: Option<LeaseId>,
}

/// One content that the store may have at a moment.
#[derive(Clone, Debug, Default, PartialEq, Eq)]
pub struct FolderState {
    moment: Revision,
    pairs: BTreeMap<Vec<u8>, HeldPair>,
    /// The keys of leases that have ended. The store deletes them as soon as it has room.
    due: BTreeSet<Vec<u8>>,
}

impl FolderState {
    /// Returns the state after a transaction on this one, and the outcome of the transaction. These leases go on.
    pub fn after(
        &self,
        transaction: &Transaction,
        leases: &BTreeSet<LeaseId>,
    ) -> (FolderState, Result<Outcome, WriteError>) {
        let mut compares = transaction.compares.iter();
        if !compares.all(|it| self.revision_of(&it.key) == it.revision) {
            let reads = transaction.reads.iter();
            let pairs = reads.filter_map(|it| self.pair(it)).collect();
            let revision = self.moment;
            return (self.clone(), Ok(Outcome::Lost(Reading { revision, pairs })));
        }
        let mut of_puts = transaction.puts.iter().filter_map(|it| it.lease);
        if of_puts.any(|it| !leases.contains(&it)) {
            return (self.clone(), Err(WriteError::LeaseEnded));
        }
        let next = self.changed(transaction);
        let outcome = Outcome::Made(next.moment);
        (next, Ok(outcome))
    }

    fn changed(&self, transaction: &Transaction) -> FolderState {
        let mut next = self.clone();
        let revision = self.moment.next();
        let mut has_changed = !transaction.puts.is_empty();
        for key in &transaction.deletes {
            has_changed |= next.pairs.remove(key).is_some();
            next.due.remove(key);
        }
        for put in &transaction.puts {
            let before = next.pairs.get(&put.key);
            let held = HeldPair {
                value: put.value.clone().into(),
                revision,
                created: before.map_or(revision, |it| it.created),
                lease: put.lease,
            };
            next.pairs.insert(put.key.clone(), held);
            next.due.remove(&put.key);
        }
        if has_changed {
            next.moment = revision;
        }
        next
    }

    fn revision_of(&self, key: &[u8]) -> Revision {
        let held = self.pairs.get(key);
        held.map_or(Revision::NEVER, |it| it.revision)
    }

    fn pair(&self, key: &[u8]) -> Option<Pair> {
        let (key, held) = self.pairs.get_key_value(key)?;
        Some(Pair {
            key: key.clone(),
            value: held.value.to_vec(),
            revision: held.revision,
            created: held.created,
        })
    }

    /// Ends a lease: its keys are to be deleted.
    pub fn end_lease(&mut self, lease: LeaseId) {
        let of_it = self.pairs.iter().filter(|it| it.1.lease == Some(lease));
        self.due.extend(of_it.map(|it| it.0.clone()));
    }

    /// Returns the state once the keys of ended leases are deleted. Returns `None` if there are no such keys.
    pub fn without_due(&self) -> Option<FolderState> {
        let deletes = self.due.iter().cloned().collect();
        let deletes = Transaction {
            deletes,
            ..Transaction::new()
        };
        (!self.due.is_empty()).then(|| self.changed(&deletes))
    }

    /// Returns the state once another process has opened the folder, because that deletes all keys under leases.
    pub fn reopened(&self) -> FolderState {
        let leased = self.pairs.iter().filter(|it| it.1.lease.is_some());
        let deletes = Transaction {
            deletes: leased.map(|it| it.0.clone()).collect(),
            ..Transaction::new()
        };
        FolderState {
            due: BTreeSet::new(),
            ..self.changed(&deletes)
        }
    }

    /// Returns a reading of the pairs from this key on and before that end, so many at most. If there is no end, it
    /// goes to the last key.
    pub fn reading(&self, from: &[u8], end: Option<&[u8]>, most: usize) -> Reading {
        let keys = self.keys(from, end).into_iter().take(most);
        Reading {
            revision: self.moment,
            pairs: keys.filter_map(|it| self.pair(&it)).collect(),
        }
    }

    /// Returns the keys from this one on and before that end. If there is no end, returns all keys from this one on.
    pub fn keys(&self, from: &[u8], end: Option<&[u8]>) -> Vec<Vec<u8>> {
        let from_there = self.pairs.range(from.to_vec()..);
        let keys = from_there.map(|it| it.0.clone());
        keys.take_while(|it| end.is_none_or(|end| &it[..] < end))
            .collect()
    }

    /// Returns a reading of these keys.
    pub fn reading_of(&self, keys: &[&[u8]]) -> Reading {
        Reading {
            revision: self.moment,
            pairs: keys.iter().filter_map(|it| self.pair(it)).collect(),
        }
    }

    /// Returns the revision that last wrote the key. Returns [`Revision::NEVER`] if the key has no value.
    pub fn revision_at(&self, key: &[u8]) -> Revision {
        self.revision_of(key)
    }
}
