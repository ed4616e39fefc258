use crate::{LeaseError, LeaseId, Transaction};
use std::collections::{BTreeMap, BTreeSet, HashMap};
use std::time::{Duration, Instant};

/// A lease that hasn't ended.
struct Lease {
    length: Duration,
    end: Instant,
    keys: BTreeSet<Vec<u8>>,
}

/// The leases of an embedded store. They end with the process, because so do their holders.
#[derive(Default)]
pub(super) struct Leases {
    last: i64,
    kept: BTreeMap<LeaseId, Lease>,
    of_key: HashMap<Vec<u8>, LeaseId>,
    /// The keys of leases that have ended, which are still in the store.
    due: BTreeSet<Vec<u8>>,
}

impl Leases {
    pub(super) fn grant(&mut self, length: Duration, now: Instant) -> LeaseId {
        self.last += 1;
        let (id, length) = (
            LeaseId(self.last),
            Duration::from_secs(length.as_secs().max(1)),
        );
        self.kept.insert(
            id,
            Lease {
                length,
                end: now + length,
                keys: BTreeSet::new(),
            },
        );
        id
    }

    pub(super) fn keep(&mut self, id: LeaseId, now: Instant) -> Result<(), LeaseError> {
        let lease = self.kept.get_mut(&id).ok_or(LeaseError::Ended(id))?;
        lease.end = now + lease.length;
        Ok(())
    }

    /// Ends a lease now.
    pub(super) fn revoke(&mut self, id: LeaseId, now: Instant) -> Result<(), LeaseError> {
        let lease = self.kept.get_mut(&id).ok_or(LeaseError::Ended(id))?;
        lease.end = now;
        Ok(())
    }

    pub(super) fn is_kept(&self, id: LeaseId) -> bool {
        self.kept.contains_key(&id)
    }

    /// Returns when the next one ends.
    pub(super) fn next_end(&self) -> Option<Instant> {
        self.kept.values().map(|it| it.end).min()
    }

    /// Ends the leases that aren't kept any longer. Returns the transaction that deletes their keys, which may be tried
    /// again.
    pub(super) fn ended(&mut self, now: Instant) -> Transaction {
        let over: Vec<_> = self
            .kept
            .iter()
            .filter(|(_, it)| it.end <= now)
            .map(|(id, _)| *id)
            .collect();
        let keys = over
            .iter()
            .filter_map(|id| self.kept.remove(id))
            .flat_map(|it| it.keys);
        self.due.extend(keys);
        self.of_key.retain(|_, id| !over.contains(id));
        Transaction {
            deletes: self.due.iter().cloned().collect(),
            ..Transaction::new()
        }
    }

    /// Notes the writes and deletions of a transaction.
    pub(super) fn note(&mut self, transaction: &Transaction) {
        for key in &transaction.deletes {
            self.let_go(key);
        }
        for put in &transaction.puts {
            self.let_go(&put.key);
            if let Some((id, lease)) = put.lease.and_then(|id| Some((id, self.kept.get_mut(&id)?)))
            {
                lease.keys.insert(put.key.clone());
                self.of_key.insert(put.key.clone(), id);
            }
        }
    }

    fn let_go(&mut self, key: &[u8]) {
        self.due.remove(key);
        if let Some(lease) = self
            .of_key
            .remove(key)
            .and_then(|id| self.kept.get_mut(&id))
        {
            lease.keys.remove(key);
        }
    }
}
