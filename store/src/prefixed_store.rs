use crate::{
    CompactError, Done, KeyPrefix, LeaseError, LeaseId, Outcome, ReadError, Reading, Seen, Store,
    StoreSize, Transaction, Watch, Watcher, WriteError,
};
use std::time::Duration;

/// The keys of a store that begin with a prefix, without it: so several fleets share an etcd. Its room, its compactions
/// and its revisions are those of the whole store.
///
/// ```
/// use durkenzo_store::{Embedded, PrefixedStore, Store, Transaction};
///
/// # fn main() -> Result<(), Box<dyn std::error::Error>> {
/// let orders = PrefixedStore::new(Embedded::in_memory(), "/orders/".parse()?);
/// orders.make(Transaction::new().put("leader", "7"))?;
/// assert_eq!(orders.read_all(b"")?.pairs[0].key, b"leader");
/// # Ok(())
/// # }
/// ```
#[derive(Debug)]
pub struct PrefixedStore<S> {
    store: S,
    prefix: KeyPrefix,
}

impl<S: Store> PrefixedStore<S> {
    /// Returns the part of the store whose keys begin so.
    pub fn new(store: S, prefix: KeyPrefix) -> PrefixedStore<S> {
        PrefixedStore { store, prefix }
    }

    /// Returns the reading without the prefix.
    fn own(&self, reading: Result<Reading, ReadError>) -> Result<Reading, ReadError> {
        reading.map(|it| own(&self.prefix, it))
    }
}

/// Returns the transaction as the whole store makes it.
fn whole(prefix: &KeyPrefix, mut transaction: Transaction) -> Transaction {
    let compared = transaction.compares.iter_mut().map(|it| &mut it.key);
    let put = transaction.puts.iter_mut().map(|it| &mut it.key);
    let others = transaction.deletes.iter_mut().chain(&mut transaction.reads);
    for key in compared.chain(put).chain(others) {
        *key = prefix.whole(key).into_owned();
    }
    transaction
}

fn own(prefix: &KeyPrefix, mut reading: Reading) -> Reading {
    reading.pairs.retain_mut(|it| prefix.leave_off(&mut it.key));
    reading
}

/// Returns what a watch has seen, without the prefix.
fn own_of_watch(prefix: &KeyPrefix, seen: Seen) -> Seen {
    match seen {
        Seen::All(reading) => Seen::All(own(prefix, reading)),
        Seen::Changes(revision, mut changes) => {
            changes.retain_mut(|it| prefix.leave_off(&mut it.key));
            Seen::Changes(revision, changes)
        }
    }
}

impl<S: Store> Store for PrefixedStore<S> {
    fn submit(&self, transaction: Transaction, done: Done) {
        if self.prefix.is_empty() {
            return self.store.submit(transaction, done);
        }
        let prefix = self.prefix.clone();
        let told = move |outcome: Result<Outcome, WriteError>| {
            done(outcome.map(|it| match it {
                Outcome::Lost(reading) => Outcome::Lost(own(&prefix, reading)),
                Outcome::Made(revision) => Outcome::Made(revision),
            }));
        };
        let transaction = whole(&self.prefix, transaction);
        self.store.submit(transaction, Box::new(told));
    }

    fn read(&self, keys: &[&[u8]]) -> Result<Reading, ReadError> {
        let keys: Vec<_> = keys.iter().map(|it| self.prefix.whole(it)).collect();
        let keys: Vec<&[u8]> = keys.iter().map(AsRef::as_ref).collect();
        self.own(self.store.read(&keys))
    }

    fn read_all(&self, prefix: &[u8]) -> Result<Reading, ReadError> {
        self.own(self.store.read_all(&self.prefix.whole(prefix)))
    }

    fn read_range(&self, from: &[u8], end: &[u8], most: usize) -> Result<Reading, ReadError> {
        let (from, end) = (self.prefix.whole(from), self.prefix.whole(end));
        self.own(self.store.read_range(&from, &end, most))
    }

    fn read_keys(&self, from: &[u8], end: &[u8]) -> Result<Vec<Vec<u8>>, ReadError> {
        let (from, end) = (self.prefix.whole(from), self.prefix.whole(end));
        let mut keys = self.store.read_keys(&from, &end)?;
        keys.retain_mut(|it| self.prefix.leave_off(it));
        Ok(keys)
    }

    fn watch(&self, prefix: &[u8], mut watcher: Watcher) -> Result<Watch, ReadError> {
        let (own, whole) = (self.prefix.clone(), self.prefix.whole(prefix));
        let told = move |seen| watcher(own_of_watch(&own, seen));
        self.store.watch(&whole, Box::new(told))
    }

    fn grant(&self, length: Duration) -> Result<LeaseId, LeaseError> {
        self.store.grant(length)
    }

    fn keep(&self, lease: LeaseId) -> Result<(), LeaseError> {
        self.store.keep(lease)
    }

    fn revoke(&self, lease: LeaseId) -> Result<(), LeaseError> {
        self.store.revoke(lease)
    }

    fn left(&self) -> Option<u64> {
        self.store.left()
    }

    /// Returns nothing if there is a prefix, because the history is that of others, too.
    fn size(&self) -> Result<Option<StoreSize>, ReadError> {
        match self.prefix.is_empty() {
            true => self.store.size(),
            false => Ok(None),
        }
    }

    fn compact_history(&self) -> Result<(), CompactError> {
        self.store.compact_history()
    }

    fn compact(&self) -> Result<(), CompactError> {
        self.store.compact()
    }
}

#[cfg(test)]
mod tests {
    use super::*;
    use crate::{Embedded, Revision};
    use std::sync::mpsc::channel;

    /// A part of a store in which others have keys that begin nearly so.
    fn orders() -> PrefixedStore<Embedded> {
        let store = Embedded::in_memory();
        let others = ["/order", "/orders", "/orders0key", "key", "zz"];
        let put = |it: Transaction, key: &&str| it.put(*key, "of others");
        let others = others.iter().fold(Transaction::new(), put);
        store.make(others).unwrap();
        PrefixedStore::new(store, "/orders/".parse().unwrap())
    }

    #[test]
    fn what_others_have_is_not_seen_and_stays() {
        let orders = orders();
        assert_eq!(orders.read_all(b"").unwrap().pairs, []);
        let (tell, told) = channel();
        let _watch = orders.watch(b"", Box::new(move |seen| tell.send(seen).unwrap()));
        assert!(matches!(told.recv(), Ok(Seen::All(it)) if it.pairs.is_empty()));
        let first = Transaction::new().compare("key", Revision::NEVER);
        orders.make(first.clone().put("key", "own")).unwrap();
        let change = told.recv().unwrap();
        assert!(matches!(&change, Seen::Changes(_, it) if it.len() == 1 && it[0].key == b"key"));
        let Outcome::Lost(reading) = orders.make(first.or_read("key")).unwrap() else {
            panic!("it was written");
        };
        assert_eq!(reading.get(b"key").unwrap().value, b"own");
        assert_eq!(orders.read_keys(b"", b"zzz").unwrap(), [b"key"]);
        let whole = orders.store.read(&[b"key", b"/orders/key", b"zz"]).unwrap();
        let values: Vec<_> = whole.pairs.iter().map(|it| &*it.value).collect();
        assert_eq!(values, [&b"of others"[..], b"own", b"of others"]);
        orders.make(Transaction::new().delete("zz")).unwrap();
        assert!(orders.store.read(&[b"zz"]).unwrap().get(b"zz").is_some());
    }
}
