//! How a watch on etcd tells changes that were compacted while it was away. If etcd isn't installed, the tests do
//! nothing.
mod beside;

use beside::relay::Relay;
use beside::{store_in, Member, PATIENCE};
use durkenzo_store::{Etcd, EtcdProtocol, Outcome, Revision, Seen, Store, Transaction};
use std::sync::mpsc::{self, Receiver};

/// How many keys are watched. One is deleted while the watch is away.
const KEYS: usize = 4;

by_each_protocol!(tells_what_was_deleted_up_to_a_compaction,);

fn made(store: &Etcd, transaction: Transaction) -> Revision {
    match store.make(transaction).expect("an outcome") {
        Outcome::Made(revision) => revision,
        Outcome::Lost(_) => panic!("nothing is compared"),
    }
}

/// Returns the keys in the last event, once this key is among them.
fn keys_with(told: &Receiver<Seen>, last: &[u8]) -> Vec<Vec<u8>> {
    let mut keys: Vec<Vec<u8>> = Vec::new();
    while !keys.iter().any(|it| it == last) {
        match told.recv_timeout(PATIENCE).expect("the watch goes on") {
            Seen::All(reading) => keys = reading.pairs.into_iter().map(|it| it.key).collect(),
            Seen::Changes(_, changes) => {
                for change in changes {
                    keys.retain(|it| *it != change.key);
                    keys.extend(change.value.map(|_| change.key));
                }
            }
        }
    }
    keys.sort();
    keys
}

/// Deletes a key while a watch is away, and compacts so many revisions after that.
fn told_after(protocol: EtcdProtocol, later: usize) -> Option<Vec<Vec<u8>>> {
    let member = Member::start(protocol, &[])?;
    let (relay, store) = (Relay::before(&member.endpoint), member.store());
    let put = |it: Transaction, at: usize| it.put(format!("key/{at}"), "");
    made(&store, (0..KEYS).fold(Transaction::new(), put));
    let (tell, told) = mpsc::channel();
    let followed = store_in(&[&relay.endpoint], PATIENCE, protocol);
    let watcher = Box::new(move |seen| drop(tell.send(seen)));
    let _watch = followed.watch(b"key/", watcher).expect("a watch");
    // The watch is following once it tells a change.
    made(&store, Transaction::new().put("key/5", ""));
    keys_with(&told, b"key/5");
    relay.cut();
    made(&store, Transaction::new().delete("key/0"));
    for _ in 0..later {
        made(&store, Transaction::new().put("other", ""));
    }
    store.compact().expect("it makes room");
    relay.mend();
    made(&store, Transaction::new().put("key/6", ""));
    Some(keys_with(&told, b"key/6"))
}

/// This also holds if the deletion is the compaction's own revision, at which etcd keeps no deletions.
fn tells_what_was_deleted_up_to_a_compaction(protocol: EtcdProtocol) {
    for later in [0, 1] {
        let Some(keys) = told_after(protocol, later) else {
            return;
        };
        let wanted = [1, 2, 3, 5, 6].map(|it| format!("key/{it}").into_bytes());
        assert_eq!(keys, wanted, "{later} revisions later");
    }
}
