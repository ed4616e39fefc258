//! A store's callback may be its last owner, and a watch goes on without the store.
mod beside;

use beside::{store_in, Member};
use durkenzo_store::{Embedded, EtcdProtocol, Seen, Store, Transaction};
use std::sync::mpsc::{self, RecvTimeoutError};
use std::sync::Arc;
use std::time::Duration;

const PATIENCE: Duration = Duration::from_secs(60);

by_each_protocol!(
    a_store_on_etcd_may_be_dropped_by_what_it_tells,
    a_watch_on_etcd_goes_on_once_its_store_is_dropped,
);

/// Returns whether the store's thread goes on once a callback has dropped the store, which has no other owner then.
fn is_let_go(store: impl Store + 'static) -> bool {
    let store: Arc<dyn Store> = Arc::new(store);
    let (release, released) = mpsc::channel::<()>();
    let (tell, told) = mpsc::channel();
    let last = store.clone();
    let done = move |_| {
        // It ends when the other one is dropped.
        let _ = released.recv();
        drop(last);
        let _ = tell.send(());
    };
    store.submit(Transaction::new().put("a", "1"), Box::new(done));
    drop(store);
    drop(release);
    told.recv_timeout(PATIENCE).is_ok()
}

#[test]
fn a_store_in_this_process_may_be_dropped_by_what_it_tells() {
    assert!(is_let_go(Embedded::in_memory()));
}

fn a_store_on_etcd_may_be_dropped_by_what_it_tells(protocol: EtcdProtocol) {
    let patience = Duration::from_secs(1);
    assert!(is_let_go(store_in(
        &["http://127.0.0.1:1"],
        patience,
        protocol
    )));
}

fn a_watch_on_etcd_goes_on_once_its_store_is_dropped(protocol: EtcdProtocol) {
    let Some(member) = Member::start(protocol, &[]) else {
        return;
    };
    let (tell, told) = mpsc::channel();
    let watcher = Box::new(move |seen| drop(tell.send(seen)));
    let watched = member.store().watch(b"key/", watcher);
    let watch = watched.expect("a watch");
    let put = Transaction::new().put("key/1", "");
    member.store().make(put).expect("an outcome");
    let is_change = |it: Seen| matches!(it, Seen::Changes(_, changes) if !changes.is_empty());
    while !is_change(told.recv_timeout(PATIENCE).expect("the change")) {}
    // Its thread has ended once nobody can tell any more.
    drop(watch);
    let ended = std::iter::repeat_with(|| told.recv_timeout(PATIENCE)).find_map(Result::err);
    assert_eq!(ended, Some(RecvTimeoutError::Disconnected));
}
