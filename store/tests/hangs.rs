//! How watches and leases on etcd go on if a member hangs with its connections open. If etcd isn't installed, the tests
//! do nothing.
mod beside;

use beside::relay::Relay;
use beside::{store_in, Member, PATIENCE};
use durkenzo_store::{
    Etcd, EtcdProtocol, LeaseError, Outcome, Revision, Seen, Store, Transaction, Watch, WriteError,
};
use std::net::TcpListener;
use std::sync::mpsc::{self, Receiver};
use std::thread;
use std::time::{Duration, Instant};

/// How soon a change must be told although a member hangs, on a machine that may be busy.
const SOON: Duration = Duration::from_secs(60);
/// How long a member may take while another one hangs.
const SHORT: Duration = Duration::from_secs(2);
/// The length of a lease that nobody keeps. It is longer than a busy machine stops a process, and than a store takes to
/// find a member that keeps it.
const LEASE: Duration = Duration::from_secs(15);
/// How long a slow member takes. It is longer than the time for which one is asked alone.
const SLOW: Duration = Duration::from_secs(4);
/// How long a hanging member takes. It is longer than any test.
const FOREVER: Duration = Duration::from_secs(600);
/// How long a watch is silent.
const SILENCE: Duration = Duration::from_secs(6);
/// How many watches a process has.
const WATCHES: u64 = 4;
/// How often a member may be given up because a busy machine makes it answer late.
const TRIES: usize = 5;

by_each_protocol!(
    watches_on_though_a_member_hangs,
    keeps_a_lease_though_a_member_hangs,
    keeps_a_lease_by_a_member_that_hung_when_it_was_asked_first,
    keeps_a_lease_by_a_member_that_is_slow_where_others_hang,
    keeps_no_lease_where_all_members_hang,
    keeps_a_lease_though_somebody_who_is_told_hangs,
    passes_over_a_member_that_begins_no_watch,
    leaves_no_silent_member_that_is_well,
    compares_by_what_most_members_have,
);

fn watch(store: &Etcd) -> (Watch, Receiver<Seen>) {
    let (tell, told) = mpsc::channel();
    let watcher = Box::new(move |seen| drop(tell.send(seen)));
    let watch = store.watch(b"a", watcher).expect("a watch");
    let first = told.recv_timeout(PATIENCE);
    assert!(matches!(first, Ok(Seen::All(_))), "{first:?}");
    (watch, told)
}

/// Writes through these members until the write is known to be made, because they may have no leader.
fn write(protocol: EtcdProtocol, members: &[&Member]) -> Revision {
    let endpoints: Vec<_> = members.iter().map(|it| it.endpoint.as_str()).collect();
    let store = store_in(&endpoints, SHORT, protocol);
    let end = Instant::now() + PATIENCE;
    loop {
        match store.make(Transaction::new().put("a", "1")) {
            Ok(Outcome::Made(revision)) => return revision,
            other => assert!(Instant::now() < end, "{other:?}"),
        }
    }
}

/// Receives events until this revision is told. It must come after the earlier ones, and each only once.
fn hear(told: &Receiver<Seen>, last: &mut Revision, revision: Revision) {
    let end = Instant::now() + SOON;
    while *last < revision {
        let left = end.saturating_duration_since(Instant::now());
        let Ok(Seen::Changes(moment, changes)) = told.recv_timeout(left) else {
            panic!("{revision:?} isn't told, and no change is forgotten");
        };
        for it in changes {
            assert!(it.revision > *last, "{it:?} is told again");
            *last = it.revision;
        }
        assert_eq!(moment, *last);
    }
}

fn watches_on_though_a_member_hangs(protocol: EtcdProtocol) {
    let Some(members) = Member::start_cluster(protocol, 3) else {
        return;
    };
    let [first, second, third] = &members[..] else {
        panic!("three began");
    };
    let endpoints: Vec<_> = members.iter().map(|it| it.endpoint.as_str()).collect();
    let store = store_in(&endpoints, PATIENCE, protocol);
    let ((_watch, told), mut last) = (watch(&store), Revision::NEVER);
    hear(&told, &mut last, write(protocol, &[first]));
    first.stop();
    hear(&told, &mut last, write(protocol, &[second, third]));
    first.go_on();
    hear(&told, &mut last, write(protocol, &[first]));
}

/// Less than a lease's length passes until another member keeps it.
fn keeps_a_lease_though_a_member_hangs(protocol: EtcdProtocol) {
    let Some(members) = Member::start_cluster(protocol, 3) else {
        return;
    };
    let endpoints: Vec<_> = members.iter().map(|it| it.endpoint.as_str()).collect();
    let store = store_in(&endpoints, PATIENCE, protocol);
    let lease = store.grant(LEASE).expect("a lease");
    members[0].stop();
    let end = Instant::now() + 2 * LEASE;
    while Instant::now() < end {
        let kept = store.keep(lease);
        assert!(!matches!(kept, Err(LeaseError::Ended(_))), "{kept:?}");
        thread::sleep(LEASE / 6);
    }
    store.keep(lease).expect("another one keeps it");
}

/// How long a relay holds back a caller's bytes, by how many came before.
type Delay = fn(usize) -> Duration;

/// Returns whether a lease is kept through members behind relays with these delays.
fn is_kept_by(protocol: EtcdProtocol, delays: [Delay; 3], patience: Duration) -> Option<bool> {
    let member = Member::start(protocol, &[])?;
    let lease = member.store().grant(FOREVER).expect("a lease");
    let relays = delays.map(|it| Relay::slow(&member.endpoint, it));
    let endpoints: Vec<_> = relays.iter().map(|it| it.endpoint.as_str()).collect();
    let is_kept = store_in(&endpoints, patience, protocol).keep(lease).is_ok();
    let callers = relays.map(|it| it.callers());
    assert!(callers.iter().all(|it| *it <= 2), "{callers:?}");
    Some(is_kept)
}

/// A member that was asked early waits for the leader that hangs, although it has another leader by now.
fn keeps_a_lease_by_a_member_that_hung_when_it_was_asked_first(protocol: EtcdProtocol) {
    let at_first: Delay = |before| if before == 0 { FOREVER } else { Duration::ZERO };
    let is_kept = is_kept_by(protocol, [|_| FOREVER, at_first, at_first], PATIENCE);
    assert_ne!(is_kept, Some(false));
}

/// A slow call goes on while others are asked.
fn keeps_a_lease_by_a_member_that_is_slow_where_others_hang(protocol: EtcdProtocol) {
    let slow: Delay = |before| if before == 0 { SLOW } else { FOREVER };
    let is_kept = is_kept_by(protocol, [slow, |_| FOREVER, |_| FOREVER], PATIENCE);
    assert_ne!(is_kept, Some(false));
}

fn keeps_no_lease_where_all_members_hang(protocol: EtcdProtocol) {
    let is_kept = is_kept_by(protocol, [|_| FOREVER; 3], 2 * SLOW);
    assert_ne!(is_kept, Some(true));
}

/// A slow callback for a transaction's outcome may delay other callbacks, but no lease.
fn keeps_a_lease_though_somebody_who_is_told_hangs(protocol: EtcdProtocol) {
    let Some(member) = Member::start(protocol, &[]) else {
        return;
    };
    let store = member.store();
    let lease = store.grant(LEASE).expect("a lease");
    let ((tell, told), (let_go, waits)) = (mpsc::channel(), mpsc::channel::<()>());
    let hangs = move |_| {
        let _ = tell.send(());
        // It goes on at the test's end.
        let _ = waits.recv_timeout(3 * LEASE);
    };
    store.submit(Transaction::new().put("a", "1"), Box::new(hangs));
    told.recv_timeout(PATIENCE).expect("it is told");
    let end = Instant::now() + LEASE + LEASE / 2;
    while Instant::now() < end {
        store.keep(lease).expect("it is kept");
        thread::sleep(LEASE / 6);
    }
    drop(let_go);
}

fn passes_over_a_member_that_begins_no_watch(protocol: EtcdProtocol) {
    let Some(mut member) = Member::start(protocol, &[]) else {
        return;
    };
    // Its system accepts callers, and nobody answers them.
    let listener = TcpListener::bind(("127.0.0.1", 0)).expect("a port");
    let hangs = format!("http://{}", listener.local_addr().expect("its address"));
    let store = store_in(&[&member.endpoint, &hangs], PATIENCE, protocol);
    let (_watch, told) = watch(&store);
    member.begin_again();
    hear(&told, &mut { Revision::NEVER }, write(protocol, &[&member]));
}

/// Returns how often a silent member is asked while watches follow it, how often it may be asked for one of them, and
/// how many watches were begun.
fn asked_of_silent(protocol: EtcdProtocol, member: &Member) -> (u64, u64, u64) {
    let (store, begun) = (member.store(), member.calls("Watch"));
    let watches: Vec<_> = (0..WATCHES).map(|_| watch(&store)).collect();
    let (asked, began) = (member.calls("Range"), Instant::now());
    thread::sleep(SILENCE);
    let asked = member.calls("Range") - asked;
    let most = began.elapsed().as_secs() + 1;

    let revision = write(protocol, &[member]);
    for (_, told) in &watches {
        hear(told, &mut { Revision::NEVER }, revision);
    }
    (asked, most, member.calls("Watch") - begun)
}

fn leaves_no_silent_member_that_is_well(protocol: EtcdProtocol) {
    let Some(member) = Member::start(protocol, &[]) else {
        return;
    };
    let is_well = |it: &(u64, u64, u64)| (2..=it.1).contains(&it.0) && it.2 == WATCHES;
    let tries: Vec<_> = (0..TRIES)
        .map(|_| asked_of_silent(protocol, &member))
        .take_while(|it| !is_well(it))
        .collect();
    assert!(tries.len() < TRIES, "asked, at most, watches: {tries:?}");
}

/// A member answers a transaction that only compares from its own data, unless it is made to ask. Others may have been
/// told more.
fn compares_by_what_most_members_have(protocol: EtcdProtocol) {
    let Some(members) = Member::start_cluster(protocol, 3) else {
        return;
    };
    let [first, second, third] = &members[..] else {
        panic!("three began");
    };
    let revision = write(protocol, &[first]);
    let store = store_in(&[&third.endpoint], SHORT, protocol);
    let compared = || store.make(Transaction::new().compare("a", revision));
    let is_made = |it: &Result<Outcome, WriteError>| matches!(it, Ok(Outcome::Made(_)));
    let await_made = || {
        let end = Instant::now() + SOON;
        while !is_made(&compared()) {
            assert!(Instant::now() < end, "no member answers");
        }
    };
    await_made();
    first.stop();
    second.stop();
    let alone = compared();
    first.go_on();
    second.go_on();
    assert!(!is_made(&alone), "{alone:?}");
    await_made();
}
