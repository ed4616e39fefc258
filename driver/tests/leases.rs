//! Reads that are answered by a lease, without a transaction. They are never more out of date than the length of the
//! lease.
mod common;

use common::cluster::{
    assign, campaign, fail, kill, settle, soon, until, Net, Node, LEASE, PATIENCE,
};
use common::{add, ask, held, step, Told};
use durkenzo_driver::{
    Addresses, Begin, ControlCommand, DurableControl, Key, MapReply, MapRequest, Member, NotDone,
    Reads,
};
use durkenzo_store::{Embedded, Store, Transaction};
use std::sync::atomic::Ordering;
use std::sync::{mpsc, Arc};
use std::time::{Duration, Instant};

/// The length of leases if a test waits for their end. It is longer than a busy machine stops a process.
const SHORT_LEASE: Duration = Duration::from_secs(10);

/// Makes three processes, each of which owns a shard, and the leader's control.
fn three(reads: Reads, lease: Duration) -> (Vec<Node>, DurableControl) {
    let store: Arc<dyn Store> = Arc::new(Embedded::in_memory());
    let nodes = Net::new(reads, lease).start_three(&store, 3);
    let mut control = campaign(&nodes[2]);
    assign(&mut control, 3);
    for node in &nodes {
        add(&node.durable, 0, b"a", 1).unwrap();
    }
    (nodes, control)
}

/// Moves shard 0 to the second process, as far as nobody needs to have seen it. Processes whose watches are silent ack,
/// although they still use the record before.
fn take(control: &mut DurableControl, nodes: &[Node]) {
    for step in [
        ControlCommand::PrepareAddShard(0, 2),
        ControlCommand::PrepareDropShard(0),
        ControlCommand::AddShard(0),
    ] {
        soon(control, step);
        let generation = control.record(0).unwrap().unwrap().generation;
        for node in nodes {
            node.durable.member().unwrap().ack(0, generation);
        }
    }
}

fn is_count(told: Told, count: i64) -> bool {
    told == Ok(vec![MapReply::Count(count)])
}

/// Returns how many transactions the process makes while it answers so many reads, each with this count.
fn transactions(node: &Node, reads: usize, count: i64) -> usize {
    let before = node.sent.load(Ordering::Relaxed);
    for _ in 0..reads {
        assert!(is_count(held(&node.durable, 0, b"a"), count));
    }
    node.sent.load(Ordering::Relaxed) - before
}

#[test]
fn reads_are_answered_without_a_transaction() {
    let (nodes, mut control) = three(Reads::Lease, LEASE);
    assert!(transactions(&nodes[0], 500, 3) <= 2);
    // It knows its own writes, and others have their reads answered by it.
    for (number, node) in nodes.iter().enumerate() {
        let count = 4 + number as i64;
        assert!(is_count(add(&node.durable, 0, b"a", 1), count));
        let before = nodes[0].durable.read_by_lease();
        assert!(transactions(node, 200, count) <= 2);
        assert!(nodes[0].durable.read_by_lease() - before >= 198);
    }
    let counted = ask(&nodes[1].durable, 0, Begin::Count, None);
    assert!(is_count(counted, 1));
    take(&mut control, &nodes);
    settle(&mut control, 0);
    assert!(transactions(&nodes[0], 100, 6) == 0);
    assert!(nodes[1].durable.read_by_lease() >= 98);
}

#[test]
fn exact_reads_are_transactions_each() {
    let (nodes, _control) = three(Reads::Exact, LEASE);
    assert!(transactions(&nodes[0], 50, 3) >= 50);
    assert_eq!(nodes[0].durable.read_by_lease(), 0);
}

#[test]
fn a_server_that_sees_no_change_tells_what_is_stale_for_no_longer_than_a_lease() {
    let (nodes, mut control) = three(Reads::Lease, SHORT_LEASE);
    transactions(&nodes[0], 2, 3);
    nodes[0].is_deaf.store(true, Ordering::Release);
    take(&mut control, &nodes);
    let written = Instant::now();
    assert!(is_count(add(&nodes[1].durable, 0, b"a", 1), 4));
    // It answers from its memory, until it must ask the store.
    let mut stale = 0;
    loop {
        let after = written.elapsed();
        if is_count(held(&nodes[0].durable, 0, b"a"), 4) {
            break;
        }
        stale += 1;
        assert!(after < SHORT_LEASE, "it is stale after {after:?}");
    }
    assert!(stale > 0);
}

/// Its key has 3. The change decides so from everything that a server knows that has missed the writes since.
#[test]
fn a_change_that_writes_nothing_is_decided_by_what_is_there() {
    let (nodes, mut control) = three(Reads::Lease, LEASE);
    transactions(&nodes[0], 2, 3);
    nodes[0].is_deaf.store(true, Ordering::Release);
    take(&mut control, &nodes);
    assert!(is_count(add(&nodes[1].durable, 0, b"a", 1), 4));
    let (tell, seen) = mpsc::channel();
    let decide = move |held: Vec<MapReply>| {
        let [MapReply::Count(count)] = held[..] else {
            panic!("{held:?}");
        };
        let _ = tell.send(count);
        match count {
            3 => Vec::new(),
            other => vec![MapRequest::Add(Key::from(&b"a"[..]), 3 - other)],
        }
    };
    let begin = Begin::Change(vec![Key::from(&b"a"[..])]);
    let told = ask(&nodes[0].durable, 0, begin, Some(Box::new(decide)));
    assert!(is_count(told, 3));
    assert_eq!(seen.try_iter().last(), Some(4));
    assert!(is_count(held(&nodes[1].durable, 0, b"a"), 3));
}

#[test]
fn a_server_past_its_lease_tells_nothing() {
    let (nodes, mut control) = three(Reads::Lease, SHORT_LEASE);
    transactions(&nodes[0], 2, 3);
    kill(&nodes[0]);
    assert!(is_count(held(&nodes[0].durable, 0, b"a"), 3));
    fail(&mut control, 1);
    control.command(ControlCommand::Pause(0)).unwrap();
    control.command(ControlCommand::Reassign(0, 2)).unwrap();
    assert!(is_count(add(&nodes[1].durable, 0, b"a", 1), 4));
    let told = held(&nodes[0].durable, 0, b"a");
    assert!(
        matches!(
            told,
            Err(NotDone::NotMade(_) | NotDone::Unread | NotDone::Unknown(_))
        ),
        "{told:?}"
    );
}

#[test]
fn a_read_sees_the_change_before_it_of_its_client() {
    let (nodes, _control) = three(Reads::Lease, LEASE);
    transactions(&nodes[0], 2, 3);
    for count in 4..54 {
        let decide = |_: Vec<MapReply>| vec![MapRequest::Add(Key::from(&b"a"[..]), 1)];
        let keys = || vec![Key::from(&b"a"[..])];
        let (change, changed) = step(Begin::Change(keys()), Some(Box::new(decide)));
        let (read, told) = step(Begin::Read(keys()), None);
        nodes[0].durable.submit(0, vec![change, read]);
        assert!(is_count(changed.recv().unwrap(), count));
        assert!(is_count(told.recv().unwrap(), count), "{count}");
    }
}

#[test]
fn a_member_may_be_dropped_by_what_its_store_tells() {
    let store: Arc<dyn Store> = Arc::new(Embedded::in_memory());
    let member = Member::join(
        store.clone(),
        1,
        Addresses::default(),
        LEASE,
        Box::new(|| {}),
    )
    .unwrap();
    let (tell, told) = mpsc::channel();
    let done = move |_| {
        drop(member);
        let _ = tell.send(());
    };
    store.submit(Transaction::new().put("a", "1"), Box::new(done));
    assert!(told.recv_timeout(PATIENCE).is_ok());
    let is_left = || store.read_all(b"server/").unwrap().pairs.is_empty();
    until("it leaves all the same", is_left);
}
