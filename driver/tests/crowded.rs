//! A shard keeps the last requests of all processes that began since the first one that is there. If these are as many
//! as it keeps, it takes no others, but takes them again once that process has ended. A process that goes on takes
//! another number before that.
mod common;

use common::cluster::{campaign, until, Net, Node};
use common::{add, ask, held, step, write};
use durkenzo_driver::{
    keys, Begin, ControlCommand, DurableControl, MapReply, MapRequest, NotDone, Numbered,
};
use durkenzo_store::{Embedded, Store};
use std::sync::atomic::Ordering;
use std::sync::mpsc::channel;
use std::sync::Arc;
use std::thread;
use std::time::Duration;

/// How many requests a process writes at once. It leaves as many clients.
const REQUESTS: usize = 4_096;
/// So many processes leave as many clients as a shard keeps.
const FULL: usize = 32;

/// The key at which server 1 tells the first number by which it still has requests.
const LOWEST: &[u8] = b"lowest/00001";

struct Cluster {
    store: Arc<dyn Store>,
    net: Arc<Net>,
    first: Node,
    control: DurableControl,
}

impl Cluster {
    /// Starts a process with server 1, which goes on, while this server owns the shard.
    fn begin(owner: u16) -> Cluster {
        let store: Arc<dyn Store> = Arc::new(Embedded::in_memory());
        let net = Arc::new(Net::default());
        let first = net.start(&store, 1, 1, |line| Arc::new(line));
        let mut control = campaign(&first);
        control
            .command(ControlCommand::Assign(0, owner))
            .expect("an owner of the shard");
        Cluster {
            store,
            net,
            first,
            control,
        }
    }

    /// Returns how many processes have begun and how many numbers were taken, in all.
    fn begun(&self) -> u64 {
        let read = self.store.read(&[keys::PROCESS]).expect("a reading");
        let told = read.get(keys::PROCESS).expect("a number");
        let told = std::str::from_utf8(&told.value).expect("digits");
        told.parse().expect("a number")
    }

    /// Returns the first number by which server 1 still has requests, if it has told one.
    fn lowest(&self) -> Option<u64> {
        let read = self.store.read(&[LOWEST]).expect("a reading");
        let (_, number) = read.get(LOWEST)?.value.split_last_chunk()?;
        Some(u64::from_be_bytes(*number))
    }

    fn start(&self, server: u16) -> Node {
        self.net
            .start(&self.store, server, 1, |line| Arc::new(line))
    }

    /// Starts a process with server 2, which makes writes and ends. Returns whether they were made.
    fn writes_anew(&self) -> Result<Vec<MapReply>, NotDone> {
        let node = self.start(2);
        let key = |at: usize| format!("k{at}").into_bytes().into();
        let told = write(
            &node.durable,
            0,
            (0..REQUESTS)
                .map(|at| MapRequest::Add(key(at), 1))
                .collect(),
        );
        end(&node);
        told
    }
}

fn end(node: &Node) {
    node.durable.member().expect("a member").leave();
    node.durable.stop();
}

#[test]
fn takes_writes_again_once_all_processes_began_again() {
    let cluster = Cluster::begin(2);
    // It sees no others begin.
    cluster.first.is_deaf.store(true, Ordering::Release);
    for count in 0..FULL {
        let told = cluster.writes_anew();
        assert!(told.is_ok(), "after {count}: {told:?}");
    }
    let node = cluster.start(2);
    let numbered = Numbered {
        client: 1,
        number: 1,
    };
    let begin = Begin::Numbered(numbered, vec![MapRequest::Add(b"k0"[..].into(), 1)]);
    // It waits for nothing.
    assert_eq!(
        ask(&node.durable, 0, begin, None),
        Err(NotDone::TooManyClients)
    );
    assert!(node.durable.clients_kept() >= FULL * REQUESTS);
    end(&node);
    end(&cluster.first);
    let Cluster {
        store,
        net,
        first,
        control,
    } = cluster;
    drop((first, control));
    let node = net.start(&store, 2, 1, |line| Arc::new(line));
    let count = vec![MapReply::Count(FULL as i64 + 1)];
    assert_eq!(add(&node.durable, 0, b"k0", 1), Ok(count.clone()));
    assert_eq!(held(&node.durable, 0, b"k0"), Ok(count));
    assert_eq!(node.durable.clients_kept(), 1);
}

#[test]
fn takes_writes_while_a_process_goes_on() {
    let cluster = Cluster::begin(2);
    for count in 0..FULL + 8 {
        let told = cluster.writes_anew();
        assert!(told.is_ok(), "after {count}: {told:?}");
    }
}

#[test]
fn keeps_a_number_while_a_round_has_it() {
    let cluster = Cluster::begin(1);
    let ((enter, entered), (release, released)) = (channel(), channel());
    let withholds = move || {
        enter.send(()).expect("a test");
        released.recv().expect("a test");
    };
    *cluster.first.meanwhile.lock().unwrap() = Some(Box::new(withholds));
    let begin = Begin::Write(vec![MapRequest::Add(b"k0"[..].into(), 1)]);
    let (step, told) = step(begin, None);
    cluster.first.durable.submit(0, vec![step]);
    entered.recv().expect("a transaction");
    for _ in 0..9 {
        end(&cluster.start(2));
    }
    let taken = 1 + cluster.first.durable.process() + 9;
    until("a number is taken", || cluster.begun() >= taken);
    // It looks each second.
    thread::sleep(Duration::from_secs(2));
    assert_eq!(cluster.lowest(), None);
    let member = cluster.first.durable.member().expect("a member");
    until("it keeps what ten left", || member.processes_kept() == 10);
    release.send(()).expect("a transaction");
    let told = told.recv_timeout(Duration::from_secs(60));
    assert_eq!(told, Ok(Ok(vec![MapReply::Count(1)])));
    until("it tells its number", || cluster.lowest() == Some(taken));
    until("it keeps what one left", || member.processes_kept() == 1);
    assert_eq!(
        add(&cluster.first.durable, 0, b"k0", 1),
        Ok(vec![MapReply::Count(2)])
    );
}
