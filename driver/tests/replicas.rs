//! The readings of a server: all of a shard once, and then only the batches that it lacks.
mod common;

use common::cluster::{campaign, kill, settle, soon, until, Net, Node};
use common::counting::{Counting, Counts, Loss};
use common::{add, held, write};
use durkenzo_driver::{ControlCommand, DurableControl, MapReply, MapRequest, Next};
use durkenzo_store::{Embedded, Store};
use std::sync::atomic::{AtomicBool, Ordering};
use std::sync::{Arc, Mutex};
use std::thread;
use std::time::{Duration, Instant};

/// The least number of batches that a log gets before a base replaces them.
const BATCHES: i64 = 50;
/// So many batches more get no base of their own.
const FEW: i64 = 10;

/// Three processes over one store, a control, and the readings of each process.
struct Trio {
    store: Arc<dyn Store>,
    nodes: Vec<Node>,
    counts: Vec<Arc<Counts>>,
    control: DurableControl,
}

impl Trio {
    /// Makes three whose shard is owned by server 1. The reading of each page takes so long.
    fn new(page: Duration) -> Trio {
        let store: Arc<dyn Store> = Arc::new(Embedded::in_memory());
        let (net, mut nodes, mut counts) = (Arc::new(Net::default()), Vec::new(), Vec::new());
        for server in 1..=3 {
            let count = Arc::new(Counts::default());
            let by = |line| Arc::new(Counting::over(line, &count, page)) as Arc<dyn Store>;
            nodes.push(net.start(&store, server, 1, by));
            counts.push(count);
        }
        let mut control = campaign(&nodes[2]);
        control.command(ControlCommand::Assign(0, 1)).unwrap();
        Trio {
            store,
            nodes,
            counts,
            control,
        }
    }

    /// Does the same, with a base, and `BATCHES` as the count of the key.
    fn with_base() -> Trio {
        let trio = Trio::new(Duration::ZERO);
        (0..BATCHES).for_each(|_| drop(add(&trio.nodes[0].durable, 0, b"a", 1).unwrap()));
        trio.await_base();
        trio
    }

    /// Waits until a base is named, and the batches that it replaced are deleted.
    fn await_base(&self) {
        until("a base is made", || {
            let parts = self.store.read_all(b"base/").unwrap().pairs.len();
            let batches = self.store.read_all(b"batch/").unwrap().pairs.len();
            parts > 0 && batches < BATCHES as usize / 2
        });
    }

    /// Adds to the key at the server's process, which answers this new value.
    fn adds(&self, server: usize, holds: i64) {
        adds(&self.nodes[server - 1], holds);
    }

    /// Moves the shard to the server, after the server has read the shard if it may do so before.
    fn moves_to(&mut self, server: u16) {
        let (change, counts) = (
            ControlCommand::PrepareAddShard(0, server),
            self.counts[usize::from(server) - 1].clone(),
        );
        let heads = counts.heads();
        self.control.command(change).unwrap();
        until("the next owner reads", || counts.heads() > heads);
    }

    /// Waits until the control goes on because the next owner is prepared.
    fn is_prepared(&mut self) {
        let goes_on = Next::Command(ControlCommand::PrepareDropShard(0));
        until("the next owner is prepared", || {
            self.control.next_of_shard(0).unwrap() == goes_on
        });
    }
}

/// Adds to the key at the process, which answers this new value.
fn adds(node: &Node, holds: i64) {
    let told = add(&node.durable, 0, b"a", 1);
    assert_eq!(told, Ok(vec![MapReply::Count(holds)]));
}

#[test]
fn a_transaction_that_is_lost_costs_no_base() {
    let trio = Trio::with_base();
    trio.adds(1, BATCHES + 1);
    let (parts, batches) = (trio.counts[0].parts(), trio.counts[0].batches());
    let control = Arc::new(Mutex::new(trio.control));
    let change = control.clone();
    *trio.nodes[0].meanwhile.lock().unwrap() = Some(Box::new(move || {
        let prepare = ControlCommand::PrepareAddShard(0, 2);
        change.lock().unwrap().command(prepare).unwrap();
    }));
    let told = add(&trio.nodes[0].durable, 0, b"a", 1);
    assert_eq!(told, Ok(vec![MapReply::Count(BATCHES + 2)]));
    assert_eq!(trio.counts[0].parts(), parts);
    assert_eq!(trio.counts[0].batches(), batches);
}

#[test]
fn what_is_unknown_is_told_once_and_costs_no_base() {
    let trio = Trio::with_base();
    let parts = trio.counts[0].parts();
    let mut holds = BATCHES;
    for loss in [Loss::Made, Loss::NotMade, Loss::Made] {
        let batches = trio.counts[0].batches();
        trio.counts[0].lose(loss);
        holds += 1;
        trio.adds(1, holds);
        let read = usize::from(loss == Loss::Made);
        assert_eq!(trio.counts[0].batches(), batches + read, "{loss:?}");
    }
    assert_eq!(trio.counts[0].parts(), parts);
}

#[test]
fn a_store_that_does_not_answer_for_a_while_costs_no_base() {
    let trio = Trio::with_base();
    let parts = trio.counts[0].parts();
    trio.counts[0].is_down.store(true, Ordering::Release);
    trio.counts[0].lose(Loss::Made);
    thread::scope(|scope| {
        let (node, counts) = (&trio.nodes[0], &trio.counts[0]);
        scope.spawn(|| adds(node, BATCHES + 1));
        let heads = counts.heads();
        until("it reads", || counts.heads() > heads + 1);
        counts.is_down.store(false, Ordering::Release);
    });
    assert_eq!(trio.counts[0].parts(), parts);
}

#[test]
fn a_record_that_changes_costs_nothing() {
    let mut trio = Trio::with_base();
    let (heads, parts) = (trio.counts[0].heads(), trio.counts[0].parts());
    for _ in 0..3 {
        trio.control.command(ControlCommand::Pause(0)).unwrap();
        trio.control.command(ControlCommand::Resume(0)).unwrap();
    }
    let revision = trio.store.read(&[b"record/00000"]).unwrap().pairs[0].revision;
    until("the record is seen", || {
        let seen = trio.nodes[0].durable.standing(0);
        seen.is_some_and(|it| it.revision() == revision)
    });
    trio.adds(1, BATCHES + 1);
    assert_eq!(trio.counts[0].heads(), heads);
    assert_eq!(trio.counts[0].parts(), parts);
}

#[test]
fn the_next_owner_reads_before_it_executes() {
    let mut trio = Trio::with_base();
    trio.moves_to(2);
    until("the base is read", || trio.counts[1].parts() > 0);
    let parts = trio.counts[1].parts();
    // The owner executes, whichever process is asked.
    trio.adds(2, BATCHES + 1);
    trio.adds(1, BATCHES + 2);
    settle(&mut trio.control, 0);
    trio.adds(2, BATCHES + 3);
    trio.adds(1, BATCHES + 4);
    assert_eq!(trio.counts[1].parts(), parts);
}

#[test]
fn the_owner_executes_until_the_next_owner_has_read() {
    let mut trio = Trio::with_base();
    trio.counts[1].is_down.store(true, Ordering::Release);
    trio.moves_to(2);
    // Nobody asks it for the shard, and it reads again all the same.
    let heads = trio.counts[1].heads();
    until("it reads again", || trio.counts[1].heads() > heads + 1);
    assert_eq!(trio.control.next_of_shard(0).unwrap(), Next::Waits);
    trio.adds(1, BATCHES + 1);
    assert_eq!(trio.control.next_of_shard(0).unwrap(), Next::Waits);
    trio.counts[1].is_down.store(false, Ordering::Release);
    trio.is_prepared();
    let parts = trio.counts[1].parts();
    assert!(parts > 0);
    settle(&mut trio.control, 0);
    trio.adds(2, BATCHES + 2);
    assert_eq!(trio.counts[1].parts(), parts);
}

#[test]
fn the_next_owner_reads_what_is_written_since_before_anybody_asks_it() {
    let mut trio = Trio::with_base();
    trio.moves_to(2);
    trio.is_prepared();
    let parts = trio.counts[1].parts();
    let batches = trio.counts[1].batches();
    (1..=9).for_each(|more| trio.adds(1, BATCHES + more));
    until("it reads", || trio.counts[1].batches() == batches + 9);
    assert_eq!(trio.counts[1].parts(), parts);
}

/// The transaction of a killed member has an unknown outcome, and for a while nothing is read.
#[test]
fn a_killed_member_costs_the_next_owner_no_base() {
    let mut trio = Trio::with_base();
    trio.moves_to(2);
    trio.is_prepared();
    let counts = trio.counts[..2].to_vec();
    let parts: Vec<_> = counts.iter().map(|it| it.parts()).collect();
    let set_down = |is_down| {
        let each = counts.iter();
        each.for_each(|it| it.is_down.store(is_down, Ordering::Release));
    };
    set_down(true);
    counts[0].lose(Loss::Made);
    thread::scope(|scope| {
        let node = &trio.nodes[0];
        scope.spawn(|| adds(node, BATCHES + 1));
        let heads: Vec<_> = counts.iter().map(|it| it.heads()).collect();
        until("both read", || {
            let mut each = counts.iter().zip(&heads);
            each.all(|(it, heads)| it.heads() > heads + 1)
        });
        set_down(false);
    });
    for more in 2..=FEW {
        trio.adds(1, BATCHES + more);
    }
    settle(&mut trio.control, 0);
    trio.adds(2, BATCHES + FEW + 1);
    let after: Vec<_> = counts.iter().map(|it| it.parts()).collect();
    assert_eq!(after, parts);
}

#[test]
fn the_next_owner_reads_the_base_if_what_it_lacks_is_gone() {
    let mut trio = Trio::with_base();
    trio.moves_to(2);
    trio.is_prepared();
    let parts = trio.counts[1].parts();
    trio.counts[1].is_down.store(true, Ordering::Release);
    for more in 1..=BATCHES {
        trio.adds(1, BATCHES + more);
    }
    trio.nodes[0].durable.compact().unwrap();
    trio.await_base();
    trio.counts[1].is_down.store(false, Ordering::Release);
    settle(&mut trio.control, 0);
    trio.adds(2, 2 * BATCHES + 1);
    assert!(trio.counts[1].parts() > parts);
}

/// How many texts the large shard has, and of how many bytes: about 20 MiB.
const TEXTS: usize = 320;
const BYTES: usize = 65_000;
/// How long the reading of each page of the large shard takes.
const PAGE: Duration = Duration::from_millis(60);

fn text(number: usize) -> MapRequest {
    MapRequest::Put(format!("t{number}").as_bytes().into(), vec![b'x'; BYTES])
}

/// Returns how long the process takes to answer the value of the key.
fn waits(node: &Node) -> Duration {
    let asked = Instant::now();
    assert!(matches!(
        held(&node.durable, 0, b"t0").as_deref(),
        Ok([MapReply::Text(_)])
    ));
    asked.elapsed()
}

/// A server that has read the shard early waits for the batches that were written since. A server that hasn't waits for
/// all of it.
#[test]
fn a_large_shard_moves_without_a_wait() {
    let mut trio = Trio::new(PAGE);
    let durable = trio.nodes[0].durable.clone();
    for first in (0..TEXTS).step_by(20) {
        let texts = (first..first + 20).map(text).collect();
        write(&durable, 0, texts).unwrap();
    }
    durable.compact().unwrap();
    let parts = trio.store.read_all(b"base/").unwrap().pairs.len();
    trio.moves_to(2);
    trio.is_prepared();
    assert!(trio.counts[1].parts() >= parts);
    let is_over = AtomicBool::new(false);
    let warm = thread::scope(|scope| {
        let load = scope.spawn(|| {
            while !is_over.load(Ordering::Acquire) {
                add(&durable, 0, b"a", 1).unwrap();
            }
        });
        settle(&mut trio.control, 0);
        let warm = waits(&trio.nodes[1]);
        is_over.store(true, Ordering::Release);
        load.join().unwrap();
        warm
    });
    // Server 1 is gone when its shard comes back to server 3, which has read nothing.
    kill(&trio.nodes[0]);
    trio.control.command(ControlCommand::Pause(0)).unwrap();
    soon(&mut trio.control, ControlCommand::Reassign(0, 3));
    let cold = waits(&trio.nodes[2]);
    assert!(2 * warm < cold, "{warm:?} and {cold:?}");
}
