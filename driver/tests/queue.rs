//! Work that waits for a shard: it has a bound, each client has its turn, and work for which nobody waits is dropped.
mod common;

use common::handing::{Handed, Handing};
use common::{add, held, led, opened, step};
use durkenzo_driver::{
    Begin, ControlCommand, Durable, Key, MapReply, MapRequest, NotDone, Work, WorkOutcome, WorkStep,
};
use durkenzo_store::{Done, Embedded, Store, Transaction};
use std::sync::atomic::{AtomicBool, Ordering};
use std::sync::mpsc::{Receiver, RecvError, RecvTimeoutError, TryRecvError};
use std::sync::{Arc, Mutex};
use std::thread;
use std::time::{Duration, Instant};

/// The most runs that wait at a shard, beside those in a round.
const MOST_RUNS: usize = 32_768;
const MOST_OF_A_ROUND: usize = 1_024;
/// The longest time that a test waits for something.
const PATIENCE: Duration = Duration::from_secs(60);

/// Returns an addition to this key.
fn addition(name: &str) -> Begin {
    Begin::Write(vec![MapRequest::Add(Key::from(name.as_bytes()), 1)])
}

/// Work for which somebody waits as long as this says so.
struct Awaited {
    work: Box<dyn Work>,
    is_wanted: Arc<AtomicBool>,
}

impl Work for Awaited {
    fn decide(&mut self, held: Vec<MapReply>) -> Vec<MapRequest> {
        self.work.decide(held)
    }

    fn is_wanted(&self) -> bool {
        self.is_wanted.load(Ordering::Acquire)
    }

    fn spell(&self) -> Vec<u8> {
        self.work.spell()
    }

    fn answered(self: Box<Self>, answer: &[u8]) {
        self.work.answered(answer);
    }

    fn end(self: Box<Self>, outcome: WorkOutcome) {
        self.work.end(outcome);
    }
}

/// Returns the step that is wanted as long as this says so.
fn awaited(
    begin: Begin,
    is_wanted: &Arc<AtomicBool>,
) -> (WorkStep, Receiver<Result<Vec<MapReply>, NotDone>>) {
    let (WorkStep { begin, work }, told) = step(begin, None);
    let is_wanted = is_wanted.clone();
    let work = Box::new(Awaited { work, is_wanted });
    (WorkStep { begin, work }, told)
}

#[test]
fn what_nobody_waits_for_any_more_is_dropped() {
    let store: Arc<dyn Store> = Arc::new(Embedded::in_memory());
    let durable = Arc::new(opened(&store, 1));
    let mut control = led(&durable);
    add(&durable, 0, b"a", 1).unwrap();
    control.command(ControlCommand::Pause(0)).unwrap();
    let is_wanted = [true, false, true].map(|it| Arc::new(AtomicBool::new(it)));
    let [gone, late] = [(); 2].map(|()| Arc::new(AtomicBool::new(true)));
    let (mut steps, mut told): (Vec<_>, Vec<_>) = is_wanted
        .iter()
        .map(|it| awaited(addition("a"), it))
        .unzip();
    let (last, of_last) = awaited(addition("a"), &gone);
    steps.push(last);
    durable.submit(0, steps);
    gone.store(false, Ordering::Release);
    // It is dropped while the shard is paused.
    let dropped = of_last.recv_timeout(PATIENCE);
    assert_eq!(dropped, Err(RecvTimeoutError::Disconnected));
    let (later, of_later) = awaited(addition("a"), &late);
    durable.submit(0, vec![later]);
    late.store(false, Ordering::Release);
    control.command(ControlCommand::Resume(0)).unwrap();
    assert_eq!(told.remove(2).recv().unwrap(), Ok(vec![MapReply::Count(3)]));
    assert_eq!(told.remove(0).recv().unwrap(), Ok(vec![MapReply::Count(2)]));
    assert_eq!(told.remove(0).try_recv(), Err(TryRecvError::Disconnected));
    assert_eq!(of_later.recv(), Err(RecvError));
    assert_eq!(held(&durable, 0, b"a"), Ok(vec![MapReply::Count(3)]));
}

#[test]
fn more_than_may_wait_is_refused_at_once() {
    let store: Arc<dyn Store> = Arc::new(Embedded::in_memory());
    let durable: Durable = opened(&store, 1);
    // The shard has no owner, so everything waits.
    let mut waits = Vec::new();
    let refused = loop {
        let (one, told) = step(addition("a"), None);
        durable.submit(0, vec![one]);
        match told.try_recv() {
            Ok(refused) => break refused,
            Err(_) => waits.push(told),
        }
    };
    assert_eq!(refused, Err(NotDone::Crowded));
    assert!((MOST_RUNS..=MOST_RUNS + MOST_OF_A_ROUND).contains(&waits.len()));
    assert_eq!(waits[0].try_recv(), Err(TryRecvError::Empty));
    durable.stop();
    assert!(waits
        .iter()
        .all(|it| it.recv() == Ok(Err(NotDone::Stopped))));
}

/// A store that withholds each transaction to a log until it is released.
struct Keeping {
    store: Arc<dyn Store>,
    is_armed: AtomicBool,
    kept: Mutex<Option<(Transaction, Done)>>,
}

impl Keeping {
    /// Makes the transaction that is withheld, or that will be.
    fn release(&self) {
        let end = Instant::now() + PATIENCE;
        while Instant::now() < end {
            if let Some((transaction, done)) = self.kept.lock().unwrap().take() {
                return self.store.submit(transaction, done);
            }
            thread::sleep(Duration::from_millis(1));
        }
        panic!("no transaction is kept back");
    }
}

impl Handing for Keeping {
    fn store(&self) -> &dyn Store {
        &*self.store
    }

    fn submit(&self, transaction: Transaction, done: Done) {
        let mut puts = transaction.puts.iter();
        let is_batch = puts.any(|it| it.key.starts_with(b"head/"));
        match is_batch && self.is_armed.load(Ordering::Acquire) {
            true => *self.kept.lock().unwrap() = Some((transaction, done)),
            false => self.store.submit(transaction, done),
        }
    }
}

#[test]
fn who_asks_for_little_waits_behind_nobody_who_asks_for_much() {
    let keeping = Arc::new(Handed(Keeping {
        store: Arc::new(Embedded::in_memory()),
        is_armed: AtomicBool::new(false),
        kept: Mutex::default(),
    }));
    let store: Arc<dyn Store> = keeping.clone();
    let durable = Arc::new(opened(&store, 1));
    let _control = led(&durable);
    add(&durable, 0, b"a", 1).unwrap();
    keeping.is_armed.store(true, Ordering::Release);
    let submit = |count| {
        let steps = (0..count).map(|_| step(addition("a"), None));
        let (steps, told): (Vec<_>, Vec<_>) = steps.unzip();
        durable.submit(0, steps);
        told
    };
    let _first = submit(1);
    // They fill more than six transactions.
    let much: Vec<_> = (0..50).map(|_| submit(128)).collect();
    let little = submit(1).remove(0);
    keeping.release();
    keeping.release();
    assert!(little.recv_timeout(PATIENCE).unwrap().is_ok());
    keeping.is_armed.store(false, Ordering::Release);
    keeping.release();
    for told in much.into_iter().flatten() {
        assert!(told.recv().unwrap().is_ok());
    }
    let sum = 1 + 1 + 50 * 128 + 1;
    assert_eq!(held(&durable, 0, b"a"), Ok(vec![MapReply::Count(sum)]));
}
