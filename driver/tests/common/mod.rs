//! Helpers for tests of the driver: work that waits for its answer, and a store that doesn't tell all outcomes.
#![allow(dead_code)]
pub mod cluster;
pub mod counting;
pub mod handing;
pub mod late;
pub mod withheld;

use durkenzo_driver::{
    Begin, ControlCommand, Durable, DurableControl, Key, MapReply, MapRequest, NotDone,
    ShardOptions, Work, WorkStep,
};
use durkenzo_store::{Done, Store, Transaction, WriteError};
use handing::{Handed, Handing};
use std::sync::atomic::{AtomicU64, Ordering};
use std::sync::mpsc::{self, Receiver, Sender};
use std::sync::Arc;
use std::time::Duration;

pub type Told = Result<Vec<MapReply>, NotDone>;

/// Returns a change's writes, from the values of its keys.
pub type Decide = Box<dyn FnMut(Vec<MapReply>) -> Vec<MapRequest> + Send>;

struct Asking {
    decide: Option<Decide>,
    tell: Sender<Told>,
}

impl Work for Asking {
    fn decide(&mut self, held: Vec<MapReply>) -> Vec<MapRequest> {
        self.decide.as_mut().map_or_else(Vec::new, |it| it(held))
    }

    fn is_wanted(&self) -> bool {
        true
    }

    fn spell(&self) -> Vec<u8> {
        Vec::new()
    }

    fn answered(self: Box<Self>, _answer: &[u8]) {}

    fn end(self: Box<Self>, outcome: Told) {
        let _ = self.tell.send(outcome);
    }
}

/// Returns a step, and the receiver of its outcome.
pub fn step(begin: Begin, decide: Option<Decide>) -> (WorkStep, Receiver<Told>) {
    let (tell, told) = mpsc::channel();
    let work = Box::new(Asking { decide, tell });
    (WorkStep { begin, work }, told)
}

/// Returns the outcome of work that is submitted by itself.
pub fn ask(durable: &Durable, shard: u16, begin: Begin, decide: Option<Decide>) -> Told {
    let (step, told) = step(begin, decide);
    durable.submit(shard, vec![step]);
    told.recv_timeout(Duration::from_secs(60))
        .expect("an answer")
}

pub fn write(durable: &Durable, shard: u16, requests: Vec<MapRequest>) -> Told {
    ask(durable, shard, Begin::Write(requests), None)
}

pub fn add(durable: &Durable, shard: u16, key: &[u8], amount: i64) -> Told {
    write(durable, shard, vec![MapRequest::Add(key.into(), amount)])
}

/// Returns the value of the key.
pub fn held(durable: &Durable, shard: u16, key: &[u8]) -> Told {
    ask(durable, shard, Begin::Read(vec![Key::from(key)]), None)
}

/// Opens shards of the store. Work waits longer than a busy machine takes.
pub fn opened(store: &Arc<dyn Store>, shards: u16) -> Durable {
    let shard_options = ShardOptions {
        wait: Duration::from_secs(45),
        most_batches: 7,
        ..ShardOptions::default()
    };
    Durable::open(store.clone(), shards, shard_options, Box::new(|| {})).expect("shards")
}

/// Returns a line of settings with so many shards, and two servers.
pub fn line(shards: u16) -> String {
    line_of(shards, 2)
}

/// Returns a line of settings with so many shards and servers.
pub fn line_of(shards: u16, servers: u16) -> String {
    let bounds: Vec<_> = (0..shards)
        .map(|it| format!("\"{}\"", "x".repeat(it.into())))
        .collect();
    let servers: Vec<_> = (1..=servers)
        .map(|it| format!(r#"{{"id":{it},"domain":{},"capacity":99}}"#, it - 1))
        .collect();
    let rows = vec![r#"{"group":0,"load":1,"cap":1}"#; shards.into()];
    format!(
        r#"{{"version":1,"bounds":[{}],"servers":[{}],"groups":[{{"limit":99,"down":99}}],"shards":[{}],"ops":1,"kept":9,"ceiling":9999999,"workers":1}}"#,
        bounds.join(","),
        servers.join(","),
        rows.join(",")
    )
}

/// Returns the control of these shards. Server 1 owns those that had no owner.
pub fn led(durable: &Arc<Durable>) -> DurableControl {
    let shards = durable.shards();
    let mut control = DurableControl::lead(durable.clone(), &line(shards)).expect("a control");
    for shard in 0..shards {
        // A shard that has an owner keeps it.
        let _ = control.command(ControlCommand::Assign(shard, 1));
    }
    control
}

/// A store that often doesn't tell the outcome of a transaction, whether it was made or not.
pub struct Uncertain<S> {
    store: S,
    /// Every so many transactions, one is such.
    every: u64,
    count: AtomicU64,
}

impl<S> Uncertain<S> {
    pub fn new(store: S, every: u64) -> Handed<Uncertain<S>> {
        let count = AtomicU64::new(0);
        Handed(Uncertain {
            store,
            every,
            count,
        })
    }
}

impl<S: Store> Handing for Uncertain<S> {
    fn store(&self) -> &dyn Store {
        &self.store
    }

    fn submit(&self, transaction: Transaction, done: Done) {
        let count = self.count.fetch_add(1, Ordering::Relaxed);
        // The outcomes of elections, and of the beginning of a process, are told.
        let is_batch = transaction
            .puts
            .iter()
            .any(|it| it.key.starts_with(b"head/"));
        if !is_batch || count % self.every != 0 {
            return self.store.submit(transaction, done);
        }
        let unknown = || Err(WriteError::Unknown("a test".to_owned()));
        if count / self.every % 2 == 0 {
            return done(unknown());
        }
        self.store
            .submit(transaction, Box::new(move |_| done(unknown())));
    }
}
