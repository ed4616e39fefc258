//! The excuses for lost bodies. A body may be lost if the process that had it ended or failed, if another process
//! joined as its server, or if somebody gave the paused shard away.
use super::book::Loss;
use crate::reading::{self, DecodedRecord};
use crate::simulated_store::SimulatedStore;
use durkenzo_driver::ServerState;
use std::collections::BTreeMap;
use std::time::Duration;

/// The phase of a record under which nobody executes.
const PAUSED: u64 = 5;

/// The excuses for lost bodies, as they were seen in the store.
#[derive(Debug, Default)]
pub struct Excuses {
    /// For each process, the last time at which it ended, was declared failed, or was found replaced by another process
    /// of its server.
    shaken: BTreeMap<u64, Duration>,
    /// For each shard, the last time at which it was given to another server while it was paused, by a command that
    /// names that server.
    given: BTreeMap<u16, Duration>,
    /// The revision up to which the store was looked at.
    looked: u64,
}

impl Excuses {
    /// Returns whether the store was looked at up to this revision.
    pub fn has_looked(&self, revision: u64) -> bool {
        self.looked == revision
    }

    /// Notes that the store was looked at up to this revision.
    pub fn note_looked(&mut self, revision: u64) {
        self.looked = revision;
    }

    /// Notes that a process has ended.
    pub fn note_end(&mut self, life: u64, now: Duration) {
        self.shaken.insert(life, now);
    }

    /// Notes if this process of the server was declared failed, or if another process has joined as the server. If the
    /// process has only another lease of its own, it still has all that it had, so that is no excuse.
    pub fn look_at_process(
        &mut self,
        store: &SimulatedStore,
        (life, server, process): (u64, u16, u64),
        now: Duration,
    ) {
        let between = |key: String| store.between(key.as_bytes(), self.looked, store.revision());
        let there = between(format!("server/{server:05}")).into_iter().flatten();
        let mut others = there.filter_map(reading::process_of_server);
        let states = between(format!("state/{server:05}")).into_iter().flatten();
        let mut states = states.filter_map(reading::state);
        let has_failed = states.any(|it| it.0 == u64::from(ServerState::Failed.number()));
        if has_failed || others.any(|it| it != process) {
            self.shaken.insert(life, now);
        }
    }

    /// Notes if the shard was given away while it was paused. Its owner is still there then, but nobody takes the body
    /// from it.
    pub fn look_at_shard(&mut self, store: &SimulatedStore, shard: u16, now: Duration) {
        let key = format!("record/{shard:05}");
        let stood = store.between(key.as_bytes(), self.looked, store.revision());
        let stood = stood.into_iter().flatten().filter_map(DecodedRecord::of);
        let stood: Vec<_> = stood.collect();
        let is_given = |it: &[DecodedRecord]| it[0].phase == PAUSED && it[0].owner != it[1].owner;
        if stood.windows(2).any(is_given) {
            self.given.insert(shard, now);
        }
    }

    /// Returns whether the loss has an excuse. It must be about the shard, or about a process that had the lost calls,
    /// and must be no older than the time at which that process got them.
    pub fn excuse(&self, loss: &Loss) -> bool {
        let given = self.given.get(&loss.made.shard);
        loss.holders.iter().any(|(life, since)| {
            let reasons = [self.shaken.get(life), given];
            reasons.into_iter().flatten().any(|it| it >= since)
        })
    }
}
