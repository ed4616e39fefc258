use crate::reading::{self, DecodedRecord};
use crate::simulated_store::{locked, SharedStore};
use std::sync::atomic::{AtomicBool, Ordering};
use std::sync::Arc;

/// A command of an operator.
#[derive(Debug)]
pub struct OperatorCommand {
    pub words: Vec<String>,
    /// The process that got the command.
    pub life: u64,
    /// The store's revision when the operator asked, and when the answer came, with the answer.
    pub since: u64,
    pub told: Option<(u64, String)>,
    /// Whether nobody can answer the command any more, because its process ended or dropped it.
    pub is_over: bool,
    pub is_awaited: Arc<AtomicBool>,
}

impl OperatorCommand {
    /// Returns whether the command is still to be answered.
    pub fn is_open(&self) -> bool {
        let is_awaited = self.is_awaited.load(Ordering::Relaxed);
        is_awaited && self.told.is_none() && !self.is_over
    }

    /// Returns whether the leader answered the command.
    pub fn is_led(&self) -> bool {
        let told = self.told.as_ref();
        told.is_some_and(|it| !it.1.starts_with("REFUSED NotLeader"))
    }

    /// Returns whether this restart was refused for good, although its server may still be stopped for it. If somebody
    /// else asked for a restart of the server by then, that one may go on, so this returns false.
    pub fn is_left(&self, all: &[OperatorCommand], store: &SharedStore) -> bool {
        let Some((at, told)) = self.told.as_ref() else {
            return false;
        };
        let is_refused =
            told.starts_with("REFUSED") && !UNJUDGED.iter().any(|it| told.starts_with(it));
        let asked = all
            .iter()
            .filter(|it| it.since <= *at && it.words == self.words);
        if self.words[1] != "RESTART" || !is_refused || asked.count() > 1 {
            return false;
        }
        let past = Past {
            store,
            since: *at,
            until: *at,
        };
        past.has_state(self.number(2).unwrap_or(0), APPROVED)
    }

    /// Returns the number in the word at this place, if it is one.
    fn number(&self, at: usize) -> Option<u16> {
        self.words.get(at).and_then(|it| it.parse().ok())
    }

    /// Returns whether the answer says that the command was done.
    pub fn is_done(&self) -> bool {
        let told = self.told.as_ref().map(|it| it.1.as_str());
        told.is_some_and(|it| !NOT_DONE.iter().any(|begin| it.starts_with(begin)))
    }

    /// Returns whether the answer was true at some moment between the command and the answer. If it doesn't say that
    /// the command was done, it counts as true.
    pub fn is_true(&self, store: &SharedStore) -> bool {
        let Some((at, told)) = self.told.as_ref().filter(|_| self.is_done()) else {
            return true;
        };
        let past = Past {
            store,
            since: self.since,
            until: *at,
        };
        let (first, second) = (self.number(2).unwrap_or(0), self.number(3).unwrap_or(0));
        match self.words[1].as_str() {
            "MIGRATE" | "REASSIGN" => past.has_record(first, |it| it.owner == u64::from(second)),
            "PAUSE" => past.has_record(first, |it| it.phase == PAUSED),
            "RESUME" | "CANCEL" => past.has_record(first, |it| it.phase == SERVING),
            "FAIL" => past.has_state(first, FAILED),
            "BACK" => past.has_state(first, UP),
            "RESTART" => past.has_state(first, STOPPED) || !told.contains(" is stopped"),
            "DRAIN" | "SPREAD" | "PLACE" => told.lines().filter_map(moved).all(|it| {
                let (shard, server) = it;
                past.has_record(shard, |it| it.owner == u64::from(server))
            }),
            _ => true,
        }
    }
}

/// The values in the store between two revisions.
struct Past<'a> {
    store: &'a SharedStore,
    since: u64,
    until: u64,
}

impl Past<'_> {
    /// Returns whether the shard ever had a record for which `is_so` holds.
    fn has_record(&self, shard: u16, is_so: impl Fn(DecodedRecord) -> bool) -> bool {
        let key = format!("record/{shard:05}");
        self.has(&key, |it| DecodedRecord::of(it).is_some_and(&is_so))
    }

    /// Returns whether the server was ever in this state.
    fn has_state(&self, server: u16, state: u64) -> bool {
        let key = format!("state/{server:05}");
        self.has(&key, |it| {
            reading::state(it).is_some_and(|it| it.0 == state)
        })
    }

    fn has(&self, key: &str, is_so: impl Fn(&[u8]) -> bool) -> bool {
        let store = locked(self.store);
        let values = store.between(key.as_bytes(), self.since, self.until);
        values.into_iter().any(|it| is_so(it.unwrap_or(&VACANT)))
    }
}

/// The beginnings of answers that don't say that the command was done.
const NOT_DONE: [&str; 3] = ["REFUSED", "UNKNOWN", "PEERDOWN"];
/// The names of refusals after which the leader, or the next one, may go on with a restart.
const UNJUDGED: [&str; 4] = [
    "REFUSED NotLeader",
    "REFUSED StoreDown",
    "REFUSED StoreFull",
    "REFUSED Stopping",
];
/// A record or a state that was never written.
const VACANT: [u8; 17] = {
    let mut bytes = [0; 17];
    bytes[0] = 1;
    bytes
};
/// The phases of records, and the states of servers.
const SERVING: u64 = 1;
const PAUSED: u64 = 5;
const UP: u64 = 0;
const APPROVED: u64 = 2;
const STOPPED: u64 = 3;
const FAILED: u64 = 4;

/// Reads the shard and the server from a line about a shard that moved.
fn moved(line: &str) -> Option<(u16, u16)> {
    let (shard, server) = line.split_once('>')?;
    Some((shard.parse().ok()?, server.parse().ok()?))
}
