use super::findings::{Findings, VisitResult};
use super::query::Query;
use super::shard_visit::ShardVisit;
use crate::cluster::Cluster;
use crate::io::{Caller, ReplyAddress};
use crate::resp::{Protocol, Replies};
use durkenzo_driver::{Begin, Key, MapRequest};
use std::fmt;
use std::mem;
use std::sync::{Arc, Mutex, PoisonError};

/// A walk over shards, one after another.
pub(super) trait Walk: fmt::Debug + Send {
    /// Returns the next shard to visit, and the visit; or nothing at the end of the walk.
    fn next(&mut self) -> Option<(u16, Visit)>;

    /// Takes the findings of that shard.
    fn take(&mut self, found: Findings);

    /// Returns the client's answer if a shard refused with this answer.
    fn refused(&self, refused: Replies) -> Replies {
        refused
    }

    /// Writes the answer. Each shard that was visited has told its findings before.
    fn answer(self: Box<Self>, cluster: &Cluster, answer: &mut Replies);
}

/// A visit of a walk at one shard.
#[derive(Debug)]
pub(super) enum Visit {
    /// Tells of the shard's keys.
    Query(Query),
    /// Deletes these keys.
    Delete(Vec<Key>),
}

impl Visit {
    /// Returns how the visit begins.
    pub(super) fn begin(&self) -> Begin {
        match self {
            Visit::Query(query) => query.begin(),
            Visit::Delete(keys) => {
                Begin::Write(keys.iter().cloned().map(MapRequest::Delete).collect())
            }
        }
    }
}

/// The callback that gets the walk's answer. It must not wait.
pub(super) type End = Box<dyn FnOnce(Replies) + Send>;

/// A walk under way for a client, with the client's version of the protocol.
pub(super) struct Walker {
    pub(super) walk: Box<dyn Walk>,
    pub(super) cluster: Arc<Cluster>,
    pub(super) protocol: Protocol,
    pub(super) caller: Caller,
    pub(super) end: End,
}

/// The place at which the walk and a shard's findings meet, whichever comes first.
enum Meeting {
    Nobody,
    Told(VisitResult),
    Waits(Walker),
}

impl Walker {
    /// Makes the walk of a client, who gets its answer.
    pub(super) fn new(
        walk: Box<dyn Walk>,
        cluster: &Arc<Cluster>,
        protocol: Protocol,
        reply_to: ReplyAddress,
    ) -> Walker {
        Walker {
            walk,
            cluster: cluster.clone(),
            protocol,
            caller: reply_to.caller(),
            end: Box::new(move |answer| send(answer, reply_to)),
        }
    }

    /// Visits shard after shard. If a shard takes its time, the walk goes on once that shard has told its findings.
    pub(super) fn go_on(mut self) {
        while let Some((shard, visit)) = self.walk.next() {
            let meeting = Arc::new(Mutex::new(Meeting::Nobody));
            self.ask(shard, visit, meeting.clone());
            let mut met = meeting.lock().unwrap_or_else(PoisonError::into_inner);
            match mem::replace(&mut *met, Meeting::Nobody) {
                Meeting::Told(told) => {
                    drop(met);
                    match self.took(told) {
                        Some(walker) => self = walker,
                        None => return,
                    }
                }
                _ => {
                    *met = Meeting::Waits(self);
                    return;
                }
            }
        }
        let mut answer = Replies::new(self.protocol);
        self.walk.answer(&self.cluster, &mut answer);
        (self.end)(answer);
    }

    fn ask(&self, shard: u16, visit: Visit, meeting: Arc<Mutex<Meeting>>) {
        let then = move |told| {
            let mut met = meeting.lock().unwrap_or_else(PoisonError::into_inner);
            match mem::replace(&mut *met, Meeting::Nobody) {
                Meeting::Waits(walker) => {
                    drop(met);
                    let _ = walker.took(told).map(Walker::go_on);
                }
                _ => *met = Meeting::Told(told),
            }
        };
        let whose = (self.caller.clone(), self.protocol);
        let step = ShardVisit::step(visit, shard, whose, Box::new(then));
        if let Some(durable) = self.cluster.storage.durable() {
            durable.submit(shard, vec![step]);
        }
    }

    /// Takes a shard's findings. Returns nothing if that ends the walk, because the shard refused.
    fn took(mut self, told: VisitResult) -> Option<Walker> {
        match told {
            Ok(found) => {
                self.walk.take(found);
                Some(self)
            }
            Err(refused) => {
                (self.end)(self.walk.refused(refused));
                None
            }
        }
    }
}

/// Sends the answer to one command.
pub(super) fn send(mut answer: Replies, reply_to: ReplyAddress) {
    if let Some(errors) = answer.take_errors() {
        reply_to.note_errors(errors);
    }
    reply_to.send_of(answer.into_bytes(), 1);
}
