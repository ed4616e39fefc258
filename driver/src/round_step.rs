use crate::key_list::KeyList;
use crate::run::{DecidedChange, Origin};
use crate::work::{Work, WorkOutcome, WorkStep};
use crate::{MapReply, NotDone};

/// The kind of a step in its round.
#[derive(Clone, Copy, PartialEq, Eq)]
pub(crate) enum StepKind {
    Read,
    /// It lists keys.
    List,
    /// It reads the keys by which it decides its writes.
    Change,
    Write,
    /// It writes what it decided in the round before.
    Decided,
}

impl StepKind {
    pub(crate) fn writes(self) -> bool {
        matches!(self, StepKind::Write | StepKind::Decided)
    }
}

/// A step whose requests are in a round.
pub(crate) struct RoundStep {
    pub(crate) step: WorkStep,
    pub(crate) kind: StepKind,
    pub(crate) origin: Origin,
    /// The place of the step's first request in the round, and how many requests the step has.
    pub(crate) first: usize,
    pub(crate) count: usize,
    /// The list for the step, if it lists keys and its server was ready.
    pub(crate) listed: Option<KeyList>,
    /// Whether the step writes, and only deletes.
    pub(crate) frees: bool,
    /// Why the step won't be done, if it won't.
    pub(crate) ends: Option<NotDone>,
}

impl RoundStep {
    /// Returns the replies to the step, from the replies to its requests.
    pub(crate) fn told(&mut self, replies: Vec<MapReply>) -> Vec<MapReply> {
        match self.listed.take() {
            Some(listed) => listed.told(replies),
            None => replies,
        }
    }
}

/// A request of a round.
pub(crate) struct RoundRequest {
    pub(crate) bytes: Vec<u8>,
    /// The client and its number, under which the shard keeps the last request of each client.
    pub(crate) client: u64,
    pub(crate) number: u64,
    /// The place of its step among the steps of the round.
    pub(crate) step: usize,
    pub(crate) reply: Option<MapReply>,
    /// The server at which it waits for the next transaction.
    pub(crate) waits_at: Option<u16>,
}

impl RoundRequest {
    /// Returns whether it has its reply, or waits at a server.
    pub(crate) fn is_placed(&self) -> bool {
        self.reply.is_some() || self.waits_at.is_some()
    }
}

/// The outcome of a step once each request of its round has its reply.
pub(crate) enum FinishedStep {
    Told(Box<dyn Work>, WorkOutcome),
    Decided(DecidedChange),
}

/// The outcome of a step if its round is aborted.
pub(crate) enum AbortedStep {
    Told(Box<dyn Work>, WorkOutcome),
    /// It is tried again.
    Again(Origin, WorkStep),
}
