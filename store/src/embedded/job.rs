use crate::{
    CompactError, Done, LeaseError, LeaseId, Outcome, ReadError, Reading, Transaction, Watcher,
    WriteError,
};
use std::sync::mpsc::Sender;
use std::time::Duration;

/// A job of the store's thread.
pub(super) enum Job {
    Make(Transaction, Completion),
    Read(Vec<Vec<u8>>, Sender<Result<Reading, ReadError>>),
    ReadAll(Vec<u8>, Sender<Result<Reading, ReadError>>),
    /// Reads the first keys from this one on and before that end, at most so many.
    ReadRange(Vec<u8>, Vec<u8>, usize, Sender<Result<Reading, ReadError>>),
    /// Lists the keys from this one on and before that end.
    ReadKeys(Vec<u8>, Vec<u8>, Sender<Result<Vec<Vec<u8>>, ReadError>>),
    Watch(u64, Vec<u8>, Watcher, Sender<Result<(), ReadError>>),
    Unwatch(u64),
    Grant(Duration, Sender<LeaseId>),
    Keep(LeaseId, Sender<Result<(), LeaseError>>),
    Revoke(LeaseId, Sender<Result<(), LeaseError>>),
    Compact(Sender<Result<(), CompactError>>),
    /// Returns how much room is left.
    Left(Sender<Option<u64>>),
    /// Ends the thread, after all earlier jobs.
    End,
}

/// The callback for a transaction's outcome. It is called once, even if the job is dropped.
pub(super) struct Completion(Option<Done>);

impl Job {
    /// Returns how many bytes it writes.
    pub(super) fn bytes(&self) -> usize {
        match self {
            Job::Make(transaction, _) => transaction.bytes(),
            Job::Read(..)
            | Job::ReadAll(..)
            | Job::ReadRange(..)
            | Job::ReadKeys(..)
            | Job::Watch(..)
            | Job::Unwatch(_)
            | Job::Grant(..)
            | Job::Keep(..)
            | Job::Revoke(..)
            | Job::Compact(_)
            | Job::Left(_)
            | Job::End => 0,
        }
    }
}

impl Completion {
    pub(super) fn new(done: Done) -> Completion {
        Completion(Some(done))
    }

    pub(super) fn tell(mut self, outcome: Result<Outcome, WriteError>) {
        if let Some(done) = self.0.take() {
            done(outcome);
        }
    }
}

impl Drop for Completion {
    fn drop(&mut self) {
        if let Some(done) = self.0.take() {
            done(Err(WriteError::Stopped));
        }
    }
}
