use super::key_write::KeyWrite;
use super::notifier::Notifier;
use durkenzo_store::{Done, Outcome, WriteError};
use std::sync::mpsc::{sync_channel, Receiver, SyncSender, TryRecvError};
use std::sync::Arc;
use std::time::Instant;

/// A write on its way to the store, until its outcome is known, or nobody waits for it any more. Then it may still be
/// made.
pub(super) struct PendingWrite<W = KeyWrite> {
    pub(super) write: W,
    told: Receiver<Result<Outcome, WriteError>>,
    end: Instant,
}

/// Tells the outcome of a write, or that it will never be told.
struct Teller {
    tell: Option<SyncSender<Result<Outcome, WriteError>>>,
    notifier: Arc<Notifier>,
}

impl Drop for Teller {
    fn drop(&mut self) {
        self.tell = None;
        self.notifier.notify();
    }
}

impl<W> PendingWrite<W> {
    /// Returns the write, for which one waits until this time, and the callback by which the store tells its outcome.
    pub(super) fn new(write: W, end: Instant, notifier: &Arc<Notifier>) -> (PendingWrite<W>, Done) {
        let (tell, told) = sync_channel(1);
        let teller = Teller {
            tell: Some(tell),
            notifier: notifier.clone(),
        };
        let done = move |outcome| {
            let teller = teller;
            // If it comes late, nobody waits any more.
            let _ = teller.tell.as_ref().map(|it| it.send(outcome));
        };
        let pending = PendingWrite { write, told, end };
        (pending, Box::new(done))
    }

    /// Returns the outcome, if it is known, or if nobody waits for it any more.
    pub(super) fn outcome(&self, now: Instant) -> Option<Result<Outcome, WriteError>> {
        match self.told.try_recv() {
            Ok(outcome) => Some(outcome),
            Err(TryRecvError::Disconnected) => Some(Err(WriteError::Stopped)),
            Err(TryRecvError::Empty) if now >= self.end => {
                Some(Err(WriteError::Unknown("it came late".to_owned())))
            }
            Err(TryRecvError::Empty) => None,
        }
    }

    /// Returns until when one waits for it.
    pub(super) fn end(&self) -> Instant {
        self.end
    }
}
