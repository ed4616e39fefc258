use super::outbox::Outbox;
use super::{Reason, RequestOutcome, SentFrames};
use std::fmt;
use std::marker::PhantomData;
use std::sync::Arc;

/// Sends the outcome of one request to the process that forwarded it, once.
pub struct ReplySender<R> {
    outbox: Arc<Outbox>,
    number: u64,
    place: u16,
    reasons: PhantomData<fn(R)>,
}

impl<R: Reason> ReplySender<R> {
    /// Returns the sender of the request at this place of the frame with this number.
    pub(super) fn new(outbox: Arc<Outbox>, number: u64, place: u16) -> ReplySender<R> {
        ReplySender {
            outbox,
            number,
            place,
            reasons: PhantomData,
        }
    }

    /// Returns a sender for tests of a host, and the reader of its frames, which have number 0 and place 0.
    pub fn for_test() -> (ReplySender<R>, SentFrames) {
        let outbox = Arc::new(Outbox::default());
        let frames = SentFrames::of(outbox.clone());
        (ReplySender::new(outbox, 0, 0), frames)
    }

    /// Returns whether the process that forwarded the request is still connected. If it isn't, nobody reads the answer.
    pub fn is_awaited(&self) -> bool {
        !self.outbox.is_over()
    }

    /// Sends the outcome. It doesn't wait.
    pub fn send(self, outcome: RequestOutcome<'_, R>) {
        self.outbox.send(self.number, self.place, outcome);
    }

    /// Sends the answer. It doesn't wait.
    pub fn answer(self, answer: &[u8]) {
        self.send(RequestOutcome::Answer(answer));
    }

    /// Sends why the request isn't done. It doesn't wait.
    pub fn refuse(self, reason: R) {
        self.send(RequestOutcome::NotDone(reason));
    }
}

impl<R> Clone for ReplySender<R> {
    /// Returns another sender for the same request. Only one of them may send.
    fn clone(&self) -> ReplySender<R> {
        ReplySender {
            outbox: self.outbox.clone(),
            ..*self
        }
    }
}

impl<R> fmt::Debug for ReplySender<R> {
    fn fmt(&self, f: &mut fmt::Formatter<'_>) -> fmt::Result {
        f.debug_struct("ReplySender")
            .field("number", &self.number)
            .field("place", &self.place)
            .finish_non_exhaustive()
    }
}
