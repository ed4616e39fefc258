use super::links_inner::locked;
use super::{Frame, Reason, RequestOutcome};
use std::sync::{Condvar, Mutex};

/// If so many requests of a process are under way here, or so many bytes of answers wait, nothing more is read from it.
pub(super) const MOST_REQUESTS: usize = 1 << 16;
const MOST_BYTES: usize = 8 << 20;

/// The answers to another process.
#[derive(Default)]
pub(super) struct Outbox {
    pub(super) state: Mutex<OutboxState>,
    /// Notified when there is something to send, or nobody is there any more.
    pub(super) told: Condvar,
    /// Notified when there may be room for more requests.
    pub(super) taken: Condvar,
}

#[derive(Default)]
pub(super) struct OutboxState {
    bytes: Vec<u8>,
    /// Whether some were taken that may not be sent yet.
    pub(super) is_sending: bool,
    under_way: usize,
    is_over: bool,
}

impl OutboxState {
    /// Returns whether there is nothing to send, and somebody to answer.
    pub(super) fn is_idle(&self) -> bool {
        !self.is_over && self.bytes.is_empty()
    }

    /// Returns whether nothing more is read from the process, and it is still there.
    pub(super) fn is_held_up(&self) -> bool {
        !self.is_over && self.is_full()
    }

    /// Returns whether no further requests can begin.
    fn is_full(&self) -> bool {
        self.under_way > MOST_REQUESTS || self.bytes.len() > MOST_BYTES
    }
}

impl Outbox {
    /// Returns whether nothing more is read from the process until something is sent.
    pub(super) fn is_held_up(&self) -> bool {
        locked(&self.state).is_held_up()
    }

    /// Notes that so many requests begin. Returns whether there is still somebody to answer.
    pub(super) fn begin(&self, requests: usize) -> bool {
        let mut state = locked(&self.state);
        state.under_way += requests;
        !state.is_over
    }

    /// Returns the bytes to send next, if there are any. Those that were taken before are sent by now.
    pub(super) fn take(&self) -> Vec<u8> {
        let mut state = locked(&self.state);
        let bytes = std::mem::take(&mut state.bytes);
        state.is_sending = !bytes.is_empty();
        drop(state);
        self.taken.notify_all();
        bytes
    }

    /// Returns whether there is something to send.
    pub(super) fn has_answers(&self) -> bool {
        !locked(&self.state).bytes.is_empty()
    }

    /// Returns whether requests are under way, or answers wait or are being sent.
    pub(super) fn is_answering(&self) -> bool {
        let state = locked(&self.state);
        let has_answers = !state.bytes.is_empty() || state.is_sending;
        !state.is_over && (state.under_way > 0 || has_answers)
    }

    /// Notes that nobody is there any more.
    pub(super) fn end(&self) {
        locked(&self.state).is_over = true;
        self.told.notify_all();
        self.taken.notify_all();
    }

    /// Returns whether nobody is there any more.
    pub(super) fn is_over(&self) -> bool {
        locked(&self.state).is_over
    }

    /// Sends the outcome of the request at this place of the frame with this number.
    pub(super) fn send<R: Reason>(&self, number: u64, place: u16, outcome: RequestOutcome<'_, R>) {
        let mut state = locked(&self.state);
        // If something waits to be sent already, its thread was woken for that.
        let (is_first, was_full) = (state.bytes.is_empty(), state.is_full());
        state.under_way = state.under_way.saturating_sub(1);
        if !state.is_over {
            Frame::Outcome(place, outcome).write(number, &mut state.bytes);
        }
        drop(state);
        if is_first {
            self.told.notify_all();
        }
        if was_full {
            self.taken.notify_all();
        }
    }
}

#[cfg(test)]
mod tests {
    use super::super::trial::TestReason;
    use super::super::ReplySender;
    use super::*;
    use std::sync::Arc;

    #[test]
    fn answers_go_in_the_order_in_which_they_come() {
        let outbox = Arc::new(Outbox::default());
        assert!(outbox.begin(2));
        for (number, place) in [(7, 1), (4, 0)] {
            let reply = ReplySender::new(outbox.clone(), number, place);
            reply.refuse(TestReason::Stopped);
        }
        let bytes = outbox.take();
        let read = |it| Frame::<TestReason>::read(it).unwrap().unwrap();
        let (first, _, end) = read(&bytes);
        let (second, _, _) = read(&bytes[end..]);
        assert_eq!((first, second), (7, 4));
        assert!(outbox.is_answering());
        assert!(outbox.take().is_empty() && !outbox.is_answering());
        outbox.end();
        assert!(!outbox.begin(1));
    }

    #[test]
    fn who_is_answered_late_is_read_no_further() {
        let outbox = Arc::new(Outbox::default());
        assert!(outbox.begin(MOST_REQUESTS) && !outbox.is_held_up());
        assert!(outbox.begin(1) && outbox.is_held_up());
        ReplySender::<TestReason>::new(outbox.clone(), 1, 0).answer(b"+OK\r\n");
        assert!(!outbox.is_held_up());
        let reply = ReplySender::<TestReason>::new(outbox.clone(), 1, 0);
        reply.answer(&vec![0; MOST_BYTES]);
        assert!(outbox.is_held_up());
        assert!(outbox.take().len() > MOST_BYTES && !outbox.is_held_up());
    }
}
