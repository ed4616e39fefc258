use super::forwarded_batch::ForwardedBatch;
use super::frame::Frame;
use super::{ForwardedCommand, Host, RequestOutcome};
use std::time::{Duration, Instant};

/// How much longer than the waiting time of requests an answer may take, because a transaction may be under way there.
const BEYOND: Duration = Duration::from_secs(6);
/// How long requests that have already waited may take to be sent.
const SOON: Duration = Duration::from_millis(100);
/// How long a command for the control may take to be sent, before its process looks again which process leads.
const SEND: Duration = Duration::from_secs(1);

/// A message to another process.
pub(super) struct OutboundMessage<H: Host> {
    payload: Payload<H>,
    /// When it is given up if it wasn't sent.
    due: Instant,
    /// When its answer is given up.
    end: Option<Instant>,
}

enum Payload<H: Host> {
    /// Requests of a client.
    Requests(ForwardedBatch<H>),
    /// A command for the control, and its bytes.
    Command(H::Command, Vec<u8>),
}

impl<H: Host> OutboundMessage<H> {
    /// Makes a message of requests that wait for so long, and must be sent now.
    pub(super) fn requests(
        batch: ForwardedBatch<H>,
        wait: Duration,
        now: Instant,
    ) -> OutboundMessage<H> {
        OutboundMessage {
            due: (batch.since() + wait).max(now + SOON),
            end: Some(now + wait + BEYOND),
            payload: Payload::Requests(batch),
        }
    }

    /// Makes a message of a command for the control, which must be sent now. Its answer may take any time.
    pub(super) fn command(command: H::Command, now: Instant) -> OutboundMessage<H> {
        let bytes = command.bytes();
        OutboundMessage {
            due: now + SEND,
            end: None,
            payload: Payload::Command(command, bytes),
        }
    }

    /// Returns about how many bytes its frame has.
    pub(super) fn size(&self) -> usize {
        match &self.payload {
            Payload::Requests(batch) => batch.size(),
            Payload::Command(_, bytes) => bytes.len(),
        }
    }

    /// Returns whether it fits into one frame.
    pub(super) fn fits(&self) -> bool {
        match &self.payload {
            Payload::Requests(batch) => batch.fits(),
            // No command of a client is that long.
            Payload::Command(..) => true,
        }
    }

    /// Drops the requests for which nobody waits. None must have been sent yet. Returns whether something is left.
    pub(super) fn keep_awaited(&mut self) -> bool {
        match &mut self.payload {
            Payload::Requests(batch) => batch.keep_awaited(),
            Payload::Command(..) => true,
        }
    }

    /// Writes its frame with this number at this moment, once.
    pub(super) fn write(&mut self, number: u64, now: Instant, out: &mut Vec<u8>) {
        match &mut self.payload {
            Payload::Requests(batch) => batch.write(number, now, out),
            Payload::Command(_, bytes) => {
                Frame::<H::Reason>::Command(&std::mem::take(bytes)).write(number, out);
            }
        }
    }

    /// Takes out the requests that a process with this version of the table of commands doesn't know. Every process
    /// knows the commands for the control.
    pub(super) fn take_unknown(&mut self, table: u16) -> Vec<H::Request> {
        match &mut self.payload {
            Payload::Requests(batch) => batch.take_unknown(table),
            Payload::Command(..) => Vec::new(),
        }
    }

    /// Returns whether it must be given up if it wasn't sent.
    pub(super) fn is_due(&self, now: Instant) -> bool {
        self.due <= now
    }

    /// Returns whether its answer must be given up.
    pub(super) fn is_late(&self, now: Instant) -> bool {
        self.end.is_some_and(|it| it <= now)
    }

    /// Takes the outcome of the request at this place. If more outcomes must come, returns the message. Otherwise
    /// returns the requests, some of which this process may have to handle again.
    pub(super) fn take_outcome(
        mut self,
        place: u16,
        outcome: RequestOutcome<'_, H::Reason>,
    ) -> Result<OutboundMessage<H>, Option<ForwardedBatch<H>>> {
        match self.payload {
            Payload::Requests(ref mut batch) => batch.take_outcome(place, outcome),
            Payload::Command(command, _) => {
                match outcome {
                    RequestOutcome::Answer(bytes) => command.answer(bytes),
                    RequestOutcome::NotDone(_) => command.refuse(),
                }
                return Err(None);
            }
        }
        match self.payload {
            Payload::Requests(batch) if batch.is_over() => Err(Some(batch)),
            payload => Ok(OutboundMessage { payload, ..self }),
        }
    }

    /// Notes that it was sent, and that its outcomes won't come. Returns the requests, some of which may be sent again.
    pub(super) fn lost(self, why: &str) -> Option<ForwardedBatch<H>> {
        match self.payload {
            Payload::Requests(mut batch) => {
                batch.lose(why);
                Some(batch)
            }
            Payload::Command(command, _) => {
                command.lose(why);
                None
            }
        }
    }

    /// Notes that it wasn't sent. Returns the requests, all of which may be sent again.
    pub(super) fn unsent(self, why: &str) -> Option<ForwardedBatch<H>> {
        match self.payload {
            Payload::Requests(batch) => Some(batch),
            Payload::Command(command, _) => {
                command.refuse_unreached(why);
                None
            }
        }
    }
}

#[cfg(test)]
mod tests {
    use super::super::trial::{moment, TestCommand, TestHost, TestReason};
    use super::*;

    #[test]
    fn a_command_is_told_what_became_of_it() {
        let ended = |end: fn(OutboundMessage<TestHost>)| {
            let (command, told) = TestCommand::new();
            end(OutboundMessage::command(command, moment(0)));
            told.try_recv().unwrap()
        };
        let stopped = ended(|it| {
            let outcome = RequestOutcome::NotDone(TestReason::Stopped);
            assert!(matches!(it.take_outcome(0, outcome), Err(None)));
        });
        assert_eq!(stopped, "refused");
        let answered = ended(|it| drop(it.take_outcome(0, RequestOutcome::Answer(b"+OK"))));
        assert_eq!(answered, "+OK");
        let unsent = ended(|it| assert!(it.unsent("it is gone").is_none()));
        assert_eq!(unsent, "unreached: it is gone");
        let lost = ended(|it| assert!(it.lost("it is gone").is_none()));
        assert_eq!(lost, "lost: it is gone");
    }
}
