use super::WireReason;
use durkenzo_control::links::ReplySender;
use durkenzo_driver::{Begin, MapReply, MapRequest, NotDone, Work, WorkOutcome, WorkStep};

/// A work from another process, which is told its outcome. The work itself writes the answer.
pub(super) struct RemoteWork {
    work: Box<dyn Work>,
    /// Whether its client gave it a number, by which it may have been done before.
    is_numbered: bool,
    reply: ReplySender<WireReason>,
}

impl RemoteWork {
    /// Returns the step. Its outcome is sent to the other process.
    pub(super) fn step(step: WorkStep, reply: ReplySender<WireReason>) -> WorkStep {
        let WorkStep { begin, work } = step;
        let work = Box::new(RemoteWork {
            work,
            is_numbered: matches!(begin, Begin::Numbered(..)),
            reply,
        });
        WorkStep { begin, work }
    }
}

impl Work for RemoteWork {
    fn decide(&mut self, held: Vec<MapReply>) -> Vec<MapRequest> {
        self.work.decide(held)
    }

    fn is_wanted(&self) -> bool {
        self.reply.is_awaited() && self.work.is_wanted()
    }

    fn spell(&self) -> Vec<u8> {
        self.work.spell()
    }

    fn answered(self: Box<Self>, answer: &[u8]) {
        self.reply.answer(answer);
    }

    fn end(self: Box<Self>, outcome: WorkOutcome) {
        match outcome {
            Ok(replies) => self.work.end(Ok(replies)),
            // No code tells another process this reason, so the client gets the answer that clients of this process
            // get.
            Err(NotDone::Crowded) if !self.is_numbered => self.work.end(Err(NotDone::Crowded)),
            Err(why) => self.reply.refuse(WireReason(why)),
        }
    }
}

#[cfg(test)]
mod tests {
    use super::*;
    use durkenzo_control::links::{Frame, RequestOutcome, SentFrames};
    use durkenzo_driver::Numbered;
    use std::sync::mpsc::{channel, Receiver, Sender};

    /// A work that tells its outcome.
    struct TellingWork(Sender<WorkOutcome>);

    impl Work for TellingWork {
        fn decide(&mut self, _held: Vec<MapReply>) -> Vec<MapRequest> {
            Vec::new()
        }

        fn is_wanted(&self) -> bool {
            true
        }

        fn spell(&self) -> Vec<u8> {
            Vec::new()
        }

        fn answered(self: Box<Self>, _answer: &[u8]) {}

        fn end(self: Box<Self>, outcome: WorkOutcome) {
            self.0.send(outcome).unwrap();
        }
    }

    /// Returns a work of another process that begins like this, the receiver of its own outcome, and the receiver of
    /// what the other process is sent.
    fn received(begin: Begin) -> (Box<dyn Work>, Receiver<WorkOutcome>, SentFrames) {
        let ((tell, told), (reply, frames)) = (channel(), ReplySender::for_test());
        let work = Box::new(TellingWork(tell));
        let step = RemoteWork::step(WorkStep { begin, work }, reply);
        (step.work, told, frames)
    }

    #[test]
    fn a_crowded_shard_is_told_as_to_clients_of_its_process() {
        let (work, told, _frames) = received(Begin::Write(Vec::new()));
        work.end(Err(NotDone::Crowded));
        assert_eq!(told.try_recv(), Ok(Err(NotDone::Crowded)));
    }

    #[test]
    fn a_numbered_write_that_a_crowded_shard_refuses_may_have_been_made_before() {
        let numbered = Numbered {
            client: 1,
            number: 1,
        };
        let (work, told, frames) = received(Begin::Numbered(numbered, Vec::new()));
        work.end(Err(NotDone::Crowded));
        assert!(told.try_recv().is_err());
        let bytes = frames.read();
        let busy = RequestOutcome::NotDone(WireReason(NotDone::Busy));
        let read = Frame::<WireReason>::read(&bytes).unwrap().unwrap();
        assert_eq!((read.0, read.1), (0, Frame::Outcome(0, busy)));
    }

    #[test]
    fn work_of_a_process_that_is_gone_is_not_wanted() {
        let (work, _told, frames) = received(Begin::Read(Vec::new()));
        assert!(work.is_wanted());
        drop(frames);
        assert!(!work.is_wanted());
    }
}
