use super::unsure_work::UnsureWork;
use super::WireReason;
use crate::command::{is_numbered, table_of_spelled};
use crate::resp::Replies;
use durkenzo_control::links::{ForwardedMessage, ForwardedRequest, Reason, ReplySender};
use durkenzo_driver::{Begin, NotDone, WorkStep};

/// A client's step that another process executes.
pub struct ForwardedStep(pub(super) WorkStep);

impl ForwardedRequest for ForwardedStep {
    type Reason = WireReason;

    fn message(&self) -> ForwardedMessage {
        let bytes = self.0.work.spell();
        let table = table_of_spelled(&bytes);
        ForwardedMessage { bytes, table }
    }

    fn is_awaited(&self) -> bool {
        self.0.work.is_wanted()
    }

    fn answer(self, answer: &[u8]) {
        self.0.work.answered(answer);
    }

    fn refuse(self, reason: WireReason) {
        self.0.work.end(Err(reason.0));
    }

    fn refuse_unreached(self, server: u16, why: &str) {
        // It may have been done when it was asked for before.
        if let Begin::Numbered(..) = self.0.begin {
            return self.0.work.end(Err(NotDone::Unknown(why.to_owned())));
        }
        let mut refused = Replies::default();
        refused.error(format_args!(
            "PEERDOWN nothing has changed, as the process of server {server} can't be asked: {why}: try again"
        ));
        self.0.work.answered(refused.unsent());
    }

    fn refuse_unknown(self, server: u16) {
        match self.0.begin {
            // Another process may have done it when it was asked for before.
            Begin::Numbered(..) => self.refuse(WireReason::unknown(other_version(server))),
            Begin::Read(_)
            | Begin::Scan(_)
            | Begin::Keys(_)
            | Begin::Count
            | Begin::Change(_)
            | Begin::Write(_)
            | Begin::Opaque(_) => self.answer(&refusal_of_version(server)),
        }
    }

    fn after_loss(self, why: &str) -> Option<ForwardedStep> {
        let begin = &self.0.begin;
        // These change nothing if they are done twice.
        if begin.only_reads() || matches!(begin, Begin::Numbered(..)) {
            return Some(ForwardedStep(UnsureWork::step(self.0, why)));
        }
        self.refuse(WireReason::unknown(why.to_owned()));
        None
    }
}

/// Refuses a work with these bytes, which this server's process doesn't know.
pub(super) fn refuse_spelled(spelled: &[u8], server: u16, reply: ReplySender<WireReason>) {
    match is_numbered(spelled) {
        // Another process may have done it when it was asked for before.
        true => reply.refuse(WireReason::unknown(other_version(server))),
        false => reply.answer(&refusal_of_version(server)),
    }
}

/// Returns the refusal of a command that the process of this server doesn't know, and that no other process did.
pub(super) fn refusal_of_version(server: u16) -> Vec<u8> {
    let mut refused = Replies::default();
    refused.error(format_args!(
        "OTHERVERSION nothing has changed: {}: try again once it is upgraded",
        other_version(server)
    ));
    refused.into_bytes()
}

fn other_version(server: u16) -> String {
    format!("the process of server {server} has a version that doesn't know this command")
}

#[cfg(test)]
mod tests {
    use super::*;
    use durkenzo_driver::{MapReply, MapRequest, Numbered, Work, WorkOutcome};
    use std::sync::mpsc::{channel, Receiver, Sender};

    /// A work that tells its name and its outcome.
    struct Named(&'static str, Sender<String>);

    impl Work for Named {
        fn decide(&mut self, _held: Vec<MapReply>) -> Vec<MapRequest> {
            Vec::new()
        }

        fn is_wanted(&self) -> bool {
            true
        }

        fn spell(&self) -> Vec<u8> {
            self.0.as_bytes().to_vec()
        }

        fn answered(self: Box<Self>, answer: &[u8]) {
            let answer = String::from_utf8_lossy(answer);
            self.1.send(format!("{}: {answer}", self.0)).unwrap();
        }

        fn end(self: Box<Self>, outcome: WorkOutcome) {
            let told = format!("{}: {}", self.0, outcome.unwrap_err());
            self.1.send(told).unwrap();
        }
    }

    /// Returns a read, a write, a change and a numbered write.
    fn forwarded() -> ([ForwardedStep; 4], Receiver<String>) {
        let (tell, told) = channel();
        let numbered = Numbered {
            client: 1,
            number: 1,
        };
        let begins = [
            ("read", Begin::Read(Vec::new())),
            ("write", Begin::Write(Vec::new())),
            ("change", Begin::Change(Vec::new())),
            ("numbered", Begin::Numbered(numbered, Vec::new())),
        ];
        let steps = begins.map(|(name, begin)| {
            let work = Box::new(Named(name, tell.clone()));
            ForwardedStep(WorkStep { begin, work })
        });
        (steps, told)
    }

    #[test]
    fn what_may_be_made_is_asked_again_if_that_changes_nothing() {
        let (steps, told) = forwarded();
        let again = steps.map(|it| it.after_loss("it is gone"));
        let names = again.iter().flatten().map(|it| it.0.work.spell());
        assert_eq!(names.collect::<Vec<_>>(), [&b"read"[..], b"numbered"]);
        let unknown = "it isn't known whether it was made: it is gone";
        let ended: Vec<_> = told.try_iter().collect();
        assert_eq!(
            ended,
            [format!("write: {unknown}"), format!("change: {unknown}")]
        );
        // Whoever refuses the numbered write now doesn't know whether it was done.
        let again = again.into_iter().flatten();
        again.for_each(|it| it.refuse(WireReason::stopped()));
        let stopped = format!("read: {}", NotDone::Stopped);
        let ended: Vec<_> = told.try_iter().collect();
        assert_eq!(ended, [stopped, format!("numbered: {unknown}")]);
    }

    #[test]
    fn what_was_not_sent_is_refused_by_name() {
        let (steps, told) = forwarded();
        let refuse = |it: ForwardedStep| it.refuse_unreached(2, "nobody listens");
        steps.into_iter().for_each(refuse);
        let told: Vec<_> = told.try_iter().collect();
        let unknown = "it isn't known whether it was made: nobody listens";
        assert_eq!(told[3], format!("numbered: {unknown}"));
        let refused = "-PEERDOWN nothing has changed, as the process of server 2 can't be asked";
        let is_refused = |it: &String| it.contains(refused);
        assert!(told[..3].iter().all(is_refused), "{told:?}");
    }

    #[test]
    fn what_an_older_process_does_not_know_is_refused_by_name() {
        let (steps, told) = forwarded();
        steps.into_iter().for_each(|it| it.refuse_unknown(2));
        let told: Vec<_> = told.try_iter().collect();
        let is_refused = |it: &String| it.contains("-OTHERVERSION nothing has changed");
        assert!(told[..3].iter().all(is_refused), "{told:?}");
        assert!(told[3].starts_with("numbered: it isn't known"), "{told:?}");
    }
}
