use crate::control::{spelled, Again, Asked, Refusal};
use crate::resp::Replies;
use durkenzo_control::links::ForwardedCommand;
use std::fmt;

/// A command for the control of another process.
pub struct PeerCommand {
    asked: Asked,
    /// The queue in which it waits again if it wasn't done.
    again: Option<Again>,
}

impl PeerCommand {
    /// Makes a command that waits again if it may, and otherwise is refused.
    pub(super) fn new(asked: Asked, again: Option<Again>) -> PeerCommand {
        PeerCommand { asked, again }
    }

    /// Makes the command, which wasn't done, wait again if it may. Otherwise refuses it.
    fn give_back(self, why: impl fmt::Display) {
        let held = match self.again {
            Some(again) => again.hold(self.asked),
            None => Err(self.asked),
        };
        if let Err(asked) = held {
            refuse(asked, why);
        }
    }
}

impl ForwardedCommand for PeerCommand {
    fn bytes(&self) -> Vec<u8> {
        spelled(&self.asked.words)
    }

    fn answer(self, answer: &[u8]) {
        self.asked.reply_to.pass_on(answer.to_vec());
    }

    fn refuse(self) {
        self.give_back(Refusal::no_leader());
    }

    fn refuse_unreached(self, why: &str) {
        self.give_back(format_args!(
            "PEERDOWN nothing has changed: {why}: try again"
        ));
    }

    fn lose(self, why: &str) {
        let told = format_args!("UNKNOWN {why}: look before you try again");
        refuse(self.asked, told);
    }
}

fn refuse(asked: Asked, why: impl fmt::Display) {
    let mut replies = Replies::default();
    replies.error(why);
    asked.reply_to.pass_on(replies.into_bytes());
}

#[cfg(test)]
mod tests {
    use super::*;
    use crate::control::{Waiting, Words};
    use crate::io::ReplyAddress;
    use std::sync::mpsc::{channel, Receiver};
    use std::time::{Duration, Instant};

    /// Returns a command for the control, which waits until then if it isn't done, and the receiver of its answer.
    fn control(waiting: &Waiting, until: Instant) -> (PeerCommand, Receiver<Vec<u8>>) {
        let (tell, told) = channel();
        let reply_to = ReplyAddress::process(move |bytes| tell.send(bytes).unwrap());
        let again = waiting.again(until);
        let asked = Asked {
            words: Words::of(["SM", "SPREAD"]),
            reply_to: Box::new(reply_to),
        };
        (PeerCommand::new(asked, Some(again)), told)
    }

    #[test]
    fn a_command_of_which_nothing_was_done_waits_again_while_it_may() {
        let (waiting, now) = (Waiting::default(), Instant::now());
        let later = now + Duration::from_secs(60);
        let (first, _waits) = control(&waiting, later);
        first.refuse();
        let (second, _waits_too) = control(&waiting, later);
        second.refuse_unreached("it is gone");
        let untils: Vec<_> = waiting.take().into_iter().map(|it| it.until).collect();
        assert_eq!(untils, [later, later]);
        let (late, refused) = control(&waiting, now);
        late.refuse();
        let told = refused.try_recv().unwrap();
        assert!(told.starts_with(b"-REFUSED NotLeader"), "{told:?}");
        let (late, refused) = control(&waiting, now);
        late.refuse_unreached("its secret is another one");
        let told = refused.try_recv().unwrap();
        let wanted = b"-PEERDOWN nothing has changed: its secret is another one";
        assert!(told.starts_with(wanted), "{told:?}");
        assert!(waiting.take().is_empty());
    }

    #[test]
    fn a_command_that_may_have_been_done_waits_for_nobody() {
        let waiting = Waiting::default();
        let (command, unknown) = control(&waiting, Instant::now() + Duration::from_secs(60));
        command.lose("it is gone");
        let told = unknown.try_recv().unwrap();
        assert!(told.starts_with(b"-UNKNOWN it is gone"), "{told:?}");
        assert!(waiting.take().is_empty());
    }
}
