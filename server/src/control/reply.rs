//! Answers of the control as Redis clients read them.
use super::Refusal;
use crate::command::Fault;
use crate::io;
use crate::resp::Replies;
use durkenzo_control::control::{ControlAnswer, ReplyTo};

impl ReplyTo for io::ReplyAddress {
    fn send(self: Box<Self>, answer: Result<ControlAnswer, Refusal>) {
        let mut replies = Replies::default();
        match answer {
            Ok(ControlAnswer::Done) => replies.ok(),
            Ok(ControlAnswer::Line(line)) => replies.simple(&line),
            Ok(ControlAnswer::Lines(lines)) => {
                replies.array(lines.len());
                lines.iter().for_each(|it| replies.bulk(it.as_bytes()));
            }
            Err(refusal) => replies.error(refusal),
        }
        if let Err(refused) = replies.are_whole() {
            replies.take_back(0);
            replies.error(Fault::from(refused));
        }
        if let Some(errors) = replies.take_errors() {
            self.note_errors(errors);
        }
        io::ReplyAddress::send(*self, replies.into_bytes());
    }

    fn is_awaited(&self) -> bool {
        io::ReplyAddress::is_awaited(self)
    }

    fn asks_elsewhere(&self) -> bool {
        io::ReplyAddress::asks_elsewhere(self)
    }

    fn give_back(self: Box<Self>) {
        io::ReplyAddress::give_back(*self);
    }

    /// Errors are counted here, because the client is here.
    fn pass_on(self: Box<Self>, answer: Vec<u8>) {
        // An answer that isn't an error may be long, so it isn't copied.
        if answer.starts_with(b"-") {
            let mut told = Replies::default();
            told.append_told(&answer);
            if let Some(errors) = told.take_errors() {
                self.note_errors(errors);
            }
        }
        io::ReplyAddress::send(*self, answer);
    }
}
