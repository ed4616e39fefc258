use super::SimulatedReason;
use crate::operator_reply::text;
use durkenzo_control::control::{ControlAnswer, Refusal, ReplyTo};
use durkenzo_control::links::{Reason, ReplySender};
use std::fmt;

/// The destination of the answer to a command that came by a link.
pub struct LinkedReply(pub ReplySender<SimulatedReason>);

impl ReplyTo for LinkedReply {
    fn send(self: Box<Self>, answer: Result<ControlAnswer, Refusal>) {
        self.0.answer(text(answer).as_bytes());
    }

    fn asks_elsewhere(&self) -> bool {
        true
    }

    fn give_back(self: Box<Self>) {
        self.0.refuse(SimulatedReason::stopped());
    }

    fn pass_on(self: Box<Self>, answer: Vec<u8>) {
        self.0.answer(&answer);
    }
}

impl fmt::Debug for LinkedReply {
    fn fmt(&self, f: &mut fmt::Formatter<'_>) -> fmt::Result {
        f.debug_tuple("LinkedReply").field(&self.0).finish()
    }
}
