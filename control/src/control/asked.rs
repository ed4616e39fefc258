use super::{Refusal, ReplyTo, Words};

/// The most commands that wait for the control.
pub const MOST_ASKED: usize = 4_096;

/// A command of the control, and the address of its answer.
#[derive(Debug)]
pub struct Asked {
    /// The command.
    pub words: Words,
    /// The address of the answer.
    pub reply_to: Box<dyn ReplyTo>,
}

impl Asked {
    /// Refuses it.
    pub fn refuse(self, refusal: Refusal) {
        self.reply_to.send(Err(refusal));
    }
}
