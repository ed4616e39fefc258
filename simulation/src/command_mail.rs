//! The mail between the controls of processes: commands, and their outcomes.
use crate::mail::{Mails, Sender};
use crate::operator_reply::text;
use durkenzo_control::control::{Again, Asked, ControlAnswer, Refusal, ReplyTo};
use durkenzo_control::links::ForwardedCommand;
use std::fmt;

/// A command that went to the control of another process.
pub struct PassedCommand {
    pub asked: Asked,
    /// The queue in which the command waits again if nothing was done for it.
    pub again: Option<Again>,
}

impl PassedCommand {
    /// Takes the command back, because nothing was done for it. It waits again if it may. Otherwise it is refused.
    pub fn give_back(self, why: &str) {
        let held = match self.again {
            Some(again) => again.hold(self.asked),
            None => Err(self.asked),
        };
        if let Err(asked) = held {
            asked.reply_to.pass_on(why.as_bytes().to_vec());
        }
    }

    /// Answers that the command may have been done or not.
    pub fn lose(self) {
        let told = "UNKNOWN the connection broke: look before you try again";
        self.asked.reply_to.pass_on(told.as_bytes().to_vec());
    }

    /// Answers with the command's outcome, or takes the command back.
    pub fn end(self, became: CommandBecame) {
        match became {
            CommandBecame::Answered(answer) => self.asked.reply_to.pass_on(answer),
            CommandBecame::GivenBack => self.give_back(&Refusal::no_leader().to_string()),
            CommandBecame::Lost => self.lose(),
        }
    }
}

impl ForwardedCommand for PassedCommand {
    fn bytes(&self) -> Vec<u8> {
        let words: Vec<&[u8]> = self.asked.words.iter().map(|it| &**it).collect();
        words.join(&b' ')
    }

    fn answer(self, answer: &[u8]) {
        self.asked.reply_to.pass_on(answer.to_vec());
    }

    fn refuse(self) {
        self.give_back(&Refusal::no_leader().to_string());
    }

    fn refuse_unreached(self, _why: &str) {
        self.give_back("PEERDOWN nothing has changed");
    }

    fn lose(self, _why: &str) {
        PassedCommand::lose(self);
    }
}

/// A command on its way to the control of another process. If the sender knew no process of the server, `process` is
/// `None`.
pub struct CommandMessage {
    pub sender: Sender,
    pub process: Option<u64>,
    pub command: PassedCommand,
}

/// The outcome of a command at another process.
pub enum CommandBecame {
    Answered(Vec<u8>),
    GivenBack,
    Lost,
}

/// The outcome of a command, on its way back.
pub struct CommandAnswer {
    pub sender: Sender,
    pub command: PassedCommand,
    pub became: CommandBecame,
}

/// The destination of the answer to a command from another process. If this process crashes, the other one hears that
/// its connection broke.
pub struct VisitorReply {
    pub mails: Mails,
    /// The command, and the process that sent it. It is `None` if that process doesn't hear of the command any more.
    pub visits: Option<(Sender, PassedCommand)>,
}

impl VisitorReply {
    fn end(&mut self, became: CommandBecame) {
        let Some((sender, command)) = self.visits.take() else {
            return;
        };
        let mut mail = self
            .mails
            .lock()
            .expect("no schedule goes on after a panic");
        mail.commands_back.push(CommandAnswer {
            sender,
            command,
            became,
        });
    }
}

impl ReplyTo for VisitorReply {
    fn send(mut self: Box<Self>, answer: Result<ControlAnswer, Refusal>) {
        self.end(CommandBecame::Answered(text(answer).into_bytes()));
    }

    fn asks_elsewhere(&self) -> bool {
        true
    }

    fn give_back(mut self: Box<Self>) {
        self.end(CommandBecame::GivenBack);
    }

    fn pass_on(mut self: Box<Self>, answer: Vec<u8>) {
        self.end(CommandBecame::Answered(answer));
    }
}

impl Drop for VisitorReply {
    fn drop(&mut self) {
        self.end(CommandBecame::Lost);
    }
}

impl fmt::Debug for VisitorReply {
    fn fmt(&self, f: &mut fmt::Formatter<'_>) -> fmt::Result {
        f.write_str("VisitorReply")
    }
}
