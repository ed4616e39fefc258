use crate::bug::Bug;
use crate::command_mail::{CommandMessage, PassedCommand};
use crate::links::LinkedHost;
use crate::mail::{Mails, Sender};
use crate::operator_reply::text;
use durkenzo_control::control::{
    Again, Asked, ControlAnswer, OtherControls, Refusal, ReplyTo, Words,
};
use durkenzo_control::links::Links;
use durkenzo_driver::Member;
use std::fmt;
use std::sync::Arc;

/// The controls of other processes, as this process reaches them.
pub struct SimulatedPeers {
    pub member: Arc<Member>,
    pub mails: Mails,
    /// The links that ship, in schedules that have them.
    pub links: Option<Links<LinkedHost>>,
    pub sender: Sender,
    pub bug: Option<Bug>,
}

impl SimulatedPeers {
    fn send(&self, server: u16, command: PassedCommand) {
        if let Some(links) = &self.links {
            return links.ask_control(server, command);
        }
        let mut mail = self
            .mails
            .lock()
            .expect("no schedule goes on after a panic");
        mail.commands.push(CommandMessage {
            sender: self.sender,
            process: self.member.members().get(&server).map(|it| it.process),
            command,
        });
    }
}

impl OtherControls for SimulatedPeers {
    fn member(&self) -> &Member {
        &self.member
    }

    fn leader(&self) -> Option<u16> {
        let (leader, members) = (self.member.leader()?, self.member.members());
        let mut found = members.iter().filter(|it| it.1.process == leader);
        found.next().map(|it| *it.0)
    }

    fn ask(&self, server: u16, asked: Asked, again: Option<Again>) {
        if self.bug != Some(Bug::ForgottenCommand) {
            self.send(server, PassedCommand { asked, again });
        }
    }

    fn ask_to_be_back(&self, leader: u16, tell: Box<dyn FnOnce(bool) + Send>) {
        let asked = Asked {
            words: Words::of(["SM", "BACK", &self.member.server().to_string()]),
            reply_to: Box::new(BackReply(tell)),
        };
        let again = None;
        self.send(leader, PassedCommand { asked, again });
    }
}

/// The beginnings of answers that don't say that the command was decided on.
const UNDECIDED: [&str; 4] = ["UNKNOWN", "PEERDOWN", "REFUSED NotLeader", "REFUSED St"];

/// Tells a server that is back whether its return was decided.
struct BackReply(Box<dyn FnOnce(bool) + Send>);

impl ReplyTo for BackReply {
    fn send(self: Box<Self>, answer: Result<ControlAnswer, Refusal>) {
        self.pass_on(text(answer).into_bytes());
    }

    fn pass_on(self: Box<Self>, answer: Vec<u8>) {
        let told = String::from_utf8_lossy(&answer);
        (self.0)(!UNDECIDED.iter().any(|it| told.starts_with(it)));
    }
}

impl fmt::Debug for BackReply {
    fn fmt(&self, f: &mut fmt::Formatter<'_>) -> fmt::Result {
        f.write_str("BackReply")
    }
}
