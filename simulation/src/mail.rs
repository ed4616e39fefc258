//! The mail between processes: steps that the server of another process executes, and their outcomes.
use crate::command_mail::{CommandAnswer, CommandMessage};
use durkenzo_driver::{Elsewhere, MapReply, MapRequest, NotDone, Work, WorkOutcome, WorkStep};
use std::sync::{Arc, Mutex};

/// A process in one of its lives.
#[derive(Clone, Copy, Debug, PartialEq, Eq)]
pub struct Sender {
    pub place: usize,
    pub life: u64,
}

/// Steps on their way to another process.
pub struct Message {
    pub sender: Sender,
    pub elsewhere: Elsewhere,
    pub steps: Vec<WorkStep>,
}

/// The outcome of a step, on its way back.
pub struct StepAnswer {
    pub sender: Sender,
    pub elsewhere: Elsewhere,
    pub step: WorkStep,
    pub outcome: WorkOutcome,
}

#[derive(Default)]
pub struct Mail {
    pub messages: Vec<Message>,
    pub answers: Vec<StepAnswer>,
    /// Commands for the controls of other processes, and their outcomes.
    pub commands: Vec<CommandMessage>,
    pub commands_back: Vec<CommandAnswer>,
}

impl Mail {
    /// Returns whether there is no mail.
    pub fn is_empty(&self) -> bool {
        let is_of_steps = self.messages.is_empty() && self.answers.is_empty();
        is_of_steps && self.commands.is_empty() && self.commands_back.is_empty()
    }
}

/// All mail on its way, which the processes share.
pub type Mails = Arc<Mutex<Mail>>;

/// A step that came from another process. If this process crashes, the other one hears that its connection broke.
struct Visiting {
    mails: Mails,
    sender: Sender,
    elsewhere: Elsewhere,
    step: Option<WorkStep>,
}

impl Visiting {
    fn answer(&mut self, outcome: WorkOutcome) {
        let Some(step) = self.step.take() else {
            return;
        };
        let mut mail = self
            .mails
            .lock()
            .expect("no schedule goes on after a panic");
        mail.answers.push(StepAnswer {
            sender: self.sender,
            elsewhere: self.elsewhere.clone(),
            step,
            outcome,
        });
    }
}

impl Work for Visiting {
    fn decide(&mut self, held: Vec<MapReply>) -> Vec<MapRequest> {
        let step = self.step.as_mut();
        step.map_or_else(Vec::new, |it| it.work.decide(held))
    }

    fn is_wanted(&self) -> bool {
        self.step.as_ref().is_some_and(|it| it.work.is_wanted())
    }

    fn spell(&self) -> Vec<u8> {
        Vec::new()
    }

    fn answered(self: Box<Self>, _answer: &[u8]) {}

    fn end(mut self: Box<Self>, outcome: WorkOutcome) {
        self.answer(outcome);
    }
}

impl Drop for Visiting {
    fn drop(&mut self) {
        self.answer(Err(broken()));
    }
}

/// Returns the reason with which a process ends work if its answer can't arrive any more.
pub fn broken() -> NotDone {
    NotDone::Unknown("the connection broke".to_owned())
}

/// Returns the message's steps as the receiving process executes them.
pub fn visiting(mails: &Mails, message: Message) -> Vec<WorkStep> {
    let steps = message.steps.into_iter();
    let visits = steps.map(|step| WorkStep {
        begin: step.begin.clone(),
        work: Box::new(Visiting {
            mails: mails.clone(),
            sender: message.sender,
            elsewhere: message.elsewhere.clone(),
            step: Some(step),
        }),
    });
    visits.collect()
}
