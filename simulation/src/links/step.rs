use super::SimulatedReason;
use crate::bug::Bug;
use crate::ledger::SharedLedger;
use crate::time::Time;
use durkenzo_control::links::{ForwardedMessage, ForwardedRequest, FIRST_TABLE};
use durkenzo_driver::{Begin, NotDone, WorkStep};
use std::time::Duration;

/// The version of the table of commands of a process, unless the process is of the version before.
pub const TABLE: u16 = FIRST_TABLE + 1;

/// A step that a link has. The link must end it or give it back.
pub struct LinkedStep {
    /// The step, until it is ended or given back.
    step: Option<WorkStep>,
    /// The process that gave the step to the link.
    life: u64,
    /// The number of the step. Numbers rise in the order in which links get steps.
    number: u64,
    /// When the link lost its answer, if it was sent.
    lost: Option<Duration>,
    ledger: SharedLedger,
    time: Time,
    bug: Option<Bug>,
}

impl LinkedStep {
    /// Returns the step as this process gives it to a link.
    pub fn new(
        step: WorkStep,
        life: u64,
        (ledger, time): (&SharedLedger, &Time),
        bug: Option<Bug>,
    ) -> LinkedStep {
        let mut held = ledger.lock().expect("no schedule goes on after a panic");
        held.steps += 1;
        LinkedStep {
            step: Some(step),
            life,
            number: held.steps,
            lost: None,
            ledger: ledger.clone(),
            time: time.clone(),
            bug,
        }
    }

    /// Notes that the step goes on after it was sent to this server. If a later step was lost together with this one,
    /// and went on before, notes that too.
    pub fn note_resumed(&self, server: u16) {
        let Some(lost) = self.lost else {
            return;
        };
        let ledger = self.ledger.lock();
        let mut ledger = ledger.expect("no schedule goes on after a panic");
        let resumed = (lost, self.number);
        let before = ledger.resumed.insert((self.life, server), resumed);
        if before.is_some_and(|it| it.0 == lost && it.1 > self.number) {
            let by = format!("{:?}, lost at {lost:?}", self.step().begin);
            ledger.overtaken.get_or_insert(by);
        }
    }

    /// Takes the step back.
    pub fn into_step(mut self) -> WorkStep {
        self.step.take().expect("a link ends a step once")
    }

    fn step(&self) -> &WorkStep {
        self.step.as_ref().expect("a link ends a step once")
    }

    fn end(self, why: NotDone) {
        self.into_step().work.end(Err(why));
    }
}

impl ForwardedRequest for LinkedStep {
    type Reason = SimulatedReason;

    fn message(&self) -> ForwardedMessage {
        let WorkStep { begin, work } = self.step();
        let table = match begin {
            Begin::Keys(_) | Begin::Count => TABLE,
            Begin::Read(_)
            | Begin::Scan(_)
            | Begin::Change(_)
            | Begin::Write(_)
            | Begin::Numbered(..)
            | Begin::Opaque(_) => FIRST_TABLE,
        };
        let bytes = work.spell();
        ForwardedMessage { bytes, table }
    }

    fn is_awaited(&self) -> bool {
        self.step().work.is_wanted()
    }

    fn answer(self, answer: &[u8]) {
        self.into_step().work.answered(answer);
    }

    fn refuse(self, reason: SimulatedReason) {
        self.end(reason.0);
    }

    fn refuse_unreached(self, _server: u16, why: &str) {
        self.end(NotDone::NotMade(why.to_owned()));
    }

    fn refuse_unknown(self, server: u16) {
        self.end(NotDone::NotMade(format!("server {server} doesn't know it")));
    }

    fn after_loss(mut self, why: &str) -> Option<LinkedStep> {
        self.lost = Some(self.time.passed());
        let begin = &self.step().begin;
        // If such a step is done twice, the second time changes nothing.
        let is_harmless = begin.only_reads() || matches!(begin, Begin::Numbered(..));
        if is_harmless || self.bug == Some(Bug::SentAgain) {
            return Some(self);
        }
        self.end(NotDone::Unknown(why.to_owned()));
        None
    }
}

impl Drop for LinkedStep {
    fn drop(&mut self) {
        let (Some(step), Ok(mut ledger)) = (&self.step, self.ledger.lock()) else {
            return;
        };
        if !ledger.ended.contains(&self.life) && step.work.is_wanted() {
            ledger.dropped.get_or_insert(format!("{:?}", step.begin));
        }
    }
}
