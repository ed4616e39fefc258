use super::{Parcel, Parcels, SimulatedReason, SpelledAnswer, SpelledStep};
use crate::client::decided;
use durkenzo_control::links::ReplySender;
use durkenzo_driver::{MapReply, MapRequest, Work, WorkOutcome};
use std::sync::{Arc, Mutex};

/// An answer that a connection lost.
pub type LostAnswer = Arc<Mutex<Option<Vec<u8>>>>;

/// Work that came from another process, as this one has it.
pub struct VisitingWork {
    pub spelled: SpelledStep,
    pub parcels: Parcels,
    pub reply: ReplySender<SimulatedReason>,
    /// The values of its keys at the last decision, and the requests of each decision.
    pub held: Vec<MapReply>,
    pub decided: Vec<Vec<MapRequest>>,
    /// The place for an answer that nobody reads any more, if such answers are kept.
    pub lost: Option<LostAnswer>,
}

impl VisitingWork {
    fn answer(self, answer: &[u8]) {
        if let Some(lost) = self.lost.filter(|_| !self.reply.is_awaited()) {
            *lost.lock().expect("no schedule goes on after a panic") = Some(answer.to_vec());
        }
        self.reply.answer(answer);
    }
}

impl Work for VisitingWork {
    fn decide(&mut self, held: Vec<MapReply>) -> Vec<MapRequest> {
        let SpelledStep {
            begin,
            text,
            decided: before,
        } = &self.spelled;
        let time = before + self.decided.len() as u32;
        let requests = decided(begin, *text, time, &held);
        self.held = held;
        self.decided.push(requests.clone());
        requests
    }

    fn is_wanted(&self) -> bool {
        self.reply.is_awaited()
    }

    fn spell(&self) -> Vec<u8> {
        let mut spelled = self.spelled.clone();
        spelled.decided += self.decided.len() as u32;
        self.parcels.spelled(Parcel::Step(spelled))
    }

    fn answered(self: Box<Self>, answer: &[u8]) {
        self.answer(answer);
    }

    fn end(mut self: Box<Self>, outcome: WorkOutcome) {
        match outcome {
            Ok(replies) => {
                let answer = SpelledAnswer {
                    held: std::mem::take(&mut self.held),
                    decided: std::mem::take(&mut self.decided),
                    replies,
                };
                let answer = self.parcels.spelled(Parcel::Answer(answer));
                self.answer(&answer);
            }
            Err(why) => self.reply.refuse(SimulatedReason(why)),
        }
    }
}
