use super::visiting_work::LostAnswer;
use super::{LinkedReply, LinkedStep, Parcel, Parcels, SimulatedReason, VisitingWork};
use crate::bug::Bug;
use crate::command_mail::PassedCommand;
use durkenzo_control::control::{Asked, Words};
use durkenzo_control::links::{
    Destination, Host, Identity, PeerSession, Reason, ReceivedRequests, ReplySender,
    ReturnedRequests, WireFault,
};
use durkenzo_driver::{Came, Durable, Elsewhere, WorkStep};
use std::collections::VecDeque;
use std::io;
use std::sync::{Arc, Mutex, Weak};
use std::time::Instant;

/// The requests that a control hasn't taken yet.
pub type Inbox = Arc<Mutex<VecDeque<Asked>>>;

/// A process as its links know it.
#[derive(Clone)]
pub struct LinkedHost {
    pub durable: Weak<Durable>,
    pub inbox: Inbox,
    pub parcels: Parcels,
    pub bug: Option<Bug>,
    /// The answer that a connection lost last.
    pub lost: LostAnswer,
}

impl LinkedHost {
    fn visiting(&self, bytes: &[u8], reply: ReplySender<SimulatedReason>) -> Option<WorkStep> {
        let Some(Parcel::Step(spelled)) = self.parcels.of(bytes) else {
            reply.refuse(SimulatedReason::unknown("it can't be read".to_owned()));
            return None;
        };
        let keeps_lost = self.bug == Some(Bug::StaleAnswer);
        let begin = spelled.begin.clone();
        let work = Box::new(VisitingWork {
            spelled,
            parcels: self.parcels.clone(),
            reply,
            held: Vec::new(),
            decided: Vec::new(),
            lost: keeps_lost.then(|| self.lost.clone()),
        });
        Some(WorkStep { begin, work })
    }
}

impl Host for LinkedHost {
    type Reason = SimulatedReason;
    type Destination = LinkedDestination;
    type Request = LinkedStep;
    type Command = PassedCommand;
    type Session = LinkedHost;

    fn session(&self, _peer: Identity) -> io::Result<LinkedHost> {
        Ok(self.clone())
    }

    fn resume(
        &self,
        returned: ReturnedRequests<LinkedHost>,
    ) -> Result<(), ReturnedRequests<LinkedHost>> {
        let Some(durable) = self.durable.upgrade() else {
            return Err(returned);
        };
        if self.bug == Some(Bug::DroppedReturn) {
            return Ok(());
        }
        let server = returned.destination.server();
        returned
            .requests
            .iter()
            .for_each(|it| it.note_resumed(server));
        let steps = returned.requests.into_iter().map(LinkedStep::into_step);
        durable.submit_again(returned.destination.0, steps.collect(), returned.revision);
        Ok(())
    }
}

impl PeerSession for LinkedHost {
    type Reason = SimulatedReason;

    fn execute(&mut self, received: ReceivedRequests<'_, SimulatedReason>) {
        let requests = received.requests.into_iter();
        let Some(durable) = self.durable.upgrade() else {
            return requests.for_each(|it| it.1.refuse(SimulatedReason::stopped()));
        };
        let steps = requests.filter_map(|(bytes, reply)| {
            // If a link numbered its requests anew on each connection, it would take the lost answer for the answer to
            // this one.
            let lost = self.lost.lock().expect("no panic").take();
            match lost {
                Some(answer) => {
                    reply.answer(&answer);
                    None
                }
                None => self.visiting(bytes, reply),
            }
        });
        let steps = steps.collect();
        durable.submit_from(received.shard, steps, received.came, received.since);
    }

    fn ask_control(
        &mut self,
        command: &[u8],
        reply: ReplySender<SimulatedReason>,
    ) -> Result<(), WireFault> {
        let words = std::str::from_utf8(command).map_err(|_| WireFault::Words)?;
        let mut inbox = self.inbox.lock().expect("no panic");
        inbox.push_back(Asked {
            words: Words::of(words.split(' ')),
            reply_to: Box::new(LinkedReply(reply)),
        });
        Ok(())
    }
}

/// The destination of the driver's steps.
#[derive(Clone)]
pub struct LinkedDestination(pub Elsewhere);

impl Destination for LinkedDestination {
    fn shard(&self) -> u16 {
        self.0.shard
    }

    fn server(&self) -> u16 {
        self.0.server
    }

    fn came(&self) -> Came {
        self.0.came
    }

    fn since(&self) -> Instant {
        self.0.since
    }
}
