use crate::line::Line;
use crate::links::LinkShape;
use crate::machine_clock::MachineClock;
use crate::mail::Sender;
use crate::process::LEASE;
use crate::simulated_store::SharedStore;
use durkenzo_driver::{Addresses, Clock, JoinFault, JoinStep, JoiningMember, Member};
use std::sync::Arc;

/// A process that has begun, but whose server hasn't joined yet.
pub struct Beginning {
    pub sender: Sender,
    joining: JoiningMember,
    pub shape: Option<LinkShape>,
}

/// The result of a turn of a `Beginning`.
pub enum BeginningStep {
    /// The server has joined.
    Joined(Arc<Member>, Option<LinkShape>),
    Waits(Box<Beginning>),
    /// The process ends.
    Failed(JoinFault),
}

impl Beginning {
    /// Begins a process for this server.
    pub fn new(
        (shared, clock): (&SharedStore, &MachineClock),
        sender: Sender,
        server: u16,
        (shape, address): (Option<LinkShape>, Option<String>),
    ) -> Result<Beginning, JoinFault> {
        let (leases, own) = (clock.clone(), clock.clone());
        let mut addresses = Addresses::default();
        if shape.is_some() {
            addresses.servers = sender.place.to_string();
        }
        if let Some(address) = address {
            addresses.servers = address;
        }
        let joining = Member::join_without_thread(
            Arc::new(Line::of(shared, sender.place)),
            server,
            addresses,
            LEASE,
            Clock::new(move || own.now()),
            move || leases.passed(),
        )?;
        Ok(Beginning {
            sender,
            joining,
            shape,
        })
    }

    /// Does the work that is due.
    pub fn turn(self) -> BeginningStep {
        match self.joining.turn() {
            JoinStep::Joined(member) => BeginningStep::Joined(Arc::new(member), self.shape),
            JoinStep::Waits(joining, _) => {
                BeginningStep::Waits(Box::new(Beginning { joining, ..self }))
            }
            JoinStep::Failed(fault) => BeginningStep::Failed(fault),
        }
    }
}
