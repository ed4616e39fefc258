//! Servers that join and keep their leases, as they ship. If another process has a server's key, they wait for it. If
//! they lose their leases, they take others.
use super::{server_of, World, PROCESSES};
use crate::beginning::{Beginning, BeginningStep};
use crate::fault::Fault;
use crate::links::LinkShape;
use crate::mail::Sender;
use crate::process::{Process, Surroundings};
use crate::simulated_store::locked;
use crate::timeline::Column;
use durkenzo_driver::{JoinFault, Member};
use std::sync::Arc;

impl World {
    /// Begins a process at this place. It runs once its server has joined.
    pub(super) fn start(&mut self, place: usize) {
        self.lives += 1;
        self.tally.starts += 1;
        let sender = Sender {
            place,
            life: self.lives,
        };
        if self.chance.is_true(1, 3) {
            let others = self.chance.below(12);
            self.store().begin_processes(others);
        }
        let shape = self.link_shape(sender);
        let address = match (&self.fleet, &self.server) {
            (Some(fleet), _) => Some(fleet.shape.address(sender)),
            (None, Some(_)) => Some(place.to_string()),
            (None, None) => None,
        };
        let surroundings = (&self.store, &self.shape.machines[place]);
        match Beginning::new(surroundings, sender, server_of(place), (shape, address)) {
            Ok(beginning) => {
                self.beginnings[place] = Some(beginning);
                self.turn_beginning(place);
            }
            Err(fault) => self.note_unbegun(sender, &fault),
        }
    }

    /// Starts a process at this place, unless one runs or begins there. If another process has the server's key, the
    /// new one would wait for it, so it mostly isn't started.
    pub(super) fn start_at(&mut self, at: usize) {
        let is_free = self.processes[at].is_none() && self.beginnings[at].is_none();
        let key = format!("server/{:05}", server_of(at));
        let is_taken = is_free && self.store().has(key.as_bytes());
        let waits = is_taken && !self.store().is_calm && self.chance.is_true(1, 4);
        if is_free && (!is_taken || waits) {
            self.start(at);
        }
    }

    /// Lets the processes that have begun do the work that is due.
    pub(super) fn turn_beginnings(&mut self) {
        (0..PROCESSES).for_each(|it| self.turn_beginning(it));
    }

    /// Lets the process that has begun at this place do the work that is due.
    pub(super) fn turn_beginning(&mut self, place: usize) {
        let Some(beginning) = self.beginnings[place].take() else {
            return;
        };
        let (sender, watches) = (beginning.sender, self.store().watches());
        match beginning.turn() {
            BeginningStep::Waits(beginning) => self.beginnings[place] = Some(*beginning),
            BeginningStep::Failed(fault) => self.note_unbegun(sender, &fault),
            BeginningStep::Joined(member, shape) => {
                self.begin_shards(sender, member, shape, watches)
            }
        }
    }

    /// Opens the shards of a process whose server has joined.
    fn begin_shards(
        &mut self,
        sender: Sender,
        member: Arc<Member>,
        shape: Option<LinkShape>,
        watches: usize,
    ) {
        let around = Surroundings {
            store: &self.store,
            mails: &self.mails,
            clock: &self.shape.machines[sender.place],
            links: shape.as_ref(),
            fleet: self.fleet.as_ref().map(|it| &it.shape),
            server: self.server.as_ref().map(|it| &it.shape),
            bug: self.bug,
        };
        let started = Process::start(
            &around,
            sender,
            member,
            self.shape.shards,
            self.shape.shard_options,
        );
        let mut process = match started {
            Ok(process) => process,
            Err(fault) => return self.note_unbegun(sender, &JoinFault::from(fault)),
        };
        process.watches = locked(&self.store).watches() - watches;
        if let Some(control) = &self.shape.control {
            process.have_control(&self.mails, control);
        }
        let begins = || format!("begins as process {}", process.member.process());
        self.timeline.note(process.column(), begins);
        self.processes[sender.place] = Some(process);
    }

    /// Notes that a process ends before its server has joined.
    fn note_unbegun(&mut self, sender: Sender, fault: &JoinFault) {
        let column = Column::Process(sender.place);
        self.timeline
            .note(column, || format!("doesn't begin: {fault}"));
        self.ledger
            .lock()
            .expect("no panic")
            .ended
            .insert(sender.life);
        self.network
            .iter_mut()
            .for_each(|it| it.forget(sender.life));
    }

    /// Lets the servers do the work that is due for their keys. By chance one of them is left out, and processes crash
    /// that haven't joined yet.
    pub(super) fn turn_members(&mut self) {
        let left_out = self.chance.below(2 * PROCESSES as u64) as usize;
        let now = self.time.passed();
        let others = self.processes.iter().enumerate();
        let others = others.filter(|it| it.0 != left_out);
        let others = others.filter_map(|it| it.1.as_ref());
        for process in others.filter(|it| it.paused_until <= now) {
            process.member.turn();
        }
        for place in 0..PROCESSES {
            if self.beginnings[place].is_some() && self.strikes(Fault::Crash, 1, 60, place) {
                self.beginnings[place] = None;
            }
        }
        self.turn_beginnings();
    }
}
