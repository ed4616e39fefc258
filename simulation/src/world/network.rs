//! The events between processes that have the links that ship.
use super::World;
use crate::links::LinkedHost;
use crate::mail::Sender;
use crate::process::Process;
use durkenzo_control::links::Links;
use durkenzo_server::works::ServerHost;
use std::time::Duration;

/// How many times bytes move at once, at most.
const MOVES: u64 = 64;

impl World {
    /// Moves bytes between processes.
    pub(super) fn move_bytes(&mut self) {
        let moves = 1 + self.chance.below(MOVES);
        let (now, processes) = (self.time.passed(), &self.processes);
        let is_paused = |it: Sender| {
            let process = processes[it.place].as_ref();
            process.is_some_and(|it| it.paused_until > now)
        };
        if let Some(network) = &mut self.network {
            (0..moves).for_each(|_| network.go_on(is_paused));
        }
        if let Some(server) = &mut self.server {
            (0..moves).for_each(|_| server.network.go_on(is_paused));
        }
    }

    /// Connects processes to those that their links need, or fails to.
    pub(super) fn reach(&mut self) {
        let (is_calm, now) = (self.store().is_calm, self.time.passed());
        if let Some(network) = &mut self.network {
            network.reach_all(&there(&self.processes, now).collect::<Vec<_>>(), is_calm);
        }
        if let Some(server) = &mut self.server {
            let there: Vec<_> = there_to_serve(&self.processes, now).collect();
            server.network.reach_all(&there, is_calm);
        }
    }

    /// Lets the links of a process do the work that is due.
    pub(super) fn tick_links(&mut self) {
        if let Some(process) = self.process() {
            process.links.iter().for_each(Links::tick);
            process.serving.iter().for_each(|it| it.links.tick());
        }
    }

    /// Makes something fail between processes.
    pub(super) fn harm_network(&mut self) {
        self.network.iter_mut().for_each(|it| it.harm());
        self.server.iter_mut().for_each(|it| it.network.harm());
    }

    /// Delivers everything that is on its way between processes.
    pub(super) fn settle_network(&mut self) {
        let now = self.time.passed();
        there(&self.processes, now).for_each(|it| it.1.tick());
        there_to_serve(&self.processes, now).for_each(|it| it.1.tick());
        self.reach();
        self.network.iter_mut().for_each(|it| it.settle());
        self.server.iter_mut().for_each(|it| it.network.settle());
    }

    /// Makes a process leave the others. They read everything that it still has to tell.
    pub(super) fn leave_links(&mut self, process: &Process) {
        // Those who asked it something see that it ends, so it may drop their requests.
        let mut ledger = self.ledger.lock().expect("no panic");
        ledger.ended.insert(process.sender.life);
        drop(ledger);
        if let (Some(links), Some(network)) = (&process.links, &mut self.network) {
            links.close();
            network.flush(process.sender.life);
            links.leave_at_once();
        }
        if let (Some(serving), Some(server)) = (&process.serving, &mut self.server) {
            serving.links.close();
            server.network.flush(process.sender.life);
            serving.links.leave_at_once();
        }
    }

    /// Checks that links ended all requests that they got, or gave them back. Requests that were lost together must
    /// have gone on in their order, so that no later request of a client comes before an earlier one.
    pub(super) fn judge_links(&mut self) {
        let ledger = self.ledger.lock().expect("no panic");
        let (dropped, overtaken) = (ledger.dropped.clone(), ledger.overtaken.clone());
        drop(ledger);
        if let Some(dropped) = dropped {
            self.find("what a link gets is ended or goes on", dropped);
        }
        if let Some(overtaken) = overtaken {
            self.find("what a link loses goes on in its order", overtaken);
        }
        if let Some(network) = &self.network {
            (self.tally.reached, self.tally.broken) = (network.made, network.broken);
        }
        if let Some(server) = &self.server {
            let network = &server.network;
            (self.tally.reached, self.tally.broken) = (network.made, network.broken);
        }
    }
}

/// Returns the processes that aren't paused, and their links.
fn there(
    processes: &[Option<Process>],
    now: Duration,
) -> impl Iterator<Item = (Sender, &Links<LinkedHost>)> {
    let there = processes.iter().flatten();
    let there = there.filter(move |it| it.paused_until <= now);
    there.filter_map(|it| Some((it.sender, it.links.as_ref()?)))
}

/// Returns the processes that serve clients and aren't paused, and their links.
fn there_to_serve(
    processes: &[Option<Process>],
    now: Duration,
) -> impl Iterator<Item = (Sender, &Links<ServerHost>)> {
    let there = processes.iter().flatten();
    let there = there.filter(move |it| it.paused_until <= now);
    there.filter_map(|it| Some((it.sender, &it.serving.as_ref()?.links)))
}
