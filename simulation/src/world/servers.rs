//! Clients that speak RESP to the processes, which serve them as they ship.
use super::{World, PROCESSES};
use crate::chance::Chance;
use crate::law::Broken;
use crate::network::SimulatedNetwork;
use crate::process::Process;
use crate::reading::MapModel;
use crate::server::{RespClients, SimulatedServer, SimulatedServerShape};
use crate::timeline::Column;
use durkenzo_control::control::Refusal;
use durkenzo_server::works::ServerHost;
use std::collections::{BTreeSet, HashMap};

/// How many rounds a process has at once, at most, and while it stops.
const ROUNDS: u64 = 4;
const LAST_ROUNDS: usize = 100;
/// How often everything moves in a period at most, once nothing fails.
const SETTLED: usize = 60;

/// The clients of a schedule.
pub struct ServerOfWorld {
    pub shape: SimulatedServerShape,
    /// The network between the processes.
    pub network: SimulatedNetwork<ServerHost>,
    clients: RespClients,
}

impl ServerOfWorld {
    /// Returns clients that aren't connected.
    pub fn new(
        shape: SimulatedServerShape,
        chance: Chance,
        network: SimulatedNetwork<ServerHost>,
    ) -> ServerOfWorld {
        ServerOfWorld {
            clients: RespClients::new(shape.keys.clone(), chance),
            shape,
            network,
        }
    }
}

impl World {
    /// Lets a client send commands, or connect to a process.
    pub(super) fn ask_server(&mut self) {
        let Some(server) = &mut self.server else {
            return;
        };
        let Some(at) = server.clients.ask() else {
            return;
        };
        let place = server.clients.draw(PROCESSES);
        let Some(process) = &mut self.processes[place] else {
            return;
        };
        let serving = process.serving.as_mut();
        if let Some(serving) = serving.filter(|it| !it.is_stopping()) {
            let line = server.clients.connect(at, process.sender);
            serving.thread.accept(line);
            let connects = || format!("client {at} connects");
            self.timeline.note(Column::Process(place), connects);
        }
    }

    /// Lets the thread of a process go on that owns connections, if it would.
    pub(super) fn serve(&mut self) {
        let (times, is_woken_first) = (1 + self.chance.below(ROUNDS), self.chance.is_true(1, 2));
        let Some(place) = self.place() else {
            return;
        };
        let process = self.processes[place].as_mut();
        let Some(serving) = process.and_then(|it| it.serving.as_mut()) else {
            return;
        };
        for _ in 0..times {
            if serving.thread.is_due() {
                serving.thread.round(is_woken_first);
            }
        }
        self.refuse_asked(place);
        self.judge_held(place);
    }

    /// Refuses the requests of a process's clients to its control. Operators have their own way to it.
    fn refuse_asked(&self, place: usize) {
        let process = self.processes[place].as_ref();
        let serving = process.and_then(|it| it.serving.as_ref());
        let asked = |it: &SimulatedServer| it.take_asked();
        while let Some(asked) = serving.and_then(asked) {
            asked.refuse(Refusal::crowded());
        }
    }

    /// Moves bytes between clients and processes. Sometimes something fails there.
    pub(super) fn move_lines(&mut self) {
        let (now, ended) = (self.time.passed(), self.ended());
        let Some(server) = &mut self.server else {
            return;
        };
        let clients = &mut server.clients;
        let moved = clients.move_some(&self.faults, now, &|it| ended.contains(&it));
        if let Err(broken) = moved {
            self.fault.get_or_insert(broken);
        }
    }

    /// Lets all clients and all processes that serve them go on until nothing moves. Nothing fails any more.
    pub(super) fn settle_servers(&mut self) {
        for _ in 0..SETTLED {
            if !self.have_lines_moved() {
                return;
            }
        }
    }

    /// Moves all bytes between clients and processes. Returns whether any moved.
    fn have_lines_moved(&mut self) -> bool {
        let ended = self.ended();
        let Some(server) = &mut self.server else {
            return false;
        };
        let moved = server.clients.move_all(&|it| ended.contains(&it));
        let mut have_moved = moved.unwrap_or_else(|broken| {
            self.fault.get_or_insert(broken);
            true
        });
        let now = self.time.passed();
        for process in self.processes.iter_mut().flatten() {
            let serving = process.serving.as_mut();
            let serving = serving.filter(|_| process.paused_until <= now);
            if let Some(serving) = serving.filter(|it| it.thread.is_due()) {
                serving.thread.round(true);
                have_moved = true;
            }
        }
        (0..PROCESSES).for_each(|it| self.refuse_asked(it));
        have_moved
    }

    /// Makes a process answer what came, and end the connections of its clients.
    pub(super) fn stop_serving(&mut self, process: &mut Process) {
        let Some(serving) = &mut process.serving else {
            return;
        };
        serving.stop();
        for _ in 0..LAST_ROUNDS {
            serving.thread.round(true);
            if serving.thread.is_over() {
                return;
            }
        }
    }

    /// Tells a process that it must stop.
    pub(super) fn begin_to_stop_serving(&self, place: usize) {
        let process = self.processes[place].as_ref();
        let serving = process.and_then(|it| it.serving.as_ref());
        serving.into_iter().for_each(SimulatedServer::stop);
    }

    /// Returns the processes that have ended, and those that stop.
    fn ended(&self) -> BTreeSet<u64> {
        let mut ended = self.ledger.lock().expect("no panic").ended.clone();
        let running = self.processes.iter().flatten();
        let stopping = running.filter(|it| {
            it.serving
                .as_ref()
                .is_some_and(SimulatedServer::is_stopping)
        });
        ended.extend(stopping.map(|it| it.sender.life));
        ended
    }

    /// Returns whether no client expects an answer. If there are no such clients, returns true.
    pub(super) fn are_clients_told(&self) -> bool {
        let server = self.server.as_ref();
        server.is_none_or(|it| it.clients.are_told())
    }

    /// Returns the commands that aren't answered, for a law that is broken.
    pub(super) fn shown_clients(&self) -> String {
        let server = self.server.as_ref();
        server.map_or_else(String::new, |it| it.clients.shown())
    }

    /// Makes all clients send no more.
    pub(super) fn end_clients(&mut self) {
        self.server.iter_mut().for_each(|it| it.clients.end());
    }

    /// Returns how many connections processes hold, how many they count, how many turns are due, and how many
    /// connections clients have.
    pub(super) fn left_of_clients(&self) -> [usize; 4] {
        let running = self.processes.iter().flatten();
        let serving: Vec<&SimulatedServer> = running.filter_map(|it| it.serving.as_ref()).collect();
        let held: Vec<_> = serving.iter().map(|it| it.thread.held()).collect();
        [
            held.iter().map(|it| it.connections).sum(),
            serving.iter().map(|it| it.thread.counted() as usize).sum(),
            held.iter().map(|it| it.queued + it.half_closed).sum(),
            self.server.as_ref().map_or(0, |it| it.clients.connected()),
        ]
    }

    /// Counts the commands of clients.
    pub(super) fn tally_clients(&mut self) {
        if let Some(server) = &self.server {
            let [answered, refused, unknown] = server.clients.counts();
            let tally = &mut self.tally;
            (tally.answered, tally.refused, tally.unknown) = (answered, refused, unknown);
            tally.calls = server.clients.commands();
        }
    }

    /// Checks that a process holds no more for a client than it may.
    fn judge_held(&mut self, place: usize) {
        let process = self.processes[place].as_ref();
        let serving = process.and_then(|it| it.serving.as_ref());
        if let Some(Err(broken)) = serving.map(|it| it.thread.judge_held()) {
            self.fault.get_or_insert(broken);
        }
    }
}

/// Judges the answers to all clients. These are the maps of the shards in the end. Returns how many commands were made
/// before an earlier one of their pipeline.
pub fn judge(server: Option<&ServerOfWorld>, maps: &HashMap<u16, MapModel>) -> Result<u64, Broken> {
    let Some(server) = server else {
        return Ok(0);
    };
    server.clients.judge(|shard, name| {
        let held = maps.get(&shard).cloned().unwrap_or_default();
        held.get(name)
    })
}
