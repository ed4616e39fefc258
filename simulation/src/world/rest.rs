//! Once all work is over, the queues must be as long as they were before. Otherwise a queue would grow forever.
use super::{World, PERIOD};
use crate::law::Broken;

/// How many periods a schedule may rest until nothing waits any more.
const RESTING: u64 = 80;
/// How many periods it may rest if processes have the links that ship. There are more, because it takes up to ten
/// seconds until others notice that a process is gone.
const LINKED_RESTING: u64 = 300;

/// The things that still wait in a schedule, or that are there once too often.
#[derive(Debug, Default, PartialEq, Eq)]
struct Left {
    flights: usize,
    messages: usize,
    /// Connections that have lost one side, or that aren't made yet.
    half_connected: usize,
    readings: usize,
    /// Calls, frames and bodies of fleets.
    of_fleets: [usize; 3],
    /// Connections of clients, and their turns.
    of_clients: [usize; 4],
    leases: usize,
    watches: usize,
}

impl World {
    /// Lets time pass until nothing waits. If something waits forever, notes that.
    pub(super) fn rest(&mut self) {
        let periods = match (&self.network, &self.server) {
            (None, None) => RESTING,
            (Some(_), _) | (None, Some(_)) => LINKED_RESTING,
        };
        self.end_clients();
        for _ in 0..periods {
            if self.left() == Left::default() {
                return;
            }
            self.time.pass(PERIOD);
            self.settle_once();
        }
        let by = format!("{:?}", self.left());
        self.fault.get_or_insert(Broken {
            law: "what waits is as long in the end as at the beginning",
            by,
        });
    }

    fn left(&self) -> Left {
        let (store, mails) = (self.store(), self.mails.lock().expect("no panic"));
        let running = || self.processes.iter().flatten();
        let beginning = self.beginnings.iter().flatten().count();
        let of_steps = mails.messages.len() + mails.answers.len();
        Left {
            flights: store.flights.len(),
            messages: of_steps + mails.commands.len() + mails.commands_back.len(),
            half_connected: self.half_connected(),
            readings: running().map(|it| it.read.len()).sum(),
            of_fleets: self.left_of_fleets(),
            of_clients: self.left_of_clients(),
            leases: store.leases().saturating_sub(running().count() + beginning),
            watches: store.watches()
                - self.client_watches
                - running().map(|it| it.watches).sum::<usize>(),
        }
    }

    fn half_connected(&self) -> usize {
        let own = self.network.as_ref().map_or(0, |it| it.half_connected());
        let server = self.server.as_ref();
        own + server.map_or(0, |it| it.network.half_connected())
    }
}
