//! The shape of a schedule, as its seed draws it.
use super::{Happening, World, PROCESSES, SERVERS, WAIT};
use crate::chance::Chance;
use crate::control_shape::ControlShape;
use crate::fleet::{Callers, FleetShape};
use crate::machine_clock::{Clocks, MachineClock};
use crate::network::SimulatedNetwork;
use crate::part::Part;
use crate::plan::Plan;
use crate::server::{ServerKeys, SimulatedServerShape};
use crate::time::Time;
use crate::timeline::Timeline;
use crate::world::fleets::FleetOfWorld;
use crate::world::servers::ServerOfWorld;
use durkenzo_driver::{Reads, ShardOptions};
use durkenzo_server::works::ServerHost;

const SHARDS: u16 = 2;
/// How many shards there are if processes have the control that ships. If there are fewer shards than servers, some
/// servers have none, so that their restarts wait for nothing.
const CONTROLLED_SHARDS: u16 = 4;
const FEW_SHARDS: u16 = 2;
/// A log has at most this many batches before a base replaces them.
const MOST_BATCHES: u64 = 3;
/// These numbers give clocks, fleets, servers and numbers of shards random numbers of their own.
const OF_CLOCKS: u64 = 0xc10c;
const OF_SHARDS: u64 = 0x5ba2d;
const OF_FLEETS: u64 = 0xf1ee7;
const OF_SERVERS: u64 = 0x5e12e12;

/// The events of each schedule without a fleet, and their weights.
const ALWAYS: [(Happening, u64); 15] = [
    (World::ask, 16),
    (World::fly, 30),
    (World::read, 14),
    (World::tell_read, 7),
    (World::hear, 20),
    (World::deliver, 6),
    (World::answer, 4),
    (World::tick, 4),
    (World::turn_members, 6),
    (World::lapse, 2),
    (World::trouble_store, 4),
    (World::crash, 1),
    (World::start_one, 3),
    (World::give_up, 1),
    (World::pass_time, 7),
];

/// The events of each schedule with a fleet, whose processes write no logs.
const FLEET: [(Happening, u64); 17] = [
    (World::fly, 30),
    (World::read, 14),
    (World::tell_read, 7),
    (World::hear, 20),
    (World::tick, 4),
    (World::turn_members, 6),
    (World::lapse, 2),
    (World::trouble_store, 3),
    (World::crash, 1),
    (World::start_one, 3),
    (World::pass_time, 9),
    (World::keep_fleet, 40),
    (World::run_fleet, 60),
    (World::move_frames, 60),
    (World::call_fleet, 12),
    (World::harm_frames, 1),
    (World::stop_fleet, 1),
];

/// The events of each schedule with clients that speak RESP.
const SERVER: [(Happening, u64); 18] = [
    (World::fly, 30),
    (World::read, 14),
    (World::tell_read, 7),
    (World::hear, 20),
    (World::tick, 4),
    (World::turn_members, 6),
    (World::lapse, 2),
    (World::trouble_store, 4),
    (World::crash, 1),
    (World::start_one, 3),
    (World::pass_time, 7),
    (World::move_bytes, 60),
    (World::reach, 16),
    (World::tick_links, 10),
    (World::harm_network, 1),
    (World::ask_server, 16),
    (World::serve, 70),
    (World::move_lines, 50),
];

/// More events, if the schedule itself commands.
const COMMANDED: [(Happening, u64); 2] = [(World::command, 11), (World::elect, 1)];

/// More events, if processes have the control that ships.
const CONTROLLED: [(Happening, u64); 8] = [
    (World::take_turn, 100),
    (World::operate, 5),
    (World::leave_control, 1),
    (World::deliver_command, 6),
    (World::answer_command, 6),
    (World::pause, 1),
    (World::stop, 1),
    (World::renew_stopped, 2),
];

/// More events, if processes have the links that ship.
const LINKED: [(Happening, u64); 4] = [
    (World::move_bytes, 80),
    (World::reach, 16),
    (World::tick_links, 10),
    (World::harm_network, 1),
];

/// The shape of a schedule.
pub struct Shape {
    /// The events, and their weights.
    pub happenings: Vec<(Happening, u64)>,
    pub shards: u16,
    /// The control of the processes. It is `None` if the schedule itself commands.
    pub control: Option<ControlShape>,
    /// How exact the machines' clocks are, and the clock of each process, by its place.
    pub clocks: Clocks,
    pub machines: Vec<MachineClock>,
    pub shard_options: ShardOptions,
}

impl Shape {
    /// Draws the shape of this plan's schedule. `is_linked` says whether its processes have the links that ship.
    pub fn drawn(plan: &Plan, chance: &mut Chance, (time, is_linked): (&Time, bool)) -> Shape {
        let bug = plan.bug;
        let is_controlled = match bug {
            Some(bug) => bug.is_of_control() || bug.is_of_fleets(),
            None => chance.is_true(1, 4) || (plan.part == Part::Fleet && chance.is_true(2, 3)),
        };
        let (shards, more): (_, &[_]) = match is_controlled {
            true => (controlled_shards(plan), &CONTROLLED),
            false => (SHARDS, &COMMANDED),
        };
        let always: &[_] = match plan.part {
            Part::Fleet => &FLEET,
            Part::Server => &SERVER,
            Part::Processes | Part::EtcdClient | Part::Folder | Part::Alone => &ALWAYS,
        };
        let linked: &[_] = if is_linked { &LINKED } else { &[] };
        let happenings = weighed(chance, &[always, more, linked].concat());
        let mut of_clocks = Chance::new(plan.seed ^ OF_CLOCKS);
        let clocks = match bug {
            Some(bug) if bug.is_of_fleets() => Clocks::Within,
            _ => Clocks::drawn(&mut of_clocks),
        };
        Shape {
            happenings,
            shards,
            control: is_controlled.then(|| ControlShape::new(chance, shards, bug)),
            shard_options: drawn_tuning(plan, chance),
            machines: (0..PROCESSES)
                .map(|_| clocks.of_machine(&mut of_clocks, time))
                .collect(),
            clocks,
        }
    }

    /// Draws the clients of this plan's schedule that speak RESP, if it has such clients.
    pub fn server(
        &self,
        plan: &Plan,
        network: SimulatedNetwork<ServerHost>,
    ) -> Option<ServerOfWorld> {
        let chance = Chance::new(plan.seed ^ OF_SERVERS);
        let shape = SimulatedServerShape {
            keys: ServerKeys::new(self.shards),
            servers: SERVERS,
            wait: WAIT,
        };
        (plan.part == Part::Server).then(|| ServerOfWorld::new(shape, chance, network))
    }

    /// Draws the fleet of this plan's schedule, if it has one.
    pub fn fleet(&self, plan: &Plan, time: &Time, timeline: &Timeline) -> Option<FleetOfWorld> {
        let mut chance = Chance::new(plan.seed ^ OF_FLEETS);
        let size = (self.shards, SERVERS);
        (plan.part == Part::Fleet).then(|| {
            let shape = FleetShape::drawn(&mut chance, size, (time, self.clocks), plan.bug);
            let callers = Callers::new(&shape, time, timeline);
            FleetOfWorld::new(shape, callers, (chance, self.shards))
        })
    }
}

/// Draws how many shards there are if processes have the control that ships.
fn controlled_shards(plan: &Plan) -> u16 {
    let mut chance = Chance::new(plan.seed ^ OF_SHARDS);
    match plan.part == Part::Processes && plan.bug.is_none() && chance.is_true(1, 4) {
        true => FEW_SHARDS,
        false => CONTROLLED_SHARDS,
    }
}

/// Draws the options of this plan's shards.
fn drawn_tuning(plan: &Plan, chance: &mut Chance) -> ShardOptions {
    ShardOptions {
        wait: WAIT,
        most_batches: MOST_BATCHES,
        reads: match (chance.is_true(1, 3), plan.part) {
            // The clients of a server are judged by exact reads.
            (true, Part::Server) | (false, _) => Reads::Exact,
            (true, _) => Reads::Lease,
        },
    }
}

/// Returns all these events, each with a random weight.
fn weighed(chance: &mut Chance, all: &[(Happening, u64)]) -> Vec<(Happening, u64)> {
    let all = all.iter();
    let all = all.map(|it| (it.0, it.1 * [1, 2, 2, 2, 4][chance.below(5) as usize]));
    all.collect()
}
