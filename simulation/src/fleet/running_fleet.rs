use super::book::SharedBook;
use super::frame_talk::{FrameEnd, FrameTalk};
use super::frames::{Asker, SharedFrames};
use super::journal::Journal;
use super::FleetEnvironment;
use crate::bug::Bug;
use crate::chance::Chance;
use crate::machine_clock::{Clocks, MachineClock, DRIFT};
use crate::mail::Sender;
use crate::tasks::Tasks;
use crate::time::Time;
use durkenzo_control::control::Asked;
use durkenzo_driver::{Durable, Member};
use durkenzo_fleet::simulated::{options, plant, FleetProcess, Held};
use durkenzo_fleet::Options;
use std::collections::VecDeque;
use std::sync::atomic::{AtomicBool, AtomicUsize, Ordering};
use std::sync::mpsc::Receiver;
use std::sync::{Arc, OnceLock};
use std::time::Duration;

/// The shape of a fleet in a schedule, which all of its processes share.
#[derive(Clone)]
pub struct FleetShape {
    pub options: Options,
    pub frames: SharedFrames,
    pub book: SharedBook,
    time: Time,
    is_in_pieces: bool,
    is_judged: bool,
    /// Whether a process has the address of the process before it at its place.
    keeps_addresses: bool,
    /// How many threads do the work that records ask for.
    settlers: usize,
}

/// A process of a fleet. It runs as it ships, except for its threads and sockets.
pub struct RunningFleet {
    pub process: FleetProcess<Journal>,
    pub tasks: Tasks,
    frames: SharedFrames,
    /// The shards whose records ask for work, how many threads do such work now, and how many there are.
    jobs: VecDeque<u16>,
    settling: Arc<AtomicUsize>,
    settlers: usize,
    asked: Receiver<Asked>,
    /// Whether the process is to leave, and whether it has left.
    is_leaving: bool,
    has_left: Arc<AtomicBool>,
}

/// Returns the options that are the same in all schedules. They are read only once, because reading flags takes long.
fn default_options() -> Options {
    static READ: OnceLock<Options> = OnceLock::new();
    READ.get_or_init(|| options(&["--lease", "2"]).expect("such flags there are"))
        .clone()
}

/// Returns options that are drawn by chance.
fn drawn_options(chance: &mut Chance) -> Options {
    let mut options = default_options();
    options.drift = u64::from(DRIFT);
    options.margin = chance.below(2) * 20;
    options.wait = 50 + chance.below(600);
    options.waiting = 1 + chance.below(8) as usize;
    options.moves = 1 + chance.below(3) as u16;
    options.piece = 8 + 8 * chance.below(6) as usize;
    options.body = [1 << 20, 1 << 20, 256][chance.below(3) as usize];
    options.connections = [1, 2, 4, 100][chance.below(4) as usize];
    options
}

impl FleetShape {
    /// Draws the shape of a fleet in a schedule of so many shards and servers.
    pub fn drawn(
        chance: &mut Chance,
        (shards, servers): (u16, u16),
        (time, clocks): (&Time, Clocks),
        bug: Option<Bug>,
    ) -> FleetShape {
        let mut options = drawn_options(chance);
        (options.shards, options.servers) = (shards, servers);
        if bug == Some(Bug::WholeLease) {
            options.drift = 0;
        }
        if let Some(rule) = bug.and_then(Bug::rule) {
            plant(&mut options, rule).expect("there is such a rule");
        }
        FleetShape {
            options,
            frames: SharedFrames::default(),
            book: SharedBook::new(super::Book::new(shards).into()),
            time: time.clone(),
            is_in_pieces: chance.is_true(2, 3),
            is_judged: clocks != Clocks::Beyond,
            keeps_addresses: chance.is_true(1, 2),
            settlers: 1 + chance.below(4) as usize,
        }
    }

    /// Returns the address of this process.
    pub fn address(&self, sender: Sender) -> String {
        match self.keeps_addresses {
            true => format!("place-{}", sender.place),
            false => format!("life-{}", sender.life),
        }
    }
}

impl RunningFleet {
    /// Starts a process of this member.
    pub fn start(
        shape: &FleetShape,
        sender: Sender,
        (member, durable): (&Arc<Member>, &Arc<Durable>),
        clock: &MachineClock,
    ) -> RunningFleet {
        let environment = FleetEnvironment {
            frames: shape.frames.clone(),
            asker: Asker::Process {
                life: sender.life,
                server: member.server(),
            },
            clock: clock.clone(),
        };
        let journal = Journal {
            book: shape.book.clone(),
            time: shape.time.clone(),
            life: sender.life,
            is_in_pieces: shape.is_in_pieces,
            is_judged: shape.is_judged,
        };
        let mut options = shape.options.clone();
        options.name = member.server();
        let made = FleetProcess::new((journal, options), member, durable, Arc::new(environment));
        let process = made.expect("options are within their bounds");
        RunningFleet {
            asked: process.have_control(),
            process,
            tasks: Tasks::default(),
            frames: shape.frames.clone(),
            jobs: VecDeque::new(),
            settling: Arc::default(),
            settlers: shape.settlers,
            is_leaving: false,
            has_left: Arc::default(),
        }
    }

    /// Reads the changes, as the follower of a process does. Then threads begin the work that records ask for.
    pub fn follow(&mut self) {
        let jobs = &mut self.jobs;
        self.process.follow(|it| jobs.push_back(it));
        self.begin_jobs();
    }

    /// Gives each thread that has nothing to do a shard whose record asks for work.
    pub fn begin_jobs(&mut self) {
        while self.settling.load(Ordering::Relaxed) < self.settlers {
            let Some(shard) = self.jobs.pop_front() else {
                return;
            };
            let (settles, settling) = (self.process.settle(shard), self.settling.clone());
            settling.fetch_add(1, Ordering::Relaxed);
            self.tasks.add(async move {
                settles.await;
                settling.fetch_sub(1, Ordering::Relaxed);
            });
        }
    }

    /// Takes a connection, if the process has a place for it. Returns whether it has.
    pub fn accept(&mut self, number: u64, from: Asker) -> bool {
        let server = match from {
            Asker::Process { server, .. } => Some(server),
            Asker::Client(_) => None,
        };
        let frames = || self.frames.clone();
        let end = Box::new(FrameEnd {
            number,
            frames: frames(),
        });
        let talk = FrameTalk {
            number,
            frames: frames(),
        };
        let Some(serves) = self.process.serve(server, end, talk) else {
            return false;
        };
        // The side that connects ends the connection, so the result doesn't matter.
        self.tasks.add(async move { drop(serves.await) });
        true
    }

    /// Begins to leave. The process waits until others have its shards, or until `grace` has passed. It serves nobody
    /// after that.
    pub fn stop(&mut self, grace: Duration) {
        if std::mem::replace(&mut self.is_leaving, true) {
            return;
        }
        let (gives_way, leaves) = (self.process.give_way(grace), self.process.leave());
        let has_left = self.has_left.clone();
        self.tasks.add(async move {
            gives_way.await;
            leaves.await;
            has_left.store(true, Ordering::Relaxed);
        });
    }

    /// Returns whether the process is to leave.
    pub fn is_leaving(&self) -> bool {
        self.is_leaving
    }

    /// Returns whether the process has left.
    pub fn has_left(&self) -> bool {
        self.has_left.load(Ordering::Relaxed)
    }

    /// Returns the next request of the process to its control, if there is one.
    pub fn take_asked(&self) -> Option<Asked> {
        self.asked.try_recv().ok()
    }

    /// Returns whether the process may execute for the shard now, if a client or some server sends the call.
    pub fn holds(&self, shard: u16, servers: u16) -> bool {
        (0..=servers).any(|from| self.process.holds(shard, from))
    }

    /// Returns how much waits in the process, and how much it has taken. The caller checks that it is within its
    /// bounds.
    pub fn held(&self) -> Held {
        self.process.held()
    }
}
