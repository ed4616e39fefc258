use crate::bug::Bug;
use crate::control_shape::ControlShape;
use crate::fleet::{FleetShape, RunningFleet};
use crate::line::Line;
use crate::links::{Inbox, LinkShape, LinkedHost};
use crate::machine_clock::MachineClock;
use crate::mail::{Mails, Message, Sender};
use crate::server::{SimulatedServer, SimulatedServerShape};
use crate::simulated_host::SimulatedHost;
use crate::simulated_peers::SimulatedPeers;
use crate::simulated_store::SharedStore;
use crate::timeline::Column;
use crate::world::SERVERS;
use durkenzo_control::control::{Asked, Campaigner};
use durkenzo_control::links::Links;
use durkenzo_driver::{
    Acks, Chores, Clock, Durable, DurableControl, HandOver, Member, OpenFault, Own, ShardOptions,
};
use std::sync::atomic::AtomicBool;
use std::sync::Arc;
use std::time::Duration;

/// The length of leases. A member uses no shorter ones.
pub const LEASE: Duration = Duration::from_secs(1);

/// Everything that a process needs from its surroundings.
pub struct Surroundings<'a> {
    pub store: &'a SharedStore,
    pub mails: &'a Mails,
    pub clock: &'a MachineClock,
    /// The shape of its links, if it has those that ship.
    pub links: Option<&'a LinkShape>,
    /// The shape of its fleet, if it belongs to one. Then its service executes by permits, and acks records itself.
    pub fleet: Option<&'a FleetShape>,
    /// How it serves clients that speak RESP, if it does.
    pub server: Option<&'a SimulatedServerShape>,
    pub bug: Option<Bug>,
}

/// A process with one server, as it ships, but without its threads.
pub struct Process {
    pub sender: Sender,
    pub member: Arc<Member>,
    pub durable: Arc<Durable>,
    pub chores: Chores,
    pub control: Option<DurableControl>,
    /// The control that ships and the requests to it, in schedules that have that control.
    pub campaigner: Option<Campaigner>,
    pub inbox: Inbox,
    /// The links that ship, in schedules that have them.
    pub links: Option<Links<LinkedHost>>,
    /// The time of the control's next turn, if nobody asks sooner.
    due: Duration,
    clock: MachineClock,
    bug: Option<Bug>,
    /// The process's part of a fleet, in schedules that have one.
    pub fleet: Option<RunningFleet>,
    /// The part of the process that serves clients, in schedules that have such clients.
    pub serving: Option<SimulatedServer>,
    /// Whether the process was asked to stop.
    pub is_stopping: Arc<AtomicBool>,
    /// The process does nothing before this time.
    pub paused_until: Duration,
    /// The readings that the process doesn't know of yet.
    pub read: Vec<Box<dyn FnOnce() + Send>>,
    /// How many watches the process has.
    pub watches: usize,
}

impl Process {
    /// Opens the shards of a process whose server has joined. `shards` is their number.
    pub fn start(
        around: &Surroundings<'_>,
        sender: Sender,
        member: Arc<Member>,
        shards: u16,
        shard_options: ShardOptions,
    ) -> Result<Process, OpenFault> {
        let (shared, shape, mails) = (around.store, around.links, around.mails);
        let own = around.clock.clone();
        let links = shape.map(|it| it.links(&member, around.clock));
        let sends = links.as_ref().zip(shape);
        let elsewhere = sends.map(|(links, shape)| shape.hand_over(links, sender));
        let reaches = around.server.map(|it| it.reach(&member, around.clock));
        let elsewhere = elsewhere.or_else(|| Some(reaches.as_ref()?.1.hand_over()));
        let (durable, chores) = Durable::open_without_threads(
            Arc::new(Line::of(shared, sender.place)),
            shards,
            shard_options,
            Own {
                member: member.clone(),
                elsewhere: elsewhere.unwrap_or_else(|| posts(mails.clone(), sender)),
                acks: match around.fleet.is_some() && around.bug != Some(Bug::EarlyLetGo) {
                    true => Acks::ByService,
                    false => Acks::AsRead,
                },
            },
            Clock::new(move || own.now()),
        )?;
        let (durable, inbox) = (Arc::new(durable), Inbox::default());
        if let Some((links, shape)) = links.as_ref().zip(shape) {
            shape.begin(links, SERVERS, &durable, &inbox);
        }
        let clock = around.clock.clone();
        let serving = around.server.zip(reaches);
        let serving = serving.map(|(shape, it)| shape.serve(it, &durable, &clock));
        let fleet = around.fleet;
        let fleet = fleet.map(|it| RunningFleet::start(it, sender, (&member, &durable), &clock));
        Ok(Process {
            sender,
            fleet,
            serving,
            member,
            durable,
            chores,
            control: None,
            campaigner: None,
            inbox,
            links,
            due: Duration::ZERO,
            clock,
            bug: None,
            is_stopping: Arc::default(),
            paused_until: Duration::ZERO,
            read: Vec::new(),
            watches: 0,
        })
    }

    /// Returns the process's column in timelines.
    pub fn column(&self) -> Column {
        Column::Process(self.sender.place)
    }

    /// Gives the process the control that ships.
    pub fn have_control(&mut self, mails: &Mails, shape: &ControlShape) {
        let host = SimulatedHost {
            is_stopping: self.is_stopping.clone(),
            pace: shape.pace,
            balances: shape.balances.clone(),
            balanced: shape.balanced.clone(),
        };
        let peers = SimulatedPeers {
            member: self.member.clone(),
            mails: mails.clone(),
            links: self.links.clone(),
            sender: self.sender,
            bug: shape.bug,
        };
        let (host, peers) = (Arc::new(host), Arc::new(peers));
        let (durable, line) = (self.durable.clone(), shape.settings.clone());
        if shape.is_roomy {
            durable.measure_loads();
        }
        self.campaigner = Some(Campaigner::new(host, durable, peers, line, true));
        self.bug = shape.bug;
    }

    /// Makes the control take its first request and do the work that is due.
    pub fn take_turn(&mut self) {
        if let Some(campaigner) = &mut self.campaigner {
            let asked = self.inbox.lock().expect("no panic").pop_front();
            campaigner.turn(asked);
            let wait = match self.bug {
                Some(Bug::EndlessWait) if !campaigner.is_idle() => Duration::MAX,
                _ => campaigner.wait(),
            };
            self.due = self.clock.passed().saturating_add(wait);
        }
    }

    /// Gives the control a turn if it has requests or its turn is due. A thread of its own would do the same.
    pub fn take_turn_if_due(&mut self) {
        if self.is_asked() || self.due <= self.clock.passed() {
            self.take_turn();
        }
    }

    /// Returns whether the process has its server, as far as it sees. If it doesn't, another process replaced it.
    pub fn is_member(&self) -> bool {
        let members = self.member.members();
        let own = members.get(&self.member.server());
        own.is_some_and(|it| it.process == self.member.process())
    }

    /// Returns whether the control has requests that it hasn't taken.
    pub fn is_asked(&self) -> bool {
        !self.inbox.lock().expect("no panic").is_empty()
    }

    /// Gives this request to the control.
    pub fn ask(&self, asked: Asked) {
        self.inbox.lock().expect("no panic").push_back(asked);
    }

    /// Does the work of the process's threads.
    pub fn do_chores(&mut self) {
        self.read.drain(..).for_each(|tell| tell());
        while let Some(tell) = self.chores.read(0) {
            tell();
        }
        self.chores.tick();
    }
}

/// Returns the function that sends steps to other processes by mail.
fn posts(mails: Mails, sender: Sender) -> HandOver {
    Box::new(move |elsewhere, steps| {
        let mut mail = mails.lock().expect("no schedule goes on after a panic");
        mail.messages.push(Message {
            sender,
            elsewhere,
            steps,
        });
    })
}
