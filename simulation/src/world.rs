//! The world of a schedule: three servers, clients and a store, and random events. One of the servers may run twice.
mod controls;
mod fleets;
mod members;
mod network;
mod rest;
mod servers;
mod shape;

use crate::alone::run_alone_by;
use crate::beginning::Beginning;
use crate::bug::Bug;
use crate::chance::Chance;
use crate::client::{Asking, Claims, Client};
use crate::command::{command, settings};
use crate::etcd_client::run_clients_by;
use crate::fault::Fault;
use crate::fault_counts::FaultCounts;
use crate::faults::Faults;
use crate::folder::run_folder_by;
use crate::key::Written;
use crate::law::{check, Broken};
use crate::ledger::SharedLedger;
use crate::links::{LinkShape, LinkedHost, Parcels};
use crate::mail::{broken, visiting, Mails, Message, Sender, StepAnswer};
use crate::network::SimulatedNetwork;
use crate::part::Part;
use crate::picture::{Picture, GONE};
use crate::plan::{Plan, Ran};
use crate::process::{Process, LEASE};
use crate::simulated_store::{locked, SharedStore, SimulatedStore};
use crate::tally::Tally;
use crate::time::Time;
use crate::timeline::{Column, Timeline};
use durkenzo_driver::{
    Begin, ControlCommand, DurableControl, Key, MapRequest, NotDone, Range, Reads, Refused,
    WorkStep,
};
use fleets::FleetOfWorld;
use servers::ServerOfWorld;
use shape::Shape;
use std::sync::atomic::{AtomicBool, Ordering};
use std::sync::{Arc, Mutex, MutexGuard, Weak};
use std::time::Duration;

pub const SERVERS: u16 = 3;
/// There is one process more than servers, because a process that is believed dead may still run.
const PROCESSES: usize = 4;
/// How many shards a server has room for, if the schedule itself commands.
const ROOM: u16 = 9;
const CLIENTS: u64 = 2;
const EVENTS: u64 = 500;
/// How many events there are if processes have the control that ships.
const CONTROLLED_EVENTS: u64 = 2_500;
/// How many events there are at least if processes have the links that ship.
const LINKED_EVENTS: u64 = 1_500;
/// How many periods may pass until everything is over once nothing fails, and how many milliseconds a period has. In a
/// period, each kind of message moves as often as the period has milliseconds.
const SETTLING: u64 = 60;
const PERIOD: u64 = 50;
/// How many periods there are if processes have the links that ship, or belong to a fleet. They need more, because the
/// requests that a machine had are lost only when others notice that the machine is gone.
const LINKED_SETTLING: u64 = 500;
/// How long work waits for a shard that no server executes.
const WAIT: Duration = Duration::from_millis(300);

/// An event that may happen next.
type Happening = fn(&mut World);

pub struct World {
    chance: Chance,
    shape: Shape,
    ledger: SharedLedger,
    bug: Option<Bug>,
    time: Time,
    /// The fleet of the processes, in schedules that have one.
    fleet: Option<FleetOfWorld>,
    faults: Faults,
    timeline: Timeline,
    store: SharedStore,
    mails: Mails,
    /// The network between the processes, if they have the links that ship.
    network: Option<SimulatedNetwork<LinkedHost>>,
    /// The clients of the processes that speak RESP, in schedules that have them.
    server: Option<ServerOfWorld>,
    parcels: Parcels,
    told: Claims,
    processes: Vec<Option<Process>>,
    /// The processes whose servers haven't joined yet, by their places.
    beginnings: Vec<Option<Beginning>>,
    /// How many processes have been started.
    lives: u64,
    /// How many watches the clients of fleets have.
    client_watches: usize,
    clients: Vec<Client>,
    /// The work that shards were asked for, and whether somebody waits for it. The last part is gone once the work is
    /// over.
    asked: Vec<(u16, Begin, Weak<AtomicBool>)>,
    /// The number of the last text. It makes each text unique.
    texts: u32,
    /// The first broken law that was found before all transactions and claims are checked.
    fault: Option<Broken>,
    tally: Tally,
}

/// Runs one schedule and checks it.
pub fn run(seed: u64, bug: Option<Bug>) -> (Tally, Result<(), Broken>) {
    let ran = run_by(&Plan::new(seed, bug));
    (ran.tally, ran.verdict)
}

/// Runs one schedule by a plan and checks it. Returns its results.
pub fn run_by(plan: &Plan) -> Ran {
    match plan.part {
        Part::Processes | Part::Fleet | Part::Server => run_processes_by(plan),
        Part::EtcdClient => run_clients_by(plan),
        Part::Folder => run_folder_by(plan),
        Part::Alone => run_alone_by(plan),
    }
}

fn run_processes_by(plan: &Plan) -> Ran {
    let mut world = World::new(plan);
    world.pass();
    let (faults, timeline) = (world.faults.clone(), world.timeline.clone());
    let (tally, verdict) = world.end();
    let struck = faults.struck();
    let draw = || {
        let picture = Picture {
            title: format!("seed {}, {} faults", plan.seed, struck.len()),
            names: &names(),
            events: &timeline.events(),
            broken: verdict.as_ref().err(),
        };
        picture.drawn()
    };
    Ran {
        timeline: plan.is_shown.then(|| timeline.drawn(&names())),
        picture: plan.is_shown.then(draw),
        tally,
        verdict,
        struck,
    }
}

/// Returns the names of the processes, by their places.
fn names() -> Vec<String> {
    let name = |place: usize| match place < usize::from(SERVERS) {
        true => format!("server {}", server_of(place)),
        false => format!("server {} again", server_of(place)),
    };
    (0..PROCESSES).map(name).collect()
}

/// Runs one schedule. Returns all its transactions, claims and operators' commands.
pub fn transcript(seed: u64) -> String {
    let mut world = World::new(&Plan::new(seed, None));
    world.pass();
    let (store, ledger) = (locked(&world.store), world.ledger.lock().expect("no panic"));
    let told = world.told.lock().expect("no panic");
    format!("{:?} {told:?} {ledger:?}", store.made)
}

impl World {
    fn new(plan: &Plan) -> World {
        let (mut chance, time) = (Chance::new(plan.seed), Time::new());
        let timeline = Timeline::new(time.clone(), plan.is_shown);
        let faults = Faults::new(plan.seed, plan.kept.clone(), timeline.clone());
        let noted = (faults.clone(), timeline.clone());
        let of_store = Chance::new(chance.drawn());
        let store = SimulatedStore::new(of_store, plan.bug, time.clone(), noted);
        let noted = (faults.clone(), timeline.clone());
        let network = chance_of_links(plan)
            .map(|it| SimulatedNetwork::new(it, time.clone(), plan.bug, noted.clone()));
        let shape = Shape::drawn(plan, &mut chance, (&time, network.is_some()));
        let of_server = SimulatedNetwork::new(Chance::new(!plan.seed), time.clone(), None, noted);
        World {
            chance,
            fleet: shape.fleet(plan, &time, &timeline),
            server: shape.server(plan, of_server),
            shape,
            ledger: SharedLedger::default(),
            bug: plan.bug,
            time,
            faults,
            timeline,
            store: Arc::new(Mutex::new(store)),
            mails: Mails::default(),
            network,
            parcels: Parcels::default(),
            told: Claims::default(),
            processes: (0..PROCESSES).map(|_| None).collect(),
            beginnings: (0..PROCESSES).map(|_| None).collect(),
            lives: 0,
            client_watches: 0,
            clients: (1..=CLIENTS).map(Client::new).collect(),
            asked: Vec::new(),
            texts: 0,
            fault: None,
            tally: Tally::default(),
        }
    }

    /// Starts a process of each server. Then lets random events happen, and waits until everything is over.
    fn pass(&mut self) {
        (0..usize::from(SERVERS)).for_each(|it| self.start(it));
        while self.beginnings.iter().any(Option::is_some) {
            self.fly();
            self.turn_beginnings();
        }
        let (is_controlled, events) = match self.shape.control {
            Some(_) => (true, CONTROLLED_EVENTS),
            None => (false, EVENTS),
        };
        let events = match (&self.network, &self.server) {
            (Some(_), _) | (None, Some(_)) => events.max(LINKED_EVENTS),
            (None, None) => events,
        };
        match is_controlled {
            true => self.begin_controls(),
            false => self.begin_commands(),
        }
        self.begin_fleet();
        self.store().is_calm = false;
        (0..events).for_each(|_| self.happen());
        match is_controlled {
            true => self.settle_controls(),
            false => self.settle(),
        }
    }

    /// Makes one control lead and gives each shard an owner, because schedules shouldn't spend their events on that.
    fn begin_commands(&mut self) {
        let process = self.processes[0].as_mut().expect("it has started");
        let shards = self.shape.shards;
        let led = DurableControl::lead(process.durable.clone(), &settings(shards, ROOM));
        let mut control = led.expect("nothing is lost so far");
        for shard in 0..shards {
            let owner = 1 + self.chance.below(u64::from(SERVERS)) as u16;
            let assigned = control.command(ControlCommand::Assign(shard, owner));
            assigned.expect("nothing is lost so far");
        }
        process.control = Some(control);
        while self.has_heard() {}
        self.turn_members();
    }

    /// Waits until all work is answered or refused. Nothing fails any more, so that must happen within some time.
    fn settle(&mut self) {
        self.store().is_calm = true;
        let has_links = self.network.is_some() || self.fleet.is_some() || self.server.is_some();
        let rounds = match has_links {
            true => LINKED_SETTLING,
            false => SETTLING,
        };
        for _ in 0..rounds {
            self.asked.retain(|it| it.2.strong_count() > 0);
            let are_told = self.are_calls_told() && self.are_clients_told();
            if self.asked.is_empty() && are_told {
                return self.rest();
            }
            self.time.pass(PERIOD);
            self.settle_once();
        }
        self.fault.get_or_insert(Broken {
            law: "what is asked is answered or refused",
            by: format!("{:?} {}", self.asked, self.shown_clients()),
        });
    }

    /// Moves all messages on, and lets each process do the work that is due.
    fn settle_once(&mut self) {
        for _ in 0..5 {
            (0..PERIOD / 5).for_each(|_| self.settle_message());
            self.settle_network();
        }
        for process in self.processes.iter_mut().flatten() {
            process.do_chores();
            process.member.turn();
        }
        self.turn_beginnings();
        self.settle_fleets();
        self.settle_servers();
        // The leases of crashed processes end, so others see that they are gone.
        self.lapse();
    }

    /// Moves one message of each kind on.
    fn settle_message(&mut self) {
        self.fly();
        self.deliver();
        self.answer();
        self.has_heard();
    }

    /// Moves all messages on until there are none. If messages lead to new ones without end, stops after a while.
    fn settle_messages(&mut self) {
        for _ in 0..PERIOD {
            if self.store().flights.is_empty() && self.mails.lock().expect("no panic").is_empty() {
                return;
            }
            self.settle_message();
        }
    }

    /// Checks everything that was made and told.
    fn end(mut self) -> (Tally, Result<(), Broken>) {
        self.tally.passed_time = self.time.passed().as_millis() as u64;
        self.judge_operators();
        self.judge_links();
        self.tally_fleet();
        self.tally_clients();
        self.judge_late_commands();
        for place in 0..PROCESSES {
            self.crash_at(place);
        }
        let mut told = std::mem::take(&mut *self.told.lock().expect("no panic"));
        let store = locked(&self.store);
        self.tally.lost = store.lost;
        self.tally.compactions = store.compactions;
        let control = self.shape.control.as_ref();
        self.tally.balanced = control.map_or(0, |it| it.balanced.load(Ordering::Relaxed));
        self.tally.faults = FaultCounts::of(&self.faults.struck());
        for (_, transaction) in &store.made {
            let written = Written::of(transaction);
            written.iter().for_each(|it| self.tally.note_made(it));
        }
        told.iter().for_each(|it| self.tally.note_told(it));
        // Drops the claims that aren't final, because the same request may be made at another process.
        told.retain(|it| it.is_final());
        let verdict = check(&store.made, &told);
        let verdict = verdict.and_then(|it| servers::judge(self.server.as_ref(), &it));
        let verdict = verdict.map(|it| self.tally.overtaken = it);
        (self.tally, self.fault.map_or(verdict, Err))
    }

    fn store(&self) -> MutexGuard<'_, SimulatedStore> {
        locked(&self.store)
    }

    /// Lets a random event happen, by the weights of this schedule.
    fn happen(&mut self) {
        self.tally.events += 1;
        let all: u64 = self.shape.happenings.iter().map(|it| it.1).sum();
        let mut at = self.chance.below(all);
        let happens = self
            .shape
            .happenings
            .iter()
            .find(|it| match at.checked_sub(it.1) {
                Some(rest) => {
                    at = rest;
                    false
                }
                None => true,
            });
        if let Some((happens, _)) = happens.copied() {
            happens(self);
        }
        self.judge_fleets();
    }

    /// Returns a random place, if a process runs there and isn't paused.
    fn place(&mut self) -> Option<usize> {
        let at = self.chance.below(PROCESSES as u64) as usize;
        let now = self.time.passed();
        let process = self.processes[at].as_ref();
        process
            .is_some_and(|it| it.paused_until <= now)
            .then_some(at)
    }

    fn process(&mut self) -> Option<&mut Process> {
        let at = self.place()?;
        self.processes[at].as_mut()
    }

    /// Lets time pass. It is mostly short, but sometimes long enough to end a lease that isn't kept.
    fn pass_time(&mut self) {
        let most = match self.chance.below(16) {
            0 => 1_500,
            1..=3 => 300,
            _ => 20,
        };
        self.time.pass(self.chance.below(most));
    }

    /// Moves a transaction or an outcome of the store on.
    fn fly(&mut self) {
        let told = self.store().fly();
        if let Some((done, became)) = told {
            done(became);
        }
    }

    /// Lets a watch tell something.
    fn hear(&mut self) {
        self.has_heard();
    }

    /// Lets a watch tell something. Returns whether one did.
    fn has_heard(&mut self) -> bool {
        let heard = self.store().hear();
        let Some((number, mut watcher, seen)) = heard else {
            return false;
        };
        watcher(seen);
        self.store().heard(number, watcher);
        true
    }

    /// Lets a process do a reading that is due. The process may learn of the result later.
    fn read(&mut self) {
        let (first, faults) = (self.chance.drawn(), self.faults.clone());
        let Some(process) = self.process() else {
            return;
        };
        let count = process.chores.readings().max(1);
        let Some(tell) = process.chores.read(first as usize % count) else {
            return;
        };
        match faults.strikes(Fault::ReadLate, 1, 4, process.column()) {
            true => process.read.push(tell),
            false => tell(),
        }
    }

    fn tell_read(&mut self) {
        let at = self.chance.drawn() as usize;
        let Some(process) = self.process().filter(|it| !it.read.is_empty()) else {
            return;
        };
        let at = at % process.read.len();
        process.read.swap_remove(at)();
    }

    fn lapse(&mut self) {
        self.store().lapse();
    }

    /// Draws the faults that strike the store.
    fn trouble_store(&mut self) {
        self.store().come_into_trouble();
    }

    fn tick(&mut self) {
        let is_second = self.chance.is_true(1, 4);
        if let Some(process) = self.process() {
            process.chores.tick();
            if is_second {
                process.chores.keep_number();
                process.chores.tell_loads();
            }
        }
    }

    /// Starts a process at a random place.
    fn start_one(&mut self) {
        let at = self.chance.below(PROCESSES as u64) as usize;
        self.start_at(at);
    }

    /// Returns the shape of the process's links, if it has those that ship.
    fn link_shape(&mut self, sender: Sender) -> Option<LinkShape> {
        let network = self.network.as_mut()?;
        let is_older = self.chance.is_true(1, 6);
        if is_older {
            network.note_older(sender.life);
        }
        Some(LinkShape {
            parcels: self.parcels.clone(),
            ledger: self.ledger.clone(),
            time: self.time.clone(),
            bug: self.bug,
            wait: WAIT,
            is_older,
        })
    }

    /// Crashes a process, which forgets everything. Its lease goes on until it ends by itself.
    fn crash(&mut self) {
        if let Some(at) = self
            .place()
            .filter(|it| self.strikes(Fault::Crash, 1, 1, *it))
        {
            self.crash_at(at);
        }
    }

    /// Draws whether this fault strikes the process at this place.
    fn strikes(&self, fault: Fault, times: u64, of: u64, place: usize) -> bool {
        self.faults
            .strikes(fault, times, of, Column::Process(place))
    }

    fn crash_at(&mut self, place: usize) {
        self.beginnings[place] = None;
        let process = self.processes[place].take();
        process.into_iter().for_each(|it| self.bury(it));
    }

    /// Notes that a process has ended.
    fn bury(&mut self, mut process: Process) {
        let mut ledger = self.ledger.lock().expect("no panic");
        ledger.ended.insert(process.sender.life);
        drop(ledger);
        self.forget_fleet(&mut process);
        self.timeline.note(process.column(), || GONE.to_owned());
        let life = process.sender.life;
        self.network.iter_mut().for_each(|it| it.forget(life));
        self.server
            .iter_mut()
            .for_each(|it| it.network.forget(life));
        if let Some(serving) = &process.serving {
            self.tally.forwarded += serving.links.counts().came();
        }
        if let Some(links) = &process.links {
            self.tally.forwarded += links.counts().came();
        }
        self.tally.by_lease += process.durable.read_by_lease();
    }

    /// Makes a process lead, if there is no leader or if it takes the lead over.
    fn elect(&mut self) {
        let (takes_over, shards) = (self.chance.is_true(1, 4), self.shape.shards);
        let Some(process) = self.process() else {
            return;
        };
        let (durable, line) = (process.durable.clone(), settings(shards, ROOM));
        let led = match takes_over {
            true => DurableControl::lead(durable, &line).map(Some),
            false => DurableControl::campaign(durable, &line),
        };
        match led {
            Ok(Some(control)) => process.control = Some(control),
            Ok(None) => {}
            Err(refused) => self.note_refused(&refused),
        }
    }

    /// Gives a random command to a control that believes that it leads.
    fn command(&mut self) {
        let leads = |it: &Option<Process>| it.as_ref().is_some_and(|it| it.control.is_some());
        let leading: Vec<usize> = (0..PROCESSES)
            .filter(|it| leads(&self.processes[*it]))
            .collect();
        let at = self.chance.below(leading.len().max(1) as u64) as usize;
        let Some(process) = leading.get(at).and_then(|it| self.processes[*it].as_mut()) else {
            return;
        };
        let Some(mut control) = process.control.take() else {
            return;
        };
        match command(&mut control, &mut self.chance, self.shape.shards) {
            Err(Refused::NotLeader) => return,
            Err(refused) => self.note_refused(&refused),
            Ok(()) => {
                let column = Column::Process(leading[at]);
                self.store().give_up_commands(column);
            }
        }
        if let Some(process) = leading.get(at).and_then(|it| self.processes[*it].as_mut()) {
            process.control = Some(control);
        }
    }

    /// Checks that no command was made after its control had given it up.
    fn judge_late_commands(&mut self) {
        let made_late = self.store().made_late.clone();
        if let Some(by) = made_late {
            self.find("a command that was given up isn't made", by);
        }
    }

    fn note_refused(&mut self, refused: &Refused) {
        match refused {
            Refused::Judged(_)
            | Refused::NotLeader
            | Refused::StillThere(_)
            | Refused::Read(_)
            | Refused::InUse(_)
            | Refused::Unkept
            | Refused::Write(_) => {}
            Refused::Damaged(_)
            | Refused::OtherSettings
            | Refused::OtherShards
            | Refused::OtherCeiling
            | Refused::BadSettings(_) => {
                self.fault.get_or_insert(Broken {
                    law: "a control can read what lies there",
                    by: refused.to_string(),
                });
            }
        }
    }

    /// Makes somebody stop waiting for work.
    fn give_up(&mut self) {
        let at = self.chance.below(self.asked.len().max(1) as u64) as usize;
        if let Some(wanted) = self.asked.get(at).and_then(|it| it.2.upgrade()) {
            wanted.store(false, Ordering::Relaxed);
        }
    }

    /// Asks a process for new work, or for work that a client numbered. Numbered work may be asked for again.
    fn ask(&mut self) {
        let shard = self.chance.below(u64::from(self.shape.shards)) as u16;
        let (shard, begins) = match self.chance.below(3) {
            0 => self.numbered(shard),
            _ => {
                let count = 1 + self.chance.below(2);
                (shard, (0..count).map(|_| self.one_begin()).collect())
            }
        };
        let steps = begins.into_iter().map(|it| self.step(shard, it)).collect();
        if let Some(process) = self.process() {
            process.durable.submit(shard, steps);
        }
    }

    fn step(&mut self, shard: u16, begin: Begin) -> WorkStep {
        let is_wanted = Arc::new(AtomicBool::new(true));
        let asked = (shard, begin.clone(), Arc::downgrade(&is_wanted));
        self.asked.push(asked);
        self.texts += 1;
        // Work that may write must never read by a lease.
        let reads = match begin.only_reads() {
            true => self.shape.shard_options.reads,
            false => Reads::Exact,
        };
        let since = match reads {
            Reads::Exact => self.store().revision(),
            Reads::Lease => {
                let longest = self.shape.clocks.longest(LEASE);
                let since = self.time.passed().saturating_sub(longest);
                self.store().revision_at(since)
            }
        };
        let work = Asking {
            shared: self.store.clone(),
            told: self.told.clone(),
            shard,
            begin: begin.clone(),
            text: self.texts,
            held: Vec::new(),
            decided: Vec::new(),
            since,
            is_wanted,
            parcels: self.parcels.clone(),
        };
        let work = Box::new(work);
        WorkStep { begin, work }
    }

    /// Returns the shard and the work of a client that numbers its requests. It asks for its last requests again, or
    /// for new ones of this shard.
    fn numbered(&mut self, shard: u16) -> (u16, Vec<Begin>) {
        let at = self.chance.below(CLIENTS) as usize;
        let is_over = self.clients[at].current.is_none() || self.chance.is_true(1, 3);
        if is_over {
            let requests = self.requests();
            self.clients[at].number += 1;
            self.clients[at].current = Some((shard, requests));
        } else if self.bug == Some(Bug::NewNumber) && self.chance.is_true(1, 2) {
            self.clients[at].number += 1;
        }
        let begun = self.clients[at].begin();
        begun.map_or((shard, Vec::new()), |it| (it.0, vec![it.1]))
    }

    fn one_begin(&mut self) -> Begin {
        match self.chance.below(12) {
            0..=3 => Begin::Write(self.requests()),
            4..=6 => Begin::Change(vec![self.key()]),
            7 => Begin::Scan(self.range()),
            8 => Begin::Keys(self.range()),
            9 => Begin::Count,
            10 => Begin::Read(vec![Key::from(*b"a"), Key::from(*b"b")]),
            _ => Begin::Read(vec![self.key()]),
        }
    }

    fn key(&mut self) -> Key {
        let at = self.chance.below(3) as usize;
        Key::from(&b"abn"[at..=at])
    }

    fn range(&mut self) -> Range {
        Range {
            low: self.key(),
            high: self.chance.is_true(1, 2).then(|| self.key()),
            most: 1 + self.chance.below(3) as usize,
        }
    }

    /// Returns requests that are made once. The bytes of the first one are unique.
    fn requests(&mut self) -> Vec<MapRequest> {
        self.texts += 1;
        let key = self.key();
        let text = self.texts.to_be_bytes().to_vec();
        let first = match self.chance.below(5) {
            0 | 1 => MapRequest::Put(key, text),
            2 => MapRequest::Append(key, text),
            _ => MapRequest::Add(Key::from(*b"n"), i64::from(self.texts)),
        };
        let mut requests = vec![first];
        if self.chance.is_true(1, 3) {
            requests.push(MapRequest::Delete(self.key()));
        }
        requests
    }

    fn is_there(&self, sender: Sender) -> bool {
        let process = self.processes[sender.place].as_ref();
        process.is_some_and(|it| it.sender == sender)
    }

    /// Brings steps of one process to another one, or back, or loses them.
    fn deliver(&mut self) {
        let Some(message) = self.message() else {
            return;
        };
        let sender = message.sender;
        let runs = |it: &usize| server_of(*it) == message.elsewhere.server;
        let runs: Vec<usize> = (0..PROCESSES)
            .filter(|it| runs(it) && *it != sender.place && self.processes[*it].is_some())
            .collect();
        let at = self.chance.below(runs.len().max(1) as u64) as usize;
        let is_lost = self.strikes(Fault::StepsLost, 1, 20, sender.place);
        let is_back = self.chance.is_true(1, 20);
        let target = runs.get(at).and_then(|it| self.processes[*it].as_ref());
        match target.filter(|_| !is_back) {
            _ if is_lost && self.is_there(sender) => {
                let steps = message.steps.into_iter();
                steps.for_each(|it| it.work.end(Err(broken())));
            }
            Some(target) => {
                self.tally.forwarded += 1;
                let elsewhere = message.elsewhere.clone();
                let (there, here) = (
                    &self.shape.machines[runs[at]],
                    &self.shape.machines[sender.place],
                );
                let since = there.moment_of(here, elsewhere.since);
                let came = elsewhere.came;
                let steps = visiting(&self.mails, message);
                target
                    .durable
                    .submit_from(elsewhere.shard, steps, came, since);
            }
            _ if self.is_there(sender) => {
                if let Some(process) = self.processes[sender.place].as_ref() {
                    let revision = message.elsewhere.came.revision;
                    let durable = &process.durable;
                    durable.submit_again(message.elsewhere, message.steps, revision);
                }
            }
            _ => {}
        }
    }

    fn message(&mut self) -> Option<Message> {
        let mut mail = self.mails.lock().expect("no panic");
        let at = self.chance.below(mail.messages.len().max(1) as u64) as usize;
        (at < mail.messages.len()).then(|| mail.messages.swap_remove(at))
    }

    /// Brings the outcome of a step back to the process that sent it, or loses it.
    fn answer(&mut self) {
        let Some(answer) = self.one_answer() else {
            return;
        };
        let StepAnswer {
            sender,
            elsewhere,
            step,
            outcome,
        } = answer;
        if !self.is_there(sender) {
            return;
        }
        let Some(process) = self.processes[sender.place].as_ref() else {
            return;
        };
        match outcome {
            _ if self.strikes(Fault::StepsLost, 1, 20, sender.place) => {
                step.work.end(Err(broken()));
            }
            Err(NotDone::Moved(revision)) => {
                process
                    .durable
                    .submit_again(elsewhere, vec![step], revision);
            }
            outcome => step.work.end(outcome),
        }
    }

    fn one_answer(&mut self) -> Option<StepAnswer> {
        let mut mail = self.mails.lock().expect("no panic");
        let at = self.chance.below(mail.answers.len().max(1) as u64) as usize;
        (at < mail.answers.len()).then(|| mail.answers.swap_remove(at))
    }
}

/// Returns the random numbers of the network, if the processes have the links that ship. Those of a fleet have none, and
/// those of a server have their own.
/// The numbers have a stream of their own, because the seeds of other schedules must stay as they were before there
/// were links.
fn chance_of_links(plan: &Plan) -> Option<Chance> {
    let mut chance = Chance::new(!plan.seed);
    let is_linked = match (plan.part, plan.bug) {
        (Part::Fleet | Part::Server, _) => false,
        (_, Some(bug)) => bug.is_of_links(),
        (_, None) => chance.is_true(1, 2),
    };
    is_linked.then_some(chance)
}

/// Returns the server of the process at this place.
fn server_of(place: usize) -> u16 {
    place as u16 % SERVERS + 1
}
