//! Schedules of a server of one process: the events that happen by chance to it, to its clients and to its disk.
use super::lone_process::LoneProcess;
use super::lone_shape::{LoneShape, SERVERS};
use crate::chance::Chance;
use crate::fault::Fault;
use crate::fault_counts::FaultCounts;
use crate::faults::Faults;
use crate::folder::{locked, DiskRates, MountedDisk, SimulatedDisk};
use crate::law::Broken;
use crate::operator;
use crate::plan::{Plan, Ran};
use crate::reading::Replied;
use crate::server::{RespClients, RespReply, SharedLine};
use crate::tally::Tally;
use crate::time::Time;
use crate::timeline::{Column, Timeline};
use durkenzo_store::Sync;
use std::collections::BTreeMap;

/// How many events there are with data in memory, and how many with data in a folder.
const EVENTS: u64 = 1_500;
const FOLDER_EVENTS: u64 = 800;
/// How many rounds a thread has at once, at most.
const ROUNDS: u64 = 4;
/// How many periods may pass until everything is over once nothing fails, how many milliseconds a period has, and how
/// often everything moves in a period at most.
const SETTLING: u64 = 1_000;
const PERIOD: u64 = 50;
const SETTLED: usize = 60;
/// After how many periods an operator brings servers back again.
const BACK_AGAIN: u64 = 20;
/// How many blocks of 4,096 bytes the disk has at least, and how many more there are at most, by chance.
const LEAST_SIZE: u64 = 400;
const MORE_SIZE: u64 = 600;
/// After how many calls of the disk a process is killed or power is lost, at most.
const CALLS: u64 = 60;
const PROCESS: Column = Column::Process(0);
/// This number gives the schedules random numbers of their own.
const OF_ALONE: u64 = 0xa10e;

/// An event that may happen next.
type Happening = fn(&mut AloneWorld);

const ALWAYS: [(Happening, u64); 6] = [
    (AloneWorld::ask, 16),
    (AloneWorld::serve, 70),
    (AloneWorld::move_lines, 50),
    (AloneWorld::control, 20),
    (AloneWorld::operate, 2),
    (AloneWorld::pass_time, 8),
];

/// More events, if data lies in a folder.
const FOLDER: [(Happening, u64); 9] = [
    (AloneWorld::step, 30),
    (AloneWorld::read, 20),
    (AloneWorld::tell_read, 8),
    (AloneWorld::tick, 6),
    (AloneWorld::fill_disk, 1),
    (AloneWorld::free_disk, 2),
    (AloneWorld::kill, 1),
    (AloneWorld::lose_power, 1),
    (AloneWorld::stop, 1),
];

struct AloneWorld {
    chance: Chance,
    time: Time,
    faults: Faults,
    timeline: Timeline,
    shape: LoneShape,
    /// The events, and their weights.
    happenings: Vec<(Happening, u64)>,
    /// The disk of the folder, if data lies in one.
    disk: Option<MountedDisk>,
    sync: Sync,
    /// The chance by which power is lost with the process, if it is to be lost.
    power: Option<Chance>,
    process: Option<LoneProcess>,
    lives: u64,
    clients: RespClients,
    is_calm: bool,
    fault: Option<Broken>,
    tally: Tally,
}

/// Runs one schedule of a server of one process by a plan, and checks the answers to its clients.
pub fn run_alone_by(plan: &Plan) -> Ran {
    let mut world = AloneWorld::new(plan);
    world.pass();
    let struck = world.faults.struck();
    let [answered, refused, unknown] = world.clients.counts();
    let tally = Tally {
        passed_time: world.time.passed().as_millis() as u64,
        calls: world.clients.commands(),
        answered,
        refused,
        unknown,
        faults: FaultCounts::of(&struck),
        ..world.tally
    };
    let names = ["the process".to_owned()];
    Ran {
        tally,
        verdict: world.fault.map_or(Ok(()), Err),
        struck,
        timeline: plan.is_shown.then(|| world.timeline.drawn(&names)),
        // There is no picture of one process, only a timeline.
        picture: None,
    }
}

impl AloneWorld {
    fn new(plan: &Plan) -> AloneWorld {
        let (mut chance, time) = (Chance::new(plan.seed ^ OF_ALONE), Time::new());
        let timeline = Timeline::new(time.clone(), plan.is_shown);
        let faults = Faults::new(plan.seed, plan.kept.clone(), timeline.clone());
        let shape = LoneShape::drawn(&mut chance, &time);
        let is_in_folder = chance.is_true(1, 2);
        let size = (LEAST_SIZE + chance.below(MORE_SIZE)) * 4_096;
        let sync = [Sync::Always, Sync::Always, Sync::Second, Sync::No][chance.below(4) as usize];
        let rates = DiskRates::drawn(&mut chance);
        let disk = |first: &_| SimulatedDisk::new(faults.clone(), rates, size, first);
        let disk = is_in_folder.then(|| MountedDisk::new(disk));
        let more: &[_] = if is_in_folder { &FOLDER } else { &[] };
        AloneWorld {
            clients: RespClients::new(shape.keys.clone(), Chance::new(chance.drawn())),
            chance,
            time,
            faults,
            timeline,
            shape,
            happenings: [&ALWAYS, more].concat(),
            disk,
            sync,
            power: None,
            process: None,
            lives: 0,
            is_calm: false,
            fault: None,
            tally: Tally::default(),
        }
    }

    fn pass(&mut self) {
        let events = match self.disk {
            Some(_) => FOLDER_EVENTS,
            None => EVENTS,
        };
        for _ in 0..events {
            self.tally.events += 1;
            self.happen();
            if self.fault.is_some() {
                return;
            }
        }
        self.settle();
    }

    fn happen(&mut self) {
        if self.process.is_none() {
            return match self.chance.below(12) {
                0 => self.pass_time(),
                1 => self.fill_disk(),
                2 | 3 => self.free_disk(),
                4 => self.move_lines(),
                _ => self.start(),
            };
        }
        let all: u64 = self.happenings.iter().map(|it| it.1).sum();
        let mut at = self.chance.below(all);
        let happens = self.happenings.iter().find(|it| {
            let is_it = at < it.1;
            at = at.saturating_sub(it.1);
            is_it
        });
        if let Some((happens, _)) = happens.copied() {
            happens(self);
        }
        self.end_if_over();
    }

    fn find(&mut self, law: &'static str, by: String) {
        self.note_broken(Err(Broken { law, by }));
    }

    fn note_broken(&mut self, judged: Result<(), Broken>) {
        if let Err(broken) = judged {
            self.fault.get_or_insert(broken);
        }
    }

    fn note(&self, text: impl FnOnce() -> String) {
        self.timeline.note(PROCESS, || match &self.disk {
            Some(disk) => disk.without_first(&text()),
            None => text(),
        });
    }

    /// Starts a process.
    fn start(&mut self) {
        self.lives += 1;
        if !self.is_calm && self.chance.is_true(1, 12) {
            self.kill();
        }
        let begun = match &self.disk {
            Some(disk) => self.shape.in_folder(self.lives, disk, self.sync),
            None => self.shape.in_memory(self.lives),
        };
        self.tally.starts += 1;
        match begun {
            Ok(process) => {
                self.note(|| "starts".to_owned());
                self.process = Some(process);
            }
            Err(error) => {
                self.note(|| format!("doesn't start: {error}"));
                if self.is_calm || self.disk.is_none() {
                    self.find("a process starts if nothing fails", error.to_string());
                }
            }
        }
        self.end_if_over();
    }

    /// Ends the process if it was killed, if its store has ended, or once it has stopped.
    fn end_if_over(&mut self) {
        let is_killed = self
            .disk
            .as_ref()
            .is_some_and(|it| locked(&it.disk).is_killed());
        if is_killed {
            self.note(|| "is killed".to_owned());
            if let Some(process) = self.process.take() {
                process.reset_lines();
            }
            return self.revive();
        }
        let folder = self.process.as_ref().and_then(|it| it.folder.as_ref());
        if folder.is_some_and(|it| !it.goes_on()) {
            self.note(|| "can't use the folder any more".to_owned());
            if self.is_calm {
                self.find("a store goes on if nothing fails", String::new());
            }
            self.stop();
        }
    }

    /// Lets another process use the disk. If power is to be lost, it is lost before.
    fn revive(&mut self) {
        let Some(disk) = &self.disk else {
            return;
        };
        if let Some(mut chance) = self.power.take() {
            let (kept, count) = locked(&disk.disk).lose_power(&mut chance);
            let note = || format!("keeps {kept} of {count} writes without power");
            self.timeline.note(Column::Store, note);
        }
        locked(&disk.disk).revive();
    }

    /// Lets a client send commands, or connect to a thread of the process.
    fn ask(&mut self) {
        let Some(process) = self.process.as_mut().filter(|it| !it.is_stopping()) else {
            return;
        };
        if let Some(at) = self.clients.ask() {
            let line = self.clients.connect(at, process.sender);
            let place = self.clients.draw(process.threads.len());
            process.threads[place].accept(line);
            self.note(|| format!("client {at} connects to thread {place}"));
        }
    }

    /// Lets a client send a command of an operator.
    fn operate(&mut self) {
        let words = operator::asked(&mut self.chance, self.shape.shards, SERVERS);
        if self.clients.operate(&words) {
            self.tally.operated += 1;
            self.note(|| format!("is asked {}", words.join(" ")));
        }
    }

    /// Lets a thread go on that owns connections, if it would.
    fn serve(&mut self) {
        let (times, is_woken_first) = (1 + self.chance.below(ROUNDS), self.chance.is_true(1, 2));
        let place = self.chance.below(self.shape.threads as u64) as usize;
        let Some(process) = &mut self.process else {
            return;
        };
        for _ in 0..times {
            if process.threads[place].is_due() {
                process.threads[place].round(is_woken_first);
            }
        }
        let judged = process.judge_held();
        self.note_broken(judged);
    }

    fn move_lines(&mut self) {
        let (now, running) = (self.time.passed(), self.running());
        let moved = self
            .clients
            .move_some(&self.faults, now, &|it| Some(it) != running);
        self.note_broken(moved);
    }

    /// Returns the life of the process, if one runs and doesn't stop.
    fn running(&self) -> Option<u64> {
        let process = self.process.as_ref().filter(|it| !it.is_stopping());
        process.map(|it| it.sender.life)
    }

    fn control(&mut self) {
        let has_turn = self.process.as_mut().is_some_and(LoneProcess::control);
        self.tally.turns += u64::from(has_turn);
    }

    fn pass_time(&mut self) {
        let most = match self.chance.below(16) {
            0 => 1_500,
            1..=3 => 300,
            _ => 20,
        };
        self.time.pass(self.chance.below(most));
    }

    fn step(&mut self) {
        let folder = self.process.as_ref().and_then(|it| it.folder.as_ref());
        folder.into_iter().for_each(|it| it.step());
    }

    fn read(&mut self) {
        let (place, faults) = (self.chance.drawn() as usize, self.faults.clone());
        let folder = self.process.as_mut().and_then(|it| it.folder.as_mut());
        if let Some(folder) = folder {
            folder.read(place, faults.strikes(Fault::ReadLate, 1, 8, PROCESS));
        }
    }

    fn tell_read(&mut self) {
        let place = self.chance.drawn() as usize;
        let folder = self.process.as_mut().and_then(|it| it.folder.as_mut());
        folder.into_iter().for_each(|it| it.tell_read(place));
    }

    fn tick(&mut self) {
        let folder = self.process.as_ref().and_then(|it| it.folder.as_ref());
        folder.into_iter().for_each(|it| it.tick());
    }

    /// Lets others take nearly all room that is free.
    fn fill_disk(&mut self) {
        let Some(disk) = &self.disk else {
            return;
        };
        if let Some(mut chance) = self.faults.strike(Fault::DiskFull, 1, 1, Column::Store) {
            locked(&disk.disk).leave(chance.below(12) * 4_096);
        }
    }

    fn free_disk(&mut self) {
        if let Some(disk) = &self.disk {
            locked(&disk.disk).leave(u64::MAX);
        }
    }

    /// Kills the process after some calls of the disk.
    fn kill(&mut self) {
        let Some(disk) = &self.disk else {
            return;
        };
        if let Some(mut chance) = self.faults.strike(Fault::Crash, 1, 1, PROCESS) {
            locked(&disk.disk).kill_after(chance.below(CALLS));
        }
    }

    /// Takes the power away after some calls of the disk, if the process syncs data before it answers.
    fn lose_power(&mut self) {
        let Some(disk) = self.disk.as_ref().filter(|_| self.sync == Sync::Always) else {
            return;
        };
        if let Some(mut chance) = self.faults.strike(Fault::PowerLost, 1, 1, Column::Store) {
            locked(&disk.disk).kill_after(chance.below(CALLS));
            self.power = Some(chance);
        }
    }

    /// Makes the process stop as it should.
    fn stop(&mut self) {
        if let Some(mut process) = self.process.take() {
            self.note(|| "stops".to_owned());
            process.stop();
            process.end();
            process.reset_lines();
        }
    }

    /// Waits until all commands are answered, and judges the answers. Nothing fails any more.
    fn settle(&mut self) {
        self.is_calm = true;
        if let Some(disk) = &self.disk {
            locked(&disk.disk).calm();
        }
        self.revive();
        for period in 0..SETTLING {
            if self.clients.are_told() && self.process.is_some() {
                return self.judge();
            }
            self.settle_once();
            if period % BACK_AGAIN == 0 {
                self.bring_back();
            }
            if self.fault.is_some() {
                return;
            }
        }
        let by = format!("{:?} {}", self.left(), self.clients.shown());
        self.find("what is asked is answered or refused", by);
    }

    fn settle_once(&mut self) {
        if self.process.is_none() {
            self.start();
        }
        self.time.pass(PERIOD);
        for _ in 0..SETTLED {
            let running = self.running();
            let moved = self.clients.move_all(&|it| Some(it) != running);
            let has_gone_on = self.process.as_mut().is_some_and(LoneProcess::go_on);
            self.end_if_over();
            match moved {
                Ok(false) if !has_gone_on => return,
                moved => self.note_broken(moved.map(drop)),
            }
        }
    }

    /// Has an operator bring all servers back. A restart may wait for that, if others are away.
    fn bring_back(&mut self) {
        let servers: Vec<_> = (1..=SERVERS).map(|it| format!("SM BACK {it}")).collect();
        self.told_at_last(&servers);
    }

    /// Judges all answers by what the keys hold, once operators have made each shard serve.
    fn judge(&mut self) {
        self.bring_back();
        let shards = (0..self.shape.shards).map(|it| format!("SM RESUME {it}"));
        let lines: Vec<_> = shards.chain(["SM PLACE".to_owned()]).collect();
        self.told_at_last(&lines);
        let keys = self.shape.keys.all();
        let names: Vec<_> = keys.iter().map(|it| self.shape.keys.name(*it)).collect();
        let reads: Vec<_> = names.iter().map(|it| format!("GET {it}")).collect();
        let told = self.told_at_last(&reads);
        let held = names
            .into_iter()
            .zip(&told)
            .map(|(name, reply)| Some((name, held_of(reply)?)));
        let Some(held) = held
            .collect::<Option<BTreeMap<_, _>>>()
            .filter(|it| it.len() == keys.len())
        else {
            return self.find("each shard is served if nothing fails", format!("{told:?}"));
        };
        let of = |_, name: &[u8]| {
            let held = held.get(&*String::from_utf8_lossy(name)).cloned();
            held.unwrap_or_default()
        };
        match self.clients.judge(of) {
            Ok(0) => self.rest(),
            Ok(count) => self.find(
                "the commands of a pipeline are made in their order",
                count.to_string(),
            ),
            Err(broken) => self.note_broken(Err(broken)),
        }
    }

    /// Has a client send these lines, and returns the replies.
    fn told_at_last(&mut self, lines: &[String]) -> Vec<RespReply> {
        let line = SharedLine::new(self.chance.drawn());
        if let Some(process) = &mut self.process {
            process.threads[0].accept(line.clone());
        }
        line.line().send((lines.join("\r\n") + "\r\n").as_bytes());
        line.line().end_client();
        let (mut bytes, mut replies) = (Vec::new(), Vec::new());
        for _ in 0..SETTLING {
            line.line().arrive(usize::MAX);
            bytes.extend(line.line().read_answers(usize::MAX));
            while let Ok(Some((reply, length))) = RespReply::read(&bytes) {
                replies.push(reply);
                bytes.drain(..length);
            }
            if replies.len() == lines.len() {
                break;
            }
            self.settle_once();
        }
        replies
    }

    /// Lets time pass until nothing is held for clients, who have left.
    fn rest(&mut self) {
        self.clients.end();
        for _ in 0..SETTLING {
            if self.left() == [0; 4] {
                return;
            }
            self.settle_once();
        }
        let left = format!("{:?}", self.left());
        self.find("what waits is as long in the end as at the beginning", left);
    }

    /// Returns what the process holds for clients, and how many clients have connections.
    fn left(&self) -> [usize; 4] {
        let process = self.process.as_ref();
        let [held, counted, due] = process.map_or([0; 3], LoneProcess::left);
        [held, counted, due, self.clients.connected()]
    }
}

/// Returns what a key holds by the reply to GET.
fn held_of(reply: &RespReply) -> Option<Replied> {
    match reply {
        RespReply::Nothing => Some(Replied::default()),
        RespReply::Text(text) => {
            let number = std::str::from_utf8(text)
                .ok()
                .and_then(|it| it.parse().ok());
            Some((0, number.unwrap_or(0), text.clone()))
        }
        RespReply::Simple(_) | RespReply::Error(_) | RespReply::Number(_) | RespReply::List(_) => {
            None
        }
    }
}
