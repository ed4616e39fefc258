//! Schedules of a store in a folder: the requests that it gets, and the events that happen by chance to it and its
//! disk.
use super::disk_rates::DiskRates;
use super::folder_state::FolderState;
use super::model::{Model, Unkept};
use super::mounted_disk::MountedDisk;
use super::simulated_disk::{locked, SimulatedDisk};
use crate::chance::Chance;
use crate::fault::Fault;
use crate::fault_counts::FaultCounts;
use crate::faults::Faults;
use crate::law::Broken;
use crate::plan::{Plan, Ran};
use crate::tally::Tally;
use crate::time::Time;
use crate::timeline::{Column, Timeline};
use crate::told::{became, summary};
use durkenzo_store::{
    Embedded, KeyChange, LeaseError, LeaseId, OpenError, Outcome, Pair, ReadError, Reading,
    Revision, Room, Seen, Store, Sync, Transaction, Watch, WriteError,
};
use std::collections::{BTreeMap, VecDeque};
use std::sync::{Arc, Mutex};
use std::time::Duration;

const EVENTS: u64 = 120;
const KEYS: u64 = 10;
/// The length of a lease.
const LEASE: Duration = Duration::from_secs(2);
/// The longest time until the store syncs data of which it has told, if it doesn't sync before it tells.
const TICK: Duration = Duration::from_secs(1);
/// How many blocks of 4,096 bytes the disk has at least, and how many more there are at most, by chance.
const LEAST_SIZE: u64 = 60;
const MORE_SIZE: u64 = 400;
/// After how many calls of the disk a process is killed or power is lost, at most.
const CALLS: u64 = 60;
const PROCESS: Column = Column::Process(0);

/// An event that may happen next.
type Happening = fn(&mut FolderWorld);

const HAPPENINGS: [(Happening, u64); 12] = [
    (FolderWorld::send, 30),
    (FolderWorld::step, 20),
    (FolderWorld::read, 10),
    (FolderWorld::lease, 5),
    (FolderWorld::compact, 1),
    (FolderWorld::watch, 1),
    (FolderWorld::pass_time, 10),
    (FolderWorld::fill_disk, 2),
    (FolderWorld::free_disk, 2),
    (FolderWorld::kill, 2),
    (FolderWorld::lose_power, 2),
    (FolderWorld::close, 1),
];

type Told = Arc<Mutex<Vec<(u64, Result<Outcome, WriteError>)>>>;

/// All that a watch has told.
type Watched = Arc<Mutex<Vec<Seen>>>;

/// A watch of the store, and the content of the store as the watch tells it.
struct Watching {
    _watch: Watch,
    told: Watched,
    moment: Revision,
    pairs: BTreeMap<Vec<u8>, Pair>,
}

struct FolderWorld {
    chance: Chance,
    time: Time,
    faults: Faults,
    timeline: Timeline,
    disk: MountedDisk,
    sync: Sync,
    store: Option<Embedded>,
    /// The chance by which power is lost with the process, if it is to be lost.
    power: Option<Chance>,
    model: Model,
    /// The transactions that were sent and whose outcomes aren't told, in their order.
    sent: VecDeque<(u64, Transaction)>,
    told: Told,
    count: u64,
    watching: Option<Watching>,
    leases: Vec<LeaseId>,
    /// The time from which on the store syncs again.
    next_tick: Duration,
    is_calm: bool,
    fault: Option<Broken>,
    tally: Tally,
}

/// Runs one schedule of a folder by a plan, and checks the answers of the store.
pub fn run_folder_by(plan: &Plan) -> Ran {
    let mut world = FolderWorld::new(plan);
    world.pass();
    let struck = world.faults.struck();
    let tally = Tally {
        passed_time: world.time.passed().as_millis() as u64,
        faults: FaultCounts::of(&struck),
        ..world.tally
    };
    let names = ["the process".to_owned()];
    Ran {
        tally,
        verdict: world.fault.map_or(Ok(()), Err),
        struck,
        timeline: plan.is_shown.then(|| world.timeline.drawn(&names)),
        // There is no picture of a folder, only a timeline.
        picture: None,
    }
}

impl FolderWorld {
    fn new(plan: &Plan) -> FolderWorld {
        let mut chance = Chance::new(plan.seed ^ 0x666f_6c64);
        let time = Time::new();
        let timeline = Timeline::new(time.clone(), plan.is_shown);
        let faults = Faults::new(plan.seed, plan.kept.clone(), timeline.clone());
        let size = (LEAST_SIZE + chance.below(MORE_SIZE)) * 4_096;
        let sync = [Sync::Always, Sync::Always, Sync::Second, Sync::No][chance.below(4) as usize];
        let rates = DiskRates::drawn(&mut chance);
        let disk = MountedDisk::new(|first| SimulatedDisk::new(faults.clone(), rates, size, first));
        FolderWorld {
            chance,
            time,
            faults,
            timeline,
            disk,
            sync,
            store: None,
            power: None,
            model: Model::new(sync),
            sent: VecDeque::new(),
            told: Told::default(),
            count: 0,
            watching: None,
            leases: Vec::new(),
            next_tick: Duration::ZERO,
            is_calm: false,
            fault: None,
            tally: Tally::default(),
        }
    }

    fn pass(&mut self) {
        for _ in 0..EVENTS {
            self.tally.events += 1;
            self.happen();
            if self.fault.is_some() {
                return;
            }
        }
        self.settle();
    }

    fn happen(&mut self) {
        if self.store.is_none() {
            return match self.chance.below(6) {
                0 => self.pass_time(),
                1 => self.fill_disk(),
                2 => self.free_disk(),
                3 => self.lose_power(),
                _ => self.open(),
            };
        }
        let all: u64 = HAPPENINGS.iter().map(|it| it.1).sum();
        let mut at = self.chance.below(all);
        for (happens, weight) in HAPPENINGS {
            match at.checked_sub(weight) {
                Some(rest) => at = rest,
                None => return happens(self),
            }
        }
    }

    fn find(&mut self, law: &'static str, by: String) {
        self.fault.get_or_insert(Broken { law, by });
    }

    fn note(&self, text: impl FnOnce() -> String) {
        self.timeline.note(PROCESS, text);
    }

    /// Opens the folder by a new process.
    fn open(&mut self) {
        if !self.is_calm {
            self.draw_end();
        }
        let time = self.time.clone();
        let opened = Embedded::stepped(&self.disk, &self.disk.folder(), self.sync, move || {
            time.now()
        });
        let is_killed = locked(&self.disk.disk).is_killed();
        match opened {
            Ok(store) if !is_killed => {
                self.note(|| "opens the folder".to_owned());
                self.tally.starts += 1;
                self.store = Some(store);
                self.model.reopen(true);
                self.model.sync_all();
                self.next_tick = self.time.passed() + TICK;
                self.watch();
            }
            Ok(_) => self.model.reopen(false),
            Err(error) => {
                self.model.reopen(false);
                self.judge_open(&error, is_killed);
            }
        }
        self.end_if_killed();
    }

    fn judge_open(&mut self, error: &OpenError, is_killed: bool) {
        let told = self.disk.without_first(&error.to_string());
        self.note(|| format!("doesn't open the folder: {told}"));
        let law = match error {
            OpenError::Foreign(_) | OpenError::OtherVersion { .. } | OpenError::Damaged(..)
                if !is_killed =>
            {
                "a folder isn't told as damaged"
            }
            OpenError::InUse(_) => "nobody else has the folder",
            _ if self.is_calm => "a folder opens if nothing fails",
            _ => return,
        };
        self.find(law, told);
    }

    /// Ends a process in the middle of its work, by chance.
    fn draw_end(&mut self) {
        if self.chance.is_true(1, 12) {
            self.kill();
        } else if self.chance.is_true(1, 12) {
            self.lose_power();
        }
    }

    /// Kills the process after some calls of the disk.
    fn kill(&mut self) {
        if let Some(mut chance) = self.faults.strike(Fault::Crash, 1, 1, PROCESS) {
            locked(&self.disk.disk).kill_after(chance.below(CALLS));
        }
    }

    /// Takes the power away after some calls of the disk, or at once if no process runs.
    fn lose_power(&mut self) {
        let Some(mut chance) = self.faults.strike(Fault::PowerLost, 1, 1, Column::Store) else {
            return;
        };
        locked(&self.disk.disk).kill_after(chance.below(CALLS));
        let is_idle = self.store.is_none();
        self.power = Some(chance);
        if is_idle {
            self.end_power();
        }
    }

    /// Ends the process if it was killed. Some of its transactions may have been made, in their order.
    fn end_if_killed(&mut self) {
        if !locked(&self.disk.disk).is_killed() {
            return;
        }
        self.note(|| "is killed".to_owned());
        self.judge_told();
        let sent: Vec<Transaction> = self.sent.drain(..).map(|it| it.1).collect();
        self.model.doubt_each(&sent);
        self.forget_store();
        // Nobody has heard the answers that the store gave as it ended.
        self.told.lock().expect("no panic").clear();
        match self.power.is_some() {
            true => self.end_power(),
            false => locked(&self.disk.disk).revive(),
        }
    }

    fn end_power(&mut self) {
        let Some(mut chance) = self.power.take() else {
            return;
        };
        let (kept, count) = locked(&self.disk.disk).lose_power(&mut chance);
        self.timeline.note(Column::Store, || {
            format!("keeps {kept} of {count} writes without power")
        });
        locked(&self.disk.disk).revive();
        self.model.lose_power();
        if self.sync == Sync::No {
            self.begin_anew();
        }
    }

    /// Begins with an empty disk, because nobody was promised the content of this one.
    fn begin_anew(&mut self) {
        locked(&self.disk.disk).clear();
        self.model = Model::new(self.sync);
    }

    fn forget_store(&mut self) {
        self.watching = None;
        self.leases.clear();
        self.store = None;
    }

    /// Ends the process as it should end. The transactions that were sent before must be answered.
    fn close(&mut self) {
        self.note(|| "closes the folder".to_owned());
        self.model.serve(self.time.passed());
        self.watching = None;
        self.leases.clear();
        self.store = None;
        self.end_serving(false);
    }

    fn send(&mut self) {
        let transaction = self.transaction();
        self.send_this(transaction);
    }

    fn send_this(&mut self, transaction: Transaction) {
        let Some(store) = &self.store else {
            return;
        };
        self.count += 1;
        let (number, told, disk) = (self.count, self.told.clone(), self.disk.disk.clone());
        self.note(|| format!("sends {number}: {}", summary(&transaction)));
        self.sent.push_back((number, transaction.clone()));
        let done = move |outcome| {
            // Nobody hears a process that was killed.
            if !locked(&disk).is_killed() {
                told.lock().expect("no panic").push((number, outcome));
            }
        };
        store.submit(transaction, Box::new(done));
    }

    /// Lets the store do all that was sent.
    fn step(&mut self) {
        self.ask(Embedded::step);
    }

    /// Lets the store do all that was sent, and answer this request. Returns `None` if no store goes on.
    fn ask<A>(&mut self, asks: impl FnOnce(&Embedded) -> A) -> Option<A> {
        let store = self.store.as_ref()?;
        self.model.serve(self.time.passed());
        let answer = asks(store);
        let goes_on = store.goes_on();
        if !goes_on {
            self.note(|| "can't use the folder any more".to_owned());
            self.forget_store();
        }
        self.end_serving(goes_on);
        self.store.is_some().then_some(answer)
    }

    /// Judges all answers that the store gave as it served.
    fn end_serving(&mut self, goes_on: bool) {
        if locked(&self.disk.disk).is_killed() {
            return self.end_if_killed();
        }
        self.judge_told();
        if !goes_on && !self.sent.is_empty() {
            let by = format!("{:?}", self.sent);
            self.find("what is asked is answered or refused", by);
        }
        if goes_on {
            self.judge_watch();
            if self.time.passed() >= self.next_tick {
                self.next_tick = self.time.passed() + TICK;
                self.model.sync_all();
            }
        }
        if !goes_on && self.is_calm {
            self.find("a store goes on if nothing fails", String::new());
        }
    }

    fn judge_told(&mut self) {
        let told = std::mem::take(&mut *self.told.lock().expect("no panic"));
        let mut doubtful = Vec::new();
        for (number, outcome) in told {
            self.note(|| format!("is told of {number}: {}", became(&outcome)));
            let Some((next, transaction)) = self.sent.pop_front() else {
                return self.find("each transaction is told once", number.to_string());
            };
            if next != number {
                return self.find("transactions are told in their order", number.to_string());
            }
            self.count_told(&outcome);
            if matches!(outcome, Err(WriteError::Unknown(_))) {
                doubtful.push(transaction.clone());
            }
            if let Err(law) = self.model.note(&transaction, &outcome) {
                let by = format!("{transaction:?}: {outcome:?}, {:?}", self.model.states());
                return self.find(law, by);
            }
        }
        if !doubtful.is_empty() {
            self.model.doubt_all(&doubtful);
        }
    }

    fn count_told(&mut self, outcome: &Result<Outcome, WriteError>) {
        let tally = &mut self.tally;
        *match outcome {
            Ok(Outcome::Made(_)) => &mut tally.made,
            Ok(Outcome::Lost(_)) => &mut tally.lost,
            Err(WriteError::Unknown(_)) => &mut tally.unknown,
            Err(_) => &mut tally.refused,
        } += 1;
    }

    /// Checks that the watch has told the content of the store.
    fn judge_watch(&mut self) {
        let Some(watching) = &mut self.watching else {
            return;
        };
        let told = std::mem::take(&mut *watching.told.lock().expect("no panic"));
        told.into_iter().for_each(|it| watching.hear(it));
        let (revision, pairs) = (watching.moment, watching.pairs.values().cloned().collect());
        self.judge_reading(
            "a watch tells what lies there",
            &Reading { revision, pairs },
            |it| it.reading(b"", None, usize::MAX),
        );
    }

    fn judge_reading(
        &mut self,
        law: Unkept,
        reading: &Reading,
        read: impl Fn(&FolderState) -> Reading,
    ) {
        if !self.model.see(|it| read(it) == *reading) {
            let by = format!("{reading:?}, {:?}", self.model.states());
            self.find(law, by);
        }
    }

    /// Begins a watch of all keys.
    fn watch(&mut self) {
        let told = Watched::default();
        let tells = told.clone();
        let watcher = Box::new(move |seen| tells.lock().expect("no panic").push(seen));
        let watch = self.ask(|it| it.watch(b"", watcher));
        match watch {
            Some(Ok(watch)) => {
                self.watching = Some(Watching {
                    _watch: watch,
                    told,
                    moment: Revision::NEVER,
                    pairs: BTreeMap::new(),
                });
                self.judge_watch();
            }
            Some(Err(error)) => self.judge_unread(&error),
            None => {}
        }
    }

    fn judge_unread(&mut self, error: &ReadError) {
        self.note(|| format!("reads nothing: {error}"));
        match error {
            ReadError::Damaged(_) => self.find("a folder isn't told as damaged", error.to_string()),
            _ if self.is_calm => self.find("what lies there can be read", error.to_string()),
            ReadError::Unavailable(_) | ReadError::Denied(_) | ReadError::Stopped => {}
        }
    }

    fn read(&mut self) {
        match self.chance.below(4) {
            0 => {
                let (from, end) = (self.key(), self.key());
                let most = 1 + self.chance.below(4) as usize;
                let read = self.ask(|it| it.read_range(&from, &end, most));
                self.judge_read(read, |it| it.reading(&from, Some(&end), most));
            }
            1 => {
                let keys = [self.key(), self.key()];
                let keys = [&keys[0][..], &keys[1][..]];
                let read = self.ask(|it| it.read(&keys));
                self.judge_read(read, |it| it.reading_of(&keys));
            }
            2 => {
                let (from, end) = (self.key(), self.key());
                match self.ask(|it| it.read_keys(&from, &end)) {
                    Some(Ok(keys)) => {
                        self.tally.read += 1;
                        if !self.model.see(|it| it.keys(&from, Some(&end)) == keys) {
                            self.find("a reading is what lies there", format!("{keys:?}"));
                        }
                    }
                    Some(Err(error)) => self.judge_unread(&error),
                    None => {}
                }
            }
            _ => self.read_all(),
        }
    }

    fn read_all(&mut self) {
        let read = self.ask(|it| it.read_all(b""));
        self.judge_read(read, |it| it.reading(b"", None, usize::MAX));
    }

    fn judge_read(
        &mut self,
        read: Option<Result<Reading, ReadError>>,
        state: impl Fn(&FolderState) -> Reading,
    ) {
        match read {
            Some(Ok(reading)) => {
                self.tally.read += 1;
                self.judge_reading("a reading is what lies there", &reading, state);
            }
            Some(Err(error)) => self.judge_unread(&error),
            None => {}
        }
    }

    fn lease(&mut self) {
        let at = self.chance.below(self.leases.len().max(1) as u64) as usize;
        let (now, lease) = (self.time.passed(), self.leases.get(at).copied());
        let told = match (self.chance.below(4), lease) {
            (0 | 1, Some(lease)) => self.ask(|it| it.keep(lease)).map(|it| (lease, it, LEASE)),
            (2, Some(lease)) => {
                let revoked = self.ask(|it| it.revoke(lease));
                revoked.map(|it| (lease, it, Duration::ZERO))
            }
            _ => {
                let granted = self.ask(|it| it.grant(LEASE));
                if let Some(Ok(lease)) = granted {
                    self.model.grant(lease, now + LEASE);
                    self.leases.push(lease);
                }
                None
            }
        };
        let Some((lease, told, more)) = told else {
            return;
        };
        let is_there = self.model.end_lease_at(lease, now + more);
        match told {
            Ok(()) if is_there => {}
            Err(LeaseError::Ended(_)) if !is_there => self.leases.retain(|it| *it != lease),
            told => self.find(
                "a lease is kept until it ends",
                format!("{lease}: {told:?}"),
            ),
        }
    }

    fn compact(&mut self) {
        let compacted = self.ask(Embedded::compact);
        if let (Some(Err(error)), true) = (compacted, self.is_calm) {
            self.find("room is given back if nothing fails", error.to_string());
        }
    }

    fn pass_time(&mut self) {
        let most = match self.chance.below(4) {
            0 => 1_500,
            _ => 100,
        };
        self.time.pass(self.chance.below(most));
    }

    /// Lets others take nearly all room that is free.
    fn fill_disk(&mut self) {
        if let Some(mut chance) = self.faults.strike(Fault::DiskFull, 1, 1, Column::Store) {
            locked(&self.disk.disk).leave(chance.below(12) * 4_096);
        }
    }

    fn free_disk(&mut self) {
        locked(&self.disk.disk).leave(u64::MAX);
    }

    fn key(&mut self) -> Vec<u8> {
        format!("k/{}", self.chance.below(KEYS)).into_bytes()
    }

    /// Returns a value that no other transaction writes.
    fn value(&mut self) -> Vec<u8> {
        let length = match self.chance.below(10) {
            0 => self.chance.below(40_000),
            1..=3 => self.chance.below(4_000),
            _ => self.chance.below(100),
        };
        let mut value = self.count.to_be_bytes().to_vec();
        value.resize(8 + length as usize, self.count as u8);
        value
    }

    fn transaction(&mut self) -> Transaction {
        let (key, other) = (self.key(), self.key());
        let revision = self.model.first().revision_at(&key);
        let compare = match self.chance.below(4) {
            0 => Revision(revision.0.saturating_sub(1)),
            _ => revision,
        };
        let begun = Transaction::new();
        let begun = match self.chance.is_true(1, 2) {
            true => begun.compare(key.clone(), compare).or_read(key.clone()),
            false => begun,
        };
        let room = match self.chance.below(6) {
            0 => Room::KeptBack,
            _ => Room::Free,
        };
        let begun = Transaction { room, ..begun };
        let at = self.chance.below(self.leases.len().max(1) as u64) as usize;
        let lease = self.leases.get(at).copied();
        match self.chance.below(10) {
            0 => begun,
            1 | 2 => begun.delete(key),
            3 if other != key => begun.put(key, self.value()).delete(other),
            4 if other != key => begun.put(key, self.value()).put(other, self.value()),
            5 => begun.put_under(key, self.value(), lease),
            _ => begun.put(key, self.value()),
        }
    }

    /// Lets the schedule settle. Nothing fails any more, so the folder must open, and the store must do all requests.
    fn settle(&mut self) {
        self.is_calm = true;
        let disk = self.disk.disk.clone();
        locked(&disk).calm();
        self.end_if_killed();
        locked(&disk).revive();
        self.power = None;
        if self.store.is_none() {
            self.open();
        }
        self.read_all();
        for number in 0..KEYS {
            let key = format!("k/{number}");
            self.make_at_last(Transaction::new().delete(key));
        }
        self.compact();
        self.make_at_last(Transaction::new().put("k/last", self.count.to_be_bytes()));
        self.time.pass(TICK.as_millis() as u64);
        self.step();
        self.close_at_last();
    }

    /// Checks that all data of which the store has told is there after power is lost. If the store never syncs, nothing
    /// is checked.
    fn close_at_last(&mut self) {
        if self.fault.is_some() || self.sync == Sync::No {
            return;
        }
        self.forget_store();
        let mut chance = Chance::new(self.chance.drawn());
        locked(&self.disk.disk).lose_power(&mut chance);
        locked(&self.disk.disk).revive();
        self.model.lose_power();
        self.open();
        self.read_all();
    }

    fn make_at_last(&mut self, transaction: Transaction) {
        if self.fault.is_some() {
            return;
        }
        let before = self.tally.made;
        self.send_this(transaction);
        self.step();
        if self.tally.made == before {
            self.find(
                "what is asked while nothing is wrong is done",
                String::new(),
            );
        }
    }
}

impl Watching {
    fn hear(&mut self, seen: Seen) {
        match seen {
            Seen::All(reading) => {
                self.moment = reading.revision;
                let pairs = reading.pairs.into_iter();
                self.pairs = pairs.map(|it| (it.key.clone(), it)).collect();
            }
            Seen::Changes(moment, changes) => {
                self.moment = moment;
                changes.into_iter().for_each(|it| self.change(it));
            }
        }
    }

    fn change(&mut self, change: KeyChange) {
        match change.value {
            None => drop(self.pairs.remove(&change.key)),
            Some(value) => {
                let pair = Pair {
                    key: change.key.clone(),
                    value,
                    revision: change.revision,
                    created: change.created,
                };
                self.pairs.insert(change.key, pair);
            }
        }
    }
}
