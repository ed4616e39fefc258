//! Schedules of etcd clients as they ship. The members that they ask get into trouble by chance.
use super::calls::{locked as locked_calls, SharedCalls};
use super::client_environment::ClientEnvironment;
use super::client_law::{judge, judge_watch};
use super::gateway::{GatewayAnswer, DONE, REFUSED};
use super::gateway_json as json;
use super::record::{Asked, Record, Told, WatchRecord};
use crate::chance::Chance;
use crate::etcd::{EtcdRefusal, Heard, Keyspace, RangeQuery, Reached, MEMBERS};
use crate::fault::Fault;
use crate::fault_counts::FaultCounts;
use crate::faults::Faults;
use crate::law::Broken;
use crate::plan::{Plan, Ran};
use crate::simulated_store::{locked, SharedStore, SimulatedStore};
use crate::tally::Tally;
use crate::tasks::Tasks;
use crate::time::Time;
use crate::timeline::{Column, Timeline};
use durkenzo_store::{EtcdClient, KeyChange, LeaseId, NoAnswer, Revision, Seen, Transaction};
use std::collections::VecDeque;
use std::num::NonZeroUsize;
use std::sync::{Arc, Mutex};
use std::time::Duration;

const CLIENTS: usize = 2;
const EVENTS: u64 = 1_200;
/// How long a client waits for an answer.
const PATIENCE: Duration = Duration::from_secs(5);
/// The longest time for which a call is on its way to a member that answers. The answer comes back at once.
const DELAY: Duration = Duration::from_millis(300);
/// If all members have answered for this time, a lease must be kept.
const STEADY: Duration = Duration::from_millis(2_500);
/// The longest time without a leader, in milliseconds.
const ELECTION: u64 = 3_500;
/// Once nothing fails, everything must be over within this many rounds. A round has `ROUND` milliseconds.
const SETTLING: u64 = 4_000;
const ROUND: u64 = 50;
/// For so many rounds calls stay unanswered that reached a member while it didn't answer. That is longer than a client
/// waits for an answer, so it must have asked again.
const STUCK: u64 = 120;
const PREFIXES: [&[u8]; 2] = [b"k/", b"l/"];

/// Returns all keys of a schedule.
fn keys() -> Vec<Vec<u8>> {
    let keys = |it: &str| (0..5).map(|at| format!("{it}/{at}").into_bytes()).collect();
    ["k", "l"]
        .iter()
        .flat_map(|it| -> Vec<Vec<u8>> { keys(it) })
        .collect()
}

/// An event that may happen next.
type Happening = fn(&mut ClientWorld);

const HAPPENINGS: [(Happening, u64); 7] = [
    (ClientWorld::ask, 10),
    (ClientWorld::deliver, 40),
    (ClientWorld::tell_watches, 15),
    (ClientWorld::break_watch, 1),
    (ClientWorld::trouble, 4),
    (ClientWorld::lapse, 2),
    (ClientWorld::pass_time, 25),
];

/// A watch that hears changes from a member.
struct Stream {
    call: u64,
    member: usize,
    range: RangeQuery,
    /// The changes that the watch isn't told yet, by their revisions, up to the revision `noted`. If they are compacted
    /// later, the watch is told all the same.
    untold: VecDeque<(u64, Vec<KeyChange>)>,
    noted: u64,
}

impl Stream {
    /// Notes the changes that were made by now.
    fn note(&mut self, keyspace: &Keyspace) {
        for revision in self.noted + 1..=keyspace.revision() {
            let changes = keyspace.changes_of(revision).iter();
            let changes = changes.filter(|it| self.range.has(&it.key)).cloned();
            self.untold.push_back((revision, changes.collect()));
        }
        self.noted = keyspace.revision();
    }

    /// Takes the changes up to this revision.
    fn taken(&mut self, until: u64) -> Vec<KeyChange> {
        let count = self.untold.partition_point(|it| it.0 <= until);
        self.untold.drain(..count).flat_map(|it| it.1).collect()
    }
}

/// A watch of a client, and its task.
struct Watching {
    task: usize,
    record: Arc<Mutex<WatchRecord>>,
}

struct ClientWorld {
    chance: Chance,
    time: Time,
    faults: Faults,
    timeline: Timeline,
    store: SharedStore,
    calls: SharedCalls,
    /// Calls that reached a member while it didn't answer. Whoever waits for them isn't answered later either, until
    /// the schedule has been settling for a while.
    stuck: Vec<u64>,
    clients: Vec<EtcdClient>,
    tasks: Tasks,
    streams: Vec<Stream>,
    records: Arc<Mutex<Vec<Record>>>,
    watches: Vec<Watching>,
    leases: Vec<LeaseId>,
    values: u64,
    /// For each client, the time since which all members answer and no call of it was harmed.
    steady_since: Arc<Mutex<[Duration; CLIENTS]>>,
}

/// Runs one schedule of clients by a plan, and checks their answers.
pub fn run_clients_by(plan: &Plan) -> Ran {
    let mut world = ClientWorld::new(plan);
    world.pass();
    let tally = Tally {
        events: EVENTS,
        passed_time: world.time.passed().as_millis() as u64,
        faults: FaultCounts::of(&world.faults.struck()),
        ..Tally::default()
    };
    let names: Vec<String> = (0..CLIENTS).map(|it| format!("client {it}")).collect();
    let timeline = plan.is_shown.then(|| world.timeline.drawn(&names));
    let struck = world.faults.struck();
    Ran {
        tally,
        verdict: world.judge(),
        struck,
        timeline,
        // There is no picture of clients, only a timeline.
        picture: None,
    }
}

impl ClientWorld {
    fn new(plan: &Plan) -> ClientWorld {
        let mut chance = Chance::new(plan.seed ^ 0x6574_6364);
        let time = Time::new();
        let timeline = Timeline::new(time.clone(), plan.is_shown);
        let faults = Faults::new(plan.seed, plan.kept.clone(), timeline.clone());
        let noted = (faults.clone(), timeline.clone());
        let of_store = Chance::new(chance.drawn());
        let store = SimulatedStore::new(of_store, None, time.clone(), noted);
        let calls = SharedCalls::default();
        let mut client = |place: usize| {
            let first = chance.below(MEMBERS as u64) as usize;
            let environment = ClientEnvironment {
                calls: calls.clone(),
                time: time.clone(),
                place,
                members: (first..first + MEMBERS).map(|it| it % MEMBERS).collect(),
            };
            let members = NonZeroUsize::new(MEMBERS).expect("there are members");
            EtcdClient::new(Arc::new(environment), members, PATIENCE, None)
        };
        let clients = (0..CLIENTS).map(&mut client).collect();
        ClientWorld {
            chance,
            time,
            faults,
            timeline,
            store: Arc::new(Mutex::new(store)),
            calls,
            stuck: Vec::new(),
            clients,
            tasks: Tasks::default(),
            streams: Vec::new(),
            records: Arc::default(),
            watches: Vec::new(),
            leases: Vec::new(),
            values: 0,
            steady_since: Arc::default(),
        }
    }

    fn pass(&mut self) {
        for place in 0..CLIENTS {
            PREFIXES.iter().for_each(|it| self.watch(place, it));
        }
        locked(&self.store).is_calm = false;
        for _ in 0..EVENTS {
            self.happen();
            self.tasks.run();
        }
        self.settle();
    }

    fn happen(&mut self) {
        let all: u64 = HAPPENINGS.iter().map(|it| it.1).sum();
        let mut at = self.chance.below(all);
        for (happens, weight) in HAPPENINGS {
            match at.checked_sub(weight) {
                Some(rest) => at = rest,
                None => return happens(self),
            }
        }
    }

    /// Makes a client watch these keys, once it has read them.
    fn watch(&mut self, place: usize, prefix: &'static [u8]) {
        let client = self.clients[place].clone();
        let record = Arc::new(Mutex::new(WatchRecord {
            prefix: prefix.to_vec(),
            seen: Vec::new(),
        }));
        let seeing = record.clone();
        let task = self.tasks.add(async move {
            let reading = loop {
                if let Ok(reading) = client.read_all(prefix).await {
                    break reading;
                }
            };
            let see = move |seen: Seen| seeing.lock().expect("no panic").seen.push(seen);
            client.watch(prefix.to_vec(), reading, Box::new(see)).await;
        });
        self.watches.push(Watching { task, record });
    }

    /// Asks a client for something.
    fn ask(&mut self) {
        let asked = self.asked();
        let place = self.chance.below(CLIENTS as u64) as usize;
        let at = self.note_asked(&asked);
        self.timeline.note(Column::Process(place), || {
            format!("{at} asks {}", asked.shown())
        });
        let (store, time) = (self.store.clone(), self.time.clone());
        let (client, records) = (self.clients[place].clone(), self.records.clone());
        let (steady, timeline) = (self.steady_since.clone(), self.timeline.clone());
        self.tasks.add(async move {
            let told = asked.told_by(&client).await;
            timeline.note(Column::Process(place), || format!("{at} {}", told.shown()));
            let record = &mut records.lock().expect("no panic")[at];
            let revision = locked(&store).revision();
            record.is_there = ClientWorld::has_lease(&store, &asked, Some(&told));
            record.told = Some((told, revision));
            let since = steady.lock().expect("no panic")[place];
            record.is_due = time.passed().saturating_sub(since.max(record.begun_at)) >= STEADY;
            record.is_steady = since < record.begun_at;
        });
    }

    /// Notes a request to a client, and returns the place of its record.
    fn note_asked(&mut self, asked: &Asked) -> usize {
        let was_there = ClientWorld::has_lease(&self.store, asked, None);
        let begun = locked(&self.store).revision();
        let mut records = self.records.lock().expect("no panic");
        records.push(Record {
            asked: asked.clone(),
            begun,
            begun_at: self.time.passed(),
            was_there,
            told: None,
            is_there: false,
            is_due: false,
            is_steady: false,
        });
        records.len() - 1
    }

    /// Returns whether the lease is there that the request names, or that the answer grants.
    fn has_lease(store: &SharedStore, asked: &Asked, told: Option<&Told>) -> bool {
        let lease = match (asked, told) {
            (_, Some(Told::Granted(Ok(lease)))) => Some(*lease),
            (Asked::Keep(lease) | Asked::Revoke(lease), _) => Some(*lease),
            _ => None,
        };
        lease.is_some_and(|it| locked(store).keyspace.keys_of(it).is_some())
    }

    fn asked(&mut self) -> Asked {
        self.learn_leases();
        let lease = self.chance.below(self.leases.len().max(1) as u64) as usize;
        let lease = self.leases.get(lease).copied();
        match (self.chance.below(20), lease) {
            (0..=8, lease) => Asked::Make(self.transaction(lease)),
            (9, _) => Asked::Read(vec![self.key(), b"none".to_vec()]),
            (10, _) => Asked::ReadAll(b"k/".to_vec()),
            (11, _) => Asked::ReadRange(b"k/1".to_vec(), b"l/3".to_vec(), 3),
            (12, _) => Asked::ReadKeys(b"k/1".to_vec(), b"l/9".to_vec()),
            (13, Some(lease)) => Asked::Revoke(lease),
            (14..=17, Some(lease)) => Asked::Keep(lease),
            (18, _) => match self.chance.below(3) {
                0 => Asked::Compact,
                1 => Asked::CompactHistory,
                _ => Asked::Size,
            },
            (13..=19, _) => Asked::Grant,
            (20.., _) => Asked::Grant,
        }
    }

    /// Notes the last leases that were granted.
    fn learn_leases(&mut self) {
        let records = self.records.lock().expect("no panic");
        let granted = records.iter().filter_map(|it| match &it.told {
            Some((Told::Granted(Ok(lease)), _)) => Some(*lease),
            _ => None,
        });
        self.leases = granted.collect();
        let old = self.leases.len().saturating_sub(3);
        self.leases.drain(..old);
    }

    fn key(&mut self) -> Vec<u8> {
        let keys = keys();
        keys[self.chance.below(keys.len() as u64) as usize].clone()
    }

    /// Returns a transaction that compares the first key that it writes, so that it can't be made twice. It compares
    /// the key with its present revision, or with the one before.
    fn transaction(&mut self, lease: Option<LeaseId>) -> Transaction {
        let (key, other) = (self.key(), self.key());
        let revision = locked(&self.store).keyspace.revision_of(&key);
        let before = self.chance.below(6).saturating_sub(4);
        let compared = Revision(revision.saturating_sub(before));
        let compares = Transaction::new().compare(key.clone(), compared);
        self.values += 1;
        let value = self.values.to_be_bytes().to_vec();
        let reads = compares.clone().or_read(key.clone());
        match self.chance.below(8) {
            0 => compares,
            1 => reads,
            2 if other != key => reads.put(key, value).delete(other),
            3 if other != key => reads.put(key, value.clone()).put(other, value),
            4 | 5 => reads.put_under(key, value, lease),
            _ => reads.put(key, value),
        }
    }

    /// Delivers some call that no member has answered.
    fn deliver(&mut self) {
        let calls = locked_calls(&self.calls).unanswered();
        let at = self.chance.below(calls.len().max(1) as u64) as usize;
        if let Some(call) = calls.get(at) {
            self.deliver_call(*call);
        }
    }

    fn deliver_call(&mut self, number: u64) {
        let Some((member, place)) = self.way(number) else {
            return;
        };
        let is_calm = locked(&self.store).is_calm;
        let reached = match is_calm {
            true => Reached::Answers,
            false => locked(&self.store)
                .members
                .reached(member, self.time.passed()),
        };
        let column = Column::Process(place);
        let is_there = locked_calls(&self.calls).is_awaited(number);
        if reached != Reached::Answers {
            self.harm(place);
        }
        match reached {
            Reached::IsGone if is_there => {
                let why = NoAnswer::Unreachable("the member is gone".to_owned());
                locked_calls(&self.calls).begin(number, Err(why));
            }
            // If nobody waits for the call, nobody sends it again.
            Reached::IsGone => locked_calls(&self.calls).forget(number),
            Reached::Hangs => self.be_stuck(number, place),
            Reached::Answers if self.stuck.contains(&number) && is_there => {}
            Reached::Answers => {
                if self.fails(Fault::SentInVain, 20, column) {
                    return self.break_call(number, place);
                }
                self.answer(number, member, place);
            }
        }
    }

    /// Leaves a call at a member that doesn't answer. Some calls wait there, some are refused, and some lose their
    /// connection.
    fn be_stuck(&mut self, number: u64, place: usize) {
        match self.chance.below(8) {
            0 => self.break_call(number, place),
            1 => self.tell(number, REFUSED, &json::no_leader()),
            2..=4 if !self.stuck.contains(&number) => self.stuck.push(number),
            _ => {}
        }
    }

    /// Returns the member to which a call goes, and the place of the client that made it.
    fn way(&self, number: u64) -> Option<(usize, usize)> {
        let calls = locked_calls(&self.calls);
        calls.get(number).map(|it| (it.member, it.place))
    }

    /// Breaks the connection of a call before anything comes back.
    fn break_call(&mut self, number: u64, place: usize) {
        self.harm(place);
        let why = NoAnswer::Broken("the connection is broken".to_owned());
        let mut calls = locked_calls(&self.calls);
        match calls.is_awaited(number) {
            true => calls.begin(number, Err(why)),
            false => calls.forget(number),
        }
    }

    fn harm(&mut self, place: usize) {
        self.steady_since.lock().expect("no panic")[place] = self.time.passed();
    }

    /// Lets a member do a call and answer it, unless the answer is lost.
    fn answer(&mut self, number: u64, member: usize, place: usize) {
        let (path, asked) = {
            let calls = locked_calls(&self.calls);
            let Some(call) = calls.get(number) else {
                return;
            };
            (call.path, call.asked.clone())
        };
        let mut answer = locked(&self.store).answer(member, path, &asked);
        if locked(&self.store).is_full() {
            self.harm(place);
        }
        let column = Column::Process(place);
        if path == "/v3/kv/txn" && self.fails(Fault::SentTwice, 12, column) {
            // Nobody learns the outcome of the copy.
            let _ = locked(&self.store).answer(member, path, &asked);
        }
        self.note_changes();
        if self.fails(Fault::AnswerLost, 12, column) {
            return self.break_call(number, place);
        }
        if path == "/v3/kv/txn" && self.fails(Fault::FullThoughMade, 30, column) {
            self.harm(place);
            answer = GatewayAnswer::Whole(REFUSED, json::refusal(EtcdRefusal::NoSpace));
        }
        match answer {
            GatewayAnswer::Whole(status, told) => self.tell(number, status, &told),
            GatewayAnswer::Line(told) => {
                let mut calls = locked_calls(&self.calls);
                calls.push(number, json::line(&told));
                calls.begin(number, Ok(DONE));
            }
            GatewayAnswer::Watch(range, first) => self.begin_watch(number, member, range, first),
        }
    }

    /// Lets a member begin a watch from this revision on. If the revision was let go, the member says so and ends the
    /// watch.
    fn begin_watch(&mut self, number: u64, member: usize, range: RangeQuery, first: u64) {
        let (store, mut calls) = (locked(&self.store), locked_calls(&self.calls));
        let revision = store.revision();
        calls.push(number, json::line(&json::created(revision)));
        calls.begin(number, Ok(DONE));
        match store.keyspace.heard(&range, first) {
            Heard::Compacted(compacted) => {
                calls.push(number, json::line(&json::canceled(revision, compacted)));
                calls.end(number, Ok(()));
            }
            Heard::Changes(changes) => {
                let each = changes.into_iter().map(|it| (it.revision.0, vec![it]));
                self.streams.push(Stream {
                    call: number,
                    member,
                    range,
                    untold: each.collect(),
                    noted: revision,
                });
            }
        }
    }

    /// Notes the changes for all watches.
    fn note_changes(&mut self) {
        let store = locked(&self.store);
        self.streams
            .iter_mut()
            .for_each(|it| it.note(&store.keyspace));
    }

    /// Delivers a member's answer in two pieces, unless the answer is cut between them.
    fn tell(&mut self, number: u64, status: u16, told: &serde_json::Value) {
        let Some((_, place)) = self.way(number) else {
            return;
        };
        let bytes = told.to_string().into_bytes();
        let cut = self.chance.below(bytes.len() as u64 + 1) as usize;
        let is_cut = self.fails(Fault::AnswerCut, 30, Column::Process(place));
        let mut calls = locked_calls(&self.calls);
        calls.push(number, bytes[..cut].to_vec());
        match is_cut {
            true => {
                let why = NoAnswer::Broken("the answer is cut".to_owned());
                calls.end(number, Err(why));
            }
            false => {
                calls.push(number, bytes[cut..].to_vec());
                calls.end(number, Ok(()));
            }
        }
        calls.begin(number, Ok(status));
        drop(calls);
        if is_cut {
            self.harm(place);
        }
    }

    fn fails(&mut self, fault: Fault, times: u64, column: Column) -> bool {
        locked(&self.store).fails(fault, times, column)
    }

    /// Lets members tell watches of the changes that they know.
    fn tell_watches(&mut self) {
        let streams = std::mem::take(&mut self.streams);
        for stream in streams {
            self.tell_watch(stream);
        }
    }

    fn tell_watch(&mut self, mut stream: Stream) {
        let mut calls = locked_calls(&self.calls);
        if !calls.is_awaited(stream.call) {
            return;
        }
        let (store, now) = (locked(&self.store), self.time.passed());
        let revision = store.revision();
        let told = match store.is_calm {
            true => Some(revision),
            false => store.members.told(stream.member, now, revision),
        };
        let Some(told) = told else {
            if store.members.reached(stream.member, now) == Reached::IsGone {
                let why = NoAnswer::Broken("the member is gone".to_owned());
                return calls.end(stream.call, Err(why));
            }
            return self.streams.push(stream);
        };
        let known = stream.taken(told);
        if !known.is_empty() {
            calls.push(stream.call, json::line(&json::events(told, &known)));
        }
        self.streams.push(stream);
    }

    /// Breaks the connection of some watch, if the fault strikes.
    fn break_watch(&mut self) {
        let at = self.chance.below(self.streams.len().max(1) as u64) as usize;
        if at < self.streams.len() && self.fails(Fault::WatchBreaks, 2, Column::Store) {
            let stream = self.streams.swap_remove(at);
            let why = NoAnswer::Broken("the connection is broken".to_owned());
            locked_calls(&self.calls).end(stream.call, Err(why));
        }
    }

    /// Gets the members into trouble by chance.
    fn trouble(&mut self) {
        let mut store = locked(&self.store);
        store.come_into_trouble();
        if let Some(mut chance) = store.struck(Fault::LeaderChange, 12) {
            let now = self.time.passed();
            let since = now + Duration::from_millis(1 + chance.below(ELECTION));
            store.members.elect(now, since);
            store.keyspace.extend_leases(since);
        }
    }

    fn lapse(&mut self) {
        locked(&self.store).lapse();
        self.note_changes();
    }

    /// Lets time pass, and delivers the calls that were on their way for too long.
    fn pass_time(&mut self) {
        let most = match self.chance.below(6) {
            0 => 120,
            _ => 30,
        };
        let time = self.chance.below(most);
        self.pass_milliseconds(time);
        let late: Vec<u64> = {
            let (calls, now) = (locked_calls(&self.calls), self.time.passed());
            let is_late = |it: &u64| calls.get(*it).is_some_and(|it| it.sent + DELAY <= now);
            calls.unanswered().into_iter().filter(is_late).collect()
        };
        late.into_iter().for_each(|it| self.deliver_call(it));
    }

    fn pass_milliseconds(&mut self, milliseconds: u64) {
        let (store, now) = (locked(&self.store), self.time.passed());
        let answers = |it: usize| store.members.reached(it, now) == Reached::Answers;
        let is_steady = (0..MEMBERS).all(answers) && !store.is_full();
        drop(store);
        if !is_steady {
            (0..CLIENTS).for_each(|it| self.harm(it));
        }
        self.time.pass(milliseconds);
        locked_calls(&self.calls).wake_until(self.time.now());
    }

    /// Lets the schedule settle. Nothing fails any more, so all requests must be over within some time, and watches
    /// must have told all changes. At first, calls that reached a member while it didn't answer stay unanswered.
    fn settle(&mut self) {
        locked(&self.store).is_calm = true;
        for round in 0..SETTLING {
            self.pass_milliseconds(ROUND);
            if round == STUCK {
                self.stuck.clear();
            }
            let calls = locked_calls(&self.calls).unanswered();
            calls.into_iter().for_each(|it| self.deliver_call(it));
            self.tell_watches();
            self.lapse();
            self.tasks.run();
            if self.tasks.count() == self.watches.len() && self.have_watches_told() {
                return;
            }
        }
    }

    fn have_watches_told(&self) -> bool {
        let store = locked(&self.store);
        let told = |it: &Watching| {
            let record = it.record.lock().expect("no panic");
            judge_watch(&store.keyspace, &keys(), &record).is_ok()
        };
        self.watches.iter().all(told)
    }

    /// Judges all answers and watches, and checks that no call and no task is left.
    fn judge(mut self) -> Result<(), Broken> {
        let (keys, store) = (keys(), self.store.clone());
        {
            let store = locked(&store);
            let records = self.records.lock().expect("no panic");
            let mut records = records.iter();
            records.try_for_each(|it| judge(&store.keyspace, &keys, it))?;
            self.watches.iter().try_for_each(|it| {
                let record = it.record.lock().expect("no panic");
                judge_watch(&store.keyspace, &keys, &record)
            })?;
        }
        for watching in &self.watches {
            self.tasks.drop_at(watching.task);
        }
        match locked_calls(&self.calls).awaited() + self.tasks.count() {
            0 => Ok(()),
            left => Err(Broken {
                law: "a client that ends leaves no calls behind",
                by: format!("{left} are left"),
            }),
        }
    }
}
