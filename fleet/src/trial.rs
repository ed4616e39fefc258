//! Tests with several processes of a service that counts, all in one process of a test. The clients know which count
//! comes next. So they find each count that is lost or made twice, and each wrong rule that is planted.
use crate::connections::Connections;
use crate::copy_name::CopyName;
use crate::environment::NotAnswered;
use crate::frame::{CallFrame, HandFrame, Request, Response};
use crate::introduction::Introduction;
use crate::plant::Plant;
use crate::settings::identity;
use crate::threads::block_on;
use crate::{
    Call, CallError, Came, Changes, Enter, Fault, Fleet, Mode, Options, Piece, Refused, Retry,
    Router, Safety, Service, Shard,
};
use durkenzo_control::links::NO_SERVER;
use durkenzo_store::{
    CompactError, Done, Embedded, LeaseError, LeaseId, ReadError, Reading, Seen, Store,
    Transaction, Watch, Watcher, WriteError,
};
use durkenzo_store_sys::HandOver;
use std::collections::{HashMap, HashSet};
use std::io::{ErrorKind, Write};
use std::sync::atomic::{AtomicBool, Ordering};
use std::sync::{Arc, Mutex};
use std::thread::{self, JoinHandle};
use std::time::{Duration, Instant};

const SERVERS: u16 = 3;
const SHARDS: u16 = 6;
const CLIENTS: usize = 6;
/// The number of keys in a piece.
const KEYS: usize = 3;
/// A request that makes the service panic.
const PANICS: &[u8] = b"panic";
/// The longest time that a client waits for an answer.
const PATIENCE: Duration = Duration::from_secs(20);
/// The longest time that the test waits for an event that must come.
const SOON: Duration = Duration::from_secs(30);

/// Counts by key.
#[derive(Default)]
struct Counts {
    counts: HashMap<Vec<u8>, u64>,
    /// The keys that aren't copied, or were counted since.
    uncopied: Option<HashSet<Vec<u8>>>,
}

struct Counter {
    keeps_changes: bool,
    /// How each body came, in order.
    came: Arc<Mutex<Vec<&'static str>>>,
}

impl Counts {
    fn read(&mut self, mut bytes: &[u8]) -> Option<()> {
        while let Some((length, rest)) = bytes.split_first() {
            let (key, rest) = rest.split_at_checked(usize::from(*length))?;
            let (count, rest) = rest.split_first_chunk()?;
            self.counts.insert(key.to_vec(), u64::from_be_bytes(*count));
            bytes = rest;
        }
        Some(())
    }

    fn write<'a>(&self, keys: impl Iterator<Item = &'a Vec<u8>>) -> Vec<u8> {
        let mut out = Vec::new();
        for key in keys {
            out.push(key.len() as u8);
            out.extend(key);
            out.extend(self.counts[key].to_be_bytes());
        }
        out
    }
}

impl Service for Counter {
    type Body = Counts;

    fn add(&self, _: Shard, came: Came<'_>) -> Result<Counts, Fault> {
        let mut counts = Counts::default();
        let (name, bytes) = match came {
            Came::New => ("new", &[][..]),
            Came::Lost => ("lost", &[][..]),
            Came::Handed(bytes) => ("handed", bytes),
        };
        self.came.lock().unwrap().push(name);
        counts.read(bytes).ok_or("it ends too early")?;
        Ok(counts)
    }

    fn answer(&self, body: &mut Counts, call: Call<'_>) -> Vec<u8> {
        assert_ne!(call.request(), PANICS);
        let key = call.request().to_vec();
        if let Some(uncopied) = &mut body.uncopied {
            uncopied.insert(key.clone());
        }
        let count = body.counts.entry(key).or_default();
        *count += 1;
        count.to_be_bytes().to_vec()
    }

    fn hand_over(&self, body: &mut Counts) -> Vec<u8> {
        body.write(body.counts.keys())
    }

    fn changes(&self) -> Option<&dyn Changes<Counts>> {
        self.keeps_changes.then_some(self as _)
    }
}

impl Changes<Counts> for Counter {
    fn begin_copy(&self, body: &mut Counts) {
        body.uncopied = Some(body.counts.keys().cloned().collect());
    }

    fn next_piece(&self, body: &mut Counts, _most: usize) -> Piece {
        let mut uncopied = body.uncopied.take().unwrap_or_default();
        let keys: Vec<_> = uncopied.iter().take(KEYS).cloned().collect();
        uncopied.retain(|it| !keys.contains(it));
        let left = uncopied.len() as u64;
        body.uncopied = Some(uncopied);
        let bytes = body.write(keys.iter());
        Piece { bytes, left }
    }

    fn end_copy(&self, body: &mut Counts) {
        body.uncopied = None;
        self.came.lock().unwrap().push("stayed");
    }

    fn begin_body(&self, _: Shard) -> Result<Counts, Fault> {
        Ok(Counts::default())
    }

    fn add_piece(&self, body: &mut Counts, piece: &[u8]) -> Result<(), Fault> {
        Ok(body.read(piece).ok_or("it ends too early")?)
    }

    fn end_body(&self, _: Shard, _: &mut Counts) -> Result<(), Fault> {
        self.came.lock().unwrap().push("copied");
        Ok(())
    }
}

/// A store from which a process can be cut. Changes during the cut are seen when the cut ends.
struct Cuttable {
    store: Arc<dyn Store>,
    cut: Arc<Cut>,
}

#[derive(Default)]
struct Cut {
    is_cut: AtomicBool,
    /// Whether reads aren't answered for now.
    hangs: AtomicBool,
    held: Mutex<Vec<Box<dyn FnOnce() + Send>>>,
}

impl Cut {
    fn set(&self, is_cut: bool) {
        let mut held = self.held.lock().unwrap();
        self.is_cut.store(is_cut, Ordering::SeqCst);
        if !is_cut {
            held.drain(..).for_each(|it| it());
        }
    }

    fn is_cut(&self) -> bool {
        self.is_cut.load(Ordering::SeqCst)
    }
}

impl Store for Cuttable {
    fn submit(&self, transaction: Transaction, done: Done) {
        match self.cut.is_cut() {
            true => {
                thread::spawn(|| done(Err(WriteError::Unreachable("cut".to_owned()))));
            }
            false => self.store.submit(transaction, done),
        }
    }

    fn read(&self, keys: &[&[u8]]) -> Result<Reading, ReadError> {
        while self.cut.hangs.load(Ordering::SeqCst) {
            thread::sleep(Duration::from_millis(1));
        }
        match self.cut.is_cut() {
            true => Err(ReadError::Unavailable("cut".to_owned())),
            false => self.store.read(keys),
        }
    }

    fn read_all(&self, prefix: &[u8]) -> Result<Reading, ReadError> {
        self.store.read_all(prefix)
    }

    fn read_range(&self, from: &[u8], end: &[u8], most: usize) -> Result<Reading, ReadError> {
        self.store.read_range(from, end, most)
    }

    fn watch(&self, prefix: &[u8], watcher: Watcher) -> Result<Watch, ReadError> {
        let (cut, watcher) = (self.cut.clone(), Arc::new(Mutex::new(watcher)));
        let tell = move |seen: Seen| {
            let mut held = cut.held.lock().unwrap();
            let watcher = watcher.clone();
            match cut.is_cut() {
                true => held.push(Box::new(move || (watcher.lock().unwrap())(seen))),
                false => {
                    drop(held);
                    (watcher.lock().unwrap())(seen);
                }
            }
        };
        self.store.watch(prefix, Box::new(tell))
    }

    fn grant(&self, length: Duration) -> Result<LeaseId, LeaseError> {
        match self.cut.is_cut() {
            true => Err(LeaseError::Unavailable("cut".to_owned())),
            false => self.store.grant(length),
        }
    }

    fn keep(&self, lease: LeaseId) -> Result<(), LeaseError> {
        match self.cut.is_cut() {
            true => Err(LeaseError::Unavailable("cut".to_owned())),
            false => self.store.keep(lease),
        }
    }

    fn revoke(&self, lease: LeaseId) -> Result<(), LeaseError> {
        self.store.revoke(lease)
    }

    fn compact(&self) -> Result<(), CompactError> {
        self.store.compact()
    }
}

/// The results that clients saw.
#[derive(Debug, Default)]
struct Tally {
    answered: u64,
    forwarded: u64,
    unsure: u64,
    not_made: Vec<String>,
    /// Counts that began anew, and other counts that weren't the next one.
    lost: u64,
    wrong: u64,
}

impl Tally {
    fn add(&mut self, other: Tally) {
        self.answered += other.answered;
        self.forwarded += other.forwarded;
        self.unsure += other.unsure;
        self.not_made.extend(other.not_made);
        self.lost += other.lost;
        self.wrong += other.wrong;
    }

    /// Returns whether each call was made once, and nothing was lost.
    fn is_clean(&self) -> bool {
        self.unsure == 0 && self.not_made.is_empty() && self.lost == 0 && self.wrong == 0
    }
}

/// A fleet, and clients that call it all the time.
struct Trial {
    store: Arc<dyn Store>,
    fleets: Vec<Fleet<Counter>>,
    cuts: Vec<Arc<Cut>>,
    came: Arc<Mutex<Vec<&'static str>>>,
    stops: Arc<AtomicBool>,
    clients: Vec<JoinHandle<Tally>>,
}

fn options(server: u16, lease: u64, plant: Option<Plant>) -> Options {
    let words = ["fleet", "--margin", "100", "--balance", "off"];
    let mut options = <Options as clap::Parser>::parse_from(words);
    (options.name, options.servers, options.shards) = (server, SERVERS, SHARDS);
    (options.lease, options.plant) = (lease, plant);
    // The rest of a body then comes in several pieces, before its shard stops and after.
    options.piece = 1;
    options.moves = 1;
    options
}

impl Trial {
    /// Begins a fleet with leases of this many seconds. Each of its processes has this wrong rule planted.
    fn new(lease: u64, keeps_changes: bool, plant: Option<Plant>) -> Trial {
        Trial::over(Arc::new(Embedded::in_memory()), lease, keeps_changes, plant)
    }

    /// Begins such a fleet over this store.
    fn over(store: Arc<dyn Store>, lease: u64, keeps_changes: bool, plant: Option<Plant>) -> Trial {
        Trial::with(store, keeps_changes, |server| options(server, lease, plant))
    }

    /// Begins a fleet over this store. Each of its processes has these options.
    fn with(store: Arc<dyn Store>, keeps_changes: bool, options: impl Fn(u16) -> Options) -> Trial {
        let came = Arc::<Mutex<Vec<_>>>::default();
        let cuts: Vec<Arc<Cut>> = (0..SERVERS).map(|_| Arc::default()).collect();
        let fleets = (1..=SERVERS).zip(&cuts).map(|(server, cut)| {
            let seen = Arc::new(Cuttable {
                store: store.clone(),
                cut: cut.clone(),
            });
            let counter = Counter {
                keeps_changes,
                came: came.clone(),
            };
            Fleet::join_over(counter, options(server), seen).unwrap()
        });
        let fleets = fleets.collect();
        let (stops, clients) = Default::default();
        let trial = Trial {
            store,
            fleets,
            cuts,
            came,
            stops,
            clients,
        };
        trial.wait_until("all shards have owners", || {
            (0..SHARDS).all(|it| trial.owner(it).is_some())
        });
        trial
    }

    fn wait_until(&self, what: &str, holds: impl Fn() -> bool) {
        let end = Instant::now() + SOON;
        while !holds() {
            assert!(Instant::now() < end, "it never was that {what}");
            thread::sleep(Duration::from_millis(5));
        }
    }

    fn owner(&self, shard: u16) -> Option<u16> {
        let record = self.fleets[0].inner.durable.standing(shard)?.record()?;
        record.other().is_none().then(|| record.owner()).flatten()
    }

    /// Begins clients. Each of them calls in turn by a map of the store, and by a map that is cut from the store
    /// together with a server's process.
    fn begin(&mut self) {
        for number in 0..CLIENTS {
            let seen = Cuttable {
                store: self.store.clone(),
                cut: self.cuts[number % 2].clone(),
            };
            let (router, stops) = (Router::watch(&*self.store).unwrap(), self.stops.clone());
            let old = Router::watch(&seen).unwrap();
            self.clients.push(thread::spawn(move || {
                client(number, &[router, old], &stops)
            }));
        }
    }

    fn end(self) -> Tally {
        self.stops.store(true, Ordering::SeqCst);
        let mut all = Tally::default();
        self.clients
            .into_iter()
            .for_each(|it| all.add(it.join().unwrap()));
        self.fleets.iter().for_each(Fleet::leave);
        all
    }

    /// Moves the shard to the server, step by step. Each step waits until the server that must ack it has done so.
    fn migrate(&self, shard: u16, server: u16) {
        self.hand_over(shard, server);
        self.add(shard);
    }

    /// Makes the shard's owner hand it over to the server, which isn't the owner yet.
    fn hand_over(&self, shard: u16, server: u16) {
        let owner = self.owner(shard).unwrap();
        let (named, to) = (shard.to_string(), server.to_string());
        self.step(shard, &["PREPARE_ADD", &named, &to], Some(server));
        self.step(shard, &["PREPARE_DROP", &named], Some(owner));
    }

    /// Makes the server to which the shard was handed over its owner.
    fn add(&self, shard: u16) {
        let named = shard.to_string();
        self.step(shard, &["ADD", &named], None);
        self.step(shard, &["DROP", &named], None);
    }

    /// Gives the control the command of a step, and waits until the server has acked the step.
    fn step(&self, shard: u16, words: &[&str], acks: Option<u16>) {
        let member = &self.fleets[0].inner.member;
        let before = self.generation(shard);
        self.command(words);
        self.wait_until("the record is seen", || self.generation(shard) > before);
        let has_acked = |by| member.acked(shard, by) > Some(before);
        self.wait_until("it is acked", || acks.is_none_or(has_acked));
    }

    fn generation(&self, shard: u16) -> u64 {
        let stored = self.fleets[0].inner.durable.standing(shard).unwrap();
        stored.record().unwrap().generation
    }

    /// Gives the control a command. Repeats it as long as a process hasn't read the records that it must read.
    fn command(&self, words: &[&str]) {
        loop {
            match self.fleets[0].command(words) {
                Err(refusal) if refusal.contains("NotNow") => {
                    thread::sleep(Duration::from_millis(5))
                }
                told => return assert_eq!(told, Ok(vec![]), "{words:?}"),
            }
        }
    }

    /// Moves each shard from server to server for this long. Returns the number of migrations.
    fn migrate_for(&self, time: Duration) -> usize {
        let (end, mut count) = (Instant::now() + time, 0);
        while Instant::now() < end {
            let shard = (count % usize::from(SHARDS)) as u16;
            let owner = self.owner(shard).unwrap();
            self.migrate(shard, owner % SERVERS + 1);
            count += 1;
        }
        count
    }
}

/// Calls by these maps in turn, with keys of its own.
fn client(number: usize, routers: &[Router; 2], stops: &AtomicBool) -> Tally {
    let (mut tally, mut last) = (Tally::default(), HashMap::<Vec<u8>, Option<u64>>::new());
    for turn in 0.. {
        if stops.load(Ordering::SeqCst) {
            break;
        }
        let key = format!("{number}-{}", turn / 2 % 12).into_bytes();
        match routers[turn % 2].call(&key, &key, Retry::Until(PATIENCE)) {
            Ok(answer) => {
                let count = u64::from_be_bytes(answer.bytes.try_into().unwrap());
                let before = last.insert(key, Some(count)).unwrap_or(Some(0));
                match before {
                    // After a call that may have been made, the next count isn't known.
                    None => {}
                    Some(before) if count == before + 1 => {}
                    Some(_) if count == 1 => tally.lost += 1,
                    Some(_) => tally.wrong += 1,
                }
                tally.answered += 1;
                tally.forwarded += u64::from(answer.hops > 0);
            }
            Err(CallError::Unsure(_)) => {
                tally.unsure += 1;
                last.insert(key, None);
            }
            Err(CallError::NotMade(why)) => tally.not_made.push(why),
        }
        thread::sleep(Duration::from_micros(200));
    }
    tally
}

#[test]
fn migrations_under_load_refuse_no_call_and_lose_nothing() {
    let mut trial = Trial::new(30, false, None);
    trial.begin();
    let migrations = trial.migrate_for(Duration::from_secs(3));
    // This is read before the processes leave, because the shards of a process that has left are lost.
    let came = trial.came.lock().unwrap().clone();
    let tally = trial.end();
    println!("{migrations} migrations, {tally:?}");
    assert!(
        migrations >= 10 && tally.answered > 500,
        "{migrations} {tally:?}"
    );
    assert!(tally.is_clean(), "{tally:?}");
    assert!(!came.contains(&"lost"), "{came:?}");
}

#[test]
fn bodies_move_in_pieces_and_by_what_has_changed_since() {
    let mut trial = Trial::new(30, true, None);
    trial.begin();
    let migrations = trial.migrate_for(Duration::from_secs(2));
    let came = trial.came.clone();
    let tally = trial.end();
    assert!(tally.is_clean(), "{tally:?}");
    let came = came.lock().unwrap();
    let count = |name: &str| came.iter().filter(|it| **it == name).count();
    assert!(count("copied") == migrations, "{came:?} {migrations}");
}

/// Begins a fleet whose bodies move in pieces, with a count of one key in each body. Returns a shard of each of the
/// first two servers. The third server has room for both.
fn copying() -> (Trial, [u16; 2]) {
    let trial = Trial::new(30, true, None);
    let router = Router::watch(&*trial.store).unwrap();
    (0..SHARDS).for_each(|it| assert_eq!(count(&router, &key_of(&router, it)), 1));
    let of = |owner| (0..SHARDS).find(|it| trial.owner(*it) == Some(owner));
    let [first, second, third] = [1, 2, 3].map(|it| of(it).unwrap());
    // After this, the third server has room for both.
    trial.migrate(third, 1);
    (trial, [first, second])
}

impl Trial {
    /// Returns whether the server has a copy of the shard's body, or room for one.
    fn has_copy(&self, shard: u16, server: u16) -> bool {
        let places = &self.fleets[usize::from(server) - 1].inner.places;
        places[usize::from(shard)].incoming().is_some()
    }

    /// Makes the server prepare for the shard. Waits until the server `acks` has acked that, if one is given.
    fn prepare(&self, shard: u16, server: u16, acks: Option<u16>) {
        let (named, to) = (shard.to_string(), server.to_string());
        self.step(shard, &["PREPARE_ADD", &named, &to], acks);
    }
}

#[test]
fn a_migration_that_is_given_up_leaves_no_copy_and_ends_the_owners() {
    let (trial, [shard, _]) = copying();
    trial.prepare(shard, 3, Some(3));
    assert!(trial.has_copy(shard, 3));
    trial.command(&["CANCEL", &shard.to_string()]);
    trial.wait_until("the next owner drops its copy", || {
        !trial.has_copy(shard, 3)
    });
    let ended = || trial.came.lock().unwrap().contains(&"stayed");
    trial.wait_until("the owner ends its copy", ended);
    let router = Router::watch(&*trial.store).unwrap();
    assert_eq!(count(&router, &key_of(&router, shard)), 2);
    // The shard moves with another copy, for which there is room again.
    trial.migrate(shard, 3);
    assert_eq!(count(&router, &key_of(&router, shard)), 3);
    trial.end();
}

#[test]
fn a_request_for_an_earlier_copy_that_comes_late_forgets_no_change() {
    let (trial, [shard, _]) = copying();
    let router = Router::watch(&*trial.store).unwrap();
    trial.prepare(shard, 3, Some(3));
    // The copy has the first count, which has changed since.
    assert_eq!(count(&router, &key_of(&router, shard)), 2);
    let owner = &trial.fleets[0].inner;
    let name = {
        let known = owner.places[usize::from(shard)].known();
        known.copy.as_ref().unwrap().name()
    };
    let ask = |name| {
        let mut out = Vec::new();
        block_on(owner.copy(shard, (trial.generation(shard), name), 0, &mut out));
        matches!(Response::read(&out[4..]), Ok(Response::Piece { .. }))
    };
    let (joined, server) = (name.joined - 1, 2);
    assert!(!ask(CopyName { joined, ..name }) && !ask(CopyName { server, ..name }));
    // This is the piece that was made last, so it is told again.
    assert!(ask(name));
    trial.step(shard, &["PREPARE_DROP", &shard.to_string()], Some(1));
    trial.add(shard);
    assert_eq!(count(&router, &key_of(&router, shard)), 3);
    assert!(trial.came.lock().unwrap().contains(&"copied"));
    trial.end();
}

/// Begins a fleet that takes bodies of at most this many bytes. Returns a shard of the first server too, whose body is
/// written with about ten bytes.
fn with_long_body(keeps_changes: bool, body: u64) -> (Trial, Router, u16) {
    let trial = Trial::with(Arc::new(Embedded::in_memory()), keeps_changes, |server| {
        let options = options(server, 30, None);
        Options { body, ..options }
    });
    let router = Router::watch(&*trial.store).unwrap();
    let shard = (0..SHARDS).find(|it| trial.owner(*it) == Some(1)).unwrap();
    assert_eq!(count(&router, &key_of(&router, shard)), 1);
    (trial, router, shard)
}

#[test]
fn a_body_that_is_too_long_stays_with_its_owner_which_answers() {
    let (trial, router, shard) = with_long_body(true, 2);
    trial.prepare(shard, 3, None);
    trial.wait_until("it is found too long", || {
        let place = &trial.fleets[2].inner.places[usize::from(shard)];
        let prepared = place.known().prepared;
        prepared.again.is_some() && prepared.generation == trial.generation(shard)
    });
    assert_eq!(count(&router, &key_of(&router, shard)), 2);
    let member = &trial.fleets[0].inner.member;
    assert!(member.acked(shard, 3) != Some(trial.generation(shard)));
    assert!(!trial.has_copy(shard, 3));
    trial.end();
}

#[test]
fn a_whole_body_that_is_too_long_is_taken_because_its_owner_has_let_go() {
    let (trial, router, shard) = with_long_body(false, 2);
    trial.migrate(shard, 3);
    assert_eq!(count(&router, &key_of(&router, shard)), 2);
    trial.end();
}

impl Trial {
    /// Makes the shard's body at this server so long that more than this many bytes are written for it.
    fn lengthen(&self, (shard, server): (u16, u16), bytes: usize) {
        let fleet = &self.fleets[usize::from(server) - 1];
        let Enter::Here(mut permit) = fleet.enter(shard, Mode::Direct) else {
            panic!("it doesn't execute for the shard")
        };
        // For each key, its length and its count are written too.
        let key = |number: usize| [&number.to_be_bytes()[..], &[0; 240]].concat();
        let keys = (0..=bytes / (key(0).len() + 9)).map(|it| (key(it), 1));
        permit.body().counts.extend(keys);
    }
}

#[test]
fn a_whole_body_above_four_times_the_bound_stops_its_shard_until_the_next_owner_ends() {
    // Besides four times the bound, as many bytes may come as two pieces may have.
    let (body, most) = (1 << 20, (4 << 20) + (2 << 20));
    let (trial, router, shard) = with_long_body(false, body);
    let key = key_of(&router, shard);
    trial.lengthen((shard, 1), most / 2);
    trial.migrate(shard, 3);
    assert_eq!(count(&router, &key), 2);
    trial.lengthen((shard, 3), most);
    let generation = trial.generation(shard);
    trial.prepare(shard, 2, Some(2));
    trial.step(shard, &["PREPARE_DROP", &shard.to_string()], None);
    let place = &trial.fleets[2].inner.places[usize::from(shard)];
    trial.wait_until("it isn't taken", || place.known().spelled.is_some());
    let called = router.call(&key, &key, Retry::Until(Duration::from_millis(500)));
    assert!(matches!(called, Err(CallError::NotMade(_))), "{called:?}");
    assert!(place.known().handed < generation);
    trial.fleets[1].leave();
    assert_eq!(count(&router, &key), 3);
    trial.end();
}

#[test]
fn a_shard_has_its_room_from_its_preparation_until_it_has_come() {
    let trial = Trial::new(30, false, None);
    let shard = (0..SHARDS).find(|it| trial.owner(*it) == Some(1)).unwrap();
    let moves = &trial.fleets[2].inner.moves;
    trial.wait_until("nothing comes", || moves.available_permits() == 1);
    trial.prepare(shard, 3, Some(3));
    assert_eq!(moves.available_permits(), 0);
    trial.step(shard, &["PREPARE_DROP", &shard.to_string()], Some(1));
    trial.add(shard);
    assert_eq!(moves.available_permits(), 1);
    trial.end();
}

#[test]
fn a_process_that_leaves_waits_for_the_calls_that_are_under_way() {
    let trial = Trial::new(30, false, None);
    let shard = (0..SHARDS).find(|it| trial.owner(*it) == Some(2)).unwrap();
    let fleet = &trial.fleets[1];
    let mut entered = fleet.enter(shard, Mode::Direct);
    while !matches!(entered, Enter::Here(_)) {
        drop(entered);
        entered = fleet.enter(shard, Mode::Direct);
    }
    let is_there = || trial.fleets[0].inner.member.members().contains_key(&2);
    thread::scope(|scope| {
        let leaves = scope.spawn(|| fleet.leave());
        trial.wait_until("it leaves", || fleet.inner.is_stopping());
        let Enter::Here(permit) = entered else {
            panic!()
        };
        trial.wait_until("its permits end", || !permit.holds());
        assert!(is_there() && !leaves.is_finished());
        drop(permit);
        leaves.join().unwrap();
    });
    trial.wait_until("it has left", || !is_there());
    trial.end();
}

#[test]
fn the_owner_goes_on_if_the_next_one_fails_with_its_copy() {
    let (trial, [shard, _]) = copying();
    trial.prepare(shard, 3, Some(3));
    trial.fleets[2].leave();
    let ended = || trial.came.lock().unwrap().contains(&"stayed");
    trial.wait_until("the owner ends its copy", ended);
    let router = Router::watch(&*trial.store).unwrap();
    assert_eq!(count(&router, &key_of(&router, shard)), 2);
    trial.end();
}

#[test]
fn no_more_bodies_come_at_once_than_may_and_the_next_one_follows() {
    let (trial, [first, second]) = copying();
    trial.prepare(first, 3, Some(3));
    trial.prepare(second, 3, None);
    let member = &trial.fleets[0].inner.member;
    let has_acked = |shard| member.acked(shard, 3) == Some(trial.generation(shard));
    assert!(trial.has_copy(first, 3));
    // As long as the second shard waits, its owner answers its calls.
    let router = Router::watch(&*trial.store).unwrap();
    for next in 2..30 {
        assert_eq!(count(&router, &key_of(&router, second)), next);
        assert!(!has_acked(second) && !trial.has_copy(second, 3));
    }
    trial.step(first, &["PREPARE_DROP", &first.to_string()], Some(1));
    trial.wait_until("the second one is copied", || has_acked(second));
    trial.add(first);
    trial.step(second, &["PREPARE_DROP", &second.to_string()], Some(2));
    trial.add(second);
    assert_eq!(count(&router, &key_of(&router, second)), 30);
    trial.end();
}

/// Returns the results that clients see of migrations while this wrong rule is planted.
fn planted(plant: Plant) -> Tally {
    let mut trial = Trial::new(30, false, Some(plant));
    trial.begin();
    trial.migrate_for(Duration::from_secs(2));
    trial.end()
}

#[test]
fn a_next_owner_that_begins_before_it_has_the_body_is_found() {
    let tally = planted(Plant::NextBeginsAnew);
    assert!(tally.lost > 0, "{tally:?}");
}

#[test]
fn an_owner_that_executes_while_it_forwards_is_found() {
    let tally = planted(Plant::OwnerExecutesOn);
    assert!(tally.wrong > 0, "{tally:?}");
}

#[test]
fn an_ack_before_the_next_owner_has_the_body_is_found() {
    let tally = planted(Plant::EarlyAck);
    assert!(tally.lost > 0, "{tally:?}");
}

/// Returns the results that clients see while a process is cut from the store for longer than its lease.
fn cut(plant: Option<Plant>) -> Tally {
    let mut trial = Trial::new(2, false, plant);
    let server = 2;
    let shard = (0..SHARDS)
        .find(|it| trial.owner(*it) == Some(server))
        .unwrap();
    trial.begin();
    thread::sleep(Duration::from_millis(300));
    let cut = trial.cuts[usize::from(server) - 1].clone();
    cut.set(true);
    trial.wait_until("another server has the shard", || {
        trial.owner(shard).is_some_and(|it| it != server)
    });
    thread::sleep(Duration::from_millis(500));
    cut.set(false);
    thread::sleep(Duration::from_millis(500));
    trial.end()
}

#[test]
fn a_process_that_is_cut_from_the_store_answers_no_more_than_its_lease_allows() {
    let tally = cut(None);
    assert!(
        tally.wrong == 0 && tally.lost > 0 && tally.not_made.is_empty(),
        "{tally:?}"
    );
}

#[test]
fn a_process_that_goes_on_without_a_lease_is_found() {
    let tally = cut(Some(Plant::NoLease));
    assert!(tally.wrong > 0, "{tally:?}");
}

#[test]
fn a_call_is_answered_if_the_lease_is_kept_late_and_is_unsure_if_it_is_not() {
    // After a keep, a process may rely on its lease for 2.4 seconds. It asks for a keep only every 20 seconds.
    let trial = Trial::with(Arc::new(Embedded::in_memory()), false, |server| {
        let mut options = options(server, 60, None);
        options.margin = 57_000;
        options
    });
    let shard = (0..SHARDS).find(|it| trial.owner(*it) == Some(2)).unwrap();
    let fleet = &trial.fleets[1];
    // Returns a permit. Its lease was kept, but the process isn't sure of the lease any more.
    let permit = || loop {
        fleet.inner.member.keep_lease();
        thread::sleep(Duration::from_millis(20));
        if let Enter::Here(permit) = fleet.enter(shard, Mode::Direct) {
            trial.wait_until("it isn't sure", || !permit.holds());
            return permit;
        }
    };
    let executed = |permit, within| {
        let (waits, mut out) = (Instant::now() + within, Vec::new());
        let call = CallFrame {
            shard,
            from: NO_SERVER,
            hops: 0,
            revision: 0,
            budget: 0,
            request: b"key",
        };
        block_on(fleet.inner.execute(permit, &call, waits, &mut out));
        let is_answered = match Response::read(&out[4..]) {
            Ok(Response::Answered { .. }) => true,
            Ok(Response::Unsure(_)) => false,
            other => panic!("{other:?}"),
        };
        is_answered
    };
    thread::scope(|scope| {
        let late = permit();
        scope.spawn(|| {
            thread::sleep(Duration::from_millis(100));
            fleet.inner.member.keep_lease();
        });
        assert!(executed(late, SOON));
    });
    assert!(!executed(permit(), Duration::from_millis(50)));
    // If a process leaves, its lease isn't kept any more.
    thread::scope(|scope| {
        let last = permit();
        scope.spawn(|| fleet.leave());
        trial.wait_until("it leaves", || fleet.inner.is_stopping());
        let began = Instant::now();
        assert!(!executed(last, SOON) && began.elapsed() < SOON);
    });
    trial.end();
}

/// Returns a key of this shard.
fn key_of(router: &Router, shard: u16) -> Vec<u8> {
    let keys = (0_u32..).map(|it| it.to_string().into_bytes());
    let mut of_shard = keys.filter(|it| router.sharding().shard_of(it) == shard);
    of_shard.next().unwrap()
}

#[test]
fn a_call_of_a_paused_shard_ends_with_its_budget_and_fences_rise() {
    let trial = Trial::new(30, false, None);
    let router = Router::watch(&*trial.store).unwrap();
    let key = key_of(&router, 0);
    let first = router.call(&key, &key, Retry::Until(PATIENCE)).unwrap();
    // The owner may answer until it has read the record.
    trial.step(0, &["PAUSE", "0"], trial.owner(0));
    let began = Instant::now();
    let late = router.call(&key, &key, Retry::Until(Duration::from_millis(300)));
    assert!(matches!(late, Err(CallError::NotMade(_))), "{late:?}");
    assert!(began.elapsed() >= Duration::from_millis(290));
    // The server must tell in time that it did nothing.
    let once = router.call(&key, &key, Retry::Once(Duration::from_millis(300)));
    assert!(matches!(once, Err(CallError::NotMade(_))), "{once:?}");
    trial.command(&["RESUME", "0"]);
    let second = router.call(&key, &key, Retry::Until(PATIENCE)).unwrap();
    assert_eq!(second.bytes, 2_u64.to_be_bytes());
    assert!(first.fence < second.fence, "{first:?} {second:?}");
    trial.end();
}

#[test]
fn a_client_may_name_the_shard_and_a_process_tells_its_owner_and_whether_it_has_a_lease() {
    let trial = Trial::new(30, false, None);
    let router = Router::watch(&*trial.store).unwrap();
    let key = key_of(&router, 1);
    let first = router.call_shard(1, &key, Retry::Until(PATIENCE)).unwrap();
    let second = router.call(&key, &key, Retry::Until(PATIENCE)).unwrap();
    assert_eq!(
        [first.bytes, second.bytes],
        [1_u64, 2].map(u64::to_be_bytes)
    );
    let unknown = router.call_shard(SHARDS, &key, Retry::Once(SOON));
    assert!(matches!(unknown, Err(CallError::NotMade(_))), "{unknown:?}");
    for fleet in &trial.fleets {
        trial.wait_until("the owner is read", || {
            let owner = fleet.owner(1);
            owner.is_some_and(|it| Some(it.server) == trial.owner(1) && it.clients.is_some())
        });
        assert!(fleet.is_leased() && fleet.owner(SHARDS).is_none());
    }
    trial.fleets[1].leave();
    assert!(!trial.fleets[1].is_leased());
    trial.end();
}

#[test]
fn a_process_says_where_calls_go_and_gives_permits_of_its_own_shards() {
    let trial = Trial::new(30, false, None);
    let owner = trial.owner(0).unwrap();
    for fleet in &trial.fleets {
        let is_owner = fleet.server() == owner;
        let decided = || match fleet.enter(0, Mode::Direct) {
            Enter::Here(mut permit) => {
                assert!(is_owner && permit.holds() && permit.fence() > 0);
                permit.body().counts.insert(b"a".to_vec(), 7);
                true
            }
            Enter::Elsewhere(to) => {
                assert!(!is_owner && to.server == owner && to.address.is_some());
                true
            }
            Enter::Wait(_) => false,
            Enter::Forward(_) | Enter::Refused(_) => panic!("no shard is forwarded"),
        };
        trial.wait_until("it is decided", decided);
        let unknown = fleet.enter(SHARDS, Mode::Direct);
        assert!(matches!(unknown, Enter::Refused(Refused::UnknownShard)));
    }
    trial.end();
}

#[test]
fn whoever_executes_answers_a_call_by_a_record_that_it_has_not_read_yet() {
    let trial = Trial::new(30, false, None);
    let owner = trial.owner(0).unwrap();
    let frame = CallFrame {
        shard: 0,
        from: NO_SERVER,
        hops: 0,
        revision: u64::MAX,
        budget: 2_000,
        request: b"key",
    };
    for fleet in &trial.fleets {
        let mut out = Vec::new();
        block_on(fleet.inner.call(&frame, &|| true, &mut out));
        // The first four bytes are the length.
        let response = Response::read(&out[4..]).unwrap();
        match fleet.server() == owner {
            true => assert!(
                matches!(response, Response::Answered { .. }),
                "{response:?}"
            ),
            // Only that record would tell this process the server to which the call must go.
            false => assert!(matches!(response, Response::Again(_)), "{response:?}"),
        }
    }
    trial.end();
}

/// Returns connections to the fleet, from the process of this server or from a client.
fn connections(fleet: &Fleet<Counter>, server: u16) -> Connections {
    let settings = identity(&fleet.inner.settings);
    let introduction = Introduction::of_process(&Safety::default(), settings, (server, 1));
    Connections::new(introduction)
}

#[test]
fn what_another_process_hands_over_is_refused() {
    let trial = Trial::new(30, false, None);
    let fleet = &trial.fleets[0];
    let connections = connections(fleet, 3);
    let hand = HandOver {
        joined: 1,
        generation: 1,
        server: 3,
    };
    let (copy, at, is_last, bytes) = (None, 0, true, &b"x"[..]);
    let frame = HandFrame {
        shard: 0,
        hand,
        copy,
        at,
        is_last,
        bytes,
    };
    let response = connections.ask(&fleet.address().to_string(), &Request::Hand(frame), SOON);
    let response = response.unwrap();
    assert!(matches!(Response::read(&response), Ok(Response::Again(_))));
    // A client of another fleet must not be answered.
    let other = Connections::new(Introduction::of_client(&Safety::default(), 7));
    let refused = other.ask(&fleet.address().to_string(), &Request::Routes, SOON);
    assert!(refused.is_err());
    trial.end();
}

#[test]
fn a_process_that_is_stopped_as_soon_as_it_has_joined_loses_no_shard_that_comes_home() {
    let mut trial = Trial::new(30, false, None);
    trial.begin();
    trial.fleets[1].stop(SOON);
    for _ in 0..3 {
        let counter = Counter {
            keeps_changes: false,
            came: trial.came.clone(),
        };
        let options = options(2, 30, None);
        let again = Fleet::join_over(counter, options, trial.store.clone()).unwrap();
        // The server is away until the control takes it back and moves its shards home.
        again.stop(SOON);
    }
    let came = trial.came.lock().unwrap().clone();
    let tally = trial.end();
    assert!(tally.is_clean(), "{tally:?}");
    assert!(!came.contains(&"lost"), "{came:?}");
}

#[test]
fn whoever_is_connected_to_a_process_that_leaves_learns_that_nothing_was_done() {
    let trial = Trial::new(30, false, None);
    let fleet = &trial.fleets[1];
    let address = fleet.address().to_string();
    let settings = identity(&fleet.inner.settings);
    let asks = || {
        let introduction = Introduction::of_client(&Safety::default(), settings);
        let connections = Connections::new(introduction);
        let ends = Instant::now() + SOON;
        while Instant::now() < ends {
            match connections.ask(&address, &Request::Routes, SOON) {
                Ok(bytes) => match Response::read(&bytes).unwrap() {
                    Response::Again(_) => return,
                    _ => continue,
                },
                Err(NotAnswered::Unreached(..)) => return,
                Err(lost @ NotAnswered::Lost(..)) => panic!("{lost}"),
            }
        }
        panic!("it is still there");
    };
    thread::scope(|scope| {
        for _ in 0..8 {
            scope.spawn(asks);
        }
        thread::sleep(Duration::from_millis(100));
        fleet.leave();
    });
    trial.end();
}

#[test]
fn whoever_loses_its_place_learns_that_nothing_was_done() {
    use crate::frame::receive;
    let one = |server| Options {
        connections: 1,
        ..options(server, 30, None)
    };
    let trial = Trial::with(Arc::new(Embedded::in_memory()), false, one);
    let fleet = &trial.fleets[1];
    let (address, settings) = (fleet.address().to_string(), identity(&fleet.inner.settings));
    let client = || Connections::new(Introduction::of_client(&Safety::default(), settings));
    let (mut asked, mut room) = (Vec::new(), Vec::new());
    Request::Routes.write(&mut asked);
    let mut idle = client().connect(&address, SOON).unwrap();
    idle.set_read_timeout(SOON).unwrap();
    idle.write_all(&asked).unwrap();
    receive(&mut idle, &mut room).unwrap();
    assert!(matches!(Response::read(&room), Ok(Response::Text(_))));
    // The first client becomes idle a moment after it was answered.
    let other = client();
    trial.wait_until("another client has its place", || {
        let answered = other.ask(&address, &Request::Routes, SOON).unwrap();
        matches!(Response::read(&answered), Ok(Response::Text(_)))
    });
    receive(&mut idle, &mut room).unwrap();
    assert!(matches!(Response::read(&room), Ok(Response::Again(_))));
    let ended = receive(&mut idle, &mut room).unwrap_err();
    assert_eq!(ended.kind(), ErrorKind::UnexpectedEof);
    trial.end();
}

/// Makes the service count with this key, and returns the count.
fn count(router: &Router, key: &[u8]) -> u64 {
    let answer = router.call(key, key, Retry::Until(PATIENCE)).unwrap();
    u64::from_be_bytes(answer.bytes.try_into().unwrap())
}

#[test]
fn a_body_of_before_isnt_kept_when_the_shard_comes_back() {
    let trial = Trial::new(30, false, None);
    let router = Router::watch(&*trial.store).unwrap();
    let (owner, other) = (2, 3);
    let mut shards = 0..SHARDS;
    let shard = shards.find(|it| trial.owner(*it) == Some(owner)).unwrap();
    let key = key_of(&router, shard);
    assert_eq!(count(&router, &key), 1);
    trial.hand_over(shard, other);
    // The previous owner must not learn that the shard belongs to the other server. So it drops nothing.
    let hangs = &trial.cuts[usize::from(owner) - 1].hangs;
    hangs.store(true, Ordering::SeqCst);
    trial.add(shard);
    assert_eq!(count(&router, &key), 2);
    let (named, to) = (shard.to_string(), owner.to_string());
    trial.step(shard, &["PREPARE_ADD", &named, &to], None);
    hangs.store(false, Ordering::SeqCst);
    trial.wait_until("it is prepared", || {
        let member = &trial.fleets[0].inner.member;
        member.acked(shard, owner) == Some(trial.generation(shard))
    });
    trial.step(shard, &["PREPARE_DROP", &named], Some(other));
    trial.add(shard);
    assert_eq!(count(&router, &key), 3);
    trial.end();
}

#[test]
fn an_owner_that_gets_a_shard_back_after_it_handed_over_begins_without_its_body() {
    let trial = Trial::new(2, false, None);
    let router = Router::watch(&*trial.store).unwrap();
    let shard = (0..SHARDS).find(|it| trial.owner(*it) == Some(1)).unwrap();
    let key = key_of(&router, shard);
    assert_eq!(count(&router, &key), 1);
    trial.hand_over(shard, 2);
    let answer = router.call(&key, &key, Retry::Until(PATIENCE)).unwrap();
    assert_eq!(
        (answer.server, answer.bytes),
        (2, 2_u64.to_be_bytes().to_vec())
    );
    // A hand-over under an earlier record comes too late.
    let next = &trial.fleets[1].inner;
    let late = HandFrame {
        shard,
        hand: HandOver {
            joined: 1,
            generation: trial.generation(shard) - 1,
            server: 1,
        },
        copy: None,
        at: 0,
        is_last: true,
        bytes: b"",
    };
    assert!(block_on(next.take_hand_over(&late)).is_err());
    trial.fleets[1].leave();
    trial.wait_until("the owner has it back", || trial.owner(shard) == Some(1));
    assert_eq!(count(&router, &key), 1);
    assert!(trial.came.lock().unwrap().contains(&"lost"));
    trial.end();
}

#[test]
fn a_fleet_that_begins_again_has_lost_what_it_kept_and_has_later_fences() {
    let trial = Trial::new(30, false, None);
    let (store, router) = (trial.store.clone(), Router::watch(&*trial.store).unwrap());
    let key = key_of(&router, 0);
    let before = router.call(&key, &key, Retry::Until(PATIENCE)).unwrap();
    assert!(trial.came.lock().unwrap().iter().all(|it| *it == "new"));
    trial.end();
    let trial = Trial::over(store, 30, false, None);
    let after = router.call(&key, &key, Retry::Until(PATIENCE)).unwrap();
    assert_eq!(after.bytes, 1_u64.to_be_bytes());
    assert!(before.fence < after.fence, "{before:?} {after:?}");
    let came = trial.came.clone();
    trial.end();
    assert!(came.lock().unwrap().iter().all(|it| *it == "lost"));
}

#[test]
fn a_body_with_which_the_service_panicked_is_lost() {
    let trial = Trial::new(30, false, None);
    let router = Router::watch(&*trial.store).unwrap();
    let key = key_of(&router, 0);
    assert_eq!(count(&router, &key), 1);
    let unsure = router.call(&key, PANICS, Retry::Until(PATIENCE));
    assert!(matches!(unsure, Err(CallError::Unsure(_))), "{unsure:?}");
    assert_eq!(count(&router, &key), 1);
    assert_eq!(trial.came.lock().unwrap().last(), Some(&"lost"));
    trial.end();
}

#[test]
fn calls_by_records_that_are_never_read_stop_nobody() {
    let trial = Trial::new(30, false, None);
    let router = Router::watch(&*trial.store).unwrap();
    count(&router, &key_of(&router, 0));
    let owner = trial.owner(0).unwrap();
    // The process that executes would answer these calls, so another process is asked.
    let mut others = trial.fleets.iter().filter(|it| it.server() != owner);
    let other = others.next().unwrap();
    let (at, connections) = (other.address().to_string(), connections(other, NO_SERVER));
    let call = |revision, budget| CallFrame {
        shard: 0,
        from: 0,
        hops: 0,
        revision,
        budget,
        request: b"key",
    };
    let never = Request::Call(call(u64::MAX, 2_000));
    thread::scope(|scope| {
        for _ in 0..3 {
            scope.spawn(|| connections.ask(&at, &never, SOON).unwrap());
        }
        thread::sleep(Duration::from_millis(200));
        for _ in 0..20 {
            let asked = Request::Call(call(0, 400));
            let response = connections.ask(&at, &asked, SOON).unwrap();
            let response = Response::read(&response);
            assert!(
                matches!(response, Ok(Response::Answered { .. })),
                "{response:?}"
            );
        }
    });
    trial.end();
}
