//! Processes with one server each over one store, in one process. Messages between them are calls.
use super::handing::{Handed, Handing};
use super::{ask, Decide, Told};
use durkenzo_driver::{
    Acks, Addresses, Begin, CommandFault, ControlCommand, Durable, DurableControl, Elsewhere,
    Machine, MapReply, MapRequest, Member, Next, NotDone, OpenFault, Own, Reads, Refused,
    ShardOptions, Work, WorkOutcome, WorkStep,
};
use durkenzo_store::{
    Done, LeaseError, LeaseId, ReadError, Reading, Store, Transaction, Watch, Watcher, WriteError,
};
use std::collections::BTreeMap;
use std::sync::atomic::{AtomicBool, AtomicUsize, Ordering};
use std::sync::mpsc::{self, Receiver};
use std::sync::{Arc, Mutex, Weak};
use std::thread;
use std::time::{Duration, Instant};

/// The length of leases, so long that a process loses none on a busy machine.
pub const LEASE: Duration = Duration::from_secs(60);
/// How long a test waits for something, on a machine that may be busy.
pub const PATIENCE: Duration = Duration::from_secs(60);

/// Called before a transaction that writes to a log.
pub type Meanwhile = Arc<Mutex<Option<Box<dyn FnOnce() + Send>>>>;

/// A process's link to the store, which can be cut, and whose watches can fall silent.
pub struct Line {
    pub meanwhile: Meanwhile,
    store: Arc<dyn Store>,
    pub is_cut: Arc<AtomicBool>,
    pub is_deaf: Arc<AtomicBool>,
    /// How many transactions of shards were sent.
    pub sent: Arc<AtomicUsize>,
}

impl Line {
    pub fn to(store: &Arc<dyn Store>) -> Handed<Line> {
        Handed(Line {
            meanwhile: Meanwhile::default(),
            store: store.clone(),
            is_cut: Arc::default(),
            is_deaf: Arc::default(),
            sent: Arc::default(),
        })
    }

    fn is_cut(&self) -> bool {
        self.is_cut.load(Ordering::Acquire)
    }

    fn read_error(&self) -> Option<ReadError> {
        self.is_cut()
            .then(|| ReadError::Unavailable("cut".to_owned()))
    }
}

impl Handing for Line {
    fn store(&self) -> &dyn Store {
        &*self.store
    }

    fn submit(&self, transaction: Transaction, done: Done) {
        let mut compares = transaction.compares.iter();
        if compares.any(|it| it.key.starts_with(b"head/")) {
            self.sent.fetch_add(1, Ordering::Relaxed);
        }
        let mut puts = transaction.puts.iter();
        if puts.any(|it| it.key.starts_with(b"head/")) {
            if let Some(meanwhile) = self.meanwhile.lock().unwrap().take() {
                let store = self.store.clone();
                thread::spawn(move || {
                    meanwhile();
                    store.submit(transaction, done);
                });
                return;
            }
        }
        match self.is_cut() {
            true => drop(thread::spawn(|| {
                done(Err(WriteError::Unknown("cut".to_owned())))
            })),
            false => self.store.submit(transaction, done),
        }
    }

    fn read(&self, keys: &[&[u8]]) -> Result<Reading, ReadError> {
        self.read_error().map_or_else(|| self.store.read(keys), Err)
    }

    fn read_all(&self, prefix: &[u8]) -> Result<Reading, ReadError> {
        self.read_error()
            .map_or_else(|| self.store.read_all(prefix), Err)
    }

    fn read_range(&self, from: &[u8], end: &[u8], most: usize) -> Result<Reading, ReadError> {
        self.read_error()
            .map_or_else(|| self.store.read_range(from, end, most), Err)
    }

    fn watch(&self, prefix: &[u8], mut watcher: Watcher) -> Result<Watch, ReadError> {
        let (deaf, cut) = (self.is_deaf.clone(), self.is_cut.clone());
        let hears = move |seen| {
            if !deaf.load(Ordering::Acquire) && !cut.load(Ordering::Acquire) {
                watcher(seen);
            }
        };
        self.store.watch(prefix, Box::new(hears))
    }

    fn keep(&self, lease: LeaseId) -> Result<(), LeaseError> {
        match self.is_cut() {
            true => Err(LeaseError::Unavailable("cut".to_owned())),
            false => self.store.keep(lease),
        }
    }

    fn revoke(&self, lease: LeaseId) -> Result<(), LeaseError> {
        match self.is_cut() {
            true => Err(LeaseError::Unavailable("cut".to_owned())),
            false => self.store.revoke(lease),
        }
    }
}

/// A process, and whether it was killed.
type Place = (Weak<Durable>, Arc<AtomicBool>);

/// The processes, by their servers.
pub struct Net {
    /// How its processes answer reads.
    reads: Reads,
    /// How long their leases are.
    lease: Duration,
    places: Mutex<BTreeMap<u16, Place>>,
}

impl Default for Net {
    fn default() -> Net {
        Net::new(Reads::Exact, LEASE)
    }
}

type Message = (Elsewhere, Vec<WorkStep>);

/// A process with one server.
pub struct Node {
    pub server: u16,
    pub durable: Arc<Durable>,
    /// The store behind its link.
    store: Arc<dyn Store>,
    pub meanwhile: Meanwhile,
    pub is_cut: Arc<AtomicBool>,
    pub is_deaf: Arc<AtomicBool>,
    pub sent: Arc<AtomicUsize>,
}

/// Work that came from another process.
struct Remote {
    step: Option<WorkStep>,
    sender: Weak<Durable>,
    elsewhere: Elsewhere,
    is_cut: Arc<AtomicBool>,
}

impl Work for Remote {
    fn decide(&mut self, held: Vec<MapReply>) -> Vec<MapRequest> {
        self.step.as_mut().expect("a step").work.decide(held)
    }

    fn is_wanted(&self) -> bool {
        let step = self.step.as_ref();
        step.is_none_or(|it| it.work.is_wanted())
    }

    fn spell(&self) -> Vec<u8> {
        Vec::new()
    }

    fn answered(self: Box<Self>, _answer: &[u8]) {}

    fn end(mut self: Box<Self>, outcome: WorkOutcome) {
        let step = self.step.take().expect("a step");
        if self.is_cut.load(Ordering::Acquire) {
            let why = NotDone::Unknown("the other process is gone".to_owned());
            return step.work.end(Err(why));
        }
        let Err(NotDone::Moved(revision)) = outcome else {
            // Once it is told, the store's thread must not hold the sender: it would wait for itself to drop it.
            return step.work.end(outcome);
        };
        match self.sender.upgrade() {
            Some(sender) => sender.submit_again(self.elsewhere.clone(), vec![step], revision),
            None => step.work.end(outcome),
        }
    }
}

impl Net {
    /// Makes a net whose processes answer reads like this, and have leases of this length.
    pub fn new(reads: Reads, lease: Duration) -> Net {
        let places = Mutex::default();
        Net {
            reads,
            lease,
            places,
        }
    }

    /// Starts a process with this server. The function makes its link to the store.
    pub fn start(
        self: &Arc<Net>,
        store: &Arc<dyn Store>,
        server: u16,
        shards: u16,
        by: impl FnOnce(Handed<Line>) -> Arc<dyn Store>,
    ) -> Node {
        let open = |store, own| {
            Durable::open_one(store, shards, self.shard_options(), own, Box::new(|| {}))
        };
        self.start_as(store, server, by, open)
    }

    /// Starts a process with this server of machines.
    pub fn start_machines<M: Machine>(
        self: &Arc<Net>,
        store: &Arc<dyn Store>,
        server: u16,
        shards: u16,
    ) -> Node {
        let open = |store, own| {
            let shard_options = self.shard_options();
            Durable::open_machines::<M>(store, shards, shard_options, Some(own), Box::new(|| {}))
        };
        self.start_as(store, server, |line| Arc::new(line), open)
    }

    fn start_as(
        self: &Arc<Net>,
        store: &Arc<dyn Store>,
        server: u16,
        by: impl FnOnce(Handed<Line>) -> Arc<dyn Store>,
        open: impl FnOnce(Arc<dyn Store>, Own) -> Result<Durable, OpenFault>,
    ) -> Node {
        let (line, beyond) = (Line::to(store), store.clone());
        let (is_cut, is_deaf) = (line.is_cut.clone(), line.is_deaf.clone());
        let (meanwhile, sent_there) = (line.meanwhile.clone(), line.sent.clone());
        let store = by(line);
        let (send, sent) = mpsc::channel();
        let send = Mutex::new(send);
        let elsewhere = move |elsewhere, steps| {
            let _ = send.lock().unwrap().send((elsewhere, steps));
        };
        let own = Own {
            member: Arc::new(self.member(&store, server)),
            elsewhere: Box::new(elsewhere),
            acks: Acks::AsRead,
        };
        let durable = Arc::new(open(store, own).expect("shards"));
        let place = (Arc::downgrade(&durable), is_cut.clone());
        self.places.lock().unwrap().insert(server, place);
        let (net, sender) = (self.clone(), Arc::downgrade(&durable));
        thread::spawn(move || net.carry(&sent, &sender));
        Node {
            server,
            durable,
            store: beyond,
            meanwhile,
            is_cut,
            is_deaf,
            sent: sent_there,
        }
    }

    /// Makes the server of a process join.
    fn member(&self, store: &Arc<dyn Store>, server: u16) -> Member {
        let addresses = Addresses {
            servers: format!("node-{server}"),
            clients: String::new(),
        };
        let (store, on_change) = (store.clone(), Box::new(|| {}));
        let member = Member::join(store, server, addresses, self.lease, on_change);
        member.expect("a member")
    }

    fn shard_options(&self) -> ShardOptions {
        ShardOptions {
            wait: Duration::from_secs(20),
            most_batches: 40,
            reads: self.reads,
        }
    }

    /// Carries the messages of a process to others, until it ends.
    fn carry(&self, sent: &Receiver<Message>, sender: &Weak<Durable>) {
        for (elsewhere, steps) in sent {
            let place = self.places.lock().unwrap().get(&elsewhere.server).cloned();
            let place = place.filter(|it| !it.1.load(Ordering::Acquire));
            let target = place.and_then(|(it, is_cut)| Some((it.upgrade()?, is_cut)));
            match (target, sender.upgrade()) {
                (Some((target, is_cut)), _) => {
                    let remote = steps.into_iter().map(|step| WorkStep {
                        begin: step.begin.clone(),
                        work: Box::new(Remote {
                            step: Some(step),
                            sender: sender.clone(),
                            elsewhere: elsewhere.clone(),
                            is_cut: is_cut.clone(),
                        }),
                    });
                    let Elsewhere {
                        shard, came, since, ..
                    } = elsewhere;
                    target.submit_from(shard, remote.collect(), came, since);
                }
                (None, Some(sender)) => {
                    let revision = elsewhere.came.revision;
                    sender.submit_again(elsewhere, steps, revision);
                }
                (None, None) => steps
                    .into_iter()
                    .for_each(|it| it.work.end(Err(NotDone::Stopped))),
            }
        }
    }

    /// Starts three processes over the store.
    pub fn of_three(store: &Arc<dyn Store>, shards: u16) -> Vec<Node> {
        Net::default().start_three(store, shards)
    }

    /// Does the same, in this net.
    pub fn start_three(self, store: &Arc<dyn Store>, shards: u16) -> Vec<Node> {
        let net = Arc::new(self);
        let start = |it| net.start(store, it, shards, |line| Arc::new(line));
        (1..=3).map(start).collect()
    }
}

impl Node {
    fn member(&self) -> &Member {
        self.durable.member().expect("a member")
    }

    /// Ends the lease of a process that was killed at once. It would end by itself, because nobody keeps it.
    pub fn expire(&self) {
        let lease = self.member().lease().expect("a lease");
        self.store.revoke(lease).expect("it goes on");
    }

    /// Makes a process that was killed reach the store again. If its lease has ended, it joins under another one, as
    /// its thread does after a while.
    pub fn revive(&self) {
        self.reach_again();
        until("its key is there", || self.member().lease().is_some());
    }

    /// Makes a process that was killed reach the store again. By now its key may be another process's.
    pub fn reach_again(&self) {
        self.is_cut.store(false, Ordering::Release);
        self.member().keep_lease();
    }
}

/// Makes the process like one that was killed: it reaches nothing, and nobody reaches it.
pub fn kill(node: &Node) {
    node.is_cut.store(true, Ordering::Release);
}

/// Waits until this holds.
pub fn until(what: &str, mut is_so: impl FnMut() -> bool) {
    let end = Instant::now() + PATIENCE;
    while !is_so() {
        assert!(Instant::now() < end, "in vain: {what}");
        thread::sleep(Duration::from_millis(5));
    }
}

/// Makes the control fail a server that isn't there any more, as soon as that is seen.
pub fn fail(control: &mut DurableControl, server: u16) {
    until("it is gone", || control.fallen().unwrap() == Some(server));
    control.command(ControlCommand::Fail(server)).unwrap();
}

/// Makes the process lead as soon as nobody else does.
pub fn campaign(node: &Node) -> DurableControl {
    let end = Instant::now() + PATIENCE;
    loop {
        match DurableControl::campaign(
            node.durable.clone(),
            &super::line_of(node.durable.shards(), 3),
        ) {
            Ok(Some(control)) => return control,
            other => assert!(Instant::now() < end, "{other:?}"),
        }
        thread::sleep(Duration::from_millis(20));
    }
}

/// Makes the command once the awaited servers have acked.
pub fn soon(control: &mut DurableControl, command: ControlCommand) {
    let end = Instant::now() + Duration::from_secs(20);
    while let Err(refused) = control.command(command) {
        let is_early = matches!(refused, Refused::Judged(CommandFault::NotAcked));
        assert!(is_early && Instant::now() < end, "{command:?}: {refused}");
        thread::sleep(Duration::from_millis(2));
    }
}

/// Gives each shard without an owner one, in turn.
pub fn assign(control: &mut DurableControl, shards: u16) {
    for shard in 0..shards {
        let _ = control.command(ControlCommand::Assign(shard, shard % 3 + 1));
    }
}

/// Goes on with the shard until nothing is under way.
pub fn settle(control: &mut DurableControl, shard: u16) {
    let end = Instant::now() + PATIENCE;
    loop {
        match control.next_of_shard(shard) {
            Ok(Next::Nothing) => return,
            Ok(Next::Command(command)) => drop(control.command(command)),
            Ok(Next::Waits) => thread::sleep(Duration::from_micros(200)),
            Err(error) => panic!("{error}"),
        }
        assert!(Instant::now() < end, "shard {shard} doesn't settle");
    }
}

/// Returns a change that appends a word to the list of a key that it reads.
pub fn append(durable: &Durable, shard: u16, key: &[u8], word: &str) -> Told {
    let (at, word) = (key.to_vec(), word.to_owned());
    let decide = move |held: Vec<MapReply>| {
        let mut text = match &held[..] {
            [MapReply::Text(text)] => text.clone(),
            [MapReply::Nothing] => Vec::new(),
            other => panic!("{other:?}"),
        };
        text.extend(word.bytes());
        text.push(b' ');
        vec![MapRequest::Put(at.clone().into(), text)]
    };
    let begin = Begin::Change(vec![key.into()]);
    ask(durable, shard, begin, Some(Box::new(decide) as Decide))
}

/// Numbers that seem to be random.
pub struct Dice(pub u64);

impl Dice {
    pub fn below(&mut self, bound: u64) -> u64 {
        self.0 = self
            .0
            .wrapping_mul(6_364_136_223_846_793_005)
            .wrapping_add(1_442_695_040_888_963_407);
        (self.0 >> 33) % bound
    }
}
