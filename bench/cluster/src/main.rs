//! The counterpart of bench_cluster (../crate) in Rust: servers with inboxes, a lock for each shard's stand and one for its counts, and a
//! lock round the published routes. It prints what bench_cluster prints: what clients were told, the nanoseconds from the start until
//! the servers were started, all shards were published, all clients had left, and all had ended; and the time of each migration.

mod channels;
mod shard;

use channels::{Channels, Crossbeam, Std};
use shard::{Shard, Ownership, ServeOutcome};
use std::sync::RwLock;
use std::sync::atomic::{AtomicBool, AtomicU64, Ordering::SeqCst};
use std::thread;
use std::time::Instant;

const LEFT: u64 = u64::MAX;

/// What is done, as bench_cluster has it.
struct RunOptions {
    way: String,
    servers: usize,
    workers: usize,
    shards: usize,
    clients: usize,
    /// How many calls a client makes; 0 where they go on until the last migration.
    calls: u64,
    migrations: u64,
    /// Whether each call has a place for its reply of its own, as a cluster's has, and not one for all calls of its client.
    has_places: bool,
}

impl RunOptions {
    fn is_directed(&self) -> bool {
        self.way != "rest"
    }

    fn shard_at(&self, client: usize, turn: u64) -> usize {
        (client + if self.is_directed() { turn as usize } else { 0 }) % self.shards
    }
}

/// A request on its way: the reply is the count, or nothing where it is refused.
struct CountRequest<C: Channels> {
    shard: usize,
    key: Vec<u8>,
    reply: C::Sender<Option<i64>>,
}

/// What servers and clients share.
struct Manager<C: Channels> {
    shards: Vec<Shard>,
    routes: RwLock<Vec<usize>>,
    turns: Vec<AtomicU64>,
    is_over: AtomicBool,
    inboxes: RwLock<Vec<C::Sender<CountRequest<C>>>>,
}

#[derive(Default)]
struct RunTally {
    acked: u64,
    refused: u64,
    longest: u64,
    told: u64,
}

impl<C: Channels> Manager<C> {
    fn work(&self, server: usize, inbox: &C::Receiver<CountRequest<C>>) {
        while let Some(message) = C::receive(inbox) {
            let CountRequest { shard, key, reply } = message;
            match self.shards[shard].serve(server, key) {
                ServeOutcome::Answered(count) => C::send(&reply, Some(count)),
                ServeOutcome::Forward(to, key) => {
                    C::send(&self.inboxes.read().unwrap()[to], CountRequest { shard, key, reply });
                }
                ServeOutcome::Refused => C::send(&reply, None),
            }
        }
    }

    fn call_each(&self, plan: &RunOptions, client: usize) -> RunTally {
        let inboxes = self.inboxes.read().unwrap().clone();
        let kept = C::place();
        let mut tally = RunTally::default();
        let last = if plan.calls == 0 { u64::MAX } else { plan.calls };
        for turn in 0..last {
            if plan.calls == 0 && self.is_over.load(SeqCst) {
                break;
            }
            let shard = plan.shard_at(client, turn);
            let start = plan.is_directed().then(Instant::now);
            loop {
                let [high, low] = (shard as u16).to_be_bytes();
                let own = plan.has_places.then(C::place);
                let (reply, replies) = own.as_ref().unwrap_or(&kept);
                let server = self.routes.read().unwrap()[shard];
                let key = vec![high, low, client as u8];
                C::send(&inboxes[server], CountRequest { shard, key, reply: reply.clone() });
                match C::receive(replies).expect("a reply") {
                    Some(count) => {
                        tally.acked += 1;
                        tally.told = tally.told.wrapping_add(count as u64);
                        break;
                    }
                    None => tally.refused += 1,
                }
                thread::yield_now();
            }
            tally.longest = tally.longest.max(start.map_or(0, |start| start.elapsed().as_nanos() as u64));
            self.turns[client].store(turn + 1, SeqCst);
        }
        self.turns[client].store(LEFT, SeqCst);
        tally
    }

    fn wait_round(&self) {
        for turn in &self.turns {
            let before = turn.load(SeqCst);
            while before != LEFT && turn.load(SeqCst) == before {
                thread::yield_now();
            }
        }
    }

    fn migrate(&self, from: usize, to: usize) {
        self.shards[0].change(Ownership { executor: Some(to), forwards: Some((from, to)) });
        self.routes.write().unwrap()[0] = to;
        self.wait_round();
        self.shards[0].change(Ownership { executor: Some(to), forwards: None });
    }

    fn reassign(&self, to: usize) {
        self.shards[0].change(Ownership::default());
        self.shards[0].change(Ownership { executor: Some(to), forwards: None });
        self.routes.write().unwrap()[0] = to;
    }

    fn direct(&self, plan: &RunOptions) -> Vec<u64> {
        let times = (0..plan.migrations).map(|turn| {
            self.wait_round();
            let (from, to) = if turn % 2 == 0 { (0, 1) } else { (1, 0) };
            let start = Instant::now();
            if plan.way == "graceful" { self.migrate(from, to) } else { self.reassign(to) }
            start.elapsed().as_nanos() as u64
        });
        let times = times.collect();
        self.is_over.store(true, SeqCst);
        times
    }
}

fn run<C: Channels>(plan: &RunOptions) {
    let start = Instant::now();
    let since = || start.elapsed().as_nanos() as u64;
    let (senders, receivers): (Vec<_>, Vec<_>) = (0..plan.servers).map(|_| C::inbox::<CountRequest<C>>()).unzip();
    let manager = Manager::<C> {
        shards: (0..plan.shards).map(|_| Shard::default()).collect(),
        routes: RwLock::new(vec![0; plan.shards]),
        turns: (0..plan.clients).map(|_| AtomicU64::new(0)).collect(),
        is_over: AtomicBool::new(false),
        inboxes: RwLock::new(senders),
    };
    let (manager, mut marks) = (&manager, [0; 4]);
    let (tallies, times) = thread::scope(|scope| {
        for (server, inbox) in receivers.iter().enumerate() {
            for _ in 0..plan.workers {
                let inbox = inbox.clone();
                scope.spawn(move || manager.work(server, &inbox));
            }
        }
        marks[0] = since();
        for (number, shard) in manager.shards.iter().enumerate() {
            let server = number % plan.servers;
            shard.change(Ownership { executor: Some(server), forwards: None });
            manager.routes.write().unwrap()[number] = server;
        }
        marks[1] = since();
        let clients: Vec<_> = (0..plan.clients).map(|client| scope.spawn(move || manager.call_each(plan, client))).collect();
        let times = manager.direct(plan);
        let tallies: Vec<RunTally> = clients.into_iter().map(|it| it.join().unwrap()).collect();
        marks[2] = since();
        manager.inboxes.write().unwrap().clear();
        (tallies, times)
    });
    marks[3] = since();
    let sum = |of: fn(&RunTally) -> u64| tallies.iter().map(of).fold(0, u64::wrapping_add);
    let applied: u64 = manager.shards.iter().map(Shard::applied).sum();
    let longest = tallies.iter().map(|it| it.longest).max().unwrap_or(0);
    println!("{} {applied} {} {longest} {}", sum(|it| it.acked), sum(|it| it.refused), sum(|it| it.told));
    println!("{} {} {} {}", marks[0], marks[1], marks[2], marks[3]);
    println!("{}", times.iter().map(u64::to_string).collect::<Vec<_>>().join(" "));
}

fn main() {
    let words: Vec<String> = std::env::args().collect();
    let [_, kind, way, numbers @ ..] = &words[..] else { panic!("usage: cluster std|crossbeam|places rest|graceful|abrupt SERVERS WORKERS SHARDS CLIENTS CALLS MIGRATIONS") };
    let numbers: Vec<u64> = numbers.iter().map(|it| it.parse().expect("a number")).collect();
    let [servers, workers, shards, clients, calls, migrations] = numbers[..] else { panic!("six numbers are wanted") };
    let plan = RunOptions {
        way: way.clone(),
        servers: servers as usize,
        workers: workers as usize,
        shards: shards as usize,
        clients: clients as usize,
        calls,
        migrations,
        has_places: kind == "places",
    };
    if kind == "std" { run::<Std>(&plan) } else { run::<Crossbeam>(&plan) }
}
