//! Random commands beside clients on threads: each answer is of its place, and what was answered is in the bodies at the end.
ghost use Rattle.std.specs.Prelude.{◌≡◌, ◌<◌};

use crate::holding::Holding;
use crate::running::{bodies_of, get_of, inc_of, setup_of, shard};
use sm_cluster::{Client, Cluster, Open};
use sm_desk::Command;
use sm_ownership::Change;
use sm_ranges::{ServerId, ShardId};
use sm_service::{Reply, Service};
use std::alloc::Global;
use std::process::Abort;
use std::sync::atomic::{AtomicBool, AtomicU64, Ordering};
use std::sync::{Arc, Wait};
use std::test::Fail;
use std::thread;
use std::thread::{JoinHandle, Threads};

/// How many commands a plan has.
const COMMANDS: u64 = 1_000;

/// How many calls a client makes at most.
const CALLS: u64 = 10_000_000;

/// How the threads of a plan get on.
#[derive(Drop)]
struct Progress {
    calls: AtomicU64,
    is_over: AtomicBool,
}

impl Progress {
    fn new() -> Progress {
        Progress {
            calls: AtomicU64::new(0),
            is_over: AtomicBool::new(false),
        }
    }

    // Waits until so many calls were made, or long enough.
    fn wait_for(&self, calls: u64) {
        for _ in 0..1_000_000 {
            if self.calls.load(Ordering::SeqCst) >= calls {
                return;
            }
            thread::yield_now();
        }
    }
}

/// What a client of a plan was told.
#[derive(Clone, Copy, Drop)]
struct Tally {
    /// How many requests of the shard were answered.
    acked: u64,
    /// The least place that the next answer may have.
    next: u64,
    /// Whether no answer was wrong.
    is_right: bool,
}

/// A client of a plan, which only increments one key of each shard.
#[derive(Drop)]
struct Caller {
    client: Client<Holding>,
    progress: Arc<Progress>,
}

impl Tally {
    fn new() -> Tally {
        Tally {
            acked: 0,
            next: 0,
            is_right: true,
        }
    }

    // Each answer has a later place than the one before, and the count of all requests up to its place.
    fn add(&mut self, place: u64, reply: &Reply) {
        let is_count = match reply {
            Reply::Count(count) => u64::try_from(*count) == Ok(place.wrapping_add(1)),
            _ => false,
        };
        self.acked = self.acked.wrapping_add(1);
        self.is_right &= is_count && self.next <= place;
        self.next = place.wrapping_add(1);
    }
}

impl Caller {
    // Calls at both shards in turn until the plan is over.
    fn run<R: Wait + Abort>(mut self, rt: &R, alloc: Global) -> [Tally; 2] {
        let (mut first, mut second) = (Tally::new(), Tally::new());
        for turn in 0..CALLS {
            if self.progress.is_over.load(Ordering::SeqCst) {
                break;
            }
            if turn % 2 == 0 {
                self.call(rt, alloc, turn, b"a", &mut first);
            } else {
                self.call(rt, alloc, turn, b"m", &mut second);
            }
            self.progress.calls.fetch_add(1, Ordering::SeqCst);
        }
        [first, second]
    }

    // By the published route, or in each third turn at one server after the other.
    fn call<R: Wait + Abort>(
        &mut self,
        rt: &R,
        alloc: Global,
        turn: u64,
        key: &[u8],
        tally: &mut Tally,
    ) {
        let request = inc_of(rt, alloc, key);
        let called = match turn % 9 {
            2 => self
                .client
                .call_at(rt, alloc, ServerId::of(1), turn, request),
            5 => self
                .client
                .call_at(rt, alloc, ServerId::of(2), turn, request),
            8 => self
                .client
                .call_at(rt, alloc, ServerId::of(3), turn, request),
            _ => self.client.call(rt, alloc, turn, request),
        };
        if let Ok(answer) = called {
            let told = self.client.learn(answer);
            tally.add(told.place, &told.reply);
        }
    }
}

// Numbers below the bound that look drawn by chance, the same for the same seed.
fn below(bound: u8, seed: &mut u64) -> u8
    requires { 0 < bound }
    ensures { result < bound }
{
    *seed = seed
        .wrapping_mul(6_364_136_223_846_793_005)
        .wrapping_add(1_442_695_040_888_963_407);
    seed.to_be_bytes()[0] % bound
}

fn server_drawn(seed: &mut u64) -> ServerId {
    match below(3, seed) {
        0 => ServerId::of(1),
        1 => ServerId::of(2),
        _ => ServerId::of(3),
    }
}

fn change_drawn(seed: &mut u64) -> Change {
    let server = server_drawn(seed);
    match below(12, seed) {
        0 => Change::Assign(server),
        1 | 2 => Change::PrepareAddShard(server),
        3 | 4 => Change::PrepareDropShard,
        5 | 6 => Change::AddShard,
        7 | 8 => Change::DropShard,
        9 => Change::Cancel,
        10 => Change::Pause,
        _ => Change::Reassign(server),
    }
}

fn command_drawn(k: ShardId, seed: &mut u64) -> Command {
    let server = server_drawn(seed);
    match below(16, seed) {
        0 => Command::Ask(server),
        1 => Command::Approve(server),
        2 => Command::Stopped(server),
        3 | 4 | 5 => Command::Back(server),
        6 => Command::Fail(server),
        7 | 8 => Command::Change(k, Change::Resume),
        _ => Command::Change(k, change_drawn(seed)),
    }
}

// Gives a command by chance, publishes, or makes a checkpoint; whether that was done.
fn step<R: Wait>(rt: &R, cluster: &mut Cluster<Holding>, seed: &mut u64) -> bool
    ensures board { cluster.new.control.chair.board ≡ cluster.old.control.chair.board }
    ensures bounds { cluster.new.bounds ≡ cluster.old.bounds }
{
    let k = shard(u16::from(below(2, seed)));
    match below(8, seed) {
        0 => cluster.publish(rt, k).is_ok(),
        1 => cluster.checkpoint(k, server_drawn(seed)).is_ok(),
        _ => cluster.command(command_drawn(k, seed)).is_ok(),
    }
}

// Takes all steps of the plan, each after a further call; how many were done.
fn steps<R: Wait>(rt: &R, cluster: &mut Cluster<Holding>, progress: &Progress, seed: u64) -> u64
    ensures board { cluster.new.control.chair.board ≡ cluster.old.control.chair.board }
    ensures bounds { cluster.new.bounds ≡ cluster.old.bounds }
{
    let mut seed = seed;
    let mut done = 0u64;
    for turn in 0..COMMANDS {
        progress.wait_for(turn);
        if step(rt, cluster, &mut seed) {
            done = done.wrapping_add(1);
        }
    }
    progress.is_over.store(true, Ordering::SeqCst);
    done
}

// Has each client call in a thread of its own.
fn callers_of<R: Threads + Wait + Abort + Clone + Send + Drop + 'static>(
    rt: &R,
    alloc: Global,
    clients: Vec<Client<Holding>>,
    progress: &Arc<Progress>,
) -> Vec<JoinHandle<[Tally; 2]>> {
    let mut threads = Vec::new(alloc);
    for client in clients {
        let caller = Caller {
            client,
            progress: Arc::try_clone(progress).ok().expect(rt, "memory"),
        };
        let theirs = rt.clone().ok().expect(rt, "memory");
        let thread = thread::spawn(rt, move || caller.run(&theirs, alloc)).ok();
        threads
            .push(thread.expect(rt, "a thread"))
            .ok()
            .expect(rt, "memory");
    }
    threads
}

// Has server 1 own the shard, and increments its key once: so no plan is without an answer.
fn begin<R: Wait + Abort>(
    rt: &R,
    alloc: Global,
    cluster: &mut Cluster<Holding>,
    client: &mut Client<Holding>,
    k: ShardId,
    key: &[u8],
)
    ensures board { cluster.new.control.chair.board ≡ cluster.old.control.chair.board }
    ensures bounds { cluster.new.bounds ≡ cluster.old.bounds }
{
    let owner = ServerId::of(1);
    assert!(rt;
        cluster
            .command(Command::Change(k, Change::Assign(owner)))
            .is_ok()
    );
    let called = client.call_at(rt, alloc, owner, 0, inc_of(rt, alloc, key));
    let told = client.learn(called.ok().expect(rt, "an answer"));
    assert!(rt; told.place == 0);
}

// How many requests of each shard all clients were answered, where no answer was wrong.
fn acked_by<R: Threads + Abort>(rt: &R, threads: Vec<JoinHandle<[Tally; 2]>>) -> [u64; 2] {
    let mut acked = [0u64; 2];
    for thread in threads {
        let [first, second] = thread.join(rt);
        assert!(rt; first.is_right && second.is_right);
        acked[0] = acked[0].wrapping_add(first.acked);
        acked[1] = acked[1].wrapping_add(second.acked);
    }
    acked
}

// The body has applied so many requests, and its key has their count.
fn has_applied<R: Abort>(rt: &R, alloc: Global, body: Option<Holding>, key: &[u8], acked: u64) {
    let mut body = body.expect(rt, "a body");
    assert!(rt; body.first().wrapping_add(body.kept() as u64) == acked);
    let count = match body.apply(get_of(rt, alloc, key)) {
        Ok(Reply::Count(count)) => u64::try_from(count).unwrap_or(0),
        _ => 0,
    };
    assert!(rt; count == acked);
}

// Four clients call while commands are given by chance. What they were told is what the bodies have at the stop.
fn plan<R: Threads + Wait + Abort + Clone + Send + Drop + 'static>(
    rt: &R,
    alloc: Global,
    seed: u64,
) -> Result<(), Fail> {
    let (setup, bodies) = (setup_of(alloc)?, bodies_of(alloc, 1_000_000, None)?);
    let progress = Arc::new(alloc, Progress::new())?;
    let (mut cluster, mut clients) = Cluster::start(rt, alloc, setup, bodies, 2, 4, Open)
        .ok()
        .expect(rt, "a cluster");
    let mut client = clients.pop().expect(rt, "a client");
    begin(rt, alloc, &mut cluster, &mut client, shard(0), b"a");
    begin(rt, alloc, &mut cluster, &mut client, shard(1), b"m");
    clients.push(client).ok().expect(rt, "memory");
    let threads = callers_of(rt, alloc, clients, &progress);
    assert!(rt; steps(rt, &mut cluster, &progress, seed) > 100);
    let [first, second] = acked_by(rt, threads);
    let stopped = cluster.stop(rt, Vec::new(alloc));
    let mut rows = stopped.ok().expect(rt, "all clients are gone");
    let (_, body) = rows.pop().expect(rt, "a row");
    has_applied(rt, alloc, body, b"m", second.wrapping_add(1));
    let (_, body) = rows.pop().expect(rt, "a row");
    has_applied(rt, alloc, body, b"a", first.wrapping_add(1));
    Ok(())
}

#[test]
fn random_commands_beside_clients(rt: HostRuntime) -> Result<(), Fail> {
    for seed in 0..10 {
        plan(&rt, rt.alloc(), seed)?;
    }
    Ok(())
}
