//! What bench_publish of crate/ does, in Rust: reads of a map of 4,096 routes beside a publisher at the pace that it is given,
//! by arc-swap (the publisher copies the map) and by a lock for readers and a writer; and look-ups of bounds alone; and
//! reads of routes by the library's router, of shards whose numbers are known.

use arc_swap::ArcSwap;
use std::hint::black_box;
use std::sync::atomic::{AtomicBool, Ordering};
use std::sync::{Arc, RwLock};
use std::thread;
use std::time::{Duration, Instant};

const SHARDS: u16 = 4096;
const READS: u64 = 2_000_000;
const LONG_BOUND: usize = 40;
const FIRST_CHOICE: u64 = 88_172_645_463_325_252;

/// How often the publisher publishes a route while routers read.
#[derive(Clone, Copy, PartialEq)]
enum Pace {
    AtRest,
    EachMillisecond,
    NeverRests,
}

#[derive(Clone, Copy)]
#[allow(dead_code)]
struct PublishedRoute {
    shard: u16,
    server: u16,
    generation: u64,
}

type RouteTable = Vec<Option<PublishedRoute>>;

trait RoutePublisher: Sync {
    fn route(&self, shard: usize) -> Option<PublishedRoute>;
    fn publish(&self, route: PublishedRoute);
}

struct Swapped(ArcSwap<RouteTable>);

impl RoutePublisher for Swapped {
    fn route(&self, shard: usize) -> Option<PublishedRoute> {
        self.0.load()[shard]
    }

    fn publish(&self, route: PublishedRoute) {
        let mut map = RouteTable::clone(&self.0.load());
        map[usize::from(route.shard)] = Some(route);
        self.0.store(Arc::new(map));
    }
}

struct Locked(RwLock<RouteTable>);

impl RoutePublisher for Locked {
    fn route(&self, shard: usize) -> Option<PublishedRoute> {
        self.0.read().unwrap()[shard]
    }

    fn publish(&self, route: PublishedRoute) {
        self.0.write().unwrap()[usize::from(route.shard)] = Some(route);
    }
}

fn bound_of(shard: u16) -> [u8; 2] {
    shard.to_be_bytes()
}

/// The same with 38 bytes before it.
fn long_bound_of(shard: u16) -> [u8; LONG_BOUND] {
    let mut bound = [b'a'; LONG_BOUND];
    bound[LONG_BOUND - 2..].copy_from_slice(&bound_of(shard));
    bound
}

/// The bounds of all shards, which have the bytes of the long ones from this one on.
fn bounds_of(from: usize) -> Vec<Vec<u8>> {
    (0..SHARDS).map(|shard| if shard == 0 { Vec::new() } else { long_bound_of(shard)[from..].to_vec() }).collect()
}

fn next(state: u64) -> u64 {
    let state = state ^ (state << 13);
    let state = state ^ (state >> 7);
    state ^ (state << 17)
}

fn read_all(routes: &impl RoutePublisher, bounds: &[Vec<u8>]) -> (u64, u64) {
    let (mut choice, mut found) = (FIRST_CHOICE, 0);
    let start = Instant::now();
    for _ in 0..READS {
        choice = next(choice);
        let key = bound_of((choice >> 40) as u16 & (SHARDS - 1));
        let shard = bounds.partition_point(|bound| bound.as_slice() <= black_box(&key[..])) - 1;
        found += u64::from(routes.route(shard).is_some());
    }
    (start.elapsed().as_nanos() as u64, found)
}

fn look_up_all(bounds: &[Vec<u8>], from: usize) -> (u64, u64) {
    let (mut choice, mut sum) = (FIRST_CHOICE, 0);
    let start = Instant::now();
    for _ in 0..READS {
        choice = next(choice);
        let key = long_bound_of((choice >> 40) as u16 & (SHARDS - 1));
        let shard = bounds.partition_point(|bound| bound.as_slice() <= black_box(&key[from..])) - 1;
        sum += shard as u64;
    }
    (start.elapsed().as_nanos() as u64, sum)
}

/// Reads the routes of shards chosen at random by a router of the library, and sums their generations.
fn read_by_the_library() -> (u64, u64) {
    let board = durkenzo::Board::builder().servers(1).build(vec![(); usize::from(SHARDS)]).expect("a board");
    let routes = durkenzo::Routes::new(board.count()).expect("a map");
    let server = durkenzo::ServerId::new(1).expect("a server");
    let mut pass = board.pass(server).expect("a pass");
    for shard in board.shards() {
        board.control().assign(shard, server).expect("a vacant shard");
        routes.publish(&mut pass, shard).expect("a new route");
    }
    let mut router = routes.router().expect("a router");
    let (mut choice, mut sum) = (FIRST_CHOICE, 0);
    let start = Instant::now();
    for _ in 0..READS {
        choice = next(choice);
        let shard = durkenzo::ShardId::new((choice >> 40) as u16 & (SHARDS - 1)).expect("a shard");
        sum += router.route(shard).map_or(0, |it| it.generation);
    }
    (start.elapsed().as_nanos() as u64, sum)
}

fn publish_until(routes: &impl RoutePublisher, pace: Pace, stop: &AtomicBool) -> u64 {
    if pace == Pace::AtRest {
        return 0;
    }
    let start = Instant::now();
    for turn in 0.. {
        if stop.load(Ordering::SeqCst) {
            return turn;
        }
        if pace == Pace::EachMillisecond {
            thread::sleep(Duration::from_millis(turn).saturating_sub(start.elapsed()));
        }
        let (shard, generation) = ((turn % u64::from(SHARDS)) as u16, 2 + turn / u64::from(SHARDS));
        routes.publish(PublishedRoute { shard, server: 1, generation });
    }
    unreachable!()
}

fn measure(routes: &impl RoutePublisher, readers: usize, pace: Pace) {
    let bounds = &bounds_of(LONG_BOUND - 2);
    for shard in 0..SHARDS {
        routes.publish(PublishedRoute { shard, server: 1, generation: 1 });
    }
    let stop = AtomicBool::new(false);
    thread::scope(|scope| {
        let publisher = scope.spawn(|| publish_until(routes, pace, &stop));
        let threads: Vec<_> = (0..readers).map(|_| scope.spawn(|| read_all(routes, bounds))).collect();
        let reads: Vec<_> = threads.into_iter().map(|thread| thread.join().unwrap()).collect();
        stop.store(true, Ordering::SeqCst);
        let published = publisher.join().unwrap();
        for (nanoseconds, found) in reads {
            println!("{} {} {}", nanoseconds / (READS / 1000), found, published);
        }
    });
}

fn pace_of(word: &str) -> Pace {
    match word {
        "rest" => Pace::AtRest,
        "millisecond" => Pace::EachMillisecond,
        "always" => Pace::NeverRests,
        _ => panic!("rest, millisecond or always"),
    }
}

fn main() {
    let words: Vec<String> = std::env::args().collect();
    let map: RouteTable = vec![None; usize::from(SHARDS)];
    let number = |at: usize| words[at].parse().expect("a number");
    match words[1].as_str() {
        "arc-swap" => measure(&Swapped(ArcSwap::from_pointee(map)), number(2), pace_of(&words[3])),
        "lock" => measure(&Locked(RwLock::new(map)), number(2), pace_of(&words[3])),
        "bounds" => {
            let from = LONG_BOUND - number(2);
            let (nanoseconds, sum) = look_up_all(&bounds_of(from), from);
            println!("{} {}", nanoseconds / (READS / 1000), sum);
        }
        "library" => {
            let (nanoseconds, sum) = read_by_the_library();
            println!("{} {}", nanoseconds / (READS / 1000), sum);
        }
        _ => panic!("arc-swap, lock, bounds or library"),
    }
}
