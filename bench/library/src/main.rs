//! Times what threads do with the counts of 4,096 shards by the library's board, by locks and by a concurrent map.
//! `library ROUND` prints a line for each row and way: their names and the nanoseconds of each operation; the ways
//! begin at another one in each round; where requests are served also what their replies tell. `library memory WAY`
//! prints the bytes that the way takes.
mod board;
mod count_store;
mod locks;
mod map;
mod served;

use board::Owned;
use count_store::{CountStore, CountWorker, SHARDS};
use locks::{OfParkingLot, OfStd};
use map::Mapped;
use served::{Asks, ServiceWorker};
use std::hint::black_box;
use std::thread;
use std::time::Instant;

const THREADS: usize = 4;
const ALONE: u64 = 3_000_000;
const TOGETHER: u64 = 500_000;
const SERVED: u64 = 300_000;
const COPIES: usize = 64;

/// Which shards a thread chooses from.
#[derive(Clone, Copy)]
enum ShardChoice {
    Own,
    All,
    One,
}

/// Has the operation done at shards chosen at random (xorshift64), and sums what it tells.
fn at_random(
    times: u64,
    thread: usize,
    reach: ShardChoice,
    mut operation: impl FnMut(usize) -> u64,
) -> u64 {
    let (mut state, mut told) = (88_172_645_463_325_252 * (thread as u64 + 1), 0u64);
    for _ in 0..times {
        state ^= state << 13;
        state ^= state >> 7;
        state ^= state << 17;
        let chosen = (state >> 40) as usize;
        let shard = match reach {
            ShardChoice::Own => chosen % (SHARDS / THREADS) + thread * (SHARDS / THREADS),
            ShardChoice::All => chosen % SHARDS,
            ShardChoice::One => 0,
        };
        told = told.wrapping_add(operation(shard));
    }
    told
}

/// The nanoseconds of each of so many operations.
fn timed(operations: u64, work: impl FnOnce() -> u64) -> f64 {
    let start = Instant::now();
    black_box(work());
    start.elapsed().as_nanos() as f64 / operations as f64
}

fn look<W: CountStore>() -> f64 {
    let way = black_box(W::new());
    let mut worker = way.worker();
    timed(ALONE, || {
        at_random(ALONE, 0, ShardChoice::All, |shard| worker.look(shard))
    })
}

fn count<W: CountStore>() -> f64 {
    let way = black_box(W::new());
    let mut worker = way.worker();
    timed(ALONE, || {
        at_random(ALONE, 0, ShardChoice::All, |shard| worker.count(shard))
    })
}

/// Four threads count, and no addition is lost.
fn together<W: CountStore>(reach: ShardChoice) -> f64 {
    let way = black_box(W::new());
    let counts = &|thread| {
        let mut worker = way.worker();
        at_random(TOGETHER, thread, reach, |shard| worker.count(shard))
    };
    let operations = TOGETHER * THREADS as u64;
    let taken = timed(operations, || {
        thread::scope(|scope| {
            let running = [0, 1, 2, 3].map(|thread| scope.spawn(move || counts(thread)));
            let told = running.map(|it| it.join().expect("no thread panics"));
            told.into_iter().fold(0, u64::wrapping_add)
        })
    });
    let mut worker = way.worker();
    let counted: u64 = (0..SHARDS).map(|shard| worker.count(shard) - 1).sum();
    assert_eq!(counted, operations, "each addition is counted");
    taken
}

fn show<W: CountStore>(way: &str) {
    println!("a look;{way};{}", look::<W>());
    println!(
        "an admission, a count in the body, its end;{way};{}",
        count::<W>()
    );
    println!(
        "four threads, each at its own shards;{way};{}",
        together::<W>(ShardChoice::Own)
    );
    println!(
        "four threads, at all shards;{way};{}",
        together::<W>(ShardChoice::All)
    );
    println!(
        "four threads, at one shard;{way};{}",
        together::<W>(ShardChoice::One)
    );
}

fn show_refused() {
    let owned = black_box(Owned::new());
    let mut pass = owned.stranger();
    let taken = timed(ALONE, || {
        at_random(ALONE, 0, ShardChoice::All, |shard| {
            board::refused(&mut pass, shard)
        })
    });
    println!("a refused admission;board;{taken}");
}

/// The sums of what the replies tell are those of bench/serve's programs.
fn show_served() {
    let mut site = black_box(ServiceWorker::new());
    // What was put is told by later gets.
    for (kind, is_put) in [("get", false), ("put", true)] {
        for (asks, row) in [(Asks::AtShard, "serve"), (Asks::ByKey, "search and serve")] {
            let mut told = 0;
            let taken = timed(SERVED, || {
                told = site.run(asks, is_put, SERVED);
                told
            });
            println!("{row}, {kind};board;{taken};{told}");
        }
    }
}

/// The bytes that are resident.
fn resident() -> usize {
    let pages = std::fs::read_to_string("/proc/self/statm").expect("Linux");
    pages
        .split(' ')
        .nth(1)
        .and_then(|it| it.parse::<usize>().ok())
        .expect("a number")
        * 4096
}

/// The bytes that the way takes, in a process that made no other.
fn memory_of<W: CountStore>() -> usize {
    let before = resident();
    let kept = black_box((0..COPIES).map(|_| W::new()).collect::<Vec<_>>());
    (resident() - before) / kept.len()
}

fn show_memory(way: &str) {
    let bytes = match way {
        "board" => memory_of::<Owned>(),
        "Mutex" => memory_of::<OfStd>(),
        "parking_lot" => memory_of::<OfParkingLot>(),
        _ => memory_of::<Mapped>(),
    };
    println!("{way};{bytes}");
}

fn main() {
    let mut words = std::env::args().skip(1);
    let word = words.next().expect("a round, or `memory`");
    if word == "memory" {
        show_memory(&words.next().expect("a way"));
        return;
    }
    let round: usize = word.parse().expect("the number of a round");
    let mut ways: [(fn(&str), &str); 4] = [
        (show::<Owned>, "board"),
        (show::<OfStd>, "Mutex"),
        (show::<OfParkingLot>, "parking_lot"),
        (show::<Mapped>, "dashmap"),
    ];
    ways.rotate_left(round % 4);
    for (show, way) in ways {
        show(way);
    }
    show_refused();
    show_served();
}
