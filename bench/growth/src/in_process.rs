//! Runs rounds of two ways in one process, in turn.
use crate::request_choice::RequestChoice;
use crate::round::{self, TimedRound};
use crate::round_result::{RoundResult, MOST_TIMES};
use crate::shard_store::{KeyRequest, ShardStore, ShardWorker};
use crate::sizes::Sizes;
use std::hint::black_box;
use std::time::Instant;

/// One request of this many is timed by itself. The others aren't, because reading the clock takes time too.
const TIMED: u64 = 32;

/// Writes each key once, and returns the way.
pub fn filled<W: ShardStore>(way: W, sizes: &Sizes) -> W {
    {
        let mut worker = way.worker();
        let keys = u64::from(sizes.keys);
        for number in 0..sizes.shards as u64 * keys {
            worker.request(KeyRequest {
                shard: (number / keys) as usize,
                key: (number % keys) as u32,
                is_write: true,
            });
        }
    }
    way
}

/// Runs the rounds of both ways in turn, and prints a line of each. The way that begins changes with each round.
pub fn beside<A: ShardStore, B: ShardStore>(ours: &A, locks: &B, sizes: &Sizes) {
    for number in 0..sizes.rounds {
        for turn in [number % 2, 1 - number % 2] {
            match turn {
                0 => run(ours, sizes).print("ours"),
                _ => run(locks, sizes).print("locks"),
            }
        }
    }
}

fn run<W: ShardStore>(way: &W, sizes: &Sizes) -> RoundResult {
    round::run(
        sizes,
        sizes.threads,
        |thread, round| work(way, sizes, thread, round),
        |round| migrate(way, sizes, round),
    )
}

/// Makes requests on one thread until the round is over. Returns how many it made, and the times of some.
fn work<W: ShardStore>(
    way: &W,
    sizes: &Sizes,
    thread: usize,
    round: &TimedRound,
) -> (u64, Vec<u64>) {
    let (mut worker, mut choice) = (way.worker(), RequestChoice::new(sizes, thread));
    let (mut made, mut times) = (0, Vec::with_capacity(MOST_TIMES));
    round.begin();
    while !round.is_over() {
        for _ in 1..TIMED {
            black_box(worker.request(choice.next()));
        }
        let (asked, began) = (choice.next(), Instant::now());
        black_box(worker.request(asked));
        if times.len() < MOST_TIMES {
            times.push(began.elapsed().as_nanos() as u64);
        }
        made += TIMED;
    }
    (made, times)
}

/// Moves shards at random until the round is over, and returns how many it moved.
fn migrate<W: ShardStore>(way: &W, sizes: &Sizes, round: &TimedRound) -> u64 {
    let (mut choice, mut owners) = (
        RequestChoice::new(sizes, sizes.threads),
        vec![1; sizes.shards],
    );
    round.begin();
    let made = round.paced(sizes.migrations, |_| {
        let shard = choice.below(sizes.shards as u64) as usize;
        owners[shard] = 3 - owners[shard];
        way.migrate(shard, owners[shard]);
    });
    // Each round must begin with the owners of the first one.
    for shard in (0..sizes.shards).filter(|it| owners[*it] != 1) {
        way.migrate(shard, 1);
    }
    made
}
