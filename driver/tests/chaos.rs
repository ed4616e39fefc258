//! Shards over a store that often doesn't tell the outcome of a transaction, while they move: each answered addition is
//! counted once, and no other.
mod common;

use common::{add, held, Uncertain};
use durkenzo_driver::{ControlCommand, Durable, DurableControl, MapReply, Next};
use durkenzo_store::{Embedded, Store};
use std::sync::atomic::{AtomicBool, AtomicU64, Ordering};
use std::sync::Arc;
use std::thread;
use std::time::{Duration, Instant};

const SHARDS: u16 = 4;
const THREADS: u64 = 6;
/// The least time that the test lasts, and how much longer it lasts at most until there were enough moves.
const LASTS: Duration = Duration::from_secs(3);
const PATIENCE: Duration = Duration::from_secs(60);
const MOVES: u64 = 10;
/// The least number of additions of each thread to each shard.
const TIMES: u16 = 3;

/// Moves shards to the other server as long as it may, and counts how often.
fn migrate(mut control: DurableControl, stops: &AtomicBool, count: &AtomicU64) {
    let mut moves = 0;
    while !stops.load(Ordering::Acquire) {
        let (shard, server) = (
            (moves % u64::from(SHARDS)) as u16,
            (moves / 4 % 2) as u16 + 1,
        );
        // If the shard is there already, the command is refused.
        let _ = control.command(ControlCommand::PrepareAddShard(shard, server));
        while let Ok(Next::Command(command)) = control.next_of_shard(shard) {
            let _ = control.command(command);
        }
        moves += 1;
        count.store(moves, Ordering::Relaxed);
        thread::sleep(Duration::from_millis(1));
    }
}

#[test]
fn additions_are_counted_once_where_outcomes_are_unknown() {
    let store: Arc<dyn Store> = Arc::new(Uncertain::new(Embedded::in_memory(), 4));
    let durable = Arc::new(common::opened(&store, SHARDS));
    let control = common::led(&durable);
    let (stops, moves) = (AtomicBool::new(false), AtomicU64::new(0));
    let end = Instant::now() + LASTS;
    let goes_on = |times| {
        let now = Instant::now();
        let is_enough = times >= TIMES && moves.load(Ordering::Relaxed) > MOVES;
        now < end || !is_enough && now < end + PATIENCE
    };
    let mut answered = vec![0; usize::from(SHARDS)];
    thread::scope(|scope| {
        let moving = scope.spawn(|| migrate(control, &stops, &moves));
        let adding: Vec<_> = (0..THREADS)
            .map(|thread| {
                let (durable, goes_on) = (&durable, &goes_on);
                scope.spawn(move || {
                    let mut counts = vec![0; usize::from(SHARDS)];
                    let (mut shard, mut times) = (thread as u16 % SHARDS, 0);
                    while goes_on(times / SHARDS) {
                        times = times.saturating_add(1);
                        match add(durable, shard, b"count", 1) {
                            Ok(_) => counts[usize::from(shard)] += 1,
                            Err(why) => panic!("an addition wasn't done: {why}"),
                        }
                        shard = (shard + 1) % SHARDS;
                    }
                    counts
                })
            })
            .collect();
        let ended: Vec<_> = adding.into_iter().map(|it| it.join()).collect();
        stops.store(true, Ordering::Release);
        moving.join().unwrap();
        assert!(moves.load(Ordering::Relaxed) > MOVES);
        for counts in ended {
            let counts = counts.unwrap();
            answered
                .iter_mut()
                .zip(counts)
                .for_each(|(all, it): (&mut i64, i64)| *all += it);
        }
    });
    for shard in 0..SHARDS {
        let count = answered[usize::from(shard)];
        assert!(count > 10);
        assert_eq!(
            held(&durable, shard, b"count"),
            Ok(vec![MapReply::Count(count)])
        );
    }
    durable.stop();
    drop(durable);
    // Another process finds the same.
    let durable: Durable = common::opened(&store, SHARDS);
    for shard in 0..SHARDS {
        let count = answered[usize::from(shard)];
        assert_eq!(
            held(&durable, shard, b"count"),
            Ok(vec![MapReply::Count(count)])
        );
    }
}
