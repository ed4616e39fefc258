//! Runs eight threads, and a control that migrates shards. Counters in the bodies would race if two were admitted at
//! once; at the end they must equal the number of admissions.
mod common;

use common::{server_id, shard_id};
use durkenzo::{Board, ChangeFault, Mode};
use std::sync::atomic::{AtomicBool, Ordering};
use std::time::{Duration, Instant};

const SHARDS: u16 = 32;
const SERVERS: u16 = 4;
const THREADS: u64 = 8;
/// The test waits this long for the first migration.
const LATEST: Duration = Duration::from_secs(60);

#[derive(Default)]
struct Body {
    first: u64,
    names: Vec<String>,
    second: u64,
}

fn random(state: &mut u64) -> u16 {
    *state ^= *state << 13;
    *state ^= *state >> 7;
    *state ^= *state << 17;
    (*state >> 20) as u16
}

fn serve(board: &Board<Body>, thread: u64, stop: &AtomicBool) -> u64 {
    let mut pass = board
        .pass(server_id((thread % u64::from(SERVERS)) as u16 + 1))
        .unwrap();
    let (mut state, mut done) = ((thread + 1) * 88_172_645_463_325_252, 0);
    while !stop.load(Ordering::Relaxed) {
        if let Ok(mut body) = pass.admit(shard_id(random(&mut state) % SHARDS), Mode::Direct) {
            body.first += 1;
            if body.first % 10_000 == 0 {
                let name = format!("{thread}:{}", body.first);
                body.names.push(name);
            }
            body.second += 1;
            done += 1;
        }
    }
    done
}

fn migrate(board: &Board<Body>, time: Duration) -> u64 {
    let (control, start, mut state, mut moved) = (board.control(), Instant::now(), 99, 0);
    while start.elapsed() < time || (moved == 0 && start.elapsed() < LATEST) {
        let (shard, server) = (
            shard_id(random(&mut state) % SHARDS),
            server_id(random(&mut state) % SERVERS + 1),
        );
        match control.migrate(shard, server) {
            Ok(()) => moved += 1,
            Err(ChangeFault::SameServer) => {}
            Err(other) => panic!("{other}"),
        }
    }
    moved
}

#[test]
fn admissions_are_as_many_as_racy_counters() {
    let seconds = std::env::var("DURKENZO_STRESS").map_or(3, |it| it.parse().unwrap());
    let bodies = (0..SHARDS).map(|_| Body::default());
    let board = Board::builder().servers(SERVERS).build(bodies).unwrap();
    for shard in 0..SHARDS {
        board
            .control()
            .assign(shard_id(shard), server_id(shard % SERVERS + 1))
            .unwrap();
    }
    let stop = AtomicBool::new(false);
    let (done, moved) = std::thread::scope(|scope| {
        let (board, stop) = (&board, &stop);
        let threads: Vec<_> = (0..THREADS)
            .map(|it| scope.spawn(move || serve(board, it, stop)))
            .collect();
        let moved = migrate(board, Duration::from_secs(seconds));
        stop.store(true, Ordering::Relaxed);
        (
            threads
                .into_iter()
                .map(|it| it.join().unwrap())
                .sum::<u64>(),
            moved,
        )
    });
    let bodies = board.into_bodies().unwrap();
    let counted = bodies
        .iter()
        .fold((0, 0), |sum, it| (sum.0 + it.first, sum.1 + it.second));
    println!("{done} admissions, {moved} migrations");
    assert_eq!(counted, (done, done));
    assert!(done > 0 && moved > 0);
}
