//! What bench_server of crate/ does, in Rust: the same requests of as many threads, by a lock for each shard round a map. It
//! prints the nanoseconds of all requests, and what the replies told.

mod choice;
mod locks;

use choice::{Choice, KEYS, Reach, SHARDS, Spot};
use locks::{Kind, Locks, ServedRequest};
use std::thread;
use std::time::Instant;

const THREADS: u64 = 4;

// The request at a spot: a key of 16 bytes, and a text of 32.
fn request_of(kind: Kind, spot: Spot) -> ServedRequest {
    let mut bytes = [0u8; 16];
    bytes[..2].copy_from_slice(&spot.shard.to_be_bytes());
    bytes[15] = spot.key;
    match kind {
        Kind::Get => ServedRequest::Get(bytes.to_vec()),
        Kind::Put => ServedRequest::Put(bytes.to_vec(), vec![spot.text; 32]),
    }
}

// Puts a text at each key of all shards.
fn fill(locks: &Locks) {
    for (shard, key) in (0..SHARDS).flat_map(|shard| (0..KEYS).map(move |key| (shard, key))) {
        locks.answer(shard, request_of(Kind::Put, Spot { shard, key, text: key }));
    }
}

// Has so many requests of one kind answered, and gives the sum of what the replies tell.
fn answers(locks: &Locks, kind: Kind, mut choice: Choice, tries: u64) -> u64 {
    let mut told = 0u64;
    for _ in 0..tries {
        let spot = choice.next();
        told = told.wrapping_add(locks.answer(spot.shard, request_of(kind, spot)).told());
    }
    told
}

// The sum of what the replies tell on four threads.
fn together(locks: &Locks, reach: Reach, kind: Kind, tries: u64) -> u64 {
    thread::scope(|scope| {
        let threads: Vec<_> =
            (0..THREADS).map(|thread| scope.spawn(move || answers(locks, kind, Choice::new(reach, thread), tries))).collect();
        threads.into_iter().map(|thread| thread.join().unwrap()).fold(0, u64::wrapping_add)
    })
}

fn main() {
    let words: Vec<String> = std::env::args().collect();
    let [_, way, reach, kind, tries] = &words[..] else { panic!("usage: serve search|given alone|spread|apart|same get|put TRIES") };
    let locks = Locks::new(way == "search");
    let kind = if kind == "get" { Kind::Get } else { Kind::Put };
    let tries = tries.parse().expect("a number of requests");
    fill(&locks);
    let start = Instant::now();
    let told = match reach.as_str() {
        "alone" => answers(&locks, kind, Choice::new(Reach::Spread, 0), tries),
        "spread" => together(&locks, Reach::Spread, kind, tries),
        "apart" => together(&locks, Reach::Apart, kind, tries),
        _ => together(&locks, Reach::Same, kind, tries),
    };
    println!("{} {told}", start.elapsed().as_nanos());
}
