//! Times whole runs of bench_map of crate/ against the same runs over Rust's own memory and maps, in turn, and compares the answers.
//! Each line names a run, and has the nanoseconds of an operation on both sides in one round. With three arguments it only fills a map, so
//! that a heap profiler sees what that takes: whose (`none`, `ours`, `rebuilt` or `theirs`), how many keys, and in which order. With
//! `scan`, whose, how many keys and how many turns it only scans, for other profilers.

mod ours;
mod theirs;

use std::hint::black_box;
use std::time::Instant;

const KEY_BYTES: usize = 16;
const TEXT_BYTES: usize = 32;
const READS: usize = 300_000;
const SCANS: usize = 10_000;
const PLACED_BYTES: usize = 64 << 20;
const GIVEN_BYTES: usize = 64 << 20;
const KEY: &[u8] = b"account-00000007";

/// What both sides work on: keys in their order, their texts, and the numbers of the keys that come in turn.
pub struct Rows {
    pub keys: Vec<u8>,
    pub texts: Vec<u8>,
    pub order: Vec<u32>,
}

type TimedRun = fn(&Rows) -> u64;

/// The next state of a pseudo-random choice (xorshift64).
fn next(state: u64) -> u64 {
    let state = state ^ (state << 13);
    let state = state ^ (state >> 7);
    state ^ (state << 17)
}

fn rows_of(count: u32) -> Rows {
    let keys = (0..count).flat_map(|at| format!("account-{:08}", 7 * at).into_bytes()).collect();
    let texts = (0..count).flat_map(|at| format!("{:>32}", next(u64::from(at) + 1)).into_bytes()).collect();
    Rows { keys, texts, order: Vec::new() }
}

fn at_random(count: u32, length: usize) -> Vec<u32> {
    let mut choice = 88_172_645_463_325_252;
    let mut choose = || {
        choice = next(choice);
        ((choice >> 32) % u64::from(count)) as u32
    };
    (0..length).map(|_| choose()).collect()
}

fn shuffled(count: u32) -> Vec<u32> {
    let mut order: Vec<u32> = (0..count).collect();
    let mut choice = 88_172_645_463_325_252;
    for last in (1..count as usize).rev() {
        choice = next(choice);
        order.swap(last, (choice >> 32) as usize % (last + 1));
    }
    order
}

/// The time of the run, without that of the same run with nothing in turn, and its answer.
fn timed(run: impl Fn(&Rows) -> u64, rows: &Rows, empty: &Rows) -> (f64, u64) {
    let start = Instant::now();
    black_box(run(black_box(empty)));
    let idle = start.elapsed();
    let start = Instant::now();
    let answer = run(black_box(rows));
    (start.elapsed().as_nanos() as f64 - idle.as_nanos() as f64, answer)
}

/// One round of both sides, of which the other one begins in each odd round.
fn compare(name: &str, round: usize, operations: usize, mut ours: impl FnMut() -> (f64, u64), mut theirs: impl FnMut() -> (f64, u64)) {
    let (our, their) = if round % 2 == 0 {
        let our = ours();
        (our, theirs())
    } else {
        let their = theirs();
        (ours(), their)
    };
    assert_eq!(our.1, their.1, "{name}: the answers differ");
    println!("{name}\t{}\t{}", our.0 / operations as f64, their.0 / operations as f64);
}

fn place(round: usize, length: usize) {
    let piece: Vec<u8> = (0..length).map(|at| at as u8).collect();
    let count = PLACED_BYTES / length;
    let run = |side: fn(&[u8], usize) -> u64| {
        let start = Instant::now();
        let answer = side(black_box(&piece), count);
        (start.elapsed().as_nanos() as f64, answer)
    };
    compare(&format!("place of {length} bytes"), round, count, || run(ours::place), || run(theirs::place));
}

/// Texts are made, and put with their memory.
fn given(round: usize, length: usize) {
    let text: Vec<u8> = (0..length).map(|at| at as u8).collect();
    let count = GIVEN_BYTES / length;
    let run = |side: fn(&[u8], &[u8], usize) -> u64| {
        let start = Instant::now();
        let answer = side(KEY, black_box(&text), count);
        (start.elapsed().as_nanos() as f64, answer)
    };
    let name = format!("a text of {length} bytes made, and put with its memory");
    compare(&name, round, count, || run(ours::given), || run(theirs::given));
}

fn map_runs(round: usize, count: u32) {
    let empty = rows_of(count);
    let runs: [(&str, TimedRun, TimedRun, Vec<u32>); 7] = [
        ("get", ours::get, theirs::get, at_random(count, READS)),
        ("put over a key, against insert", ours::put, theirs::insert_over, at_random(count, READS)),
        ("put over a key, with rebuilds, against insert", ours::put_and_rebuild, theirs::insert_over, at_random(count, READS)),
        ("put over a key, against a copy in place", ours::put, theirs::copy_over, at_random(count, READS)),
        ("scan of 100", ours::scan, theirs::scan, at_random(count, SCANS)),
        ("append", ours::append, theirs::append, at_random(count, 10 * count as usize)),
        ("put of a new key", ours::insert, theirs::insert, shuffled(count)),
    ];
    for (name, ours, theirs, order) in runs {
        map_run(name, round, &empty, ours, theirs, order);
    }
}

fn map_run(name: &str, round: usize, empty: &Rows, ours: TimedRun, theirs: TimedRun, order: Vec<u32>) {
    let operations = order.len();
    let name = format!("{name}, {} keys", empty.keys.len() / KEY_BYTES);
    let rows = Rows { order, keys: empty.keys.clone(), texts: empty.texts.clone() };
    compare(&name, round, operations, || timed(ours, &rows, empty), || timed(theirs, &rows, empty));
}

fn put_runs(round: usize, count: u32) {
    map_run("put of a new key", round, &rows_of(count), ours::insert, theirs::insert, shuffled(count));
}

/// Fills a map with so many keys.
fn fill(whose: &str, count: u32, order: &str) {
    let order = if order == "rising" { (0..count).collect() } else { shuffled(count) };
    let rows = Rows { order, ..rows_of(count) };
    let answer = match whose {
        "none" => count.into(),
        "ours" => ours::insert(&rows),
        "rebuilt" => ours::rebuild(&rows),
        _ => theirs::insert(&rows),
    };
    assert_eq!(answer, u64::from(count), "{whose}: keys are missing");
}

/// Scans so often from keys at random.
fn scan(whose: &str, count: u32, turns: usize) {
    let rows = Rows { order: at_random(count, turns), ..rows_of(count) };
    let run = if whose == "ours" { ours::scan } else { theirs::scan };
    println!("{}", run(&rows));
}

fn main() {
    let words: Vec<String> = std::env::args().skip(1).collect();
    if let [_, whose, count, turns] = words.as_slice() {
        return scan(whose, count.parse().expect("a number of keys"), turns.parse().expect("a number of turns"));
    }
    if let [whose, count, order] = words.as_slice() {
        return fill(whose, count.parse().expect("a number of keys"), order);
    }
    let rounds = std::env::args().nth(1).map_or(9, |word| word.parse().expect("a number of rounds"));
    for round in 0..rounds {
        place(round, 64);
        place(round, 65_535);
        given(round, 4_096);
        given(round, 65_535);
        map_runs(round, 1_000);
        map_runs(round, 10_000);
        put_runs(round, 100_000);
    }
}
