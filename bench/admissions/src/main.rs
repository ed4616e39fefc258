//! Times looks, admissions and notes on a board of 4,096 shards: the proved board of bench_rule of crate/, atomic words in Rust, and a
//! lock for each shard in Rust, in alternating rounds. Each line is a row, a way, its round and its nanoseconds for each operation.
//! With a row, a way and a number it makes so many operations that way alone, so that a profiler sees these.

mod board;
mod choice;
mod locks;
mod slots;
mod words;

use std::hint::black_box;
use std::time::Instant;

type Loop = fn(u64) -> u64;

/// One kind of operation, how many are made in a round, and the loop of each way.
struct Row {
    name: &'static str,
    operations: u64,
    ways: [(&'static str, Loop); 3],
}

const ROWS: [Row; 7] = [
    Row {
        name: "look",
        operations: 10_000_000,
        ways: [("board", board::looks), ("words", words::looks), ("locks", locks::looks)],
    },
    Row {
        name: "look, each at what the last one tells",
        operations: 5_000_000,
        ways: [("board", board::chained_looks), ("words", words::chained_looks), ("locks", locks::chained_looks)],
    },
    Row {
        name: "admit and finish",
        operations: 3_000_000,
        ways: [("board", board::admissions), ("words", words::admissions), ("locks", locks::admissions)],
    },
    Row {
        name: "admit, count in the body, and finish",
        operations: 3_000_000,
        ways: [("board", board::executions), ("words", slots::executions), ("locks", locks::executions)],
    },
    Row {
        name: "a refused admission",
        operations: 3_000_000,
        ways: [("board", board::refusals), ("words", words::refusals), ("locks", locks::refusals)],
    },
    Row {
        name: "make a note and drop it, beside a load",
        operations: 10_000_000,
        ways: [("board", board::notes), ("words", words::loads), ("locks", locks::takes)],
    },
    Row {
        name: "make a note and meet it, beside two loads",
        operations: 10_000_000,
        ways: [("board", board::meetings), ("words", words::pairs_of_loads), ("locks", locks::takes)],
    },
];

/// What all loops of the row answer. It ends the program where two differ, as one of them then skips work.
fn measure(row: &Row, round: usize) {
    let mut answers = Vec::new();
    for turn in 0..row.ways.len() {
        let (way, of_way) = row.ways[(round + turn) % row.ways.len()];
        let start = Instant::now();
        answers.push(black_box(of_way(black_box(row.operations))));
        let nanoseconds = start.elapsed().as_nanos() as f64 / row.operations as f64;
        println!("{};{way};{round};{nanoseconds}", row.name);
    }
    assert!(answers.iter().all(|answer| *answer == answers[0]), "{}: the ways answer {answers:?}", row.name);
}

fn make(name: &str, way: &str, operations: u64) {
    let row = ROWS.iter().find(|row| row.name == name).expect("a row");
    let (_, of_way) = row.ways.iter().find(|it| it.0 == way).expect("a way");
    println!("{}", of_way(operations));
}

fn main() {
    let words: Vec<String> = std::env::args().skip(1).collect();
    if let [row, way, operations] = words.as_slice() {
        return make(row, way, operations.parse().expect("a number of operations"));
    }
    let rounds = words.first().and_then(|word| word.parse().ok()).expect("a number of rounds");
    for round in 0..rounds {
        for row in &ROWS {
            measure(row, round);
        }
    }
}
