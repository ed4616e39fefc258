//! What looks, admissions and notes on a board of 4,096 shards cost: loops for bench/admissions, which takes their time from Rust.
#![tactic(auto)]

mod full_board;
mod tally;

use full_board::{FullBoard, Loop};
use std::alloc::Global;

/// Makes a board and so many looks at shards chosen at random, and gives the sum of what they told.
#[unsafe(no_mangle)]
pub extern "C" fn bench_rule_looks(alloc: Global, looks: u64) -> u64 {
    on_full_board(alloc, Loop::Looks, looks)
}

/// Makes a board and so many looks, each at a shard that the look before it tells, and gives the sum of what they told.
#[unsafe(no_mangle)]
pub extern "C" fn bench_rule_chained_looks(alloc: Global, looks: u64) -> u64 {
    on_full_board(alloc, Loop::ChainedLooks, looks)
}

/// Makes a board and tries so many admissions to shards chosen at random, ends each at once, and gives the sum of the
/// generations at which they left their shards.
#[unsafe(no_mangle)]
pub extern "C" fn bench_rule_admissions(alloc: Global, tries: u64) -> u64 {
    on_full_board(alloc, Loop::Admissions, tries)
}

/// Makes a board and tries so many admissions to shards chosen at random, each of which counts in the shard's body and is
/// then ended, and gives the sum of the counts.
#[unsafe(no_mangle)]
pub extern "C" fn bench_rule_executions(alloc: Global, tries: u64) -> u64 {
    on_full_board(alloc, Loop::Executions, tries)
}

/// Makes a board and tries so many admissions of a server to shards chosen at random that another one serves, and gives the
/// sum of the generations by which it is refused.
#[unsafe(no_mangle)]
pub extern "C" fn bench_rule_refusals(alloc: Global, tries: u64) -> u64 {
    on_full_board(alloc, Loop::Refusals, tries)
}

/// Makes a board and so many notes of a pass, drops each, and gives their number.
#[unsafe(no_mangle)]
pub extern "C" fn bench_rule_notes(alloc: Global, notes: u64) -> u64 {
    on_full_board(alloc, Loop::Notes, notes)
}

/// Makes a board and so many notes of a pass, which meets each, and gives their number.
#[unsafe(no_mangle)]
pub extern "C" fn bench_rule_meetings(alloc: Global, notes: u64) -> u64 {
    on_full_board(alloc, Loop::Meetings, notes)
}

// Makes a board and runs the loop on it so often; gives 0 where memory is refused.
fn on_full_board(alloc: Global, which: Loop, turns: u64) -> u64 {
    match FullBoard::make(alloc) {
        Some(mut board) => board.run(which, turns),
        None => 0,
    }
}
