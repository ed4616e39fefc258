//! Checks that a store's record of each shard follows from the proved rule.
//!
//! Each line of the input is a shard's number and the word of its record after a change, in the order of the changes. A
//! shard begins as vacant. If `anew` follows the word, the change isn't checked, because the changes before it weren't
//! told. Prints how many changes there were, and each one that the rule doesn't allow. The exit status is 1 if there is
//! one, or if a line can't be read.
use durkenzo::word::{changed, record, Change};
use durkenzo::{Stand, MAX_GENERATION};
use std::collections::BTreeMap;
use std::io::{stdin, BufRead};
use std::process::ExitCode;

const VACANT: u64 = 0;

/// Returns the servers that a record names.
fn named(stand: Stand) -> Vec<u16> {
    match stand {
        Stand::Vacant => vec![],
        Stand::Serving(owner) | Stand::Paused(owner) => vec![owner],
        Stand::Prepared { owner, next } | Stand::Forwarding { owner, next } => vec![owner, next],
        Stand::Taken { owner, previous } => vec![owner, previous],
    }
}

/// Returns the change that leads from one word to another, if there is one.
fn change_between(before: u64, after: u64) -> Option<Change> {
    let servers = record(after).map(|it| named(it.stand)).unwrap_or_default();
    let of_server = [Change::Assign, Change::PrepareAddShard, Change::Reassign];
    let others = [
        Change::PrepareDropShard,
        Change::AddShard,
        Change::DropShard,
        Change::Cancel,
        Change::Pause,
        Change::Resume,
    ];
    let with_server = of_server
        .iter()
        .flat_map(|of| servers.iter().map(move |it| of(*it)));
    with_server
        .chain(others)
        .find(|it| changed(before, *it, MAX_GENERATION) == Ok(after))
}

/// Returns the shard, its word, and whether the change must be checked, from a line.
fn told(line: &str) -> Option<(u16, u64, bool)> {
    let words: Vec<&str> = line.split(' ').collect();
    match words[..] {
        [shard, word] => Some((shard.parse().ok()?, word.parse().ok()?, true)),
        [shard, word, "anew"] => Some((shard.parse().ok()?, word.parse().ok()?, false)),
        _ => None,
    }
}

fn main() -> ExitCode {
    let mut words: BTreeMap<u16, u64> = BTreeMap::new();
    let (mut changes, mut unjudged, mut wrong) = (0, 0, 0);
    for line in stdin().lock().lines().map_while(Result::ok) {
        let Some((shard, after, is_judged)) = told(&line) else {
            println!("{line} can't be read");
            return ExitCode::FAILURE;
        };
        let before = words.insert(shard, after).unwrap_or(VACANT);
        changes += 1;
        unjudged += u32::from(!is_judged);
        if is_judged && change_between(before, after).is_none() {
            wrong += 1;
            println!(
                "shard {shard}: no change leads from {:?} to {:?}",
                record(before),
                record(after)
            );
        }
    }
    let shards = words.len();
    println!("{changes} changes of {shards} shards, {unjudged} not judged, {wrong} wrong");
    ExitCode::from(u8::from(wrong > 0))
}
