//! Measures a cluster of the sample service: calls, loads, migrations beside calls, start and stop; and runs it by
//! chance for a while. Without arguments it makes 100 calls beside three migrations.
#![tactic(auto)]

mod calling;
mod chance;
mod directing;
mod plan;
mod progress;
mod running;
mod starting;
mod tally;

use plan::{Direction, Plan};
use running::{Outcome, run};
use std::alloc::{AllocError, Global};
use std::rt::Clock;
use std::sync::Wait;
use std::thread::Threads;
use std::time::Instant;
use std::{env, io};

const USAGE: &str =
    "usage: bench_cluster rest|load|graceful|abrupt SERVERS WORKERS SHARDS CLIENTS CALLS MIGRATIONS, \
     or soak SECONDS SEED";

fn main(rt: HostRuntime) -> anyhow::Result<()> {
    let alloc = rt.alloc();
    let words: Vec<String> = env::args(&rt)?.collect(alloc)?;
    obey(&rt, alloc, &words)
}

// Does what the words say.
fn obey<R: Threads + Wait + Clock + Print + Clone + Send + Sync + Drop + 'static>(
    rt: &R,
    alloc: Global,
    words: &[String],
) -> anyhow::Result<()> {
    let Some(word) = words.get(1) else {
        return Ok(small(rt, alloc)?);
    };
    let word = word.as_str();
    if word == "soak" {
        return Ok(soak(rt, alloc, number_at(words, 2), number_at(words, 3))?);
    }
    match direction_of(word, number_at(words, 7)) {
        Some(direction) => Ok(measure(rt, alloc, plan_of(words, direction))?),
        None => Ok(println!(rt; "{USAGE}")?),
    }
}

// The direction that the word names, with so many migrations.
fn direction_of(word: &str, migrations: u64) -> Option<Direction> {
    match word {
        "rest" => Some(Direction::Rest),
        "load" => Some(Direction::Load),
        "graceful" => Some(Direction::Graceful(migrations)),
        "abrupt" => Some(Direction::Abrupt(migrations)),
        _ => None,
    }
}

// The number that the word at this place spells, 0 where there is none.
fn number_at(words: &[String], at: usize) -> u64 {
    match words.get(at) {
        Some(word) => word.parse().unwrap_or(0),
        None => 0,
    }
}

fn plan_of(words: &[String], direction: Direction) -> Plan {
    Plan {
        servers: number_at(words, 2).min(4095) as u16,
        workers: number_at(words, 3).min(64) as u32,
        shards: number_at(words, 4).min(4096) as u16,
        clients: number_at(words, 5).min(1000) as usize,
        calls: number_at(words, 6).min(1 << 30) as u32,
        direction,
    }
}

// Runs the plan; what is refused is told as want of memory.
fn outcome_of<R: Threads + Wait + Clock + Clone + Send + Sync + Drop + 'static>(
    rt: &R,
    alloc: Global,
    plan: Plan,
) -> io::Result<Outcome> {
    match run(rt, alloc, plan) {
        Some(outcome) => Ok(outcome),
        None => Err(AllocError.into()),
    }
}

fn small<R: Threads + Wait + Clock + Print + Clone + Send + Sync + Drop + 'static>(
    rt: &R,
    alloc: Global,
) -> io::Result<()> {
    let outcome = outcome_of(rt, alloc, Plan::small())?;
    println!(rt; "acked {} applied {}", outcome.tally.acked, outcome.applied)
}

// Runs the plan, and prints what came of it.
fn measure<R: Threads + Wait + Clock + Print + Clone + Send + Sync + Drop + 'static>(
    rt: &R,
    alloc: Global,
    plan: Plan,
) -> io::Result<()> {
    let outcome = outcome_of(rt, alloc, plan)?;
    print_outcome(rt, &outcome)
}

// Prints what clients were told, what was applied, and when each part of the run had ended; and the time of each
// migration.
fn print_outcome<R: Print>(rt: &R, outcome: &Outcome) -> io::Result<()> {
    let tally = &outcome.tally;
    println!(rt;
        "{} {} {} {} {}",
        tally.acked, outcome.applied, tally.refused, tally.longest, tally.told
    )?;
    let [started, assigned, worked, stopped] = outcome.marks;
    println!(rt; "{started} {assigned} {worked} {stopped}")?;
    print_all(rt, &outcome.figures)
}

fn print_all<R: Print>(rt: &R, figures: &[u64]) -> io::Result<()> {
    for figure in figures {
        print!(rt; "{figure} ")?;
    }
    println!(rt; "")
}

// Runs one cluster after another by chance for so many seconds, and prints a line of each.
fn soak<R: Threads + Wait + Clock + Print + Clone + Send + Sync + Drop + 'static>(
    rt: &R,
    alloc: Global,
    seconds: u64,
    seed: u64,
) -> io::Result<()> {
    let start = Instant::now(rt)?;
    for turn in 0..u64::MAX {
        if start.elapsed(rt)?.as_secs() >= seconds {
            break;
        }
        soak_once(rt, alloc, seed.wrapping_add(turn))?;
    }
    Ok(())
}

fn soak_once<R: Threads + Wait + Clock + Print + Clone + Send + Sync + Drop + 'static>(
    rt: &R,
    alloc: Global,
    seed: u64,
) -> io::Result<()> {
    let outcome = outcome_of(rt, alloc, Plan::by_chance(seed))?;
    let made = outcome.figures.first().copied().unwrap_or(0);
    println!(rt;
        "acked {} applied {} refused {} made {made}",
        outcome.tally.acked, outcome.applied, outcome.tally.refused
    )
}
