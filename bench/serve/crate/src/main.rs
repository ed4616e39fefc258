//! Measures requests that a server answers on a board of 4,096 shards, on one thread and on four. Without arguments it measures
//! nothing.
#![tactic(auto)]

mod choice;
mod parts;
mod request;
mod site;
mod worker;

use choice::{Choice, Reach};
use parts::{Bodies, Nobody, Permits};
use request::{Answering, Kind, answers, fill};
use site::Site;
use std::alloc::{AllocError, Global};
use std::rt::Clock;
use std::thread::Threads;
use std::time::Instant;
use std::{env, thread};
use worker::Worker;

const USAGE: &str =
    "usage: bench_server nobody|bodies|permits|serve|spread|apart|same get|put TRIES";

const THREADS: usize = 4;

/// What answers the requests.
#[derive(Clone, Copy)]
enum Way {
    Nobody,
    Bodies,
    Permits,
    Serve,
    /// Servers on four threads, which choose so.
    Threads(Reach),
}

fn main(rt: HostRuntime) -> anyhow::Result<()> {
    let words: Vec<String> = env::args(&rt)?.collect(rt.alloc())?;
    match asked(&words) {
        Some((way, kind, tries)) => measure(&rt, rt.alloc(), way, kind, tries),
        None => {
            println!(rt; "{USAGE}")?;
            Ok(())
        }
    }
}

// What the words after the program's name ask for; none where they aren't three, or the first is unknown.
fn asked(words: &[String]) -> Option<(Way, Kind, u64)> {
    let way = way_of(words.get(1)?)?;
    let kind = match words.get(2)?.as_str() {
        "get" => Kind::Get,
        _ => Kind::Put,
    };
    Some((way, kind, words.get(3)?.parse().unwrap_or(0)))
}

fn way_of(word: &str) -> Option<Way> {
    match word {
        "nobody" => Some(Way::Nobody),
        "bodies" => Some(Way::Bodies),
        "permits" => Some(Way::Permits),
        "serve" => Some(Way::Serve),
        "spread" => Some(Way::Threads(Reach::Spread)),
        "apart" => Some(Way::Threads(Reach::Apart)),
        "same" => Some(Way::Threads(Reach::Same)),
        _ => None,
    }
}

// Measures so many requests of one kind.
fn measure<R: Threads + Sync + Clock + Print>(
    rt: &R,
    alloc: Global,
    way: Way,
    kind: Kind,
    tries: u64,
) -> anyhow::Result<()> {
    match way {
        Way::Nobody => alone(rt, alloc, &mut Nobody, kind, tries),
        Way::Bodies => {
            let mut bodies = Bodies::new(alloc).ok_or(AllocError)?;
            alone(rt, alloc, &mut bodies, kind, tries)
        }
        _ => {
            let site = Site::make(alloc).ok_or(AllocError)?;
            measure_site(rt, alloc, &site, way, kind, tries)
        }
    }
}

// The same of ways that need a site.
fn measure_site<R: Threads + Sync + Clock + Print>(
    rt: &R,
    alloc: Global,
    site: &Site,
    way: Way,
    kind: Kind,
    tries: u64,
) -> anyhow::Result<()> {
    match way {
        Way::Threads(reach) => together(rt, alloc, site, reach, kind, tries),
        Way::Permits => alone(rt, alloc, &mut Permits::new(site), kind, tries),
        _ => alone(rt, alloc, &mut Worker::new(site), kind, tries),
    }
}

// Prints the nanoseconds of so many requests, and what the replies told.
fn alone<A: Answering>(
    rt: &(impl Clock + Print),
    alloc: Global,
    to: &mut A,
    kind: Kind,
    tries: u64,
) -> anyhow::Result<()> {
    fill(to, alloc);
    let start = Instant::now(rt)?;
    let told = answers(to, alloc, kind, Choice::new(Reach::Spread, 0), tries);
    println!(rt; "{} {told}", start.elapsed(rt)?.as_nanos())?;
    Ok(())
}

// Prints the nanoseconds of so many requests on each of four threads, and what the replies told.
fn together<R: Threads + Sync + Clock + Print>(
    rt: &R,
    alloc: Global,
    site: &Site,
    reach: Reach,
    kind: Kind,
    tries: u64,
) -> anyhow::Result<()> {
    fill(&mut Worker::new(site), alloc);
    let start = Instant::now(rt)?;
    let told = thread::map_indices(
        rt,
        alloc,
        THREADS,
        &|thread: usize| -> u64 {
            let mut worker = Worker::new(site);
            answers(&mut worker, alloc, kind, Choice::new(reach, thread), tries)
        },
    )?;
    println!(rt; "{} {}", start.elapsed(rt)?.as_nanos(), sum_of(&told))?;
    Ok(())
}

fn sum_of(told: &[u64]) -> u64 {
    let mut sum = 0u64;
    for each in told {
        sum = sum.wrapping_add(*each);
    }
    sum
}
