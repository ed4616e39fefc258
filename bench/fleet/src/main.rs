//! Times the calls of several clients, and prints their figures (`Timed::told`). Each client runs on a thread of its
//! own, and makes one call after another:
//!
//! ```text
//! bench-fleet bare                                  runs a bare server of frames, and prints its address
//! bench-fleet frames ADDRESS,.. CLIENTS SECONDS     calls these bare servers, each in turn
//! bench-fleet calls ETCD CLIENTS SECONDS [RATE]     calls a fleet of pages, at RATE calls a second if it is given
//! bench-fleet hops ETCD CLIENTS SECONDS             calls a fleet of pages by a map from before each shard moved
//! bench-fleet ready ETCD                            waits until each shard answers
//! bench-fleet fill ETCD PAGES                       fills the first shard with this many pages
//! bench-fleet command ETCD WORD ..                  gives the control a command, and prints its answer
//! ```
//!
//! First the program makes everything that the timed calls need. Then it prints `ready`, and the time begins when it
//! reads a line.
mod bare;
mod frozen;
mod timed;
mod workload;

use durkenzo_fleet::{Retry, Router};
use durkenzo_store::{Access, Etcd, Store};
use frozen::Frozen;
use std::env;
use std::error::Error;
use std::io;
use std::process::ExitCode;
use std::sync::{Arc, Barrier};
use std::thread;
use std::time::{Duration, Instant};
use timed::Timed;
use workload::{Calls, Frames, Workload};

type Told = Result<String, Box<dyn Error + Send + Sync>>;
type Callers = Vec<Box<dyn Workload>>;

/// How long a call or a command may take if it isn't timed.
const PATIENCE: Duration = Duration::from_secs(300);

/// Makes one client's calls until the time is over, and returns their times. The time begins when all clients are
/// ready. If there is a pace, one call is due after each such time. Then a call is timed from the moment at which it
/// was due, because it may begin late.
fn work(
    mut caller: Box<dyn Workload>,
    all: &Barrier,
    time: Duration,
    pace: Option<Duration>,
) -> Timed {
    let (mut timed, mut due) = (Timed::default(), Duration::ZERO);
    all.wait();
    let began = Instant::now();
    for number in 0.. {
        if began.elapsed() >= time {
            break;
        }
        let since = match pace {
            Some(pace) => {
                thread::sleep(due.saturating_sub(began.elapsed()));
                due += pace;
                began + due - pace
            }
            None => Instant::now(),
        };
        timed.add(since, caller.call(number));
    }
    timed
}

/// Times these clients, and returns their figures. The time begins when a line is read. If there is a rate, the clients
/// together make this many calls a second.
fn timed(callers: Callers, seconds: u64, rate: Option<u32>) -> Told {
    let (time, count) = (Duration::from_secs(seconds), callers.len() as u32);
    let pace = rate.map(|it| Duration::from_secs(1) * count / it);
    let all = Arc::new(Barrier::new(callers.len() + 1));
    let begin = |caller| {
        let all = all.clone();
        thread::spawn(move || work(caller, &all, time, pace))
    };
    let threads: Vec<_> = callers.into_iter().map(begin).collect();
    println!("ready");
    io::stdin().read_line(&mut String::new())?;
    all.wait();
    let mut all = Timed::default();
    for it in threads {
        all.take(it.join().map_err(|_| "a client has died")?);
    }
    Ok(all.told(seconds))
}

fn etcd(endpoints: &str) -> Result<Etcd, Box<dyn Error + Send + Sync>> {
    Ok(Etcd::new(Access::new(endpoints.split(',')))?)
}

/// Returns a router by which each shard has answered, so that it knows each owner.
fn ready(store: &dyn Store) -> Result<Arc<Router>, Box<dyn Error + Send + Sync>> {
    let router = Router::watch(store)?;
    for shard in Calls::keys_of_shards(&router) {
        router.call(&shard, &[0; 8], Retry::Until(PATIENCE))?;
    }
    Ok(Arc::new(router))
}

/// Returns `count` clients that call by one router.
fn callers(store: &dyn Store, count: u64) -> Result<Callers, Box<dyn Error + Send + Sync>> {
    let router = ready(store)?;
    let made = |it| -> Box<dyn Workload> { Box::new(Calls::new(router.clone(), it)) };
    Ok((0..count).map(made).collect())
}

/// Moves each shard to the next server. The router must not be that of the callers, because their map must stay old.
fn moved(router: &Router) -> Result<(), String> {
    let rows = router.command(&["SHARDS"], PATIENCE)?;
    let servers = router.command(&["SERVERS"], PATIENCE)?.len() as u16 - 1;
    for row in rows.iter().skip(1) {
        let words: Vec<&str> = row.split(' ').collect();
        let owner: u16 = words
            .get(2)
            .and_then(|it| it.parse().ok())
            .ok_or("a shard has no owner")?;
        router.command(
            &["MIGRATE", words[0], &(owner % servers + 1).to_string()],
            PATIENCE,
        )?;
    }
    Ok(())
}

fn frames(addresses: &str, clients: u64, seconds: u64) -> Told {
    let connect = |it| Frames::connect(addresses, it).map(|it| Box::new(it) as Box<dyn Workload>);
    let callers: Result<_, _> = (0..clients).map(connect).collect();
    timed(callers?, seconds, None)
}

fn calls(endpoints: &str, clients: u64, seconds: u64, rate: Option<u32>) -> Told {
    // The store must stay until the calls end, because it tells the router of changes only until then.
    let store = etcd(endpoints)?;
    timed(callers(&store, clients)?, seconds, rate)
}

fn hops(endpoints: &str, clients: u64, seconds: u64) -> Told {
    let (store, told) = (Frozen::new(etcd(endpoints)?), etcd(endpoints)?);
    let callers = callers(&store, clients)?;
    store.freeze();
    moved(&*ready(&told)?)?;
    timed(callers, seconds, None)
}

/// Fills the first shard until it has this many pages. Each call adds at most 4,096 of them.
fn fill(endpoints: &str, most: u64) -> Told {
    let store = etcd(endpoints)?;
    let router = ready(&store)?;
    let first = Calls::key_of_shard(&router, 0);
    for count in (0..most).step_by(4_096).skip(1).chain([most]) {
        let request = [&b"fill"[..], &count.to_be_bytes()].concat();
        router.call(&first, &request, Retry::Until(PATIENCE))?;
    }
    Ok(most.to_string())
}

fn command(endpoints: &str, words: &[&str]) -> Told {
    let store = etcd(endpoints)?;
    let told = ready(&store)?.command(words, PATIENCE)?;
    Ok(told.join("\n"))
}

fn run(words: &[&str]) -> Told {
    match *words {
        ["bare"] => Ok(bare::serve()?),
        ["frames", address, clients, seconds] => {
            frames(address, clients.parse()?, seconds.parse()?)
        }
        ["calls", endpoints, clients, seconds, ref rate @ ..] => {
            let rate = rate.first().map(|it| it.parse()).transpose()?;
            calls(endpoints, clients.parse()?, seconds.parse()?, rate)
        }
        ["hops", endpoints, clients, seconds] => {
            hops(endpoints, clients.parse()?, seconds.parse()?)
        }
        ["ready", endpoints] => ready(&etcd(endpoints)?).map(|_| "ready".to_owned()),
        ["fill", endpoints, pages] => fill(endpoints, pages.parse()?),
        ["command", endpoints, ref words @ ..] => command(endpoints, words),
        _ => Err("it is called as its source says".into()),
    }
}

fn main() -> ExitCode {
    let words: Vec<_> = env::args().skip(1).collect();
    let words: Vec<_> = words.iter().map(String::as_str).collect();
    match run(&words) {
        Ok(told) => {
            println!("{told}");
            ExitCode::SUCCESS
        }
        Err(why) => {
            eprintln!("{why}");
            ExitCode::FAILURE
        }
    }
}
