//! Times the calls of several clients, and prints how many calls there were a second and how long they took. Each
//! client runs on a thread of its own, and makes one call after another:
//!
//! ```text
//! bench-etcd txn ENDPOINT,.. CLIENTS SECONDS                 an etcd transaction that compares a key and puts it
//! bench-etcd set|get ADDRESS,.. CLIENTS SECONDS [SHARDS]     a SET or a GET at any server, for keys of SHARDS shards
//! bench-etcd set-owner|get-owner ADDRESS,.. CLIENTS SECONDS  a SET or a GET at the server that owns the key's shard
//! ```
//!
//! Each client has 16 keys of its own, and writes texts of 32 bytes. First all clients write their keys. Then the
//! program prints `ready`, and the time begins when it reads a line. If a timed call is refused, the exit status is 1.
mod redis;
mod timed;
mod transactions;

use redis::Redis;
use std::env;
use std::io;
use std::process::ExitCode;
use std::sync::{Arc, Barrier};
use std::thread;
use std::time::{Duration, Instant};
use timed::Timed;
use transactions::Transactions;

/// The number of keys of each client.
const KEYS: u64 = 16;

/// The work that a client does over and over.
trait Workload: Send {
    /// Writes the client's keys. Must be called before the first timed call. The calls after it write if `writes` is
    /// true, and read otherwise.
    fn prepare(&mut self, writes: bool) -> Result<(), String>;

    /// Makes the call of this number.
    fn call(&mut self, number: u64) -> Result<(), String>;
}

/// Returns `count` clients that make calls of this kind at these addresses.
fn callers(
    kind: &str,
    addresses: &str,
    count: u64,
    shards: usize,
) -> Result<Vec<Box<dyn Workload>>, String> {
    let addresses: Vec<_> = addresses.split(',').collect();
    if kind == "txn" {
        return Transactions::several(&addresses, count);
    }
    let connect = |it: u64| -> Result<Box<dyn Workload>, String> {
        let address = addresses[it as usize % addresses.len()];
        Ok(Box::new(match kind.ends_with("-owner") {
            true => Redis::of_owners(address, it)?,
            false => Redis::of_one(address, shards, it)?,
        }))
    };
    (0..count).map(connect).collect()
}

/// Makes one client's calls until the time is over, and returns how long each took. The time begins when all clients
/// are prepared and may begin.
fn work(
    mut caller: Box<dyn Workload>,
    writes: bool,
    all: &Barrier,
    time: Duration,
) -> Result<Timed, String> {
    let prepared = caller.prepare(writes);
    all.wait();
    all.wait();
    // Others wait for this client, also if it isn't prepared.
    prepared?;
    let (mut timed, end) = (Timed::default(), Instant::now() + time);
    for number in 0.. {
        let began = Instant::now();
        if began >= end {
            break;
        }
        caller.call(number)?;
        timed.add(began.elapsed());
    }
    Ok(timed)
}

fn run(words: &[String]) -> Result<Timed, String> {
    let [kind, addresses, count, seconds, more @ ..] = words else {
        return Err("bench-etcd KIND ADDRESS,.. CLIENTS SECONDS [SHARDS]".to_owned());
    };
    let number = |it: &String| it.parse::<u64>().map_err(|error| error.to_string());
    let shards = more.first().map_or(Ok(1), number)?;
    let callers = callers(kind, addresses, number(count)?, shards as usize)?;
    let time = Duration::from_secs(number(seconds)?);
    let writes = !kind.starts_with("get");
    let all = Arc::new(Barrier::new(callers.len() + 1));
    let threads: Vec<_> = callers
        .into_iter()
        .map(|it| (it, all.clone()))
        .map(|(it, all)| thread::spawn(move || work(it, writes, &all, time)))
        .collect();
    all.wait();
    println!("ready");
    io::stdin()
        .read_line(&mut String::new())
        .map_err(|error| error.to_string())?;
    all.wait();
    let mut all = Timed::default();
    for it in threads {
        all.take(it.join().map_err(|_| "a client has died")??);
    }
    Ok(all)
}

fn main() -> ExitCode {
    let words: Vec<_> = env::args().skip(1).collect();
    match run(&words) {
        Ok(timed) => {
            println!("{}", timed.told(words[3].parse().unwrap_or(1)));
            ExitCode::SUCCESS
        }
        Err(why) => {
            eprintln!("{why}");
            ExitCode::FAILURE
        }
    }
}
