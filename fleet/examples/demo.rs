//! The load of `./sm fleet demo`. It calls the rate limiter, does the commands that it reads, one in each line, and
//! prints the state that it sees as lines of JSON.
//!
//! ```console
//! $ demo --etcd http://127.0.0.1:2379
//! MIGRATE 3 2
//! ```
use durkenzo_fleet::{CallError, Options, Retry, Router};
use serde_json::{json, Value};
use std::error::Error;
use std::io::{self, BufRead, Write};
use std::sync::atomic::{AtomicU64, Ordering};
use std::sync::{Arc, Mutex, PoisonError};
use std::thread;
use std::time::Duration;

const CLIENTS: u64 = 8;
const CUSTOMERS: u64 = 1_000;
/// How long a client rests after a call, and how long a call or a command that was read is tried.
const REST: Duration = Duration::from_millis(2);
const PATIENCE: Duration = Duration::from_secs(10);
/// How often the state is printed, and how long the control may take to tell a table.
const LOOK: Duration = Duration::from_millis(250);
const WITHIN: Duration = Duration::from_secs(5);

/// The outcomes of calls.
#[derive(Default)]
struct Counts {
    answered: AtomicU64,
    forwarded: AtomicU64,
    unsure: AtomicU64,
    refused: AtomicU64,
}

impl Counts {
    fn call(&self, router: &Router, customer: &[u8]) {
        let count = match router.call(customer, customer, Retry::Until(PATIENCE)) {
            Ok(answer) if answer.hops > 0 => {
                self.answered.fetch_add(1, Ordering::Relaxed);
                &self.forwarded
            }
            Ok(_) => &self.answered,
            Err(CallError::Unsure(_)) => &self.unsure,
            Err(CallError::NotMade(_)) => &self.refused,
        };
        count.fetch_add(1, Ordering::Relaxed);
    }

    fn told(&self) -> Value {
        let [answered, forwarded, unsure, refused] =
            [&self.answered, &self.forwarded, &self.unsure, &self.refused]
                .map(|it| it.load(Ordering::Relaxed));
        json!({"answered": answered, "forwarded": forwarded, "unsure": unsure, "refused": refused})
    }
}

/// Returns the rows of a table that the control tells, without its head. Returns nothing if the control doesn't answer.
fn rows(router: &Router, word: &str) -> Option<Vec<Vec<String>>> {
    let lines = router.command(&[word], WITHIN).ok()?;
    let words = |line: &String| line.split(' ').map(str::to_owned).collect();
    Some(lines.iter().skip(1).map(words).collect())
}

fn main() -> Result<(), Box<dyn Error>> {
    let router = Arc::new(Router::watch(&*Options::parse().store()?)?);
    let (counts, told) = (Arc::<Counts>::default(), Arc::<Mutex<String>>::default());
    for client in 0..CLIENTS {
        let (router, counts) = (router.clone(), counts.clone());
        thread::spawn(move || {
            for turn in 0.. {
                let customer = format!("customer-{}", (client + turn * CLIENTS) % CUSTOMERS);
                counts.call(&router, customer.as_bytes());
                thread::sleep(REST);
            }
        });
    }
    let (tables, latest) = (router.clone(), told.clone());
    thread::spawn(move || loop {
        let told = latest
            .lock()
            .unwrap_or_else(PoisonError::into_inner)
            .clone();
        let (shards, servers) = (rows(&tables, "SHARDS"), rows(&tables, "SERVERS"));
        let seen =
            json!({"calls": counts.told(), "told": told, "shards": shards, "servers": servers});
        // If nobody reads this, the program that began it has ended.
        if writeln!(io::stdout(), "{seen}").is_err() {
            std::process::exit(0);
        }
        thread::sleep(LOOK);
    });
    for line in io::stdin().lock().lines() {
        let line = line?;
        let words: Vec<&str> = line.split_whitespace().collect();
        let answer = match router.command(&words, PATIENCE) {
            Ok(lines) => format!("{line}: done {}", lines.join(", ")),
            Err(why) => format!("{line}: {why}"),
        };
        *told.lock().unwrap_or_else(PoisonError::into_inner) = answer;
    }
    Ok(())
}
