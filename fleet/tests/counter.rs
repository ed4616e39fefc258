//! Tests the example of a counter in SQLite. A late process writes nothing, and no count is lost or made twice, even if
//! processes are stopped or killed.
#[allow(dead_code)]
#[path = "../examples/counter.rs"]
mod counter;
mod example_fleet;
mod processes;

use durkenzo_fleet::{CallError, Retry, Router};
use example_fleet::{ExampleFleet, Folder, SERVERS};
use processes::{until, Process, PATIENCE};
use rusqlite::{Connection, TransactionBehavior};
use std::panic::{catch_unwind, resume_unwind, AssertUnwindSafe};
use std::path::Path;
use std::process::Command;
use std::sync::atomic::{AtomicBool, Ordering};
use std::thread;
use std::time::Duration;

const SHARD: u16 = 3;
const CLIENTS: usize = 3;

fn counted(file: &Path, name: &str) -> u64 {
    let connection = counter::open(file).unwrap();
    let read = "SELECT coalesce(max(count), 0) FROM counters WHERE name = ?1";
    connection
        .query_row(read, [name.as_bytes()], |row| row.get(0))
        .unwrap()
}

#[test]
fn a_late_holder_writes_nothing() {
    let folder = Folder::new("fences");
    let file = folder.0.join("counters.sqlite");
    let open = || counter::open(&file).unwrap();
    let (mut earlier, mut later) = (open(), open());
    let count = |by: &mut Connection, fence| counter::count(by, (SHARD, fence), b"visits").unwrap();
    assert_eq!(count(&mut earlier, 7), Some(1));
    assert_eq!(count(&mut later, 9), Some(2));
    assert_eq!(count(&mut earlier, 7), None);
    assert_eq!(counted(&file, "visits"), 2);
    // Each shard has fences of its own. A fence that is the same as the latest one may write too.
    assert_eq!(
        counter::count(&mut earlier, (SHARD + 1, 7), b"others").unwrap(),
        Some(1)
    );
    assert_eq!(count(&mut later, 9), Some(3));
}

#[test]
fn a_late_holder_waits_for_the_later_one_and_then_writes_nothing() {
    let folder = Folder::new("fenced");
    let file = folder.0.join("counters.sqlite");
    let (mut earlier, mut later) = (counter::open(&file).unwrap(), counter::open(&file).unwrap());
    assert_eq!(
        counter::count(&mut earlier, (SHARD, 7), b"visits").unwrap(),
        Some(1)
    );
    let writes = later
        .transaction_with_behavior(TransactionBehavior::Immediate)
        .unwrap();
    assert!(counter::is_latest(&writes, SHARD, 9).unwrap());
    let late = thread::spawn(move || counter::count(&mut earlier, (SHARD, 7), b"visits").unwrap());
    writes.commit().unwrap();
    assert_eq!(late.join().unwrap(), None);
    assert_eq!(counted(&file, "visits"), 1);
}

/// The results that a client saw of its counter. Nobody else counts with it.
#[derive(Debug, Default)]
struct Tally {
    /// The latest count that it was told, and how many calls since then may have been made.
    last: u64,
    unsure: u64,
    answered: usize,
    wrong: Vec<String>,
}

impl Tally {
    fn note(&mut self, told: Result<String, CallError>) {
        let text = match told {
            Ok(text) => text,
            Err(CallError::Unsure(_)) => return self.unsure += 1,
            Err(CallError::NotMade(why)) => return self.wrong.push(why),
        };
        // If there is no count, the call came to a process too late, or waited for too long.
        let Ok(count) = text.parse::<u64>() else {
            return self.unsure += u64::from(text.starts_with("unsure"));
        };
        if !(self.last + 1..=self.last + 1 + self.unsure).contains(&count) {
            self.wrong.push(format!("{count} after {}", self.last));
        }
        (self.last, self.unsure) = (count, 0);
        self.answered += 1;
    }
}

fn client(name: &str, router: &Router, stops: &AtomicBool) -> Tally {
    let mut tally = Tally::default();
    while !stops.load(Ordering::SeqCst) {
        let told = router.call(name.as_bytes(), name.as_bytes(), Retry::Until(PATIENCE));
        tally.note(told.map(|it| String::from_utf8_lossy(&it.bytes).into_owned()));
        thread::sleep(Duration::from_millis(2));
    }
    tally
}

fn signal(process: &Process, signal: &str) {
    let id = process.0.id().to_string();
    let sent = Command::new("kill").args([signal, &id]).status();
    assert!(sent.unwrap().success());
}

/// Moves shards, then stops a process for longer than its lease, and kills another one.
fn disturb(fleet: &mut ExampleFleet) {
    for turn in 0..24 {
        fleet.migrate(turn % 12, turn as u16 % SERVERS + 1);
    }
    let owns = |fleet: &ExampleFleet, it| fleet.owners().is_empty() || fleet.owners().contains(&it);
    signal(&fleet.servers[1].0, "-STOP");
    until("others own what was stopped", || !owns(fleet, 2));
    signal(&fleet.servers[1].0, "-CONT");
    drop(fleet.servers.remove(2));
    until("others own what was killed", || !owns(fleet, SERVERS));
}

#[test]
fn no_count_is_lost_or_made_twice_whatever_becomes_of_processes() {
    let folder = Folder::new("counters");
    let file = folder.0.join("counters.sqlite");
    let Some(mut fleet) = ExampleFleet::begin("counter", ("COUNTERS", &file)) else {
        return;
    };
    let (router, stops) = (fleet.router.clone(), AtomicBool::new(false));
    let names = (0..CLIENTS).map(|it| format!("name-{it}"));
    let tallies = thread::scope(|scope| {
        let (router, stops) = (&router, &stops);
        let clients: Vec<_> = names
            .map(|name| scope.spawn(move || (client(&name, router, stops), name)))
            .collect();
        let disturbed = catch_unwind(AssertUnwindSafe(|| disturb(&mut fleet)));
        // The clients must stop even if the test fails, because it would never end otherwise.
        stops.store(true, Ordering::SeqCst);
        disturbed.unwrap_or_else(|why| resume_unwind(why));
        let tallies = clients.into_iter().map(|it| it.join().unwrap());
        tallies.collect::<Vec<_>>()
    });
    for (tally, name) in tallies {
        assert!(tally.answered > 50 && tally.wrong.is_empty(), "{tally:?}");
        let kept = tally.last..=tally.last + tally.unsure;
        assert!(kept.contains(&counted(&file, &name)), "{tally:?}");
    }
}
