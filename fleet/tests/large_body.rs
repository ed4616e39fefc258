//! Tests the example of pages with two processes over etcd. A large body moves in pieces while it is called.
mod processes;

use durkenzo_fleet::{Retry, Router};
use processes::{example, server, until, OwnEtcd, Process, PATIENCE};
use std::fs;
use std::sync::atomic::{AtomicBool, AtomicU64, Ordering};
use std::thread;
use std::time::Duration;

const PAGES: u64 = 64 << 10;
/// The most KiB that a process may use besides the pages: 64 MiB.
const BESIDE: u64 = 64 << 10;
const CLIENTS: u64 = 4;
/// The longest time for a migration, on a machine that may be busy.
const LONG: Duration = Duration::from_secs(120);

/// The results that clients see.
#[derive(Default)]
struct Seen {
    stops: AtomicBool,
    /// How many calls each server answered.
    answered: [AtomicU64; 2],
}

/// Counts at pages of its own until it must stop. Returns the wrong answers.
fn client(number: u64, router: &Router, seen: &Seen) -> Vec<String> {
    let (mut wrong, own) = (Vec::new(), PAGES / CLIENTS);
    for turn in 0.. {
        if seen.stops.load(Ordering::SeqCst) {
            break;
        }
        // The steps are a prime number, so they reach each page before any page comes again.
        let page = number * own + turn * 7919 % own;
        match router.call(b"", &page.to_be_bytes(), Retry::Until(PATIENCE)) {
            Ok(answer) if answer.bytes == (turn / own + 1).to_be_bytes() => {
                let by = usize::from(answer.server) - 1;
                seen.answered[by].fetch_add(1, Ordering::SeqCst);
            }
            other => wrong.push(format!("page {page}: {other:?}")),
        }
        thread::sleep(Duration::from_micros(300));
    }
    wrong
}

/// Returns the most KiB that the process has had.
fn peak(process: &Process) -> u64 {
    let status = fs::read_to_string(format!("/proc/{}/status", process.0.id())).unwrap();
    let line = status.lines().find_map(|it| it.strip_prefix("VmHWM:"));
    let words = line.unwrap().trim().strip_suffix(" kB");
    words.unwrap().parse().unwrap()
}

/// Fills all pages.
fn fill(router: &Router) {
    let fill = [&b"fill"[..], &PAGES.to_be_bytes()].concat();
    let filled = router.call(b"", &fill, Retry::Until(LONG)).unwrap();
    assert_eq!(filled.bytes, PAGES.to_be_bytes());
}

/// Moves the shard to the second server, as soon as that server is there.
fn migrate(router: &Router) {
    let migrate = || router.command(&["MIGRATE", "0", "2"], LONG).is_ok();
    until("the shard goes to the other server", migrate);
}

#[test]
fn a_large_body_moves_under_load_and_neither_process_has_it_twice() {
    let Some(etcd) = OwnEtcd::begin() else {
        return println!("etcd isn't installed, so nothing was tried");
    };
    let (store, program) = (etcd.store(), example("pages"));
    let begin = |name: &str| {
        let sizes = ["--servers", "2", "--shards", "1"];
        let named = ["--etcd", &etcd.url, "--name", name];
        server(&program, &[&sizes[..], &named[..]].concat()).0
    };
    let owner = begin("1");
    let router = Router::watch(&*store).unwrap();
    fill(&router);
    let next = begin("2");
    let seen = Seen::default();
    let answered = |by: usize| seen.answered[by].load(Ordering::SeqCst);
    let wrong: Vec<_> = thread::scope(|scope| {
        let begin = |number| {
            let (router, seen) = (&router, &seen);
            scope.spawn(move || client(number, router, seen))
        };
        let clients: Vec<_> = (0..CLIENTS).map(begin).collect();
        until("the owner answers", || answered(0) > 500);
        migrate(&router);
        until("the next owner answers", || answered(1) > 500);
        seen.stops.store(true, Ordering::SeqCst);
        clients
            .into_iter()
            .flat_map(|it| it.join().unwrap())
            .collect()
    });
    let [owner, next] = [&owner, &next].map(peak);
    println!(
        "{owner} and {next} KiB, {} and {} calls",
        answered(0),
        answered(1)
    );
    assert!(wrong.is_empty(), "{wrong:?}");
    let most = PAGES * 4 + BESIDE;
    assert!(
        owner <= most && next <= most,
        "{owner} and {next} of {most} KiB"
    );
}
