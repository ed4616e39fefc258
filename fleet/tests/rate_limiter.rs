//! Tests the example of a rate limiter with three processes over etcd. Shards move under load, and a process is killed.
mod processes;

use durkenzo_fleet::{CallError, Retry, Router};
use processes::{example, until, OwnEtcd, Process, PATIENCE};
use std::collections::BTreeSet;
use std::path::Path;
use std::process::Command;
use std::sync::atomic::{AtomicBool, Ordering};
use std::sync::Arc;
use std::thread;
use std::time::{Duration, Instant};

const SERVERS: u16 = 3;
const CLIENTS: usize = 4;

/// Begins a server of the example. Returns its process and its address.
fn server(program: &Path, etcd: &str, name: u16) -> (Process, String) {
    let name = name.to_string();
    processes::server(
        program,
        &["--etcd", etcd, "--name", &name, "--shards", "12"],
    )
}

/// How many calls were answered, how many may have been made, and why the others weren't made.
#[derive(Debug, Default)]
struct Tally {
    answered: usize,
    unsure: usize,
    not_made: Vec<String>,
}

/// Calls until it must stop.
fn client(number: usize, router: &Router, stops: &AtomicBool) -> Tally {
    let mut tally = Tally::default();
    for turn in 0.. {
        if stops.load(Ordering::SeqCst) {
            break;
        }
        let customer = format!("customer-{number}-{}", turn % 40).into_bytes();
        match router.call(&customer, &customer, Retry::Until(PATIENCE)) {
            Ok(_) => tally.answered += 1,
            Err(CallError::Unsure(_)) => tally.unsure += 1,
            Err(CallError::NotMade(why)) => tally.not_made.push(why),
        }
        thread::sleep(Duration::from_millis(1));
    }
    tally
}

/// Calls with these routers while the work is done. Returns the outcomes of the calls.
fn under_load(routers: &[Arc<Router>], work: impl FnOnce()) -> Tally {
    let stops = Arc::<AtomicBool>::default();
    let clients: Vec<_> = (0..CLIENTS)
        .map(|number| {
            let (router, stops) = (routers[number % routers.len()].clone(), stops.clone());
            thread::spawn(move || client(number, &router, &stops))
        })
        .collect();
    work();
    stops.store(true, Ordering::SeqCst);
    clients.into_iter().fold(Tally::default(), |mut all, it| {
        let tally = it.join().unwrap();
        all.answered += tally.answered;
        all.unsure += tally.unsure;
        all.not_made.extend(tally.not_made);
        all
    })
}

/// Moves shards from server to server for a while.
fn migrate(router: &Router) {
    let end = Instant::now() + Duration::from_secs(2);
    for turn in (0..).take_while(|_| Instant::now() < end) {
        let [shard, to] = [turn % 12, turn % usize::from(SERVERS) + 1].map(|it| it.to_string());
        let told = router.command(&["MIGRATE", &shard, &to], PATIENCE);
        // The shard may be there already.
        let is_there = |refusal: &String| refusal.contains("SameServer");
        assert!(told.as_ref().err().is_none_or(is_there), "{told:?}");
        thread::sleep(Duration::from_millis(20));
    }
}

/// Asks the process to end, and waits until it has ended.
fn stop(mut process: Process) {
    let id = process.0.id().to_string();
    let asked = Command::new("kill").args(["-TERM", &id]).status();
    assert!(asked.unwrap().success() && process.0.wait().unwrap().success());
}

/// Returns the servers that own shards.
fn owned(router: &Router) -> BTreeSet<u16> {
    let lines = router.command(&["SHARDS"], PATIENCE).unwrap_or_default();
    let owners = lines.iter().skip(1).filter_map(|it| it.split(' ').nth(2));
    owners.filter_map(|it| it.parse().ok()).collect()
}

#[test]
fn shards_move_under_load_and_a_killed_process_leaves_only_unsure_calls() {
    let Some(etcd) = OwnEtcd::begin() else {
        return println!("etcd isn't installed, so nothing was tried");
    };
    let store = etcd.store();
    let program = example("rate_limiter");
    let mut servers: Vec<_> = (1..=SERVERS)
        .map(|it| server(&program, &etcd.url, it))
        .collect();
    let watching = Arc::new(Router::watch(&*store).unwrap());
    let asked = || {
        watching
            .call(b"first", b"first", Retry::Once(PATIENCE))
            .is_ok()
    };
    until("a call is answered", asked);
    let asking = Arc::new(Router::of(&format!("http://{}/", servers[0].1)).unwrap());
    let routers = [watching.clone(), asking];

    let tally = under_load(&routers, || migrate(&watching));
    assert!(tally.answered > 50, "{tally:?}");
    assert!(tally.unsure == 0 && tally.not_made.is_empty(), "{tally:?}");

    let tally = under_load(&routers, || stop(servers.remove(1).0));
    assert!(tally.answered > 50, "{tally:?}");
    assert!(tally.unsure == 0 && tally.not_made.is_empty(), "{tally:?}");
    servers.push(server(&program, &etcd.url, 2));
    let is_back = || owned(&watching).contains(&2);
    until("the server that was stopped has its shards again", is_back);

    let tally = under_load(&routers, || {
        thread::sleep(Duration::from_millis(200));
        drop(servers.remove(1));
        let is_gone = || !owned(&watching).contains(&3) && !owned(&watching).is_empty();
        until("the others own all shards", is_gone);
    });
    assert!(tally.answered > 50 && tally.unsure <= CLIENTS, "{tally:?}");
    assert!(tally.not_made.is_empty(), "{tally:?}");
}
