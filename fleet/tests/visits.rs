//! Tests the example of docs/FLEET.md with three processes over etcd. Its client finds any server that is there. The
//! last processes of a fleet say why they don't end.
mod processes;

use durkenzo_fleet::{EtcdOptions, Retry, Router, Safety};
use processes::{example, server, server_with_stderr, until, OwnEtcd, PATIENCE};
use std::io::{BufRead, BufReader};
use std::path::Path;
use std::process::{Child, ChildStderr, Command, Stdio};
use std::time::Instant;

/// The prefix of the fleet's keys.
const PREFIX: &str = "/visits/";

/// Returns the output of the client, if it is answered.
fn visit(program: &Path, servers: &str) -> Option<String> {
    let mut client = Command::new(program);
    let ran = client.args(["visit", "home", servers]).output().unwrap();
    let told = String::from_utf8_lossy(&ran.stdout).trim_end().to_owned();
    ran.status.success().then_some(told)
}

fn ask_to_end(process: &Child) {
    let id = process.id().to_string();
    let asked = Command::new("kill").args(["-TERM", &id]).status();
    assert!(asked.unwrap().success());
}

/// Waits until a process tells that it waits for others.
fn await_line(stderr: ChildStderr) {
    let lines = BufReader::new(stderr).lines();
    let mut told = lines.map_while(Result::ok);
    assert!(told.any(|it| it.contains("leaves once others have its")));
}

#[test]
fn any_server_answers_and_a_whole_fleet_ends_by_two_signals() {
    let Some(etcd) = OwnEtcd::begin() else {
        return println!("etcd isn't installed, so nothing was tried");
    };
    let store = etcd.store();
    let program = example("visits");
    let options = |name| {
        let words = ["serve", "--etcd", &etcd.url, "--name", name];
        [&words[..], &["--prefix", PREFIX]].concat()
    };
    let (mut first, address) = server(&program, &options("1"));
    let last = ["2", "3"].map(|it| server_with_stderr(&program, &options(it), Stdio::piped()));
    // Nobody listens at the first address.
    let all = ["127.0.0.1:1", &address, &last[0].1, &last[1].1].join(",");
    until("a visit is counted", || visit(&program, &all).is_some());
    let counted = |told: Option<String>| -> Option<u64> { told?.split(' ').next()?.parse().ok() };
    let before = counted(visit(&program, &all)).unwrap();
    // The first server gives its shards away.
    ask_to_end(&first.0);
    assert!(first.0.wait().unwrap().success());
    assert_eq!(counted(visit(&program, &all)), Some(before + 1));
    let access = EtcdOptions {
        prefix: Some(PREFIX.parse().unwrap()),
        ..EtcdOptions::default()
    };
    let watching = Router::watch_etcd(&[&etcd.url], &access, Safety::default()).unwrap();
    let seen = watching.call(b"home", b"home", Retry::Until(PATIENCE));
    assert_eq!(seen.unwrap().bytes, (before + 2).to_string().into_bytes());
    let keys = store.read_keys(b"\0", b"\xff").unwrap();
    let is_own = |it: &Vec<u8>| it.starts_with(PREFIX.as_bytes());
    assert!(!keys.is_empty() && keys.iter().all(is_own), "{keys:?}");
    // The other two can't both give their shards away.
    for (server, _) in &last {
        ask_to_end(&server.0);
    }
    for (mut server, _) in last {
        await_line(server.0.stderr.take().unwrap());
        ask_to_end(&server.0);
        let began = Instant::now();
        assert!(server.0.wait().unwrap().success() && began.elapsed() < PATIENCE);
    }
}
