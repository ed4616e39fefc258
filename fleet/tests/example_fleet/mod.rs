//! A fleet of processes of an example. The tests move its shards.
#![allow(dead_code)]
use crate::processes::{example, server, until, OwnEtcd, Process, PATIENCE};
use durkenzo_fleet::Router;
use std::collections::BTreeSet;
use std::fs;
use std::path::{Path, PathBuf};
use std::sync::Arc;
use std::time::Duration;

pub const SERVERS: u16 = 3;

pub struct ExampleFleet {
    /// Each process, with the address that it prints.
    pub servers: Vec<(Process, String)>,
    pub router: Arc<Router>,
    _etcd: OwnEtcd,
}

impl ExampleFleet {
    /// Begins processes of the example with this variable in their environment, and waits until each of them owns
    /// shards. Returns nothing if etcd isn't installed.
    pub fn begin(name: &str, variable: (&str, &Path)) -> Option<ExampleFleet> {
        let Some(etcd) = OwnEtcd::begin() else {
            println!("etcd isn't installed, so nothing was tried");
            return None;
        };
        let store = etcd.store();
        let servers = (1..=SERVERS).map(|it| begun(name, variable, &etcd.url, it));
        let fleet = ExampleFleet {
            servers: servers.collect(),
            router: Arc::new(Router::watch(&*store).unwrap()),
            _etcd: etcd,
        };
        let are_all_there = || fleet.owners().len() == usize::from(SERVERS);
        until("each server owns shards", are_all_there);
        Some(fleet)
    }

    /// Returns the servers that own shards.
    pub fn owners(&self) -> BTreeSet<u16> {
        self.owner_of_each().into_iter().collect()
    }

    /// Returns the owner of each shard that has one.
    pub fn owner_of_each(&self) -> Vec<u16> {
        // If this fails, the caller asks again, because the process that is asked may be stopped.
        let lines = self.router.command(&["SHARDS"], Duration::from_secs(2));
        let lines = lines.unwrap_or_default();
        let owners = lines.iter().skip(1).filter_map(|it| it.split(' ').nth(2));
        owners.filter_map(|it| it.parse().ok()).collect()
    }

    /// Moves a shard to a server, unless it is there already.
    pub fn migrate(&self, shard: usize, to: u16) {
        let [shard, to] = [shard.to_string(), to.to_string()];
        let told = self.router.command(&["MIGRATE", &shard, &to], PATIENCE);
        let is_there = |refusal: &String| refusal.contains("SameServer");
        assert!(told.as_ref().err().is_none_or(is_there), "{told:?}");
    }
}

/// Begins a server of the example.
fn begun(
    example_name: &str,
    (name, value): (&str, &Path),
    etcd: &str,
    server_name: u16,
) -> (Process, String) {
    let (variable, program) = (format!("{name}={}", value.display()), example(example_name));
    let server_name = server_name.to_string();
    let program = program.to_str().unwrap();
    let words = ["--etcd", etcd, "--name", &server_name, "--shards", "12"];
    // `env` becomes the program.
    server(
        Path::new("env"),
        &[&[&*variable, program], &words[..]].concat(),
    )
}

/// An empty folder, which is removed after the test.
pub struct Folder(pub PathBuf);

impl Folder {
    pub fn new(name: &str) -> Folder {
        let folder = std::env::temp_dir().join(format!("durkenzo-{name}-{}", std::process::id()));
        fs::create_dir_all(&folder).unwrap();
        Folder(folder)
    }
}

impl Drop for Folder {
    fn drop(&mut self) {
        // If the folder can't be removed, it stays among the temporary files.
        let _ = fs::remove_dir_all(&self.0);
    }
}
