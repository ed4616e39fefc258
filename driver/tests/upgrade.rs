//! The keys of a store of an earlier version are read, in a folder and in etcd, with all their stands.
#[path = "../../store/tests/beside/mod.rs"]
mod beside;
mod common;

use beside::Member;
use common::{held, opened};
use durkenzo_driver::{keys, ControlCommand, Durable, DurableControl, MapReply};
use durkenzo_store::{Embedded, EtcdProtocol, Outcome, Store, Sync, Transaction};
use std::collections::BTreeMap;
use std::fs;
use std::path::{Path, PathBuf};
use std::sync::Arc;

/// Returns the folders of the versions.
fn versions() -> Vec<PathBuf> {
    let fixtures = Path::new(env!("CARGO_MANIFEST_DIR")).join("../server/tests/fixtures");
    let folders = fs::read_dir(fixtures)
        .expect("fixtures")
        .filter_map(|it| Some(it.ok()?.path()));
    folders
        .filter(|it| it.join("etcd.keys").is_file())
        .collect()
}

/// The answers to a client at that time.
#[derive(Debug, Default)]
struct Told {
    /// Each shard's stand, owner, other and generation, as they are written.
    shards: BTreeMap<u16, String>,
    servers: BTreeMap<u16, String>,
    /// The shard and the value of each key.
    values: BTreeMap<String, (u16, Option<Vec<u8>>)>,
}

impl Told {
    fn of(file: &Path) -> Told {
        let mut told = Told::default();
        for line in fs::read_to_string(file).expect("what was told").lines() {
            let (kind, rest) = line.split_once(' ').expect("a kind");
            let (number, rest) = rest.split_once(' ').expect("a number");
            let number = number.parse().expect("a number");
            match kind {
                "shard" => drop(told.shards.insert(number, rest.to_owned())),
                "server" => drop(told.servers.insert(number, rest.to_owned())),
                _ => {
                    let (key, value) = rest.split_once(' ').expect("a key");
                    let value = value.strip_prefix('=').map(bytes_of);
                    told.values.insert(key.to_owned(), (number, value));
                }
            }
        }
        told
    }
}

fn bytes_of(digits: &str) -> Vec<u8> {
    let pairs = digits.as_bytes().chunks(2);
    let digits = pairs.map(|it| std::str::from_utf8(it).expect("digits"));
    digits
        .map(|it| u8::from_str_radix(it, 16).expect("digits"))
        .collect()
}

/// Puts the file's keys into the store, some at once.
fn load(store: &dyn Store, file: &Path) {
    let text = fs::read_to_string(file).expect("keys");
    let lines: Vec<_> = text.lines().collect();
    for some in lines.chunks(16) {
        let transaction = some.iter().fold(Transaction::new(), |all, line| {
            let (key, value) = line.split_once(' ').expect("a value");
            all.put(key, bytes_of(value))
        });
        let made = store.make(transaction);
        assert!(matches!(made, Ok(Outcome::Made(_))), "{made:?}");
    }
}

/// Checks that this version reads the store, with the answers of that time.
fn is_read(store: Arc<dyn Store>, told: &Told) {
    let settings = store.read(&[keys::SETTINGS]).expect("settings");
    let settings = settings
        .get(keys::SETTINGS)
        .expect("settings")
        .value
        .clone();
    let settings = String::from_utf8(settings).expect("settings");
    let line = settings.split_once('\n').expect("a rule and a line").1;
    let durable = Arc::new(opened(&store, told.shards.len() as u16));
    let mut control = DurableControl::lead(durable.clone(), line).expect("a control");
    for (shard, wanted) in &told.shards {
        assert_eq!(&standing(&durable, *shard), wanted, "shard {shard}");
    }
    for (server, wanted) in &told.servers {
        let state = control.state_of(*server).expect("a state");
        assert_eq!(state.name(), wanted, "server {server}");
    }
    for (shard, stood) in &told.shards {
        if stood.starts_with("Paused") {
            control
                .command(ControlCommand::Resume(*shard))
                .expect("a change");
        }
    }
    for (key, (shard, wanted)) in &told.values {
        let reply = held(&durable, *shard, key.as_bytes())
            .expect("a reply")
            .remove(0);
        let found = match reply {
            MapReply::Nothing => None,
            MapReply::Text(text) => Some(text),
            MapReply::Count(count) => Some(count.to_string().into_bytes()),
            other => panic!("{key}: {other:?}"),
        };
        assert_eq!(&found, wanted, "{key}");
    }
    durable.stop();
}

fn standing(durable: &Durable, shard: u16) -> String {
    let record = durable.standing(shard).and_then(|it| it.record());
    let record = record.expect("a record");
    let (owner, other) = (record.owner().unwrap_or(0), record.other().unwrap_or(0));
    format!(
        "{} {owner} {other} {}",
        record.stand.name(),
        record.generation
    )
}

#[test]
fn a_folder_is_read() {
    for version in versions() {
        let folder = std::env::temp_dir().join(format!("durkenzo-upgrade-{}", std::process::id()));
        fs::create_dir_all(&folder).expect("a folder");
        for file in fs::read_dir(version.join("folder")).expect("its folder") {
            let file = file.expect("a file").path();
            fs::copy(&file, folder.join(file.file_name().expect("a name"))).expect("a copy");
        }
        let store = Arc::new(Embedded::in_folder(&folder, Sync::No).expect("a store"));
        is_read(store, &Told::of(&version.join("folder.told")));
        fs::remove_dir_all(folder).expect("its end");
    }
}

#[test]
fn keys_are_read() {
    for version in versions() {
        let store = Embedded::in_memory();
        load(&store, &version.join("etcd.keys"));
        is_read(Arc::new(store), &Told::of(&version.join("folder.told")));
    }
}

/// This test needs etcd.
#[test]
fn keys_on_etcd_are_read() {
    for version in versions() {
        let Some(member) = Member::start(EtcdProtocol::Json, &[]) else {
            return;
        };
        let store = member.store();
        load(&store, &version.join("etcd.keys"));
        is_read(Arc::new(store), &Told::of(&version.join("folder.told")));
    }
}
