//! Tests of a fleet with a file of settings. Its capacities, groups and caps must bind, and other settings come in
//! force while it runs.
use crate::{Call, Came, Fault, Fleet, JoinError, Options, Retry, Router, Service, Shard};
use durkenzo_store::{Embedded, Store};
use std::path::PathBuf;
use std::sync::atomic::{AtomicBool, Ordering};
use std::sync::Arc;
use std::time::{Duration, Instant};
use std::{env, fs, process, thread};

/// The longest wait for an event that must come, on a machine that may be busy.
const SOON: Duration = Duration::from_secs(60);
/// Settings of two servers that have room for one shard each.
const LINE: &str = r#"{"version":2,"bounds":["","m"],"servers":[{"id":1,"domain":0,"capacity":1},
    {"id":2,"domain":1,"capacity":1}],"groups":[{"limit":2,"down":2}],"shards":[{"group":0,"load":1,"cap":1},
    {"group":0,"load":1,"cap":1}],"ops":1,"kept":9,"ceiling":1000,"workers":1,"domains":[{"domain":0,"down":1},
    {"domain":1,"down":1}]}"#;

/// Answers each request with its own bytes.
struct Echo;

impl Service for Echo {
    type Body = ();

    fn add(&self, _: Shard, _: Came<'_>) -> Result<(), Fault> {
        Ok(())
    }

    fn answer(&self, _: &mut (), call: Call<'_>) -> Vec<u8> {
        call.request().to_vec()
    }

    fn hand_over(&self, _: &mut ()) -> Vec<u8> {
        Vec::new()
    }
}

/// Fails to add a shard for as long as this is set.
struct Unready(Arc<AtomicBool>);

impl Service for Unready {
    type Body = ();

    fn add(&self, _: Shard, _: Came<'_>) -> Result<(), Fault> {
        match self.0.load(Ordering::Relaxed) {
            true => Err("the database is away".into()),
            false => Ok(()),
        }
    }

    fn answer(&self, _: &mut (), call: Call<'_>) -> Vec<u8> {
        call.request().to_vec()
    }

    fn hand_over(&self, _: &mut ()) -> Vec<u8> {
        Vec::new()
    }
}

/// A file with settings, which is removed after the test.
struct SettingsFile(PathBuf);

impl SettingsFile {
    fn of(name: &str, line: &str) -> SettingsFile {
        let file = format!("durkenzo-settings-{name}-{}", process::id());
        let file = env::temp_dir().join(file);
        fs::write(&file, line).unwrap();
        SettingsFile(file)
    }

    fn join(&self, server: u16, store: &Arc<dyn Store>) -> Result<Fleet<Echo>, JoinError> {
        let (server, file) = (server.to_string(), self.0.display().to_string());
        let words = [
            "fleet",
            "--name",
            &server,
            "--settings",
            &file,
            "--lease",
            "60",
        ];
        let options = <Options as clap::Parser>::parse_from(words);
        Fleet::join_over(Echo, options, store.clone())
    }

    /// Returns the processes of both servers, as soon as each shard has an owner.
    fn fleets(&self, store: &Arc<dyn Store>) -> [Fleet<Echo>; 2] {
        let fleets = [1, 2].map(|it| self.join(it, store).unwrap());
        let end = Instant::now() + SOON;
        let owner = |shard| fleets[0].inner.durable.standing(shard)?.record()?.owner();
        while !(0..2).all(|it| owner(it).is_some()) {
            assert!(Instant::now() < end, "the shards never have owners");
            thread::sleep(Duration::from_millis(5));
        }
        fleets
    }
}

impl Drop for SettingsFile {
    fn drop(&mut self) {
        let _ = fs::remove_file(&self.0);
    }
}

fn store() -> Arc<dyn Store> {
    Arc::new(Embedded::in_memory())
}

#[test]
fn each_cap_and_capacity_of_a_file_binds() {
    for (name, from, to, refusal) in [
        ("global", "\"ops\":1", "\"ops\":0", "GlobalCap"),
        (
            "domain",
            "\"domain\":0,\"down\":1",
            "\"domain\":0,\"down\":0",
            "DomainCap",
        ),
        (
            "group",
            "\"limit\":2,\"down\":2",
            "\"limit\":2,\"down\":0",
            "GroupCap",
        ),
        ("shard", "\"cap\":1", "\"cap\":0", "ShardCap"),
    ] {
        let file = SettingsFile::of(name, &LINE.replace(from, to));
        let fleets = file.fleets(&store());
        let told = fleets[0].command(&["RESTART", "1"]).unwrap_err();
        assert!(told.contains(refusal), "{name}: {told}");
    }
    let file = SettingsFile::of("capacity", LINE);
    let fleets = file.fleets(&store());
    let owner = fleets[0]
        .inner
        .durable
        .standing(0)
        .unwrap()
        .record()
        .unwrap()
        .owner();
    let other = if owner == Some(1) { "2" } else { "1" };
    let told = fleets[0].command(&["MIGRATE", "0", other]).unwrap_err();
    assert!(told.contains("NoCapacity"), "{told}");
}

#[test]
fn a_process_with_other_shards_is_refused_and_with_other_capacities_goes_by_those_in_force() {
    let (store, file) = (store(), SettingsFile::of("first", LINE));
    let first = file.join(1, &store).unwrap();
    let other = SettingsFile::of("other", &LINE.replace("\"capacity\":1}", "\"capacity\":7}"));
    let second = other.join(2, &store).unwrap();
    assert_eq!(first.inner.settings, second.inner.settings);
    drop(second);
    for (name, from, to, told) in [
        (
            "bounds",
            "\"m\"",
            "\"n\"",
            "bounds[1]: \"m\" there, \"n\" here",
        ),
        (
            "ceiling",
            ":1000",
            ":1001",
            "ceiling: 1000 there, 1001 here",
        ),
    ] {
        let other = SettingsFile::of(name, &LINE.replace(from, to));
        let refused = other.join(2, &store).map(drop).unwrap_err();
        assert!(matches!(refused, JoinError::OtherSettings(_)), "{refused}");
        let why = refused.to_string();
        assert!(
            why.starts_with("OTHERSETTINGS") && why.contains(told),
            "{why}"
        );
    }
    let broken = SettingsFile::of("broken", &LINE.replace("\"ops\":1", "\"ops\":4096"));
    let refused = broken.join(2, &store).map(drop).unwrap_err();
    assert!(refused.to_string().ends_with("BadOps"), "{refused}");
    let refused = file.join(3, &store).map(drop).unwrap_err();
    assert!(matches!(refused, JoinError::NotNamed(3)), "{refused}");
    assert!(refused.to_string().contains("RESIZE 3"), "{refused}");
    // No settings are in force here that say whether there is such a server.
    let refused = file.join(3, &self::store()).map(drop).unwrap_err();
    assert!(
        matches!(
            refused,
            JoinError::NotFirst {
                server: 3,
                servers: 2
            }
        ),
        "{refused}"
    );
    // The server has a row in its own settings, but not in the settings in force.
    let more = SettingsFile::of("more", &line(&[1, 2, 3], 1));
    let refused = more.join(3, &store).map(drop).unwrap_err();
    assert!(matches!(refused, JoinError::NotNamed(3)), "{refused}");
}

/// Returns settings of these servers. Each server has room for this many of two shards.
fn line(servers: &[u16], capacity: u16) -> String {
    let of_each = |row: &dyn Fn(u16) -> String| {
        let rows: Vec<String> = servers.iter().map(|it| row(*it)).collect();
        rows.join(",")
    };
    let rows = of_each(&|it| format!("{{\"id\":{it},\"domain\":{it},\"capacity\":{capacity}}}"));
    let domains = of_each(&|it| format!("{{\"domain\":{it},\"down\":1}}"));
    let each = r#"{"group":0,"load":1,"cap":1}"#;
    format!(
        r#"{{"version":2,"bounds":["","m"],"servers":[{rows}],"groups":[{{"limit":2,"down":2}}],
        "shards":[{each},{each}],"ops":1,"kept":9,"ceiling":1000,"workers":1,"domains":[{domains}]}}"#
    )
}

/// Gives the fleet a command, again and again until it is done.
fn until_done(fleet: &Fleet<Echo>, words: &[&str]) -> Vec<String> {
    let end = Instant::now() + SOON;
    loop {
        match fleet.command(words) {
            Ok(lines) => return lines,
            Err(why) => assert!(Instant::now() < end, "{words:?}: {why}"),
        }
        thread::sleep(Duration::from_millis(20));
    }
}

/// Checks that the fleet refuses these settings for this reason.
fn refused(fleet: &Fleet<Echo>, line: &str, why: &str) {
    let told = fleet.command(&["CONFIGURE", line]).unwrap_err();
    assert!(
        told.starts_with("REFUSED ") && told.contains(why),
        "{why}: {told}"
    );
}

/// Checks that these settings are in force, and returns their number.
fn number(fleet: &Fleet<Echo>, line: &str) -> u64 {
    let told = until_done(fleet, &["CONFIGURE"]);
    let [found, number] = &told[..] else {
        panic!("{told:?}")
    };
    assert_eq!(*found, line.replace('\n', " "));
    number.strip_prefix("number ").unwrap().parse().unwrap()
}

/// Returns the server that answers for the shard of this key.
fn answers(store: &Arc<dyn Store>, key: &[u8]) -> u16 {
    let router = Router::watch(&**store).unwrap();
    router.call(key, key, Retry::Until(SOON)).unwrap().server
}

#[test]
fn a_server_is_added_and_another_one_taken_out_while_a_fleet_runs() {
    let (store, three) = (store(), line(&[1, 2, 3], 2));
    let (old, new) = (
        SettingsFile::of("three", &three),
        SettingsFile::of("four", &line(&[1, 2, 3, 4], 2)),
    );
    let fleets = [1, 2, 3].map(|it| old.join(it, &store).unwrap());
    let first = number(&fleets[0], &three);
    let refused_join = new.join(4, &store).map(drop).unwrap_err();
    assert!(
        matches!(refused_join, JoinError::NotNamed(4)),
        "{refused_join}"
    );
    let four = line(&[1, 2, 3, 4], 2);
    until_done(&fleets[1], &["CONFIGURE", &four]);
    let second = number(&fleets[2], &four);
    assert!(second > first);
    // If the settings in force are given again, nothing changes.
    until_done(&fleets[0], &["CONFIGURE", &four]);
    assert_eq!(number(&fleets[0], &four), second);
    let fourth = new.join(4, &store).unwrap();
    for shard in ["0", "1"] {
        until_done(&fleets[0], &["MIGRATE", shard, "4"]);
    }
    assert_eq!([b"a", b"z"].map(|it| answers(&store, it)), [4, 4]);
    // A server can't be taken out if it has shards, or if it is there.
    refused(&fleets[0], &three, "stand beyond");
    for shard in ["0", "1"] {
        until_done(&fleets[0], &["MIGRATE", shard, "2"]);
    }
    refused(&fleets[0], &three, "server 4 is in use");
    fourth.stop(SOON);
    until_done(&fleets[0], &["CONFIGURE", &three]);
    let gone = new.join(4, &store).map(drop).unwrap_err();
    assert!(matches!(gone, JoinError::NotNamed(4)), "{gone}");
    assert_eq!([b"a", b"z"].map(|it| answers(&store, it)), [2, 2]);
}

#[test]
fn the_settings_in_force_say_how_many_servers_there_are() {
    let (store, file) = (store(), SettingsFile::of("resized", &line(&[1, 2], 2)));
    let fleets = file.fleets(&store);
    let is_told = |told: Vec<String>, count: u16| assert_eq!(told, [format!("servers {count}")]);
    is_told(until_done(&fleets[0], &["RESIZE", "3"]), 3);
    // The file of the third server still has two servers.
    let third = file.join(3, &store).unwrap();
    let shards = until_done(&third, &["sm", "shards"]);
    assert_eq!(shards, until_done(&third, &["SHARDS"]));
    let early = third.command(&["RESIZE", "2"]).unwrap_err();
    assert!(early.contains("end its process"), "{early}");
    third.stop(SOON);
    is_told(until_done(&fleets[1], &["SM", "RESIZE", "2"]), 2);
}

#[test]
fn a_process_whose_shards_nobody_takes_leaves_at_once_if_it_is_asked_twice() {
    let (store, file) = (store(), SettingsFile::of("alone", &line(&[1, 2], 2)));
    let alone = file.join(1, &store).unwrap();
    let owner = |shard| alone.inner.durable.standing(shard)?.record()?.owner();
    let end = Instant::now() + SOON;
    while !(0..2).all(|it| owner(it) == Some(1)) {
        assert!(Instant::now() < end, "it doesn't get all shards");
        thread::sleep(Duration::from_millis(5));
    }
    let began = Instant::now();
    thread::scope(|scope| {
        let stops = scope.spawn(|| alone.stop(10 * SOON));
        thread::sleep(Duration::from_secs(2));
        assert!(!stops.is_finished());
        alone.inner.leaves_at_once.store(true, Ordering::Release);
    });
    assert!(began.elapsed() < SOON);
}

#[test]
fn settings_that_break_a_rule_or_change_what_stays_are_refused_by_name() {
    let (store, in_force) = (store(), line(&[1, 2], 2));
    let file = SettingsFile::of("stays", &in_force);
    let fleets = file.fleets(&store);
    let number_before = number(&fleets[0], &in_force);
    for (from, to, name) in [
        ("\"ops\":1", "\"ops\":5000", "BadOps"),
        ("\"ops\":1", "\"oops\":1", "BadShape"),
        ("]}", "", "BadJson"),
        ("\"m\"", "\"n\"", "bounds of shards stay"),
        (":1000", ":1001", "ceiling stays"),
    ] {
        refused(&fleets[1], &in_force.replace(from, to), name);
    }
    for shard in ["0", "1"] {
        let owner = fleets[0].inner.durable.standing(shard.parse().unwrap());
        if owner.and_then(|it| it.record()?.owner()) != Some(1) {
            until_done(&fleets[0], &["MIGRATE", shard, "1"]);
        }
    }
    refused(&fleets[1], &line(&[1, 2], 1), "stand beyond");
    assert_eq!(number(&fleets[0], &in_force), number_before);
}

#[test]
fn a_process_that_was_away_and_the_next_leader_go_by_the_settings_in_force() {
    let (store, before, after) = (store(), line(&[1, 2, 3], 1), line(&[1, 2, 3], 2));
    let file = SettingsFile::of("away", &before);
    let [first, second, third] = [1, 2, 3].map(|it| file.join(it, &store).unwrap());
    number(&first, &before);
    third.leave();
    until_done(&second, &["CONFIGURE", &after]);
    let changed = number(&second, &after);
    let third = file.join(3, &store).unwrap();
    assert!(third.inner.settings.contains("\"capacity\":2"));
    // The process that led leaves, whichever of the two it was.
    first.leave();
    second.leave();
    assert_eq!(number(&third, &after), changed);
    for shard in ["0", "1"] {
        let is_there = || {
            let stored = third.inner.durable.standing(shard.parse().unwrap());
            stored.and_then(|it| it.record()?.owner()) == Some(3)
        };
        let end = Instant::now() + SOON;
        while !is_there() {
            assert!(Instant::now() < end, "it doesn't take shard {shard}");
            thread::sleep(Duration::from_millis(20));
        }
    }
}

/// The caller hears that the service is at fault, and not the previous owner. Once the service adds the shard, the same
/// call is answered.
#[test]
fn a_call_hears_that_the_service_fails_to_add_its_shard() {
    let store: Arc<dyn Store> = Arc::new(Embedded::in_memory());
    let is_unready = Arc::new(AtomicBool::new(true));
    let words = [
        "fleet",
        "--servers",
        "1",
        "--shards",
        "1",
        "--lease",
        "60",
        "--wait",
        "1000",
    ];
    let options = <Options as clap::Parser>::parse_from(words);
    let fleet = Fleet::join_over(Unready(is_unready.clone()), options, store.clone()).unwrap();
    let router = Router::watch(&*store).unwrap();
    let call = |time| router.call(b"key", b"hello", Retry::Until(time));
    let refused = call(Duration::from_secs(3)).unwrap_err();
    let told = format!("{refused:?}");
    assert!(
        told.contains("the call wasn't made: the service fails to add"),
        "{told}"
    );
    is_unready.store(false, Ordering::Relaxed);
    assert_eq!(call(SOON).unwrap().bytes, b"hello");
    drop(fleet);
}
