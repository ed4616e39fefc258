//! The content of a folder, also after a process was killed, and the folders that are refused.
mod beside;

use beside::{Chance, Folder};
use durkenzo_store::{
    Embedded, OpenError, Outcome, ReadError, Store, Sync, Transaction, WriteError,
};
use std::env;
use std::fs;
use std::io::{BufRead, BufReader, Write};
use std::path::Path;
use std::process::{Command, Stdio};
use std::thread;
use std::time::Duration;

/// How often a process is killed by default.
const KILLED: u64 = 20;

fn file(folder: &Folder) -> std::path::PathBuf {
    folder.path().join("durkenzo.sqlite")
}

#[test]
fn keeps_what_was_made() {
    let folder = Folder::new();
    let Outcome::Made(first) = folder
        .open()
        .make(Transaction::new().put("a", "1"))
        .expect("made")
    else {
        panic!()
    };
    let store = folder.open();
    let reading = store.read(&[b"a"]).expect("a reading");
    assert_eq!(
        (reading.revision, &reading.pairs[0].value[..]),
        (first, &b"1"[..])
    );
    let again = store
        .make(Transaction::new().compare("a", first).put("a", "2"))
        .expect("made");
    assert!(matches!(again, Outcome::Made(second) if second > first));
}

#[test]
fn forgets_keys_under_leases() {
    let folder = Folder::new();
    let store = folder.open();
    let lease = store.grant(Duration::from_secs(60)).expect("a lease");
    store
        .make(
            Transaction::new()
                .put_under("a", "1", Some(lease))
                .put("b", "2"),
        )
        .expect("made");
    let before = store.read(&[]).expect("a moment").revision;
    drop(store);
    let reading = folder.open().read(&[b"a", b"b"]).expect("a reading");
    assert_eq!(reading.pairs.len(), 1);
    assert!(reading.revision > before);
}

#[test]
fn has_one_process_at_a_time() {
    let folder = Folder::new();
    let store = folder.open();
    let second = Embedded::in_folder(folder.path(), Sync::Always);
    assert!(matches!(second, Err(OpenError::InUse(_))), "{second:?}");
    drop(store);
    folder.open();
}

#[test]
fn refuses_what_is_not_its_own() {
    let folder = Folder::new();
    fs::write(
        file(&folder),
        b"this is a text, and no file of SQLite, of some length, so that it could be one",
    )
    .expect("it");
    let opened = Embedded::in_folder(folder.path(), Sync::Always);
    assert!(matches!(opened, Err(OpenError::Foreign(_))), "{opened:?}");

    let other = Folder::new();
    let database = rusqlite::Connection::open(file(&other)).expect("a file");
    database
        .execute_batch("CREATE TABLE theirs (it)")
        .expect("a table");
    drop(database);
    let bytes = fs::read(file(&other)).expect("a file");
    let opened = Embedded::in_folder(other.path(), Sync::Always);
    assert!(matches!(opened, Err(OpenError::Foreign(_))), "{opened:?}");
    assert_eq!(fs::read(file(&other)).expect("a file"), bytes);
}

#[test]
fn refuses_another_version() {
    let folder = Folder::new();
    drop(folder.open());
    rusqlite::Connection::open(file(&folder))
        .expect("it")
        .execute_batch("PRAGMA user_version = 7")
        .expect("it");
    let opened = Embedded::in_folder(folder.path(), Sync::Always);
    assert!(
        matches!(
            opened,
            Err(OpenError::OtherVersion {
                found: 7,
                known: 3,
                ..
            })
        ),
        "{opened:?}"
    );
}

#[test]
fn refuses_a_torn_file() {
    let folder = Folder::new();
    let store = folder.open();
    for at in 0..200 {
        store
            .make(Transaction::new().put(format!("key/{at}"), vec![7; 2_000]))
            .expect("made");
    }
    drop(store);
    let bytes = fs::read(file(&folder)).expect("it");
    fs::write(file(&folder), &bytes[..bytes.len() / 2]).expect("it");
    let opened = Embedded::in_folder(folder.path(), Sync::Always);
    assert!(matches!(opened, Err(OpenError::Damaged(..))), "{opened:?}");
}

/// A file of the first version keeps its keys, and gets checksums with new writes.
#[test]
fn reads_the_version_without_checksums() {
    let folder = Folder::new();
    let file = rusqlite::Connection::open(file(&folder)).expect("it");
    let words = "
        CREATE TABLE pairs (
            key BLOB PRIMARY KEY NOT NULL, value BLOB NOT NULL, revision INTEGER NOT NULL, lease INTEGER
        );
        CREATE INDEX leased ON pairs (lease) WHERE lease IS NOT NULL;
        CREATE TABLE moment (revision INTEGER NOT NULL);
        INSERT INTO moment VALUES (5);
        INSERT INTO pairs VALUES (CAST('a' AS BLOB), CAST('1' AS BLOB), 3, NULL);
        INSERT INTO pairs VALUES (CAST('b' AS BLOB), CAST('2' AS BLOB), 5, NULL);
        PRAGMA application_id = 1148547691;
        PRAGMA user_version = 1;
    ";
    file.execute_batch(words).expect("it");
    drop(file);
    let store = folder.open();
    store.make(Transaction::new().put("b", "3")).expect("made");
    drop(store);
    let store = folder.open();
    let reading = store.read(&[b"a", b"b"]).expect("a reading");
    let told = reading
        .pairs
        .iter()
        .map(|it| (&it.value[..], it.revision.0));
    assert_eq!(told.collect::<Vec<_>>(), [(&b"1"[..], 3), (b"3", 6)]);
    assert_eq!(reading.revision.0, 6);
}

/// The writes of a killed process may be in memory only. Once they are read, they are in the tables, which are synced.
#[test]
fn what_a_killed_process_wrote_is_on_the_disk_before_it_is_read() {
    let (folder, copy) = (Folder::new(), Folder::new());
    let store = folder.open();
    store.make(Transaction::new().put("a", "1")).expect("made");
    let log = |it: &Folder| it.path().join("durkenzo.sqlite-wal");
    fs::copy(file(&folder), file(&copy)).expect("a copy");
    let length = fs::copy(log(&folder), log(&copy)).expect("a copy");
    assert!(length > 0, "the first store has it in the log");
    let store = copy.open();
    assert_eq!(fs::metadata(log(&copy)).expect("a log").len(), 0);
    assert_eq!(store.read(&[b"a"]).expect("a reading").pairs.len(), 1);
}

/// A file of the version whose rows don't say when their keys were created.
#[test]
fn dates_the_keys_of_an_earlier_version() {
    let folder = Folder::new();
    drop(folder.open());
    let earlier = rusqlite::Connection::open(file(&folder)).expect("it");
    let words = "
        ALTER TABLE pairs DROP COLUMN created;
        ALTER TABLE pairs DROP COLUMN created_checksum;
        UPDATE moment SET revision = 5, checksum = NULL;
        INSERT INTO pairs VALUES (CAST('a' AS BLOB), CAST('1' AS BLOB), 3, NULL, NULL);
        PRAGMA user_version = 2;
    ";
    earlier.execute_batch(words).expect("it");
    drop(earlier);
    let store = folder.open();
    let created = || {
        let reading = store.read(&[b"a", b"b"]).expect("a reading");
        let told = reading.pairs.iter().map(|it| it.created.0);
        told.collect::<Vec<_>>()
    };
    assert_eq!(created(), [1]);
    let put = |key| store.make(Transaction::new().put(key, "3")).expect("made");
    for key in ["a", "b", "b"] {
        put(key);
    }
    assert_eq!(created(), [1, 7]);
    store.make(Transaction::new().delete("a")).expect("made");
    put("a");
    assert_eq!(created(), [10, 7]);
}

/// If one bit of the file is flipped, it isn't opened, or each reading is right or refused.
#[test]
fn gives_no_bytes_that_were_changed() {
    let folder = Folder::new();
    let store = folder.open();
    for at in 0..40 {
        let value = vec![at; 100 + 150 * usize::from(at % 9)];
        let put = Transaction::new().put(format!("key/{at:02}"), value);
        store.make(put).expect("made");
    }
    let right = store.read_all(b"").expect("a reading");
    drop(store);
    let (whole, mut chance) = (fs::read(file(&folder)).expect("it"), Chance(5));
    let (mut damaged, mut closed) = (0, 0);
    for _ in 0..400 {
        let mut bytes = whole.clone();
        let place = chance.below(whole.len() as u64) as usize;
        bytes[place] ^= 1 << chance.below(8);
        fs::write(file(&folder), bytes).expect("it");
        let Ok(store) = Embedded::in_folder(folder.path(), Sync::No) else {
            closed += 1;
            continue;
        };
        for it in &right.pairs {
            match store.read(&[&it.key]) {
                Ok(reading) => {
                    assert_eq!(reading.pairs, std::slice::from_ref(it), "byte {place}");
                }
                Err(ReadError::Damaged(why)) => {
                    let key = String::from_utf8_lossy(&it.key);
                    assert!(why.contains(&*key), "{why}");
                    damaged += 1;
                }
                Err(error) => panic!("byte {place}: {error}"),
            }
        }
    }
    assert!(damaged > 50 && closed > 0, "{damaged} and {closed}");
}

/// Each way to read a changed row is refused, and all other rows can be read and written.
#[test]
fn refuses_only_what_was_changed() {
    let folder = Folder::new();
    let store = folder.open();
    for key in ["a/1", "a/2", "b/1"] {
        store.make(Transaction::new().put(key, "it")).expect("made");
    }
    drop(store);
    let words = "UPDATE pairs SET value = CAST('at' AS BLOB) WHERE key = CAST('a/2' AS BLOB)";
    let file = rusqlite::Connection::open(file(&folder)).expect("it");
    file.execute_batch(words).expect("it");
    drop(file);
    let store = folder.open();
    let is_damaged = |it: Result<_, ReadError>| matches!(it, Err(ReadError::Damaged(_)));
    assert!(is_damaged(store.read(&[b"a/1", b"a/2"])));
    assert!(is_damaged(store.read_all(b"a/")));
    assert!(is_damaged(store.read_range(b"a/", b"c", 9)));
    assert_eq!(store.read_all(b"b/").expect("a reading").pairs.len(), 1);
    assert_eq!(store.read_keys(b"a/", b"c").expect("keys").len(), 3);
    let lost = Transaction::new().compare("b/1", durkenzo_store::Revision::NEVER);
    let refused = store.make(lost.or_read("a/2"));
    assert!(
        matches!(refused, Err(WriteError::Damaged(_))),
        "{refused:?}"
    );
    store
        .make(Transaction::new().put("a/2", "it"))
        .expect("made");
    assert_eq!(store.read_all(b"a/").expect("a reading").pairs.len(), 2);
}

/// Mounts a file system of so many megabytes, if that is possible.
fn on_a_disk_of(megabytes: u64, body: impl FnOnce(&Path) + std::panic::UnwindSafe) {
    let folder = Folder::new();
    let mount = Command::new("mount")
        .args(["-t", "tmpfs", "-o", &format!("size={megabytes}m"), "none"])
        .arg(folder.path())
        .output();
    if !mount.is_ok_and(|it| it.status.success()) {
        eprintln!("nothing can be mounted here: no disk is full");
        return;
    }
    let ended = std::panic::catch_unwind(|| body(folder.path()));
    let _ = Command::new("umount").arg(folder.path()).output();
    ended.expect("the disk was full as it should be");
}

/// Writes until the disk is full, and returns how many keys were written.
fn fill(store: &Embedded) -> usize {
    let refused = (0..1_000).find_map(|at| {
        let outcome = store.make(Transaction::new().put(format!("key/{at}"), vec![7; 50_000]));
        outcome.err().map(|error| (at, error))
    });
    let Some((at, WriteError::Full(_))) = refused else {
        panic!("{refused:?}")
    };
    assert!(at > 2);
    at
}

#[test]
fn reads_go_on_where_the_disk_is_full() {
    on_a_disk_of(1, reads_go_on);
}

/// On a full disk, deletions and other writes that may use the reserve are made. Then there is room again.
#[test]
fn a_full_disk_has_room_for_deletions() {
    for megabytes in [1, 6] {
        on_a_disk_of(megabytes, deletions_go_on);
    }
}

fn deletions_go_on(folder: &Path) {
    let store = Embedded::in_folder(folder, Sync::Always).expect("a folder of our own");
    let count = fill(&store);
    // As many as are asked for are made, again and again.
    for it in 0..200 {
        let small = Transaction::new().put("number", it.to_string());
        store
            .make(small.with_kept_room())
            .expect("made by kept room");
        let large = Transaction::new().put("large", vec![7; 50_000]);
        let refused = store.make(large);
        assert!(matches!(refused, Err(WriteError::Full(_))), "{refused:?}");
    }
    // Writes that may use the reserve can't use it up.
    let taken = (0..1_000).find(|it| {
        let large = Transaction::new().put(format!("more/{it}"), vec![7; 50_000]);
        store.make(large.with_kept_room()).is_err()
    });
    assert!(taken.is_some_and(|it| it > 0), "{taken:?}");
    for it in 0..count {
        let delete = Transaction::new().delete(format!("key/{it}"));
        store.make(delete).expect("deleted on a full disk");
    }
    for it in 0..count / 2 {
        let put = Transaction::new().put(format!("again/{it}"), vec![7; 50_000]);
        store.make(put).expect("there is room again");
    }
    store.compact().expect("compacted");
    assert_eq!(
        store.read_all(b"again/").expect("a reading").pairs.len(),
        count / 2
    );
    drop(store);
    let store = Embedded::in_folder(folder, Sync::Always).expect("a folder of our own");
    assert!(fill(&store) > count / 4);
}

fn reads_go_on(folder: &Path) {
    let store = Embedded::in_folder(folder, Sync::Always).expect("a folder of our own");
    let at = fill(&store);
    assert_eq!(store.read_all(b"key/").expect("a reading").pairs.len(), at);
    let compares = Transaction::new().compare("nowhere", durkenzo_store::Revision::NEVER);
    assert!(matches!(store.make(compares), Ok(Outcome::Made(_))));
    drop(store);
    let store = Embedded::in_folder(folder, Sync::Always).expect("a folder of our own");
    assert_eq!(store.read_all(b"key/").expect("a reading").pairs.len(), at);
}

/// The process that is killed: four threads increment a counter each, and tell the outcomes.
#[test]
#[ignore = "run by the test below"]
fn writes_until_it_is_killed() {
    let Some(folder) = env::var_os("DURKENZO_KILLED") else {
        return;
    };
    let sync = env::var("DURKENZO_SYNC")
        .ok()
        .and_then(|it| it.parse().ok())
        .expect("always, second or no");
    let store = Embedded::in_folder(Path::new(&folder), sync).expect("a folder of our own");
    thread::scope(|threads| {
        for thread in 0..4 {
            let store = &store;
            threads.spawn(move || raise_for_ever(store, &format!("counter/{thread}")));
        }
    });
}

fn raise_for_ever(store: &dyn Store, key: &str) {
    let reading = store.read(&[key.as_bytes()]).expect("a reading");
    let first = reading.pairs.first().map_or(0, |it| number(&it.value));
    for next in first + 1.. {
        let put = Transaction::new()
            .put(key, next.to_string())
            .put(format!("twin/{key}"), next.to_string());
        store.make(put).expect("made");
        writeln!(std::io::stdout(), "\nmade {key} {next}").expect("it is heard");
    }
}

fn number(value: &[u8]) -> u64 {
    String::from_utf8_lossy(value).parse().expect("a number")
}

/// DURKENZO_KILLS says how often, if not as often as here. The system still writes the bytes that a killed process left
/// to it.
#[test]
fn loses_nothing_that_was_told_as_made() {
    let times = env::var("DURKENZO_KILLS")
        .ok()
        .and_then(|it| it.parse().ok())
        .unwrap_or(KILLED);
    let (folder, mut chance) = (Folder::new(), Chance(3));
    for time in 0..times {
        let sync = ["always", "second", "no"][time as usize % 3];
        let told = told_before_killed(&folder, sync, Duration::from_millis(50 + chance.below(200)));
        let store = folder.open();
        for (thread, last) in told.iter().enumerate() {
            let (key, twin) = (
                format!("counter/{thread}"),
                format!("twin/counter/{thread}"),
            );
            let reading = store
                .read(&[key.as_bytes(), twin.as_bytes()])
                .expect("a reading");
            let found = reading
                .get(key.as_bytes())
                .map_or(0, |it| number(&it.value));
            assert!(
                found >= *last,
                "after {time} kills {key} is {found}, and {last} was told"
            );
            let of_twin = reading
                .get(twin.as_bytes())
                .map_or(0, |it| number(&it.value));
            assert_eq!(found, of_twin, "half of a transaction");
        }
    }
}

/// Returns the last outcome that each thread of a process told before it was killed.
fn told_before_killed(folder: &Folder, sync: &str, lives: Duration) -> [u64; 4] {
    let mut process = Command::new(env::current_exe().expect("this test"))
        .args([
            "writes_until_it_is_killed",
            "--exact",
            "--ignored",
            "--nocapture",
        ])
        .env("DURKENZO_KILLED", folder.path())
        .env("DURKENZO_SYNC", sync)
        .stdout(Stdio::piped())
        .stderr(Stdio::null())
        .spawn()
        .expect("a process");
    let output = BufReader::new(process.stdout.take().expect("its output"));
    let listener = thread::spawn(move || {
        let mut told = [0; 4];
        for line in output.lines().map_while(Result::ok) {
            let Some(("counter", rest)) =
                line.strip_prefix("made ").and_then(|it| it.split_once('/'))
            else {
                continue;
            };
            let (thread, value) = rest.split_once(' ').expect("a number");
            told[thread.parse::<usize>().expect("a thread")] = value.parse().unwrap_or(0);
        }
        told
    });
    thread::sleep(lives);
    process.kill().expect("it runs");
    process.wait().expect("it has ended");
    listener.join().expect("it listens")
}
