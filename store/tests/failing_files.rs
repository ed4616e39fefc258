//! The content of a folder if each change of its files fails in turn: each write, sync and new length. If no C compiler
//! is installed, the tests do nothing.
mod beside;

use beside::Folder;
use durkenzo_store::{Embedded, Outcome, Store, Sync, Transaction, WriteError};
use std::collections::BTreeMap;
use std::env;
use std::path::{Path, PathBuf};
use std::process::Command;

/// How many transactions are made, and how many bytes each writes.
const TRANSACTIONS: usize = 12;
const LENGTH: usize = 6_000;
/// So many changes fail one after another, if the disk doesn't recover at once.
const SOME: u64 = 7;
/// Linux's error numbers: of a device, and of a disk without room.
const EIO: u32 = 5;
const ENOSPC: u32 = 28;
/// How many points are skipped, unless DURKENZO_FAULTS is set: then each is tried.
const STRIDE: usize = 3;

/// How changes fail.
struct Failing {
    error: u32,
    /// How many fail one after another.
    count: u64,
    is_torn: bool,
}

/// Returns the library that makes changes fail.
fn shim(folder: &Folder) -> Option<PathBuf> {
    let source = concat!(env!("CARGO_MANIFEST_DIR"), "/tests/failing_files.c");
    let library = folder.path().join("failing_files.so");
    let built = Command::new("cc")
        .args(["-shared", "-fPIC", "-O1", "-o"])
        .arg(&library)
        .arg(source)
        .status();
    match built {
        Ok(status) => assert!(status.success(), "the library is built"),
        Err(_) => {
            eprintln!("cc isn't installed: no change of a file fails");
            return None;
        }
    }
    Some(library)
}

/// The process whose files fail. It tells the outcome of each transaction, which writes two keys and deletes an older
/// one.
#[test]
#[ignore = "run by the test below"]
fn writes_though_changes_fail() {
    let Some(folder) = env::var_os("DURKENZO_FAILING") else {
        return;
    };
    let Ok(store) = Embedded::in_folder(Path::new(&folder), Sync::Always) else {
        return;
    };
    for at in 0..TRANSACTIONS {
        println!("\n{} {at}", told(store.make(transaction(at))));
    }
}

fn transaction(at: usize) -> Transaction {
    let value = vec![at as u8; LENGTH];
    let put = Transaction::new()
        .put(format!("key/{at:02}"), value.clone())
        .put(format!("twin/{at:02}"), value);
    match at.checked_sub(2) {
        Some(before) => put
            .delete(format!("old/{before:02}"))
            .put(format!("old/{at:02}"), ""),
        None => put.put(format!("old/{at:02}"), ""),
    }
}

fn told(made: Result<Outcome, WriteError>) -> &'static str {
    match made {
        Ok(Outcome::Made(_)) => "made",
        Ok(Outcome::Lost(_)) => "lost",
        Err(WriteError::Unknown(_)) => "unknown",
        Err(
            WriteError::Unreachable(_)
            | WriteError::Unavailable(_)
            | WriteError::Full(_)
            | WriteError::TooLarge(_)
            | WriteError::LeaseEnded
            | WriteError::Damaged(_)
            | WriteError::Denied(_)
            | WriteError::Stopped,
        ) => "unmade",
    }
}

/// Runs a process whose changes fail from this one on. Returns the outcomes that it told, and how many changes it
/// tried.
fn told_by(
    folder: &Folder,
    shim: &Path,
    at: u64,
    failing: &Failing,
) -> (BTreeMap<usize, String>, u64) {
    let ran = Command::new(env::current_exe().expect("this test"))
        .args([
            "writes_though_changes_fail",
            "--exact",
            "--ignored",
            "--nocapture",
        ])
        .env("DURKENZO_FAILING", folder.path())
        .env("LD_PRELOAD", shim)
        .env("FAULT_AT", at.to_string())
        .env("FAULT_LAST", (at + failing.count - 1).to_string())
        .env("FAULT_ERROR", failing.error.to_string())
        .env("FAULT_TORN", u8::from(failing.is_torn).to_string())
        .output()
        .expect("a process");
    let complaint = String::from_utf8_lossy(&ran.stderr);
    assert!(ran.status.success(), "{at}: {complaint}");
    let (mut told, mut changes) = (BTreeMap::new(), 0);
    for line in String::from_utf8_lossy(&ran.stdout).lines() {
        match line.split_once(' ') {
            Some(("changes", count)) => changes = count.parse().expect("a number"),
            Some((became @ ("made" | "unmade" | "unknown"), number)) => {
                told.insert(number.parse().expect("a number"), became.to_owned());
            }
            _ => {}
        }
    }
    (told, changes)
}

/// Checks that the folder has exactly the transactions that were told as made: all of a transaction, or nothing of it.
fn check(folder: &Folder, told: &BTreeMap<usize, String>, at: u64) {
    let store = folder.open();
    let there = |key: String| {
        let reading = store.read(&[key.as_bytes()]).expect("a reading");
        reading.pairs.first().map(|it| it.value.clone())
    };
    for (number, told) in told {
        let (key, twin) = (
            there(format!("key/{number:02}")),
            there(format!("twin/{number:02}")),
        );
        assert_eq!(key, twin, "change {at}: half of transaction {number}");
        let is_right = match told.as_str() {
            "made" => key == Some(vec![*number as u8; LENGTH]),
            "unmade" => key.is_none(),
            _ => told == "unknown",
        };
        assert!(
            is_right,
            "change {at}: transaction {number} was told {told}"
        );
    }
    let put = Transaction::new().put("after", "");
    store.make(put).expect("it goes on once nothing fails");
}

/// Makes each change fail in turn. Returns how many changes there are, and how many runs told that everything was made.
fn each_fails(shim: &Path, failing: &Failing, stride: usize) -> (usize, usize) {
    let never = u64::MAX - failing.count;
    let (told, changes) = told_by(&Folder::new(), shim, never, failing);
    assert_eq!(told.len(), TRANSACTIONS);
    let (mut runs, mut unharmed) = (0, 0);
    for at in (1..=changes).step_by(stride) {
        let folder = Folder::new();
        let (told, _) = told_by(&folder, shim, at, failing);
        check(&folder, &told, at);
        runs += 1;
        let is_made = told.len() == TRANSACTIONS && told.values().all(|it| it == "made");
        unharmed += usize::from(is_made);
    }
    (runs, unharmed)
}

#[test]
fn keeps_what_was_told_though_any_change_of_its_files_fails() {
    let own = Folder::new();
    let Some(shim) = shim(&own) else {
        return;
    };
    let stride = if env::var_os("DURKENZO_FAULTS").is_some() {
        1
    } else {
        STRIDE
    };
    for (error, count, is_torn) in [
        (ENOSPC, 1, false),
        (EIO, 1, true),
        (EIO, SOME, true),
        (ENOSPC, SOME, false),
    ] {
        let failing = Failing {
            error,
            count,
            is_torn,
        };
        let (runs, unharmed) = each_fails(&shim, &failing, stride);
        println!("error {error}, {count} at once: {runs} runs, {unharmed} in which all was made");
        // Most changes fill the reserve, which may be smaller.
        assert!(unharmed + 3 < runs, "{unharmed} of {runs}");
    }
}
