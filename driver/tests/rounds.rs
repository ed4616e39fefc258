//! How work on one shard sees other work.
mod common;

use common::cluster::until;
use common::handing::{Handed, Handing};
use common::{add, ask, held, led, opened, step, write};
use durkenzo_driver::{
    Begin, ControlCommand, Durable, Key, MapReply, MapRequest, NotDone, ShardOptions,
};
use durkenzo_store::{Embedded, ReadError, Reading, Store};
use std::sync::atomic::{AtomicU64, Ordering};
use std::sync::Arc;
use std::thread;
use std::time::{Duration, Instant};

fn key(name: &str) -> Key {
    name.as_bytes().into()
}

#[test]
fn what_is_written_together_is_read_together() {
    let store: Arc<dyn Store> = Arc::new(Embedded::in_memory());
    let durable = Arc::new(opened(&store, 1));
    let _control = led(&durable);
    let text = vec![7; 65_535];
    let requests = vec![
        MapRequest::Put(key("a"), text.clone()),
        MapRequest::Add(key("b"), -3),
        MapRequest::Append(key("c"), b"x".to_vec()),
        MapRequest::Delete(key("d")),
        MapRequest::Add(key("a"), 1),
        MapRequest::Append(key("a"), b"x".to_vec()),
    ];
    let replied = vec![
        MapReply::Done,
        MapReply::Count(-3),
        MapReply::Done,
        MapReply::Nothing,
        MapReply::WrongKind,
        MapReply::TooLong,
    ];
    assert_eq!(write(&durable, 0, requests), Ok(replied));
    let keys = ["a", "b", "c", "d"].map(key).to_vec();
    let found = vec![
        MapReply::Text(text),
        MapReply::Count(-3),
        MapReply::Text(b"x".to_vec()),
        MapReply::Nothing,
    ];
    assert_eq!(ask(&durable, 0, Begin::Read(keys), None), Ok(found));
}

#[test]
fn a_run_sees_its_own_writes_in_order() {
    let store: Arc<dyn Store> = Arc::new(Embedded::in_memory());
    let durable = Arc::new(opened(&store, 1));
    let _control = led(&durable);
    let doubled = |held: Vec<MapReply>| match held[..] {
        [MapReply::Count(count)] => vec![MapRequest::Add(key("a"), count)],
        _ => panic!("{held:?}"),
    };
    let begins = [
        (Begin::Write(vec![MapRequest::Add(key("a"), 5)]), false),
        (Begin::Read(vec![key("a")]), false),
        (Begin::Change(vec![key("a")]), true),
        (Begin::Write(vec![MapRequest::Add(key("a"), 1)]), false),
        (Begin::Read(vec![key("a")]), false),
    ];
    let (mut steps, mut told) = (Vec::new(), Vec::new());
    for (begin, changes) in begins {
        let (one, of_it) = step(begin, changes.then(|| Box::new(doubled) as common::Decide));
        steps.push(one);
        told.push(of_it);
    }
    durable.submit(0, steps);
    let told: Vec<_> = told
        .into_iter()
        .map(|it| it.recv().unwrap().unwrap())
        .collect();
    let counts = [5, 5, 10, 11, 11].map(|it| vec![MapReply::Count(it)]);
    assert_eq!(told, counts);
}

#[test]
fn changes_lose_no_other_write() {
    let store: Arc<dyn Store> = Arc::new(Embedded::in_memory());
    let durable = Arc::new(opened(&store, 1));
    let _control = led(&durable);
    thread::scope(|scope| {
        for _ in 0..4 {
            scope.spawn(|| (0..300).for_each(|_| drop(add(&durable, 0, b"a", 1).unwrap())));
            scope.spawn(|| {
                for _ in 0..300 {
                    // It writes the whole sum, so that another write in between would be lost.
                    let decide = |held: Vec<MapReply>| {
                        let sum = match held[..] {
                            [MapReply::Count(sum)] => sum + 1,
                            _ => 1,
                        };
                        vec![MapRequest::Delete(key("a")), MapRequest::Add(key("a"), sum)]
                    };
                    let begin = Begin::Change(vec![key("a")]);
                    ask(&durable, 0, begin, Some(Box::new(decide))).unwrap();
                }
            });
        }
    });
    assert_eq!(held(&durable, 0, b"a"), Ok(vec![MapReply::Count(2_400)]));
}

#[test]
fn what_nobody_executes_waits_and_is_refused_by_its_reason() {
    let store: Arc<dyn Store> = Arc::new(Embedded::in_memory());
    let shard_options = ShardOptions {
        wait: Duration::from_millis(200),
        ..ShardOptions::default()
    };
    let open = Durable::open(store, 1, shard_options, Box::new(|| {}));
    let durable = Arc::new(open.unwrap());
    assert_eq!(add(&durable, 0, b"a", 1), Err(NotDone::Vacant));
    let mut control = led(&durable);
    // On a busy machine, work that could be made may wait in vain.
    let is_made = |count| add(&durable, 0, b"a", 1) == Ok(vec![MapReply::Count(count)]);
    until("the first is made", || is_made(1));
    control.command(ControlCommand::Pause(0)).unwrap();
    assert_eq!(add(&durable, 0, b"a", 1), Err(NotDone::Paused));
    until("one that waits is made", || {
        let _ = control.command(ControlCommand::Pause(0));
        let (one, told) = step(Begin::Write(vec![MapRequest::Add(key("a"), 1)]), None);
        durable.submit(0, vec![one]);
        control.command(ControlCommand::Resume(0)).unwrap();
        told.recv().unwrap() == Ok(vec![MapReply::Count(2)])
    });
    durable.set_away(1, true);
    assert_eq!(add(&durable, 0, b"a", 1), Err(NotDone::Away(1)));
    durable.set_away(1, false);
    until("the last is made", || is_made(3));
    durable.stop();
    assert_eq!(add(&durable, 0, b"a", 1), Err(NotDone::Stopped));
}

#[test]
fn a_base_stands_for_what_was_made_before() {
    let store: Arc<dyn Store> = Arc::new(Embedded::in_memory());
    let durable = Arc::new(opened(&store, 1));
    let _control = led(&durable);
    let text = vec![7; 60_000];
    for number in 0..40 {
        let requests = vec![
            MapRequest::Put(key(&format!("text {number}")), text.clone()),
            MapRequest::Add(key("count"), 1),
        ];
        write(&durable, 0, requests).unwrap();
        thread::sleep(Duration::from_millis(5));
    }
    let end = Instant::now() + Duration::from_secs(60);
    loop {
        let batches = store.read_all(b"batch/").unwrap().pairs.len();
        let parts = store.read_all(b"base/").unwrap().pairs.len();
        if batches < 20 && (2..9).contains(&parts) {
            break;
        }
        let is_late = Instant::now() >= end;
        assert!(!is_late, "{batches} batches, {parts} parts");
        thread::sleep(Duration::from_millis(5));
    }
    durable.stop();
    let durable = Arc::new(opened(&store, 1));
    let keys = ["text 0", "text 39", "count"].map(key).to_vec();
    let found = vec![
        MapReply::Text(text.clone()),
        MapReply::Text(text),
        MapReply::Count(40),
    ];
    assert_eq!(ask(&durable, 0, Begin::Read(keys), None), Ok(found));
}

/// A store that counts the ranges that are read.
struct Counting {
    store: Arc<dyn Store>,
    ranges: AtomicU64,
}

impl Handing for Counting {
    fn store(&self) -> &dyn Store {
        &*self.store
    }

    fn read_range(&self, from: &[u8], end: &[u8], most: usize) -> Result<Reading, ReadError> {
        self.ranges.fetch_add(1, Ordering::Relaxed);
        self.store.read_range(from, end, most)
    }
}

#[test]
fn a_long_log_is_read_in_few_pages() {
    let store: Arc<dyn Store> = Arc::new(Embedded::in_memory());
    let opened = |store: Arc<dyn Store>| {
        let open = Durable::open(store, 1, ShardOptions::default(), Box::new(|| {}));
        Arc::new(open.unwrap())
    };
    let durable = opened(store.clone());
    let _control = led(&durable);
    (0..900).for_each(|_| drop(add(&durable, 0, b"a", 1).unwrap()));
    durable.stop();
    let ranges = AtomicU64::new(0);
    let counting = Arc::new(Handed(Counting { store, ranges }));
    let durable = opened(counting.clone());
    assert_eq!(held(&durable, 0, b"a"), Ok(vec![MapReply::Count(900)]));
    // One of 64, one of 128, and three of 256.
    assert_eq!(counting.ranges.load(Ordering::Relaxed), 5);
}

/// Writes from before the store returns room are there after it, and for the next process.
fn is_there_after_compacting(store: &Arc<dyn Store>) {
    let durable = Arc::new(opened(store, 2));
    let _control = led(&durable);
    for shard in 0..2 {
        (0..30).for_each(|_| drop(add(&durable, shard, b"a", 1).unwrap()));
    }
    durable.compact().unwrap();
    assert_eq!(held(&durable, 0, b"a"), Ok(vec![MapReply::Count(30)]));
    assert_eq!(add(&durable, 1, b"a", 1), Ok(vec![MapReply::Count(31)]));
    durable.stop();
    let durable = opened(store, 2);
    assert_eq!(held(&durable, 0, b"a"), Ok(vec![MapReply::Count(30)]));
    assert_eq!(held(&durable, 1, b"a"), Ok(vec![MapReply::Count(31)]));
    durable.stop();
}

#[test]
fn compacting_keeps_what_memory_has() {
    let store: Arc<dyn Store> = Arc::new(Embedded::in_memory());
    is_there_after_compacting(&store);
}

#[test]
fn compacting_keeps_what_a_folder_has() {
    let folder = std::env::temp_dir().join(format!("durkenzo-compact-{}", std::process::id()));
    let open = || Embedded::in_folder(&folder, durkenzo_store::Sync::No).unwrap();
    let store: Arc<dyn Store> = Arc::new(open());
    is_there_after_compacting(&store);
    drop(store);
    // SQLite reads its file again.
    let store: Arc<dyn Store> = Arc::new(open());
    let durable = opened(&store, 2);
    assert_eq!(held(&durable, 0, b"a"), Ok(vec![MapReply::Count(30)]));
    drop(durable);
    drop(store);
    std::fs::remove_dir_all(folder).unwrap();
}
