//! Work that goes over the keys of a shard: it sees all writes before it, and nothing else.
mod common;

use common::{ask, led, opened, write, Uncertain};
use durkenzo_driver::{
    Begin, ControlCommand, Durable, DurableControl, Key, MapReply, MapRequest, NotDone, Range,
};
use durkenzo_store::{Embedded, Store};
use std::collections::BTreeMap;
use std::sync::Arc;
use std::thread;
use std::time::Duration;

fn range(low: &[u8], high: Option<&[u8]>, most: usize) -> Begin {
    Begin::Scan(Range {
        low: low.into(),
        high: high.map(Into::into),
        most,
    })
}

/// Returns the pairs that a scan gives.
fn scanned(durable: &Durable, begin: Begin) -> Vec<(Key, MapReply)> {
    let replies = ask(durable, 0, begin, None).expect("pairs");
    let pair = |it| match it {
        MapReply::Pair(key, held) => (key, *held),
        other => panic!("{other:?} isn't a pair"),
    };
    replies.into_iter().map(pair).collect()
}

/// Returns all pairs, some at a time.
fn all(durable: &Durable) -> Vec<(Key, MapReply)> {
    let (mut found, mut low) = (Vec::new(), Vec::new());
    loop {
        let pairs = scanned(durable, range(&low, None, 7));
        let Some((last, _)) = pairs.last() else {
            return found;
        };
        low = [last, &[0][..]].concat();
        found.extend(pairs);
    }
}

/// Returns the first of all keys, without their values.
fn keys(durable: &Durable) -> Vec<Key> {
    let range = Range {
        low: Key::default(),
        high: None,
        most: usize::MAX,
    };
    let replies = ask(durable, 0, Begin::Keys(range), None).expect("keys");
    let key = |it| match it {
        MapReply::Key(key) => key,
        other => panic!("{other:?} isn't a key"),
    };
    replies.into_iter().map(key).collect()
}

fn count(durable: &Durable) -> i64 {
    match ask(durable, 0, Begin::Count, None).as_deref() {
        Ok([MapReply::Count(count)]) => *count,
        other => panic!("{other:?}"),
    }
}

/// Pseudo-random numbers, the same in each run.
struct Chance(u64);

impl Chance {
    fn below(&mut self, count: u64) -> u64 {
        self.0 = self
            .0
            .wrapping_mul(6_364_136_223_846_793_005)
            .wrapping_add(1);
        (self.0 >> 33) % count
    }
}

/// Returns a request of few keys.
fn by_chance(chance: &mut Chance) -> MapRequest {
    let key: Key = format!("key {}", chance.below(40)).into_bytes().into();
    match chance.below(7) {
        0 => MapRequest::Put(key, vec![b'x'; chance.below(9) as usize]),
        1 => MapRequest::Append(key, b"y".to_vec()),
        2 => MapRequest::Add(key, 5),
        3 => MapRequest::Add(key, i64::MAX),
        4 => MapRequest::Put(key, vec![0; 65_536]),
        _ => MapRequest::Delete(key),
    }
}

/// Returns the values of all keys that were ever written, read one by one.
fn read(durable: &Durable) -> BTreeMap<Key, MapReply> {
    let keys: Vec<Key> = (0..40)
        .map(|it| format!("key {it}").into_bytes().into())
        .collect();
    let held = ask(durable, 0, Begin::Read(keys.clone()), None).expect("what they hold");
    let pairs = keys.into_iter().zip(held);
    pairs.filter(|it| it.1 != MapReply::Nothing).collect()
}

/// Writes random requests while the shard moves. A scan returns the same as reads.
fn writes_by_chance(durable: &Durable, control: &mut DurableControl, seed: u64) {
    let mut chance = Chance(seed);
    for step in 0..60 {
        let requests = (0..1 + chance.below(5))
            .map(|_| by_chance(&mut chance))
            .collect();
        // A write with an unknown outcome may be made.
        let _ = write(durable, 0, requests);
        if step % 5 == 0 {
            moves(control);
        }
        let read = read(durable);
        assert_eq!(all(durable), read.clone().into_iter().collect::<Vec<_>>());
        assert_eq!(count(durable), read.len() as i64);
        assert!(keys(durable).iter().eq(read.keys().take(Range::MOST)));
    }
}

/// Moves the shard to the other server.
fn moves(control: &mut DurableControl) {
    let record = control.record(0).expect("a record").expect("a record");
    let to = 3 - record.owner().expect("an owner");
    let steps = [
        ControlCommand::PrepareAddShard(0, to),
        ControlCommand::PrepareDropShard(0),
        ControlCommand::AddShard(0),
        ControlCommand::DropShard(0),
    ];
    for step in steps {
        control.command(step).expect("a step of the migration");
    }
}

#[test]
fn scans_see_what_was_written_before() {
    let store: Arc<dyn Store> = Arc::new(Embedded::in_memory());
    let durable = Arc::new(opened(&store, 1));
    let mut control = led(&durable);
    assert!(all(&durable).is_empty() && count(&durable) == 0);
    writes_by_chance(&durable, &mut control, 3);
}

#[test]
fn keys_are_those_of_the_log_and_its_base_after_a_start() {
    let store: Arc<dyn Store> = Arc::new(Embedded::in_memory());
    for seed in 0..4 {
        let durable = Arc::new(opened(&store, 1));
        let mut control = led(&durable);
        let found = all(&durable);
        assert_eq!(found, read(&durable).into_iter().collect::<Vec<_>>());
        writes_by_chance(&durable, &mut control, seed);
        if seed % 2 == 0 {
            durable.compact().unwrap();
        }
        durable.stop();
    }
}

#[test]
fn keys_are_those_of_a_base_of_several_parts_after_a_start() {
    let store: Arc<dyn Store> = Arc::new(Embedded::in_memory());
    let keys: Vec<Key> = (0..40_u8).map(|it| Key::from([it])).collect();
    let durable = Arc::new(opened(&store, 1));
    let _control = led(&durable);
    for key in &keys {
        let put = MapRequest::Put(key.clone(), vec![key[0]; 60_000 + usize::from(key[0])]);
        write(&durable, 0, vec![put]).unwrap();
    }
    durable.compact().unwrap();
    durable.stop();
    drop(durable);
    let durable = opened(&store, 1);
    let found: Vec<Key> = all(&durable).into_iter().map(|it| it.0).collect();
    assert_eq!(found, keys);
}

#[test]
fn scans_see_what_is_there_where_outcomes_are_not_known() {
    let store: Arc<dyn Store> = Arc::new(Uncertain::new(Embedded::in_memory(), 3));
    let durable = Arc::new(opened(&store, 1));
    let mut control = led(&durable);
    writes_by_chance(&durable, &mut control, 11);
}

#[test]
fn ranges_have_bounds_and_a_most() {
    let store: Arc<dyn Store> = Arc::new(Embedded::in_memory());
    let durable = Arc::new(opened(&store, 1));
    let _control = led(&durable);
    let keys: Vec<Key> = (0..150_u8).map(|it| Key::from([it, 255])).collect();
    let puts = keys
        .iter()
        .map(|it| MapRequest::Put(it.clone(), it.to_vec()));
    write(&durable, 0, puts.collect()).unwrap();
    let of = |begin| {
        scanned(&durable, begin)
            .into_iter()
            .map(|it| it.0)
            .collect::<Vec<_>>()
    };
    assert_eq!(of(range(&[], None, 1_000)), keys[..Range::MOST]);
    assert_eq!(of(range(&[7, 255], Some(&[9, 255]), 9)), keys[7..9]);
    assert_eq!(of(range(&[7, 255, 0], None, 2)), keys[8..10]);
    for (low, high) in [([9, 0], [9, 0]), ([9, 0], [8, 0])] {
        assert!(of(range(&low, Some(&high), 9)).is_empty());
    }
    assert!(of(range(&[], None, 0)).is_empty());
}

#[test]
fn scans_go_with_writes_of_others() {
    let store: Arc<dyn Store> = Arc::new(Embedded::in_memory());
    let durable = Arc::new(opened(&store, 1));
    let mut control = led(&durable);
    let both = |it: usize| {
        let names = [format!("a {it}"), format!("z {it}")];
        names.map(|it| Key::from(it.as_bytes()))
    };
    thread::scope(|scope| {
        let writer = scope.spawn(|| {
            for it in 0..300 {
                let puts = both(it).map(|it| MapRequest::Put(it, Vec::new()));
                write(&durable, 0, puts.into()).unwrap();
                let deletes = both(it).map(MapRequest::Delete);
                write(&durable, 0, deletes.into()).unwrap();
            }
        });
        while !writer.is_finished() {
            // Values that are written together are there together.
            let found = scanned(&durable, range(&[], None, 9)).len();
            assert!(found == 0 || found == 2, "{found}");
            assert!(matches!(count(&durable), 0 | 2));
            moves(&mut control);
        }
    });
}

#[test]
fn a_scan_waits_for_a_paused_shard() {
    let store: Arc<dyn Store> = Arc::new(Embedded::in_memory());
    let durable = Arc::new(opened(&store, 1));
    let mut control = led(&durable);
    let (step, told) = common::step(Begin::Count, None);
    control.command(ControlCommand::Pause(0)).unwrap();
    durable.submit(0, vec![step]);
    assert!(told.recv_timeout(Duration::from_millis(100)).is_err());
    control.command(ControlCommand::Resume(0)).unwrap();
    assert_eq!(told.recv().unwrap(), Ok(vec![MapReply::Count(0)]));
    durable.stop();
    let told = ask(&durable, 0, Begin::Count, None);
    assert_eq!(told, Err(NotDone::Stopped));
}
