//! Each store behaves like the simplest one.
mod beside;

use beside::{over_each, Chance};
use durkenzo_store::{
    KeyChange, LeaseError, LeaseId, Outcome, Pair, Reading, Revision, Seen, Store, Transaction,
    WriteError,
};
use std::collections::BTreeMap;
use std::sync::mpsc;
use std::sync::Arc;
use std::thread;
use std::time::{Duration, Instant};

/// The expected content of a store, in the simplest store possible.
#[derive(Default)]
struct Simplest(BTreeMap<Vec<u8>, Pair>);

impl Simplest {
    fn revision_of(&self, key: &[u8]) -> Revision {
        self.0.get(key).map_or(Revision::NEVER, |it| it.revision)
    }

    fn holds(&self, transaction: &Transaction) -> bool {
        transaction
            .compares
            .iter()
            .all(|it| self.revision_of(&it.key) == it.revision)
    }

    fn make(&mut self, transaction: &Transaction, revision: Revision) {
        for key in &transaction.deletes {
            self.0.remove(key);
        }
        for it in &transaction.puts {
            let pair = Pair {
                key: it.key.clone(),
                value: it.value.clone(),
                revision,
                created: self.0.get(&it.key).map_or(revision, |it| it.created),
            };
            self.0.insert(it.key.clone(), pair);
        }
    }

    fn pairs(&self, prefix: &[u8]) -> Vec<Pair> {
        self.0
            .values()
            .filter(|it| it.key.starts_with(prefix))
            .cloned()
            .collect()
    }
}

fn key(number: u64) -> Vec<u8> {
    format!("key/{number}").into_bytes()
}

/// Returns a transaction over few keys, half of whose compares hold.
fn by_chance(chance: &mut Chance, simplest: &Simplest) -> Transaction {
    let mut found = Transaction::new();
    for _ in 0..chance.below(3) {
        let key = key(chance.below(8));
        let wrong = chance.below(4) == 0;
        let revision = if wrong {
            Revision(chance.below(40))
        } else {
            simplest.revision_of(&key)
        };
        found = found.compare(key, revision);
    }
    let first = chance.below(8);
    for at in 0..chance.below(4) {
        let key = key((first + at) % 8);
        found = match chance.below(4) {
            0 => found.delete(key),
            _ => found.put(key, chance.below(1_000).to_string()),
        };
    }
    for _ in 0..chance.below(3) {
        found = found.or_read(key(chance.below(8)));
    }
    found
}

#[test]
fn answers_as_the_simplest_store_does() {
    over_each(|store| {
        let (mut chance, mut simplest) = (Chance(7), Simplest::default());
        let mut last = store.read(&[]).expect("a moment").revision;
        for _ in 0..2_000 {
            let transaction = by_chance(&mut chance, &simplest);
            match store.make(transaction.clone()).expect("an outcome") {
                Outcome::Made(revision) => {
                    assert!(simplest.holds(&transaction), "{transaction:?} was made");
                    assert!(revision >= last && (transaction.puts.is_empty() || revision > last));
                    simplest.make(&transaction, revision);
                    last = revision;
                }
                Outcome::Lost(reading) => {
                    assert!(!simplest.holds(&transaction), "{transaction:?} was lost");
                    let there = transaction
                        .reads
                        .iter()
                        .filter_map(|it| simplest.0.get(it))
                        .cloned();
                    assert_eq!(
                        reading,
                        Reading {
                            revision: last,
                            pairs: there.collect()
                        }
                    );
                }
            }
        }
        assert_eq!(
            store.read_all(b"key/").expect("a reading").pairs,
            simplest.pairs(b"key/")
        );
        let asked = [&b"key/7"[..], b"nowhere", b"key/1"];
        let there = asked
            .iter()
            .filter_map(|it| simplest.0.get(*it))
            .cloned()
            .collect::<Vec<_>>();
        assert_eq!(store.read(&asked).expect("a reading").pairs, there);
    });
}

#[test]
fn reads_more_than_a_page() {
    over_each(|store| {
        for part in 0..30 {
            let puts = (0..60).fold(Transaction::new(), |it, at| {
                it.put(key(part * 60 + at), vec![b'x'; 100])
            });
            store.make(puts).expect("an outcome");
        }
        let keys: Vec<_> = (0..1_800).map(key).collect();
        let asked: Vec<&[u8]> = keys.iter().map(Vec::as_slice).collect();
        assert_eq!(store.read(&asked).expect("a reading").pairs.len(), 1_800);
        let all = store.read_all(b"key/").expect("a reading").pairs;
        assert_eq!(all.len(), 1_800);
        assert!(all.windows(2).all(|it| it[0].key < it[1].key));
        assert_eq!(store.read_all(b"kez").expect("a reading").pairs, []);
        let range = |from, end, most| store.read_range(from, end, most).expect("a reading").pairs;
        let (from, end) = (&all[3].key, &all[1_700].key);
        assert_eq!(range(from, end, 1_000), all[3..1_003]);
        assert_eq!(range(from, end, 5_000), all[3..1_700]);
        assert_eq!(range(from, &all[4].key, 1), all[3..4]);
        assert_eq!(range(end, end, 1), []);
        assert_eq!(range(b"kez", b"key", 7), []);
        assert_eq!(range(b"kez", b"l", 7), []);
        let keys = |from, end| store.read_keys(from, end).expect("a reading");
        let within = |from, end| -> Vec<_> { all[from..end].iter().map(|it| &it.key).collect() };
        assert_eq!(keys(from, end).iter().collect::<Vec<_>>(), within(3, 1_700));
        assert_eq!(keys(b"key/", b"key0").len(), 1_800);
        assert_eq!(keys(end, end), [b""; 0]);
    });
}

#[test]
fn tells_a_watch_all_changes_in_order() {
    over_each(|store| {
        store
            .make(Transaction::new().put("seen/1", "a").put("other", "b"))
            .expect("an outcome");
        let (tell, told) = mpsc::channel();
        let watcher = Box::new(move |seen| drop(tell.send(seen)));
        let watch = store.watch(b"seen/", watcher).expect("a watch");
        let next = || {
            told.recv_timeout(Duration::from_secs(60))
                .expect("the watch tells")
        };
        let Seen::All(reading) = next() else {
            panic!("the reading comes first")
        };
        assert_eq!(
            reading
                .pairs
                .iter()
                .map(|it| &it.key[..])
                .collect::<Vec<_>>(),
            [b"seen/1"]
        );

        store
            .make(Transaction::new().put("other", "c"))
            .expect("an outcome");
        let Outcome::Made(second) = store
            .make(Transaction::new().put("seen/2", "d").delete("seen/1"))
            .expect("made")
        else {
            panic!("nothing is compared")
        };
        let Seen::Changes(moment, changes) = next() else {
            panic!("nothing was missed")
        };
        let deleted = KeyChange {
            key: b"seen/1".to_vec(),
            value: None,
            revision: second,
            created: Revision::NEVER,
        };
        let written = KeyChange {
            key: b"seen/2".to_vec(),
            value: Some(b"d".to_vec()),
            revision: second,
            created: second,
        };
        assert_eq!((moment, changes), (second, vec![deleted, written]));

        drop(watch);
        store
            .make(Transaction::new().put("seen/3", "e"))
            .expect("an outcome");
        assert!(told.recv_timeout(Duration::from_millis(300)).is_err());
    });
}

/// The length of a lease that is kept for longer than that.
const LEASE: Duration = Duration::from_secs(5);
/// The length of a lease that nobody keeps, and that doesn't end in a test.
const LONG: Duration = Duration::from_secs(600);

/// Returns a lease that was kept for longer than its length, with a key under it. Returns nothing if it wasn't kept in
/// time, because a busy machine stopped its keeper.
fn kept_lease(store: &dyn Store) -> Option<LeaseId> {
    let mut kept = Instant::now();
    let lease = store.grant(LEASE).expect("a lease");
    let put = Transaction::new().put_under("mine", "1", Some(lease));
    let may_be_over = |kept: Instant| kept.elapsed() >= LEASE;
    match store.make(put) {
        Err(WriteError::LeaseEnded) if may_be_over(kept) => return None,
        made => drop(made.expect("an outcome")),
    }
    for _ in 0..6 {
        thread::sleep(Duration::from_secs(1));
        let now = Instant::now();
        match store.keep(lease) {
            Err(LeaseError::Ended(_)) if may_be_over(kept) => return None,
            found => found.expect("it goes on"),
        }
        kept = now;
    }
    let is_gone = is_gone(store, b"mine");
    assert!(!is_gone || may_be_over(kept));
    (!is_gone).then_some(lease)
}

#[test]
fn ends_leases_with_their_keys() {
    over_each(|store| {
        let other = store.grant(LONG).expect("a lease");
        let put = Transaction::new().put_under("kept", "2", Some(other));
        store.make(put).expect("an outcome");
        let mut tries = (0..10).filter_map(|_| kept_lease(store));
        let lease = tries.next().expect("a lease that is kept");
        assert!(!is_gone(store, b"kept"));
        until(|| is_gone(store, b"mine"));
        assert!(matches!(store.keep(lease), Err(LeaseError::Ended(it)) if it == lease));
        assert!(!is_gone(store, b"kept"));
        let late = store.make(Transaction::new().put_under("late", "3", Some(lease)));
        assert!(matches!(late, Err(WriteError::LeaseEnded)), "{late:?}");
        store.revoke(other).expect("it goes on");
        until(|| is_gone(store, b"kept"));
    });
}

fn is_gone(store: &dyn Store, key: &[u8]) -> bool {
    store.read(&[key]).expect("a reading").pairs.is_empty()
}

/// Waits until it is so.
fn until(is_so: impl Fn() -> bool) {
    let end = Instant::now() + Duration::from_secs(60);
    while !is_so() {
        assert!(Instant::now() < end, "it isn't so after a minute");
        thread::sleep(Duration::from_millis(100));
    }
}

/// Threads increment counters with transactions that compare them.
#[test]
fn loses_no_rise_of_a_counter() {
    let raise = |store: &dyn Store, key: &[u8]| loop {
        let reading = store.read(&[key]).expect("a reading");
        let (value, revision) = match reading.get(key) {
            Some(it) => (
                String::from_utf8_lossy(&it.value)
                    .parse::<u64>()
                    .expect("a number"),
                it.revision,
            ),
            None => (0, Revision::NEVER),
        };
        let next = Transaction::new()
            .compare(key, revision)
            .put(key, (value + 1).to_string());
        if let Outcome::Made(_) = store.make(next).expect("an outcome") {
            return;
        }
    };
    over_each(|store| {
        thread::scope(|threads| {
            for _ in 0..4 {
                threads.spawn(|| (0..100).for_each(|at| raise(store, &key(at % 2))));
            }
        });
        let all = store.read_all(b"key/").expect("a reading").pairs;
        assert!(all.iter().all(|it| it.value == b"200"), "{all:?}");
    });
}

#[test]
fn tells_who_waits_that_it_ended() {
    let store = Arc::new(durkenzo_store::Embedded::in_memory());
    let (tell, told) = mpsc::channel();
    for _ in 0..10_000 {
        let tell = tell.clone();
        let done = move |it: Result<_, _>| tell.send(it.is_ok()).expect("it is heard");
        store.submit(Transaction::new().put("key", "value"), Box::new(done));
    }
    drop((store, tell));
    assert_eq!(told.iter().count(), 10_000);
}
