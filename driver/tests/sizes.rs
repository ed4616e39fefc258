//! Writes that are made together if the store takes only a little at once, or nothing more: each client's step is made
//! as a whole, or not at all.
mod common;

use common::handing::{Handed, Handing};
use common::{ask, held, led, opened, step, write, Decide, Told};
use durkenzo_driver::{Begin, CompactFault, Durable, Key, MapReply, MapRequest, NotDone};
use durkenzo_store::{Done, Embedded, Room, Store, Transaction, WriteError};
use std::sync::atomic::{AtomicU64, AtomicUsize, Ordering};
use std::sync::mpsc::Receiver;
use std::sync::{Arc, Mutex};
use std::thread;
use std::time::{Duration, Instant};

const TEXT: usize = 60_000;

/// A store that refuses batches with more bytes than it takes. Once it is full, it refuses everything except writes
/// that may use its reserve.
struct Scant {
    store: Arc<dyn Store>,
    most_bytes: usize,
    room: AtomicUsize,
    /// How many bytes it has left for bases.
    left: AtomicU64,
    /// The size of each batch that was made.
    made: Mutex<Vec<usize>>,
}

impl Handing for Scant {
    fn store(&self) -> &dyn Store {
        &*self.store
    }

    fn left(&self) -> Option<u64> {
        Some(self.left.load(Ordering::Acquire))
    }

    fn submit(&self, transaction: Transaction, done: Done) {
        let is_batch = |key: &[u8]| key.starts_with(b"batch/");
        let batch = transaction.puts.iter().find(|it| is_batch(&it.key));
        let Some(bytes) = batch.map(|it| it.value.len()) else {
            return self.store.submit(transaction, done);
        };
        let refused = match self.room.load(Ordering::Acquire) {
            _ if bytes > self.most_bytes => WriteError::TooLarge("a test".to_owned()),
            0 if transaction.room() == Room::Free => WriteError::Full("a test".to_owned()),
            _ => {
                if transaction.room() == Room::Free {
                    self.room.fetch_sub(1, Ordering::AcqRel);
                }
                self.made.lock().unwrap().push(bytes);
                return self.store.submit(transaction, done);
            }
        };
        thread::spawn(move || done(Err(refused)));
    }
}

/// Opens a shard without an owner, whose requests wait, over a store with these bounds.
fn opened_over(most_bytes: usize, room: usize) -> (Arc<Handed<Scant>>, Arc<Durable>) {
    let scant = Arc::new(Handed(Scant {
        store: Arc::new(Embedded::in_memory()),
        most_bytes,
        room: AtomicUsize::new(room),
        left: AtomicU64::new(u64::MAX),
        made: Mutex::default(),
    }));
    let durable = opened(&(scant.clone() as Arc<dyn Store>), 1);
    (scant, Arc::new(durable))
}

/// Returns the key of this number of a client.
fn key(client: usize, number: usize) -> Key {
    format!("{client} {number}").into_bytes().into()
}

/// Submits work of a client, and returns the receiver of its outcome.
fn submit(durable: &Durable, begin: Begin, decide: Option<Decide>) -> Receiver<Told> {
    let (one, told) = step(begin, decide);
    durable.submit(0, vec![one]);
    told
}

fn texts(client: usize, count: usize) -> Vec<MapRequest> {
    let texts = (0..count).map(|it| MapRequest::Put(key(client, it), vec![7; TEXT]));
    texts.collect()
}

/// Submits a change of a client that writes so many texts, depending on the value of one key.
fn change(durable: &Durable, client: usize, count: usize) -> Receiver<Told> {
    let decide = move |_: Vec<MapReply>| texts(client, count);
    let begin = Begin::Change(vec![key(client, 0)]);
    submit(durable, begin, Some(Box::new(decide)))
}

fn told(it: &Receiver<Told>) -> Told {
    it.recv_timeout(Duration::from_secs(60)).expect("an answer")
}

/// Returns how many of these texts of the client are there.
fn count_of(durable: &Durable, client: usize, count: usize) -> usize {
    let keys = (0..count).map(|it| key(client, it)).collect();
    let found = ask(durable, 0, Begin::Read(keys), None).unwrap();
    found.iter().filter(|it| **it != MapReply::Nothing).count()
}

#[test]
fn what_changes_decide_is_written_whole_in_bounded_batches() {
    let (scant, durable) = opened_over(usize::MAX, usize::MAX);
    let asked: Vec<_> = (0..12).map(|it| change(&durable, it, 16)).collect();
    let _control = led(&durable);
    for (client, it) in asked.iter().enumerate() {
        assert_eq!(told(it), Ok(vec![MapReply::Done; 16]));
        assert_eq!(count_of(&durable, client, 16), 16);
    }
    let made = scant.made.lock().unwrap();
    assert!(made.iter().all(|it| *it <= 1 << 20), "{made:?}");
}

#[test]
fn where_the_store_fills_each_change_is_made_whole_or_not_at_all() {
    for room in [1, 2, 5] {
        let (_scant, durable) = opened_over(usize::MAX, room);
        let asked: Vec<_> = (0..12).map(|it| change(&durable, it, 16)).collect();
        let _control = led(&durable);
        let mut done = 0;
        for (client, it) in asked.iter().enumerate() {
            let count = match told(it) {
                Ok(replies) => replies.len(),
                Err(NotDone::Full(_)) => 0,
                other => panic!("{other:?}"),
            };
            assert_eq!(count_of(&durable, client, 16), count);
            done += usize::from(count > 0);
        }
        assert_eq!(done, room);
    }
}

#[test]
fn many_small_writes_fit_a_store_that_takes_little() {
    let (_scant, durable) = opened_over(200_000, usize::MAX);
    let read = submit(&durable, Begin::Read(vec![key(0, 0)]), None);
    let mut asked: Vec<_> = (0..30).map(|it| change(&durable, it, 1)).collect();
    for client in 30..60 {
        asked.push(submit(&durable, Begin::Write(texts(client, 2)), None));
    }
    let _control = led(&durable);
    assert_eq!(told(&read), Ok(vec![MapReply::Nothing]));
    for (client, it) in asked.iter().enumerate() {
        let count = 1 + client / 30;
        assert_eq!(told(it), Ok(vec![MapReply::Done; count]), "{client}");
        assert_eq!(count_of(&durable, client, count), count);
    }
}

#[test]
fn only_what_is_too_large_alone_is_refused() {
    let (_scant, durable) = opened_over(200_000, usize::MAX);
    let large = submit(&durable, Begin::Write(texts(0, 4)), None);
    let change_of_one = change(&durable, 1, 1);
    let large_change = change(&durable, 2, 4);
    let small = submit(&durable, Begin::Write(texts(3, 3)), None);
    let read = submit(&durable, Begin::Read(vec![key(9, 0)]), None);
    let _control = led(&durable);
    assert_eq!(told(&read), Ok(vec![MapReply::Nothing]));
    assert_eq!(told(&small), Ok(vec![MapReply::Done; 3]));
    assert_eq!(told(&change_of_one), Ok(vec![MapReply::Done]));
    for (client, it) in [(0, large), (2, large_change)] {
        let outcome = told(&it);
        assert!(matches!(outcome, Err(NotDone::TooLarge(_))), "{outcome:?}");
        assert_eq!(count_of(&durable, client, 4), 0);
    }
}

#[test]
fn what_no_batch_holds_is_refused_before_it_is_sent() {
    let (scant, durable) = opened_over(usize::MAX, usize::MAX);
    let _control = led(&durable);
    let many = (0..5_000)
        .map(|it| MapRequest::Add(key(0, it), 1))
        .collect();
    let long = vec![MapRequest::Put(key(1, 0), vec![7; 9 << 20])];
    for requests in [many, long, texts(2, 150)] {
        let by_change = requests.clone();
        let decide = Box::new(move |_| by_change.clone());
        let begin = Begin::Change(vec![key(0, 0)]);
        for outcome in [
            write(&durable, 0, requests),
            ask(&durable, 0, begin, Some(decide)),
        ] {
            assert!(matches!(outcome, Err(NotDone::TooLarge(_))), "{outcome:?}");
        }
    }
    assert!(scant.made.lock().unwrap().is_empty());
}

#[test]
fn reads_go_on_where_the_store_is_full() {
    let (_scant, durable) = opened_over(usize::MAX, 0);
    let (mut reads, mut writes) = (Vec::new(), Vec::new());
    for client in 0..20 {
        reads.push(submit(&durable, Begin::Read(vec![key(client, 0)]), None));
        writes.push(submit(&durable, Begin::Write(texts(client, 1)), None));
        writes.push(change(&durable, client, 1));
        // A change that writes nothing is a read.
        let begin = Begin::Change(vec![key(client, 1)]);
        reads.push(submit(&durable, begin, Some(Box::new(|_| Vec::new()))));
        reads.push(submit(&durable, Begin::Count, None));
    }
    let _control = led(&durable);
    for it in &reads {
        assert!(told(it).is_ok());
    }
    for it in &writes {
        let outcome = told(it);
        assert!(matches!(outcome, Err(NotDone::Full(_))), "{outcome:?}");
    }
}

#[test]
fn reads_go_on_beside_writes_that_never_end() {
    let (_scant, durable) = opened_over(usize::MAX, 0);
    let _control = led(&durable);
    thread::scope(|scope| {
        for client in 0..4 {
            let durable = &durable;
            scope.spawn(move || {
                for _ in 0..200 {
                    let outcome = write(durable, 0, texts(client, 1));
                    assert!(matches!(outcome, Err(NotDone::Full(_))), "{outcome:?}");
                }
            });
        }
        for _ in 0..100 {
            assert_eq!(held(&durable, 0, b"a"), Ok(vec![MapReply::Nothing]));
        }
    });
}

/// Deletions are submitted together with writes for which the store has no room.
#[test]
fn deletions_go_on_where_the_store_is_full() {
    let (_scant, durable) = opened_over(usize::MAX, 0);
    let (mut deletes, mut writes) = (Vec::new(), Vec::new());
    for client in 0..20 {
        let delete = |number| MapRequest::Delete(key(client, number));
        writes.push(submit(&durable, Begin::Write(texts(client, 1)), None));
        let both = vec![delete(1), delete(2)];
        deletes.push(submit(&durable, Begin::Write(both), None));
        let mixed = [vec![delete(3)], texts(client, 1)].concat();
        writes.push(submit(&durable, Begin::Write(mixed), None));
        writes.push(change(&durable, client, 1));
    }
    let _control = led(&durable);
    for it in &deletes {
        assert_eq!(told(it), Ok(vec![MapReply::Nothing; 2]));
    }
    for it in &writes {
        let outcome = told(it);
        assert!(matches!(outcome, Err(NotDone::Full(_))), "{outcome:?}");
    }
    assert!((0..20).all(|client| count_of(&durable, client, 4) == 0));
}

/// The store has only room in its reserve. A base goes on while writes are refused.
#[test]
fn deletions_have_a_full_store_make_room_beside_refused_writes() {
    let (scant, durable) = opened_over(usize::MAX, usize::MAX);
    let _control = led(&durable);
    assert!(write(&durable, 0, texts(0, 8)).is_ok());
    scant.room.store(0, Ordering::Release);
    let refused = write(&durable, 0, texts(1, 1));
    assert!(matches!(refused, Err(NotDone::Full(_))), "{refused:?}");
    let deletes = (0..8).map(|it| MapRequest::Delete(key(0, it))).collect();
    assert_eq!(write(&durable, 0, deletes), Ok(vec![MapReply::Done; 8]));
    let batches = || scant.store.read_keys(b"batch/", b"batch0").unwrap().len();
    let end = Instant::now() + Duration::from_secs(60);
    while batches() > 0 {
        assert!(Instant::now() < end, "no base is made");
        let refused = write(&durable, 0, texts(1, 1));
        assert!(matches!(refused, Err(NotDone::Full(_))), "{refused:?}");
    }
    scant.room.store(usize::MAX, Ordering::Release);
    assert!(write(&durable, 0, texts(1, 1)).is_ok());
    assert_eq!(count_of(&durable, 1, 1), 1);
}

/// A store that has no room for a base gets no part of one.
#[test]
fn a_base_without_room_is_not_begun() {
    let (scant, durable) = opened_over(usize::MAX, usize::MAX);
    let _control = led(&durable);
    assert!(write(&durable, 0, texts(0, 8)).is_ok());
    let parts = || scant.store.read_keys(b"base/", b"base0").unwrap().len();
    scant.left.store(8 * TEXT as u64, Ordering::Release);
    let told = durable.compact();
    assert!(matches!(told, Err(CompactFault::NoBase(1))), "{told:?}");
    assert_eq!(parts(), 0);
    scant.left.store(16 * TEXT as u64, Ordering::Release);
    durable.compact().expect("it is done");
    assert!(parts() > 0);
    assert_eq!(count_of(&durable, 0, 8), 8);
}
