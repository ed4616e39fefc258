//! Tests of bases that are given up before their parts are written.
mod common;

use common::cluster::until;
use common::handing::{Handed, Handing};
use common::{add, held, led, opened, write};
use durkenzo_driver::{CompactFault, Durable, MapReply, MapRequest};
use durkenzo_store::{Done, Embedded, Store, Transaction, WriteError};
use std::sync::atomic::{AtomicBool, Ordering};
use std::sync::{Arc, Mutex};
use std::thread;
use std::time::{Duration, Instant};

/// How long a test waits for something, on a machine that may be busy.
const PATIENCE: Duration = Duration::from_secs(60);
/// The least pause before a base begins after one failed.
const PAUSE: Duration = Duration::from_millis(300);

/// A store that holds back parts of bases until they are let go, and may lose the outcome of a batch.
struct Holding {
    store: Arc<dyn Store>,
    parts: Mutex<Vec<(Transaction, Done)>>,
    /// When the last part came.
    came: Mutex<Instant>,
    /// Whether the next batch isn't made, and its outcome isn't told.
    loses: AtomicBool,
    /// Whether it refuses to write parts.
    refuses: AtomicBool,
}

impl Handing for Holding {
    fn store(&self) -> &dyn Store {
        &*self.store
    }

    fn submit(&self, transaction: Transaction, done: Done) {
        let writes = |prefix: &[u8]| transaction.puts.iter().any(|it| it.key.starts_with(prefix));
        let unknown = || Err(WriteError::Unknown("a test".to_owned()));
        if writes(b"base/") {
            *self.came.lock().unwrap() = Instant::now();
            return self.parts.lock().unwrap().push((transaction, done));
        }
        if writes(b"batch/") && self.loses.swap(false, Ordering::AcqRel) {
            thread::spawn(move || done(unknown()));
            return;
        }
        self.store.submit(transaction, done);
    }
}

impl Holding {
    fn over(store: &Arc<dyn Store>) -> Arc<Handed<Holding>> {
        Arc::new(Handed(Holding {
            store: store.clone(),
            parts: Mutex::default(),
            came: Mutex::new(Instant::now()),
            loses: AtomicBool::new(false),
            refuses: AtomicBool::new(false),
        }))
    }

    /// Waits until so many parts are held back.
    fn wait_for(&self, parts: usize) {
        let end = Instant::now() + PATIENCE;
        while self.parts.lock().unwrap().len() < parts {
            assert!(Instant::now() < end, "no part of a base is written");
            thread::sleep(Duration::from_millis(5));
        }
    }

    /// Lets parts go while the work is done.
    fn let_go_during<R>(&self, work: impl FnOnce() -> R) -> R {
        let is_over = AtomicBool::new(false);
        thread::scope(|scope| {
            scope.spawn(|| {
                while !is_over.load(Ordering::Acquire) {
                    let is_idle = self.parts.lock().unwrap().is_empty();
                    match is_idle {
                        true => thread::sleep(Duration::from_millis(1)),
                        false => self.let_go(),
                    }
                }
            });
            let done = work();
            is_over.store(true, Ordering::Release);
            done
        })
    }

    /// Lets the first part go.
    fn let_go(&self) {
        let (part, done) = self.parts.lock().unwrap().remove(0);
        match self.refuses.load(Ordering::Acquire) {
            true => done(Err(WriteError::Full("a test".to_owned()))),
            false => self.store.submit(part, done),
        }
    }
}

/// Returns a store, a holding store over it, and a shard in that one with a count of 8, for which a base has begun.
fn begun() -> (Arc<dyn Store>, Arc<Handed<Holding>>, Arc<Durable>) {
    let store: Arc<dyn Store> = Arc::new(Embedded::in_memory());
    let holding = Holding::over(&store);
    let durable = Arc::new(opened(&(holding.clone() as Arc<dyn Store>), 1));
    drop(led(&durable));
    (0..8).for_each(|_| drop(add(&durable, 0, b"a", 1).unwrap()));
    holding.wait_for(1);
    (store, holding, durable)
}

#[test]
fn a_base_that_was_given_up_is_not_named() {
    let (store, holding, durable) = begun();
    // The server catches up, and begins another base.
    holding.loses.store(true, Ordering::Release);
    assert_eq!(add(&durable, 0, b"a", 1), Ok(vec![MapReply::Count(9)]));
    holding.wait_for(2);
    holding.let_go();
    thread::sleep(Duration::from_millis(200));
    durable.stop();
    let durable = Arc::new(opened(&store, 1));
    assert_eq!(held(&durable, 0, b"a"), Ok(vec![MapReply::Count(9)]));
}

#[test]
fn a_base_that_fails_is_begun_again_a_while_later() {
    let (store, holding, durable) = begun();
    holding.refuses.store(true, Ordering::Release);
    let failed = Instant::now();
    holding.let_go();
    assert_eq!(add(&durable, 0, b"a", 1), Ok(vec![MapReply::Count(9)]));
    holding.wait_for(1);
    let paused = holding.came.lock().unwrap().duration_since(failed);
    assert!(paused >= PAUSE, "{paused:?}");
    holding.refuses.store(false, Ordering::Release);
    holding.let_go();
    let end = Instant::now() + PATIENCE;
    while store.read_all(b"batch/").unwrap().pairs.len() > 7 {
        assert!(Instant::now() < end, "no base is made");
        thread::sleep(Duration::from_millis(5));
    }
    assert_eq!(held(&durable, 0, b"a"), Ok(vec![MapReply::Count(9)]));
}

#[test]
fn a_compaction_tells_of_bases_that_found_no_room() {
    let (_, holding, durable) = begun();
    holding.refuses.store(true, Ordering::Release);
    let told = holding.let_go_during(|| durable.compact());
    assert!(matches!(told, Err(CompactFault::NoBase(1))), "{told:?}");
    holding.refuses.store(false, Ordering::Release);
    holding.let_go_during(|| durable.compact()).unwrap();
    assert_eq!(held(&durable, 0, b"a"), Ok(vec![MapReply::Count(8)]));
}

/// Reading 59 batches takes as long as reading this base, though the log may have 7.
#[test]
fn a_large_base_is_replaced_once_its_log_takes_as_long_to_read() {
    let store: Arc<dyn Store> = Arc::new(Embedded::in_memory());
    let durable = Arc::new(opened(&store, 1));
    drop(led(&durable));
    let text = MapRequest::Put(b"text".as_slice().into(), vec![b'x'; 60_000]);
    write(&durable, 0, vec![text]).unwrap();
    durable.compact().unwrap();
    let batches = || store.read_all(b"batch/").unwrap().pairs.len();
    until("the batch is deleted", || batches() == 0);
    (0..50).for_each(|_| drop(add(&durable, 0, b"a", 1).unwrap()));
    thread::sleep(PAUSE);
    assert_eq!(batches(), 50);
    (0..20).for_each(|_| drop(add(&durable, 0, b"a", 1).unwrap()));
    until("a base is made", || batches() < 50);
    assert_eq!(held(&durable, 0, b"a"), Ok(vec![MapReply::Count(70)]));
}
