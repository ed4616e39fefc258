//! Callers that wait for a shard: parked threads, and tasks that are polled by hand.
mod common;

use common::{server_id, shard_id};
use durkenzo::word::Change;
use durkenzo::{AdmitFault, Board, ChangeFault, Mode, Pass, Permit, Stand};
use std::future::Future;
use std::pin::pin;
use std::sync::atomic::{AtomicBool, AtomicUsize, Ordering};
use std::sync::Arc;
use std::task::{Context, Poll, Wake, Waker};
use std::thread;
use std::time::Duration;

const SHORT: Duration = Duration::from_millis(5);
/// Longer than a crowded machine makes anybody wait.
const LONG: Duration = Duration::from_secs(600);

/// Counts how often a task was woken.
#[derive(Default)]
struct Woken(AtomicUsize);

impl Wake for Woken {
    fn wake(self: Arc<Woken>) {
        self.0.fetch_add(1, Ordering::SeqCst);
    }
}

impl Woken {
    fn count(&self) -> usize {
        self.0.load(Ordering::SeqCst)
    }
}

/// Polls the future for this task.
fn poll<F: Future>(future: std::pin::Pin<&mut F>, task: &Arc<Woken>) -> Poll<F::Output> {
    let waker = Waker::from(task.clone());
    future.poll(&mut Context::from_waker(&waker))
}

/// Runs the future on this thread.
fn block_on<F: Future>(future: F) -> F::Output {
    struct Unparks(thread::Thread);
    impl Wake for Unparks {
        fn wake(self: Arc<Unparks>) {
            self.0.unpark();
        }
    }
    let waker = Waker::from(Arc::new(Unparks(thread::current())));
    let (mut future, mut context) = (pin!(future), Context::from_waker(&waker));
    loop {
        match future.as_mut().poll(&mut context) {
            Poll::Ready(output) => return output,
            Poll::Pending => thread::park(),
        }
    }
}

/// Makes a board of two servers. The first one executes the requests of all shards.
fn board(shards: u16) -> Board<u64> {
    let board = Board::builder()
        .servers(2)
        .build((0..shards).map(|_| 0))
        .unwrap();
    for shard in board.shards() {
        board.control().assign(shard, server_id(1)).unwrap();
    }
    board
}

fn passes<const COUNT: usize>(board: &Board<u64>) -> [Pass<u64>; COUNT] {
    std::array::from_fn(|_| board.pass(server_id(1)).unwrap())
}

#[test]
fn a_limited_wait_ends_with_its_time() {
    let board = board(2);
    let [mut one, mut two] = passes(&board);
    let held = one.admit(shard_id(0), Mode::Direct).unwrap();
    let is_held = |fault| matches!(fault, AdmitFault::Admitted(read) if read.admitted);
    assert!(is_held(
        two.admit_for(shard_id(0), Mode::Direct, SHORT).unwrap_err()
    ));
    let with = two.with_for(shard_id(0), Mode::Direct, SHORT, |_| ());
    assert!(is_held(with.unwrap_err()));
    assert!(is_held(
        two.try_with(shard_id(0), Mode::Direct, |_| ()).unwrap_err()
    ));
    let control = board.control();
    let is_busy = |made| matches!(made, Err(ChangeFault::Busy(_)));
    assert!(is_busy(control.migrate_for(
        shard_id(0),
        server_id(2),
        SHORT
    )));
    assert!(is_busy(control.try_migrate(shard_id(0), server_id(2))));
    assert!(is_busy(control.change_for(
        shard_id(0),
        Change::Pause,
        SHORT
    )));
    // Another shard is free.
    drop(two.admit_for(shard_id(1), Mode::Direct, SHORT).unwrap());
    drop(held);
    assert_eq!(
        two.with_for(shard_id(0), Mode::Direct, LONG, |body| **body),
        Ok(0)
    );
    assert_eq!(
        two.try_with(shard_id(0), Mode::Direct, |body| **body),
        Ok(0)
    );
    control.try_migrate(shard_id(0), server_id(2)).unwrap();
    control
        .migrate_for(shard_id(0), server_id(1), LONG)
        .unwrap();
    assert_eq!(two.look(shard_id(0)).unwrap().stand, Stand::Serving(1));
}

#[test]
fn a_wait_without_hope_is_refused_at_once() {
    let board = board(1);
    let mut other = board.pass(server_id(2)).unwrap();
    let refused = other.admit_blocking(shard_id(0), Mode::Direct);
    assert!(matches!(refused, Err(AdmitFault::NotExecutor(_))));
    drop(refused);
    let refused = block_on(other.admit_async(shard_id(9), Mode::Direct));
    assert!(matches!(refused, Err(AdmitFault::UnknownShard)));
    drop(refused);
    let moved = block_on(board.control().migrate_async(shard_id(0), server_id(1)));
    assert_eq!(moved, Err(ChangeFault::SameServer));
}

#[test]
fn the_end_of_an_admission_wakes_the_first_who_waits() {
    let board = board(1);
    let [mut one, mut two, mut three] = passes(&board);
    let [first, second] = [(); 2].map(|()| Arc::new(Woken::default()));
    let held = one.admit(shard_id(0), Mode::Direct).unwrap();
    let mut early = pin!(two.admit_async(shard_id(0), Mode::Direct));
    let mut late = pin!(three.admit_async(shard_id(0), Mode::Direct));
    assert!(poll(early.as_mut(), &first).is_pending());
    assert!(poll(late.as_mut(), &second).is_pending());
    assert_eq!((first.count(), second.count()), (0, 0));
    drop(held);
    assert_eq!((first.count(), second.count()), (1, 0));
    let Poll::Ready(Ok(mut body)) = poll(early, &first) else {
        panic!("the shard is free");
    };
    *body += 1;
    assert!(poll(late.as_mut(), &second).is_pending());
    Permit::finish(body);
    assert_eq!((first.count(), second.count()), (1, 1));
    assert!(matches!(poll(late, &second), Poll::Ready(Ok(body)) if *body == 1));
}

#[test]
fn who_gives_up_after_it_was_woken_wakes_the_next() {
    let board = board(1);
    let [mut one, mut two, mut three] = passes(&board);
    let [first, second] = [(); 2].map(|()| Arc::new(Woken::default()));
    let held = one.admit(shard_id(0), Mode::Direct).unwrap();
    let mut early = Box::pin(two.admit_async(shard_id(0), Mode::Direct));
    let mut late = pin!(three.admit_async(shard_id(0), Mode::Direct));
    assert!(poll(early.as_mut(), &first).is_pending());
    assert!(poll(late.as_mut(), &second).is_pending());
    drop(held);
    drop(early);
    assert_eq!((first.count(), second.count()), (1, 1));
    assert!(matches!(poll(late, &second), Poll::Ready(Ok(_))));
}

#[test]
fn who_gives_up_earlier_is_not_woken() {
    let board = board(1);
    let [mut one, mut two, mut three] = passes(&board);
    let [first, second] = [(); 2].map(|()| Arc::new(Woken::default()));
    let held = one.admit(shard_id(0), Mode::Direct).unwrap();
    let mut early = Box::pin(two.admit_async(shard_id(0), Mode::Direct));
    let mut late = pin!(three.admit_async(shard_id(0), Mode::Direct));
    assert!(poll(early.as_mut(), &first).is_pending());
    assert!(poll(late.as_mut(), &second).is_pending());
    drop(early);
    drop(held);
    assert_eq!((first.count(), second.count()), (0, 1));
    assert!(matches!(poll(late, &second), Poll::Ready(Ok(_))));
}

#[test]
fn a_change_wakes_who_waits_behind_it() {
    let board = board(1);
    let control = board.control();
    let [mut one, mut two] = passes(&board);
    let [first, second] = [(); 2].map(|()| Arc::new(Woken::default()));
    let held = one.admit(shard_id(0), Mode::Direct).unwrap();
    let mut paused = pin!(control.change_async(shard_id(0), Change::Pause));
    let mut late = pin!(two.admit_async(shard_id(0), Mode::Direct));
    assert!(poll(paused.as_mut(), &first).is_pending());
    assert!(poll(late.as_mut(), &second).is_pending());
    drop(held);
    assert_eq!((first.count(), second.count()), (1, 0));
    assert_eq!(poll(paused, &first), Poll::Ready(Ok(())));
    assert_eq!(second.count(), 1);
    let refused = poll(late, &second);
    assert!(matches!(refused, Poll::Ready(Err(AdmitFault::Paused(_)))));
}

#[test]
fn the_end_of_a_pass_ends_the_wait_for_its_forgotten_permit() {
    let board = board(1);
    let [mut one, mut two] = passes(&board);
    let task = Arc::new(Woken::default());
    std::mem::forget(one.admit(shard_id(0), Mode::Direct).unwrap());
    let mut late = pin!(two.admit_async(shard_id(0), Mode::Direct));
    assert!(poll(late.as_mut(), &task).is_pending());
    drop(one);
    assert_eq!(task.count(), 1);
    assert!(matches!(poll(late, &task), Poll::Ready(Ok(_))));
}

#[test]
fn a_migration_waits_without_a_thread() {
    let board = board(1);
    let control = board.control();
    let [mut one] = passes(&board);
    let task = Arc::new(Woken::default());
    let held = one.admit(shard_id(0), Mode::Direct).unwrap();
    let mut moved = pin!(control.migrate_async(shard_id(0), server_id(2)));
    assert!(poll(moved.as_mut(), &task).is_pending());
    drop(held);
    assert_eq!(task.count(), 1);
    assert_eq!(poll(moved, &task), Poll::Ready(Ok(())));
    assert_eq!(one.look(shard_id(0)).unwrap().stand, Stand::Serving(2));
}

#[test]
fn futures_may_go_to_other_threads() {
    fn is_send<T: Send>(_: &T) {}
    let board = board(1);
    let (control, [mut pass]) = (board.control(), passes(&board));
    is_send(&control.migrate_async(shard_id(0), server_id(2)));
    is_send(&control.change_async(shard_id(0), Change::Pause));
    is_send(&pass.admit_async(shard_id(0), Mode::Direct));
}

/// Threads, tasks and a control all wait for one shard. If a wake were lost, the test wouldn't end.
#[test]
fn no_wake_is_lost() {
    const ROUNDS: u64 = 300;
    let board = board(1);
    let is_done = AtomicBool::new(false);
    let counted: u64 = thread::scope(|scope| {
        let (board, is_done) = (&board, &is_done);
        let counts: Vec<_> = (0..6)
            .map(|at| scope.spawn(move || counted(board, at, ROUNDS)))
            .collect();
        let pauses = scope.spawn(move || {
            let control = board.control();
            while !is_done.load(Ordering::Relaxed) {
                control
                    .change_for(shard_id(0), Change::Pause, LONG)
                    .unwrap();
                block_on(control.change_async(shard_id(0), Change::Resume)).unwrap();
                thread::yield_now();
            }
        });
        let counted = counts.into_iter().map(|it| it.join().unwrap()).sum();
        is_done.store(true, Ordering::Relaxed);
        pauses.join().unwrap();
        counted
    });
    assert_eq!(counted, 6 * ROUNDS);
    assert_eq!(board.into_bodies().unwrap(), [counted]);
}

/// Counts in the body, in another way in each thread. Returns how often.
fn counted(board: &Board<u64>, at: u64, rounds: u64) -> u64 {
    let [mut pass] = passes(board);
    let mut done = 0;
    while done < rounds {
        let counted = match at % 3 {
            0 => pass.with(shard_id(0), Mode::Direct, |body| **body += 1),
            1 => pass.with_for(shard_id(0), Mode::Direct, LONG, |body| **body += 1),
            _ => block_on(async {
                let mut body = pass.admit_async(shard_id(0), Mode::Direct).await?;
                *body += 1;
                thread::yield_now();
                Ok(())
            }),
        };
        match counted {
            Ok(()) => done += 1,
            Err(AdmitFault::Paused(_)) => thread::yield_now(),
            Err(fault) => panic!("{fault}"),
        }
    }
    done
}
