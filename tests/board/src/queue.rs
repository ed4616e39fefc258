//! The queue of jobs on a board.
ghost use Rattle.std.specs.Arc.{arc_value};
ghost use Rattle.std.specs.Prelude.{◌≡◌, None};

use crate::calls::{executed, first_shard};
use crate::fixture::{Fixture, left_at};
use sm_body::bytes::Bytes;
use sm_body::service::Service;
use sm_queue::{Job, JobQueue, Reply, Request};
use sm_ranges::server_id::ServerId;
use sm_rule::board::Board;
use sm_rule::chair::Chair;
use sm_rule::pass::Pass;
use std::alloc::{AllocError, Global};
use std::process::Abort;
use std::sync::{Arc, Wait};
use std::test::Fail;
use std::thread;
use std::thread::Threads;

// The only shard of a board of queues; server 1 owns it.
fn queue<R: Abort>(rt: &R, alloc: Global) -> Fixture<JobQueue> {
    let queues = vec![in alloc; JobQueue::new(alloc, 1_000)]
        .ok()
        .expect(rt, "memory");
    Fixture::owned(rt, alloc, queues)
}

fn push_of(alloc: Global, key: &[u8], work: &[u8]) -> Result<Request, AllocError> {
    let key = Bytes::new(alloc, key)?;
    let work = Bytes::new(alloc, work)?;
    Ok(Request::Push(Job { key, work }))
}

// Pushes this job under an admission of the pass, and whether it then waits.
fn pushes(fixture: &mut Fixture<JobQueue>, alloc: Global, key: &[u8], work: &[u8]) -> bool {
    let Ok(push) = push_of(alloc, key, work) else {
        return false;
    };
    matches!(fixture.serve(push), Some(Reply::Queued))
}

// Takes a job of the key under an admission of the pass, and whether this one is given out.
fn gives(fixture: &mut Fixture<JobQueue>, alloc: Global, key: &[u8], work: &[u8]) -> bool {
    let Ok(key) = Bytes::new(alloc, key) else {
        return false;
    };
    match fixture.serve(Request::Take(key)) {
        Some(Reply::Given(job)) => job.work.as_bytes() == work,
        _ => false,
    }
}

#[test]
fn job_comes_back(rt: HostRuntime) -> Result<(), Fail> {
    let alloc = rt.alloc();
    let (key, work) = (Bytes::new(alloc, b"oven")?, Bytes::new(alloc, b"bake")?);
    let mut queue = JobQueue::new(alloc, 100);
    let pushed = queue.apply(Request::Push(Job { key, work }));
    assert!(rt; matches!(pushed, Ok(Reply::Queued)));
    let Ok(Reply::Given(job)) = queue.apply(Request::Take(Bytes::new(alloc, b"oven")?)) else {
        return Err("a job".into());
    };
    assert_eq!(rt; job.work.as_bytes(), b"bake".as_slice());
    Ok(())
}

// Each key has its own jobs, the oldest first.
#[test]
fn keys_have_their_jobs(rt: HostRuntime) {
    let alloc = rt.alloc();
    let mut fixture = queue(&rt, alloc);
    assert!(rt; pushes(&mut fixture, alloc, b"oven", b"bake"));
    assert!(rt; pushes(&mut fixture, alloc, b"oven", b"cool"));
    assert!(rt; !gives(&mut fixture, alloc, b"shop", b"bake"));
    assert!(rt; gives(&mut fixture, alloc, b"oven", b"bake"));
}

// What was pushed at one server is taken at the next, and the first one executes no more.
#[test]
fn jobs_migrate(rt: HostRuntime) {
    let (alloc, next) = (rt.alloc(), ServerId::of(2));
    let mut fixture = queue(&rt, alloc);
    assert!(rt; pushes(&mut fixture, alloc, b"oven", b"bake"));
    assert!(rt; fixture.migrate(next));
    assert!(rt; !gives(&mut fixture, alloc, b"oven", b"bake"));
    fixture.go_on_as(Some(next));
    assert!(rt; gives(&mut fixture, alloc, b"oven", b"bake"));
}

// A pass that is sent to a thread with its board.
#[derive(Drop)]
struct Worker {
    board: Arc<Board<JobQueue>>,
    pass: Pass<JobQueue>,
    ghost tied: { pass.board ≡ arc_value board },
    ghost free: { pass.held ≡ None },
}

impl Worker {
    // Tries so many pushes, and gives the number of those that are applied.
    fn pushes(mut self, alloc: Global, tries: u32) -> usize {
        let mut made = 0usize;
        for _ in 0..tries {
            if self.pushes_one(alloc) {
                made = made.saturating_add(1);
            }
        }
        made
    }

    fn pushes_one(&mut self, alloc: Global) -> bool {
        let Ok(push) = push_of(alloc, b"oven", b"bake") else {
            return false;
        };
        if self.board.count() == 0 {
            return false;
        }
        matches!(
            executed(&self.board, &mut self.pass, first_shard(), push),
            Some(Ok(Reply::Queued))
        )
    }
}

fn new_worker<R: Abort>(rt: &R, board: &Arc<Board<JobQueue>>) -> Worker {
    let pass = board.pass(Some(ServerId::of(1)));
    Worker {
        board: Arc::try_clone(board).ok().expect(rt, "memory"),
        pass,
    }
}

// How many pushes two threads of server 1 have the first shard apply, of so many tries each.
fn pushed_by_two<R: Threads + Wait + Abort>(
    rt: &R,
    alloc: Global,
    board: &Arc<Board<JobQueue>>,
    tries: u32,
) -> usize {
    let first = new_worker(rt, board);
    let second = new_worker(rt, board);
    let one_thread = thread::spawn(rt, move || first.pushes(alloc, tries))
        .ok()
        .expect(rt, "a thread");
    let other_thread = thread::spawn(rt, move || second.pushes(alloc, tries))
        .ok()
        .expect(rt, "a thread");
    one_thread.join(rt).saturating_add(other_thread.join(rt))
}

// How many jobs the first shard keeps of a board that no thread has any more.
fn kept_alone<R: Abort>(
    rt: &R,
    board: Arc<Board<JobQueue>>,
    chair: Chair<JobQueue>,
) -> Option<usize>
    requires { chair.board ≡ arc_value board }
{
    let board = Arc::try_unwrap(board)
        .ok()
        .expect(rt, "the threads have let the board go");
    let last = board.pass(None);
    let left = left_at(&board.close(chair, last), first_shard())?;
    if left.count == 1 {
        Some(left.body?.1)
    } else {
        None
    }
}

// Two threads push to one queue, which then has each job that either was told of.
#[test]
fn two_threads_push(rt: HostRuntime) {
    let alloc = rt.alloc();
    let (board, chair, _) = queue(&rt, alloc).parts();
    let board = Arc::new(alloc, board).ok().expect(&rt, "memory");
    let made = pushed_by_two(&rt, alloc, &board, 100);
    assert!(rt; made > 0);
    assert!(rt; kept_alone(&rt, board, chair) == Some(made));
}
