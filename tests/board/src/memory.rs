//! Boards, bodies and bytes where memory is refused: the same call made again does its work.
use sm_body::{Boxed, Bytes};
use sm_queue::{Job, JobQueue, Reply, Request};
use sm_ranges::ServerId;
use sm_rule::{Board, Chair, MakeFault};
use sm_service::{ApplyFault, CounterText, Service};
use std::alloc::{AllocError, Global};
use std::process::Abort;

// Makes a board of two shards. The bodies are gone where that is refused.
fn made<R: Abort>(
    rt: &R,
    alloc: Global,
) -> Result<(Board<CounterText>, Chair<CounterText>), MakeFault> {
    let bodies = vec![in alloc; CounterText::new(alloc, 9), CounterText::new(alloc, 9)]
        .ok()
        .expect(rt, "bodies");
    Board::make(alloc, bodies, 1_000)
}

// The board, made again where memory is refused.
fn board_in_two<R: Abort>(rt: &R, alloc: Global) -> Board<CounterText> {
    match made(rt, alloc) {
        Ok((board, _)) => board,
        Err(fault) => {
            assert!(rt; fault == MakeFault::NoMemory);
            made(rt, alloc).ok().expect(rt, "the board").0
        }
    }
}

fn bytes_in_two<R: Abort>(rt: &R, alloc: Global, bytes: &[u8]) -> Bytes {
    match Bytes::new(alloc, bytes) {
        Ok(bytes) => bytes,
        Err(AllocError) => Bytes::new(alloc, bytes).ok().expect(rt, "the bytes"),
    }
}

// A queue behind a pointer. The queue is gone where that is refused.
fn boxed_in_two<R: Abort>(rt: &R, alloc: Global) -> Boxed<JobQueue> {
    match Boxed::new(alloc, JobQueue::new(alloc, 9)) {
        Ok(boxed) => boxed,
        Err(AllocError) => Boxed::new(alloc, JobQueue::new(alloc, 9))
            .ok()
            .expect(rt, "the queue"),
    }
}

// What the body replies. Where memory is refused, it keeps no more than before, and applies the request that came back.
fn reply_in_two<R: Abort>(rt: &R, body: &mut Boxed<JobQueue>, request: Request) -> Reply {
    let kept = body.kept();
    match body.apply(request) {
        Ok(reply) => reply,
        Err((back, fault)) => {
            assert!(rt; fault == ApplyFault::NoMemory && body.kept() == kept);
            body.apply(back).ok().expect(rt, "the reply")
        }
    }
}

fn pushes<R: Abort>(rt: &R, alloc: Global, body: &mut Boxed<JobQueue>, work: &[u8]) {
    let key = bytes_in_two(rt, alloc, b"oven");
    let job = Job {
        key,
        work: bytes_in_two(rt, alloc, work),
    };
    assert!(rt; matches!(reply_in_two(rt, body, Request::Push(job)), Reply::Queued));
}

fn takes<R: Abort>(rt: &R, alloc: Global, body: &mut Boxed<JobQueue>, work: &[u8]) {
    let taken = Request::Take(bytes_in_two(rt, alloc, b"oven"));
    let is_it = match reply_in_two(rt, body, taken) {
        Reply::Given(job) => job.work.as_bytes() == work,
        _ => false,
    };
    assert!(rt; is_it);
}

// With each allocation refused in turn (`tools/run-tests` does it). A move into fresh memory that is refused leaves the jobs where
// they are.
#[test]
fn refused_memory_changes_nothing(rt: HostRuntime) {
    let alloc = rt.alloc();
    assert!(rt; board_in_two(&rt, alloc).count() == 2);
    let mut body = boxed_in_two(&rt, alloc);
    pushes(&rt, alloc, &mut body, b"bake");
    pushes(&rt, alloc, &mut body, b"cool");
    body.settle(ServerId::of(1));
    takes(&rt, alloc, &mut body, b"bake");
    assert!(rt; body.checkpoint().is_ok());
    takes(&rt, alloc, &mut body, b"cool");
    assert!(rt; body.first() == 3 && body.kept() == 1);
}
