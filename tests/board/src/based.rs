//! Checkpoints of the bodies on a board.
use crate::fixture::{Fixture, Left};
use crate::rule::{left, serving};
use sm_ranges::key::Key;
use sm_ranges::server_id::ServerId;
use sm_service::{CounterText, Reply, Request};
use std::alloc::Global;
use std::process::Abort;

// The only shard of a board, whose body may keep so many requests; server 1 owns it.
pub(crate) fn of_limit<R: Abort>(rt: &R, alloc: Global, limit: usize) -> Fixture<CounterText> {
    let bodies = vec![in alloc; CounterText::new(alloc, limit)]
        .ok()
        .expect(rt, "memory");
    Fixture::owned(rt, alloc, bodies)
}

fn inc_of(alloc: Global) -> Option<Request> {
    Some(Request::Inc(Key::new(alloc, b"a").ok()?, 7))
}

fn count_of(reply: Option<Reply>) -> Option<i64> {
    match reply {
        Some(Reply::Count(count)) => Some(count),
        _ => None,
    }
}

// Counts 7 more under an admission of the pass, and tells the sum; none where that isn't done.
fn counted(fixture: &mut Fixture<CounterText>, alloc: Global) -> Option<i64> {
    count_of(fixture.serve(inc_of(alloc)?))
}

// The same, where the body applies the request before the admission is finished.
fn counted_before_the_end(fixture: &mut Fixture<CounterText>, alloc: Global) -> Option<i64> {
    count_of(fixture.serve_before_the_end(inc_of(alloc)?))
}

// A checkpoint between two admissions: the later reply counts on, and so do the places of the requests.
#[test]
fn body_comes_home_based(rt: HostRuntime) {
    let alloc = rt.alloc();
    let mut fixture = of_limit(&rt, alloc, 100);
    assert!(rt; counted(&mut fixture, alloc) == Some(7));
    assert!(rt; counted(&mut fixture, alloc) == Some(14));
    assert!(rt; fixture.checkpoint());
    assert!(rt; counted(&mut fixture, alloc) == Some(21));
    let based = Left {
        count: 1,
        record: serving(ServerId::of(1), false, 9),
        body: Some((2, 1)),
    };
    assert!(rt; fixture.end() == Some(based));
}

// A shard that keeps as many requests as it may has room again after a checkpoint.
#[test]
fn full_shard_has_room_again(rt: HostRuntime) {
    let alloc = rt.alloc();
    let mut fixture = of_limit(&rt, alloc, 1);
    assert!(rt; counted(&mut fixture, alloc) == Some(7));
    assert!(rt; counted(&mut fixture, alloc) == None);
    assert!(rt; fixture.checkpoint());
    assert!(rt; counted(&mut fixture, alloc) == Some(14));
}

// A checkpoint of a body that keeps nothing is an admission and its end, and the body stays as it was.
#[test]
fn nothing_is_based(rt: HostRuntime) {
    let mut fixture = of_limit(&rt, rt.alloc(), 1);
    assert!(rt; fixture.checkpoint());
    assert!(rt; fixture.end() == Some(left(3, 0)));
}

// A request that the body applies before the admission is finished is kept as one that `execute` has it apply.
#[test]
fn applies_before_the_end(rt: HostRuntime) {
    let alloc = rt.alloc();
    let mut fixture = of_limit(&rt, alloc, 1);
    assert!(rt; counted_before_the_end(&mut fixture, alloc) == Some(7));
    assert!(rt; fixture.end() == Some(left(3, 1)));
}
