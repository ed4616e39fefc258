use crate::based::of_limit;
use crate::rule::left;
use sm_ranges::key::Key;
use sm_service::{ApplyFault, Reply, Request};
use std::alloc::Global;
use std::process::Abort;

fn inc_of<R: Abort>(rt: &R, alloc: Global) -> Request {
    Request::Inc(Key::new(alloc, b"a").ok().expect(rt, "a key"), 7)
}

// A request is applied and kept; the one above the limit is refused, and neither it nor the shard is lost.
#[test]
fn executes_up_to_the_limit(rt: HostRuntime) {
    let alloc = rt.alloc();
    let mut fixture = of_limit(&rt, alloc, 1);
    let counted = fixture.execute(inc_of(&rt, alloc));
    assert!(rt; matches!(counted, Some(Ok(Reply::Count(7)))));
    let refused = fixture.execute(inc_of(&rt, alloc));
    assert!(rt; matches!(refused, Some(Err(ApplyFault::KeptFull))));
    // The refused request took an admission and its end, and nothing else.
    assert!(rt; fixture.end() == Some(left(5, 1)));
}
