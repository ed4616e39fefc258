//! What a server does where memory is refused.
use crate::calls::{first_body, get_of, is_text_at, new_owner, place_of, put_of, shard, told};
use crate::refusing::Refusing;
use crate::server::Server;
use crate::serving::place_past_full;
use sm_ownership::change::Change;
use sm_ranges::ServerId;
use sm_server::CheckpointFault;
use sm_service::{Reply, Service};
use std::alloc::Global;
use std::process::Abort;

// With each allocation of `serve` refused in turn (`tools/run-tests` does it), the places and the replies stay the same,
// and the shard keeps what was answered.
#[test]
fn hands_back_what_memory_refuses(rt: HostRuntime) {
    let (alloc, k) = (rt.alloc(), shard(0));
    let mut server = new_owner(&rt, alloc, 3);
    let first = told(server.serve_in_two(&rt, k, put_of(&rt, alloc, b"one")));
    assert!(rt; matches!(first, Some((0, Reply::Done))));
    let second = told(server.serve_in_two(&rt, k, put_of(&rt, alloc, b"three")));
    assert!(rt; matches!(second, Some((1, Reply::Done))));
    let third = told(server.serve_in_two(&rt, k, get_of(&rt, alloc)));
    assert!(rt; is_text_at(third, 2, b"three"));
    assert!(rt; first_body(&rt, server.rows()).kept() == 3);
}

// Server 1, which shard 0 is assigned to. The shard keeps one request, as many as it may, and its first checkpoint is refused memory.
fn new_refused<R: Abort>(rt: &R, alloc: Global) -> Server<Refusing> {
    let bodies = vec![in alloc; Refusing::new(alloc, 1), Refusing::new(alloc, 1)]
        .ok()
        .expect(rt, "bodies");
    let mut server = Server::new(rt, alloc, bodies);
    assert!(rt; server.change(shard(0), Change::Assign(ServerId::of(1))));
    assert!(rt; place_of(server.serve(shard(0), put_of(rt, alloc, b"one"))) == Some(0));
    assert!(rt; server.checkpoint(rt, shard(0)) == Some(CheckpointFault::NoMemory));
    server
}

// A checkpoint that memory refuses leaves the shard idle and full. Once it is made, the shard answers again.
#[test]
fn checkpoint_is_made_again(rt: HostRuntime) {
    let (alloc, k) = (rt.alloc(), shard(0));
    let mut server = new_refused(&rt, alloc);
    assert!(rt; !server.is_admitted(&rt, k));
    assert!(rt; place_past_full(&rt, &mut server, k, get_of(&rt, alloc)) == Some(1));
    assert!(rt; server.checkpoint(&rt, k).is_none());
    assert!(rt; is_text_at(told(server.serve(k, get_of(&rt, alloc))), 2, b"one"));
}

// A checkpoint that memory refuses leaves the list that the shard keeps.
#[test]
fn refused_checkpoint_keeps_all(rt: HostRuntime) {
    let body = first_body(&rt, new_refused(&rt, rt.alloc()).rows());
    assert!(rt; body.first() == 0 && body.kept() == 1);
}
