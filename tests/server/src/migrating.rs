//! Envelopes that come while a shard moves.
use crate::calls::{
    first_body, get_of, is_text_at, new_full, new_owner, place_of, put_of, shard, told,
};
use crate::server::Server;
use sm_ownership::change::Change;
use sm_ownership::mode::Mode;
use sm_ranges::{ServerId, ShardId};
use sm_service::Service;
use std::process::Abort;

// Has the next server prepared for the shard, and the owner forward to it.
fn hand_over<S: Service, R: Abort>(rt: &R, server: &mut Server<S>, k: ShardId, next: ServerId) {
    assert!(rt; server.change(k, Change::PrepareAddShard(next)));
    assert!(rt; server.change(k, Change::PrepareDropShard));
}

// Gives the shard to the next server, has the old owner drop it, and goes on as the new one.
fn take_over<S: Service, R: Abort>(rt: &R, server: &mut Server<S>, k: ShardId, next: ServerId) {
    assert!(rt; server.change(k, Change::AddShard));
    assert!(rt; server.change(k, Change::DropShard));
    server.go_on_as(next);
}

// The next server's first answer has moved the shard's body into fresh memory, where nothing is dead.
#[test]
fn new_server_adopts(rt: HostRuntime) {
    let (alloc, k) = (rt.alloc(), shard(0));
    let mut server = new_owner(&rt, alloc, 100);
    assert!(rt; place_of(server.serve(k, put_of(&rt, alloc, b"x"))) == Some(0));
    assert!(rt; place_of(server.serve(k, put_of(&rt, alloc, b"yy"))) == Some(1));
    hand_over(&rt, &mut server, k, ServerId::of(2));
    take_over(&rt, &mut server, k, ServerId::of(2));
    assert!(rt; is_text_at(told(server.serve(k, get_of(&rt, alloc))), 2, b"yy"));
    assert!(rt; first_body(&rt, server.rows()).machine().dead() == 0);
}

// The owner sends the request on to the next server, with one hop more. What the place is of what that one makes of it.
fn place_sent_on<S: Service, R: Abort>(
    rt: &R,
    server: &mut Server<S>,
    k: ShardId,
    request: S::Request,
    owner: ServerId,
    next: ServerId,
) -> Option<u64> {
    let (to, envelope) = server.sent_on(k, request).expect(rt, "a forward");
    assert!(rt; to == next && envelope.hops() == 1);
    assert!(rt; envelope.mode() == Mode::Forwarded(owner));
    server.go_on_as(next);
    place_of(server.serve_again(envelope))
}

// The owner forwards what it is asked, with one hop more, and the next server executes it.
#[test]
fn is_forwarded_in_a_migration(rt: HostRuntime) {
    let (alloc, one, two) = (rt.alloc(), ServerId::of(1), ServerId::of(2));
    let mut server = new_owner(&rt, alloc, 100);
    hand_over(&rt, &mut server, shard(0), two);
    let request = get_of(&rt, alloc);
    assert!(rt; place_sent_on(&rt, &mut server, shard(0), request, one, two) == Some(0));
}

// The last of all shards moves from the first server to the last one, and back. Each forwards to the other.
#[test]
fn is_forwarded_at_the_limits(rt: HostRuntime) {
    let (alloc, k) = (rt.alloc(), shard(4_095));
    let (first, last) = (ServerId::of(1), ServerId::of(4_095));
    let mut server = new_full(&rt, alloc);
    assert!(rt; server.change(k, Change::Assign(first)));
    hand_over(&rt, &mut server, k, last);
    let request = get_of(&rt, alloc);
    assert!(rt; place_sent_on(&rt, &mut server, k, request, first, last) == Some(0));
    take_over(&rt, &mut server, k, last);
    hand_over(&rt, &mut server, k, first);
    let request = get_of(&rt, alloc);
    assert!(rt; place_sent_on(&rt, &mut server, k, request, last, first) == Some(1));
}
