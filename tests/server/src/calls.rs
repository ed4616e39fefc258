//! What the tests do at a server.
ghost use Rattle.std.specs.Prelude.{◌≡◌, ◌<◌, []};

use crate::running::LIMIT;
use crate::server::{Served, Server};
use sm_ownership::change::Change;
use sm_ownership::record::Record;
use sm_ranges::{Key, ServerId, ShardId};
use sm_service::{Bytes, CounterText, Reply, Request, Service};
use std::alloc::Global;
use std::process::Abort;
use test_fixture::{layout_of, new_bodies};

// The shard with this number.
pub(crate) fn shard(number: u16) -> ShardId
    requires { number < 4096 }
    ensures { result ≡ number }
{
    let Some(k) = ShardId::new(number) else {
        unreachable!()
    };
    k
}

// Server 1 of two shards, each of which keeps at most so many requests.
pub(crate) fn new_server<R: Abort>(rt: &R, alloc: Global, limit: usize) -> Server<CounterText> {
    let bodies = vec![in alloc;
        CounterText::new(alloc, limit),
        CounterText::new(alloc, limit),
    ]
    .ok()
    .expect(rt, "bodies");
    Server::new(rt, alloc, bodies)
}

// The same, which shard 0 is assigned to.
pub(crate) fn new_owner<R: Abort>(rt: &R, alloc: Global, limit: usize) -> Server<CounterText> {
    let mut server = new_server(rt, alloc, limit);
    assert!(rt; server.change(shard(0), Change::Assign(ServerId::of(1))));
    server
}

// Server 1 of the most shards that there are, none of which is its yet. The last one has the key of the requests below.
pub(crate) fn new_full<R: Abort>(rt: &R, alloc: Global) -> Server<CounterText> {
    let bodies = new_bodies(alloc, 4_096, LIMIT).ok().expect(rt, "bodies");
    let layout = layout_of(alloc, 4_096).expect(rt, "a layout");
    Server::of(rt, alloc, bodies, layout)
}

pub(crate) fn get_of<R: Abort>(rt: &R, alloc: Global) -> Request {
    Request::Get(Key::new(alloc, b"a").ok().expect(rt, "a key"))
}

pub(crate) fn put_of<R: Abort>(rt: &R, alloc: Global, text: &[u8]) -> Request {
    let key = Key::new(alloc, b"a").ok().expect(rt, "a key");
    Request::Put(key, Bytes::new(alloc, text).ok().expect(rt, "a text"))
}

pub(crate) fn inc_of<R: Abort>(rt: &R, alloc: Global) -> Request {
    Request::Inc(Key::new(alloc, b"a").ok().expect(rt, "a key"), 1)
}

// The place and the reply of an answer; none where there is no answer.
pub(crate) fn told<S: Service>(served: Served<S>) -> Option<(u64, S::Reply)> {
    match served {
        Ok(answer) => {
            let place = answer.place();
            Some((place, answer.parts().0))
        }
        Err(_) => None,
    }
}

// The place of an answer; none where there is no answer.
pub(crate) fn place_of<S: Service>(served: Served<S>) -> Option<u64> {
    match served {
        Ok(answer) => Some(answer.place()),
        Err(_) => None,
    }
}

// Whether the request was answered by this text, at this place.
pub(crate) fn is_text_at(told: Option<(u64, Reply)>, place: u64, text: &[u8]) -> bool {
    match told {
        Some((at, Reply::Text(held))) => at == place && held.as_bytes() == text,
        _ => false,
    }
}

// The first body of two.
pub(crate) fn first_body<S: Service, R: Abort>(rt: &R, mut rows: Vec<(Record, Option<S>)>) -> S {
    assert!(rt; rows.len() == 2);
    let (_, body) = rows.swap_remove(0);
    body.expect(rt, "a body")
}
