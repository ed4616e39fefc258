//! Bodies that settle for a server before a request.
use crate::based::of_limit;
use crate::fixture::Fixture;
use sm_body::logged::Logged;
use sm_body::machine::Machine;
use sm_ranges::key::Key;
use sm_ranges::server_id::ServerId;
use sm_service::{Bytes, CounterText, Reply, Request};
use std::alloc::{AllocError, Global};
use std::marker::Model;
use std::process::Abort;

fn put_of(alloc: Global, text: &[u8]) -> Option<Request> {
    let key = Key::new(alloc, b"a").ok()?;
    Some(Request::Put(key, Bytes::new(alloc, text).ok()?))
}

fn get_of(alloc: Global) -> Option<Request> {
    Some(Request::Get(Key::new(alloc, b"a").ok()?))
}

// What the settled body replies; none where it doesn't.
fn reply_to(fixture: &mut Fixture<CounterText>, request: Option<Request>) -> Option<Reply> {
    fixture.serve_settled(request?)
}

// Puts the text, and whether it is done.
fn puts(fixture: &mut Fixture<CounterText>, alloc: Global, text: &[u8]) -> bool {
    matches!(reply_to(fixture, put_of(alloc, text)), Some(Reply::Done))
}

// Whether the text is found.
fn finds(fixture: &mut Fixture<CounterText>, alloc: Global, text: &[u8]) -> bool {
    match reply_to(fixture, get_of(alloc)) {
        Some(Reply::Text(held)) => held.as_bytes() == text,
        _ => false,
    }
}

// How many bytes are dead in the body of a board that is closed here.
fn dead_at_end(fixture: Fixture<CounterText>) -> Option<u128> {
    let rows = fixture.rows();
    let body = rows.first()?.1.as_ref()?;
    Some(body.machine().dead())
}

// The next server to execute a shard's requests moves its body into fresh memory, where nothing is dead.
#[test]
fn new_server_adopts(rt: HostRuntime) {
    let (alloc, next) = (rt.alloc(), ServerId::of(2));
    let mut fixture = of_limit(&rt, alloc, 100);
    assert!(rt; puts(&mut fixture, alloc, b"x"));
    assert!(rt; puts(&mut fixture, alloc, b"yy"));
    assert!(rt; fixture.migrate(next));
    fixture.go_on_as(Some(next));
    assert!(rt; finds(&mut fixture, alloc, b"yy"));
    assert!(rt; dead_at_end(fixture) == Some(0));
}

#[derive(Drop)]
struct Ask;

// Answers how often it was asked before. It refuses its first move into fresh memory, and counts the others.
#[derive(Drop)]
struct Moving {
    asked: u64,
    is_refusing: bool,
    moves: u64,
}

impl Model for Moving {
    ghost use Rattle.std.specs.Prelude.{ℕ};

    ghost Value = { ℕ };

    ghost view = { λ machine. machine.asked };
}

impl Machine for Moving {
    ghost use Rattle.std.specs.Prelude.{◌+◌, ◌-◌, ◌^◌, min, [], ◌∷◌};

    type Request = Ask;

    type Reply = u64;

    ghost start = { 0 };

    ghost after = { λ asked _. min (asked + 1) (2 ^ 64 - 1) };

    ghost reply = { λ asked _. asked };

    ghost key_of = { λ _. 97 ∷ [] };

    fn new(_: Global) -> Moving {
        Moving {
            asked: 0,
            is_refusing: true,
            moves: 0,
        }
    }

    fn key(_: &Ask) -> &[u8] {
        b"a"
    }

    fn answer(&mut self, _: Global, _: &Ask) -> Result<u64, AllocError> {
        let before = self.asked;
        self.asked = self.asked.saturating_add(1);
        Ok(before)
    }

    fn rebuild(&mut self, _: Global) -> Result<(), AllocError> {
        if self.is_refusing {
            self.is_refusing = false;
            return Err(AllocError);
        }
        self.moves = self.moves.saturating_add(1);
        Ok(())
    }
}

// How often the body of a board that is closed here was moved into fresh memory.
fn moves_at_end(fixture: Fixture<Logged<Moving>>) -> Option<u64> {
    let rows = fixture.rows();
    let body = rows.first()?.1.as_ref()?;
    Some(body.machine().moves)
}

// The only shard of a board, whose body refuses its first move; server 1 owns it.
fn refusing<R: Abort>(rt: &R, alloc: Global) -> Fixture<Logged<Moving>> {
    let body: Logged<Moving> = Logged::new(alloc, 100);
    let bodies = vec![in alloc; body].ok().expect(rt, "memory");
    Fixture::owned(rt, alloc, bodies)
}

// A body whose move is refused answers from its old memory, and is moved at the next settling, but not at the one after that.
#[test]
fn adoption_refused(rt: HostRuntime) {
    let mut fixture = refusing(&rt, rt.alloc());
    for before in [0, 1, 2] {
        assert!(rt; fixture.serve_settled(Ask) == Some(before));
    }
    assert!(rt; moves_at_end(fixture) == Some(1));
}
