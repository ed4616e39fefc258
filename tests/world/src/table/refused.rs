//! A world where memory is refused: the same step made again does its work.
ghost use Rattle.std.specs.Prelude.{◌≡◌, [], All, IfOk, length, map, replicate};
ghost use Rattle.sm_ranges.specs.declared.stand.Stand.TheVariants.{Vacant};
ghost use Rattle.sm_tasks.specs.Caps.{MeetsCaps};

use super::act::Act;
use super::fixture::Fixture;
use super::seen;
use super::told::Told;
use crate::common::{new_books, shard};
use sm_desk::{Command, Desk};
use sm_envelope::Refusal;
use sm_ownership::change::Change;
use sm_place::Books;
use sm_ranges::layout::Layout;
use sm_ranges::server_id::ServerId;
use sm_ranges::shard_id::ShardId;
use sm_ranges::stand::Stand;
use sm_service::counter_text::CounterText;
use sm_table::{Setup, Step, World, WorldAnswer, WorldFault};
use sm_tasks::Tasks;
use std::alloc::{AllocError, Global};
use std::process::Abort;
use test_fixture::new_bodies;
use test_server::refusing::Refusing;

// Books of so many vacant shards, and of server 1.
fn books_of_one(rt: &impl Abort, alloc: Global, count: usize) -> Books
    ensures caps { MeetsCaps (record { ops = 1 }) result }
    ensures vacant { map (λ shard. shard.stand) result.shards ≡ replicate count Vacant }
{
    let servers = [ServerId::of(1)];
    new_books(alloc, count, &servers).ok().expect(rt, "memory")
}

// Shard 0, of the keys below `m`, and shard 1, of the others; and server 1.
fn made(rt: &impl Abort, alloc: Global) -> Result<World<CounterText>, AllocError> {
    let bounds: [&[u8]; 2] = [b"", b"m"];
    let layout = Layout::new(alloc, &bounds).ok().expect(rt, "a layout");
    let count = layout.count();
    let bodies = new_bodies(alloc, count, 2).ok().expect(rt, "bodies");
    let setup = Setup {
        layout,
        desk: Desk::new(books_of_one(rt, alloc, count), Tasks::new(1)),
        ceiling: 100,
    };
    World::new(alloc, setup, bodies)
}

// The world, made again where memory is refused.
fn made_in_two(rt: &impl Abort, alloc: Global) -> World<CounterText> {
    match made(rt, alloc) {
        Ok(world) => world,
        Err(AllocError) => made(rt, alloc).ok().expect(rt, "the world"),
    }
}

// The server is sent a request. Where memory is refused, nothing is in flight, and it is sent again.
fn sends_in_two(rt: &impl Abort, fixture: &mut Fixture, server: ServerId) {
    let send = Act::Send(server, 7, b'm');
    if fixture.told(&send) != Told::Sent {
        let cases = [
            (Act::Deliver(0), Told::Fault(WorldFault::NoEnvelope)),
            (send, Told::Sent),
        ];
        fixture.follow(rt, &cases);
    }
}

// The request is begun and finished. Where memory is refused, the shard is idle and keeps nothing, and the request is sent anew.
fn finishes_in_two(rt: &impl Abort, fixture: &mut Fixture, server: ServerId) {
    let (finish, replied) = (Act::Finish(shard(1)), Told::Replied(7, server, 0, 1));
    fixture.follow(rt, &[(Act::Deliver(0), Told::Began(server))]);
    let told = fixture.told(&finish);
    if told != replied {
        assert_eq!(*rt; told, Told::Refused(Refusal::NoMemory));
        let cases = [
            (Act::Look(shard(1)), seen(Stand::Serving(server), 3)),
            (Act::Send(server, 7, b'm'), Told::Sent),
            (Act::Deliver(0), Told::Began(server)),
            (finish, replied),
        ];
        fixture.follow(rt, &cases);
    }
}

// With each allocation refused in turn (`tools/run-tests` does it). No step but these two is refused memory.
#[test]
fn refused_memory_changes_nothing(rt: HostRuntime) {
    let (alloc, one, k) = (rt.alloc(), ServerId::of(1), shard(1));
    let mut fixture = Fixture::of(alloc, made_in_two(&rt, alloc));
    fixture.follow(&rt, &[(Act::Change(k, Change::Assign(one)), Told::Made)]);
    sends_in_two(&rt, &mut fixture, one);
    finishes_in_two(&rt, &mut fixture, one);
    let cases = [
        (Act::Checkpoint(k, one), Told::Made),
        (Act::Publish(k), Told::Made),
        (Act::Deliver(0), Told::Fault(WorldFault::NoEnvelope)),
    ];
    fixture.follow(&rt, &cases);
}

// So many bodies that have applied nothing yet, and refuse their first checkpoint.
fn refusing_bodies(alloc: Global, count: usize) -> Result<Vec<Refusing>, AllocError>
    ensures length { IfOk result (λ bodies. length bodies.items ≡ count) }
    ensures initial { IfOk result (λ bodies. All (λ body. body.base ≡ []) bodies.items) }
    ensures before { IfOk result (λ bodies. All (λ body. body.before ≡ 0) bodies.items) }
    ensures empty { IfOk result (λ bodies. All (λ body. body.requests ≡ []) bodies.items) }
{
    let mut bodies = Vec::with_capacity(alloc, count)?;
    for _body in 0..count {
        bodies.push(Refusing::new(alloc, 2))?;
    }
    Ok(bodies)
}

// Shard 0, of all keys, and server 1. The shard's body refuses its first checkpoint.
fn refusing_world(rt: &impl Abort, alloc: Global) -> World<Refusing> {
    let layout = Layout::new(alloc, &[b""]).ok().expect(rt, "a layout");
    let count = layout.count();
    let bodies = refusing_bodies(alloc, count).ok().expect(rt, "bodies");
    let setup = Setup {
        layout,
        desk: Desk::new(books_of_one(rt, alloc, count), Tasks::new(1)),
        ceiling: 100,
    };
    World::new(alloc, setup, bodies).ok().expect(rt, "a world")
}

// The generation of the shard, while no server is admitted to it; none where one is.
fn idle_generation(world: &mut World<Refusing>, k: ShardId) -> Option<u64> {
    let seen = world.step(Step::Look(k));
    match &seen {
        Ok(WorldAnswer::Seen(record)) if !record.admitted => Some(record.generation),
        _ => None,
    }
}

// A checkpoint that the body refuses changes nothing, and no admission is made for it.
#[test]
fn checkpoint_is_made_again(rt: HostRuntime) {
    let (one, k) = (ServerId::of(1), shard(0));
    let mut world = refusing_world(&rt, rt.alloc());
    let assign = Step::Control(Command::Change(k, Change::Assign(one)));
    assert!(rt; world.step(assign).is_ok());
    let refused = world.step(Step::Checkpoint(k, one));
    assert!(rt; refused.err() == Some(WorldFault::NoMemory));
    assert!(rt; idle_generation(&mut world, k) == Some(1));
    assert!(rt; world.step(Step::Checkpoint(k, one)).is_ok());
    assert!(rt; idle_generation(&mut world, k) == Some(3));
}
