mod act;
mod fixture;
mod phases;
mod refused;
mod told;

use crate::common::shard;
use act::Act;
use fixture::{Fixture, follow, followed, new_world};
use sm_desk::{Command, CommandFault};
use sm_envelope::Refusal;
use sm_ownership::admit_fault::AdmitFault;
use sm_ownership::change::Change;
use sm_ownership::change_fault::ChangeFault;
use sm_ownership::record::Record;
use sm_ownership::route::Route;
use sm_ranges::server_id::ServerId;
use sm_ranges::shard_id::ShardId;
use sm_ranges::stand::Stand;
use sm_table::{Step, WorldAnswer, WorldFault};
use sm_tasks::RestartFault;
use std::process::Abort;
use told::Told;

// The shard's record, while no server is admitted to it.
fn seen(stand: Stand, generation: u64) -> Told {
    Told::Seen(Record {
        stand,
        admitted: false,
        generation,
    })
}

// The record of a shard with this owner, while that one is admitted to it.
fn admitted(owner: ServerId, generation: u64) -> Record {
    Record {
        stand: Stand::Serving(owner),
        admitted: true,
        generation,
    }
}

fn not_changed(fault: ChangeFault) -> Told {
    Told::Fault(WorldFault::Command(CommandFault::Change(fault)))
}

// The example of the crate's documentation.
#[test]
fn assigns_a_shard(rt: HostRuntime) {
    let (one, k) = (ServerId::of(1), shard(1));
    let mut world = new_world(&rt, rt.alloc());
    let assign = Step::Control(Command::Change(k, Change::Assign(one)));
    assert!(rt; world.step(assign).is_ok());
    let answer = world.step(Step::Look(k));
    assert!(rt; matches!(&answer, Ok(WorldAnswer::Seen(Record { generation: 1, .. }))));
}

#[test]
fn executes_a_request(rt: HostRuntime) {
    let (one, k) = (ServerId::of(1), shard(1));
    let cases = [
        (Act::Change(k, Change::Assign(one)), Told::Made),
        (Act::Send(one, 7, b'm'), Told::Sent),
        (Act::Deliver(0), Told::Began(one)),
        (Act::Finish(k), Told::Replied(7, one, 0, 1)),
    ];
    follow(&rt, rt.alloc(), &cases);
}

#[test]
fn refuses_by_the_record(rt: HostRuntime) {
    let (one, k) = (ServerId::of(1), shard(1));
    let vacant = Told::Refused(Refusal::Admit(AdmitFault::Vacant));
    let admitted = Told::Refused(Refusal::Admit(AdmitFault::Admitted));
    let cases = [
        (Act::Send(one, 0, b'm'), Told::Sent),
        (Act::Send(one, 0, b'm'), Told::Sent),
        (Act::Send(one, 0, b'm'), Told::Sent),
        (Act::Deliver(0), vacant),
        (Act::Change(k, Change::Assign(one)), Told::Made),
        (Act::Deliver(0), Told::Began(one)),
        (Act::Deliver(0), admitted),
        (Act::Deliver(0), Told::Fault(WorldFault::NoEnvelope)),
    ];
    follow(&rt, rt.alloc(), &cases);
}

// The server is sent the request of this number, and executes it as the one at this place.
fn executed(server: ServerId, k: ShardId, number: u64, place: u64, count: i64) -> [(Act, Told); 3] {
    [
        (Act::Send(server, number, b'm'), Told::Sent),
        (Act::Deliver(0), Told::Began(server)),
        (Act::Finish(k), Told::Replied(number, server, place, count)),
    ]
}

// The server is given the shard, and executes a first request.
fn executes_first(rt: &impl Abort, fixture: &mut Fixture, server: ServerId, k: ShardId) {
    fixture.follow(rt, &[(Act::Change(k, Change::Assign(server)), Told::Made)]);
    fixture.follow(rt, &executed(server, k, 0, 0, 1));
}

fn keeps_two(rt: &impl Abort, fixture: &mut Fixture, server: ServerId, k: ShardId) {
    let refused = [
        (Act::Send(server, 2, b'm'), Told::Sent),
        (Act::Deliver(0), Told::Began(server)),
        (Act::Finish(k), Told::Refused(Refusal::KeptFull)),
    ];
    executes_first(rt, fixture, server, k);
    fixture.follow(rt, &executed(server, k, 1, 1, 2));
    fixture.follow(rt, &refused);
}

#[test]
fn keeps_so_many_requests(rt: HostRuntime) {
    let mut fixture = Fixture::new(&rt, rt.alloc());
    keeps_two(&rt, &mut fixture, ServerId::of(2), shard(1));
}

fn makes_checkpoints(rt: &impl Abort, fixture: &mut Fixture, server: ServerId, k: ShardId) {
    let checkpoints = [
        (Act::Checkpoint(k, server), Told::Made),
        (Act::Checkpoint(k, server), Told::Made),
        (Act::Look(k), seen(Stand::Serving(server), 7)),
    ];
    executes_first(rt, fixture, server, k);
    fixture.follow(rt, &checkpoints);
    fixture.follow(rt, &executed(server, k, 1, 1, 2));
}

#[test]
fn keeps_requests_again_after_a_checkpoint(rt: HostRuntime) {
    let mut fixture = Fixture::new(&rt, rt.alloc());
    makes_checkpoints(&rt, &mut fixture, ServerId::of(2), shard(1));
}

// The route of a shard to its owner at a generation.
fn way(shard: ShardId, server: ServerId, generation: u64) -> Told {
    Told::Way(Some(Route {
        shard,
        server,
        generation,
    }))
}

#[test]
fn publishes_newer_routes_alone(rt: HostRuntime) {
    let (one, two, k, unknown) = (ServerId::of(1), ServerId::of(2), shard(1), shard(4));
    let cases = [
        (Act::RouteOf(b'm'), Told::Way(None)),
        (Act::Publish(unknown), Told::Fault(WorldFault::UnknownShard)),
        (Act::Publish(k), Told::Fault(WorldFault::WrongPhase)),
        (Act::Change(k, Change::Assign(one)), Told::Made),
        (Act::Publish(k), Told::Made),
        (Act::Publish(k), Told::Fault(WorldFault::OldRoute)),
        (Act::Change(k, Change::Pause), Told::Made),
        (Act::Change(k, Change::Reassign(two)), Told::Made),
        (Act::RouteOf(b'r'), way(k, one, 1)),
        (Act::Publish(k), Told::Made),
        (Act::RouteOf(b'm'), way(k, two, 3)),
        (Act::RouteOf(b's'), Told::Way(None)),
    ];
    follow(&rt, rt.alloc(), &cases);
}

#[test]
fn makes_no_checkpoint(rt: HostRuntime) {
    let (one, five, k, unknown) = (ServerId::of(1), ServerId::of(5), shard(1), shard(4));
    let vacant = Told::Fault(WorldFault::Admit(AdmitFault::Vacant));
    let cases = [
        (
            Act::Checkpoint(unknown, five),
            Told::Fault(WorldFault::UnknownShard),
        ),
        (
            Act::Checkpoint(k, five),
            Told::Fault(WorldFault::UnknownServer),
        ),
        (Act::Checkpoint(k, one), vacant),
        (Act::Look(k), seen(Stand::Vacant, 0)),
    ];
    follow(&rt, rt.alloc(), &cases);
}

#[test]
fn reaches_no_failed_server(rt: HostRuntime) {
    let (one, two, k) = (ServerId::of(1), ServerId::of(2), shard(1));
    let failed = WorldFault::Command(CommandFault::Restart(RestartFault::AlreadyFailed));
    let cases = [
        (Act::Change(k, Change::Assign(one)), Told::Made),
        (Act::Change(k, Change::PrepareAddShard(two)), Told::Made),
        (Act::Change(k, Change::PrepareDropShard), Told::Made),
        (Act::Send(one, 7, b'm'), Told::Sent),
        (Act::Restart(Command::Fail(two)), Told::Made),
        (Act::Restart(Command::Fail(two)), Told::Fault(failed)),
        (Act::Deliver(0), Told::Refused(Refusal::Unreachable)),
        (Act::Deliver(0), Told::Fault(WorldFault::NoEnvelope)),
        (
            Act::Send(two, 8, b'm'),
            Told::Fault(WorldFault::Unreachable),
        ),
        (Act::Restart(Command::Back(two)), Told::Made),
        (Act::Send(one, 9, b'm'), Told::Sent),
        (Act::Deliver(0), Told::Forwarded(two)),
    ];
    let fixture = followed(&rt, rt.alloc(), &cases);
    assert!(rt; fixture.reaches(two));
}

#[test]
fn names_the_first_fault(rt: HostRuntime) {
    let (five, k, unknown) = (ServerId::of(5), shard(1), shard(4));
    let cases = [
        (Act::Look(unknown), Told::Fault(WorldFault::UnknownShard)),
        (
            Act::Hold(unknown, five),
            Told::Fault(WorldFault::UnknownShard),
        ),
        (Act::Free(unknown), Told::Fault(WorldFault::UnknownShard)),
        (Act::Finish(unknown), Told::Fault(WorldFault::NotHeld)),
        (Act::Finish(k), Told::Fault(WorldFault::NotHeld)),
        (
            Act::Send(five, 0, b'm'),
            Told::Fault(WorldFault::UnknownServer),
        ),
        (Act::Hold(k, five), Told::Fault(WorldFault::UnknownServer)),
        (Act::Lose(0), Told::Fault(WorldFault::NoEnvelope)),
        (
            Act::Change(unknown, Change::Assign(five)),
            not_changed(ChangeFault::UnknownShard),
        ),
        (
            Act::Change(k, Change::Reassign(five)),
            Told::Fault(WorldFault::Command(CommandFault::UnknownServer)),
        ),
        (
            Act::Change(k, Change::Pause),
            not_changed(ChangeFault::WrongPhase),
        ),
    ];
    follow(&rt, rt.alloc(), &cases);
}
