use super::*;
use std::process::Abort;

// A migration of the shard, in whose course the envelope first in flight reaches the former owner, and is answered so.
fn migration(k: ShardId, next: ServerId, delivered: Told) -> [(Act, Told); 5] {
    [
        (Act::Change(k, Change::PrepareAddShard(next)), Told::Made),
        (Act::Change(k, Change::PrepareDropShard), Told::Made),
        (Act::Deliver(0), delivered),
        (Act::Change(k, Change::AddShard), Told::Made),
        (Act::Change(k, Change::DropShard), Told::Made),
    ]
}

// The envelope follows the shard from owner to owner, as often as it may.
fn goes_round(rt: &impl Abort, fixture: &mut Fixture, k: ShardId) {
    let (one, two) = (ServerId::of(1), ServerId::of(2));
    for next in [two, one, two, one] {
        fixture.follow(rt, &migration(k, next, Told::Forwarded(next)));
    }
    let refused = Told::Refused(Refusal::TooManyHops);
    fixture.follow(rt, &migration(k, two, refused));
}

fn sends_one(rt: &impl Abort, fixture: &mut Fixture, k: ShardId) {
    let one = ServerId::of(1);
    let sent = [
        (Act::Change(k, Change::Assign(one)), Told::Made),
        (Act::Send(one, 0, b'a'), Told::Sent),
    ];
    fixture.follow(rt, &sent);
}

fn loses_one(rt: &impl Abort, fixture: &mut Fixture) {
    let lost = [
        (Act::Deliver(0), Told::Fault(WorldFault::NoEnvelope)),
        (Act::Send(ServerId::of(2), 1, b'a'), Told::Sent),
        (Act::Lose(0), Told::Made),
        (Act::Deliver(0), Told::Fault(WorldFault::NoEnvelope)),
    ];
    fixture.follow(rt, &lost);
}

#[test]
fn envelope_goes_round(rt: HostRuntime) {
    let mut fixture = Fixture::new(&rt, rt.alloc());
    sends_one(&rt, &mut fixture, shard(0));
    goes_round(&rt, &mut fixture, shard(0));
    loses_one(&rt, &mut fixture);
}

#[test]
fn holds_and_frees(rt: HostRuntime) {
    let (one, two, k) = (ServerId::of(1), ServerId::of(2), shard(0));
    let busy = not_changed(ChangeFault::Busy(admitted(one, 2)));
    let prepared = Stand::Prepared {
        owner: one,
        next: two,
    };
    let cases = [
        (Act::Change(k, Change::Assign(one)), Told::Made),
        (Act::Hold(k, one), Told::Made),
        (Act::Change(k, Change::PrepareAddShard(two)), busy),
        (Act::Send(one, 0, b'a'), Told::Sent),
        (
            Act::Deliver(0),
            Told::Refused(Refusal::Admit(AdmitFault::Admitted)),
        ),
        (Act::Finish(k), Told::Fault(WorldFault::NotHeld)),
        (Act::Free(k), Told::Made),
        (Act::Change(k, Change::PrepareAddShard(two)), Told::Made),
        (Act::Free(k), Told::Fault(WorldFault::NotHeld)),
        (Act::Look(k), seen(prepared, 4)),
    ];
    follow(&rt, rt.alloc(), &cases);
}

#[test]
fn frees_no_request(rt: HostRuntime) {
    let (one, k) = (ServerId::of(1), shard(0));
    let vacant = WorldFault::Admit(AdmitFault::Vacant);
    let cases = [
        (Act::Hold(k, one), Told::Fault(vacant)),
        (Act::Change(k, Change::Assign(one)), Told::Made),
        (Act::Send(one, 7, b'a'), Told::Sent),
        (Act::Deliver(0), Told::Began(one)),
        (Act::Free(k), Told::Fault(WorldFault::NotHeld)),
        (Act::Finish(k), Told::Replied(7, one, 0, 1)),
    ];
    follow(&rt, rt.alloc(), &cases);
}

#[test]
fn pauses_and_reassigns(rt: HostRuntime) {
    let (one, two, k) = (ServerId::of(1), ServerId::of(2), shard(0));
    let prepared = Stand::Prepared {
        owner: one,
        next: two,
    };
    let prepared_for_itself = not_changed(ChangeFault::SameServer);
    let reassigned_to_itself = not_changed(ChangeFault::SameServer);
    // Each change, what it is answered, and the stand and the generation after it.
    let cases = [
        (Change::Assign(one), Told::Made, Stand::Serving(one), 1),
        (
            Change::PrepareAddShard(one),
            prepared_for_itself,
            Stand::Serving(one),
            1,
        ),
        (Change::PrepareAddShard(two), Told::Made, prepared, 2),
        (Change::Cancel, Told::Made, Stand::Serving(one), 3),
        (Change::Pause, Told::Made, Stand::Paused(one), 4),
        (Change::Resume, Told::Made, Stand::Serving(one), 5),
        (Change::Pause, Told::Made, Stand::Paused(one), 6),
        (
            Change::Reassign(one),
            reassigned_to_itself,
            Stand::Paused(one),
            6,
        ),
        (Change::Reassign(two), Told::Made, Stand::Serving(two), 7),
    ];
    let mut fixture = Fixture::new(&rt, rt.alloc());
    for (change, told, stand, generation) in cases {
        fixture.change(&rt, k, change, told, seen(stand, generation));
    }
}

#[test]
fn refusals_leave_the_generation(rt: HostRuntime) {
    let (three, four, k) = (ServerId::of(3), ServerId::of(4), shard(3));
    let cases = [
        (
            Act::Change(k, Change::Pause),
            not_changed(ChangeFault::WrongPhase),
        ),
        (Act::Look(k), seen(Stand::Vacant, 0)),
        (
            Act::Hold(k, four),
            Told::Fault(WorldFault::Admit(AdmitFault::Vacant)),
        ),
        (Act::Look(k), seen(Stand::Vacant, 0)),
        (Act::Change(k, Change::Assign(four)), Told::Made),
        (
            Act::Change(k, Change::PrepareAddShard(four)),
            not_changed(ChangeFault::SameServer),
        ),
        (Act::Look(k), seen(Stand::Serving(four), 1)),
        (Act::Send(three, 9, b'x'), Told::Sent),
        (
            Act::Deliver(0),
            Told::Refused(Refusal::Admit(AdmitFault::NotExecutor)),
        ),
        (Act::Look(k), seen(Stand::Serving(four), 1)),
        (
            Act::Hold(k, three),
            Told::Fault(WorldFault::Admit(AdmitFault::NotExecutor)),
        ),
        (Act::Look(k), seen(Stand::Serving(four), 1)),
    ];
    follow(&rt, rt.alloc(), &cases);
}

#[test]
fn refusals_leave_the_generation_of_an_admission(rt: HostRuntime) {
    let (four, k) = (ServerId::of(4), shard(3));
    let cases = [
        (Act::Change(k, Change::Assign(four)), Told::Made),
        (Act::Send(four, 9, b'x'), Told::Sent),
        (Act::Send(four, 10, b'x'), Told::Sent),
        (Act::Deliver(0), Told::Began(four)),
        (
            Act::Change(k, Change::Pause),
            not_changed(ChangeFault::Busy(admitted(four, 2))),
        ),
        (Act::Look(k), Told::Seen(admitted(four, 2))),
        (
            Act::Deliver(0),
            Told::Refused(Refusal::Admit(AdmitFault::Admitted)),
        ),
        (Act::Look(k), Told::Seen(admitted(four, 2))),
        (Act::Free(k), Told::Fault(WorldFault::NotHeld)),
        (Act::Look(k), Told::Seen(admitted(four, 2))),
        (Act::Finish(k), Told::Replied(9, four, 0, 1)),
        (Act::Look(k), seen(Stand::Serving(four), 3)),
    ];
    follow(&rt, rt.alloc(), &cases);
}
