use crate::lead::{desk, in_state};
use crate::shard::{HEAD, LIMITS, item};
use crate::sum::Sum;
use sm_desk::Command;
use sm_lead::{AckRead, Judged, Leadership, RecordRead, SendOutcome, StoreControl, read_at};
use sm_ownership::{Change, Record};
use sm_place::ServerState;
use sm_ranges::{ServerId, ShardId, Stand};
use sm_shard::{Decision, ShardServer};
use sm_store::Head;
use std::alloc::Global;
use std::process::Abort;

// A control that was elected at revision 1, and has read that nothing was written.
fn elected(rt: &impl Abort, alloc: Global) -> StoreControl {
    let unwritten = RecordRead {
        state: Record {
            stand: Stand::Vacant,
            admitted: false,
            generation: 0,
        },
        stood: 0,
    };
    let records = Vec::from_slice(alloc, &[unwritten; 4]).expect(rt, "memory");
    let runs = Vec::from_slice(alloc, &[in_state(ServerState::Up); 3]).expect(rt, "memory");
    let lead = Leadership::new(9, 1).expect(rt, "a revision");
    let read = StoreControl::read(desk(rt, alloc), lead, 100, true, records, runs, 0);
    read.ok().expect(rt, "a control")
}

// A server of the first of four shards, which has just started.
fn started(rt: &impl Abort, me: ServerId) -> ShardServer<Sum, u64, u64> {
    let shard = ShardId::new(0).expect(rt, "a shard");
    let made: Option<ShardServer<Sum, u64, u64>> = ShardServer::new(me, shard, 4, LIMITS);
    made.expect(rt, "one of four shards")
}

// The control sends the change, for which it has waited by these acks, and which is made at this revision.
fn made(
    rt: &impl Abort,
    control: StoreControl,
    acks: &[AckRead],
    change: Change,
    revision: u64,
) -> StoreControl {
    let shard = ShardId::new(0).expect(rt, "a shard");
    let command = Command::Change(shard, change);
    assert!(rt; control.has_waited(acks, &command));
    match control.command(0, command) {
        Judged::Sent(sent) => {
            let outcome = SendOutcome::Made(revision);
            sent.outcome(outcome).expect(rt, "a command that is made")
        }
        Judged::Refused(control, _) => {
            assert!(rt; false);
            control
        }
    }
}

// The example of the crate's documentation.
#[test]
fn executes_once_it_is_assigned(rt: HostRuntime) {
    let (one, shard) = (ServerId::of(1), ShardId::new(0).expect(&rt, "a shard"));
    let (item, head) = (item(7, 5), HEAD);
    let mut server = started(&rt, one);
    let control = elected(&rt, rt.alloc());
    let assign = Command::Change(shard, Change::Assign(one));
    assert!(rt; control.has_waited(&[], &assign));
    let Judged::Sent(sent) = control.command(0, assign) else {
        return;
    };
    let control = sent.outcome(SendOutcome::Made(2)).expect(&rt, "made");
    let read = read_at(&control.records, shard);
    let known = server.on_read(rt.alloc(), read.state, read.stood, head, 0, &[], &[]);
    assert!(rt; known.is_ok());
    assert!(rt; matches!(server.on_request(item), Ok(Decision::Waits)));
    assert!(rt; matches!(server.flush(rt.alloc()), Ok(true)));
    let told = server.on_made(rt.alloc(), 3).ok().expect(&rt, "answers");
    assert!(rt; told.made[0].reply == 5);
}

// A shard moves: its next server reads the batch that the first one executed, and executes another.
#[test]
fn moves_with_what_was_made(rt: HostRuntime) {
    let (one, two) = (ServerId::of(1), ServerId::of(2));
    let shard = ShardId::new(0).expect(&rt, "a shard");
    let control = made(&rt, elected(&rt, rt.alloc()), &[], Change::Assign(one), 2);
    let control = made(&rt, control, &[], Change::PrepareAddShard(two), 4);
    let control = made(&rt, control, &[], Change::PrepareDropShard, 5);
    let generation = read_at(&control.records, shard).state.generation;
    assert!(rt; !control.has_waited(&[], &Command::Change(shard, Change::AddShard)));
    let acked = AckRead {
        shard,
        server: one,
        generation,
    };
    let control = made(&rt, control, &[acked], Change::AddShard, 6);
    let read = read_at(&control.records, shard);
    let mut items = Vec::new(rt.alloc());
    assert!(rt; items.push(item(7, 5)).is_ok());
    let head = Head {
        batches: 1,
        base: 0,
        parts: 0,
    };
    let mut next = started(&rt, two);
    let known = next.on_read(rt.alloc(), read.state, read.stood, head, 3, &[], &[items]);
    assert!(rt; known.is_ok());
    assert!(rt; matches!(next.on_request(item(8, 6)), Ok(Decision::Waits)));
    assert!(rt; matches!(next.flush(rt.alloc()), Ok(true)));
    let told = next.on_made(rt.alloc(), 7).ok().expect(&rt, "answers");
    assert!(rt; told.made[0].reply == 11);
    let mut old = started(&rt, one);
    let mut again = Vec::new(rt.alloc());
    assert!(rt; again.push(item(7, 5)).is_ok());
    let known = old.on_read(rt.alloc(), read.state, read.stood, head, 3, &[], &[again]);
    assert!(rt; known.is_ok());
    assert!(rt; matches!(old.on_request(item(9, 1)), Ok(Decision::Forwards(_, _))));
}
