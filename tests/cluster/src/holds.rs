//! Admissions without a request.
use crate::calls::{is_not_executor, refusal_at, start};
use crate::running::{Running, ask, idle, inc_of, kept_of, shard};
use sm_cluster::{CallFault, HoldFault};
use sm_ownership::{AdmitFault, Record};
use sm_ranges::{ServerId, Stand};
use sm_rule::AdmitRefusal;
use sm_server::Refusal;
use sm_service::Reply;
use std::process::Abort;
use std::test::Fail;

// Nothing is held of a shard or for a server that isn't there, nor for one that isn't admitted, and nothing freed that isn't held.
fn refuse_holds<R: Abort>(rt: &R, running: &mut Running) {
    let (one, two) = (ServerId::of(1), ServerId::of(2));
    assert!(rt; running.hold(shard(2), one) == Err(HoldFault::UnknownShard));
    assert!(rt; running.hold(shard(0), ServerId::of(4)) == Err(HoldFault::UnknownServer));
    let is_elsewhere = match running.hold(shard(0), two) {
        Err(HoldFault::Admit(AdmitRefusal::Refused(fault, _))) => fault == AdmitFault::NotExecutor,
        _ => false,
    };
    assert!(rt; is_elsewhere);
    assert!(rt; running.free(shard(2)) == Err(HoldFault::UnknownShard));
    assert!(rt; running.free(shard(0)) == Err(HoldFault::NotHeld));
}

fn is_admitted(fault: Option<CallFault>) -> bool {
    match fault {
        Some(CallFault::Refused(Refusal::Admit(AdmitRefusal::Refused(fault, _)))) => fault
            == AdmitFault::Admitted,
        _ => false,
    }
}

#[test]
fn holds_and_frees(rt: HostRuntime) -> Result<(), Fail> {
    let (alloc, one) = (rt.alloc(), ServerId::of(1));
    let mut running = start(&rt, alloc, 100)?;
    running.assign_both(&rt);
    refuse_holds(&rt, &mut running);
    assert!(rt; running.hold(shard(0), one).is_ok());
    assert!(rt; is_admitted(refusal_at(&rt, alloc, &mut running.first, one)));
    assert!(rt; running.free(shard(0)).is_ok());
    let told = ask(&rt, alloc, &mut running.first, 1, inc_of(&rt, alloc, b"a"));
    assert!(rt; told.place == 0 && matches!(told.reply, Reply::Count(1)));
    let rows = running.stop(&rt, alloc);
    assert!(rt; rows.len() == 2);
    Ok(())
}

// A client that was told sees a command, a hold and its end, and one that was refused sees the record by which it was.
#[test]
fn told_clients_look(rt: HostRuntime) -> Result<(), Fail> {
    let (alloc, one) = (rt.alloc(), ServerId::of(1));
    let mut running = start(&rt, alloc, 100)?;
    running.assign_both(&rt);
    running.tell();
    assert!(rt; running.second.look(shard(0)) == idle(Stand::Serving(one), 1));
    assert!(rt; running.hold(shard(0), one).is_ok());
    running.tell();
    assert!(rt; running.second.look(shard(0)) == held(one));
    assert!(rt; is_admitted(refusal_at(&rt, alloc, &mut running.first, one)));
    assert!(rt; running.first.look(shard(0)) == held(one));
    assert!(rt; running.free(shard(0)).is_ok());
    running.tell();
    assert!(rt; running.second.look(shard(0)) == idle(Stand::Serving(one), 3));
    let rows = running.stop(&rt, alloc);
    assert!(rt; rows.len() == 2);
    Ok(())
}

// The record of a shard that its owner holds.
fn held(owner: ServerId) -> Record {
    Record {
        stand: Stand::Serving(owner),
        admitted: true,
        generation: 2,
    }
}

// The stop frees what is held: the record is idle, and the body is there.
#[test]
fn held_at_stop(rt: HostRuntime) -> Result<(), Fail> {
    let (alloc, one) = (rt.alloc(), ServerId::of(1));
    let mut running = start(&rt, alloc, 100)?;
    running.assign_both(&rt);
    assert!(rt; running.hold(shard(0), one).is_ok());
    let rows = running.stop(&rt, alloc);
    assert!(rt; rows.len() == 2 && rows[0].0 == idle(Stand::Serving(one), 3));
    assert!(rt; kept_of(&rows, shard(0)) == Some(0));
    Ok(())
}
