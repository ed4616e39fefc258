//! The plans of a control where memory is refused: the same plan is made when it is asked for again.
ghost use Rattle.std.specs.Prelude.{◌<◌};

use crate::common::{new_running, shard};
use crate::running::Running;
use sm_control::DrainFault;
use sm_place::{Move, Plan};
use sm_ranges::ServerId;
use sm_service::Service;
use std::alloc::{AllocError, Global};
use std::process::Abort;

// A plan for the vacant shards.
fn assigned_in_two<S: Service>(rt: &impl Abort, alloc: Global, running: &Running<S>) -> Plan {
    match running.control.plan_assign(alloc) {
        Ok(plan) => plan,
        Err(AllocError) => running.plan_assign(rt, alloc),
    }
}

// A plan for the shards of the server.
fn drained_in_two<S: Service>(
    rt: &impl Abort,
    alloc: Global,
    running: &Running<S>,
    a: ServerId,
) -> Plan {
    match running.plan_drain(alloc, a) {
        Ok(plan) => plan,
        Err(fault) => {
            assert!(rt; fault == DrainFault::NoMemory);
            running.plan_drain(alloc, a).ok().expect(rt, "the plan")
        }
    }
}

// The plan has this move alone.
fn moves(rt: &impl Abort, plan: &Plan, k: u16, to: ServerId)
    requires { k < 4096 }
{
    assert!(rt;
        plan.moves()
            == [Move {
                shard: shard(k),
                to
            }]
            .as_slice()
    );
    assert!(rt; plan.left().is_empty());
}

// Server 1 has the first shard, and the second one is vacant.
fn plan<S: Service>(rt: &impl Abort, alloc: Global, mut running: Running<S>) {
    let (one, two) = (ServerId::of(1), ServerId::of(2));
    assert!(rt; running.assign(shard(0), one).is_ok());
    moves(rt, &assigned_in_two(rt, alloc, &running), 1, one);
    moves(rt, &drained_in_two(rt, alloc, &running, one), 0, two);
    assert!(rt; running.assign(shard(1), one).is_ok());
}

// With each allocation refused in turn (`tools/run-tests` does it).
#[test]
fn refused_memory_changes_nothing(rt: HostRuntime) {
    plan(&rt, rt.alloc(), new_running(&rt, rt.alloc(), 2, 1_000));
}
