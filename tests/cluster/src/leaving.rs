//! Servers that fail and clients that stay away.
ghost use Rattle.std.specs.Prelude.{◌≡◌};

use crate::calls::{fault_of, is_not_executor, refusal_at};
use crate::holding::Holding;
use crate::latch::{Holds, Latch};
use crate::running::{Running, bodies_of, inc_of, kept_of, setup_of, shard};
use sm_cluster::{CallFault, Client, Cluster, Open, StopFault};
use sm_desk::Command;
use sm_ownership::Change;
use sm_ranges::ServerId;
use std::alloc::Global;
use std::process::Abort;
use std::sync::{Arc, Wait};
use std::test::Fail;
use std::thread;
use std::thread::{Threads, join_mut};

/// How many calls a client makes at most.
const CALLS: u64 = 1_000_000;

// Once a call stays at the latch, shard 0's server fails and the shard is given to server 2, which lets the call go.
fn fail_and_release<R: Abort>(rt: &R, cluster: &mut Cluster<Holding>, latch: &Latch)
    ensures board { cluster.new.control.chair.board ≡ cluster.old.control.chair.board }
    ensures bounds { cluster.new.bounds ≡ cluster.old.bounds }
{
    assert!(rt; latch.is_reached());
    assert!(rt; cluster.command(Command::Fail(ServerId::of(1))).is_ok());
    assert!(rt;
        cluster
            .command(Command::Change(shard(0), Change::Pause))
            .is_ok()
    );
    let given = Command::Change(shard(0), Change::Reassign(ServerId::of(2)));
    assert!(rt; cluster.command(given).is_ok());
    latch.release();
}

// A call that lies at the failed owner is still served, and is refused since the shard has another owner.
fn is_refused_under_failure<R: Threads + Wait + Abort + Sync>(
    rt: &R,
    alloc: Global,
    running: Running,
    latch: &Latch,
) -> bool {
    let Running {
        mut cluster,
        mut first,
        second,
    } = running;
    let (fault, _) = join_mut(
        rt,
        &mut || refusal_at(rt, alloc, &mut first, ServerId::of(1)),
        &mut || fail_and_release(rt, &mut cluster, latch),
    );
    let running = Running {
        cluster,
        first,
        second,
    };
    let rows = running.stop(rt, alloc);
    is_not_executor(fault) && kept_of(&rows, shard(0)) == Some(0)
}

#[test]
fn owner_fails_under_a_call(rt: HostRuntime) -> Result<(), Fail> {
    let alloc = rt.alloc();
    let latch = Arc::new(alloc, Latch::new())?;
    let gate = Holds {
        number: 7,
        latch: Arc::try_clone(&latch)?,
    };
    let bodies = bodies_of(alloc, 100, None)?;
    let mut running = Running::start(&rt, alloc, setup_of(alloc)?, bodies, gate);
    running.assign_both(&rt);
    assert!(rt; is_refused_under_failure(&rt, alloc, running, &latch));
    assert!(rt; !latch.has_given_up());
    Ok(())
}

// The second client doesn't come back. The cluster says so, and no server is in the client's reach then.
#[test]
fn client_left_behind(rt: HostRuntime) -> Result<(), Fail> {
    let alloc = rt.alloc();
    let bodies = bodies_of(alloc, 100, None)?;
    let mut running = Running::start(&rt, alloc, setup_of(alloc)?, bodies, Open);
    running.assign_both(&rt);
    let Running {
        cluster,
        first,
        mut second,
    } = running;
    let clients = vec![in alloc; first].ok().expect(&rt, "memory");
    assert!(rt; cluster.stop(&rt, clients).err() == Some(StopFault::ClientOut));
    let fault = refusal_at(&rt, alloc, &mut second, ServerId::of(1));
    assert!(rt; fault == Some(CallFault::Unreachable));
    Ok(())
}

// The client calls at server 1 until a call isn't answered, and is dropped: why that one isn't.
fn last_fault<R: Wait + Abort>(
    rt: &R,
    alloc: Global,
    mut client: Client<Holding>,
) -> Option<CallFault> {
    for number in 0..CALLS {
        let request = inc_of(rt, alloc, b"a");
        let called = client.call_at(rt, alloc, ServerId::of(1), number, request);
        if let Err(refused) = called {
            return Some(refused.fault);
        }
    }
    None
}

// A client calls while the cluster stops. What finds the doors shut is Unreachable, and what comes behind the last word to stop is let go.
#[test]
fn calls_beside_a_stop(rt: HostRuntime) -> Result<(), Fail> {
    let (alloc, theirs) = (rt.alloc(), rt.clone()?);
    let bodies = bodies_of(alloc, CALLS as usize, None)?;
    let mut running = Running::start(&rt, alloc, setup_of(alloc)?, bodies, Open);
    running.assign_both(&rt);
    let Running {
        cluster,
        first,
        second: _,
    } = running;
    let thread = thread::spawn(&rt, move || last_fault(&theirs, alloc, first)).ok();
    let _stopped = cluster.stop(&rt, Vec::new(alloc)).is_ok();
    let fault = thread.ok_or("a thread")?.join(&rt);
    assert!(rt; fault == Some(CallFault::Unreachable) || fault == Some(CallFault::Closed));
    Ok(())
}
