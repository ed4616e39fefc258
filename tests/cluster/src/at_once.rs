//! Two shards that execute at the same time.
ghost use Rattle.std.specs.Prelude.{◌≡◌};

use crate::holding::Holding;
use crate::latch::{Holds, Latch};
use crate::running::{Running, ask, bodies_of, inc_of, kept_of, setup_of, shard};
use sm_cluster::{Client, Open, Told};
use sm_ranges::ServerId;
use sm_service::Reply;
use std::alloc::Global;
use std::process::Abort;
use std::sync::{Arc, Wait};
use std::test::Fail;
use std::thread::{Threads, join_mut};

fn is_first(told: &Told<Reply>) -> bool {
    told.place == 0 && matches!(told.reply, Reply::Count(1))
}

// Once the first call stays at the latch, the second client's is answered, which lets the first go.
fn ask_and_release<R: Wait + Abort>(
    rt: &R,
    alloc: Global,
    client: &mut Client<Holding>,
    latch: &Latch,
) -> bool
    ensures board { client.new.pass.board ≡ client.old.pass.board }
    ensures bounds { client.new.bounds ≡ client.old.bounds }
{
    let is_reached = latch.is_reached();
    let told = ask(rt, alloc, client, 2, inc_of(rt, alloc, b"m"));
    latch.release();
    is_reached && is_first(&told)
}

// The first client's call stays at the latch until the second's was answered at the other shard. Both are the first of their shards.
fn answers_both<R: Threads + Wait + Abort + Sync>(
    rt: &R,
    alloc: Global,
    running: Running,
    latch: &Latch,
) {
    let Running {
        cluster,
        mut first,
        mut second,
    } = running;
    let (told, is_second_first) = join_mut(
        rt,
        &mut || ask(rt, alloc, &mut first, 1, inc_of(rt, alloc, b"a")),
        &mut || ask_and_release(rt, alloc, &mut second, latch),
    );
    assert!(rt; is_second_first && is_first(&told));
    assert!(rt; !latch.has_given_up());
    let running = Running {
        cluster,
        first,
        second,
    };
    let rows = running.stop(rt, alloc);
    assert!(rt; kept_of(&rows, shard(0)) == Some(1) && kept_of(&rows, shard(1)) == Some(1));
}

// A gate holds the first call before it is served. The second shard is this server's.
fn passes_a_held_call<R: Threads + Wait + Abort + Clone + Send + Sync + Drop + 'static>(
    rt: &R,
    alloc: Global,
    second: ServerId,
) -> Result<(), Fail> {
    let latch = Arc::new(alloc, Latch::new())?;
    let gate = Holds {
        number: 1,
        latch: Arc::try_clone(&latch)?,
    };
    let bodies = bodies_of(alloc, 100, None)?;
    let mut running = Running::start(rt, alloc, setup_of(alloc)?, bodies, gate);
    running.assign(rt, second);
    answers_both(rt, alloc, running, &latch);
    Ok(())
}

#[test]
fn two_shards_at_once(rt: HostRuntime) -> Result<(), Fail> {
    passes_a_held_call(&rt, rt.alloc(), ServerId::of(2))
}

// Both shards are one server's, which has two workers.
#[test]
fn two_workers_at_once(rt: HostRuntime) -> Result<(), Fail> {
    passes_a_held_call(&rt, rt.alloc(), ServerId::of(1))
}

// The first shard's body holds the first call while it is applied, under its permit.
#[test]
fn two_shards_apply_at_once(rt: HostRuntime) -> Result<(), Fail> {
    let alloc = rt.alloc();
    let latch = Arc::new(alloc, Latch::new())?;
    let bodies = bodies_of(alloc, 100, Some(Arc::try_clone(&latch)?))?;
    let mut running = Running::start(&rt, alloc, setup_of(alloc)?, bodies, Open);
    running.assign_both(&rt);
    answers_both(&rt, alloc, running, &latch);
    Ok(())
}
