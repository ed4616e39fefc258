//! What the calls of a cluster and its clients answer.
ghost use Rattle.std.specs.Prelude.{◌≡◌, ◌<◌};

use crate::holding::Holding;
use crate::running::{Running, ask, bodies_of, get_of, idle, inc_of, kept_of, setup_of, shard};
use sm_cluster::{CallFault, CallRefused, Client, Cluster, HoldFault, Open, StartFault};
use sm_control::DrainFault;
use sm_desk::{Command, CommandFault};
use sm_ownership::{AdmitFault, Change, Route, RouteFault};
use sm_place::Move;
use sm_ranges::{ServerId, Stand};
use sm_rule::AdmitRefusal;
use sm_server::{Answer, Refusal};
use sm_service::{Reply, Request};
use sm_tasks::RestartFault;
use std::alloc::Global;
use std::process::Abort;
use std::sync::Wait;
use std::test::Fail;
use std::thread::Threads;

// Why the call was refused, where its request came back.
pub(crate) fn fault_of(called: Result<Answer<Holding>, CallRefused<Request>>) -> Option<CallFault> {
    let CallRefused { fault, back } = called.err()?;
    match back {
        Some(Request::Inc(..)) => Some(fault),
        _ => None,
    }
}

// Why a call of the client is refused, where its request comes back.
fn refusal<R: Wait + Abort>(
    rt: &R,
    alloc: Global,
    client: &mut Client<Holding>,
    key: &[u8],
) -> Option<CallFault>
    ensures board { client.new.pass.board ≡ client.old.pass.board }
    ensures bounds { client.new.bounds ≡ client.old.bounds }
{
    fault_of(client.call(rt, alloc, 7, inc_of(rt, alloc, key)))
}

// Why a call of the client at this server is refused, where its request comes back.
pub(crate) fn refusal_at<R: Wait + Abort>(
    rt: &R,
    alloc: Global,
    client: &mut Client<Holding>,
    server: ServerId,
) -> Option<CallFault>
    ensures board { client.new.pass.board ≡ client.old.pass.board }
    ensures bounds { client.new.bounds ≡ client.old.bounds }
{
    fault_of(client.call_at(rt, alloc, server, 7, inc_of(rt, alloc, b"a")))
}

// Whether the server wasn't admitted, as it doesn't execute the shard.
pub(crate) fn is_not_executor(fault: Option<CallFault>) -> bool {
    match fault {
        Some(CallFault::Refused(Refusal::Admit(AdmitRefusal::Refused(fault, _)))) => fault
            == AdmitFault::NotExecutor,
        _ => false,
    }
}

pub(crate) fn start<R: Threads + Wait + Abort + Clone + Send + Drop + 'static>(
    rt: &R,
    alloc: Global,
    limit: usize,
) -> Result<Running, Fail> {
    let bodies = bodies_of(alloc, limit, None)?;
    Ok(Running::start(rt, alloc, setup_of(alloc)?, bodies, Open))
}

// Nothing is published of a shard that has no owner, and no route twice.
fn publish_both<R: Wait + Abort>(rt: &R, running: &mut Running) {
    let unknown = Err(RouteFault::UnknownShard);
    assert!(rt; running.cluster.publish(rt, shard(2)) == unknown);
    let vacant = Err(RouteFault::WrongPhase);
    assert!(rt; running.cluster.publish(rt, shard(0)) == vacant);
    running.assign_both(rt);
    let old = Err(RouteFault::OldRoute);
    assert!(rt; running.cluster.publish(rt, shard(0)) == old);
}

#[test]
fn calls_by_published_routes(rt: HostRuntime) -> Result<(), Fail> {
    let (alloc, one) = (rt.alloc(), ServerId::of(1));
    let mut running = start(&rt, alloc, 100)?;
    assert!(rt; refusal(&rt, alloc, &mut running.first, b"a") == Some(CallFault::NoRoute));
    publish_both(&rt, &mut running);
    let route = Route {
        shard: shard(0),
        server: one,
        generation: 1,
    };
    assert!(rt; running.first.route(b"a") == Some(route));
    let told = ask(&rt, alloc, &mut running.first, 7, inc_of(&rt, alloc, b"a"));
    assert!(rt; (told.number, told.server, told.place) == (7, one, 0));
    assert!(rt; matches!(told.reply, Reply::Count(1)));
    // The second client has called nothing yet, and looks at the present record.
    assert!(rt; running.second.look(shard(0)) == idle(Stand::Serving(one), 3));
    let elsewhere = refusal_at(&rt, alloc, &mut running.second, ServerId::of(2));
    assert!(rt; is_not_executor(elsewhere));
    let rows = running.stop(&rt, alloc);
    assert!(rt; rows.len() == 2 && rows[0].0 == idle(Stand::Serving(one), 3));
    assert!(rt; kept_of(&rows, shard(0)) == Some(1));
    Ok(())
}

// The servers of both shards go, one as it fails and the other for a restart.
fn shut_both<R: Wait + Abort>(rt: &R, alloc: Global, running: &mut Running) {
    let (one, two) = (ServerId::of(1), ServerId::of(2));
    running.command_all(
        rt,
        &[
            Command::Ask(two),
            Command::Approve(two),
            Command::Change(shard(1), Change::Pause),
            Command::Stopped(two),
            Command::Fail(one),
        ],
    );
    let again = Err(CommandFault::Restart(RestartFault::AlreadyFailed));
    assert!(rt; running.cluster.command(Command::Fail(one)) == again);
    let shut = Some(CallFault::Unreachable);
    assert!(rt; refusal(rt, alloc, &mut running.first, b"a") == shut);
    assert!(rt; refusal(rt, alloc, &mut running.first, b"m") == shut);
    assert!(rt; refusal_at(rt, alloc, &mut running.first, ServerId::of(4)) == shut);
}

#[test]
fn doors_shut_and_open(rt: HostRuntime) -> Result<(), Fail> {
    let (alloc, one, two) = (rt.alloc(), ServerId::of(1), ServerId::of(2));
    let mut running = start(&rt, alloc, 100)?;
    running.assign_both(&rt);
    shut_both(&rt, alloc, &mut running);
    let resumed = Command::Change(shard(1), Change::Resume);
    running.command_all(&rt, &[Command::Back(one), Command::Back(two), resumed]);
    let told = ask(&rt, alloc, &mut running.first, 8, inc_of(&rt, alloc, b"a"));
    assert!(rt; (told.server, told.place) == (one, 0));
    let told = ask(&rt, alloc, &mut running.first, 9, inc_of(&rt, alloc, b"m"));
    assert!(rt; (told.server, told.place) == (two, 0));
    let rows = running.stop(&rt, alloc);
    assert!(rt; rows.len() == 2);
    Ok(())
}

// A checkpoint is refused for a shard or a server that isn't there, and as an admission is.
fn refuse_checkpoints<R: Abort>(rt: &R, running: &mut Running) {
    let (one, two) = (ServerId::of(1), ServerId::of(2));
    let cluster = &mut running.cluster;
    let unknown = cluster.checkpoint(shard(2), one).err();
    assert!(rt; unknown == Some(HoldFault::UnknownShard));
    let unknown = cluster.checkpoint(shard(0), ServerId::of(4)).err();
    assert!(rt; unknown == Some(HoldFault::UnknownServer));
    let is_elsewhere = match cluster.checkpoint(shard(0), two).err() {
        Some(HoldFault::Admit(AdmitRefusal::Refused(fault, _))) => fault == AdmitFault::NotExecutor,
        _ => false,
    };
    assert!(rt; is_elsewhere);
}

// A shard that keeps one request at most answers again after a checkpoint, at the next place.
#[test]
fn checkpoint_makes_room(rt: HostRuntime) -> Result<(), Fail> {
    let (alloc, one) = (rt.alloc(), ServerId::of(1));
    let mut running = start(&rt, alloc, 1)?;
    running.assign_both(&rt);
    ask(&rt, alloc, &mut running.first, 1, inc_of(&rt, alloc, b"a"));
    let full = Some(CallFault::Refused(Refusal::KeptFull));
    assert!(rt; refusal(&rt, alloc, &mut running.first, b"a") == full);
    refuse_checkpoints(&rt, &mut running);
    assert!(rt; running.cluster.checkpoint(shard(0), one).is_ok());
    let told = ask(&rt, alloc, &mut running.first, 2, get_of(&rt, alloc, b"a"));
    assert!(rt; told.place == 1 && matches!(told.reply, Reply::Count(1)));
    let rows = running.stop(&rt, alloc);
    assert!(rt; kept_of(&rows, shard(0)) == Some(1));
    Ok(())
}

#[test]
fn plans_over_the_books(rt: HostRuntime) -> Result<(), Fail> {
    let (alloc, one, two) = (rt.alloc(), ServerId::of(1), ServerId::of(2));
    let mut running = start(&rt, alloc, 1)?;
    let moves = [
        Move {
            shard: shard(0),
            to: one,
        },
        Move {
            shard: shard(1),
            to: one,
        },
    ];
    let plan = running
        .cluster
        .plan_assign(alloc)
        .ok()
        .expect(&rt, "a plan");
    assert!(rt; plan.moves() == moves.as_slice());
    running.assign_both(&rt);
    let moves = [Move {
        shard: shard(1),
        to: one,
    }];
    let plan = running
        .cluster
        .plan_drain(alloc, two)
        .ok()
        .expect(&rt, "a plan");
    assert!(rt; plan.moves() == moves.as_slice());
    let unknown = running.cluster.plan_drain(alloc, ServerId::of(4)).err();
    assert!(rt; unknown == Some(DrainFault::UnknownServer));
    let rows = running.stop(&rt, alloc);
    assert!(rt; rows.len() == 2);
    Ok(())
}

// Why no cluster of so many workers for each server is started; none where one is, which is stopped again.
fn start_fault<R: Threads + Wait + Abort + Clone + Send + Drop + 'static>(
    rt: &R,
    alloc: Global,
    workers: u32,
) -> Result<Option<StartFault>, Fail>
    requires { 0 < workers }
{
    let bodies = bodies_of(alloc, 1, None)?;
    match Cluster::start(rt, alloc, setup_of(alloc)?, bodies, workers, 1, Open) {
        Ok((cluster, clients)) => {
            assert!(rt; cluster.stop(rt, clients).is_ok());
            Ok(None)
        }
        Err(fault) => Ok(Some(fault)),
    }
}

// Three servers of 21 workers each have 63 workers, and of 22 each more than 64.
#[test]
fn too_many_workers(rt: HostRuntime) -> Result<(), Fail> {
    let alloc = rt.alloc();
    assert!(rt; start_fault(&rt, alloc, 21)? == None);
    assert!(rt; start_fault(&rt, alloc, 22)? == Some(StartFault::TooManyWorkers));
    Ok(())
}
