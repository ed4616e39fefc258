//! What the calls of a control answer.
ghost use Rattle.std.specs.Prelude.{◌<◌};

use crate::common::{idle, new_running, shard};
use crate::running::{Answer, Running};
use sm_control::DrainFault;
use sm_desk::{Command, CommandFault};
use sm_ownership::change::Change;
use sm_ownership::change_fault::ChangeFault;
use sm_ownership::record::Record;
use sm_ownership::route::Route;
use sm_ownership::route_fault::RouteFault;
use sm_place::{Move, PlaceFault};
use sm_ranges::{ServerId, Stand};
use sm_service::Service;
use sm_tasks::RestartFault;
use std::alloc::Global;
use std::process::Abort;

fn refused(fault: CommandFault) -> Answer {
    Err(fault)
}

/// Gives the commands in turn, each of which has its answer.
pub(crate) fn give_all<S: Service>(
    rt: &impl Abort,
    running: &mut Running<S>,
    commands: &[(Command, Answer)],
) {
    for (command, answer) in commands {
        assert!(rt; running.command(*command) == *answer);
    }
}

/// The change of the shard with this number, which is made.
pub(crate) fn change(k: u16, change: Change) -> (Command, Answer)
    requires { k < 4096 }
{
    (Command::Change(shard(k), change), Ok(()))
}

// The two shards are assigned, and the restart of the second one's server is approved, while another isn't.
fn approve_one<S: Service>(rt: &impl Abort, running: &mut Running<S>) {
    let (one, two) = (ServerId::of(1), ServerId::of(2));
    give_all(
        rt,
        running,
        &[
            change(0, Change::Assign(one)),
            change(1, Change::Assign(two)),
            (Command::Ask(one), Ok(())),
            (Command::Ask(two), Ok(())),
            (
                Command::Approve(one),
                refused(CommandFault::Restart(RestartFault::ShardCap(shard(0)))),
            ),
            (Command::Approve(two), Ok(())),
            (
                Command::Approve(one),
                refused(CommandFault::Restart(RestartFault::GlobalCap)),
            ),
        ],
    );
}

// The server is stopped once its shard is paused, which resumes when the server is back.
fn restart_one<S: Service>(rt: &impl Abort, running: &mut Running<S>) {
    let two = ServerId::of(2);
    let serving = RestartFault::StillServing(shard(1));
    give_all(
        rt,
        running,
        &[
            (
                Command::Stopped(two),
                refused(CommandFault::Restart(serving)),
            ),
            change(1, Change::Pause),
            (Command::Stopped(two), Ok(())),
            (
                Command::Change(shard(1), Change::Resume),
                refused(CommandFault::Place(PlaceFault::Leaving)),
            ),
            (Command::Back(two), Ok(())),
            change(1, Change::Resume),
        ],
    );
}

// The first shard moves away, and its former server may restart; one that fails counts too.
fn move_and_fail<S: Service>(rt: &impl Abort, running: &mut Running<S>) {
    let (one, three) = (ServerId::of(1), ServerId::of(3));
    give_all(
        rt,
        running,
        &[
            change(0, Change::PrepareAddShard(three)),
            change(0, Change::PrepareDropShard),
            change(0, Change::AddShard),
            change(0, Change::DropShard),
            (Command::Approve(one), Ok(())),
            (Command::Fail(three), Ok(())),
            (Command::Back(one), Ok(())),
            (Command::Ask(one), Ok(())),
            (
                Command::Approve(one),
                refused(CommandFault::Restart(RestartFault::GlobalCap)),
            ),
            (
                Command::Approve(three),
                refused(CommandFault::Restart(RestartFault::NotAsked)),
            ),
        ],
    );
}

// The steps of a test are generic in the service, so that they end a board of which no more is known.
fn approve_one_by_one<S: Service>(rt: &impl Abort, mut running: Running<S>) {
    approve_one(rt, &mut running);
    restart_one(rt, &mut running);
    move_and_fail(rt, &mut running);
}

#[test]
fn approvals_one_by_one(rt: HostRuntime) {
    approve_one_by_one(&rt, new_running(&rt, rt.alloc(), 2, 1_000));
}

// Neither a shard that isn't there nor a vacant one has a route.
fn see_no_routes<S: Service>(rt: &impl Abort, running: &mut Running<S>) {
    assert!(rt; running.route(shard(1)) == Err(RouteFault::UnknownShard));
    assert!(rt; running.route(shard(0)) == Err(RouteFault::WrongPhase));
}

#[test]
fn migrates_by_name(rt: HostRuntime) {
    let mut running = new_running(&rt, rt.alloc(), 1, 1_000);
    see_no_routes(&rt, &mut running);
    let Running { board, mut control } = running;
    let (one, two, k) = (ServerId::of(1), ServerId::of(2), shard(0));
    assert!(rt; control.assign(&board, k, one).is_ok());
    assert!(rt; control.prepare_add_shard(&board, k, two).is_ok());
    assert!(rt; control.prepare_drop_shard(&board, k).is_ok());
    assert!(rt; control.add_shard(&board, k).is_ok());
    assert!(rt; control.drop_shard(&board, k).is_ok());
    let there = Route {
        shard: k,
        server: two,
        generation: 5,
    };
    assert!(rt; control.route(&board, k) == Ok(there));
}

// Server 1 owns the shard, keeps it where a migration to server 2 is cancelled, and serves it again after a pause.
fn cancel_and_resume<S: Service>(rt: &impl Abort, running: &mut Running<S>) {
    let k = shard(0);
    assert!(rt; running.assign(k, ServerId::of(1)).is_ok());
    assert!(rt; running.prepare_add_shard(k, ServerId::of(2)).is_ok());
    assert!(rt; running.cancel(k).is_ok());
    assert!(rt; running.pause(k).is_ok());
    assert!(rt; running.resume(k).is_ok());
}

fn cancel_and_pause<S: Service>(rt: &impl Abort, mut running: Running<S>) {
    let (two, k) = (ServerId::of(2), shard(0));
    cancel_and_resume(rt, &mut running);
    assert!(rt; running.pause(k).is_ok());
    assert!(rt; running.reassign(k, two).is_ok());
    assert!(rt; running.first_record() == idle(Stand::Serving(two), 7));
}

#[test]
fn cancels_and_pauses_by_name(rt: HostRuntime) {
    cancel_and_pause(&rt, new_running(&rt, rt.alloc(), 1, 1_000));
}

fn restart<S: Service>(rt: &impl Abort, mut running: Running<S>) {
    let (one, unknown) = (ServerId::of(1), ServerId::of(4));
    assert!(rt; running.ask(one).is_ok());
    assert!(rt; running.approve(one).is_ok());
    assert!(rt; running.stopped(one).is_ok());
    assert!(rt; running.back(one).is_ok());
    assert!(rt; running.fail(one).is_ok());
    assert!(rt; running.fail(unknown) == refused(CommandFault::UnknownServer));
}

#[test]
fn restarts_by_name(rt: HostRuntime) {
    restart(&rt, new_running(&rt, rt.alloc(), 1, 1_000));
}

// A plan has the vacant shard assigned to server 1, which then takes it.
fn assign_planned<S: Service>(rt: &impl Abort, alloc: Global, running: &mut Running<S>) {
    let (one, k) = (ServerId::of(1), shard(0));
    let plan = running.plan_assign(rt, alloc);
    assert!(rt; plan.moves() == [Move { shard: k, to: one }].as_slice());
    assert!(rt; running.assign(k, one).is_ok());
}

fn plan<S: Service>(rt: &impl Abort, alloc: Global, mut running: Running<S>) {
    let (one, two, k) = (ServerId::of(1), ServerId::of(2), shard(0));
    assign_planned(rt, alloc, &mut running);
    let plan = running.plan_drain(alloc, one).ok().expect(rt, "a plan");
    assert!(rt; plan.moves() == [Move { shard: k, to: two }].as_slice());
    let unknown = running.plan_drain(alloc, ServerId::of(4));
    assert!(rt; unknown.err() == Some(DrainFault::UnknownServer));
    assert!(rt; running.control.desk().knows(two));
}

#[test]
fn plans_over_the_books(rt: HostRuntime) {
    plan(&rt, rt.alloc(), new_running(&rt, rt.alloc(), 1, 1_000));
}

fn serving(admitted: bool, generation: u64) -> Record {
    Record {
        stand: Stand::Serving(ServerId::of(1)),
        admitted,
        generation,
    }
}

// While a pass is admitted no change is made, and none where the generations are spent.
fn change_busy_and_spent<S: Service>(rt: &impl Abort, mut running: Running<S>) {
    let (one, k) = (ServerId::of(1), shard(0));
    assert!(rt; running.assign(k, one).is_ok());
    let busy = refused(CommandFault::Change(ChangeFault::Busy(serving(true, 2))));
    assert!(rt; running.pause_under_a_permit(one) == Some(busy));
    let spent = ChangeFault::Spent(serving(false, 3));
    assert!(rt; running.pause(k) == refused(CommandFault::Change(spent)));
    assert!(rt; running.first_record() == serving(false, 3));
}

#[test]
fn busy_and_then_spent(rt: HostRuntime) {
    change_busy_and_spent(&rt, new_running(&rt, rt.alloc(), 1, 3));
}
