//! The calls of a control at the last of all shards and the last server.
use crate::calls::{change, give_all};
use crate::common::{new_full, shard};
use crate::running::Running;
use sm_desk::Command;
use sm_ownership::change::Change;
use sm_ownership::route::Route;
use sm_place::Move;
use sm_ranges::{ServerId, ShardId};
use sm_service::Service;
use std::alloc::Global;
use std::process::Abort;

// The route of the shard to this server, at this generation.
fn route(k: ShardId, server: ServerId, generation: u64) -> Route {
    Route {
        shard: k,
        server,
        generation,
    }
}

// Moves the shard to this server.
fn migrate<S: Service>(rt: &impl Abort, running: &mut Running<S>, k: ShardId, next: ServerId) {
    assert!(rt; running.prepare_add_shard(k, next).is_ok());
    assert!(rt; running.prepare_drop_shard(k).is_ok());
    assert!(rt; running.add_shard(k).is_ok());
    assert!(rt; running.drop_shard(k).is_ok());
}

// Server 1 takes the shard from server 4,095, and gives it back.
fn move_there_and_back<S: Service>(rt: &impl Abort, mut running: Running<S>) {
    let (first, last, k) = (ServerId::of(1), ServerId::of(4_095), shard(4_095));
    assert!(rt; running.assign(k, last).is_ok());
    migrate(rt, &mut running, k, first);
    assert!(rt; running.route(k) == Ok(route(k, first, 5)));
    migrate(rt, &mut running, k, last);
    assert!(rt; running.route(k) == Ok(route(k, last, 9)));
}

#[test]
fn migrates_at_the_limits(rt: HostRuntime) {
    move_there_and_back(&rt, new_full(&rt, rt.alloc()));
}

// Server 1 keeps the shard where a migration is cancelled, and serves it again after a pause. After another one server 4,095 gets it.
fn cancel_and_pause<S: Service>(rt: &impl Abort, mut running: Running<S>) {
    let (first, last, k) = (ServerId::of(1), ServerId::of(4_095), shard(4_095));
    assert!(rt; running.assign(k, first).is_ok());
    assert!(rt; running.prepare_add_shard(k, last).is_ok());
    assert!(rt; running.cancel(k).is_ok());
    assert!(rt; running.pause(k).is_ok());
    assert!(rt; running.resume(k).is_ok());
    assert!(rt; running.pause(k).is_ok());
    assert!(rt; running.reassign(k, last).is_ok());
    assert!(rt; running.route(k) == Ok(route(k, last, 7)));
}

#[test]
fn cancels_and_pauses_at_the_limits(rt: HostRuntime) {
    cancel_and_pause(&rt, new_full(&rt, rt.alloc()));
}

// Commands restart server 4,095, while its shard is paused.
fn restart_by_commands<S: Service>(rt: &impl Abort, running: &mut Running<S>, last: ServerId) {
    give_all(
        rt,
        running,
        &[
            change(4_095, Change::Assign(last)),
            (Command::Ask(last), Ok(())),
            (Command::Approve(last), Ok(())),
            change(4_095, Change::Pause),
            (Command::Stopped(last), Ok(())),
            (Command::Back(last), Ok(())),
            change(4_095, Change::Resume),
            (Command::Fail(last), Ok(())),
            (Command::Back(last), Ok(())),
        ],
    );
}

// The same by the control's own calls.
fn restart_by_name<S: Service>(rt: &impl Abort, running: &mut Running<S>, last: ServerId) {
    assert!(rt; running.ask(last).is_ok());
    assert!(rt; running.approve(last).is_ok());
    assert!(rt; running.pause(shard(4_095)).is_ok());
    assert!(rt; running.stopped(last).is_ok());
    assert!(rt; running.back(last).is_ok());
    assert!(rt; running.resume(shard(4_095)).is_ok());
    assert!(rt; running.fail(last).is_ok());
}

fn restart<S: Service>(rt: &impl Abort, mut running: Running<S>) {
    let last = ServerId::of(4_095);
    restart_by_commands(rt, &mut running, last);
    restart_by_name(rt, &mut running, last);
}

#[test]
fn restarts_at_the_limits(rt: HostRuntime) {
    restart(&rt, new_full(&rt, rt.alloc()));
}

// All shards are planned for, the last one to server 4,095, whose only shard then goes to server 1.
fn plan<S: Service>(rt: &impl Abort, alloc: Global, mut running: Running<S>) {
    let (first, last, k) = (ServerId::of(1), ServerId::of(4_095), shard(4_095));
    let plan = running.plan_assign(rt, alloc);
    assert!(rt; plan.moves().len() == 4_096 && plan.left().is_empty());
    assert!(rt; plan.moves().last() == Some(&Move { shard: k, to: last }));
    assert!(rt; running.assign(k, last).is_ok());
    let plan = running.plan_drain(alloc, last).ok().expect(rt, "a plan");
    assert!(rt;
        plan.moves()
            == [Move {
                shard: k,
                to: first
            }]
            .as_slice()
    );
}

#[test]
fn plans_at_the_limits(rt: HostRuntime) {
    plan(&rt, rt.alloc(), new_full(&rt, rt.alloc()));
}
