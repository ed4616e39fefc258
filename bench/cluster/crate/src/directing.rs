//! What is done with a cluster while clients call.
use crate::chance::steps;
use crate::plan::Direction;
use crate::progress::Progress;
use sm_cluster::Cluster;
use sm_desk::Command;
use sm_ownership::Change;
use sm_ranges::server_id::ServerId;
use sm_ranges::shard_id::ShardId;
use sm_service::CounterText;
use std::alloc::Global;
use std::rt::Clock;
use std::sync::Wait;
use std::thread;

/// How often a change is tried whose shard is admitted for a request.
const TRIES: u32 = 10_000_000;

/// Does what the plan says, and answers the nanoseconds that each migration took, or how many steps by chance were
/// made.
pub(crate) fn direct<R: Wait + Clock>(
    rt: &R,
    alloc: Global,
    cluster: &mut Cluster<CounterText>,
    run: &Progress,
) -> Vec<u64> {
    let figures = match run.plan.direction {
        Direction::Rest | Direction::Load => Vec::new(alloc),
        Direction::Graceful(count) => migrate_all(rt, alloc, cluster, run, count, true),
        Direction::Abrupt(count) => migrate_all(rt, alloc, cluster, run, count, false),
        Direction::Chance(seed) => steps(rt, alloc, cluster, run, seed),
    };
    run.end();
    figures
}

// Moves shard 0 so many times between servers 1 and 2, each time under further calls.
fn migrate_all<R: Wait + Clock>(
    rt: &R,
    alloc: Global,
    cluster: &mut Cluster<CounterText>,
    run: &Progress,
    count: u64,
    is_graceful: bool,
) -> Vec<u64> {
    let mut times = Vec::new(alloc);
    for turn in 0..count {
        run.wait_round();
        let to = ServerId::of(if turn % 2 == 0 { 2 } else { 1 });
        let before = run.nanoseconds(rt);
        if is_graceful {
            migrate(rt, cluster, run, to);
        } else {
            reassign(rt, cluster, to);
        }
        let time = run.nanoseconds(rt).saturating_sub(before);
        let _kept = times.push(time).is_ok();
    }
    times
}

// Once the new route is published, the previous owner forwards until no call is under way that went by the old one.
fn migrate<R: Wait>(rt: &R, cluster: &mut Cluster<CounterText>, run: &Progress, to: ServerId) {
    change(cluster, Change::PrepareAddShard(to));
    change(cluster, Change::PrepareDropShard);
    change(cluster, Change::AddShard);
    publish(rt, cluster);
    run.wait_round();
    change(cluster, Change::DropShard);
}

// Calls are refused from the pause on, and those by the old route until the new one is published.
fn reassign<R: Wait>(rt: &R, cluster: &mut Cluster<CounterText>, to: ServerId) {
    change(cluster, Change::Pause);
    change(cluster, Change::Reassign(to));
    publish(rt, cluster);
}

// Makes the change of shard 0 once no server is admitted.
fn change(cluster: &mut Cluster<CounterText>, change: Change) {
    for _ in 0..TRIES {
        if is_made(cluster, &change) {
            return;
        }
        thread::yield_now();
    }
}

fn is_made(cluster: &mut Cluster<CounterText>, change: &Change) -> bool {
    match ShardId::new(0) {
        Some(k) => cluster.command(Command::Change(k, *change)).is_ok(),
        None => false,
    }
}

fn publish<R: Wait>(rt: &R, cluster: &mut Cluster<CounterText>) {
    if let Some(k) = ShardId::new(0) {
        let _published = cluster.publish(rt, k).is_ok();
    }
}
